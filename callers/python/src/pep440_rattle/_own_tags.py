"""Tags of wheels where there is no `packaging`: the class of its module `tags` and how a string is read, without the tags of a machine."""
from __future__ import annotations

import itertools
import math
from typing import NamedTuple

from ._core import follows_26_3

__all__ = ["InvalidTag", "Tag", "TooManyTagsError", "UnsortedTagsError", "parse_tag"]


class InvalidTag(ValueError):
    """A string is no tag."""


class UnsortedTagsError(ValueError):
    """Parts of a tag are not sorted, as PEP 425 has them."""


class TooManyTagsError(ValueError):
    """A string stands for more tags than are wanted."""


class _Parts(NamedTuple):
    interpreter: str
    abi: str
    platform: str


class Tag(_Parts):
    """An interpreter, an interface of it, and a platform, in lower case. Its pickle is read as the class that a process has."""

    __slots__ = ()
    __module__ = "pep440_rattle.tags"

    def __new__(cls, interpreter: str, abi: str, platform: str) -> Tag:
        return super().__new__(cls, interpreter.lower(), abi.lower(), platform.lower())

    def __str__(self) -> str:
        return "-".join(self)

    def __reduce__(self) -> tuple[type[Tag], tuple[str, str, str]]:
        return Tag, (self.interpreter, self.abi, self.platform)


def _check(tag: str, parts: list[list[str]], validate_order: bool, limit: int | None) -> None:
    """As `packaging` 26.3 does; releases before check no more than the order."""
    is_strict = follows_26_3()
    for part in parts:
        if is_strict and "" in part:
            raise InvalidTag(f"Tag {tag!r} has an empty component: {'.'.join(part)!r}")
        if validate_order and part != sorted(part):
            raise UnsortedTagsError(f"Tag component {'.'.join(part)!r} is not in sorted order per PEP 425")
    count = math.prod(map(len, parts))
    if limit is not None and count > limit:
        raise TooManyTagsError(f"Compressed tag set would generate {count} tags, exceeding limit {limit}")
    if is_strict and len(parts) != 3:
        raise InvalidTag(f"Tag {tag!r} must have exactly three components")
    for interpreter in parts[0] if is_strict else []:
        if not interpreter.isidentifier():
            raise InvalidTag(f"Tag {tag!r} has an invalid interpreter: {interpreter!r}")


def split_tag(tag: str, validate_order: bool = False, limit: int | None = None) -> tuple[list[str], list[str], list[str]]:
    """The interpreters, interfaces and platforms of a string, or an error as of `parse_tag`."""
    parts = [part.split(".") for part in tag.split("-")]
    _check(tag, parts, validate_order, limit)
    interpreters, abis, platforms = parts
    return interpreters, abis, platforms


def parse_tag(tag: str, *, validate_order: bool = False, limit: int | None = None) -> frozenset[Tag]:
    """The tags that a string with points in it stands for.

    >>> sorted(map(str, parse_tag("py2.py3-none-any")))
    ['py2-none-any', 'py3-none-any']

    Raises `InvalidTag` where the string is none, with `validate_order` `UnsortedTagsError` where a part is not sorted, `TooManyTagsError` where they are more
    than the limit, and `ValueError` where this is negative.
    """
    if limit is not None and limit < 0:
        raise ValueError("limit must be non-negative")
    return frozenset(itertools.starmap(Tag, itertools.product(*split_tag(tag, validate_order, limit))))
