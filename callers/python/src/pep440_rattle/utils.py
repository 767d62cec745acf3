"""Names of projects and of their files, with the names and the behaviour of `packaging.utils`."""
from __future__ import annotations

import functools
import itertools
import re
import sys
from typing import TYPE_CHECKING, Any, NewType, Union, cast

from pep440_rattle._core import follows_26, follows_26_3, is_normal_name, make_name_call, normal_name, split_wheel

from . import tags as _tags
from .version import InvalidVersion, Version

__all__ = [
    "BuildTag",
    "InvalidName",
    "InvalidSdistFilename",
    "InvalidWheelFilename",
    "NormalizedName",
    "canonicalize_name",
    "canonicalize_version",
    "is_normalized_name",
    "parse_sdist_filename",
    "parse_wheel_filename",
]

BuildTag = Union[tuple[()], tuple[int, str]]
NormalizedName = NewType("NormalizedName", str)


class InvalidName(ValueError):
    """A string is no name of a project."""


class InvalidWheelFilename(ValueError):
    """A string is no name of a wheel."""


class InvalidSdistFilename(ValueError):
    """A string is no name of a source archive."""


# By 26, and by releases before, which take a newline at the end, or other scripts.
_VALID_NAME = re.compile(r"([A-Z0-9]|[A-Z0-9][A-Z0-9._-]*[A-Z0-9])\Z", re.IGNORECASE | re.ASCII)
_VALID_NAME_BY_25 = re.compile(r"([A-Z0-9]|[A-Z0-9][A-Z0-9._-]*[A-Z0-9])$", re.IGNORECASE)
_NORMALIZED_NAME = re.compile(r"[a-z0-9]+(-[a-z0-9]+)*\Z")
_NORMALIZED_NAME_BY_25 = re.compile(r"([a-z0-9]|[a-z0-9]([a-z0-9-](?!--))*[a-z0-9])$")
_NORMALIZED_NAME_BY_26_2 = re.compile(r"([a-z0-9]|[a-z0-9]([a-z0-9-](?!--))*[a-z0-9])\Z")
_NAME_IN_WHEEL, _NAME_IN_WHEEL_BY_26_2 = re.compile(r"[\w._]+\Z"), re.compile(r"[\w._]*$")
_BUILD_TAG, _BUILD_TAG_BY_25 = re.compile(r"(\d+)(.*)", re.ASCII), re.compile(r"(\d+)(.*)")
_ZEROS_AT_END = re.compile(r"(\.0)+$")


def canonicalize_name(name: str, *, validate: bool = False) -> NormalizedName:
    """The normalized name of a project (PEP 503). With `validate`, raises `InvalidName` where it is none.

    >>> canonicalize_name("Some.-_Name")
    'some-name'
    """
    if validate and not (_VALID_NAME if follows_26() else _VALID_NAME_BY_25).match(name):
        raise InvalidName(f"name is invalid: {name!r}")
    normal = normal_name(name)
    return _normalize_name(name) if normal is None else normal  # type: ignore[return-value]


def _normalize_name(name: str) -> NormalizedName:
    """Its normal form, of any string."""
    name = name.lower().replace("_", "-").replace(".", "-")
    while "--" in name:
        name = name.replace("--", "-")
    return cast(NormalizedName, name)


_canonicalize_by_python = canonicalize_name
if not TYPE_CHECKING:
    canonicalize_name = make_name_call(sys.modules[__name__])


def is_normalized_name(name: str) -> bool:
    """Whether it is a normalized name."""
    if follows_26_3():
        is_normal = is_normal_name(name)
        return _NORMALIZED_NAME.match(name) is not None if is_normal is None else is_normal
    return (_NORMALIZED_NAME_BY_26_2 if follows_26() else _NORMALIZED_NAME_BY_25).match(name) is not None


def canonicalize_version(version: Version | str, *, strip_trailing_zero: bool = True) -> str:
    """The normal form of a version, without the zeros at the end of its release; of a string that is no version, the string.

    >>> canonicalize_version("1.0.0-RC1"), canonicalize_version("1.0.0", strip_trailing_zero=False), canonicalize_version("x")
    ('1rc1', '1.0.0', 'x')
    """
    if isinstance(version, str):
        text = version
        try:
            version = Version(text)
        except InvalidVersion:
            return text
    elif follows_26() and not isinstance(version, Version):
        version = Version(version)
    if not strip_trailing_zero:
        return str(version)
    it = Version(str(version))
    return _ZEROS_AT_END.sub("", it.base_version) + str(it)[len(it.base_version) :]


def _parse_version(text: str, error: type[ValueError], kind: str, filename: str) -> Version:
    try:
        return Version(text)
    except InvalidVersion as reason:
        raise error(f"Invalid {kind} filename (invalid version): {filename!r}") from reason


@functools.lru_cache(256)
def _read_tags(text: str, validate_order: bool, by_26_3: bool) -> frozenset[_tags.Tag]:
    """The tags of a string: most wheels have one of a few. A copy of `packaging` whose module this is reads them by its own rules."""
    if __package__ != "pep440_rattle":
        return _tags.parse_tag(text, **{"validate_order": True} if validate_order else {})
    from pep440_rattle._own_tags import split_tag

    return frozenset(itertools.starmap(_tags.Tag, itertools.product(*split_tag(text, validate_order))))


# Why a name of a wheel is none, by the names of errors: 24 and 25 have no such classes.
_REASONS = {"UnsortedTagsError": "compressed tag set components must be in sorted order per PEP 425", "InvalidTag": "invalid tag component"}


def _parse_tags(text: str, validate_order: bool, filename: str) -> frozenset[_tags.Tag]:
    try:
        return _read_tags(text, validate_order, follows_26_3())
    except ValueError as error:
        reason = _REASONS.get(type(error).__name__)
        if not reason:
            raise
    raise InvalidWheelFilename(f"Invalid wheel filename ({reason}): {filename!r}")


def __getattr__(name: str) -> Any:
    if name in ("Tag", "parse_tag"):
        return getattr(_tags, name)
    raise AttributeError(f"module {__name__!r} has no attribute {name!r}")


def parse_wheel_filename(filename: str, *, validate_order: bool = False) -> tuple[NormalizedName, Version, BuildTag, frozenset[_tags.Tag]]:
    """The name, version, build number and tags of a wheel (PEP 427).

    Raises `InvalidWheelFilename` where the string is no name of one, or with `validate_order` has tags that are not sorted.
    """
    name, text, build, tags = split_wheel(filename) or _split_wheel(filename)
    stem = filename[: -len(".whl")]
    version = _parse_version(text, InvalidWheelFilename, "wheel", stem)
    number: BuildTag = () if build is None else _parse_build(build, stem)
    return cast(NormalizedName, name), version, number, _parse_tags(tags, validate_order, stem)


def _split_wheel(filename: str) -> tuple[str, str, str | None, str]:
    """The normalized name, version, build and tags, of any string."""
    if not filename.endswith(".whl"):
        raise InvalidWheelFilename(f"Invalid wheel filename (extension must be '.whl'): {filename!r}")
    stem = filename[: -len(".whl")]
    dashes = stem.count("-")
    if dashes not in (4, 5):
        raise InvalidWheelFilename(f"Invalid wheel filename (wrong number of parts): {stem!r}")
    name, version, *more = stem.split("-", dashes - 2)
    if "__" in name or not (_NAME_IN_WHEEL if follows_26_3() else _NAME_IN_WHEEL_BY_26_2).match(name):
        raise InvalidWheelFilename(f"Invalid project name: {stem!r}")
    return canonicalize_name(name), version, more[0] if dashes == 5 else None, more[-1]


def _parse_build(text: str, filename: str) -> tuple[int, str]:
    found = (_BUILD_TAG if follows_26() else _BUILD_TAG_BY_25).match(text)
    if not found:
        raise InvalidWheelFilename(f"Invalid build number: {text} in {filename!r}")
    return int(found[1]), found[2]


def parse_sdist_filename(filename: str) -> tuple[NormalizedName, Version]:
    """The name and version of a source archive.

    Raises `InvalidSdistFilename` where the string is no name of one.
    """
    if filename.endswith(".tar.gz"):
        stem = filename[: -len(".tar.gz")]
    elif filename.endswith(".zip"):
        stem = filename[: -len(".zip")]
    else:
        raise InvalidSdistFilename(f"Invalid sdist filename (extension must be '.tar.gz' or '.zip'): {filename!r}")
    # no version has a dash in a name of a file
    name, dash, version = stem.rpartition("-")
    if not dash:
        raise InvalidSdistFilename(f"Invalid sdist filename: {filename!r}")
    if follows_26_3() and not name:
        raise InvalidSdistFilename(f"Invalid sdist filename (empty project name): {filename!r}")
    return canonicalize_name(name), _parse_version(version, InvalidSdistFilename, "sdist", filename)
