"""Sets of versions as segments of the line of all versions: the library makes them, here stands how their ends print.

An end lies below a version, just above it, above its local versions, or above its post-releases, too. The library has one key for each place, so that two
sets are the same exactly if their bytes are.
"""
from __future__ import annotations

from bisect import bisect_right
from collections.abc import Iterator, Mapping
from typing import NamedTuple

from . import _core
from .specifiers import Specifier
from .version import InvalidVersion, Version

BELOW, ABOVE, AFTER_LOCALS, AFTER_POSTS = "", "ABOVE", "AFTER_LOCALS", "AFTER_POSTS"
# The compiled list that has no specifier.
_NO_LIST = b"\x05"
_SET = b"\x07"


class Parts(NamedTuple):
    """The parts of a version, with numbers of any size: some bounds have greater ones than any version here."""

    epoch: int
    release: tuple[int, ...]
    pre: tuple[str, int] | None = None
    post: int | None = None
    dev: int | None = None
    local: str | None = None

    def __str__(self) -> str:
        texts = [f"{self.epoch}!" if self.epoch else "", ".".join(map(str, self.release))]
        texts += ["" if self.pre is None else f"{self.pre[0]}{self.pre[1]}", "" if self.post is None else f".post{self.post}"]
        texts += ["" if self.dev is None else f".dev{self.dev}", "" if self.local is None else f"+{self.local}"]
        return "".join(texts)

    @property
    def trimmed(self) -> tuple[int, ...]:
        """The release without the zeros at its end, but for the first number."""
        end = len(self.release)
        while end > 1 and not self.release[end - 1]:
            end -= 1
        return self.release[:end]

    def is_same(self, other: Parts) -> bool:
        """Whether both are of equal versions."""
        return self._replace(release=self.trimmed) == other._replace(release=other.trimmed)

    @property
    def is_prerelease(self) -> bool:
        return self.pre is not None or self.dev is not None

    @property
    def is_first_dev(self) -> bool:
        """Whether it is the first developmental release of a release."""
        return self.dev == 0 and self.pre is None and self.post is None and self.local is None

    @property
    def is_least(self) -> bool:
        """Whether it is `0.dev0`, below which nothing lies."""
        return self.is_first_dev and not self.epoch and not any(self.release)

    def find_key(self) -> bytes | None:
        """Its sort key; None where a number is too big."""
        try:
            return Version(str(self)).sort_key
        except InvalidVersion:
            return None


def parts_of(version: Version) -> Parts:
    return Parts(version.epoch, version.release, version.pre, version.post, version.dev, version.local)


class Point(NamedTuple):
    """A place on the line of versions: below a version, or above it and some others."""

    parts: Parts
    place: str
    key: bytes = b""

    def __str__(self) -> str:
        return f"{self.parts}[{self.place}]" if self.place in (AFTER_LOCALS, AFTER_POSTS) else str(self.parts)


def least_above(point: Point) -> Parts | None:
    """The least version above the local versions or the post-releases of one; None where there is none."""
    parts = point.parts
    if point.place == AFTER_POSTS:
        return None if parts.pre is None else parts._replace(pre=(parts.pre[0], parts.pre[1] + 1), post=None, dev=0, local=None)
    if parts.dev is not None:
        return parts._replace(dev=parts.dev + 1, local=None)
    return parts._replace(post=0 if parts.post is None else parts.post + 1, dev=0, local=None)


def _canonical(point: Point) -> Point:
    """The point by the name that all at its place share: above others, where it is below the least version above these."""
    parts = point.parts
    if point.place != BELOW or parts.dev is None or parts.local is not None:
        return point
    if parts.dev:
        return point._replace(parts=parts._replace(dev=parts.dev - 1), place=AFTER_LOCALS)
    if parts.post is not None:
        return point._replace(parts=parts._replace(post=parts.post - 1 if parts.post else None, dev=None), place=AFTER_LOCALS)
    if parts.pre is not None and parts.pre[1]:
        return point._replace(parts=parts._replace(pre=(parts.pre[0], parts.pre[1] - 1), dev=None), place=AFTER_POSTS)
    return point


# ---- sets as bytes: a byte, and of each segment two keys, each behind how many bytes it takes


def _keys_in(set_: bytes) -> Iterator[bytes]:
    at = 1
    while at < len(set_):
        start = at + 1 + set_[at]
        at = start + int.from_bytes(set_[at + 1 : start], "big")
        yield set_[start:at]


def _sized(key: bytes) -> bytes:
    length = len(key).to_bytes((len(key).bit_length() + 7) // 8, "big")
    return bytes([len(length)]) + length + key


class Segments:
    """A set of versions, with the points at its ends by their keys."""

    __slots__ = ("_is_open", "_known", "keys", "points", "set")

    def __init__(self, set_: bytes, points: Mapping[bytes, Point]) -> None:
        self.set = set_
        # two of each segment, without bytes where it has no end
        self.keys = tuple(_keys_in(set_))
        self._known = [it for it in self.keys if it]
        self._is_open = bool(self.keys) and not self.keys[0]
        self.points = {it: points[it] for it in self._known}

    def __eq__(self, other: object) -> bool:
        return isinstance(other, Segments) and self.set == other.set

    def __hash__(self) -> int:
        return hash(self.set)

    def __bool__(self) -> bool:
        return bool(self.keys)

    def __str__(self) -> str:
        return " | ".join(f"{_lower_text(lower)}, {_upper_text(upper)}" for lower, upper in self.ends())

    def ends(self) -> list[tuple[Point | None, Point | None]]:
        """The points of each segment; None where it has no end."""
        points = [self.points.get(it) for it in self.keys]
        return list(zip(points[::2], points[1::2]))

    def contains(self, version: Version) -> bool:
        return (bisect_right(self._known, version.sort_key) + self._is_open) % 2 == 1

    def canonical(self) -> Segments:
        return Segments(self.set, {key: _canonical(point) for key, point in self.points.items()})

    def __and__(self, other: Segments) -> Segments:
        return Segments(_core.intersection(self.set, other.set), _merged(self, other, False))

    def __or__(self, other: Segments) -> Segments:
        return Segments(_core.union(self.set, other.set), _merged(self, other, True))

    def __invert__(self) -> Segments:
        return Segments(_core.complement(self.set), self.points)

    def has_release(self) -> bool:
        """Whether some version is no pre-release."""
        return any(_has_release(lower, upper) for lower, upper in self.ends())


EMPTY, FULL = Segments(_SET, {}), Segments(_SET + 2 * _sized(b""), {})


def _lower_text(lower: Point | None) -> str:
    return "(-inf" if lower is None else f"{'[' if lower.place == BELOW else '('}{lower}"


def _upper_text(upper: Point | None) -> str:
    return "+inf)" if upper is None else f"{upper}{')' if upper.place == BELOW else ']'}"


def _merged(left: Segments, right: Segments, is_union: bool) -> dict[bytes, Point]:
    """The points of both. Of two at one place `packaging` takes that of the segment that it reads first, where both lie below a version or none does; else in
    an intersection the one that leaves fewer versions in its eyes, and in a union the one that leaves more."""
    points = {**right.points, **left.points}
    starts, others = ({high: low for low, high in zip(it.keys[::2], it.keys[1::2])} for it in (left, right))
    for key in left.points.keys() & right.points.keys():
        one, other = left.points[key], right.points[key]
        is_upper = key in starts
        if (one.place == BELOW) != (other.place == BELOW):
            points[key] = one if (one.place == BELOW) == (is_upper == is_union) else other
        elif is_union and is_upper and others.get(key, starts[key]) < starts[key]:
            points[key] = other
    return points


def _has_release(lower: Point | None, upper: Point | None) -> bool:
    if upper is None:
        return True
    parts = Parts(0, (0,), dev=0) if lower is None else lower.parts
    if parts.pre is not None:
        least = parts._replace(pre=None, post=None, dev=None, local=None)
    elif parts.dev is not None:
        least = parts._replace(dev=None, local=None)
    elif lower is None or lower.place != AFTER_LOCALS:
        return True
    else:
        least = parts._replace(post=0 if parts.post is None else parts.post + 1, local=None)
    key = least.find_key()
    # a greater number than any here: what lies above is behind all post-releases
    return key is None or key < upper.key


# ---- segments of specifiers and of versions


def single(version: Version) -> Segments:
    """The version alone, without its local versions."""
    key = version.sort_key
    parts = parts_of(version)
    points = {key: Point(parts, BELOW, key), key + b"\0": Point(parts, ABOVE, key + b"\0")}
    return Segments(_SET + _sized(b"" if parts.is_least else key) + _sized(key + b"\0"), points)


def segments_of(specifier: Specifier) -> Segments:
    """What a specifier contains, but of one with `===`."""
    set_ = _core.intersection(specifier._compiled, _NO_LIST)
    points = _points_of(specifier.operator, specifier.version)
    if points[0].place == BELOW and points[0].parts.is_least:
        del points[0]
    keys = [it for it in _keys_in(set_) if it]
    return Segments(set_, {key: point._replace(key=key) for key, point in zip(keys, points)})


def _points_of(operator: str, text: str) -> list[Point]:
    """The ends of what the operator and version contain, or do not."""
    parts = parts_of(Version(text.removesuffix(".*")))
    first = Parts(parts.epoch, parts.release, dev=0)
    if text.endswith(".*"):
        return [Point(first, BELOW), Point(_next_prefix(first), BELOW)]
    if operator == "~=":
        return [Point(parts, BELOW), Point(_next_prefix(first._replace(release=parts.release[:-1])), BELOW)]
    if operator == ">=":
        return [Point(parts, BELOW)]
    if operator == "<=":
        return [Point(parts, AFTER_LOCALS)]
    if operator == "<":
        return [Point(parts if parts.is_prerelease else parts._replace(dev=0), BELOW)]
    if operator != ">":
        return [Point(parts, BELOW), Point(parts, AFTER_LOCALS if parts.local is None else ABOVE)]
    above = Point(parts, AFTER_POSTS if parts.dev is None and parts.post is None else AFTER_LOCALS)
    if above.place == AFTER_POSTS:
        return [above]
    return [Point(least_above(above) or parts, BELOW)]


def _next_prefix(first: Parts) -> Parts:
    return first._replace(release=(*first.release[:-1], first.release[-1] + 1))
