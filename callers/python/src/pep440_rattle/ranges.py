"""Sets of versions that specifiers contain, with the names and the behaviour of `packaging.ranges`.

>>> from pep440_rattle.specifiers import SpecifierSet
>>> either = SpecifierSet(">=1.0,<2.0").to_range() | SpecifierSet("==3.*").to_range()
>>> either, "1.5" in either, "2.0" in either
(<VersionRange '[1.0, 2.0.dev0) | [3.dev0, 4.dev0)'>, True, False)
>>> str((either - SpecifierSet(">=2").to_range()).to_specifier_set())
'<2.0,>=1.0'

Which versions a set has, and what is made of two, says the proved library. Here stands the policy of pre-releases, the strings that `===` admits, and which
specifiers contain a set.
"""
from __future__ import annotations

from typing import TypeVar, Union

from ._segments import ABOVE, AFTER_LOCALS, AFTER_POSTS, BELOW, EMPTY, FULL, Parts, Point, Segments, least_above, segments_of, single
from .specifiers import InvalidSpecifier, SpecifierSet, _filter_one_by_one, _version_or_none
from .version import Version

TYPE_CHECKING = False
if TYPE_CHECKING:
    from collections.abc import Callable, Iterable, Iterator

__all__ = ["VersionRange"]

UnparsedVersion = Union[Version, str]
_Item = TypeVar("_Item")

# The most `!=` that are to name one gap.
_MAX_EXCLUSION_RUN = 128
_NONE: frozenset[str] = frozenset()


# ---- specifiers of a segment: each function returns None where there are none. Where a developmental release is kept, they ask for pre-releases.


def _texts_from(first: Parts) -> list[str] | None:
    """Specifiers that begin with the first developmental release of a version, and do not name it."""
    if first.dev != 0 or first.pre is not None or first.local is not None:
        return None
    if first.post is not None:
        return [f">{first._replace(post=first.post - 1, dev=None)}"] if first.post else None
    *common, last = first.trimmed
    if not last:
        return None
    below = Parts(first.epoch, (*common, last - 1))
    # below the first release of all nothing else lies
    return [f"!={below}.*"] if not first.epoch and not any(below.release) else [f">={below}", f"!={below}.*"]


def _run(first: Parts, count: int) -> list[str]:
    """Exclusions of the first developmental releases of a version."""
    return [f"!={first._replace(dev=dev)}" for dev in range(count)]


def _texts_behind_dev(last: Parts, dev: int) -> list[str] | None:
    """Specifiers that begin behind a developmental release, by exclusions of all up to it; empty where what they exclude has no such start."""
    first = last._replace(dev=0)
    anchor = [] if first.is_least else _texts_from(first)
    if anchor is None and first.pre is None and first.post == 0:
        base = first._replace(post=None, dev=None)
        anchor = [f">={base}", f"!={base}"]
    if anchor is None:
        return []
    return None if dev + 1 > _MAX_EXCLUSION_RUN else anchor + _run(first, dev + 1)


def _lower_texts(lower: Point | None, keeps_dev: bool) -> list[str] | None:
    if lower is None:
        return []
    parts = lower.parts
    if lower.place == ABOVE:
        return None
    if lower.place == AFTER_POSTS:
        return [f">{parts}"]
    if lower.place == BELOW:
        return (None if keeps_dev else _texts_from(parts)) or [f">={parts}"]
    if parts.is_least:
        return [f"!={parts}"]
    found: list[str] | None = []
    if not keeps_dev and parts.dev is not None:
        found = _texts_behind_dev(parts, parts.dev)
    elif not keeps_dev:
        found = _texts_from(least_above(lower) or parts) or []
    return [f">={parts}", f"!={parts}"] if found == [] else found


def _upper_texts(upper: Point | None, keeps_dev: bool) -> list[str] | None:
    if upper is None:
        return []
    parts = upper.parts
    if upper.place == ABOVE:
        return None
    if upper.place == AFTER_POSTS:
        above = least_above(upper)
        return above and [f"<{above}"]
    if upper.place == AFTER_LOCALS:
        is_post = parts.pre is None and parts.dev is None and parts.post is not None
        return [f"<{parts._replace(post=(parts.post or 0) + 1)}"] if is_post and not keeps_dev else [f"<={parts}"]
    if parts.dev == 0 and parts.pre is None and parts.local is None:
        return [f"<{parts if keeps_dev else parts._replace(dev=None)}"]
    return [f"<={parts}", f"!={parts}"]


def _equal_text(lower: Point | None, upper: Point | None) -> str | None:
    """The `==` that contains the segment alone."""
    if lower is None or upper is None or lower.place != BELOW:
        return None
    one, other = lower.parts, upper.parts
    if upper.place == ABOVE and one.local is not None and one.is_same(other):
        return f"=={one}"
    if upper.place == AFTER_LOCALS and one.is_same(other):
        return f"=={one}"
    if upper.place != BELOW or not (one.is_first_dev and other.is_first_dev) or one.epoch != other.epoch:
        return None
    length = max(len(one.trimmed), len(other.trimmed))
    first, last = (it.trimmed + (0,) * (length - len(it.trimmed)) for it in (one, other))
    return f"=={Parts(one.epoch, first)}.*" if (*first[:-1], first[-1] + 1) == last else None


def _epoch_of(lower: Point | None, upper: Point | None) -> tuple[Parts, int, bool] | None:
    """Of a segment that begins at or near the first version of an epoch, and ends below its release 1: release 0, how many developmental releases are left out
    in front, and whether it reaches to the end."""
    if lower is None or upper is None or lower.place not in (BELOW, AFTER_LOCALS):
        return None
    dev = lower.parts.dev
    if dev is None:
        return None
    parts = lower.parts._replace(dev=0)
    if (lower.place == BELOW and dev) or not parts.epoch or not parts.is_first_dev or any(parts.release):
        return None
    end = Parts(parts.epoch, (1,), dev=0).find_key() or b""
    excluded = 0 if lower.place == BELOW else dev + 1
    return None if upper.key > end else (Parts(parts.epoch, (0,)), excluded, upper.key == end)


def _segment_texts(lower: Point | None, upper: Point | None, keeps_dev: bool) -> list[str] | None:
    equal = _equal_text(lower, upper)
    if equal:
        return [equal]
    found = None if keeps_dev else _epoch_of(lower, upper)
    if found:
        first, excluded, is_whole = found
        starts = None if excluded > _MAX_EXCLUSION_RUN else [f"=={first}.*", *_run(first, excluded)]
        ends = [] if is_whole else _upper_texts(upper, keeps_dev)
    else:
        starts, ends = _lower_texts(lower, keeps_dev), _upper_texts(upper, keeps_dev)
    return None if starts is None or ends is None else starts + ends


# ---- specifiers of the gaps between segments


def _excluded_points(upper: Point, lower: Point) -> list[Parts] | None:
    """The versions that a gap consists of, each with its local versions."""
    first = upper.parts if upper.place == BELOW else None if upper.place == ABOVE else least_above(upper)
    if first is None:
        return None
    if lower.place != AFTER_LOCALS:
        is_one = upper.place == BELOW and lower.key == upper.key + b"\0"
        return [first] if is_one and first.local is not None else None
    last = lower.parts
    if first.is_same(last):
        return [first]
    # behind the first one only developmental releases of what follows it
    second = least_above(Point(first, AFTER_LOCALS))
    if not second or second.dev is None or last.dev is None or last.dev < second.dev or not last._replace(dev=second.dev).is_same(second):
        return None
    if last.dev - second.dev + 2 > _MAX_EXCLUSION_RUN:
        return None
    return [first, *(second._replace(dev=dev) for dev in range(second.dev, last.dev + 1))]


def _prefixes_between(low: tuple[int, ...], high: tuple[int, ...], epoch: int, most: int) -> list[Parts] | None:
    """The prefixes of which all versions lie between the releases: at the first number in which they differ, then at the next ones."""
    found: list[Parts] = []
    while True:
        at = next((at for at, (one, other) in enumerate(zip(low, high)) if one != other), min(len(low), len(high)))
        if len(low) > at + 1:
            return None
        start, end = low[at] if len(low) > at else 0, high[at]
        if end - start > most:
            return None
        found += [Parts(epoch, (*low[:at], number)) for number in range(start, end)]
        if len(high) == at + 1:
            return found
        most -= max(end - start, 1)
        low = (*low[:at], end)


def _gap_texts(upper: Point, lower: Point) -> list[str] | None:
    points = _excluded_points(upper, lower)
    if points is not None:
        return [f"!={it}" for it in points]
    start, end, run = upper.parts, lower.parts, 0
    if upper.place != BELOW or not start.is_first_dev:
        return None
    if lower.place == AFTER_LOCALS and end.dev is not None:
        run = end.dev + 1
        end = end._replace(dev=0)
    elif lower.place != BELOW:
        return None
    if run > _MAX_EXCLUSION_RUN or not end.is_first_dev or start.epoch != end.epoch or start.trimmed >= end.trimmed:
        return None
    prefixes = _prefixes_between(start.trimmed, end.trimmed, start.epoch, _MAX_EXCLUSION_RUN - run)
    return None if prefixes is None else [f"!={it}.*" for it in prefixes] + _run(end, run)


_Ends = list[tuple[Union[Point, None], Union[Point, None]]]


def _gaps_texts(ends: _Ends) -> list[str] | None:
    found: list[str] = []
    for (_, upper), (lower, _) in zip(ends, ends[1:]):
        texts = _gap_texts(upper, lower) if upper and lower else None
        if texts is None:
            return None
        found += texts
    return found


def _without_prereleases_at_end(ends: _Ends) -> _Ends:
    """The same releases: the last segment ends below the pre-releases of the version that it ends below."""
    lower, upper = ends[-1]
    if not upper or upper.place != BELOW or upper.parts.is_prerelease or upper.parts.local is not None:
        return ends
    parts = upper.parts._replace(dev=0)
    return [*ends[:-1], (lower, Point(parts, BELOW, parts.find_key() or upper.key))]


def _spellings(ends: _Ends, is_without_prereleases: bool) -> list[str]:
    """Lists of specifiers that may contain the segments alone."""
    found: list[str] = []
    for each in [ends, _without_prereleases_at_end(ends)] if is_without_prereleases else [ends]:
        gaps = _gaps_texts(each)
        for keeps_dev in (False, True):
            outer = None if gaps is None else _segment_texts(each[0][0], each[-1][1], keeps_dev)
            if outer is not None and gaps is not None:
                found.append(",".join(outer + gaps))
    return list(dict.fromkeys(found))


# ---- the class


class VersionRange:
    """A set of versions, with what says which of its pre-releases count, and with strings that `===` admits.

    `SpecifierSet.to_range`, `full`, `empty` and `singleton` make one; `&`, `|`, `~` and `-` make others. What was said of `prereleases` must be the same of
    both, else `ValueError` is raised. Where nothing was said, `filter` gives the pre-releases that a specifier asked for beside others. Equal ranges have the same
    versions, strings and policy.

    >>> SpecifierSet(">1.0a1").to_range() == SpecifierSet(">=1.0a2.dev0").to_range()
    True
    """

    __slots__ = ("_admit", "_admit_arbitrary", "_bounds", "_pre_region", "_prereleases_configured", "_reject")
    # The versions; and strings in lower case, admitted beside them, or rejected.
    _bounds: Segments
    _admit: frozenset[str]
    _reject: frozenset[str]
    # Whether each string is admitted where all versions are.
    _admit_arbitrary: bool
    # Where pre-releases were asked for.
    _pre_region: Segments
    _prereleases_configured: bool | None

    def __new__(cls, *args: object, **named: object) -> VersionRange:
        raise TypeError(
            "cannot create 'VersionRange' instances directly; use SpecifierSet.to_range(), VersionRange.full(), VersionRange.empty(), or "
            "VersionRange.singleton() instead"
        )

    @classmethod
    def _build(
        cls,
        bounds: Segments,
        configured: bool | None,
        region: Segments = EMPTY,
        admit: frozenset[str] = _NONE,
        reject: frozenset[str] = _NONE,
        is_arbitrary: bool = False,
    ) -> VersionRange:
        """One without the strings that say nothing beside its versions, and with the part of the region that lies in it."""
        made = object.__new__(cls)
        made._bounds = bounds.canonical()
        made._prereleases_configured = configured
        made._admit_arbitrary = is_arbitrary
        made._pre_region = region.canonical() & made._bounds if region and configured is None else EMPTY
        made._admit = made._reject = _NONE
        made._admit, made._reject = (
            frozenset(it for it in admit - reject if not made._admits(it)),
            frozenset(it for it in reject if made._admits(it)),
        )
        return made

    def _admits(self, text: str) -> bool:
        """Whether a string in lower case is admitted."""
        if text in self._reject or text in self._admit:
            return text not in self._reject
        version = _version_or_none(text)
        return self._is_arbitrary() if version is None else self._bounds.contains(version)

    def _is_arbitrary(self) -> bool:
        return self._admit_arbitrary and self._bounds == FULL

    @classmethod
    def empty(cls, *, prereleases: bool | None = None) -> VersionRange:
        """The range without versions."""
        return cls._build(EMPTY, prereleases)

    @classmethod
    def full(cls, *, admit_arbitrary: bool = True, prereleases: bool | None = None) -> VersionRange:
        """The range of all versions, and of all other strings unless `admit_arbitrary` is false.

        >>> "x" in VersionRange.full(), "x" in VersionRange.full(admit_arbitrary=False)
        (True, False)
        """
        return cls._build(FULL, prereleases, is_arbitrary=admit_arbitrary)

    @classmethod
    def singleton(cls, version: Version | str, *, prereleases: bool | None = None) -> VersionRange:
        """The range of a version alone, without its local versions. Raises `InvalidVersion` where the string is none.

        >>> "1.0+local" in VersionRange.singleton("1.0")
        False
        """
        return cls._build(single(version if isinstance(version, Version) else Version(version)), prereleases)

    @classmethod
    def _from_specifier_set(cls, several: SpecifierSet) -> VersionRange:
        made, bounds, region = cls.full(), FULL, EMPTY
        for each in several:
            if each.operator == "===":
                made &= cls._build(EMPTY, None, admit=frozenset([each.version.lower()]))
                continue
            segments = segments_of(each)
            bounds = segments if bounds is FULL else bounds & segments
            if several._has_arbitrary:
                made &= cls._build(segments, None)
            if several._prereleases is None and each.prereleases:
                region = _united(region, segments)
        if several._has_arbitrary:
            bounds = made._bounds
        return cls._build(bounds, several._prereleases, region, made._admit, made._reject, not len(several))

    # ---- sets of two

    def _check(self, other: object) -> VersionRange:
        if not isinstance(other, VersionRange):
            raise TypeError(f"expected VersionRange, got {type(other).__name__}")
        if self._prereleases_configured != other._prereleases_configured:
            both = f"{self._prereleases_configured!r} and {other._prereleases_configured!r}"
            raise ValueError(f"Cannot combine VersionRange operands with different pre-release policies: {both}")
        return other

    def _combine(
        self, other: VersionRange, bounds: Segments, region: Segments, is_arbitrary: bool, wants: Callable[[bool, bool], bool]
    ) -> VersionRange:
        """The range of these versions, and of the strings of both that are wanted: of each is known whether one and the other admits it."""
        texts = self._admit | self._reject | other._admit | other._reject
        admit = frozenset(it for it in texts if wants(self._admits(it), other._admits(it)))
        return self._build(bounds, self._prereleases_configured, region, admit, texts - admit, is_arbitrary)

    def intersection(self, other: VersionRange) -> VersionRange:
        """What is in both.

        Raises `TypeError` where the other one is no range, and `ValueError` where it has another policy; so do all calls of two.
        """
        self._check(other)
        bounds = self._bounds & other._bounds
        is_arbitrary = self._admit_arbitrary and other._admit_arbitrary and bool(bounds)
        return self._combine(other, bounds, _united(self._pre_region, other._pre_region), is_arbitrary, lambda one, two: one and two)

    def union(self, other: VersionRange) -> VersionRange:
        """What is in one of both."""
        self._check(other)
        bounds = _united(self._bounds, other._bounds)
        # one without versions admits no strings, though its complement does
        is_arbitrary = any(it._admit_arbitrary and bool(it._bounds or not bounds) for it in (self, other))
        return self._combine(other, bounds, _united(self._pre_region, other._pre_region), is_arbitrary, lambda one, two: one or two)

    def complement(self) -> VersionRange:
        """All versions that are not in it, and of the strings that `===` names those that it rejects; it asks for no pre-releases.

        >>> ~SpecifierSet("==1.*").to_range()
        <VersionRange '(-inf, 1.dev0) | [2.dev0, +inf)'>
        """
        return self._build(~self._bounds, self._prereleases_configured, EMPTY, self._reject, self._admit, self._admit_arbitrary)

    def difference(self, other: VersionRange) -> VersionRange:
        """What is in it and not in the other one."""
        self._check(other)
        if not other._bounds and not other._admit:
            return self
        bounds = self._bounds & ~other._bounds
        is_arbitrary = self._admit_arbitrary and bounds == self._bounds
        return self._combine(other, bounds, self._pre_region, is_arbitrary, lambda one, two: one and not two)

    def __and__(self, other: object) -> VersionRange:
        return self.intersection(other) if isinstance(other, VersionRange) else NotImplemented

    def __or__(self, other: object) -> VersionRange:
        return self.union(other) if isinstance(other, VersionRange) else NotImplemented

    def __invert__(self) -> VersionRange:
        return self.complement()

    def __sub__(self, other: object) -> VersionRange:
        return self.difference(other) if isinstance(other, VersionRange) else NotImplemented

    def is_subset(self, other: VersionRange) -> bool:
        """Whether all that is in it is in the other one.

        >>> SpecifierSet(">=1.5,<1.8").to_range().is_subset(SpecifierSet(">=1.0").to_range())
        True
        """
        self._check(other)
        if self._is_arbitrary() and not other._is_arbitrary():
            return False
        return self.difference(other).is_empty

    def is_superset(self, other: VersionRange) -> bool:
        """Whether all that is in the other one is in it."""
        return self._check(other).is_subset(self)

    def is_disjoint(self, other: VersionRange) -> bool:
        """Whether nothing is in both."""
        return self.intersection(other).is_empty

    @property
    def is_empty(self) -> bool:
        """Whether nothing is in it; where pre-releases are forbidden, whether none but these is.

        >>> SpecifierSet("==1.0a1", prereleases=False).to_range().is_empty
        True
        """
        is_forbidden = self._prereleases_configured is False
        if self._is_arbitrary() or not all(is_forbidden and _is_prerelease(it) for it in self._admit):
            return False
        return not self._bounds or (is_forbidden and not self._bounds.has_release())

    # ---- what is in it

    def contains(self, item: Version | str, prereleases: bool | None = None, installed: bool | None = None) -> bool:
        """Whether the version is in it, or the string; a pre-release unless `prereleases`, or else what was said of the range, is false, or it is installed.

        Raises `TypeError` where it is neither a version nor a string.
        """
        if not isinstance(item, (str, Version)):
            raise TypeError(f"VersionRange.contains() expected str or Version, got {type(item).__name__}")
        version = _version_or_none(item)
        is_prerelease = version is not None and version.is_prerelease
        if installed and is_prerelease:
            prereleases = True
        if is_prerelease and (self._prereleases_configured if prereleases is None else prereleases) is False:
            return False
        return self._has(item, version)

    def _has(self, item: object, version: Version | None) -> bool:
        """Whether it has what was given, with pre-releases."""
        if self._admit or self._reject:
            text = str(item).lower()
            if text in self._reject or text in self._admit:
                return text not in self._reject
        return self._is_arbitrary() if version is None else self._bounds.contains(version)

    def __contains__(self, item: Version | str) -> bool:
        return self.contains(item)

    def filter(
        self, iterable: Iterable[_Item], prereleases: bool | None = None, key: Callable[[_Item], UnparsedVersion] | None = None
    ) -> Iterator[_Item]:
        """The items that are in it, in their order; with `key`, those of which it returns a version that is. With no word on pre-releases these are given
        where a specifier asked for them, and else at the end if nothing else is in it.

        >>> list(SpecifierSet(">=1.0,<2.0").to_range().filter(["0.9", "1.5", "1.6a1"]))
        ['1.5']
        """
        allowed = self._prereleases_configured if prereleases is None else prereleases
        return _filter_one_by_one(iterable, None if allowed is None else allowed is not False, key, self._has, self._asks_for)

    def _asks_for(self, given: object, version: Version) -> bool:
        """Whether a specifier asked for the pre-release, or a string that `===` names is it."""
        return self._pre_region.contains(version) or str(given).lower() in self._admit

    # ---- as specifiers, and as text

    def _bases(self) -> list[str]:
        """Lists of specifiers that may contain it alone."""
        if self._bounds == FULL and not self._admit:
            return ["" if self._admit_arbitrary else ">=0.dev0"]
        if self._admit:
            return [f"==={it}" for it in self._admit] if len(self._admit) == 1 and not self._bounds else []
        return _spellings(self._bounds.ends(), self._prereleases_configured is False)

    def to_specifier_set(self) -> SpecifierSet | None:
        """The shortest set of specifiers that contains the same, or None where there is none, or one only with more than 128 exclusions for a gap.

        >>> str(SpecifierSet("==1.0").to_range().to_specifier_set()), VersionRange.singleton("1.5").to_specifier_set()
        ('==1.0', None)
        """
        said = self._prereleases_configured
        if self._reject or (self._admit_arbitrary and self._bounds != FULL):
            return None
        if self.is_empty:
            return SpecifierSet("<0", prereleases=said)
        texts = []
        for base in self._bases():
            texts.append(base)
            # it asks for all pre-releases
            if said is None and self._pre_region == self._bounds:
                texts.append(f"{base},>=0.dev0" if base else ">=0.dev0")
        best: SpecifierSet | None = None
        for text in texts:
            try:
                found = SpecifierSet(text, prereleases=said)
            except InvalidSpecifier:  # a string behind `===` may have a comma
                continue
            if (best is None or (len(found), len(str(found))) < (len(best), len(str(best)))) and self._is_range_of(found):
                best = found
        return best

    def _is_range_of(self, several: SpecifierSet) -> bool:
        other = several.to_range()
        if other == self or self._prereleases_configured is not False:
            return other == self
        return self.difference(other).is_empty and other.difference(self).is_empty

    def _compared(self) -> tuple[object, ...]:
        return self._bounds, self._admit, self._reject, self._admit_arbitrary, self._prereleases_configured, self._pre_region

    def __eq__(self, other: object) -> bool:
        return self._compared() == other._compared() if isinstance(other, VersionRange) else NotImplemented

    def __hash__(self) -> int:
        return hash(self._compared())

    def __repr__(self) -> str:
        parts = [str(self._bounds)] if self._bounds else []
        parts += [f"{{{', '.join(sorted(self._admit))}}}"] if self._admit else []
        body = " | ".join(parts) or "(empty)"
        if self._reject:
            body += f" \\ {{{', '.join(sorted(self._reject))}}}"
        tail = " arbitrary" if self._admit_arbitrary else ""
        if self._prereleases_configured is not None:
            tail += f" pre={self._prereleases_configured}"
        if self._pre_region:
            tail += f" pre-region={str(self._pre_region)!r}"
        return f"<{self.__class__.__name__} {body!r}{tail}>"


def _united(one: Segments, other: Segments) -> Segments:
    return one | other if one and other else one or other


def _is_prerelease(text: str) -> bool:
    version = _version_or_none(text)
    return version is not None and version.is_prerelease
