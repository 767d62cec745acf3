"""Specifiers and sets of them, with the names and the behaviour of `packaging.specifiers`.

What a specifier is and which versions it contains says the proved library, but for `===`, which compares strings. Here stands what is Python's:
that, how a set is cut at its commas and compared, and when pre-releases are allowed.

>>> from pep440_rattle.specifiers import SpecifierSet
>>> "1.19" in SpecifierSet(">=1.16, <2.0")
True
>>> list(SpecifierSet(">2.1").filter(["2.0", "2.2", "3.0rc1"]))
['2.2']
"""
from __future__ import annotations

import abc
from collections import namedtuple

from . import _core
from ._core import InvalidSpecifier
from .version import InvalidVersion, Version, _remove_held_slots, _set_attributes, _split_state, _copy_by_state, _state_by_26, _state_of, _text_of_other, _twin_of

__all__ = ["BaseSpecifier", "Bound", "InvalidSpecifier", "Specifier", "SpecifierSet"]

UnparsedVersion = Version | str

TYPE_CHECKING = False
if TYPE_CHECKING:
    import re
    from collections.abc import Callable, Iterable, Iterator
    from typing import Any, TypeVar

    from .ranges import VersionRange

    UnparsedVersionVar = TypeVar("UnparsedVersionVar", bound=UnparsedVersion)
    _Item = TypeVar("_Item")
else:

    def __getattr__(name):
        if name != "UnparsedVersionVar":
            raise AttributeError(f"module {__name__!r} has no attribute {name!r}")
        from typing import TypeVar

        return globals().setdefault(name, TypeVar(name, bound=UnparsedVersion))


def _get_state(it: object, **own: Any) -> Any:
    """What a pickle has, as the release whose behaviour this is."""
    return _state_by_26(it, own, {}) if _core.follows_26() else _state_of(it, {f"_{name}": value for name, value in own.items()})


class Bound(namedtuple("Bound", "version included sentinel")):
    """An end of a segment of versions."""

    __slots__ = ()
    version: Version
    included: bool
    sentinel: str
    """`minN` or `maxN` if the bound lies below or above all that begins with the version, as in `2.0~min0`, else empty."""

    def __str__(self) -> str:
        return f"{self.version}~{self.sentinel}" if self.sentinel else str(self.version)


# What stands behind an operator, by PEP 440, Appendix B: behind `==` and `!=` a version or a release with a star; behind `~=` two numbers or more; a
# local part behind no other one; behind `===` anything without white space, `;` and `)`. Letters of a version are ASCII, and no number before its local
# part is too big.
_MOST = str(2**64 - 1)
_TOO_BIG = "|".join(["[1-9][0-9]{20}", *(f"{_MOST[:at]}[{int(it) + 1}-9][0-9]{{{19 - at}}}" for at, it in enumerate(_MOST) if it != "9")])
_BLANKS = r"(?u: \s* )"
_START = rf"{_BLANKS} v? (?: [0-9]+ ! )? [0-9]+"
_SUFFIXES = r"""
    (?: [-_.]? (?: alpha | a | beta | b | preview | pre | c | rc ) [-_.]? [0-9]* )?
    (?: - [0-9]+ | [-_.]? (?: post | rev | r ) [-_.]? [0-9]* )?
    (?: [-_.]? dev [-_.]? [0-9]* )?
"""
_LOCAL = r"(?: \+ [a-z0-9]+ (?: [-_.] [a-z0-9]+ )* )?"
_VERSION_OF_OPERATOR = rf"""
    (?P<version> (?<= === ) \s* [^\s;)]* | (?<! === ) (?a:
        (?! {_BLANKS} [a-z0-9.!_-]*? (?<! [0-9] ) 0* (?: {_TOO_BIG} ) )
        (?:
            (?<= == | != ) {_START} (?: \. [0-9]+ )* (?: \. \* | {_SUFFIXES} {_LOCAL} )
            |
            (?<= ~= ) {_START} (?: \. [0-9]+ )+ {_SUFFIXES}
            |
            (?<! == | != | ~= ) {_START} (?: \. [0-9]+ )* {_SUFFIXES}
        )
    ) )
"""


class _WholeSpecifier:
    """A regular expression that is compiled when it is first read, since that takes longer than all else here."""

    def __get__(self, _: object, kind: type[Specifier]) -> re.Pattern[str]:
        import re

        return re.compile(rf"^\s*{kind._operator_regex_str}{kind._version_regex_str}\s*\Z", re.VERBOSE | re.IGNORECASE)


# The set without versions, as `_core` has it.
_EMPTY_SET = b"\x07"


def _version_of(item: UnparsedVersion) -> Version:
    return item if isinstance(item, Version) else Version(item if isinstance(item, str) else _text_of_other(item))


def _version_or_none(item: object) -> Version | None:
    """The version that is given, or None where it is none."""
    try:
        return _version_of(item)  # type: ignore[arg-type]
    except InvalidVersion:
        return None
    except TypeError:
        if _core.follows_26_3():
            return None
        raise


def _is_normal(text: str) -> bool:
    """Whether some version prints the text, in either case."""
    try:
        return str(Version(text)) == text.lower()
    except InvalidVersion:
        return False


def _bound_of(text: str, included: bool) -> Bound | None:
    if text == "*":
        return None
    version, _, sentinel = text.partition("~")
    return Bound(Version(version), included, sentinel)


def _segment_of(line: str) -> tuple[Bound | None, Bound | None]:
    lower, _, upper = line[1:-1].partition(", ")
    return _bound_of(lower, line[0] == "["), _bound_of(upper, line[-1] == "]")


def _shown(specifier: Specifier | SpecifierSet, name: str) -> str:
    pre = "" if specifier._prereleases is None else f", prereleases={specifier.prereleases!r}"
    return f"<{name}({str(specifier)!r}{pre})>"


class BaseSpecifier(metaclass=abc.ABCMeta):
    """What a specifier and a set of specifiers have in common."""

    __slots__ = ()
    __match_args__ = ("_str",)

    @property
    def _str(self) -> str:
        """The specifiers as they print, for `match`."""
        return str(self)

    @abc.abstractmethod
    def __str__(self) -> str:
        """The specifiers, as text."""

    @abc.abstractmethod
    def __hash__(self) -> int:
        """A hash that equal ones share."""

    @abc.abstractmethod
    def __eq__(self, other: object) -> bool:
        """Whether both say the same."""

    @property
    @abc.abstractmethod
    def prereleases(self) -> bool | None:
        """Whether pre-releases are allowed. May be set."""

    @prereleases.setter
    def prereleases(self, value: bool | None) -> None:
        """Allows pre-releases, forbids them, or leaves it to the version with None."""

    @abc.abstractmethod
    def contains(self, item: str, prereleases: bool | None = None) -> bool:
        """Whether the version is contained."""

    @abc.abstractmethod
    def filter(
        self, iterable: Iterable[_Item], prereleases: bool | None = None, key: Callable[[_Item], UnparsedVersion] | None = None
    ) -> Iterator[_Item]:
        """The items that are contained; with `key`, those of which it returns a version that is."""

    def ranges(self) -> list[tuple[Bound | None, Bound | None]]:
        """The versions that are contained, pre-releases too, as segments between two bounds in rising order; None is no bound.
        `===` with what no version prints contains none.

        Local parts, `===`, and suffixes beside `<` and `>` part ranges from `contains` (docs/PROMISES.md).

        >>> [(str(lower), str(upper)) for lower, upper in SpecifierSet(">=1.0, !=1.5, <2.0").ranges()]
        [('1.0', '1.5'), ('1.5', '2.0~min0')]

        Raises `OverflowError` where a bound lies above 18446744073709551615, as that of `==18446744073709551615.*`.
        """
        if any(it.startswith("===") and not _is_normal(it[3:]) for it in str(self).split(",")):
            return []
        return [_segment_of(line) for line in _core.ranges(str(self)).splitlines() if line != "empty"]


def _kept_at_once(
    several: Specifier | SpecifierSet,
    items: Iterable[Any],
    prereleases: bool | None,
    key: Callable[[Any], UnparsedVersion] | None,
    skip_invalid: bool,
) -> list[Any] | None:
    """Those that are contained, or None where the items are to be read one by one: what makes them may wait, and one behind those that somebody asks
    for may be no version."""
    if not isinstance(items, (list, tuple)):
        return None
    if key is None:
        try:
            return several._kept(items, prereleases, skip_invalid)
        except (InvalidVersion, TypeError):
            return None
    try:
        keys = [key(it) for it in items]
    except Exception:
        return None
    try:
        return several._kept(keys, prereleases, skip_invalid, items)
    except (TypeError, ValueError):
        return None


def _filter(
    several: Specifier | SpecifierSet, items: Iterable[Any], prereleases: bool | None, key: Callable[[Any], UnparsedVersion] | None
) -> Iterator[Any]:
    """The items that are contained, by `packaging` 26; of a set that is open strings that are no versions, too."""
    found = several._filtered(items, prereleases, key)
    if found is not None:
        return found
    is_open = several._is_open
    if not (is_open or prereleases is None):
        prereleases = prereleases is not False
    kept = _kept_at_once(several, items, prereleases if prereleases is None else bool(prereleases), key, not is_open)
    if kept is not None:
        return iter(kept)
    return _filter_one_by_one(items, several._default_prereleases() if prereleases is None else prereleases, key, several._matches)


def _filter_one_by_one(
    items: Iterable[Any],
    prereleases: bool | None,
    key: Callable[[Any], object] | None,
    matches: Callable[[object, Version | None], bool],
    is_asked: Callable[[object, Version], bool] = lambda given, version: False,
) -> Iterator[Any]:
    """Items of any kind, which are read when they are asked for. With no word on pre-releases those that are asked for are given, and others where nothing else
    is contained; strings that are no versions once something else is, or at the end."""
    is_found = False
    later: list[Any] = []
    strings: list[Any] = []
    for item in items:
        given = item if key is None else key(item)
        version = _version_or_none(given)
        if not matches(given, version):
            continue
        early = version if version is not None and version.is_prerelease else None
        if early and (is_asked(given, early) if prereleases is None else prereleases):
            yield item
        elif early:
            later += [] if is_found or prereleases is not None else [item]
        elif version is None and prereleases is None and not is_found:
            later.append(item)
            strings.append(item)
        else:
            yield from [] if is_found else strings
            is_found = True
            yield item
    if not is_found:
        yield from later


def _contains_by_name(self: Specifier | SpecifierSet, item: UnparsedVersion) -> bool:
    """Whether it contains the version, and `prereleases` allows it."""
    return self.contains(item)


def _note_changes(cls: Any, base: type[Specifier | SpecifierSet], asked: list[str]) -> None:
    """Says of a subclass whether it has any of these of its own, and has `in` ask its own `contains`."""
    _remove_held_slots(cls)
    _copy_by_state(cls)
    cls._is_changed = any(getattr(cls, it) is not getattr(base, it) for it in asked)
    if cls.contains is not base.contains and cls.__contains__ is base.__contains__:
        cls.__contains__ = _contains_by_name


def _comparison(operator: str) -> Callable[[Specifier, Version, str], bool]:
    def compare(self: Specifier, prospective: Version, spec: str) -> bool:
        return Specifier(operator + spec).contains(prospective, True)

    return compare


class _Called(abc.ABCMeta):
    """The class of those that `_core` makes without a tuple of arguments."""


class Specifier(_core.HeldSpecifier, BaseSpecifier, metaclass=_Called):
    """One specifier, as `>=1.0`.

    Raises `InvalidSpecifier`, with the reason, where the string is none. `prereleases` says whether pre-releases are allowed; None leaves it to
    the version: allowed where it is one itself. The string is parsed once: the specifier holds what the library compiled of it.

    >>> specifier = Specifier("!= 2.1.*")
    >>> specifier.operator, specifier.version
    ('!=', '2.1.*')
    >>> Specifier(">2.1").contains("3.0rc1"), Specifier(">2.1").contains("3.0rc1", prereleases=False)
    (True, False)

    Equal ones say the same; `prereleases` is not looked at.

    >>> Specifier(">=2.1") == Specifier(">= 2.1.0") == ">=2.1"
    True
    """

    __slots__ = ()
    # The operators, where pip looks for them, and what a subclass names its own comparison: `_compare_equal` and the like.
    _operators = {
        "~=": "compatible",
        "==": "equal",
        "!=": "not_equal",
        "<=": "less_than_equal",
        ">=": "greater_than_equal",
        "<": "less_than",
        ">": "greater_than",
        "===": "arbitrary",
    }
    # Whether this is a class with a comparison or with properties of its own, for which `_contains` answers, as it does for `===`.
    _is_changed = False

    # Regular expressions for other modules of `packaging` and for tools; nothing here uses them.
    _operator_regex_str = r"(?P<operator>~=|===?|!=|<=?|>=?)"
    _version_regex_str = _VERSION_OF_OPERATOR
    _specifier_regex_str = _operator_regex_str + _version_regex_str
    _regex = _WholeSpecifier()

    def __init_subclass__(cls, **named: object) -> None:
        super().__init_subclass__(**named)
        asked = ["contains", "operator", "version", "prereleases", "__str__", "_get_operator", *map("_compare_{}".format, cls._operators.values())]
        _note_changes(cls, Specifier, asked)

    def _state_by_python(self) -> Any:
        return _get_state(self, spec=self._spec, prereleases=self._prereleases)

    def _restore_by_python(self, state: Any) -> None:
        try:
            attributes, slots = _split_state({"_spec": state[0], "_prereleases": state[1]} if _is_of_26(state, tuple) else state)
            text, prereleases = "".join(attributes.pop("_spec")), attributes.pop("_prereleases")
        except (AttributeError, KeyError, TypeError, ValueError) as error:
            raise TypeError(f"Cannot restore Specifier from {state!r}") from error
        Specifier.__init__(self, text, prereleases)
        _set_attributes(self, attributes, slots)

    def __repr__(self) -> str:
        return _shown(self, type(self).__name__)

    def _contains(self, item: UnparsedVersion, prereleases: bool | None, _: object) -> bool:
        """Whether the version is contained, by what a subclass has of its own, or by `===`."""
        if not _core.follows_26():
            allowed = self.prereleases if prereleases is None else prereleases
            version = _version_of(item)
            return (allowed or not version.is_prerelease) and self._get_operator(self.operator)(version, self.version)
        if self.operator == "===":
            return any(True for _ in self.filter([item], prereleases))
        candidate = _version_or_none(item)
        if candidate is None:
            return False
        if candidate.is_prerelease and (self._default_prereleases() if prereleases is None else prereleases) is False:
            return False
        return self._get_operator(self.operator)(candidate, self.version)

    @property
    def _is_open(self) -> bool:
        """Whether strings that are no versions may be contained."""
        return self.operator == "==="

    def _default_prereleases(self) -> bool | None:
        if self._prereleases is not None:
            return self._prereleases
        return True if self.prereleases else None

    def _matches(self, given: object, version: Version | None) -> bool:
        """Whether it contains what was given, with pre-releases, by `packaging` 26."""
        if self.operator == "===":
            return str(given).lower() == self.version.lower()
        return version is not None and _core.HeldSpecifier.contains(self, version, True)

    def filter(
        self, iterable: Iterable[_Item], prereleases: bool | None = None, key: Callable[[_Item], UnparsedVersion] | None = None
    ) -> Iterator[_Item]:
        """The items that are contained, in their order; with `key`, those of which it returns a version that is. With no word on pre-releases these
        are given where nothing else is contained.

        >>> list(Specifier(">2.1").filter(["2.0", "2.2", "3.0rc1"])), list(Specifier(">2.1").filter(["2.0", "3.0rc1"]))
        (['2.2'], ['3.0rc1'])
        >>> list(Specifier(">2.1").filter([("2.0", 1), ("2.2", 2)], key=lambda pair: pair[0]))
        [('2.2', 2)]
        """
        if _core.follows_26():
            return _filter(self, iterable, prereleases, key)
        return self._filter_by_25(iterable, prereleases, key)

    def _filter_by_25(self, iterable: Iterable[Any], prereleases: bool | None, key: Callable[[Any], UnparsedVersion] | None) -> Iterator[Any]:
        kept = _kept_at_once(self, iterable, prereleases if prereleases is None else bool(prereleases), key, False)
        if kept is not None:
            yield from kept
            return
        is_found, later = False, []
        for item in iterable:
            version = _version_of(item if key is None else key(item))
            if not self.contains(version, True if prereleases is None else prereleases):
                continue
            if version.is_prerelease and not (prereleases or self.prereleases):
                later.append(item)
            else:
                is_found = True
                yield item
        if not is_found:
            yield from later

    # ---- a comparison for each operator, which a subclass may have its own of

    def _get_operator(self, op: str) -> Callable[[Version, str], bool]:
        comparison: Callable[[Version, str], bool] = getattr(self, f"_compare_{self._operators[op]}")
        return comparison

    _compare_compatible = _comparison("~=")
    _compare_equal = _comparison("==")
    _compare_not_equal = _comparison("!=")
    _compare_less_than_equal = _comparison("<=")
    _compare_greater_than_equal = _comparison(">=")
    _compare_less_than = _comparison("<")
    _compare_greater_than = _comparison(">")

    def _compare_arbitrary(self, prospective: Version, spec: str) -> bool:
        return str(prospective).lower() == spec.lower()


class SpecifierSet(_core.HeldSet, BaseSpecifier, metaclass=_Called):
    """Specifiers that all are to hold, as `>=1.0, !=1.5.*`; a string with commas, or an iterable of `Specifier`.

    Raises `InvalidSpecifier`, with the reason, where a piece of the string is no specifier; empty pieces are passed over. `prereleases` says whether
    pre-releases are allowed; None leaves it to the members: allowed where one of them allows it. Each piece is parsed once: the set holds what the
    library compiled of all.

    >>> SpecifierSet(">2.1,<4").contains("3.0rc1"), SpecifierSet(">2.1,<4").contains("3.0rc1", prereleases=False)
    (True, False)

    Equal ones have the same members; `prereleases` is not looked at.

    >>> SpecifierSet(">=2.1,<3") == "<3.0,>=2.1.0"
    True

    Of two sets `&` makes one that has the members of both. It raises `ValueError` where one allows pre-releases expressly and the other one
    forbids them.

    >>> str(SpecifierSet(">2.1") & "<3,!=2.2.*")
    '!=2.2.*,<3,>2.1'
    """

    __slots__ = ()
    # Whether this is a class with properties of its own, for which `_contains` answers.
    _is_changed = False

    def __init_subclass__(cls, **named: object) -> None:
        super().__init_subclass__(**named)
        _note_changes(cls, SpecifierSet, ["prereleases"])

    def _state_by_python(self) -> Any:
        return _get_state(self, specs=self._specs, prereleases=self._prereleases)

    def _restore_by_python(self, state: Any) -> None:
        try:
            attributes, slots = _split_state({"_specs": state[0], "_prereleases": state[1]} if _is_of_26(state, tuple) else state)
            members, prereleases = attributes.pop("_specs"), attributes.pop("_prereleases")
        except (AttributeError, KeyError, TypeError, ValueError) as error:
            raise TypeError(f"Cannot restore SpecifierSet from {state!r}") from error
        if isinstance(members, frozenset) and _core.follows_26():
            members = tuple(sorted(members, key=str))
        SpecifierSet.__init__(self, members, prereleases)
        _set_attributes(self, attributes, slots)

    def __repr__(self) -> str:
        return _shown(self, type(self).__name__ if _core.follows_26() else "SpecifierSet")

    def _contains(self, item: UnparsedVersion, prereleases: bool | None, installed: bool | None) -> bool:
        """Whether the version is contained, by each member; by 25 the base version of an installed one."""
        if _core.follows_26():
            candidate = _version_or_none(item)
            asked = item if candidate is None or (self._has_arbitrary and not isinstance(item, Version)) else candidate
            return any(True for _ in self.filter([asked], prereleases))
        version = _version_of(item)
        allowed = self.prereleases if prereleases is None else prereleases
        if version.is_prerelease and not allowed:
            return False
        if installed and version.is_prerelease:
            version = Version(version.base_version)
        return all(each.contains(version, allowed) for each in self._specs)

    @property
    def _has_arbitrary(self) -> bool:
        return any("===" in str(it) for it in self._specs)

    # ---- how sets relate, by `packaging` 26

    def _has_no_member(self) -> bool:
        """What `is_unsatisfiable` returns."""
        plain = [it for it in self._specs if it.operator != "==="]
        texts = {it.version.lower() for it in self._specs if it.operator == "==="}
        if not texts:
            return bool(self._specs) and self._is_empty()
        if len(texts) > 1:
            return True
        candidate = _version_or_none(texts.pop())
        if candidate is None:
            return bool(plain)
        is_forbidden = self.prereleases is False and candidate.is_prerelease
        return is_forbidden or not all(it.contains(candidate) for it in plain)

    def is_subset(self, other: SpecifierSet) -> bool:
        """Whether the other one contains all that this one contains.

        >>> SpecifierSet(">=3.12,<3.13").is_subset(SpecifierSet(">=3.12"))
        True

        Raises `TypeError` where the other one is no set, and `ValueError` where one has `===`, or other `prereleases` than the other one.
        """
        self._check_relation_operand(other)
        if not self._specs or not other._specs:
            return not other._specs  # the empty set contains strings, too
        if self._prereleases is False:
            return self.to_range().is_subset(other.to_range())
        return _core.is_subset(self._compiled, other._compiled)

    def is_superset(self, other: SpecifierSet) -> bool:
        """Whether this one contains all that the other one contains; raises as `is_subset`."""
        self._check_relation_operand(other)
        return other.is_subset(self)

    def is_disjoint(self, other: SpecifierSet) -> bool:
        """Whether nothing is contained in both; raises as `is_subset`.

        >>> SpecifierSet("<3.12").is_disjoint(SpecifierSet(">=3.12"))
        True
        """
        self._check_relation_operand(other)
        return SpecifierSet([*self._specs, *other._specs], self._prereleases).is_unsatisfiable()

    def _check_relation_operand(self, other: object) -> None:
        if not isinstance(other, SpecifierSet):
            raise TypeError("expected a SpecifierSet")
        if self._has_arbitrary or other._has_arbitrary:
            raise ValueError("set relations do not support === specifiers")
        if self._prereleases != other._prereleases:
            both = f"{self._prereleases!r} and {other._prereleases!r}"
            raise ValueError(f"Cannot combine VersionRange operands with different pre-release policies: {both}")

    def _is_empty(self) -> bool:
        """Whether no version is contained; where pre-releases are forbidden, whether none but these is."""
        if self._prereleases is False:
            return self.to_range().is_empty
        return _core.intersection(self._compiled, self._compiled) == _EMPTY_SET

    def to_range(self) -> VersionRange:
        """What is contained, as a set of `pep440_rattle.ranges`.

        >>> SpecifierSet(">=1.0,<2.0").to_range()
        <VersionRange '[1.0, 2.0.dev0)'>
        """
        from .ranges import VersionRange

        return VersionRange._from_specifier_set(self)

    @property
    def _is_open(self) -> bool:
        """Whether strings that are no versions may be contained."""
        return not self._specs or self._has_arbitrary

    def _default_prereleases(self) -> bool | None:
        return self.prereleases

    def _matches(self, given: object, version: Version | None) -> bool:
        """Whether each member contains what was given, with pre-releases, by `packaging` 26."""
        is_arbitrary = self._has_arbitrary
        if version is None and not is_arbitrary:
            return not self._specs
        asked: Any = given if is_arbitrary else version
        return all(it.contains(asked, True) for it in self._specs)

    def filter(
        self, iterable: Iterable[_Item], prereleases: bool | None = None, key: Callable[[_Item], UnparsedVersion] | None = None
    ) -> Iterator[_Item]:
        """The items that each member contains, in their order; with `key`, those of which it returns a version that each contains. With no word on
        pre-releases these are given where there is nothing else.

        >>> list(SpecifierSet(">2.1").filter(["2.0", "2.2", "3.0rc1"])), list(SpecifierSet(">2.1").filter(["2.0", "3.0rc1"]))
        (['2.2'], ['3.0rc1'])
        >>> list(SpecifierSet(">2.1").filter([("2.0", 1), ("2.2", 2)], key=lambda pair: pair[0]))
        [('2.2', 2)]
        """
        if _core.follows_26():
            return _filter(self, iterable, prereleases, key)
        allowed = self.prereleases if prereleases is None else prereleases
        if not self._specs:
            items = tuple(iterable)
            keys = items if key is None else [key(it) for it in items]
            return iter(SpecifierSet("")._kept(keys, allowed if allowed is None else bool(allowed), False, items) or ())
        kept = _kept_at_once(self, iterable, bool(allowed), key, False)
        if kept is not None:
            return iter(kept)
        for each in self._specs:
            iterable = each.filter(iterable, bool(allowed), key)
        return iter(iterable)


def _is_of_26(state: object, kind: type) -> bool:
    """Whether it is what `packaging` 26.2 and newer ones pickle of specifiers: what they are made of, and what was said of pre-releases."""
    return isinstance(state, tuple) and len(state) == 2 and isinstance(state[0], kind)


def _sorted_members(members: Iterable[Specifier]) -> tuple[Specifier, ...]:
    return tuple(dict.fromkeys(sorted(members, key=str)))


_core.use(Specifier, SpecifierSet, _text_of_other, _twin_of, _sorted_members)
