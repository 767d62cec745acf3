"""Markers, with the names and the behaviour of `packaging.markers`.

>>> from pep440_rattle.markers import Marker
>>> Marker("python_version >= '3.8' and extra == 'x'").evaluate({"extra": "x", "python_version": "3.10"})
True
"""
from __future__ import annotations

import functools
import operator
import os
import platform
import re
import sys
from collections.abc import Callable, Mapping
from collections.abc import Set as AbstractSet
from typing import Any, Literal, TypedDict, Union

from pep440_rattle._core import evaluate_marker, follows_26, follows_26_3

from ._parser import MarkerItem, MarkerList, Op, ParserSyntaxError, Value, Variable, parse_marker
from .specifiers import InvalidSpecifier, Specifier
from .utils import canonicalize_name
from .version import _twin_of

__all__ = ["Environment", "EvaluateContext", "InvalidMarker", "Marker", "UndefinedComparison", "UndefinedEnvironmentName", "default_environment"]

EvaluateContext = Literal["metadata", "lock_file", "requirement"]
MARKERS_ALLOWING_SET = {"extras", "dependency_groups"}
MARKERS_REQUIRING_VERSION = {"implementation_version", "platform_release", "python_full_version", "python_version"}
_Operand = Union[str, AbstractSet[str]]


class InvalidMarker(ValueError):
    """A string is no marker."""


class UndefinedComparison(ValueError):
    """An operator compares versions alone, and an operand is none."""


class UndefinedEnvironmentName(KeyError, ValueError):
    """A variable of a marker is not in the environment; before `packaging` 26.3 a plain `KeyError` is raised."""


class Environment(TypedDict):
    """The variables of markers, by their names."""

    implementation_name: str
    implementation_version: str
    os_name: str
    platform_machine: str
    platform_release: str
    platform_system: str
    platform_version: str
    python_full_version: str
    platform_python_implementation: str
    python_version: str
    sys_platform: str


def format_full_version(info: sys._version_info) -> str:
    """A version as a string, as `3.13.0a2`."""
    version = f"{info.major}.{info.minor}.{info.micro}"
    return version if info.releaselevel == "final" else f"{version}{info.releaselevel[0]}{info.serial}"


_READERS: dict[str, Callable[[], str]] = {
    "implementation_name": lambda: sys.implementation.name,
    "implementation_version": lambda: format_full_version(sys.implementation.version),
    "os_name": lambda: os.name,
    "platform_machine": lambda: platform.machine(),
    "platform_release": lambda: platform.release(),
    "platform_system": lambda: platform.system(),
    "platform_version": lambda: platform.version(),
    "python_full_version": lambda: platform.python_version(),
    "platform_python_implementation": lambda: platform.python_implementation(),
    "python_version": lambda: ".".join(platform.python_version_tuple()[:2]),
    "sys_platform": lambda: sys.platform,
}


@functools.lru_cache(len(_READERS))
def _read_once(name: str) -> str:
    return _READERS[name]()


def _read(name: str) -> str:
    """A variable of this Python process, which by 26.3 is read once."""
    return _read_once(name) if follows_26_3() else _READERS[name]()


# All of them, once they were asked for.
_environment: dict[str, str] = {}


def default_environment() -> Environment:
    """The variables of this Python process, which by 26.3 are read once."""
    if not _environment or not follows_26_3():
        _environment.update({name: _read(name) for name in _READERS})
    return _environment.copy()  # type: ignore[return-value]


class _Environment(dict[str, _Operand]):
    """The variables of a marker. Those of this process are read when they are asked for, since a marker names one or two of them."""

    def __missing__(self, name: str) -> _Operand:
        if name not in _READERS:
            raise UndefinedEnvironmentName(name) if follows_26_3() else KeyError(name)
        self[name] = value = _read(name)
        found = _repair(value) if name == "python_full_version" else value
        if follows_26_3():
            _known[name] = found
        return found


# The variables of this process that some marker named, which by 26.3 are read once.
_known: dict[str, str] = {}


def _repair(python_full_version: str) -> str:
    """A version of a Python that was built between two releases ends with a plus sign, and is none."""
    return f"{python_full_version}local" if python_full_version.endswith("+") else python_full_version


_pep440_python_full_version, _format_full_version = _repair, format_full_version


def _normalize_extras(marker: Any) -> Any:
    """The marker with the normalized names of extras and groups, in each comparison."""
    if isinstance(marker, list):
        return [_normalize_extras(each) for each in marker]
    if isinstance(marker, str):
        return marker
    left, op, right = marker
    if isinstance(left, Variable) and left.value == "extra" and isinstance(right, Value):
        right = Value(canonicalize_name(right.value))
    elif isinstance(right, Variable) and right.value in {"extra", *MARKERS_ALLOWING_SET} and isinstance(left, Value):
        left = Value(canonicalize_name(left.value))
    return left, op, right


def _normalize_extras_by_26_2(marker: Any) -> Any:
    """The comparison with the normalized name of an extra, or of a variable in place of one."""
    if not isinstance(marker, tuple):
        return marker
    left, op, right = marker
    if isinstance(left, Variable) and left.value == "extra":
        right = Value(canonicalize_name(right.value))
    elif isinstance(right, Variable) and right.value == "extra":
        left = Value(canonicalize_name(left.value))
    return left, op, right


def _normalize_extra_values(markers: MarkerList) -> MarkerList:
    """The markers with the normalized names of extras: by 26.2 of those that stand in no parentheses, by 25 of the first one."""
    if follows_26_3():
        return [_normalize_extras(each) for each in markers]
    normalized = 1 if not follows_26() else len(markers)
    return [*map(_normalize_extras_by_26_2, markers[:normalized]), *markers[normalized:]]


def _normalize_marker(markers: MarkerList, source: str) -> MarkerList:
    """The same of what was read of a string, which most often names none."""
    return _normalize_extra_values(markers) if "extra" in source or "group" in source else markers


def _format_marker(marker: MarkerList | MarkerItem | str, first: bool = True) -> str:
    """The string of a marker, with parentheses around what is not the first."""
    if isinstance(marker, str):
        return marker
    if isinstance(marker, tuple):
        return " ".join([node.serialize() for node in marker])
    if len(marker) == 1 and not isinstance(marker[0], str):
        return _format_marker(marker[0], first or not follows_26_3())
    inner = " ".join([_format_marker(each, first=False) for each in marker])
    return inner if first else f"({inner})"


_OPERATORS: dict[str, Callable[[Any, Any], bool]] = {
    "in": lambda left, right: left in right,
    "not in": lambda left, right: left not in right,
    "<": operator.lt,
    "<=": operator.le,
    "==": operator.eq,
    "!=": operator.ne,
    ">=": operator.ge,
    ">": operator.gt,
}

# By 26, where no order of strings is known.
_OPERATORS_BY_26: dict[str, Callable[[Any, Any], bool]] = {
    **_OPERATORS,
    "<": lambda _, __: False,
    ">": lambda _, __: False,
    "<=": operator.eq,
    ">=": operator.eq,
}

# How what makes a specifier with an operator begins; a `=` may belong to the operator.
_START_OF_VERSION = re.compile(r"\s*v?[0-9]|=", re.IGNORECASE)


@functools.lru_cache(256)
def _specifier_of(sign: str, version: str) -> Specifier | None:
    if sign != "===" and not _START_OF_VERSION.match(version):
        return None
    try:
        return Specifier(sign + version)
    except InvalidSpecifier:
        return None


@functools.lru_cache(1024)
def _compare_versions(sign: str, version: str, candidate: str) -> bool | None:
    """Whether a specifier contains the candidate, or None where there is none."""
    specifier = _specifier_of(sign, version)
    return None if specifier is None else specifier.contains(candidate, prereleases=True)


def _eval_op(lhs: str, op: Op, rhs: _Operand, key: str) -> bool:
    sign = op.serialize()
    is_of_versions = key in MARKERS_REQUIRING_VERSION or not follows_26()
    if is_of_versions and isinstance(rhs, str) and sign[-1] != "n":
        specifier = _specifier_of(sign, rhs)
        if specifier is not None:
            return specifier.contains(lhs, prereleases=True)
    operators = _OPERATORS_BY_26 if follows_26() else _OPERATORS
    compare = operators.get(sign)
    if compare is None:
        raise UndefinedComparison(f"Undefined {op!r} on {lhs!r} and {rhs!r}.")
    return compare(lhs, rhs)


def _normalize(lhs: str, rhs: _Operand, key: str) -> tuple[str, _Operand]:
    """Both operands, with normalized names of extras and groups (PEP 685)."""
    if key == "extra":
        assert isinstance(rhs, str), "extra value must be a string"
        if follows_26():
            return lhs, rhs
    elif key not in MARKERS_ALLOWING_SET:
        return lhs, rhs
    return canonicalize_name(lhs), canonicalize_name(rhs) if isinstance(rhs, str) else {canonicalize_name(each) for each in rhs}


def _evaluate_item(item: MarkerItem, environment: dict[str, _Operand]) -> bool:
    left, op, right = item
    lhs: _Operand
    rhs: _Operand
    if isinstance(left, Variable):
        key = left.value
        lhs, rhs = environment[key], right.value
    else:
        key = right.value
        lhs, rhs = left.value, environment[key]
    if not isinstance(lhs, str):
        if not follows_26_3():
            raise AssertionError("lhs must be a string")
        raise UndefinedComparison(
            f'Set-valued marker {key!r} can only be used with the membership form (e.g. "<name>" in {key}); '
            f"it cannot appear on the left-hand side of {op.serialize()!r}."
        )
    lhs, rhs = _normalize(lhs, rhs, key)
    return _eval_op(lhs, op, rhs, key)


def _evaluate_markers(markers: MarkerList, environment: dict[str, _Operand]) -> bool:
    """Whether of the groups that "or" parts one has comparisons that all hold. Each is made, since it may raise an error."""
    groups: list[list[bool]] = [[]]
    for marker in markers:
        if isinstance(marker, str):
            if marker == "or":
                groups.append([])
        elif isinstance(marker, list):
            groups[-1].append(_evaluate_markers(marker, environment))
        else:
            groups[-1].append(_evaluate_item(marker, environment))
    return any(all(group) for group in groups)


# What the extension evaluates markers with.
_TOOLS = (
    *(Variable, Value, Op),
    {**dict.fromkeys(MARKERS_REQUIRING_VERSION, True), **dict.fromkeys(MARKERS_ALLOWING_SET, False)},
    *(_known, _compare_versions, _evaluate_item),
)


class Marker:
    """A condition on the environment, as `python_version >= "3.8"`.

    Raises `InvalidMarker`, with the reason, where the string is none.

    >>> str(Marker("os_name=='posix' or (os_name == 'nt')"))
    'os_name == "posix" or os_name == "nt"'
    """

    __slots__ = ("_markers",)
    _markers: MarkerList

    def __init__(self, marker: str) -> None:
        # a requirement makes one without this call
        try:
            self._markers = _normalize_marker(parse_marker(marker), marker)
        except ParserSyntaxError as error:
            raise InvalidMarker(str(error)) from error

    def __getstate__(self) -> Any:
        return str(self) if follows_26() else {"_markers": self._markers, **getattr(self, "__dict__", {})}

    def __setstate__(self, state: Any) -> None:
        if isinstance(state, str):
            try:
                self._markers = _normalize_marker(parse_marker(state), state)
            except ParserSyntaxError as error:
                raise TypeError(f"Cannot restore Marker from {state!r}") from error
            return
        attributes = state[1] if isinstance(state, tuple) and len(state) == 2 else state
        if not isinstance(attributes, dict) or not isinstance(attributes.get("_markers"), list):
            raise TypeError(f"Cannot restore Marker from {state!r}")
        for name, value in attributes.items():
            setattr(self, name, value)

    @classmethod
    def _from_markers(cls, markers: MarkerList) -> Marker:
        made = cls.__new__(cls)
        made._markers = markers
        return made

    def __and__(self, other: Marker) -> Marker:
        """A marker that holds where both do.

        >>> Marker("os_name == 'nt'") & Marker("extra == 'x'")
        <Marker('os_name == "nt" and extra == "x"')>
        """
        if not isinstance(other, Marker):
            return NotImplemented
        made = self.__class__.__new__(self.__class__)
        made._markers = [self._markers, "and", other._markers]
        return made

    def __or__(self, other: Marker) -> Marker:
        """A marker that holds where one of both does."""
        if not isinstance(other, Marker):
            return NotImplemented
        made = self.__class__.__new__(self.__class__)
        made._markers = [self._markers, "or", other._markers]
        return made

    def __str__(self) -> str:
        return _format_marker(self._markers)

    def __repr__(self) -> str:
        return f"<{self.__class__.__name__}({str(self)!r})>" if follows_26() else f"<Marker('{self}')>"

    def __hash__(self) -> int:
        return hash(str(self) if follows_26() else (self.__class__.__name__, str(self)))

    def __eq__(self, other: Any) -> bool:
        if not isinstance(other, Marker):
            other = _twin_of(Marker, other)
        return NotImplemented if other is NotImplemented else str(self) == str(other)

    def evaluate(self, environment: Mapping[str, Any] | None = None, context: EvaluateContext = "metadata") -> bool:
        """Whether it holds, in the environment of this process but for the variables that are given.

        The context says which variables there are besides: `extra` in metadata, `extras` and `dependency_groups` in a lock file, else none.
        """
        variables = _Environment()
        if context == "lock_file":
            variables.update(extras=frozenset(), dependency_groups=frozenset())
        elif context == "metadata":
            variables["extra"] = ""
        if environment is not None:
            variables.update(environment)
            if "python_full_version" in environment:
                variables["python_full_version"] = _repair(environment["python_full_version"])
            # callers that mean no extra may pass None
            if "extra" in variables and variables["extra"] is None:
                variables["extra"] = ""
            elif "extra" in variables and follows_26():
                variables["extra"] = canonicalize_name(variables["extra"])  # type: ignore[arg-type]
        return evaluate_marker(self._markers, variables, _TOOLS) if follows_26() else _evaluate_markers(self._markers, variables)
