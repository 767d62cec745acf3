"""Requirements and markers, parsed as `packaging` parses them (PEP 508, with its marker variables of later standards).

The extension reads what most requirements and markers are made of (_requirements.h). The rest is read here, token by token, as it is read by
`packaging`: it has a form that is rare, or is none, and the error has the words of `packaging`. No part of this is proved; what a version and a
specifier is says the library.
"""
from __future__ import annotations

import ast
import functools
import re
from typing import Any, NamedTuple, NoReturn, Union

# by its whole name, since copies of `packaging` have this module under theirs (swap.py)
from pep440_rattle._core import follows_26, follows_26_3, read_marker

from .specifiers import Specifier

_IDENTIFIER = r"\b[a-zA-Z0-9][a-zA-Z0-9._-]*\b"
# The variables of markers; of two names of one, the older one stands for the other.
_VARIABLES = {
    name: name
    for name in """
        python_version python_full_version os_name sys_platform platform_release platform_system platform_version platform_machine
        platform_python_implementation implementation_name implementation_version extra extras dependency_groups
    """.split()
}
_VARIABLES |= {name: name.replace(".", "_") for name in "os.name sys.platform platform.version platform.machine platform.python_implementation".split()}
_VARIABLES["python_implementation"] = "platform_python_implementation"
_VARIABLE = rf"\b(?:{'|'.join(sorted((re.escape(name) for name in _VARIABLES), reverse=True))})\b"
_QUOTED = r""" '[^']*' | "[^"]*" """
_OPERATOR = r"===|==|~=|!=|<=|>=|<|>"

_BLANK = re.compile(r"[ \t]+")
_END, _END_BY_26_2 = re.compile(r"\Z"), re.compile("$")
_NAME = re.compile(_IDENTIFIER)
_URL = re.compile(r"[^ \t]+")
_STAR = re.compile(r"\.\*")
_LOCAL = re.compile(r"\+[a-z0-9]+(?:[-_\.][a-z0-9]+)*")
_MARKER_VARIABLE = re.compile(_VARIABLE, re.VERBOSE)
_MARKER_VALUE = re.compile(_QUOTED, re.VERBOSE)
_COMPARISON = re.compile(_OPERATOR)
_BOOLEAN = re.compile(r"\b(?:or|and)\b")
_IN, _NOT = re.compile(r"\bin\b"), re.compile(r"\bnot\b")


class ParserSyntaxError(Exception):
    """A string is no requirement, or no marker."""

    def __init__(self, message: str, *, source: str, span: tuple[int, int]) -> None:
        self.span = span
        self.message = message
        self.source = source
        super().__init__()

    def __str__(self) -> str:
        start, end = self.span
        return "\n    ".join([self.message, self.source, " " * start + "~" * (end - start) + "^"])


class Node:
    """A token of a marker."""

    __slots__ = ("value",)

    def __init__(self, value: str) -> None:
        self.value = value

    def __getstate__(self) -> Any:
        return self.value if follows_26() else (None, {"value": self.value})

    def __setstate__(self, state: Any) -> None:
        if isinstance(state, tuple) and len(state) == 2:
            state = state[1]
        value = state.get("value") if isinstance(state, dict) else state
        if not isinstance(value, str):
            raise TypeError(f"Cannot restore {self.__class__.__name__} from {state!r}")
        self.value = value

    def __str__(self) -> str:
        return self.value

    def __repr__(self) -> str:
        return f"<{self.__class__.__name__}({self.value!r})>" if follows_26() else f"<{self.__class__.__name__}('{self}')>"

    def serialize(self) -> str:
        """As it stands in a marker."""
        raise NotImplementedError


class Variable(Node):
    __slots__ = ()

    def serialize(self) -> str:
        return self.value


class Value(Node):
    __slots__ = ()

    def serialize(self) -> str:
        if '"' not in self.value or not follows_26_3():
            return f'"{self.value}"'
        if "'" in self.value:
            raise ValueError("Cannot serialize marker value containing both quote characters")
        return f"'{self.value}'"


class Op(Node):
    __slots__ = ()

    def serialize(self) -> str:
        return self.value


# What the extension makes markers of.
NODES = (Variable, Value, Op, _VARIABLES)

MarkerVar = Union[Variable, Value]
MarkerItem = tuple[MarkerVar, Op, MarkerVar]
# Items, "and" and "or", and for parentheses lists of these.
MarkerList = list[Any]


class ParsedRequirement(NamedTuple):
    name: str
    url: str
    extras: list[str]
    specifier: str
    marker: MarkerList | None


class _Cursor:
    """A string, and how far it is read."""

    def __init__(self, source: str, position: int = 0) -> None:
        self.source = source
        self.position = position

    def is_at(self, token: re.Pattern[str]) -> bool:
        return token.match(self.source, self.position) is not None

    def is_at_end(self) -> bool:
        """Before 26.3 before a newline at the end, too."""
        return self.is_at(_END if follows_26_3() else _END_BY_26_2)

    def take(self, token: re.Pattern[str]) -> str | None:
        """The token, if it stands here; it is read then."""
        found = token.match(self.source, self.position)
        if not found:
            return None
        self.position = found.end()
        return found[0]

    def expect(self, token: re.Pattern[str], what: str) -> str:
        found = self.take(token)
        if found is None:
            self.fail(f"Expected {what}")
        return found

    def take_sign(self, sign: str) -> bool:
        is_here = self.source.startswith(sign, self.position)
        self.position += is_here
        return is_here

    def close(self, opened: int, sign: str, names: tuple[str, str], around: str) -> None:
        """Reads what closes the bracket that was opened at this position."""
        if not self.take_sign(sign):
            self.fail(f"Expected matching {names[1]} for {names[0]}, after {around}", opened)

    def fail(self, message: str, start: int | None = None, end: int | None = None) -> NoReturn:
        span = self.position if start is None else start, self.position if end is None else end
        raise ParserSyntaxError(message, source=self.source, span=span)


_PARENTHESES = "LEFT_PARENTHESIS", "RIGHT_PARENTHESIS"
_BRACKETS = "LEFT_BRACKET", "RIGHT_BRACKET"


# ---- requirements


def parse_requirement(source: str) -> ParsedRequirement:
    """The parts of a requirement, by its tokens."""
    cursor = _Cursor(source)
    cursor.take(_BLANK)
    name = cursor.expect(_NAME, "package name at the start of dependency specifier")
    cursor.take(_BLANK)
    extras = _parse_extras(cursor)
    cursor.take(_BLANK)
    if cursor.take_sign("@"):
        return ParsedRequirement(name, *_parse_url(cursor, extras))
    start = cursor.position
    specifier = _parse_specifiers(cursor)
    cursor.take(_BLANK)
    marker = _parse_requirement_marker(cursor, start, "version specifier" if specifier else "name and no valid version specifier")
    return ParsedRequirement(name, "", extras, specifier, marker)


def _parse_url(cursor: _Cursor, extras: list[str]) -> tuple[str, list[str], str, MarkerList | None]:
    cursor.take(_BLANK)
    start = cursor.position
    url = cursor.expect(_URL, "URL after @")
    if cursor.is_at_end():
        return url, extras, "", None
    cursor.expect(_BLANK, "whitespace after URL")
    return url, extras, "", _parse_requirement_marker(cursor, start, "URL and whitespace")


def _parse_requirement_marker(cursor: _Cursor, start: int, after: str) -> MarkerList | None:
    if cursor.is_at_end():
        return None
    if not cursor.take_sign(";"):
        cursor.fail(_EXPECTED[after] if follows_26() else f"Expected end or semicolon (after {after})", start)
    return _parse_marker_to_end(cursor, "end of dependency specifier")


# What `packaging` 26 expects behind what was read.
_EXPECTED = {
    "URL and whitespace": "Expected semicolon (after URL and whitespace) or end",
    "version specifier": "Expected comma (within version specifier), semicolon (after version specifier) or end",
    "name and no valid version specifier": "Expected semicolon (after name with no version specifier) or end",
}


def _parse_extras(cursor: _Cursor) -> list[str]:
    opened = cursor.position
    if not cursor.take_sign("["):
        return []
    cursor.take(_BLANK)
    first = cursor.take(_NAME)
    extras = [] if first is None else [first]
    while extras:
        cursor.take(_BLANK)
        if cursor.is_at(_NAME):
            cursor.fail("Expected comma between extra names")
        if not cursor.take_sign(","):
            break
        cursor.take(_BLANK)
        extras.append(cursor.expect(_NAME, "extra name after comma"))
    cursor.take(_BLANK)
    cursor.close(opened, "]", _BRACKETS, "extras")
    return extras


@functools.lru_cache(1)
def _compile_specifier() -> re.Pattern[str]:
    """A specifier as a token; compiled when it is needed, since that takes longer than all else here."""
    return re.compile(Specifier._operator_regex_str + Specifier._version_regex_str, re.VERBOSE | re.IGNORECASE)


def _parse_specifiers(cursor: _Cursor) -> str:
    opened = cursor.position
    is_closed = not cursor.take_sign("(")
    cursor.take(_BLANK)
    specifiers = _parse_specifier_list(cursor)
    cursor.take(_BLANK)
    if not is_closed:
        cursor.close(opened, ")", _PARENTHESES, "version specifier")
    return specifiers


def _why_no_star(token: str) -> str:
    if follows_26_3() and (token.startswith("!=") or (token.startswith("==") and not token.startswith("==="))):
        return ".* suffix cannot be used with pre-release, post-release, dev or local versions"
    return ".* suffix can only be used with `==` or `!=` operators"


def _parse_specifier_list(cursor: _Cursor) -> str:
    specifiers = ""
    while True:
        start = cursor.position
        token = cursor.take(_compile_specifier())
        if token is None:
            return specifiers
        specifiers += token
        if cursor.is_at(_STAR):
            cursor.fail(_why_no_star(token), start, cursor.position + 1)
        if cursor.is_at(_LOCAL):
            cursor.fail("Local version label can only be used with `==` or `!=` operators", start)
        cursor.take(_BLANK)
        if not cursor.take_sign(","):
            return specifiers
        specifiers += ","
        cursor.take(_BLANK)


# ---- markers


def parse_marker(source: str) -> MarkerList:
    """The comparisons of a marker, with "and" and "or" between them; a list for each pair of parentheses.

    >>> parse_marker("os_name == 'nt' and ('a' in extras)")
    [(<Variable('os_name')>, <Op('==')>, <Value('nt')>), 'and', [(<Value('a')>, <Op('in')>, <Variable('extras')>)]]
    """
    return read_marker(source, NODES) or _parse_marker_to_end(_Cursor(source), "end of marker expression")


def _parse_marker_to_end(cursor: _Cursor, what: str) -> MarkerList:
    marker = _parse_marker(cursor)
    if not cursor.is_at_end():
        cursor.fail(f"Expected {what}")
    return marker


def _parse_marker(cursor: _Cursor) -> MarkerList:
    marker: MarkerList = [_parse_atom(cursor)]
    while (boolean := cursor.take(_BOOLEAN)) is not None:
        marker += boolean, _parse_atom(cursor)
    return marker


def _parse_atom(cursor: _Cursor) -> MarkerItem | MarkerList:
    cursor.take(_BLANK)
    opened = cursor.position
    atom: MarkerItem | MarkerList
    if cursor.take_sign("("):
        atom = _parse_marker(cursor)
        cursor.close(opened, ")", _PARENTHESES, "marker expression")
    else:
        atom = _parse_item(cursor)
    cursor.take(_BLANK)
    return atom


def _parse_item(cursor: _Cursor) -> MarkerItem:
    left = _parse_operand(cursor)
    cursor.take(_BLANK)
    operator = _parse_operator(cursor)
    cursor.take(_BLANK)
    return left, operator, _parse_operand(cursor)


def _parse_operand(cursor: _Cursor) -> MarkerVar:
    variable = cursor.take(_MARKER_VARIABLE)
    if variable is not None:
        return Variable(_VARIABLES[variable])
    start = cursor.position
    value = cursor.take(_MARKER_VALUE)
    if value is None:
        cursor.fail("Expected a marker variable or quoted string")
    try:
        return _make_value(value)
    except (SyntaxError, ValueError) as error:
        if not follows_26_3():
            raise
        raise ParserSyntaxError("Invalid quoted string", source=cursor.source, span=(start, cursor.position)) from error


def _parse_operator(cursor: _Cursor) -> Op:
    if cursor.take(_IN):
        return Op("in")
    if cursor.take(_NOT):
        cursor.expect(_BLANK, "whitespace after 'not'")
        cursor.expect(_IN, "'in' after 'not'")
        return Op("not in")
    comparison = cursor.take(_COMPARISON)
    if comparison is None:
        cursor.fail("Expected marker operator, one of <=, <, !=, ==, >=, >, ~=, ===, in, not in")
    return Op(comparison)


def _make_value(quoted: str) -> Value:
    """What the string between its quotes is to Python."""
    if quoted.isascii() and quoted.isprintable() and "\\" not in quoted:
        return Value(quoted[1:-1])
    return Value(str(ast.literal_eval(quoted)))
