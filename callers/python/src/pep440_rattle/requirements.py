"""Requirements, with the names and the behaviour of `packaging.requirements`.

>>> from pep440_rattle.requirements import Requirement
>>> it = Requirement("name[extra] >=1.0, <2 ; python_version >= '3.8'")
>>> it.name, it.extras, str(it.specifier), str(it.marker)
('name', {'extra'}, '<2,>=1.0', 'python_version >= "3.8"')
"""
from __future__ import annotations

from collections.abc import Iterator
from typing import Any

from pep440_rattle._core import follows_26, follows_26_3, read_requirement

from ._parser import NODES, ParserSyntaxError, parse_requirement
from .markers import Marker, _normalize_marker
from .specifiers import InvalidSpecifier, SpecifierSet
from .utils import canonicalize_name
from .version import _twin_of

__all__ = ["InvalidRequirement", "Requirement"]


class InvalidRequirement(ValueError):
    """A string is no requirement."""


class Requirement:
    """A requirement: a name, extras, and specifiers or a URL, maybe with a marker.

    Raises `InvalidRequirement`, with the reason, where the string is none.

    >>> Requirement("name @ https://example.org/name.zip").url
    'https://example.org/name.zip'
    >>> Requirement("Name>=1.0") == Requirement("name >= 1.0.0")
    True
    """

    __slots__ = ("extras", "marker", "name", "specifier", "url")

    def __init__(self, requirement_string: str) -> None:
        try:
            parsed = read_requirement(requirement_string, NODES)
            specifier = parsed and _read_specifiers(parsed[3])
            if not parsed or specifier is None:
                parsed = parse_requirement(requirement_string)
                specifier = SpecifierSet(parsed.specifier)
        except ParserSyntaxError as error:
            raise InvalidRequirement(str(error)) from error
        except InvalidSpecifier as error:
            if not follows_26_3():
                raise
            raise InvalidRequirement(str(error)) from error
        name, url, extras, _, marker = parsed
        self.name: str = name
        self.url: str | None = url or None
        self.extras: set[str] = set(extras)
        self.specifier: SpecifierSet = specifier
        self.marker: Marker | None = None
        if marker is not None:
            self.marker = Marker.__new__(Marker)
            self.marker._markers = _normalize_marker(marker, requirement_string)

    def _parts(self, name: str) -> Iterator[str]:
        yield name
        if self.extras:
            yield f"[{','.join(sorted(self.extras))}]"
        if self.specifier:
            yield str(self.specifier)
        if self.url:
            yield f" @ {self.url}" if follows_26() else f"@ {self.url}"
            if self.marker:
                yield " "
        if self.marker:
            yield f"; {self.marker}"

    def __str__(self) -> str:
        return "".join(self._parts(self.name))

    def __getstate__(self) -> Any:
        if not follows_26():
            names = ("name", "url", "extras", "specifier", "marker")
            return {**{name: getattr(self, name) for name in names}, **getattr(self, "__dict__", {})}
        # 26.2 reads the string alone
        prereleases = self.specifier._prereleases if follows_26_3() else None
        return str(self) if prereleases is None else (str(self), prereleases)

    def __setstate__(self, state: Any) -> None:
        if isinstance(state, dict) and state.keys() >= {"extras", "marker", "name", "specifier", "url"}:
            for name, value in state.items():
                setattr(self, name, value)
            return
        text, prereleases = state if isinstance(state, tuple) and len(state) == 2 else (state, None)
        if not isinstance(text, str) or not (prereleases is None or isinstance(prereleases, bool)):
            raise TypeError(f"Cannot restore Requirement from {state!r}")
        try:
            Requirement.__init__(self, text)
        except InvalidRequirement as error:
            raise TypeError(f"Cannot restore Requirement from {state!r}") from error
        self.specifier.prereleases = prereleases

    def __repr__(self) -> str:
        return f"<{self.__class__.__name__}({str(self)!r})>" if follows_26() else f"<Requirement('{self}')>"

    def __hash__(self) -> int:
        if not follows_26_3():
            return hash((self.__class__.__name__, *self._parts(canonicalize_name(self.name))))
        return hash((canonicalize_name(self.name), self._compared_extras(), self.specifier, self.url, self.marker))

    def _compared_extras(self) -> frozenset[str]:
        return frozenset(map(canonicalize_name, self.extras) if follows_26_3() else self.extras)

    def __eq__(self, other: Any) -> bool:
        if not isinstance(other, Requirement) and (other := _twin_of(Requirement, other)) is NotImplemented:
            return NotImplemented
        return (
            canonicalize_name(self.name) == canonicalize_name(other.name)
            and self._compared_extras() == other._compared_extras()
            and self.specifier == other.specifier
            and self.url == other.url
            and self.marker == other.marker
        )


def _read_specifiers(text: str) -> SpecifierSet | None:
    try:
        return SpecifierSet(text)
    except InvalidSpecifier:
        return None
