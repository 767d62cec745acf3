"""Many texts in one call: for lists of thousands, of which no `Version` is to be made.

Each takes an iterable of texts, or of versions, and gives back what it was given. Other threads run meanwhile.
"""
from __future__ import annotations

from . import _core
from .specifiers import Specifier, SpecifierSet, _version_of
from .version import InvalidVersion

TYPE_CHECKING = False
if TYPE_CHECKING:
    from collections.abc import Iterable

    from .specifiers import UnparsedVersion, UnparsedVersionVar

__all__ = ["filter_texts", "sort_keys", "sort_texts"]


def filter_texts(
    specifiers: str | Specifier | SpecifierSet, texts: Iterable[UnparsedVersionVar], *, skip_invalid: bool = False
) -> list[UnparsedVersionVar]:
    """Those that the specifiers contain, pre-releases too, in their order.

    Raises `InvalidVersion` at the first text that is no version; with `skip_invalid` such texts are left out.

    >>> filter_texts(">=1.0", ["0.9", "1.0", "2.0a1"])
    ['1.0', '2.0a1']
    >>> filter_texts(">=1.0", ["1.0", "latest"], skip_invalid=True)
    ['1.0']
    """
    several = SpecifierSet(specifiers) if isinstance(specifiers, str) else specifiers
    items = tuple(texts)
    kept = several._kept(items, True, skip_invalid)
    return [it for it in items if _is_kept(several, it, skip_invalid)] if kept is None else kept


def _is_kept(several: Specifier | SpecifierSet, text: UnparsedVersion, skip_invalid: bool) -> bool:
    try:
        _version_of(text)
    except InvalidVersion:
        if skip_invalid:
            return False
        raise
    return several.contains(text, True)


def sort_texts(texts: Iterable[UnparsedVersionVar]) -> list[UnparsedVersionVar]:
    """All of them in the order of their versions, equal ones in the order in which they were given.

    Raises `InvalidVersion` at the first text that is no version.

    >>> sort_texts(["1.10", "1.9", "1.10rc1"])
    ['1.9', '1.10rc1', '1.10']
    """
    return _core.sort(texts)


def sort_keys(texts: Iterable[UnparsedVersion]) -> list[bytes]:
    """The sort key of each, as `Version.sort_key`.

    Raises `InvalidVersion` at the first text that is no version.

    >>> sort_keys(["1.0", "1.0.0"]) == [Version("1.0").sort_key] * 2
    True
    """
    return _core.sort_keys(texts)
