"""PEP 440 by a proved library: versions, specifiers, and many texts at once.

`pep440_rattle.version` and `pep440_rattle.specifiers` stand in for the modules of those names of `packaging`.
"""
import sys

if "t" in getattr(sys, "abiflags", ""):
    raise ImportError("pep440_rattle needs a Python with its global lock: there is no build of it for a free-threaded one")

from . import _core
from .specifiers import Bound, InvalidSpecifier, Specifier, SpecifierSet
from .texts import filter_texts, sort_keys, sort_texts
from .version import VERSION_PATTERN, InvalidVersion, Version, parse

__version__ = "0.3.0"

behaves_like = "26.3"
"""The release of `packaging` whose behaviour the modules have; README.md names the departures. `behave_like` sets it."""


def behave_like(release: str) -> None:
    """Has all modules of this process behave like release 26.3, 26.2 or 25.0 of `packaging`, which README.md compares.

    Call it before anything is made: versions and specifiers that are there already answer in part as before. Raises `ValueError` for any other release.
    """
    global behaves_like
    if release not in ("25.0", "26.2", "26.3"):
        raise ValueError(f"there is the behaviour of 25.0, 26.2 and 26.3, and not of {release}")
    _core.behave(release != "25.0", release == "26.3")
    behaves_like = release

__all__ = [
    "VERSION_PATTERN",
    "Bound",
    "InvalidSpecifier",
    "InvalidVersion",
    "Specifier",
    "SpecifierSet",
    "Version",
    "behave_like",
    "behaves_like",
    "filter_texts",
    "parse",
    "sort_keys",
    "sort_texts",
]
