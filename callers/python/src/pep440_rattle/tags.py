"""Tags of wheels: all names of `packaging.tags`, its very objects, where that can be imported, so that a process has one class `Tag`; else those of `_own_tags`.

Either is imported once a name is asked for.
"""
from __future__ import annotations

import functools
import importlib
import types
from typing import TYPE_CHECKING, Any

if TYPE_CHECKING:
    from ._own_tags import InvalidTag as InvalidTag
    from ._own_tags import Tag as Tag
    from ._own_tags import TooManyTagsError as TooManyTagsError
    from ._own_tags import UnsortedTagsError as UnsortedTagsError
    from ._own_tags import parse_tag as parse_tag


@functools.cache
def _module() -> types.ModuleType:
    try:
        return importlib.import_module("packaging.tags")
    except ImportError:
        return importlib.import_module("pep440_rattle._own_tags")


def __dir__() -> list[str]:
    return dir(_module())


def __getattr__(name: str) -> Any:
    if name == "__all__":
        return getattr(_module(), name, None) or [it for it in dir(_module()) if it[0] != "_"]
    if name[:2] == "__":
        raise AttributeError(f"module {__name__!r} has no attribute {name!r}")
    return getattr(_module(), name)
