"""Runs a program with these modules in place of those of `packaging`: `version`, `specifiers`, `ranges`, `requirements`, `markers` and `utils`.

    python -m pep440_rattle.swap PROGRAM WORD..        a script by its path, or one of those that the interpreter's environment has
    python -m pep440_rattle.swap -m MODULE WORD..      a module

Copies that a package carries along are replaced too: those of pip, of setuptools, and every other `packaging` below a folder `_vendor` or
`extern`. The first one that is imported says for the whole process whether these modules behave like 25.0, 26.2 or 26.3; one that behaves otherwise stays
what it is. The other modules of `packaging` stay what they are, and so do all of a release that these modules were not tested in place of, with a warning;
but from this command, where it is newer than 21, an import of one of those raises ImportError. A file `sitecustomize.py` with the line
`import pep440_rattle.swap; pep440_rattle.swap.swap()` does so for each program of an environment.
"""
from __future__ import annotations

import importlib.abc
import importlib.machinery
import importlib.util
import os
import re
import runpy
import shutil
import sys
import sysconfig
import types
import warnings
from collections.abc import Sequence

import pep440_rattle

from . import ranges, specifiers, version

__all__ = ["swap"]

_OURS = {"version": version, "specifiers": specifiers, "ranges": ranges}
# The classes that `packaging` has, too: pickles know them by their modules' names.
_CLASSES = ("Version", "InvalidVersion", "_Version", "BaseSpecifier", "Specifier", "SpecifierSet", "InvalidSpecifier", "VersionRange")
# Modules that each copy has of its own, executed under its name, since they use others of the copy, as its `tags`.
_COPIED = ("requirements", "markers", "utils", "_parser")
# The releases of `packaging` that the tests are run beside, and the one whose behaviour each has.
_TESTED = {"24.1": "25.0", "24.2": "25.0", "25.0": "25.0", "26.2": "26.2", "26.3": "26.3"}
_REPLACED = re.compile(rf"(?:.*\.(?:_vendor|extern)\.)?packaging\.({'|'.join([*_OURS, *_COPIED])})")


# The packages that are replaced, and those that stay with a warning.
_replaced: set[str] = set()
_warned: set[str] = set()


def _is_replaced(package: str, must: bool) -> bool:
    """Whether its release of `packaging` is replaced: one before 22 is not, which knows versions beyond PEP 440, nor one that behaves otherwise than another
    one that is, nor, unless it must be, one that was not tested."""
    release: str = getattr(sys.modules[package], "__version__", "unknown")
    number, owner = release.partition(".")[0], package.partition(".")[0]
    if release in _TESTED:
        if not _replaced:
            pep440_rattle.behave_like(_TESTED[release])
        if pep440_rattle.behaves_like == _TESTED[release]:
            _replaced.add(package)
        return package in _replaced
    if number.isdigit() and int(number) < 22:
        return False
    other = "packaging==26.3" if owner == "packaging" else f"a release of {owner} that has one of these"
    why = f"{package} is release {release}, and pep440_rattle was tested in place of {', '.join(_TESTED)} alone"
    if must:
        raise ImportError(f"{why}: install {other}, or run this without pep440_rattle.swap")
    if package not in _warned:
        _warned.add(package)
        warnings.warn(f"{why}, so it stays: install {other}", RuntimeWarning, stacklevel=3)
    return False


class _Finder(importlib.abc.MetaPathFinder, importlib.abc.Loader):
    """Finds these modules under the replaced names; where they must be, a release that was not tested is an error."""

    def __init__(self, must: bool) -> None:
        self.must = must

    def find_spec(
        self, name: str, path: Sequence[str] | None, target: types.ModuleType | None = None
    ) -> importlib.machinery.ModuleSpec | None:
        package, _, last = name.rpartition(".")
        if not _REPLACED.fullmatch(name) or not _is_replaced(package, self.must):
            return None
        if last == "ranges" and sys.modules[package].__version__ != "26.3":  # no other release has them
            return None
        if last in _OURS:
            return importlib.machinery.ModuleSpec(name, self)
        return importlib.util.spec_from_file_location(name, os.path.join(os.path.dirname(__file__), f"{last}.py"))

    def exec_module(self, module: types.ModuleType) -> None:
        # the import system takes what stands here by then
        last = module.__name__.rpartition(".")[2]
        sys.modules[module.__name__] = ours = _OURS[last]
        for it in vars(ours).values():
            is_own = isinstance(it, type) and it.__name__ in _CLASSES and it.__module__.rpartition(".")[2] == last
            # of several copies `packaging` itself names them, else the first
            if is_own and (it.__module__ == ours.__name__ or module.__name__ == f"packaging.{last}"):
                it.__module__ = module.__name__


def swap(must: bool = False) -> None:
    """From now on each import of these modules of `packaging` gives ours. Where its release was not tested it gives its own, with a `RuntimeWarning`, or where
    it must give ours, raises `ImportError`. It may be called again.

    Raises `RuntimeError` where one of them was imported before: who did so has other classes by now.
    """
    if any(isinstance(each, _Finder) for each in sys.meta_path):
        return
    before = [name for name in sys.modules if _REPLACED.fullmatch(name)]
    if before:
        raise RuntimeError(f"imported before the swap: {', '.join(before)}")
    sys.meta_path.insert(0, _Finder(must))


def _path_of(program: str) -> str:
    beside = os.path.join(sysconfig.get_path("scripts"), program)
    if os.sep not in program and not os.path.exists(program):
        return beside if os.path.exists(beside) else shutil.which(program) or program
    return program


def _main() -> None:
    words = sys.argv[1:]
    if words[:1] in (["-h"], ["--help"]):
        print(__doc__, end="")
        return
    if not words or words == ["-m"] or (words[0] != "-m" and words[0].startswith("-")):
        sys.exit("usage: python -m pep440_rattle.swap [-m] PROGRAM WORD..")
    swap(must=True)
    if words[0] == "-m":
        sys.argv = words[1:]
        sys.path[0] = os.getcwd()
        runpy.run_module(words[1], run_name="__main__", alter_sys=True)
    else:
        sys.argv = words
        program = _path_of(words[0])
        sys.path[0] = os.path.dirname(os.path.abspath(program))
        runpy.run_path(program, run_name="__main__")


if __name__ == "__main__":
    _main()
