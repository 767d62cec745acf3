"""`python -m pep440_rattle WORD..` is `pyver WORD..`, the program that the wheel brings."""
import os
import pathlib
import sys
import sysconfig


def _folders() -> list[pathlib.Path]:
    """Where installers put programs: beside this folder of packages (`pip install --target`), of this environment, and of the user."""
    user = sysconfig.get_preferred_scheme("user")
    schemes = [sysconfig.get_path("scripts"), sysconfig.get_path("scripts", scheme=user)]
    return [pathlib.Path(__file__).resolve().parent.parent / "bin", *map(pathlib.Path, schemes)]


def _main() -> None:
    program = next((it for folder in _folders() if (it := folder / "pyver").is_file()), None)
    if not program:
        sys.exit("pep440_rattle: there is no pyver here: the wheel was made without programs, or they were removed")
    os.execv(program, [str(program), *sys.argv[1:]])


if __name__ == "__main__":
    _main()
