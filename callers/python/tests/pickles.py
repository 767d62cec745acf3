"""Pickles that another machine reads: `pickles.py write` prints those of versions and specifiers, `pickles.py read` holds what another one wrote against its own."""
import pickle
import sys

from pep440_rattle import sort_keys
from pep440_rattle.specifiers import Specifier, SpecifierSet
from pep440_rattle.version import Version

SUFFIXES = ("", "a1", "b2", "rc18446744073709551615", ".post3", ".dev4", "rc1.post2.dev3")
PUBLIC = [f"{epoch}{first}.{second}{suffix}" for epoch in ("", "1!") for first in (0, 7, 2**64 - 1) for second in (0, 12) for suffix in SUFFIXES]
VERSIONS = [Version(f"{public}{local}") for public in PUBLIC for local in ("", "+7", "+ubuntu.1")]
SPECIFIERS = [made(f"{operator}{public}") for public in PUBLIC for operator in ("==", ">=", "<", "~=", "===") for made in (Specifier, SpecifierSet)]
VALUES = [VERSIONS, SPECIFIERS, sort_keys([*map(str, VERSIONS)])]

if sys.argv[1] == "write":
    pickle.dump(VALUES, sys.stdout.buffer)
else:
    read = pickle.load(sys.stdin.buffer)
    if read != VALUES or [*map(str, read[0])] != [*map(str, VERSIONS)] or sorted(read[0]) != sorted(VERSIONS):
        sys.exit("what another machine pickled is read otherwise")
    print(f"{len(VERSIONS)} versions and {len(SPECIFIERS)} specifiers read")
