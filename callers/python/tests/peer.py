"""The library `packaging` that the tests compare with, and what the two are asked.

PEP440_PACKAGING in the environment names the folder that holds its folder `packaging`; else it is the one that is installed, or the newest copy that
a pip on this machine has. Where none is of a release that the swap replaces, the tests that compare are skipped.
"""
import glob
import importlib
import os
import random
import re
import shutil
import subprocess
import sys
import unittest

try:
    import pep440_rattle
except ModuleNotFoundError:  # those of a database ask `packaging` alone
    pep440_rattle = None

MOST = 2**64 - 1
TOKENS = (
    "1 0 01 10 . - _ a b c rc alpha beta pre preview post rev r dev + ! v V A RC Dev x ubuntu 1.0 2.3.4 .*".split()
    + [" ", "\t", "\n", "\v", "\x1c", "\u00a0", "\u2003", "\u0663", "\u017f", "18446744073709551615", "18446744073709551616"]
)
OPERATORS = ["==", "!=", "<=", ">=", "<", ">", "~=", "==="]
SUFFIX = re.compile(r"(a|b|rc|\.post|\.dev|\+).*")


# Those that the swap replaces.
RELEASES = ("24.1", "24.2", "25.0", "26.2", "26.3")
TOLD_BY_PIP = "import pip._vendor as v, pip._vendor.packaging as p; print(p.__version__, v.__path__[0])"


def number_of(version):
    return tuple(map(int, re.findall(r"[0-9]+", version)[:2]))


def is_fit(version):
    return version in RELEASES


def behaviour_of(version):
    """The release whose behaviour these modules have in place of this one."""
    return version.rpartition(" ")[2] if number_of(version) >= (26,) else "25.0"


def folder_of_a_pip():
    """The folder in which the newest pip on this machine has its copy, of those that are fit."""
    commands = [sys.executable, *(shutil.which(f"python3.{minor}") for minor in range(10, 20))]
    commands += glob.glob(os.path.join(os.environ.get("PYENV_ROOT", os.path.expanduser("~/.pyenv")), "versions/*/bin/python3"))
    told = [subprocess.run([each, "-c", TOLD_BY_PIP], capture_output=True, text=True, check=False).stdout for each in commands if each]
    found = [tuple(each.strip().split(" ", 1)) for each in told if each and is_fit(each.split(" ")[0])]
    return max(found, key=lambda it: number_of(it[0]))[1] if found else None


def imported(folder=None):
    """The modules `version` and `specifiers` of `packaging`, and which one it is; None where it is not there or is not fit."""
    if folder:
        sys.path.insert(0, folder)
    try:
        found, version, specifiers = (importlib.import_module(f"packaging{each}") for each in ("", ".version", ".specifiers"))
    except ImportError:
        return None
    finally:
        if folder:
            sys.path.remove(folder)
    if is_fit(found.__version__):
        return version, specifiers, f"packaging {found.__version__}"
    for name in [each for each in sys.modules if each.partition(".")[0] == "packaging"]:
        del sys.modules[name]
    return None


def find():
    """The modules `version` and `specifiers` of `packaging`, and which one it is."""
    folder = os.environ.get("PEP440_PACKAGING")
    found = imported(folder) if folder else imported() or imported(folder_of_a_pip())
    if not found:
        raise unittest.SkipTest(f"no packaging of {', '.join(RELEASES)} to compare with: name its folder in PEP440_PACKAGING")
    return found


def load():
    """As `find` returns it; from now on ours behave like it."""
    found = find()
    pep440_rattle.behave_like(behaviour_of(found[2]))
    return found


# ---- texts


def some_version(local=0.25):
    text = random.choice(["", "", "", "", "1!", "0!"])
    text += ".".join(str(random.choice([0, 0, 1, 2, 10, 255, 256, 20240101])) for _ in range(random.randint(1, 5)))
    if random.random() < 0.4:
        text += random.choice(["a", "b", "rc"]) + str(random.choice([0, 1, 2, 10]))
    if random.random() < 0.3:
        text += f".post{random.choice([0, 1, 2, 2097151, 2097152, MOST])}"
    if random.random() < 0.3:
        text += f".dev{random.randint(0, 2)}"
    if random.random() < local:
        text += "+" + ".".join(random.choices(["a", "1", "b2", "10", "2", "ubuntu"], k=random.randint(1, 3)))
    return text


def loosely(text):
    """The same version, written in another of the ways that are allowed."""
    for plain, others in [("rc", ["c", "-RC", ".pre.", "_preview-"]), ("a", ["alpha", "-A-", ".alpha"]), ("b", ["beta", "_B."])]:
        if random.random() < 0.4:
            text = re.sub(rf"(?<=[0-9]){plain}(?=[0-9])", random.choice(others), text, count=1)
    if random.random() < 0.4:
        text = re.sub(r"\.post(?=[0-9])", random.choice(["-", "-r", ".rev.", "post", "_POST-"]), text)
    if random.random() < 0.4:
        text = re.sub(r"\.dev(?=[0-9])", random.choice(["dev", "-dev", "_DEV_", ".dev."]), text)
    return random.choice(["", "", "v", "V"]) + text


def near(text):
    """A version that shares the release of this one, so that suffixes decide."""
    return re.sub(SUFFIX, "", text) + re.sub(r"^(\d+!)?[0-9.]*[0-9]", "", some_version())


def some_text():
    """A text that may be a version, or nearly."""
    if random.random() < 0.4:
        return "".join(random.choices(TOKENS, k=random.randint(1, 4)))
    text = random.choice(["", "", " ", "\n "]) + loosely(some_version())
    return text + "".join(random.choices(TOKENS, k=random.choice([0, 0, 0, 1, 2])))


def some_specifier():
    operator = random.choice(OPERATORS)
    version = some_version(0.2)
    if operator == "===" and random.random() < 0.3:
        version = "".join(random.choices("1.0aB+x*=!~_-/[", k=random.randint(0, 4)))
    elif operator in ("==", "!=") and random.random() < 0.4:
        version = re.sub(SUFFIX, "", version) + ".*"
    elif random.random() < 0.3:
        version = loosely(version)
    return random.choice(["", "", " "]) + operator + random.choice(["", "", " ", " \t", "\v", "\u00a0 "]) + version


def some_piece():
    """A text that may be a specifier, or nearly."""
    if random.random() < 0.3:
        return "".join(random.choices(TOKENS + OPERATORS * 3, k=random.randint(1, 4)))
    return some_specifier() + "".join(random.choices(TOKENS, k=random.choice([0, 0, 1])))


# ---- departures: the rules of the README's table, by the names that it gives them


class By25:
    """Tests by the behaviour of 25.0."""

    @classmethod
    def setUpClass(cls):
        pep440_rattle.behave_like("25.0")

    @classmethod
    def tearDownClass(cls):
        pep440_rattle.behave_like("26.3")


def follows_26():
    return pep440_rattle.behaves_like != "25.0"


def is_beyond(text):
    """`big numbers`, `other scripts`: texts that only `packaging` takes."""
    return not re.sub(r"\s", "", text).isascii() or any(int(it) > MOST for it in re.findall(r"[0-9]+", text))


def is_compatible_by_text(name, operator, version, print_of):
    """`loose compatible release`: `~=` beside a version that is not written as it prints, which releases before 26.3 cut as text."""
    return operator == "~=" and print_of(version) != version and number_of(name) < (26, 3)


def is_local_above(operator, bound, candidate):
    """`local above`: `>V` and a version of V's release with a local part, which is no local version of V itself."""
    if operator != ">" or candidate.local is None or follows_26():
        return False
    return type(candidate)(bound.base_version) == type(candidate)(candidate.base_version) and type(candidate)(candidate.public) != bound


def is_by_chance(specifiers):
    """By 25 the order of a set's members decides whether one that allows pre-releases is asked before one whose text is no version."""
    if follows_26():
        return None
    says = set()
    for each in specifiers:
        try:
            says.add(each.prereleases)
        except ValueError:
            says.add(None)
    return "order of members" if says >= {None, True} else None


# ---- what earlier releases of `packaging` did otherwise than the one that is followed (`pep440_rattle.behaves_like`)


def names_a_prerelease(specifier):
    """Its version is a pre-release or a developmental release."""
    return bool(re.search(r"[0-9][-_.]?(a|b|c|rc|alpha|beta|pre|preview|dev)", specifier.version, re.I))


# The first release that does as the one that is followed, the name of the difference, and whether it plays a part beside this specifier and, where
# there is one, this candidate.
CHANGES = [
    ((24, 2), "`<` and `>` name no pre-release", lambda it, _: it.operator in ("<", ">") and names_a_prerelease(it)),
]


def changed_since(name, specifiers, candidate=None):
    """The difference between the release of this name and the one that is followed that plays a part, or None."""
    rules = [(what, plays) for first, what, plays in CHANGES if number_of(name) < first]
    return next((what for what, plays in rules if any(plays(each, candidate) for each in specifiers)), None)
