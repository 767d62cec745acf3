"""The other modules of `packaging` over these two, beside themselves over their own, in processes of their own; and programs of others."""
import collections
import concurrent.futures
import functools
import json
import os
import re
import shutil
import subprocess
import sys
import tempfile
import unittest
import zipfile

import peer
import pep440_rattle.swap

# What is asked of the other modules: each line is printed as it is, or as the exception's class and the first line of its message.
ASKED = r"""
import json, re, sys
if sys.argv[1] == "swapped":
    import pep440_rattle.swap
    pep440_rattle.swap.swap()
if sys.argv[2]:
    sys.path.insert(0, sys.argv[2])
import packaging, packaging.version, packaging.specifiers
from packaging import markers, requirements, tags, utils
try:
    from packaging import metadata
except ImportError:
    metadata = None
REQUIREMENTS = [
    "name", "name>=1.0", "name >=1.0,<2.0,!=1.5.*", "name[a,b]~=1.4.2 ; python_version < '3.8'", "name (>=1.0)", "name(==1.0.*)", "name===foo.bar",
    "name===1.0-alpha", "name @ https://x.y/z.whl", "name>=1.0.*", "name>=", "name=1.0", "name>=1.0+local", "name==1.0+local", "name~=1", "name<1.0,",
    "name>=1.0;extra == 'x'", "name>=1.0 ; python_full_version >= '3.7.0b1' and os_name == 'posix'", "name!=v1.0-Beta.2", "name>1!2.0.post1.dev3",
    "name>=18446744073709551616", "name<2.0 or >3", "name>=1.0 python", "name; python_version ~= '3.8'", "name==1.0.dev4+a.1", "name>= 1 , < 2", "-name", "name>=1.0.0.0-r4", "name>=1.0_",
]
MARKERS = [
    "python_version >= '2.7'", "python_version > '3.100'", "python_full_version < '4.0a1'", "platform_release >= '1.0'", "implementation_version == '3.*'",
    "python_version in '3.9 3.10 3.11 3.12 3.13'", "python_version ~= '3.1'", "sys_platform == 'linux' or python_version == '2.7.*'", "os_name >= 'a'",
]
VERSIONS = ["1.0.0", "1.0.0rc1", "0.0", "1!2.0.0.post1", "x", "1.0+u-1", "V1.0-ALPHA", "1.4.0.dev0"]
FILES = ["name-1.0.tar.gz", "name-1.0-py3-none-any.whl", "name-1.0rc1-1-py3-none-any.whl", "name-x-py3-none-any.whl", "name.zip", "name-x.tar.gz", "a__b-1-py3-none-any.whl"]
METADATA = "Metadata-Version: 2.1\nName: name\nVersion: {}\nRequires-Python: {}\nRequires-Dist: other{}\n"

def asked(call, *given):
    try:
        return re.sub("@ [0-9]+", "@", str(call(*given)))
    except Exception as error:
        return type(error).__name__ + ": " + (str(error).splitlines() or [""])[0]

def parsed(text):
    it = requirements.Requirement(text)
    return it, it.name, sorted(it.extras), it.specifier, it.url, it.marker, "1.5" in it.specifier, it == requirements.Requirement(str(it)), hash(it) == hash(requirements.Requirement(str(it)))

said = [packaging.version.__name__]
said += [[text, asked(parsed, text)] for text in REQUIREMENTS]
said += [[text, asked(markers.Marker(text).evaluate)] for text in MARKERS]
for text in VERSIONS:
    said += [[text, asked(utils.canonicalize_version, text), asked(lambda: utils.canonicalize_version(text, strip_trailing_zero=False))]]
    said += [[text, asked(lambda: utils.canonicalize_version(packaging.version.Version(text)))]]
said += [[name, asked(utils.parse_wheel_filename, name), asked(utils.parse_sdist_filename, name)] for name in FILES]
said += [len(list(tags.sys_tags())) > 10]
def described(version, python, other):
    it = metadata.Metadata.from_email(METADATA.format(version, python, other))
    return it.version, it.requires_python, it.requires_dist
def faults(*given):
    try:
        return described(*given)
    except Exception as error:
        return type(error).__name__, sorted(str(each).splitlines()[0] for each in getattr(error, "exceptions", [error]))
if metadata:
    for given in [("1.0rc1", ">=3.7,<4", ">=1"), ("x", ">=3.7", ">=1"), ("1.0", ">=x", ">=1"), ("1.0", ">=3", ">=x")]:
        said += [[given, asked(faults, *given)]]
print(json.dumps(said))
"""

# What is pickled, with or without the swap, and shown once it was loaded, with it or without.
PICKLED = r"""
import pickle, sys
if sys.argv[1] == "swapped":
    import pep440_rattle.swap
    pep440_rattle.swap.swap()
sys.path.insert(0, sys.argv[2])
from packaging.specifiers import InvalidSpecifier, Specifier, SpecifierSet
from packaging.version import InvalidVersion, Version

class Slotted(Version):
    __slots__ = ("note", "__hidden")

class Named(Specifier):
    def __init__(self, name, text):
        super().__init__(text)
        self.name = name

class Logic(SpecifierSet):
    __slots__ = ("note", "_specs", "_prereleases")

class Keyed(Version):
    def __init__(self, text):
        super().__init__(text)
        self._key = (self._key[0], self._key[1][:1], *self._key[2:])

def objects():
    slotted = Slotted("1.0")
    slotted.note = slotted._Slotted__hidden = "mine"
    logic = Logic(">=1.0,<2", prereleases=True)
    logic.note = "mine"
    named, several = Named("mine", "=== X-y"), SpecifierSet("", prereleases=False)
    several._specs = frozenset([named])
    yield from [Version("1!2.0rc1.post2.dev3+U-1"), Version("1.dev0"), Version("0.0"), slotted, logic, Keyed("1.7+1")]
    yield from [Specifier("~= 1.0", prereleases=True), named, SpecifierSet(""), SpecifierSet(">=1.0,<2,===v1"), several]
    yield from [InvalidVersion("x"), InvalidSpecifier("y")]

def shown(it):
    notes = [getattr(it, name, None) for name in ("note", "_Slotted__hidden", "name", "_prereleases", "_key", "_spec")]
    about = [it < Version("1.9"), Keyed("1.5+1") == it, it.release] if isinstance(it, Version) else [str(it)]
    return [type(it).__module__, type(it).__qualname__, repr(it), notes, about, hash(it) == hash(next(again for again in objects() if repr(again) == repr(it)))]

if len(sys.argv) > 3:
    for it in pickle.loads(bytes.fromhex(sys.argv[3])):
        print(shown(it)[:-1] if isinstance(it, Exception) else shown(it))
else:
    # copyreg has no slots before protocol 2
    print(*(pickle.dumps([it for it in objects() if protocol > 1 or not vars(type(it)).get("__slots__")], protocol).hex() for protocol in range(5)), sep="\n")
"""

# What is pickled by one release, with the swap or without, and read by another one: words are whether it is swapped, the folder of `packaging` and, to
# read, a file with what others wrote.
SHAPES = r"""
import json, pickle, sys
if sys.argv[1] == "swapped":
    import pep440_rattle.swap
    pep440_rattle.swap.swap()
sys.path.insert(0, sys.argv[2])
from packaging.markers import Marker
from packaging.requirements import Requirement
from packaging.specifiers import InvalidSpecifier, Specifier, SpecifierSet
from packaging.version import InvalidVersion, Version

def used(it):
    hash(it), str(it)
    if isinstance(it, Version):
        it < Version("2"), it.release
    else:
        it.contains("1.5"), list(it.filter(["1", "2a1"]))
    return it

SHAPES = {
    **{text: Version(text) for text in ("1.0", "0.0", "1.dev0", "1.0.post7", "1.0+10.a", "1!2.0rc1.post2.dev3+u.1", "2024.1.2.3.4.5.0")},
    "used": used(Version("1.5a1+u")),
    **{text: Specifier(text) for text in (">=1.0", "==1.*", "~= 1.0", "=== X-y", "!=1.0+u", "<2.0a1")},
    "allows": Specifier(">=1.0", prereleases=True),
    "forbids": used(Specifier(">=1.0a1", prereleases=False)),
    **{f"set {text}": SpecifierSet(text) for text in ("", ">=1.0", ">=1.0, !=1.5, <2", ">1,===1.5-A1", ">=1.0,>=1.0.0")},
    "set that allows": SpecifierSet("<2", prereleases=True),
    "set that forbids": used(SpecifierSet(">=1.0,<2.0a1", prereleases=False)),
    **{text: Requirement(text) for text in ("Name", "name[b,a]>=1.0,<2; python_version > '3.1'", "name @ https://x.y/z ; extra == 'x'")},
    **{text: Marker(text) for text in ("os_name == 'nt'", "os_name == 'a' and (extra == 'b' or python_version in '3.1 3.2')")},
    "version in pieces": {Version("1.0"): [SpecifierSet(">=1"), Version("1.0")]},
    "error": InvalidVersion("x"),
    "other error": InvalidSpecifier("y"),
}

def shown(it):
    if isinstance(it, dict):
        return [shown(each) for pair in it.items() for each in (pair[0], *pair[1])] + [Version("1.0") in it]
    return [type(it).__name__, str(it), str(getattr(it, "_prereleases", None)), it.release if isinstance(it, Version) else None]

def read(name, pickled):
    try:
        it = pickle.loads(bytes.fromhex(pickled))
    except Exception as error:
        return "not read: " + type(error).__name__
    same = isinstance(it, (Exception, dict)) or (it == SHAPES[name] and hash(it) == hash(SHAPES[name]))
    return json.dumps([shown(it), same])

if len(sys.argv) > 3:
    with open(sys.argv[3], encoding="utf-8") as file:
        print(json.dumps({writer: {name: [read(name, it) for it in each] for name, each in written.items()} for writer, written in json.load(file).items()}))
else:
    print(json.dumps({name: [pickle.dumps(it, protocol).hex() for protocol in range(2, 6)] for name, it in SHAPES.items()}))
"""

# How the error ends over a release that was not tested.
WITHOUT = "or run this without pep440_rattle.swap"

# Requirements that only `packaging` takes, by the row of the README's table.
REFUSED = {"name>=18446744073709551616": "big numbers"}

# Programs of others, by the module that runs them and their words; each is run over a project of its own.
OF_WHEELS = ["--no-index", "--find-links", "."]
DOWNLOAD = ["pip", "download", *OF_WHEELS, "--dest", "out"]
INSTALL = ["pip", "install", *OF_WHEELS, "--dry-run", "--ignore-installed", "--break-system-packages"]
PROGRAMS = [
    ("hatchling", ["hatchling", "version"]),
    ("hatchling", ["hatchling", "version", "minor"]),
    ("hatchling", ["hatchling", "version", "rc"]),
    ("hatchling", ["hatchling", "version", "post"]),
    ("hatchling", ["hatchling", "version", "1.2.3"]),
    ("hatchling", ["hatchling", "metadata"]),
    ("hatchling", ["hatchling", "build", "--target", "wheel"]),
    ("setuptools_scm", ["setuptools_scm"]),
    ("build", ["build", "--wheel", "--no-isolation"]),
    ("build", ["build", "--sdist", "--no-isolation"]),
    ("pip", ["pip", "check"]),
    ("pip", ["pip", "list"]),
    ("pip", ["pip", "inspect"]),
    ("pip", ["pip", "index", "versions", *OF_WHEELS, "--pre", "thing"]),
    ("pip", [*DOWNLOAD, "nothing>=1.0rc1,<2"]),
    ("pip", [*DOWNLOAD, "thing"]),
    ("pip", [*DOWNLOAD, "--pre", "thing>=1"]),
    ("pip", [*DOWNLOAD, "thing!=1.0,>=0.1"]),
    ("pip", [*DOWNLOAD, "thing==1.0", "other<1"]),
    ("pip", [*DOWNLOAD, "thing=1.0"]),
    ("pip", [*DOWNLOAD, "thing===1.1RC1"]),
    ("pip", [*DOWNLOAD, "thing>=1.1.dev0,~=1.0", "--only-binary", ":all:"]),
    ("pip", [*DOWNLOAD, "other~=1.0; python_version > '3' and extra == ''"]),
    ("pip", ["pip", "wheel", *OF_WHEELS, "--wheel-dir", "out", "thing>=1.1rc1"]),
    ("pip", ["pip", "lock", *OF_WHEELS, "--output", "-", "thing"]),
    ("pip", ["pip", "install", *OF_WHEELS, "--target", "out", "thing"]),
    ("pip", [*INSTALL, "thing", "other>=2"]),
    ("pip", [*INSTALL, "thing==1.0", "other>=2"]),
    ("pip", [*INSTALL, "--constraint", "constraints.txt", "thing"]),
    ("pip", [*INSTALL, "--constraint", "constraints.txt", "--pre", "thing[extra]", "--report", "-", "--quiet"]),
    ("pip", [*INSTALL, "--python-version", "3.5", "--target", "out", "--only-binary", ":all:", "thing"]),
    ("pip", [*INSTALL, "--requirement", "constraints.txt"]),
    ("pdm", ["pdm", "lock", "--quiet"]),
    ("pdm", ["pdm", "lock", "--quiet", "--strategy", "no_cross_platform"]),
    ("pdm", ["pdm", "lock", "--quiet", "--python", ">=3.9,<3.12"]),
    ("unearth", ["unearth", "-f", ".", "thing>=1.0", "--all"]),
    ("unearth", ["unearth", "-f", ".", "thing"]),
    ("twine", ["twine", "check", "thing-1.0-py3-none-any.whl"]),
    ("tox", ["tox", "-l"]),
    ("tox", ["tox", "config", "-e", "one", "-k", "requires", "min_version"]),
    ("nox", ["nox", "-l"]),
    ("poetry", ["poetry", "check"]),
    ("poetry", ["poetry", "version", "minor"]),
    ("poetry", ["poetry", "version", "prerelease"]),
    ("poetry", ["poetry", "version", "2.0.post1"]),
]
PROJECT = """[build-system]
requires = ["hatchling>=1.0,<99"]
build-backend = "hatchling.build"

[project]
name = "thing"
dynamic = ["version"]
requires-python = ">=3.7,!=3.8.*"
dependencies = ["other>=1.0,<2"]

[tool.hatch.version]
path = "thing.py"

[tool.setuptools_scm]

[tool.poetry]
name = "thing"
version = "1.2.3rc1"
description = ""
authors = []

[tool.poetry.dependencies]
python = ">=3.7,!=3.8.*"
other = ">=1.0,<2"

[[tool.pdm.source]]
name = "pypi"
type = "find_links"
url = "file:///${PROJECT_ROOT}"
"""
FILES = {
    "pyproject.toml": PROJECT,
    "thing.py": '__version__ = "1.2.3rc1"\n',
    "tox.ini": "[tox]\nminversion = 3.20\nrequires =\n    tox >= 3.20\nenvlist = one, two\n",
    "constraints.txt": "other<1.5\nthing!=1.1rc1 ; python_version >= '3'\n",
    "noxfile.py": 'import nox\nnox.needs_version = ">=2020.1.1a1, <9999"\n@nox.session\ndef one(session): pass\n',
}
WHEELS = {"thing-0.1": "", "thing-1.0": "other>=1.0,<2", "thing-1.1rc1": "other~=1.4", "other-0.9": "", "other-1.5": "", "other-2.0": ""}
COMMITS = ["init -q", "add pyproject.toml thing.py", "commit -q -m one", "tag v1.2.3rc1", "commit -q --allow-empty -m two"]


def make_project(folder):
    """Files, wheels, and where there is git two commits with a tag; always the same ones."""
    shutil.rmtree(folder, ignore_errors=True)
    os.mkdir(folder)
    for name, text in FILES.items():
        write(os.path.join(folder, name), text)
    for release, requirement in WHEELS.items():
        name, _, version = release.partition("-")
        head = ["Metadata-Version: 2.1", f"Name: {name}", f"Version: {version}", *([f"Requires-Dist: {requirement}"] if requirement else []), ""]
        with zipfile.ZipFile(os.path.join(folder, f"{release}-py3-none-any.whl"), "w") as it:
            inside = {"METADATA": "\n".join(head), "WHEEL": "Wheel-Version: 1.0\nRoot-Is-Purelib: true\nTag: py3-none-any\n", "RECORD": ""}
            for each, text in inside.items():
                it.writestr(zipfile.ZipInfo(f"{release}.dist-info/{each}"), text)
    environment = dict(os.environ, **{f"GIT_{who}_{what}": "2020-01-01T00:00:00Z" for who in ("AUTHOR", "COMMITTER") for what in ("NAME", "EMAIL", "DATE")})
    for words in COMMITS if shutil.which("git") else []:
        subprocess.run(["git", *words.split()], cwd=folder, env=environment, check=True)


def write(path, text):
    with open(path, "w", encoding="utf-8") as it:
        it.write(text)


def folder_of(module):
    return os.path.dirname(os.path.dirname(module.__file__))


def run(words, folder=None):
    path = [os.environ.get("PEP440_PACKAGING"), *sys.path]
    environment = dict(os.environ, PYTHONPATH=os.pathsep.join(filter(None, path)), PYTHONDONTWRITEBYTECODE="1")
    ran = subprocess.run([sys.executable, *words], capture_output=True, text=True, check=False, cwd=folder, env=environment)
    return ran.returncode, ran.stdout, ran.stderr


class OtherModules(unittest.TestCase):
    def answers(self, kind, folder):
        status, said, errors = run(["-c", ASKED, kind, folder])
        self.assertEqual((status, errors), (0, ""))
        return json.loads(said)

    def test_whole_packaging(self):
        theirs = peer.load()[0]
        folder = folder_of(sys.modules[theirs.__name__.rpartition(".")[0]])
        plain, swapped = self.answers("plain", folder), self.answers("swapped", folder)
        self.assertEqual((plain[0], swapped[0]), ("packaging.version", "pep440_rattle.version"))
        refused = []
        for before, after in zip(plain[1:], swapped[1:], strict=True):
            with self.subTest(asked=before):
                if isinstance(before, list) and isinstance(before[0], str) and before[0] in REFUSED:
                    self.assertEqual([it[1].startswith("InvalidRequirement: ") for it in (before, after)], [False, True], after)
                    refused.append(before[0])
                else:
                    self.assertEqual(self.plainly(after), self.plainly(before))
        self.assertEqual(set(refused), set(REFUSED))
        print(f"\n{len(plain) - 1} questions to the other modules of {peer.load()[2]}, {len(refused)} left out as departures: {', '.join(REFUSED.values())}")

    def test_pickles(self):
        """Those of subclasses, which `packaging` 26 writes without what they hold besides."""
        theirs = peer.load()[0]
        if peer.follows_26():
            self.skipTest("packaging 26 has no such subclasses")
        folder = folder_of(sys.modules[theirs.__name__.rpartition(".")[0]])

        def said(*words):
            status, lines, errors = run(["-c", PICKLED, words[0], folder, *words[1:]])
            self.assertEqual((status, errors), (0, ""))
            return lines

        made = {kind: said(kind).split() for kind in ("plain", "swapped")}
        for protocol, plain in enumerate(made["plain"]):
            wanted = said("plain", plain)
            for words in (("swapped", plain), ("plain", made["swapped"][protocol]), ("swapped", made["swapped"][protocol])):
                with self.subTest(loaded=words[0], is_made_plain=words[1] is plain, protocol=protocol):
                    self.assertEqual(said(*words), wanted)

    @unittest.skipUnless(os.environ.get("PEP440_RELEASES"), "PEP440_RELEASES names no folder of releases")
    def test_pickles_between_releases(self):
        """What one release writes another one reads, with the swap on either side as without; and with the swap each one reads all."""
        folders = {each: os.path.join(os.environ["PEP440_RELEASES"], each) for each in peer.RELEASES}
        kinds = [(each, kind) for each in folders for kind in ("plain", "swapped")]

        def said(release, kind, *words):
            status, lines, errors = run(["-c", SHAPES, kind, folders[release], *words])
            self.assertEqual((status, errors), (0, ""), (release, kind))
            return json.loads(lines)

        written = {f"{release} {kind}": said(release, kind) for release, kind in kinds}
        with tempfile.TemporaryDirectory() as work:
            path = os.path.join(work, "written")
            write(path, json.dumps(written))
            found = {(release, kind): said(release, kind, path) for release, kind in kinds}
        failed = [reader for reader in kinds for read in found[reader].values() for each in read.values() for it in each if "not read" in it]
        for release, kind in kinds:
            for writer in folders:
                for name in written[f"{writer} plain"]:
                    plain, own = found[release, "plain"][f"{writer} plain"][name], found[release, "plain"][f"{release} plain"][name]
                    with self.subTest(read=release, swapped=kind, written=writer, shape=name):
                        self.assertIn("true]", own[0])
                        if kind == "swapped":
                            both = [found[release, kind][f"{writer} {each}"][name] for each in ("plain", "swapped")]
                            self.assertEqual(both, [own, own])
                        else:
                            # where it reads nothing of the other release, it may read what was written with the swap
                            wanted = (own, plain) if "not read" in plain[0] else (plain,)
                            self.assertIn(found[release, kind][f"{writer} swapped"][name], wanted)
        self.assertEqual({kind for _, kind in failed}, {"plain"})
        print(f"\n{len(written['26.3 plain'])} shapes of pickles between {', '.join(folders)}, with the swap on each side or none")

    @staticmethod
    def plainly(said):
        """Without the reasons that these modules add to messages, and the quotes that only some releases of `packaging` write."""
        return [it.split("': ")[0].replace("'", "") if isinstance(it, str) and "nvalid" in it else it for it in said] if isinstance(said, list) else said


@functools.cache
def is_there(module):
    """Whether a program is there, and of pip whether its own `packaging` is replaced: most have an older one."""
    if module == "pip":
        return peer.is_fit(run(["-c", peer.TOLD_BY_PIP])[1].partition(" ")[0])
    return 0 in (run(["-c", f"import {module}.__main__"])[0], run(["-c", f"import {module}"])[0])


class Programs(unittest.TestCase):
    def test_programs(self):
        same, left_out = [], [module for module, _ in PROGRAMS if not is_there(module)]
        programs = [it for it in PROGRAMS if it[0] not in left_out]
        with concurrent.futures.ThreadPoolExecutor(os.cpu_count()) as pool:
            for (module, words), (swapped, plain) in zip(programs, pool.map(self.results_of_both, programs)):
                if WITHOUT in swapped[0][2]:
                    left_out.append(module)
                    continue
                with self.subTest(words=words):
                    self.assertEqual(swapped, plain)
                same.append(module)
        told = ", ".join(f"{count} of {module}" for module, count in collections.Counter(same).items())
        print(f"\nprograms with the same outputs: {told}; not installed, or not tested with, so left out: {', '.join(dict.fromkeys(left_out)) or 'none'}")

    def results_of_both(self, program):
        """Those with the swap and those without, in one folder after the other, since paths are printed."""
        with tempfile.TemporaryDirectory() as work:
            folder = os.path.join(work, "project")
            return [self.results([*swap, "-m", *program[1]], folder) for swap in (["-m", "pep440_rattle.swap"], [])]

    def test_requirements_that_pip_refuses(self):
        """What only `packaging` takes ends in pip's own message; a pip whose copy is not replaced finds no such version."""
        status, told, _ = run(["-c", peer.TOLD_BY_PIP])
        if status:
            self.skipTest("no pip here")
        said = "Could not find a version that satisfies the requirement " if peer.number_of(told) < (22,) else "Invalid requirement: "
        status, _, errors = run(["-m", "pep440_rattle.swap", "-m", "pip", "download", "--no-index", "nothing>=18446744073709551616"])
        if WITHOUT in errors:
            self.skipTest("the packaging in this pip was not tested")
        self.assertEqual((status, "Traceback" in errors, f"ERROR: {said}" in errors), (1, False, True), errors)

    def results(self, words, folder):
        """What the program says, without the seconds that it took, and what it leaves of the project's files."""
        make_project(folder)
        status, said, errors = run(words, folder)
        done, left = (status, *(re.sub("[0-9]:[0-9]{2}:[0-9]{2} ", "", it) for it in (said, errors))), {}
        for name in [*FILES, "pdm.lock"]:
            if os.path.exists(os.path.join(folder, name)):
                with open(os.path.join(folder, name), encoding="utf-8") as it:
                    left[name] = it.read()
        return done, left


class Swaps(unittest.TestCase):
    def test_too_late(self):
        program = "import sys, types; sys.modules['packaging.version'] = types.ModuleType('packaging.version'); import pep440_rattle.swap as it; it.swap()"
        self.assertIn("RuntimeError: imported before the swap: packaging.version", run(["-c", program])[2])

    def test_script_and_copies(self):
        with tempfile.TemporaryDirectory() as folder:
            for package in ("", "mine", "mine/_vendor", "mine/_vendor/packaging", "packaging"):
                os.makedirs(os.path.join(folder, package), exist_ok=True)
                write(os.path.join(folder, package, "__init__.py"), '__version__ = "25.0"\n')
            script = os.path.join(folder, "script.py")
            head = "import sys, packaging.version, mine._vendor.packaging.specifiers as two\nfrom packaging import specifiers\n"
            write(script, head + "print(packaging.version.__name__, two.__name__, specifiers is two, sys.argv[1:], __name__)\n")
            wanted = "pep440_rattle.version pep440_rattle.specifiers True ['a', '-b'] __main__\n"
            self.assertEqual(run(["-m", "pep440_rattle.swap", script, "a", "-b"]), (0, wanted, ""))

    def test_copies_of_two_behaviours(self):
        """The first one says how all behave, and one that behaves otherwise stays what it is."""
        with tempfile.TemporaryDirectory() as folder:
            for package, release in (("packaging", "26.2"), ("mine/_vendor/packaging", "25.0"), ("yours/_vendor/packaging", "26.3")):
                os.makedirs(os.path.join(folder, package))
                write(os.path.join(folder, package, "__init__.py"), f'__version__ = "{release}"\n')
                write(os.path.join(folder, package, "version.py"), "")
            program = "import pep440_rattle.swap as it; it.swap()\nfrom {0} import version as one\nfrom {1} import version as two\nimport pep440_rattle\n"
            program += "from yours._vendor.packaging import version\nprint(one.__name__, two.__name__, version.__name__, pep440_rattle.behaves_like)"
            packages = ["packaging", "mine._vendor.packaging"]
            for names, behaves_like in ((packages, "26.2"), (packages[::-1], "25.0")):
                wanted = f"pep440_rattle.version {names[1]}.version yours._vendor.packaging.version {behaves_like}\n"
                self.assertEqual(run(["-c", program.format(*names)], folder), (0, wanted, ""))

    def test_releases_that_were_not_tested(self):
        self.assertEqual(tuple(pep440_rattle.swap._TESTED), peer.RELEASES)
        self.assertEqual(list(pep440_rattle.swap._TESTED.values()), [*map(peer.behaviour_of, peer.RELEASES)])
        imports = "import pep440_rattle.swap as it; it.swap(must=True); import {0}packaging; print({0}packaging.__version__, flush=True); import {0}packaging.{1}"
        with tempfile.TemporaryDirectory() as folder:
            for owner, way_out in (("", f"install packaging==26.3, {WITHOUT}"), ("mine._vendor.", f"a release of mine that has one of these, {WITHOUT}")):
                package = os.path.join(folder, *owner.split("."), "packaging")
                os.makedirs(package)
                for name in ("version", "specifiers"):
                    write(os.path.join(package, f"{name}.py"), "")
                for release, is_refused in (("26.4", True), ("23.0", True), ("25.1.dev0", True), ("unknown", True), ("21.3", False), ("25.0", False)):
                    write(os.path.join(package, "__init__.py"), f"__version__ = {release!r}\n")
                    for name in ("version", "specifiers"):
                        with self.subTest(release=release, owner=owner, name=name):
                            status, said, errors = run(["-c", imports.format(owner, name)], folder)
                            self.assertEqual((status, said), (is_refused, f"{release}\n"), errors)
                            last = errors.splitlines()[-1] if errors else ""
                            told = [f"ImportError: {owner}packaging is release {release}, ", "24.1, 24.2, 25.0, 26.2, 26.3 alone", way_out]
                            self.assertEqual([it in last for it in told], [is_refused] * 3, last)

    def test_releases_that_stay(self):
        """Without the command, one that was not tested stays what it is, with one warning that names it."""
        program = "import pep440_rattle.swap as it; it.swap()\nfrom packaging import version, specifiers\nprint(version.__name__, specifiers.__name__)"
        with tempfile.TemporaryDirectory() as folder:
            os.mkdir(os.path.join(folder, "packaging"))
            for name in ("version", "specifiers"):
                write(os.path.join(folder, "packaging", f"{name}.py"), "")
            write(os.path.join(folder, "program.py"), program)
            for release, ours, is_warned in (("26.4", False, True), ("26.0", False, True), ("23.0", False, True), ("21.3", False, False), ("24.1", True, False)):
                write(os.path.join(folder, "packaging", "__init__.py"), f"__version__ = {release!r}\n")
                status, said, errors = run(["program.py"], folder)
                package = "pep440_rattle" if ours else "packaging"
                with self.subTest(release=release):
                    self.assertEqual((status, said), (0, f"{package}.version {package}.specifiers\n"), errors)
                    warned = f"program.py:2: RuntimeWarning: packaging is release {release}, and pep440_rattle was tested in place of 24.1, 24.2, 25.0, 26.2, 26.3 alone, so it stays: "
                    self.assertEqual((errors.count("RuntimeWarning"), warned in errors), (is_warned, is_warned), errors)

    def test_words(self):
        usage = "usage: python -m pep440_rattle.swap [-m] PROGRAM WORD..\n"
        for words, wanted in (([], (1, "", usage)), (["-m"], (1, "", usage)), (["-x"], (1, "", usage)), (["--version"], (1, "", usage))):
            self.assertEqual(run(["-m", "pep440_rattle.swap", *words]), wanted)
        for word in ("-h", "--help"):
            status, said, errors = run(["-m", "pep440_rattle.swap", word])
            self.assertEqual((status, "    python -m pep440_rattle.swap -m MODULE WORD.." in said, errors), (0, True, ""))


if __name__ == "__main__":
    unittest.main()
