"""What the README says: its table of departures from `packaging`, a test for each row by its name; of 25.0, 26.2 and 26.3, here and there; and the names of 26.3."""
import copy
import doctest
import importlib.util
import inspect
import itertools
import json
import os
import pickle
import pkgutil
import re
import subprocess
import sys
import unittest
import warnings

import peer
import pep440_rattle
from pep440_rattle import InvalidSpecifier, InvalidVersion, Specifier, SpecifierSet, Version
from pep440_rattle import _own_tags, markers, ranges, requirements, specifiers, utils, version

MOST = 2**64 - 1
README = os.path.join(os.path.dirname(os.path.dirname(os.path.abspath(__file__))), "README.md")
MODULES = {"version": version, "specifiers": specifiers, "requirements": requirements, "markers": markers, "utils": utils}
OF_26 = {**MODULES, "ranges": ranges, "tags": _own_tags}
# What is not here: modules whole, and, where there is no `packaging`, names of one of them.
NOT_HERE = {"dependency_groups", "direct_url", "errors", "licenses", "metadata", "pylock"}
NOT_IN_TAGS = {
    *("INTERPRETER_SHORT_NAMES", "AppleVersion", "PythonVersion", "android_platforms", "compatible_tags", "cpython_tags"),
    *("create_compatible_tags_selector", "generic_tags", "interpreter_name", "interpreter_version", "ios_platforms", "mac_platforms", "platform_tags"),
    *("pure_python_tags", "sys_tags"),
}
# What an expression of the table is, in `packaging`: expressions are read from standard input.
OF_PACKAGING = """
import json, sys
sys.path.insert(0, sys.argv[1])
import packaging.markers, packaging.requirements, packaging.specifiers, packaging.utils, packaging.version
names = {name: it for each in sys.argv[2:] for name, it in vars(sys.modules["packaging." + each]).items()}
def shown(text):
    try:
        return repr(eval(text, names))
    except Exception as error:
        return type(error).__name__
print(json.dumps([shown(text) for text in json.load(sys.stdin)]))
"""
# Rows that the README leaves out.
MORE = [
    ('Specifier("===1.0").contains("v1.0")', 'True', 'False'),
    ('SpecifierSet(">=1").prereleases', 'False', 'None'),
    ('Specifier("<1.post1").contains("1a1", True)', 'False', 'True'),
    ('SpecifierSet("").contains("x")', 'InvalidVersion', 'True'),
    ('Version(1)', 'TypeError', 'InvalidVersion'),
    ('type("Mine", (Version,), {})("1")', "<Version('1')>", "<Mine('1')>"),
    ('len(SpecifierSet(">=1,>=1.0"))', '1', '2'),
    ('Marker("extra == \'a\'").evaluate(context="requirement")', 'KeyError', 'UndefinedEnvironmentName'),
    ('Requirement("a\\n")', "<Requirement('a')>", 'InvalidRequirement'),
    ('parse_sdist_filename("-1.tar.gz")', "('', <Version('1')>)", 'InvalidSdistFilename'),
    ('str(Marker("os_name == \'a\' and extra == \'B_c\'"))', '\'os_name == "a" and extra == "B_c"\'', '\'os_name == "a" and extra == "b-c"\''),
    ('list(SpecifierSet(">=1").filter(["2a1"]))', '[]', "['2a1']"),
    ('SpecifierSet(">=1").contains("1a1", True, installed=True)', 'True', 'False'),
    ('Specifier(">1a1").contains("1.post1", True)', 'False', 'True'),
    ('list(SpecifierSet(">=1").filter(["x", "2"]))', 'InvalidVersion', "['2']"),
    ('Specifier("===1.0") == Specifier("===1.0.0")', 'True', 'False'),
    ('Specifier("===x").prereleases', 'InvalidVersion', 'None'),
    ('Marker("os_name == \'1\'").evaluate({"os_name": "1.0"})', 'True', 'False'),
    ('Requirement("a[B]") == Requirement("a[b]")', 'False', 'True'),
    ('Marker("extras == \'a\'").evaluate(context="lock_file")', 'AssertionError', 'UndefinedComparison'),
    ('str(Requirement("a[b] @ file:c"))', "'a[b]@ file:c'", "'a[b] @ file:c'"),
    ('Requirement("a===1,~=1")', 'InvalidSpecifier', 'InvalidRequirement'),
    ('str(Marker("((extra == \'a\' or os_name == \'b\')) and os_name == \'c\'"))', '\'extra == "a" or os_name == "b" and os_name == "c"\'', '\'(extra == "a" or os_name == "b") and os_name == "c"\''),
    ('str(Marker("os_name == \'\\"\'"))', '\'os_name == """\'', '\'os_name == \\\'"\\\'\''),
    ('is_normalized_name("a--b")', 'True', 'False'),
    ('Marker("os_name == \'a\'").__reduce_ex__(2)[2]', "{'_markers': [(<Variable('os_name')>, <Op('==')>, <Value('a')>)]}", '\'os_name == "a"\''),
]
# What 26.2 and 26.3 do otherwise than one another: an expression, by either.
OF_26_2 = [
    ('Requirement("requests>=2\\n")', "<Requirement('requests>=2')>", 'InvalidRequirement'),
    ('Marker("(os_name == \'a\')\\n")', '<Marker(\'os_name == "a"\')>', 'InvalidMarker'),
    ('str(Marker("os_name == \'a\' and (extra == \'B_c\')"))', '\'os_name == "a" and extra == "B_c"\'', '\'os_name == "a" and extra == "b-c"\''),
    ('str(Marker("\'B_c\' in extras"))', '\'"B_c" in extras\'', '\'"b-c" in extras\''),
    ('str(Marker("extra == os_name"))', '\'extra == "os-name"\'', "'extra == os_name'"),
    ('Marker("extra == \'a\'").evaluate(context="requirement")', 'KeyError', 'UndefinedEnvironmentName'),
    ('Marker("extras == \'a\'").evaluate(context="lock_file")', 'AssertionError', 'UndefinedComparison'),
    ('str(Marker("((extra == \'a\' or os_name == \'b\')) and os_name == \'c\'"))', '\'extra == "a" or os_name == "b" and os_name == "c"\'', '\'(extra == "a" or os_name == "b") and os_name == "c"\''),
    ('str(Marker("os_name == \'\\"\'"))', '\'os_name == """\'', '\'os_name == \\\'"\\\'\''),
    ('Marker("os_name == \'\\\\x\'")', 'SyntaxError', 'InvalidMarker'),
    ('Requirement("a===1,~=1")', 'InvalidSpecifier', 'InvalidRequirement'),
    ('Requirement("a[B]") == Requirement("a[b]")', 'False', 'True'),
    ('hash(Requirement("a==1")) == hash(Requirement("a==1.0"))', 'False', 'True'),
    ('is_normalized_name("a--b")', 'True', 'False'),
    ('parse_sdist_filename("-1.tar.gz")', "('', <Version('1')>)", 'InvalidSdistFilename'),
    ('parse_wheel_filename("-1-py3-none-any.whl")[0]', "''", 'InvalidWheelFilename'),
    ('len(parse_wheel_filename("a-1-3.py3-none-any.whl")[3])', '2', 'InvalidWheelFilename'),
    ('len(parse_wheel_filename("a-1-py3.-none-any.whl")[3])', '2', 'InvalidWheelFilename'),
    ('Version(1)', 'TypeError', 'InvalidVersion'),
    ('Version.from_parts(release=(1,), pre=(1, 1))', 'AttributeError', 'InvalidVersion'),
    ('canonicalize_version(1)', 'TypeError', 'InvalidVersion'),
    ('SpecifierSet(">=1").contains(1)', 'TypeError', 'False'),
    ('list(SpecifierSet(">=1").filter(["1", 1]))', 'TypeError', "['1']"),
    ('list(Specifier("===1").filter([1]))', 'TypeError', '[1]'),
]
# What is compared with the like of the other library.
TWINS = {
    ("version", "Version"): ["1.0", "1.0.0", "1.0+u", "1.0a1"],
    ("specifiers", "Specifier"): [">=1.0", ">= 1.0.0", "~=1.0", "===x"],
    ("specifiers", "SpecifierSet"): [">=1.0,<2", "<2.0,>=1", "", "===x"],
    ("requirements", "Requirement"): ["a_b[c]>=1; os_name == 'a'", "A-b[c] >=1.0; os_name=='a'", "a-b", "a-b @ file:///c"],
    ("markers", "Marker"): ["os_name == 'a'", "os_name=='a'", "os_name == 'b' and extra == 'c'"],
}


class LegacyVersion:
    """As a release before 22 has it: no version by PEP 440."""

    __module__ = "packaging.version"

    def __str__(self):
        return "1.0"


# Imports the package in a second interpreter, of the kind that is given, and where `both` is given in the main one before; fails as the import does.
SECOND = """
import sys
if "both" in sys.argv:
    import pep440_rattle
try:
    import _interpreters as them
    second = them.create("isolated" if "isolated" in sys.argv else "legacy")
except ImportError:
    import _xxsubinterpreters as them
    second = them.create(isolated="isolated" in sys.argv)
failure = them.run_string(second, f"import sys; sys.path[:] = {sys.path!r}; import pep440_rattle")
sys.exit(failure and failure.formatted)
"""
# Tags where there is no `packaging`; prints their pickles, in hexadecimal.
OWN_TAGS = """
import copy, pickle, sys
sys.modules["packaging"] = None
from pep440_rattle import tags, utils
found = utils.parse_wheel_filename("a-1.0-py2.py3-none-any.whl")[3]
assert {*map(str, found)} == {"py2-none-any", "py3-none-any"} and {*map(type, found)} == {tags.Tag}
assert found == tags.parse_tag("py2.py3-none-any") == copy.deepcopy(found) and not hasattr(tags, "sys_tags")
print(*(pickle.dumps(found, protocol).hex() for protocol in range(pickle.HIGHEST_PROTOCOL + 1)))
"""
# Tags beside the `packaging` of the folder given first, and the pickles given next; also that of a tag as the first releases had it.
THEIR_TAGS = """
import pickle, sys, typing
sys.path.insert(0, sys.argv[1])
from pep440_rattle import tags, utils
assert not {"packaging", "pep440_rattle._own_tags"} & {*sys.modules}
from packaging import tags as theirs
best = next(theirs.sys_tags())
found = utils.parse_wheel_filename(f"a-1.0-{best}.whl")[3]
assert found & {*theirs.sys_tags()} == {best} == found == pickle.loads(pickle.dumps(found))
assert {pickle.loads(bytes.fromhex(it)) for it in sys.argv[2:]} == {theirs.parse_tag("py2.py3-none-any")}
assert all(getattr(tags, it) is getattr(theirs, it) for it in vars(theirs) if it[:2] != "__") and {*dir(theirs)} <= {*dir(tags)}
from pep440_rattle.tags import *
assert Tag is utils.Tag is theirs.Tag and parse_tag is utils.parse_tag and sys_tags is theirs.sys_tags
assert typing.get_type_hints(utils.parse_wheel_filename)["return"].__args__[3] == frozenset[Tag]
try:
    pickle.loads(b"cbuiltins\\nfrozenset\\n((lcpep440_rattle.tags\\nTag\\n(Vpy3\\nVnone\\nVany\\nt\\x81atR.")
except AttributeError:
    sys.exit()
sys.exit("a former pickle is read")
"""


def errors_of(program, *words):
    return subprocess.run([sys.executable, "-c", program, *words], capture_output=True, text=True, check=False).stderr


class Table(unittest.TestCase):
    def test_rows(self):
        with open(README, encoding="utf-8") as page:
            table = page.read().partition("## Departures from")[2].partition("\n## ")[0]
        rows = re.findall(r"^\| (\w[\w ]*) \|.*\|$", table, re.M)[1:]
        tests = [name.removeprefix("test_").replace("_", " ") for name in vars(Departures) if name.startswith("test_")]
        self.assertEqual(sorted(tests), sorted(rows))


class Departures(unittest.TestCase):
    def test_big_numbers(self):
        self.assertEqual(Version(f"1.{MOST}").minor, MOST)
        for text in (f"1.{MOST + 1}", f"{MOST + 1}!1", f"1a{MOST + 1}", f"1.post{MOST + 1}", f"1.dev{MOST + 1}"):
            with self.assertRaises(InvalidVersion):
                Version(text)
        # of a local part it is a text, and so below every number
        self.assertEqual(Version(f"1+0{MOST + 1}").local, f"0{MOST + 1}")
        self.assertLess(Version(f"1+{MOST + 1}"), Version("1+0"))

    def test_other_scripts(self):
        for text in ("1.0.po\u017ft1", "1.0+\u212a", "1.0+\u0131"):
            with self.assertRaises(InvalidVersion):
                Version(text)

    def test_loose_compatible_release(self):
        self.addCleanup(pep440_rattle.behave_like, "26.3")
        pep440_rattle.behave_like("25.0")
        self.assertTrue(Specifier("~=v1.0").contains("1.5"))
        self.assertTrue(Specifier("~=1.0.rev1").contains("1.5"))

    def test_local_above(self):
        self.addCleanup(pep440_rattle.behave_like, "26.3")
        pep440_rattle.behave_like("25.0")
        self.assertTrue(SpecifierSet(">1.0.post1").contains("1.0.post2+x"))
        self.assertTrue(SpecifierSet(">1.0a1").contains("1.0+x"))
        self.assertFalse(SpecifierSet(">1.0.post1").contains("1.0.post1+x"))

    def test_held(self):
        for kind, text in ((Version, "1.0"), (Specifier, ">=1.0"), (SpecifierSet, ">=1.0")):
            held, mine = kind(text), type("Mine", (kind,), {})(text)
            with self.assertRaises(AttributeError):
                held.note = "mine"
            mine.note = "mine"
            self.assertEqual((copy.deepcopy(mine).note, mine), ("mine", held))
        for kind, text, name in ((requirements.Requirement, "name>=1", "extra"), (markers.Marker, "os_name == 'a'", "marker")):
            for release in ("25.0", "26.2", "26.3"):
                pep440_rattle.behave_like(release)
                held, mine = kind(text), type("Mine", (kind,), {})(text)
                with self.assertRaises(AttributeError):
                    setattr(held, name, "mine")
                setattr(mine, name, "mine")
                self.assertEqual([copy.copy(held), copy.deepcopy(held), pickle.loads(pickle.dumps(held))], [held] * 3)

    def test_properties(self):
        class Later(Version):
            pass

        self.assertFalse(hasattr(Version.release, "fget"))
        Later.release = property(lambda self: (7,))
        self.assertEqual((Later("1.0").release, Later("1.0").base_version), ((7,), "1.0"))

    def test_private_names(self):
        self.assertFalse(hasattr(Version, "_regex") or hasattr(pep440_rattle.specifiers, "_version_split"))
        self.assertIsInstance(Version("1.0"), pep440_rattle.version._BaseVersion)
        self.assertEqual(set(Specifier._operators), {"==", "!=", "<=", ">=", "<", ">", "~=", "==="})
        with warnings.catch_warnings():
            warnings.simplefilter("ignore", DeprecationWarning)
            self.assertEqual(Version("1!2.0rc1.post2.dev3+u-1")._version, (1, (2, 0), ("dev", 3), ("rc", 1), ("post", 2), ("u", 1)))

    def test_other_objects(self):
        self.addCleanup(pep440_rattle.behave_like, "26.3")
        theirs = peer.load()[0]
        self.assertNotEqual(hash(Version("1.0")), hash(theirs.Version("1.0")))
        package = theirs.__name__.rpartition(".")[0]
        for (module, name), texts in TWINS.items():
            mine, other = getattr(MODULES[module], name), getattr(importlib.import_module(f"{package}.{module}"), name)
            self.assertNotIsInstance(mine(texts[0]), other)
            for one, two in itertools.product(texts, texts):
                left, right, is_equal = mine(one), other(two), other(one) == other(two)
                with self.subTest(ours=one, theirs=two):
                    self.assertEqual([left == right, right == left, left != right, right != left], [is_equal, is_equal, not is_equal, not is_equal])
            self.assertFalse(mine(texts[0]) == type(name, (), {})() or mine(texts[0]) == LegacyVersion())
        their_set = importlib.import_module(f"{package}.specifiers").SpecifierSet(">=1")
        if pep440_rattle.behaves_like == "26.3":
            self.assertEqual((their_set.contains(Version("1.0")), list(their_set.filter([Version("1.0")]))), (False, []))
        with self.assertRaises(TypeError):
            Version("1.0") < theirs.Version("2.0")
        with self.assertRaises(InvalidVersion if pep440_rattle.behaves_like == "26.3" else TypeError):
            Version(theirs.Version("1.0"))
        # what is contained may be a version of either
        for kind in (Specifier, SpecifierSet):
            for text in (">=1.0", "===1.1+u"):
                items = [theirs.Version("0.9"), theirs.Version("1.1+u"), Version("0.8")]
                self.assertEqual([items[1] in kind(text), items[0] in kind(text), list(kind(text).filter(items)), list(kind(text).filter(iter(items)))], [True, False, items[1:2], items[1:2]])
        self.assertFalse(issubclass(InvalidVersion, theirs.InvalidVersion) or issubclass(theirs.InvalidVersion, InvalidVersion))

    def test_other_modules(self):
        for name in ("dependency_groups", "direct_url", "errors", "licenses", "metadata", "pylock"):
            self.assertIsNone(importlib.util.find_spec(f"pep440_rattle.{name}"))

    def test_tags(self):
        package = sys.modules[peer.find()[0].__name__.rpartition(".")[0]]
        own = subprocess.run([sys.executable, "-c", OWN_TAGS], capture_output=True, text=True, check=False)
        self.assertEqual(own.returncode, 0, own.stderr)
        self.assertEqual(errors_of(THEIR_TAGS, os.path.dirname(package.__path__[0]), *own.stdout.split()), "")

    def test_items_of_a_set(self):
        for items, error in ((["1"], InvalidSpecifier), (b"1.0", TypeError)):
            with self.assertRaises(error):
                SpecifierSet(items)

    def test_signatures(self):
        self.assertEqual((str(inspect.signature(Version)), str(inspect.signature(Version.__init__))), ("(version)", "(self, /, *args, **kwargs)"))

    def test_undefined_names(self):
        self.assertTrue(issubclass(markers.UndefinedEnvironmentName, KeyError) and issubclass(markers.UndefinedEnvironmentName, ValueError))

    def test_error_messages(self):
        with self.assertRaises(InvalidVersion) as caught:
            Version("x")
        self.assertRegex(str(caught.exception), r"^Invalid version: 'x': .+")
        with self.assertRaises(InvalidSpecifier) as caught:
            Specifier(">x")
        self.assertRegex(str(caught.exception), r"^Invalid specifier: '>x': .+")

    def test_one_interpreter(self):
        ours = "ImportError.*: pep440_rattle can be imported in the main interpreter alone"
        # from 3.12 on Python itself says so of an isolated one
        theirs = "ImportError.*: module pep440_rattle._core does not support loading in subinterpreters"
        for words in (["legacy"], ["legacy", "both"], ["isolated"], ["isolated", "both"]):
            with self.subTest(words=words):
                self.assertRegex(errors_of(SECOND, *words), theirs if sys.version_info >= (3, 12) and "isolated" in words else ours)
        said = errors_of("import sys; sys.abiflags = 't'; import pep440_rattle")
        self.assertIn("ImportError: pep440_rattle needs a Python with its global lock", said)


def rows():
    """(expression, by 25.0, by 26.3)"""
    with open(README, encoding="utf-8") as page:
        table = page.read().partition("## From 25.0 to 26.3")[2].partition("\n## ")[0]
    return [*re.findall(r"^\| `(.*)` \| `(.*)` \| `(.*)` \|$", table, re.M), *MORE]


def shown(text):
    names = {name: it for module in MODULES.values() for name, it in vars(module).items()}
    try:
        return repr(eval(text, names))
    except Exception as error:
        return type(error).__name__


def of_packaging(release, texts):
    words = ["-c", OF_PACKAGING, os.path.join(os.environ["PEP440_RELEASES"], release), *MODULES]
    ran = subprocess.run([sys.executable, *words], input=json.dumps(texts), capture_output=True, text=True, check=True)
    return json.loads(ran.stdout)


def members(it):
    """The public names of a class or a module."""
    found = {name for name, each in inspect.getmembers(it) if name[0] != "_" and not inspect.ismemberdescriptor(each)}
    return found | {"__replace__", "__match_args__"} & set(dir(it))


def functions(theirs, ours):
    """Pairs of a function, or of those of a class."""
    if inspect.isfunction(theirs):
        return [(theirs, ours)]
    names = [it for it, each in vars(theirs).items() if inspect.isclass(theirs) and inspect.isfunction(each) and it[0] != "_"] if inspect.isclass(theirs) else []
    return [(vars(theirs)[it], getattr(ours, it)) for it in names]


def parameters(function):
    return [(it.name, it.kind) for it in inspect.signature(function).parameters.values() if it.name != "self"]


class Changes(unittest.TestCase):
    def tearDown(self):
        pep440_rattle.behave_like("26.3")

    def test_ours_of_26_2(self):
        for text, *both in OF_26_2:
            for release, wanted in zip(("26.2", "26.3"), both, strict=True):
                pep440_rattle.behave_like(release)
                with self.subTest(text=text, release=release):
                    self.assertEqual(shown(text), wanted)

    def test_ours(self):
        self.assertGreater(len(rows()), 20)
        for text, by_25, by_26 in rows():
            for release, wanted in (("25.0", by_25), ("26.3", by_26)):
                pep440_rattle.behave_like(release)
                with self.subTest(text=text, release=release):
                    self.assertEqual(shown(text), wanted)
            self.assertNotEqual(by_25, by_26, text)

    @unittest.skipUnless(os.environ.get("PEP440_RELEASES"), "PEP440_RELEASES names no folder of releases")
    def test_packaging(self):
        for release, place, asked in (("25.0", 1, rows()), ("26.2", 1, OF_26_2), ("26.3", 2, [*rows(), *OF_26_2])):
            for row, found in zip(asked, of_packaging(release, [row[0] for row in asked]), strict=True):
                with self.subTest(text=row[0], release=release):
                    self.assertEqual(found, row[place])


class Names(unittest.TestCase):
    """Of each module of `packaging` 26.3."""

    def setUp(self):
        self.addCleanup(pep440_rattle.behave_like, "26.3")
        self.package = sys.modules[peer.load()[0].__name__.rpartition(".")[0]]
        if self.package.__version__ != "26.3":
            self.skipTest(f"packaging {self.package.__version__} is not 26.3")

    def module(self, name):
        return importlib.import_module(f"{self.package.__name__}.{name}")

    def test_public_names(self):
        """Each public name of a module, and each of a class of one, is here, or among those that are not."""
        names = {it.name for it in pkgutil.iter_modules(self.package.__path__) if it.name[0] != "_"}
        self.assertEqual(names - set(OF_26), NOT_HERE)
        missing = {}
        for name, ours in OF_26.items():
            theirs = self.module(name)
            missing[name] = {it for it in theirs.__all__ if not hasattr(ours, it)}
            for each in set(theirs.__all__) - missing[name]:
                if inspect.isclass(getattr(theirs, each)):
                    missing[name] |= {f"{each}.{it}" for it in members(getattr(theirs, each)) - members(getattr(ours, each))}
        self.assertEqual(missing, {name: NOT_IN_TAGS if name == "tags" else set() for name in OF_26})

    def test_parameters(self):
        """Each public function takes the parameters that theirs takes, by their names and places."""
        for name, ours in OF_26.items():
            theirs = self.module(name)
            for each in set(theirs.__all__) & set(dir(ours)):
                for function, mine in functions(getattr(theirs, each), getattr(ours, each)):
                    with self.subTest(function=f"{name}.{each}", call=function.__name__):
                        self.assertEqual(parameters(mine), parameters(function))

    def test_docstrings(self):
        """The examples of their docstrings, over these modules."""
        runner = doctest.DocTestRunner(verbose=False, optionflags=doctest.IGNORE_EXCEPTION_DETAIL | doctest.ELLIPSIS | doctest.NORMALIZE_WHITESPACE)
        wide = {name: it for module in OF_26.values() for name, it in vars(module).items() if name[:2] != "__"} | {"Tag": utils.Tag, "parse_tag": utils.parse_tag}
        count = 0
        for name in OF_26:
            for each in doctest.DocTestFinder(exclude_empty=True).find(self.module(name), globs=dict(wide)):
                if each.name.rpartition(".")[2] in NOT_IN_TAGS or "._" in each.name:
                    continue
                each.examples = [it for it in each.examples if "packaging." not in it.source]
                count += len(each.examples)
                with self.subTest(docstring=each.name):
                    said = []
                    self.assertEqual(runner.run(each, out=said.append, clear_globs=False).failed, 0, "".join(said))
        self.assertGreater(count, 150)


class News(unittest.TestCase):
    """What 26 has and 25 has not; values from the examples of its docstrings."""

    def test_match(self):
        for it in (version.Version("1.0"), specifiers.Specifier("==1.0"), specifiers.SpecifierSet("==1.0")):
            self.assertEqual((type(it).__match_args__, it._str), (("_str",), str(it)))

    def test_parts(self):
        made = version.Version.from_parts(epoch=1, release=(1, 2), pre=("Beta", 3), post=4, dev=5, local="u-1")
        self.assertEqual((str(made), made), ("1!1.2b3.post4.dev5+u.1", version.Version("1!1.2b3.post4.dev5+u.1")))
        self.assertEqual(str(made.__replace__(epoch=None, pre=None, post=None, dev=None, local=None, release=None)), "0")
        self.assertIs(made.__replace__(pre=("beta", 3)), made)
        wrong = [{"epoch": -1}, {"release": ()}, {"release": [1]}, {"release": (1, "2")}, {"pre": ("x", 1)}, {"pre": (1, 1)}, {"post": "1"}, {"dev": -1}, {"local": "a b"}, {"local": 1}]
        for parts in wrong:
            with self.subTest(parts=parts), self.assertRaises(version.InvalidVersion):
                made.__replace__(**parts)

    def test_key(self):
        for several in (specifiers.SpecifierSet(">=1.0"), specifiers.Specifier(">=1.0"), specifiers.SpecifierSet("===1.0"), specifiers.SpecifierSet("")):
            for items in ([{"ver": "0.1rc1"}, {"ver": "1.0"}], (it for it in [{"ver": "0.1rc1"}, {"ver": "1.0"}])):
                self.assertEqual(list(several.filter(items, key=lambda it: it["ver"])), [{"ver": "1.0"}])
        with self.assertRaises(KeyError):
            list(specifiers.SpecifierSet(">=1.0").filter([{}], key=lambda it: it["ver"]))

    def test_relations(self):
        inner, outer = SpecifierSet(">=3.12,<3.13"), SpecifierSet(">=3.12")
        self.assertEqual((inner.is_subset(outer), outer.is_subset(inner), outer.is_superset(inner)), (True, False, True))
        self.assertEqual([SpecifierSet("<3.12").is_disjoint(SpecifierSet(it)) for it in (">=3.12", ">=3.11")], [True, False])
        self.assertEqual([SpecifierSet(it).is_unsatisfiable() for it in (">=2.0,<1.0", ">=1.0,<2.0", "", "==1.0,!=1.0")], [True, False, False, True])
        for other, error in ((SpecifierSet("===1"), ValueError), (SpecifierSet(">1", prereleases=True), ValueError), (">1", TypeError)):
            with self.assertRaises(error):
                outer.is_subset(other)
        self.assertEqual(repr(inner.to_range()), "<VersionRange '[3.12, 3.13.dev0)'>")

    def test_markers(self):
        both = [markers.Marker("os_name == 'a'"), markers.Marker("extra == 'B' or extra == 'C_d'")]
        self.assertEqual(str(both[0] & both[1]), 'os_name == "a" and (extra == "b" or extra == "c-d")')
        self.assertEqual(str(both[1] | both[0]), '(extra == "b" or extra == "c-d") or os_name == "a"')
        with self.assertRaises(TypeError):
            both[0] & "os_name == 'a'"

    def test_warning(self):
        with warnings.catch_warnings(record=True) as warned:
            warnings.simplefilter("always")
            version.Version("1")._version
        self.assertEqual([it.category for it in warned], [DeprecationWarning])


if __name__ == "__main__":
    unittest.main()
