"""Worked rows, from PEP 440 and from the documentation of `packaging`, and the examples of the docstrings and of the README."""
import ast
import copy
import doctest
import importlib
import os
import pickle
import random
import re
import sqlite3
import unittest

import peer
from peer import MOST
from pep440_rattle import _core
from pep440_rattle import Bound, InvalidSpecifier, InvalidVersion, Specifier, SpecifierSet, Version, filter_texts, parse, sort_keys, sort_texts

# PEP 440, "Summary of permitted suffixes and relative ordering" and "Local version identifiers", with epochs
ASCENDING = (
    "1.dev0 1.0.dev456 1.0a1 1.0a2.dev456 1.0a12.dev456 1.0a12 1.0b1.dev456 1.0b2 1.0b2.post345.dev456 1.0b2.post345 1.0rc1.dev456 1.0rc1 1.0 "
    "1.0+abc.5 1.0+abc.7 1.0+5 1.0.post456.dev34 1.0.post456 1.0.15 1.1.dev1 1!0.1"
).split()
# PEP 440, "Normalization"
PRINTS = {
    "1.1RC1": "1.1rc1", "00": "0", "09000": "9000", "1.0+foo0100": "1.0+foo0100", "1.1.a1": "1.1a1", "1.1-a1": "1.1a1", "1.1a.1": "1.1a1",
    "1.1alpha1": "1.1a1", "1.1beta2": "1.1b2", "1.1c3": "1.1rc3", "1.2a": "1.2a0", "1.2-post2": "1.2.post2", "1.2post2": "1.2.post2",
    "1.2.post-2": "1.2.post2", "1.0-r4": "1.0.post4", "1.2.post": "1.2.post0", "1.0-1": "1.0.post1", "1.2-dev2": "1.2.dev2", "1.2dev2": "1.2.dev2",
    "1.2.dev": "1.2.dev0", "1.0+ubuntu-1": "1.0+ubuntu.1", "v1.0": "1.0", "1.0\n": "1.0", "1!1.0": "1!1.0",
}  # fmt: skip
# PEP 440, "Version specifiers"
CONTAINS = [
    ("~=2.2", "2.3", True), ("~=2.2", "3.0", False), ("~=2.2.0", "2.3", False), ("~=2.2.post3", "2.2", False), ("==1.1", "1.1.post1", False),
    ("==1.1.post1", "1.1.post1", True), ("==1.1.*", "1.1.post1", True), ("==1.1", "1.1.0", True), ("==1.1", "1.1+x", True), ("==1.1+x", "1.1", False),
    ("!=1.1", "1.1.post1", True), ("!=1.1.*", "1.1.post1", False), (">1.7", "1.7.0.post1", False), (">1.7", "1.7.1", True), (">1.7.post2", "1.7.0", False),
    (">1.7.post2", "1.7.post3", True), (">=1.7", "1.7+x", True), ("<=1.7", "1.7+x", True), (">1.7", "1.7+x", False), ("<1.7", "1.6.9", True),
    ("", "1.0", True), ("~=0.9, >=1.0, !=1.3.4.*, <2.0", "1.3.4.post1", False),
]  # fmt: skip


def load_tests(loader, tests, pattern):
    for name in ("version", "specifiers", "texts", "requirements", "markers", "utils", "_own_tags", "_parser"):
        module = importlib.import_module(f"pep440_rattle.{name}")
        tests.addTests(doctest.DocTestSuite(module, extraglobs={"Version": Version, "SpecifierSet": SpecifierSet, "Specifier": Specifier}))
    return tests


class Versions(unittest.TestCase):
    def test_order(self):
        held = [Version(it) for it in ASCENDING]
        for place, left in enumerate(held):
            for other, right in enumerate(held):
                self.assertEqual((left < right, left == right, left >= right), (place < other, place == other, place >= other), (left, right))
        self.assertEqual(sort_texts(reversed(ASCENDING)), ASCENDING)
        self.assertEqual(sorted(sort_keys(ASCENDING)), [it.sort_key for it in held])

    def test_hash(self):
        # PEP 440, "Final releases": releases are compared with as many zeros at the end; and all of a row of such ones are one key of a dict
        for text in ("0", "1", "7.8.9.10", "1.2.3.4.5", "1!2", "65535.255.255.255", "65536", "1.256"):
            for suffix in ("", "a1", "rc2097151", "rc2097152", ".post1", ".dev1", "a1.post2.dev3", "+u.1"):
                several = [Version(text + ".0" * zeros + suffix) for zeros in range(7)]
                self.assertEqual((len(set(several)), len({it.sort_key for it in several})), (1, 1), several[0])
        many = [f"{first}.{second}{suffix}" for first in range(100) for second in range(100) for suffix in ("", ".1", "rc1", ".post1", ".dev1")]
        self.assertEqual(len({hash(Version(it)) for it in many}), len(many))

    def test_database(self):
        shuffled = random.Random(440).sample(ASCENDING, len(ASCENDING))
        table = sqlite3.connect(":memory:")
        table.execute("CREATE TABLE releases (version TEXT, key BLOB)")
        table.executemany("INSERT INTO releases VALUES (?, ?)", zip(shuffled, sort_keys(shuffled)))
        found = table.execute("SELECT version FROM releases WHERE key >= ? ORDER BY key", [Version("1.0").sort_key])
        self.assertEqual([text for (text,) in found], ASCENDING[ASCENDING.index("1.0") :])
        table.close()

    def test_prints(self):
        for text, printed in PRINTS.items():
            self.assertEqual(str(Version(text)), printed)
            self.assertEqual(parse(text), Version(printed))

    def test_parts(self):
        version = Version("V2!1.2.3-Alpha.4-5.DEV6+Ubuntu-07")
        self.assertEqual((version.epoch, version.release, version.pre, version.post, version.dev), (2, (1, 2, 3), ("a", 4), 5, 6))
        self.assertEqual((version.local, version.public, version.base_version), ("ubuntu.7", "2!1.2.3a4.post5.dev6", "2!1.2.3"))
        self.assertEqual((version.major, version.minor, version.micro), (1, 2, 3))
        self.assertTrue(version.is_prerelease and version.is_postrelease and version.is_devrelease)
        plain = Version("7")
        self.assertEqual((plain.pre, plain.post, plain.dev, plain.local, plain.minor, plain.micro), (None, None, None, None, 0, 0))
        self.assertFalse(plain.is_prerelease or plain.is_postrelease or plain.is_devrelease)
        self.assertEqual(Version(".".join(map(str, range(100)))).release, tuple(range(100)))
        self.assertEqual(Version(str(2**64 - 1)).major, 2**64 - 1)

    def test_refusals(self):
        with self.assertRaises(InvalidVersion) as caught:
            Version("1.0prev")
        first, _, reason = str(caught.exception).partition("'1.0prev': ")
        self.assertEqual(first, "Invalid version: ")
        self.assertIn("1.0pre", reason)
        self.assertIsInstance(caught.exception, ValueError)

    def test_compiled_bytes_are_no_strings(self):
        """The library takes compiled forms in place of strings; a str with their bytes is neither a version nor a list."""
        version = (b"\4" + Version("1.0").sort_key + b"\1").decode()
        several = _core.compile_list(">=1.0").decode()
        bounded = f"\6\1\x0b\1\x08{Version('1.0').sort_key.decode()}\0{several}"
        calls = [lambda: Version(version), lambda: "1.0" in SpecifierSet(several), lambda: Specifier(several)]
        calls += [lambda: "1.0" in SpecifierSet(bounded), lambda: Specifier(bounded)]
        calls += [lambda: Specifier(">=" + version), lambda: Specifier(">= " + version), lambda: SpecifierSet("<3,!=" + version)]
        calls += [lambda: sort_texts([version]), lambda: sort_keys([version]), lambda: filter_texts(">=1.0", [version])]
        for call in calls:
            with self.assertRaises((InvalidVersion, InvalidSpecifier)):
                call()
        self.assertNotIn(version, SpecifierSet(">=1.0"))
        self.assertEqual(filter_texts(">=1.0", [version, "1.0"], skip_invalid=True), ["1.0"])

    def test_subclass(self):
        class Written(Version):
            def __init__(self, version):
                super().__init__(version)
                self.written = version

            def __str__(self):
                return self.written

        version = Written("1.0-alpha")
        self.assertEqual((str(version), version.release, version == Version("1.0a0"), hash(version)), ("1.0-alpha", (1, 0), True, hash(Version("1.0a"))))


class Named(Version):
    pass


class NamedSet(SpecifierSet):
    pass


class States(unittest.TestCase):
    """Copies, pickles and parts of versions."""

    TEXTS = ("1.0", "0!1", "1!2.0rc1.post2.dev3+u.1", "1.dev0", "1+01.a", "0.0.0", f"1.{MOST}", f"1+{'a.' * 200}b", "1" * 19 + "." + "2.3" * 100)

    def test_copies(self):
        for kind in (Version, Named):
            for text in self.TEXTS:
                it = kind(text)
                for made in (copy.copy(it), copy.deepcopy(it), *(pickle.loads(pickle.dumps(it, protocol)) for protocol in range(2, 6))):
                    self.assertEqual((made, hash(made), str(made), type(made), made.local, made.release), (it, hash(it), str(it), kind, it.local, it.release))
                    self.assertIsNot(made, it)
        it = Named("1.0")
        it.note = []
        self.assertEqual([copy.copy(it).note is it.note, copy.deepcopy(it).note is it.note], [True, False])
        it = Version("1.0")
        it._key = (9,)
        self.assertEqual(copy.copy(it)._key, (9,))

    def test_states_that_are_none(self):
        for state in (None, (), (0,) * 6, (0, (1,), None, None, None), (0, (), None, None, None, None), (-1, (1,), None, None, None, None)):
            with self.assertRaises((TypeError, InvalidVersion), msg=repr(state)):
                Version("1").__setstate__(state)

    def test_parts(self):
        """Made of its parts, and with each part of another one in its place, as the string says."""
        versions = [*map(Version, self.TEXTS)]
        for it in versions:
            parts = {name: getattr(it, name) for name in ("epoch", "release", "pre", "post", "dev", "local")}
            self.assertEqual(str(Version.from_parts(**parts)), str(it))
            for name, value in parts.items():
                for other in versions:
                    made = other.__replace__(**{name: value})
                    self.assertEqual({each: getattr(made, each) for each in parts}, {**{each: getattr(other, each) for each in parts}, name: value})
                    self.assertEqual(made is other, getattr(other, name) == value)


class Specifiers(unittest.TestCase):
    def test_contains(self):
        for text, version, wanted in CONTAINS:
            self.assertIs(SpecifierSet(text).contains(version), wanted, (text, version))
            self.assertIs(SpecifierSet(text).contains(Version(version)), wanted, (text, version))
            self.assertEqual(filter_texts(text, [version]), [version] if wanted else [])

    def test_prereleases(self):
        # PEP 440, "Handling of pre-releases": one alone is by 26 what there is nothing else beside
        self.assertIs(SpecifierSet(">=1.0").contains("1.1a1"), peer.follows_26())
        self.assertEqual(list(SpecifierSet(">=1.0").filter(["1.1a1", "1.0"])), ["1.0"])
        self.assertTrue(SpecifierSet(">=1.0a1").contains("1.1a1"))
        self.assertTrue(SpecifierSet(">=1.0", prereleases=True).contains("1.1a1"))
        self.assertFalse(SpecifierSet(">=1.0a1", prereleases=False).contains("1.1a1"))
        self.assertEqual(list(Specifier(">=1.0").filter(["0.9", "1.1a1"])), ["1.1a1"])
        several = SpecifierSet(">=1.0,<3")
        self.assertIs(several.prereleases, None if peer.follows_26() else False)
        next(iter(several)).prereleases = True
        self.assertIs(several.prereleases, True)
        several.prereleases = False
        self.assertFalse(several.contains("1.1a1"))

    def test_arbitrary_equality(self):
        # PEP 440, "Arbitrary equality": a simple comparison of strings, by 25 with the normal form of a string that is a version
        rows = [("===foobar", "1.0", False, False), ("===1.0-alpha", "1.0a0", False, False), ("===1.0-alpha", "1.0-Alpha", peer.follows_26(), False)]
        for text, version, wanted, wanted_of_version in [*rows, ("===1.0A0", "1.0-alpha", not peer.follows_26(), True), ("===1.0", "1.0.0", False, False)]:
            one, several = Specifier(text), SpecifierSet(f"{text},!=7")
            for it in (one, several):
                self.assertIs(it.contains(version, True), wanted, text)
                self.assertIs(it.contains(Version(version), prereleases=True), wanted_of_version, text)
                self.assertEqual(list(it.filter([version], True)), [version] * wanted)
                self.assertEqual(filter_texts(it, ["x", version], skip_invalid=True), [version] * wanted)
                self.assertEqual((pickle.loads(pickle.dumps(it)), hash(copy.deepcopy(it))), (it, hash(it)))
        self.assertEqual([Specifier(f"==={it} ").version for it in ("", "1.0.*", "\u00a0x", "a,b", "=", "\ud800")], ["", "1.0.*", "x", "a,b", "=", "\ud800"])
        for text in ("===a b", "===a;b", "===a)"):
            with self.assertRaises(InvalidSpecifier):
                Specifier(text)
        # whether it asks for pre-releases is a question to a version
        self.assertTrue(Specifier("===1.0A1").prereleases and "1.0a1" in Specifier("===1.0A1"))
        for call in (lambda: Specifier("===foobar").prereleases, lambda: "1.0" in SpecifierSet("===foobar")):
            if peer.follows_26():
                self.assertFalse(call())
            else:
                with self.assertRaises(InvalidVersion):
                    call()
        self.assertEqual(list(Specifier("===foobar").filter(["1.0"])), [])
        self.assertEqual(len({Specifier("===1.0"), Specifier("===1.0.0"), Specifier("===x"), Specifier("===X")}), 4 if peer.follows_26() else 3)
        self.assertEqual((SpecifierSet("===x, ===y") & "===x", str(SpecifierSet("=== x,>1"))), (SpecifierSet("===x,===y"), "===x,>1"))
        self.assertEqual((Specifier("===1.0-a").ranges(), len(SpecifierSet("===1.0A1,>0").ranges())), ([], 1))

    def test_white_space(self):
        # that of Unicode, as PEP 440 has it at the ends of a version, and as `packaging` drops it behind an operator
        for blank in " \t\n\r\f\v\x1c\x85\u00a0\u2003\u3000":
            self.assertEqual((str(Version(f"{blank}1.0{blank}")), sort_texts([f"2{blank}", "1"])), ("1.0", ["1", f"2{blank}"]))
            specifier = Specifier(f"{blank}>={blank}1.0{blank}")
            self.assertEqual((str(specifier), specifier.version), (">=1.0", "1.0"))
            self.assertTrue(f"1.0{blank}" in SpecifierSet(f">={blank}1.0"))
            for text in (f">{blank}=1.0", f"={blank}=1.0", f">=1.{blank}0"):
                with self.assertRaises(InvalidSpecifier):
                    Specifier(text)
        self.assertEqual(Specifier(">= 1.0\u00a0"), Specifier(">=1.0"))

    def test_filter_one_by_one(self):
        def ones():
            read.append(1)
            yield "1.0"
            raise RuntimeError("read too far")

        for it in (SpecifierSet(">=1.0"), Specifier(">=1.0")):
            read = []
            kept = it.filter(ones())
            self.assertEqual((list(read), next(kept)), ([], "1.0"))
            kept = it.filter(["1.0", "x"])
            self.assertEqual(next(kept), "1.0")
            with self.assertRaises(StopIteration if peer.follows_26() else InvalidVersion):
                next(kept)

    def test_copies(self):
        """Copies are what they were made of: a set has the same members, and by `deepcopy` members of its own; those of a subclass have what it holds."""
        texts = ("", ">=1", ">=1,<2,!=1.5.*", "===1.5", ">=1,===1.5", ">= 1 , <\t2", f"=={'1.' * 200}1", "~=1.0,==1.0+u")
        several = [SpecifierSet(text, prereleases) for text in texts for prereleases in (None, True)]
        several += [NamedSet(">=1"), SpecifierSet([Specifier(">=1", prereleases=True)])]
        for it in [*several, *map(copy.deepcopy, several), *(each for it in several for each in it)]:
            it_contains = [it.contains(each) for each in ("1.0", "1.5", "2a1")]
            for made in (copy.copy(it), copy.deepcopy(it), pickle.loads(pickle.dumps(it))):
                self.assertEqual((made, hash(made), type(made), repr(made)), (it, hash(it), type(it), repr(it)))
                self.assertEqual([made.contains(each) for each in ("1.0", "1.5", "2a1")], it_contains)
                self.assertIsNot(made, it)
        it = SpecifierSet(">=1,<2")
        member = next(iter(it))
        self.assertEqual([member is each for made in (copy.copy(it), copy.deepcopy(it)) for each in made][::2], [True, False])
        it = NamedSet(">=1")
        it.note = []
        self.assertEqual([copy.copy(it).note is it.note, copy.deepcopy(it).note is it.note], [True, False])

    def test_unsatisfiable_again(self):
        """It is found anew once pre-releases are forbidden, or allowed."""
        it = SpecifierSet("==1a1")
        found = []
        for prereleases in (None, None, False, False, True, None):
            it.prereleases = prereleases
            found += [it.is_unsatisfiable(), it.is_unsatisfiable()]
        self.assertEqual(found, [False] * 4 + [True] * 4 + [False] * 4)

    def test_refusals(self):
        for text in ("1.0", "==", "=1.0", ">=1.0.*", "~=1", ">=1.0+x", "== 1.0 2.0", ">= =1.0", "", " "):
            with self.assertRaises(InvalidSpecifier) as caught:
                Specifier(text)
            self.assertTrue(str(caught.exception).startswith(f"Invalid specifier: {text!r}"), caught.exception)
        with self.assertRaises(InvalidSpecifier) as caught:
            Specifier(" it's \n")
        self.assertTrue(str(caught.exception).startswith('Invalid specifier: " it\'s \\n": '), caught.exception)
        for kind, text in ((Version, "1.0\n\u2028\x1fx"), (Specifier, ">=1.0\n\u2028\x1fx"), (SpecifierSet, ">=1, <1\nx")):
            with self.assertRaises(ValueError) as caught:
                kind(text)
            self.assertEqual(len(str(caught.exception).splitlines()), 1, caught.exception)
        with self.assertRaises(InvalidSpecifier):
            SpecifierSet(">=1.0, <x")

    def test_ranges(self):
        def shown(text):
            return [(lower and (str(lower), lower.included), upper and (str(upper), upper.included)) for lower, upper in SpecifierSet(text).ranges()]

        self.assertEqual(shown(""), [(None, None)])
        self.assertEqual(shown(">=1.0"), [(("1.0", True), None)])
        self.assertEqual(shown("<2.0"), [(None, ("2.0~min0", False))])
        self.assertEqual(shown(">=1.0,<2.0,!=1.5"), [(("1.0", True), ("1.5", False)), (("1.5", False), ("2.0~min0", False))])
        self.assertEqual(shown(">=2.0,<1.0"), [])
        self.assertEqual(shown("==1.5.*"), [(("1.5.dev0", True), ("1.6.dev0", False))])
        with self.assertRaisesRegex(OverflowError, "no ranges of '==18446744073709551615.\\*': a bound lies above 18446744073709551615"):
            SpecifierSet(f"=={2**64 - 1}.*").ranges()
        with self.assertRaises(InvalidSpecifier):
            _core.ranges("=1.0")
        self.assertEqual(Specifier(">=1.0").ranges(), [(Bound(Version("1.0"), True, ""), None)])
        self.assertEqual(SpecifierSet("<2.0").ranges()[0][1], Bound(Version("2.0"), False, sentinel="min0"))

    def test_compiled_forms(self):
        # a specifier whose version alone was compiled has the bytes that the library makes of it as a list, and the same ones are refused;
        # the regular expression, by which other modules of `packaging` read requirements, takes these specifiers and no other
        def compiled(call, text):
            try:
                return call(text)
            except InvalidSpecifier:
                return None

        random.seed(440)
        texts = [peer.some_piece() for _ in range(20_000)] + [f"{operator}{version}" for operator in peer.OPERATORS for version in PRINTS]
        texts += [operator + blanks + "1!1.0+u" + blanks for operator in peer.OPERATORS for blanks in " \t\n\f\r\v\x1c\u00a0"]
        texts += [f">={front}{number}{end}" for front in ("", "1.0rc", "1.0-", "1!0.") for number in (f"0{MOST}", MOST + 1, 2 * MOST) for end in ("", ".dev1", ".dev00")]
        texts += [f"{operator}1{release}{suffix}" for operator in peer.OPERATORS for release in ("", ".0", ".1.2.3.4.5") for suffix in ("", "+u", ".*", "a1.dev2")]
        kinds = {None: 0, True: 0}
        for text in texts:
            if "," in text or not text.strip():
                continue
            # of `===` nothing is compiled; the library keeps white space behind an operator that is rarer than it knows
            plain = re.sub(r"^(~=|==|!=|<=?|>=?)\s+(?!=)", r"\1", text.strip())
            of_list = compiled(_core.compile_list, "" if re.fullmatch(r"===\s*[^\s;)]*", plain) else plain)
            self.assertEqual(compiled(lambda it: Specifier(it)._compiled, text), of_list, repr(text))
            self.assertEqual(bool(Specifier._regex.search(text)), of_list is not None, repr(text))
            kinds[of_list and True] += 1
            if of_list:
                others = ">=0.1, <7" if plain.startswith("===") else f"{plain}, >=0.1, <7"
                self.assertEqual(SpecifierSet(f"{text}, >=0.1, <7")._compiled, _core.compile_list(others), repr(text))
        self.assertGreater(min(kinds.values()), 1000, kinds)

    def test_sets(self):
        several = SpecifierSet([Specifier(">=1.0"), Specifier("!=1.5")])
        self.assertEqual(several, SpecifierSet("!=1.5, >=1.0"))
        both = several & ">=1.0.0"
        self.assertEqual((len(both), hash(both) == hash(several), len(both)), (3 if peer.follows_26() else 2, True, 2))
        with self.assertRaises(ValueError):
            SpecifierSet(">=1", prereleases=True) & SpecifierSet("<2", prereleases=False)


class SpecifiersBy25(peer.By25, Specifiers):
    pass


class Ends(unittest.TestCase):
    """Versions at the ends of sets, of which most have a word, and none of the others: each is in a set as the library's calls on sets have it."""

    LISTS = (">=1.0,<2.0,!=1.5.*", "~=1.4.2", "==1.*", "!=1.5.*", "<1.5", ">=65535.255.255.255", "<65536", ">=1.5a1,<2", "<=1.5", ">1.5", "==1.5", "!=1.5", ">=2,<1", ">=1!0")
    RELEASES = ("0", "1.0", "1.0.0.0", "1.4.1", "1.4.2", "1.4.3", "1.5", "1.5.0.1", "1.6", "2", "65535.255.255.255", "65536", "1!0", "1.2.3.4.5")
    SUFFIXES = ("", "a1", "a2", "rc2097151", "rc2097152", ".post0", ".post2097151", ".dev0", ".dev1", ".post0.dev0", "+u")

    def test_sets(self):
        for text in self.LISTS:
            several = SpecifierSet(text)
            for version in (release + suffix for release in self.RELEASES for suffix in self.SUFFIXES):
                wanted, plain = SpecifierSet(f"=={version}").is_subset(several), not Version(version).is_prerelease
                for asked in (version, Version(version), f" {version}", f"v{version}"):
                    with self.subTest(list=text, asked=asked):
                        said = [several.contains(asked), asked in several, several.contains(asked, prereleases=True), list(several.filter([asked])) == [asked]]
                        self.assertEqual(said, [wanted] * 4)
                        self.assertIs(several.contains(asked, prereleases=False), wanted and plain)
                        self.assertEqual(filter_texts(several, [asked]), [asked] * wanted)
            # what the list says once it is set to exclude pre-releases
            several.prereleases = False
            self.assertFalse(several.contains("1.6a1") or several.contains(Version("1.6a1")))


class Page(unittest.TestCase):
    def test_examples(self):
        # what a comment behind an expression shows, unless it is a sentence, is its value or the exception
        folder = os.path.dirname(os.path.dirname(os.path.abspath(__file__)))
        with open(os.path.join(folder, "README.md"), encoding="utf-8") as page:
            code = "".join(re.findall(r"^```python\n(.*?)^```$", page.read(), re.M | re.S))
        names, lines, shown = {}, code.splitlines(), 0
        for statement in ast.parse(code).body:
            text, wanted = ast.get_source_segment(code, statement), lines[statement.end_lineno - 1].partition("  # ")[2]
            with self.subTest(statement=text):
                if not isinstance(statement, ast.Expr):
                    exec(text, names)
                elif wanted.startswith("Invalid"):
                    with self.assertRaises(ValueError) as caught:
                        eval(text, names)
                    self.assertEqual(f"{type(caught.exception).__name__}: {caught.exception}"[: len(wanted) - 3], wanted.removesuffix(" .."))
                elif not re.match("[a-z]", wanted or "a"):
                    self.assertEqual(repr(eval(text, names)), wanted)
                else:
                    eval(text, names)
            shown += bool(wanted)
        names["table"].close()
        self.assertGreater(shown, 8)


if __name__ == "__main__":
    unittest.main()
