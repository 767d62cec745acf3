"""Classes of a user's own over these, as programs that use `packaging` have them, and what looks at the classes themselves."""
import copy
import gc
import inspect
import pickle
import subprocess
import sys
import unittest
import unittest.mock
import warnings
import weakref

import pep440_rattle
from peer import By25, follows_26
from pep440_rattle import InvalidSpecifier, InvalidVersion, Specifier, SpecifierSet, Version, filter_texts
from pep440_rattle.specifiers import BaseSpecifier
from pep440_rattle.utils import canonicalize_version
from pep440_rattle.version import _cmpkey, _parse_letter_version, _parts_of


class AsWritten(Version):
    """Prints what it was made of, as setuptools_scm has one."""

    def __init__(self, version):
        super().__init__(version)
        self.written = version

    def __str__(self):
        return self.written


class Cleaned(Version):
    """Cleans its string first, and takes a second argument."""

    def __init__(self, text, note=None):
        super().__init__(text.removeprefix("release-"))
        self.note = note


class Short(Version):
    @property
    def release(self):
        return super().release[:2]


class Equal(Specifier):
    """Any local version is equal."""

    def _compare_equal(self, prospective, spec):
        return prospective.public == spec


class Slotted(Version):
    __slots__ = ("note", "__hidden", "left_out")

    def __init__(self, text, note=None):
        super().__init__(text)
        self.note, self.__hidden = note, note

    def hidden(self):
        return self.__hidden


class SlottedSet(SpecifierSet):
    __slots__ = ("note",)


class Noted(Specifier):
    pass


class NotedSet(SpecifierSet):
    pass


class Logic(SpecifierSet):
    """Names in its slots what the set of `packaging` has as attributes, as PDM has one."""

    __slots__ = ("_logic", "_prereleases", "_specs")


class Half(Specifier):
    __slots__ = ("_spec", "_prereleases")


class Parts(Version):
    __slots__ = ("_version", "_key")


class ByYear(Version):
    """Is compared by its first number alone."""

    def __init__(self, text):
        super().__init__(text)
        self._key = self._key[:1] + ((self.major,),) + self._key[2:]


class Calling:
    """Calls back when it is asked what it is, as a value, and when it is gone."""

    def __init__(self, call, value=True, when="asked"):
        self.call, self.value, self.when = call, value, when

    def __bool__(self):
        self.call()
        return self.value

    def __ne__(self, other):
        return bool(self)

    def __del__(self):
        if self.when == "gone":
            self.call()


class Hashing(Specifier):
    """Calls back when its hash is asked for."""

    def __hash__(self):
        self.call()
        return 1


# As one of `packaging`: it is read by its `__str__`.
Other = type("Version", (), {"__module__": "its.packaging.version", "__qualname__": "Version", "__str__": lambda it: it.call() or "2"})


class AnyOf(BaseSpecifier):
    """A specifier of a user's own."""

    prereleases = None

    def __init__(self, *texts):
        self.texts = texts

    def __str__(self):
        return "|".join(self.texts)

    def __hash__(self):
        return hash(self.texts)

    def __eq__(self, other):
        return self.texts == other.texts

    def contains(self, item, prereleases=None):
        return str(item) in self.texts

    def filter(self, iterable, prereleases=None):
        return (it for it in iterable if self.contains(it))


class Versions(unittest.TestCase):
    def test_parts_of_one_that_prints_itself(self):
        version = AsWritten("1.0.0-RC1+Ubuntu-01")
        self.assertEqual((version.local, version.pre, str(version)), ("ubuntu.1", ("rc", 1), "1.0.0-RC1+Ubuntu-01"))
        self.assertEqual(repr(version), f"<{'AsWritten' if follows_26() else 'Version'}('1.0.0-RC1+Ubuntu-01')>")

    def test_one_that_cleans_its_string(self):
        version = Cleaned("release-1.0", note="mine")
        self.assertEqual((version, version.note), (Version("1.0"), "mine"))
        for again in (copy.copy(version), copy.deepcopy(version), pickle.loads(pickle.dumps(version))):
            self.assertEqual((type(again), again, again.note), (Cleaned, version, "mine"))

    def test_slots(self):
        for text in ("1!2.0rc1.post2.dev3+u.1", "1.0"):
            for protocol in range(pickle.HIGHEST_PROTOCOL + 1):
                again = pickle.loads(pickle.dumps(Slotted(text, "mine"), protocol))
                self.assertEqual((type(again), str(again), again.note, again.hidden()), (Slotted, text, "mine", "mine"))
        again = copy.deepcopy(copy.copy(Slotted("1.0", ["mine"])))
        self.assertEqual((again, again.note, again.hidden(), hasattr(again, "left_out")), (Version("1.0"), ["mine"], ["mine"], False))
        for it, text in ((Logic(">=1.0,<2", prereleases=True), "<2,>=1.0"), (Half(">=1.0", prereleases=True), ">=1.0"), (Parts("1.0a1"), "1.0a1")):
            for again in (it, copy.deepcopy(it), *(pickle.loads(pickle.dumps(it, protocol)) for protocol in range(pickle.HIGHEST_PROTOCOL + 1))):
                names = [name for name in type(it).__slots__[-2:] if name != "_version"]
                self.assertEqual((type(again), again, str(again), hash(again)), (type(it), it, text, hash(it)))
                self.assertEqual([getattr(again, name) for name in names], [getattr(it, name) for name in names])
        several = Logic(">=1.0")
        several._specs, several._prereleases, several._logic = frozenset([Specifier("<3")]), True, "mine"
        self.assertEqual((str(several), several.contains("2a1"), several.contains("3"), copy.copy(several)._logic), ("<3", True, False, "mine"))
        several = SlottedSet(">=1.0", prereleases=True)
        several.note = "mine"
        again = copy.copy(several)
        self.assertEqual((again, type(again), again.note, again.prereleases), (several, SlottedSet, "mine", True))

    def test_a_key_of_its_own(self):
        one, other = ByYear("1.5rc1"), ByYear("1.7rc1")
        self.assertTrue(one == other and hash(one) == hash(other) and not one < other and one <= other)
        self.assertTrue(one < Version("1.1") and Version("0.9") < one and Version("1rc1") == one and one != Version("1.5rc1"))
        self.assertEqual((one.sort_key, str(one), one in {other}), (Version("1.5rc1").sort_key, "1.5rc1", True))
        for again in (copy.copy(one), pickle.loads(pickle.dumps(one))):
            self.assertEqual((again, hash(again), str(again)), (other, hash(other), "1.5rc1"))
        one.__init__("1.5rc1")
        one._key = (7,)
        self.assertEqual((hash(one), one._key), (hash((7,)), (7,)))
        Version.__init__(one, "1.5rc1")
        self.assertEqual(one, Version("1.5rc1"))

    def test_one_with_a_release_of_its_own(self):
        version = Short("1!2.3.4rc1+u")
        self.assertEqual((str(version), version.public, version.base_version), ("1!2.3rc1+u", "1!2.3rc1", "1!2.3"))
        self.assertEqual(version, Version("1!2.3.4rc1+u"))
        self.assertEqual((version.minor, version.micro, version.is_prerelease), (3, 0, True))
        for text, wanted in {"1.0.0": "1", "0.0": "0", "1!1.0.10.0.post1.dev2": "1!1.0.10.post1.dev2"}.items():
            self.assertEqual(canonicalize_version(text), wanted)

    def test_calls_of_the_class(self):
        self.assertEqual((Version("1.0"), Version(*["1.0"])), (Version(version="1.0"), Version(**{"version": "1.0"})))
        for given, named in (((), {}), ((1,), {}), (("1", "2"), {}), (("1",), {"other": 1}), (("1",), {"version": "1"})):
            with self.assertRaises(InvalidVersion if given == (1,) and follows_26() else TypeError):
                Version(*given, **named)
        before = Version.__init__
        with unittest.mock.patch.object(Version, "__init__", lambda version, text: before(version, text + ".1")):
            self.assertEqual(Version("1").release, (1, 1))
        self.assertEqual(Version("1").release, (1,))

    def test_init_again(self):
        version = Version("1.0")
        self.assertEqual(version.release, (1, 0))
        version.__init__("2.0rc1")
        self.assertEqual((str(version), version.release, version == Version("2.0rc1")), ("2.0rc1", (2, 0), True))
        for text in ("1!3", "3.0.0.0.0", "3"):
            version.__init__(text)
            self.assertEqual((version, hash(version), version.sort_key), (Version(text), hash(Version(text)), Version(text).sort_key))
            self.assertTrue(Version("2.0rc1") < version and version in SpecifierSet(f"=={text}"))
        with self.assertRaises(InvalidVersion):
            version.__init__("x")
        self.assertEqual(str(version), "3")

    def test_without_init(self):
        version = Version.__new__(Version)
        for call in (str, hash, lambda it: it.release, lambda it: it < Version("1"), lambda it: Version("1") < it, lambda it: it.sort_key, Version("1").__eq__):
            with self.assertRaises(AttributeError):
                call(version)
        with self.assertRaises(AttributeError):
            SpecifierSet(">=1").contains(version)

    def test_parts_that_a_tool_sets(self):
        # hatchling raises a version so
        version = Version("1!1.2.3rc1.dev4+u.1")
        with warnings.catch_warnings(record=True) as warned:
            warnings.simplefilter("always")
            parts = version._version
            version._version = type(parts)(parts.epoch, (1, 3, 0), None, None, ("post", 2), ("x", 1))
        self.assertEqual([(it.category, it.filename) for it in warned], [(DeprecationWarning, __file__)] * 2 * follows_26())
        self.assertEqual((str(version), version), ("1!1.3.0.post2+x.1", Version("1!1.3.0.post2+x.1")))
        self.assertEqual(_parse_letter_version("Preview", None), ("rc", 0))
        self.assertEqual((_parse_letter_version(None, "3"), _parse_letter_version(None, None)), (("post", 3), None))
        parts = _parts_of(Version("1.0a1+u"))
        self.assertEqual(_cmpkey(parts.epoch, parts.release, parts.pre, parts.post, parts.dev, parts.local), Version("1.0.0a1+u")._key)
        ascending = [Version(it)._key for it in "1.dev0 1a1 1 1+a 1+a.1 1+1 1.post1.dev1 1.post1 1!0".split()]
        self.assertEqual(sorted(reversed(ascending)), ascending)

    def test_init_again_meanwhile(self):
        text = "1.0.77"[:-1]
        count = sys.getrefcount(text)
        for _ in range(9):
            version = Version(text)
            version._key = Calling(lambda: version.__init__("3"), when="gone")
            version.__init__("2")
            self.assertEqual((str(version), version < Version("3.1"), version._own_key), ("3", True, None))
            version._key = Calling(lambda: version.__init__("3"), when="gone")
            version._key = (1,)
            self.assertEqual((version._own_key, str(version)), (None, "3"))
            version._key = type("Key", (tuple,), {"__hash__": lambda it: version.__init__("4") or 5})((1,))
            self.assertEqual((hash(version), str(version)), (5, "4"))
        del version
        self.assertEqual(sys.getrefcount(text), count)

    def test_signatures(self):
        self.assertEqual(str(inspect.signature(Version)), "(version)")
        self.assertEqual(list(inspect.signature(SpecifierSet).parameters), ["specifiers", "prereleases"])


class Specifiers(unittest.TestCase):
    def test_a_comparison_of_its_own(self):
        mine = Equal("==1.0")
        self.assertTrue(mine.contains("1.0+u"))
        self.assertEqual(list(mine.filter(["1.0+u", "1.1"])), ["1.0+u"])
        several = SpecifierSet([mine, Specifier("<2")])
        self.assertTrue("1.0+u" in several and "1.0.post1" not in several)
        self.assertEqual(list(several.filter(["1.0+u", "1.1", "2.0"])), ["1.0+u"])

    def test_one_of_its_own(self):
        mine = AnyOf("1.0", "2.0")
        self.assertTrue(repr(mine).startswith("<test_subclasses.AnyOf object"))
        self.assertTrue(mine.contains("1.0"))
        with self.assertRaises(TypeError):
            BaseSpecifier()

    def test_prereleases_of_its_own(self):
        class Open(Specifier):
            prereleases = True

        class Shut(SpecifierSet):
            prereleases = False

        self.assertTrue("1.1a1" in Open(">=1.0") and Open(">=1.0").contains("1.1a1"))
        self.assertTrue(SpecifierSet([Open(">=1.0")]).contains("1.1a1"))
        self.assertEqual(list(Open(">=1.0").filter(["0.9", "1.1a1"])), ["1.1a1"])
        self.assertFalse("1.1a1" in Shut(">=1.0a1") or Shut(">=1.0a1").contains("1.1a1"))
        self.assertTrue(Shut(">=1.0a1").contains("1.1a1", prereleases=True))

    def test_contains_of_its_own(self):
        class Never(SpecifierSet):
            def contains(self, item, prereleases=None, installed=None):
                return False and super().contains(item, prereleases, installed)

        class Always(Specifier):
            def contains(self, item, prereleases=None):
                return super().contains(item, prereleases) or True

        self.assertFalse("1.0" in Never(">=1.0"))
        self.assertTrue("0.5" in Always(">=1.0") and "0.5" in SpecifierSet([Always(">=1.0")]))
        self.assertEqual(list(Always(">=1.0").filter(["0.5"])), [] if follows_26() else ["0.5"])

    def test_arguments(self):
        several, one = SpecifierSet(">=1.0"), Specifier(">=1.0")
        for it in (several, one):
            self.assertTrue(it.contains(item="1.1a1", prereleases=True) and it.contains("1.1a1", True) and not it.contains(prereleases=False, item="1.1a1"))
            self.assertEqual(it.contains(item="1.1a1"), follows_26())
            for call in (lambda: it.contains(), lambda: it.contains("1", item="1"), lambda: it.contains("1", other=1), lambda: it.contains("1", 1, 1, 1)):
                with self.assertRaises(TypeError):
                    call()
            if follows_26():
                self.assertFalse(1 in it)
            else:
                with self.assertRaises(TypeError):
                    1 in it
        self.assertTrue(several.contains("1.1a1", True, True))
        with self.assertRaises(TypeError):
            one.contains("1.1a1", True, True)
        self.assertEqual(str(inspect.signature(SpecifierSet.contains)), "(self, /, item, prereleases=None, installed=None)")
        for call in (lambda: Specifier(">=1", True, 1), lambda: Specifier(text=">=1"), lambda: SpecifierSet([1]), lambda: Specifier(1)):
            with self.assertRaises(TypeError):
                call()
        self.assertEqual((Specifier(spec=">=1", prereleases=True).prereleases, SpecifierSet(specifiers=[">=1"]).prereleases), (True, None if follows_26() else False))

    def test_init_again_and_without(self):
        several, one = SpecifierSet(">=1.0,<2"), Specifier(">= 1.0")
        self.assertEqual((len(several), hash(one), one.operator), (2, hash(Specifier(">=1.0")), ">="))
        several.__init__("==1!7.*,==1!7.1.2.3.4.5+local")
        one.__init__("!=3.1a1", prereleases=True)
        self.assertEqual((str(several), "1!7.1.2.3.4.5+local" in several, "1.5" in several), ("==1!7.*,==1!7.1.2.3.4.5+local", True, False))
        self.assertEqual((str(one), one.operator, one.prereleases, one == Specifier("!=3.1a1")), ("!=3.1a1", "!=", True, True))
        with self.assertRaises(InvalidSpecifier):
            several.__init__("x")
        self.assertEqual(len(several), 2)
        for kind in (Specifier, SpecifierSet):
            for call in (str, hash, len, list, repr, lambda it: it.contains("1"), lambda it: "1" in it, lambda it: it.prereleases, lambda it: it == it, lambda it: list(it.filter([]))):
                with self.assertRaises((AttributeError, TypeError)):
                    call(kind.__new__(kind))
            with self.assertRaises(AttributeError):
                SpecifierSet([Specifier.__new__(Specifier)])

    def test_init_again_meanwhile(self):
        """A call that runs its caller's code answers by what this has read."""
        for before in ("<2", "", "===1", ">=2"):
            for after in (">=3", "<2", "", ">=1,!=1.5", "===2", "===1"):
                several, other = SpecifierSet(before), Other()
                several.contains("1")
                other.call = again = lambda: several.__init__(after)
                wanted = SpecifierSet(after).contains("2")

                def items():
                    again()
                    yield from ("1", "2", "3")

                calls = [
                    (lambda: several.contains("2", installed=Calling(again)), wanted),
                    (lambda: several.contains("2", installed=Calling(again, False)), wanted),
                    (lambda: several.contains(other), wanted),
                    (lambda: other in several, wanted),
                    (lambda: several.contains(other, True, True), wanted),
                    (lambda: filter_texts(several, items()), filter_texts(after, ["1", "2", "3"])),
                    (lambda: filter_texts(several, ["3", other]), filter_texts(after, ["3"]) + [other] * wanted),
                    (lambda: filter_texts(several, ["3", "2"], skip_invalid=Calling(again)), filter_texts(after, ["3", "2"])),
                ]
                for place, (call, answer) in enumerate(calls):
                    several.__init__(before)
                    several.contains("1")
                    with self.subTest(before=before, after=after, place=place):
                        self.assertEqual(call(), answer)

    def test_init_again_by_what_it_holds(self):
        several = SpecifierSet(">=1")
        again = Calling(lambda: several.__init__(">=3"))
        if not follows_26():
            several.prereleases = again
            self.assertEqual((several.contains("2a1"), str(several), several.prereleases), (False, ">=3", False))
            several.__init__(">=1")
            self.assertEqual((several.contains("2a1", again), str(several)), (False, ">=3"))
        several.__init__(">=1", prereleases=again)
        both = several & SpecifierSet("<9", prereleases=again)
        self.assertEqual((str(both), both.prereleases, str(several)), ("<9,>=1", again, ">=1"))
        with self.assertRaises(ValueError):
            several & SpecifierSet("<9", prereleases=True)
        self.assertEqual(str(several), ">=3")
        member = Specifier(">=1", prereleases=Calling(lambda: several.__init__(">=3a1"), False))
        several.__init__([member, Specifier("<9")])
        self.assertIs(several.prereleases, None if follows_26() else False)
        self.assertEqual((str(several), several.contains("4a1"), several.prereleases), (">=3a1", True, True))
        member = Hashing("<1")
        member.call = lambda: several.__init__(">=3")
        several.__init__([member])
        self.assertEqual((hash(several) and len(several), str(several), several.contains("3")), (1, ">=3", True))
        # what is let go may read it again, too: what was begun last counts
        several.__init__(">=1", prereleases=Calling(lambda: several.__init__("<5"), when="gone"))
        several.__init__(">=2")
        self.assertEqual((str(several), several.contains("1"), several.contains("7")), (">=2", False, True))

    def test_attributes_and_cycles(self):
        one = Noted(">=1.0")
        several = NotedSet([one])
        one.several, several.note = several, "mine"
        for again in (copy.deepcopy(several), *(pickle.loads(pickle.dumps(several, it)) for it in range(pickle.HIGHEST_PROTOCOL + 1))):
            self.assertEqual((again, again.note, next(iter(again)).several), (several, "mine", several))
        gone = [weakref.ref(several), weakref.ref(one)]
        self.assertEqual((one.__dict__, gone[1]()), ({"several": several}, one))
        del one, several, again
        gc.collect()
        self.assertEqual([it() for it in gone], [None, None])

    def test_init_replaced(self):
        for kind in (Specifier, SpecifierSet):
            before = kind.__init__
            with unittest.mock.patch.object(kind, "__init__", lambda it, text: before(it, text + ".1")):
                self.assertEqual(str(kind(">=1")), ">=1.1")
            self.assertEqual(str(kind(">=1")), ">=1")

    def test_parts_that_a_tool_sets(self):
        one, several = Specifier(">=1.0", prereleases=True), SpecifierSet(">=1.0", prereleases=True)
        one._spec, several._specs = ("<", "3"), frozenset([Specifier("<3"), Specifier("===x")])
        self.assertEqual((one, several, one.prereleases, "2a1" in one), (Specifier("<3"), SpecifierSet("===x,<3"), True, True))
        for it, name in ((one, "_spec"), (several, "_specs")):
            with self.assertRaises(AttributeError):
                delattr(it, name)
        with self.assertRaises(InvalidSpecifier):
            one._spec = (">", "x")

    def test_a_member_that_changes(self):
        several = SpecifierSet(">=1.0,!=2.0a1")

        def early():
            return list(several.filter(["1.1a1", "1.0"]))

        self.assertEqual((early(), several.contains("1.1a1")), (["1.0"], follows_26()))
        member = next(iter(several))
        member.prereleases = True
        self.assertEqual((early(), several.contains("1.1a1")), (["1.1a1", "1.0"], True))
        member.prereleases = None
        self.assertEqual((early(), several.contains("1.1a1")), (["1.0"], follows_26()))
        self.assertTrue(SpecifierSet(">=1.0,<=2.0a1").contains("1.1a1"))
        with self.assertRaises(AttributeError):
            del several.prereleases

    def test_a_name_of_its_own(self):
        class Named(Specifier):
            pass

        self.assertEqual(repr(Named(">=1.0")), "<Named('>=1.0')>")
        self.assertTrue(Named(">=1.0").contains("1.0"))


class VersionsBy25(By25, Versions):
    pass


class SpecifiersBy25(By25, Specifiers):
    pass


class Names(unittest.TestCase):
    def test_imported_anew(self):
        again = "import sys, pep440_rattle as it; one = it.Version('1'); [sys.modules.pop(each) for each in list(sys.modules) if each.startswith('pep440')]"
        subprocess.run([sys.executable, "-c", again + "; import pep440_rattle; assert pep440_rattle.Version('1') == one"], check=True)

    def test_public_names(self):
        for module in (pep440_rattle.version, pep440_rattle.specifiers):
            own = {name for name, it in vars(module).items() if getattr(it, "__module__", "").startswith("pep440_rattle") and name[0] != "_"}
            self.assertLessEqual(own, {*module.__all__, "Version", "InvalidVersion", "UnparsedVersionVar"}, module)
        self.assertEqual(pep440_rattle.behaves_like, "26.3")
        with self.assertRaises(ValueError):
            pep440_rattle.behave_like("26")


if __name__ == "__main__":
    unittest.main()
