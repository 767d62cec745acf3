"""Every answer beside that of `packaging`: PEP440_CASES cases (200,000) by the generator's seed PEP440_SEED (7).

A case is one text read, one pair compared, one candidate asked of a set, or one candidate of a filter. What stands in the README's table of
departures is told by rule (`peer.py`), counted, and left out; the last lines say how many there were of what. Of ranges, with 26.3 alone, there are
operations on random ones, an eighth as many.
"""
import collections
import importlib
import os
import pickle
import random
import re
import unittest

import peer
import pep440_rattle
from pep440_rattle import VERSION_PATTERN, filter_texts, ranges, sort_keys, sort_texts
from pep440_rattle import specifiers as our_specifiers
from pep440_rattle import version as our_version

CASES = int(os.environ.get("PEP440_CASES", "200000"))
VERSION_VALUES = (
    "epoch release pre post dev local public base_version is_prerelease is_postrelease is_devrelease major minor micro".split()
)
CHOICES = [None, None, True, False]
# Of ranges.
POLICIES = [None, None, None, None, True, False]
OPERATORS = ["==", "!=", "<=", ">=", "<", ">", "~="]


def answer(call, *given, **named):
    """What the call answers, or that it refuses."""
    try:
        return call(*given, **named)
    except (TypeError, ValueError) as error:
        return type(error).__name__


def answer_and_why(call, *given, **named):
    """The same, with the text of the error."""
    try:
        return call(*given, **named)
    except (TypeError, ValueError) as error:
        return type(error).__name__, str(error)


def allowed(specifiers):
    """Whether pre-releases are allowed, or the error: the text behind `===` may be no version."""
    return answer(lambda: specifiers.prereleases)


class AgainstPackaging(unittest.TestCase):
    @classmethod
    def setUpClass(cls):
        cls.their_version, cls.their_specifiers, cls.name = peer.load()
        cls.cases, cls.left_out = collections.Counter(), collections.Counter()
        random.seed(int(os.environ.get("PEP440_SEED", "7")))

    @classmethod
    def tearDownClass(cls):
        pep440_rattle.behave_like("26.3")
        told = ", ".join(f"{count} {kind}" for kind, count in sorted(cls.cases.items()))
        print(f"\nbeside {cls.name}: {cls.cases.total()} cases: {told}")
        print("left out as departures: " + ", ".join(f"{count} {kind}" for kind, count in sorted(cls.left_out.items())))

    def print_of(self, text):
        return str(self.their_version.Version(text))

    # ---- versions

    def test_texts(self):
        pattern = re.compile(rf"\s*{VERSION_PATTERN}\s*", re.VERBOSE | re.IGNORECASE)
        while self.cases["texts"] < CASES // 4:
            text = peer.some_text()
            if peer.is_beyond(text):
                self.left_out["texts beyond"] += 1
                continue
            ours, theirs = answer(our_version.Version, text), answer(self.their_version.Version, text)
            with self.subTest(text=text):
                self.assertEqual(repr(ours), repr(theirs))
                self.assertEqual(bool(pattern.fullmatch(text)), not isinstance(theirs, str))
                if not isinstance(theirs, str):
                    self.assertEqual([getattr(ours, it) for it in VERSION_VALUES], [getattr(theirs, it) for it in VERSION_VALUES])
            self.cases["texts"] += 1

    def test_orders(self):
        while self.cases["pairs"] < CASES // 8:
            left = peer.loosely(peer.some_version())
            right = peer.near(left) if random.random() < 0.5 else peer.some_version()
            if random.random() < 0.1:
                right = left + random.choice([".0", "", " "])
            if isinstance(answer(self.their_version.Version, right), str):
                continue
            ours = [our_version.Version(it) for it in (left, right)]
            theirs = [self.their_version.Version(it) for it in (left, right)]
            with self.subTest(left=left, right=right):
                for name in ("__lt__", "__le__", "__eq__", "__ne__", "__ge__", "__gt__"):
                    self.assertEqual(getattr(ours[0], name)(ours[1]), getattr(theirs[0], name)(theirs[1]), name)
                self.assertEqual(hash(ours[0]) == hash(ours[1]), theirs[0] == theirs[1])
                self.assertEqual(ours[0].sort_key < ours[1].sort_key, theirs[0] < theirs[1])
            self.cases["pairs"] += 1

    def test_sorts(self):
        while self.cases["sorted texts"] < CASES // 20:
            texts = [peer.loosely(peer.some_version()) for _ in range(random.choice([0, 1, 2, 30, 300]))]
            wanted = sorted(texts, key=self.their_version.Version)
            self.assertEqual(sorted(texts, key=our_version.Version), wanted)
            self.assertEqual(sort_texts(texts), wanted)
            held = [our_version.Version(it) for it in texts]
            self.assertEqual([it._text for it in sort_texts(held)], wanted)
            mixed = [it if place % 2 else our_version.Version(it) for place, it in enumerate(texts)]
            self.assertEqual([getattr(it, "_text", it) for it in sort_texts(mixed)], wanted)
            keys = sort_keys(texts)
            self.assertEqual(keys, [our_version.Version(it).sort_key for it in texts])
            self.assertEqual([it for _, _, it in sorted(zip(keys, range(len(keys)), texts))], wanted)
            self.cases["sorted texts"] += len(texts)

    # ---- specifiers

    def is_departure(self, specifiers, candidates=()):
        """Whether a departure of the table plays a part, and which."""
        parsed = [self.their_version.Version(it) for it in candidates]
        for each in specifiers:
            operator, version = each.operator, each.version
            if operator != "===" and not version.endswith(".*"):
                if peer.is_compatible_by_text(self.name, operator, version, self.print_of):
                    return "loose compatible release"
                bound = self.their_version.Version(version)
                if any(peer.is_local_above(operator, bound, it) for it in parsed):
                    return "local above"
        return None

    def same_specifiers(self, ours, theirs):
        self.assertEqual((str(ours), repr(ours), allowed(ours)), (str(theirs), repr(theirs), allowed(theirs)))
        copy = pickle.loads(pickle.dumps(ours))
        self.assertEqual((copy, hash(copy), allowed(copy)), (ours, hash(ours), allowed(ours)))

    def test_specifiers(self):
        before = None
        while self.cases["specifiers"] < CASES // 20:
            text, prereleases = peer.some_piece(), random.choice(CHOICES)
            if peer.is_beyond(text):
                self.left_out["texts beyond"] += 1
                continue
            theirs = answer(self.their_specifiers.Specifier, text, prereleases)
            change = None if isinstance(theirs, str) else peer.changed_since(self.name, [theirs])
            if change:
                self.left_out[change] += 1
                continue
            ours = answer(our_specifiers.Specifier, text, prereleases)
            with self.subTest(text=text, before=before):
                self.assertEqual(isinstance(ours, str) and ours, isinstance(theirs, str) and theirs)
                if isinstance(theirs, str):
                    continue
                self.same_specifiers(ours, theirs)
                self.assertEqual((ours.operator, ours.version), (theirs.operator, theirs.version))
                if before:
                    self.assertEqual(ours == our_specifiers.Specifier(before), theirs == self.their_specifiers.Specifier(before))
                    self.assertEqual(ours == before, theirs == before)
                before = text
            self.cases["specifiers"] += 1

    def some_set(self):
        pieces = [peer.some_specifier() for _ in range(random.choice([0, 1, 1, 2, 3, 4]))] + [""] * random.choice([0, 0, 1])
        random.shuffle(pieces)
        return random.choice([",", ", ", " , "]).join(pieces), random.choice(CHOICES)

    def test_sets(self):
        while self.cases["candidates"] + self.cases["filtered"] < CASES * 11 // 20:
            text, prereleases = self.some_set()
            theirs = answer(self.their_specifiers.SpecifierSet, text, prereleases)
            with self.subTest(text=text, prereleases=prereleases):
                if isinstance(theirs, str):
                    self.assertEqual(answer(our_specifiers.SpecifierSet, text, prereleases), theirs)
                    self.cases["sets refused"] += 1
                    continue
                change = peer.changed_since(self.name, theirs) or peer.is_by_chance(theirs)
                if change:
                    self.left_out[change] += 1
                    continue
                ours = our_specifiers.SpecifierSet(text, prereleases)
                self.same_specifiers(ours, theirs)
                self.assertEqual(len(ours), len(theirs))
                self.ask(ours, theirs)
                self.combine(ours, theirs)

    def test_relations(self):
        """How two sets relate, that are near to one another."""
        if self.name != "packaging 26.3":
            self.skipTest(f"{self.name} has no such calls")
        while self.cases["relations"] < CASES // 20:
            stem = peer.some_version(0)
            texts = [",".join(self.some_near_specifier(stem) for _ in range(random.choice([0, 1, 1, 2, 2, 3]))) for _ in range(2)]
            prereleases = [random.choice(CHOICES)] * 2 if random.random() < 0.9 else random.choices(CHOICES, k=2)
            if str(peer.MOST) in "".join(texts):
                # above it there are versions for `packaging` alone
                self.left_out["relations at the greatest number"] += 1
                continue
            ours = [our_specifiers.SpecifierSet(it, each) for it, each in zip(texts, prereleases)]
            theirs = [self.their_specifiers.SpecifierSet(it, each) for it, each in zip(texts, prereleases)]
            with self.subTest(texts=texts, prereleases=prereleases):
                for name in ("is_subset", "is_superset", "is_disjoint"):
                    self.assertEqual(answer(getattr(ours[0], name), ours[1]), answer(getattr(theirs[0], name), theirs[1]), name)
                self.assertEqual(ours[0].is_unsatisfiable(), theirs[0].is_unsatisfiable())
            self.cases["relations"] += 4

    @staticmethod
    def some_near_specifier(stem):
        version, operator = peer.near(stem) if random.random() < 0.8 else peer.some_version(0.1), random.choice(peer.OPERATORS[:-1] * 9 + ["==="])
        if operator in ("==", "!=", "===") and random.random() < 0.8:
            return operator + (re.sub(peer.SUFFIX, "", version) + ".*" if random.random() < 0.5 and operator != "===" else version)
        version = version.partition("+")[0]
        return (">=" if operator == "~=" and "." not in re.sub(peer.SUFFIX, "", version) else operator) + version

    def combine(self, ours, theirs):
        text, prereleases = self.some_set()
        other = answer(self.their_specifiers.SpecifierSet, text, prereleases)
        if isinstance(other, str):
            return
        mine = our_specifiers.SpecifierSet(text, prereleases)
        self.assertEqual(repr(answer(lambda: ours & mine)), repr(answer(lambda: theirs & other)))
        self.assertEqual(repr(answer(lambda: ours & text)), repr(answer(lambda: theirs & text)))
        self.assertEqual(ours == mine, theirs == other)
        self.cases["pairs of sets"] += 1

    def ask(self, ours, theirs):
        """Candidates near to the members, one by one, and as a filter."""
        stems = [it.version.removesuffix(".*") for it in theirs] or ["1.0"]
        stems = [self.print_of(it) if not isinstance(answer(self.print_of, it), str) else "1.0" for it in stems]
        texts = [peer.near(random.choice(stems)) if random.random() < 0.7 else peer.some_version() for _ in range(30)]
        texts = [it for it in texts if not peer.is_beyond(it)]
        texts = [peer.loosely(it) if random.random() < 0.2 else it for it in texts]
        kept = []
        for text in texts:
            departure = self.is_departure(theirs, [text]) or peer.changed_since(self.name, theirs, text)
            if departure:
                self.left_out[departure] += 1
                continue
            kept.append(text)
            self.ask_one(ours, theirs, text)
        self.ask_all(ours, theirs, kept)

    def ask_one(self, ours, theirs, text):
        named = {"prereleases": random.choice(CHOICES), "installed": random.choice([None, None, True, False])}
        item, item_of_theirs = (our_version.Version(text), self.their_version.Version(text)) if random.random() < 0.5 else (text, text)
        if not (named["installed"] and self.is_departure(theirs, [self.their_version.Version(text).base_version])):
            self.assertEqual(answer(ours.contains, item, **named), answer(theirs.contains, item_of_theirs, **named), (text, named))
        self.assertEqual(answer(lambda: item in ours), answer(lambda: item_of_theirs in theirs), text)
        del named["installed"]
        for member in theirs:
            mine = our_specifiers.Specifier(str(member), member._prereleases)
            self.assertEqual(answer(mine.contains, item, **named), answer(member.contains, item_of_theirs, **named), (str(member), text, named))
        self.cases["candidates"] += 1

    def ask_all(self, ours, theirs, texts):
        held = [our_version.Version(it) for it in texts]
        for prereleases in (None, True, False):
            wanted = answer(lambda: list(theirs.filter(texts, prereleases)))
            for items in (texts, held, iter(texts), iter(held)):
                found = answer(lambda: [getattr(it, "_text", it) for it in ours.filter(items, prereleases)])
                self.assertEqual(found, wanted, (texts, prereleases))
            for member in theirs:
                mine = our_specifiers.Specifier(str(member))
                again = self.their_specifiers.Specifier(str(member))
                wanted = list(again.filter(texts, prereleases))
                for items in (texts, iter(held)):
                    self.assertEqual([getattr(it, "_text", it) for it in mine.filter(items, prereleases)], wanted, (str(member), texts))
        self.assertEqual(filter_texts(str(ours), texts), list(theirs.filter(texts, True)))
        self.cases["filtered"] += 3 * len(texts)


class RangesAgainstPackaging(unittest.TestCase):
    @classmethod
    def setUpClass(cls):
        cls.addClassCleanup(pep440_rattle.behave_like, "26.3")
        theirs, _, cls.name = peer.load()
        if cls.name != "packaging 26.3":
            raise unittest.SkipTest(f"{cls.name} has no ranges")
        package = theirs.__name__.rpartition(".")[0]
        cls.modules = [(ranges, our_specifiers, our_version), [importlib.import_module(f"{package}.{it}") for it in ("ranges", "specifiers", "version")]]
        random.seed(int(os.environ.get("PEP440_SEED", "7")))

    def some_version(self):
        """Near to others, so that ends meet."""
        release = random.choice(["0", "0.0", "1", "1.0", "1.0.0", "1.1", "1.2", "2", "2.0", "3", "1.130", "1.0.1", "200"])
        text = random.choice(["", "", "", "", "1!"]) + release
        text += random.choice(["", "", "a0", "a1", "a2", "b0", "rc1"]) + random.choice(["", "", ".post0", ".post1", ".post2"])
        return text + random.choice(["", "", ".dev0", ".dev1", ".dev2", ".dev130"])

    def some_specifier(self):
        operator, text = random.choice(OPERATORS), self.some_version()
        release = re.sub(peer.SUFFIX, "", text)
        if operator in ("==", "!="):
            kind = random.random()
            text = f"{release}.*" if kind < 0.4 else f"{text}+{random.choice(['a', '1', 'a.1'])}" if kind < 0.5 else text
        if random.random() < 0.06:
            return "===" + random.choice(["x", "X-y", "1.0", "1.0A1", "1.0,2", text.replace(".*", "")])
        return (">=" if operator == "~=" and "." not in release else operator) + text

    def some_pair(self, pool):
        """A new range of both libraries, and how it was made."""
        kind, policy = random.random(), random.choice(POLICIES)
        if kind < 0.3 or len(pool) < 3:
            text = ",".join(self.some_specifier() for _ in range(random.choice([0, 1, 1, 1, 2, 2, 3, 4])))
            sets = [answer_and_why(lambda each=each: each.SpecifierSet(text, prereleases=policy)) for _, each, _ in self.modules]
            if any(isinstance(it, tuple) for it in sets):
                self.assertEqual([isinstance(it, tuple) for it in sets], [True, True], text)
                return None
            return [it.to_range() for it in sets], f"SpecifierSet({text!r}, {policy})"
        if kind < 0.36:
            text = self.some_version() + random.choice(["", "", "+a"])
            return [it.VersionRange.singleton(text, prereleases=policy) for it, _, _ in self.modules], f"singleton({text!r}, {policy})"
        if kind < 0.39:
            name, arbitrary = random.choice(["full", "empty"]), random.choice([True, False])
            named = {"prereleases": policy} | ({"admit_arbitrary": arbitrary} if name == "full" else {})
            return [getattr(it.VersionRange, name)(**named) for it, _, _ in self.modules], f"{name}({named})"
        one, other = random.choice(pool), random.choice(pool)
        name = random.choice(["__and__", "__or__", "__or__", "__sub__", "__invert__"])
        given = [[], []] if name == "__invert__" else [[other[0][0]], [other[0][1]]]
        found = [answer_and_why(getattr(it, name), *args) for it, args in zip(one[0], given)]
        how = f"({one[1]}).{name}({'' if name == '__invert__' else other[1]})"
        if any(isinstance(it, tuple) for it in found):
            self.assertEqual(found[0], found[1], how)
            return None
        return found, how

    def same(self, pair, others, how):
        ours, theirs = pair
        self.assertEqual((repr(ours), ours.is_empty), (repr(theirs), theirs.is_empty), how)
        texts = [self.some_version() + random.choice(["", "", "+a", "+1"]) for _ in range(6)] + random.sample(["x", "X-Y", "1.0,2", "1.0a1", "1.0.post0"], 2)
        for text in texts:
            named = {"prereleases": random.choice(CHOICES), "installed": random.choice(CHOICES)}
            self.assertEqual(answer_and_why(ours.contains, text, **named), answer_and_why(theirs.contains, text, **named), (how, text, named))
        allowed = random.choice(CHOICES)
        self.assertEqual(list(ours.filter(texts, allowed)), list(theirs.filter(texts, allowed)), (how, texts, allowed))
        for other in others:
            for name in ("is_subset", "is_superset", "is_disjoint", "__eq__"):
                self.assertEqual(answer_and_why(getattr(ours, name), other[0][0]), answer_and_why(getattr(theirs, name), other[0][1]), (how, name, other[1]))
            if ours == other[0][0]:
                self.assertEqual(hash(ours), hash(other[0][0]), how)

    def same_set(self, pair, how):
        found, wanted = (it.to_specifier_set() for it in pair)
        self.assertEqual(*((str(it), getattr(it, "_prereleases", None)) for it in (found, wanted)), how)

    def test_operations(self):
        counts, pool = collections.Counter(), []
        while counts["operations"] < CASES // 8:
            made = self.some_pair(pool)
            counts["operations"] += 1
            if made is None or len(made[1]) > 2000:
                continue
            self.same(made[0], random.sample(pool, min(2, len(pool))), made[1])
            if random.random() < 0.5:
                self.same_set(*made)
                counts["sets"] += 1
            if len(pool) > 20:
                pool[random.randrange(len(pool))] = made
            else:
                pool.append(made)
        print(f"\nranges beside {self.name}: {counts['operations']} operations, {counts['sets']} as sets of specifiers", flush=True)

    def test_longest_gaps(self):
        """Gaps of about 128 exclusions."""
        for last in (126, 127, 128, 129, 130):
            for text in (f"==0.*|>={last}", f"<1|>1.dev{last}", f"<1.dev0|>1.dev{last}", f"==5.*|=={last + 4}.1.*", f">=1,!=1.post0.dev0|<1.post0.dev{last}", f"<3|>={last}.0.dev5"):
                pairs = [[each.SpecifierSet(it).to_range() for it in text.split("|")] for _, each, _ in self.modules]
                for made in ([one | other for one, other in pairs], [one - other for one, other in pairs], [~other for _, other in pairs]):
                    self.same_set(made, text)

    def test_keys(self):
        items = [(text, place) for place, text in enumerate(["0.9", "1.5", "x", "2.0a1", "1.5a1"])]
        for text in (">=1.0", ">=1.0a1", "===x", ""):
            found = [list(each.SpecifierSet(text).to_range().filter(iter(items), key=lambda it: it[0])) for _, each, _ in self.modules]
            self.assertEqual(found[0], found[1], text)

    def test_errors(self):
        def said(it, call):
            try:
                return call(it.VersionRange)
            except Exception as error:
                return type(error).__name__, str(error)

        calls = [lambda it: it(), lambda it: it.full() & 1, lambda it: it.full().union(1), lambda it: it.full().contains(1), lambda it: it.full() == 1,
                 lambda it: it.full().is_superset(1), lambda it: it.empty(prereleases=True) | it.full(), lambda it: repr(it.full(prereleases=True))]
        for place, call in enumerate(calls):
            self.assertEqual(*(said(each, call) for each, _, _ in self.modules), place)
        for each, _, them in self.modules:
            with self.assertRaises(them.InvalidVersion):
                each.VersionRange.singleton("x")


class GreatestNumbers(unittest.TestCase):
    """Of ranges: ends above the greatest number, which no version here has."""

    def test_ends(self):
        SpecifierSet = our_specifiers.SpecifierSet
        made = SpecifierSet(f"=={peer.MOST}.*").to_range()
        above = peer.MOST + 1
        self.assertEqual(repr(made), f"<VersionRange '[{peer.MOST}.dev0, {above}.dev0)'>")
        self.assertEqual(str(made.to_specifier_set()), f"=={peer.MOST}.*")
        self.assertEqual([f"{peer.MOST}.1" in made, "1!0" in made, "1!0" in ~made, ~~made == made], [True, False, True, True])
        self.assertEqual(repr(SpecifierSet(f"~=1.{peer.MOST}").to_range()), f"<VersionRange '[1.{peer.MOST}, 2.dev0)'>")
        self.assertEqual(repr(SpecifierSet(f">1.post{peer.MOST}").to_range()), f"<VersionRange '(1.post{peer.MOST}[AFTER_LOCALS], +inf)'>")
        self.assertTrue(SpecifierSet(f">1.post{peer.MOST}", prereleases=False).is_subset(SpecifierSet(">1", prereleases=False)))


if __name__ == "__main__":
    unittest.main()
