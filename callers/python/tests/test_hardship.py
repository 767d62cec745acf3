"""What is given may be anything, from many threads, in a child process, with memory refused; and copies stay what they were."""
import concurrent.futures
import copy
import ctypes
import os
import pickle
import random
import resource
import shutil
import signal
import subprocess
import sys
import tempfile
import threading
import time
import unittest
import weakref

from peer import By25, follows_26
from pep440_rattle import InvalidSpecifier, InvalidVersion, Specifier, SpecifierSet, Version, _core, filter_texts, sort_keys, sort_texts

HERE = os.path.dirname(os.path.abspath(__file__))
# A sanitizer keeps freed memory for a while, and no other library may come before it.
SANITIZED = "asan" in os.environ.get("LD_PRELOAD", "")
TEXTS = [f"{place % 3}.{place * 7919 % 1000}.{place % 11}{suffix}" for place in range(2000) for suffix in ("", "rc1", ".post2", "+u.1")]
LIST = ">=1.0,<2.0,!=1.5.*"


class Text(str):
    """A str with more to it."""


class Garbage(unittest.TestCase):
    def test_other_types(self):
        for given in (None, 1, 1.5, b"1.0", bytearray(b"1.0"), memoryview(b"1.0"), ["1.0"], {"1.0"}, object(), Version, Specifier(">=1")):
            asked = (lambda it: SpecifierSet(">=1").contains(it), lambda it: list(SpecifierSet(">=1").filter([it])), Version)
            for call in (Specifier, *asked):
                if call in asked[:2] and follows_26():
                    self.assertFalse(call(given))
                else:
                    with self.assertRaises(InvalidVersion if call is Version and follows_26() else TypeError, msg=repr(given)):
                        call(given)
        for call in (Version, lambda: Version("1", "2"), lambda: Version(text="1"), lambda: SpecifierSet(5), lambda: sort_texts(None), lambda: sort_texts([1])):
            with self.assertRaises(TypeError):
                call()
        self.assertEqual(Version(version="1.0"), Version("1.0"))
        for call in (lambda: Version("1") < "2", lambda: Version("1") < 2, lambda: SpecifierSet("") & 5):
            with self.assertRaises(TypeError):
                call()
        self.assertFalse(Version("1") == "1" or Version("1") == 1 or Specifier("==1") == 1 or SpecifierSet("==1") == 1)

    def test_texts_of_all_kinds(self):
        for text in ("", "\0", "1.0\0", "\ud800", "1.0\udc80", "\U0001f600", "1" * 400, "1.0 ; python_version", "latest", "-1", "+1", "1..0"):
            with self.assertRaises(InvalidVersion, msg=repr(text)):
                Version(text)
            with self.assertRaises(InvalidSpecifier, msg=repr(text)):
                Specifier(">=" + text)
            if follows_26():
                self.assertEqual((SpecifierSet(">=1.0").contains(text), SpecifierSet("").contains(text)), (False, True))
            else:
                with self.assertRaises(InvalidVersion, msg=repr(text)):
                    SpecifierSet(">=1.0").contains(text)
            with self.assertRaises(InvalidVersion, msg=repr(text)):
                sort_texts(["1.0", text])
            with self.assertRaises(InvalidVersion, msg=repr(text)):
                sort_keys(["1.0", text])
            with self.assertRaises(InvalidVersion, msg=repr(text)):
                filter_texts(LIST, ["1.0", text])
            self.assertEqual(filter_texts(LIST, ["1.0", text], skip_invalid=True), ["1.0"])

    def test_long_texts(self):
        numbers = tuple(range(150_000))
        long = ".".join(map(str, numbers))
        self.assertGreater(len(long), 900_000)
        version = Version(long)
        self.assertEqual((version.release, str(version), version == Version(long + ".0")), (numbers, long, True))
        self.assertTrue(SpecifierSet(">=" + long).contains(long))
        self.assertEqual(sort_texts([long, "0"]), ["0", long])
        self.assertEqual(sort_keys([long, "0"]), [version.sort_key, Version("0").sort_key])
        with self.assertRaises(InvalidVersion) as caught:
            Version("x" * 1_000_000)
        self.assertTrue(str(caught.exception).startswith("Invalid version: 'xxx"))
        with self.assertRaises(InvalidSpecifier):
            SpecifierSet(">=1," * 100_000 + "x")

    def test_garbage_by_chance(self):
        random.seed(440)
        for _ in range(20_000):
            text = "".join(chr(random.choice([random.randrange(128), random.randrange(0x3000), random.randrange(0x110000)])) for _ in range(random.randint(0, 6)))
            for call, refusal in ((Version, InvalidVersion), (Specifier, InvalidSpecifier)):
                try:
                    self.assertIsInstance(str(call(text)), str)
                except refusal:
                    pass

    def test_sorts_of_each_size(self):
        """By words, and where a string has none by keys; equal ones stay in order."""
        random.seed(440)
        for count in (0, 1, 2, 24, 25, 4095, 4096, 70_000):
            for suffixes in ([""], ["", ".0", "rc1", ".post2", ".dev3"], ["", ".0", "+u.1"]):
                texts = [f"{random.randrange(3)}.{random.randrange(250)}{random.choice(suffixes)}" for _ in range(count)]
                self.assertEqual(sort_texts(texts), sorted(texts, key=Version))

    def test_a_list_that_shrinks_meanwhile(self):
        class Shrinking:
            def __init__(self):
                self.items = list(TEXTS)

            def __iter__(self):
                while self.items:
                    yield self.items.pop()

        self.assertEqual(sort_texts(Shrinking()), sort_texts(reversed(TEXTS)))


class GarbageBy25(By25, Garbage):
    pass


@unittest.skipIf(sys.version_info >= (3, 12), "references of constants count no more")
class References(unittest.TestCase):
    def test_constants(self):
        """A Python before 3.12 counts the references of True, False, None and NotImplemented, whichever headers the package was compiled with."""
        low, high, local, one, several = Version("1"), Version("2"), Version("1+a"), Specifier(">=1"), SpecifierSet(">=1")
        parts = (object, object, object, {})
        calls = [
            lambda: low < high, lambda: low > high, lambda: low == high, lambda: low != high, lambda: low >= local, lambda: low <= local, lambda: low.__lt__(1),
            lambda: one.__eq__(1), lambda: one.__lt__(1), lambda: several.__eq__(1), lambda: several.__and__(1), lambda: several.contains("2"),
            lambda: several.prereleases, lambda: low.is_prerelease, lambda: low.local, lambda: low.pre, lambda: _core.read_requirement("-", parts),
            lambda: _core.read_marker("-", parts), lambda: SpecifierSet("").prereleases, lambda: SpecifierSet("===1")._kept(["1"], True, False),
        ]
        for it in (True, False, None, NotImplemented):
            for call in calls:
                call()
                before = sys.getrefcount(it)
                for _ in range(400):
                    call()
                self.assertLess(abs(sys.getrefcount(it) - before), 200, (it, calls.index(call)))


class ReferencesBy25(By25, References):
    pass


class Copies(unittest.TestCase):
    def test_versions(self):
        for text in ("1.0", "1!2.0rc1.post2.dev3+ubuntu.1"):
            version = Version(text)
            for protocol in range(pickle.HIGHEST_PROTOCOL + 1):
                again = pickle.loads(pickle.dumps(version, protocol))
                self.assertEqual((again, str(again), hash(again), type(again)), (version, text, hash(version), Version))
            for again in (copy.copy(version), copy.deepcopy(version), Version(Text(text))):
                self.assertEqual((again, str(again)), (version, text))
        self.assertEqual({Version("1.0"), Version("1"), Version("1.0.0"), Version("1.0+x")}, {Version("1"), Version("1.0.0+x")})
        self.assertEqual({Version("1.0"): "found"}[Version("1.0.0")], "found")

    def test_sets(self):
        for several in (SpecifierSet(LIST), SpecifierSet(LIST, prereleases=True), SpecifierSet("")):
            for protocol in range(pickle.HIGHEST_PROTOCOL + 1):
                again = pickle.loads(pickle.dumps(several, protocol))
                self.assertEqual((again, str(again), hash(again), again.prereleases), (several, str(several), hash(several), several.prereleases))
            self.assertEqual(repr(copy.deepcopy(several)), repr(several))
        self.assertEqual(len({SpecifierSet(">=1.0"), SpecifierSet(">=1.0.0"), SpecifierSet(">=1")}), 1)
        for error in (InvalidVersion("x"), InvalidSpecifier("y")):
            self.assertEqual(repr(pickle.loads(pickle.dumps(error))), repr(error))

    def test_a_str_of_a_class_is_let_go(self):
        text = Text("1.0")
        gone = weakref.ref(text)
        version = Version(text)
        del text
        self.assertIsNone(gone())
        self.assertEqual(str(version), "1.0")

    def test_objects_that_are_used_again(self):
        """What takes the place of a freed object has nothing of it, and what that held is let go."""
        for _ in range(3):
            said, note = Text("as a true value"), Text("of the freed one")
            version, several, member = Version("1!2.0rc1.post2.dev3+ubuntu.1"), SpecifierSet(LIST, prereleases=said), Specifier("~=1.4.2")
            str(version), version.release, version.local, version.sort_key, hash(several), several.contains(version), hash(member), member.contains("1.5")
            version._key, member.prereleases = (1,), note
            gone = [*map(weakref.ref, (said, note, several, member))]
            del said, note, version, several, member
            self.assertEqual([it() for it in gone], [None] * 4)
            version, member, several = Version("3.1"), Specifier(">=1.0"), SpecifierSet(">=1.0") & SpecifierSet("")
            self.assertEqual([it() for it in gone], [None] * 4)
            self.assertEqual((str(version), version.release, version.local, version.pre, version.epoch), ("3.1", (3, 1), None, None, 0))
            self.assertTrue(Version("3.0") < version < Version("3.1+a") and hash(version) == hash(Version("3.1.0")) and version.sort_key == sort_keys(["3.1"])[0])
            self.assertEqual((str(member), member.prereleases, member.contains("1.0rc1"), member.version), (">=1.0", False, False, "1.0"))
            self.assertEqual((str(several), several.prereleases, "0.9" in several, len(several)), (">=1.0", None, False, 1))

    def test_objects_of_subclasses_are_freed(self):
        class Longer(Version):
            __slots__ = ("more", "and_more")

        class LongerSpecifier(Specifier):
            __slots__ = ("more", "and_more")

        for class_, text in ((Longer, "1.0"), (LongerSpecifier, ">=1.0")):
            for _ in range(50):
                made = [class_(text) for _ in range(50)]
                for each in made:
                    each.more = each.and_more = made
                plain = [class_.__base__(text) for _ in range(50)]
                self.assertEqual({*map(str, made), *map(str, plain)}, {text})
                made.clear()

    @unittest.skipIf(SANITIZED, "a sanitizer keeps what was freed")
    def test_nothing_is_kept(self):
        def turn():
            version = Version("1!2.0rc1.post2.dev3+ubuntu.1")
            str(version), version.release, version.local, hash(version), version < Version("1.0")
            for call in (lambda: Version("x"), lambda: SpecifierSet("x"), lambda: sort_texts(["1", "x"]), lambda: sort_keys(["x"])):
                try:
                    call()
                except ValueError:
                    pass
            several = SpecifierSet(LIST)
            several.contains("1.2"), list(several.filter(TEXTS[:20])), several.ranges(), sort_texts(TEXTS[:20]), sort_keys(TEXTS[:20])

        for _ in range(500):
            turn()
        before = resource.getrusage(resource.RUSAGE_SELF).ru_maxrss
        for _ in range(5000):
            turn()
        self.assertLess(resource.getrusage(resource.RUSAGE_SELF).ru_maxrss - before, 2000)


class Threads(unittest.TestCase):
    def test_threads(self):
        def turn(_):
            shared = SpecifierSet(LIST)
            kept = filter_texts(LIST, TEXTS)
            held = sorted(map(Version, TEXTS))
            return kept == wanted[0] and held == wanted[1] and sort_texts(TEXTS) == wanted[2] and list(shared.filter(TEXTS, True)) == wanted[0]

        wanted = filter_texts(LIST, TEXTS), sorted(map(Version, TEXTS)), sort_texts(TEXTS)
        with concurrent.futures.ThreadPoolExecutor(8) as pool:
            self.assertTrue(all(pool.map(turn, range(32))))

    def test_the_lock_is_released(self):
        texts, turns, is_over = [f"1.{at % 999}.{at % 77}" for at in range(300_000)], [], threading.Event()

        def count():
            while not is_over.is_set():
                turns.append(None)
                time.sleep(0)

        counter = threading.Thread(target=count)
        interval = sys.getswitchinterval()
        # so that the other thread runs only where the lock is released
        sys.setswitchinterval(100)
        try:
            counter.start()
            before = len(turns)
            sort_texts(texts)
            self.assertGreater(len(turns), before)
        finally:
            sys.setswitchinterval(interval)
            is_over.set()
            counter.join()

    def test_one_version_in_many_threads(self):
        def turn(_):
            version = Version("1!2.0rc1.post2.dev3+ubuntu.1")
            with concurrent.futures.ThreadPoolExecutor(4) as inner:
                return set(inner.map(lambda _: (version.release, version.pre, version.local, str(version)), range(20)))

        for _ in range(20):
            self.assertEqual(turn(None), {((2, 0), ("rc", 1), "ubuntu.1", "1!2.0rc1.post2.dev3+ubuntu.1")})

    @unittest.skipUnless(hasattr(os, "fork"), "no fork here")
    def test_interrupted(self):
        """A signal ends each batch within 0.2 seconds of the processor."""

        class Interrupted(Exception):
            pass

        def interrupt(number, frame):
            raise Interrupted

        texts = [f"1.{at % 999}.{at % 77}{'.dev4' if at % 5 else '+local'}" for at in range(1_000_000)]
        before = signal.signal(signal.SIGPROF, interrupt)
        self.addCleanup(signal.signal, signal.SIGPROF, before)
        for call in (sort_texts, sort_keys, lambda it: filter_texts(">=1.5", it)):
            for wait in (0.01, 0.04):
                start = time.process_time()
                with self.assertRaises(Interrupted):
                    signal.setitimer(signal.ITIMER_PROF, wait)
                    call(texts)
                self.assertLess(time.process_time() - start - wait, 0.2)

    def test_fork(self):
        held, several = Version("1.5rc1"), SpecifierSet(LIST)
        wanted = sort_texts(TEXTS)
        child = os.fork()
        if child == 0:
            right = held < Version("1.5") and "1.4" in several and sort_texts(TEXTS) == wanted and held.pre == ("rc", 1)
            os._exit(0 if right else 1)
        self.assertEqual(os.waitpid(child, 0)[1], 0)
        self.assertEqual(sort_texts(TEXTS), wanted)


# What runs where requests for memory are refused: each call answers rightly or raises MemoryError, and then answers rightly.
REFUSED = """
import ctypes, sys
from pep440_rattle import InvalidSpecifier, InvalidVersion, Specifier, SpecifierSet, Version, filter_texts, sort_keys, sort_texts, _core
arm, refused = ctypes.CDLL(None).refuse_arm, ctypes.CDLL(None).refuse_came
from pep440_rattle import markers, utils
marker = markers.Marker("python_version >= '3.8' and (os_name == 'x' or extra != 'y')")
long = "V1!1.2.3.4.5.6-Alpha.2-3.DEV+Ubuntu-01.long.local.part"
texts = [long, "1.0+b", "1.0", "0.9rc1", "1.0+a"] * 40
members = ">=1.16,!=1.5.*,===1.17,<2.0"
longest = ".".join(["12345678"] * 1000)
def refusal(call, text, error):
    try:
        call(text)
    except error as raised:
        return str(raised)
calls = [
    lambda: Version(long).sort_key, lambda: str(Version(long)), lambda: Version(long)._parts, lambda: Version(longest).release[-1], lambda: str(Version(longest)),
    lambda: refusal(Version, "1.0prev", InvalidVersion), lambda: refusal(SpecifierSet, ">=1.0;<2", InvalidSpecifier),
    lambda: str(Specifier("== " + long)), lambda: SpecifierSet(members)._specs, lambda: _core.ranges(members), lambda: hash(Specifier("~=" + longest)),
    lambda: SpecifierSet(members).contains("1.17", False), lambda: SpecifierSet(">=1.0a1,!=" + long).contains(longest + "rc1"),
    lambda: SpecifierSet(members).contains(Version(long)), lambda: filter_texts(">=0", [Version(it) for it in texts]),
    lambda: filter_texts(members, texts), lambda: list(SpecifierSet(">=0").filter(texts, False)), lambda: sort_texts(texts), lambda: sort_keys(texts),
    lambda: list(SpecifierSet(">=0,<9").filter(iter(texts))), lambda: list(SpecifierSet(">=2").filter(texts + ["3rc1"], key=str)), lambda: str(SpecifierSet(members)),
    lambda: repr(SpecifierSet(">=1.16,!=1.5.*").to_range() - SpecifierSet("===1.17").to_range()), lambda: len(SpecifierSet(">=1.16,!=1.5.*") & SpecifierSet("<2")),
    lambda: SpecifierSet(">=1.16").is_subset(SpecifierSet(">=1")), lambda: utils.parse_wheel_filename("a.B-1.0-py3-none-any.whl"), lambda: marker.evaluate({"extra": ""}),
    lambda: sort_keys([longest] * 3), lambda: refusal(sort_texts, texts + ["x"], InvalidVersion),
]
def attempt(call, number):
    try:
        arm(number)
        answer = call()
        arm(0)
        return answer
    except MemoryError:
        return MemoryError
total = 0
for call in calls:
    wanted, number = call(), 1
    while True:
        answer = attempt(call, number)
        came = refused()
        assert answer == wanted or (came and answer is MemoryError), (number, answer, wanted)
        assert call() == wanted
        if not came:
            break
        total, number = total + 1, number + 1
print(total)
"""


class Memory(unittest.TestCase):
    @unittest.skipIf(SANITIZED, "a sanitizer comes first")
    @unittest.skipUnless(shutil.which("cc") and sys.platform == "linux", "no cc here")
    @unittest.skipIf("PEP440_EMULATED" in os.environ, "the emulator would be refused memory, too")
    def test_each_request_refused_in_turn(self):
        with tempfile.TemporaryDirectory() as work:
            library = os.path.join(work, "refuse.so")
            subprocess.run(["cc", "-O1", "-shared", "-fPIC", "-o", library, os.path.join(HERE, "refuse.c")], check=True)
            # Python's own allocator asks malloc for much at a time, so that few of its requests are refused: it does not answer for these
            environment = dict(os.environ, LD_PRELOAD=library, PYTHONMALLOC="pymalloc", PYTHONPATH=os.pathsep.join(sys.path))
            ran = subprocess.run([sys.executable, "-c", REFUSED], env=environment, capture_output=True, text=True, check=False)
            self.assertEqual((ran.returncode, ran.stderr), (0, ""))
            self.assertGreater(int(ran.stdout), 50)
            print(f"\n{int(ran.stdout)} requests for memory refused in turn")


if __name__ == "__main__":
    unittest.main()
