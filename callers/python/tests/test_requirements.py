"""Requirements, markers and names of files beside `packaging`: parts, strings, errors with their texts, and what markers evaluate to."""
import collections
import importlib
import os
import random
import re
import unittest
import warnings

import pep440_rattle.requirements
import peer
from pep440_rattle import _core, _parser as parser

NAMES = ["name", "a.b", "A_b-c", "n1", "-x", "\u00e9", "a-", "x_"]
VERSIONS = ["1.0", "1.0.*", "2", "v1.0-Beta", "1!2.0.post1", "1.0+loc", "foo", "", "1.0.dev4+a.1", "1,2"]
OPERATORS = [*peer.OPERATORS, "=", "=>"]
BLANKS = ["", "", "", " ", "  ", "\t", "\n", "\u00a0"]
VARIABLES = ["python_version", "os_name", "os.name", "extra", "extras", "dependency_groups", "python_implementation", "sys.platform"]
VARIABLES += ["platform_python_implementation", "platform_release", "platform.version", "python_full_version", "foo"]
VALUES = ["'3.8'", '"3.8"', "'linux'", '"a_B.c"', "'x", '""', "'\\n'", "'\\'", "'\u00e9'", "'=1.0'", "'=foo'", "'3.8.*'", "'1.0+x'", "'v3'", "' 3.9 '", "'\n'"]
WORDS = ["in", "not in", "not  in", "not", "notin", "is"]
ENVIRONMENTS = [None, {"extra": "a-b-c"}, {"os_name": "linux", "python_version": "3.8"}, {"python_full_version": "3.8.1+"}, {"extra": None}]
CONTEXTS = ["metadata", "lock_file", "requirement"]
# What a release does otherwise than the one whose behaviour these modules have in its place: the name of the difference, what is asked, and the texts in which
# it plays a part. Of a requirement it is the text of its marker that counts.
OF_MARKERS = ("requirement", "marker")
CHANGES = {
    "24.2": [("variables of 25", OF_MARKERS, r"extras|dependency_groups")],
}
# What the extension reads alone.
PLAIN = [
    "name",
    "a.b[x, y]>=1.0,<2;os_name=='nt'",
    "name (==1.0.*)",
    " n ~= 1.0 , != 1.5, ; extra == 'x' ",
    "n[] @ a:b ;(os.name<'\"'or extra not  in \"a\")and('x' in extras)",
]


def rarely(items, usual):
    """One of the first ones, now and then one of all."""
    return random.choice(items if random.random() < 0.2 else items[:usual])


def spaced(text):
    return rarely(BLANKS, 3) + text + rarely(BLANKS, 3)


def some_specifiers():
    pieces = [spaced(rarely(OPERATORS, 8) + rarely(BLANKS, 3) + rarely(VERSIONS, 5)) for _ in range(random.choice([0, 1, 1, 1, 2, 3]))]
    text = ",".join(pieces) + rarely(["", ",", ",,", "+x", ".*", " a"], 1)
    return f"({text}{rarely([')', '', ']'], 1)}" if random.random() < 0.25 else text


def some_comparison(depth):
    if random.random() < 0.2 and depth < 3:
        return spaced("(" + some_marker(depth + 1) + rarely([")", ""], 1))
    sides = [spaced(rarely(VARIABLES, 8)), spaced(rarely(VALUES, 4))]
    if random.random() < 0.2:
        sides.reverse()
    return rarely(["==", "!=", ">=", "<", "in", "not in", *OPERATORS, *WORDS], 6).join(sides)


def some_marker(depth=0):
    text = some_comparison(depth)
    for _ in range(random.choice([0, 0, 1, 2])):
        text += rarely([" and ", " or ", "and", " or", " xor ", " "], 3) + some_comparison(depth)
    return text


def some_requirement():
    text = spaced(rarely(NAMES, 4))
    if random.random() < 0.3:
        names = rarely([",", ", ", " , ", " ", ",,"], 2).join(rarely(NAMES, 4) for _ in range(random.choice([0, 1, 2, 3])))
        text += f"[{spaced(names)}{rarely([']', ''], 1)}"
    text += spaced("@" + spaced(random.choice(["http://x.y/z;a=b", "file:///a", "", "x y"])) if random.random() < 0.1 else some_specifiers())
    return text + (f";{some_marker()}" if random.random() < 0.4 else "") + rarely(["", "x", "\n", "#c", " ;", "\n\n"], 1)


def some_version():
    return random.choice(["", "1!", "v"]) + ".".join(random.choices(["0", "1", "10", "00"], k=random.randint(1, 4))) + rarely(["", "rc1", ".post0", "+a.0", "x", ".0.0-1"], 2)


def some_file():
    parts = ["name", "a_b", "a__b", "1.0", "1.0.0", "1", "1a", "x", "py2.py3", "none", "any", "\u00e9"]
    return "-".join(random.choices(parts, k=random.randint(2, 6))) + random.choice([".whl", ".whl", ".tar.gz", ".zip", ".x"])


def some_name():
    return "".join(random.choices("aZ9-._\u00e9\n", [8, 4, 4, 4, 2, 2, 1, 1], k=random.randint(1, 6)))


def shown(call, *given):
    """What a call returns, or its error with its text and its cause; our texts of versions and specifiers go on with the reason."""
    try:
        return call(*given)
    except Exception as error:
        name, text = type(error).__name__, str(error)
        is_with_reason = name in ("InvalidVersion", "InvalidSpecifier") or text.startswith("Invalid specifier: ")
        return name, not is_with_reason and text, type(error.__cause__).__name__


class Library:
    """What is asked of a library, by its modules."""

    def __init__(self, requirements, markers, utils):
        self.requirements, self.markers, self.utils = requirements, markers, utils

    def requirement(self, text):
        it = self.requirements.Requirement(text)
        marker = it.marker and repr(it.marker._markers)
        again = self.requirements.Requirement(text.replace("1.0", "1.0.0", 1))
        return it.name, it.extras, str(it.specifier), it.url, str(it.marker), repr(it), marker, it == again, hash(it) == hash(again)

    def marker(self, text, environment, *context):
        it = self.markers.Marker(text)
        return str(it), repr(it._markers), shown(it.evaluate, environment, *context)

    def version(self, text):
        call = self.utils.canonicalize_version
        return call(text), call(text, strip_trailing_zero=False), self.utils.canonicalize_name(text)

    def file(self, text):
        name, version, build, tags = self.utils.parse_wheel_filename(text)
        return name, str(version), build, sorted(map(str, tags))

    def archive(self, text):
        name, version = self.utils.parse_sdist_filename(text)
        return name, str(version)

    def name(self, text):
        call = self.utils.canonicalize_name
        return self.utils.is_normalized_name(text), call(text), shown(lambda: call(text, validate=True))


def change_of(release, ask, text):
    """The difference that plays a part in what is asked of the release, or None."""
    of_marker = text.partition(";")[2] if ask == "requirement" else text
    rules = [(name, form) for name, asks, form in CHANGES.get(release, []) if ask in asks]
    return next((name for name, form in rules if re.search(form, of_marker)), None)


class AgainstPackaging(unittest.TestCase):
    def setUp(self):
        package = peer.load()[0].__name__.rpartition(".")[0]
        self.release = importlib.import_module(package).__version__
        if self.release not in (pep440_rattle.behaves_like, *CHANGES):
            self.skipTest(f"packaging {self.release} has other messages than {pep440_rattle.behaves_like}")
        names = ("requirements", "markers", "utils")
        self.theirs = Library(*(importlib.import_module(f"{package}.{name}") for name in names))
        self.ours = Library(*(importlib.import_module(f"pep440_rattle.{name}") for name in names))
        self.contexts = [] if self.release == "24.2" else CONTEXTS  # 24 knows none
        self.cases, self.left_out = collections.Counter(), collections.Counter()

    @classmethod
    def tearDownClass(cls):
        pep440_rattle.behave_like("26.3")

    def compare(self, ask, *given):
        change = change_of(self.release, ask, given[0])
        if change:
            self.left_out[change] += 1
            return
        left, right = (shown(getattr(each, ask), *given) for each in (self.theirs, self.ours))
        self.assertEqual(left, right, ascii((ask, *given)))
        self.cases[ask] += 1

    def test_random(self):
        random.seed(os.environ.get("PEP440_SEED", "requirements"))
        warnings.simplefilter("ignore", SyntaxWarning)
        warnings.simplefilter("ignore", DeprecationWarning)
        for _ in range(int(os.environ.get("PEP440_CASES", "200000")) // 20):
            self.compare("requirement", some_requirement())
            self.compare("marker", some_marker(), random.choice(ENVIRONMENTS), *random.choices(self.contexts, k=bool(self.contexts)))
            self.compare("version", some_version())
            self.compare("name", some_name())
            for ask in ("file", "archive"):
                self.compare(ask, some_file())
        told = (", ".join(f"{count} {kind}" for kind, count in sorted(it.items())) for it in (self.cases, self.left_out))
        print(f"\nrequirements beside packaging {self.release}: {self.cases.total()} cases: {next(told)}\nleft out as what {self.release} does otherwise: {next(told)}")

    def test_other_types(self):
        for given in (None, b"name", 1):
            for ask in ("requirement", "name"):
                self.assertEqual(shown(getattr(self.theirs, ask), given)[0], shown(getattr(self.ours, ask), given)[0], (ask, given))


class Forms(unittest.TestCase):
    """What no other library is needed for."""

    def test_plain_and_by_tokens(self):
        """A requirement has the same parts whether the extension reads it or its tokens."""
        for text in PLAIN:
            by_tokens = parser.parse_requirement(text)
            plain = parser.ParsedRequirement(*_core.read_requirement(text, parser.NODES))
            self.assertEqual(by_tokens._replace(specifier="", marker=None), plain._replace(specifier="", marker=None))
            self.assertEqual(repr(by_tokens.marker), repr(plain.marker))

    def test_big_numbers(self):
        with self.assertRaises(pep440_rattle.requirements.InvalidRequirement):
            pep440_rattle.requirements.Requirement("name>=18446744073709551616")


if __name__ == "__main__":
    unittest.main()
