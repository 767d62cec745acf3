"""The checks that need no program: each yields a line for each fault."""
import collections
import functools
import itertools
import math
import os
import re
import subprocess
import tempfile
import textwrap

from lib.mutants import copy
from lib.sources import TOP, code_of, crates, exports, files, libraries, modules, name_of, pages, prose, sources, text_of, trusted

QUOTED = re.compile(r"`([^`]+)`")


# ---- formats, first lines, names


def check_formats():
    """`rt fmt` leaves each file of each crate as it is."""
    with tempfile.TemporaryDirectory() as room:
        copy(crates(), room, "out")
        for crate in sorted(os.listdir(f"{room}/crates")):
            ran = subprocess.run(["rt", "fmt"], cwd=f"{room}/crates/{crate}", stdout=subprocess.PIPE, stderr=subprocess.STDOUT, text=True, check=False)
            if ran.stdout or ran.returncode:
                yield f"{crate}: {ran.stdout.strip()}"


AT_THE_TOP = ".git .gitignore .pre-commit-hooks.yaml CHANGELOG.md CONTRIBUTING.md HANDLES LICENSE NOTICE README.md crates.txt pep440 pyproject.toml".split()
OF_A_FUNCTION = ("Answers.antt", "Invariants.antt", "Proof.antt")
COMMENT = {".rt": re.compile(r"//!? \S"), ".antt": re.compile(r"-- ?\S")}


def check_files():
    """The first line of each file says what it is about, CONTRIBUTING.md names each crate, no other file than those known here stands at the top, and bash
    reads its scripts. Left out is what only names modules (Lib.antt), and the proof of one function, which lies where its function's name says."""
    yield from (f"{it.name}: a file at the top that is not known" for it in sorted(TOP.iterdir()) if it.is_file() and it.name not in AT_THE_TOP)
    for path in (path for crate in crates() for folder in ("src", "specs", "proofs") for path in files(crate, folder)):
        is_left_out = "proofs" in path.parts and path.name.removesuffix(".txt") in OF_A_FUNCTION or path.suffix == ".antt" and re.fullmatch(r"(?:(?:--.*|(?:pub )?mod \w+)?\n)*", text_of(path))
        if not is_left_out and not COMMENT[path.suffixes[0]].match(text_of(path)):
            yield f"{name_of(path)}: its first line does not say what it is about"
    rows = "\n".join(line for line in text_of("CONTRIBUTING.md").splitlines() if line.startswith("| "))
    for crate in crates():
        if f"`{crate}`" not in rows and f"`.._{crate.rpartition('_')[2]}`" not in rows:
            yield f"CONTRIBUTING.md: no row names the crate {crate}"
    for path in (it for folder in ("bench", "scripts", "callers/*/tests") for it in TOP.glob(f"{folder}/*") if it.is_file()):
        if path.read_bytes().startswith(b"#!/bin/bash") and subprocess.run(["bash", "-n", path], capture_output=True, check=False).returncode:
            yield f"{name_of(path)}: bash does not read it"


def check_names():
    """A name of specs/ is defined once in the whole repository."""
    found = collections.defaultdict(list)
    for module in modules().values():
        for it in module.definitions:
            found[it.name].append(f"{name_of(module.path)}:{it.number}")
    yield from (f"{name} is defined {len(places)} times: {' '.join(places)}" for name, places in sorted(found.items()) if len(places) > 1)


# ---- what pages name

SOURCES = ("crates", "tests", "scripts", "bench", "callers", "docs/pictures", ".ci")
# Names of other crates, of placeholders and of a command of the toolchain.
ELSEWHERE = """
    Arc Deref Deserialize FromIterator FromStr MIN_VERSION Serialize rkyv tidy tracing
    Demo_pkg devN plant postN rcN X_again X_takes dac8208d650f15bf
""".split()
NAME = re.compile(r"[A-Za-z_][A-Za-z_0-9]*")


def known_words(its_pages):
    found = {*ELSEWHERE, *(page.stem for page in its_pages)}
    for path in [*(path for folder in SOURCES for path in (TOP / folder).rglob("*")), *(it for it in TOP.iterdir() if it.suffix != ".md")]:
        if path.is_file() and not {"out", "dist", "__pycache__"} & {*path.relative_to(TOP).parts}:
            found.update(NAME.findall(name_of(path)))
            # this file names words that stand nowhere, and the test plants some
            if path.name not in ("checks.py", "scripts_test"):
                found.update(NAME.findall(path.read_text(encoding="utf-8", errors="ignore")))
    return found


def check_words():
    """What README.md, CONTRIBUTING.md and docs/*.md name in backquotes is there, and what a row of DEFINITIONS.md names is a trusted definition of its crate."""
    its_pages = [TOP / "README.md", TOP / "CONTRIBUTING.md", *sorted((TOP / "docs").glob("*.md"))]
    known = known_words(its_pages)
    for page in its_pages:
        for number, line in prose(page):
            for word in sorted({it for text in QUOTED.findall(line) for it in NAME.findall(text)} - known):
                if len(word) > 2 and not word.endswith("_"):
                    yield f"{name_of(page)}:{number}: {word} is not there"
    for number, line in prose("docs/DEFINITIONS.md"):
        if row := re.match(r"\| \[`(\w+)`\]\(.*\) \| (.*) \|", line):
            defined = {name for crate, _, name in trusted() if crate == row[1]}
            yield from (f"docs/DEFINITIONS.md:{number}: {name} is no definition of {row[1]}" for name in QUOTED.findall(row[2]) if name not in defined)


LINK = re.compile(r"!?\[[^\]]*\]\(([^)\s]+)\)")
NAMED = re.compile(r"`((?:docs|scripts|crates|bench|callers|completions|\.ci)/[\w./-]+)`")
PAGE = re.compile(r"`([\w./-]+\.md)`")


def anchors(page):
    """The anchors of the headings, as they are commonly made: lower case, blanks as dashes, other signs left out."""
    headings = [line.lstrip("#").strip() for _, line in prose(page) if re.match(r"#+ ", line)]
    return {re.sub(r"[^\w\- ]", "", it.lower()).replace(" ", "-") for it in headings}


def link_fault(page, link):
    """Why the link leads nowhere, or None."""
    path, _, heading = link.partition("#")
    there = (page.parent / path).resolve() if path else page
    if re.match(r"[a-z]+:", link):
        return None
    if there != TOP and TOP not in there.parents:
        return "leaves the repository"
    if "out" in there.relative_to(TOP).parts and "out" not in page.relative_to(TOP).parts:
        return "is made, and not in the repository"
    if not there.exists():
        return "no such file"
    return "no such heading" if heading and (there.suffix != ".md" or heading not in anchors(there)) else None


def check_links():
    """The links of each page, and the files that it names in backquotes, lead somewhere; those with a scheme and those that the toolchain makes are left alone."""
    count = 0
    for page in [*pages(), *sorted((TOP / "out/docs").rglob("*.md"))]:
        for number, line in prose(page):
            found = [(it, link_fault(page, it)) for it in LINK.findall(line)]
            found += [(it, "no such file" * (not (TOP / it).exists() and "/out/" not in it)) for it in NAMED.findall(line)]
            found += [(it, "no such page" * (not (TOP / it).exists() and not (page.parent / it).exists())) for it in PAGE.findall(line)]
            count += len(found)
            yield from (f"{name_of(page)}:{number}: {link}: {why}" for link, why in found if why)
    if not count:
        yield "no page has a link"


# ---- figures

PYTHON = "docs/SPEED.md"
# A table's head, with the name of its bench, and its rows.
TABLE = re.compile(r"(\|[^|\n]*`bench/(\w+)`\) \| Instructions \|\n\|---\|---\|\n)((?:\|.*\n)*)")
# What README.md says that a call takes or is.
CLAIM = re.compile(r"`([^`]+)`,? (?:takes |is )?(\d[\d,.]*\d)")


def counts():
    """The rows of each bench: the figure, its count, and what it is called in the page, if it has it."""
    found = collections.defaultdict(list)
    for line in text_of("bench/figures").splitlines():
        if line and not line.startswith("#"):
            bench, figure, count, *row = line.split("\t")
            found[bench].append((figure, f"{int(count):,}", *row))
    return found


def table(page, column):
    """The rows of the first table of the page that has this column, each by the names of its columns."""
    lines = [[it.strip() for it in line.strip().strip("|").split("|")] if line.startswith("|") else None for line in text_of(page).splitlines()]
    start = next(at for at, cells in enumerate(lines) if cells and column in cells)
    return [dict(zip(lines[start], cells)) for cells in itertools.takewhile(bool, lines[start + 2 :])]


def check_figures(writes=False):
    """The tables of docs/SPEED.md that name a bench have the rows of bench/figures, and README.md what was measured; ratios are those of the counts beside them."""
    page = text_of("docs/SPEED.md")
    wanted = TABLE.sub(lambda table: table[1] + "".join(f"| {it[2]} | {it[1]} |\n" for it in counts()[table[2]] if len(it) > 2), page)
    if writes:
        (TOP / "docs/SPEED.md").write_text(wanted, encoding="utf-8")
    elif page != wanted:
        yield "docs/SPEED.md: its tables are not those of bench/figures; `scripts/check --write figures` makes them"
    shown = {name for _, name, _ in TABLE.findall(page)}
    yield from (f"docs/SPEED.md has no table of {it}" for it, rows in counts().items() if any(len(row) > 2 for row in rows) and it not in shown)
    measured = {row["Call"].strip("`"): row["Ratio"] for row in table(PYTHON, "Ratio")}
    claims = CLAIM.findall(text_of("README.md").partition("## Why")[2].partition("\n## ")[0])
    yield from (f"README.md: {call}: {shown} is shown, {measured.get(call)} measured" for call, shown in claims if shown != measured.get(call))
    if len(claims) < 2:
        yield f"README.md: 2 figures under 'Why' are measured, {len(claims)} are shown"
    for row in table(PYTHON, "Ratio"):
        # both counts are rounded
        other, here = (int(row[it].replace(",", "")) for it in ("`packaging`", "Here"))
        if not (other - 0.5) / (here + 0.5) - 0.05 <= float(row["Ratio"]) <= (other + 0.5) / (here - 0.5) + 0.05:
            yield f"{PYTHON}: {row['Call']}: {other} and {here} have not the ratio {row['Ratio']}"


# ---- examples in code

WITH_EXAMPLES = ["docs/CALLING.md", "crates/pep440_rs/src/lib.rt"]


def stands(block, text):
    """Whether the lines stand in the text one after the other, all indented alike."""
    return any(f"\n{textwrap.indent(block, ' ' * depth)}\n" in f"\n{text}\n" for depth in range(0, 24, 4))


def check_examples():
    """Each block of `rust` and `antt` in docs/CALLING.md and at the head of the library stands word for word in a crate of examples."""
    code = collections.defaultdict(list)
    for path in (path for crate in ("examples", "first") for folder in ("src", "specs", "proofs") for path in files(crate, folder)):
        code[path.suffix].append(text_of(path))
    found = 0
    for page in WITH_EXAMPLES:
        text = text_of(page)
        if page.endswith(".rt"):
            text = "\n".join(line[4:] if line.startswith("//! ") else "" for line in text.splitlines())
        for language, block in re.findall(r"^```(rust|antt)\n(.*?)(?:^```$|\Z)", text, re.M | re.S):
            found += 1
            if not block or not any(stands(block.rstrip("\n"), it) for it in code[".rt" if language == "rust" else ".antt"]):
                yield f"{page}: a block stands in no file of examples: {block.partition(chr(10))[0]}"
    if not found:
        yield "no page has an example"


# ---- english: marks of a dialect that reads as translated

SUBJECT = r"(?:the|an?|its|their|all|each|every|some|those|these|one|two)"
PLACED = r"(?:comes?|stands?|lies?|goes|follows?|belongs?)"
# For each mark, how often it stands in 1,000 words of other manuals, and its pattern. Measured with `text_of_manual` over
# /usr/share/man/man{1,5,7,8} on Debian 12: 1,948 pages, 2,579,693 words; links and the generated pages of gcloud are left out.
MARKS = {
    "where": (0.882, r"(?i)\bwhere\b"),
    "alone": (0.03, r"(?i)\balone\b"),
    "that of": (0.063, r"(?i)\b(?:that|those) of\b"),
    "behind": (0.027, r"(?i)\bbehind\b"),
    "in full": (0.009, r"(?i)\bin full\b"),
    "of which": (0.06, r"(?i)\bof which\b"),
    # "so is the ..", "First come the ..", "Beside it stands a ..", "Rejected are all .."
    "verb before subject": (
        0.006,
        rf"\b(?:so|nor) (?:is|are|was|were|does|do|did|has|have|can|may|will|must) {SUBJECT}\b|(?:^|[.;:] +)(?:(?:First|Then) {PLACED}"
        rf"|(?:Beside|Behind|Of|To|Among|Between|Under|Above|Below|After|Before)(?: (?!there\b)[\w'-]+){{1,5}} {PLACED}|[A-Z]\w+ed (?:is|are)) (?:{SUBJECT}\b|[A-Z])",
    ),
}
ESCAPES = [(r"\\f(?:\(..|\[[^\]]*\]|.)|\\s[-+]?\d|\\&|\\c", ""), (r"\\\*?\(..|\\\[[^\]]*\]", " "), (r"\\(.)", r"\1")]


def text_of_manual(text):
    """The lines of a manual page that are text, without displays."""
    text = re.sub(r"^\.(?:nf|EX|Bd -literal|ig)\b.*?^\.(?:fi|EE|Ed|\.)$", "", text, flags=re.M | re.S)
    text = " ".join(re.findall(r"^[^.'\n].*$", text, re.M))
    for old, new in ESCAPES:
        text = re.sub(old, new, text)
    return text


def text_of_page(text):
    """A page without code and without where its links lead."""
    text = re.sub(r"^```.*?^```$", "", text, flags=re.M | re.S)
    text = re.sub(r"\]\([^)\s]+\)", "]", re.sub(r"`[^`\n]*`", "X", text))
    return re.sub(r"\s+", " ", re.sub(r"\n(?:\n|[|#*-])", "\n. ", text))


def english_texts():
    """Each text, by its kind and its name: pages, comments of code, help."""
    kinds = collections.defaultdict(dict)
    for path in pages():
        text = text_of(path)
        if path.suffix == ".h":
            text = "\n".join(re.sub(r"^ +", "", it, flags=re.M) + "\n" for it in re.findall(r"/\*(.*?)\*/", text, re.S))
        kinds["pages"][name_of(path)] = (text_of_manual if path.suffix == ".1" else text_of_page)(text)
    for crate in crates():
        comments = [line for path in files(crate, "src") for line in [*re.findall(r"^\s*//[/!] ?(.*)$", text_of(path), re.M), ""]]
        kinds["comments"][crate] = text_of_page("\n".join(comments))
    help_texts = re.findall(r'_HELP: &str =\s+"(.*?)";', text_of("crates/pyver_tool/src/help.rt"), re.S)
    return {**kinds, "help": {"pyver --help": re.sub(r"\s+", " ", ". ".join(help_texts))}}


def check_english():
    """No mark is more than twice as frequent as in other manuals, in the pages, in the comments of public items, or in the help texts."""
    for kind, its in english_texts().items():
        words = sum(len(re.findall(r"[A-Za-z][\w'-]*", text)) for text in its.values())
        for mark, (rate, pattern) in MARKS.items():
            places = [f"    {name}: {text[max(0, it.start() - 40) : it.end() + 30]}" for name, text in its.items() for it in re.finditer(pattern, text)]
            most = math.ceil(2 * rate * words / 1000)
            if len(places) > most:
                yield "\n".join([f"{kind}: `{mark}` {len(places)} times in {words:,} words, at most {most}:", *places])


# ---- words

PLAY = "docs/play/index.html"
# The most words of a page, as `wc -w` counts, of the page in the browser without its marks, and of all.
MOST_WORDS = {
    "README.md": 800, "CONTRIBUTING.md": 900, "CHANGELOG.md": 500, "docs/CALLING.md": 1_100, "docs/DECISIONS.md": 1_000, "docs/DEFINITIONS.md": 350,
    "docs/DIFFERENCES.md": 800, "docs/PROMISES.md": 1_000, "docs/SPEED.md": 900, "docs/pyver.1": 1_800, "docs/pyver-check.1": 1_200,
    "docs/pep440.1": 1_200, "callers/README.md": 250, "callers/c/pep440.3": 1_200, "callers/js/README.md": 400, "callers/postgresql/README.md": 800,
    "callers/python/README.md": 1_000, "callers/rust/pep440_rattle/README.md": 700, "callers/sqlite/README.md": 500,
    "docs/archives/library.md": 130, "docs/archives/page.md": 65, "docs/archives/programs.md": 155, PLAY: 150,
}
ALL_WORDS = 16_000


def check_lengths():
    """No page is longer than its readers have time for, nor are all."""
    texts = {name: text_of(name) for name in MOST_WORDS} | {PLAY: re.sub(r"(?s)^.*<body>|<[^>]*>", " ", text_of(PLAY))}
    counts = {name: len(text.split()) for name, text in texts.items()}
    yield from (f"{name} has {count:,} words, at most {MOST_WORDS[name]:,}" for name, count in counts.items() if count > MOST_WORDS[name])
    if sum(counts.values()) > ALL_WORDS:
        yield f"the pages have {sum(counts.values()):,} words, at most {ALL_WORDS:,}"


# ---- swept calls


def allocating_calls(crate):
    """Each public call that is passed the allocator, and each `clone` of a public type that is not `Copy`."""
    names, its_modules = exports(crate)
    for source in sources(crate):
        is_public = source.path.relative_to(crates()[crate].folder / "src").with_suffix("").parts[0] in its_modules
        yield from (f"{it.owner}::clone" for it in source.blocks if it.trait == "Clone" and it.owner in names)
        for derived, kind in re.findall(r"^#\[derive\(([^)]*)\)\]\n(?:#.*\n)*pub (?:struct|enum) (\w+)", source.text, re.M):
            if kind in names and "Clone" in derived.split(", ") and "Copy" not in derived.split(", "):
                yield f"{kind}::clone"
        for it in source.functions:
            is_own = it.block and not it.block.trait and source.code.startswith("impl", it.block.start)
            is_offered = is_own and it.block.owner in names if it.block else is_public or it.name in names
            # what stands before the clauses and the body
            signature = re.split(r"\n\s*(?:requires|ensures)\b|\n?\s*\{\n|;\n", source.code[it.start : it.end], maxsplit=1)[0]
            if it.is_public and is_offered and "alloc: Global" in signature:
                yield f"{it.block.owner}::{it.name}" if it.block else it.name


def items_of(text):
    """From each name of a function, a constant or a type to the texts that define it, methods of all types of one name together."""
    found, head = collections.defaultdict(str), r"^( *)(?:pub(?:\([a-z]+\))? )?"
    for item in re.finditer(rf"{head}(?:const )?(?:fn|struct|enum) (\w+).*?^\1\}}|{head}const (\w+): .*?;$", text, re.M | re.S):
        found[item[2] or item[4]] += item[0]
    for block in re.finditer(r"^impl[^\n]*?(\w+)(?:<[^\n]*>)? \{\n(.*?)^\}", text, re.M | re.S):
        found[block[1]] += block[2]
    return found


def reached(text, items):
    """The text with those of all that it names in turn."""
    texts, left = {"": text}, re.findall(r"\w+", text)
    while left:
        name = left.pop()
        if name not in texts and name in items:
            texts[name] = items[name]
            left += re.findall(r"\w+", items[name])
    return "".join(texts.values())


# The name of a case, and what answers it.
ARM = re.compile(r'"([\w-]+)"(?:, [^)\n]*\))? => (.*?)(?=\n +(?:\(?"|_ |\(_)|\n +\}\n)', re.S)


@functools.cache
def sweeps_of(crate):
    """For each test `sweep_..` of the crate and each case that its `stdin` has: the text of what it calls in turn, in the crate and in `testing`."""
    own, stdin = "".join(map(text_of, files(crate, "src"))), crates()[crate].folder / "stdin"
    items = items_of(own + "".join(map(text_of, files("testing", "src"))))
    cases = re.findall(r"^[\w-]+(?=\t)", text_of(stdin), re.M) if stdin.exists() else []
    arms = [arm for name, arm in ARM.findall(own) if name in cases]
    return [reached(it, items) for it in [*arms, *re.findall(r"^#\[test\]\nfn (sweep_\w+)", own, re.M)]]


def is_swept(crate, call, asked=()):
    """Whether a sweep names the call, or a file has a public call that is swept and names this one. Of a crate that no crate of tests names: a crate above it."""
    owner, _, word = call.rpartition("::")
    # of a clone: the type, in itself or in another
    named = re.compile(rf"\b{owner}\b" if word == "clone" else rf"(?<!fn )\b{word}\(")
    tests = [it for it, other in crates().items() if crate in other.uses and other.is_of_tests]
    if any(named.search(text) and word in text for it in tests for text in sweeps_of(it)):
        return True
    for above in [crate] if tests else [it for it in libraries() if it == crate or crate in crates()[it].uses]:
        texts = [text_of(path) for path in code_of(above)]
        naming = [it for it in texts if named.search(it)]
        callers = re.findall(r"^ *pub fn (\w+)", "".join(texts if naming and above != crate else naming), re.M)
        if any(is_swept(above, it, (*asked, call)) for it in callers if it not in (*asked, word)):
            return True
    return False


def check_swept():
    """Each public call that allocates is made by a test `sweep_..` or by a test case, of which `scripts/sweep` makes each allocation fail.

    Left out are crates of tests, programs, and the exports to C, each one call of a library: callers/c/tests/sweep.c sweeps them.
    """
    for crate in libraries():
        yield from (f"{crate}: {it} is made by no sweep" for it in allocating_calls(crate) if not is_swept(crate, it))
