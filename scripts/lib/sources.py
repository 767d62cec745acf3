"""What stands in the repository: crates, source files with their functions and clauses, definitions, pages."""
import collections
import functools
import pathlib
import re
import shutil

TOP = pathlib.Path(__file__).resolve().parent.parent.parent
WORD = re.compile(r"[^\s(){}\[\],;:.λ∷]+")
# Readings that are proved to agree with definitions: they need no trust, nor does what they cite alone.
AGREEING = {("pep440_version", "Whole", "read_version"), ("pep440_version", "Whole", "read_pattern"), ("pyver_requirements", "MarkerReading", "terms_after_steps"),
            ("pyver_requirements", "MarkerSteps", "read_tokens")}
LEFT_OUT = re.compile(r"//[^\n]*|\"(?:\\.|[^\"\\])*\"|'(?:\\.|[^'\\\n])'")
BLOCK = re.compile(r"^(pub trait|impl)\b(?:<[^>]*>)?([^{]*)\{", re.M)
HEAD = re.compile(r"^ *(pub(?:\([a-z]+\))? )?(?:const )?(?:extern +)?fn (\w+)", re.M)
CLAUSE = re.compile(r"\b(requires|ensures)\*?\s*(\w*)\s*\{")
GHOST = re.compile(r"\b(ghost) (\w+) = \{")


@functools.cache
def text_of(path):
    return pathlib.Path(TOP, path).read_text(encoding="utf-8")


def name_of(path):
    return str(path.relative_to(TOP))


# A crate: its folder, whether it is proved, a static library, a library, of tests or examples, and all that it depends on.
Crate = collections.namedtuple("Crate", "folder is_proved is_static is_library is_of_tests uses")
# What lists the crates of a folder: those that are proved, and the programs of test cases, which are not.
LISTS = {"crates": "crates.txt", "tests": "tests/programs.txt"}


def listed(folder):
    return text_of(LISTS[folder]) if (TOP / LISTS[folder]).exists() else ""


@functools.cache
def crates():
    """Each crate by its name, in the order in which to read them."""
    found = {}
    for folder in LISTS:
        for name, kind, uses in re.findall(r"^(\w+) *(\w*):(.*)$", listed(folder), re.M):
            here = TOP / folder / name
            is_library = any((here / f"src/lib.rt{ending}").exists() for ending in ("", ".txt"))
            is_of_tests = bool(re.search("(^|_)(tests?|testing|vectors)$|^(examples|first)$", name))
            found[name] = Crate(here, folder == "crates", kind == "staticlib", is_library, is_of_tests, uses.split())
    return found


def with_below(name):
    """The crate and all crates of the repository that it depends on, the lowest first."""
    return list(dict.fromkeys([other for it in crates()[name].uses if it in crates() for other in with_below(it)] + [name]))


def lines_of_chains():
    """For each crate that is proved the lines of the longest chain from it up through crates that depend on one another, the longest chain first."""
    found = {}
    for name in reversed([name for name, it in crates().items() if it.is_proved]):
        above = [found[other] for other, it in crates().items() if other in found and name in it.uses]
        found[name] = sum(text_of(path).count("\n") for folder in ("src", "specs", "proofs") for path in files(name, folder)) + max(above, default=0)
    return dict(sorted(found.items(), key=lambda it: -it[1]))


def libraries():
    return sorted(name for name, it in crates().items() if it.is_library and not it.is_of_tests)


def files(crate, folder):
    """The sources of a crate in src/, specs/ or proofs/."""
    return sorted(it for it in (crates()[crate].folder / folder).rglob("*") if it.name.removesuffix(".txt").endswith((".rt", ".antt")))


def stem_of(path):
    """The name of a source without its endings."""
    return path.name.partition(".")[0]


# ---- definitions

# A definition or lemma of specs/: its name, its kind (None of a lemma), the comment above it, its lines, and the number of the first.
Definition = collections.namedtuple("Definition", "name kind comment number lines")
# A file of specs/: its definitions in order, the same by name with constructors naming their data, and what it imports.
Module = collections.namedtuple("Module", "path definitions names imports")


def imports_of(text):
    """From each name of another module that a text imports to where it stands: (crate, module, name)."""
    found = {}
    for crate, module, names in re.findall(r"use Rattle\.(\w+)\.specs\.(?!declared\b)([\w.]+)\.\{([^}]*)\}", text):
        for item in names.split(","):
            name, _, other = item.strip().partition(" as ")
            found[(other or name).strip().replace("◌", "")] = (crate, module, name.strip().replace("◌", ""))
    return found


def without_strings(text):
    return re.sub(r'"(\\.|[^"\\])*"', '""', text)


def read_module(path, text):
    found, names, current, inside, above = [], {}, None, False, []
    for number, line in enumerate(text.splitlines(), 1):
        bare = without_strings(line).split("--")[0].rstrip()
        if not bare or bare.startswith(("use ", "pub use ", "mod ", "pub mod ", "infix")):
            # a blank line or a heading ends a comment
            above = [*above, line.strip().lstrip("-").strip()] if re.match(r" *--(?! ----)", line) else []
            continue
        if not bare[0].isspace():
            inside = bare.startswith("module ")
            if inside:
                continue
        elif inside:
            bare = bare[2:]
        data = re.match(r"(?:abbrev |unfoldable |pub )*(data|record) (\S+)", bare)
        head = re.match(r"(?:(abbrev|unfoldable) )?(?:pub )?([^\s:({]+) :(?=\s|$)", bare)
        if data or head and not bare.startswith("unfolding"):
            kind, name = (data or head).groups()
            current = Definition(name, kind, " ".join(above), number, [])
            found.append(current)
            names[name.replace("◌", "")] = current
        elif current and current.kind == "data" and (constructor := re.match(r"\s+(\S+) :", bare)):
            names.setdefault(constructor[1], current)
        above = []
        if current:
            current.lines.append(bare)
    return Module(path, found, names, imports_of(text))


@functools.cache
def modules():
    """The files of all specs/, by crate and module, as `Sources.InputLines`."""
    paths = {(crate, path): path.relative_to(crates()[crate].folder / "specs").with_suffix("") for crate in crates() for path in files(crate, "specs")}
    return {(crate, ".".join(inner.parts)): read_module(path, text_of(path)) for (crate, path), inner in paths.items()}


def cited_in(text, places):
    """Where each name of definitions that a text has is defined, by where these names are."""
    return {places[it] for it in WORD.findall(without_strings(text)) if it in places}


@functools.cache
def trusted():
    """Each definition that a public clause cites, and what it cites in turn, by crate, module and name."""
    wanted = set()
    for crate in libraries():
        types = types_of(crate)
        for source in sources(crate):
            public = [*(it for it in source.blocks if it.owner in types), *(it for it in source.functions if it.is_public)]
            wanted.update(name for it in public for *_, clause in it.clauses for name in source.cited(clause))
    seen, todo = {}, list(wanted)
    while todo:
        crate, module, name = todo.pop()
        if (crate, module) not in modules() or (crate, module, name) in AGREEING:
            continue
        here = modules()[crate, module]
        definition = here.names.get(name)
        if definition is None or definition.kind is None or definition in seen.values():
            continue
        seen[crate, module, definition.name.replace("◌", "")] = definition
        todo.extend(cited_in("\n".join(definition.lines), here.imports | {it: (crate, module, it) for it in here.names}))
    return seen


# ---- code

# A public trait or an impl: of which type or trait, the trait that is implemented or "", and the ghost members by name.
Block = collections.namedtuple("Block", "start end owner trait clauses")
# A function: where its head begins and the next one's, its block or None, and its clauses: keyword, name and text.
Function = collections.namedtuple("Function", "start end name block clauses is_public")


def braced(text, start):
    """What stands between the brace at start and the one that closes it."""
    depth = 0
    for at in range(start, len(text)):
        depth += {"{": 1, "}": -1}.get(text[at], 0)
        if depth == 0:
            return text[start + 1 : at]
    return text[start + 1 :]


class Source:
    """A file of code: its text, the same with blanks for comments and strings, its blocks and its functions."""

    def __init__(self, path, types):
        self.path, self.text = path, text_of(path)
        self.imports = imports_of(self.text)
        self.code = LEFT_OUT.sub(lambda it: re.sub(r"[^\n]", " ", it[0]), self.text)
        self.blocks = [self.block(it) for it in BLOCK.finditer(self.code)]
        heads = [*HEAD.finditer(self.code)]
        ends = [*(it.start() for it in heads[1:]), len(self.code)]
        self.functions = [self.function(head, end, types) for head, end in zip(heads, ends)]

    def cited(self, text):
        """The definitions that a clause's text cites: crate, module and name of each."""
        return cited_in(text, self.imports)

    def clauses(self, pattern, start, end):
        return [(*it.groups(), braced(self.code, it.end() - 1)) for it in pattern.finditer(self.code, start, end)]

    def block(self, head):
        trait, _, owner = head[2].rpartition(" for ")
        end = head.end() + len(braced(self.code, head.end() - 1))
        clauses = [it for it in self.clauses(GHOST, head.end(), end) if trait.strip() != "Model" or it[1] == "Value"]
        return Block(head.start(), end, re.match(r"\w*", owner.strip())[0], trait.strip(), clauses)

    def function(self, head, end, types):
        block = next((it for it in self.blocks if it.start <= head.start() < it.end), None)
        is_of_trait = block and (block.trait or self.code.startswith("pub trait", block.start))
        is_public = (not block or block.owner in types) and (bool(is_of_trait) or head[1] == "pub ")
        return Function(head.start(), end, head[2], block, self.clauses(CLAUSE, head.start(), end), is_public)


def code_of(crate):
    """The files of code of a crate without its tests."""
    src = crates()[crate].folder / "src"
    return [it for it in files(crate, "src") if "tests" not in it.relative_to(src).with_suffix("").parts]


@functools.cache
def types_of(crate):
    """The names of the types and traits that are public in their files."""
    return {name for path in code_of(crate) for name in re.findall(r"^pub (?:struct|enum|trait) (\w+)", text_of(path), re.M)}


@functools.cache
def sources(crate):
    return [Source(path, types_of(crate)) for path in code_of(crate)]


def exports(crate):
    """The names that the root of a crate offers, and the modules that are public themselves."""
    root = text_of(f"crates/{crate}/src/lib.rt")
    used = " ".join(re.findall(r"^pub use ([^;]*);", root, re.M))
    return {*re.findall(r"\w+", used)}, {*re.findall(r"^pub mod (\w+);", root, re.M)}


# ---- pages

SECTIONS = r'PEP 440, ((?:"[^"]+"(?:, and |, | and )?)+(?:Appendix B)?)'


def without_sections(comment):
    """A comment without the sections of PEP 440 that it names."""
    return re.sub(rf" ?\({SECTIONS}\)", "", " ".join(comment.split())).strip()


def pages():
    """Each page, the manuals of the programs, and the C header."""
    hidden = {".git", "out", "dist", "build", "target", "node_modules"}
    found = [it for it in sorted(TOP.rglob("*.md")) if not hidden & {*it.relative_to(TOP).parts}]
    return [*found, *sorted(TOP.glob("docs/*.1")), TOP / "callers/c/pep440.h"]


def prose(page):
    """Each line outside of code blocks, with its number."""
    inside = False
    for number, line in enumerate(text_of(page).splitlines(), 1):
        if line.startswith("```"):
            inside = not inside
        elif not inside:
            yield number, line


def row(*cells):
    return "| " + " | ".join(it.replace("|", "\\|") for it in cells) + " |"


def write_pages(folder, written):
    """Writes these pages, by the names of their crates, to a folder of out/docs, and removes all else there."""
    folder = TOP / "out/docs" / folder
    shutil.rmtree(folder, ignore_errors=True)
    folder.mkdir(parents=True)
    for crate, page in written.items():
        (folder / f"{crate}.md").write_text(page, encoding="utf-8")
