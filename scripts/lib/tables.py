"""The pages of out/docs: the definitions of specs/ that have to be trusted, and the promises of public functions, one table of each a crate; and the picture of the crates."""
import collections
import html
import itertools
import re
import subprocess
import textwrap

from lib.sources import AGREEING, SECTIONS, TOP, code_of, crates, exports, libraries, modules, row, sources, text_of, trusted, with_below, without_sections, write_pages


def comment_of(module):
    """The comment at the start of a file."""
    return " ".join(line.lstrip("-").strip() for line in itertools.takewhile(lambda it: it.startswith("--"), text_of(module.path).splitlines()))


def sections_of(comment):
    """The sections of PEP 440 that a comment names."""
    return [name for text in re.findall(SECTIONS, comment) for names in re.findall(r'"([^"]+)"|(Appendix B)', text) for name in names if name]


def meaning_of(definition):
    """The comment without what the column of sections has; where there is none, the parts or the equation."""
    text = without_sections(definition.comment)
    if not text and definition.kind in ("data", "record"):
        names = re.findall(r"^ +(?:pub )?(\S+) :", "\n".join(definition.lines), re.M)
        return ("fields " if definition.kind == "record" else "one of ") + ", ".join(f"`{name}`" for name in names)
    equation = "; ".join(" ".join(line.split()) for line in definition.lines[1:])
    return text or (f"`{equation}`" if equation and len(equation) <= 160 and "`" not in equation else "see the file")


def definitions_of(crate):
    """The page of a crate, or None where no public clause cites a definition of it."""
    rows = []
    for name, module in ((name, it) for (of, name), it in modules().items() if of == crate):
        here = [it for it in module.definitions if it in trusted().values()]
        if here:
            link = f"**[{name}](../../../crates/{crate}/specs/{name.replace('.', '/')}.antt)**"
            rows.append(row(link, without_sections(comment_of(module)) or "see the file", ", ".join(sections_of(comment_of(module)))))
            rows.extend(row(f"`{it.name.replace('◌', '')}`", meaning_of(it), ", ".join(sections_of(it.comment))) for it in here)
    if not rows:
        return None
    links = f"[promises](../promises/{crate}.md) has the calls whose clauses cite them; [DEFINITIONS](../../../docs/DEFINITIONS.md) says what to read first."
    start = [f"# Definitions of `{crate}`", "", f"Written by `scripts/check definitions` from the comments in `specs/`; {links}", ""]
    return "\n".join([*start, row("Definition", "What it says", "PEP 440"), "|---|---|---|", *rows, ""])


def check_definitions():
    """Writes the definitions that public clauses of libraries cite and what those cite in turn; each name of `AGREEING` is there, and README.md shows their
    number to a fiftieth.

    A row says what the comment above the definition says, or has its parts or its equation if there is none. A public clause is a `requires` or `ensures` of
    a `pub fn` or of a function in an impl of a public type, a ghost member of such an impl, or the value of its model. Definitions are each `abbrev`,
    `unfoldable`, `data` and `record`. A reading that is proved to agree with definitions (`AGREEING`) needs no trust, nor does what it cites alone.
    """
    write_pages("definitions", {crate: page for crate in crates() if (page := definitions_of(crate))})
    yield from (f"no definition: {' '.join(it)}" for it in sorted(AGREEING) if it[:2] not in modules() or it[2] not in modules()[it[:2]].names)
    shown = [int(it.replace(",", "")) for it in re.search(r"([\d,]+) \[definitions\]\(\S+\), ([\d,]+) lines", text_of("README.md")).groups()]
    counted = [len(trusted()), sum(len(it.lines) for it in trusted().values())]
    if any(abs(one - other) > other / 50 for one, other in zip(shown, counted)):
        yield f"README.md shows {shown} definitions and lines, and {counted} are counted"


# ---- promises

HEAD = """# Promises of `{0}`

Written by `scripts/check promises` from the public functions in `src/`, their comments and their contracts. [PROMISES](../../../docs/PROMISES.md) has what holds of every
call and how to read a row; the clauses cite [definitions](../definitions/{1}.md).
"""
LONGEST = 90  # of a clause that is shown itself
EACH = re.compile(r'^ *pub (?:extern "C" )?fn (\w+)', re.M)
NAMED = re.compile(r"^\| `(?:\w+::)*(\w+)\(", re.M)


def quoted(names):
    return ", ".join(f"`{it}`" for it in names)


def comment_above(source, start):
    """The doc comment above what begins there, with attributes between."""
    above = itertools.takewhile(lambda line: re.match(r" *(//|#\[)", line), reversed(source.text[:start].splitlines()))
    return "\n".join(line.strip()[3:] for line in reversed([*above]) if line.strip().startswith("///"))


def says(comment, is_allocating=False):
    """The first sentence of a comment, and those on conditions and on allocation."""
    text = without_sections(comment)
    first, *others = re.findall(r"(?:`[^`]*`|.)+?(?:\.(?= [A-Z`])|$) ?", text) or [""]
    wanted = r"\bmust\b|\brequired\b" + r"|\b[Aa]llocat" * is_allocating
    return "".join([first, *(it for it in others if re.search(wanted, it))]).strip()


def contract(source, clauses, arguments):
    """Each clause by its name and the trusted definitions that no clause before it cites; a short one that cites none is shown."""
    found, shown = [], {*arguments}
    for keyword, name, text in clauses:
        # a type is none to look up
        those = {it[2]: trusted()[it] for it in source.cited(text) if it in trusted()}
        cited = {it for it, the in those.items() if the.kind not in ("record", "data") or "(" in the.lines[0]} - {*arguments}
        equation = " ".join(text.split())
        is_shown = not cited and len(equation) <= LONGEST and (keyword != "ghost" or "≡" in equation)
        what = quoted([equation] if is_shown else sorted(cited - shown, key=lambda it: (text.find(it), it)))
        name = ("requires " if keyword == "requires" else "") + (f"`{name}`" if name else "")
        found.append(": ".join(it for it in (name.strip(), what) if it))
        shown |= cited
    return "; ".join(it for it in found if it)


def row_of(source, it, prefix):
    """The row of a function."""
    head = source.code[source.code.index(f"fn {it.name}", it.start) : it.end]
    parts = re.search(r"\((.*?)\)(?:\s*->\s*((?:\[.*?\]|[^{;\[])*?))?\s*(?:\b(?:where|requires|ensures)\b|[{;])", head, re.S)
    arguments = [name for name in re.findall(r"\b_?(\w+)\s*:(?!:)", parts[1]) if name != "self"]
    trait = it.block.trait if it.block else ""
    clauses = contract(source, [*(it.block.clauses if trait else []), *it.clauses], arguments)
    call = f"`{prefix}{it.name}({', '.join(arguments)})`" + (f", `{trait}`" if trait else "")
    return row(call, quoted([" ".join(parts[2].split())] if parts[2] else []), says(comment_above(source, it.start), "alloc" in arguments), clauses)


def head_of(text):
    """The comment at the start of a file, up to its example."""
    return "\n".join(line[3:].strip() for line in text.splitlines() if line.startswith("//!")).partition("\n```")[0].strip()


def rows_of(crate, modules):
    """The rows of the functions of the crate, then of each type with its own, the longest first, then of each public module with its own."""
    prefix = {source: f"{source.path.stem}::" if source.path.stem in modules else "" for source in sources(crate)}
    own = {prefix[it]: [row(f"**module `{it.path.stem}`**", "", says(head_of(it.text)), "")] if prefix[it] else [] for it in sources(crate)}
    home, types = {}, {}
    for source in sources(crate):
        for head in re.finditer(r"^pub (struct|enum|trait) (\w+)", source.code, re.M):
            home[head[2]], types[head[2]] = source, [row(f"**`{prefix[source]}{head[2]}`**", "", without_sections(comment_above(source, head.start())), "")]
    public = [(source, it, it.block and it.block.owner) for source in sources(crate) for it in source.functions if it.is_public]
    # those of a trait stand last, those in the file of their type first
    for source, it, owner in sorted(public, key=lambda it: (bool(it[2] and it[1].block.trait), home.get(it[2], it[0]) is not it[0])):
        rows, path = (types[owner], f"{prefix[home[owner]]}{owner}::") if owner else (own[prefix[source]], prefix[source])
        rows.append(row_of(source, it, path))
    return sum([own.pop("", []), *sorted(types.values(), key=len, reverse=True), *own.values()], [])


def promises_of(crate):
    lib = text_of(f"crates/{crate}/src/lib.rt")
    # a crate without definitions cites those of the one that it exports
    defining = crate if any(it[0] == crate for it in trusted()) else crates()[crate].uses[0]
    lines = [HEAD.format(crate, defining), head_of(lib) + "\n"]
    for other, names in re.findall(r"^pub use (pep440_\w+)::(\w+|\{[^}]*\});", lib, re.M):
        those = quoted(it.strip() for it in names.strip("{}").split(",") if it.strip())
        lines.append(f"It exports from [`{other}`]({other}.md), too: {those}.\n")
    lines += [row("Call", "Returns", "What it does", "Clauses: definitions"), "|---|---|---|---|"]
    return "\n".join([*lines, *rows_of(crate, exports(crate)[1]), ""])


def conditions():
    """The public functions that have a condition, each with it."""
    lines = ["# Calls with a condition, which the caller proves\n", row("Call", "Condition"), "|---|---|"]
    for crate in libraries():
        for source in sources(crate):
            for it in source.functions:
                those = [" ".join(text.split()) for keyword, _, text in it.clauses if keyword == "requires"]
                if it.is_public and those:
                    lines.append(row(f"[`{it.block.owner + '::' if it.block else ''}{it.name}`]({crate}.md)", quoted(those)))
    return "\n".join([*lines, ""])


def check_promises():
    """Writes the public functions of each library, `src/lib.rt` of no tests: what their comments say first, and their contracts; each `pub fn` has a row.

    A row has the call, its result, the first sentence of its comment with those on conditions and allocation, and each clause: its name and the definitions
    that no clause before it cites, or itself if it is short and cites none. The functions of a public module stand below its name, those of a type below it.
    """
    pages = {crate: promises_of(crate) for crate in libraries()}
    write_pages("promises", {**pages, "conditions": conditions()})
    for crate, page in pages.items():
        # found without what the rows are made of
        names = collections.Counter(name for path in code_of(crate) for name in EACH.findall(text_of(path)))
        yield from (f"{crate}: `{it}` has no row" for it in (names - collections.Counter(NAMED.findall(page))).elements())


# ---- the picture of the crates in docs/pictures, by Graphviz

FOLDER = "docs/pictures"
TESTS = "Tests and examples"


def direct(name):
    """What a crate of the repository depends on, less what others of these depend on already."""
    uses = [it for it in crates()[name].uses if it in crates()]
    return [it for it in uses if not any(it in with_below(other) for other in uses if other != it)]


def boxes_and_arrows():
    """The lines of each box by its name, and the names at both ends of each arrow."""
    promises = dict(line.split(": ", 1) for line in text_of(f"{FOLDER}/promises.txt").splitlines() if line and not line.startswith("#"))
    tests = [name for name, it in crates().items() if it.is_of_tests]
    boxes = {name: [promises.pop(name, "NO PROMISE")] for name in crates() if name not in tests}
    boxes |= {name: ["NO CRATE", promise] for name, promise in promises.items()}
    arrows = {(name, below) for name in crates() if name not in tests for below in direct(name)}
    for name, it in crates().items():
        if name in boxes and (it.is_static or not it.is_library):
            boxes[name].insert(0, "(static library)" if it.is_static else "(program)")
    return boxes | {TESTS: [f"{name} on {', '.join(direct(name))}" for name in tests]}, arrows


def dot_source(boxes, arrows):
    def label(name, lines):
        wrapped = [row for line in lines for row in (textwrap.wrap(line, 30) if name != TESTS else [line])]
        rows = "".join(f'{html.escape(it)}<br align="left"/>' for it in wrapped)
        return f'<<font face="DejaVu Sans Mono"><b>{name}</b></font><br align="left"/><font point-size="10">{rows}</font>>'

    lines = ['graph [bgcolor="#fbfaf6", ranksep=0.35, nodesep=0.2, pad=0.2]', 'node [shape=box, style="rounded,filled", fillcolor=white, fontname="DejaVu Sans", fontsize=12, margin="0.2,0.07"]']
    lines += [f'"{name}" [label={label(name, its)}]' for name, its in boxes.items()]
    lines += [f'"{name}" -> "{below}" [color="#59616d"]' for name, below in sorted(arrows)]
    lines += [f'"{name}" -> "{TESTS}" [style=invis]' for name in boxes if name != TESTS and not any(it[0] == name for it in arrows)]
    return "digraph crates {\n" + "\n".join(lines) + "\n}\n"


def check_crates(writes=False):
    """The boxes of crates.svg are the crates with their promises, and its arrows what they depend on. Graphviz draws it (`dot`), and is not needed to read it."""
    boxes, arrows = boxes_and_arrows()
    file = TOP / FOLDER / "crates.svg"
    if writes:
        ran = subprocess.run(["dot", "-Tsvg"], input=dot_source(boxes, arrows), capture_output=True, text=True, check=True)
        file.write_text(ran.stdout, encoding="utf-8")
    groups = re.findall(r'<g id="\w+" class="(node|edge)">\s*<title>(.*?)</title>(.*?)</g>', file.read_text(encoding="utf-8"), re.S)
    shown = {html.unescape(name): html.unescape(" ".join(re.findall(r"<text [^>]*>(.*?)</text>", body))).split() for kind, name, body in groups if kind == "node"}
    wanted = {name: " ".join([name, *lines]).split() for name, lines in boxes.items()}
    yield from (f"{FOLDER}/crates.svg: the box of {it} is not as `scripts/check --write crates` draws it" for it in sorted({*shown, *wanted}) if shown.get(it) != wanted.get(it))
    drawn = {tuple(html.unescape(name).split("->")) for kind, name, body in groups if kind == "edge"} - {(name, TESTS) for name in boxes}
    yield from (f"{FOLDER}/crates.svg: the arrow from {it[0]} to {it[1]} is not right" for it in sorted(drawn ^ arrows))
    yield from (f"{FOLDER}/promises.txt: {name} has no promise, or is no crate" for name, lines in boxes.items() if {"NO PROMISE", "NO CRATE"} & {*lines})
