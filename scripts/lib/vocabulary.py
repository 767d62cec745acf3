"""Holds comments, names and pages to one vocabulary, and each name to one meaning.

It reads the comments, clauses and names of crates/*/src, the comments and names of crates/*/specs, the pages, the manuals and the C header; what
stands in backquotes is not read.
"""
import re

from lib.sources import TOP, crates, files, libraries, modules, name_of, pages, prose as page_prose, sources, stem_of, text_of

WORDS = [(re.compile(rf"\b(?:{old})\b", re.I), new) for old, new in [
    (r"refus(?:e|es|ed|ing|als?)", "reject, error; of an allocation: fail"),
    (r"told|tells?(?! \w+ apart)", "report, return, name"),
    (r"(?:takes?|asks? for) memory|requests? (?:for|of) memory|(?:finds?|found) no memory|memory ran out|want of memory", "allocate, an allocation fails"),
    (r"stands? on", "depend on"),
    (r"(?:is|are) read again|rereads?", "round-trip, parse back"),
    (r"(?:the|longest) front|in front(?! of)|front of (?:a|the) (?:text|string|buffer)", "prefix, start"),
    (r"(?<!in )(?<!take )(?<!takes )(?:its|their|the|that|whose) places?", "index, position, line number"),
    (r"marks? (?:min|max)|these marks", "sentinels"),
    (r"held in a word|fits? a word", "packed"),
    (r"worked (?:rows?|cases?)|gives? its row|rows of (?:its|the) (?:call|words)", "test cases"),
    (r"wrong bod(?:y|ies)", "mutant"),
    (r"believe[sd]?|believing|lent|handed on", "trust; borrow, pass"),
    (r"(?:a|the|least|this) room", "buffer"),
    (r"cuts?(?! off)(?= (?:of|at|anywhere|by|into))", "split"),
    (r"(?:calls?|words?|writers?|readers?|parts?|specifier|it) answers?|(?:is|are) answered|answers (?:what|as|the same|it)", "return, print"),
    (r"(?:the|its|a) print", "normalized form, `Display` output"),
    (r"(?:texts?|strings?|words?|lines?) (?:that )?means?|what (?:a|the) (?:text|string|word|line) means", "parse to, denote"),
]]
TEXT = re.compile(r"\b(?:a|any|each|no|which|some|long|two|these) texts?\b|\bTexts (?:that|whose|with|as|of more)\b"), "string"
TEXT_IS_A_TYPE = ("callers/postgresql/", "callers/sqlite/")
PARTICIPLE = re.compile(r"\w*[^e]ed|told|kept|held|found|met|said|given|made|written")
# Participles that are terms of the field or names of public calls, and other names that say nothing of what they name.
TERMS, OTHERS = {"packed", "unpacked", "allowed"}, {"stop", "decomposition", "room", "telling"}
# Modules and types that have one role wherever they stand; those of `pep440_compiled` are about the bytes of what they are named after.
ROLES = set(" lib main laws error error_text read scan print stream reading program command Command Answer Lib Errors ErrorTexts Runs \
list packed unpacked version Lists".split(" "))
# The words of a definition's name that say what a function does in the old dialect: `Refuses`, `TellsWhy`, `list_refusal_of`.
PARTS = re.compile(r"[A-Z]?[a-z]+|[A-Z]+(?![a-z])")
BANNED = re.compile(r"refus\w*|tells?|told|means?|stops?|stopped|gives?|puts?")
FUNCTION = re.compile(r"\s*(?:pub(?:\([a-z]+\))? )?(?:const )?fn (\w+)")
TYPE = re.compile(r"(?:pub(?:\([a-z]+\))? )?(?:struct|enum) (\w+)")
LOCAL = re.compile(r"\s*let (?:mut |Ok\(|Some\()?([a-z]+_\w+)")
CLAUSE = re.compile(r"\s*(?:requires|ensures)\*? (\w+) \{")


def name_of_item(pattern, line):
    return found[1] if (found := pattern.match(line)) else ""


def lines_of(path):
    for number, line in enumerate(text_of(path).splitlines(), 1):
        yield f"{name_of(path)}:{number}", line


def code():
    return [path for crate in crates() for folder in ("src", "specs") for path in files(crate, folder)]


def prose():
    """Each line of a comment or a page, code blocks left out."""
    for path in code():
        mark = "--" if path.suffix == ".antt" else "//"
        yield from ((at, line.partition(mark)[2]) for at, line in lines_of(path) if mark in line)
    for path in pages():
        yield from ((f"{name_of(path)}:{number}", line) for number, line in page_prose(path))


def words():
    for at, line in prose():
        for pattern, better in WORDS if at.startswith(TEXT_IS_A_TYPE) else [*WORDS, TEXT]:
            yield from (f"{at}: {found[0]} -> {better}" for found in pattern.finditer(re.sub(r"`[^`]*`", "``", line)))


def definitions():
    """Names of definitions that have a word of the old dialect."""
    for module in modules().values():
        for it in module.definitions:
            if any(BANNED.fullmatch(part.lower()) for part in PARTS.findall(it.name)):
                yield f"{name_of(module.path)}:{it.number}: {it.name} -> rejects, reports, denotes, ends, returns or writes"


def names(crate, public):
    """Participles as names, and locals and clauses of two words with the name of a function or definition of the crate."""
    code = [line for path in files(crate, "src") for line in lines_of(path)]
    taken = {name_of_item(FUNCTION, line) for _, line in code} - {""}
    taken |= {it.name for (of, _), module in modules().items() if of == crate for it in module.definitions}
    inside = ""
    for at, line in code:
        function, kind, clause, local = (name_of_item(it, line) for it in (FUNCTION, TYPE, CLAUSE, LOCAL))
        inside = function or inside
        for name in {function, kind}:
            participle = PARTICIPLE.fullmatch(name.lower()) and not re.search("_|.[A-Z]", name) and name.lower() not in TERMS
            if participle or name not in public and re.search("refus|told", name):
                yield f"{at}: {name} -> a verb for an action, a noun for a value, an error for a refusal"
        if {kind.lower(), clause} & OTHERS:
            yield f"{at}: {kind or clause} -> what it is"
        if "_" in clause and clause in taken or local in taken - {inside} and f"{local}(" not in line:
            yield f"{at}: {clause or local} -> another name: a function or definition has this one"


def meanings():
    """Names of crates, modules and types that stand for two things; test crates and folders name modules as what they test."""
    tested = {crate: re.sub("_tests$|^pep440_vectors$", "", crate) for crate in crates()}
    for crate, it in crates().items():
        if tested[crate] != crate and tested[crate] in crates() and tested[crate] not in it.uses:
            yield f"crates.txt: {crate} -> another name: it does not depend on {tested[crate]}"
    found = {}
    for at in (path.relative_to(TOP) for path in code()):
        if stem_of(at).lower() in OTHERS:
            yield f"{at} -> what is in it"
        if tested[at.parts[1]] == at.parts[1] and "tests" not in at.parts:
            for name, place in [(f"module {stem_of(at)}", at), *((f"type {name_of_item(TYPE, line)}", it) for it, line in lines_of(TOP / at))]:
                found.setdefault(name, {}).setdefault(at.parts[1], str(place))
    yield from (f"{name} -> a name for each: {' '.join(it.values())}" for name, it in found.items() if len(it) > 1 and name.split(" ")[1] not in ROLES)


def check_vocabulary():
    public = {it.name for crate in libraries() for source in sources(crate) for it in source.functions if it.is_public}
    return [*words(), *definitions(), *(it for crate in crates() for it in names(crate, public)), *meanings()]
