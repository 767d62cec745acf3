"""Mutants, wrong code that the prover must reject: how they are read, and put into the sources of a crate.

A file more-edits/*.edits has mutants by their sources: a line `file: src/MODULE.rt` and an empty one, then in the order of the source for each a line
`mutant: NAME`, lines `old: TEXT` and `new: TEXT`, and a comment, `# differs: INPUT` or `# no input: WHY`. A line `file: FILE` in a mutant holds to its
end. A file NAME.edit is one mutant, as `rt must-fail` reads those of must-fail/.
"""
import glob
import os
import re
import shutil
import sys
from typing import NamedTuple

from lib.sources import LISTS, TOP, crates, listed, text_of, with_below

FUNCTION = re.compile(r"^( *)(?:pub(?:\([a-z]+\))? )?(?:const )?(?:unsafe )?(?:extern \"C\" )?fn (\w+)", re.M)


class BadMutant(Exception):
    """The mutant cannot be put into the sources."""


class Mutant(NamedTuple):
    """A mutant: its crate, its file below crates/, its name, and its lines, after that of its file which names the source."""

    crate: str
    path: str
    name: str
    text: str

    def __str__(self):
        return f"{self.path}: {self.name}"

    def pairs(self):
        """The replacements, as (file, old, new)."""
        file = old = None
        for line in self.text.split("\n"):
            word, _, rest = line.partition(":")
            rest = rest.removeprefix(" ")
            if word == "file":
                file = rest.strip()
            elif word == "old" and file and old is None:
                old = rest
            elif word == "new" and old:
                yield file, old, rest
                old = None
            elif line and not line.startswith("#"):
                raise BadMutant(f"a line that is none of a mutant's, or out of turn: {line}")
        if old is not None:
            raise BadMutant(f"no line 'new:' follows this one: {old}")

    def comment(self, word):
        """What its line `# WORD: ..` has, or None."""
        found = re.search(rf"^# {word}: (.*)$", self.text, re.M)
        return found and found[1]

    def texts(self, folder):
        """The files of the crate in this folder that it changes, as it makes them: each replacement applies to what those before it made."""
        texts = {}
        for file, old, new in self.pairs():
            if file not in texts:
                if not os.path.isfile(f"{folder}/{file}"):
                    raise BadMutant(f"there is no file {file}")
                texts[file] = text_of(f"{folder}/{file}")
            if texts[file].count(old) != 1:
                raise BadMutant(f"its text stands in {file} {texts[file].count(old)} times, and not once: {old}")
            texts[file] = texts[file].replace(old, new)
        if not texts:
            raise BadMutant("it replaces nothing")
        return texts

    def bodies(self, folder):
        """The bodies of functions that it changes, as it makes them, by file and index in `pieces_of`; or None where it changes more."""
        found = {}
        for file, text in self.texts(folder).items():
            right, wrong = pieces_of(text_of(f"{folder}/{file}")), pieces_of(text)
            if right[::2] != wrong[::2]:
                return None
            found.update({(file, i): wrong[i] for i in range(1, len(right), 2) if wrong[i] != right[i]})
        return found


def write_all(folder, texts):
    for file, text in texts.items():
        os.makedirs(os.path.dirname(f"{folder}/{file}"), exist_ok=True)
        with open(f"{folder}/{file}", "w", encoding="utf-8") as it:
            it.write(text)


def mutants_of(crate):
    """The mutants of the crate of this name, as its files have them."""
    for path in sorted(glob.glob(f"{TOP}/crates/{crate}/m*-*/**/*.edit*", recursive=True)):
        shown, text = os.path.relpath(path, f"{TOP}/crates"), text_of(path)
        if path.endswith(".edit"):
            yield Mutant(crate, shown, os.path.basename(path)[: -len(".edit")], text)
            continue
        for section in re.split(r"\n(?=file: \S+\n\n)", text):
            head, *blocks = re.split(r"^mutant: ", section, flags=re.M)
            if not re.fullmatch(r"file: \S+\n+", head):
                sys.exit(f"{shown}: it does not begin with a line 'file: FILE' and then a mutant")
            yield from (Mutant(crate, shown, name, head + rest) for name, _, rest in (it.partition("\n") for it in blocks))


def pieces_of(text):
    """A source in pieces: each second one is the body of a function, between its braces."""
    lines, pieces, at = text.splitlines(keepends=True), [""], 0
    while at < len(lines):
        head, opening = FUNCTION.match(lines[at]), None
        for i in range(at, len(lines)) if head else ():
            opening = re.match(rf"({head[1]}(?:\S[^{{]*)?{{)(?!}})(.*\n)", lines[i])
            if opening or lines[i].endswith((";\n", "{}\n")) or not lines[i].startswith(head[1]):
                break
        if opening:
            end = lines.index(head[1] + "}\n", i)
            pieces[-1] += "".join(lines[at:i]) + opening[1]
            pieces += [opening[2] + "".join(lines[i + 1 : end]), ""]
            at = end
        pieces[-1] += lines[at]
        at += 1
    return pieces


def merge(folder, mutants, join):
    """The files that these mutants change, with each body as `join` makes it of a mutant, its body, and the one that stands there."""
    files = {}
    for mutant in mutants:
        for (file, i), body in mutant.bodies(folder).items():
            pieces = files.setdefault(file, pieces_of(text_of(f"{folder}/{file}")))
            pieces[i] = join(mutant, body, pieces[i])
    return {file: "".join(pieces) for file, pieces in files.items()}


def module_of(file):
    """The module of a file of src/, as the parts of a path."""
    parts = file[len("src/") : -len(".rt")].split("/")
    return [] if parts in (["lib"], ["main"]) else parts


def copy(names, room, *left_out):
    """Copies into this folder the crates of these names and those that they depend on, but for files and folders of the names left out. There programs
    of test cases are crates like all others, whose sources have no second ending."""
    found = {it for name in names for it in with_below(name)}
    lines = [line for folder in LISTS for line in listed(folder).splitlines(True) if re.match(r"\w*", line)[0] in found]
    write_all(room, {"crates.txt": "".join(lines), "HANDLES": text_of("HANDLES")})
    for name in found:
        to = f"{room}/crates/{name}"
        shutil.copytree(crates()[name].folder, to, symlinks=True, ignore=shutil.ignore_patterns(*left_out))
        for path in () if crates()[name].is_proved else glob.glob(f"{to}/**/*.*t.txt", recursive=True):
            os.rename(path, path.removesuffix(".txt"))
