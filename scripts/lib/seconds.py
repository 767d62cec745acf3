"""How long the prover takes for each function: `seconds.py [--write] FOLDER` reads what `scripts/prove NAME --trace FOLDER` left there, a file a crate.

The prover saves each module of a proof as it ends with it, under a name that begins with its function's, so the time since it saved the one before is
that module's. Seconds differ from machine to machine, so a function's are divided by those of one of std that each crate has proved again. The list
dearest.txt has those that take ten times as long, which --write makes anew. A function that takes two fifths more than the list says, or than that if it
is not there, is a fault, but in a crate of which the list has none. Exit status: 0 if there is none, else 1.
"""
import collections
import pathlib
import re
import statistics
import sys

LIST = pathlib.Path(__file__).parent.parent / "dearest.txt"
HEAD = "# The dearest functions to prove: the crate, the function, and how often the proof of `String`'s drop fits into its own (`scripts/nightly seconds`)\n"
REFERENCE = "std_alloc++string++String+Destruct.drop"
# What of a function the prover keeps apart, behind its name; from which figure on the list has a function; by how much a figure may rise.
PARTS = "Answers Carried Code Given Goals Invariants Key Kinds Layout Lts Members Met Mir Named Proof Reads Seen Statement Symbol TheLink Tie View".split()
DEAR, PLAY = 10, 1.4
SAVED = re.compile(r'^\d+ +([\d.]+) rename\("[^"]*", "[^"]*/([^/"]+)\.oantt"')


def function_of(module):
    """The path of the function that a module is about, or None."""
    library, _, path = module.partition(".")
    parts = path.split(".")
    if library.endswith("-specs") and parts[0] == "contracts":
        return ".".join(it for it in parts[1:] if it != "Key") or None
    while library.endswith("-proofs") and parts and re.sub(r"[-+\d].*", "", parts[-1]) in PARTS:
        parts.pop()
    return ".".join(parts) if library.endswith("-proofs") and parts != path.split(".") else None


def seconds_in(trace):
    """The seconds of each function of a crate, by its path, and of std's that the crate proves again."""
    found, last = collections.Counter(), None
    for line in trace.read_text(errors="replace").splitlines():
        if saved := SAVED.match(line):
            time, module = float(saved[1]), saved[2].removesuffix(".decls")
            if function := function_of(module):
                found[function] += time - (last or time)
            last = time
    return found


def rows(folder):
    """Each function of the traced crates with its figure, the dearest first."""
    traced = {it.stem: seconds_in(it) for it in sorted(pathlib.Path(folder).glob("*.trace"))}
    unit = statistics.median([it[REFERENCE] for it in traced.values() if it[REFERENCE]] or [1])
    for crate, seconds in traced.items():
        print(f"{crate}: {len(seconds)} functions, {sum(seconds.values()):.0f} s")
    print(f"{REFERENCE}: {unit:.2f} s")
    return sorted(((taken / unit, crate, name) for crate, its in traced.items() for name, taken in its.items() if not name.startswith("std_")), reverse=True)


def main(words):
    found = rows(words[-1])
    if words[0] == "--write":
        LIST.write_text(HEAD + "".join(f"{crate}\t{name}\t{figure:.0f}\n" for figure, crate, name in found if figure >= DEAR), encoding="utf-8")
        return 0
    wanted = {(crate, name): float(figure) for crate, name, figure in (it.split("\t") for it in LIST.read_text().splitlines() if it[:1] != "#")}
    known = {crate for crate, _ in wanted}
    faults = [it for it in found if it[1] in known and it[0] > PLAY * wanted.get(it[1:], DEAR)]
    for figure, crate, name in faults:
        print(f"{crate} {name}: {figure:.0f}, listed {wanted.get((crate, name), f'below {DEAR}')}")
    print(f"{len(found) - len(faults)} functions as dear as they were, {len(faults)} dearer")
    return 1 if faults or not found else 0


sys.exit(main(sys.argv[1:]))
