"""The checks of what the built programs print: each is given their files by name, and yields a line for each fault."""
import argparse
import os
import pathlib
import re
import shutil
import subprocess
import sys
import tempfile

from lib.sources import TOP, name_of, text_of


def built(name, file=None):
    """The file of a program: this one, else the one that is built, with a proof or without."""
    files = [pathlib.Path(file).resolve()] if file else [TOP / f"crates/{name}/out/{name}", TOP / f"out/unproved/{name}"]
    if found := [it for it in files if it.exists()]:
        return str(found[0])
    raise SystemExit(f"{files[0]} is not there: `scripts/prove {name}` builds it, `scripts/unproved {name}` without a proof")


def words_of(doc, parts, **options):
    """The words that a script is given: any of these parts, flags, whose default is False, and options with these defaults, a number or a string."""
    asked = argparse.ArgumentParser(usage=re.search(r"^Usage: (.*?)(?:    .*)?$", doc, re.M)[1])
    asked.add_argument("part", nargs="*", choices=[[], *parts])
    for name, default in options.items():
        asked.add_argument(f"--{name}", default=default, **({"action": "store_true"} if default is False else {"type": type(default or "")}))
    return asked.parse_args()


def beside_packaging(doc, parts, count, **options):
    """The words of a script that compares with `packaging`, which can be imported from then on, from pip's own copy if it is nowhere else."""
    words = words_of(doc, parts, count=count, seed=1, packaging=".", program="", **options)
    sys.path[:0] = [words.packaging, *([words.pip] if getattr(words, "pip", "") else [])]
    import pip._vendor

    sys.path += pip._vendor.__path__
    return words


class Tally:
    """How many cases passed and failed; the first twenty that failed are printed with what is wrong."""

    def __init__(self):
        self.passed = self.failed = 0

    def add(self, title, faults, count=1):
        if not faults:
            self.passed += count
            return
        self.failed += 1
        if self.failed <= 20:
            print(f"{title}:", *faults, sep="\n  ", flush=True)

    def end(self):
        print(f"{self.passed} passed, {self.failed} failed")
        return 0 if self.passed and not self.failed else 1


# ---- what the programs say of themselves


def counted(files, lines, found=0):
    """What `pyver check` prints at its end."""
    return f"pyver: lines read: {lines}\npyver: {found} problem{'s'[found == 1:]} in {files} file{'s'[files == 1:]}\n"


def output_of(*words):
    """What a program prints, whatever its status."""
    return subprocess.run(words, stdin=subprocess.DEVNULL, capture_output=True, text=True, check=False).stdout


def section(text, name):
    """The indented lines behind a line of this name."""
    found = re.search(rf"^{name}:\n((?:  .*\n)*)", text, re.M)
    return found[1] if found else ""


def choices(text, name):
    """The names that the help lists for an operand or a value: `HOW is error, skip or keep`."""
    found = re.search(rf"\b{name} is ([a-z, ]+?\bor [a-z]+)", text.replace("\n", " "))
    return re.split(r", | or ", found[1]) if found else []


class Command:
    """A command of pyver, or with an empty name pyver itself: what is said of it, its operands as the usage has them, and its options."""

    def __init__(self, program, name="", about=""):
        text = output_of(program, *name.split(), "--help")
        self.name, self.about, self.usage = name, about, text.partition("\n")[0].removeprefix("usage: pyver ")
        self.operands = [(word, choices(text, word.strip("[]."))) for word in re.sub(r" \[-[^]]*\]", "", self.usage).split()[1:]]
        # letter, name, value and its names, and what the option is for
        rows = re.findall(r"^  (?:-(\w), )?(--[a-z-]+)(?: ([A-Z]+))?  +(.*(?:\n {10,}.*)*)$", section(text, "options"), re.M)
        rows = [("h", "--help", "", "print this help"), *rows] + [("V", "--version", "", "print the version")] * (not name)
        self.options = [(letter, option, value, choices(text, value) if value else [], re.sub(r"\n +", " ", said)) for letter, option, value, said in rows]
        self.commands = re.findall(r"^  (\w+).*?  +(\S.*)$", section(text, "commands"), re.M)

    def words(self):
        return [word for letter, option, *_ in self.options for word in ([f"-{letter}"] if letter else []) + [option]]


def commands_of(program):
    return [Command(program, name, about) for name, about in Command(program).commands]


# ---- examples: a place, a command, the output that is shown, and whether `$?` is 0 before it, else the status of the command before


def faults_of_examples(examples, programs):
    """Runs each command by sh in a folder with the programs, which has nothing else before the first: what one writes the later ones read."""
    with tempfile.TemporaryDirectory() as room:
        for name, path in programs.items():
            pathlib.Path(room, name).symlink_to(path)
        env, status = {**os.environ, "PATH": f"{room}:{os.environ['PATH']}", "LC_ALL": "C"}, 0
        for place, command, shown, begins in examples:
            words = ["sh", "-c", f"(exit {0 if begins else status}); {command}"]
            how = {"stdin": subprocess.DEVNULL, "stdout": subprocess.PIPE, "stderr": subprocess.STDOUT}
            ran = subprocess.run(words, cwd=room, env=env, text=True, check=False, **how)
            status = ran.returncode
            if ran.stdout != shown:
                yield f"{place}: {command}\n  shown:   {shown!r}\n  written: {ran.stdout!r}"


def examples_of(place, shown):
    """The commands of lines that are shown, each after a dollar sign, with the lines up to the next one."""
    if not shown or not shown[0].startswith("$ "):
        raise ValueError(f"{place}: this does not begin with a command")
    for at, text in enumerate(re.split(r"^\$ ", "".join(f"{line}\n" for line in shown), flags=re.M)[1:]):
        command, _, output = text.partition("\n")
        yield place, command, output, at == 0


def check_answers(programs):
    """The shell examples of README.md and of the archives' pages: blocks that begin with a command after a dollar sign, each line of which runs a program."""
    examples = []
    for page in ["README.md", *map(name_of, sorted(TOP.glob("docs/archives/*.md")))]:
        for block in re.findall(r"^```sh\n(\$ .*?)^```", text_of(page), re.M | re.S):
            examples += [it for it in examples_of(page, block.splitlines()) if re.search(r"(^|[/ ])(pep440|pyver) ", it[1])]
    yield from faults_of_examples(examples, programs)
    if not examples:
        yield "no page has an example"


# ---- manual pages

MANUALS = {"pep440": ["docs/pep440.1"], "pyver": ["docs/pyver.1", "docs/pyver-check.1"]}
VERSIONS = {
    "callers/c/pep440.h": r'^#define PEP440_VERSION_TEXT "(.*)"$',
    "pyproject.toml": r'^version = "(.*)"$',
    "callers/python/src/pep440_rattle/__init__.py": r'^__version__ = "(.*)"$',
    "callers/rust/pep440_rattle/Cargo.toml": r'^version = "(.*)"$',
}
SIGNS = {r"\e": "\\", r"\(aq": "'", r"\(ga": "`", r"\(ha": "^", r"\(ti": "~", r"\(dq": '"', r"\-": "-", r"\&": ""}
LAYOUTS = {
    "mandoc": (["-T", "lint", "-W", "warning"], ["-T", "ascii", "-O", "width=200"]),
    "groff": (["-mdoc", "-Tascii", "-ww", "-rLL=200n"], ["-mdoc", "-Tascii", "-rLL=200n", "-P-cbou"]),
}


def displays(page):
    """The lines of each literal display, with the number of the first. Some signs must be written by name, since a font may show others in their place."""
    for found in re.finditer(r"^\.Bd -literal.*\n((?:.*\n)*?)\.Ed$", text_of(page), re.M):
        if wrong := re.search(r"^.*(?:['`^~]|(?<!\\)-).*$", found[1], re.M):
            raise ValueError(f"{page}: ' ` ^ ~ and - are written by name in a display: {wrong[0]}")
        shown = re.sub(r"\\(\(..|.)", lambda sign: SIGNS[sign[0]], found[1])
        yield text_of(page).count("\n", 0, found.start(1)) + 1, shown.splitlines()


def manual_examples(name):
    """The examples of each page, and of the file of those that no page shows: there a block begins with a line `# PROGRAM TITLE` and ends with an empty line."""
    for page in MANUALS[name]:
        yield [it for number, shown in displays(page) for it in examples_of(f"{page}:{number}", shown)]
    blocks = [it.rstrip("\n").split("\n") for it in text_of("docs/examples.txt").split("\n\n")]
    if wrong := [title for title, *_ in blocks if not re.match("# (pep440|pyver) ", title)]:
        raise ValueError(f"docs/examples.txt: a block without a title: {wrong[0]}")
    yield [it for title, *shown in blocks if title.startswith(f"# {name} ") for it in examples_of(f"docs/examples.txt, {title}", shown)]


def faults_of_usage(name, program):
    """The synopsis has the words of each command, in the program's order; a description of commands with options leaves these out. Each option that a
    help lists has an entry, so that a search for it at the start of a line finds it."""
    commands = commands_of(program) if name == "pyver" else []
    usages = [it.usage for it in commands] or output_of(program).strip().removeprefix("usage: pep440 ").split(" / ")
    described = "DESCRIPTION" if name == "pep440" else "COMMANDS"
    for section_of, start, wanted in (("SYNOPSIS", "", usages), (described, "It ", [re.sub(r" \[-[^]]*\]", "", it) for it in usages])):
        text = text_of(MANUALS[name][0]).split(f".Sh {section_of}\n")[1].split("\n.Sh ")[0]
        found = [" ".join(it) for it in re.findall(rf"^\.{start}Cm (\w+) Ar (.*)$", text, re.M)]
        if found != wanted:
            yield f"{section_of} has the commands {found}, the program {wanted}"
    entries = " ".join(it for page in MANUALS[name] for it in re.findall(r"^\.It (Fl .*)", text_of(page), re.M))
    named = {f"-{it}" for it in re.findall(r"(?:Fl|,) (-?[a-z][a-z-]*)(?= |$)", entries)}
    for option in sorted({word for it in commands for word in it.words() if word not in ("-h", "--help")} - named):
        yield f"no entry of the page has {option}"


def faults_of_versions(name):
    """The version of each page, the C header, and the Python and Rust packages is the first one among the headings of CHANGELOG.md."""
    wanted = re.findall(r"^## ([0-9.]+) \(", text_of("CHANGELOG.md"), re.M)[:1]
    for file, pattern in {**dict.fromkeys(MANUALS[name], r"^This page describes\n\.Nm.*\n([0-9.]+)\.$"), **VERSIONS}.items():
        found = re.findall(pattern, text_of(file), re.M)
        if {*found} != {*wanted}:
            yield f"CHANGELOG.md begins with {wanted}, {file} has {found}"


def faults_of_layout(page):
    """No line of text is too long or ends with a blank, and each tool that is here lays the page out without a warning, with each line of the examples."""
    shown = {first + at for first, display in displays(page) for at in range(len(display))}
    for at, line in enumerate(text_of(page).splitlines(), 1):
        if line != line.rstrip() or len(line.encode()) > 80 and line[0] != "." and at not in shown:
            yield f"{page}:{at}: too long, or a blank at its end: {line}"
    for tool, (lint, show) in LAYOUTS.items():
        if not shutil.which(tool):
            print(f"{tool} is not here, so its warnings were not looked for")
            continue
        linted = subprocess.run([tool, *lint, TOP / page], capture_output=True, text=True, check=False)
        warnings = linted.stdout if tool == "mandoc" else linted.stderr
        if warnings or linted.returncode:
            yield f"{tool}:\n{warnings}"
        seen = {re.sub(r".\x08", "", line).strip() for line in output_of(tool, *show, TOP / page).splitlines()}
        yield from (f"{tool} does not show: {line}" for _, display in displays(page) for line in display if line.strip() not in seen | {""})


def check_manual(name, programs):
    for examples in manual_examples(name):
        yield from faults_of_examples(examples, {name: programs[name]})
    yield from faults_of_usage(name, programs[name])
    yield from faults_of_versions(name)
    for page in MANUALS[name]:
        yield from faults_of_layout(page)


# ---- completions

COMPLETIONS = {"bash": "completions/pyver.bash", "zsh": "completions/_pyver", "fish": "completions/pyver.fish"}
MADE = "# Made by `scripts/check --write completions`; completions of pyver for"


def bash(program, commands):
    def case(pattern, words):
        return f"        {pattern}) words='{' '.join(words)}' ;;"

    lines = [case("1,*", [*(command.name for command in commands), *program.words()])]
    for command in commands:
        for letter, option, value, names, _ in command.options:
            if value:
                spelled = [f"*,{command.name},{option}"] + [f"*,{command.name},-{letter}"] * bool(letter)
                lines.append(case(" | ".join(spelled), names))
        several = [name for word, names in command.operands if word.endswith("..") for name in names]
        lines += [case(f"{at},{command.name},*", names) for at, (word, names) in enumerate(command.operands, 2) if names and not word.endswith("..")]
        lines.append(case(f"*,{command.name},*", command.words() + several))
    files = "|".join(command.name for command in commands if any("FILE" in word for word, _ in command.operands))
    return "\n".join([f"""{MADE} bash: `. pyver.bash`, or the file as `pyver` among bash-completion's.
_pyver() {{
    local word=$2 before=$3 prefix= words=
    # bash takes `--part=x` for three words, or for one if COMP_WORDBREAKS has no equals sign
    [[ $before != '=' ]] || before=${{COMP_WORDS[COMP_CWORD - 2]}}
    [[ $word != --*=* ]] || {{ before=${{word%%=*}} prefix=${{word%%=*}}= word=${{word#*=}}; }}
    case $COMP_CWORD,${{COMP_WORDS[1]}},$before in""", *lines, f"""    esac
    [[ ! ${{COMP_WORDS[1]}} =~ ^({files})$ ]] || compopt -o default 2> /dev/null
    COMPREPLY=()
    while IFS= read -r word; do
        COMPREPLY+=("$word")
    done < <(compgen -P "$prefix" -W "$words" -- "$word")
}}
complete -F _pyver pyver
"""])


def zsh_names(names):
    return f"({' '.join(names)})" if names else " "


def zsh_option(row):
    letter, option, value, names, said = row
    said = said.replace("'", "'\\''").replace("[", "\\[").replace("]", "\\]").replace(":", "\\:")
    behind = f"[{said}]" + f":{value}:{zsh_names(names)}" * bool(value)
    if letter:
        return f"'(-{letter} {option})'{{-{letter},{option}{'=' * bool(value)}}}'{behind}'"
    return f"'{option}{'=' * bool(value)}{behind}'"


def zsh(program, commands):
    cases = []
    for command in commands:
        # nothing may stand behind an operand that is repeated
        last = next((at for at, (word, _) in enumerate(command.operands) if ".." in word), len(command.operands))
        operands = [f"'{'*' * ('..' in word)}:{word.strip('[].')}:{'_files' if 'FILE' in word else zsh_names(names)}'" for word, names in command.operands[: last + 1]]
        words = [zsh_option(row) for row in command.options] + operands
        cases.append(f"    {command.name})\n      _arguments -s " + " \\\n        ".join(words) + "\n      ;;")
    named = "\n".join(f'      {command.name}\\:"{command.about}"' for command in commands)
    general = " \\\n    ".join(zsh_option(row) for row in program.options)
    return f"""#compdef pyver
{MADE} zsh: this file in a folder of $fpath.
_pyver_command() {{
  case $words[1] in
{chr(10).join(cases)}
  esac
}}

_pyver() {{
  _arguments {general} \\
    '1:command:((
{named}
    ))' \\
    '*::word:_pyver_command'
}}

_pyver "$@"
"""


def fish(program, commands):
    def option(where, row):
        letter, name, value, names, said = row
        said = said.replace("'", "\\'")
        return f"complete -c pyver -n '{where}'{f' -s {letter}' * bool(letter)} -l {name[2:]}{' -x' * bool(value)}{(' -a ' + repr(' '.join(names))) * bool(names)} -d '{said}'"

    lines = [option("__fish_use_subcommand", row) for row in program.options]
    for command in commands:
        seen = f"__fish_seen_subcommand_from {command.name}"
        lines += ["", f"complete -c pyver -n __fish_use_subcommand -a {command.name} -d '{command.about}'"]
        lines += [option(seen, row) for row in command.options]
        for at, (word, names) in enumerate(command.operands, 2):
            where = seen if ".." in word else f"{seen}; and test (count (commandline -opc)) -eq {at}"
            lines += [f"complete -c pyver -n '{where}' -F"] * ("FILE" in word) + [f"complete -c pyver -n '{where}' -a '{' '.join(names)}'"] * bool(names)
    return "\n".join([f"{MADE} fish: this file among fish's completions.", "complete -c pyver -f", *lines, ""])


def offered_by_bash(line, breaks="="):
    """What bash offers at the end of the line: it takes an equals sign for a word of its own if that is among its word breaks."""
    words = re.findall(f"[{breaks}]+|[^ {breaks}]+" if breaks else "[^ ]+", line) + [""] * line.endswith(" ")
    before, last = words[-2], words[-1].strip(breaks)
    run = 'source "$0"; word=$1; before=$2; shift 2; COMP_WORDS=("$@"); COMP_CWORD=$(($# - 1)); _pyver pyver "$word" "$before"; printf "%s\\n" "${COMPREPLY[@]}"'
    ran = subprocess.run(["bash", "-c", run, TOP / COMPLETIONS["bash"], last, before, *words], capture_output=True, text=True, check=False)
    return set(ran.stdout.split()) if not ran.stderr else {ran.stderr}


def faults_of_bash(program, commands):
    tries = [("", "=", {*(command.name for command in commands), *program.words()}), ("show --part=ma", "=", {"major"}), ("show --part=ma", "", {"--part=major"})]
    for command in commands:
        tries.append((f"{command.name} -", "=", set(command.words())))
        tries += [(f"{command.name} {option}{sign}", "=", set(names)) for _, option, value, names, _ in command.options if value for sign in " ="]
        tries += [(f"{command.name} {'1 ' * at}", "=", set(names) | (set(command.words()) if ".." in word else set())) for at, (word, names) in enumerate(command.operands) if names]
    for line, breaks, wants in tries:
        offers = offered_by_bash(f"pyver {line}", breaks)
        if offers != wants:
            yield f"bash: after `{line}` it offers {sorted(offers)}, not {sorted(wants)}"


def check_completions(programs, writes=False):
    """The completions of pyver for three shells are made of its help, bash offers what it lists, and each shell that is here reads its file.

    A command whose usage has FILE completes files. The values of an option, or of an operand, are those that the help lists after its name. A usage
    names the options that the help lists, by their letters if they have one.
    """
    program, commands = Command(programs["pyver"]), commands_of(programs["pyver"])
    for shell, make in (("bash", bash), ("zsh", zsh), ("fish", fish)):
        path, made = TOP / COMPLETIONS[shell], make(program, commands)
        if writes:
            path.write_text(made, encoding="utf-8")
        if path.read_text(encoding="utf-8") != made:
            yield f"{COMPLETIONS[shell]} is not as --write makes it"
        if shutil.which(shell):
            ran = subprocess.run([shell, "-n", path], capture_output=True, text=True, check=False)
            yield from [f"{shell} -n: {ran.stderr}"] * bool(ran.returncode or ran.stderr)
    yield from faults_of_bash(program, commands)
    for command in commands:
        listed = {f"-{letter}" if letter else option for letter, option, *_ in command.options if option != "--help"}
        used = {*re.findall(r"--?[a-z][a-z-]*", command.usage)}
        yield from [f"{command.name}: the usage has the options {sorted(used)}, the help {sorted(listed)}"] * (listed != used)
