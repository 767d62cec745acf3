"""Runs the tests of `packaging` 25.0, and those of two projects that use it, with the swap and without.

Usage: python suites.py [FOLDER..]
       python suites.py --fetch SUITE FOLDER SOURCE..

Each FOLDER has a project's sources and its folder `tests`; all are run with the first one on Python's path, as that of `packaging`. With none, the sources
are those of Debian's suite trixie, fetched by apt-get, and so are pytest and pretend where this Python has none. A test fails here where it passes without the
swap and does not with it. Prints a line for each project, and `N passed, M failed` last. Exit status: 0 where none failed, else 1. With --fetch the sources of
a suite of Debian are unpacked in the folder, and nothing runs.
"""
import importlib.util
import os
import pathlib
import subprocess
import sys
import tarfile
import tempfile
import xml.etree.ElementTree

SOURCES = ["python-packaging", "pyproject-metadata", "requirements-parser"]
TOOLS = ["python3-pytest", "python3-iniconfig", "python3-pluggy", "python3-attr", "python3-pretend"]
SUITE = "deb-src [signed-by=/usr/share/keyrings/debian-archive-keyring.gpg] http://deb.debian.org/debian {} main\n"


def call(*words, folder):
    subprocess.run(words, cwd=folder, check=True, stdout=subprocess.DEVNULL)


def fetch_sources(work, suite, sources):
    """The folders of the projects, unpacked in a new one; what apt-get knows otherwise stays as it is."""
    (work / "lists/partial").mkdir(parents=True)
    (work / "cache/archives/partial").mkdir(parents=True)
    (work / "sources.list").write_text(SUITE.format(suite))
    options = {"Dir::Etc::SourceList": work / "sources.list", "Dir::Etc::SourceParts": "-", "Dir::State::Lists": work / "lists", "Dir::Cache": work / "cache"}
    apt = ["apt-get", "-qq", *(f"-o{name}={value}" for name, value in options.items()), "-oAPT::Sandbox::User=root"]
    call(*apt, "update", folder=work)
    call(*apt, "source", "--download-only", "--tar-only", *sources, folder=work)
    folders = []
    for name in sources:
        (archive,) = work.glob(f"{name}_*.orig.tar.*")
        with tarfile.open(archive) as it:
            it.extraction_filter = getattr(tarfile, "data_filter", None)
            folders.append(work / it.getnames()[0].partition("/")[0])
            it.extractall(work)
    return folders


def fetch_tools(work):
    call("apt-get", "-qq", "-oAPT::Sandbox::User=root", "download", *TOOLS, folder=work)
    for each in work.glob("*.deb"):
        call("dpkg", "-x", str(each), str(work), folder=work)
    return work / "usr/lib/python3/dist-packages"


def results(folder, path, words):
    """What came of each test by its name, and the end of what pytest said."""
    environment = dict(os.environ, PYTHONPATH=os.pathsep.join(map(str, path)), PYTHONDONTWRITEBYTECODE="1")
    with tempfile.TemporaryDirectory() as work:
        report = pathlib.Path(work) / "report.xml"
        command = [sys.executable, *words, "pytest", "-q", "-p", "no:cacheprovider", f"--basetemp={work}/tests", f"--junitxml={report}", "tests"]
        ran = subprocess.run(command, cwd=folder, env=environment, capture_output=True, text=True, check=False)
        if not report.is_file():
            return {}, ran.stdout[-2000:] + ran.stderr[-2000:]
        cases = xml.etree.ElementTree.parse(report).iter("testcase")
        kinds = ("failure", "error", "skipped")
        found = {f"{it.get('classname')}::{it.get('name')}": next((kind for kind in kinds if it.find(kind) is not None), "passed") for it in cases}
        return found, ran.stdout[-2000:]


def compare(folder, path):
    """How many tests passed with the swap, and how many did only without."""
    path = [folder / "src" if (folder / "src").is_dir() else folder, *path]
    plain, _ = results(folder, path, ["-m"])
    swapped, said = results(folder, path, ["-m", "pep440_rattle.swap", "-m"])
    passed = [name for name, kind in swapped.items() if kind == "passed"]
    failed = [name for name, kind in plain.items() if kind == "passed" and swapped.get(name) != "passed"]
    both = sum(kind in ("failure", "error") for kind in plain.values())
    print(f"{folder.name}: {len(passed)} of {len(swapped)} passed with the swap, {len(failed)} did only without it; {both} fail without it", flush=True)
    for name in failed[:20]:
        print(f"    {name}")
    if not passed:
        print(said)
    return len(passed), len(failed) + (not passed)


def main():
    if sys.argv[1:2] == ["--fetch"]:
        fetch_sources(pathlib.Path(sys.argv[3]).resolve(), sys.argv[2], sys.argv[4:])
        return 0
    with tempfile.TemporaryDirectory() as work:
        work = pathlib.Path(work)
        folders = [pathlib.Path(each).resolve() for each in sys.argv[1:]] or fetch_sources(work, "trixie", SOURCES)
        path = [folders[0] / "src" if (folders[0] / "src").is_dir() else folders[0]]
        if not all(importlib.util.find_spec(it) for it in ("pytest", "pretend")):
            path.append(fetch_tools(work))
        path += [os.environ["PYTHONPATH"]] if os.environ.get("PYTHONPATH") else []
        counts = [compare(folder, path) for folder in folders]
    passed, failed = map(sum, zip(*counts))
    print(f"{passed} passed, {failed} failed")
    return 1 if failed else 0


if __name__ == "__main__":
    sys.exit(main())
