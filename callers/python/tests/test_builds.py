"""What the build makes, what it says where something is missing, and on which processors the package runs."""
import importlib.util
import os
import pathlib
import shutil
import subprocess
import sys
import tarfile
import tempfile
import unittest
import zipfile

import peer
import pep440_rattle

HERE = pathlib.Path(__file__).resolve().parent.parent
BUILD = "import os, pathlib, sys, sysconfig; sys.path.insert(0, sys.argv[1]); import build_backend as it; "

# On a machine where nothing is installed; and where nothing lies beside the sources either.
WITHOUT_TOOLCHAIN = "it.shutil.which = lambda name: '' if name in ('rt', 'pkg-config') else name"
WITH_NOTHING = f"{WITHOUT_TOOLCHAIN}; it.CRATES = pathlib.Path('/nowhere')"


def run(program, *words, **environment):
    environment = dict(os.environ, PYTHONDONTWRITEBYTECODE="1", PEP440_PROGRAMS="") | environment
    return subprocess.run([sys.executable, "-c", program, *map(str, words)], capture_output=True, text=True, check=False, env=environment)


class Missing(unittest.TestCase):
    def said(self, program="pass", hook="build_wheel", **environment):
        with tempfile.TemporaryDirectory() as work:
            ran = run(f"{BUILD}{program}; it.{hook}(sys.argv[2])", HERE, work, **environment)
        self.assertEqual((ran.returncode, ran.stderr.count("\n")), (1, 1), ran.stderr)
        return ran.stderr

    def test_compiler(self):
        self.assertIn("pep440_rattle: no C compiler: there is no nowhere; install one", self.said(CC="nowhere -m64"))

    def test_interpreters(self):
        self.assertIn("pep440_rattle: no build for pypy 3.", self.said("sys.implementation.name = 'pypy'"))
        for program in ("sys.abiflags = 't'", "sysconfig.get_config_var = {'Py_GIL_DISABLED': 1}.get"):
            self.assertRegex(self.said(program), r"no build for cpython 3\.[0-9]+t: it needs CPython with its global lock")

    def test_headers(self):
        said = self.said("sysconfig.get_path = lambda name: '/nowhere'", PEP440_ARCHIVES=sys.executable)
        self.assertIn("pep440_rattle: no headers of Python: /nowhere/Python.h is not there; install them", said)

    def test_library(self):
        self.assertIn("pep440_rattle: /nowhere/libpep440.a is not there, which PEP440_ARCHIVES names", self.said(PEP440_ARCHIVES="/nowhere/libpep440.a"))
        for hook in ("build_wheel", "build_sdist"):
            said = self.said(f"{WITH_NOTHING}; it.MACHINE = 'riscv64'", hook, PEP440_ARCHIVES="")
            self.assertIn("no library for riscv64: let PEP440_ARCHIVES name lib/libpep440.a of the release's", said)
        said = self.said(hook="build_sdist", PEP440_ARCHIVES=f"{sys.executable}:{sys.executable}")
        self.assertIn("the source archive takes one library, and PEP440_ARCHIVES names 1 more", said)

    def test_programs(self):
        program = f"{WITH_NOTHING}; del os.environ['PEP440_PROGRAMS']"
        said = self.said(program, PEP440_ARCHIVES=sys.executable)
        self.assertIn("no programs: let PEP440_PROGRAMS name pep440 and pyver of the release's programs archive", said)
        said = self.said(program, "build_sdist", PEP440_ARCHIVES=sys.executable)
        self.assertIn("no objects of the programs: let PEP440_PROGRAMS name both programs", said)
        said = self.said(PEP440_ARCHIVES=sys.executable, PEP440_PROGRAMS="/nowhere/pep440:/nowhere/pyver")
        self.assertIn("pep440_rattle: /nowhere/pep440 is not there, which PEP440_PROGRAMS names", said)

    def test_commands(self):
        ran = run("import runpy, sysconfig; sysconfig.get_path = lambda *_, **__: '/nowhere'; runpy.run_module('pep440_rattle', run_name='__main__')")
        self.assertEqual(ran.stderr, "pep440_rattle: there is no pyver here: the wheel was made without programs, or they were removed\n")


class Made(unittest.TestCase):
    def setUp(self):
        self.room = tempfile.TemporaryDirectory()
        self.addCleanup(self.room.cleanup)
        self.work = pathlib.Path(self.room.name)
        ran = run(f"{BUILD}it.archives(); print(it.build_sdist(sys.argv[2]))", HERE, self.work)
        if ran.returncode:
            self.skipTest("no library to build with")
        with tarfile.open(self.work / ran.stdout.strip()) as it:
            it.extraction_filter = getattr(tarfile, "data_filter", None)
            it.extractall(self.work)
        (self.sources,) = (each / "callers/python" for each in self.work.iterdir() if each.is_dir())

    def built(self, hook, **environment):
        """The name of the wheel that is made of the source archive, as on a machine where nothing is installed, and its files."""
        ran = run(f"{BUILD}{WITHOUT_TOOLCHAIN}; print(it.{hook}(sys.argv[2]))", self.sources, self.work, PEP440_ARCHIVES="", **environment)
        self.assertEqual((ran.returncode, ran.stderr), (0, ""))
        with zipfile.ZipFile(self.work / ran.stdout.strip()) as it:
            return ran.stdout.strip(), {name.partition(".dist-info/")[2] or name: it.read(name).decode(errors="replace") for name in it.namelist()}

    def test_wheel(self):
        name, files = self.built("build_wheel")
        start, _, platforms = name.removesuffix(".whl").rpartition("-")
        tags = [line.removeprefix("Tag: ") for line in files["WHEEL"].splitlines() if line.startswith("Tag: ")]
        self.assertEqual(tags, [f"cp310-abi3-{each}" for each in platforms.split(".")])
        self.assertEqual(start, f"pep440_rattle-{pep440_rattle.__version__}-cp310-abi3")
        self.assertLessEqual({"METADATA", "RECORD", "licenses/LICENSE", "licenses/NOTICE", "pep440_rattle/py.typed", "pep440_rattle/_core.abi3.so"}, {*files})
        head = files["METADATA"].partition("\n\n")[0].splitlines()
        self.assertLessEqual({"License-Expression: Apache-2.0", "License-File: LICENSE", "License-File: NOTICE", f"Version: {pep440_rattle.__version__}"}, {*head})
        self.assertGreater(sum(line.startswith("Classifier: ") for line in head), 5)
        theirs = peer.find()[0]
        try:
            metadata = importlib.import_module(theirs.__name__.rpartition(".")[0] + ".metadata")
        except ImportError:
            self.skipTest("this packaging has no metadata to check with")
        read, unread = metadata.parse_email(files["METADATA"])
        self.assertEqual(read["name"], "pep440-rattle")
        self.assertLessEqual({*unread}, {"license-expression", "license-file"}, "which releases before 24.2 do not know")
        if not unread:
            metadata.Metadata.from_raw(read)

    @unittest.skipUnless(importlib.util.find_spec("pip") and shutil.which("echo"), "no pip, or no programs to stand in")
    def test_commands(self):
        name, _ = self.built("build_wheel", PEP440_PROGRAMS=f"{shutil.which('true')}:{shutil.which('echo')}")
        words = ["-m", "pip", "install", "-q", "--no-index", "--no-deps", "--root-user-action=ignore", "--target", self.work / "target", self.work / name]
        subprocess.run([sys.executable, *words], check=True)
        self.assertEqual({it.name for it in (self.work / "target/bin").iterdir()}, {"pep440", "pyver"})
        environment = dict(os.environ, PYTHONPATH=str(self.work / "target"))
        ran = subprocess.run([sys.executable, "-m", "pep440_rattle", "sort", "--help"], capture_output=True, text=True, check=False, env=environment)
        self.assertEqual((ran.returncode, ran.stdout), (0, "sort --help\n"), ran.stderr)

    def test_editable(self):
        _, files = self.built("build_editable")
        self.assertEqual(files["pep440_rattle.pth"], f"{self.sources / 'src'}\n")
        (self.work / "pep440_rattle.pth").write_text(files["pep440_rattle.pth"], encoding="utf-8")
        ran = run(f"import site; site.addsitedir({str(self.work)!r}); import sys; sys.path.insert(0, sys.path.pop()); import pep440_rattle as it; print(it.__file__, it.Version('v1'))")
        self.assertEqual(ran.stdout, f"{self.sources}/src/pep440_rattle/__init__.py 1\n", ran.stderr)


@unittest.skipUnless(shutil.which("qemu-x86_64"), "no qemu-x86_64 here")
@unittest.skipIf("asan" in os.environ.get("LD_PRELOAD", ""), "the emulator does not run what is sanitized")
class Processors(unittest.TestCase):
    def said(self, processor):
        program = "import pep440_rattle; print(pep440_rattle.Version('v1.0+A').public, '1.5' in pep440_rattle.SpecifierSet('>=1'))"
        words = ["qemu-x86_64", "-cpu", processor, os.path.realpath(sys.executable), "-c", program]
        path = os.pathsep.join(filter(None, sys.path))
        return subprocess.run(words, capture_output=True, text=True, check=False, env=dict(os.environ, PYTHONPATH=path))

    def test_processors(self):
        for processor in ("qemu64", "core2duo", "Haswell"):
            self.assertEqual(self.said(processor).stdout, "1.0 True\n")


if __name__ == "__main__":
    unittest.main()
