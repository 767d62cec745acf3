"""Builds the wheel and the source archive with `cc` and the standard library alone (the hooks of PEP 517 and PEP 660).

The wheel has the static library in it, and brings both programs as commands; of each the first of these that is there:

    PEP440_ARCHIVES, in the environment: static libraries with a colon between them;
    PEP440_PROGRAMS: pep440 and pyver, with a colon between them, or nothing for a wheel without programs;
    what `scripts/prove` left in crates/NAME/out/MACHINE, or what the source archive has there; in a clone where nothing is, that script is run;
    the library of the release's library archive, where pkg-config finds `pep440`.

CC and CFLAGS in the environment are the C compiler (cc) and what else it is to be passed, and _PYTHON_HOST_PLATFORM=linux-aarch64 is Python's
word for another machine than this. The source archive has the sources of the package, and the proved library and the objects of both programs for
each machine for which they are built, each where it lies in the repository: it wants a C compiler and Python's headers alone. Of a library that
PEP440_ARCHIVES names or pkg-config finds it has a copy there; without objects, as where PEP440_PROGRAMS is set, whoever builds it sets PEP440_PROGRAMS too.
"""
import atexit
import base64
import gzip
import hashlib
import io
import os
import pathlib
import re
import shlex
import shutil
import subprocess
import sys
import sysconfig
import tarfile
import tempfile
import zipfile

HERE = pathlib.Path(__file__).resolve().parent
PACKAGE = "pep440_rattle"
EXTENSION = "_core.abi3.so"
SOURCES = ("_core.c", "_vectorcall.c", "../c/runtime.c")
# The lowest Python whose stable interface has what _core.c calls.
PYTHON_TAG = "cp310"
# What is part of every glibc.
OF_GLIBC = {"libc.so.6", "libm.so.6", "ld-linux-x86-64.so.2", "ld-linux-aarch64.so.1"}

TOP = HERE.parent.parent
CRATES = TOP / "crates"
HEADER, RUNTIME = (TOP / "callers/c" / name for name in ("pep440.h", "runtime.c"))
LICENCES = {name: TOP / name for name in ("LICENSE", "NOTICE")}
MACHINE = sysconfig.get_platform().rpartition("-")[2]
PROGRAMS = ("pep440", "pyver")
ROOM = pathlib.Path(tempfile.mkdtemp())
atexit.register(shutil.rmtree, ROOM, ignore_errors=True)
FIRST_TIME = "all of it the first time about an hour of processor"


def project():
    """The strings under [project] of pyproject.toml, and the lists of strings, one a line."""
    table = (TOP / "pyproject.toml").read_text(encoding="utf-8").partition("[project]\n")[2]
    lists = {name: re.findall('"(.*)"', lines) for name, lines in re.findall(r"^([a-z-]+) = \[\n(.*?)^\]$", table, re.M | re.S)}
    return dict(re.findall(r'^([a-z-]+) = "(.*)"$', table, re.M)) | lists


def stop(missing):
    raise SystemExit(f"{PACKAGE}: {missing}")


def named(variable):
    """The files that a variable of the environment names, with a colon between them."""
    files = [pathlib.Path(each).resolve() for each in os.environ[variable].split(":")]
    for each in files:
        if not each.is_file():
            stop(f"{each} is not there, which {variable} names")
    return files


def is_clone():
    return (CRATES.parent / "scripts/prove").is_file()


def proved(crate, name):
    """What lies in this clone or source archive of a crate for this machine, or else is proved and built now."""
    made = CRATES / crate / "out" / MACHINE / name
    if not made.is_file() and shutil.which("rt") and is_clone():
        print(f"{PACKAGE}: proving and building {crate} ({FIRST_TIME})", file=sys.stderr, flush=True)
        words = [CRATES.parent / "scripts/prove", crate, "--target", MACHINE]
        if subprocess.run(words, stdin=subprocess.DEVNULL, stdout=sys.stderr, check=False).returncode:
            stop(f"{crate} was not built: `scripts/prove {crate} --target {MACHINE}` failed")
    return made if made.is_file() else None


def compiler():
    command = shlex.split(os.environ.get("CC", "cc"))
    if not shutil.which(command[0]):
        stop(f"no C compiler: there is no {command[0]}; install one (apt-get install gcc libc6-dev), or let CC name it")
    return command


def compile_by(*words):
    command = [*compiler(), "-std=c11", "-O2", *map(str, words)]
    if subprocess.run(command, check=False).returncode:
        stop(f"not compiled: {shlex.join(command)}")


def linked(name):
    """The program of the object that the source archive has for this machine, linked with the machine's C library."""
    linkable, program = CRATES / name / "out" / MACHINE / f"{name}.o", ROOM / name
    if not linkable.is_file():
        return None
    compile_by("-DPEP440_PROGRAM", "-Wl,--wrap=main", "-o", program, linkable, RUNTIME)
    return program


def installed():
    """The static library that pkg-config knows of, or None."""
    tool = shutil.which("pkg-config")
    told = tool and subprocess.run([tool, "--variable=libdir", "pep440"], capture_output=True, text=True, check=False)
    library = told and told.returncode == 0 and pathlib.Path(told.stdout.strip()) / "libpep440.a"
    return library if library and library.is_file() else None


def missing(what, variable, value):
    with_rt = "the toolchain `rt` is not there to build it; " if is_clone() else ""
    return stop(f"no {what}: {with_rt}let {variable} name {value}")


def built_libraries():
    """The proved library of each machine for which this clone or source archive has it."""
    return sorted(CRATES.glob("pep440_c/out/*/libpep440_c.a"))


def archives():
    """The static libraries, or an error that says where they come from."""
    if os.environ.get("PEP440_ARCHIVES"):
        return named("PEP440_ARCHIVES")
    found = proved("pep440_c", "libpep440_c.a") or installed()
    others = " and ".join(path.parent.name for path in built_libraries())
    what = f"library for {MACHINE}" + f", only for {others}" * bool(others)
    return [found or missing(what, "PEP440_ARCHIVES", "lib/libpep440.a of the release's library archive")]


def programs():
    """The programs by their names in a wheel, or an error that says where they come from."""
    if os.environ.get("PEP440_PROGRAMS") == "":
        return {}
    if "PEP440_PROGRAMS" in os.environ:
        files = named("PEP440_PROGRAMS")
    else:
        files = [proved(name, name) or linked(name) for name in PROGRAMS]
    if not all(files):
        missing("programs", "PEP440_PROGRAMS", "pep440 and pyver of the release's programs archive, with a colon between them, or nothing for none")
    return {f"{release()}.data/scripts/{name}": path for name, path in zip(PROGRAMS, files)}


def check_interpreter():
    """An error where the wheel is for no such Python."""
    name, is_free_threaded = sys.implementation.name, "t" in sys.abiflags or bool(sysconfig.get_config_var("Py_GIL_DISABLED"))
    if name != "cpython" or is_free_threaded:
        stop(f"no build for {name} {sysconfig.get_python_version()}{'t' * is_free_threaded}: it needs CPython with its global lock")


def compile_extension(out, libraries):
    """Compiles and links the sources in C; of what the libraries define, nothing is left to see from outside."""
    include = [sysconfig.get_path("include"), sysconfig.get_path("platinclude"), str(HEADER.parent)]
    compiler()
    if not os.path.isfile(os.path.join(include[0], "Python.h")):
        stop(f"no headers of Python: {include[0]}/Python.h is not there; install them (apt-get install python3-dev)")
    compile_by(
        *"-Wall -Werror=implicit-function-declaration -fPIC -fvisibility=hidden -shared -Wl,--exclude-libs,ALL".split(),
        *shlex.split(os.environ.get("CFLAGS", "")),
        *(f"-I{each}" for each in dict.fromkeys(include)),
        *("-o", out, *(HERE / each for each in SOURCES)),
        *libraries,
    )


def platform_of(files):
    """The platforms of the wheel's tag, with points between them: by the newest glibc that one of the files asks for (PEP 600), where that can be read and
    they need no more; where glibc 2.17 has that, by both of its names too, since pip asks by these."""
    machine = re.sub(r"[-.]", "_", sysconfig.get_platform())
    readelf = shutil.which("readelf")
    if not machine.startswith("linux_") or not readelf:
        return machine
    words = [readelf, "--wide", "--dynamic", "--version-info", *map(str, files)]
    told = subprocess.run(words, capture_output=True, text=True, check=True).stdout
    asked = [tuple(map(int, it)) for it in re.findall(r"Name: GLIBC_([0-9]+)\.([0-9]+)", told)]
    if set(re.findall(r"\(NEEDED\).*\[(.*)\]", told)) - OF_GLIBC or not asked:
        return machine
    # no index takes a lower one than 2.5
    newest = max(*asked, (2, 5))
    names = ["manylinux_{}_{}".format(*newest), *(("manylinux_2_17", "manylinux2014") if newest <= (2, 17) else ())]
    return ".".join(f"{each}_{machine.removeprefix('linux_')}" for each in dict.fromkeys(names))


def metadata(tag):
    """The files of the wheel's folder .dist-info, but for RECORD."""
    told = project()
    head = [
        "Metadata-Version: 2.4",
        f"Name: {told['name']}",
        f"Version: {told['version']}",
        f"Summary: {told['description']}",
        f"Keywords: {','.join(told['keywords'])}",
        f"License-Expression: {told['license']}",
        *(f"License-File: {name}" for name in LICENCES),
        *(f"Classifier: {each}" for each in told["classifiers"]),
        f"Requires-Python: {told['requires-python']}",
        "Description-Content-Type: text/markdown",
    ]
    readme = (TOP / told["readme"]).read_text(encoding="utf-8")
    start, _, platforms = tag.rpartition("-")
    tags = [f"Tag: {start}-{each}" for each in platforms.split(".")]
    wheel = ["Wheel-Version: 1.0", "Generator: build_backend", "Root-Is-Purelib: false", *tags]
    return {"METADATA": "\n".join([*head, "", readme]), "WHEEL": "\n".join([*wheel, ""])}


def release():
    return f"{PACKAGE}-{project()['version']}"


def record_line(name, data):
    digest = base64.urlsafe_b64encode(hashlib.sha256(data).digest()).rstrip(b"=").decode()
    return f"{name},sha256={digest},{len(data)}"


def built(files, extension):
    """Compiles the extension. The files of a wheel, these and the programs among them, by their names in it, and the platform of its tag."""
    check_interpreter()
    libraries, brought = archives(), programs()
    compile_extension(extension, libraries)
    return files | {name: path.read_bytes() for name, path in brought.items()}, platform_of([extension, *brought.values()])


def package():
    """The files of a wheel, and the platform of its tag."""
    paths = [path for path in sorted((HERE / "src" / PACKAGE).iterdir()) if path.suffix in (".py", ".pyi", ".typed")]
    with tempfile.TemporaryDirectory() as work:
        extension = pathlib.Path(work) / EXTENSION
        files, platform = built({f"{PACKAGE}/{path.name}": path.read_bytes() for path in paths}, extension)
        return files | {f"{PACKAGE}/{EXTENSION}": extension.read_bytes()}, platform


def links():
    """The same of an editable wheel: a file that leads to the sources, beside which the extension is made."""
    return built({f"{PACKAGE}.pth": f"{HERE / 'src'}\n".encode()}, HERE / "src" / PACKAGE / EXTENSION)


def contents(files, platform):
    """The wheel's tag, and its files by their names in it, RECORD last."""
    tag = f"{PYTHON_TAG}-abi3-{platform}"
    info = f"{release()}.dist-info"
    files |= {f"{info}/{name}": text.encode() for name, text in metadata(tag).items()}
    files |= {f"{info}/licenses/{name}": path.read_bytes() for name, path in LICENCES.items()}
    lines = [record_line(name, data) for name, data in files.items()]
    files[f"{info}/RECORD"] = "\n".join([*lines, f"{info}/RECORD,,", ""]).encode()
    return tag, files


def write_wheel(wheel_directory, tag, files):
    name = f"{release()}-{tag}.whl"
    with zipfile.ZipFile(os.path.join(wheel_directory, name), "w", zipfile.ZIP_DEFLATED) as wheel:
        for each, data in files.items():
            # no time of day, so that the same sources make the same wheel
            entry = zipfile.ZipInfo(each, (1980, 1, 1, 0, 0, 0))
            entry.compress_type = zipfile.ZIP_DEFLATED
            entry.external_attr = (0o100755 if each.endswith(".so") or "/scripts/" in each else 0o100644) << 16
            wheel.writestr(entry, data)
    return name


def prepare_metadata_for_build_wheel(metadata_directory, config_settings=None):
    """Without it, pip would build the wheel twice."""
    info = pathlib.Path(metadata_directory) / f"{release()}.dist-info"
    info.mkdir()
    (info / "METADATA").write_text(metadata("")["METADATA"], encoding="utf-8")
    return info.name


def build_wheel(wheel_directory, config_settings=None, metadata_directory=None):
    return write_wheel(wheel_directory, *contents(*package()))


def build_editable(wheel_directory, config_settings=None, metadata_directory=None):
    return write_wheel(wheel_directory, *contents(*links()))


def libraries_brought():
    """The library that the source archive has for each machine, by its name there: for this one what PEP440_ARCHIVES names."""
    brought = {str(path.relative_to(TOP)): path for path in built_libraries()}
    if os.environ.get("PEP440_ARCHIVES") or not brought:
        library, *more = archives()
        if more:
            stop(f"the source archive takes one library, and PEP440_ARCHIVES names {len(more)} more")
        brought[f"crates/pep440_c/out/{MACHINE}/libpep440_c.a"] = library
    return brought


def objects():
    """Those of both programs for each machine for which they are built; none is needed where PEP440_PROGRAMS is set."""
    if "PEP440_PROGRAMS" not in os.environ and not all(proved(name, f"{name}.o") for name in PROGRAMS):
        missing("objects of the programs", "PEP440_PROGRAMS", "both programs, with a colon between them, or nothing for none, here and where the archive is built")
    return [path for name in PROGRAMS for path in sorted(CRATES.glob(f"{name}/out/*/{name}.o"))]


def sources():
    """The files of the source archive, by their names in it."""
    folders = [HERE, HERE / "src" / PACKAGE, HERE / "tests"]
    kinds = (".py", ".pyi", ".typed", ".c", ".h", ".md")
    paths = [path for folder in folders for path in sorted(folder.iterdir()) if path.suffix in kinds]
    paths += [TOP / "pyproject.toml", HEADER, RUNTIME, *LICENCES.values(), *objects()]
    files = {str(path.relative_to(TOP)): path for path in paths} | libraries_brought()
    return {name: path.read_bytes() for name, path in files.items()} | {"PKG-INFO": metadata("")["METADATA"].encode()}


def build_sdist(sdist_directory, config_settings=None):
    name = f"{release()}.tar.gz"
    tar = io.BytesIO()
    with tarfile.open(fileobj=tar, mode="w", format=tarfile.PAX_FORMAT) as archive:
        for each, data in sorted(sources().items()):
            # no time of day and no user, so that the same sources make the same archive
            entry = tarfile.TarInfo(f"{release()}/{each}")
            entry.size, entry.mode = len(data), 0o644
            archive.addfile(entry, io.BytesIO(data))
    with open(os.path.join(sdist_directory, name), "wb") as out, gzip.GzipFile(filename="", mode="wb", fileobj=out, mtime=0) as packed:
        packed.write(tar.getvalue())
    return name


if __name__ == "__main__":
    # the source archive and the wheel, into the folder that is named, else dist beside this
    TO = pathlib.Path(sys.argv[1] if len(sys.argv) > 1 else HERE / "dist")
    TO.mkdir(parents=True, exist_ok=True)
    print(TO / build_sdist(TO), TO / build_wheel(TO), sep="\n")
