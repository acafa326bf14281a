"""Tests what tools/c_library.sh --prefix installs, and how the wrappers find it: each program is built and run in a folder of its own, with no
variable that says where a library is."""

import os
import re
import shlex
import shutil
import subprocess
import sys
from dataclasses import dataclass
from pathlib import Path

from clients_base import AS_C, C, CLIENTS, Failed, Skipped, TOP, cc, said_by, tool

SCRIPT = TOP / "tools" / "c_library.sh"
# What the prover says one after another, and what the script tells then of how far it is.
PROVING = [
    ("", "proving, N seconds; nothing checked so far"),
    ("rt: chose --jobs 4 for interner_table", "proving interner_table, N seconds; nothing checked so far"),
    ("so far: 0 of 52 functions checked; the verdict comes last", "proving interner_table, N seconds; 0 of 52 functions checked"),
    ("checked interner_table::table::get, 5 of 93\nso far: 27 of 52 functions checked", "proving interner_table, N seconds; 27 of 52 functions checked"),
    ("fn interner_table::table::get: proved\nrt: chose --jobs 1 for string_cache_c", "proving string_cache_c, N seconds; nothing checked so far"),
    ("checked string_cache_c::sc_get, 7 of 40", "proving string_cache_c, N seconds; 7 of 40 checked"),
]
TELLS_VERSION = """//! Tells the version of the library.
extern "C" {
    fn sc_version() -> u32;
}
fn main() {
    assert!(interned_names::Interner::new().is_ok());
    println!("{}", unsafe { sc_version() });
}
"""
PIP = ["--no-build-isolation", "--no-index", "--no-deps", "--disable-pip-version-check"]


@dataclass
class Installed:
    """An installation of the library that --library names, by tools/c_library.sh --prefix, and its archive."""

    prefix: Path

    def flags(self, *words):
        """What pkg-config says of it."""
        environment = {**os.environ, "PKG_CONFIG_PATH": str(self.prefix / "lib" / "pkgconfig")}
        return shlex.split(said_by(tool("pkg-config"), *words, "string_cache", env=environment))


def without_variables():
    """The environment, but for what could say where a library is."""
    return {name: value for name, value in os.environ.items() if name not in ("LD_LIBRARY_PATH", "LIBRARY_PATH", "CPATH", "PKG_CONFIG_PATH")}


def installed(place, where="/opt/names"):
    """Installs the library below a folder for packages, and moves it away from there: what is installed says where it lies by itself."""
    packed, prefix = place.room / "packed", place.room / "moved"
    environment = {**os.environ, "DESTDIR": str(packed)}
    said_by(TOP / "tools" / "c_library.sh", "--prefix", where, place.library / "libstring_cache.a", env=environment)
    (packed / "opt" / "names").rename(prefix)
    return Installed(prefix)


def expect_example(program):
    if said_by(program, env=without_variables()) != "one word, two texts\n":
        raise Failed(f"{program.name} prints something else than the README says")


def install_pkg_config(place):
    """The example over an installation, static and shared, by what pkg-config says, run with no variable."""
    own = installed(place)
    [libdir] = own.flags("--variable=libdir")
    if Path(libdir).resolve() != own.prefix / "lib":
        raise Failed(f"the libraries are said to be in {libdir}")
    shared, static = place.room / "shared", place.room / "static"
    said_by(cc(), *AS_C, C / "example.c", *own.flags("--cflags", "--libs"), f"-Wl,-rpath,{libdir}", "-o", shared)
    said_by(cc(), *AS_C, C / "example.c", *own.flags("--cflags"), own.prefix / "lib" / "libstring_cache.a", "-o", static)
    for program in (shared, static):
        expect_example(program)
    if "libstring_cache.so.1" not in said_by(tool("readelf"), "-d", shared):
        raise Failed("the program names no libstring_cache.so.1")
    return 2


def install_cmake(place):
    """The example over an installation, static and shared, by CMake, run with no variable. Neither a later major version is taken,
    nor one behind the end of a range."""
    cmake, own = tool("cmake"), installed(place)
    project = place.room / "project"
    project.mkdir()
    find = "cmake_minimum_required(VERSION 3.13)\nproject(example C)\nfind_package(string_cache {} CONFIG REQUIRED)\n"
    kinds = ("shared", "static", "string_cache")
    targets = "".join(f"add_executable({kind} {C / 'example.c'})\ntarget_link_libraries({kind} string_cache::{kind})\n" for kind in kinds)
    (project / "CMakeLists.txt").write_text(find.format("1.0") + targets, encoding="utf-8")
    words = [cmake, "-S", project, "-B", place.room / "build", f"-DCMAKE_PREFIX_PATH={own.prefix}"]
    said_by(*words)
    said_by(cmake, "--build", place.room / "build")
    for kind in kinds:
        expect_example(place.room / "build" / kind)
    refused = ("2.0", "1.0...1.1", "1.0...<1.2")
    for version in refused:
        (project / "CMakeLists.txt").write_text(find.format(version), encoding="utf-8")
        words = [cmake, "-S", project, "-B", place.room / f"other-{version.replace('<', '')}", f"-DCMAKE_PREFIX_PATH={own.prefix}"]
        if subprocess.run(words, capture_output=True, check=False).returncode == 0:
            raise Failed(f"version {version} is found")
    return len(kinds) + len(refused)


def install_pages(place):
    """Each function of the headers that are installed has a page of the manual, and groff has nothing to say of them. Below a folder for packages
    it is all one whether a path begins at the root."""
    own = installed(place, "opt/names")
    pages = own.prefix / "share" / "man" / "man3"
    header = "".join(path.read_text(encoding="utf-8") for path in (own.prefix / "include").glob("*.h"))
    functions = set(re.findall(r"\b(sc_\w+)\(", re.sub(r"/\*.*?\*/", "", header, flags=re.DOTALL)))
    missing = sorted(name for name in functions - {"sc_text_of_fault"} if not (pages / f"{name}.3").is_file())
    if missing:
        raise Failed(f"there is no page of {' '.join(missing)}")
    led = re.findall(r"(?m)^\.so (.*)$", "\n".join(page.read_text(encoding="utf-8") for page in pages.glob("*.3")))
    nowhere = sorted({page for page in led if not (pages.parent / page).is_file()})
    if nowhere or len(led) < len(functions) / 2:
        raise Failed(f"{len(led)} pages lead to others, some to {nowhere}")
    groff = tool("groff")
    for page in pages.glob("string_cache*.3"):
        said = said_by(groff, "-man", "-ww", "-z", page)
        if said:
            raise Failed(said)
    return len(functions)


def script_help(place):
    """The script says how it is used, and what is no use of it ends with status 2."""
    if "--prefix" not in said_by(SCRIPT, "--help"):
        raise Failed("--help doesn't say how to install")
    for words in ([], ["--prefix"], ["--other"], ["a", "b", "c"]):
        if subprocess.run([SCRIPT, *words], capture_output=True, cwd=place.room, check=False).returncode != 2:
            raise Failed(f"{' '.join(words)} is taken")
    return 5


def stand_in(folder, name, body):
    """Puts a program of this name into the folder, and answers the environment in which it stands before others of that name."""
    folder.mkdir(exist_ok=True)
    (folder / name).write_text(f"#!/bin/bash\n{body}\n", encoding="utf-8")
    (folder / name).chmod(0o755)
    return {**os.environ, "PATH": f"{folder}:{os.environ['PATH']}"}


def script_progress(place):
    """While the library is proved, the script tells what the prover said last of how far it is. Here both are quick, and nothing is proved."""
    bins, sleep = place.room / "bin", shutil.which("sleep")
    stand_in(bins, "sleep", f"exec {sleep} 0.1")
    environment = stand_in(bins, "rt", "".join(f"echo {shlex.quote(line)}\n{sleep} 1\n" for line, _ in PROVING) + "exit 1")
    ran = subprocess.run([SCRIPT, place.room / "out"], capture_output=True, text=True, env=environment, check=False)
    told = re.findall(r"^c_library: (proving.*)$", ran.stderr, re.MULTILINE)
    told = list(dict.fromkeys(re.sub(r"\d+ seconds", "N seconds", line) for line in told))
    if told != [line for _, line in PROVING]:
        raise Failed(f"it tells {told}")
    if ran.returncode != 1 or (place.room / "out").exists():
        raise Failed(f"after a proof that failed the status is {ran.returncode}, and {os.listdir(place.room)} is there")
    return len(PROVING)


def script_archive(place):
    """What is no archive of the exports ends the script with status 1 and a line that says why, and nothing that it made is left."""
    archive, own = place.room / "archive.a", place.room / "own"
    own.mkdir()
    rows = {"": "is no archive", "text\n": "is no archive", "!<arch>\n": "the exports can't be linked from", None: "there is no archive"}
    for text, why in rows.items():
        archive.unlink(missing_ok=True) if text is None else archive.write_text(text, encoding="ascii")
        environment = {**os.environ, "TMPDIR": str(own)}
        ran = subprocess.run([SCRIPT, place.room / "out", archive], capture_output=True, text=True, env=environment, check=False)
        if ran.returncode != 1 or not re.search(rf"^c_library: .*{why}", ran.stderr, re.MULTILINE) or str(archive) not in ran.stderr:
            raise Failed(f"of {text!r} it says, with status {ran.returncode}: {ran.stderr}")
        if (place.room / "out").exists() or list(own.iterdir()):
            raise Failed(f"of {text!r} it leaves a folder")
    return len(rows)


def script_place(place):
    """A folder that can't be made ends the script before the proof of minutes, and with CDPATH exported it finds its own."""
    ran_at = place.room / "ran_at"
    environment = stand_in(place.room / "bin", "rt", f"pwd > {shlex.quote(str(ran_at))}\nexit 1")
    (place.room / "file").write_text("", encoding="ascii")
    for words in (["file/out"], ["--prefix", "file/out"]):
        ran = subprocess.run([SCRIPT, *words], capture_output=True, text=True, cwd=place.room, env=environment, check=False)
        if ran.returncode != 1 or "file" not in ran.stderr or ran_at.exists():
            raise Failed(f"of {' '.join(words)} it says, with status {ran.returncode}: {ran.stderr}")
    top = SCRIPT.parent.parent
    words = [os.path.relpath(SCRIPT, top.parent), place.room / "out"]
    subprocess.run(words, capture_output=True, cwd=top.parent, env={**environment, "CDPATH": str(top.parent)}, check=False)
    if ran_at.read_text(encoding="utf-8").strip() != str(top / "crates" / "string_cache_c"):
        raise Failed(f"with CDPATH it proves {ran_at.read_text(encoding='utf-8')}")
    return 3


def script_again(place):
    """A folder that is filled again gets new files: the library that a program runs with stays as it is."""
    out = place.room / "out"
    said_by(SCRIPT, out, place.library / "libstring_cache.a")
    with (out / "libstring_cache.so").open("rb") as library:
        before = library.read()
        said_by(SCRIPT, out, place.library / "libstring_cache.a", env={**os.environ, "CFLAGS": "-O0 -g"})
        library.seek(0)
        if library.read() != before or (out / "libstring_cache.so").read_bytes() == before:
            raise Failed("the library of a running program is overwritten, or stays")
    return 1


def python_with_setuptools():
    """A Python that can build a wheel with no network."""
    for python in (sys.executable, "/usr/bin/python3"):
        try:
            said_by(python, "-c", "import setuptools, pip; assert int(setuptools.__version__.split('.')[0]) >= 71 or __import__('wheel')")
        except (Failed, OSError):
            continue
        return python
    raise Skipped("there is no Python with pip, setuptools and wheel")


def install_pip(place):
    """pip installs the module with the library in it, and a program finds both. Nothing is written beside the sources."""
    python, target, sources = python_with_setuptools(), place.room / "target", place.room / "python"
    shutil.copytree(CLIENTS / "python", sources, ignore=shutil.ignore_patterns("__pycache__"))
    before = sorted(path.name for path in sources.iterdir())
    environment = {**without_variables(), "STRING_CACHE_LIBRARY": str(place.library / "libstring_cache.so"), "PIP_ROOT_USER_ACTION": "ignore"}
    said_by(python, "-m", "pip", "install", *PIP, "--target", target, sources, env=environment)
    if sorted(path.name for path in sources.iterdir()) != before:
        raise Failed(f"beside the sources there is {' '.join(path.name for path in sources.iterdir())}")
    missing = [name for name in ("__init__.py", "libstring_cache.so", "py.typed") if not (target / "string_cache" / name).is_file()]
    if missing:
        raise Failed(f"the package has no {' '.join(missing)}")
    program = "import string_cache as s, importlib.metadata as m\n"
    program += "print(s.VERSION, s.__version__, m.version('string-cache'), s.Interner().intern('abc'))"
    environment = {**without_variables(), "PYTHONPATH": str(target), "PYTHONDONTWRITEBYTECODE": "1"}
    environment.pop("STRING_CACHE_LIBRARY", None)
    number, told, version, word = said_by(python, "-c", program, cwd=place.room, env=environment).split()
    major, minor, patch = map(int, version.split("."))
    if int(number) != major * 10000 + minor * 100 + patch or told != version or int(word) != 0x63626131:
        raise Failed(f"the package of version {version} says {told}, and has a library of version {number}")
    return 3


def install_without_wheel(place):
    """A Python that can build no wheel is told in one line what it lacks, and nothing is installed."""
    python, hidden, sources = python_with_setuptools(), place.room / "hidden", place.room / "python"
    shutil.copytree(CLIENTS / "python", sources, ignore=shutil.ignore_patterns("__pycache__"))
    hidden.mkdir()
    missing = ("wheel", "wheel.bdist_wheel", "setuptools.command.bdist_wheel")
    (hidden / "sitecustomize.py").write_text(f"import sys\nsys.modules.update(dict.fromkeys({missing}))\n", encoding="ascii")
    environment = {**without_variables(), "PYTHONPATH": str(hidden), "STRING_CACHE_LIBRARY": str(place.library / "libstring_cache.so")}
    ran = subprocess.run([python, "setup.py", "--version"], cwd=sources, capture_output=True, text=True, env=environment, check=False)
    told = ran.stderr.splitlines()
    if ran.returncode != 1 or ran.stdout or len(told) != 1 or "wheel" not in told[0]:
        raise Failed(f"without wheel setup.py says {ran.stdout}{ran.stderr}")
    words = [python, "-m", "pip", "install", *PIP, "--target", place.room / "target", sources]
    ran = subprocess.run(words, capture_output=True, text=True, env=environment, check=False)
    if ran.returncode != 1 or told[0] not in ran.stderr or "Traceback" in ran.stderr or (place.room / "target" / "string_cache").exists():
        raise Failed(f"without wheel pip says {ran.stdout}{ran.stderr}")
    return 2


def install_cargo(place):
    """The crate's example over an installation that pkg-config knows."""
    cargo, own, crate = tool("cargo"), installed(place), place.room / "rust"
    tool("pkg-config")
    shutil.copytree(CLIENTS / "rust", crate, ignore=shutil.ignore_patterns("target", "Cargo.lock"))
    environment = {**without_variables(), "PKG_CONFIG_PATH": str(own.prefix / "lib" / "pkgconfig"), "RUSTFLAGS": "-D warnings"}
    environment.pop("STRING_CACHE_DIR", None)
    words = [cargo, "build", "--offline", "--example", "count_words", "--target-dir", place.room / "target"]
    said_by(*words, cwd=crate, env=environment)
    program = place.room / "target" / "debug" / "examples" / "count_words"
    ran = subprocess.run([program], input=b"a b a longer_name a b\n", capture_output=True, env=without_variables(), check=False)
    if ran.stdout.split() != b"3 a 2 b 1 longer_name".split():
        raise Failed(f"count_words prints {ran.stdout!r}")
    return 1


def install_cargo_again(place):
    """A program that cargo built has the library as it is built anew in the same folder."""
    cargo, crate, library = tool("cargo"), place.room / "rust", place.room / "library"
    shutil.copytree(CLIENTS / "rust", crate, ignore=shutil.ignore_patterns("target", "Cargo.lock"))
    (crate / "examples" / "told.rs").write_text(TELLS_VERSION, encoding="ascii")
    shutil.copytree(place.library, library)
    archive, own = library / "libstring_cache.a", place.room / "string_cache.c"
    text = (C / "string_cache.c").read_text(encoding="utf-8")
    words = [cargo, "run", "--quiet", "--offline", "--example", "told", "--target-dir", place.room / "target"]
    environment, told = {**os.environ, "STRING_CACHE_DIR": str(library)}, []
    for version in ("10100", "10101"):
        own.write_text(text.replace("sc_table_version() * 10000u + SC_VERSION_MINOR * 100u + SC_VERSION_PATCH", f"{version}u"), encoding="utf-8")
        said_by(cc(), "-O2", "-fPIC", "-I", C, "-c", own, "-o", own.with_suffix(".o"))
        said_by(tool("ar"), "rs", archive, own.with_suffix(".o"))
        told.append(said_by(*words, cwd=crate, env=environment).strip())
    if told != ["10100", "10101"]:
        raise Failed(f"over libraries of two versions it prints {told}")
    return 1


def install_rows():
    """What is tested of an installation, by its name."""
    found = {"install pkg-config": install_pkg_config, "install cmake": install_cmake, "install manual": install_pages}
    found.update({"install help": script_help, "install progress": script_progress, "install archive": script_archive, "install place": script_place})
    found.update({"install again": script_again, "install cargo again": install_cargo_again})
    found.update({"install pip": install_pip, "install without wheel": install_without_wheel, "install cargo": install_cargo})
    return found
