#!/usr/bin/env python3
"""Tests what C, C++, Rust and Python get of the library: the guarded layer of clients/c, and the wrappers and programs of clients.

tools/c_library.sh builds the library in a folder of its own, in a copy where the libraries below the exports stand as they were built last: the
exports are proved once more, and what isn't built. Then each test program is built there, with
all warnings as errors, and run: plainly, under valgrind, and with sanitizers on the side of C. What needs a tool that isn't there is skipped,
and the output says so. Nothing is read from a network, and nothing is written beside the sources.

usage: gate/clients/clients.py [--library DIR] [--jobs N] [WORD..]     with a folder that tools/c_library.sh filled: nothing is built or proved
anew; with words: only the rows of these names, or, where there is none, those whose names have one of them
"""

import argparse
import os
import re
import shlex
import shutil
import subprocess
import sys
import tempfile
from concurrent.futures import ThreadPoolExecutor
from pathlib import Path

sys.path.append(str(Path(__file__).resolve().parent.parent))
import find_modules  # has Python find the next ones
from clients_base import AS_C, C, CLIENTS, Failed, Place, SECONDS, Skipped, TOP, WARNINGS, cc, cpp, said_by, tool
from clients_install import install_rows
from copies import copy_over_built
from machine import processors

EXPORTS = "string_cache_c"  # the crate
NAMES = [C / "names" / name for name in ("lexer.c", "source.c")]
PROOF_SECONDS = 7200  # for the library, where nothing was proved before
MOST_SOURCE = 6_000_000  # bytes of the text that the lexer reads
AS_CPP = ["-std=c++17", *WARNINGS]
SANITIZED = ["-g", "-O1", "-fsanitize=address,undefined", "-fno-sanitize-recover=all"]
WRAPPED = {"heap": ("malloc", "realloc"), "memory": ("malloc", "realloc", "free"), "counted": ("malloc", "realloc", "free")}  # by programs of tests
LOCKS = ("pthread_mutex_init", "pthread_mutex_destroy")
WRAPPED["shared_memory"] = (*WRAPPED["memory"], *LOCKS)
WRAPPED["readers"] = WRAPPED["memory"]
WRAPPED["keys"] = ("getrandom", "sc_table_open", "sc_table_open_with", "sc_word_pack", "sc_word_unpack")
SHARED = C / "string_cache_shared.c"
# The calls of the library that tests/touched.c stands before.
TOUCHED = ("intern", "get", "clone", "give", "holds", "holders", "text", "entries", "text_bytes", "memory", "clear")
RACES = ["-g", "-O1", "-fsanitize=thread", "-pthread"]
CPP_WRAPS = [f"-Wl,--wrap={function}" for function in WRAPPED["memory"]]
CRATES = ("precomputed_hash", "rust", "rust_facade", "rust_facade_0_8")
REGISTRY = Path("/usr/share/cargo/registry")  # of Debian's packages of crates
# Programs that call by former names, and how many of these each has.
FORMER_CPP = '#include "string_cache.hpp"\nint main() { return string_cache::Refused(SC_CLOSED).number() == SC_CLOSED ? 0 : 1; }\n', 1
FORMER_RUST = """use interned_names::{Interner, SharedInterner};
fn main() {
    let (mut names, shared) = (Interner::new().unwrap(), SharedInterner::new().unwrap());
    let (symbol, mut room) = (names.intern("a longer name").unwrap(), String::new());
    assert!(names.resolve(symbol).is_some() && names.resolve_into(symbol, &mut room));
    let symbol = shared.intern(&room).unwrap();
    assert!(shared.get(&symbol.name()).is_ok() && shared.lock_symbol(symbol.symbol()).resolve().is_some());
}
""", 5
OUTCOME = re.compile(r"^test (.+) \.\.\. (\w+)$", re.MULTILINE)


def build_library(library, room):
    """Fills the folder of the library, and leaves the archive of the exports where `rt lib` does."""
    copy = copy_over_built(room / "copy", EXPORTS)
    print(said_by(copy / "tools" / "c_library.sh", library, seconds=PROOF_SECONDS).strip(), flush=True)
    out = TOP / "crates" / EXPORTS / "out"
    out.mkdir(exist_ok=True)
    shutil.copy(copy / "crates" / EXPORTS / "out" / f"lib{EXPORTS}.a", out)
    shutil.rmtree(copy)


def sanitized(compiler, place, words=SANITIZED):
    """The words that have the compiler look for bad addresses and undefined behaviour, or for what others ask. Skipped where it can't."""
    probe = place.room / f"probe-{Path(compiler).name}.c"
    probe.write_text("int main(void) { return 0; }\n", encoding="ascii")
    try:
        said_by(compiler, "-x", "c", probe, *words, "-o", probe.with_suffix(""))
        said_by(probe.with_suffix(""))
    except Failed as why:
        raise Skipped(f"{compiler} builds nothing with sanitizers here") from why
    return words


def built(place, name, compiler, sources, *words):
    """A program of these sources and the library."""
    program = place.room / name
    include = ["-I", place.library, "-I", C / "names"]
    said_by(compiler, *words, *include, *sources, place.library / "libstring_cache.a", "-o", program)
    return program


def outcomes(said):
    """How many of the tests in this output passed. Failed where one did not, or there was none."""
    found = OUTCOME.findall(said)
    failed = [name for name, outcome in found if outcome != "ok"]
    if failed or not found:
        raise Failed(f"{' '.join(failed) or 'no test'} failed:\n{said[-3000:]}")
    return len(found)


def c_tests(name, beside=(), words=()):
    """The ways in which a program of tests in C is run, by their names. More sources and words are for the compiler."""
    sources = [C / "tests" / f"{name}.c", *beside]
    more = [*words, *(f"-Wl,--wrap={function}" for function in WRAPPED.get(name, ()))]

    def plain(place):
        return outcomes(said_by(built(place, name, cc(), sources, *AS_C, "-O2", *more)))

    def checked(place):
        compiler = cc()
        return outcomes(said_by(built(place, f"{name}-checked", compiler, sources, *AS_C, *sanitized(compiler, place), *more)))

    def memcheck(place):
        valgrind = tool("valgrind")
        program = built(place, f"{name}-memcheck", cc(), sources, *AS_C, "-O1", "-g", *more)
        return outcomes(said_by(valgrind, "-q", "--leak-check=full", "--show-leak-kinds=all", "--error-exitcode=1", program))

    return {f"c {name}": plain, f"c {name} sanitized": checked, f"c {name} memcheck": memcheck}


def example(place):
    """The program of the README."""
    said = said_by(built(place, "example", cc(), [C / "example.c"], *AS_C))
    if said != "one word, two texts\n":
        raise Failed(f"example.c prints {said}")
    return 1


def header_alone(place):
    """The header is C99, C11 and C++ by itself."""
    compiler, room = cc(), place.room
    alone = room / "alone.c"
    alone.write_text('#include "string_cache.h"\n', encoding="ascii")
    for standard in ("c99", "c11"):
        said_by(compiler, f"-std={standard}", *WARNINGS, "-I", place.library, "-fsyntax-only", alone)
    if shutil.which("c++"):
        said_by("c++", "-x", "c++", "-std=c++11", *WARNINGS, "-I", place.library, "-fsyntax-only", alone)
    return 1


def exported(place):
    """The shared library gives exactly what the header declares."""
    listed = said_by(tool("nm"), "-D", "--defined-only", place.library / "libstring_cache.so")
    found = {line.split()[-1] for line in listed.splitlines()}
    declared = set(re.findall(r"^(?:SC_TO_BE_READ )?SC_EXPORT .*?\b(sc_\w+)\(", (C / "string_cache.h").read_text(encoding="utf-8"), re.MULTILINE))
    if found != declared:
        raise Failed(f"of the header and the shared library only one has {' '.join(sorted(found ^ declared))}")
    return 1


def by_pkg_config(place):
    """A program is built by what string_cache.pc says, over the shared library."""
    environment = {**os.environ, "PKG_CONFIG_PATH": str(place.library), "LD_LIBRARY_PATH": str(place.library)}
    flags = shlex.split(said_by(tool("pkg-config"), "--cflags", "--libs", "string_cache", env=environment))
    program = place.room / "by_pkg_config"
    said_by(cc(), *AS_C, C / "example.c", *flags, "-o", program)
    if said_by(program, env=environment) != "one word, two texts\n":
        raise Failed("example.c prints something else over the shared library")
    return 1


def scopes(place):
    """Of the names of a program, block by block, the program in C says what the one in Rattle does."""
    program = built(place, "scopes", cc(), [C / "names" / "scopes.c", *NAMES, C / "names" / "word_map.c"], *AS_C, *sanitized(cc(), place))
    folder = TOP / "crates" / "example_scopes"
    if said_by(program, folder / "stdin") != (folder / "stdout").read_text(encoding="utf-8"):
        raise Failed("scopes.c prints something else than crates/example_scopes")
    return 1


def lexer_tests(place):
    compiler = cc()
    return outcomes(said_by(built(place, "lexer", compiler, [C / "tests" / "lexer.c", NAMES[0]], *AS_C, *sanitized(compiler, place))))


def source_text(room):
    """A file of some megabytes of C: the machine's headers as they are, or, where it has none, our own sources again and again."""
    file, size = room / "source.c", 0
    headers = sorted(Path("/usr/include").rglob("*.h"))
    own = sorted(CLIENTS.rglob("*.[ch]"))
    with file.open("wb") as out:
        for path in [*headers, *own * 200]:
            if size < MOST_SOURCE and path.is_file():
                size += out.write(path.read_bytes())
    return file


def count_names(place):
    """The lexer's names as words, counted, are those of a plain hash table."""
    maps = [C / "names" / "count_names.c", *NAMES, C / "names" / "word_map.c"]
    words = built(place, "count_names", cc(), maps, *AS_C, "-O2")
    plain = built(place, "plain_names", cc(), [C / "tests" / "plain_names.c", *NAMES], *AS_C, "-O2")
    text = source_text(place.room)
    found = said_by(words, text)
    if found != said_by(plain, text):
        raise Failed("count_names.c and a plain table count other names")
    print(f"clients: {found.count(chr(10))} names in {text.stat().st_size} bytes of C", flush=True)
    return 1


def by_its_head(place, name):
    """The program over names that the command at the head of its source builds."""
    tool("cc")
    for link, to in (("lib", place.library), ("clients", CLIENTS)):
        if not (place.room / link).exists():
            (place.room / link).symlink_to(to)
    commands = re.findall(r"^ \* (cc .*?)(?: \*/)?$", (C / "names" / f"{name}.c").read_text(encoding="utf-8"), re.MULTILINE)
    if len(commands) != 1:
        raise Failed(f"{name}.c has {len(commands)} commands that build it at its head")
    said_by("bash", "-c", commands[0], cwd=place.room)
    return place.room / name


def names_faults(place):
    """If the programs over names can't read a file, or write what they print, they end with status 1 and say so, with the file's name."""
    few, many, absent, found = place.room / "few.c", place.room / "many.c", place.room / "absent.c", 0
    few.write_text("int few;\n", encoding="ascii")
    many.write_text("".join(f"int name_{number};\n" for number in range(9000)), encoding="ascii")
    for program in (by_its_head(place, "count_names"), by_its_head(place, "scopes")):
        rows = [(f"'{path}'", f"names: {path}: ") for path in (absent, place.room)] + [(f"< '{place.room}'", "names: standard input: ")]
        rows += [(f"'{path}' {to}", "names: the output can't be written\n") for path in (few, many) for to in ("> /dev/full", ">&-")]
        for words, why in rows:
            ran = subprocess.run(["sh", "-c", f"'{program}' {words}"], capture_output=True, text=True, check=False, timeout=SECONDS)
            if ran.returncode != 1 or not ran.stderr.startswith(why) or ran.stderr.count("\n") != 1:
                raise Failed(f"{program.name} {words} has the status {ran.returncode}, and says {ran.stderr}")
        said_by(program, many)
        found += len(rows) + 1
    return found


def races_of(program, room):
    """What a program printed until the first report, and what ThreadSanitizer wrote to its log: its status alone shows nothing."""
    log = room / f"{program.name}.log"
    said = said_by(program, env={**os.environ, "TSAN_OPTIONS": f"log_path={log} exitcode=0 halt_on_error=1"})
    return said, "".join(part.read_text(errors="replace") for part in sorted(room.glob(f"{log.name}.*")))


def without_races(place, compiler, sources, words):
    """How many tests of these sources passed with no race that ThreadSanitizer reports. It has to report the one of tests/raced.c."""
    touched, traced = place.room / "touched.o", [*sanitized(cc(), place, RACES), *(f"-Wl,--wrap=sc_{name}" for name in TOUCHED)]
    said_by(cc(), *AS_C, *RACES, "-I", place.library, "-c", C / "tests" / "touched.c", "-o", touched)
    _, reported = races_of(built(place, "raced", cc(), [C / "tests" / "raced.c", touched], *AS_C, *traced), place.room)
    if "data race" not in reported:
        raise Failed("ThreadSanitizer reports no race of two threads that take no lock")
    said, reported = races_of(built(place, "raceless", compiler, [*sources, touched], *words, *traced), place.room)
    if reported:
        raise Failed(f"ThreadSanitizer reports:\n{reported[:3000]}")
    return outcomes(said)


def reader_races(place):
    """Threads that only read one table, where the guarded layer is built to find what two of them do to one byte."""
    compiler = cc()
    sources = [C / "tests" / "readers.c", C / "string_cache.c", C / "heap.c"]
    words = [*AS_C, *sanitized(compiler, place, RACES), *(f"-Wl,--wrap={function}" for function in WRAPPED["readers"])]
    return outcomes(said_by(built(place, "readers-races", compiler, sources, *words)))


def shared_races(place):
    return without_races(place, cc(), [C / "tests" / "shared_threads.c", SHARED], [*AS_C, "-I", C])


def cpp_races(place):
    return without_races(place, cpp(), [CLIENTS / "cpp" / "test_shared.cpp"], [*AS_CPP, *CPP_WRAPS])


def shared_cpp(place, *words):
    """The program of tests of the shared interner in C++."""
    return built(place, "cpp-shared", cpp(), [CLIENTS / "cpp" / "test_shared.cpp"], *AS_CPP, "-pthread", *CPP_WRAPS, *words)


def shared_cpp_tests(place):
    return outcomes(said_by(shared_cpp(place, "-O2")))


def shared_cpp_checked(place):
    return outcomes(said_by(shared_cpp(place, *sanitized(cpp(), place))))


def shared_cpp_memcheck(place):
    # The program has operators new and delete of its own, and keeps them.
    words = ["-q", "--leak-check=full", "--show-leak-kinds=all", "--soname-synonyms=somalloc=nouserintercepts", "--error-exitcode=1"]
    return outcomes(said_by(tool("valgrind"), *words, shared_cpp(place, "-O1", "-g")))


def shared_header_alone(place):
    """The header of the shared interner is C99, C11 and C++ by itself."""
    alone = place.room / "alone.c"
    alone.write_text('#include "string_cache_shared.h"\n', encoding="ascii")
    for standard in ("c99", "c11"):
        said_by(cc(), f"-std={standard}", *WARNINGS, "-I", place.library, "-I", C, "-fsyntax-only", alone)
    if shutil.which("c++"):
        said_by("c++", "-x", "c++", "-std=c++11", *WARNINGS, "-I", place.library, "-I", C, "-fsyntax-only", alone)
    return 1


def cpp_tests(place):
    return outcomes(said_by(built(place, "cpp-plain", cpp(), [CLIENTS / "cpp" / "test.cpp"], *AS_CPP, "-O2", "-pthread")))


def cpp_checked(place):
    compiler = cpp()
    words = [*AS_CPP, "-pthread", *sanitized(compiler, place)]
    return outcomes(said_by(built(place, "cpp-checked", compiler, [CLIENTS / "cpp" / "test.cpp"], *words)))


def expect_deprecated(said, number):
    """How many warnings there are of names that are deprecated. Failed where it isn't this number."""
    found = len(re.findall(r"^.*\bwarning:.*\bdeprecated\b", said, re.MULTILINE))
    if found != number:
        raise Failed(f"of {number} former names {found} are warned of:\n{said[-3000:]}")
    return number


def cpp_former_names(place):
    """The compiler takes each former name, and warns of it."""
    source, (text, number) = place.room / "former.cpp", FORMER_CPP
    source.write_text(text, encoding="ascii")
    words = ["-std=c++17", "-Wall", "-I", place.library, "-I", CLIENTS / "cpp", source, place.library / "libstring_cache.a", "-o", place.room / "former"]
    found = expect_deprecated(said_by(cpp(), *words), number)
    said_by(place.room / "former")
    return found


def rust_former_names(place):
    """The same of the crate."""
    crate, (text, number) = place.room / "rust", FORMER_RUST
    shutil.copytree(CLIENTS / "rust", crate, ignore=shutil.ignore_patterns("target", "Cargo.lock"))
    (crate / "examples" / "former.rs").write_text(text, encoding="ascii")
    words = [tool("cargo"), "run", "--offline", "--example", "former", "--target-dir", place.room / "target"]
    return expect_deprecated(said_by(*words, cwd=crate, env={**os.environ, "STRING_CACHE_DIR": str(place.library)}), number)


def crate_tests(place, name, *more):
    """The tests of a crate of clients, in a copy beside its neighbours, since cargo writes beside the sources. More words are for cargo."""
    cargo = tool("cargo")
    for crate in CRATES:
        if not (place.room / crate).is_dir():
            shutil.copytree(CLIENTS / crate, place.room / crate, ignore=shutil.ignore_patterns("target", "Cargo.lock"))
    environment = {**os.environ, "STRING_CACHE_DIR": str(place.library), "RUSTFLAGS": "-D warnings"}
    words = [cargo, "test", "--release", "--offline", "--target-dir", place.room / "target", *more]
    return outcomes(said_by(*words, cwd=place.room / name, env=environment))


def rust_tests(place):
    return crate_tests(place, "rust")


def facade_tests(name):
    """The tests of a facade, which depends on no serde in the copy: cargo looks for it even where the feature is off."""

    def tests(place):
        shutil.copytree(CLIENTS / name, place.room / name, ignore=shutil.ignore_patterns("target", "Cargo.lock"))
        manifest = place.room / name / "Cargo.toml"
        lines = manifest.read_text(encoding="utf-8").replace('"dep:serde"', "").splitlines(keepends=True)
        manifest.write_text("".join(line for line in lines if not line.startswith("serde =")), encoding="utf-8")
        return crate_tests(place, name, "--no-default-features")

    return tests


def serde_tests(place):
    """What serde asks of the facade, over Debian's serde."""
    if not any(REGISTRY.glob("serde-1.*")):
        raise Skipped(f"there is no serde in {REGISTRY}")
    debian = ["--config", 'source.crates-io.replace-with="debian"', "--config", f'source.debian.directory="{REGISTRY}"']
    return crate_tests(place, "rust_facade", *debian, "--test", "features")


def real_client(name):
    """A program over Debian's crate of this name writes the same over the facade as over Debian's string_cache."""

    def test(place):
        said = said_by(TOP / "gate" / "clients" / "real_client.py", place.library, place.room, name).strip()
        if said.startswith("SKIPPED: "):
            raise Skipped(said.removeprefix("SKIPPED: "))
        print(f"clients {said}", flush=True)
        return 1

    return test


def python_tests(place):
    environment = {**os.environ, "STRING_CACHE_LIBRARY": str(place.library / "libstring_cache.so"), "PYTHONDONTWRITEBYTECODE": "1"}
    said = said_by(sys.executable, "-W", "error", "-m", "unittest", cwd=CLIENTS / "python", env=environment)
    ran = re.search(r"^Ran (\d+) tests? .*\n\nOK$", said, re.MULTILINE)
    if not ran or ran[1] == "0":
        raise Failed(said[-3000:])
    return int(ran[1])


def rows():
    """What is tested, by its name. Each gives the number of its tests that passed."""
    found = {"c example": example, "c header": header_alone, "c exports": exported, "c pkg-config": by_pkg_config}
    found.update(install_rows())
    for name in ("calls", "hostile", "memory", "heap", "counted", "model"):
        found.update(c_tests(name))
    found.update({**c_tests("readers", words=["-pthread"]), "c readers races": reader_races})
    found.update({"c lexer": lexer_tests, "c scopes": scopes, "c count_names": count_names, "c names faults": names_faults})
    found.update({"cpp": cpp_tests, "cpp sanitized": cpp_checked})
    for name in ("shared", "shared_threads", "shared_memory", "keys"):
        found.update(c_tests(name, [SHARED], ["-pthread", "-I", C]))
    found.update({"c shared races": shared_races, "cpp shared": shared_cpp_tests, "cpp shared sanitized": shared_cpp_checked})
    found.update({"cpp shared races": cpp_races, "cpp shared memcheck": shared_cpp_memcheck, "c shared header": shared_header_alone})
    found.update({"rust": rust_tests, "rust facade": facade_tests("rust_facade"), "rust facade 0.8": facade_tests("rust_facade_0_8")})
    found.update({"rust facade serde": serde_tests, "python": python_tests})
    found.update({"cpp former names": cpp_former_names, "rust former names": rust_former_names})
    found.update({f"rust {name}": real_client(name) for name in ("html5ever", "lalrpop")})
    return found


def outcome_of(name, test, place):
    """How many tests passed and how many failed, once it is said."""
    own = Place(place.library, place.room / name.replace(" ", "-"))
    own.room.mkdir()
    try:
        passed = test(own)
    except Skipped as why:
        print(f"clients {name}: SKIPPED: {why}", flush=True)
        return 0, 0
    except (Failed, OSError, subprocess.TimeoutExpired) as why:
        print(f"clients {name}: WRONG: {why}", flush=True)
        return 0, 1
    print(f"clients {name}: {passed} passed", flush=True)
    return passed, 0


def main():
    parser = argparse.ArgumentParser(description=__doc__, formatter_class=argparse.RawDescriptionHelpFormatter)
    parser.add_argument("--library", type=Path)
    parser.add_argument("--jobs", type=int, default=processors())
    parser.add_argument("words", nargs="*")
    given = parser.parse_args()
    results = []
    with tempfile.TemporaryDirectory(prefix="clients-") as room:
        library = given.library.resolve() if given.library else Path(room) / "library"
        place = Place(library, Path(room))
        try:
            if not given.library:
                build_library(library, Path(room))
            chosen = [row for row in rows().items() if row[0] in given.words]
            chosen = chosen or [row for row in rows().items() if not given.words or any(word in row[0] for word in given.words)]
            if not chosen:
                raise Failed(f"no row has one of these in its name: {', '.join(given.words)}")
            with ThreadPoolExecutor(max(1, given.jobs)) as workers:
                results = list(workers.map(lambda row: outcome_of(*row, place), chosen))
        except (Failed, OSError, subprocess.TimeoutExpired) as why:
            print(f"clients: {why}")
    passed, failed = (sum(column) for column in zip(*results)) if results else (0, 1)
    if not passed and not failed:
        print("clients: no test was run")
        failed = 1
    print(f"{passed} passed, {failed} failed")
    return 1 if failed else 0


if __name__ == "__main__":
    sys.exit(main())
