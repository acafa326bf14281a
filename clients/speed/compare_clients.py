#!/usr/bin/env python3
"""Times and memory of programs that were written for string_cache 0.8, over Debian's string_cache and over clients/rust_facade_0_8: html5ever, in
clients/page_tree, over pages that are made and those of /usr/share/doc, and lalrpop over its own grammar. Both are built with all optimisations, as
gate/clients/real_client.py builds them without, and run in turn, by GNU time. Of each: the middle one of its turns, seconds of processors and
megabytes at their peak.

usage: clients/speed/compare_clients.py LIBRARY [TURNS [NAME..]]     LIBRARY is a folder that tools/c_library.sh filled; 7 turns of all
The words of RUN stand before each program: with RUN='chrt -f 1' other work on the machine waits meanwhile.
"""

import os
import shlex
import shutil
import statistics
import subprocess
import sys
import tempfile
from pathlib import Path

TOP = Path(__file__).resolve().parent.parent.parent
sys.path.append(str(TOP / "gate" / "clients"))
import real_client  # noqa: E402

TURNS = 7
ROUNDS = 10  # times that a turn of html5ever has all pages
MEGABYTE = 1024  # in kilobytes
# Of the profile that real_client builds.
FAST = {"CARGO_PROFILE_DEV_OPT_LEVEL": "3"}


def html5ever(room):
    """What is built: its sources, the crates in the place of Debian's, and the name of the program. And what it is run with, and where."""
    files = [str(path) for path in real_client.pages(room)]
    return TOP / "clients" / "page_tree", {"tendril": real_client.patched_tendril(room)}, "page_tree", files * ROUNDS, room


def lalrpop(room):
    """The same of lalrpop."""
    grammars = room / "grammars"
    grammars.mkdir()
    shutil.copy(real_client.LALRPOP / "src" / "parser" / "lrgrammar.lalrpop", grammars / "own.lalrpop")
    return real_client.LALRPOP, {}, "lalrpop", ["--force", "own.lalrpop"], grammars


PROGRAMS = {"html5ever": (html5ever, real_client.HTML), "lalrpop": (lalrpop, real_client.LALRPOP)}


def turn(words, place):
    """Seconds of processors that a command takes, and the most megabytes that it has. Those GNU time tells: a child of this process begins with
    what Python has."""
    with tempfile.NamedTemporaryFile("r") as told:
        timed = ["time", "--quiet", "--format=%M", f"--output={told.name}", *map(str, words)]
        run = subprocess.Popen([*shlex.split(os.environ.get("RUN", "")), *timed], cwd=place, stdout=subprocess.DEVNULL)
        _, status, used = os.wait4(run.pid, 0)
        run.returncode = os.waitstatus_to_exitcode(status)
        if run.returncode:
            sys.exit(f"{Path(words[0]).name} ended with status {run.returncode}")
        return used.ru_utime + used.ru_stime, int(told.read()) / MEGABYTE


def compared(name, room, library, turns):
    """What is told of a program."""
    made, source = PROGRAMS[name]
    if not source.is_dir():
        return f"{name} left out: there is no {source}: Debian's package librust-{name}-dev has it"
    sources, crates, program, words, place = made(room)
    built = {}
    for over, more in (("debian", {}), ("facade", {"string_cache": real_client.facade_in(room)})):
        copy = real_client.copied(sources, room / over / sources.name)
        folder, _ = real_client.built(room, library, copy, {**crates, **more})
        built[over] = shutil.copy(folder / program, room / f"{program}-{over}")
    found = {over: [] for over in built}
    for _ in range(turns):
        for over, path in built.items():
            found[over].append(turn([path, *words], place))
    (seconds, memory), (own_seconds, own_memory) = ([statistics.median(column) for column in zip(*found[over])] for over in ("debian", "facade"))
    time = f"{own_seconds:.3f} s over the facade, {seconds:.3f} over Debian's: {own_seconds / seconds:.2f}"
    return f"{name}: {time}; {own_memory:.1f} MB and {memory:.1f}: {own_memory / memory:.2f}"


def main():
    given = sys.argv[1:]
    if not given or given[0].startswith("-"):
        print(__doc__.strip())
        return 0 if given else 2
    os.environ.update(FAST)
    turns = int(given[1]) if given[1:] else TURNS
    for name in given[2:] or PROGRAMS:
        with tempfile.TemporaryDirectory(prefix="compare-clients-") as folder:
            print(compared(name, Path(folder), Path(given[0]).resolve(), turns), flush=True)
    return 0


if __name__ == "__main__":
    sys.exit(main())
