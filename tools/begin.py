#!/usr/bin/env python3
"""Begins a repository that stands on this library: the crates that it needs, an example that runs, crates.txt, HANDLES, and a README of its
commands. What serves the tests of this repository alone, as wrong bodies, isn't copied.

- set:    sets and atoms, which threads share, and `example_hello`, which interns a word and prints its atom
- named:  the same with sets that have a name, and `example_hello_named`, whose two threads are given one word for one text
- table:  tables for one thread, and `example_scopes`, which counts the names of a program in C, block by block

With --crates it takes the crates of these names, parted by commas, those that they stand on, and no example.

usage: tools/begin.py set|named|table FOLDER     FOLDER is new, or empty
       tools/begin.py --crates NAME[,NAME..] FOLDER
"""

import argparse
import shlex
import shutil
import sys
from pathlib import Path

from repository import TOP, crates_listed, stands_on

# The example of each kind, the handles that it may use, and what it does.
KINDS = {
    "set": ("example_hello", "Threads, Wait.", "interns a word in a set, and prints its atom"),
    "named": ("example_hello_named", "Threads, Wait.", "has two threads intern one word in a set with a name, and prints that it is one word"),
    "table": ("example_scopes", "none.", "counts the names of a program in C with a table, block by block"),
}
HEAD = """# A repository over interned strings

"""
WITH_EXAMPLE = """`crates/{example}` {does}.

Change its `src/main.rt`, or begin a crate beside it: """
BEGIN_ONE = "Begin a crate beside those that are here: "
HOW = """a folder in `crates`, and a line in `crates.txt` with its name, how many of its functions may
wait (`may_wait=N`), and the crates that it uses. `HANDLES` says what all crates may use of threads and locks.

| Command | Where | What it does |
|---|---|---|
| `rt try{stdin}` | `crates/{example}` | runs it, in half a minute or more, and proves nothing |
| `rt check` | there | proves it, and first what it stands on, which takes minutes the first time |
| `rt run{stdin}` | there | proves it, and runs what the compiler made |
| `rt ci` | here | proves all crates and their tests, and runs tests and programs |
| `rt doc` | anywhere | says which page of the kit to read first |
"""
PARTS = ("src", "specs", "proofs", "data", "README.md", "CALLING.md", "args", "status", "stdin", "stdout")


def copy_crate(name, folder):
    """Copies what a crate is made of and runs on."""
    for part in PARTS:
        own = TOP / "crates" / name / part
        if own.is_dir():
            shutil.copytree(own, folder / "crates" / name / part)
        elif own.is_file():
            (folder / "crates" / name).mkdir(parents=True, exist_ok=True)
            shutil.copy(own, folder / "crates" / name / part)


def line_of(name):
    """The line of a crate in crates.txt."""
    lines = (TOP / "crates.txt").read_text(encoding="utf-8").splitlines()
    return next(line for line in lines if line.partition(":")[0].split()[:1] == [name])


def begin(crates, handles, page, folder):
    """Makes a repository of these crates in a new folder."""
    folder.mkdir(parents=True, exist_ok=True)
    for name in crates:
        copy_crate(name, folder)
    for name in ("LICENSE-MIT", "LICENSE-APACHE"):
        shutil.copy(TOP / name, folder / name)
    (folder / "crates.txt").write_text("".join(f"{line_of(name)}\n" for name in crates), encoding="utf-8")
    (folder / "HANDLES").write_text(f"Handles allowed: {handles}\n", encoding="utf-8")
    (folder / ".gitignore").write_text("out/\n", encoding="utf-8")
    (folder / "README.md").write_text(page, encoding="utf-8")


def in_order(listed, names):
    """These crates and those that they stand on, in the order of crates.txt."""
    wanted = set().union(*(stands_on(listed, name) for name in names))
    return [name for name in listed if name in wanted]


def begin_kind(kind, folder):
    """Makes the repository of this kind, and says how its example is run."""
    example, handles, does = KINDS[kind]
    stdin = " < stdin" if (TOP / "crates" / example / "stdin").is_file() else ""
    page = (HEAD + WITH_EXAMPLE + HOW).format(example=example, does=does, stdin=stdin)
    begin(in_order(crates_listed(), [example]), handles, page, folder)
    place = shlex.quote(str(folder / "crates" / example))
    return f"cd {place} && rt try{stdin}     runs the example without proofs; rt run proves all first"


def begin_crates(names, folder):
    """Makes a repository of the crates of these names, and says which crates it has."""
    listed = crates_listed()
    for name in names:
        if name not in listed:
            sys.exit(f"begin: {name} is no crate of crates.txt")
    crates = in_order(listed, names)
    handles = "Threads, Wait." if any("may_wait=" in line_of(name) for name in crates) else "none."
    begin(crates, handles, (HEAD + BEGIN_ONE + HOW).format(example="NAME", stdin=""), folder)
    return f"{folder} has {', '.join(crates)}"


def main():
    parser = argparse.ArgumentParser(description=__doc__, formatter_class=argparse.RawDescriptionHelpFormatter)
    parser.add_argument("--crates", metavar="NAME[,NAME..]")
    parser.add_argument("kind", choices=KINDS, nargs="?")
    parser.add_argument("folder", type=Path)
    given = parser.parse_intermixed_args()  # a kind beside --crates is told as what it is
    if (given.crates is None) == (given.kind is None):
        parser.error("either a kind or --crates")
    if given.folder.exists() and (not given.folder.is_dir() or any(given.folder.iterdir())):
        sys.exit(f"begin: {given.folder} isn't empty")
    try:
        print(begin_kind(given.kind, given.folder) if given.kind else begin_crates(given.crates.split(","), given.folder))
    except OSError as why:
        sys.exit(f"begin: {why}")


if __name__ == "__main__":
    main()
