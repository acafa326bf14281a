#!/usr/bin/env python3
"""Sees that the tests of clients catch wrong bodies: those of gate/clients/caught/*.edit, each by the row of gate/clients/clients.py that it names.

Such a file has a line 'row: NAME', and then, as a must-fail edit, lines 'file: ..' (below clients, or of tools/), 'old: TEXT' and 'new: TEXT': the
text, which stands once, is replaced in a copy, the library is built over that, and the row has to fail, which passes over the copy as it is.
The exports are those of one archive, which is proved and built at the beginning.

With a line 'crate: NAME' the files are of that crate, whose exports are wrong in the body of a function: no clause says so. All such bodies
share a build without proofs (gate/bodies/unproved_archive.py).

usage: gate/clients/clients_caught.py [--archive FILE] [--jobs N] [WORD..]     with an archive that `rt lib` made: nothing is proved; with
words: only the bodies whose names have one of them; a word that is in none is told, and nothing is tried. Bodies whose row needs a tool that
isn't there are skipped.
"""

import argparse
import os
import re
import shutil
import subprocess
import sys
import tempfile
from concurrent.futures import ThreadPoolExecutor
from dataclasses import dataclass
from functools import partial
from pathlib import Path

sys.path.append(str(Path(__file__).resolve().parent.parent))
import find_modules  # has Python find the next ones
from edits import BadEdit, NoSuchEdit, changed, changes_in, chosen
from machine import processors
from programs import NotBuilt
from repository import TOP
from shared_builds import CantShare
from unproved_archive import Exports
from verdicts import Skipped, tell, told

BODIES = TOP / "gate" / "clients" / "caught"
EXPORTS = "string_cache_c"  # the crate
ARCHIVE = TOP / "crates" / EXPORTS / "out" / f"lib{EXPORTS}.a"
NEEDED = ("clients", "tools", "gate", "crates/example_scopes", "crates/string_cache_c")  # what the tests of clients need
CRATES = ("crates", "crates.txt", "HANDLES")  # what a build of the exports needs
SECONDS = 2700  # for one row, on a slow machine beside other work
# Most of what a row in Rust takes is the optimiser's work, and here no row is about that. What hangs is waited for no longer than it has to be.
ENVIRONMENT = {"CARGO_PROFILE_RELEASE_OPT_LEVEL": "0", "CLIENT_SECONDS": "600"}
# What is said where a program wasn't even built, which is no catch.
COMPILER = r"(?:[\w.]+-)*(?:g?cc|[cg]\+\+|clang(?:\+\+)?)(?:-[\d.]+)?"
NOT_BUILT = re.compile(rf"WRONG: (?:bash|{COMPILER}) ended|could not compile|no test was run|SyntaxError")


@dataclass
class Body:
    """A wrong body: what it is called, the row that has to fail, the crate whose files are changed, or '' for those of clients, and what is
    replaced by what, file by file."""

    label: str
    row: str
    crate: str
    changes: list


@dataclass
class Trial:
    """A row to be run over an archive of the exports and changed clients, whether it has to pass, and what that is called."""

    label: str
    row: str
    archive: Path
    changes: tuple = ()
    has_to_pass: bool = False


def copied(folder, names):
    """A copy of these of the repository, in a new folder."""
    out = shutil.ignore_patterns("out", "target", "__pycache__", "Cargo.lock")
    for name in names:
        if (TOP / name).is_dir():
            shutil.copytree(TOP / name, folder / name, ignore=out)
        else:
            shutil.copy2(TOP / name, folder / name)
    return folder


def passes(copy, archive, row):
    """Whether the row passes over a copy. BadEdit where a program wasn't built, and Skipped where a tool isn't there."""
    how = {"stdin": subprocess.DEVNULL, "stdout": subprocess.PIPE, "stderr": subprocess.STDOUT, "timeout": SECONDS}
    how["env"] = {**os.environ, **ENVIRONMENT}
    library = copy / "library"
    subprocess.run([copy / "tools" / "c_library.sh", library, archive], check=True, **how)
    ran = subprocess.run([copy / "gate" / "clients" / "clients.py", "--library", library, "--jobs", "1", row], check=False, **how)
    said = ran.stdout.decode(errors="replace")
    if "SKIPPED" in said:
        raise Skipped
    if NOT_BUILT.search(said):
        raise BadEdit(f"the row '{row}' wasn't run: {said[-800:]}")
    return ran.returncode == 0


def read(path):
    """The body in a file."""
    lines = path.read_text(encoding="utf-8").splitlines()
    row, crate = (next((line.removeprefix(word) for line in lines if line.startswith(word)), "") for word in ("row: ", "crate: "))
    if not row:
        raise BadEdit(f"{path.name}: no row has to fail")
    try:
        return Body(path.stem, row, crate, changes_in(lines))
    except BadEdit as why:
        raise BadEdit(f"{path.name}: {why}") from why


def file_of(name):
    """The file of this name in an edit, from the top of the repository."""
    return name if name.startswith("tools/") else f"clients/{name}"


def judge(trial, room):
    """Whether the row passes or fails as it has to, and what to say. Skipped where a tool isn't there."""
    copy = copied(Path(tempfile.mkdtemp(dir=room)), NEEDED)
    try:
        for file, text in changed([(file_of(it), *texts) for it, *texts in trial.changes], copy).items():
            file.write_text(text, encoding="utf-8")
        passed = passes(copy, trial.archive, trial.row)
    except (BadEdit, OSError, subprocess.SubprocessError) as why:
        return False, f"{'' if trial.has_to_pass else 'BAD EDIT: '}{why}"
    finally:
        shutil.rmtree(copy)
    if trial.has_to_pass:
        return passed, f"'{trial.row}' {'passes' if passed else 'fails'} as it is"
    return not passed, f"{'passes' if passed else 'caught by'} '{trial.row}'"


def told_of(room, trial):
    """Whether a trial goes as it has to, which is said, or None if it is skipped."""
    return told(trial.label, judge, trial, room)


def over_clients(bodies, archive):
    """The trials of bodies of clients, behind those of their rows without any."""
    rows = sorted({body.row for body in bodies})
    trials = [Trial("nothing", row, archive, has_to_pass=True) for row in rows]
    return trials + [Trial(body.label, body.row, archive, body.changes) for body in bodies]


def over_exports(bodies, room):
    """The trials of bodies of exports, behind those of their rows without any; none where they can't be built, which is told."""
    made, rows = room / "made", sorted({body.row for body in bodies})
    made.mkdir()
    try:
        exports = Exports(EXPORTS, bodies, copied(room / "root", CRATES), made)
        trials = [Trial("no export", row, exports.archive(0), has_to_pass=True) for row in rows]
        return trials + [Trial(body.label, body.row, exports.archive(number)) for number, body in enumerate(bodies, 1)]
    except (BadEdit, CantShare, NotBuilt, OSError, subprocess.SubprocessError) as why:
        tell(" ".join(body.label for body in bodies), False, f"BAD EDIT: {why}")
        return []


def main():
    parser = argparse.ArgumentParser(description=__doc__, formatter_class=argparse.RawDescriptionHelpFormatter)
    parser.add_argument("--archive", type=Path)
    parser.add_argument("--jobs", type=int, default=processors())
    parser.add_argument("words", nargs="*")
    given = parser.parse_args()
    try:
        bodies = [read(path) for path in chosen(BODIES.glob("*.edit"), given.words, lambda path: path.stem)]
    except (BadEdit, NoSuchEdit) as why:
        sys.exit(f"clients_caught: {why}")
    of_clients, of_exports = ([body for body in bodies if bool(body.crate) == is_export] for is_export in (False, True))
    with tempfile.TemporaryDirectory(prefix="clients-caught-") as folder, ThreadPoolExecutor(max(1, given.jobs)) as workers:
        room, results = Path(folder), []
        if of_clients and not given.archive:
            subprocess.run([TOP / "tools" / "c_library.sh", room / "library"], check=True)
        results += workers.map(partial(told_of, room), over_clients(of_clients, (given.archive or ARCHIVE).resolve()))
        if of_exports:
            trials = over_exports(of_exports, room)
            results += workers.map(partial(told_of, room), trials) if trials else [False] * len(of_exports)
    print(f"{results.count(True)} passed, {results.count(False)} failed")
    return 0 if True in results and False not in results else 1


if __name__ == "__main__":
    sys.exit(main())
