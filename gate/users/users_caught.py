#!/usr/bin/env python3
"""Sees that the tests of the scripts in tools/ catch wrong changes of them: those of gate/users/caught/*.edit, each by the rows that it names.

Such a file has a line 'row: TEST ROW', for the rows of gate/users/*_test.py of whose names ROW is a part (TESTS says which script TEST is). Then, as
in a must-fail edit, come lines 'file: ..' (below tools), 'old: TEXT' and 'new: TEXT': the text, which stands once, is replaced in a copy of the
repository. A row has to fail there, and all of them have to pass in the copy as it is.

The program `atoms` is the one that `rt ci` or `rt run` built last.

usage: gate/users/users_caught.py [--jobs N] [WORD..]     with words: only the changes whose names have one of them; a word that is in
none is told, and nothing is tried. A change whose row needs a tool that isn't there is skipped.
"""

import argparse
import os
import queue
import re
import shutil
import subprocess
import sys
import tempfile
import threading
from dataclasses import dataclass
from pathlib import Path

sys.path.append(str(Path(__file__).resolve().parent.parent))
import find_modules  # has Python find the next ones
from copies import copy_without_work
from edits import BadEdit, NoSuchEdit, changed, changes_in, chosen, replaced
from machine import processors
from repository import TOP
from verdicts import Skipped, told

CHANGES = TOP / "gate" / "users" / "caught"
PROGRAM = Path("crates", "atoms", "out", "atoms")
TESTS = {"many": "count_many_test.py", "static": "static_type_test.py", "users": "users_test.py"}
SECONDS = 900  # for the rows of one change, on a slow machine beside other work
CLOSING = re.compile(r"^(\d+) passed, (\d+) failed$", re.MULTILINE)
NO_SCRIPT = re.compile(r"\b(?:Name|Syntax|Import|Indentation)Error\b|syntax error|command not found")  # what fails is no script any more


@dataclass(frozen=True)
class Change:
    """A wrong change: what it is called, the test and the rows that have to see it, and what is replaced by what, file by file."""

    label: str
    test: str
    row: str
    changes: tuple = ()

    def has_to_pass(self):
        return not self.changes


def read(path):
    """The change in a file."""
    lines = path.read_text(encoding="utf-8").splitlines()
    test, _, row = next((line.removeprefix("row: ") for line in lines if line.startswith("row: ")), "").partition(" ")
    if test not in TESTS or not row:
        raise BadEdit(f"{path.name}: it has no line 'row: TEST ROW', with a TEST of {', '.join(TESTS)}")
    changes = tuple(changes_in(lines))
    if not changes:
        raise BadEdit(f"{path.name}: it has no pair 'old:' and 'new:'")
    return Change(path.stem, test, row, changes)


def results(change, root):
    """How many of the rows pass over the copy at root as it stands, and how many fail."""
    words = [sys.executable, root / "gate" / "users" / TESTS[change.test], change.row]
    environment = {**os.environ, "PYTHONDONTWRITEBYTECODE": "1"}
    how = {"stdin": subprocess.DEVNULL, "stdout": subprocess.PIPE, "stderr": subprocess.STDOUT, "timeout": SECONDS, "env": environment}
    said = subprocess.run(words, cwd=root, check=False, **how).stdout.decode(errors="replace")
    closing = CLOSING.search(said)
    if "skipped: " in said and not (closing and int(closing[2])):
        raise Skipped
    if not closing or closing[0] == "0 passed, 0 failed" or NO_SCRIPT.search(said):
        raise BadEdit(f"the rows '{change.row}' weren't run: {said.strip()[-800:]}")
    return int(closing[1]), int(closing[2])


def judge(change, root):
    """Whether the rows go as they have to over the copy at root with this change, and what to say. Skipped where a tool isn't there."""
    rows = f"'{change.test} {change.row}'"
    try:
        with replaced(changed(change.changes, root / "tools")):
            _, failed = results(change, root)
    except (BadEdit, OSError, subprocess.SubprocessError) as why:
        return False, f"{'' if change.has_to_pass() else 'BAD EDIT: '}{why}"
    if change.has_to_pass():
        return not failed, f"{rows} {'fails' if failed else 'passes'} as it is"
    return bool(failed), f"{'seen by' if failed else 'passes'} {rows}"


def works_in(tasks, found):
    """Tries changes until none is left, in a copy of the repository of this worker's own."""
    with tempfile.TemporaryDirectory(prefix="users-caught-") as room:
        root = copy_without_work(Path(room) / "copy")
        (root / PROGRAM).parent.mkdir()
        shutil.copy2(TOP / PROGRAM, root / PROGRAM)
        while True:
            try:
                change = tasks.get_nowait()
            except queue.Empty:
                return
            found.append(told(change.label, judge, change, root))


def main():
    parser = argparse.ArgumentParser(description=__doc__, formatter_class=argparse.RawDescriptionHelpFormatter)
    parser.add_argument("--jobs", type=int, default=processors())
    parser.add_argument("words", nargs="*")
    given = parser.parse_args()
    try:
        changes = [read(path) for path in chosen(CHANGES.glob("*.edit"), given.words, lambda path: path.stem)]
    except (BadEdit, NoSuchEdit) as why:
        sys.exit(f"users_caught: {why}")
    rows = sorted({(it.test, it.row) for it in changes})
    trials = [Change("nothing", test, row) for test, row in rows] + changes
    tasks, found = queue.Queue(), []
    for trial in trials:
        tasks.put(trial)
    workers = [threading.Thread(target=works_in, args=(tasks, found)) for _ in range(max(1, given.jobs))]
    for worker in workers:
        worker.start()
    for worker in workers:
        worker.join()
    # a worker that ended by an error of its own leaves trials without a result
    passed, skipped = found.count(True), found.count(None)
    print(f"{passed} passed, {len(trials) - passed - skipped} failed")
    return 0 if passed and passed + skipped == len(trials) else 1


if __name__ == "__main__":
    sys.exit(main())
