#!/usr/bin/env python3
"""Tries the wrong bodies of crates/NAME/refused/*.edit, each of which the prover has to refuse at a goal of the function that it names.

Such a file is a must-fail edit under one line more:

    function: Table::add_holder

the end of the function's name as `rt check` prints it. The bodies of a crate share a check (gate/bodies/batches.py says what counts as
refused there, gate/bodies/further.py how two of one function do): one that a check doesn't refuse is checked alone, and is WRONG if it isn't
refused then. `rt ci` tries each edit of must-fail/ in a check of its own, and takes any refusal, wherever it is.

Each crate is proved as it stands first, unless --proved says that `rt ci` has just done so. A crate is also WRONG where a check refuses a
function that no body changes at a goal of its own.

With --said FILE, which has what this `rt ci` said, checks are spared the functions that it says are proved and no body changes
(gate/bodies/spared.py). With --beside PID, too, while that process runs, which is the `rt ci` that writes to this file, a crate is tried once it says
that the crate is proved, and if a processor is idle.

What passed is kept in ~/.cache/jatzurbin, by a sum of all that was read: a later run tries only what changed. --anew tries all.

usage: gate/bodies/refused_bodies.py [--jobs N] [--proved [--said FILE [--beside PID]]] [--anew] [CRATE ..]     without names: all crates that
have such bodies
"""

import argparse
import contextlib
import hashlib
import os
import re
import sys
import tempfile
import threading
import time
from concurrent.futures import ThreadPoolExecutor
from pathlib import Path

sys.path.append(str(Path(__file__).resolve().parent.parent))
import find_modules  # has Python find the next ones
import batches
import further
from edits import BadEdit, changes_in
from machine import Turns, runs
from repository import TOP, crates_listed, said_by, stands_on
from spared import functions_told

KEPT = Path(os.environ.get("XDG_CACHE_HOME") or Path.home() / ".cache") / "jatzurbin" / "refused"
TOOLS = ("refused_bodies.py", "batches.py", "further.py", "spared.py", "functions.py", "edits.py")
SAID = 400  # how much is told of what was said
ALONE = ", in a check of its own"
FEW = 8  # a crate may have so many bodies that take one
PROVED = re.compile(r"^rt: (\w+) (?:proved$|is kept: )", re.MULTILINE)  # what `rt ci` says of a crate that it is done with


def read(path):
    """The body in a file."""
    lines, crate = path.read_text(encoding="utf-8").splitlines(), path.parent.parent
    function = next((line.partition(": ")[2].strip() for line in lines if line.startswith("function: ")), "")
    if not function:
        raise BadEdit("it has no line 'function: NAME'")
    return batches.placed(f"{crate.name}/{path.name}", crate, function, changes_in(lines))


def bodies_of(folder):
    """The bodies in the folder of a crate, and what is wrong with those that are none."""
    bodies, wrong = [], []
    for path in sorted((folder / "refused").iterdir()):
        try:
            if path.suffix != ".edit":
                raise BadEdit("its name doesn't end in .edit")
            bodies.append(read(path))
        except (BadEdit, OSError, ValueError) as why:
            wrong.append(f"{folder.name}/{path.name}: BAD EDIT: {why}")
    return bodies, wrong


def files_of(name):
    """What a check reads of the crate of this name."""
    return sorted(path for part in batches.PARTS for path in (TOP / "crates" / name / part).rglob("*") if path.is_file())


def sum_of(crate):
    """A sum of all that a check of the crate reads, and of these scripts."""
    crates = stands_on(crates_listed(), crate)
    found = hashlib.sha256(said_by("rt", "version")[1].encode())
    for line in (TOP / "crates.txt").read_text(encoding="utf-8").splitlines():
        found.update(f"{line}\n".encode() if re.split("[ :]", line)[0] in crates else b"")
    files = [TOP / "HANDLES", *(Path(__file__).resolve().parent / name for name in TOOLS)]
    for name in sorted(crates):
        files += files_of(name)
    for path in files:
        found.update(f"{path.relative_to(TOP)}\n".encode() + hashlib.sha256(path.read_bytes()).digest())
    return found.hexdigest()


def cost(folder):
    """A number by which the bodies in the folder of a crate take longer than those of another: they are more, or a check of them reads more. Only
    the order in which crates are tried depends on it."""
    read_too = [path for name in stands_on(crates_listed(), folder.name) for path in files_of(name)]
    return len(list((folder / "refused").iterdir())) * sum(path.stat().st_size for path in read_too) ** 0.5


def kept(crate_sum, body):
    """Where it is kept that the body was refused."""
    return KEPT / hashlib.sha256(f"{crate_sum} {body} {body.function} {body.places}".encode()).hexdigest()


def keep(path):
    """Keeps that a body was refused, if there is room."""
    with contextlib.suppress(OSError):
        KEPT.mkdir(parents=True, exist_ok=True)
        path.touch()


def judged(bodies, folder, proved=None):
    """Tries bodies of the crate in this folder of a copy, of which these functions are proved, or which is still to be proved. Each with
    whether it is refused as it must be, and what to say."""
    if proved is None:
        said = batches.check([], folder)
        if "logic=proved" not in said:
            return [(body, False, f"NOT TRIED: the crate as it stands isn't proved: {said.strip()[-SAID:]}") for body in bodies]
    results = []
    for body, goals, text, is_alone in further.tried(bodies, folder, proved or ()):
        well = f"refused at {', '.join(goals)}{ALONE if is_alone else ''}"
        results.append((body, bool(goals), well if goals else f"NOT REFUSED: {text[:SAID]}"))
    return results


def try_crate(folder, copy, proved, is_anew):
    """Tries the bodies of the crate in this folder, in that of a copy, of which these functions are proved, or which is still to be proved.
    Whether each passed, or could be read."""
    bodies, wrong = bodies_of(folder)
    lines, crate_sum = [f"refused {text}" for text in wrong], sum_of(folder.name)
    left = [body for body in bodies if is_anew or not kept(crate_sum, body).is_file()]
    results = [False] * len(wrong) + [True] * (len(bodies) - len(left))
    if len(left) < len(bodies):
        lines.append(f"refused {folder.name}: {len(bodies) - len(left)} of {len(bodies)} were refused by earlier runs over the same files")
    if left:
        found = judged(left, copy, proved)
        is_same = sum_of(folder.name) == crate_sum  # nothing was changed meanwhile
        for body, well, text in found:
            lines.append(f"refused {body}: {'' if well else 'WRONG: '}{text}")
            results.append(well)
            if well and is_same:
                keep(kept(crate_sum, body))
        alone = sum(text.endswith(ALONE) for _, _, text in found)
        if alone > FEW:
            lines.append(f"refused {folder.name}: {alone} of {len(found)} took a check of their own, as if two of them called each other")
    print("\n".join(lines), flush=True)
    return results


class Queue:
    """The folders of crates whose bodies are still to be tried, in their order. While an `rt ci` runs beside, those that it has proved."""

    def __init__(self, folders, process=None, said=None):
        self.left = list(folders)
        self.process = process
        self.said = said
        self.turns = Turns(process)
        self.lock = threading.Lock()

    def text(self):
        """What `rt ci` said so far."""
        return self.said.read_text(encoding="utf-8", errors="replace") if self.said and self.said.is_file() else ""

    def first_proved(self):
        """The first crate that needn't wait, or None."""
        if not runs(self.process):
            return next(iter(self.left), None)
        proved = set(PROVED.findall(self.text()))
        return next((folder for folder in self.left if folder.name in proved), None)

    def take(self):
        """Takes a crate out once one needn't wait, or answers None where none is left."""
        with self.lock:
            while self.left:
                if self.first_proved():
                    self.turns.wait()
                    folder = self.first_proved()
                    self.left.remove(folder)
                    return folder
                time.sleep(3)
        return None


def try_all(queue, room, is_proved, is_anew):
    """Tries the bodies of crates until none is left, each in a copy in the room. Whether each passed, or could be read."""
    results = []
    while folder := queue.take():
        copy = batches.copies_of([folder.name], room / folder.name)[folder.name]
        proved = functions_told(folder.name, queue.text()) if is_proved else None
        results += try_crate(folder, copy, proved, is_anew)
    return results


def main():
    parser = argparse.ArgumentParser(description=__doc__, formatter_class=argparse.RawDescriptionHelpFormatter)
    parser.add_argument("--jobs", type=int, default=1)
    parser.add_argument("--proved", action="store_true")
    parser.add_argument("--beside", type=int, metavar="PID")
    parser.add_argument("--said", type=Path, metavar="FILE")
    parser.add_argument("--anew", action="store_true")
    parser.add_argument("crates", nargs="*")
    given = parser.parse_args()
    if given.beside and not given.said or given.said and not given.proved:
        parser.error("--beside wants --said, and that --proved")
    folders = {path.parent.name: path.parent for path in sorted(TOP.glob("crates/*/refused"))}
    if set(given.crates) - set(folders):
        sys.exit(f"refused_bodies: no wrong bodies stand in {', '.join(sorted(set(given.crates) - set(folders)))}")
    chosen = [folders[name] for name in folders if not given.crates or name in given.crates]
    queue, jobs = Queue(sorted(chosen, key=lambda folder: -cost(folder)), given.beside, given.said), max(1, given.jobs)
    with tempfile.TemporaryDirectory(prefix="refused-") as room, ThreadPoolExecutor(jobs) as lanes:
        tried = lanes.map(lambda _: try_all(queue, Path(room), given.proved, given.anew), range(jobs))
        results = [it for found in tried for it in found]
    print(f"{results.count(True)} passed, {results.count(False)} failed")
    return 0 if results and all(results) else 1


if __name__ == "__main__":
    sys.exit(main())
