#!/usr/bin/env python3
"""Proves crates over what earlier checks kept, and runs the tests that see them without proving those: minutes, where the gate
(./test.sh, without a word) takes an hour. What passes here can still fail there: tests are proved there, every proof is made from nothing, and
every wrong body is tried.

For each crate: its layout is that of `rt fmt`, each old text of its wrong bodies stands once, and `rt check` proves it. Then come the
tests of these crates and of all that stand on them, each run once; one that is out of time is told apart from those that fail. The old
texts of the wrong bodies of clients are looked for each time.

usage: gate/quick.py [CRATE ..]     without names: the crates that differ from the last commit
"""

import argparse
import sys
import tempfile
from concurrent.futures import ThreadPoolExecutor
from pathlib import Path

import find_modules  # has Python find the next ones
import refused_bodies
from built import CANT_BUILD, outcome, tests_of
from copies import has_tests
from edits import BadEdit, changed, changes_in
from programs import build, kit
from repository import TOP, crates_listed, said_by, stands_on

SECONDS = 120  # for one test


def differing():
    """The names of the crates that differ from the last commit."""
    _, lines = said_by("git", "status", "--porcelain", "--untracked-files=all", "--", "crates")
    paths = [path for line in lines.splitlines() for path in line[3:].split(" -> ")]
    return {path.split("/")[1] for path in paths if path.count("/") > 1}


def all_stand(edits, folder):
    """Whether each old text of these wrong bodies stands once in the files of a folder, and what to say."""
    wrong = []
    for path in sorted(edits):
        try:
            if path.parent.name == "refused":
                refused_bodies.read(path)  # each text stands in the crate's own
            else:
                lines = path.read_text(encoding="utf-8").splitlines()
                crate = next((line.removeprefix("crate: ") for line in lines if line.startswith("crate: ")), "")
                changed(changes_in(lines), TOP / "crates" / crate if crate else folder)
        except BadEdit as why:
            wrong.append(f"{path.name}: {why}")
    return not wrong, "; ".join(wrong) or "the old texts of its wrong bodies stand once each"


def texts_stand(name):
    """Whether each old text of the crate's wrong bodies stands once, and what to say."""
    folder = TOP / "crates" / name
    return all_stand(folder.glob("*/*.edit"), folder)


def clients_stand(name):
    """Whether each old text of the wrong bodies of clients stands once, and what to say."""
    return all_stand((TOP / "gate" / "clients" / "caught").glob("*.edit"), TOP / name)


def is_laid_out(name):
    folder = TOP / "crates" / name
    files = [path for part in ("src", "specs", "proofs") for path in (folder / part).rglob("*") if path.suffix in (".rt", ".antt")]
    status, said = said_by(kit() / "bin" / "rattle", "fmt", "--check", *files)
    return not status, said.strip()[-300:] or "its layout is that of rt fmt"


def is_proved(name):
    status, said = said_by("rt", "check", folder=TOP / "crates" / name)
    told = [line for line in said.splitlines() if line.startswith(("note: src/", "logic=")) or "error" in line]
    return not status, "\n    ".join(told[-12:]) or said.strip()[-600:]


def tests_pass(name):
    """Whether each test of the crate, built without proofs, passes, and what to say."""
    try:
        with tempfile.TemporaryDirectory(prefix="quick-") as room:
            program = build(TOP / "crates" / name, Path(room))
            ended = {test: outcome(program, test, SECONDS) for test in tests_of(program)}
    except CANT_BUILD as why:
        return False, f"its tests can't be built: {why}"
    failed, late = ([test for test, well in ended.items() if well is how] for how in (False, None))
    text = f"{len(ended)} tests run, these failed: {', '.join(failed) or 'none'}"
    if late:
        text += f"; these hadn't ended after {SECONDS} seconds, which other work may do too: {', '.join(late)}"
    return bool(ended) and not failed and not late, text


def main():
    parser = argparse.ArgumentParser(description=__doc__, formatter_class=argparse.RawDescriptionHelpFormatter)
    parser.add_argument("crates", nargs="*", metavar="CRATE")
    listed, named = crates_listed(), set(parser.parse_args().crates)
    if named - set(listed):
        sys.exit(f"quick: crates.txt has no crate {', '.join(sorted(named - set(listed)))}")
    named = [name for name in listed if name in (named or differing())]
    above = [name for name in listed if has_tests(name) and stands_on(listed, name) & set(named)]
    results = []

    def tell(task, name):
        well, text = task(name)
        print(f"{name}: {'' if well else 'WRONG: '}{text}", flush=True)
        results.append(well)

    tell(clients_stand, "clients")
    with ThreadPoolExecutor(2) as workers:
        running = [workers.submit(tell, tests_pass, name) for name in above]
        for name in named:
            for task in (is_laid_out, texts_stand, is_proved):
                tell(task, name)
        for it in running:
            it.result()
    print(f"quick: {results.count(True)} passed, {results.count(False)} failed. This isn't the gate: ./test.sh is.")
    return 0 if all(results) else 1


if __name__ == "__main__":
    sys.exit(main())
