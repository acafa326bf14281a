#!/usr/bin/env python3
"""Tries wrong bodies by the dozen, as one thinks of them when a module is finished: which of them does nothing hold?

The file has a body after another, each with a name of its own:

    body: pack_overlooks_its_last
    crate: node_chain
    function: Pack::get
    file: src/pack.rt
    old: TEXT
    new: TEXT

The function is named by the end of its name as `rt check` prints it. TEXT is one line, and the old one stands once in its file; more
pairs, and lines 'file:', may follow, all in the body of that function.

The bodies of a crate share a check of their functions (gate/bodies/further.py), and those that it doesn't refuse, one of each function at a
time, a check of the whole crate, with all that calls them: no function's theorem rests on another's body. What it refuses elsewhere is sought
by halves.

Those that nothing refused are built beside the bodies that they replace (gate/bodies/shared_builds.py), and the tests that see their crate
are run with each, plainly and with requests refused; a test that fails has to pass without the body, and one that doesn't end is run without
the body too, and again with it where that takes long. The exports of string_cache_c have their tests in gate/clients/clients.py, which is run
over a library with the body, built without proofs (gate/bodies/unproved_archive.py). What is proved and passes all is printed last: nothing
holds it.

A body that can't be read, proved or built is NOT CHECKED: it ends nothing, and counts in the status. So is one whose first line isn't
'body: NAME', and each of those that have one name.

usage: gate/bodies/review.py [--tests-first] FILE     with --tests-first: only what passes its tests is given to the prover, which takes longer
"""

import argparse
import contextlib
import sys
import tempfile
from collections import Counter
from dataclasses import dataclass, field
from pathlib import Path

sys.path.append(str(Path(__file__).resolve().parent.parent))
import find_modules  # has Python find the next ones
import batches
import further
from built import CANT_BUILD, CANT_RUN, tests_of
from caught import FailsWithout, Own, fails, right_refused
from copies import copy_without_work, has_tests
from edits import BadEdit, applied, changed, changes_in
from programs import build
from refuser import refuser
from repository import TOP, crates_listed, said_by, stands_on
from shared_builds import NotShared, SharedBuild, apart, can_share
from unproved_archive import Exports

SECONDS = 60  # for one test, or longer where it takes so long without the body
SAID = 400  # how much is told of what was said
LIBRARY = "string_cache_c"  # its tests are programs in other languages
# Whose tests see a crate, beside those that name it in crates.txt: they call it by the names that a crate above gives again.
SEEN_BY = {
    "text_forms": {"test_table", "test_across"}, "interner_table": {"test_table", "test_atoms", "test_across"}, "atomic_steps": {"test_table"},
    "set_atoms": {"test_across"},
}


@dataclass(eq=False)
class Body:
    """A wrong body: its name, its crate, the function that it changes, what is replaced by what, file by file, why it can't be read, and itself as
    checks take it."""

    name: str
    crate: str = ""
    function: str = ""
    changes: list = field(default_factory=list)
    wrong: str = ""
    placed: batches.Body = None

    def __str__(self):
        return f"{self.name or 'one without a name'} ({self.crate}, {self.function})"


class Review:
    """What is said of the bodies; of those that a test holds, this first."""

    def __init__(self, proved=""):
        self.proved, self.unchecked = proved, []

    def held(self, body, by):
        print(f"{body}: {by}", flush=True)

    def not_checked(self, body, why):
        print(f"{body}: NOT CHECKED: {str(why).strip()[-SAID:]}", flush=True)
        self.unchecked.append(body)


def begins(word, body):
    """Whether a body begins with a line of this word, behind this one, or behind none: with its name, or without, where the line belongs to none
    or has another of what each has one of."""
    return word == "body" or word in ("crate", "function", "file", "old", "new") and (not body or getattr(body, word, False))


def read_bodies(path):
    """The bodies in a file, each with what is wrong with it."""
    bodies = []
    for line in path.read_text(encoding="utf-8").splitlines():
        word, _, text = line.partition(": ")
        if begins(word, bodies[-1][0] if bodies else None):
            bodies.append((Body(text.strip() if word == "body" else ""), []))
        if word in ("crate", "function"):
            setattr(bodies[-1][0], word, text.strip())
        elif word != "body" and bodies:
            bodies[-1][1].append(line)
    names = Counter(body.name for body, _ in bodies)
    for body, lines in bodies:
        try:
            body.changes = changes_in(lines)
        except BadEdit as why:
            body.wrong = str(why)
        if not body.name:
            body.wrong = "its first line isn't 'body: NAME'"
        elif names[body.name] > 1:
            body.wrong = f"{names[body.name]} bodies have this name"
    return [body for body, _ in bodies]


def readable(bodies, review):
    """The bodies that can be read, each with its places."""
    listed, found = crates_listed(), []
    for body in bodies:
        try:
            if body.wrong:
                raise BadEdit(body.wrong)
            if body.crate not in listed or not (body.function and body.changes):
                raise BadEdit("it lacks a crate of crates.txt, a function, or a pair 'old:' and 'new:'")
            body.placed = batches.placed(str(body), TOP / "crates" / body.crate, body.function, body.changes)
            changed(body.changes, TOP / "crates" / body.crate)  # each old text has to stand once, also behind the pairs before it
            found.append(body)
        except (BadEdit, OSError) as why:
            review.not_checked(body, f"BAD EDIT: {why}")
    return found


def refusals(said):
    """The functions that a check refused at goals of their own, each with its goals."""
    found = {name: batches.goals_of(name, text, said) for name, text in batches.TOLD.findall(said)}
    return {name: goals for name, goals in found.items() if goals}


def proved_whole(bodies, folder, review):
    """Those of these bodies of different functions with which a check of the whole crate proves it. Says what refused the others."""
    places = {body.placed: body for body in bodies}
    said = batches.check(list(places), folder, only=False)
    if "logic=proved" in said:
        return bodies
    left = []
    for body in bodies:
        goals = batches.judge(body.function, said)[0]
        if goals:
            review.held(body, f"refused at {', '.join(goals)}")
        else:
            left.append(body)
    if bodies[1:]:
        blamed = [places[it] for it in batches.unread(list(places), folder, said)]
        alone, lists = apart(left, blamed) if len(left) == len(bodies) else ([], [left])
        return [it for part in [*([body] for body in alone), *lists] if part for it in proved_whole(part, folder, review)]
    found = "; ".join(f"{name} at {', '.join(goals)}" for name, goals in refusals(said).items())
    for body in left:
        if found:
            review.held(body, f"refused elsewhere: {found}")
        else:
            review.not_checked(body, said)
    return []


def proved(bodies, review):
    """The bodies that the prover passes."""
    left = []
    for crate in dict.fromkeys(body.crate for body in bodies):
        by, passed = {body.placed: body for body in bodies if body.crate == crate}, []
        with tempfile.TemporaryDirectory(prefix="review-") as room:
            folder = batches.copies_of([crate], Path(room))[crate]
            for placed, goals, text in further.together(list(by), folder)[0]:
                if goals:
                    review.held(by[placed], f"refused at {', '.join(goals)}")
                elif batches.UNREAD.match(text):
                    review.not_checked(by[placed], text)
                else:
                    passed.append(placed)
            for batch in batches.batches(passed):
                left += proved_whole([by[it] for it in batch], folder, review)
    return left


def failure(wrong, own):
    """The first test that fails in the program with a body, plainly or as requests are refused, and not in the one without; or None."""
    for test in tests_of(wrong):
        with contextlib.suppress(FailsWithout):
            if fails(wrong, test, own, SECONDS) and own.passes(test, 1):
                return test
    tried = refuser(wrong, wrong.parent)
    for test in tried.tests():
        with contextlib.suppress(FailsWithout):
            if not right_refused(tried, test, own)[0]:
                return f"{test}, as requests are refused,"
    return None


def failures_together(crate, bodies, root):
    """The test of a crate that fails with each of these bodies, or None, by the body, for those that can be built beside others; and the rest."""
    found, alone = {}, [body for body in bodies if not can_share(body, root)]
    lists = [[body for body in bodies if body not in alone]]
    while lists and lists[0]:
        shared = lists.pop()
        try:
            with tempfile.TemporaryDirectory(prefix="review-") as room:
                made = SharedBuild(crate, shared, root, Path(room))
                own = Own(made.program(0))
                for number, body in enumerate(shared, 1):
                    found[body] = failure(made.program(number), own)
        except NotShared as why:
            bad, others = apart(shared, why.blamed)
            alone, lists = alone + bad, lists + others
        except CANT_RUN:
            alone += [body for body in shared if body not in found]
    return found, alone


def failures(crate, bodies, root, review):
    """The test of a crate that fails with each of these bodies, or None, by the body, for those that can be built."""
    found, alone = failures_together(crate, bodies, root)
    folder, own = root / "crates" / crate, None
    with tempfile.TemporaryDirectory(prefix="review-") as room:
        for body in alone:
            try:
                own = own or Own(build(folder, Path(tempfile.mkdtemp(dir=room))))
                with tempfile.TemporaryDirectory(dir=room) as made, applied(body, root):
                    found[body] = failure(build(folder, Path(made)), own)
            except CANT_BUILD as why:
                review.not_checked(body, f"it can't be built for the tests of {crate}: {why}")
    return found


def seeing(listed, crate):
    """The crates whose tests are to see a body of this crate: itself, where it has some, those that name it, and where there is none of
    these, those that stand on it."""
    tested = [name for name in listed if has_tests(name)]
    naming = [name for name in tested if name == crate or crate in listed[name] or name in SEEN_BY.get(crate, ())]
    return naming or [name for name in tested if crate in stands_on(listed, name)]


def wrong_rows(root):
    """The rows of gate/clients/clients.py that are wrong over the exports of the copy at root, each with what is said of it."""
    with tempfile.TemporaryDirectory(prefix="review-") as made, tempfile.TemporaryDirectory(prefix="review-") as library:
        archive = Exports(LIBRARY, [], root, Path(made)).archive(0)
        status, said = said_by(root / "tools" / "c_library.sh", library, archive, folder=root)
        if not status:
            status, said = said_by(root / "gate" / "clients" / "clients.py", "--library", library, folder=root)
    rows = {line.partition(": WRONG: ")[0]: line for line in said.splitlines() if ": WRONG: " in line}
    if status and not rows:
        raise OSError(f"its clients can't be tried: {said}")
    return rows


def seen_by_clients(bodies, root, review):
    """Of each of these bodies of the exports what is wrong with their clients, and not without the body, or None, for those that can be built."""
    found, own = {}, None
    for body in bodies:
        try:
            with applied(body, root):
                rows = wrong_rows(root)
            own = wrong_rows(root) if rows and own is None else own
            found[body] = next((line for name, line in rows.items() if name not in own), None)
        except CANT_BUILD as why:
            review.not_checked(body, why)
    return found


def tested(bodies, review):
    """The bodies that pass all tests that are to see them."""
    if not bodies:
        return []
    listed, left = crates_listed(), list(bodies)
    with tempfile.TemporaryDirectory(prefix="review-") as room:
        root = copy_without_work(Path(room) / "copy")
        for crate in listed:
            seen = [body for body in left if crate in seeing(listed, body.crate)]
            for body, test in (failures(crate, seen, root, review) if seen else {}).items():
                if test:
                    review.held(body, f"{review.proved}the test {test} of {crate} fails")
                    left.remove(body)
        for body, wrong in seen_by_clients([body for body in left if body.crate == LIBRARY], root, review).items():
            if wrong:
                review.held(body, f"{review.proved}a client sees it: {wrong[:SAID]}")
                left.remove(body)
    return left


def main():
    parser = argparse.ArgumentParser(description=__doc__, formatter_class=argparse.RawDescriptionHelpFormatter)
    parser.add_argument("--tests-first", action="store_true")
    parser.add_argument("file", type=Path, metavar="FILE")
    given = parser.parse_args()
    review = Review("" if given.tests_first else "proved, and ")
    try:
        bodies = read_bodies(given.file)
    except (OSError, ValueError) as why:
        sys.exit(f"review: {given.file} can't be read: {why}")
    if not bodies:
        sys.exit(f"review: {given.file} has no body")
    left = readable(bodies, review)
    for way in (tested, proved) if given.tests_first else (proved, tested):
        left = [body for body in way(left, review) if body not in review.unchecked]
    what = f"{len(bodies)} bodies, {len(left)} that nothing holds, {len(review.unchecked)} not checked"
    print(f"review: {what}{':' if left else ''}")
    for body in left:
        print(f"  {body}")
    return 1 if left or review.unchecked else 0


if __name__ == "__main__":
    sys.exit(main())
