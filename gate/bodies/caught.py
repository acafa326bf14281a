#!/usr/bin/env python3
"""Tries the wrong bodies that no contract sees (crates/NAME/caught/*.edit; gate/bodies/edits.py has what such a file says).

They are applied to copies of the repository, and the tests are built there without proofs: all bodies for the tests of one crate side by
side in one build, from which each body gets a program of its own (gate/bodies/shared_builds.py). One that changes more than bodies of functions,
or doesn't compile beside its own, has a build to itself, and is compared with the program without a body that the others have.

- 'test: FUNCTION' has to fail, or not to end in thirty times as long as it takes without the body (in ten seconds at least; in a minute at
  most, or in five times as long where that is more). What threads do wrong may not show at once, so a test that passes is run again until
  a minute has gone. It has to pass as often in the same build without the body.
- 'refused: FUNCTION', a test of a module `refusals`, has to be found WRONG as gate/refusals/refused.py judges it, has to pass where nothing is
  refused, and has to be found right in the same build without the body.
- 'error: TEXT': the compiler has to say this, where a type alone forbids the body. Such bodies stand side by side too: each passes by an error
  at its own lines. The compiler may end before it has seen all, so those of which it says nothing are built again without those of which it
  does, as long as there are any of these. What passes by no error at its own lines is built by itself, and may say this anywhere.
- 'output: LINE': the crate's program, with its stored input, has to write this line if the stored output lacks it, and must not if that has it.
  Such bodies have to stand side by side.

What hasn't ended in its time may only have met with other work. So the test is run without the body right behind it, and if the body may take
longer by what that took, the body is tried once more.

Each named test has to pass, or to be found right, over the crate as it is: built once more, with no body beside its own. With --tested it
isn't built for that: `rt ci` and gate/refusals/refused.py, which run all these tests, say so.

With --beside PID no build is begun, while that process runs, unless a processor is idle.

usage: gate/bodies/caught.py [--jobs N] [--tested] [--beside PID] [WORD..]     with words: only the edits whose paths contain one of them; a word
that is in none is told, and nothing is tried
"""

import argparse
import functools
import itertools
import queue
import shutil
import sys
import tempfile
import threading
import time
from pathlib import Path

sys.path.append(str(Path(__file__).resolve().parent.parent))
import find_modules  # has Python find the next ones
from built import CANT_BUILD, CANT_RUN, named, outcome, passes, tests_of
from edits import BadEdit, NoSuchEdit, applied, chosen, edited, read_edit
from machine import Turns, processors
from programs import build, outcomes
from refuser import refuser
from repository import TOP
from shared_builds import CantShare, NotShared, SharedBuild, apart, can_share
from stored_runs import judge_output
from verdicts import tell

SECONDS = 60  # at most for one run with a wrong body, which may hang, and for all runs of a test that passes
LEAST_SECONDS = 10  # for one run with a wrong body
TIMES = 30  # as long as the same test took without the body, it may take with it, up to SECONDS
LEAST_TIMES = 5  # and as long in any case
OWN_SECONDS = 300  # for one run without it, which only other work makes slow
SAID = 600  # how much is told of what was said


class FailsWithout(Exception):
    """The test fails without the wrong body as well."""


def seconds_for(took):
    """How long a run with a wrong body may take, which took so long without it."""
    return max(min(SECONDS, max(LEAST_SECONDS, TIMES * took)), LEAST_TIMES * took)


class Own:
    """The program of a crate's tests without a wrong body, and what was seen of them: how long each took in each run that passed, and which
    were right as requests were refused, each with how long its slowest run took. Bodies that one test catches need no more of its runs than
    the one that took most, but for one behind each run that doesn't end."""

    def __init__(self, program):
        self.program = program
        self.passed = {}
        self.judged = {}
        self.slowest = {}

    def passes(self, test, runs):
        """Whether the test passes as often as this."""
        took = self.passed.setdefault(test, [])
        while len(took) < runs:
            begun = time.monotonic()
            if not passes(self.program, test, OWN_SECONDS):
                return False
            took.append(time.monotonic() - begun)
        return True

    def passes_again(self, test):
        """Whether the test passes in one run more."""
        return self.passes(test, len(self.passed.get(test, ())) + 1)

    def seconds(self, test):
        """How long a run of the test, which has passed, may take with a wrong body."""
        return seconds_for(max(self.passed[test]))

    def is_right(self, test, again=False):
        """Whether the test is right as requests are refused, in what was seen of it before, or once more."""
        if again or test not in self.judged:
            tried = refuser(self.program, self.program.parent)
            tried.seconds = OWN_SECONDS
            self.judged[test] = tried.judge(test)[0]
            self.slowest[test] = max(tried.slowest, self.slowest.get(test, 0))
        return self.judged[test]


def fails(program, test, own, seconds):
    """Whether the test fails in a run of the program with a wrong body, which may take these seconds, or longer where it takes so long without
    the body. FailsWithout where it hasn't ended, and fails without the body."""
    while (well := outcome(program, test, seconds)) is None:
        if not own.passes_again(test):
            raise FailsWithout
        if own.seconds(test) <= seconds:
            return True
        seconds = own.seconds(test)
    return not well


def runs_to_fail(program, test, own):
    """In which run the test fails with a wrong body, or None where it passes until the time has gone."""
    end = time.monotonic() + SECONDS
    for run in itertools.count(1):
        if fails(program, test, own, own.seconds(test)):
            return run
        if time.monotonic() >= end:
            return None


def right_refused(tried, test, own):
    """Whether the test is right, as requests are refused, in the program with a wrong body, and what to say. FailsWithout where it is wrong
    without the body as well."""
    while True:
        tried.is_late = False
        well, text = tried.judge(test)
        if well:
            return True, text
        if not own.is_right(test, again=tried.is_late):
            raise FailsWithout
        seconds = seconds_for(own.slowest[test])
        if not tried.is_late or seconds <= tried.seconds:
            return False, text
        tried.seconds = seconds


def judge_test(name, wrong, own):
    """Whether the test fails in the program with the wrong body, and not without it in the own one, and what to say."""
    test = named(tests_of(wrong), name)
    if not test:
        return False, "BAD EDIT: there is no such test"
    without = f"NOT CAUGHT: {name} fails without the body as well"
    if not own.passes(test, 1):
        return False, without
    try:
        runs = runs_to_fail(wrong, test, own)
    except FailsWithout:
        return False, without
    if not runs:
        return False, f"NOT CAUGHT: {name} passes"
    if not own.passes(test, runs):
        return False, without
    return True, f"seen by {name}"


def judge_refused(name, wrong, own):
    """Whether the test is wrong, as requests are refused, in the program with the wrong body, and right in the own one without it, and
    what to say."""
    tried = refuser(wrong, wrong.parent)
    test = named(tried.tests(), name)
    if not test:
        return False, "BAD EDIT: there is no such test"
    if not tried.passes(test):
        return False, f"BAD EDIT: {name} fails where nothing is refused: let 'test:' name it"
    try:
        well, text = right_refused(tried, test, own)
    except FailsWithout:
        return False, f"NOT CAUGHT: {name} is wrong without the body as well"
    if well:
        return False, f"NOT CAUGHT: {name}: {text}"
    return True, f"seen by {name} as requests are refused"


def judge(edit, wrong, own):
    """Whether the edit's test sees the body in the program with it, and nothing in the one without, and what to say."""
    try:
        return (judge_test if edit.want == "test" else judge_refused)(edit.name, wrong, own)
    except CANT_RUN as why:
        return False, f"BAD EDIT: it can't be run: {why}"


def as_it_must_not(edit):
    """That the edit's error comes, and what to say."""
    return True, f"doesn't compile, as it must not: {edit.name}"


def judge_error(edit, root):
    """Whether the edit's error comes, and what to say."""
    with applied(edit, root):
        found, said = outcomes(root / "crates" / edit.of, SECONDS)
    if found or edit.name not in said:
        return False, f"COMPILED, or failed otherwise; it said: {said.strip()[:SAID]}"
    return as_it_must_not(edit)


def judge_tests(names, program):
    """Whether each of these names means one test that passes over the crate as it is, and what to say."""
    tests = tests_of(program)
    bad = sorted(name for name in names if not named(tests, name) or not passes(program, named(tests, name), OWN_SECONDS))
    if bad:
        return False, f"these names aren't of one test that passes over the crate as it is: {', '.join(bad)}"
    return True, f"{len(names)} tests that catch wrong bodies pass over the crate as it is"


def judge_refusals(names, program):
    """Whether each of these names means one test that is right, as requests are refused, over the crate as it is, and what to say."""
    tried = refuser(program, program.parent)
    tests = tried.tests()
    bad = sorted(name for name in names if not named(tests, name) or not tried.judge(named(tests, name))[0])
    if bad:
        return False, f"these names aren't of one test that is right over the crate as it is: {', '.join(bad)}"
    return True, f"{len(names)} tests that catch wrong bodies as requests are refused are right over the crate as it is"


class Trials:
    """What is still to be done, and what came of the rest. A task is given the trials and a copy of the repository."""

    def __init__(self):
        self.tasks = queue.Queue()
        self.results = []

    def add(self, task, *words):
        self.tasks.put(functools.partial(task, *words))

    def tell(self, label, passed, text):
        tell(label, passed, text)
        self.results.append(passed)


def try_tests(crate, edits, trials, root):
    """Tries the tests of the crate that these edits name over the crate as it is. Where it can be built, the edits are to be tried too."""
    names = {}
    for edit in edits:
        names.setdefault(edit.want, set()).add(edit.name)
    with tempfile.TemporaryDirectory(prefix="own-") as room:
        try:
            own = build(root / "crates" / crate, Path(room))
            for want, wanted in names.items():
                trials.tell(crate, *(judge_tests if want == "test" else judge_refusals)(wanted, own))
        except CANT_BUILD as why:
            for label in [crate] * len(names) + edits:
                trials.tell(label, False, f"the tests of {crate} can't be built or run: {why}")
            return
    try_edits(crate, edits, trials, root)


def try_edits(crate, edits, trials, root):
    """Has the edits for the tests of the crate tried, those that can share a build in one."""
    together = [edit for edit in edits if can_share(edit, root)]
    trials.add(try_together, crate, together, [edit for edit in edits if edit not in together])


def try_together(crate, edits, alone, trials, root):
    """Tries edits in one build, and behind them those that are to be alone, beside its program without a body. There may be none of the first."""
    with tempfile.TemporaryDirectory(prefix="shared-") as room:
        try:
            shared = SharedBuild(crate, edits, root, Path(room))
        except NotShared as why:
            try_apart(crate, edits, alone, why, trials)
            return
        own = Own(shared.program(0))
        for number, edit in enumerate(edits, 1):
            wrong = shared.program(number)
            trials.tell(edit, *judge(edit, wrong, own))
            wrong.unlink()
        for edit in alone:
            try_alone(edit, own, trials, root)


def try_apart(crate, edits, alone, why, trials):
    """Has edits tried that couldn't be built together: those at fault are to be alone too, and the others to have a build without them."""
    if not edits:
        for edit in alone:
            trials.tell(edit, False, f"BAD EDIT: the tests of {crate} can't be built without it: {why}")
        return
    bad, lists = apart(edits, why.blamed)
    first, *more = lists or [[]]
    trials.add(try_together, crate, first, alone + bad)
    for others in more:
        trials.add(try_together, crate, others, [])


def try_alone(edit, own, trials, root):
    """Tries an edit by a build of its own, beside this program without it."""
    with tempfile.TemporaryDirectory(prefix="wrong-") as room:
        try:
            with applied(edit, root):
                wrong = build(root / "crates" / edit.of, Path(room))
            trials.tell(edit, *judge(edit, wrong, own))
        except CANT_BUILD as why:
            trials.tell(edit, False, f"BAD EDIT: it can't be built: {why}")


def try_outputs(crate, edits, trials, root):
    """Tries edits that the stored run of the crate's program has to show, in one build."""
    with tempfile.TemporaryDirectory(prefix="shared-") as room:
        try:
            shared = SharedBuild(crate, edits, root, Path(room), kind=())
        except (CantShare, NotShared) as why:
            for edit in edits:
                trials.tell(edit, False, f"BAD EDIT: such bodies of {crate} can't be built side by side: {why}")
            return
        own = shared.program(0)
        for number, edit in enumerate(edits, 1):
            trials.tell(edit, *judge_output(edit.name, shared.program(number), own, root / "crates" / crate))


def errors_together(crate, edits, root):
    """What the compiler says of each of these edits, side by side, that it refuses: them, with the texts of the errors at the lines of each."""
    with tempfile.TemporaryDirectory(prefix="shared-") as room:
        try:
            SharedBuild(crate, edits, root, Path(room))
        except NotShared as why:
            return why.errors
    return []


def try_errors(crate, edits, trials, root):
    """Tries edits that can't be built: those that can stand side by side together, again without those that are refused as long as some are, and
    each that isn't refused as it has to be by itself."""
    left = [edit for edit in edits if can_share(edit, root)]
    alone = [edit for edit in edits if edit not in left]
    while left[1:] and (found := errors_together(crate, left, root)):
        for edit, errors in found:
            left.remove(edit)
            if any(edit.name in text for text in errors):
                trials.tell(edit, *as_it_must_not(edit))
            else:
                alone.append(edit)
    for edit in alone + left:
        trials.add(try_error, edit)


def try_error(edit, trials, root):
    """Tries an edit that can't be built, by itself."""
    trials.tell(edit, *judge_error(edit, root))


def works_in(trials, turns, top):
    """Takes tasks until none is left, in a copy of the repository of this worker's own."""
    with tempfile.TemporaryDirectory(prefix="caught-") as room:
        root = Path(room) / "copy"
        shutil.copytree(top, root, ignore=shutil.ignore_patterns("out", ".git", "__pycache__"))
        while True:
            turns.wait()
            try:
                task = trials.tasks.get_nowait()
            except queue.Empty:
                return
            task(trials, root)


def read_edits(top, words):
    """The edits whose paths contain one of the words, all where there are none, and how many can't be read or applied."""
    edits, bad = [], 0
    for path in chosen(top.glob("crates/*/caught/*.edit"), words):
        try:
            edit = read_edit(path)
            if edit.want == "scene":
                raise BadEdit("a scene is for the folder 'scheduled'")
            edited(edit, top)
            edits.append(edit)
        except BadEdit as why:
            print(f"caught {path.parent.parent.name}/{path.name}: BAD EDIT: {why}")
            bad += 1
    return edits, bad


def add_tasks(edits, trials, is_tested):
    """Adds what is to be done at first, the crates with the most edits before the others. How many results there will be."""
    built, refused, stored, kinds = {}, {}, {}, set()
    for edit in edits:
        {"error": refused, "output": stored}.get(edit.want, built).setdefault(edit.of, []).append(edit)
        if edit.want in ("test", "refused"):
            kinds.add((edit.of, edit.want))
    for task, crates in ((try_edits if is_tested else try_tests, built), (try_errors, refused), (try_outputs, stored)):
        for crate, own in sorted(crates.items(), key=lambda item: -len(item[1])):
            trials.add(task, crate, own)
    return len(edits) + (0 if is_tested else len(kinds))


def main():
    parser = argparse.ArgumentParser(description=__doc__, formatter_class=argparse.RawDescriptionHelpFormatter)
    parser.add_argument("--jobs", type=int, default=processors())
    parser.add_argument("--tested", action="store_true")
    parser.add_argument("--beside", type=int, metavar="PID")
    parser.add_argument("words", nargs="*")
    given = parser.parse_args()
    try:
        edits, bad = read_edits(TOP, given.words)
    except NoSuchEdit as why:
        sys.exit(f"caught: {why}")
    trials, turns = Trials(), Turns(given.beside)
    expected = bad + add_tasks(edits, trials, given.tested)
    workers = [threading.Thread(target=works_in, args=(trials, turns, TOP)) for _ in range(max(1, given.jobs))]
    for worker in workers:
        worker.start()
    for worker in workers:
        worker.join()
    # a worker that ended by an error of its own leaves tasks without a result
    passed = trials.results.count(True)
    print(f"{passed} passed, {expected - passed} failed")
    return 0 if passed and passed == expected else 1


if __name__ == "__main__":
    sys.exit(main())
