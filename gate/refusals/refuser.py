"""Runs a test with requests for memory, or starts of threads, refused, and judges what came of it (gate/refusals/refused.py says how)."""

import os
import subprocess
import sys
import time
from dataclasses import dataclass
from pathlib import Path

from programs import compiler, kit

SECONDS = 60  # for one run, where nothing else is said
MOST = 100_000  # requests of one call
EVERY = sys.maxsize
NAMES = {"memory": "requests for memory", "starts": "starts of threads"}  # what can be refused
# How many requests a call may do without, by its test's name: in each worker that has words (the text has 20), each of two lists that
# are collected asks ahead for the room that it may need, and goes on without it. Equal texts are looked for with two requests, and where one
# of them is refused, without. A thread for half of the lists that are merged can be done without as well, and so can those in which words are counted
# ahead of the workers and atoms go.
SPARED = {
    "refusals::generated::doubles_are_told": 2,
    "refusals::programs::counts_by_one": 2,
    "refusals::programs::counts_by_two": 4,
    "refusals::programs::counts_by_three": 6,
    "refusals::programs::counts_by_sixty_four": 40,
    "refusals::programs::counts_of_many_by_four": 8,
    "refusals::programs::program_counts_words": 4,
    "refusals::starts::counts_of_many_by_four": 1,
    "refusals::starts::counts_of_a_long_text": 2,
}

# How often a number is tried while the call goes on without that request: threads ask in another order in each run, so that many numbers
# may meet such a request once, but no more of them than there are such requests meet one each time.
TRIES = 5

# The most requests that a call may make, by its test's name: a new text has a cell, and a node where its bucket's first one has no room, however it
# is handed in; in a table that has room it has its bytes. A long text that is put into another case is owned meanwhile, a JSON text has its bytes,
# and a list that has no room asks for it once.
FEW = {
    "refusals::sets::text_is_interned": 2,
    "refusals::sets::owned_text_is_interned": 2,
    "refusals::sets::text_that_may_be_owned_is_interned": 2,
    "refusals::sets::json_text_is_interned": 2,
    "refusals::sets::text_is_put_into_upper_case": 2,
    "refusals::sets::long_text_is_put_into_upper_case": 3,
    "refusals::sets::json_is_made": 1,
    "refusals::named::text_is_interned": 2,
    "refusals::named::owned_text_is_interned": 2,
    "refusals::named::text_that_may_be_owned_is_interned": 2,
    "refusals::named::json_text_is_interned": 2,
    "refusals::named::long_text_is_interned": 2,
    "refusals::named::long_text_is_put_into_capitals": 2,
    "refusals::named::ninth_text_is_interned": 2,
    "refusals::named::seventeenth_text_is_interned": 3,
    "refusals::named::json_is_made": 1,
    "refusals::named::name_is_made": 1,
    "refusals::named::set_with_a_name_is_made": 1,
    "refusals::lists::text_is_pushed": 2,
    "refusals::lists::place_is_pushed": 3,
    "refusals::sets::text_finds_room_in_a_node": 1,
    "refusals::tables::text_finds_room_in_a_table": 1,
    "refusals::tables::text_finds_room_in_a_cleared_table": 1,
    "refusals::tables::text_finds_room_where_another_was": 1,
}

# The fewest requests that a call may make, by its test's name: each dynamic text that a table holds has its bytes, each of two workers its thread,
# half of four long lists another, and so have the words of a text's second half, to be counted, and half of many atoms, to go.
MANY = {
    "refusals::programs::many_words_in_a_table": 100,
    "refusals::starts::counts_of_many_by_four": 5,
    "refusals::starts::counts_of_a_long_text": 4,
    "refusals::starts::program_counts": 2,
    "refusals::starts::program_counts_by_seven": 7,
}


@dataclass
class Run:
    """What became of a test, with some requests refused."""

    status: int
    ended: str  # the line behind the call
    requests: int
    refused: int
    kept: int  # blocks that the program had more after the call than before it
    left: int  # blocks that it still had when it ended
    asked: int  # bytes that the call asked for
    said: str

    def passed(self):
        """Whether the test itself saw nothing wrong."""
        return self.status == 0 and "test result: ok" in self.said

    def went_on(self):
        """Whether something was refused, and the call gave what it gives."""
        return self.refused > 0 and self.ended == "given"

    def wrong(self):
        """What is wrong with it, or None."""
        if not self.passed():
            return f"the test fails: {' '.join(self.said.split())[-400:]}"
        wanted = ("refused", "refused midway", "given") if self.refused else ("given",)
        if self.ended not in wanted:
            return f"the call ended as '{self.ended}'"
        if self.ended == "refused" and self.kept > 0:
            return f"{self.kept} blocks are kept after the refusal"
        if self.left != 0:
            return f"{self.left} blocks are left when the program has ended"
        return None


@dataclass
class Refuser:
    """A program of tests, and the library that refuses to it."""

    library: str
    program: Path
    seconds: float = SECONDS  # for one run
    slowest: float = 0.0  # what the run took that took most
    is_late: bool = False  # a run hasn't ended in its time

    def tests(self):
        """The names of the tests of refusals."""
        listed = subprocess.run([self.program, "--list"], stdout=subprocess.PIPE, check=True).stdout.decode().splitlines()
        return [name for name, _, _ in (line.partition(": ") for line in listed) if name.startswith("refusals::")]

    def run(self, test, what, first, last):
        """One run of a test, with what is asked for, memory or starts, refused from the first to the last of these numbers."""
        report, told = os.pipe()
        limits = {"REFUSE_WHAT": what, "REFUSE_FIRST": str(first), "REFUSE_LAST": str(last), "REFUSE_REPORT": str(told)}
        how = {"stdin": subprocess.DEVNULL, "stdout": subprocess.PIPE, "stderr": subprocess.STDOUT, "pass_fds": [told]}
        begun = time.monotonic()
        try:
            ran = subprocess.run([self.program, test], env={"LD_PRELOAD": self.library, **limits}, timeout=self.seconds, **how)
            status, said = ran.returncode, ran.stdout.decode(errors="replace")
        except subprocess.TimeoutExpired:
            status, said, self.is_late = -1, f"it hasn't ended after {self.seconds:.0f} seconds", True
        self.slowest = max(self.slowest, time.monotonic() - begun)
        os.close(told)
        with os.fdopen(report) as it:
            numbers = [int(word) for word in it.read().split()]
        lines = [line[3:] for line in said.splitlines() if line.startswith("== ")]
        ended = lines[1] if len(lines) == 2 and lines[0] == "call" else f"no call, but {lines}"
        if len(numbers) != 5:
            numbers, ended = [0, 0, 0, 0, 0], "no report, so that nothing was counted"
        return Run(status, ended, *numbers, said)

    def passes(self, test):
        """Whether the test passes where nothing is refused."""
        return self.run(test, "memory", 0, 0).passed()

    def without(self, test, what, at):
        """A run without this request: the first of some that is wrong or tells of the refusal, or the last of them."""
        for _ in range(TRIES):
            ran = self.run(test, what, at, at)
            if ran.wrong() or not ran.went_on():
                break
        return ran

    def one_after_another(self, test, what):
        """Refuses each request in turn. Whether all is well, and what to say."""
        spare = sum(count for name, count in SPARED.items() if test.startswith(name))
        for at in range(1, MOST):
            ran = self.without(test, what, at)
            wrong = ran.wrong()
            if ran.went_on():
                spare -= 1
                if spare < 0:
                    wrong = wrong or "the call doesn't say that it was refused"
            if wrong:
                return False, f"with number {at} of the {NAMES[what]} refused: {wrong}"
            if ran.requests > FEW.get(test, MOST):
                return False, f"{ran.requests} {NAMES[what]}, where {FEW[test]} are enough"
            if not ran.refused and ran.requests < MANY.get(test, 0):
                return False, f"{ran.requests} {NAMES[what]}, where {MANY[test]} are needed"
            if not ran.refused:
                return True, f"{ran.requests} {NAMES[what]}, each refused in turn"
        return False, f"there is no end of {NAMES[what]} after {MOST}"

    def all_at_once(self, test):
        """Refuses every request for memory. Whether there was none and all is well, and what to say."""
        ran = self.run(test, "memory", 1, EVERY)
        wrong = ran.wrong()
        if ran.requests:
            wrong = f"{ran.requests} requests for memory, where none was to come"
        return not wrong, wrong or "no request for memory"

    def bytes_told(self, test):
        """Refuses nothing. Whether the bytes that the test tells are those that were asked for and all is well, and what to say."""
        ran = self.run(test, "memory", 0, 0)
        told = [line for line in ran.said.splitlines() if line.startswith("-- ")]
        wrong = ran.wrong()
        if told != [f"-- {ran.asked} bytes"]:
            wrong = wrong or f"it tells {told}, where {ran.asked} bytes were asked for"
        return not wrong, wrong or f"{ran.asked} bytes were asked for, as it tells"

    def whole(self, test):
        """Refuses nothing. Whether all is well and the call keeps no block, and what to say."""
        ran = self.run(test, "memory", 0, 0)
        wrong = ran.wrong() or (f"{ran.kept} blocks are kept" if ran.kept else None)
        return not wrong, wrong or f"{ran.requests} requests for memory, and all of it given back"

    def judge(self, test):
        """Whether all is well with the test, and what to say."""
        try:
            if "::whole::" in test:
                return self.whole(test)
            if "::told::" in test:
                return self.bytes_told(test)
            if "::unasked::" in test:
                return self.all_at_once(test)
            return self.one_after_another(test, "starts" if "::starts::" in test else "memory")
        except (OSError, ValueError, TypeError) as why:
            return False, f"it can't be run: {why}"


def refuser(program, room):
    """What refuses to this program of tests. The library is made in the room, a folder."""
    own = kit()
    library = f"{room}/refuse.so"
    words = [*compiler(own), "-shared", "-O1", "-fPIC", "-fno-builtin", "-Wall", "-Werror", "-o", library, Path(__file__).resolve().parent / "refuse.c"]
    subprocess.run([*words, own / "toolchain" / "lib" / "libc.so.6"], check=True)
    return Refuser(library, program)
