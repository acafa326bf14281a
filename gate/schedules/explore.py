"""Runs a built program over the schedules of a scene, and judges each outcome."""

import re
import subprocess
from dataclasses import dataclass, field

from history import Call, is_explained

SECONDS = 600  # for one search
MOST = 60_000  # schedules with more than two preemptions: such a search may be cut


@dataclass(frozen=True)
class Search:
    """Which schedules are tried: those of at most this number of preemptions, or all of them by order; with a number of requests for memory
    refused in each; or only the one of these choices."""

    preemptions: int = 2
    is_by_order: bool = False
    refusals: int = 0
    choices: str = None
    most: int = 300_000

    def words(self):
        mode = ["-p"] if self.is_by_order else ["-k", str(self.preemptions)]
        again = [] if self.choices is None else ["-r", self.choices, "-t"]
        return [*mode, "-f", str(self.refusals), "-m", str(self.most), *again]

    @classmethod
    def again(cls, word, choices):
        """The search of a word, for the schedule of these choices alone."""
        mode, _, refusals = word.partition("+")
        is_by_order = mode == "by-order"
        return cls(0 if is_by_order else int(mode), is_by_order, int(refusals or 0), choices)

    @property
    def word(self):
        """Its name in a command: a number of preemptions or `by-order`, with `+1` where a request is refused."""
        return ("by-order" if self.is_by_order else str(self.preemptions)) + (f"+{self.refusals}" if self.refusals else "")

    def __str__(self):
        refused = ", one request refused" if self.refusals else ""
        return ("by order" if self.is_by_order else f"K={self.preemptions}") + refused


def searches_of(scene):
    """The searches of a scene, the smallest first."""
    found = [Search(k) for k in range(3)]
    if scene.is_by_order:
        found.append(Search(is_by_order=True))
    if scene.has_refusals:
        found.append(Search(2, refusals=1))
    if scene.deep > 2:
        found.append(Search(scene.deep, most=MOST))
    return found


@dataclass
class Outcome:
    """What the program printed, the same in this many schedules, and the choices of the first of them."""

    count: int
    choices: str
    lines: list

    def calls(self):
        """The calls with their answers, in the order in which each thread made its own."""
        words = [line.split(" ") for line in self.lines[:-2]]
        return [Call(int(w[0]), w[1], w[2], int(w[3]), int(w[4]), w[5], int(w[6])) for w in words]

    def wrong(self, scene, refusals):
        """What is wrong with it, as one of the scene in which this many requests for memory may be refused, or None."""
        _, status, _, blocks, why = self.lines[-1].split(" ", 4)
        if why or status != "0" or blocks != "0":
            return why or f"it ends with status {status}, and leaves {blocks} blocks"
        said = self.lines[-2] if self.lines[1:] else "nothing"
        end = re.fullmatch(r"linked (\d+) left 0", said)
        if not end:
            return f"a sweep leaves entries, or that it leaves none isn't said: {said}"
        return self.wrong_calls(scene, scene.limits(refusals), int(end[1]))

    def wrong_calls(self, scene, limits, linked):
        """What is wrong with its calls, behind which so many entries are linked, or None."""
        calls = self.calls()
        if any(call.answer == "other-text" for call in calls):
            return "an atom has another text than its own"
        if not scene.is_made(calls):
            return "these aren't the calls of the scene"
        end = max((call.ended for call in calls), default=0) + 1
        if is_explained([*calls, Call(0, "linked", "-", end, end, "linked", linked)], limits):
            return None
        is_map = is_explained(calls, limits)
        return f"a text without holders isn't taken out: linked {linked}" if is_map else "no order of these calls is one map's"


@dataclass
class Found:
    """What a search came upon."""

    schedules: int = 0
    is_cut: bool = False
    seconds: float = 0.0
    outcomes: list = field(default_factory=list)
    steps: list = field(default_factory=list)  # of one schedule that was run again
    error: str = ""


def search(program, words, arguments, given=b""):
    """Runs the program with these words for the scheduler and these arguments."""
    command = [str(program), *words, *arguments]
    try:
        ran = subprocess.run(command, input=given, stdout=subprocess.PIPE, stderr=subprocess.STDOUT, timeout=SECONDS)
    except subprocess.TimeoutExpired:
        return Found(error=f"no end after {SECONDS} seconds")
    head, *parts = ran.stdout.decode(errors="replace").split("--- ")
    lines = head.splitlines()
    if ran.returncode or not lines or not lines[-1].startswith("schedules "):
        return Found(error=f"the scheduler ended with status {ran.returncode}: {head[-300:]}")
    numbers = dict(zip(lines[-1].split()[::2], lines[-1].split()[1::2]))
    outcomes = []
    for part in parts:
        first, *rest = part.splitlines()
        outcomes.append(Outcome(int(first.split()[0]), (first.split() + [""])[1], rest))
    if not outcomes and "-r" not in command:
        return Found(error="no schedule was run")
    return Found(int(numbers["schedules"]), numbers["cut"] == "1", float(numbers["seconds"]), outcomes, lines[:-1])


def explore(program, scene, how):
    """Searches the schedules of a scene: what was found, and the first wrong outcome with what is wrong with it, or None."""
    found = search(program, how.words(), scene.arguments())
    for outcome in found.outcomes:
        kept = (how.refusals, *outcome.lines)
        wrong = None if kept in scene.well else outcome.wrong(scene, how.refusals)
        if wrong:
            return found, (outcome, wrong)
        scene.well.add(kept)
    return found, None
