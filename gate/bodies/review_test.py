#!/usr/bin/env python3
"""Sees gate/bodies/review.py tell wrong bodies of a small crate apart: those that the prover refuses, those that are proved and fail a test, one
that isn't read, one that can't be built, and one that changes no meaning, which alone is reported as held by nothing. Few checks and builds have
to do for all of them.

usage: gate/bodies/review_test.py [WORD..]
"""

import contextlib
import io
import subprocess
import sys
import tempfile
import unittest
from pathlib import Path
from unittest import mock

sys.path.append(str(Path(__file__).resolve().parent.parent))
import find_modules  # has Python find the next ones
import batches
import caught
import review
import run_tests
import shared_builds
from programs import compiler, kit, link
from small_repository import InSmallRepository
from unproved_archive import Exports

CRATE = """\
//! What is edited.
#![tactic(auto)]
ghost use Rattle.std.specs.Prelude.{◌≡◌, ◌+◌, ◌*◌, ◌<◌};

/// The number after it.
pub fn next(number: u8) -> u32
    ensures { result ≡ number + 1 }
{
    u32::from(number) + 1
}

/// Twice the number.
pub fn twice(number: u8) -> u32
    ensures { result ≡ number * 2 }
{
    u32::from(number) * 2
}

/// A number below ten.
pub fn digit() -> u32
    ensures { result < 10 }
{
    7
}

/// Another number below ten.
pub fn other() -> u32
    ensures { result < 10 }
{
    8
}
"""
TESTS = """\
//! Its tests.
#![tactic(auto)]

#[test]
fn digit_is_seven(rt: HostRuntime) {
    assert!(rt; few::digit() == 7);
}
"""
BODIES = """\
body: next_is_two_more
crate: few
function: next
file: src/lib.rt
old:     u32::from(number) + 1
new:     u32::from(number) + 2

body: digit_is_six
crate: few
function: digit
file: src/lib.rt
old:     7
new:     6

body: factors_in_another_order
crate: few
function: twice
file: src/lib.rt
old:     u32::from(number) * 2
new:     2 * u32::from(number)

body: other_is_unknown
crate: few
function: other
file: src/lib.rt
old:     9
new:     8
"""


MORE = """
body: next_is_three_more
crate: few
function: next
file: src/lib.rt
old:     u32::from(number) + 1
new:     u32::from(number) + 3

body: digit_is_five
crate: few
function: digit
file: src/lib.rt
old:     7
new:     5

body: seven_stands_twice
crate: few
function: digit
file: src/lib.rt
old:     7
new:     7 - 0 * 7
old: 7
new: 6

body: other_is_nothing
crate: few
function: other
file: src/lib.rt
old:     8
new:     nothing
"""
WANTED = {
    "next_is_two_more (": "refused at returns",
    "next_is_three_more (": "refused at returns",
    "digit_is_six (": "proved, and the test digit_is_seven of test_few fails",
    "digit_is_five (": "proved, and the test digit_is_seven of test_few fails",
    "other_is_unknown (": "NOT CHECKED: BAD EDIT: ",
    "seven_stands_twice (": "NOT CHECKED: BAD EDIT: an 'old:' text stands 2 times",
    "other_is_nothing (": "NOT CHECKED: src/lib.rt:",
    "  factors_in_another_order (": "few",
    "review: 8 bodies, 1 that nothing holds, 3 not checked:": "",
}
ROOT = """\
//! What C calls.
#![tactic(auto)]

mod sums;
"""
EXPORTS = """\
//! Sums.

/// The sum of two bytes, and how many there are.
#[unsafe(no_mangle)]
pub extern "C" fn few_sum(bytes: &[u8; 2], sum: &mut u32) -> u32 {
    *sum = u32::from(bytes[0]) + u32::from(bytes[1]);
    few_count()
}

/// How many there are.
#[unsafe(no_mangle)]
pub extern "C" fn few_count() -> u32 {
    2
}
"""
CALLER = """\
unsigned few_sum(const unsigned char *bytes, unsigned *sum);

int main(void)
{
    unsigned char bytes[2] = {2, 3};
    unsigned sum = 0;
    return (int)(few_sum(bytes, &sum) + sum);
}
"""
NAMELESS = BODIES.replace("body: digit_is_six\n", "")  # the second one is
BAD = {  # a file's text, and what is said of each of its bodies: nothing where all is well
    BODIES: ["", "", "", ""],
    NAMELESS: ["", "its first line isn't 'body: NAME'", "", ""],
    NAMELESS.replace("body: next_is_two_more\n", "Body: next_is_two_more\n"): [*["its first line isn't 'body: NAME'"] * 2, "", ""],
    BODIES.replace("other_is_unknown", "digit_is_six"): ["", "2 bodies have this name", "", "2 bodies have this name"],
    BODIES.replace("old:     7\n", ""): ["", "a 'new:' line stands before any 'file:' or 'old:' line", "", ""],
    f"Some bodies\n\n{BODIES}": ["", "", "", ""],
}


class Bodies(unittest.TestCase):
    """What is said of a file of bodies."""

    def run_over(self, *words):
        ran = subprocess.run([Path(review.__file__), *words], stdout=subprocess.PIPE, stderr=subprocess.STDOUT, check=False)
        return ran.returncode, ran.stdout.decode()

    def test_bodies_that_cannot_be_told_apart_are_bad(self):
        with tempfile.TemporaryDirectory(prefix="review-test-") as room:
            file = Path(room) / "bodies"
            for text, wanted in BAD.items():
                file.write_text(text, encoding="utf-8")
                self.assertEqual([body.wrong for body in review.read_bodies(file)], wanted, text)
            few = review.Review()
            file.write_text(NAMELESS.split("\n\n")[1], encoding="utf-8")
            with contextlib.redirect_stdout(io.StringIO()) as said:
                self.assertEqual(review.readable(review.read_bodies(file), few), [])
            self.assertIn("one without a name (few, digit): NOT CHECKED: BAD EDIT: its first line isn't", said.getvalue())
            self.assertEqual(len(few.unchecked), 1)
            file.write_text("Some bodies\n", encoding="utf-8")
            for path, text in ((file, "has no body"), (Path(room) / "nothing", "can't be read")):
                status, said = self.run_over(path)
                self.assertEqual((status, text in said, "Traceback" in said), (1, True, False), said)

    def test_help_is_given(self):
        status, said = self.run_over("--help")
        self.assertEqual((status, "usage: review.py" in said, "body: pack_overlooks_its_last" in said), (0, True, True), said)


class Tests(unittest.TestCase):
    """Which tests are told to fail with a body."""

    def failure(self, slowed, slowed_own):
        """What is told of two programs of one test, which takes so long with the body, and so long without, where a run may take a second."""
        with tempfile.TemporaryDirectory(prefix="review-test-") as room, mock.patch.object(review, "SECONDS", 1), mock.patch.object(review, "refuser"):
            programs = [Path(room) / name for name in ("wrong", "own")]
            for program, seconds in zip(programs, (slowed, slowed_own)):
                program.write_text(f"#!/bin/sh\n[ $1 = --list ] && echo one: test || exec sleep {seconds}\n", encoding="ascii")
                program.chmod(0o755)
            return review.failure(programs[0], caught.Own(programs[1]))

    def test_a_test_that_only_other_work_slows_does_not(self):
        with mock.patch.object(caught, "SECONDS", 1):
            self.assertIsNone(self.failure(1.5, 0.6))
            self.assertEqual(self.failure(30, 0.1), "one")


class Review(InSmallRepository):
    """What is said of bodies of a small crate, of which each test sees some."""

    def said_of(self, bodies, *options):
        """What a review of these bodies says, and its status."""
        self.begin("few: core\ntest_few: few\n", {"crates/few/src/lib.rt": CRATE, "crates/test_few/src/lib.rt": TESTS, "bodies": bodies}, review)
        said = io.StringIO()
        with contextlib.redirect_stdout(said), mock.patch.object(sys, "argv", ["review.py", *options, str(self.top / "bodies")]):
            status = review.main()
        return status, said.getvalue().splitlines()

    def test_what_holds_each_body_is_told(self):
        checked = mock.patch.object(batches, "check", side_effect=batches.check)
        built = mock.patch.object(review, "SharedBuild", side_effect=review.SharedBuild)
        with checked as checks, built as builds:
            status, lines = self.said_of(BODIES + MORE)
        for head, text in WANTED.items():
            self.assertTrue(any(line.startswith(head) and text in line for line in lines), (head, text, lines))
        self.assertEqual((status, len(lines)), (1, len(WANTED)), lines)
        # The one that isn't read fails a check of all, the others share one, and two of one function that pass it are two of the whole crate.
        self.assertEqual((checks.call_count, builds.call_count), (4, 1))

    def test_what_a_test_sees_needs_no_proof_if_tests_are_first(self):
        with mock.patch.object(review, "proved", side_effect=lambda bodies, _: bodies) as proved:
            _, lines = self.said_of(BODIES, "--tests-first")
        left = ["next_is_two_more", "factors_in_another_order"]
        self.assertEqual([body.name for body in proved.call_args[0][0]], left)
        self.assertTrue(any(line.startswith("digit_is_six (few, digit): the test digit_is_seven of test_few fails") for line in lines), lines)
        self.assertEqual([line.split()[0] for line in lines[-2:]], left)


class Whole(unittest.TestCase):
    """Checks of a whole crate with bodies that their own functions don't refuse."""

    def test_the_body_that_is_refused_elsewhere_is_sought(self):
        bodies = [review.Body(name, placed=batches.Body(name, "few", name)) for name in ("one", "two", "bad", "four")]
        refused = "fn few::calls: no proof: expected answers; `search` did not prove `returns`\n"
        said = mock.patch.object(batches, "check", side_effect=lambda places, *_, only: refused if bodies[2].placed in places else "logic=proved\n")
        few = review.Review()
        with said as checks, contextlib.redirect_stdout(io.StringIO()) as out:
            left = review.proved_whole(bodies, Path(), few)
        self.assertEqual(([body.name for body in left], few.unchecked, checks.call_count), (["one", "two", "four"], [], 5))
        self.assertEqual(out.getvalue(), "bad (, ): refused elsewhere: few::calls at returns\n")


class Builds(unittest.TestCase):
    """How bodies are built for the tests of a crate."""

    def built(self, crate, bodies, root, room):
        """Stands for a build, which fails at the body `bad`."""
        self.builds.append("".join(body.name[0] for body in bodies))
        bad = [body for body in bodies if body.name == "bad"]
        if bad:
            raise shared_builds.NotShared("an error", [(body, ["an error"]) for body in bad])
        return mock.Mock(program=lambda number: number)

    def test_only_the_body_at_fault_is_built_alone(self):
        self.builds, bodies = [], [review.Body(name) for name in ("one", "bad", "two")]
        with (
            mock.patch.object(review, "can_share", return_value=True),
            mock.patch.object(review, "SharedBuild", self.built),
            mock.patch.object(review, "failure", side_effect=lambda wrong, own: f"test {wrong}"),
        ):
            found, alone = review.failures_together("few", bodies, Path())
        self.assertEqual(({body.name: test for body, test in found.items()}, alone), ({"one": "test 1", "two": "test 2"}, [bodies[1]]))
        self.assertEqual(self.builds, ["obt", "ot"])

    def test_nothing_is_copied_where_no_body_is_left(self):
        with mock.patch.object(review, "copy_without_work", side_effect=AssertionError):
            self.assertEqual(review.tested([], review.Review()), [])


class Archive(unittest.TestCase):
    """The exports of a crate, built without proofs."""

    def test_an_export_can_be_called_from_c(self):
        with tempfile.TemporaryDirectory(prefix="review-test-") as folder:
            room, crate = Path(folder), Path(folder) / "crates" / "few"
            texts = {"crates.txt": "few staticlib: core\n", "crates/few/src/lib.rt": ROOT, "crates/few/src/sums.rt": EXPORTS, "main.c": CALLER}
            for file, text in texts.items():
                (room / file).parent.mkdir(parents=True, exist_ok=True)
                (room / file).write_text(text, encoding="utf-8")
            subprocess.run([*compiler(kit())[:2], "-c", room / "main.c", "-o", room / "main.o"], check=True)
            wrong = review.Body("count_is_three", "few", "few_count", [("src/sums.rt", "    2", "    3")])
            (room / "made").mkdir()
            exports = Exports("few", [wrong], room, room / "made")
            for number, status in ((0, 7), (1, 8)):
                link([room / "main.o", exports.archive(number)], room / "program")
                self.assertEqual(subprocess.run([room / "program"], check=False).returncode, status)
            self.assertEqual((crate / "src" / "sums.rt").read_text(encoding="utf-8"), EXPORTS)


if __name__ == "__main__":
    sys.exit(run_tests.main())
