#!/usr/bin/env python3
"""Tries what gate/bodies/caught.py says of wrong bodies: of programs that are written here, which pass or fail as it is asked, and of edits of
a small crate, which are built side by side, and of which some show in no test.

usage: gate/bodies/caught_test.py [WORD..]
"""

import itertools
import subprocess
import sys
import tempfile
import textwrap
import unittest
from pathlib import Path
from types import SimpleNamespace
from unittest import mock

sys.path.append(str(Path(__file__).resolve().parent.parent))
import find_modules  # has Python find the next ones
import caught
import refuser
import run_tests
import shared_builds
from edits import read_edit
from repository import TOP

# A program whose tests::one and tests::other end with the digits in the files of their names, a digit a run. Two more tests have one
# name, and are never run.
PROGRAM = """#!/bin/sh
[ "$1" = --list ] && printf '%s: test\\n' tests::one tests::other tests::twice tests::more::twice && exit 0
read -r digits < "{rows}/$1"
[ "${{#digits}}" -gt 1 ] && echo "${{digits#?}}" > "{rows}/$1"
exit "${{digits%"${{digits#?}}"}}"
"""

CRATE = """\
//! What is edited.

const MOST: u32 = 3;

pub fn first(given: u32) -> u32
{
    if given > MOST {
        return MOST;
    }
    given
}

pub fn second() -> u32 {
    2
}

pub const fn third() -> u32 {
    3
}

pub fn none() {}

#[cfg(test)]
mod tests {
    use super::*;

    #[test]
    fn firsts(rt: HostRuntime) {
        assert_eq!(rt; first(1), 1);
        assert_eq!(rt; first(9), 3);
    }

    #[test]
    fn seconds(rt: HostRuntime) {
        assert_eq!(rt; second(), 2);
    }
}
"""


def edit_in(room, name, *lines):
    """An edit of the crate `few` in the room, of which these are the lines."""
    path = room / "crates" / "few" / "caught" / f"{name}.edit"
    path.write_text("".join(f"{line}\n" for line in lines), encoding="utf-8")
    return read_edit(path)


def crate_in(room):
    """Makes a repository of one crate in the room."""
    (room / "crates.txt").write_text("few: core\n", encoding="utf-8")
    for folder in ("src", "caught"):
        (room / "crates" / "few" / folder).mkdir(parents=True)
    (room / "crates" / "few" / "src" / "lib.rt").write_text(CRATE, encoding="utf-8")


class InRoom(unittest.TestCase):
    def setUp(self):
        room = tempfile.TemporaryDirectory(prefix="caught-test-")
        self.addCleanup(room.cleanup)
        self.room = Path(room.name)


class WithPrograms(InRoom):
    def setUp(self):
        super().setUp()
        self.count = itertools.count()
        self.addCleanup(setattr, caught, "SECONDS", caught.SECONDS)
        caught.SECONDS = 1

    def program(self, one="0", other="0"):
        """A program whose two tests end as these digits say, run after run, and as the last one from then on."""
        rows = self.room / str(next(self.count))
        rows.mkdir()
        for name, digits in (("tests::one", one), ("tests::other", other)):
            (rows / name).write_text(f"{digits}\n", encoding="ascii")
        program = rows / "program"
        program.write_text(PROGRAM.format(rows=rows), encoding="ascii")
        program.chmod(0o755)
        return program


class Verdicts(WithPrograms):
    """What is said of a program with a wrong body, beside one without it."""

    def said(self, wrong, own, name="one"):
        passed, text = caught.judge_test(name, wrong, caught.Own(own))
        self.assertEqual(passed, text == f"seen by {name}")
        return text

    def test_a_body_that_its_test_sees_is_caught(self):
        self.assertEqual(self.said(self.program("1"), self.program()), "seen by one")

    def test_a_body_that_changes_no_meaning_is_not(self):
        self.assertEqual(self.said(self.program(), self.program()), "NOT CAUGHT: one passes")

    def test_another_test_that_fails_is_none_that_catches(self):
        self.assertEqual(self.said(self.program(other="1"), self.program()), "NOT CAUGHT: one passes")

    def test_a_test_that_fails_without_the_body_is_none_that_catches(self):
        self.assertEqual(self.said(self.program("1"), self.program("1")), "NOT CAUGHT: one fails without the body as well")

    def test_a_body_that_shows_in_the_third_run_is_caught(self):
        self.assertEqual(self.said(self.program("001"), self.program()), "seen by one")

    def test_it_is_not_where_two_of_three_runs_pass_without_it(self):
        self.assertEqual(self.said(self.program("001"), self.program("001")), "NOT CAUGHT: one fails without the body as well")

    def test_without_a_body_a_test_runs_no_more_often_than_any_body_asks_for(self):
        own = caught.Own(self.program("0001"))
        for wrong in ("1", "001", "1", "001"):
            self.assertTrue(caught.judge_test("one", self.program(wrong), own)[0])
        self.assertFalse(caught.judge_test("one", self.program("0001"), own)[0])

    def test_a_run_may_take_thirty_times_as_long_as_without_the_body(self):
        caught.SECONDS = 60
        own = caught.Own(self.program())
        for took, seconds in ((0.1, 10), (1, 30), (5, 60), (20, 100)):
            own.passed["tests::one"] = [took / 2, took]
            self.assertEqual(own.seconds("tests::one"), seconds)

    def test_a_body_whose_test_hangs_is_caught(self):
        self.assertEqual(self.said(self.slowed(self.program(), "exec sleep 30"), self.program()), "seen by one")

    def slowed(self, program, *lines):
        """The program, which does this before each test."""
        program.write_text(program.read_text(encoding="ascii").replace("read -r", "\n".join([*lines, "read -r"])), encoding="ascii")
        return program

    def test_a_test_that_only_other_work_slows_is_not(self):
        own = self.program()
        self.slowed(own, f"[ -e {own}.ran ] && sleep 0.6", f"touch {own}.ran")  # the other work begins behind its first run
        self.assertEqual(self.said(self.slowed(self.program(), "sleep 1.4"), own), "NOT CAUGHT: one passes")

    def test_a_test_that_hangs_with_the_body_and_then_fails_without_it_is_not(self):
        hangs = self.slowed(self.program(), "exec sleep 30")
        self.assertEqual(self.said(hangs, self.program("01")), "NOT CAUGHT: one fails without the body as well")

    def test_a_name_is_of_one_test(self):
        for name in ("two", "tests", "ne", "twice"):
            self.assertEqual(self.said(self.program("1"), self.program(), name), "BAD EDIT: there is no such test")

    def test_a_test_has_to_pass_over_the_crate_as_it_is(self):
        self.assertTrue(caught.judge_tests({"one", "other"}, self.program())[0])
        self.assertFalse(caught.judge_tests({"one", "other"}, self.program(other="1"))[0])
        self.assertFalse(caught.judge_tests({"one", "two"}, self.program())[0])


class Refused(WithPrograms):
    """What is said of a test as requests are refused, where runs don't end in their time."""

    def said(self, rows, own_rows):
        """What is said of a body, where each time that the test is judged, with it and without, comes to the next of these rows: whether
        all is well, whether a run hasn't ended, and how long the slowest took."""
        made = {name: Stand(list(it)) for name, it in (("wrong", rows), ("own", own_rows))}
        with mock.patch.object(caught, "refuser", lambda program, _room: made[program.name]):
            passed, text = caught.judge_refused("one", self.room / "wrong", caught.Own(self.room / "own"))
        self.assertEqual(passed, text == "seen by one as requests are refused")
        return text, made["wrong"].seconds

    def test_a_run_that_does_not_end_counts_by_what_it_takes_without_the_body(self):
        caught.SECONDS = 60
        wrong, late, well = (False, False, 1), (False, True, 60), (True, False, 1)
        for rows, own_rows, text, seconds in (
            ([wrong], [well], "seen by one as requests are refused", 60),
            ([well], [], "NOT CAUGHT: one: told", 60),
            ([late], [well], "seen by one as requests are refused", 60),
            ([late, well], [(True, False, 20)], "NOT CAUGHT: one: told", 100),
            ([late, late], [(True, False, 20), (True, False, 15)], "seen by one as requests are refused", 100),
            ([late, late, well], [(True, False, 20), (True, False, 30)], "NOT CAUGHT: one: told", 150),
            ([late], [(False, False, 1)], "NOT CAUGHT: one is wrong without the body as well", 60),
        ):
            self.assertEqual(self.said(rows, own_rows), (text, seconds))

    def test_a_run_that_has_not_ended_is_told(self):
        program = self.program()
        program.write_text("#!/bin/sh\nexec sleep 30\n", encoding="ascii")
        tried = refuser.Refuser("", program, 0.2)
        self.assertFalse(tried.run("one", "memory", 0, 0).passed())
        self.assertEqual((tried.is_late, tried.slowest >= 0.2), (True, True))


class Stand:
    """Stands for what refuses requests to a program."""

    def __init__(self, rows):
        self.rows, self.seconds, self.slowest, self.is_late = rows, 60, 0, False

    def tests(self):
        return ["refusals::one"]

    def passes(self, _test):
        return True

    def judge(self, _test):
        well, self.is_late, self.slowest = self.rows.pop(0)
        return well, "told"


class Words(unittest.TestCase):
    """What is said of words that choose no wrong body, and no scene."""

    def test_a_word_that_is_in_no_path_is_told(self):
        word = "in no path"
        bodies, scenes = f"no wrong body has this in its path: {word}", f"no scene has this in its name: {word}"
        for script, options, text in (
            ("bodies/caught.py", ["--tested", "--jobs", "1"], bodies),
            ("clients/clients_caught.py", ["--archive", "nothing"], bodies),
            ("schedules/schedules.py", ["--bodies"], bodies),
            ("schedules/schedules.py", [], scenes),
        ):
            command = [TOP / "gate" / script, *options, "e", word]
            ran = subprocess.run(command, stdout=subprocess.PIPE, stderr=subprocess.STDOUT, check=False)
            said = ran.stdout.decode()
            self.assertEqual((ran.returncode, text in said), (1, True), said)


class Sharing(InRoom):
    """What the text of a file is with bodies side by side."""

    def setUp(self):
        super().setUp()
        crate_in(self.room)

    def edit(self, *changes):
        lines = [line for old, new in changes for line in (f"old: {old}", f"new: {new}")]
        return edit_in(self.room, "some", "test: firsts", "file: src/lib.rt", *lines)

    def test_bodies_stand_beside_their_own(self):
        edits = [
            self.edit(("if given > MOST {", "if given > 9 {")),
            self.edit(("pub fn second() -> u32 {", "pub fn second() -> u32 { return 5;"), ("        return MOST;", "        return 4;")),
        ]
        (text,) = shared_builds.shared_texts(edits, self.room).values()
        wanted = """
            pub fn first(given: u32) -> u32
            {
            match wrong_body() {
            1 => {

                if given > 9 {
                    return MOST;
                }
                given
            }
            2 => {

                if given > MOST {
                    return 4;
                }
                given
            }
            _ => {
                if given > MOST {
                    return MOST;
                }
                given
            }
            }
            }

            pub fn second() -> u32 {
            match wrong_body() {
            2 => {
             return 5;
                2
            }
            _ => {
                2
            }
            }
            }
        """
        begun, end = CRATE.split("pub fn first")[0], CRATE[CRATE.index("\npub const fn third") :]
        self.assertEqual(text, begun + textwrap.dedent(wanted).lstrip() + end + shared_builds.SWITCH)

    def test_what_is_no_body_of_a_function_cannot_share(self):
        for old, new in (
            ("const MOST: u32 = 3;", "const MOST: u32 = 4;"),
            ("pub fn first(given: u32) -> u32", "pub fn first(given: u32) -> u32 // 1"),
            ("pub fn second() -> u32 {", "pub(crate) fn second() -> u32 {"),
            ("    3", "    4"),
            ("pub fn none() {}", "pub fn none() { first(3); }"),
            ("    2", "    2 } pub fn more() -> u32 { 3"),
        ):
            self.assertFalse(shared_builds.can_share(self.edit((old, new)), self.room), old)

    def test_what_is_added_stands_once(self):
        one, other = "const MORE: u32 = 4; fn more() -> u32 { MORE }", "struct Sum(u32); impl Add for Sum { fn add(self) {} }"
        constant, answer = "const MOST: u32 = 3;", "        return MOST;"
        edits = [
            self.edit((constant, f"{constant} {one}"), (answer, "        return more();")),
            self.edit((constant, f"{constant} {one}"), (answer, "        return MORE;")),
            self.edit((constant, f"{other} {constant} fn least() {{}}"), ("    2", "    Sum(2).0")),
        ]
        (text,) = shared_builds.shared_texts(edits, self.room).values()
        (wanted,) = shared_builds.shared_texts([self.edit(edit.changes[1][1:]) for edit in edits], self.room).values()
        self.assertEqual(text, wanted.replace(constant, f"{other} {constant} {one} fn least() {{}}"))

    def test_what_is_added_changes_nothing_that_others_run(self):
        constant = "const MOST: u32 = 3;"
        can = ("fn more() {}", "pub(crate) const fn more() {}", "struct Sum; impl<T> Add<T> for Sum { fn add(self) {} }", "enum Few { One }")
        cant = ("struct Sum; impl Add for Few {}", "impl<T> Add<T> for T {}", "fn first() {}", "pub fn more() {}", "use core::more;", "#[test]")
        for text in can + cant:
            self.assertEqual(shared_builds.can_share(self.edit((constant, f"{constant} {text}")), self.room), text in can, text)
        for old, new in (
            (constant, f"fn more() {{ // }} {constant}"),
            ("#[cfg(test)]", "#[cfg(test)] fn more() {}"),  # below an attribute, and so is the next one
            ("mod tests {", "fn more() {} mod tests {"),
            ("mod tests {", "mod tests { fn more() {}"),
        ):
            self.assertFalse(shared_builds.can_share(self.edit((old, new)), self.room), new)

    def test_what_is_added_to_an_impl_is_of_a_type_s_own(self):
        source = self.room / "crates" / "few" / "src" / "lib.rt"
        for head, can_share in (("impl Few {", True), ("impl Add for Few {", False), ("pub trait Add {", False), ("pub struct Sum {", False)):
            source.write_text(f"{head}\n    #[inline]\n}}\n", encoding="utf-8")
            for line, has_place in ((head, can_share), ("    #[inline]", False)):
                self.assertEqual(shared_builds.can_share(self.edit((line, f"{line} fn more(&self) {{}}")), self.room), has_place, head)


class Apart(WithPrograms):
    """Which edits are tried, and how, where one of them doesn't compile beside the others."""

    def setUp(self):
        super().setUp()
        self.addCleanup(setattr, caught, "SharedBuild", caught.SharedBuild)
        self.addCleanup(setattr, caught, "try_alone", caught.try_alone)
        caught.SharedBuild = self.built
        caught.try_alone = lambda edit, own, trials, root: trials.tell(edit, False, "tried alone")
        crate_in(self.room)

    def built(self, crate, edits, root, room):
        """Stands for a build. One with the edit `bad` isn't built, and in the others each body is seen by its test."""
        self.builds += 1
        bad = [edit for edit in edits if edit.path.stem == "bad"]
        if bad or self.is_broken:
            raise shared_builds.NotShared("an error", [(edit, ["an error"]) for edit in bad if self.is_named])
        programs = [self.program("0"), *(self.program("1") for _ in edits)]
        return SimpleNamespace(program=programs.__getitem__)

    def said(self, edits, alone):
        """What is said of these edits of which the second ones can't share, by their names."""
        trials, said, self.builds = caught.Trials(), [], 0
        trials.tell = lambda edit, passed, text: said.append((edit.path.stem, text))
        trials.add(caught.try_together, "few", edits, alone)
        while not trials.tasks.empty():
            trials.tasks.get()(trials, self.room)
        return sorted(said)

    def test_each_edit_is_tried_once_and_the_bad_one_alone(self):
        names = ("a", "b", "bad", "c", "d", "type")
        edits = [edit_in(self.room, name, "test: one", "file: src/lib.rt", "old: MOST;", "new: 5;") for name in names]
        self.is_broken = False
        for self.is_named, builds in ((True, 2), (False, 6)):
            said = self.said(edits[:-1], edits[-1:])
            self.assertEqual(said, [(name, "tried alone" if name in ("bad", "type") else "seen by one") for name in names])
            self.assertEqual(self.builds, builds)

    def test_where_nothing_is_built_each_edit_is_told(self):
        edits = [edit_in(self.room, name, "test: one", "file: src/lib.rt", "old: MOST;", "new: 5;") for name in "abcd"]
        self.is_broken, self.is_named, text = True, False, "BAD EDIT: the tests of few can't be built without it: an error"
        self.assertEqual(self.said(edits[:3], edits[3:]), [(name, text) for name in "abcd"])


class Errors(InRoom):
    """What is said of edits that the compiler has to refuse, side by side."""

    def edit(self, name):
        return edit_in(self.room, name, "error: no such name", "file: src/lib.rt", "old:         return MOST;", f"new:         return {name};")

    def test_errors_are_told_apart_by_their_lines(self):
        crate_in(self.room)
        texts = shared_builds.shared_texts([self.edit("LEAST"), self.edit("FEW"), self.edit("SOME")], self.room)
        ((file, text),) = texts.items()
        least, few, own = (text.split("\n").index(f"        return {name};") + 1 for name in ("LEAST", "FEW", "MOST"))
        rows = (
            ("src/lib.rt", least, "error[unknown-name]: no LEAST,\n  which spans lines"),
            ("src/lib.rt", own, "error: in its own body"),
            ("src/other.rt", few, "error: in another file"),
            (file, few, "error: no FEW"),
            ("src/lib.rt", few, "warning: no error"),
            ("src/lib.rt", 3, "error: above all bodies"),
            ("src/lib.rt", least, "error: no more"),
        )
        said = "".join(f"{name}:{line}:9: {what}\n" for name, line, what in rows) + "run=none proved=no\n"
        found = shared_builds.errors_by_body(said, texts, self.room / "crates" / "few")
        self.assertEqual(found, {1: ["[unknown-name]: no LEAST,\n  which spans lines", ": no more"], 2: [": no FEW"]})

    def said(self, *rounds):
        """What is said of the edits, and which of them were built together, where each of these rounds finds these errors in them, by their names."""
        edits, built, said, left = [self.edit(name) for name in ("A", "B", "C", "D")], [], [], list(rounds)

        def build(crate, together, root, room):
            built.append("".join(edit.path.stem for edit in together))
            found = left.pop(0)
            if found is not None:
                raise shared_builds.NotShared("all", [(edit, found[edit.path.stem]) for edit in together if edit.path.stem in found])

        trials = caught.Trials()
        trials.tell = lambda edit, passed, text: said.append((edit.path.stem, passed))
        with mock.patch.object(caught, "SharedBuild", build), mock.patch.object(caught, "judge_error", lambda edit, root: ("alone", "")):
            caught.try_errors("few", edits, trials, self.room)
            while not trials.tasks.empty():
                trials.tasks.get()(trials, self.room)
        return "".join(f"{name}{'-' if passed is True else '?'}" for name, passed in sorted(said)), built

    def test_each_passes_by_an_error_of_its_own_or_alone(self):
        crate_in(self.room)
        its, other = ["another", "no such name `X`"], ["another"]
        for rounds, said, built in (
            ([{"A": its, "B": its, "C": its, "D": its}], "A-B-C-D-", ["ABCD"]),
            ([{"A": its, "B": other, "C": its, "D": its}], "A-B?C-D-", ["ABCD"]),  # another's error isn't its own
            ([{"A": its, "C": its, "D": its}], "A-B?C-D-", ["ABCD"]),
            ([{"A": its}, {"C": its, "D": other}], "A-B?C-D?", ["ABCD", "BCD"]),
            ([{"A": its}, {"B": its}, {"C": its, "D": its}], "A-B-C-D-", ["ABCD", "BCD", "CD"]),
            ([{"A": its}, {}], "A-B?C?D?", ["ABCD", "BCD"]),
            ([{"A": its}, None], "A-B?C?D?", ["ABCD", "BCD"]),  # they are built
        ):
            self.assertEqual(self.said(*rounds), (said, built))


class Build(InRoom):
    """What is said of edits that are built side by side."""

    def test_each_body_is_judged_by_itself(self):
        crate_in(self.room)
        first, second = ("given > MOST", "given > 1_000"), ("    2", "    4")
        meaningless = ("        return MOST;", "        return MOST + 0;")
        rows = {  # what each edit names and changes, and what has to be said of it
            "seen": ("firsts", first, "seen by firsts"),
            "unseen": ("firsts", meaningless, "NOT CAUGHT: firsts passes"),
            "seen_too": ("seconds", second, "seen by seconds"),
            "seen_by_another": ("seconds", first, "NOT CAUGHT: seconds passes"),
            "seen_by_the_first": ("firsts", second, "NOT CAUGHT: firsts passes"),
        }
        said, made = {}, self.room / "made"
        made.mkdir()
        self.addCleanup(setattr, caught, "SECONDS", caught.SECONDS)
        caught.SECONDS = 1
        edits = []
        for name, (test, (old, new), _) in rows.items():
            edits.append(edit_in(self.room, name, f"test: {test}", "file: src/lib.rt", f"old: {old}", f"new: {new}"))
        shared = shared_builds.SharedBuild("few", edits, self.room, made)
        own = caught.Own(shared.program(0))
        for number, edit in enumerate(edits, 1):
            said[edit.path.stem] = caught.judge(edit, shared.program(number), own)[1]
        self.assertEqual(said, {name: wanted for name, (_, _, wanted) in rows.items()})
        self.assertEqual((self.room / "crates" / "few" / "src" / "lib.rt").read_text(encoding="utf-8"), CRATE)

    def test_those_that_do_not_compile_are_named(self):
        crate_in(self.room)
        rows = {"good": ("    2", "    4"), "unknown": ("        return MOST;", "        return LEAST;"), "mismatched": ("    2", '    "2"')}
        edits = [edit_in(self.room, name, "test: firsts", "file: src/lib.rt", f"old: {old}", f"new: {new}") for name, (old, new) in rows.items()]
        with self.assertRaises(shared_builds.NotShared) as raised:
            shared_builds.SharedBuild("few", edits, self.room, self.room)
        found = [(edit.path.stem, errors) for edit, errors in raised.exception.errors]
        self.assertEqual([name for name, _ in found], ["unknown", "mismatched"])
        for (_, (error,)), text in zip(found, ("cannot find value `LEAST`", "expected `u32`, found `&str`")):
            self.assertIn(text, error)


if __name__ == "__main__":
    sys.exit(run_tests.main())
