#!/usr/bin/env python3
"""Tries what no other part of the test command tries: the test command fails if a part of it is killed or never begins, and ends what a part started
if it is ended itself, what is kept by name is there, docs/TESTS.md counts right, a stored run tells of wrong bodies, and rows of wrong scripts, the
pictures of docs/ are what the scripts draw of the stored figures, the number of checks side by side is one that the machine has processors for, a
module's time is that since the one before, a number of crates.txt that is wrong is told, gate/pages/pages.py tells of a page of definitions that
doesn't say what the sources say, and gate/quick.py, over a small crate, passes what is right and nothing else.

usage: gate/small_test.py [WORD..]     with words: only the tests of whose names one is a part
"""

import os
import re
import subprocess
import sys
import tempfile
import time
import unittest
from pathlib import Path
from unittest import mock

import find_modules  # has Python find the next ones
import definitions
import machine
import pages
import proof_times
import quick
import refuser
import repository
import run_tests
import stored_runs
import users_caught
import verdicts
import waiting
from repository import TOP

GLANCE = re.compile(rb"subject|table 100000 |hot |live 10000 12|live 1000000 14|named 1000000 8|crowd")  # the calls of README's picture
PICTURES = [  # the script, what it reads, which lines of that, and what it draws
    ("ratios.py", "speed.txt", None, "speed.svg"),
    ("ratios.py", "speed.txt", GLANCE, "glance.svg"),
    ("clients.py", "BENCHMARKS.md", None, "clients.svg"),
    ("curves.py", "growth.txt", None, "growth.svg"),
]
RIGHT = """\
//! What is proved.
#![tactic(auto)]

ghost use Rattle.std.specs.Prelude.{◌≡◌, ◌+◌};

/// The number after it.
pub fn next(number: u8) -> u32
    ensures { result ≡ number + 1 }
{
    u32::from(number) + 1
}
"""
BODY = "function: next\nfile: src/lib.rt\nold: u32::from(number) + 1\nnew: u32::from(number) + 2\n"


class Gate(unittest.TestCase):
    """The test command, over parts that only say that they passed."""

    def setUp(self):
        room = tempfile.TemporaryDirectory()
        self.addCleanup(room.cleanup)
        self.top = Path(room.name)
        script = (TOP / "test.sh").read_text(encoding="utf-8")
        self.part("test.sh", script)
        paths = {f"gate/{path}" for path in re.findall(r"(?:gate/|^\w+ )(\w+(?:/\w+)?\.py)", script, re.MULTILINE)}
        for path in {*paths, "bin/rt"}:
            self.part(path, "#!/bin/sh\necho '2 passed, 0 failed'\n")
        self.part("gate/machine/lanes.py", "#!/bin/sh\necho 1\n")

    def part(self, path, text):
        """Puts this in place of a part."""
        (self.top / path).parent.mkdir(parents=True, exist_ok=True)
        (self.top / path).write_text(text, encoding="utf-8")
        (self.top / path).chmod(0o755)

    def begun(self):
        """The command, which goes on."""
        environment = {**os.environ, "PATH": f"{self.top / 'bin'}:{os.environ['PATH']}"}
        return subprocess.Popen([self.top / "test.sh"], stdout=subprocess.PIPE, stderr=subprocess.STDOUT, text=True, env=environment)

    def ran(self):
        """The command's status, and its last line."""
        with self.begun() as command:
            said = command.communicate()[0]
        return command.returncode, said.splitlines()[-1]

    def test_all_parts_that_pass_are_counted(self):
        self.assertEqual(self.ran(), (0, "32 passed, 0 failed, 0 skipped"))

    def test_a_part_that_fails_fails_all(self):
        self.part("gate/clients/clients.py", "#!/bin/sh\necho '1 passed, 3 failed'\nexit 1\n")
        self.assertEqual(self.ran(), (1, "31 passed, 3 failed, 0 skipped"))
        self.part("gate/clients/clients.py", "#!/bin/sh\necho '2 passed, 0 failed'\nexit 1\n")
        self.assertEqual(self.ran(), (1, "32 passed, 1 failed, 0 skipped"))

    def test_a_part_that_is_killed_fails_all(self):
        for path in ("gate/clients/clients.py", "bin/rt"):
            with self.subTest(path):
                self.setUp()
                self.part(path, "#!/bin/sh\nkill -9 $$\n")
                self.assertEqual(self.ran(), (1, "30 passed, 1 failed, 0 skipped"))

    def test_parts_that_never_begin_fail_all(self):
        self.part("gate/machine/idle.py", "#!/bin/sh\nkill -9 $PPID\n")
        self.assertEqual(self.ran(), (1, "20 passed, 6 failed, 0 skipped"))

    def test_what_a_part_started_ends_with_the_command(self):
        started = self.top / "started"
        self.part("bin/rt", f"#!/bin/sh\nsleep 1000 &\necho $! > {started}.new\nmv {started}.new {started}\nwait\n")
        with self.begun() as command:
            while not started.exists():
                time.sleep(0.05)
            command.terminate()
        path = Path("/proc") / started.read_text(encoding="ascii").strip() / "cmdline"
        for _ in range(200):
            if not path.exists() or not path.read_bytes():  # gone, or it only waits to be asked how it ended
                return
            time.sleep(0.05)
        self.fail("it still runs")

    def test_an_edit_of_must_fail_that_is_bad_fails_all(self):
        self.part("bin/rt", "#!/bin/sh\necho 'rt: note: bad must-fail edits, as told above: 1.'\necho '2 passed, 0 failed'\n")
        self.assertEqual(self.ran(), (1, "32 passed, 1 failed, 0 skipped"))


class Kept(unittest.TestCase):
    def test_each_file_of_wrong_bodies_is_an_edit(self):
        for pattern in ("crates/*/refused", "crates/*/must-fail", "crates/*/caught", "crates/*/scheduled", "gate/clients/caught"):
            files = list(TOP.glob(f"{pattern}/*"))
            self.assertTrue(files, pattern)
            self.assertEqual([file for file in files if file.suffix != ".edit"], [], pattern)

    def test_tests_with_own_limits_of_requests_are_there(self):
        """`SPARED` names the beginnings of tests, too."""
        for name in {*refuser.SPARED, *refuser.FEW, *refuser.MANY}:
            _, module, test = name.split("::")
            files = TOP.glob(f"crates/test_*/src/refusals/{module}.rt")
            self.assertTrue(any(f"fn {test}" in file.read_text(encoding="utf-8") for file in files), name)


class Counted(unittest.TestCase):
    """What docs/TESTS.md counts."""

    def setUp(self):
        self.page = " ".join((TOP / "docs" / "TESTS.md").read_text(encoding="utf-8").split())

    def test_page_of_tests_tells_how_many_scenes_there_are(self):
        files = "\n".join(file.read_text(encoding="utf-8") for file in (TOP / "gate" / "schedules").glob("*scenes.txt"))
        every = re.split("^scene: ", files, flags=re.MULTILINE)[1:]
        by_order, named = ([scene for scene in every if f"\n{what}" in scene] for what in ("by order", "named"))
        both = [scene for scene in named if scene in by_order]
        self.assertIn(f"tried in {len(every)} small scenes", self.page)
        self.assertIn(f": {len(by_order)} run in all schedules", self.page)
        self.assertIn(f"the other {len(every) - len(by_order)} in those", self.page)
        self.assertIn(f"{len(named)} of the {len(every)} run over a set with a name, {len(both)} of these in all schedules", self.page)

    def test_page_of_tests_tells_how_many_wrong_bodies_there_are(self):
        scheduled = list(TOP.glob("crates/*/scheduled/*.edit"))
        clients = [file.read_text(encoding="utf-8") for file in TOP.glob("gate/clients/caught/*.edit")]
        exports = [text for text in clients if re.search("^crate: ", text, re.MULTILINE)]
        self.assertIn(f"{len(scheduled)} wrong bodies that only some schedule exposes", self.page)
        self.assertIn(f"{len(clients)} wrong bodies of all these files, {len(exports)} of them of the exports", self.page)
        scripts = list(TOP.glob("gate/users/caught/*.edit"))
        self.assertIn(f"the tests in `gate/users` see {len(scripts)} wrong changes", self.page)


class WrongScripts(unittest.TestCase):
    """What is said of a wrong change of a script, by what its test says, which is a script here."""

    SEES = "print('many row: ' + ('ok' if open('tools/tool.sh').read() == 'right\\n' else {fault!r}))\nprint({closing!r})\n"

    def said(self, closing, fault="WRONG", row="row"):
        with tempfile.TemporaryDirectory(prefix="wrong-scripts-") as room:
            root = Path(room)
            for folder in ("tools", "gate/users"):
                (root / folder).mkdir(parents=True)
            (root / "tools" / "tool.sh").write_text("right\n", encoding="ascii")
            (root / "gate" / "users" / "count_many_test.py").write_text(self.SEES.format(fault=fault, closing=closing), encoding="ascii")
            found = users_caught.judge(users_caught.Change("wrong", "many", row, (("tool.sh", "right", "wrong"),)), root)
            self.assertEqual((root / "tools" / "tool.sh").read_text(encoding="ascii"), "right\n")
            return found

    def test_a_row_that_fails_sees_it(self):
        self.assertEqual(self.said("0 passed, 1 failed"), (True, "seen by 'many row'"))

    def test_rows_that_pass_do_not(self):
        self.assertEqual(self.said("2 passed, 0 failed"), (False, "passes 'many row'"))

    def test_rows_that_are_not_run_or_a_script_that_is_none_do_not(self):
        for closing, fault in (("0 passed, 0 failed", "WRONG"), ("ended", "WRONG"), ("0 passed, 1 failed", "NameError: none")):
            well, text = self.said(closing, fault)
            self.assertFalse(well)
            self.assertIn("BAD EDIT: the rows 'row' weren't run", text)

    def test_a_row_whose_tool_is_missing_is_skipped(self):
        with self.assertRaises(verdicts.Skipped):
            self.said("0 passed, 0 failed", "skipped: it isn't here")


class StoredRuns(unittest.TestCase):
    """What the stored run of a program says of one with a wrong body: both are scripts here, which are given the line `line`."""

    def setUp(self):
        room = tempfile.TemporaryDirectory(prefix="stored-runs-")
        self.addCleanup(room.cleanup)
        self.crate = Path(room.name)
        for name, text in {"stdin": "line\n", "stdout": "line\n  more\n"}.items():
            (self.crate / name).write_text(text, encoding="ascii")

    def program(self, name, does):
        program = self.crate / name
        program.write_text(f"#!/bin/sh\n{does}\n", encoding="ascii")
        program.chmod(0o755)
        return program

    def said(self, line, wrong, own="cat; echo '  more'"):
        return stored_runs.judge_output(line, self.program("wrong", wrong), self.program("own", own), self.crate)

    def test_a_line_that_comes_or_is_missing_shows_a_body(self):
        for line, wrong in (("more", "cat"), ("less", "cat; echo less; echo '  more'"), ("line", "exit 1")):
            self.assertEqual(self.said(line, wrong), (True, f"seen by the stored run: {line}"))

    def test_another_line_or_none_does_not(self):
        self.assertEqual(self.said("line", "cat"), (False, "NOT CAUGHT: the stored run is another, but not by this line: line"))
        self.assertEqual(self.said("more", "cat; echo '  more'"), (False, "NOT CAUGHT: the stored run is the same"))

    def test_what_is_wrong_without_the_body_or_does_not_end_does_not(self):
        self.assertEqual(self.said("more", "cat", own="cat"), (False, "NOT CAUGHT: the stored run is another without the body as well"))
        with mock.patch.object(stored_runs, "SECONDS", 1):
            self.assertEqual(self.said("more", "exec sleep 30"), (False, "NOT CAUGHT: the stored run hasn't ended after 1 seconds"))


class Pictures(unittest.TestCase):
    def test_pictures_are_those_of_the_stored_figures(self):
        for script, figures, lines, picture in PICTURES:
            text = (TOP / "docs" / figures).read_bytes()
            if lines:
                text = b"".join(line for line in text.splitlines(keepends=True) if lines.match(line))
            drawn = subprocess.run([TOP / "gate" / "pictures" / script], input=text, stdout=subprocess.PIPE, check=True).stdout
            self.assertEqual(drawn, (TOP / "docs" / picture).read_bytes(), picture)


class Machine(unittest.TestCase):
    def lanes(self):
        return subprocess.run([TOP / "gate" / "machine" / "lanes.py"], stdout=subprocess.PIPE, check=True).stdout.decode()

    def test_there_is_a_check_for_each_processor_or_no_number(self):
        self.assertIn(self.lanes(), ("", f"{machine.processors()}\n"))
        self.assertGreater(machine.processors(), 0)

    def test_a_quota_is_an_upper_bound(self):
        with tempfile.TemporaryDirectory(prefix="machine-") as room, mock.patch.object(machine, "CGROUP", Path(room)):
            usual = machine.processors()
            (Path(room) / "cpu.max").write_text("150000 100000\n", encoding="ascii")
            self.assertEqual(machine.processors(), 1)
            (Path(room) / "cpu.max").write_text("max 100000\n", encoding="ascii")
            self.assertEqual(machine.processors(), usual)
            for name, bytes_ in (("memory.max", 5000), ("memory.current", 3000)):
                (Path(room) / name).write_text(f"{bytes_}\n", encoding="ascii")
            self.assertEqual(machine.free_memory(), 2000)


class Waiting(unittest.TestCase):
    LISTED = "# crates\nfew: core\nmore may_wait=2 staticlib: few\ntests tests_may=Threads+Wait: more\n"
    SAID = (
        "logic=proved functions=3 sum=1\nrt: few proved\nrt: other is kept: an earlier run proved it\n"
        "logic=proved functions=4 main=Wait may-wait=12 sum=1\nlinked more\nrt: more proved\nlogic=proved functions=0 sum=1\nrt: tests proved\n"
        "logic=proved tests=1 functions=9 may-abort=1 may-wait=7 sum=1\nrt: tests: its tests are proved\nrt: last proved\n"
    )

    def test_numbers_are_those_of_each_crate(self):
        self.assertEqual(waiting.listed(self.LISTED), {"few": 0, "more": 2, "tests": 0})
        self.assertEqual(waiting.counted(self.SAID), {"few": 0, "more": 12, "tests": 0})

    def test_another_number_is_told(self):
        with tempfile.TemporaryDirectory(prefix="waiting-") as room, mock.patch.object(waiting, "TOP", Path(room)):
            (Path(room) / "crates.txt").write_text(self.LISTED, encoding="utf-8")
            for said, status in ((self.SAID, 1), (self.SAID.replace("may-wait=12", "may-wait=2"), 0)):
                (Path(room) / "said").write_text(said, encoding="utf-8")
                with mock.patch.object(sys, "argv", ["waiting", f"{room}/said"]), mock.patch("builtins.print") as told:
                    self.assertEqual(waiting.main(), status)
                wrong = ["waiting more: WRONG: 12 functions may wait, and crates.txt says 2"]
                self.assertEqual([it.args[0] for it in told.mock_calls], wrong[:status])


class ProofTimes(unittest.TestCase):
    def test_a_module_took_the_time_since_the_one_before(self):
        modules = {"first": 1, "first.Lts": 2, "a.Type.next.Lts": 5, "a.Type.next.Tie.decls": 9}
        with tempfile.TemporaryDirectory(prefix="times-") as room:
            for module, at in modules.items():
                file = Path(room) / f"Rattle-few-proofs.{module}.oantt"
                file.touch()
                os.utime(file, (at, at))
            told = list(proof_times.lines_of(proof_times.times_of(Path(room), "few"), 1))
        self.assertEqual(told, ["     8.0 s in all", "     7.0 s a.Type.next: Tie 4.0, Lts 3.0"])


class Definitions(unittest.TestCase):
    """The page of definitions in a repository with two files of them, of which one uses the other."""

    def setUp(self):
        room = tempfile.TemporaryDirectory(prefix="definitions-test-")
        self.addCleanup(room.cleanup)
        self.top = Path(room.name)
        self.write("crates.txt", "few: core\n")
        self.write("docs/PROMISES.md", "")
        self.write("crates/few/specs/Few.antt", "-- Few.\n\n-- one\nabbrev pub one : ℕ\none = 1\n")
        self.write("crates/few/specs/More.antt", "use Rattle.few.specs.Few.{one}\n\npub record Two : Type 0 where\n  pub is : ℕ\n")
        self.write("docs/DEFINITIONS.md", definitions.page_of("# By hand\n\n" + definitions.MARKER, self.top))
        held = mock.patch.object(pages, "TOP", self.top)
        held.start()
        self.addCleanup(held.stop)

    def write(self, file, text):
        (self.top / file).parent.mkdir(parents=True, exist_ok=True)
        (self.top / file).write_text(text, encoding="utf-8")

    def changed(self, old, new):
        text = (self.top / "docs" / "DEFINITIONS.md").read_text(encoding="utf-8")
        self.assertIn(old, text)
        self.write("docs/DEFINITIONS.md", text.replace(old, new))

    def told(self):
        return [why for _, _, why in pages.wrong_definitions() if why]

    def test_what_is_written_passes(self):
        self.changed("By hand", "Also by hand")
        self.assertEqual(self.told(), [])

    def test_another_sentence_is_told(self):
        self.changed("- `one`: one", "- `one`: two")
        self.assertEqual(self.told(), ["the sources don't say: - `one`: two", "the sources say: - `one`: one"])

    def test_a_definition_without_a_comment_is_told(self):
        self.write("docs/PROMISES.md", "It is `Two`.\n")
        self.assertIn("Two has no comment in few/specs/More.antt", self.told())


class Quick(unittest.TestCase):
    """The steps of quick over a repository with one small crate."""

    def setUp(self):
        room = tempfile.TemporaryDirectory(prefix="quick-test-")
        self.addCleanup(room.cleanup)
        top = Path(room.name)
        self.folder = top / "crates" / "few"
        for file, text in {"src/lib.rt": RIGHT, "refused/two.edit": BODY, "../../crates.txt": "few: core\n", "../../HANDLES": "Handles allowed: none.\n"}.items():
            (self.folder / file).parent.mkdir(parents=True, exist_ok=True)
            (self.folder / file).write_text(text, encoding="utf-8")
        for module in (quick, repository):
            held = mock.patch.object(module, "TOP", top)
            held.start()
            self.addCleanup(held.stop)

    def changed(self, old, new):
        (self.folder / "src" / "lib.rt").write_text(RIGHT.replace(old, new), encoding="utf-8")

    def test_what_is_right_passes(self):
        for step in (quick.is_laid_out, quick.texts_stand, quick.is_proved):
            well, text = step("few")
            self.assertTrue(well, text)

    def test_a_test_that_is_out_of_time_is_told_apart(self):
        program = self.folder / "tests"
        rows = {  # what the second of two tests does, whether all is well, and what is said
            "exit 0": (True, "2 tests run, these failed: none"),
            "exit 3": (False, "2 tests run, these failed: other"),
            "exec sleep 30": (False, "2 tests run, these failed: none; these hadn't ended after 1 seconds, which other work may do too: other"),
        }
        for does, wanted in rows.items():
            program.write_text(f"#!/bin/sh\n[ $1 = --list ] && printf '%s: test\\n' one other\n[ $1 = other ] || exit 0\n{does}\n", encoding="ascii")
            program.chmod(0o755)
            with mock.patch.object(quick, "build", return_value=program), mock.patch.object(quick, "SECONDS", 1):
                self.assertEqual(quick.tests_pass("few"), wanted)

    def test_another_layout_fails(self):
        self.changed("u32::from(number) + 1", "u32::from( number ) + 1")
        self.assertFalse(quick.is_laid_out("few")[0])

    def test_a_text_that_does_not_stand_fails(self):
        self.changed("u32::from(number) + 1", "1 + u32::from(number)")
        self.assertFalse(quick.texts_stand("few")[0])

    def test_what_is_not_proved_fails(self):
        self.changed("u32::from(number) + 1", "u32::from(number) + 2")
        self.assertFalse(quick.is_proved("few")[0])


if __name__ == "__main__":
    sys.exit(run_tests.main())
