#!/usr/bin/env python3
"""Tries the scripts by which a user begins: a repository of each kind that tools/begin.py makes, whose example has to print by `rt try`
what is stored of it, and one of crates that are named, and the program that tools/try_atoms.py leaves, over its stored text and a large one, and
without random bytes. Each script of tools/ is asked for help, too.

usage: gate/users/users_test.py [WORD..]     with words: only the tests of whose names one is a part
"""

import os
import subprocess
import sys
import tempfile
import threading
import unittest
from pathlib import Path

sys.path.append(str(Path(__file__).resolve().parent.parent))
import find_modules  # has Python find the next ones
import run_tests
from programs import compiler, end_hint, kit
from repository import TOP

TOOLS = TOP / "tools"
OWN = ("must-fail", "refused", "caught", "scheduled", "out")  # parts of a crate for this repository alone
BESIDE = ("crates.txt", "HANDLES", "README.md", "LICENSE-MIT", "LICENSE-APACHE", ".gitignore")  # the crates that are begun
WORDS = 200_000  # of a text of more than a megabyte, which `rt try` doesn't take


def ran(*words, folder=TOP, text=b"", env=None):
    """The status of a command, and what it wrote to each of its outputs."""
    done = subprocess.run([*words], cwd=folder, input=text, stdout=subprocess.PIPE, stderr=subprocess.PIPE, env=env)
    return done.returncode, done.stdout, done.stderr.decode(errors="replace")


def tried(folder, text):
    """As `ran` of `rt try` in this folder, without the check beside it that gives a hint on names and takes as long."""
    how = {name: subprocess.PIPE for name in ("stdin", "stdout", "stderr")}
    started = subprocess.Popen(["rt", "try"], cwd=folder, **how)
    threading.Thread(target=end_hint, args=[started]).start()
    said, why = started.communicate(text)
    return started.returncode, said, why.decode(errors="replace")


def without_random_bytes(room):
    """The environment in which a command gets no random bytes from the system. What sees to that is made in the room, a folder."""
    source, library = room / "random.c", room / "random.so"
    source.write_text("int getentropy(void *room, unsigned long size) { (void)room; (void)size; return -1; }\n", encoding="utf-8")
    subprocess.run([*compiler(kit()), "-shared", "-fPIC", "-o", library, source], check=True)
    return {"LD_PRELOAD": str(library)}


def files_of(crate, but=()):
    """The files of a crate with their bytes, but for those in these parts of its folder."""
    parts = (path.relative_to(crate) for path in crate.rglob("*") if path.is_file())
    return {part: (crate / part).read_bytes() for part in parts if part.parts[0] not in but}


def stored(folder, name):
    path = folder / name
    return path.read_bytes() if path.is_file() else b""


class Help(unittest.TestCase):
    def test_each_script_tells_its_usage_and_does_nothing_else(self):
        scripts = sorted(path for path in TOOLS.iterdir() if path.is_file() and os.access(path, os.X_OK))
        self.assertIn("count_mapper.sh", [path.name for path in scripts])
        for script in scripts:
            for word in ("-h", "--help"):
                with self.subTest(script=script.name, word=word), tempfile.TemporaryDirectory(prefix="help-") as room:
                    before = sorted(TOOLS.iterdir())
                    env = {**os.environ, "TMPDIR": room, "PYTHONDONTWRITEBYTECODE": "1"}
                    status, said, why = ran(script, word, folder=room, env=env)
                    self.assertEqual((status, why), (0, ""))
                    self.assertRegex(said.decode(), rf"(?m)^usage: .*{script.name}")
                    self.assertEqual(list(Path(room).iterdir()), [])
                    self.assertEqual(sorted(TOOLS.iterdir()), before)


class Begin(unittest.TestCase):
    def setUp(self):
        room = tempfile.TemporaryDirectory(prefix="users-")
        self.addCleanup(room.cleanup)
        self.room = Path(room.name)

    def runs(self, kind, example):
        folder = self.room / "new" / kind
        status, said, _ = ran(TOOLS / "begin.py", kind, folder)
        self.assertEqual((status, said.decode().split()[:2]), (0, ["cd", str(folder / "crates" / example)]))
        crate = folder / "crates" / example
        status, said, why = tried(crate, stored(crate, "stdin"))
        self.assertEqual((status, said), (0, stored(TOP / "crates" / example, "stdout")), why)
        page, needs = (folder / "README.md").read_text(encoding="utf-8"), " < stdin" if stored(crate, "stdin") else ""
        self.assertIn(f"| `rt try{needs}` | `crates/{example}` |", page)

    def test_a_repository_over_sets_runs(self):
        self.runs("set", "example_hello")

    def test_a_repository_over_named_sets_runs(self):
        self.runs("named", "example_hello_named")

    def test_a_repository_over_tables_runs(self):
        self.runs("table", "example_scopes")

    def test_each_kind_is_begun_over_what_it_calls(self):
        atoms = {"text_forms", "node_chain", "counted_cell", "counted_set", "named_set", "set_atoms"}
        for kind, crates in (
            ("set", {"example_hello"} | atoms),
            ("named", {"example_hello_named"} | atoms),
            ("table", {"text_forms", "interner_table", "example_scopes"}),
        ):
            self.assertEqual(ran(TOOLS / "begin.py", kind, self.room / kind)[0], 0)
            self.assertEqual({path.name for path in (self.room / kind / "crates").iterdir()}, crates, kind)
            self.assertEqual({path.name for path in (self.room / kind).iterdir()}, {"crates", *BESIDE}, kind)
            for crate in crates:
                self.assertEqual(files_of(self.room / kind / "crates" / crate), files_of(TOP / "crates" / crate, OWN), crate)

    def test_crates_are_begun_with_those_that_they_stand_on(self):
        folder = self.room / "own"
        status, said, _ = ran(TOOLS / "begin.py", "--crates", "named_set,interner_table", folder)
        self.assertEqual((status, said.decode()), (0, f"{folder} has text_forms, interner_table, counted_cell, named_set\n"))
        lines = (folder / "crates.txt").read_text(encoding="utf-8").splitlines()
        self.assertEqual([line.partition(":")[0].split()[0] for line in lines], ["text_forms", "interner_table", "counted_cell", "named_set"])
        self.assertEqual({path.name for path in (folder / "crates").iterdir()}, {"text_forms", "interner_table", "counted_cell", "named_set"})
        self.assertEqual((folder / "HANDLES").read_text(encoding="utf-8"), "Handles allowed: Threads, Wait.\n")
        whole, listed = self.room / "whole", (TOP / "crates.txt").read_text(encoding="utf-8").splitlines()
        self.assertEqual(ran(TOOLS / "begin.py", "--crates", "string_cache", whole)[0], 0)
        names = {path.name for path in (whole / "crates").iterdir()}
        own = [line for line in listed if line.partition(":")[0].split()[:1] in [[name] for name in names]]
        self.assertEqual((whole / "crates.txt").read_text(encoding="utf-8").splitlines(), own)
        self.assertEqual(ran(TOOLS / "begin.py", "--crates", "interner_table", self.room / "one")[0], 0)
        self.assertEqual((self.room / "one" / "HANDLES").read_text(encoding="utf-8"), "Handles allowed: none.\n")

    def test_crates_without_a_name_here_are_refused(self):
        for words, status, why in (
            (["--crates", "nothing"], 1, "begin: nothing is no crate of crates.txt"),
            (["--crates", "named_set,"], 1, "begin:  is no crate of crates.txt"),
            ([], 2, "begin.py: error: either a kind or --crates"),
            (["table", "--crates", "named_set"], 2, "begin.py: error: either a kind or --crates"),
            (["--crates", "named_set", "table"], 2, "begin.py: error: either a kind or --crates"),
        ):
            found = ran(TOOLS / "begin.py", *words, self.room / "none")
            self.assertEqual(found[:2], (status, b""), words)
            self.assertIn(f"\n{why}", f"\n{found[2]}")
            self.assertFalse((self.room / "none").exists())

    def test_a_folder_that_can_not_be_made_is_told(self):
        own = self.room / "mine"
        own.write_text("kept", encoding="utf-8")
        for words in (["set"], ["--crates", "interner_table"]):
            status, said, why = ran(TOOLS / "begin.py", *words, own / "new")
            self.assertEqual((status, said), (1, b""))
            self.assertRegex(why, r"\Abegin: .*Not a directory.*\n\Z")
        self.assertEqual(own.read_text(encoding="utf-8"), "kept")

    def test_a_folder_with_a_space_is_gone_to(self):
        folder = self.room / "a new one"
        said = ran(TOOLS / "begin.py", "table", folder)[1].decode()
        there = ran("sh", "-c", f"{said.partition(' && ')[0]} && pwd")
        self.assertEqual(there, (0, f"{folder.resolve()}/crates/example_scopes\n".encode(), ""))

    def test_what_is_there_stays(self):
        own = self.room / "mine"
        own.write_text("kept", encoding="utf-8")
        self.assertNotEqual(ran(TOOLS / "begin.py", "set", self.room)[0], 0)
        self.assertEqual([path.name for path in self.room.iterdir()], ["mine"])
        self.assertNotEqual(ran(TOOLS / "begin.py", "set", own)[0], 0)
        self.assertEqual(own.read_text(encoding="utf-8"), "kept")
        self.assertNotEqual(ran(TOOLS / "begin.py", "map", self.room / "other")[0], 0)


class Program(unittest.TestCase):
    @classmethod
    def setUpClass(cls):
        room = tempfile.TemporaryDirectory(prefix="users-")
        cls.addClassCleanup(room.cleanup)
        cls.room = Path(room.name)
        status, _, why = ran(TOOLS / "try_atoms.py", cls.room)
        if status:
            raise OSError(why)

    def test_it_takes_texts_of_any_size(self):
        crate = TOP / "crates" / "atoms"
        words = stored(crate, "args").decode().split()
        self.assertEqual(ran(self.room / "atoms", *words, text=stored(crate, "stdin"))[:2], (0, stored(crate, "stdout")))
        words = sorted(b"word%d" % number for number in range(1000))
        lines = b"".join(b"%d %s\n" % (WORDS // len(words), word) for word in words)
        text = b" ".join(WORDS // len(words) * words)
        self.assertEqual(ran(self.room / "atoms", "count", "4", text=text)[:2], (0, lines))

    def test_it_tells_if_the_system_gives_no_random_keys(self):
        env = without_random_bytes(self.room)
        for line in (["words"], ["count", "1"], ["count", "4"]):
            self.assertEqual(ran(self.room / "atoms", *line, text=b"a b", env=env), (1, b"", "atoms: no random keys\n"))
        for line, text in ((["replay"], b"1 intern tokenised\n1 link\n1 leave\n"), (["generate", "0", "1"], b"sentence\n"), (["check"], b"")):
            given = ran(self.room / "atoms", *line, text=text)
            self.assertEqual(given[0], 0)
            self.assertEqual(ran(self.room / "atoms", *line, text=text, env=env), given)


if __name__ == "__main__":
    sys.exit(run_tests.main())
