"""Tests of what is said of wrong bodies that can be built no more."""

import tempfile
import unittest
from pathlib import Path
from types import SimpleNamespace
from unittest import mock

import bodies
from build import CantBuild

CRATE = """\
fn next(number: u8) -> u32 {
    let wide = u32::from(number);
    wide + 1
}

fn twice(number: u8) -> u32 {
    next(number) * 2
}
"""
EDITS = {  # what is replaced by what, and how what is said of it begins
    "well": ("wide + 1", "wide + 2", "it is built"),
    "beside": ("wide + 1", "wide + 3", "it is built"),
    "unknown": ("next(number) * 2", "nest(number) * 2", "WRONG: BAD EDIT: it can't be built: no nest"),
    "other": ("next(number) * 2", "next(number) * 3", "it is built"),
    "gone": ("narrow + 1", "narrow + 2", "WRONG: BAD EDIT: an 'old:' text stands 0 times"),
    "outside": ("fn twice(number: u8)", "fn thrice(number: u8)", "WRONG: BAD EDIT: it changes more than bodies"),
}


def compiled(crate, _room, **_how):
    """Stands for the compiler, which knows each name but one."""
    if "nest(" in (crate.parent / "few" / "src" / "lib.rt").read_text(encoding="utf-8"):
        raise CantBuild("no nest")
    return ["some object"]


class Bodies(unittest.TestCase):
    def test_those_that_can_be_built_no_more_are_told(self):
        with tempfile.TemporaryDirectory(prefix="bodies-") as room:
            folder = Path(room) / "crates" / "few"
            for name in ("src", "scheduled"):
                (folder / name).mkdir(parents=True)
            (folder / "src" / "lib.rt").write_text(CRATE, encoding="utf-8")
            paths = [folder / "scheduled" / f"{name}.edit" for name in EDITS]
            for path, (old, new, _) in zip(paths, EDITS.values()):
                path.write_text(f"scene: any\nfile: src/lib.rt\nold: {old}\nnew: {new}\n", encoding="utf-8")
            with mock.patch.object(bodies, "compiled", compiled), mock.patch("builtins.print") as said:
                results = bodies.try_bodies(paths, [SimpleNamespace(name="any")], Path(room), 1, searched=())
        self.assertEqual((results.count(True), results.count(False)), (3, 3))
        told = dict(call.args[0].removeprefix("found few/").split(".edit: ", 1) for call in said.call_args_list)
        for name, (_, _, text) in EDITS.items():
            self.assertEqual(told[name][: len(text)], text)
