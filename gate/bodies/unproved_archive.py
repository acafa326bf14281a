"""The archive of a crate's exports for C, built without proofs, so that the tests of clients can be run over wrong bodies: `rt lib` proves each.

What `rt try` makes without a proof is a program of tests. So each export gets a test that would call it, and its code is taken from the
object of these tests: under its name in C, with what it reaches and nothing else. Several bodies share a build as those for tests do
(gate/bodies/shared_builds.py).
"""

import re
import subprocess

from edits import replaced
from programs import TESTS, object_of
from shared_builds import ALLOWED, answer, beside_their_own

EXPORT = re.compile(r'^#\[unsafe\(no_mangle\)\]\npub extern "C" fn (\w+)\(([^)]*)\)', re.M)


def test_of(name, parameters):
    """A test that would call the export, which has these parameters, but has nothing to call it with."""
    pairs = [it.strip().split(": ", 1) for it in parameters.split(",") if it.strip()]
    names, types = ("".join(f"{it}, " for it in column) for column in zip(*pairs)) if pairs else ("", "")
    given = f"    let given: Option<({types})> = None;\n    if let Some(({names})) = given {{\n        let _ = {name}({names});\n    }}\n"
    return f"\n#[test]\nfn reaches_{name}(rt: HostRuntime) {{\n{given}}}\n"


def exports_of(crate):
    """The files of the crate that have exports, with the tests of these, and the name in C of each export, by its path."""
    texts, names = {}, {}
    for file in sorted((crate / "src").rglob("*.rt")):
        text = file.read_text(encoding="utf-8")
        found = EXPORT.findall(text)
        if found:
            texts[file] = text + "".join(test_of(*it) for it in found)
            module = [part for part in file.relative_to(crate / "src").with_suffix("").parts if part not in ("lib", "mod")]
            names.update({"::".join([crate.name, *module, name]): name for name, _ in found})
    return texts, names


def object_of_exports(crate, room, **environment):
    """The object of the exports of the crate in this folder of a copy, made in the room, an empty folder."""
    texts, names = exports_of(crate)
    with replaced(texts):
        made = object_of(crate, room, TESTS, **environment)
    renamed, kept, named, part = (room / name for name in ("renamed", "kept", "named.o", "part.o"))
    renamed.write_text("".join(f"{path} {name}\n" for path, name in names.items()), encoding="ascii")
    kept.write_text("".join(f"{name}\n" for name in names.values()), encoding="ascii")
    for words in (
        ["objcopy", f"--redefine-syms={renamed}", f"--globalize-symbols={kept}", "--localize-symbol=main", made, named],
        ["ld", "-r", "--gc-sections", *(f"--undefined={name}" for name in names.values()), "-o", part, named],
    ):
        subprocess.run(words, check=True)
    return part


class Exports:
    """The exports of a crate of the copy at root, with these bodies of its functions side by side, built in the room, an empty folder."""

    def __init__(self, crate, bodies, root, room):
        self.room = room
        with beside_their_own(bodies, root):
            self.exports = object_of_exports(root / "crates" / crate, room, **ALLOWED)

    def archive(self, number):
        """The archive with the body of this number, or of the crate as it is with 0."""
        archive = self.room / f"exports-{number}.a"
        subprocess.run(["ar", "rcs", archive, self.exports, answer(number, self.room)], check=True)
        return archive
