"""Wrong bodies that no contract sees, as they are kept in crates/NAME/caught/*.edit, and in crates/NAME/scheduled/*.edit those that
gate/schedules finds: what such a file says, and what it makes of a copy of the repository.

The first line says what has to come of the body:

    test: FUNCTION      this test of the crate fails
    refused: FUNCTION   this test, of a module `refusals`, is WRONG for gate/refusals/refused.py
    error: TEXT         the compiler says this
    output: LINE        of two outputs of the crate's program, the stored one and that with the body, one alone has this line
    scene: NAME         an outcome of this scene of gate/schedules is wrong

The test is named by the end of its path. A line 'of: NAME' may follow where it is a test of another crate, which stands above the edit's.
Then come, as in a must-fail edit, lines 'file: src/..', 'old: TEXT' and 'new: TEXT': the text, which stands once, is replaced.
"""

import contextlib
import re
from dataclasses import dataclass, field
from pathlib import Path

# How a function begins, in a file that `rt fmt` laid out: how far it is indented, and its name.
FUNCTION = re.compile(r'( *)(?:pub(?:\([a-z ]+\))? )?(?:const )?(?:unsafe )?(?:extern "C" )?fn (\w+)')
WANTS = ("test", "refused", "error", "output", "scene")


class BadEdit(Exception):
    """The edit can't be read, or can't be applied."""


class NoSuchEdit(Exception):
    """A word that was to choose edits is in the path of none."""


@dataclass
class Edit:
    """A wrong body: what has to come of it (one of WANTS), the test, error or line that this names, the crate whose test it is, and what is
    replaced by what, file by file."""

    path: Path
    want: str = ""
    name: str = ""
    of: str = ""
    changes: list = field(default_factory=list)

    @property
    def crate(self):
        """The name of the crate that is changed."""
        return self.path.parent.parent.name

    def __str__(self):
        return f"{self.crate}/{self.path.name}"


def changes_in(lines):
    """What the lines of an edit replace by what, file by file."""
    changes, file, old = [], None, None
    for line in lines:
        word, _, text = line.partition(": ")
        if word == "file":
            file = text.strip()
        elif word == "old":
            old = text
        elif word in ("new", "new:"):
            if not file or old is None:
                raise BadEdit("a 'new:' line stands before any 'file:' or 'old:' line")
            changes.append((file, old, text))
            old = None
    return changes


def chosen(paths, words, name=str):
    """Those of these files, in their order, of which a word is in the path, or in what else is to be the name; all where there are no words."""
    paths = sorted(paths)
    strange = [word for word in words if not any(word in name(path) for path in paths)]
    if strange:
        raise NoSuchEdit(f"no wrong body has this in its path: {', '.join(strange)}")
    return [path for path in paths if not words or any(word in name(path) for word in words)]


def read_edit(path):
    """The edit in a file."""
    lines = path.read_text(encoding="utf-8").splitlines()
    edit = Edit(path, changes=changes_in(lines))
    for line in lines:
        word, _, text = line.partition(": ")
        if word in WANTS and not edit.want:
            edit.want, edit.name = word, text.strip()
        elif word in WANTS:
            raise BadEdit(f"it wants more than one of {', '.join(WANTS)}")
        elif word == "of":
            edit.of = text.strip()
    if not edit.name or not edit.changes:
        wanted = "'test: FUNCTION', 'refused: FUNCTION', 'error: TEXT', 'output: LINE' or 'scene: NAME'"
        raise BadEdit(f"it has no line {wanted}, or no pair 'old:' and 'new:'")
    if not edit.of:
        edit.of = edit.crate
    return edit


def changed(changes, folder):
    """The changed texts, by their files in the folder of a crate."""
    texts = {}
    for name, old, new in changes:
        file = folder / name
        if file not in texts:
            if not file.is_file():
                raise BadEdit(f"there is no file {name}")
            texts[file] = file.read_text(encoding="utf-8")
        found = texts[file].count(old)
        if found != 1:
            raise BadEdit(f"an 'old:' text stands {found} times in {name}, and not once")
        texts[file] = texts[file].replace(old, new)
    return texts


def edited(edit, root):
    """The changed texts, by their files in the copy at root."""
    if not all(name.startswith("src/") for name, _, _ in edit.changes):
        raise BadEdit("a 'file:' line names no file below src/")
    return changed(edit.changes, root / "crates" / edit.crate)


@contextlib.contextmanager
def replaced(texts):
    """Gives files these texts, and their own back at the end."""
    kept = {file: file.read_bytes() for file in texts}
    try:
        for file, text in texts.items():
            file.write_text(text, encoding="utf-8")
        yield
    finally:
        for file, text in kept.items():
            file.write_bytes(text)


def applied(edit, root):
    """Changes the copy at root, and changes it back at the end."""
    return replaced(edited(edit, root))


def ends_in(path, name):
    """Whether a test's path is the name, or ends in it."""
    return f"::{path}".endswith(f"::{name}")
