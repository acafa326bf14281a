"""Wrong bodies side by side in one build, of which each program that is made of it has one.

A build takes a minute, and most tests a blink. So each function that wrong bodies change gets all of them beside its own body, and
learns from a function in C which of them is meant:

    match wrong_body() {
        1 => { the body that the first edit makes of it }
        2 => { the body that the second edit makes of it }
        _ => { its own body }
    }

The object that the compiler makes of the tests is linked with a `wrong_body` that answers a number, which the compiler doesn't see, and which
is another in each copy of the program. So the program of number N has the Nth body alone, and that of number 0 is the crate as it is. No body
can hide another, or pass for it.

An edit can share where it changes no more than what stands between the braces of functions: no signature, type or constant. It may add items
before or behind a line outside them (gate/bodies/additions.py): functions, types and constants, each with a name that stands nowhere else in
its crate, and impls of types that it adds. Nothing else can name these, so the other programs are as without them. An impl of any other type
would change what they run: such an edit can't share. What two edits add alike to a line stands there once.

Where the build fails, the compiler names the lines at fault, and so the bodies, and says of each what is wrong.
"""

import contextlib
import itertools
import re
import struct
import subprocess

from additions import CantShare, added, names_in, with_added
from edits import edited, replaced
from functions import spans
from programs import TESTS, NotBuilt, compiler, kit, link, object_of

SWITCH = 'unsafe extern "C" {\n    safe fn wrong_body() -> u32;\n}\n'
ALLOWED = {"RT_ALLOW_C": "1"}  # what has rt take that function
ARM = re.compile(r"(\d+|_) => \{")  # the line at which a body begins beside others
TOLD = re.compile(r"^(\S+\.rt):(\d+):\d+: (\w+)")  # how what the compiler says of a line begins: its file, number, and what it is
ENDED = "run="  # how the line begins by which rt tells what came of all
MARK = b"wrong body here:"  # behind which the number is in a program
ANSWER = """\
static const volatile struct {{ char mark[{size}]; unsigned number; }} own = {{"{mark}", {number}}};
unsigned wrong_body(void) {{ return own.number; }}
"""


class NotShared(NotBuilt):
    """Bodies couldn't be built beside one another. It has those in which the compiler found errors, and the texts of these, each body's own."""

    def __init__(self, said, errors):
        super().__init__(said)
        self.blamed, self.errors = [edit for edit, _ in errors], errors


def closes_more(body):
    """Whether a brace in a body closes what none in it opened, also one in a text."""
    return min(itertools.accumulate({"{": 1, "}": -1}.get(it, 0) for it in body), default=0) < 0


def other_bodies(before, after):
    """The lines between the braces of each function that is changed, by the lines before the change that open and close its body, and what is
    added before and behind lines outside functions, by their numbers. An edit changes what stands in lines, and never how many there are."""
    own, found, additions = [span for _, *span in spans(before)], {}, {}
    for at, (old, new) in enumerate(zip(before, after)):
        if old != new:
            span = next(((opens, closes) for opens, closes in own if opens <= at < closes), None)
            if not span:
                additions[at] = added(before, at, new)
                continue
            if at == span[0] and not new.startswith(old):
                raise CantShare(f"it changes more than bodies of functions: {old.strip()}")
            opens, closes = span
            found[span] = [after[opens][len(before[opens]) :], *after[opens + 1 : closes]]
            if closes_more("\n".join(found[span])):
                raise CantShare(f"it closes the function, and opens another: {new.strip()}")
    return found, additions


def see_new(additions, folder):
    """CantShare where a name in one of these added texts stands in a source of the crate in this folder already."""
    names = {name for text in additions for name in names_in(text)}
    sources = (file.read_text(encoding="utf-8") for file in (folder / "src").rglob("*.rt")) if names else ()
    old = sorted(names.intersection(word for text in sources for word in re.findall(r"\w+", text)))
    if old:
        raise CantShare(f"it adds what has the name of something else: {', '.join(old)}")


def side_by_side(lines, arms, additions):
    """The text of these lines, with what is added to some, and the numbered bodies that functions get beside their own."""
    lines = with_added(lines, additions)
    for (opens, closes), wrong in sorted(arms.items(), reverse=True):
        switch = ["match wrong_body() {"]
        for number, body in wrong:
            switch += [f"{number} => {{", *body, "}"]
        lines[opens + 1 : closes] = [*switch, "_ => {", *lines[opens + 1 : closes], "}", "}"]
    return "\n".join(lines) + (SWITCH if arms else "")


def shared_texts(edits, root):
    """The texts that have the bodies of all these edits, numbered from 1 on, by their files in the copy at root."""
    before, arms, additions = {}, {}, {}
    for number, edit in enumerate(edits, 1):
        for file, text in edited(edit, root).items():
            before[file] = file.read_text(encoding="utf-8").split("\n")
            bodies, own = other_bodies(before[file], text.split("\n"))
            see_new([it for pair in own.values() for it in pair], root / "crates" / edit.crate)
            for span, body in bodies.items():
                arms.setdefault(file, {}).setdefault(span, []).append((number, body))
            for at, pair in own.items():
                additions.setdefault(file, {}).setdefault(at, []).append(pair)
    return {file: side_by_side(lines, arms.get(file, {}), additions.get(file, {})) for file, lines in before.items()}


def errors_in(said):
    """The errors in what the compiler says, each with its file, the number of its line, and its text, which may have several lines."""
    found = []
    for line in said.splitlines():
        told = TOLD.match(line)
        if told or line.startswith(ENDED):
            found.append((told[1], int(told[2]), told[3], [line[told.end() :]]) if told else ("", 0, "", []))
        elif found:
            found[-1][-1].append(line)
    return [(file, number, "\n".join(lines)) for file, number, kind, lines in found if kind == "error"]


def errors_by_body(said, texts, folder):
    """The texts of the errors that the compiler found in bodies as it built the crate in this folder with these texts, by their files: by the numbers
    of the bodies at whose lines they are."""
    lines, errors = {file.resolve(): text.split("\n") for file, text in texts.items()}, {}
    for file, line, text in errors_in(said):
        above = lines.get((folder / file).resolve(), [])[:line]
        arm = next((found[1] for found in map(ARM.fullmatch, reversed(above)) if found), "_")
        if arm != "_":
            errors.setdefault(int(arm), []).append(text)
    return errors


def apart(edits, blamed):
    """Those of these edits that are to be tried each by itself, since they couldn't be together, and lists of the others that may be: all but those
    in which the compiler found errors, or, if it named none, halves."""
    if not edits[1:]:
        return edits, []
    if blamed:
        others = [edit for edit in edits if edit not in blamed]
        return blamed, [others] if others else []
    return [], [edits[: len(edits) // 2], edits[len(edits) // 2 :]]


def can_share(edit, root):
    """Whether the body can stand beside others."""
    try:
        shared_texts([edit], root)
    except CantShare:
        return False
    return True


@contextlib.contextmanager
def beside_their_own(edits, root):
    """Gives the copy at root the bodies of all these edits beside its own ones, and takes them away at the end."""
    # Rt takes a function in C from a crate with such a folder alone.
    folders = {root / "crates" / edit.crate / "c" for edit in edits}
    with contextlib.ExitStack() as undo:
        for folder in folders:
            folder.mkdir()
            undo.callback(folder.rmdir)
        undo.enter_context(replaced(shared_texts(edits, root)))
        yield


def answer(number, room):
    """The object of a `wrong_body` that answers this number, made in the room."""
    made = room / f"wrong_body-{number}.o"
    words = [*compiler(kit())[:2], "-c", "-x", "c", "-", "-o", made]
    subprocess.run(words, input=ANSWER.format(size=len(MARK), mark=MARK.decode(), number=number).encode(), check=True)
    return made


def renumbered(program, number, copy):
    """Copies a program that was linked with the number 0, with this one in its place. Another process writes the copy: what a thread of this one
    has open to write, a process that another thread starts meanwhile has open too, and as long as it has, the copy can't be run."""
    parts = program.read_bytes().split(MARK + struct.pack("=I", 0))
    if len(parts) != 2:
        raise OSError(f"{program} has {len(parts) - 1} places for the number of a body, and not one")
    subprocess.run(["install", "-m", "755", "/dev/stdin", copy], input=(MARK + struct.pack("=I", number)).join(parts), check=True)


class SharedBuild:
    """The tests of a crate of the copy at root, or its program if no kind is given, with the bodies of all these edits, built in the room, an
    empty folder."""

    def __init__(self, crate, edits, root, room, kind=(TESTS,)):
        self.room, folder = room, root / "crates" / crate
        try:
            with beside_their_own(edits, root):
                self.made = object_of(folder, room, *kind, **ALLOWED)
        except NotBuilt as why:
            errors = errors_by_body(why.said, shared_texts(edits, root), folder)
            raise NotShared(why.said, [(edit, errors[number]) for number, edit in enumerate(edits, 1) if number in errors]) from why

    def program(self, number):
        """The program with the body of this number, or as the crate is with 0."""
        first, program = (self.room / f"tests-{name}" for name in ("linked", number))
        if not first.is_file():
            link([self.made, answer(0, self.room)], first)
        renumbered(first, number, program)
        return program
