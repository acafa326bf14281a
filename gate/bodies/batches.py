"""Wrong bodies of several functions in one check, and what the check says of each.

No function's theorem rests on another's body, and the checker goes on behind a function that it can't prove. So a check may have a wrong
body in each of many functions, and each is judged by what is said of its own function alone:

- It is refused where `search` left a goal of that function, where an error stands in that function's own folder of proofs, or where a loop
  that the body adds is asked for a measure.
- An error of proofs that name what the edit took away, as a variable or a goal, or that aren't read at all, shows nothing of the contract: it
  doesn't count.
- A check without a line for the function says nothing of it.

A body is given by its function, named by the end of its name as `rt check` prints it, and by what is replaced by what. It may change that
function's body and that function's own files below proofs/, and nothing else. Each text is put at its place in the crate's own text, so
that what one body writes can't be what another looks for.
"""

import re
import shutil
from dataclasses import dataclass, field
from pathlib import Path

from copies import crates, linked
from edits import BadEdit, replaced
from functions import function_at, starts_of
from programs import kit
from repository import TOP, said_by
from spared import emptied, spared

TOLD = re.compile(r"^fn (\S+): (.*)$", re.MULTILINE)
PROVED = re.compile(r"(?:proved(?: where its callers give what it asks)?|assumed)(?:, may wait)?(?:, may abort)?")
CALLS = re.compile(r"no proof: it calls [^;]*, which (?:is|are) not proved")  # nothing else is missing
PARTS = ("src", "specs", "proofs")  # what a check reads of a crate
NOTHING = ("nothing", "//! Nothing.\n")  # a crate that has nothing, and the text of its root
LEFT = re.compile(r"`search` did not prove ((?:`[^`]*`(?:, (?:and )?| and )?)+)")
MEASURE = re.compile(r"expected a measure in ")
GOAL = re.compile(r"`([^`]*)`")
ERROR = re.compile(r"^(?:\./)?(proofs/\S+?):\d+:\d+: error: (.*(?:\n  .*)*)", re.MULTILINE)
GONE = re.compile(r"has no field|is not in scope|has no `|was not admitted|is no name|projects from a record, but|rattle does not read")
UNREAD = re.compile(r"^(?:\./)?(src/\S+?):(\d+):\d+: error\b.*", re.MULTILINE)
NO_FUNCTION = re.compile(r"has no function `([^`]*)`")  # the check stops at the first name of none


@dataclass(eq=False)
class Body:
    """A wrong body: what it is called, its crate, its function, what is replaced, as (file, first, end, new text) in the crate's own
    texts, and what files it adds."""

    label: str
    crate: str
    function: str
    places: list = field(default_factory=list)
    files: dict = field(default_factory=dict)

    def __str__(self):
        return self.label


def is_of(function, name, around):
    """Whether a function of this name, in an impl of that type or in none, can be the one that is meant."""
    *types, last = function.split("::")
    return last == name and (not types or around is None or around[0].upper() + around[1:] in types[-1])


def placed(label, folder, function, changes):
    """The wrong body of a function of the crate in this folder that the changes make."""
    body = Body(label, folder.name, function)
    for file, old, new in changes:
        path = folder / file
        text = path.read_text(encoding="utf-8") if path.is_file() else ""
        if text.count(old) != 1:
            raise BadEdit(f"an 'old:' text stands {text.count(old)} times in {file}, and not once")
        at = text.index(old)
        if file.startswith("src/"):
            name, around, opens, closes = function_at(text, at)
            if not is_of(function, name, around) or not opens <= at < at + len(old) <= closes:
                raise BadEdit(f"{file} is changed outside the body of {function}: {old.strip()}")
        elif not file.startswith("proofs/") or f"/{function.replace('::', '/')}/" not in file:
            raise BadEdit(f"{file} is no proof file of {function}")
        body.places.append((file, at, at + len(old), new))
    if not any(file.startswith("src/") for file, *_ in body.places):
        raise BadEdit("it changes no body")
    return body


def batches(bodies):
    """The bodies of a crate in as few lists as there may be with no function twice."""
    left = list(bodies)
    while left:
        batch = list({body.function: body for body in reversed(left)}.values())
        yield batch
        left = [body for body in left if body not in batch]


def texts_with(bodies, folder, more=()):
    """The texts that have all these bodies, and what more places are given, by their files in the folder of their crate."""
    texts, places = {}, [*(place for body in bodies for place in body.places), *more]
    for file in {file for file, *_ in places}:
        path = folder / file
        text, end = path.read_text(encoding="utf-8"), None
        for first, last, new in sorted((place[1:] for place in places if place[0] == file), reverse=True):
            if end is not None and last > end:
                raise BadEdit(f"two bodies change one place of {file}")
            text, end = text[:first] + new + text[last:], first
        texts[path] = text
    return texts


def build_below(name):
    """Has the libraries below this crate stand as they were built last. `rt ci` leaves them as its own proofs used them, without a stamp, so
    that `rt check` would prove each once more: where all are so, nothing is to be done."""
    built = [(Path(it.rlib), Path(it.rlib).parent / "stamp") for it in crates()[name].below()]
    if any(not library.is_dir() or stamp.exists() for library, stamp in built):
        said_by("rt", "check", "--only", "no function", folder=TOP / "crates" / name)


def copies_of(names, room):
    """The folders of these crates in a copy, by their names, with what earlier checks of them kept, and with the libraries below them, which
    may be built anew meanwhile where they are. The copy is made in the room, an empty folder."""
    for name in names:
        build_below(name)
    kept = [(name, "incremental") for name in names] + [(it.name, "rlib") for it in {it for name in names for it in crates()[name].below()}]
    for name, part in kept:
        own, copy = (top / "crates" / name / "out" / part for top in (TOP, room))
        if own.is_dir():
            shutil.copytree(own, copy, copy_function=linked)
    for name, part in ((name, part) for name in names for part in PARTS):
        own, copy = (top / "crates" / name / part for top in (TOP, room))
        if own.is_dir():
            shutil.copytree(own, copy)
    root = root_of_nothing(room / "crates")
    root.parent.mkdir(parents=True, exist_ok=True)
    root.write_text(NOTHING[1], encoding="utf-8")
    return {name: room / "crates" / name for name in names}


def root_of_nothing(crates_folder):
    """The root of the crate that has nothing, beside the crates of a copy."""
    return crates_folder.parent / NOTHING[0] / "lib.rt"


def checker_of(folder):
    """The words of a check of the crate in this folder of a copy, over the libraries there. A library isn't checked by itself, but below a
    crate that has nothing: for the crate by itself the checker runs once more, to print what could be written into the proofs of each
    function that it refuses."""
    words = crates()[folder.name].words(["--jobs", "1"], keeps=False)
    own = [word.replace(f"{TOP}/crates/", f"{folder.parent}/") for word in words]
    _, name, root, *below = own[: own.index("--links")]
    if root == "src/lib.rt":
        used = ",".join(word.partition("=")[0] for option, word in zip(below, below[1:]) if option == "--extern")
        library = ["--lib", f"{name}:{used}={root}"]
        own = ["--crate-name", NOTHING[0], str(root_of_nothing(folder.parent)), *library, *below, "--jobs", "1"]
    return [str(kit() / "bin" / "rattle"), "check", *own, "--incremental", "out/incremental"]


def check(bodies, folder, only=True, proved=()):
    """What a check of the functions of these bodies, or else of the whole crate with them, says, in the folder of a copy of their crate,
    whose texts are its own again afterwards. A name that is no function's is left out, so that it hides nothing of the others. The
    functions that are proved already are spared."""
    functions, stops = list(dict.fromkeys(body.function for body in bodies)) if only else [], []
    texts = texts_with(bodies, folder, emptied(proved, bodies, folder))
    with replaced(texts), spared(proved, bodies, folder):
        while True:
            said = said_by(*checker_of(folder), *(word for function in functions for word in ("--only", function)), folder=folder)[1]
            found = NO_FUNCTION.search(said)
            if not found or found[1] not in functions:
                return "".join([*stops, said])
            stops.append(said)
            functions.remove(found[1])
            if not functions:
                return "".join(stops)


def unread(bodies, folder, said, proved=()):
    """The bodies in whose functions the compiler found an error, each with the first one, where a check of these bodies told nothing of any
    function for that; it spared the functions that are proved already."""
    if TOLD.search(said):
        return {}
    texts, found = texts_with(bodies, folder, emptied(proved, bodies, folder)), {}
    for error in UNREAD.finditer(said):
        text = texts.get(folder / error[1], "")
        try:
            name, around, *_ = function_at(text, starts_of(text.split("\n"))[int(error[2]) - 1])
        except (BadEdit, IndexError, ValueError):
            continue
        for body in bodies:
            if any(file == error[1] for file, *_ in body.places) and is_of(body.function, name, around):
                found.setdefault(body, error[0])
    return found


def goals_of(name, text, said):
    """The goals of its own at which a check refused the function of this name, of which it tells the text."""
    if PROVED.fullmatch(text):
        return []
    left = LEFT.search(text)
    own = f"proofs/{'/'.join(name.split('::')[1:])}/"
    errors = [error.splitlines()[:2] for file, error in ERROR.findall(said) if file.startswith(own)]  # what is gone stands there
    goals = GOAL.findall(left[1]) if left else []
    goals += ["a loop's measure"] * bool(MEASURE.search(text))
    return goals + [error[0][:60] for error in errors if not any(GONE.search(line) for line in error)]


def told_of(function, said):
    """What a check tells of the function that is meant, and behind it of the closures in it, each by its name; empty where no one function is
    meant."""
    told = TOLD.findall(said)
    own = [(name, text) for name, text in told if f"::{name}".endswith(f"::{function}")]
    if len(own) != 1:
        return {}
    module, _, last = own[0][0].rpartition("::")
    return dict(own + [(name, text) for name, text in told if name.startswith(f"{module}::fn::{last}::")])


def is_proved(function, said):
    """Whether a check proved all goals of the function, and of the closures in it: what it calls may have a wrong body."""
    told = told_of(function, said)
    return bool(told) and all((PROVED.fullmatch(text) or CALLS.fullmatch(text)) and not goals_of(name, text, said) for name, text in told.items())


def judge(function, said):
    """The goals of its own at which a check refused a function, and what else is said of it."""
    told = told_of(function, said)
    if not told:
        count = sum(f"::{name}".endswith(f"::{function}") for name, _ in TOLD.findall(said))
        return [], f"the check has {count} lines for {function}; it ends: {said.strip()[-300:]}"
    return [goal for name, text in told.items() for goal in goals_of(name, text, said)], next(iter(told.values()))


def strangers(bodies, said):
    """The functions that a check refused at goals of their own though none of these bodies changes them."""
    own = {name for body in bodies for name in told_of(body.function, said)}
    return [name for name, text in TOLD.findall(said) if name not in own and goals_of(name, text, said)]


def judged(bodies, folder, proved=()):
    """Checks these bodies at once. Each with the goals of its own at which its function was refused, and with what else is said of it. The
    functions that are proved already are spared."""
    said = check(bodies, folder, proved=proved)
    others = strangers(bodies, said)
    if others:
        return [(body, [], f"{', '.join(others)} isn't proved, though nothing of it was changed") for body in bodies]
    return [(body, *judge(body.function, said)) for body in bodies]
