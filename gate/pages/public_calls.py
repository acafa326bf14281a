"""The public calls of the crates as their sources have them, and the rows of the page that lists them, docs/CALLS.md."""

import itertools
import re
from dataclasses import dataclass

# The crates whose calls the page lists.
LISTED = ("text_forms", "interner_table", "atomic_steps", "counted_set", "named_set", "set_atoms", "table_generator")
LISTED += ("replay_script", "text_streams", "word_counts", "commands")

USE = re.compile(r"^ *(?:pub )?(?:ghost )?use ([^;]+?);?$", re.M)
MODULE = re.compile(r"^((?:#\[[^\n]*\n)*)(pub )?mod (\w+);", re.M)
EXPORT = re.compile(r"^((?:#\[[^\n]*\n)*)pub use ([^;]+);", re.M)
TYPE = re.compile(r"^pub (?:struct|enum|trait|type) (\w+)", re.M)
STEP = re.compile(
    r"^(?:(?P<pub>pub )?(?P<kind>impl|trait)\b(?P<head>[^{]*)\{|\}|"
    r"(?: {4})?(?P<marks>(?:#\[[^\n]*\n *|///[^\n]*\n *)*)(?P<is_pub>pub )?fn (?P<name>\w+)(?P<form>.*?)(?=\n\s+(?:requires|ensures)|\s*\{|;\n))",
    re.M | re.S,
)
ROW = re.compile(r"^\| `([^`|]+)` \| `(\w+)((?:<[^`]*?>)?\([^`]*)` \| (.*) \|$", re.M)


@dataclass(frozen=True)
class Call:
    """A call: the type or trait that it is of, or '' where it stands by itself; its name; its form, as it is compared; the first sentence of
    its comment; whether the page is to list it; and its crate."""

    owner: str
    name: str
    form: str
    meaning: str
    is_shown: bool
    crate: str


def packed(text):
    """The text without white space, and without the commas that the layout puts at the end of what stands one below the other."""
    return re.sub(r",(?=[)\]}>|])", "", re.sub(r"\s+", "", text))


def imports(text):
    """Each name that the text imports, by its whole path."""

    def paths(path):
        head, brace, inner = path.partition("{")
        parts = re.split(r",\s*(?![^{}]*\})", inner.rpartition("}")[0].strip().rstrip(","))
        return [head + it for part in parts for it in paths(part.strip())] if brace else [path]

    return {path for found in USE.findall(text) for path in paths(re.sub(r"\s+", " ", found))}


def modules(file, is_public=True):
    """The texts of a module and of those below it, each with whether all that is above it is public."""
    text = file.read_text(encoding="utf-8")
    yield text, is_public
    folder = file.parent if file.name in ("lib.rt", "main.rt") else file.with_suffix("")
    for marks, public, name in MODULE.findall(text):
        if "cfg(test)" not in marks:
            yield from modules(folder / f"{name}.rt", is_public and bool(public) and "hidden" not in marks)


def form_of(text, owner):
    """The form of a call, as it is compared."""
    text = re.sub(r"\bmut (?=\w+:)", "", re.sub(rf"\b{owner}<[^<>()]*>", "Self", text) if owner else text)
    return packed(text)


def past_parameters(head):
    """What follows the parameters in angle brackets that a head begins with, if it does."""
    depths = itertools.accumulate({"<": 1, ">": -1}.get(it, 0) for it in head)
    end = next((at for at, depth in enumerate(depths) if depth == 0), 0) if head.startswith("<") else -1
    return head[end + 1 :].strip()


def owner_of(step):
    """What an `impl` or a trait has calls of: None where it is a trait's `impl`, or a trait that isn't public."""
    head = past_parameters(step["head"].strip())
    is_other = " for " in head or step["kind"] == "trait" and not step["pub"]
    return None if is_other else re.match(r"\w+", head)[0]


def first_sentence(text):
    """The first sentence of a comment."""
    return re.split(r"(?<=[.:])\s+(?=[A-Z`])", text)[0]


def comment_in(marks):
    """The comment of lines `///`."""
    return " ".join(line.strip()[3:].strip() for line in marks.splitlines() if line.strip().startswith("///"))


def calls_in(text, is_shown, crate):
    """The calls in a file of a crate. `is_shown` says of a type or trait, or of a call of the file's own, whether it is public."""
    owner, is_trait = "", False
    for step in STEP.finditer(text):
        if step["kind"]:
            owner, is_trait = owner_of(step), step["kind"] == "trait"
        elif step[0] == "}":
            owner, is_trait = "", False
        elif owner is not None and (step["is_pub"] or is_trait):
            is_listed = is_shown(owner, step["name"]) and "doc(hidden)" not in step["marks"]
            yield Call(owner, step["name"], form_of(step["form"], owner), first_sentence(comment_in(step["marks"])), is_listed, crate)


def calls_of(folder):
    """The calls that the crate in this folder shows."""
    files = list(modules(folder / "src" / "lib.rt"))
    public = {name for text, is_public in files if is_public for name in TYPE.findall(text)}
    for text, is_public in files:
        for marks, path in EXPORT.findall(text) if is_public else ():
            public |= {it.rpartition("::")[2] for it in imports(f"use {path};")} if "hidden" not in marks else set()
    for text, is_public in files:
        yield from calls_in(text, lambda owner, name, is_public=is_public: owner in public if owner else is_public or name in public, folder.name)


def listed_calls(top):
    """The calls of all listed crates of the repository, by owner and name."""
    found = {}
    for crate in LISTED:
        for call in calls_of(top / "crates" / crate):
            found.setdefault((call.owner, call.name), []).append(call)
    return found


def row_of(found, calls):
    """The call that a row of the page means, or None, and the row as the sources have it."""
    owner = re.sub(r"<.*", "", found[1].rpartition("::")[2])
    owner = owner if owner[:1].isupper() else ""
    alike = [it for it in calls.get((owner, found[2]), ()) if it.form == form_of(found[3], owner)]
    # Two crates may have a type of one name: then the path begins with the second one's.
    call = next((it for it in alike if found[1].startswith(f"{it.crate}::")), alike[0] if alike else None)
    meaning = call.meaning.replace("|", "\\|") if call else ""
    return call, f"| `{found[1]}` | `{found[2]}{found[3]}` | {meaning} |"


def page_of(text, calls):
    """The page with the meaning of each call as the sources have it."""
    return ROW.sub(lambda found: row_of(found, calls)[1] if row_of(found, calls)[0] else found[0], text)
