"""Tries the wrong bodies of a crate in as few checks as there may be: where a function has several, each but the first stands in a copy of the
function beside it.

A check reads all libraries below its crate before it proves anything, so that a check of its own for the second body of a function costs more
than the body. A copy has the function's contract and a name of its own, `next_2` for the second body of `next`, and is judged by that name.
Where proofs were written for the function, they are copied with it, and the function with its own body as well, as `next_1`: unless all
goals of that are proved, what is said of the other copies shows nothing.

A method of a trait can't be copied, nor can a function in whose proofs others stand: a second body of these waits for another check. What a
check doesn't refuse so is checked once more alone, in its own function. A body that the compiler doesn't read would hide the others: where it
names one, they are checked without that. Two bodies by which functions call each other make a cycle, of which the compiler names no place: then
each of the crate's bodies is checked alone, so that one of the two had better be written otherwise.
"""

import contextlib
import re
import shutil

import batches
from batches import Body
from functions import whole_function


def changed(text, places, begins=0):
    """A text that begins there in its file, with what these places of the file replace."""
    for first, end, new in sorted(places, reverse=True):
        text = text[: first - begins] + new + text[end - begins :]
    return text


def proofs_of(body, file, folder):
    """The folder of the proofs of the body's function, which is in this file, and whether nothing else in it or by its name may be meant."""
    name = body.function.replace("::", "/")
    own = folder / "proofs" / file.removeprefix("src/").removesuffix(".rt").removesuffix("lib") / name
    found = [own] if own.is_dir() else [it for it in (folder / "proofs").rglob(name) if it.is_dir()]
    if len(found) == 1:
        return found[0], not any(it.is_dir() for it in found[0].iterdir())
    return None, not found


def copied(body, number, folder, is_own=False):
    """The body in the copy of this number of its function, or the function's own body there, or None where it can't be copied."""
    file, place = next((file, first) for file, first, *_ in body.places if file.startswith("src/"))
    places = [] if is_own else body.places
    text = (folder / file).read_text(encoding="utf-8")
    span, (written, is_clear) = whole_function(text, place), proofs_of(body, file, folder)
    *types, last = body.function.split("::")
    new = f"{last}_{number}"
    if not span or not is_clear or f"fn {new}" in text:
        return None
    own = changed(text[slice(*span)], [it[1:] for it in places if it[0] == file], span[0])
    own = re.sub(rf"\bfn {last}\b", f"fn {new}", own, count=1)
    copy = Body(body.label, body.crate, "::".join([*types, new]), [(file, span[1], span[1], f"\n{own}")])
    for it in written.iterdir() if written else ():
        proof = changed(it.read_text(encoding="utf-8"), [place[1:] for place in places if folder / place[0] == it])
        path = ".".join(written.relative_to(folder / "proofs").parts)
        proof = re.sub(rf"\b{re.escape(path)}\b", path.removesuffix(last) + new, proof)
        copy.files[written.with_name(new) / it.name] = re.sub(rf"\b{last}_spec\b", f"{new}_spec", proof)  # what a whole proof exports
    return copy


@contextlib.contextmanager
def with_files(bodies):
    """Writes the proofs of copies, and takes them away at the end."""
    files = {file: text for body in bodies for file, text in body.files.items()}
    try:
        for file, text in files.items():
            file.parent.mkdir(exist_ok=True)
            file.write_text(text, encoding="utf-8")
        yield
    finally:
        for folder in {file.parent for file in files}:
            shutil.rmtree(folder, ignore_errors=True)


def copies_of(bodies, folder):
    """The bodies, each with its copy, for those whose functions can be copied, and the copies of functions with their own bodies, by the
    functions whose proofs are copied."""
    found, own, numbers = {}, {}, {}
    for body in bodies:
        numbers[body.function] = numbers.get(body.function, 1) + 1
        found[body] = copied(body, numbers[body.function], folder)
        if found[body] and found[body].files and body.function not in own:
            own[body.function] = copied(body, 1, folder, is_own=True)
    return {body: copy for body, copy in found.items() if copy}, own


def in_one_check(first, further, folder, proved=()):
    """Checks bodies of different functions, and further ones of these functions in copies. Each with the goals at which it was refused, and with
    what else is said of it; nothing where the check says nothing of any function. The functions that are proved already are spared."""
    copies, own = copies_of(further, folder)
    every = [*first, *copies.values(), *own.values()]
    if not every:
        return []
    with with_files(every):
        said = batches.check(every, folder, proved=proved)
    unread = batches.unread(every, folder, said, proved)
    if unread:
        bad = {body: unread[it] for body, it in [*zip(first, first), *copies.items()] if it in unread}
        rest = [body for body in further if body not in bad and own.get(body.function) not in unread]
        others = in_one_check([body for body in first if body not in bad], rest, folder, proved)
        return [(body, [], error) for body, error in bad.items()] + others
    others = batches.strangers(every, said)
    if not batches.TOLD.search(said) or others:
        return []
    proved = {name for name, copy in own.items() if batches.is_proved(copy.function, said)}
    found = [(body, *batches.judge(body.function, said)) for body in first]
    trusted = [(body, copy) for body, copy in copies.items() if body.function in proved or not copy.files]
    return found + [(body, *batches.judge(copy.function, said)) for body, copy in trusted]


def together(bodies, folder, proved=()):
    """Checks the bodies of a crate in as few checks as there may be. Gives each with its goals and with what else is said, and those that were
    alone in their check. The functions that are proved already are spared, but not where a body is alone."""
    first, alone = next(batches.batches(bodies), []), []
    found = in_one_check(first, [body for body in bodies if body not in first], folder, proved) if bodies[1:] else []
    for batch in batches.batches([body for body in bodies if body not in {it[0] for it in found}]):
        found += batches.judged(batch, folder, proved if batch[1:] else ())
        alone += [] if batch[1:] else batch
    return found, alone


def tried(bodies, folder, proved=()):
    """Checks the bodies of a crate together, and those that are refused at no goal so once more, each alone. Gives each body with its goals, with
    what else is said, and with whether it was alone in its check."""
    found, alone = together(bodies, folder, proved)
    yield from ((*it, it[0] in alone) for it in found if it[1] or it[0] in alone)
    for body in [body for body, goals, _ in found if not goals and body not in alone]:
        yield from ((*it, True) for it in batches.judged([body], folder))
