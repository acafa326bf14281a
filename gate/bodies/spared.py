"""Spares a check the proofs of functions that none of its wrong bodies changes.

No function's theorem rests on another's proof, so where a crate is proved, a check of wrong bodies needs none of the other functions' proofs.
A function that is spared gets a proof file that proves nothing, at which the check is done with it. What calls it is then said to call what
isn't proved, as if it had a wrong body, and its own goals are searched as ever.

Where it stands alone or in an impl of a type's own, its body is made an endless loop too, which every result type allows: a check finds out of
each body how long its borrows live and what ends where before it asks for a proof, and goes on to what the body calls.
"""

import contextlib
import re

from functions import plain_bodies

WRITTEN = ("Proof.antt", "Invariants.antt", "Answers.antt")  # what may be written of the proof of one function


def functions_told(crate, said):
    """The functions of a crate that its proof told are proved, by their paths below the crate, in what `rt ci` said. Closures and what the
    compiler makes aren't among them, since they have no files of their own."""
    begun = re.search(rf"^== {crate}$", said, re.MULTILINE)
    told = re.split(r"^== ", said[begun.end() :], maxsplit=1, flags=re.MULTILINE)[0] if begun else ""
    found = re.findall(rf"^fn {crate}::(\S+): proved", told, re.MULTILINE)
    return {name for name in found if "+" not in name and "::fn::" not in f"::{name}"}


def is_of(body, name):
    """Whether the function at this path can be the one that a body changes."""
    return f"::{name}".endswith(f"::{body.function}")


def calls_itself(place):
    """Whether the function whose proofs would be in this folder calls itself: its proof then has a folder of another name."""
    return place.with_name(f"+{place.name}").is_dir()


def left_alone(functions, bodies, folder):
    """Those of these functions that a check in this folder is spared: which no body changes, and which don't call themselves."""
    rest = [name for name in functions if not any(is_of(body, name) for body in bodies)]
    return [name for name in rest if not calls_itself(folder / "proofs" / name.replace("::", "/"))]


def emptied(functions, bodies, folder):
    """The bodies of functions that a check is spared, as places, (file, first, end, new text), at which an endless loop stands instead."""
    names, places = set(left_alone(functions, bodies, folder)), []
    for path in sorted((folder / "src").rglob("*.rt")) if names else ():
        file = path.relative_to(folder)
        module = [part for part in file.with_suffix("").parts[1:] if part not in ("lib", "main")]
        for words, indent, opens, closes in plain_bodies(path.read_text(encoding="utf-8")):
            if "::".join([*module, *map(str, words)]) in names:
                places.append((str(file), opens, closes, f"{indent}    loop {{}}\n"))
    return places


@contextlib.contextmanager
def spared(functions, bodies, folder):
    """Spares a check these functions, but for those that the bodies change, in the folder of a copy of their crate. What was written of their
    proofs stands there again at the end."""
    kept, made = {}, []
    places = [folder / "proofs" / name.replace("::", "/") for name in left_alone(functions, bodies, folder)]
    try:
        for place in places:
            missing = [it for it in (place, *place.parents) if not it.is_dir()]
            place.mkdir(parents=True, exist_ok=True)
            made += reversed(missing)
            kept.update({place / name: (place / name).read_bytes() for name in WRITTEN if (place / name).is_file()})
            for name in WRITTEN:
                (place / name).unlink(missing_ok=True)
            (place / "Proof.antt").touch()
        yield
    finally:
        for place in places:
            (place / "Proof.antt").unlink(missing_ok=True)
        for file, text in kept.items():
            file.write_bytes(text)
        for place in reversed(made):
            place.rmdir()
