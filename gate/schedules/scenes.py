"""Scenes as the files scenes.txt and list_scenes.txt have them, and as the program crates/schedules takes them."""

from dataclasses import dataclass, field, replace
from pathlib import Path

from history import Limits

FILES = [Path(__file__).resolve().parent / name for name in ("scenes.txt", "list_scenes.txt")]
WORDS = ("forgotten", "magnitude", "afterwards", "geometric", "elsewhere")
TEXTS = (*WORDS, *map(str.upper, WORDS))
LETTERS = {"clone": "c", "drop": "d", "upper": "u", "lower": "w", "sweep": "s", "linked": "l", "visit": "v", "memory": "m"}
LETTERS |= {"copy": "y", "pop": "p", "clear": "e"}
FIRST_LETTERS = {"intern": "0", "read": "A", "find": "K", "push": "U"}  # of the first text
NINE = [f"intern {text}" for text in ("elsewhere", *WORDS[:4], *TEXTS[5:9])] + ["drop"] * 8
ON_ATOM = ("clone", "drop", "upper", "lower")


class BadScene(Exception):
    """A line of the scenes can't be read."""


@dataclass
class Scene:
    """A set's limits, what each thread calls, and which of its schedules are tried."""

    name: str
    is_named: bool = False  # its set has a name
    has_named: bool = False  # it is tried over such a set as well
    is_alone: bool = False  # over such a set alone
    holders: int = 9
    serials: int = 9
    bits: int = 0
    deep: int = 2
    is_by_order: bool = False
    is_compared: bool = False
    has_refusals: bool = False
    threads: list = field(default_factory=list)  # as the program takes them
    firsts: list = field(default_factory=list)  # the calls of each thread before any starts
    calls: list = field(default_factory=list)  # and beside the others
    well: set = field(default_factory=set)  # outcomes that were judged already, each with the number of refusals

    def arguments(self):
        return [*(["named"] if self.is_named else []), str(self.holders), str(self.serials), str(self.bits), *self.threads]

    def over_named(self):
        """The same scene over a set with a name."""
        return replace(self, name=f"{self.name}, in a named set", is_named=True, is_compared=False, well=set())

    def limits(self, refusals):
        return Limits(self.holders, self.serials, self.bits, refusals)

    def is_made(self, calls):
        """Whether these are the calls that its threads make, each thread's own in its order."""
        if not {call.thread for call in calls} <= set(range(1, len(self.threads) + 1)):
            return False
        asked = [firsts + beside for firsts, beside in zip(self.firsts, self.calls)]
        return all(are_made(it, [call for call in calls if call.thread == thread]) for thread, it in enumerate(asked, 1))


def texts_of(name, text, atoms, places):
    """The texts on which a thread with these atoms, and these places of its list, makes a call: several where it lets its list go, and none
    where what the call is made on isn't there."""
    if name in ("clear", "end"):
        return places[::-1]
    if name in ("copy", "pop"):
        return places[-1:]
    return atoms[-1:] if name in ON_ATOM else [text or "-"]


def keep(made, atoms, places):
    """Has the atoms and places of a thread be those that it has behind this call."""
    if made.name == "drop":
        atoms.pop()
    elif made.answer == "ticket":
        atoms.append(made.atoms_text())
    if made.name in ("pop", "clear", "end"):
        places.pop()
    elif made.name == "push" and made.answer == "nothing":
        places.append(made.text)


def are_made(asked, own):
    """Whether a thread that is asked for these calls makes its own ones, by their answers: none on its newest atom, or on its list, where it
    has none, and at its end a drop of each atom that it has, and the end of each place of its list."""
    atoms, places, left = [], [], list(own)
    for call in [*asked, *["drop"] * len(own), "end"]:
        name, _, text = call.partition(" ")
        for wanted in texts_of(name, text, atoms, places):
            made = left.pop(0) if left else None
            if not made or (made.name, made.text) != (name, wanted):
                return False
            keep(made, atoms, places)
    return not left


def calls_of(text):
    """The calls of a text such as 'intern forgotten drop', a text each."""
    calls, words = [], iter(text.split())
    for word in words:
        if word in LETTERS:
            calls.append(word)
        elif word == "nine":
            calls += NINE
        elif word in FIRST_LETTERS:
            calls.append(f"{word} {next(words, '')}")
        else:
            raise BadScene(f"'{word}' is no call")
    return calls


def letter_of(call):
    """The letter that stands for a call where the program takes it."""
    name, _, text = call.partition(" ")
    if not text:
        return LETTERS[name]
    if text not in TEXTS:
        raise BadScene(f"'{text}' is none of the texts: {', '.join(TEXTS)}")
    return chr(ord(FIRST_LETTERS[name]) + TEXTS.index(text))


def read_line(scene, line):
    word, colon, rest = line.partition(":")
    if line in ("by order", "by order, compared"):
        scene.is_by_order, scene.is_compared = True, line.endswith("compared")
    elif line == "refusals":
        scene.has_refusals = True
    elif line in ("named", "named alone"):
        scene.has_named, scene.is_alone = True, line.endswith("alone")
    elif word in ("holders", "serials", "bits", "deep") and rest.strip().isdecimal():
        setattr(scene, word, int(rest))
    elif word == "thread" and rest.count("|") == 1:
        first, calls = map(calls_of, rest.split("|"))
        scene.threads.append("/".join("".join(map(letter_of, it)) for it in (first, calls)))
        scene.firsts.append(first)
        scene.calls.append(calls)
    else:
        raise BadScene(f"'{line}' is no line of a scene{'' if colon else ', which is WORD: ..'}")


def read_scenes(text):
    scenes = []
    for line in text.splitlines():
        if not line.strip() or line.startswith("#"):
            continue
        if line.startswith("scene: "):
            scenes.append(Scene(line.removeprefix("scene: ").strip()))
        elif scenes:
            read_line(scenes[-1], line.strip())
        else:
            raise BadScene("a line stands before the first 'scene: NAME'")
    scenes = [scene for scene in scenes if not scene.is_alone] + [scene.over_named() for scene in scenes if scene.has_named]
    names = [scene.name for scene in scenes]
    if len(set(names)) < len(names) or not all(scene.threads for scene in scenes):
        raise BadScene("two scenes have one name, or one has no thread")
    return scenes


def all_scenes():
    return read_scenes("\n".join(file.read_text(encoding="utf-8") for file in FILES))
