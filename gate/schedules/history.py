"""Whether the answers of some calls on a set are those of one map from text to ticket and holders, in some order of the calls.

Beside the map stands what may be linked though nobody holds it. A last drop takes its entry out, but where another call had the lock of its
bucket; then the next interning, look-up or sweep there does, unless it had begun before the drop ended. (In a set with a name it does as the
drop noted; if several noted, it looks at 16 entries, and no scene has more.) Which call had the lock is guessed, drop by drop, and the answers
have to be right under one guess: a drop that had a lock was a last one, and left nothing itself; and a call that goes over all buckets took
their locks from the first to the last.

A list holds the atoms that are in it: a text is pushed as one is interned, a copy is a clone of the last place, what is popped stays held, and
each place that goes is a drop.
"""

from itertools import product
from typing import NamedTuple

MEMORY, FULL_COUNT, TICKETS_SPENT = 1, 2, 3  # the numbers of the faults

# The low bits of the texts' hashes, by SipHash: they give the bucket.
HASHES = {
    "forgotten": 0x72F,
    "magnitude": 0x72F,
    "afterwards": 0,
    "geometric": 0xFFF,
    "elsewhere": 0xA8A,
    "FORGOTTEN": 0xCF5,
    "MAGNITUDE": 0x9D8,
    "AFTERWARDS": 0x924,
    "GEOMETRIC": 0x1F1,
    "ELSEWHERE": 0xE3,
}

WALKS = ("linked", "visit")  # they go over the buckets one after another, and leave each as it is
PASSES = (*WALKS, "sweep", "memory")  # they take the lock of each bucket, from the first to the last
DROPS = ("drop", "clear", "end")  # the last two end a place of a list

# What a call may answer; all others give an atom or are refused.
ANSWERS = {"linked": ("linked",), "visit": ("visited",), "sweep": ("nothing",), "memory": ("nothing",), "drop": ("ticket",)}
ANSWERS |= {"find": ("ticket", "fault", "absent"), "push": ("nothing", "fault"), "pop": ("ticket",), "clear": ("nothing",), "end": ("nothing",)}
GIVES = ("ticket", "fault")


class Limits(NamedTuple):
    """The limits of a set and its number of buckets, and how many requests for memory were refused at most."""

    holders: int = 9
    serials: int = 9
    bits: int = 0
    refusals: int = 0

    def bucket_of(self, text):
        return HASHES[text] % 2**self.bits


class Call(NamedTuple):
    """A call and its answer. It ended before another began exactly where `ended` is below the other's `begun`."""

    thread: int
    name: str
    text: str
    begun: int
    ended: int
    answer: str
    number: int
    bucket: int = 0  # of a part of a walk
    is_end: bool = True  # it is no part, or the last one
    may_leave: bool = False  # of a drop: where it is the last, it may leave its entry linked
    is_last: bool = False  # of a drop: it has to be the last, since it had the lock of its bucket

    def overlaps(self, other):
        return self.begun <= other.ended and other.begun <= self.ended

    def atoms_text(self):
        """The text of the atom that it gives, or takes."""
        return self.text.upper() if self.name == "upper" else self.text.lower() if self.name == "lower" else self.text

    def is_clone(self):
        return self.name in ("clone", "copy") or self.name in ("upper", "lower") and self.atoms_text() == self.text

    def takes_lock(self, bucket, limits):
        """Whether it may take the lock of the bucket."""
        if self.name in PASSES:
            return True
        return not self.is_clone() and self.name != "pop" and limits.bucket_of(self.atoms_text()) == bucket

    def fault(self):
        return self.number if self.answer == "fault" else None

    def is_of(self, ticket):
        """Whether its answer is of this ticket, if it tells one."""
        return self.answer == "nothing" or (self.answer, self.number) == ("ticket", ticket)


class Map(NamedTuple):
    """Held texts with ticket and holders, the last serial of each bucket that has given one, and how many requests for memory were
    refused; the last drops whose entries may be linked; and of each thread in a walk how many entries it has met, at least and at most."""

    held: frozenset = frozenset()
    last: frozenset = frozenset()
    refused: int = 0
    dying: frozenset = frozenset()
    walks: frozenset = frozenset()

    def of(self, text):
        """The ticket and the number of holders of a text."""
        for it, ticket, holders in self.held:
            if it == text:
                return ticket, holders
        return None, 0

    def with_held(self, text, ticket, holders):
        others = frozenset(it for it in self.held if it[0] != text)
        return self._replace(held=others | {(text, ticket, holders)} if holders else others)

    def without_dying(self, is_out):
        return self._replace(dying=frozenset(drop for drop in self.dying if not is_out(drop))) if self.dying else self


def after_walk(state, call, limits):
    """The map after a part of a walk, which meets what is held in its bucket, and may meet what is dying there."""
    held = sum(limits.bucket_of(text) == call.bucket for text, _, _ in state.held)
    dying = sum(limits.bucket_of(drop.text) == call.bucket for drop in state.dying)
    least, most = next(((least, most) for thread, least, most in state.walks if thread == call.thread), (0, 0))
    least, most = least + held, most + held + dying
    others = frozenset(it for it in state.walks if it[0] != call.thread)
    if not call.is_end:
        return state._replace(walks=others | {(call.thread, least, most)})
    return state._replace(walks=others) if least <= call.number <= most else None


def after_drop(state, call):
    ticket, holders = state.of(call.text)
    if not holders or not call.is_of(ticket) or call.is_last and holders > 1:
        return None
    new = state.with_held(call.text, ticket, holders - 1)
    return new._replace(dying=new.dying | {call}) if holders == 1 and call.may_leave else new


def after_share(state, call, text, limits):
    """The map after one holder more of a text that is held."""
    ticket, holders = state.of(text)
    if holders >= limits.holders:
        return state if call.fault() == FULL_COUNT else None
    return state.with_held(text, ticket, holders + 1) if holders and call.is_of(ticket) else None


def after_refusal(state, limits):
    """The map after a request for memory that was refused."""
    return state._replace(refused=state.refused + 1) if state.refused < limits.refusals else None


def after_link(state, call, text, limits):
    """The map after a new entry of a text that isn't held."""
    last, bucket = dict(state.last), limits.bucket_of(text)
    serial = last.get(bucket, 0) + 1
    if serial > limits.serials:
        return state if call.fault() == TICKETS_SPENT else None
    if call.fault() == MEMORY:
        return after_refusal(state, limits)
    ticket = serial << 16 | bucket << 2
    if not call.is_of(ticket):
        return None
    return state._replace(last=frozenset({**last, bucket: serial}.items())).with_held(text, ticket, 1)


def after_pass(state, call, text, limits):
    """The map after an interning or a look-up: each entry of its text that is dying is taken out, and so is each other one of its bucket
    whose drop had ended."""
    bucket = limits.bucket_of(text)
    state = state.without_dying(lambda drop: drop.text == text or drop.ended < call.begun and limits.bucket_of(drop.text) == bucket)
    if state.of(text)[1]:
        return after_share(state, call, text, limits)
    if call.name == "find":
        return state if call.answer == "absent" else None
    return after_link(state, call, text, limits)


def after(state, call, limits):
    """The map after the call, or None where the map answers the call otherwise."""
    if call.answer not in ANSWERS.get(call.name, GIVES):
        return None
    if call.name == "memory":
        return state
    if call.name == "sweep":
        return state.without_dying(lambda drop: drop.ended < call.begun)
    if call.name in WALKS:
        return after_walk(state, call, limits)
    if call.name in DROPS:
        return after_drop(state, call)
    if call.name == "pop":
        return state if call.is_of(state.of(call.text)[0]) else None
    if call.name == "push" and call.fault() == MEMORY:  # maybe for its place, before it looked for the text
        return after_refusal(state, limits)
    if call.is_clone():  # it is made on an atom, which is held
        return after_share(state, call, call.text, limits)
    return after_pass(state, call, call.atoms_text(), limits)


def keepers_of(at, calls, limits):
    """Which calls may have had the lock of its bucket while the drop at this place tried, each by its place, and None for no call. Where one
    may of which nothing else follows then, it stands for all calls."""
    drop, bucket = calls[at], limits.bucket_of(calls[at].text)
    found = [n for n, it in enumerate(calls) if it.thread != drop.thread and it.overlaps(drop) and it.takes_lock(bucket, limits)]
    plain = [n for n in found if calls[n].name not in DROPS and not (limits.bits and calls[n].name in PASSES)]
    return [plain[0], None] if plain else [None, *found]


def is_possible(guess, calls, limits):
    """Whether the calls that a guess names can have had these locks: each drop among them got its own, and no call over the buckets had the
    lock of one only after that of a later one."""
    if any(guess.get(keeper) is not None for keeper in guess.values()):
        return False
    tried = [(keeper, limits.bucket_of(calls[at].text), calls[at]) for at, keeper in guess.items() if keeper is not None]
    return not any(
        keeper == other and bucket < later and before.begun > behind.ended
        for keeper, bucket, before in tried
        for other, later, behind in tried
    )


def guesses_of(calls, limits):
    """Each guess of which call had the lock while a drop tried, as places among the calls, the keeper's by the drop's."""
    drops = [at for at, call in enumerate(calls) if call.name in DROPS]
    for keepers in product(*(keepers_of(at, calls, limits) for at in drops)):
        guess = dict(zip(drops, keepers))
        if is_possible(guess, calls, limits):
            yield guess


def part_of(walk, bucket, tried, limits):
    """The part of a walk in a bucket, where these drops tried for locks that the walk had: it is made before a drop of a later bucket
    ended, and after one of an earlier bucket began."""
    ended = [drop.ended for drop in tried if limits.bucket_of(drop.text) > bucket]
    begun = [drop.begun for drop in tried if limits.bucket_of(drop.text) < bucket]
    return walk._replace(bucket=bucket, begun=max([walk.begun, *begun]), ended=min([walk.ended, *ended]))


def steps_of(calls, guess, limits):
    """The calls under a guess, but that a walk is a part for each bucket that may have entries."""
    buckets = sorted({limits.bucket_of(call.atoms_text()) for call in calls if call.text in HASHES}) or [0]
    for at, call in enumerate(calls):
        if call.name in WALKS:
            tried = [calls[drop] for drop, keeper in guess.items() if keeper == at]
            yield from (part_of(call, bucket, tried, limits)._replace(is_end=bucket == buckets[-1]) for bucket in buckets)
        elif call.name in DROPS:
            yield call._replace(may_leave=guess[at] is not None, is_last=at in guess.values())
        else:
            yield call


def is_explained(calls, limits):
    """Whether some order of the calls, in which one that ended before another began comes before it, is one map's from the empty map, under
    some guess."""
    return any(is_ordered(list(steps_of(calls, guess, limits)), limits) for guess in guesses_of(calls, limits))


def is_ordered(steps, limits):
    """Whether some order of the steps is one map's."""
    seen, left = set(), [(frozenset(range(len(steps))), Map())]
    while left:
        at = left.pop()
        if at in seen:
            continue
        seen.add(at)
        to_come, state = at
        if not to_come:
            return True
        first_end = min(steps[n].ended for n in to_come)
        for n in to_come:
            if steps[n].begun > first_end or any(m < n and steps[m].thread == steps[n].thread for m in to_come):
                continue
            new = after(state, steps[n], limits)
            if new is not None:
                left.append((to_come - {n}, new))
    return False
