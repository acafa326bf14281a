"""What the checker of histories says yes and no to. The answers are written by hand, from what a map of texts does."""

import unittest

from explore import Outcome
from history import FULL_COUNT, HASHES, MEMORY, TICKETS_SPENT, Call, Limits, is_explained
from scenes import TEXTS, read_scenes

FIRST, SECOND = 1 << 16, 2 << 16


def call(thread, begun, ended, name, text, number, answer="ticket"):
    return Call(thread, name, text, begun, ended, answer, number)


def intern(thread, begun, ended, number, answer="ticket", text="forgotten"):
    return call(thread, begun, ended, "intern", text, number, answer)


def drop(thread, begun, ended, number, text="forgotten"):
    return call(thread, begun, ended, "drop", text, number)


def push(thread, begun, ended, fault=0):
    return call(thread, begun, ended, "push", "forgotten", fault, "fault" if fault else "nothing")


def linked(thread, begun, ended, number):
    return call(thread, begun, ended, "linked", "-", number, "linked")


class Histories(unittest.TestCase):
    def well(self, *calls, **limits):
        self.assertTrue(is_explained(calls, Limits(**limits)))

    def wrong(self, *calls, **limits):
        self.assertFalse(is_explained(calls, Limits(**limits)))

    def test_two_that_intern_at_once_get_one_ticket(self):
        self.well(intern(1, 0, 0, FIRST), intern(2, 0, 0, FIRST))
        self.wrong(intern(1, 0, 0, FIRST), intern(2, 0, 0, SECOND))

    def test_a_ticket_is_new_behind_the_last_drop(self):
        self.well(intern(1, 0, 0, FIRST), drop(1, 1, 1, FIRST), intern(2, 2, 2, SECOND))
        self.wrong(intern(1, 0, 0, FIRST), drop(1, 1, 1, FIRST), intern(2, 2, 2, FIRST))

    def test_calls_that_overlap_come_in_either_order(self):
        self.well(intern(1, 0, 0, FIRST), drop(1, 1, 1, FIRST), intern(2, 1, 1, FIRST))
        self.well(intern(1, 0, 0, FIRST), drop(1, 1, 1, FIRST), intern(2, 1, 1, SECOND))

    def test_a_call_that_ended_comes_first(self):
        self.wrong(intern(1, 1, 1, FIRST), intern(2, 0, 0, SECOND, text="magnitude"))
        self.well(intern(1, 0, 1, FIRST), intern(2, 0, 0, SECOND, text="magnitude"))

    def test_a_threads_own_calls_stay_in_order(self):
        self.wrong(intern(1, 0, 0, SECOND), intern(1, 0, 0, FIRST, text="magnitude"))

    def test_a_share_is_dropped_once(self):
        self.wrong(intern(1, 0, 0, FIRST), drop(1, 1, 1, FIRST), drop(2, 2, 2, FIRST))

    def test_full_comes_exactly_at_the_limit(self):
        self.well(intern(1, 0, 0, FIRST), intern(2, 0, 0, FULL_COUNT, "fault"), holders=1)
        self.wrong(intern(1, 0, 0, FIRST), intern(2, 0, 0, FIRST), holders=1)
        self.wrong(intern(1, 0, 0, FIRST), intern(2, 0, 0, FULL_COUNT, "fault"), holders=2)

    def test_spent_comes_exactly_behind_the_last_serial(self):
        other = intern(2, 1, 1, TICKETS_SPENT, "fault", text="magnitude")
        self.well(intern(1, 0, 0, FIRST), other, serials=1)
        self.wrong(intern(1, 0, 0, FIRST), other, serials=2)

    def test_each_bucket_has_serials_of_its_own(self):
        one, other = intern(1, 0, 0, FIRST | 15 << 2), intern(2, 1, 1, FIRST, text="afterwards")
        self.well(one, other, serials=1, bits=4)
        self.wrong(intern(1, 0, 0, FIRST), other, serials=1, bits=4)

    def test_memory_comes_only_where_it_was_refused_and_the_text_is_absent(self):
        refused = intern(2, 1, 1, MEMORY, "fault", text="magnitude")
        self.well(intern(1, 0, 0, FIRST), refused, refusals=1)
        self.wrong(intern(1, 0, 0, FIRST), refused)
        self.wrong(intern(1, 0, 0, FIRST), intern(2, 1, 1, MEMORY, "fault"), refusals=1)

    def test_memory_comes_no_more_often_than_it_was_refused(self):
        both = intern(1, 0, 0, MEMORY, "fault"), intern(2, 1, 1, MEMORY, "fault", text="magnitude")
        self.well(*both, refusals=2)
        self.wrong(*both, refusals=1)
        self.wrong(intern(1, 0, 0, MEMORY, "fault"), intern(2, 1, 1, FIRST), intern(2, 2, 2, MEMORY, "fault", text="magnitude"), refusals=1)

    def test_the_other_case_is_another_text(self):
        self.well(intern(1, 0, 0, FIRST), call(1, 1, 1, "upper", "forgotten", SECOND))
        self.wrong(intern(1, 0, 0, FIRST), call(1, 1, 1, "upper", "forgotten", FIRST))
        self.well(intern(1, 0, 0, FIRST), call(1, 1, 1, "lower", "forgotten", FIRST))

    def test_a_text_that_is_looked_up_has_its_ticket_or_is_absent(self):
        self.well(intern(1, 0, 0, FIRST), call(2, 1, 1, "find", "forgotten", FIRST))
        self.wrong(intern(1, 0, 0, FIRST), call(2, 1, 1, "find", "forgotten", 0, "absent"))
        self.well(intern(1, 0, 1, FIRST), call(2, 0, 1, "find", "forgotten", 0, "absent"))
        self.wrong(call(2, 1, 1, "find", "forgotten", FIRST))
        self.well(intern(1, 0, 0, FIRST), drop(1, 1, 1, FIRST), call(2, 2, 2, "find", "forgotten", 0, "absent"))

    def test_a_text_that_is_looked_up_has_one_holder_more(self):
        found = call(2, 1, 1, "find", "forgotten", FIRST)
        self.well(intern(1, 0, 0, FIRST), found, drop(1, 2, 2, FIRST), drop(2, 3, 3, FIRST))
        self.wrong(intern(1, 0, 0, FIRST), drop(1, 2, 2, FIRST), drop(2, 3, 3, FIRST))
        self.well(intern(1, 0, 0, FIRST), call(2, 1, 1, "find", "forgotten", FULL_COUNT, "fault"), holders=1)
        self.wrong(intern(1, 0, 0, FIRST), found, holders=1)

    def test_all_that_are_held_are_visited_and_none_is_strange(self):
        self.wrong(intern(1, 0, 0, FIRST), call(2, 1, 1, "visit", "-", 0, "visited"))
        self.well(intern(1, 0, 0, FIRST), call(2, 1, 1, "visit", "-", 1, "visited"))
        self.wrong(intern(1, 0, 0, FIRST), call(2, 1, 1, "visit", "-", 1, "strange"))

    def test_all_that_are_held_are_linked(self):
        self.wrong(intern(1, 0, 0, FIRST), linked(2, 1, 1, 0))
        self.well(intern(1, 0, 0, FIRST), drop(1, 1, 1, FIRST), linked(2, 1, 1, 0))

    def test_what_several_buckets_have_is_counted(self):
        both = intern(1, 0, 0, FIRST, text="afterwards"), intern(1, 1, 1, FIRST | 15 << 2, text="geometric")
        for name, answer in (("linked", "linked"), ("visit", "visited")):
            self.well(*both, call(2, 2, 2, name, "-", 2, answer), bits=4)
            self.wrong(*both, call(2, 2, 2, name, "-", 1, answer), bits=4)
            self.wrong(*both, call(2, 2, 2, name, "-", 3, answer), bits=4)

    def test_buckets_are_counted_one_after_another(self):
        self.well(intern(1, 0, 0, FIRST, text="afterwards"), drop(1, 1, 1, FIRST, text="afterwards"), linked(2, 0, 1, 1), bits=4)
        moved = intern(1, 1, 1, FIRST | 15 << 2, text="geometric"), drop(1, 2, 2, FIRST | 15 << 2, text="geometric")
        self.well(*moved, intern(1, 3, 3, FIRST, text="afterwards"), linked(2, 0, 9, 0), bits=4)
        moved = intern(1, 1, 1, FIRST, text="afterwards"), intern(1, 2, 2, FIRST | 15 << 2, text="geometric")
        self.well(*moved, linked(2, 0, 9, 1), bits=4)  # the first came behind the walk
        self.wrong(intern(1, 0, 0, FIRST, text="afterwards"), moved[1], linked(2, 1, 9, 0), bits=4)

    def test_a_last_drop_takes_its_entry_out(self):
        ended = intern(1, 0, 0, FIRST), drop(1, 1, 1, FIRST)
        self.wrong(*ended, linked(2, 2, 2, 1))
        self.wrong(*ended, call(2, 2, 2, "visit", "-", 1, "visited"))
        self.wrong(*ended, call(2, 0, 1, "clone", "forgotten", FIRST), drop(2, 2, 2, FIRST), linked(2, 3, 3, 1))  # clones take no lock

    def test_a_last_drop_leaves_its_entry_where_the_lock_was_taken(self):
        left = intern(1, 0, 0, FIRST), drop(1, 2, 4, FIRST), call(2, 1, 3, "memory", "-", 0, "nothing")
        self.well(*left, linked(2, 5, 5, 1))
        self.well(*left, linked(2, 5, 5, 0))
        self.wrong(*left, linked(2, 5, 5, 2))
        self.wrong(intern(1, 0, 0, FIRST), drop(1, 2, 2, FIRST), left[2], linked(2, 5, 5, 1), linked(2, 6, 6, 2))

    def test_a_last_drop_of_another_bucket_takes_its_entry_out(self):
        ended = intern(1, 0, 0, FIRST, text="afterwards"), drop(1, 2, 4, FIRST, text="afterwards")
        self.wrong(*ended, intern(2, 1, 3, FIRST | 15 << 2), linked(2, 5, 5, 2), bits=4)
        self.well(*ended, intern(2, 1, 3, FIRST | 15 << 2), linked(2, 5, 5, 1), bits=4)

    def test_the_next_pass_takes_out_what_was_left(self):
        left = intern(1, 0, 0, FIRST), drop(1, 2, 4, FIRST), call(2, 1, 3, "memory", "-", 0, "nothing")
        for begun, most in ((4, 1), (5, 0)):  # a sweep that had begun may have passed the entry
            sweep = call(2, begun, 6, "sweep", "-", 0, "nothing")
            self.well(*left, sweep, linked(2, 7, 7, most))
            self.wrong(*left, sweep, linked(2, 7, 7, most + 1))
        self.wrong(*left, intern(2, 5, 6, SECOND, text="magnitude"), linked(2, 7, 7, 2))
        self.wrong(*left, intern(2, 4, 6, SECOND), linked(2, 7, 7, 2))  # the text is looked for, and its entry is dying

    def test_the_next_call_takes_out_all_that_were_left(self):
        interned = intern(1, 0, 0, FIRST), intern(2, 1, 1, SECOND, text="magnitude")
        beside = call(3, 2, 7, "memory", "-", 0, "nothing"), drop(1, 3, 4, FIRST), drop(2, 5, 6, SECOND, text="magnitude")
        found = call(3, 8, 8, "find", "geometric", 0, "absent")
        self.well(*interned, *beside, linked(3, 9, 9, 2))
        self.well(*interned, *beside, found, linked(3, 9, 9, 0))
        self.wrong(*interned, *beside, found, linked(3, 9, 9, 1))

    def test_only_a_last_drop_takes_the_lock(self):
        held = intern(1, 0, 0, FIRST), intern(2, 1, 1, SECOND, text="magnitude")
        shared = *held, call(2, 2, 2, "clone", "magnitude", SECOND)
        beside = drop(1, 3, 8, FIRST), drop(2, 4, 5, SECOND, text="magnitude")
        for most, calls in ((1, (*shared, *beside)), (2, (*shared, *beside, drop(3, 6, 7, SECOND, text="magnitude"))), (2, (*held, *beside))):
            left = 2 - most  # of `magnitude`, which is held or not
            self.well(*calls, linked(2, 9, 9, 1))
            self.wrong(*calls, linked(2, 9, 9, 2))
            (self.well if left == 0 else self.wrong)(*calls, linked(2, 9, 9, 0))

    def test_a_drop_has_the_lock_behind_a_call_beside_it(self):
        interned = intern(1, 0, 0, FIRST), intern(2, 1, 1, SECOND)
        self.well(*interned, drop(1, 1, 2, FIRST), drop(2, 2, 2, SECOND), linked(1, 3, 3, 1))
        self.wrong(*interned, drop(1, 1, 1, FIRST), drop(2, 2, 2, SECOND), linked(1, 3, 3, 1))

    def test_a_walk_takes_the_locks_from_the_first_bucket_to_the_last(self):
        first, last = {"text": "afterwards", "number": FIRST}, {"text": "geometric", "number": FIRST | 15 << 2}
        moved = intern(1, 0, 0, **last), drop(1, 2, 3, **last), intern(1, 4, 5, **first)
        self.wrong(*moved, linked(2, 1, 30, 2), bits=4)
        self.well(*moved, linked(2, 1, 30, 1), bits=4)
        self.well(intern(1, 0, 0, **first), drop(1, 2, 3, **first), intern(1, 4, 5, **last), linked(2, 1, 30, 2), bits=4)
        both = intern(1, 0, 0, **last), intern(1, 0, 0, **first)
        for one, other, is_in_order in ((last, first, False), (first, last, True)):
            dropped = *both, drop(1, 2, 3, **one), drop(1, 4, 5, **other)
            for name in ("memory", "sweep"):
                beside = call(2, 1, 30, name, "-", 0, "nothing")
                (self.well if is_in_order else self.wrong)(*dropped, beside, linked(2, 31, 31, 2), bits=4)
                self.well(*dropped, beside, linked(2, 31, 31, 1), bits=4)
            passed = call(2, 31, 31, "find", "forgotten", 0, "absent")  # so what is linked is of the first bucket
            (self.well if is_in_order else self.wrong)(*dropped, linked(2, 1, 30, 2), passed, linked(2, 32, 32, 1), bits=4)
            self.well(*dropped, linked(2, 1, 30, 1), passed, linked(2, 32, 32, 1), bits=4)

    def test_what_is_pushed_is_held_until_its_place_goes(self):
        pushed, found = push(1, 0, 0), call(2, 2, 2, "find", "forgotten", 0, "absent")
        self.well(pushed, call(2, 1, 1, "find", "forgotten", FIRST))
        self.wrong(pushed, found)
        for name in ("clear", "end"):
            self.well(pushed, call(1, 1, 1, name, "forgotten", 0, "nothing"), found)
            self.wrong(pushed, push(1, 0, 0), call(1, 1, 1, name, "forgotten", 0, "nothing"), found)
            self.wrong(call(1, 1, 1, name, "forgotten", 0, "nothing"))
        self.well(push(1, 0, 0), intern(1, 1, 1, FIRST))
        self.well(push(1, 0, 0), call(1, 1, 1, "end", "forgotten", 0, "nothing"), intern(1, 2, 2, SECOND))

    def test_places_that_go_in_one_call_go_one_after_another(self):
        pushed = push(1, 0, 0), push(1, 1, 1)
        cleared = [call(1, 2, 4, "clear", "forgotten", 0, "nothing")] * 2
        for ticket in (FIRST, SECOND):
            self.well(*pushed, *cleared, intern(2, 3, 3, ticket))
        self.wrong(*pushed, cleared[0], intern(2, 3, 3, SECOND))
        self.well(*pushed, *cleared, call(2, 3, 3, "memory", "-", 0, "nothing"), linked(2, 5, 5, 1))
        self.wrong(*pushed, *cleared, call(2, 3, 3, "memory", "-", 0, "nothing"), linked(2, 5, 5, 2))

    def test_a_popped_atom_stays_held(self):
        popped = push(1, 0, 0), call(1, 1, 1, "pop", "forgotten", FIRST)
        self.well(*popped, drop(1, 2, 2, FIRST), call(2, 3, 3, "find", "forgotten", 0, "absent"))
        self.well(*popped, call(2, 2, 2, "find", "forgotten", FIRST))
        self.wrong(*popped, call(2, 2, 2, "find", "forgotten", 0, "absent"))
        self.wrong(push(1, 0, 0), call(1, 1, 1, "pop", "forgotten", SECOND))
        self.wrong(push(1, 0, 0), call(1, 1, 1, "pop", "forgotten", 0, "absent"))
        self.wrong(intern(1, 0, 0, FIRST), drop(1, 1, 1, FIRST), call(2, 2, 2, "pop", "forgotten", FIRST))

    def test_a_copy_is_one_holder_more(self):
        copied = push(1, 0, 0), call(1, 1, 1, "copy", "forgotten", FIRST), call(1, 2, 2, "end", "forgotten", 0, "nothing")
        self.well(*copied, call(2, 3, 3, "find", "forgotten", FIRST))
        self.well(*copied, drop(1, 3, 3, FIRST), call(2, 4, 4, "find", "forgotten", 0, "absent"))
        self.well(push(1, 0, 0), call(1, 1, 1, "copy", "forgotten", FULL_COUNT, "fault"), holders=1)
        self.wrong(push(1, 0, 0), call(1, 1, 1, "copy", "forgotten", FULL_COUNT, "fault"), holders=2)
        self.wrong(*copied, holders=1)
        self.wrong(push(1, 0, 0), call(1, 1, 1, "copy", "forgotten", SECOND))

    def test_a_push_is_refused_as_an_interning_is_or_for_its_place(self):
        for fault, limits in ((FULL_COUNT, {"holders": 1}), (MEMORY, {"refusals": 1})):
            self.well(intern(1, 0, 0, FIRST), push(2, 1, 1, fault), **limits)
            self.wrong(intern(1, 0, 0, FIRST), push(2, 1, 1, fault))
        self.well(intern(1, 0, 0, FIRST), drop(1, 1, 1, FIRST), push(2, 2, 2, TICKETS_SPENT), serials=1)
        self.wrong(intern(1, 0, 0, FIRST), push(2, 1, 1), holders=1)
        self.wrong(intern(1, 0, 0, FIRST), push(2, 1, 1, MEMORY), push(2, 2, 2, MEMORY), refusals=1)

    def test_a_call_answers_in_its_own_way(self):
        self.wrong(call(1, 0, 0, "push", "forgotten", FIRST))
        self.wrong(intern(1, 0, 0, FIRST, "absent"))
        self.wrong(intern(1, 0, 0, FIRST), call(1, 1, 1, "clone", "forgotten", FIRST, "absent"))
        self.wrong(intern(1, 0, 0, FIRST), call(1, 1, 1, "linked", "-", 1, "visited"))
        self.wrong(call(1, 0, 0, "sweep", "-", 0, "linked"))

    def test_each_text_has_a_bucket(self):
        self.assertEqual(set(HASHES), set(TEXTS))
        self.well(intern(1, 0, 0, FIRST, text="AFTERWARDS"), call(1, 1, 1, "lower", "AFTERWARDS", SECOND))
        self.well(intern(1, 0, 0, FIRST, text="GEOMETRIC"), call(1, 1, 1, "lower", "GEOMETRIC", SECOND))


SCENE = """scene: a clone and a sweep
thread: intern forgotten | clone upper
thread: | find afterwards drop sweep
"""

# What the program may print of it, in a schedule without a switch.
LINES = """1 intern forgotten 0 1 ticket 65536
1 clone forgotten 2 3 ticket 65536
1 upper forgotten 4 5 ticket 131072
1 drop FORGOTTEN 6 7 ticket 131072
1 drop forgotten 8 9 ticket 65536
1 drop forgotten 10 11 ticket 65536
2 find afterwards 12 13 absent 0
2 sweep - 14 15 nothing 0
linked 0 left 0
status 0 blocks 0 """


LIST_SCENE = """scene: a list
thread: push forgotten push geometric copy | pop clear copy push forgotten push forgotten pop
"""

LIST_LINES = """1 push forgotten 0 1 nothing 0
1 push geometric 2 3 nothing 0
1 copy geometric 4 5 ticket 131072
1 pop geometric 6 7 ticket 131072
1 clear forgotten 8 9 nothing 0
1 push forgotten 10 11 nothing 0
1 push forgotten 12 13 nothing 0
1 pop forgotten 14 15 ticket 196608
1 drop forgotten 16 17 ticket 196608
1 drop geometric 18 19 ticket 131072
1 drop geometric 20 21 ticket 131072
1 end forgotten 22 23 nothing 0
linked 0 left 0
status 0 blocks 0 """


class Outcomes(unittest.TestCase):
    def wrong(self, old="", new="", scene=SCENE, lines=LINES):
        """What is wrong with the lines, of which one text is replaced."""
        return Outcome(1, "", lines.replace(old, new).split("\n")).wrong(read_scenes(scene)[0], 0)

    def test_the_calls_are_those_of_the_scene(self):
        self.assertIsNone(self.wrong())
        first, *_, sweep, linked, status = LINES.split("\n")
        second = "\n".join(LINES.split("\n")[6:8])
        strange = [
            (LINES, f"{linked}\n{status}"),  # no calls
            (f"{second}\n", ""),  # none of a thread
            (f"{sweep}\n", ""),
            (f"{sweep}\n", f"{sweep}\n2 sweep - 16 17 nothing 0\n"),
            ("2 find", "2 read"),
            ("2 find afterwards", "2 find geometric"),
            ("1 clone forgotten", "1 clone magnitude"),
            ("1 drop forgotten 10 11 ticket 65536\n", ""),
            (f"{sweep}\n", f"{sweep}\n3 sweep - 16 17 nothing 0\n"),  # of a third thread
        ]
        for old, new in strange:
            self.assertEqual(self.wrong(old, new), "these aren't the calls of the scene", new)

    def test_the_calls_on_a_list_are_those_of_the_scene(self):
        self.assertIsNone(self.wrong(scene=LIST_SCENE, lines=LIST_LINES))
        strange = [
            ("1 pop forgotten", "1 pop geometric"),
            ("1 copy geometric", "1 copy forgotten"),
            ("1 clear forgotten 8 9 nothing 0\n", ""),
            ("1 clear forgotten", "1 end forgotten"),
            ("1 end forgotten 22 23 nothing 0\n", ""),
            ("1 end forgotten 22 23 nothing 0\n", "1 end forgotten 22 23 nothing 0\n" * 2),
            ("1 push forgotten 12 13 nothing 0", "1 push forgotten 12 13 fault 1"),
            ("1 drop geometric 20 21 ticket 131072\n", ""),
        ]
        for old, new in strange:
            self.assertEqual(self.wrong(old, new, LIST_SCENE, LIST_LINES), "these aren't the calls of the scene", new)

    def test_it_ends_with_nothing_that_is_left(self):
        self.assertIn("linked 1", self.wrong("linked 0 left", "linked 1 left"))
        self.assertIn("left 1", self.wrong("left 0", "left 1"))
        self.assertIn("status 1", self.wrong("status 0", "status 1"))
        self.assertIn("2 blocks", self.wrong("blocks 0", "blocks 2"))
        self.assertIn("nothing", self.wrong(LINES, "status 0 blocks 0 "))
        self.assertEqual("a block is read once freed", self.wrong(LINES, "status 0 blocks 0 a block is read once freed"))


if __name__ == "__main__":
    unittest.main()
