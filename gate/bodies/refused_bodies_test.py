#!/usr/bin/env python3
"""Tries what gate/bodies/refused_bodies.py says of wrong bodies: where a text stands, what a check's lines mean, and, of a small crate that is
proved, which bodies count as refused. Those that must not are of the same meaning, break a name that a proof cites, lie outside their
function, or don't compile.

usage: gate/bodies/refused_bodies_test.py [WORD..]
"""

import os
import sys
import tempfile
import unittest
from pathlib import Path
from types import SimpleNamespace
from unittest import mock

sys.path.append(str(Path(__file__).resolve().parent.parent))
import find_modules  # has Python find the next ones
import batches
import further
import refused_bodies
import run_tests
from edits import BadEdit
from functions import function_at, plain_bodies, spans, whole_function
from small_repository import InSmallRepository
from spared import emptied, functions_told, spared

CRATE = """\
//! What is edited.
#![tactic(auto)]
ghost use Rattle.std.specs.Prelude.{◌≡◌, ◌+◌, ◌*◌, ◌<◌, ◌≤◌, length};

/// The number after it.
pub fn next(number: u8) -> u32
    ensures { result ≡ number + 1 }
{
    let wide = u32::from(number);
    wide + 1
}

/// Twice the number after it.
pub fn twice(number: u8) -> u32
    ensures { result ≡ (number + 1) * 2 }
{
    next(number) * 2
}

/// The number itself.
pub fn same(number: u8) -> u32
    ensures { result ≡ number }
{
    u32::from(number)
}

/// Twice the number.
pub fn doubled(number: u8) -> u32
    ensures { result ≡ number * 2 }
{
    same(number) * 2
}

/// Four times the number.
pub fn fourfold(number: u8) -> u32
    ensures { result ≡ number * 4 }
{
    doubled(number) * 2
}

/// How many of the numbers are zero.
pub fn zeros(numbers: &[u8]) -> usize
    ensures { result ≤ length numbers.now }
{
    let mut found = 0;
    for number in numbers {
        if *number == 0 {
            found += 1;
        }
    }
    found
}
"""
ANSWERS = """\
use Rattle.std.proofs.Common.{arith}
use Rattle.few.proofs.same.Goals as goal

pub returns : goal.returns
returns c = omega arith
"""
INVARIANTS = """\
use Rattle.std.proofs.Common.{◌≤◌}
use Rattle.few.proofs.zeros.Given as goal

abbrev pub invariant-loop-number : goal.invariant-loop-number
invariant-loop-number l = l.found ≤ l.number-index
"""
METHODS = """\
impl<'t> Model for Few<'t> {
    ghost Value = { List };
}

impl<S: Static<u8>> Iterator for Few<'_, S> {
    fn next(&mut self) -> Option<u8>
        ensures { IsSome result }
    {
        self.step()
    }
}

impl Few<'_> {
    pub const fn next(&self) -> u8 {
        7
    }
}

pub trait Calls {
    fn called(&self) -> u8;
}
"""
# Functions with no body, or with nothing in it, between those with one.
EMPTY = """\
trait Sides {
    fn left(self) -> u8
        ensures { result ≡ 0 };
}

fn none() {}

impl Sides for Few {
    fn left(self) -> u8
        ensures { self.new ≡ record self.old {
          left = 0;
        } }
    {
        self.left
    }
}

fn right() {
    left()
}
"""
# What is said of two functions of which one calls the other, and of a third whose proof names what is gone.
SAID = """\
./proofs/low/third/Answers.antt:4:15: error: `returns`: `goal.returns`: module `Goals` has no `returns` that can be named from here
./proofs/low/fifth/Proof.antt:9:1: error: `walk`: expected type `A`
./proofs/low/tenth/Answers.antt:3:9: error: `loop-preserved`: record `few.low.tenth.After-keep` (nearest: .keep)
  has no field `take_out`
  the fields that can be named here are `keep`
./proofs/low/tenth/Answers.antt: error: rattle does not read this file, since the borrow checker does not cover the function
./proofs/low/eleventh/Answers.antt:3:9: error: `kept`: record `few.low.eleventh.After-keep` (nearest: .keep)
  has no field `take_out`
./proofs/low/eleventh/Answers.antt:8:1: error: `returns`: the two types differ
  expected type `A`
./proofs/low/twelfth/Answers.antt:8:1: error: `kept`: nothing uses this
fn few::low::first: no proof: expected answers in ./proofs/low/first/Answers.antt; `search` did not prove `returns`, `invariant_of-result`
fn few::low::Few::second: no proof: it calls `few::low::first`, which is not proved
fn few::low::third: not proved
fn few::low::fourth: proved
fn few::low::fifth: not proved; it calls `few::low::first`, which is not proved
fn few::low::sixth: no proof: expected answers; `search` did not prove `overflow_add`; it calls `few::low::first`, which is not proved
fn few::low::seventh: no proof: expected a measure in ./proofs/low/seventh/Invariants.antt
fn few::low::fn::ninth::scope: no proof: expected answers; `search` did not prove `returns-clause-same`
fn few::low::fn::ninth::scope+FnOnce::call_once: no proof: it calls `few::low::fn::ninth::scope`, which is not proved
fn few::low::ninth: no proof: it calls `few::low::fn::ninth::scope+FnOnce::call_once`, which is not proved
fn few::low::ninth_of: proved
fn few::low::tenth: not proved
fn few::low::eleventh: not proved
fn few::low::fn::twelfth::all: proved where its callers give what it asks, may wait
fn few::low::twelfth: proved, may wait
crate few: modules loaded=28 checked=21
"""


def changes_of(*pairs):
    return [("src/lib.rt", old, new) for old, new in pairs]


class Places(unittest.TestCase):
    """Where a text stands, and in which function."""

    def place(self, text, function):
        name, around, opens, closes = function_at(METHODS, METHODS.index(text))
        return batches.is_of(function, name, around), METHODS[opens:closes]

    def test_a_method_is_told_by_its_impl(self):
        self.assertEqual(self.place("self.step()", "FewIterator::next"), (True, "        self.step()\n"))
        self.assertEqual(self.place("7", "Few::next"), (True, "        7\n"))
        self.assertEqual(self.place("7", "Other::next"), (False, "        7\n"))
        self.assertFalse(self.place("7", "Few::step")[0])

    def test_what_is_no_body_is_none(self):
        with self.assertRaises(BadEdit):
            function_at(METHODS, METHODS.index("List"))
        with self.assertRaises(BadEdit):
            function_at(METHODS, METHODS.index("called"))


    def test_bodies_begin_and_end_at_their_own_braces(self):
        lines = EMPTY.splitlines()
        self.assertEqual([(lines[head].strip(), lines[opens + 1].strip(), lines[closes]) for head, opens, closes in spans(lines)], [
            ("fn left(self) -> u8", "self.left", "    }"),
            ("fn right() {", "left()", "}"),
        ])


class Lines(unittest.TestCase):
    """What a check's lines mean."""

    def goals(self, function):
        return batches.judge(function, SAID)[0]

    def test_goals_of_a_function_refuse_it(self):
        self.assertEqual(self.goals("first"), ["returns", "invariant_of-result"])
        self.assertEqual(self.goals("low::sixth"), ["overflow_add"])
        self.assertEqual(self.goals("seventh"), ["a loop's measure"])
        self.assertEqual(self.goals("fifth"), ["`walk`: expected type `A`"])

    def test_what_it_calls_does_not(self):
        self.assertEqual(self.goals("Few::second"), [])

    def test_a_closure_in_it_does(self):
        self.assertEqual(self.goals("ninth"), ["returns-clause-same"])
        self.assertEqual(self.goals("ninth_of"), [])

    def test_a_name_that_is_gone_does_not(self):
        self.assertEqual(self.goals("third"), [])
        self.assertEqual(self.goals("tenth"), [])
        self.assertEqual(self.goals("eleventh"), ["`returns`: the two types differ"])

    def test_a_function_that_no_body_changes_has_to_be_proved(self):
        bodies = [SimpleNamespace(function=name) for name in ("first", "fifth", "sixth", "low::seventh", "ninth", "eleventh")]
        self.assertEqual(batches.strangers(bodies, SAID), [])
        self.assertEqual(batches.strangers(bodies[1:], SAID), ["few::low::first"])

    def test_a_function_is_named_by_one_line(self):
        self.assertEqual((self.goals("fourth"), self.goals("twelfth")), ([], []))
        self.assertEqual([batches.is_proved(name, SAID) for name in ("fourth", "twelfth", "tenth", "ninth")], [True, True, False, False])
        for function in ("eighth", "ourth", "low"):
            goals, text = batches.judge(function, SAID)
            self.assertEqual((goals, text[:22]), ([], "the check has 0 lines "))


class Crate(InSmallRepository):
    """Bodies of a small crate."""

    def setUp(self):
        texts = {"src/lib.rt": CRATE, "proofs/same/Answers.antt": ANSWERS, "proofs/zeros/Invariants.antt": INVARIANTS}
        self.begin("few: core\n", {f"crates/few/{file}": text for file, text in texts.items()}, refused_bodies)
        self.folder = self.top / "crates" / "few"

    def placed(self, label, function, *pairs):
        return batches.placed(label, self.folder, function, changes_of(*pairs))

    def test_a_change_outside_its_function_is_a_bad_edit(self):
        for function, old, new in (
            ("twice", "wide + 1", "wide + 2"),
            ("next", "result ≡ number + 1", "result ≡ number"),
            ("next", "pub fn next(number: u8) -> u32", "pub fn next(number: u8) -> u32 "),
            ("next", "    wide + 1\n}", "    wide + 1\n} "),
            ("next", "number", "other"),
        ):
            with self.assertRaises(BadEdit, msg=old):
                self.placed("some", function, (old, new))
        for file in ("proofs/same/Answers.antt", "specs/Lib.antt"):
            with self.assertRaises(BadEdit):
                batches.placed("some", self.folder, "next", [*changes_of(("wide + 1", "wide + 2")), (file, "arith}", "arith }")])

    def test_texts_stand_at_their_places(self):
        first = self.placed("first", "next", ("wide + 1", "next(number) * 2"))
        second = self.placed("second", "twice", ("next(number) * 2", "wide + 1"))
        (text,) = batches.texts_with([first, second], self.folder).values()
        self.assertEqual(text, CRATE.replace("    wide + 1", "    SWAP").replace("    next(number) * 2", "    wide + 1").replace("SWAP", "next(number) * 2"))

    def test_a_function_comes_once_in_a_batch(self):
        bodies = [self.placed(str(it), "next", ("wide + 1", f"wide + {it}")) for it in (2, 3, 4)]
        bodies.append(self.placed("5", "twice", ("next(number) * 2", "next(number) * 3")))
        found = [[str(body) for body in batch] for batch in batches.batches(bodies)]
        self.assertEqual(sorted(map(sorted, found)), [["2", "5"], ["3"], ["4"]])

    def test_a_function_is_copied_with_its_proofs(self):
        body = self.placed("some", "zeros", ("found += 1;", "found += 2;"))
        copies, own = further.copies_of([body], self.folder)
        self.assertEqual((copies[body].function, own["zeros"].function), ("zeros_2", "zeros_1"))
        for copy, last, step in ((copies[body], "zeros_2", "found += 2;"), (own["zeros"], "zeros_1", "found += 1;")):
            ((file, first, end, text),) = copy.places
            self.assertEqual((file, first, end), ("src/lib.rt", len(CRATE), len(CRATE)))
            self.assertEqual(text, f"\n{CRATE[CRATE.index('/// How many') :]}".replace("fn zeros(", f"fn {last}(").replace("found += 1;", step))
            proofs = {self.folder / "proofs" / last / "Invariants.antt": INVARIANTS.replace("proofs.zeros.", f"proofs.{last}.")}
            self.assertEqual(copy.files, proofs)

    def test_a_whole_proof_is_copied_under_its_function_s_name(self):
        proof = "use Rattle.few.proofs.next.Code as code\n\npub next_spec : statement\nnext_spec = proved (twice_spec next_spec_of)\n"
        (self.folder / "proofs" / "next").mkdir()
        (self.folder / "proofs" / "next" / "Proof.antt").write_text(proof, encoding="utf-8")
        copies, _ = further.copies_of([self.placed("some", "next", ("wide + 1", "wide + 2"))], self.folder)
        ((_, text),) = (files for copy in copies.values() for files in copy.files.items())
        self.assertEqual(text, proof.replace("proofs.next.", "proofs.next_2.").replace("next_spec ", "next_2_spec "))

    def test_a_method_of_a_trait_is_not_copied(self):
        first = METHODS.index("self.step()")
        self.assertIsNone(whole_function(METHODS, first))
        begins, ends = whole_function(METHODS, METHODS.index("7"))
        self.assertEqual(METHODS[begins:ends], "    pub const fn next(&self) -> u8 {\n        7\n    }\n")

    def test_copies_count_where_the_function_itself_is_proved_as_one(self):
        first, second = (self.placed(str(step), "zeros", ("found += 1;", f"found += {step};")) for step in (2, 3))
        said = "fn few::zeros: not proved; `search` did not prove `returns`\n" * 2
        calls = "it calls `few::same`, which is not proved"
        rows = {"proved": ["2", "3"], "proved, may wait": ["2", "3"], "not proved": ["2"], "proved, but for": ["2"], f"no proof: {calls}": ["2", "3"], f"not proved; {calls}": ["2"]}
        for own, wanted in rows.items():
            lines = said.replace("zeros", "zeros_2", 1) + f"fn few::zeros_1: {own}\n"
            with mock.patch.object(batches, "check", return_value=lines):
                found = further.in_one_check([first], [second], self.folder)
            self.assertEqual([str(body) for body, goals, _ in found if goals], wanted)

    def test_only_bodies_that_their_own_function_refuses_pass(self):
        counted = [("let mut found = 0;", "let mut seen = 0;"), ("found += 1;", "seen += 1;"), ("    found\n", "    seen\n")]
        looped = [("for number in numbers", "for entry in numbers"), ("if *number == 0", "if *entry == 0")]
        rows = {  # the function, what is changed, whether it counts as refused, and what is said
            "wrong": ("next", [("wide + 1", "wide + 2")], True, "refused at returns"),
            "wrong_above": ("twice", [("next(number) * 2", "next(number) * 3")], True, "refused at returns"),
            "same_meaning": ("twice", [("next(number) * 2", "next(number) + next(number)")], False, "NOT REFUSED: proved"),
            "stale_name": ("zeros", counted, False, "NOT REFUSED: "),
            "stale_loop": ("zeros", looped, False, "NOT REFUSED: "),
            "stale_goal": ("same", [("    u32::from(number)", "    if number == 0 { 0 } else { u32::from(number) }")], False, "NOT REFUSED: not proved"),
            "wrong_answer": ("same", [("    u32::from(number)", "    u32::from(number / 2)")], True, "refused at `returns`: `omega`"),
        }
        spared = {  # `same` and `doubled` are
            "wrong": ("next", [("wide + 1", "wide + 2")], True, "refused at returns"),
            "wrong_above": ("fourfold", [("doubled(number) * 2", "doubled(number) * 3")], True, "refused at returns"),
            "wrong_below": ("twice", [("next(number) * 2", "next(number) * 3")], True, "refused at returns"),
            "same_meaning": ("fourfold", [("doubled(number) * 2", "doubled(number) + doubled(number)")], False, "NOT REFUSED: proved"),
        }
        alone = {"not_compiled": ("next", [("wide + 1", "wider + 1")], False, "NOT REFUSED: the check has 0 lines for next")}
        with tempfile.TemporaryDirectory(prefix="refused-test-") as room:
            folder = batches.copies_of(["few"], Path(room))["few"]
            for asked, proved in ((rows, None), (spared, {"next", "twice", "same", "doubled", "fourfold", "zeros"}), (alone, ())):
                bodies = [self.placed(name, function, *pairs) for name, (function, pairs, _, _) in asked.items()]
                found = {str(body): (well, text) for body, well, text in refused_bodies.judged(bodies, folder, proved)}
                for name, (_, _, well, text) in asked.items():
                    self.assertEqual(found[name][0], well, (name, found[name]))
                    self.assertIn(text, found[name][1], name)

    def test_a_check_of_its_own_is_told(self):
        bodies = [self.placed(str(step), "zeros", ("found += 1;", f"found += {step};")) for step in (2, 3)]
        answer = [(body, ["returns"], "") for body in bodies], bodies[1:]
        with mock.patch.object(further, "together", return_value=answer):
            found = refused_bodies.judged(bodies, self.folder, ())
        self.assertEqual([text for *_, text in found], ["refused at returns", "refused at returns, in a check of its own"])

    def test_what_is_not_read_hides_no_other(self):
        rows = {
            "unread": ("next", "wide + 1", "wider + 1"),
            "wrong": ("next", "wide + 1", "wide + 2"),
            "unread_too": ("twice", "    next(number) * 2", '    next(number) * "2"'),
        }
        bodies = [self.placed(name, function, (old, new)) for name, (function, old, new) in rows.items()]
        with tempfile.TemporaryDirectory(prefix="refused-test-") as room, mock.patch.object(batches, "check", side_effect=batches.check) as checks:
            found, alone = further.together(bodies, batches.copies_of(["few"], Path(room))["few"])
        self.assertEqual({str(body): goals for body, goals, _ in found}, {"unread": [], "wrong": ["returns"], "unread_too": []})
        self.assertEqual((alone, checks.call_count), ([], 2))
        self.assertTrue(all("error" in text for _, goals, text in found if not goals))

    def test_a_name_of_no_function_hides_no_other(self):
        wrong = self.placed("wrong", "next", ("wide + 1", "wide + 2"))
        strays = [SimpleNamespace(function=name, places=[], files={}) for name in ("Texts::next", "nothing")]
        with tempfile.TemporaryDirectory(prefix="refused-test-") as room:
            said = batches.check([strays[0], wrong, strays[1]], batches.copies_of(["few"], Path(room))["few"])
        self.assertEqual(batches.judge("next", said)[0], ["returns"])
        for stray in strays:
            self.assertEqual((batches.judge(stray.function, said)[0], f"has no function `{stray.function}`" in said), ([], True))

    def test_nothing_is_refused_of_a_crate_that_is_not_proved(self):
        file = self.folder / "src" / "lib.rt"
        file.write_text(CRATE.replace("wide + 1", "wide + 3"), encoding="utf-8")
        with tempfile.TemporaryDirectory(prefix="refused-test-") as room:
            folder = batches.copies_of(["few"], Path(room))["few"]
            (result,) = refused_bodies.judged([self.placed("wrong", "twice", ("next(number) * 2", "next(number) * 3"))], folder)
        self.assertEqual(result[1:2] + (result[2][:10],), (False, "NOT TRIED:"))


class Spared(InSmallRepository):
    """Which functions' proofs a check is spared."""

    TOLD = """\
== low
fn low::first: proved
== few
struct few::Few: proved
fn few::next: proved
fn few::Few::zeros: proved, may wait
fn few::Few::twice: proved
fn few::fn::next::all: proved
fn few::FewIterator+Destruct::drop: proved
rt: few proved
== few: its tests
fn few::tests::rows: proved
"""

    def setUp(self):
        self.begin("few: core\n", {"crates/few/proofs/Few/twice/Answers.antt": ANSWERS}, refused_bodies)
        self.folder = self.top / "crates" / "few"

    def files(self):
        return {str(it.relative_to(self.folder)): it.read_text(encoding="utf-8") for it in self.folder.rglob("*.antt")}

    def test_functions_of_a_crate_are_told_by_its_own_proof(self):
        self.assertEqual(functions_told("few", self.TOLD), {"next", "Few::zeros", "Few::twice"})
        self.assertEqual((functions_told("low", self.TOLD), functions_told("other", self.TOLD)), ({"first"}, set()))

    def test_proofs_are_put_back(self):
        before, bodies = self.files(), [SimpleNamespace(function="zeros")]
        with spared(functions_told("few", self.TOLD), bodies, self.folder):
            self.assertEqual(self.files(), {"proofs/next/Proof.antt": "", "proofs/Few/twice/Proof.antt": ""})
        self.assertEqual((self.files(), (self.folder / "proofs" / "next").exists()), (before, False))

    def test_bodies_of_those_that_are_spared_are_emptied(self):
        text, bodies = f"{METHODS}\n{CRATE[CRATE.index('pub fn next') :]}", [SimpleNamespace(function="twice")]
        self.assertEqual([words for words, *_ in plain_bodies(text)], [["next"], ["twice"], ["same"], ["doubled"], ["fourfold"], ["zeros"]])
        (self.folder / "src").mkdir()
        (self.folder / "src" / "few.rt").write_text(text, encoding="utf-8")
        places = emptied({"few::next", "few::twice", "other::same"}, bodies, self.folder)
        self.assertEqual([(file, text[first:end], new) for file, first, end, new in places], [
            ("src/few.rt", "    let wide = u32::from(number);\n    wide + 1\n", "    loop {}\n"),
        ])

    def test_one_that_calls_itself_is_not_spared(self):
        (self.folder / "proofs" / "+next").mkdir()
        with spared({"next", "zeros"}, [], self.folder):
            self.assertEqual(sorted(set(self.files()) - {"proofs/Few/twice/Answers.antt"}), ["proofs/zeros/Proof.antt"])


class Turn(unittest.TestCase):
    """Which crate's bodies are tried next."""

    FIRST, SECOND = Path("first"), Path("second")

    def test_a_crate_waits_until_it_is_proved(self):
        with (
            tempfile.TemporaryDirectory(prefix="refused-test-") as room,
            mock.patch("machine.idle_processors", return_value=1),
            mock.patch("time.sleep"),
        ):
            said = Path(room) / "said"
            queue = refused_bodies.Queue([self.FIRST, self.SECOND], os.getpid(), said)
            self.assertIsNone(queue.first_proved())
            said.write_text("rt: first: its tests are proved\nrt: second proved\nrt: first NOT PROVED\n", encoding="utf-8")
            self.assertEqual(queue.take(), self.SECOND)
            self.assertIsNone(queue.first_proved())
            said.write_text("rt: first is kept: an earlier run proved it\n", encoding="utf-8")
            self.assertEqual((queue.take(), queue.take()), (self.FIRST, None))

    def test_none_waits_where_no_other_process_proves_them(self):
        queue = refused_bodies.Queue([self.FIRST, self.SECOND])
        self.assertEqual((queue.take(), queue.take(), queue.take()), (self.FIRST, self.SECOND, None))


if __name__ == "__main__":
    sys.exit(run_tests.main())
