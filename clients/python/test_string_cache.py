"""Tests of string_cache.py: `python3 -m unittest`, in this folder."""

from __future__ import annotations

import contextlib
import copy
import faulthandler
import gc
import pickle
import signal
import sys
import threading
import unittest
import weakref
from collections.abc import Callable
from unittest import mock

import string_cache
from string_cache import VERSION, Closed, Interner, Refused

SAMPLES = ["", "a", "1234567", "12345678", "x" * 100_000, "café", "naïve café ☕", "日本語の長い名前", "\0", "\0" * 9, "😀" * 70]
SECONDS = 60  # for a test whose calls could wait for themselves


class Coded(str):
    """A text that says it is encoded as another one."""

    def encode(self, *_: object) -> bytes:  # type: ignore[override]
        return b"another name"


class Interning(unittest.TestCase):
    def setUp(self) -> None:
        self.names = Interner()
        self.addCleanup(self.names.close)

    def test_equal_texts_have_equal_words(self) -> None:
        for text in SAMPLES:
            self.assertEqual(self.names.intern(text), self.names.intern(text))

    def test_different_texts_have_different_words(self) -> None:
        self.assertEqual(len({self.names.intern(text) for text in SAMPLES}), len(SAMPLES))

    def test_a_word_has_its_text(self) -> None:
        words = [self.names.intern(text) for text in SAMPLES]
        self.assertEqual([self.names.text(word) for word in words], SAMPLES)

    def test_a_short_text_lies_in_its_word(self) -> None:
        self.assertEqual(self.names.intern("abc"), 0x63626131)
        self.assertEqual(self.names.text(0x63626131), "abc")
        self.assertEqual(len(self.names), 0)

    def test_any_text_is_looked_up(self) -> None:
        samples = [*SAMPLES, "x" * 2_000_000, "é" * 1_000_000, "a" + "日本語" * 300_000]
        long = [text for text in samples if len(text.encode()) > 7]
        self.assertEqual([text in self.names for text in samples], [text not in long for text in samples])
        self.assertEqual([self.names.get(text) for text in long], [None] * len(long))
        words = [self.names.intern(text) for text in samples]
        self.assertEqual([self.names.get(text) for text in samples], words)
        self.assertTrue(all(text in self.names and word in self.names for text, word in zip(samples, words)))
        # Not by assertEqual, which would print a difference of such texts.
        self.assertTrue([self.names.text(word) for word in words] == samples)
        self.assertTrue(list(self.names) == long)
        self.assertEqual(self.names.text_bytes(), sum(len(text.encode()) for text in long))

    def test_looking_up_interns_nothing(self) -> None:
        self.assertIsNone(self.names.get("a longer name"))
        self.assertNotIn("a longer name", self.names)
        self.assertEqual(len(self.names), 0)
        word = self.names.intern("a longer name")
        self.assertEqual(self.names.get("a longer name"), word)
        self.assertIn("a longer name", self.names)
        self.assertIn(word, self.names)
        self.assertEqual(self.names.holders(word), 1)

    def test_a_given_key_changes_no_word(self) -> None:
        words = [self.names.intern(text) for text in SAMPLES]
        for key in (0, 1 << 127 | 5, (1 << 128) - 1):
            with Interner(key=key) as names:
                self.assertEqual([names.intern(text) for text in SAMPLES], words)
        for key in (-1, 1 << 128):
            self.assertRaises(ValueError, Interner, key=key)
        self.assertRaises(TypeError, Interner, key="key")
        self.assertRaises(ValueError, Interner, bucket_bits=15, key=1)

    def test_texts_come_in_order(self) -> None:
        texts = [f"name number {at}" for at in range(1000)]
        words = [self.names.intern(text) for text in texts]
        self.assertEqual(list(self.names), texts)
        self.assertEqual(list(self.names.items()), list(zip(words, texts)))
        self.names.release(words[0])
        self.assertEqual(list(self.names), [texts[-1], *texts[1:-1]])

    def test_what_changes_in_a_loop_lets_it_end(self) -> None:
        texts = [f"name number {at}" for at in range(9)]
        for text in texts:
            self.names.intern(text)
        for at, text in enumerate(self.names):
            self.assertEqual(text, texts[at])
            self.names.intern(f"another name, number {at}")
        self.assertEqual((at, len(self.names)), (8, 18))
        for at, (word, text) in enumerate(self.names.items()):
            self.assertLess(at, 18)
            self.assertEqual(self.names.text(word), text)
            self.names.release(word)
        for at, _ in enumerate(self.names):
            self.names.clear()
        self.assertEqual((at, list(self.names)), (0, []))

    def test_a_text_goes_with_its_last_holder(self) -> None:
        word = self.names.intern("a longer name")
        self.names.hold(word)
        self.names.release(word)
        self.assertEqual(self.names.text_bytes(), 13)
        self.names.release(word)
        self.assertEqual(len(self.names), 0)
        for call in (self.names.text, self.names.hold, self.names.release):
            self.assertRaises(KeyError, call, word)
        self.assertIsNone(self.names.holders(word))
        self.assertNotEqual(self.names.intern("a longer name"), word)

    def test_any_int_may_be_asked_for(self) -> None:
        for word in (0, 3, -1, 1 << 63, 1 << 64, -(1 << 70), (1 << 64) + 1):
            self.assertRaises(KeyError, self.names.text, word)
            self.assertRaises(KeyError, self.names.release, word)
            self.assertNotIn(word, self.names)

    def test_a_text_of_no_encoding_is_refused(self) -> None:
        self.assertRaises(UnicodeEncodeError, self.names.intern, "half a pair: \ud800")
        self.assertEqual(len(self.names), 0)

    def test_a_text_is_what_its_characters_are(self) -> None:
        word = self.names.intern(Coded("a longer name"))
        self.assertEqual(self.names.text(word), "a longer name")
        self.assertEqual((self.names.get(Coded("a longer name")), self.names.get("a longer name")), (word, word))
        self.assertNotIn("another name", self.names)

    def test_room_that_no_machine_has_is_refused(self) -> None:
        self.assertRaises(MemoryError, self.names.reserve, (1 << 63) - 1)
        self.assertRaises(ValueError, self.names.reserve, -1)
        self.names.reserve(1000)

    def test_memory_is_told(self) -> None:
        with Interner(bucket_bits=0) as names:  # a second text in the first group of places takes its own bytes and no more
            empty = names.memory()
            names.intern("a longer name")
            one = names.memory()
            self.assertEqual((empty > 8, one), (True, empty + 13 + 496 + 208 + 1))
            names.intern("short")
            second = names.intern("日本語の名前")
            self.assertEqual(names.memory(), one + 18)
            names.release(second)
            self.assertEqual(names.memory(), one)
            names.reserve(1000)
            self.assertGreater(names.memory(), one + 64 * 1000)
        self.assertEqual(names.memory(), 0)

    def test_clearing_takes_all_away(self) -> None:
        word = self.names.intern("a longer name")
        self.names.clear()
        self.assertEqual(list(self.names), [])
        self.assertNotIn(word, self.names)

    def test_threads_share_an_interner(self) -> None:
        texts = [f"name number {at}" for at in range(500)]
        found: list[list[int]] = []
        threads = [threading.Thread(target=lambda: found.append([self.names.intern(text) for text in texts])) for _ in range(8)]
        for thread in threads:
            thread.start()
        for thread in threads:
            thread.join()
        self.assertEqual(len(found), 8)
        self.assertTrue(all(words == found[0] for words in found))
        self.assertEqual([self.names.holders(word) for word in found[0]], [8] * 500)


class Holder:
    """A holder of a text that only the collector of cycles ends, wherever it runs, and which gives the text back then."""

    def __init__(self, names: Interner, text: str) -> None:
        self.itself, self.names, self.word = self, names, names.intern(text)

    def __del__(self) -> None:
        self.names.release(self.word)


class Reentered(unittest.TestCase):
    """Calls of an interner in the middle of its other calls, where these have its lock."""

    def setUp(self) -> None:
        faulthandler.dump_traceback_later(SECONDS, exit=True, file=sys.__stderr__)  # of a call that waits for itself
        self.addCleanup(faulthandler.cancel_dump_traceback_later)
        self.names = Interner()
        self.addCleanup(self.names.close)
        self.text = "a longer name " * 100
        self.word = self.names.intern(self.text)

    def behind(self, name: str, step: Callable[[], object]) -> contextlib.AbstractContextManager[object]:
        """Has the next call of this function of the library followed by a step."""
        call, steps = getattr(string_cache._library, name), [step]

        def called(*arguments: object) -> object:
            answer = call(*arguments)
            while steps:
                steps.pop()()
            return answer

        return mock.patch.object(string_cache._library, name, called)

    def test_finalizers_call(self) -> None:
        self.addCleanup(gc.set_threshold, *gc.get_threshold())
        self.addCleanup(gc.unfreeze)
        gc.freeze()  # the collector looks only at what comes now, as often as it may
        gc.set_threshold(1)
        for at in range(300):
            Holder(self.names, f"name number {at}")
            weakref.finalize(Holder(self.names, "another name"), self.names.release, self.names.intern(f"another name, number {at}"))
            self.assertEqual((self.names.text(self.word), self.names.get(self.text)), (self.text, self.word))
            self.assertIn((self.word, self.text), list(self.names.items()))
        gc.collect()
        self.assertEqual(list(self.names), [self.text])

    @unittest.skipUnless(hasattr(signal, "setitimer"), "there is no timer that signals")
    def test_signal_handlers_call(self) -> None:
        seen = []
        former = signal.signal(signal.SIGALRM, lambda *_: seen.append((len(self.names), self.names.text(self.word))))
        self.addCleanup(signal.signal, signal.SIGALRM, former)
        self.addCleanup(signal.setitimer, signal.ITIMER_REAL, 0)
        signal.setitimer(signal.ITIMER_REAL, 0.005, 0.005)
        while len(seen) < 50:
            self.assertEqual(self.names.text(self.word), self.text)
        signal.setitimer(signal.ITIMER_REAL, 0)
        self.assertEqual(set(seen), {(1, self.text)})

    def test_a_text_that_goes_while_it_is_asked_for_is_not_held(self) -> None:
        with self.behind("sc_text", lambda: (self.names.clear(), self.names.intern("another name " * 200))):
            self.assertRaises(KeyError, self.names.text, self.word)
        with self.behind("sc_text", self.names.close):
            self.assertRaises(Closed, self.names.text, self.names.intern(self.text))

    def test_an_entry_that_goes_while_it_is_asked_for_is_left_out(self) -> None:
        words = [self.names.intern(f"name number {at}") for at in range(3)]
        with self.behind("sc_entry", lambda: self.names.release(self.word)):
            self.assertEqual(list(self.names), ["name number 2", "name number 0", "name number 1"])
        with self.behind("sc_entry", self.names.clear):
            self.assertEqual(list(self.names.items()), [])
        self.assertFalse(any(word in self.names for word in words))


class Arguments(unittest.TestCase):
    """What isn't of the right type is told by its name, and nothing changes."""

    def setUp(self) -> None:
        self.names = Interner()
        self.addCleanup(self.names.close)

    def test_a_text_is_a_str(self) -> None:
        for call in (self.names.intern, self.names.get):
            for text in (b"a longer name", 1.5, None, 7):
                with self.assertRaisesRegex(TypeError, f"text .* {type(text).__name__}$"):
                    call(text)
        self.assertEqual(len(self.names), 0)

    def test_a_word_is_an_int(self) -> None:
        for call in (self.names.text, self.names.hold, self.names.release, self.names.holders):
            for word in (b"1", 1.0, None, "1"):
                with self.assertRaisesRegex(TypeError, f"word .* {type(word).__name__}$"):
                    call(word)

    def test_other_arguments_are_named(self) -> None:
        for item in (b"a longer name", 1.0, None):
            with self.assertRaisesRegex(TypeError, "item"):
                item in self.names
        with self.assertRaisesRegex(TypeError, "more"):
            self.names.reserve(1.5)
        for name in ("holders", "tickets", "bucket_bits"):
            with self.assertRaisesRegex(TypeError, name):
                Interner(**{name: 2.0})

    def test_an_interner_is_not_copied(self) -> None:
        word = self.names.intern("a longer name")
        for call in (copy.copy, copy.deepcopy, pickle.dumps):
            with self.assertRaisesRegex(TypeError, "copied"):
                call(self.names)
        gc.collect()
        self.assertEqual(self.names.text(word), "a longer name")


class Ending(unittest.TestCase):
    def test_a_closed_interner_refuses(self) -> None:
        with Interner() as names:
            word = names.intern("a longer name")
        of_text = (names.intern, names.get, names.__contains__)
        of_word = (names.text, names.hold, names.release, names.holders, names.__contains__)
        for calls, arguments in ((of_text, ("a longer name", "abc", "")), (of_word, (word, 0x63626131, 0, -1))):
            for call in calls:
                for argument in arguments:
                    self.assertRaises(Closed, call, argument)
        for call in (names.clear, lambda: names.reserve(1), lambda: list(names), lambda: list(names.items())):
            self.assertRaises(Closed, call)
        self.assertEqual((len(names), names.text_bytes(), names.memory()), (0, 0, 0))
        names.close()

    def test_limits_are_kept(self) -> None:
        with Interner(holders=1, tickets=1, bucket_bits=0) as names:
            self.assertEqual(names.intern("a longer name"), 1 << 16)
            with self.assertRaises(Refused) as full:
                names.intern("a longer name")
            with self.assertRaises(Refused) as spent:
                names.intern("another long name")
            self.assertEqual((full.exception.status, spent.exception.status), (2, 3))
        for limits in ((0, 1, 0), (1, 0, 0), (1 << 63, 1, 0), (1, 1 << 48, 0), (1, 1, 15), (-1, 1, 0), (1, 1, 256)):
            self.assertRaises(ValueError, Interner, *limits)

    def test_a_full_int_is_refused_and_held(self) -> None:
        with Interner(holders=1) as names:
            word = names.intern("a longer name")
            with self.assertRaises(Refused) as full:
                names.hold(word)
            self.assertEqual((full.exception.status, names.holders(word)), (2, 1))

    def test_what_is_raised_goes_on(self) -> None:
        with self.assertRaises(LookupError):
            with Interner() as names:
                raise LookupError
        self.assertRaises(Closed, names.intern, "a longer name")

    def test_an_interner_is_made_once(self) -> None:
        with Interner() as names:
            word = names.intern("a longer name")
            for limits in ({}, {"holders": 0}, {"key": 1}):
                self.assertRaises(RuntimeError, names.__init__, **limits)  # type: ignore[misc]
            self.assertEqual((names.text(word), len(names)), ("a longer name", 1))

    def test_an_interner_that_was_never_made_ends(self) -> None:
        with mock.patch.object(sys, "unraisablehook") as hook:
            self.assertRaises(TypeError, Interner, holders=2.0)
            del_one = Interner.__new__(Interner)
            del del_one
            gc.collect()
            hook.assert_not_called()

    def test_a_given_key_is_the_interners(self) -> None:
        """By how much the memory grows if 1000 texts go and come again: that depends on the key (clients/c/tests/counted.c)."""
        for high, growth in ((2, 0), (30, 128 * 496), (47, 128 * 496)):
            with Interner(key=high << 64 | 1) as names:
                texts = [f"text number {at}" for at in range(1000)]
                words = [names.intern(text) for text in texts]
                full = names.memory()
                for at in range(1000):
                    names.release(words[at * 7 % 1000])
                for text in texts:
                    names.intern(text)
                self.assertEqual(names.memory() - full, growth)

    def test_a_refusal_has_its_status_by_a_former_name_too(self) -> None:
        refused = Refused(3)
        with self.assertWarnsRegex(DeprecationWarning, "status") as warned:
            self.assertEqual((refused.number, refused.status), (3, 3))
        self.assertEqual(warned.filename, __file__)

    def test_a_refusal_is_copied_and_pickled(self) -> None:
        for kind in (Refused, Closed):
            refused = kind(7)
            refused.where = ["here"]  # type: ignore[attr-defined]
            for again in (pickle.loads(pickle.dumps(refused)), copy.copy(refused), copy.deepcopy(refused)):
                self.assertIs(type(again), kind)
                self.assertEqual((again.status, str(again), again.args, again.where), (7, str(refused), refused.args, ["here"]))

    def test_an_interner_that_is_forgotten_is_closed(self) -> None:
        names = Interner()
        names.intern("a longer name")
        names.itself = names  # type: ignore[attr-defined]
        close = string_cache._library.sc_close
        with mock.patch.object(string_cache._library, "sc_close", side_effect=close) as closed:
            del names
            gc.collect()
            closed.assert_called_once()

    def test_the_library_is_the_one_that_this_module_knows(self) -> None:
        self.assertEqual(VERSION // 10000, 1)
        self.assertEqual([int(part) for part in string_cache.__version__.split(".")], [1, VERSION // 100 % 100, VERSION % 100])


if __name__ == "__main__":
    unittest.main()
