"""Interned texts: each different text is kept once, and an int stands for it.

    with Interner() as names:
        word = names.intern("a longer name")
        assert names.intern("a longer name") == word
        assert names.text(word) == "a longer name"

Two ints that an interner holds at one time are equal exactly if their texts are. Each `intern` counts one holder of a text and each
`release` takes one off; with the last one the text goes, and its int never comes back. A text of at most 7 bytes of UTF-8 lies in its int: it
takes no memory, is always held, and isn't counted or listed.

Threads may share an interner: a lock of its own lets one of them in at a time. Finalizers and signal handlers may call it too, also if they run in
the middle of another call. It isn't to be used in a child of `os.fork`.

An argument of another type than is said raises a TypeError that names it. An interner can be neither copied nor pickled.

The library is libstring_cache.so, which `tools/c_library.sh DIR` of its repository builds: where the environment variable STRING_CACHE_LIBRARY says,
beside this file, as in an installed package, or where the system looks for libraries.
"""

from __future__ import annotations

import ctypes
import ctypes.util
import os
import threading
import warnings
from collections.abc import Callable, Iterator
from pathlib import Path
from types import TracebackType
from typing import NoReturn, Optional, Union

__all__ = ["Closed", "Interner", "Refused", "VERSION"]

MAJOR = 1  # version of the library

OK = 0
NO_MEMORY = 1
NOT_HELD = 6
CLOSED = 7
TOO_SMALL = 9
NOT_LIMITS = 10

ROOM = 256  # bytes that most texts have room in


class Refused(Exception):
    """A call was refused, and has changed nothing."""

    def __init__(self, status: int) -> None:
        super().__init__(_library.sc_strerror(status).decode("ascii"))
        self.status = status

    def __reduce__(self) -> tuple[type[Refused], tuple[int], dict[str, object]]:
        """What copy and pickle ask for: it is made anew of its status, and not of its message, as other exceptions are."""
        return type(self), (self.status,), self.__dict__

    @property
    def number(self) -> int:
        """The former name of `status`."""
        warnings.warn("Refused.number is Refused.status now", DeprecationWarning, stacklevel=2)
        return self.status


class Closed(Refused, ValueError):
    """The interner is closed."""


class _Table(ctypes.Structure):
    _fields_ = [("at", ctypes.c_void_p), ("full", ctypes.c_bool)]


class _Key(ctypes.Structure):
    _fields_ = [("low", ctypes.c_uint64), ("high", ctypes.c_uint64)]


def _path() -> str:
    """The path of the library."""
    own = os.environ.get("STRING_CACHE_LIBRARY")
    beside = Path(__file__).resolve().parent / "libstring_cache.so"
    found = own or (str(beside) if beside.is_file() else ctypes.util.find_library("string_cache"))
    if not found:
        raise ImportError("there is no libstring_cache.so: STRING_CACHE_LIBRARY can say where it is")
    return found


def _loaded(path: str) -> ctypes.CDLL:
    """The library, with the types of its functions. A call keeps the interpreter's lock: most take less time than to give it away."""
    library = ctypes.PyDLL(path)
    table, word, size = ctypes.POINTER(_Table), ctypes.c_uint64, ctypes.c_size_t
    words, sizes = ctypes.POINTER(word), ctypes.POINTER(size)
    number = ctypes.c_uint32
    for name, result, arguments in (
        ("sc_strerror", ctypes.c_char_p, [number]),
        ("sc_version", number, []),
        ("sc_open", number, [table]),
        ("sc_open_with", number, [table, word, word, ctypes.c_uint8]),
        ("sc_open_keyed", number, [table, word, word, ctypes.c_uint8, _Key]),
        ("sc_close", None, [table]),
        ("sc_intern", number, [table, ctypes.c_char_p, size, words]),
        ("sc_get", number, [table, ctypes.c_char_p, size, words]),
        ("sc_clone", number, [table, word]),
        ("sc_give", number, [table, word]),
        ("sc_holders", number, [table, word, words]),
        ("sc_text", number, [table, word, ctypes.c_char_p, size, sizes]),
        ("sc_entries", size, [table]),
        ("sc_text_bytes", word, [table]),
        ("sc_memory", word, [table]),
        ("sc_entry", number, [table, size, words, words]),
        ("sc_clear", number, [table]),
        ("sc_reserve", number, [table, size]),
    ):
        function = getattr(library, name)
        function.restype, function.argtypes = result, arguments
    return library


_library = _loaded(_path())

VERSION: int = _library.sc_version()
if VERSION // 10000 != MAJOR:
    raise ImportError(f"libstring_cache.so has version {VERSION // 10000}, where {MAJOR} is known here")
__version__ = f"{VERSION // 10000}.{VERSION // 100 % 100}.{VERSION % 100}"  # of the library, which has that of its package


def _check(number: int) -> None:
    """Raises what stands for a number: MemoryError, Closed, ValueError for limits, and Refused for all others."""
    if number == OK:
        return
    if number == NO_MEMORY:
        raise MemoryError
    if number == CLOSED:
        raise Closed(number)
    if number == NOT_LIMITS:
        raise ValueError("a limit or the number of buckets is out of range")
    raise Refused(number)


def _is(kind: type, name: str, value: object) -> None:
    """Raises a TypeError that names an argument if it isn't of this type."""
    if not isinstance(value, kind):
        raise TypeError(f"{name} has to be of type {kind.__name__}, and is of type {type(value).__name__}")


def _encoded(text: str) -> bytes:
    """A text as C has it."""
    _is(str, "text", text)
    return str.encode(text)  # what the characters are, whatever a subclass has by that name


def _word(word: int) -> int:
    """A word as C has it. A number that has no place in 64 bits is the word of nothing, as 0 is."""
    _is(int, "word", word)
    return word if 0 <= word < 1 << 64 else 0


class Interner:
    """Interned texts. The limits are on the holders of a text and the tickets of a bucket, of 2 to the power of `bucket_bits` buckets.

    It finds texts by a hash under a key of its own, which is drawn unless `key` gives its 128 bits, for runs that take the same steps each time.
    Ints are the same under every key. Whoever knows the key can choose texts that slow the interner down.

    An interner is made once: RuntimeError if `__init__` is called again."""

    def __init__(
        self, holders: int = (1 << 63) - 1, tickets: int = (1 << 48) - 1, bucket_bits: int = 12, key: Optional[int] = None
    ) -> None:
        if "_table" in self.__dict__:
            raise RuntimeError("an Interner is made once")  # its table would be lost, and never freed
        for name, limit in (("holders", holders), ("tickets", tickets), ("bucket_bits", bucket_bits)):
            _is(int, name, limit)
        # A finalizer or a signal handler may run wherever this module makes an object or takes a step, so also while its thread has the lock: it
        # has to get in, or it would wait for itself. It meets a whole table, since the interpreter runs nothing else during a call of the library
        # (PyDLL). What makes several such calls under the lock is right whatever comes between them.
        self._lock = threading.RLock()
        self._table = _Table()
        if not (0 <= holders < 1 << 64 and 0 <= tickets < 1 << 64 and 0 <= bucket_bits < 256):
            raise ValueError("a limit or the number of buckets is out of range")
        if key is None:
            _check(_library.sc_open_with(self._table, holders, tickets, bucket_bits))
            return
        _is(int, "key", key)
        if not 0 <= key < 1 << 128:
            raise ValueError("a key has 128 bits")
        halves = _Key(key & (1 << 64) - 1, key >> 64)
        _check(_library.sc_open_keyed(self._table, holders, tickets, bucket_bits, halves))

    def intern(self, text: str) -> int:
        """The int that stands for a text, with one holder more. UnicodeEncodeError if the text has half of a surrogate pair."""
        encoded, word = _encoded(text), ctypes.c_uint64()
        with self._lock:
            _check(_library.sc_intern(self._table, encoded, len(encoded), word))
        return word.value

    def get(self, text: str) -> Optional[int]:
        """The int that stands for a text, with no holder more; None if it has none. UnicodeEncodeError as from `intern`."""
        encoded, word = _encoded(text), ctypes.c_uint64()
        with self._lock:
            number = _library.sc_get(self._table, encoded, len(encoded), word)
        if number == NOT_HELD:
            return None
        _check(number)
        return word.value

    def text(self, word: int) -> str:
        """The text that an int stands for. KeyError if it isn't held."""
        with self._lock:
            return self._text(word)

    def _text(self, word: int) -> str:
        asked, length, room = _word(word), ctypes.c_size_t(), ctypes.create_string_buffer(ROOM)
        number = _library.sc_text(self._table, asked, room, ROOM, length)
        if number == TOO_SMALL:
            # The text has this length as long as there is one: what comes between can only take it away, and its word never comes back.
            room = ctypes.create_string_buffer(length.value)
            number = _library.sc_text(self._table, asked, room, length.value, length)
        if number == NOT_HELD:
            raise KeyError(word)
        _check(number)
        return room.raw[: length.value].decode()

    def hold(self, word: int) -> None:
        """One holder more of an int. KeyError if it isn't held."""
        with self._lock:
            self._change(_library.sc_clone, word)

    def release(self, word: int) -> None:
        """One holder less of an int: with the last one its text goes. KeyError if it isn't held."""
        with self._lock:
            self._change(_library.sc_give, word)

    def _change(self, call: Callable[..., int], word: int) -> None:
        number = call(self._table, _word(word))
        if number == NOT_HELD:
            raise KeyError(word)
        _check(number)

    def holders(self, word: int) -> Optional[int]:
        """How many holders an int has; None if it isn't held, or its text has at most 7 bytes."""
        holders = ctypes.c_uint64()
        with self._lock:
            number = _library.sc_holders(self._table, _word(word), holders)
        if number == NOT_HELD:
            return None
        _check(number)
        return holders.value

    def clear(self) -> None:
        """Takes all texts away. No int that was given comes again."""
        with self._lock:
            _check(_library.sc_clear(self._table))

    def reserve(self, more: int) -> None:
        """Makes room for so many texts more."""
        _is(int, "more", more)
        if not 0 <= more < 1 << 63:
            raise ValueError("a number of texts is from 0 to 2^63 - 1")
        with self._lock:
            _check(_library.sc_reserve(self._table, more))

    def text_bytes(self) -> int:
        """How many bytes the texts of more than 7 bytes have together. 0 once it is closed."""
        with self._lock:
            return _library.sc_text_bytes(self._table)

    def memory(self) -> int:
        """How many bytes of memory the table has asked for and still holds. 0 once it is closed."""
        with self._lock:
            return _library.sc_memory(self._table)

    def close(self) -> None:
        """Frees all that is kept. A second close does nothing, `len`, `text_bytes` and `memory` give 0, and every other later call raises Closed."""
        with self._lock:
            _library.sc_close(self._table)

    def __contains__(self, item: Union[str, int]) -> bool:
        """Whether a text has an int, or an int is held. UnicodeEncodeError as from `intern`."""
        if isinstance(item, str):
            return self.get(item) is not None
        if not isinstance(item, int):
            raise TypeError(f"item has to be of type str or int, and is of type {type(item).__name__}")
        length = ctypes.c_size_t()
        with self._lock:
            number = _library.sc_text(self._table, _word(item), None, 0, length)  # unlike sc_holds, it tells a closed table
        if number not in (NOT_HELD, TOO_SMALL):
            _check(number)
        return number in (OK, TOO_SMALL)

    def __len__(self) -> int:
        """How many texts of more than 7 bytes are held. 0 once it is closed."""
        with self._lock:
            return _library.sc_entries(self._table)

    def __iter__(self) -> Iterator[str]:
        """The texts of more than 7 bytes, in the order in which they came; if one goes, the last one comes in its place."""
        for _, text in self.items():
            yield text

    def items(self) -> Iterator[tuple[int, str]]:
        """The ints and texts in that order. What changes meanwhile may be seen or not, and there are at most as many as at the beginning."""
        word, place, end = ctypes.c_uint64(), 0, len(self)
        while True:
            with self._lock:
                number = _library.sc_entry(self._table, place, word, None)
                if number == NOT_HELD or (number == OK and place == end):
                    return
                _check(number)
                try:
                    item = word.value, self._text(word.value)
                except KeyError:
                    continue  # it went between the two calls, and the last one stands in its place
            place += 1
            yield item

    def __reduce__(self) -> NoReturn:
        """What copy and pickle ask for: a second interner over one table would free it twice."""
        raise TypeError("an Interner can be neither copied nor pickled")

    def __enter__(self) -> Interner:
        return self

    def __exit__(
        self, kind: Optional[type[BaseException]], fault: Optional[BaseException], trace: Optional[TracebackType]
    ) -> None:
        self.close()

    def __del__(self) -> None:
        # One that was never opened has no table.
        table = self.__dict__.get("_table")
        if table is not None:
            _library.sc_close(table)
