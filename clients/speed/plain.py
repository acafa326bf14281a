"""The same by dict and sys.intern, and by string_cache.py. usage: plain.py [TEXTS [dict|intern|interner]]"""

from __future__ import annotations

import resource
import sys
import time
from collections.abc import Callable


def peak() -> int:
    """The most memory so far, in bytes."""
    return resource.getrusage(resource.RUSAGE_SELF).ru_maxrss * 1024


def texts_of(count: int) -> list[str]:
    return [f"name number {at * 7919 % count:07}" for at in range(count)]


def of_dict(texts: list[str]) -> tuple[Callable[[], object], Callable[[], object]]:
    """Numbers by texts, as a program would keep them."""
    numbers: dict[str, int] = {}

    def new() -> None:
        for text in texts:
            if text not in numbers:
                numbers[text] = len(numbers)

    return new, lambda: all(numbers[text] == at for at, text in enumerate(texts))


def of_intern(texts: list[str]) -> tuple[Callable[[], object], Callable[[], object]]:
    """Python's own table of names."""
    kept: list[str] = []

    def there() -> bool:
        # A copy, so that the text is looked up and not only its mark.
        return all(sys.intern(text[:1] + text[1:]) is kept[at] for at, text in enumerate(texts))

    return lambda: kept.extend(map(sys.intern, texts)), there


def of_interner(texts: list[str]) -> tuple[Callable[[], object], Callable[[], object]]:
    """string_cache.py, which has to be on the path."""
    from string_cache import Interner

    names = Interner()
    words: list[int] = []
    return lambda: words.extend(map(names.intern, texts)), lambda: all(names.intern(text) == words[at] for at, text in enumerate(texts))


def main() -> None:
    count = int(sys.argv[1]) if len(sys.argv) > 1 else 1_000_000
    kind = sys.argv[2] if len(sys.argv) > 2 else "dict"
    texts = texts_of(count)
    memory = peak()
    new, there = {"dict": of_dict, "intern": of_intern, "interner": of_interner}[kind](texts)
    begin = time.process_time_ns()
    new()
    made, most = time.process_time_ns(), peak()
    if there() is not True:
        sys.exit(1)
    found = time.process_time_ns()
    for what, whole in (("new", made - begin), ("there", found - made), ("memory", most - memory)):
        print(f"python-{kind} {what} {whole / count:.1f}")


if __name__ == "__main__":
    main()
