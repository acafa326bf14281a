#!/usr/bin/env python3
"""Refuses memory, and starts of threads, to the calls that the tests in crates/NAME/src/refusals watch, one request after another.

Each such test makes one call between two lines of its output. It is run once for each request for memory of that call, with that one
refused, until a run meets none left (gate/refusals/refuse.c, preloaded, counts and refuses): the call has to say that memory was refused, has
to keep none where it says no more, and the test then sees that the call made again gives what it gives the first time. A test of
`starts` is run once for each thread that the call starts, with that start refused, in the same way. A test of `unasked` is run once with
every request for memory refused, and may meet none. A test of `told` is run once with none refused, and prints as a line `-- N bytes` how
many bytes the call asked for, as the library tells. A test of `whole` is run once with none refused, and keeps no block that it got.
However a test ends, the program has given back all that it got.

The tests are those that `rt ci`, or `rt test` in such a crate, proved and built last. (gate/bodies/caught.py judges wrong bodies by the same
tests, built without proofs.)

usage: gate/refusals/refused.py [--jobs N] [WORD..]     with words: only the tests whose names contain one of them
"""

import argparse
import subprocess
import sys
import tempfile
from concurrent.futures import ThreadPoolExecutor
from pathlib import Path

sys.path.append(str(Path(__file__).resolve().parent.parent))
import find_modules  # has Python find the next ones
from machine import processors
from refuser import refuser
from repository import TOP

CRATES = sorted(path.parent.parent for path in TOP.glob("crates/*/src/refusals.rt"))  # those that have such tests

def tests_of(crate):
    """The program of the tests of the crate in this folder, as it was built last."""
    return crate / "out" / f"{crate.name}_tests"


def main():
    parser = argparse.ArgumentParser(description=__doc__, formatter_class=argparse.RawDescriptionHelpFormatter)
    parser.add_argument("--jobs", type=int, default=processors())
    parser.add_argument("words", nargs="*")
    given = parser.parse_args()
    results = []
    try:
        with tempfile.TemporaryDirectory(prefix="refused-") as room:
            tests = []
            for crate in CRATES:
                tried = refuser(tests_of(crate), room)
                found = [(tried, test) for test in tried.tests()]
                if not found:
                    raise OSError(f"crates/{crate.name} has no such test")
                tests += found
            if given.words:
                tests = [(tried, test) for tried, test in tests if any(word in test for word in given.words)]

            def judge(tried, test):
                well, text = tried.judge(test)
                print(f"refused {test.removeprefix('refusals::')}: {'' if well else 'WRONG: '}{text}", flush=True)
                return well

            with ThreadPoolExecutor(max(1, given.jobs)) as workers:
                results = list(workers.map(lambda it: judge(*it), tests))
    except (OSError, subprocess.CalledProcessError) as why:
        crates = " and ".join(f"crates/{crate.name}" for crate in CRATES)
        print(f"refused: {why}; the tests are built by rt ci, or by rt test in {crates}")
    if not results:
        print("refused: no test was run")
        results = [False]
    print(f"{results.count(True)} passed, {results.count(False)} failed")
    return 0 if all(results) else 1


if __name__ == "__main__":
    sys.exit(main())
