#!/usr/bin/env python3
"""Prints the functions of a crate that take the checker longest: the seconds of each, and the parts of its proof that took most of them.

A check that keeps its work writes each module as soon as it is done with it, so a module took the time since the one before. Of a function, `Lts` and
`Tie` walk over its code, and `Proof` has the goals that are searched. What a crate uses for the first time counts with the function that uses it.
Libraries are those that `rt ci` or `rt check` left. Other work on the machine counts too: compare times of one run. What isn't proved is timed as
well, so a time doesn't say that a function is proved.

usage: gate/machine/proof_times.py [--test] [--top N] CRATE [FUNCTION ..]     with --test: of its tests as well; with functions, each by the end of
the name that `rt check` prints: of these alone
"""

import argparse
import re
import sys
import tempfile
from collections import Counter, defaultdict
from pathlib import Path

sys.path.append(str(Path(__file__).resolve().parent.parent))
import find_modules  # has Python find the next ones
from batches import build_below
from copies import crates
from programs import kit
from repository import TOP, said_by

PARTS = r"Code\.Mir|Code|Lts\.View|Lts\.Given|Lts|Tie|Proof|Answers|Goals|Met|Named|Reads|Kinds|Layout|Given|TheLink|Statement|Symbol|Key"
PART = re.compile(rf"\.({PARTS})$")
TOLD = 2  # so many parts are told of a function
SAID = 600  # how much is shown of what a check said that wrote nothing


def part_of(module, crate):
    """The function that a module is of, by what its file is called, and which part of its proof."""
    own = re.sub(rf"^Rattle-{crate}[-.](?:proofs|specs)\.", "", module.removesuffix(".decls"))
    found = PART.search(own)
    return (own[: found.start()], found[1]) if found else (own, "other")


def times_of(folder, crate):
    """The seconds of each part of each function, by what a check of the crate kept in this folder."""
    written = sorted((path.stat().st_mtime_ns, path.name.removesuffix(".oantt")) for path in folder.rglob("*.oantt"))
    times = defaultdict(Counter)
    for (before, _), (at, module) in zip(written, written[1:]):
        function, part = part_of(module, crate)
        times[function][part] += (at - before) / 1e9
    return times


def lines_of(times, top):
    """What is printed of these times: the sum, and a line for each of so many functions, the slowest first."""
    sums = {function: parts.total() for function, parts in times.items()}
    yield f"{sum(sums.values()):8.1f} s in all"
    for function in sorted(sums, key=sums.get, reverse=True)[:top]:
        parts = ", ".join(f"{part} {seconds:.1f}" for part, seconds in times[function].most_common(TOLD))
        yield f"{sums[function]:8.1f} s {function}: {parts}"


def main():
    parser = argparse.ArgumentParser(description=__doc__, formatter_class=argparse.RawDescriptionHelpFormatter)
    parser.add_argument("--test", action="store_true")
    parser.add_argument("--top", type=int, default=40)
    parser.add_argument("crate", choices=sorted(crates()), metavar="CRATE")
    parser.add_argument("functions", nargs="*", metavar="FUNCTION")
    given = parser.parse_args()
    build_below(given.crate)
    words = [*crates()[given.crate].words(["--jobs", "1"], keeps=False), *(["--test"] if given.test else [])]
    words += [word for function in given.functions for word in ("--only", function)]
    with tempfile.TemporaryDirectory(prefix="proof-times-") as room:
        command = [str(kit() / "bin" / "rattle"), "check", *words, "--incremental", room]
        said = said_by(*command, folder=TOP / "crates" / given.crate)[1]
        times = times_of(Path(room), given.crate)
    if not times:
        sys.exit(f"proof_times: nothing was checked: {said.strip()[-SAID:]}")
    print("\n".join(lines_of(times, given.top)))


if __name__ == "__main__":
    main()
