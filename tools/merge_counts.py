#!/usr/bin/env python3
"""Merges outputs of `atoms count`, as those over the pieces of one text that was cut at line feeds.

    tools/merge_counts.py FILE..            prints what `atoms count` prints of the whole text
    tools/merge_counts.py --reduce < LINES  adds up the lines 'word TAB number' of a map-reduce job, which come with equal words
                                            beside each other, and prints a line 'number word' for each word

Each file is in the order of its words' bytes already, so `sort -m` puts them together in one pass, in memory for the number of files
and not for that of the words, and the numbers of equal words are added up on the way. If the system lets fewer files be open at once, sort takes
several passes, and room for the whole in a folder for temporary files.

The status is 0 if all was merged. It is 1, with a line on standard error, if a file or the input can't be read, was cut off in a
line, has a line that isn't a number and a word, or isn't in order, and if the output can't be written; what was printed until then is
to be thrown away. A file that was cut off between two lines can't be told from a whole one: tools/count_many.py knows how long each is.
"""

import argparse
import os
import resource
import subprocess
import sys
from pathlib import Path

BUFFER = 1 << 20
SPARE = 16  # files that may be open beside those that are merged
MOST_DIGITS = 100  # of a number: one that `atoms count` prints has 20 at most, and sums of such have few more


class BadCounts(Exception):
    """What is to be merged isn't the output of `atoms count`."""


def whole_lines(path):
    """Sees that the file can be read, and that its last line has an end."""
    with open(path, "rb") as file:
        size = file.seek(0, os.SEEK_END)
        if size:
            file.seek(size - 1)
            if file.read(1) != b"\n":
                raise BadCounts(f"{path}: cut off in its last line")


def counted(line):
    """The word and the number of a line that `atoms count` wrote, both as bytes."""
    number, _, word = line[:-1].partition(b" ")
    return word, number


def mapped(line):
    """The word and the number of a line that a mapper wrote, both as bytes."""
    word, _, number = line[:-1].partition(b"\t")
    return word, number


def added(lines, parts):
    """The lines 'number word' of the lines, whose words rise or stay: equal words become one, and their numbers are added."""
    last, total = b"", 0
    for line in lines:
        if not line.endswith(b"\n"):
            raise BadCounts(f"cut off in its last line: {line[:80]!r}")
        word, number = parts(line)
        if not (number.isdigit() and word.split() == [word]):
            raise BadCounts(f"no line of a word and its number: {line[:80]!r}")
        if len(number) > MOST_DIGITS:
            raise BadCounts(f"a number of {len(number)} digits, which nothing counts up to: {word[:80]!r} has it")
        if word == last:
            total += int(number)
        elif word > last:
            if last:
                yield b"%d %b\n" % (total, last)
            last, total = word, int(number)
        else:
            raise BadCounts(f"not in the order of bytes: {word[:80]!r} behind {last[:80]!r}")
    if last:
        yield b"%d %b\n" % (total, last)


def opened(stream, mode):
    """Standard input or output as a binary file of its own."""
    if stream is None:
        raise BadCounts("standard input or output is closed")
    return open(stream.fileno(), mode, buffering=BUFFER, closefd=False)


def files_at_once(wanted):
    """Lets this process, and the one it starts, have this many files open, as far as the system allows. How many of them, which is at least two."""
    soft, hard = resource.getrlimit(resource.RLIMIT_NOFILE)
    if soft == resource.RLIM_INFINITY:
        return max(2, wanted)
    more = wanted + SPARE if hard == resource.RLIM_INFINITY else min(wanted + SPARE, hard)
    if soft < more:
        resource.setrlimit(resource.RLIMIT_NOFILE, (more, hard))
    return max(2, min(wanted, max(soft, more) - SPARE))


def merge(paths, out):
    """Writes the merged counts of the files, each of which is in order, to the open binary file `out`."""
    for path in paths:
        whole_lines(path)
    if not paths:
        return
    command = ["sort", "-m", "-k2", f"--batch-size={files_at_once(len(paths))}", "--", *map(os.fspath, paths)]
    environment = {**os.environ, "LC_ALL": "C"}
    with subprocess.Popen(command, env=environment, stdout=subprocess.PIPE, bufsize=BUFFER) as sort:
        out.writelines(added(sort.stdout, counted))
    if sort.returncode:
        raise BadCounts(f"sort -m ended with status {sort.returncode}")


def main():
    parser = argparse.ArgumentParser(description=__doc__, formatter_class=argparse.RawDescriptionHelpFormatter)
    parser.add_argument("--reduce", action="store_true")
    parser.add_argument("files", nargs="*", type=Path, metavar="FILE")
    given = parser.parse_args()
    if given.reduce == bool(given.files):
        parser.error("give files to merge, or --reduce")
    try:
        with opened(sys.stdout, "wb") as out:
            if given.reduce:
                out.writelines(added(opened(sys.stdin, "rb"), mapped))
            else:
                merge(given.files, out)
    except (BadCounts, OSError) as why:
        print(f"merge_counts: {why}", file=sys.stderr)
        return 1
    return 0


if __name__ == "__main__":
    sys.exit(main())
