"""The rows of count_many_test.py about the scripts that merge and map: what is added up, and what is refused."""

import os
import re
import shutil
import sys

from count_many_base import ATOMS, MAPPER, MERGE, TEXTS, ran, same, whole, written

LONG = 10**18


def sort_that(room, body):
    """The environment of a command for which `sort` is this script."""
    (room / "sort").write_text(f"#!/bin/sh\n{body}\n", encoding="utf-8")
    (room / "sort").chmod(0o755)
    return {**os.environ, "PATH": f"{room}:{os.environ['PATH']}"}


def merges(room):
    """By the order of bytes: a sort in any other language isn't asked."""
    files = written(room, [b"2 a\n1 b\n", b"", b"%d a\n3 a\0\n5 c\n" % LONG])
    others = sort_that(room, f'[ "$LC_ALL" = C ] && exec "{shutil.which("sort")}" "$@"')
    found = ran([MERGE, *files], env={**others, "LC_ALL": "en_US.UTF-8"})
    wanted = b"%d a\n3 a\0\n1 b\n5 c\n" % (LONG + 2)
    return None if (found.returncode, found.stdout) == (0, wanted) else f"{found.returncode} {found.stdout!r} {found.stderr!r}"


def merge_refuses(*texts, why):
    return lambda room: None if (found := ran([MERGE, *written(room, texts)])).returncode == 1 and why in found.stderr else str(found)


def merge_misses_a_file(room):
    found = ran([MERGE, *written(room, [b"1 a\n"]), room / "absent"])
    return None if found.returncode == 1 and not found.stdout and b"absent" in found.stderr else str(found)


def merge_with_few_files_open(room):
    """More files than may be open at once, at most 64, 20 or 12."""
    files = written(room, [b"%d a\n1 b%03d\n" % (number, number) for number in range(200)])
    wanted = b"%d a\n" % sum(range(200)) + b"".join(b"1 b%03d\n" % number for number in range(200))
    for limit in (64, 20, 12):
        found = ran(["sh", "-c", f'ulimit -n {limit}; exec "$@"', "sh", sys.executable, MERGE, *files])
        if (found.returncode, found.stdout) != (0, wanted):
            return f"with {limit} files: {found.returncode} {found.stdout[-200:]!r} {found.stderr!r}"
    return None


def merge_ends_well(redirected, *texts):
    """A row: `--reduce`, or the merge of files of these texts, with a stream that is closed says so in one line."""

    def row(room):
        words = written(room, texts) or ["--reduce"]
        found = ran(["sh", "-c", f'"$0" "$@" {redirected}', MERGE, *words], input=b"a\t1\n", stdin=None)
        is_well = found.returncode == 1 and re.fullmatch(rb"merge_counts: .*\n", found.stderr)
        return None if is_well else str(found)

    return row


def merge_sees_that_sort_fails(room):
    """What a sort that fails has written is not all."""
    found = ran([MERGE, *written(room, [b"1 a\n", b"1 b\n"])], env=sort_that(room, 'echo "1 a"; exit 2'))
    return None if found.returncode == 1 and b"merge_counts: sort -m ended with status 2\n" == found.stderr else str(found)


def reduce_refuses(lines, why):
    def row(room):
        found = ran([MERGE, "--reduce"], input=lines, stdin=None)
        return None if found.returncode == 1 and why in found.stderr else str(found)

    return row


def merges_in_two_ways(room):
    """Pieces of a text, merged by the script, and as a map-reduce job of three mappers and two reducers would do it."""
    lines = TEXTS["many words"][0].splitlines(keepends=True)
    shares = [b"".join(lines[at : at + 7000]) for at in range(0, len(lines), 7000)]
    files = written(room, [whole(share).stdout for share in shares])
    if found := same(ran([MERGE, *files]), whole(b"".join(lines))):
        return found
    mapped = b"".join(ran([MAPPER, ATOMS], input=share, stdin=None).stdout for share in shares).splitlines(keepends=True)
    parts = []
    for reducer in range(2):
        mine = sorted(line for line in mapped if sum(line.partition(b"\t")[0]) % 2 == reducer)
        parts.append(ran([MERGE, "--reduce"], input=b"".join(mine), stdin=None).stdout)
    return same(ran([MERGE, *written(room, parts)]), whole(b"".join(lines)))


def mapper_fails_with_the_program(room):
    found = ran([MAPPER, ATOMS], input=b"a \xff\n", stdin=None)
    return None if found.returncode == 1 else str(found)


def mapper_takes_the_program_on_the_path(room):
    shutil.copy(ATOMS, room / "atoms")
    found = ran([MAPPER], input=b"b a b\n", stdin=None, env={**os.environ, "PATH": f"{room}:{os.environ['PATH']}"})
    return None if (found.returncode, found.stdout) == (0, b"a\t1\nb\t2\n") else str(found)


ROWS = {
    "merge: equal words are added, whatever the language": merges,
    "merge: a file that isn't there": merge_misses_a_file,
    "merge: a file that is cut off": merge_refuses(b"1 a\n", b"1 b\n2 c", why=b"cut off"),
    "merge: a file that isn't in order": merge_refuses(b"1 b\n1 a\n", why=b"order"),
    "merge: a file of something else": merge_refuses(b"one a\n", why=b"no line"),
    "merge: a line of two words": merge_refuses(b"1 a b\n", why=b"no line"),
    "merge: a line that ends with a return": merge_refuses(b"1 a\r\n", why=b"no line"),
    "merge: a number of too many digits": merge_refuses(b"%b a\n" % (b"7" * 5000), why=b"merge_counts: a number of 5000 digits"),
    "merge: by the script, and as a map-reduce job": merges_in_two_ways,
    "merge: more files than may be open": merge_with_few_files_open,
    "merge: sort fails": merge_sees_that_sort_fails,
    "merge: its output is closed": merge_ends_well(">&-", b"1 a\n"),
    "reduce: a last line without its end": reduce_refuses(b"a\t1\nb\t12", b"cut off"),
    "reduce: lines of something else": reduce_refuses(b"a\tone\n", b"no line"),
    "reduce: a number of too many digits": reduce_refuses(b"a\t%b\n" % (b"7" * 5000), b"merge_counts: a number of 5000 digits"),
    "reduce: its output is closed": merge_ends_well(">&-"),
    "reduce: its input is closed": merge_ends_well("<&-"),
    "mapper: fails where the program does": mapper_fails_with_the_program,
    "mapper: takes the program on the path": mapper_takes_the_program_on_the_path,
}
