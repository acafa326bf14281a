#!/usr/bin/env python3
"""Counts the words of a text over the workers of a dask cluster, and prints what `atoms count` prints of the whole.

    tools/count_dask.py --atoms PROGRAM [--scheduler ADDRESS] [--block BYTES] FILE..

Each file is cut at line feeds into pieces of about --block bytes. dask has its workers read a piece and run the program on it, and tries a piece
again where that fails; a worker has only the pieces that it counts just then. Without an address it starts two processes on this machine. The
program and the files have to be at the same paths on each machine, and the files as long there. Files are regular ones, and texts of their own:
each has to end with a line feed, but the last. The status is 1, with a line on standard error, if a piece can't be counted, and 2 if the arguments
weren't understood or dask isn't here; nothing is printed then.
"""

import argparse
import subprocess
import sys
import tempfile
from importlib.util import find_spec
from pathlib import Path

import merge_counts
from count_many import ends_a_line, unsized


def line_at(text, place):
    """Where the first line begins that doesn't begin before this place of the open file."""
    if place:
        text.seek(place - 1)
        text.readline()
        return text.tell()
    return 0


def lines_between(file, size, start, end):
    """The lines of the file of this size that begin at the first of these places or behind it, and before the second one."""
    with open(file, "rb") as text:
        if (found := text.seek(0, 2)) != size:
            raise ValueError(f"count_dask: {file} has {found} bytes where a piece of it is counted, and {size} where the run began")
        first, last = line_at(text, start), line_at(text, end)
        text.seek(first)
        return text.read(last - first)


def goes_on(files):
    """What is to be said of the first file that goes on in the next one, which dask would cut there, or None."""
    for file in files[:-1]:
        if file.stat().st_size and not ends_a_line(file):
            return f"{file} doesn't end with a line feed, and another one comes behind it"
    return None


def count_piece(program, *piece):
    """The lines of `atoms count` for a piece of the file, which is read here: workers keep what a task answers as long as it may be asked for,
    and a piece needn't be. A refusal is a ValueError, which no other worker mends."""
    text = lines_between(*piece)
    ran = subprocess.run([program, "count", "1"], input=text, stdout=subprocess.PIPE, stderr=subprocess.PIPE)
    if ran.returncode == 0:
        return ran.stdout
    fault = ran.stderr.decode(errors="replace").strip()
    raise ValueError(fault) if ran.returncode == 1 else RuntimeError(fault)


def count(client, given, room):
    """Files with the counts of the pieces, as they come."""
    from distributed import as_completed  # not before the arguments are read, which may ask for help alone

    sizes = [(str(file.absolute()), file.stat().st_size) for file in given.files]
    pieces = [(file, size, start, start + given.block) for file, size in sizes for start in range(0, size, given.block)]
    counts = [client.submit(count_piece, str(given.atoms), *piece, retries=2, pure=False) for piece in pieces]
    files = []
    for done in as_completed(counts):
        files.append(room / str(len(files)))
        files[-1].write_bytes(done.result())
        done.release()
    return files


def arguments():
    parser = argparse.ArgumentParser(description=__doc__, formatter_class=argparse.RawDescriptionHelpFormatter)
    parser.add_argument("--atoms", type=Path, required=True, metavar="PROGRAM")
    parser.add_argument("--scheduler", metavar="ADDRESS")
    parser.add_argument("--block", type=int, default=1 << 26, metavar="BYTES")
    parser.add_argument("files", nargs="+", type=Path, metavar="FILE")
    given = parser.parse_args()
    if given.block < 1:
        parser.error("--block is at least 1")
    if not find_spec("distributed"):
        parser.error("dask isn't here: it needs the package distributed")
    return given


def main():
    given = arguments()
    from distributed import Client

    cluster = {"address": given.scheduler} if given.scheduler else {"n_workers": 2, "threads_per_worker": 1, "dashboard_address": None}
    try:
        if wrong := next(filter(None, map(unsized, given.files)), None) or goes_on(given.files):
            raise OSError(f"count_dask: {wrong}")
        with Client(**cluster) as client, tempfile.TemporaryDirectory(prefix="count-dask-") as room:
            files = count(client, given, Path(room))
            with merge_counts.opened(sys.stdout, "wb") as out:
                merge_counts.merge(files, out)
    except (ValueError, RuntimeError, OSError, merge_counts.BadCounts) as why:
        print(why, file=sys.stderr)
        return 1
    return 0


if __name__ == "__main__":
    sys.exit(main())
