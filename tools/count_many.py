#!/usr/bin/env python3
"""Counts the words of more text than one machine holds: it runs `atoms count` over pieces under GNU parallel, and merges.

    tools/count_many.py [--atoms PROGRAM] [--sshlogin MACHINE].. [--keep FOLDER [--resume]] FILE..

prints exactly what `cat FILE.. | PROGRAM count N` prints, or ends with a status that isn't 0 and says why on standard error:

    0  all is counted
    1  the text is one that `atoms count` refuses (its own line is printed), or a piece is missing, unreadable, failed or cut short
    2  the arguments weren't understood, or the program or GNU parallel isn't here

A FILE is a regular file: what a pipe or /proc gives has no length that is known beforehand, so it is refused.

parallel cuts each file at line feeds into pieces of about --block bytes (--pipepart), sends each piece to a machine that has room, and
keeps a log. A job tells how many bytes it read and wrote, and a sum of what it wrote: what is merged has to be whole and as the job left
it, and all pieces together have to be as long as the files. A file whose last line has no line feed goes on in the next one, as under
`cat`; such files are put together in a copy first.

What failed is tried again in a further run, without the machines whose line broke. With --keep the folder keeps the results and the log
of each run, and --resume counts only what is missing there, if the files are those of the first run: a note there has their paths, sizes
and times of change. A further run cuts the same files into the same pieces, and a job whose piece is there already ends at once.
(parallel's own --retries and --resume are of no use here: with --pipepart, as of version 20221122, a job that is tried again gets another
piece, and its own is lost.) A command that is refused before a piece begins makes no folder, and changes none.

`tools/try_atoms.py bin` builds the program, unproved, for --atoms bin/atoms; `rt run -- check < /dev/null`, in crates/atoms, proves it and
leaves it where it is looked for if --atoms isn't given. It has to be at the same path on each machine. No path of it, or of FOLDER, may have
braces. MACHINE is as parallel has it: `host`, `4/user@host`, `:` for this one.
"""

import argparse
import contextlib
import functools
import hashlib
import json
import os
import re
import shlex
import shutil
import stat
import subprocess
import sys
import tempfile
from dataclasses import dataclass
from pathlib import Path

import merge_counts

TOP = Path(__file__).resolve().parent.parent
COPY = 1 << 20  # bytes that are copied at a time

NOTE = "plan.json"  # of a folder: what its pieces are of
BRACES = re.compile(r"\{.*\}", re.DOTALL)  # what parallel may put something else in the place of
# Of a piece. parallel takes other texts too: a word for 0, and a number below 0 for how many pieces each job slot gets, by which a further run, with
# fewer machines, would cut other pieces.
SIZE = re.compile(r"[1-9]\d*(\.\d+)?[kKmMgGtTpP]?", re.ASCII)

# What a job does with its piece, which comes on standard input: on standard output the counts, and as the last line on standard error
# `end READ WROTE SUM`, or `refused MARK` for a piece that isn't UTF-8, which no second try mends. The first two are in bytes; the sum is of the
# counts, behind a line that has the mark of the text and the number of the piece.
JOB = """
case " DONE " in *" $PIECE "*) exit 0;; esac
room=$(mktemp -d) || exit 3
trap 'rm -rf "$room"' EXIT
cat > "$room/piece" || exit 3
if ATOMS count WORKERS < "$room/piece" > "$room/counts" 2> "$room/fault"; then
    cat "$room/counts" || exit 3
    sum=$( (echo "MARK $PIECE" && cat "$room/counts") | sha256sum | cut -c 1-64)
    echo "end $(($(wc -c < "$room/piece"))) $(($(wc -c < "$room/counts"))) $sum" >&2
else
    status=$?
    cat "$room/fault" >&2
    if grep -q "^NOT_TEXT$" "$room/fault"; then echo refused MARK >&2; exit 0; fi
    exit $status
fi
"""
NOT_TEXT = "atoms: input is not UTF-8"
BROKEN_LINE = "255"  # the status of ssh where it can't reach the machine, or loses it


class Failed(Exception):
    """The text couldn't be counted whole; the message says why."""


class BeganNone(Failed):
    """A run in which no piece was begun, as if parallel doesn't take an option: nothing is left of it."""


@dataclass
class Piece:
    """What a run left of the piece of this number of the text with this mark: its counts, and what its job said."""

    number: int
    mark: str
    counts: Path

    def said(self):
        said = self.counts.with_name(self.counts.name + ".err")
        return said.read_text(encoding="utf-8", errors="replace").splitlines() if said.is_file() else []

    def read(self):
        """How many bytes of text the job read, if its counts are whole, and as it left them; else None."""
        said = self.said()
        end = re.fullmatch(r"end ([1-9]\d*) (\d+) ([0-9a-f]{64})", said[-1]) if said else None
        whole = end and self.counts.is_file() and self.counts.stat().st_size == int(end[2]) and self.sum() == end[3]
        return int(end[1]) if whole else None

    def sum(self):
        """The sum that the job told of, over the counts that are there now."""
        return sum_of(f"{self.mark} {self.number}\n", self.counts, self.counts.stat().st_mtime_ns)

    def is_refused(self):
        return self.said()[-1:] == [f"refused {self.mark}"]


@functools.lru_cache(maxsize=None)
def sum_of(head, path, _):
    """The sum of a line and a file behind it, reckoned once for each time at which the file was written."""
    found = hashlib.sha256(head.encode())
    with open(path, "rb") as file:
        while part := file.read(COPY):
            found.update(part)
    return found.hexdigest()


def unsized(file):
    """Why it isn't known how long the text of a file is, which cutting it and seeing that nothing is lost stand on; None where it is."""
    found = file.stat()
    if not stat.S_ISREG(found.st_mode):
        return f"{file} is no regular file"
    with open(file, "rb") as text:
        if not found.st_size and text.read(1):
            return f"{file} says that it is empty, and isn't"
    return None


def ends_a_line(path):
    with open(path, "rb") as file:
        file.seek(-1, os.SEEK_END)
        return file.read(1) == b"\n"


def as_one_text(files, room):
    """Files whose texts, one after another, are those of the given ones, and which may be cut between each other: all but the last end
    a line. Only files that go on in another one are copied."""
    parts, group = [], []
    for file in files:
        group.append(file)
        if ends_a_line(file) or file is files[-1]:
            parts.append(group[0] if len(group) == 1 else joined(group, room / f"text.{len(parts)}"))
            group = []
    return parts


def joined(files, path):
    with open(path, "wb") as text:
        for file in files:
            with open(file, "rb") as part:
                shutil.copyfileobj(part, text, COPY)
    return path


def plan_of(given):
    """What has to be the same for a run to go on with the pieces of another one."""
    stats = [(os.fspath(file.resolve()), file.stat().st_size, file.stat().st_mtime_ns) for file in given.files]
    return {"files": [list(stat) for stat in stats], "block": given.block}


def mark_of(folder):
    """What tells the pieces of the folder's text from those of another one, or of one that was cut otherwise."""
    return hashlib.sha256((folder / NOTE).read_bytes()).hexdigest()[:16]


def pieces_in(folder):
    """The pieces that the runs in the folder left: if a piece was tried in several runs, a whole one."""
    found, mark = {}, mark_of(folder)
    for counts in sorted(folder.glob("run.*/*.counts")):
        piece = Piece(int(counts.name.partition(".")[0]), mark, counts)
        if piece.number not in found or found[piece.number].read() is None:
            found[piece.number] = piece
    return [found[number] for number in sorted(found)]


def job(given, folder, done):
    words = {
        "DONE": " ".join(map(str, done)),
        "MARK": mark_of(folder),
        "ATOMS": shlex.quote(given.atoms),
        "WORKERS": str(given.workers),
        "NOT_TEXT": NOT_TEXT,
    }
    script = re.sub(r"\b(DONE|MARK|ATOMS|WORKERS|NOT_TEXT)\b", lambda found: words[found[1]], JOB)
    return f"env PIECE={{#}} sh -c {shlex.quote(script)}"


def run_parallel(given, texts, folder, machines):
    """Has parallel count the pieces of the texts that aren't whole yet, in a folder of this run's own, which it answers."""
    earlier = [int(run.suffix[1:]) for run in folder.glob("run.*") if run.suffix[1:].isdecimal()]
    run = folder / f"run.{max(earlier, default=-1) + 1}"
    run.mkdir()
    done = [piece.number for piece in pieces_in(folder) if piece.read() is not None]
    command = ["parallel", "--no-notice", "--pipepart", "--block", given.block]
    command += ["--joblog", os.fspath(run / "joblog"), "--results", f"{run}/{{#}}.counts"]
    command += ["--bar"] if sys.stderr.isatty() else []
    command += ["--jobs", given.jobs] if given.jobs else []
    command += [word for machine in machines for word in ("--sshlogin", machine)]
    command += [word for text in texts for word in ("-a", os.fspath(text))]
    with open(run / "said", "wb") as file:  # what parallel says itself: what a job says lies in a file of its own
        said = None if sys.stderr.isatty() else file
        ended = subprocess.run([*command, job(given, folder, done)], stdin=subprocess.DEVNULL, stdout=subprocess.DEVNULL, stderr=said)
    if ended.returncode and not logged(run):
        said = (run / "said").read_text(encoding="utf-8", errors="replace").strip() or f"it ended with status {ended.returncode}"
        shutil.rmtree(run)
        raise BeganNone(f"count_many: parallel began no piece: {said}")
    return run


def logged(run):
    """The fields of each line that parallel wrote of a job."""
    if not (run / "joblog").is_file():
        return []
    with open(run / "joblog", encoding="utf-8", errors="replace") as log:
        return [line.split("\t") for line in log][1:]


def host_of(machine):
    """The machine without the number of jobs that may stand before it."""
    return re.sub(r"^\d+/", "", machine)


def answering(machines, run):
    """The machines whose line didn't break in a run; all of them where every one's did."""
    broken = {job[1] for job in logged(run) if len(job) > 6 and job[6] == BROKEN_LINE}
    return [machine for machine in machines if host_of(machine) not in broken] or machines


def is_settled(pieces, size):
    """Whether no further run can change anything: all is counted, or a piece is refused."""
    whole = [piece.read() for piece in pieces]
    return any(piece.is_refused() for piece in pieces) or (None not in whole and sum(whole) == size)


def count_pieces(given, texts, folder, size):
    """Counts the pieces of the texts, which have this many bytes, in as many runs as are needed and allowed."""
    machines = given.sshlogin
    for _ in range(given.tries):
        if is_settled(pieces_in(folder), size):
            return
        run = run_parallel(given, texts, folder, machines)
        machines = answering(machines, run)


def see_whole(pieces, size):
    """Sees that each piece is whole, and that all of them together are this long."""
    for piece in pieces:
        if piece.is_refused():
            raise Failed(NOT_TEXT)
        if piece.read() is None:
            why = " ".join(piece.said()[-1:]) or "it left no word"
            why = "its counts aren't what its job told of" if why.startswith("end ") else why
            raise Failed(f"count_many: piece {piece.number} wasn't counted: {why}")
    read = sum(piece.read() for piece in pieces)
    if read != size:
        raise Failed(f"count_many: the pieces have {read} bytes of {size}: one is missing, or a file changed")


def unlike(note, plan):
    """How what a folder's runs are of, as its note tells, differs from this plan; None if it doesn't."""
    try:
        noted = json.loads(note.read_text(encoding="utf-8"))
    except ValueError:
        return f"has a {NOTE} that isn't whole"
    if noted == plan:
        return None
    if [path for path, *_ in noted["files"]] != [path for path, *_ in plan["files"]]:
        return f"is of other files, as {NOTE} there lists them"
    changed = [now[0] for now, then in zip(plan["files"], noted["files"]) if now != then]
    return f"is of {changed[0]} as it was before it changed" if changed else f"has pieces of --block {noted['block']}"


def begin(folder, plan, resume):
    """Makes the folder, and notes what its runs are of; a run that goes on has to be of the same. Answers what it made, the last first."""
    note = folder / NOTE
    if resume:
        if not note.is_file():
            raise Failed(f"count_many: there is nothing to go on with in {folder}")
        if why := unlike(note, plan):
            raise Failed(f"count_many: {folder} {why}: another folder has to keep this count")
        return []
    if note.exists():
        raise Failed(f"count_many: {folder} has results already: --resume goes on with them")
    if folder.exists() and not folder.is_dir():
        raise Failed(f"count_many: {folder} is no folder")
    made = [note, *(path for path in (folder, *folder.parents) if not path.exists())]
    folder.mkdir(parents=True, exist_ok=True)
    half = note.with_suffix(".half")
    half.write_text(json.dumps(plan), encoding="utf-8")
    half.replace(note)  # so a run that is killed leaves no half of a note
    return made


@contextlib.contextmanager
def begun(folder, plan, resume):
    """The folder, begun: what `begin` made is taken back if no run began a piece."""
    made = begin(folder, plan, resume)
    try:
        yield
    except BeganNone:
        if not any(folder.glob("run.*")):
            with contextlib.suppress(OSError):  # something else may lie in a folder by now
                for path in made:
                    path.rmdir() if path.is_dir() else path.unlink()
        raise


def count(given, folder, out):
    """Counts the files' text with the results in the folder, and writes the merged counts."""
    if wrong := next(filter(None, map(unsized, given.files)), None):
        raise Failed(f"count_many: {wrong}")
    plan = plan_of(given)
    files = [file.resolve() for file in given.files if file.stat().st_size]  # parallel has a standard input of its own
    size = sum(file.stat().st_size for file in files)
    with begun(folder, plan, given.resume), tempfile.TemporaryDirectory(prefix="count-many-") as room:
        texts = as_one_text(files, Path(room))
        count_pieces(given, texts, folder, size)
    pieces = pieces_in(folder)
    see_whole(pieces, size)
    if plan_of(given) != plan:
        raise Failed("count_many: a file changed while it was counted")
    merge_counts.merge([piece.counts for piece in pieces], out)


def wrong_program(given):
    """Why no run can begin: parallel isn't here, or the program on this machine, or parallel would change a path. None if one can."""
    for path in (given.atoms, os.fspath(given.keep or tempfile.gettempdir())):
        if BRACES.search(path):
            return f"{path} has braces, in whose place parallel would put something else"
    if not shutil.which("parallel"):
        return "GNU parallel isn't here"
    counts_here = not given.sshlogin or ":" in map(host_of, given.sshlogin)
    if counts_here and not shutil.which(given.atoms):
        return f"there is no program {given.atoms}: `tools/try_atoms.py bin` builds one, for --atoms bin/atoms"
    return None


def arguments():
    parser = argparse.ArgumentParser(description=__doc__, formatter_class=argparse.RawDescriptionHelpFormatter)
    parser.add_argument("--atoms", default=os.fspath(TOP / "crates/atoms/out/atoms"), metavar="PROGRAM")
    parser.add_argument("--workers", type=int, default=1, metavar="N", help="of each job, 1 to 64 (1)")
    parser.add_argument("--block", default="64M", metavar="SIZE", help="of a piece: a number of bytes, as parallel has it (64M)")
    parser.add_argument("--jobs", metavar="N", help="on each machine, as parallel has it (one a processor)")
    parser.add_argument("--sshlogin", action="append", default=[], metavar="MACHINE")
    parser.add_argument("--tries", type=int, default=3, metavar="N", help="how often a piece that failed is tried in all (3)")
    parser.add_argument("--keep", type=Path, metavar="FOLDER", help="for results and parallel's log")
    parser.add_argument("--resume", action="store_true", help="count only what is missing in the folder")
    parser.add_argument("files", nargs="+", type=Path, metavar="FILE")
    given = parser.parse_args()
    if not 1 <= given.workers <= 64:
        parser.error("--workers is from 1 to 64")
    if not SIZE.fullmatch(given.block):
        parser.error(f"--block is a number of bytes, as 64M, and not {given.block}")
    if given.tries < 1:
        parser.error("--tries is at least 1")
    if given.resume and not given.keep:
        parser.error("--resume goes on with the results in --keep FOLDER")
    if why := wrong_program(given):
        parser.error(why)
    return given


def main():
    given = arguments()
    try:
        with tempfile.TemporaryDirectory(prefix="count-many-") as room, merge_counts.opened(sys.stdout, "wb") as out:
            count(given, given.keep or Path(room), out)
    except Failed as why:
        print(why, file=sys.stderr)
        return 1
    except (merge_counts.BadCounts, OSError) as why:
        print(f"count_many: {why}", file=sys.stderr)
        return 1
    return 0


if __name__ == "__main__":
    sys.exit(main())
