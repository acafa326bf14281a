#!/usr/bin/env python3
"""Tries tools/count_many.py and what it stands on, over the program that `rt ci` or `rt run` built last.

Each row is a text in files: what is printed, the fault and whether there is a status of 0 have to be those of `atoms count` over
the whole text. Then pieces go missing, are cut short or unreadable, machines fail, and a run is broken off and resumed. Rows that
need GNU parallel, sshd or dask are skipped where they aren't there, and the output says so.

usage: gate/users/count_many_test.py [WORD..]     with words: only the rows whose names contain one of them
"""

import os
import random
import re
import shutil
import signal
import subprocess
import sys
import tempfile
import time
from pathlib import Path

import count_many_merge
import count_many_options
import count_many_resumed
from count_many_base import ATOMS, BLOCK, COUNT_MANY, DASK, SECONDS, TEXTS, TOOLS, counted, failed, program, ran, same, whole, written

# --- pieces under GNU parallel -----------------------------------------------------------------------------------------------------


def counts_as_the_whole(texts):
    def row(room):
        return same(counted(written(room, texts), block="4k"), whole(b"".join(texts)))

    return row


TEXT = TEXTS["many words"][0]


def file_comes_twice(room):
    """The same file goes on in another one, and ends the text."""
    begins, ends = written(room, [b"a inter", b"ned b\n"])
    return same(counted([begins, ends, begins]), whole(b"a interned b\na inter"))


def file_is_missing(room):
    return failed(counted([*written(room, [TEXT]), room / "absent"]), "absent")


def file_is_a_folder(room):
    return failed(counted([*written(room, [TEXT]), room]), str(room))


def file_is_unreadable(room):
    files = written(room, [TEXT])
    files[0].chmod(0)
    if os.access(files[0], os.R_OK):
        return "skipped: this user may read any file"
    return failed(counted(files), "text.0")


def file_is_a_pipe(room):
    """What has no length that is known beforehand is refused, and not taken for an empty file; standard input from a file has one."""
    files, start = written(room, [TEXT]), ["timeout", SECONDS, COUNT_MANY, "--atoms", ATOMS, "--keep", room / "kept"]
    words = [str(word) for word in start]
    os.mkfifo(room / "fifo")
    for command, why in (
        (f'"$@" {room}/fifo', "fifo is no regular file"),
        (f'"$@" {files[0]} /dev/fd/3 3< <(cat {files[0]})', "/dev/fd/3 is no regular file"),
        (f'cat {files[0]} | "$@" /dev/stdin', "/dev/stdin is no regular file"),
        ('"$@" /proc/self/status', "/proc/self/status says that it is empty, and isn't"),
    ):
        if wrong := failed(ran(["bash", "-c", command, "bash", *words]), why):
            return f"{command}: {wrong}"
    if (room / "kept").exists():
        return "the folder that is kept was begun"
    return same(ran(["bash", "-c", f'"$@" /dev/stdin < {files[0]}', "bash", *words]), whole(TEXT))


def job_fails(room):
    """A program that fails on one piece fails the whole; with the true one the run is resumed, and nothing else is counted again."""
    bad = program(room, 'cat > "$ROOM/$$"; grep -q word4900 "$ROOM/$$" && { echo no room >&2; exit 7; }; "$ATOMS" count 1 < "$ROOM/$$"')
    files, kept = written(room, [TEXT]), room / "kept"
    if found := failed(counted(files, "--keep", kept, atoms=bad), "no room"):
        return found
    before = set(kept.glob("run.*/*.counts"))
    if found := same(counted(files, "--keep", kept, "--resume"), whole(TEXT)):
        return found
    again = [counts for counts in set(kept.glob("run.*/*.counts")) - before if counts.stat().st_size]
    return None if 0 < len(again) < 8 else f"{len(again)} pieces were counted again"


def job_fails_once(room):
    once = program(room, 'mkdir "$ROOM/tried" 2> "$ROOM/said" && exit 9; exec "$ATOMS" count 1')
    return same(counted(written(room, [TEXT]), atoms=once), whole(TEXT))


def program_is_missing(room):
    """A program that isn't here, or may not be run, is told at once: no piece is tried. Another machine's is found missing by the pieces."""
    (room / "text").write_bytes(TEXT)
    for absent, others in ((room / "absent", []), (room / "text", []), ("./absent", ["--sshlogin", "2/:"])):
        found = counted([room / "text"], *others, "--keep", room / "kept", atoms=absent)
        if wrong := failed(found, f"there is no program {absent}: `tools/try_atoms.py bin` builds one"):
            return wrong
        if found.returncode != 2 or (room / "kept").exists():
            return f"with the status {found.returncode} pieces were tried"
    ssh = room / "ssh"
    ssh.write_text('#!/bin/bash\nshift\nexec sh -c "$*"\n', encoding="utf-8")
    ssh.chmod(0o755)
    return failed(counted([room / "text"], "--sshlogin", f"2/{ssh} machine", "--tries", "1", atoms=room / "absent"), "piece 1 wasn't counted")


def path_has_braces(room):
    """The path of the program, or of the folder that is kept, has what parallel would put something else for."""
    for braces in ("{}", "{#}", "{= $_ =}"):
        own = room / f"a{braces}b"
        own.mkdir()
        shutil.copy(ATOMS, own / "atoms")
        files = written(own, [TEXT])
        for found in (counted(files, atoms=own / "atoms"), counted(files, "--keep", own / "kept")):
            if wrong := failed(found, f"a{braces}b/") or failed(found, "has braces"):
                return wrong
        if wrong := same(counted(files), whole(TEXT)):
            return wrong
    return None


def program_is_named_from_here(room):
    """A program in the folder where the run begins needs no more than `./`, whatever its name has, and one on the path its name."""
    for name in ("counter", "it's $HOME; one"):
        shutil.copy(ATOMS, room / name)
    file, path = written(room, [TEXT])[0].name, os.environ["PATH"]
    for name, where in (("./counter", path), ("counter", f"{room}:{path}"), ("./it's $HOME; one", path)):
        found = ran([COUNT_MANY, "--atoms", name, "--block", BLOCK, file], cwd=room, env={**os.environ, "PATH": where})
        if wrong := same(found, whole(TEXT)):
            return wrong
    return None


def results_are_spoilt(room):
    """A piece's counts that are cut short or gone, or whose last word isn't there, are made again; so is what no run has left, and what is
    as long as it was, but something else, or another piece's."""
    files, kept = written(room, [TEXT]), room / "kept"
    counted(files, "--keep", kept)
    (kept / "run.0/2.counts").write_bytes((kept / "run.0/2.counts").read_bytes()[:-5])
    (kept / "run.0/3.counts").unlink()
    (kept / "run.0/4.counts.err").write_bytes(b"")
    (kept / "run.0/5.counts.err").unlink()
    (kept / "run.0/6.counts").write_bytes(re.sub(rb"(?m)^1 ", b"2 ", (kept / "run.0/6.counts").read_bytes()))
    for ending in ("counts", "counts.err"):
        shutil.copy(kept / f"run.0/1.{ending}", kept / f"run.0/7.{ending}")
    found = same(counted(files, "--keep", kept, "--resume"), whole(TEXT))
    again = {counts.name for counts in kept.glob("run.1/*.counts") if counts.stat().st_size}
    return found or (None if again == {f"{n}.counts" for n in range(2, 8)} else f"counted again: {again}")


def piece_is_gone(room):
    """A parallel that loses a piece: what is left isn't taken for the whole, and a further run counts that piece."""
    files, kept, others = written(room, [TEXT]), room / "kept", room / "others"
    others.mkdir()
    loses = others / "parallel"
    loses.write_text(f'#!/bin/bash\n"{shutil.which("parallel")}" "$@"\nrm -f "{kept}/run.0/3."*\n', encoding="utf-8")
    loses.chmod(0o755)
    environment = {**os.environ, "PATH": f"{others}:{os.environ['PATH']}"}
    command = [COUNT_MANY, "--atoms", ATOMS, "--block", BLOCK, "--keep", kept]
    if wrong := failed(ran([*command, "--tries", "1", *files], env=environment), f" bytes of {len(TEXT)}: one is missing"):
        return wrong
    shutil.rmtree(kept)
    return same(ran([*command, *files], env=environment), whole(TEXT))


def no_room_is_left(room):
    """What a run makes for its own use is gone at its end, also if a job fails."""
    files, own = written(room, [TEXT, b"a"]), room / "own"
    own.mkdir()
    for atoms in (ATOMS, program(room, "exit 9")):
        command = [COUNT_MANY, "--atoms", atoms, "--block", BLOCK, "--tries", "1", files[1], *files]
        ran(command, env={**os.environ, "TMPDIR": os.fspath(own)})
        if left := list(own.iterdir()):
            return f"with {atoms} it left {left}"
    return None


def run_is_broken_off(room):
    """A run that is killed midway prints nothing, and is resumed."""
    slow = program(room, 'sleep 0.2; exec "$ATOMS" count 1')
    files, kept = written(room, [TEXT]), room / "kept"
    command = [COUNT_MANY, "--atoms", slow, "--block", BLOCK, "--keep", kept, "--jobs", "2", *files]
    run = subprocess.Popen(command, stdout=subprocess.PIPE, stderr=subprocess.DEVNULL, start_new_session=True)
    while not list(kept.glob("run.0/4.counts")) and run.poll() is None:
        time.sleep(0.05)
    os.killpg(run.pid, signal.SIGKILL)
    if run.communicate()[0]:
        return "it printed something"
    return same(counted(files, "--keep", kept, "--resume"), whole(TEXT))


def text_grows_meanwhile(room):
    slow = program(room, 'sleep 0.2; echo more >> "$ROOM/text.0"; exec "$ATOMS" count 1')
    return failed(counted(written(room, [TEXT]), atoms=slow), "a file changed while it was counted")


def prints_nothing_but_counts(room):
    found = counted(written(room, [TEXT]))
    return None if found.stderr == b"" else f"it said {found.stderr!r}"


# --- machines ------------------------------------------------------------------------------------------------------------------------


class Machines:
    """Two machines that are this one, each with an sshd of its own on a port of its own, and a third one that is none."""

    def __init__(self, room):
        self.room = room
        for name in ("host", "user"):
            ran(["ssh-keygen", "-q", "-t", "ed25519", "-N", "", "-f", room / name])
        shutil.copy(room / "user.pub", room / "allowed")
        self.started = []

    def ssh(self, port):
        options = ["UserKnownHostsFile=/dev/null", "StrictHostKeyChecking=no", "LogLevel=ERROR", "ConnectTimeout=5", "IdentitiesOnly=yes"]
        return " ".join(["ssh", "-p", str(port), "-i", str(self.room / "user"), *(f"-o{option}" for option in options), "localhost"])

    def start(self, port):
        options = [f"Port={port}", "ListenAddress=127.0.0.1", f"HostKey={self.room}/host", f"AuthorizedKeysFile={self.room}/allowed"]
        options += ["UsePAM=no", "StrictModes=no", f"PidFile={self.room}/pid", "PermitRootLogin=yes", "MaxStartups=100"]
        command = [shutil.which("sshd", path=os.environ["PATH"] + ":/usr/sbin"), "-D", "-f", "/dev/null", "-q"]
        os.makedirs("/run/sshd", exist_ok=True) if os.geteuid() == 0 else None
        run = subprocess.Popen([*command, *(f"-o{option}" for option in options)], stdin=subprocess.DEVNULL)
        self.started.append(run)
        for _ in range(100):
            if ran(["sh", "-c", f"{self.ssh(port)} true"]).returncode == 0:
                return f"2/{self.ssh(port)}"
            time.sleep(0.1)
        raise OSError("sshd doesn't let this user in")

    def __enter__(self):
        return self

    def __exit__(self, *_):
        for run in self.started:
            run.kill()
            run.wait()


def two_machines(room):
    port = random.randrange(20000, 60000, 3)
    with Machines(room) as machines:
        first, second = machines.start(port), machines.start(port + 1)
        absent = f"2/{machines.ssh(port + 2)}"
        files = written(room, [TEXT])
        both = counted(files, "--sshlogin", first, "--sshlogin", second, "--keep", room / "kept")
        hosts = {line.split("\t")[1] for line in (room / "kept/run.0/joblog").read_text().splitlines()[1:]}
        if found := same(both, whole(TEXT)) or (None if len(hosts) == 2 else f"the pieces went to {hosts}"):
            return found
        if found := same(counted(files, "--sshlogin", absent, "--sshlogin", second), whole(TEXT)):
            return f"with a machine that isn't there: {found}"
        bad = written(room, TEXTS["not UTF-8 in one piece"])
        if found := same(counted(bad, "--sshlogin", first, "--sshlogin", second), whole(b"".join(TEXTS["not UTF-8 in one piece"]))):
            return f"with a piece that isn't UTF-8: {found}"
        return failed(counted(written(room, [TEXT]), "--sshlogin", absent), "wasn't counted")


def line_breaks(room):
    """A machine whose line breaks in the middle of an answer: the piece is tried again, and a line that is cut with a status of 0 is
    seen as well."""
    for status, row in ((255, same), (0, None)):
        ssh = room / f"ssh{status}"
        often = "true" if status == 0 else f'mkdir "{room}/broken" 2> "{room}/said"'
        broken = f'if {often}; then sh -c "$*" | head -c 60; exit {status}; fi'
        ssh.write_text(f'#!/bin/bash\nexport SHELL=/bin/bash\nshift 2\n{broken}\nexec sh -c "$*"\n', encoding="utf-8")
        ssh.chmod(0o755)
        found = counted(written(room, [TEXT]), "--sshlogin", f"2/{ssh} machine")
        if wrong := same(found, whole(TEXT)) if row else failed(found, "wasn't counted"):
            return f"with status {status}: {wrong}"
    return None


# --- dask ----------------------------------------------------------------------------------------------------------------------------


def over_dask(row):
    """A row that needs a Python with dask, which it is given."""

    def tried(room):
        for python in ("python3", "/usr/bin/python3"):
            if shutil.which(python) and ran([python, "-c", "import distributed"]).returncode == 0:
                return row(room, python)
        return "skipped: dask isn't here"

    return tried


def dask(room, python):
    texts = [text for name in ("many words", "one line longer than a piece", "empty files", "no line feed at the end") for text in TEXTS[name]]
    found = ran([python, DASK, "--atoms", ATOMS, "--block", "4000", *written(room, texts)])
    if wrong := same(found, whole(b"".join(texts))):
        return wrong
    bad = written(room, TEXTS["not UTF-8 in one piece"])
    if wrong := failed(ran([python, DASK, "--atoms", ATOMS, "--block", "20000", *bad]), "atoms: input is not UTF-8"):
        return wrong
    cut = written(room, [b"a inter", b"ned b\n"])
    if wrong := failed(ran([python, DASK, "--atoms", ATOMS, *cut]), "doesn't end with a line feed"):
        return wrong
    os.mkfifo(room / "fifo")
    if wrong := failed(ran([python, DASK, "--atoms", ATOMS, room / "fifo"]), "fifo is no regular file"):
        return wrong
    grows = program(room, 'echo more >> "$ROOM/text.0"; exec "$ATOMS" count 1')
    return failed(ran([python, DASK, "--atoms", grows, "--block", "20000", *written(room, [TEXT])]), "where a piece of it is counted")


# Counts a file in pieces over one worker, which runs in another folder, and prints how many bytes of answers this has when the last piece's counts
# are written.
HELD = """
import os
import sys
from argparse import Namespace
from pathlib import Path

import count_dask
from distributed import Client

def held(dask_worker):
    return sum(len(it) for it in dask_worker.data.values() if isinstance(it, bytes))

class Room:
    def __truediv__(self, name):
        sizes.append(sum(client.run(held).values()))
        return room / name

atoms, file, block, room = *sys.argv[1:4], Path(sys.argv[4])
with Client(n_workers=1, threads_per_worker=1, dashboard_address=None) as client:
    client.run(os.chdir, "/")
    sizes = []
    count_dask.count(client, Namespace(atoms=atoms, files=[Path(file)], block=int(block)), Room())
    print(len(sizes), sizes[-1])
"""


def dask_keeps_no_text(room, python):
    (room / "counts").mkdir()
    text = written(room, [b"interned\n" * 20000])[0].name
    found = ran([python, "-c", HELD, ATOMS, text, "9000", room / "counts"], env={**os.environ, "PYTHONPATH": os.fspath(TOOLS)}, cwd=room)
    pieces, held = map(int, found.stdout.split()) if found.returncode == 0 else (0, 0)
    return None if pieces == 20 and held < 9000 else f"{pieces} pieces, and {held} bytes are held: {found.stderr[-300:]!r}"


def rows():
    yield from count_many_merge.ROWS.items()
    yield "dask: two processes", over_dask(dask)
    yield "dask: no worker keeps the text", over_dask(dask_keeps_no_text)
    if not shutil.which("parallel"):
        yield "pieces: all rows", lambda room: "skipped: GNU parallel isn't here"
        return
    for name, texts in TEXTS.items():
        yield f"text: {name}", counts_as_the_whole(texts)
    for row in (file_comes_twice, file_is_missing, file_is_a_folder, file_is_unreadable, file_is_a_pipe, *count_many_options.ROWS):
        yield f"pieces: {row.__name__.replace('_', ' ')}", row
    for row in (job_fails, job_fails_once):
        yield f"pieces: {row.__name__.replace('_', ' ')}", row
    for row in (program_is_missing, program_is_named_from_here, path_has_braces):
        yield f"pieces: {row.__name__.replace('_', ' ')}", row
    for row in (results_are_spoilt, piece_is_gone, run_is_broken_off, *count_many_resumed.ROWS):
        yield f"pieces: {row.__name__.replace('_', ' ')}", row
    for row in (text_grows_meanwhile, no_room_is_left, prints_nothing_but_counts):
        yield f"pieces: {row.__name__.replace('_', ' ')}", row
    yield "machines: a line that breaks", line_breaks
    if shutil.which("sshd", path=os.environ.get("PATH", "") + ":/usr/sbin"):
        yield "machines: two, and one that isn't there", two_machines
    else:
        yield "machines: two, and one that isn't there", lambda room: "skipped: sshd isn't here"


def main():
    results = []
    for name, row in rows():
        if sys.argv[1:] and not any(word in name for word in sys.argv[1:]):
            continue
        with tempfile.TemporaryDirectory(prefix="many-") as room:
            try:
                wrong = row(Path(room))
            except (OSError, subprocess.SubprocessError) as why:
                wrong = f"it can't be run: {why}"
        skipped = wrong is not None and wrong.startswith("skipped: ")
        print(f"many {name}: {wrong if skipped else f'WRONG: {wrong}' if wrong else 'ok'}", flush=True)
        results += [] if skipped else [not wrong]
    print(f"{results.count(True)} passed, {results.count(False)} failed")
    return 0 if results and all(results) else 1


if __name__ == "__main__":
    sys.exit(main())
