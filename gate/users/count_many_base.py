"""What the rows of count_many_test.py have in common: the tools, texts, and how a command is run and judged."""

import os
import subprocess
from pathlib import Path

TOOLS = Path(__file__).resolve().parents[2] / "tools"
ATOMS = TOOLS.parent / "crates" / "atoms" / "out" / "atoms"
COUNT_MANY, MERGE, MAPPER, DASK = (TOOLS / name for name in ("count_many.py", "merge_counts.py", "count_mapper.sh", "count_dask.py"))
SECONDS = 120  # for one command
BLOCK = "20k"  # of a piece

# Names with files, of which the text is what they hold one after another.
TEXTS = {
    "one line": [b"here is a sentence of text that will be tokenised and\n"],
    "no line feed at all": [b"interned and interned"],
    "no line feed at the end": [b"a b\nc a\n" * 500 + b"the last line"],
    "a word goes on in the next file": [b"a\ninter", b"ned\nb inter", b"", b"ned"],
    "a character goes on in the next file": ["caf\u00e9 \u05d0\n".encode()[:5], "caf\u00e9 \u05d0\n".encode()[5:], b"b\n"],
    "empty files": [b"", b"a\n", b"", b"b a\n", b""],
    "nothing but empty files": [b"", b""],
    "white space beyond ASCII": ["a\u00a0b\u2028a\u3000b\u0085c\u1680\n\td\v\f\r\n".encode() * 300],
    "one line longer than a piece": [b"x\n" + b"interned tokenised " * 2000 + b"\ny\n"],
    "line feeds alone": [b"\n" * 5000],
    "other bytes in words": [b"a\0b \x01 7 12 a\0b\n10 9\n" * 300],
    "not UTF-8 in one piece": [b"a b\n" * 2000, b"c \xff\n", b"d e\n" * 2000],
    "not UTF-8 at a file's end": [b"a b\n", b"c \xc3"],
    "many words": [b"".join(b"word%d %d\n" % (n * n % 7919, n % 10) for n in range(20000))],
}


def ran(command, **how):
    how = {"stdin": subprocess.DEVNULL, "stdout": subprocess.PIPE, "stderr": subprocess.PIPE, "timeout": SECONDS, **how}
    return subprocess.run([os.fspath(word) for word in command], **how)


def whole(text):
    """What the program says of a whole text."""
    return ran([ATOMS, "count", "1"], input=text, stdin=None)


def counted(files, *options, atoms=ATOMS, block=BLOCK):
    return ran([COUNT_MANY, "--atoms", atoms, "--block", block, *options, *files])


def written(room, texts):
    files = []
    for text in texts:
        files.append(room / f"text.{len(files)}")
        files[-1].write_bytes(text)
    return files


def lying(folder):
    """What lies in the folder: files with their bytes, and folders."""
    return {path: None if path.is_dir() else path.read_bytes() for path in folder.rglob("*")}


def program(room, body):
    """A program in the place of `atoms`, with the true one as $ATOMS."""
    path = room / "program"
    path.write_text(f'#!/bin/sh\nATOMS="{ATOMS}"\nROOM="{room}"\n{body}\n', encoding="utf-8")
    path.chmod(0o755)
    return path


def same(found, wanted):
    """What is wrong where a run should have ended as another one did; None where nothing is."""
    if found.stdout != wanted.stdout:
        return f"printed {found.stdout[-200:]!r} in place of {wanted.stdout[-200:]!r}; it said {found.stderr[-200:]!r}"
    if (found.returncode == 0) != (wanted.returncode == 0):
        return f"status {found.returncode} in place of {wanted.returncode}: {found.stderr[-200:]!r}"
    if wanted.returncode and (not wanted.stderr or wanted.stderr not in found.stderr):
        return f"it said {found.stderr[-200:]!r} in place of {wanted.stderr!r}"
    return None


def failed(found, why):
    """What is wrong where a run should have failed for that reason, with nothing printed."""
    if found.returncode == 0 or found.stdout or why.encode() not in found.stderr:
        return f"status {found.returncode}, {len(found.stdout)} bytes printed, and it said {found.stderr[-300:]!r}, not {why!r}"
    return None
