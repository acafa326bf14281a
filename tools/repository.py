"""The crates of this repository, as crates.txt lists them, and commands that are run in it."""

import subprocess
from pathlib import Path

TOP = Path(__file__).resolve().parent.parent


def said_by(*words, folder=None):
    """The status of a command that is run in a folder, or else at the top, and all that it said."""
    ran = subprocess.run([*words], cwd=folder or TOP, stdin=subprocess.DEVNULL, stdout=subprocess.PIPE, stderr=subprocess.STDOUT)
    return ran.returncode, ran.stdout.decode(errors="replace")


def crates_listed():
    """Each crate's libraries, by the crate's name, in the order of crates.txt."""
    listed = {}
    for line in (TOP / "crates.txt").read_text(encoding="utf-8").splitlines():
        head, colon, libraries = line.partition(":")
        if colon and not line.startswith("#"):
            listed[head.split()[0]] = libraries.split()
    return listed


def stands_on(listed, name):
    """The crates that this one stands on, itself among them."""
    found = {name}
    for library in listed[name]:
        if library in listed:
            found |= stands_on(listed, library)
    return found
