"""What the tests of clients have in common: how a command is run, which tools there are, and where the library is."""

import os
import shutil
import subprocess
from dataclasses import dataclass
from pathlib import Path

from repository import TOP

CLIENTS = TOP / "clients"
C = CLIENTS / "c"
SECONDS = int(os.environ.get("CLIENT_SECONDS", "1800"))  # for one command, on a slow machine beside other work
WARNINGS = ["-Wall", "-Wextra", "-Wpedantic", "-Wshadow", "-Werror"]
AS_C = ["-std=c11", *WARNINGS]


class Failed(Exception):
    """A command ended with a status other than 0, or something isn't as it should be."""


class Skipped(Exception):
    """A tool isn't there."""


@dataclass
class Place:
    """Where the library is, and a folder to build in."""

    library: Path
    room: Path


def said_by(*words, seconds=SECONDS, **how):
    """What a command wrote, on both streams. Failed where its status isn't 0."""
    how = {"stdin": subprocess.DEVNULL, "stdout": subprocess.PIPE, "stderr": subprocess.STDOUT, **how}
    ran = subprocess.run([*map(str, words)], timeout=seconds, check=False, **how)
    said = ran.stdout.decode(errors="replace")
    if ran.returncode:
        raise Failed(f"{Path(words[0]).name} ended with status {ran.returncode}:\n{said[-3000:]}")
    return said


def tool(*names):
    """The first of these commands that is there."""
    for name in names:
        if shutil.which(name):
            return name
    raise Skipped(f"there is no {' or '.join(names)}")


def cc():
    return os.environ.get("CC") or tool("cc", "gcc", "clang")


def cpp():
    return os.environ.get("CXX") or tool("c++", "g++", "clang++")
