"""Tests that were built into a program: their names, and whether one passes."""

import subprocess

from edits import ends_in
from programs import NotBuilt

CANT_RUN = (OSError, subprocess.CalledProcessError)
CANT_BUILD = (NotBuilt, *CANT_RUN)


def named(paths, name):
    """The one path among these that the name ends, or None."""
    found = [path for path in paths if ends_in(path, name)]
    return found[0] if len(found) == 1 else None


def tests_of(program):
    """The names of a program's tests."""
    listed = subprocess.run([program, "--list"], stdout=subprocess.PIPE, check=True).stdout.decode().splitlines()
    return [name for name, _, kind in (line.rpartition(": ") for line in listed) if kind == "test"]


def outcome(program, test, seconds):
    """Whether the test passes, or None where it hasn't ended within this time."""
    how = {name: subprocess.DEVNULL for name in ("stdin", "stdout", "stderr")}
    try:
        return subprocess.run([program, test], cwd=program.parent, env={}, timeout=seconds, **how).returncode == 0
    except subprocess.TimeoutExpired:
        return None


def passes(program, test, seconds):
    """Whether the test passes, and within this time."""
    return outcome(program, test, seconds) is True
