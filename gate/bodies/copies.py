"""Copies of the repository with what was built of it, and what of it has tests."""

import functools
import os
import shutil
import sys
from importlib.machinery import SourceFileLoader
from importlib.util import module_from_spec, spec_from_loader

from programs import kit
from repository import TOP


@functools.cache
def rtlib():
    """The part of `rt` that knows how a crate is checked."""
    sys.dont_write_bytecode = True
    loader = SourceFileLoader("rtlib", str(kit() / "bin" / "rtlib.py"))
    module = module_from_spec(spec_from_loader("rtlib", loader))
    loader.exec_module(module)
    return module


@functools.cache
def crates():
    """The crates of the repository, as `rt` knows them, by their names."""
    return {it.name: it for it in rtlib().crates_below(str(TOP))}


def linked(source, target):
    """Gives what was built or proved a second name: `rt` replaces such a file, and writes into none. All else is copied."""
    try:
        if "/rlib/" in source or source.endswith(".oantt"):
            return os.link(source, target)
    except OSError:
        pass
    return shutil.copy2(source, target)


def has_tests(name):
    """Whether the crate of this name has tests."""
    return any("#[test]" in file.read_text(encoding="utf-8") for file in (TOP / "crates" / name / "src").rglob("*.rt"))


def copy_without_work(target):
    """A copy of the repository in a new folder, without what was proved or built of it."""
    return shutil.copytree(TOP, target, ignore=shutil.ignore_patterns(".git", "out", "__pycache__"))


def copy_over_built(target, name):
    """A copy of the repository in a new folder, in which `rt` takes the libraries below this crate as they were built last: `rt ci` leaves them
    without the mark by which `rt` knows its own, so it gets one there."""
    copy_without_work(target)
    for crate in crates()[name].below():
        own, copy = (top / "crates" / crate.name / "out" / "rlib" for top in (TOP, target))
        if own.is_dir():
            shutil.copytree(own, copy, copy_function=linked)
            (copy / "stamp").unlink(missing_ok=True)
            (copy / "stamp").write_text(crate.stamp(), encoding="utf-8")
    return target
