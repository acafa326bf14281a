#!/usr/bin/env python3
"""Leaves the program `atoms` in a folder, built without proofs, to try it with texts of any size: a minute once, and then it begins at
once. `rt run`, in crates/atoms, proves it first.

usage: tools/try_atoms.py FOLDER     then FOLDER/atoms words < TEXT
"""

import argparse
import subprocess
import sys
import tempfile
from pathlib import Path

from programs import NotBuilt, link, object_of

CRATE = Path(__file__).resolve().parent.parent / "crates" / "atoms"
LEVEL = "-O1"  # of the optimiser: without it, ten megabytes of words take a minute


def main():
    parser = argparse.ArgumentParser(description=__doc__, formatter_class=argparse.RawDescriptionHelpFormatter)
    parser.add_argument("folder", type=Path, metavar="FOLDER")
    folder = parser.parse_args().folder
    program = folder / "atoms"
    try:
        folder.mkdir(parents=True, exist_ok=True)
        with tempfile.TemporaryDirectory(prefix="try-") as room:
            link([object_of(CRATE, Path(room), level=LEVEL)], program)
    except (NotBuilt, OSError, subprocess.CalledProcessError) as why:
        sys.exit(f"try_atoms: {program} can't be built: {why}")
    print(f"{program} is there, built without proofs: nothing of it was proved")


if __name__ == "__main__":
    main()
