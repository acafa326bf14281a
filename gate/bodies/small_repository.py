"""A small repository in a folder of its own, in which tests have the scripts of this folder work in the place of this one."""

import tempfile
import unittest
from pathlib import Path
from unittest import mock

import batches
import copies
import repository


class InSmallRepository(unittest.TestCase):
    """Tests in a small repository."""

    def begin(self, listed, texts, *scripts):
        """Makes the repository, whose crates are these lines of crates.txt, with these texts of its files, and has these modules and those
        that they share work in it until the test ends."""
        room = tempfile.TemporaryDirectory(prefix="small-")
        self.addCleanup(room.cleanup)
        self.top = Path(room.name)
        for file, text in {"crates.txt": listed, "HANDLES": "Handles allowed: Threads, Wait.\n", **texts}.items():
            (self.top / file).parent.mkdir(parents=True, exist_ok=True)
            (self.top / file).write_text(text, encoding="utf-8")
        copies.crates.cache_clear()
        self.addCleanup(copies.crates.cache_clear)
        for module in (repository, copies, batches, *scripts):
            held = mock.patch.object(module, "TOP", self.top)
            held.start()
            self.addCleanup(held.stop)
