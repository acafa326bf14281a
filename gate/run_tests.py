"""Runs unit tests as the test command wants it: their last line tells how many passed."""

import argparse
import sys
import unittest


def run(tests, verbosity):
    """How many of these tests passed, and how many failed."""
    result = unittest.TextTestRunner(stream=sys.stdout, verbosity=verbosity).run(tests)
    failed = len(result.failures) + len(result.errors)
    return result.testsRun - failed, failed


def main():
    """Runs the tests of the script that was called, with words only those of whose names one is a part, or gives help. The status."""
    description = sys.modules["__main__"].__doc__
    parser = argparse.ArgumentParser(description=description, formatter_class=argparse.RawDescriptionHelpFormatter)
    parser.add_argument("words", nargs="*", metavar="WORD", help="of a test's name: only such tests are run")
    loader, words = unittest.TestLoader(), parser.parse_args().words
    loader.testNamePatterns = [f"*{word}*" for word in words] or None
    passed, failed = run(loader.loadTestsFromName("__main__"), verbosity=2)
    print(f"{passed} passed, {failed} failed")
    return 1 if failed else 0
