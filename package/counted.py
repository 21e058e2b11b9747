"""Runs the tests of a file, and tells how many passed, and which were skipped and why, as the test command reads it."""
import sys
import unittest


def main(part):
    result = unittest.main(module="__main__", exit=False, verbosity=2).result
    failed = len(result.failures) + len(result.errors)
    of_tests = [why for test, why in result.skipped if isinstance(test, unittest.TestCase)]
    for why in dict.fromkeys(why for _, why in result.skipped):
        print(f"skipped: {part} ({why})")
    print(f"{max(0, result.testsRun - failed - len(of_tests))} passed, {failed} failed")
    sys.exit(1 if failed else 0)
