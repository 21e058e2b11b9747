#!/usr/bin/env python3
"""Runs a file of tests, and each test of it that fails once more by itself: of hundreds with real processes one may fail since a busy machine had no time
for it. What passes then has passed, and is told by its name in a line `unsteady: PART TEST`. What breaks a promise is never tried again: a test says so
by an exception called Promise, or by the word promise in the message of an AssertionError.

usage: building/retried.py PART FILE
Its last line is `N passed, M failed`; before it stands what was skipped and what is unsteady."""
import re
import signal
import subprocess
import sys

BLOCK = re.compile(r"^={70}\n(?=(?:FAIL|ERROR|UNEXPECTED SUCCESS): )", re.MULTILINE)
HEAD = re.compile(r"(FAIL|ERROR|UNEXPECTED SUCCESS): (\S+) \((\S+)\)")
PROMISE = re.compile(r"^(?:\w+\.)*(?:Promise\b|AssertionError: .*\b[Pp]romise)", re.MULTILINE)
RAN = re.compile(r"^Ran (\d+) tests? in ", re.MULTILINE)
SKIPPED = re.compile(r"\.\.\. skipped ['\"](.*)['\"]$", re.MULTILINE)
SKIPPED_CLASS = re.compile(r"^setUp(?:Class|Module) \(.*\.\.\. skipped ", re.MULTILINE)


class Outcome:
    """What a run of a file of tests has printed, in unittest's own form with -v, and its status."""

    def __init__(self, told, status):
        ran = list(RAN.finditer(told))
        self.ran, self.is_whole = (int(ran[-1][1]), True) if ran else (0, False)
        self.skipped = SKIPPED.findall(told)
        self.passed_over = len(self.skipped) - len(SKIPPED_CLASS.findall(told))  # of the tests that were run
        self.failed = {}  # of each test that failed whether it may be tried again
        for block in BLOCK.split(told[:ran[-1].start()])[1:] if ran else ():
            kind, method, place = HEAD.match(block).groups()
            test = test_of(method, place)
            self.failed[test] = self.failed.get(test, True) and kind != "UNEXPECTED SUCCESS" and not PROMISE.search(block)
        self.is_whole = self.is_whole and status == (1 if self.failed else 0)
        self.is_good = self.is_whole and not self.failed

    def passed(self):
        return self.ran - self.passed_over - sum(is_method(test) for test in self.failed)


def test_of(method, place):
    """How a test is named to its file: Class.test, or Class where that can't be set up, "" where the file can't."""
    names = place.split(".")
    if names[0] == "__main__":
        del names[0]
    if method.startswith(("setUp", "tearDown")) or names[-1:] == [method]:
        return ".".join(names)
    return ".".join([*names, method])


def is_method(test):
    return "." in test


class Tally:
    """What has passed and failed in some files of tests."""

    def __init__(self):
        self.passed = self.failed = 0
        self.skipped, self.unsteady = [], []

    def take(self, part, run):
        """Takes a file of tests: `run(*tests)` runs it, or these tests of it alone, prints what it tells, and gives the Outcome."""
        first = run()
        self.passed += first.passed()
        self.skipped += [f"skipped: {part} ({why})" for why in first.skipped]
        self.failed += not first.is_whole  # it didn't come to its end, or ended otherwise than it told
        for test, may_pass in first.failed.items():
            self.try_again(part, test, may_pass, run)

    def try_again(self, part, test, may_pass, run):
        name = f"{part} {test}".rstrip()
        if not may_pass:
            print(f"{name} has failed, and is tried no more: it breaks a promise", flush=True)
            self.failed += 1
            return
        print(f"{name} has failed, and is tried once more by itself", flush=True)
        again = run(*filter(None, [test]))
        has_passed = again.is_good and again.passed() > 0
        print(f"{name}: it failed, and then it {'passed' if has_passed else 'failed again'}", flush=True)
        self.passed += (1 if is_method(test) else again.passed()) if has_passed else 0
        self.failed += not has_passed
        self.unsteady += [f"unsteady: {name}"] * has_passed

    def close(self):
        """Tells it all. The status of who ran them."""
        print(*dict.fromkeys(self.skipped), *dict.fromkeys(self.unsteady), f"{self.passed} passed, {self.failed} failed", sep="\n", flush=True)
        return 1 if self.failed else 0


def shown(words, **options):
    """Runs a program, and prints what it tells as it tells it: (what it told, its process)."""
    process = subprocess.Popen(words, stdout=subprocess.PIPE, stderr=subprocess.STDOUT, text=True, errors="replace", **options)
    told = []
    try:
        for line in process.stdout:
            told.append(line)
            print(line, end="", flush=True)
        process.wait()
    except KeyboardInterrupt:
        process.terminate()
        process.communicate()
        raise
    return "".join(told), process


def main(words):
    if len(words) != 2:
        print(__doc__, file=sys.stderr)
        return 2
    part, file = words
    signal.signal(signal.SIGTERM, signal.default_int_handler)

    def run(*tests):
        told, process = shown([sys.executable, file, "-v", *tests], stdin=subprocess.DEVNULL)
        return Outcome(told, process.returncode)
    tally = Tally()
    tally.take(part, run)
    return tally.close()


if __name__ == "__main__":
    sys.exit(main(sys.argv[1:]))
