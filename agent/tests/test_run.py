"""The tests' own means: who runs them ends what it began, and tries again what fails unless it breaks a promise; and who looks on sees what is so when it
asks, and no two at once that came one after the other."""
import os
import subprocess
import sys
import tempfile
import threading
import time
import unittest
from unittest import mock

TESTS = os.path.dirname(os.path.abspath(__file__))
TOP = os.path.dirname(os.path.dirname(TESTS))
sys.path.insert(0, os.path.dirname(TESTS))

import promises
import pulse
import watcher

RUN = "import run; run.TESTS, run.PARTS = '.', {'some': (60, ['some'])}; run.main()"
LASTS = "import os, time; print('begins', os.getpid(), flush=True); time.sleep(60)"


class Runs(unittest.TestCase):
    def test_who_is_interrupted_ends_the_tests_that_run(self):
        with tempfile.TemporaryDirectory() as folder:
            with open(os.path.join(folder, "test_some.py"), "w") as file:
                file.write(LASTS)
            running = subprocess.Popen([sys.executable, "-c", RUN, "some"], cwd=folder, env={**os.environ, "PYTHONPATH": TESTS},
                                       stdout=subprocess.PIPE, stderr=subprocess.DEVNULL, text=True)
            begins = next(line for line in running.stdout if line.startswith("begins"))
            running.terminate()
            running.communicate(timeout=120)
        self.assertNotEqual(running.returncode, 0)
        self.assertRaises(ProcessLookupError, os.kill, int(begins.split()[1]), 0)


class TriedAgain(unittest.TestCase):
    """Of some files of tests, whose tests fail as they are told to."""

    # Each test notes that it was run; one that fails once has been run before when it passes.
    FILE = """import os, unittest, promises
class {name}(unittest.TestCase):
    def fail_until(self, count):
        with open(self.id(), "a") as file:
            file.write("x")
        self.assertGreater(os.path.getsize(self.id()), count, "it was run too seldom")
    {tests}
unittest.main()
"""
    PASSES = "def test_passes(self): self.fail_until(0)"
    ONCE = "def test_fails_once(self): self.fail_until(1)"
    TWICE = "def test_fails_twice(self): self.fail_until(2)"
    BREAKS = "def test_breaks_one(self):\n        promises.need(os.path.exists('x') or open('x', 'w').close(), 'no child runs twice')"
    NAMES = "def test_names_one(self):\n        self.assertTrue(os.path.exists('y') or open('y', 'w').close(), 'a promise is broken')"
    PARTLY = "def test_in_part(self):\n        for number in (1, 2):\n            with self.subTest(number=number):\n                self.fail_until(2)"
    SETS_UP = "@classmethod\n    def setUpClass(cls):\n        assert os.path.exists('z') or open('z', 'w').close()\n    def test_a(self): pass\n    def test_b(self): pass"
    SKIPS = "def test_skips(self): self.skipTest('a thing')"
    DIES = "def test_dies(self): os._exit(0)"

    def setUp(self):
        folder = tempfile.TemporaryDirectory()
        self.addCleanup(folder.cleanup)
        self.folder = folder.name

    def put(self, **files):
        for name, tests in files.items():
            with open(os.path.join(self.folder, f"test_{name}.py"), "w") as file:
                file.write(self.FILE.format(name=name.title(), tests="\n    ".join(tests)))

    def told(self, *files):
        """What is told at the end where these files are run as the agent's are: the status and the last lines."""
        program = f"import run; run.TESTS, run.PARTS = '.', {{'some': (60, {list(files)})}}; run.main()"
        done = subprocess.run([sys.executable, "-c", program, "some"], cwd=self.folder, env={**os.environ, "PYTHONPATH": TESTS, "PACE": "10"}, stdin=subprocess.DEVNULL,
                              stdout=subprocess.PIPE, stderr=subprocess.STDOUT, text=True)
        self.whole = done.stdout
        return done.returncode, [line for line in done.stdout.splitlines() if line.startswith(("skipped: ", "unsteady: ")) or line.endswith(" failed")]

    def runs(self, test):
        path = os.path.join(self.folder, "__main__." + test)
        return os.path.getsize(path) if os.path.exists(path) else 0

    def test_what_fails_once_has_passed_and_is_named(self):
        self.put(one=[self.PASSES, self.ONCE], two=[self.PASSES, self.SKIPS])
        self.assertEqual(self.told("one", "two"), (0, ["skipped: some (a thing)", "unsteady: some One.test_fails_once", "3 passed, 0 failed"]))
        self.assertIn("some One.test_fails_once: it failed, and then it passed\n", self.whole)
        self.assertEqual((self.runs("One.test_passes"), self.runs("One.test_fails_once")), (1, 2))

    def test_what_fails_twice_has_failed(self):
        self.put(one=[self.PASSES, self.TWICE, self.PARTLY])
        self.assertEqual(self.told("one"), (1, ["unsteady: some One.test_in_part", "2 passed, 1 failed"]))
        self.assertIn("some One.test_fails_twice: it failed, and then it failed again\n", self.whole)
        self.assertEqual(self.runs("One.test_fails_twice"), 2)

    def test_what_breaks_a_promise_is_not_tried_again(self):
        self.put(one=[self.BREAKS, self.NAMES, self.ONCE])
        self.assertEqual(self.told("one"), (1, ["unsteady: some One.test_fails_once", "1 passed, 2 failed"]))
        self.assertIn("some One.test_breaks_one has failed, and is tried no more: it breaks a promise\n", self.whole)
        self.assertIn("some One.test_names_one has failed, and is tried no more: it breaks a promise\n", self.whole)

    def test_a_class_that_was_not_set_up_is_tried_again_as_a_whole(self):
        self.put(one=[self.SETS_UP])
        self.assertEqual(self.told("one"), (0, ["unsteady: some One", "2 passed, 0 failed"]))

    def test_a_file_that_does_not_come_to_its_end_has_failed(self):
        self.put(one=[self.PASSES, self.DIES], two=[self.PASSES])
        self.assertEqual(self.told("one", "two"), (1, ["1 passed, 1 failed"]))

    def test_one_file_by_itself(self):
        self.put(one=[self.PASSES, self.ONCE, self.BREAKS])
        done = subprocess.run([sys.executable, os.path.join(TOP, "building", "retried.py"), "a part", "test_one.py"], cwd=self.folder, env={**os.environ, "PYTHONPATH": TESTS},
                              stdin=subprocess.DEVNULL, stdout=subprocess.PIPE, text=True)
        self.assertEqual((done.returncode, done.stdout.splitlines()[-2:]), (1, ["unsteady: a part One.test_fails_once", "2 passed, 1 failed"]))

    def test_what_was_awaited_and_breaks_a_promise_then_says_so(self):
        judge = mock.Mock(broken=lambda: ["w1 runs twice"])  # as Machines are
        with mock.patch.object(pulse, "judges", [judge]), self.assertRaisesRegex(promises.Promise, "it runs; w1 runs twice"):
            pulse.until(0.01, lambda: False, "it runs")
        judge.broken = lambda: []
        with mock.patch.object(pulse, "judges", [judge]), self.assertRaises(AssertionError) as late:
            pulse.until(0.01, lambda: False, "it runs")
        self.assertNotIsInstance(late.exception, promises.Promise)


class Looks(unittest.TestCase):
    def look(self, lives):
        """What is seen in one look, where each process lives for so many looks at its environment."""
        def environment(name):
            lives[int(name)] -= 1
            return [b"SEBRAKT_AGENT=/x/a.image", b"SEBRAKT_ID=w", b"SEBRAKT_NODE=" + (b"a" if int(name) == 7 else b"b")] if lives[int(name)] >= 0 else []
        one = watcher.Watcher.__new__(watcher.Watcher)
        one.mark, one.strange_since = b"SEBRAKT_AGENT=/x/", {}
        with mock.patch.object(watcher.leftovers, "environment", environment), mock.patch.object(watcher.os, "listdir", lambda _: ["7", "8", "self"]):
            return one.look()

    def test_who_has_ended_when_a_look_is_over_is_no_second_one(self):
        self.assertEqual(self.look({7: 1, 8: 9}), {"w": {(8, "b")}})

    def test_a_look_is_one_that_was_begun_after_it_was_asked_for(self):
        begun = threading.Event()

        def look(self):
            begun.set()
            time.sleep(0.2)  # who asks now is not told what this one sees
            return {"begun": time.monotonic() - 0.2}
        with mock.patch.object(watcher.Watcher, "look", look):
            one = watcher.Watcher("/x")
            self.addCleanup(one.stop)
            self.assertTrue(begun.wait(60))
            asked = time.monotonic()
            moment, seen = one.now()
            one.held.append(None)
            self.assertEqual(one.now(), one.now())  # of one moment, where several things are asked of it
            one.held.pop()
            self.assertNotEqual(one.now(), one.now())
        self.assertGreaterEqual(moment, asked)
        self.assertGreaterEqual(seen["begun"], asked)

    def test_two_that_live_all_through_a_look_are_two(self):
        self.assertEqual(self.look({7: 9, 8: 9}), {"w": {(7, "a"), (8, "b")}})


if __name__ == "__main__":
    unittest.main()
