"""Runs of children without an agent: what a test begins by a kind of its own, and a loop that it turns."""
import json
import os
import selectors
import shutil
import sys
import tempfile
import time
import unittest

TESTS = os.path.dirname(os.path.abspath(__file__))
sys.path.insert(0, os.path.dirname(TESTS))

import children
import kinds
import leftovers
import logs
import processes
from clock import seconds
from pulse import bound


class OfRuns(unittest.TestCase):
    cgroup, to = None, None  # the folder of the runs' cgroups; where their lines are kept, None for files

    def setUp(self):
        processes.take_orphans()
        self.folder = tempfile.mkdtemp(prefix="sebrakt-runs-")
        os.chmod(self.folder, 0o755)
        self.addCleanup(shutil.rmtree, self.folder, True)
        self.loop, self.said, self.keys, self.ends, self.notes = selectors.DefaultSelector(), [], 0, [], []
        self.addCleanup(self.loop.close)
        self.logs = logs.Logs(self.loop, "a", self.to or self.path("logs"), None, self.say)
        self.addCleanup(self.logs.close)
        self.put({})
        self.children = children.Children("a", 0, kinds.Kinds(self.path("kinds.json"), self.say), self.path("image"), self.cgroup, self.loop, self.logs, self.say)
        self.addCleanup(self.end_all)

    def say(self, *words):
        self.said.append(" ".join(map(str, words)))

    def path(self, name):
        return os.path.join(self.folder, name)

    def read(self, name):
        with open(self.path(name)) as file:
            return file.read()

    def put(self, of_kinds):
        with open(self.path("kinds.json"), "w") as file:
            json.dump(of_kinds, file)
        os.utime(self.path("kinds.json"), (self.keys, self.keys))

    def begin(self, words, ident="web", shutdown="5000", arg="", **keys):
        """Begins a run of a kind with these words and keys. Its key and its process."""
        self.keys += 1
        self.put({"k": {"command": words, **{key.replace("_", "-"): value for key, value in keys.items()}}})
        return self.keys, self.children.begin(self.keys, ident, f"1.{self.keys}", f"k permanent {shutdown} arg={arg}")

    def turn(self):
        for key, events in self.loop.select(0.02):
            key.data(events)
        self.logs.tick(seconds())
        self.ends += self.children.ended()
        self.notes += [note for _, note, _ in self.children.look(seconds(), True)]

    def until(self, holds, what, most=10):
        """Turns the loop until something holds."""
        began = time.monotonic()
        while not holds():
            self.assertLess(time.monotonic() - began, bound(most, began), what)
            self.turn()

    def begin_ready(self, words, **keys):
        """Begins a run, and waits until its program has said `ready`: that it has set its traps."""
        key, process = self.begin(words, **keys)
        self.until(lambda: f"1.{key} ready" in self.lines(keys.get("ident", "web")), "it is ready")
        return key, process

    def end_of(self, key):
        """(status, why it failed) of a run, once it has ended."""
        self.until(lambda: any(one[0] == key for one in self.ends), "it ends")
        return next(one[1:] for one in self.ends if one[0] == key)

    def lines(self, ident="web", count=1000):
        """What is known of the lines of a child, without their moments."""
        known = self.logs.lines(ident, count)
        return [line.split(" ", 1)[1] for line in known["lines"]] if known else []

    def written(self, ident="web"):
        """What stands in the file of a child."""
        try:
            with open(self.logs.path(ident), "rb") as file:
                return file.read()
        except FileNotFoundError:  # it isn't there yet, or is just turned
            return b""

    def end_all(self):
        for key in list(self.children.runs):
            self.children.kill(key)
        leftovers.end(self.path("image"))
        self.until(lambda: not self.children.runs, "all has ended")
