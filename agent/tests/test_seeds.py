"""Machines that name one or two others alone, and learn of the rest by the labels of members."""
import unittest

from machines import Machines
from pulse import until


class Seeded(Machines):
    """Machines of which each names as its peers these alone."""

    def __init__(self, names, seeds, **options):
        self.seeds = seeds
        super().__init__(names, **options)

    def words(self, name):
        words, kept = super().words(name), []
        for word in words:
            if kept and kept[-1] == "--peer" and word.split("=")[0] not in self.seeds[name]:
                kept.pop()
            else:
                kept.append(word)
        return kept


class Seeds(unittest.TestCase):
    def machines(self, names, seeds, **options):
        machines = Seeded(names, seeds, **options)
        self.addCleanup(machines.end)
        return machines

    def until_members(self, machines, at, names):
        for name in at:
            until(60, lambda: machines.members(name) == names, f"{name} knows {names}")

    def test_who_names_one_is_known_to_all_and_outlives_that_one(self):
        machines = self.machines(["a", "b", "c", "d"], {"a": [], "b": ["a"], "c": ["a"], "d": ["b"]})
        machines.begin("a", "b", "c")
        self.until_members(machines, "abc", ["a", "b", "c"])
        machines.begin("d")  # nobody's words name it
        self.until_members(machines, "abcd", ["a", "b", "c", "d"])
        machines.kill("a")
        self.until_members(machines, "bcd", ["b", "c", "d"])
        machines.kill("d")
        self.until_members(machines, "bc", ["b", "c"])
        machines.begin("d")
        self.until_members(machines, "bcd", ["b", "c", "d"])

    def test_who_comes_back_while_its_peer_is_away_reaches_the_others_by_its_image(self):
        machines = self.machines(["a", "b", "c"], {"a": [], "b": ["a"], "c": ["a"]})
        machines.begin("a", "b", "c")
        self.until_members(machines, "abc", ["a", "b", "c"])
        machines.kill("c")
        machines.kill("a")
        self.until_members(machines, "b", ["b"])
        machines.begin("c")
        self.until_members(machines, "bc", ["b", "c"])

    def test_without_a_secret_nothing_is_learned(self):
        machines = self.machines(["a", "b"], {"a": [], "b": ["a"]}, secret=False)
        machines.begin("a", "b")
        until(20, lambda: "no line of a machine of this cluster" in machines.log("a"), "a refuses b")


if __name__ == "__main__":
    unittest.main()
