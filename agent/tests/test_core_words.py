#!/usr/bin/env python3
"""The core by hand: words, and what of them is told to whom."""
import random
import unittest

from core_machine import RUNS, WAITS, Machine

from core import told, word


class Words(unittest.TestCase):
    def test_words_are_read_as_they_were_written(self):
        one = word.Word("b", (3, "m"), 5, "old", "1 group", 4, {"w": RUNS, "x": None, "y": WAITS}, frozenset("x"), {"a": ((1, "k"), 9)}, frozenset("a"), frozenset())
        self.assertEqual(word.words_of(word.text_of([one, one])), (one, one))
        for text in ("", "{}", "[1]", '[["b",[1,2],1,"","",0,{},[],{},[],[]]]', "[" * 10_000, '[["b",[1,"m"],1,"","",0,{"w":["running"]},[],{},[],[]]]'):
            self.assertEqual(word.words_of(text), ())

    def test_a_word_with_a_number_that_no_agent_counts_to_is_none(self):
        def said(n=5, base=4, epoch=3, heard=9, due=22.5):
            children = {"w": word.Child("waits", "1.1", 0, 7, "status 1", due)}
            return word.text_of([word.Word("b", (epoch, "m"), n, "", "1 group", base, children, frozenset(), {"a": ((1, "k"), heard)}, frozenset(), frozenset())])
        self.assertEqual(len(word.words_of(said())), 1)
        for wrong in ({"n": -1}, {"n": 10**400}, {"base": -1}, {"base": 6}, {"epoch": -1}, {"epoch": 10**400}, {"due": 10**400}, {"due": -1},
                      {"due": float("nan")}, {"due": float("inf")}):
            self.assertEqual(word.words_of(said(**wrong)), (), wrong)
        for wrong in -1, 10**400:
            self.assertEqual(word.words_of(said(heard=wrong))[0].heard, {})

    def test_a_word_tells_what_has_changed_since_the_last_that_was_heard_and_nothing_else(self):
        machine = Machine(["b"])
        machine.meet()
        machine.hear()
        machine.wait(0.6)
        self.assertEqual((machine.said()[-1].children, machine.core.telling.told.children["w"].state), ({}, "running"))
        deaf = dict(heard={"a": (machine.core.sight.session, machine.core.telling.n)})
        machine.take("processes", [(1, 77)], [])
        for _ in range(4):
            machine.hear(**deaf)
            machine.wait(0.5)
            self.assertEqual(machine.said()[-1].children, {"w": word.Child("running", "1.1", 77, 0, "", None)})  # until it is heard
        machine.hear()
        machine.wait(0.6)
        self.assertEqual(machine.said()[-1].children, {})

    def test_who_begins_anew_is_told_all(self):
        machine = Machine(["b"])
        machine.meet()
        machine.wait(0.6)
        machine.take("link", "b", False)
        machine.take("link", "b", True)
        machine.wait(0.1)
        self.assertEqual((machine.said()[-1].base, list(machine.said()[-1].children)), (0, ["w"]))

    def test_all_in_touch_are_told_the_same_word(self):
        machine = Machine(["b", "c"])
        machine.meet()
        machine.meet("c")
        machine.hear()
        machine.wait(1)
        self.assertIs(machine.said()[-1], machine.said("c")[-1])

    def test_a_word_that_builds_on_what_is_not_known_is_no_word(self):
        machine = Machine(["b"])
        machine.hear(base=5, n=9)
        self.assertEqual(machine.core.sight.words, {})

    def test_changes_may_be_told_in_any_steps(self):
        """Whatever words are lost, who has heard the last one knows all children as they are."""
        chance, source = random.Random(1), told.Told()
        receivers = [(told.Told(), [0]) for _ in range(3)]
        for n in range(1, 400):
            change = {f"w{chance.randrange(20)}": chance.choice([RUNS, None]) for _ in range(chance.randrange(4))}
            source.take(n - 1, change, n, n)
            source.forgotten = max(source.forgotten, n - 30 if n % 50 == 0 else 0)
            for receiver, heard in receivers:
                if chance.random() < 0.2:
                    base, children = source.since(chance.choice(heard), n)
                    receiver.take(base, children, n, n)
                    heard.append(n)
                    del heard[:-2]
                    self.assertEqual(receiver.children, source.children)


if __name__ == "__main__":
    unittest.main()
