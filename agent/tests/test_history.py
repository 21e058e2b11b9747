"""The last runs of children, by what words tell of them; and what is read of cores."""
import os
import sys
import time
import types
import unittest

sys.path.insert(0, os.path.dirname(os.path.dirname(os.path.abspath(__file__))))

import groups
import history
import watch
from core import told, word
from pulse import PACE


def child(state="running", run="1.1", process=7, restarts=0, last=""):
    return word.Child(state, run, process, restarts, last, None)


class Histories(unittest.TestCase):
    """Of words that tell of one child."""

    def setUp(self):
        self.noted = []
        self.history = history.History(lambda what, machine, **more: self.noted.append((what, machine, more.get("how", more.get("run")))))

    def hear(self, *children, machine="b", is_first=False):
        for now, one in enumerate(children):
            self.history.hear(machine, "x", one, now, is_first and now == 0)
        return [(run.machine, run.number, run.began, run.ended, run.how) for run in self.history.of("x")]

    def test_a_run_begins_and_ends_with_its_times_and_how(self):
        waits = child("waits", "1.2", 0, 1, "status 1")
        self.assertEqual(self.hear(child(), child(), waits, waits, child(run="1.2", process=8, restarts=1, last="status 1")),
                         [("b", "1.1", 0, 2, "status 1"), ("b", "1.2", 4, None, "")])
        self.assertEqual(self.noted, [("begin", "b", "1.1"), ("end", "b", "status 1"), ("begin", "b", "1.2")])

    def test_an_end_of_which_the_node_is_not_told_yet_is_one_end(self):
        over = child(process=0, last="signal 9")
        self.assertEqual(self.hear(child(), over, over, child(run="1.2", process=8, restarts=1, last="signal 9"))[0], ("b", "1.1", 0, 1, "signal 9"))
        self.assertEqual([what for what, _, _ in self.noted], ["begin", "end", "begin"])

    def test_an_end_of_which_the_node_is_told_later_is_one_end_though_its_child_waits(self):
        over, waits = child(process=0, last="signal 9"), child("waits", "1.2", 0, 1, "signal 9")
        self.assertEqual(self.hear(child(), over, waits, waits), [("b", "1.1", 0, 1, "signal 9")])
        self.assertEqual([what for what, _, _ in self.noted], ["begin", "end"])
        self.assertEqual(len(self.hear(child("waits", "1.3", 0, 2, "failed: no kind x"))), 2)

    def test_one_that_was_told_to_end_is_no_crash(self):
        self.assertEqual(self.hear(child(last="status 1"), child("stopping", last="status 1"), None)[0][-1], "told to end")
        self.assertEqual(self.hear(child(last="status 1"), child("waits", "1.1", 0, 0, "status 1"), machine="c")[-1][-1], "told to end")

    def test_a_run_that_fails_before_it_has_a_process_is_told_each_time(self):
        runs = self.hear(child("waits", "1.1", 0, 0, ""), *[child("waits", "1.2", 0, count, "failed: no kind x") for count in (1, 1, 2)])
        self.assertEqual(runs, [("b", "", 1, 1, "failed: no kind x"), ("b", "", 3, 3, "failed: no kind x")])

    def test_what_goes_on_under_another_number_is_one_run(self):
        self.assertEqual(self.hear(child(), child(run="2.1")), [("b", "2.1", 0, None, "")])

    def test_what_ran_before_this_agent_is_no_begin(self):
        self.assertEqual(self.hear(child(), is_first=True), [("b", "1.1", None, None, "")])
        self.assertEqual(self.noted, [])

    def test_a_child_that_runs_elsewhere_has_moved(self):
        self.hear(child(), None)
        self.hear(child(run="1.5"), machine="c")
        self.assertEqual(self.noted[-1], ("move", "c", "1.5"))

    def test_the_last_five_are_kept(self):
        self.hear(*[child(run=f"1.{count}", process=count, restarts=count, last="status 1") for count in range(1, 9)])
        self.assertEqual([run.number for run in self.history.of("x")], ["1.4", "1.5", "1.6", "1.7", "1.8"])

    def test_of_a_machine_that_begins_anew_the_earlier_runs_have_ended(self):
        self.hear(child())
        for _ in self.history.lose("b", {"x": child(run="2.1", process=8)}, 9):
            pass
        self.assertEqual(self.history.of("x")[0].told(), ["b", "1.1", 7, 0, 9, "its agent ended"])

    def test_of_a_machine_whose_agent_is_a_newer_program_runs_go_on(self):
        self.hear(child())
        for _ in self.history.lose("b", {"x": child(run="2.1")}, 9):
            pass
        self.hear(child(run="2.1"))
        self.assertEqual([run.told() for run in self.history.of("x")], [["b", "2.1", 7, 0, None, ""]])

    def test_children_that_are_gone_are_forgotten_once_they_are_many(self):
        for number in range(history.MOST_GONE + 5):
            self.history.hear("b", f"x{number}", child(), 1, False)
        self.history.forget([{"x3": child()}])
        self.assertEqual(list(self.history.runs), ["x3"])


class Watching(unittest.TestCase):
    """What is read of cores, which stand still here."""

    def setUp(self):
        self.told, self.said, self.n = told.Told(), [], 0
        self.core = types.SimpleNamespace(
            sight=types.SimpleNamespace(told={"b": self.told}, words={"b": types.SimpleNamespace(n=0)}), members=types.SimpleNamespace(others=set(), since={"a": 0}))
        self.machines = {"a": ("here", ""), "b": ("in touch", "")}
        group = types.SimpleNamespace(number=0, core=self.core, people=lambda now: types.SimpleNamespace(
            machines=lambda: dict(self.machines), told={"b": self.told.children}))
        agent = types.SimpleNamespace(name="a", groups=[group], log=self.said.append, links=None,
                                      view=types.SimpleNamespace(is_old=lambda: False, losers=[]))
        self.watch = watch.Watch(agent, "mark")
        self.look()

    def look(self, **children):
        self.n += 1
        self.told.take(self.n - 1, children, self.n, 0)
        self.core.sight.words["b"].n, self.watch.at = self.n, 0
        while self.watch.work():
            pass
        return [event for _, event in self.watch.events.others]

    def test_runs_of_others_are_taken_once_each(self):
        for _ in range(3):
            self.look(x=child())
        self.assertEqual([(event["what"], event["id"]) for event in self.look() if "id" in event], [("begin", "x")])

    def test_another_process_of_a_machine_ends_what_the_earlier_one_ran(self):
        self.look(x=child())
        self.told = self.core.sight.told["b"] = told.Told()
        self.look(x=child(run="2.1", process=9))
        self.assertEqual([run.how for run in self.watch.history.of("x")], ["its agent ended", ""])

    def test_another_process_of_a_machine_ends_the_runs_of_that_group_alone_of_which_it_tells(self):
        """The nodes of groups begin one after the other."""
        second = types.SimpleNamespace(sight=types.SimpleNamespace(told={"b": told.Told()}, words={"b": types.SimpleNamespace(n=0)}), members=self.core.members)
        self.watch.agent.groups.append(types.SimpleNamespace(number=1, core=second, people=self.watch.agent.groups[0].people))
        x, y = (next(f"x{number}" for number in range(99) if groups.group_of(f"x{number}", 2) == group) for group in (0, 1))
        second.sight.told["b"].take(0, {y: child(process=8)}, 1, 0)
        self.look(**{x: child()})
        self.told = self.core.sight.told["b"] = told.Told()
        self.look(**{x: child(run="2.1")})
        self.assertEqual([[run.how for run in self.watch.history.of(one)] for one in (x, y)], [[""], [""]])

    def test_machines_that_come_and_go_are_noted_and_logged(self):
        self.core.members.since = {"a": 0, "b": 0}
        self.look()
        self.machines["b"] = "silent", ""
        self.look()
        del self.core.members.since["b"]
        self.machines["b"] = "in touch through others", "begins: waits for a"
        self.look()
        self.machines["b"] = "in touch", ""
        self.look()
        self.assertEqual(self.said, ["b: in touch", "b is a member", "b: silent", "b: in touch", "b: begins", "b is no member any more", "b: nothing hinders it any more"])

    def test_it_takes_little_of_a_turn_however_many_children_are_told_at_once(self):
        self.told.take(self.n, {f"x{number}": child() for number in range(20_000)}, self.n + 1, 0)
        self.core.sight.words["b"].n, self.watch.at, turns = self.n + 1, 0, []
        while True:
            began = time.thread_time()
            is_more = self.watch.work()
            turns.append(time.thread_time() - began)
            if not is_more:
                break
        self.assertLess(sorted(turns)[len(turns) // 2], 4 * watch.PIECE)
        self.assertLess(max(turns), 0.2 * PACE)
        self.assertEqual(len(self.watch.history.runs), 20_000)


if __name__ == "__main__":
    unittest.main()
