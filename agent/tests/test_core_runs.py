#!/usr/bin/env python3
"""The core by hand: runs, the node, and its letters."""
import unittest

from core_machine import START, WAITS, Machine, of

from core import word


class Runs(unittest.TestCase):
    def test_ends_that_wait_for_the_window_wait_for_the_node_too(self):
        machine = Machine(intensity=1)
        machine.answers["start"] = ["ok (a,2)", "  start x 1.2 good permanent 300 arg="]
        machine.wait(0.1)
        machine.ask("start x")
        machine.take("processes", [], [(1, 1, ""), (2, 1, "")])
        machine.take("node_gone", "status 3")
        machine.wait(20)
        self.assertEqual(len([line for line, in of(machine.done, "ask") if line.startswith("exit")]), 1)

    def play(self, status, until=20):
        machine, moments = Machine(), []
        while machine.now < until:
            machine.wait(0.05)
            begun = of(machine.done, "begin")
            machine.done.clear()
            for key, *_ in begun:
                moments.append(round(machine.now))
                machine.ends(key, *status)
        return machine, moments

    def test_a_run_that_is_short_waits_longer_each_time(self):
        self.assertEqual(self.play([1])[1], [0, 0, 1, 3, 7, 15])

    def test_a_child_that_cant_be_begun_waits_as_one_that_ends_and_tells_the_reason(self):
        machine, moments = self.play([None, "no kind good in kinds.json"], 16)
        self.assertEqual(moments, [0, 0, 1, 3, 7, 15])
        self.assertEqual(machine.state_of("w"), "waits 15.2 s, 6 restarts, failed: no kind good in kinds.json")

    def test_a_child_in_another_form_waits_for_nothing(self):
        machine, _ = self.play([1], 8)
        machine.answers["replace"] = ["ok (a,9) removed (a,2)", "  start w 1.9 good permanent 300 arg=new"]
        machine.ask("replace w arg=new")
        machine.wait(0.1)
        self.assertEqual(machine.begun(), ["w"])

    def test_a_child_whose_kind_says_so_waits_at_least_for_its_delay(self):
        machine, moments = Machine(), []
        while machine.now < 30:
            machine.wait(0.05)
            for key, *_ in of(machine.done, "begin"):
                moments.append(round(machine.now))
                machine.take("noted", key, "", 5)
                machine.ends(key, 1)
            machine.done.clear()
        self.assertEqual(moments, [0, 5, 10, 15, 20, 28])  # the last one by the backoff, which is longer then

    def test_what_is_noted_of_a_run_is_told_everywhere_and_ends_with_it(self):
        machine = Machine(["b"])
        machine.meet()
        machine.hear_for(1)
        key, told = of(machine.done, "begin")[0][0], lambda: next(one for one in reversed(machine.said()) if "w" in one.children).children["w"].state
        machine.take("noted", key, "its check failed 1 of 3 times: status 1", 0)
        machine.hear_for(0.5)
        seen = machine.people().child("w", "a")
        self.assertEqual((seen.state, seen.health), ("running", "its check failed 1 of 3 times: status 1"))
        self.assertEqual(told(), "running, its check failed 1 of 3 times: status 1")
        machine.take("noted", key, "", 0)
        machine.hear_for(0.5)
        self.assertEqual(told(), word.RUNNING)
        machine.ends(key, None, "its check failed 3 times: status 1")
        machine.take("noted", key, "ends", 0)  # too late
        self.assertEqual(machine.core.runs.ends["w"][1], "failed: its check failed 3 times: status 1")

    def test_what_waits_elsewhere_is_told_here(self):
        machine = Machine(["b"])
        machine.meet(children={"x": WAITS})
        machine.wait(1.9)
        self.assertEqual(machine.people().child("x", "b"), ("waits 20.5 s, 7 restarts, status 1", 7, "status 1", "waiting", None, 20.5, ""))
        self.assertEqual((machine.state_of("y", None), machine.state_of("y", "b"), machine.state_of("y", "z")), ("not placed", "not ordered yet", "z: not heard yet"))

    def test_a_node_that_does_not_answer_makes_its_machine_neither_mute_nor_deaf(self):
        machine = Machine(["b"])
        machine.meet()
        machine.is_quick = False
        before = machine.core.telling.n
        machine.take("command", 1, "start x")
        machine.hear_for(1.9)
        self.assertGreater(machine.core.telling.n, before + 3)
        self.assertEqual(of(machine.done, "kill node"), [])
        machine.hear_for(0.5)
        self.assertEqual(len(of(machine.done, "kill node")), 1)
        machine.take("node_gone", -9)
        self.assertEqual(of(machine.done, "reply")[-1], (1, ["no node"]))

    def test_each_node_that_does_not_answer_gives_the_next_one_twice_the_time(self):
        machine, waited, begun = Machine(answers=False), [], 0
        for boot in range(3, 7):
            while not of(machine.done, "kill node"):
                machine.wait(0.1)
            waited.append(int(machine.now - begun))
            machine.done.clear()
            machine.take("node_gone", -9)
            machine.take("node_began", [f"ok boot {boot}", START])
            begun = machine.now
        self.assertEqual(waited, [2, 4, 8, 16])

    def test_many_processes_may_begin_and_end_at_once(self):
        machine = Machine()
        machine.wait(0.1)
        machine.take("processes", [(1, 77)], [(1, None, "no kind good in kinds.json")])
        self.assertEqual((machine.begun(), machine.core.runs.ends["w"][1]), (["w", "w"], "failed: no kind good in kinds.json"))

    def test_a_child_that_ends_for_good_while_its_node_is_away_does_not_run_again(self):
        form = "good transient 300 arg="
        for is_told in (False, True):
            machine = Machine()
            machine.wait(0.1)
            machine.answers.update({"start": ["ok (a,2)", "  start t 1.2 " + form], "exit": ["ok finished (a,2)"]})
            machine.ask("start t")
            machine.wait(0.1)
            machine.is_quick, key = False, of(machine.done, "begin")[-1][0]
            happens = [("processes", [], [(key, 0, "")]), ("node_gone", "signal 9")]
            for what in happens if is_told else reversed(happens):
                machine.take(*what)
            machine.is_quick, machine.done = True, []
            machine.take("node_began", ["ok boot 3", "  start w 3.1 good permanent 300 arg=", "  start t 3.2 " + form])
            machine.wait(1)
            self.assertEqual(([line for line, in of(machine.done, "ask") if line.startswith("exit")], machine.begun()), (["exit t 3.2 normal @0"], []))


class Letters(unittest.TestCase):
    def sent(self, text):
        """How many letters of this text leave in two seconds of commands, each of which is acknowledged at once."""
        machine = Machine(["b"])
        machine.meet()
        machine.answers.update({"ship": ["ok sent", "  send b " + text], "start": ["ok (a,2)"], "deliver": ["ok acked"]})
        machine.wait(1)
        machine.done.clear()
        for _ in range(100):
            machine.ask("start x")
            machine.take("letter", "b", (1, "b's"), "{}")
            machine.hear()
            machine.wait(0.02)
        return len(of(machine.done, "letter"))

    def test_a_long_letter_is_followed_by_none_for_as_long_as_it_is_worth(self):
        self.assertIn(self.sent("x" * (1 << 16)), range(7, 10))

    def test_a_short_letter_is_followed_by_the_next_one_at_once(self):
        self.assertGreaterEqual(self.sent("x"), 100)

    def test_who_leaves_goes_once_the_others_have_acknowledged_that(self):
        """Else they wait until it is silent for long before they take its children over."""
        machine = Machine(["b"])
        machine.meet()
        machine.wait(1)
        machine.answers.update({"drain": ["ok (a,3) removed (a,1)", "  stop w 1.1"], "leave": ["ok removed (a,3)"]})
        machine.take("stop")
        machine.ends(1, -15)
        machine.wait(0.5)
        self.assertEqual((of(machine.done, "left"), machine.said()[-1].state), ([], word.LEFT))
        machine.hear()
        asked = [action for action in machine.done if action in (("ask", "leave a"), ("ask", "ship b"), ("left",))]
        until = asked.index(("left",))
        self.assertEqual(asked[until - 2:until], [("ask", "leave a"), ("ask", "ship b")])  # the answer is that it has all

    def test_behind_many_commands_at_once_the_node_is_asked_for_one_letter(self):
        machine = Machine(["b"])
        machine.meet()
        machine.wait(1)
        machine.is_quick = False
        machine.answers["start"] = ["ok (a,2)"]
        machine.done.clear()
        for number in range(64):
            machine.take("command", number, f"start x{number}")
        for number in range(64):
            machine.take("answered", [["ok (a,2)"]])
        self.assertEqual([line for line, in of(machine.done, "ask")][64:], ["members", "ship b"])
        machine.take("answered", [machine.answers["members"]])
        machine.take("answered", [["refused 12 UpToDate"]])
        self.assertEqual([line for line, in of(machine.done, "ask")][66:], ["members", "ship b"])  # what changed behind the first of the commands


class Jobs(unittest.TestCase):
    """Ends of which no node has answered."""

    def test_a_job_that_ends_while_there_is_no_node_begins_no_second_time(self):
        machine = Machine(answers=False)
        machine.core.runs.waiting["w"] = "1.1", "good temporary 300 arg="
        machine.is_quick = True
        machine.answers["exit"] = ["ok finished (a,2)"]
        machine.take("answered", [machine.answer(line) for line, in of(machine.done, "ask")])
        machine.wait(0.1)
        machine.take("node_gone", "signal 9")
        machine.ends(1, 0)
        machine.take("node_began", ["ok boot 3", START.replace("1.1", "3.1").replace("permanent", "temporary")])
        machine.wait(20)
        self.assertEqual((machine.begun(), [line for line, in of(machine.done, "ask") if line.startswith("exit")]), (["w"], ["exit w 3.1 normal @0"]))

    def test_an_end_whose_answer_never_came_is_told_the_next_node(self):
        machine = Machine()
        machine.wait(0.1)
        machine.is_quick = False
        machine.ends(1, 1)
        machine.take("node_gone", "signal 9")
        machine.is_quick = True
        machine.take("node_began", ["ok boot 3", START.replace("1.1", "3.1")])
        self.assertEqual([line.split(" ")[2] for line, in of(machine.done, "ask") if line.startswith("exit")], ["1.1", "3.1"])

    def test_an_end_for_which_the_node_has_no_memory_is_told_it_again(self):
        machine = Machine()
        machine.wait(0.1)
        machine.answers["exit"] = ["refused 19 OutOfMemory"]
        machine.ends(1, 1)
        machine.wait(4)
        machine.answers["exit"] = ["ok restarted", START.replace("1.1", "1.2")]
        machine.wait(4)
        self.assertEqual(machine.begun(), ["w", "w"])


if __name__ == "__main__":
    unittest.main()
