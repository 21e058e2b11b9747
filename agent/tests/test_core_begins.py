#!/usr/bin/env python3
"""The core by hand: when a machine begins, and when it stops."""
import types
import unittest

from core_machine import OPTIONS, RUNS, START, Machine, of

from core import core, word

LATER = {"a": ((7, "an earlier mark"), 70)}  # that somebody has heard a process of a with a later boot


class Begins(unittest.TestCase):
    def test_who_is_alone_begins_at_once(self):
        machine = Machine(boot=1)
        machine.wait(0.1)
        self.assertEqual((machine.begun(), machine.state_of("w")), (["w"], "running"))

    def test_nothing_begins_before_another_machine_has_told_or_the_grace_is_over(self):
        machine = Machine(["b"])
        machine.wait(2.9)
        self.assertEqual(machine.begun(), [])
        self.assertEqual(machine.ask("start x"), ["not yet: begins: waits for b"])
        self.assertEqual(machine.ask("show"), ["refused 12 UpToDate"])  # the node's own answer
        machine.wait(0.2)
        self.assertEqual((machine.begun(), machine.ask("start x")), (["w"], ["refused 12 UpToDate"]))

    def test_what_another_machine_runs_begins_once_it_has_ended_there(self):
        machine = Machine(["b"])
        machine.meet(children={"w": RUNS})
        machine.hear_for(3, children={"w": RUNS})
        self.assertEqual((machine.begun(), machine.state_of("w")), ([], "held back by b, which runs it"))
        machine.hear()
        self.assertEqual(machine.begun(), ["w"])

    def test_an_echo_of_what_was_never_said_is_no_leave(self):
        machine = Machine(["b"])
        machine.take("link", "b", True)
        machine.core.hold.whole |= {"b"}
        for _ in range(10):
            machine.hear(heard={"a": (machine.core.sight.session, 1 << 40)})
            machine.wait(0.25)
        self.assertEqual((machine.begun(), machine.core.sight.echo["b"]), ([], 0))
        machine.meet()
        self.assertEqual(machine.begun(), ["w"])

    def test_who_has_left_is_not_waited_for(self):
        machine = Machine(["b"])
        machine.meet()
        machine.hear(state=word.LEFT)
        machine.answers["start"] = ["ok (a,2)", "  start x 1.2 good permanent 300 arg="]
        machine.ask("start x")
        self.assertEqual(machine.begun(), ["w", "x"])

    def test_who_has_left_is_told_at_once_that_this_is_heard(self):
        machine = Machine(["b"])
        machine.meet()
        machine.wait(0.1)
        before = len(machine.said())
        machine.hear(state=word.LEFT)
        machine.wait(0.05)
        self.assertGreater(len(machine.said()), before)

    def test_who_is_deaf_is_waited_for_while_it_may_answer_yet(self):
        machine = Machine(["b"])
        machine.core.hold.whole |= {"b"}
        machine.hear_for(6, heard={})
        self.assertEqual(machine.begun(), [])  # alone with one that is deaf it is mute itself: that one runs all
        self.assertIn(("leave a",), of(machine.done, "ask"))

    def test_who_begins_beside_one_that_does_not_hear_it_waits_for_all_that_this_one_knows(self):
        machine = Machine(["b"])
        machine.hear_for(20, heard={})
        self.assertEqual((machine.begun(), machine.ask("start x")), ([], ["not yet: " + word.WHY[word.UNHEARD] + ": waits for b"]))
        machine.take("link", "b", True)
        machine.hear()
        self.assertEqual((machine.begun(), machine.core.state), ([], word.BEGINS))  # it hears now, and can tell
        machine.answers["deliver"] = ["ok absorbed"]
        machine.take("letter", "b", (1, "b's"), "whole {}")
        machine.hear_for(1)
        self.assertEqual(machine.begun(), ["w"])

    def test_who_begins_beside_one_that_it_does_not_name_goes_on_once_that_one_has_heard_it(self):
        machine = Machine(["b"])
        machine.take("link", "b", True)
        machine.core.hold.whole |= {"b"}
        states = set()
        for _ in range(8):  # c comes by b, and can't send what it knows
            machine.hear("c", whole=frozenset())
            machine.hear()
            machine.wait(0.25)
            states.add(machine.core.state)
        self.assertEqual((machine.begun(), states), (["w"], {word.BEGINS, ""}))

    def test_who_names_nobody_and_has_met_others_waits_for_those_that_may_come(self):
        for seen, began_before in (["vector a 1", "vector b 3"], []), (["vector a 1"], ["w"]):
            machine = Machine([], answers=False)
            machine.answers["inspect"] = ["node a boot 2", *seen]
            machine.is_quick = True
            machine.take("answered", [machine.answer(line) for line, in of(machine.done, "ask")])
            machine.wait(2.9)
            self.assertEqual(machine.begun(), began_before, seen)
            machine.wait(0.3)
            self.assertEqual(machine.begun(), ["w"], seen)

    def test_who_was_taken_out_meanwhile_is_waited_for(self):
        machine = Machine(["b", "c"])
        machine.core.members.peers.clear()  # its image alone told of them
        machine.take("link", "b", True)
        machine.hear()
        machine.answers["deliver"], machine.answers["members"] = ["ok absorbed"], [f"member {one} ({one},1) label=x" for one in "ab"]
        machine.take("letter", "b", (1, "b's"), "whole {}")
        machine.hear_for(2)
        self.assertEqual((machine.core.members.others, machine.begun()), ({"b"}, []))
        machine.hear_for(1.2)
        self.assertEqual(machine.begun(), ["w"])

    def test_who_does_not_hear_a_machine_that_began_is_waited_for_no_longer_once_it_is_silent(self):
        machine = Machine(["b"])
        machine.hear_for(5, heard={})
        machine.wait(3.5)
        self.assertEqual((machine.begun(), machine.core.state), (["w"], ""))

    def test_others_take_over_from_one_that_is_not_heard_by_all_that_it_hears(self):
        machine = Machine(["b", "c"])
        machine.meet("c")
        for _ in range(20):
            machine.hear("b", heard={})
            machine.hear("c", claims=frozenset("w"))
            machine.wait(0.25)
        self.assertEqual((machine.begun(), machine.core.state), ([], word.UNHEARD))

    def test_letters_of_a_machine_are_taken_behind_its_whole_state(self):
        machine = Machine(["b"])
        machine.take("link", "b", True)
        machine.hear()
        machine.answers["deliver"] = ["ok absorbed"]
        for text in ("{}", "whole {}", "{}"):
            machine.take("letter", "b", (1, "b's"), text)
        self.assertEqual([line for line, in of(machine.done, "ask") if line.startswith("deliver")], ["deliver {}"] * 2)

    def test_who_hears_a_machine_straight_no_more_tells_so_at_once(self):
        machine = Machine(["b", "c"])
        machine.meet()
        machine.meet("c")
        machine.hear()
        machine.hear("c")
        machine.wait(0.05)
        for _ in range(12):
            machine.hear("c")
            machine.wait(0.125)
        told = [one for one in machine.said("c") if one.sees == frozenset("c")]
        self.assertEqual((machine.said("c")[-1].sees, len(told)), (frozenset("c"), 1))

    def test_a_boot_that_was_given_before_is_told_as_an_old_image(self):
        machine = Machine(["b"], boot=4)
        machine.take("link", "b", True)
        machine.hear(heard={"a": ((4, "an earlier mark"), 70)})
        self.assertEqual(machine.ask("start x"), ["not yet: its image is lost or old: waits for b"])
        self.assertIn("an earlier process had this boot", str(of(machine.done, "log")))


    def test_a_node_that_ends_before_its_first_answer_is_looked_at_when_it_begins_again(self):
        machine = Machine(answers=False)
        machine.take("node_gone", -9)
        machine.is_quick = True
        machine.take("node_began", ["ok boot 3", START])
        machine.wait(0.1)
        self.assertEqual(machine.begun(), ["w"])

    def test_who_was_silent_itself_begins_nothing_by_the_leave_of_the_first_that_answers(self):
        machine = Machine(["b", "c"])
        machine.meet()
        machine.meet("c")
        machine.take("node_gone", -9)
        for _ in range(40):
            machine.hear()
            machine.hear("c", children={"w": RUNS})
            machine.wait(0.25)
            if of(machine.done, "term"):
                machine.ends(1, -15)
        heard_of_c = {"a": (machine.core.sight.session, machine.core.telling.n)}
        machine.take("node_began", ["ok boot 3", START.replace("1.1", "3.1")])
        machine.done.clear()
        for _ in range(4):
            machine.hear()
            machine.hear("c", children={"w": RUNS}, heard=heard_of_c)
            machine.wait(0.25)
        self.assertEqual(machine.begun(), [])

    def test_who_joins_again_is_given_the_time_to_be_heard(self):
        machine = Machine(["b"])
        machine.meet()
        machine.wait(10)
        self.assertIn(("leave b",), of(machine.done, "ask"))
        machine.answers["members"] = ["member a (a,1) label=x"]
        machine.answers["deliver"] = ["ok absorbed"]
        machine.take("letter", "b", (1, "b's"), "{}")
        machine.done.clear()
        machine.answers["members"].append("member b (b,2) label=x")  # the cut ends, and its letter is here before its word
        machine.take("letter", "b", (1, "b's"), "{}")
        machine.wait(2.9)
        self.assertNotIn(("leave b",), of(machine.done, "ask"))
        machine.wait(1)
        self.assertIn(("leave b",), of(machine.done, "ask"))

    def test_the_whole_state_is_sent_to_who_takes_letters_of_this_machine(self):
        machine = Machine(["b"])
        machine.take("link", "b", True)
        machine.hear(heard={}, whole=frozenset())
        self.assertNotIn(("image",), of(machine.done, "ask"))
        machine.hear(whole=frozenset())
        self.assertIn(("image",), of(machine.done, "ask"))


class NewImages(unittest.TestCase):
    def test_a_new_image_beside_silent_peers_waits_for_the_word_of_a_person(self):
        machine = Machine(["b"], boot=1)
        machine.wait(60)
        self.assertEqual(machine.begun(), [])
        self.assertIn("its image is empty, and no peer is heard", machine.ask("start x")[0])
        self.assertEqual(machine.ask("begin alone"), ["ok begins alone"])
        self.assertEqual(machine.begun(), ["w"])

    def test_it_waits_as_long_when_its_agent_begins_again(self):
        machine = Machine(["b"], boot=1)
        again = Machine(["b"], boot=2)
        again.answers["inspect"] = machine.answers["inspect"]
        again.core = core.Core("a", "another mark", again.core.options, ["b"], 0)
        again.take("node_began", ["ok boot 2", START])
        again.wait(60)
        self.assertEqual(of(again.done, "begin"), [])

    def test_a_new_image_begins_where_the_command_line_says_alone(self):
        machine = Machine(["b"], boot=1, alone=True)
        machine.wait(3.1)
        self.assertEqual(machine.begun(), ["w"])

    def test_new_machines_begin_as_soon_as_they_have_heard_one_another(self):
        machine = Machine(["b"], boot=1)
        machine.wait(0.5)
        machine.meet(state=word.EMPTY)
        self.assertEqual(machine.begun(), ["w"])
        self.assertLess(machine.now, 1)

    def test_a_new_image_begins_after_the_grace_where_nobody_knows_the_machines(self):
        machine = Machine(None, boot=1)
        machine.wait(2.9)
        self.assertEqual(machine.begun(), [])
        machine.wait(0.2)
        self.assertEqual(machine.begun(), ["w"])


    def test_who_stops_before_it_knows_what_others_know_of_it_says_nothing_to_its_node(self):
        for machine in Machine(["b"], boot=1), Machine(["b"], boot=4):
            machine.take("link", "b", True)
            machine.hear(heard={"a": ((4, "an earlier mark"), 70)})
            machine.take("stop")
            machine.wait(10)
            self.assertTrue(of(machine.done, "left"))
            self.assertEqual([line for line, in of(machine.done, "ask") if line[:5] in ("drain", "leave")], [])

    def test_who_stops_while_it_begins_waits_for_that_and_leaves(self):
        machine = Machine(["b"])
        machine.take("stop")
        machine.wait(2)
        self.assertFalse(of(machine.done, "left"))
        machine.wait(4)
        self.assertTrue(of(machine.done, "left"))
        self.assertEqual([line for line, in of(machine.done, "ask") if line[:5] in ("drain", "leave")], ["drain a", "leave a"])


class Sessions(unittest.TestCase):
    """A process says which image and begin it is by a session, of which the greatest counts."""

    def test_who_took_the_place_of_a_later_boot_is_later_than_that_when_it_begins_again(self):
        machine = Machine(["b"], boot=2)
        machine.take("link", "b", True)
        for _ in range(14):
            machine.hear(heard=LATER)
            machine.wait(0.25)
        self.assertEqual((machine.core.sight.session[0], of(machine.done, "keep ahead")), (8, [(6,)]))
        again = core.Core("a", "another mark", types.SimpleNamespace(**OPTIONS), ["b"], 0, ahead=6)
        again.node_began(["ok boot 3", START], 0)
        self.assertEqual(again.sight.session[0], 9)

    def test_a_node_that_begins_late_makes_no_image_an_old_one(self):
        machine = Machine(["b"], boot=8)
        machine.core = core.Core("a", "another mark", machine.core.options, ["b"], 0)
        for _ in range(20):
            machine.hear(heard=LATER)
            machine.wait(0.25)
        machine.take("node_began", ["ok boot 8", START])
        self.assertNotIn("lost or old", str(of(machine.done, "log")))
        self.assertEqual(machine.core.sight.session[0], 8)


if __name__ == "__main__":
    unittest.main()
