#!/usr/bin/env python3
"""The core by hand: other settings and secrets, and full disks."""
import unittest

from core_machine import KEEPS_NOTHING, WAITS, Machine, of

from core import word


class Strangers(unittest.TestCase):
    def test_who_has_another_setting_than_those_that_were_there_runs_nothing_and_says_why(self):
        machine = Machine(["b"])
        machine.hear_for(5, setting="2 groups")
        self.assertEqual((machine.begun(), machine.ask("start x")), ([], ["not yet: " + word.WHY[word.SETTING]]))
        self.assertEqual(machine.people().machines()["b"][0], "another setting: 2 groups")
        self.assertEqual(machine.ask("begin alone"), ["not yet: " + word.WHY[word.SETTING]])
        machine.meet()
        self.assertEqual(machine.begun(), ["w"])  # the other one has this setting now

    def test_who_was_there_goes_on_beside_one_with_another_setting(self):
        machine = Machine(["b"], name="c")
        machine.wait(3.1)
        machine.hear_for(5, setting="2 groups", state=word.BEGINS)
        machine.now += 10
        machine.hear_for(5, setting="2 groups", state=word.BEGINS)
        self.assertEqual((machine.core.state, len(machine.begun()), of(machine.done, "term")), ("", 1, []))

    def test_a_stranger_that_has_left_hinders_nobody(self):
        machine = Machine(["b"], name="c")
        machine.hear_for(5, setting="2 groups")
        self.assertEqual((machine.core.state, machine.begun()), (word.SETTING, []))
        machine.hear(setting="2 groups", state=word.LEFT)
        machine.wait(5)
        self.assertEqual((machine.core.state, machine.begun()), ("", ["w"]))

    def behind_a_dead_stranger(self):
        machine = Machine(["b"])
        machine.hear_for(5, setting="2 groups")
        machine.wait(7)
        return machine

    def test_strangers_that_died_count_no_more(self):
        machine = self.behind_a_dead_stranger()
        self.assertEqual((machine.core.state, machine.begun()), (word.LATER, ["w"]))
        self.assertNotIn("not yet", machine.ask("start x")[0])

    def test_who_goes_on_in_place_of_silent_strangers_gives_way_when_they_come_back(self):
        machine = self.behind_a_dead_stranger()
        machine.hear(setting="2 groups")
        self.assertEqual((machine.core.state, of(machine.done, "term")), (word.SETTING, [(1,)]))

    def test_who_was_there_goes_on_beside_one_that_took_it_for_dead(self):
        machine = Machine(["a"], name="b")
        machine.wait(3.1)
        machine.hear_for(5, sender="a", setting="2 groups", state=word.LATER)
        self.assertEqual((machine.core.state, of(machine.done, "term")), ("", []))

    def test_an_old_word_of_a_stranger_that_is_told_again_is_no_sign_of_life(self):
        machine, n = Machine(["b"]), 7
        machine.hear(setting="2 groups", n=n)
        for _ in range(40):
            machine.hear(setting="2 groups", n=n)
            machine.wait(0.25)
        self.assertEqual(machine.begun(), ["w"])

    def test_the_dead_of_this_machines_setting_count_no_more_either(self):
        machine = Machine(["a", "d"], name="c")
        machine.wait(3.1)
        machine.meet("d")
        machine.hear("a", setting="2 groups")
        self.assertEqual(machine.core.state, "")
        machine.hear_for(4, sender="a", setting="2 groups")
        self.assertEqual((machine.core.state, of(machine.done, "term")), (word.SETTING, [(1,)]))

    def test_a_stranger_is_sent_neither_letters_nor_children(self):
        machine = Machine(["b"])
        machine.wait(3.1)
        machine.take("link", "b", True)
        machine.hear(setting="2 groups", state=word.BEGINS)
        machine.done.clear()
        machine.core.letters.change()
        machine.wait(1)
        self.assertEqual({len(one.children) for one in machine.said()}, {0})
        self.assertNotIn(("ship b",), of(machine.done, "ask"))

    def test_of_two_settings_that_begin_at_once_the_one_of_the_least_name_goes_on(self):
        for name, other, state in ("a", "b", ""), ("c", "b", word.SETTING):
            machine = Machine([other], name=name)
            machine.hear_for(4, sender=other, setting="2 groups", state=word.BEGINS)
            self.assertEqual(machine.core.state, state)

    def test_of_two_settings_that_were_there_both_the_one_of_more_machines_goes_on(self):
        for setting, state in ("1 group", ""), ("2 groups", word.SETTING):
            machine = Machine(["a", "b"], name="c")
            machine.wait(3.1)
            machine.hear("b", setting=setting)
            machine.hear("a", setting="2 groups")
            self.assertEqual((machine.core.state, of(machine.done, "term")), (state, [(1,)] if state else []))

    def test_who_hears_nobody_and_finds_lines_of_another_secret_runs_nothing_until_a_right_one_comes(self):
        machine = Machine(["b"])
        machine.take("unsealed", "b")
        machine.wait(60)
        self.assertEqual((machine.begun(), machine.ask("start x")), ([], ["not yet: " + word.WHY[word.SECRET]]))
        self.assertEqual(machine.people().machines()["b"][0], "sealed by another secret")
        machine.meet()
        self.assertEqual(machine.begun(), ["w"])

    def test_who_was_there_goes_on_beside_a_peer_with_another_secret_though_it_was_held(self):
        for name, other in ("a", "b"), ("b", "a"):
            machine = Machine([other], name=name)
            machine.wait(3.1)
            machine.take("unsealed", other)
            machine.now += 10
            machine.wait(5)
            self.assertEqual((machine.core.state, of(machine.done, "term")), ("", []))
            self.assertIn("held for", str(of(machine.done, "log")))
            self.assertIn(("the lines of", other, "are sealed by another secret"), of(machine.done, "log"))

    def test_a_person_may_say_that_another_secret_at_a_peers_address_is_no_hindrance(self):
        machine = Machine(["b"])
        machine.take("unsealed", "b")
        machine.wait(5)
        self.assertEqual((machine.begun(), machine.ask("begin alone"), machine.begun()), ([], ["ok begins alone"], ["w"]))

    def test_who_is_alone_among_several_with_another_secret_runs_nothing(self):
        machine = Machine(["b", "c"])
        machine.wait(3.1)
        machine.take("unsealed", "b")
        machine.take("unsealed", "c")
        self.assertEqual((machine.core.state, of(machine.done, "term")), (word.SECRET, [(1,)]))

    def test_at_a_server_lines_of_another_secret_hinder_who_begins_and_nobody_who_was_there(self):
        """Anybody may write there, and in any name."""
        beginning, there = Machine(None), Machine(None)
        there.wait(3.1)
        for machine in beginning, there:
            machine.take("unsealed", "b")
            machine.take("unsealed", "c")
            machine.wait(60)
        self.assertEqual([(machine.core.state, machine.begun()) for machine in (beginning, there)], [(word.SECRET, []), ("", ["w"])])
        self.assertEqual((beginning.ask("begin alone"), beginning.begun(), of(there.done, "term")), (["ok begins alone"], ["w"], []))

    def test_who_has_heard_a_right_line_goes_on_beside_a_peer_with_another_secret(self):
        machine = Machine(["b", "c"])
        machine.meet()
        machine.take("unsealed", "c")
        machine.hear_for(4)
        self.assertEqual((machine.begun(), machine.core.state), (["w"], ""))


class FullDisks(unittest.TestCase):
    def full(self):
        machine = Machine(["b"])
        machine.meet()
        machine.answers["deliver"] = KEEPS_NOTHING
        for _ in range(8):
            machine.take("letter", "b", (1, "b's"), "{}")
            machine.hear_for(0.5)
        return machine

    def test_who_can_keep_no_letter_says_so_and_runs_what_nobody_takes_over(self):
        machine = self.full()
        self.assertEqual((machine.said()[-1].state, machine.state_of("w"), of(machine.done, "term")), (word.FULL, "running", []))
        key, = [key for key, *_ in of(machine.done, "begin")]
        machine.ends(key, -9)
        self.assertEqual(machine.begun(), ["w", "w"])

    def test_a_child_of_a_full_machine_ends_once_another_one_claims_it(self):
        machine = self.full()
        machine.hear(claims=frozenset("w"), children={"w": WAITS})
        self.assertEqual(of(machine.done, "term"), [(1,)])
        machine.ends(1, -15)
        machine.hear_for(1, children={"w": WAITS})
        self.assertEqual(machine.begun(), ["w"])  # it is the other one's now, though this machine's node can't know

    def test_a_full_machine_is_taken_out_and_one_that_has_room_again_comes_back(self):
        machine = self.full()
        other = Machine(["a"], name="b")
        other.meet("a", state=word.FULL)
        other.wait(1)
        self.assertIn(("leave a",), of(other.done, "ask"))
        machine.answers["deliver"] = ["ok absorbed"]
        machine.take("letter", "b", (1, "b's"), "{}")
        self.assertEqual(machine.core.state, "")

    def test_an_end_that_the_node_cannot_keep_is_told_it_again(self):
        machine = Machine()
        machine.wait(0.1)
        machine.answers["exit"] = KEEPS_NOTHING
        machine.ends(1, 0)
        machine.wait(10)
        self.assertEqual(machine.begun(), ["w"])
        machine.answers["exit"] = ["ok finished (a,2)"]
        machine.wait(4)
        told = [line for line, in of(machine.done, "ask") if line.startswith("exit w 1.1 normal")]
        self.assertGreater(len(told), 2)
        machine.wait(60)
        self.assertEqual(told, [line for line, in of(machine.done, "ask") if line.startswith("exit")])
        self.assertEqual(machine.core.runs.here, {})

    def test_one_command_that_is_not_kept_makes_no_machine_full(self):
        machine = Machine()
        machine.answers["start"] = KEEPS_NOTHING
        machine.wait(0.1)
        self.assertEqual(machine.ask("start x"), KEEPS_NOTHING)
        machine.wait(60)
        self.assertEqual(machine.core.state, "")


class Dead(unittest.TestCase):
    def test_words_of_a_silent_machine_are_handed_on_to_nobody(self):
        machine = Machine(["b", "c"])
        machine.meet()
        machine.meet("c")
        machine.hear_for(4)
        machine.take("link", "b", False)
        machine.take("link", "b", True)  # it begins anew, and lacks all
        machine.wait(0.1)
        self.assertEqual([one.name for one in [words for name, words in of(machine.done, "words") if name == "b"][-1]], ["a"])


class Members(unittest.TestCase):
    def test_who_joins_is_not_taken_out_by_a_word_of_before(self):
        machine = Machine(["b"])
        machine.meet()
        machine.answers["members"] = ["member a (a,1) label=x"]
        machine.answers["deliver"] = ["ok absorbed"]
        machine.take("letter", "b", (1, "b's"), "{}")
        machine.hear(state=word.OLD)
        machine.wait(0.1)
        machine.answers["members"].append("member b (b,2) label=x")  # its letter is here before its word
        machine.take("letter", "b", (1, "b's"), "{}")
        machine.wait(0.6)
        self.assertNotIn(("leave b",), of(machine.done, "ask"))
        machine.hear(state=word.OLD)
        machine.wait(0.6)
        self.assertIn(("leave b",), of(machine.done, "ask"))


if __name__ == "__main__":
    unittest.main()
