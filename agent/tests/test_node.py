"""A node: lines that leave as they can, answers in their order, and an end that is told once."""
import os
import re
import selectors
import signal
import sys
import tempfile
import time
import types
import unittest
import unittest.mock

sys.path.insert(0, os.path.dirname(os.path.dirname(os.path.abspath(__file__))))

import carrier
import last_words
import node
from clock import seconds
from core import answer
from pulse import bound

ECHO = "while read -r line; do case $line in none) echo;; *) printf '%s\\n\\n' \"$line\";; esac; done"


class Answers(unittest.TestCase):
    def test_orders_and_letters_are_read_in_their_order(self):
        told = answer.Answer(["ok absorbed", "  stop web 1.2", "  start web 1.3 http transient brutal_kill arg=", "  start q 1.4 w permanent 5000 arg=a=b", '  send b {"v":2}'])
        self.assertEqual(told.orders, [("stop", "web", "1.2", ""), ("start", "web", "1.3", "http transient brutal_kill arg="),
                                       ("start", "q", "1.4", "w permanent 5000 arg=a=b")])
        self.assertEqual(told.letters, [("b", '{"v":2}')])

    def test_what_is_shown_holds_no_orders(self):
        self.assertEqual(answer.Answer(["node a boot 1", "child stop (a,1) start permanent 5000 arg=send on a"]).orders, [])


class LastWords(unittest.TestCase):
    def test_what_a_node_says_of_its_image_is_told_with_its_file_and_what_it_means(self):
        with open(os.path.join(os.path.dirname(os.path.dirname(os.path.dirname(os.path.abspath(__file__)))), "docs", "SUPD.md")) as file:
            rows = re.findall(r"^\| [13] \| .*\| (`.*) \|$", file.read(), re.MULTILINE)
        said = [word for row in rows for word in re.findall(r"`((?:bad image|device|image in use)[^`]*)`", row)]
        self.assertEqual(len(said), 5)
        for word in said:
            self.assertRegex(last_words.told(f"status 1: {word}", "/var/b.image"), f"^status 1: {word}: .*/var/b.image")
        self.assertIn("another machine's image", last_words.told("status 1: bad image OtherNode", "b.image"))
        self.assertEqual(last_words.told("signal 9", "b.image"), "signal 9")


class Nodes(unittest.TestCase):
    def setUp(self):
        self.loop, self.began, self.gone, self.told = selectors.DefaultSelector(), [], [], []

    def node(self, *words):
        one = node.Node(words, self.loop, self.began.append, self.gone.append)
        self.addCleanup(lambda: one.process.poll() is None and (one.process.kill(), one.process.wait()))
        return one

    def of_shell(self, what):
        return self.node("sh", "-c", "printf 'ok boot 1\\n\\n'; " + what)

    def turn(self, one, holds, limit=20):
        began = time.monotonic()
        while not holds():
            self.assertLess(time.monotonic() - began, bound(limit, began), "it took too long")
            for key, events in self.loop.select(0.02):
                key.data(events)
            if not self.gone:
                one.tick(seconds())

    def test_lines_are_answered_in_their_order_however_long_they_are(self):
        one = self.of_shell(ECHO)
        self.turn(one, lambda: self.began)
        self.assertEqual(self.began, [["ok boot 1"]])
        for line in ("x", "none", "y", "z" * 300_000):
            one.ask(line, self.told.append)
        self.turn(one, lambda: len(self.told) == 4)
        self.assertEqual(self.told, [["x"], [], ["y"], ["z" * 300_000]])
        one.close()
        self.assertEqual((one.process.returncode, len(self.loop.get_map())), (0, 0))

    def test_asking_waits_for_nothing(self):
        """A node that reads nothing holds nobody up."""
        one = self.of_shell("sleep 100")
        self.turn(one, lambda: self.began)
        began = time.monotonic()
        for _ in range(100):
            one.ask("x" * 100_000, self.told.append)
            self.turn(one, lambda: True)
        self.assertLess(time.monotonic() - began, bound(5, began))
        self.assertEqual(self.told, [])

    def test_an_answer_that_was_cut_is_none(self):
        """A node that ends in the midst of an answer: half an order is no order."""
        for cut in ("ok (a,1)", "ok (a,1)\\n", "ok (a,1)\\n  start web 1.1 sleep permanent 5000 arg=1", "ok (a,1)\\n  start web 1.1 sleep permanent 5000 arg=1000\\n"):
            self.began, self.gone = [], []
            one = self.of_shell(f"read line; printf '{cut}'; exit 3")
            self.turn(one, lambda: self.began)
            one.ask("x", self.told.append)
            self.turn(one, lambda: self.gone)
            self.assertEqual((self.gone, self.told), (["status 3"], []))

    def test_an_answer_that_nobody_asked_for_ends_it(self):
        """Its later answers would be taken for those of other lines."""
        one = self.of_shell("read line; printf 'one\\n\\ntwo\\n\\n'; sleep 100")
        self.turn(one, lambda: self.began)
        one.ask("x", self.told.append)
        self.turn(one, lambda: self.gone)
        self.assertEqual((self.told, self.gone, one.process.returncode), ([["one"]], ["it answers what nobody asked"], -signal.SIGKILL))

    def test_a_stopped_one_can_be_killed(self):
        one = self.of_shell(ECHO)
        self.turn(one, lambda: self.began)
        os.kill(one.process.pid, signal.SIGSTOP)
        one.kill("it doesn't answer")
        self.turn(one, lambda: self.gone)
        self.assertEqual(self.gone, ["it doesn't answer"])

    def test_what_it_prints_before_it_ends_is_told(self):
        one = self.node("sh", "-c", "echo bad image NotJson >&2; exit 1")
        self.turn(one, lambda: self.gone)
        self.assertEqual((self.began, self.gone), ([], ["status 1: bad image NotJson"]))

    def test_one_that_closes_its_output_and_lives_is_killed(self):
        one = self.of_shell("exec >&-; sleep 100")
        self.turn(one, lambda: self.gone)
        self.assertEqual(self.gone, ["signal 9"])

    def test_a_program_that_is_not_there_is_told(self):
        with tempfile.TemporaryDirectory() as folder:
            self.assertRaises(OSError, self.node, os.path.join(folder, "none"))

    def test_one_that_the_system_can_not_end_is_gone_soon(self):
        """It waits for a disk that hangs. Else nobody would take its children over, nor be told that it answers nothing."""
        one = self.of_shell(ECHO)
        self.turn(one, lambda: self.began)
        with unittest.mock.patch.multiple(one.process, poll=lambda: None, kill=lambda: None):
            one.kill("it doesn't answer")
            self.turn(one, lambda: self.gone)
            self.assertEqual((self.gone, one.process.returncode, len(self.loop.get_map())), (["it doesn't answer"], -signal.SIGKILL, 0))

    def test_nobody_who_leaves_waits_for_it(self):
        one = self.of_shell("trap '' HUP; sleep 100")
        self.turn(one, lambda: self.began)
        with unittest.mock.patch.multiple(one.process, wait=unittest.mock.Mock(side_effect=node.subprocess.TimeoutExpired("supd", 1))):
            one.close()


class FirstBegins(unittest.TestCase):
    """A node that has ended before its first answer."""

    def ends(self, status, begun_before):
        self.given, process = [], types.SimpleNamespace(returncode=status)
        one = types.SimpleNamespace(image="a.image", node=types.SimpleNamespace(process=process), has_begun=False, goes_on=False, begun_at=seconds() - begun_before,
                                    show=lambda lines: None, give=lambda *event: self.given.append(event))
        carrier.Carrier.node_gone(one, "why")

    def test_one_with_a_bad_image_ends_its_agent_at_once(self):
        with self.assertRaises(carrier.NoNode) as no_node:
            self.ends(1, 0)
        self.assertEqual(no_node.exception.args[1], 1)

    def test_one_that_fails_for_seconds_ends_its_agent(self):
        self.ends(3, 1)
        self.assertEqual(self.given, [("node_gone", "why")])
        with self.assertRaises(carrier.NoNode) as no_node:
            self.ends(3, 7)
        self.assertEqual(no_node.exception.args[1], 3)

    def test_one_that_was_killed_is_begun_again_though_it_is_slow(self):
        self.ends(-9, 7)
        self.assertEqual(self.given, [("node_gone", "why")])
        with self.assertRaises(carrier.NoNode):
            self.ends(-9, node.FIRST_ANSWER + 1)


if __name__ == "__main__":
    unittest.main()
