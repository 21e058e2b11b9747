"""An agent without processes, in the test's own: its node is one by the rules. It stands where the client asks."""
import os
import sys
import types
import unittest.mock

TESTS = os.path.dirname(os.path.abspath(__file__))
sys.path[:0] = [os.path.dirname(TESTS), os.path.join(os.path.dirname(os.path.dirname(TESTS)), "reference")]

import asking
import client
import command_words
import rules

TOP = os.path.dirname(os.path.dirname(TESTS))
COMMAND = os.path.join(TOP, "agent", "sebrakt")
LOOKS = ("show", "members")


def parsed(*words):
    """What the command makes of some words."""
    return command_words.parser().parse_args(list(words))


def given(**words):
    return types.SimpleNamespace(**words)


class Fake:
    """Answers lines, of commands only the first `ends_at`, and tells which came."""

    def __init__(self, name="a"):
        self.node = rules.Node(name, rules.Setting("sha256", 1000, 5, 64))
        self.said, self.ends_at, self.instead = [], None, {}
        self.take("join label=x")

    def take(self, line):
        verb, *words = line.split(" ")
        if verb in LOOKS:
            return [told for told in self.node.show() if verb == "show" or told.startswith("member ")]
        try:
            return self.node.act(verb, words, 0, True)[0]
        except rules.Refused as refusal:
            return [f"refused {rules.NUMBERS[refusal.args[0]]} {refusal.args[0]}"]

    def ask(self, address, secret, line, patience=10, wait=0):
        if not line.startswith(LOOKS):
            self.said.append(line)
        if self.ends_at is not None and len(self.said) > self.ends_at:
            raise client.NoAnswer("the agent ended the connection")
        return self.instead.get(line) or self.take(line)

    def asked(self, test):
        """Has the client ask this one while a test runs. The agent as commands have it."""
        patch = unittest.mock.patch.object(client, "ask", self.ask)
        patch.start()
        test.addCleanup(patch.stop)
        return asking.Agent(("127.0.0.1", 1), None, "a fake")
