"""A core by hand: some events in, some actions out."""
import os
import sys
import types

sys.path.insert(0, os.path.join(os.path.dirname(os.path.abspath(__file__)), ".."))

import people
from core import core, word

OPTIONS = dict(silent=3, every=0.5, grace=3, least=1, label="x", intensity=1000, period=5, backoff=60, stable=10, rejoin=15, leave_time=5, patience=2,
               setting="1 group", alone=False)
START = "  start w 1.1 good permanent 300 arg="
RUNS, WAITS = word.Child("running", "1.1", 7, 0, "", None), word.Child("waits", "1.1", 0, 7, "status 1", 22.5)
KEEPS_NOTHING = ["refused 16 KeepFailed"]


def of(actions, verb):
    return [action[1:] for action in actions if action[0] == verb]


class Machine:
    """A core whose node answers `refused 12` to whatever isn't told otherwise."""

    def __init__(self, peers=(), boot=2, name="a", answers=True, **options):
        self.core, self.now, self.done = core.Core(name, "mark of " + name, types.SimpleNamespace(**{**OPTIONS, **options}), peers, 0), 0, []
        self.answers = {"members": [f"member {one} ({one},1) label=x" for one in sorted({name, *(peers or ())})], "exit": ["ok restarted", START],
                        "inspect": [f"node {name} boot {boot}", *([f"vector {name} 1"] if boot > 1 else [])], "image": ['{"v":1,"ctx":{},"rows":[]}']}
        self.is_quick, self.n = answers, 0
        self.take("node_began", [f"ok boot {boot}", START])

    def take(self, what, *words):
        actions = getattr(self.core, what)(*words, self.now)
        while actions:
            self.done += actions
            lines = [line for line, in of(actions, "ask")]
            actions = self.core.answered([self.answer(line) for line in lines], self.now) if lines and self.is_quick else []

    def answer(self, line):
        return self.answers.get(line.split(" ")[0], ["refused 12 UpToDate"])

    def ends(self, key, status, reason=""):
        self.take("processes", [], [(key, status, reason)])

    def wait(self, seconds):
        until = self.now + seconds
        while self.core.next_moment() <= until:
            before, self.now = self.now, max(self.now, self.core.next_moment())
            self.take("tick")
            assert self.core.next_moment() > before, "it would turn without end"
        self.now = until

    def hear(self, sender="b", **more):
        """A word of another machine, which has heard all that this one has said."""
        self.n += 1
        said = {"name": sender, "session": (1, sender + "'s"), "n": self.n, "state": "", "setting": "1 group", "base": 0, "children": {}, "claims": frozenset(),
                "heard": {self.core.name: (self.core.sight.session, self.core.telling.n)}, "sees": frozenset("a"), "whole": frozenset("a"), **more}
        self.take("heard", sender, (word.Word(**said),))

    def meet(self, sender="b", **more):
        """A link comes up, and the other machine's whole state and word arrive."""
        self.take("link", sender, True)
        self.core.hold.whole |= {sender}
        for _ in range(3):
            self.hear(sender, **more)
            self.wait(0.1)

    def hear_for(self, seconds, **more):
        until = self.now + seconds
        while self.now < until:
            self.hear(**more)
            self.wait(0.25)

    def ask(self, line):
        self.take("command", line, line)
        return [lines for token, lines in of(self.done, "reply") if token == line][-1]

    def begun(self):
        return [ident for _, ident, *_ in of(self.done, "begin")]

    def people(self):
        return people.People(self.core, self.now)

    def state_of(self, ident, place="a"):
        return self.people().child(ident, place)[0]

    def said(self, to="b"):
        return [words[0] for name, words in of(self.done, "words") if name == to]
