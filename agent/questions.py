"""Questions about what one machine alone knows, the lines of its children. Any machine may be asked: it hands the question on to the one that knows.

    logs ID COUNT MACHINE PLACE    the last lines of a child, or those behind a place that an earlier answer told. MACHINE or PLACE may be `-`: where
                                   the child runs, or else waits; from the first line that is known
"""
import json
import re

import groups
from clock import seconds
from core import word

LOGS = "logs "
VERBS = ASKS, TOLD = "asks", "told"  # how lines between agents begin: a question, and its answer
PATIENCE = 5  # seconds for an answer of another machine
FORM = re.compile(r"logs (\S+) ([0-9]{1,5}) ([a-z0-9_-]+) (-|[0-9a-f]{32}:[0-9]{1,18})")


class Questions:
    def __init__(self, agent):
        self.agent, self.asked, self.count = agent, {}, 0  # of each question that was handed on: to whom, until when, and who takes the answer

    def ask(self, line, answer):
        """A question of somebody; `answer` takes the lines that he is told."""
        found = FORM.fullmatch(line)
        if not found:
            answer(["bad line"])
            return
        ident, count, machine, place = found.groups()
        machine = self.machine_of(ident) if machine == "-" else machine
        if machine == self.agent.name:
            answer([self.lines(ident, int(count), place)])
        elif not self.reaches(machine):
            answer([text_of({"machine": machine, "why": f"{self.agent.name} has no connection with {machine}"})])
        else:
            self.count += 1
            self.asked[str(self.count)] = machine, seconds() + PATIENCE, answer
            self.agent.links.tell(machine, f"{ASKS} {self.count} logs {ident} {count} {machine} {place}")

    def machine_of(self, ident):
        """Where a child runs, or else waits; this machine where none is known, or it is one of several."""
        told = self.agent.groups[groups.group_of(ident, len(self.agent.groups))].people(seconds()).told
        having = [name for name in told if ident in told[name]]
        first = [name for name in having if told[name][ident].state != word.WAITS] or having
        return self.agent.name if self.agent.name in first or not first else first[0]

    def reaches(self, machine):
        return machine in self.agent.groups[0].core.up

    def lines(self, ident, count, place):
        """The answer to a question about this machine's own children."""
        mark, _, at = place.partition(":")
        known = self.agent.logs.lines(ident, count, int(at) if mark == self.agent.mark else None)
        told = known or {"why": f"{self.agent.name} has no lines of {ident} since its agent began"}
        return text_of({"machine": self.agent.name, "mark": self.agent.mark, **told})

    def take(self, sender, verb, rest):
        """A question that another machine hands on, or its answer to one."""
        token, _, text = rest.partition(" ")
        if verb == ASKS:
            self.ask(text, lambda lines: self.agent.links.tell(sender, f"{TOLD} {token} {lines[0]}"))
        elif token in self.asked and self.asked[token][0] == sender:
            self.asked.pop(token)[2]([text])

    def tick(self, now):
        for token in [token for token, (_, until, _) in self.asked.items() if now > until]:
            machine, _, answer = self.asked.pop(token)
            answer([text_of({"machine": machine, "why": f"{machine} doesn't answer"})])


def text_of(value):
    """A value as a line of visible characters."""
    return json.dumps(value, separators=(",", ":")).replace("\x7f", "\\u007f")
