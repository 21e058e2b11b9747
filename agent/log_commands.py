"""What the command `sebrakt logs` prints: a child's last lines, and those that follow."""
import json
import re
import sys
import time

import refusals
from telling import NotDone

LOOK = 0.5  # seconds between two looks for what follows
UNSEEN = re.compile(r"[\x00-\x08\x0b-\x1f\x7f-\x9f]")  # characters that would do something to a terminal
MOST = 10_000
MOMENT = len("2026-01-01T00:00:00.000Z")


class Following:
    """The lines of a child, each once, wherever it runs: by the place that the last answer of a machine told."""

    def __init__(self, ident, count, machine):
        self.id, self.count, self.machine, self.moment = ident, count, machine or "-", ""
        self.whence, self.at = None, 0  # the machine that answered last, and its agent's mark; the place that it told

    def look(self, agent):
        """What is new: the value that an agent answers. NotDone."""
        value = self.ask(agent, *((MOST, f"{self.whence[1]}:{self.at}") if self.whence else (self.count, "-")))
        if "why" in value:
            return value
        whence = value["machine"], value["mark"]
        if self.whence not in (None, whence):  # it has moved, or its agent was begun anew: what was seen already isn't told again
            value["lines"] = [line for line in value["lines"] if line[:MOMENT] > self.moment]
        self.whence, self.at = whence, value["at"]
        self.moment = max([self.moment, *(line[:MOMENT] for line in value["lines"][-1:])])
        return value

    def ask(self, agent, count, place):
        line = f"logs {self.id} {count} {self.machine} {place}"
        lines = agent.ask(line)
        try:
            return dict(json.loads("".join(lines)))
        except (ValueError, TypeError):
            raise NotDone(*refusals.words_of(line, lines[0] if lines else "")) from None


def logs(agent, options, told):
    if options.follow and told.is_value:
        raise NotDone("--json goes with lines that come to an end", "leave out --follow", 2)
    following = Following(options.id, options.lines, options.machine)
    value = following.look(agent)
    if "why" in value and not options.follow:
        raise NotDone(value["why"], f"earlier lines may stand there in its journal (journalctl SEBRAKT_ID={options.id}), or in a file in the folder of its --logs")
    tell(told, value)
    while options.follow:
        time.sleep(LOOK)
        tell(told, following.look(agent))


def tell(told, value):
    lines = value.get("lines", [])
    if value.get("lost"):
        print(f"sebrakt: {value['lost']} bytes came too fast to be shown", file=sys.stderr, flush=True)
    if lines or told.is_value:
        told.say(*(map(seen, lines) if sys.stdout.isatty() else lines), **value)


def seen(line):
    return UNSEEN.sub(lambda found: f"\\x{ord(found[0]):02x}", line)
