"""The acts that a node's history tells: which were done, what is known of their answers, and its stops and boots."""
from collections import Counter

import history_text
from history_text import BadLine

# Answers to acts that changed the image.
CHANGES = ("ok (", "ok removed", "ok finished", "ok gave up", "ok absorbed")
QUERIES = ("show", "inspect", "members", "image", "where")
UNDONE = (["bad line"], ["refused 19 OutOfMemory"])
KEEP_FAILED = ["refused 16 KeepFailed"]


class Act:
    """A line that a node heard, with its number; and the lines that were told, or None where nobody was told."""

    def __init__(self, number, line, told):
        self.number, self.line, self.told = number, line, told


class Boot:
    """A node's stop and its next boot, with the number of the begin's line; and the lines that were told, or None where nobody was told."""

    def __init__(self, number, told):
        self.number, self.told = number, told


class RecordedActs:
    """The acts of a history's sessions. An act whose answer has no end was done or not, and so was one that was told 16 before its node
    ended: the image's count in the next begin is one higher where it was done. Of the begins without an answer as many were done as the
    number of the next boot tells."""

    def __init__(self, sessions):
        self.name, self.setting, self.first_line = sessions[0].name, sessions[0].setting, sessions[0].number
        self.acts, self.seen = [], Counter()
        self.boot, self.unanswered, self.count, self.unsure = 0, 0, 0, None
        for session in sessions:
            self.take(session)

    def take(self, session):
        if (session.name, session.setting) != (self.name, self.setting):
            raise BadLine(session.number, "it begins another node, or this one with other settings, than the first begin")
        self.decide_unsure(session)
        if session.unasked is None:
            self.unanswered += 1
            return
        self.take_boot(session)
        for exchange in session.exchanges:
            self.take_exchange(exchange)

    def decide_unsure(self, session):
        """Whether the act of which nobody knows it was done, by the image's count."""
        counts = [self.count] if self.unsure is None else [self.count, self.count + 1]
        if session.count not in counts:
            raise BadLine(session.number, f"the image's count is {session.count}; the acts before it make {' or '.join(map(str, counts))}")
        if self.unsure is not None:
            is_done = session.count > self.count
            self.seen[f"acts {'told 16 before an end' if self.unsure.told else 'without an answer'}, {'' if is_done else 'not '}done"] += 1
            if is_done:
                self.do_untold(self.unsure)
            self.unsure = None

    def do_untold(self, act):
        if act.told is not None:
            self.acts.pop()
        self.acts.append(Act(act.number, act.line, None))
        self.count += 1

    def take_boot(self, session):
        number, words = session.number + 1, session.unasked[0].split(" ") if session.unasked else []
        if words[:2] != ["ok", "boot"] or not history_text.is_number(" ".join(words[2:])):
            raise BadLine(number, "it tells no boot")
        boot = int(words[2])
        untold = boot - 1 - self.boot
        if not 0 <= untold <= self.unanswered:
            raise BadLine(number, f"boot {boot} stands behind boot {self.boot} and {self.unanswered} begins without an answer")
        self.seen["begins without an answer, done"] += untold
        self.seen["begins without an answer, not done"] += self.unanswered - untold
        for later in range(self.boot + 1, boot + 1):
            self.add_boot(session, later, session.unasked if later == boot else None)
        self.boot, self.unanswered = boot, 0

    def add_boot(self, session, boot, told):
        # The first boot is no act: it is the state of a new world.
        if boot > 1:
            self.acts.append(Boot(session.number, told))
        elif told not in (None, ["ok boot 1"]):
            raise BadLine(session.number + 1, "a first boot has no orders")

    def take_exchange(self, exchange):
        self.unsure = None
        act = Act(exchange.number, exchange.line, exchange.told)
        if act.told == []:
            raise BadLine(act.number, "its answer has no line")
        if act.told in UNDONE or act.line.split(" ")[0] in QUERIES:
            return
        if act.told is None:
            self.unsure = act
            return
        self.acts.append(act)
        if act.told == KEEP_FAILED:
            self.unsure = act
        self.count += act.told[0].startswith(CHANGES)
