"""The node: lines that it is asked, and what their answers lead to.

Nothing waits for an answer. Lines queue, answers come in their order, and a node that is slow makes its machine neither deaf nor mute.
"""
import collections

from core import answer

BEGIN_AGAIN, SLOWEST_BEGIN = 0.2, 5  # seconds between two begins of a node that doesn't begin: the first, doubled up to the last
MOST_PATIENCE = 30                   # seconds for an answer: one that is begun anew is given twice as long as the last one, up to these
NO_NODE = ["no node"]


class Node:
    def __init__(self, act, options, now):
        self.act, self.options, self.patience = act, options, options.patience
        self.is_there, self.is_coming, self.boot, self.gone_since, self.begin_at, self.wait = False, False, None, now, now, BEGIN_AGAIN
        self.asked, self.waits_since = collections.deque(), None  # (what takes the answer, what is done where none comes)
        self.noted = frozenset()  # refusals that the log has

    def ask(self, line, take, otherwise, now):
        """Has a line asked. Where there is no node, nothing is done."""
        if self.is_there:
            self.asked.append((take, otherwise))
            self.waits_since = now if self.waits_since is None else self.waits_since
            self.act("ask", line)

    def begins(self, lines):
        """It has begun: its first answer, and whether that is the first one of this process."""
        is_first, first = self.boot is None, answer.Answer(lines)
        self.is_there, self.is_coming, self.wait, self.gone_since, self.waits_since = True, False, BEGIN_AGAIN, None, None
        self.boot = int(first.reply.split(" ")[2])
        self.act("log", "node", "boot", self.boot)
        return first, is_first

    def answered(self, now):
        self.waits_since = now if self.asked else None

    def note(self, line, reply):
        """A full disk has it refuse the same lines again and again: the log says each once, until something is done."""
        if (line, reply) not in self.noted:
            self.act("log", "asked", line, "->", reply)
        self.noted = self.noted | {(line, reply)} if reply.startswith("refused") and len(self.noted) < 100 else frozenset()

    def goes(self, why, now):
        self.act("log", "the node is gone:", why)
        asked, self.asked, self.waits_since = self.asked, collections.deque(), None
        self.gone_since = now if self.is_there else self.gone_since
        self.is_there, self.is_coming, self.begin_at, self.wait = False, False, now + self.wait, min(2 * self.wait, SLOWEST_BEGIN)
        for _, otherwise in asked:
            if otherwise is not None:
                otherwise()

    def look_after(self, now):
        if not self.is_there and not self.is_coming and now >= self.begin_at:
            self.is_coming = True
            self.act("begin node")
        if self.waits_since is not None and now - self.waits_since > self.patience:
            self.act("log", "the node doesn't answer")
            # it may be slow and not stuck, with thousands of children on a busy machine, and nobody waits for it
            self.waits_since, self.patience = None, min(2 * self.patience, max(self.patience, MOST_PATIENCE))
            self.act("kill node")

    def is_lost(self, now):
        """Whether it is gone for so long that the others may take over."""
        return self.gone_since is not None and now - self.gone_since >= self.options.silent

    def moments(self):
        return [] if self.is_there or self.is_coming else [self.begin_at]
