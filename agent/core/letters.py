"""Letters between nodes: each machine is sent what it hasn't acknowledged, and who begins is sent all; and what a letter does that stops runs."""
import functools

from core import answer

WHOLE = "whole "   # before a letter that has all that its sender knows
MOST_ASKED = 100   # lines that the node hasn't answered, behind which no letters are asked for
A_SECOND = 1 << 18  # bytes of letters at most that a machine is sent in a second, where it acknowledges at once: each has all that changed lately


class Letters:
    def __init__(self, core, whole_letter):
        self.core, self.whole_letter = core, whole_letter
        self.ship_at, self.shipped = core.now, {}  # when each was sent what it hasn't acknowledged
        self.rest_until = {}  # of each machine until when it is sent nothing more, since its last letter was long
        self.asked = set()    # the lines that the node is asked and hasn't answered yet
        # how often the node's tables may have changed; of each machine, and of the members' names, which change they have
        self.changes, self.has_all, self.names, self.names_of = 0, {}, None, None
        self.sent_whole = {}  # to whom this machine's whole state was sent, and when
        self.withheld = None  # orders that wait until it is known whether this machine was taken out
        self.is_looking, self.whole = False, set()  # whether the node is asked what it knows now, and whose whole states it has taken before that

    def node_goes(self):
        self.withheld, self.is_looking, self.whole = None, False, set()

    def change(self):
        """The node's tables may have changed: there may be something to ship, and other members."""
        self.changes, self.ship_at = self.changes + 1, self.core.now

    # -- letters that leave

    def ship(self):
        """Has each machine sent what it hasn't acknowledged, once the last letter to it was acknowledged, or time has passed."""
        core = self.core
        if core.now < self.ship_at:
            return
        self.ship_at = core.now + core.options.every
        if not core.node.is_there or len(core.node.asked) > MOST_ASKED:
            return
        if self.names_of != self.changes:
            self.ask("members", self.know_members)
        else:
            self.keep_members()
        heard = {name for name in self.lacking() if core.now - self.shipped.get(name, float("-inf")) >= core.options.every}
        resting = {name for name in heard if core.now < self.rest_until.get(name, 0)}
        self.ship_at = min([self.ship_at, *(self.rest_until[name] for name in resting)])
        for name in sorted(heard - resting):
            self.ask("ship " + name, functools.partial(self.has_shipped, name))

    def lacking(self):
        """The machines that haven't acknowledged all. Strangers are sent nothing."""
        return {name for name in self.core.up - self.core.sight.strangers.keys() if self.has_all.get(name) != self.changes}

    def ask(self, line, take):
        """Has the node asked a line, unless it is asked that already: many commands may wait before it. What changes meanwhile is looked at behind it."""
        if line not in self.asked:
            self.asked.add(line)
            self.core.ask(line, functools.partial(self.answered, line, self.changes, take), lambda: self.asked.discard(line))

    def answered(self, line, changes, take, told):
        self.asked.discard(line)
        take(told, changes)
        if self.changes != changes:
            self.ship_at = self.core.now

    def has_shipped(self, name, told, changes):
        if told.reply.startswith("ok"):
            self.shipped[name] = self.core.now
            self.rest_until[name] = self.core.now + min(self.core.options.every, sum(len(text) for _, text in told.letters) / A_SECOND)
        elif told.reply.startswith("refused 12"):
            self.has_all[name] = changes

    def take_word(self, one, before):
        """A word that was news: its sender may lack this machine's whole state, or have it since, and take now what it was sent before and had to refuse."""
        if self.core.name not in one.whole:
            self.send_whole(one)
        elif not (before and before.session == one.session and self.core.name in before.whole) and self.shipped.pop(one.name, None) is not None:
            self.ship_at = self.core.now

    def send_whole(self, one):
        """Sends all to a machine that lacks this one's whole state, and has heard this one, of which it takes letters then."""
        core, last = self.core, self.sent_whole.get(one.name, ((), 0))
        is_asked_for = one.name in core.up and core.sight.echo[one.name] > 0
        if is_asked_for and (last[0] != one.session or core.now - last[1] > 2 * core.options.every):
            self.sent_whole[one.name] = one.session, core.now
            core.ask("image", lambda told: core.act("letter", one.name, core.sight.session, WHOLE + self.whole_letter(told.reply, core.name, one.name)))

    # -- who is a member

    def know_members(self, told, changes):
        self.names, self.names_of = answer.members(told), changes
        self.core.members.know(self.names, self.core.now)
        self.core.runs.forget()
        self.keep_members()

    def keep_members(self):
        core = self.core
        if core.leave_at is None and self.withheld is None:
            for line in core.members.lines(self.names, core.sight, core.now, core.is_free()):
                core.ask_and_do(line)

    # -- letters that come

    def take(self, sender, text):
        """The first letter that is taken has all that its sender knows: what it knows of this machine is looked at before anything is numbered behind it."""
        is_whole = text.startswith(WHOLE)
        if is_whole != (sender in self.core.hold.whole | self.whole):
            self.core.ask("deliver " + text.removeprefix(WHOLE), lambda told: self.taken(sender, told, is_whole))

    def taken(self, sender, told, is_whole):
        """An answer to a letter. Where it ends runs it may have taken this machine out, and then they may go on: that is looked at first."""
        core = self.core
        core.hold.note_kept(told.reply, core.now)
        if told.reply.startswith("ok absorbed"):
            self.change()
        if told.reply == "ok acked" and self.shipped.pop(sender, None) is not None:
            self.ship_at = core.now
        if is_whole and told.reply.startswith("ok"):
            self.whole.add(sender)
        if (is_whole or told.reply.startswith("ok absorbed") and not core.is_open()) and not self.is_looking:
            self.is_looking = True
            core.ask("inspect", lambda seen: self.look(sender, seen))
        if self.withheld is None and any(order[0] == "stop" for order in told.orders):
            self.withheld = told.orders
            core.ask("members", self.come_back)
        else:
            self.do(told.orders)

    def look(self, sender, seen):
        self.core.hold.compare(sender, seen)
        self.core.hold.whole |= self.whole
        self.is_looking, self.whole = False, set()

    def do(self, orders):
        if self.withheld is not None:
            self.withheld += orders
        else:
            self.core.runs.do(orders, self.core.now)

    def come_back(self, seen):
        """Joins again at once where others took this machine out: what runs in the same form before and behind that goes on."""
        core, names, before = self.core, answer.members(seen), self.withheld
        core.members.know(names, core.now)
        joins = [line for line in core.members.lines(names, core.sight, core.now, core.is_free()) if line.startswith("join")]
        self.withheld = [] if joins else None
        if joins:
            core.ask(joins[0], lambda told: self.go_on(before, joins[0], told))
        else:
            self.do(before)

    def go_on(self, before, line, told):
        before, orders, told.orders, self.withheld = before + self.withheld, told.orders, [], None
        self.core.runs.go_on(before, orders, self.core.now)
        self.core.note_and_do(line, told)
