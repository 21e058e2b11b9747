"""The decisions of an agent, for one group of children. Whoever carries its actions decides nothing.

Each event is a method that takes the moment as well, and returns the actions that it leads to, in their order:

    tick                              a moment of which `next_moment` has told
    link(name, is_up)                 lines to a machine leave, or don't
    unsealed(name)                    at a peer's address, to which this machine has connected, or at the server, lines are sealed by another secret
    heard(sender, words)              words that a machine has sent, its own first (`word.py`). Those of a machine with another count of groups are
                                      told to each group's core
    letter(sender, session, text)     a letter of its node
    node_began(lines), answered(answers), node_gone(why)
    processes(began, ended)           each (key, process) began, and of each (key, status, reason) the whole group is gone; status is None where it
                                      couldn't be begun, and then the reason tells why: `no kind http in kinds.json`
    noted(key, note, delay)           what people are told of a run beside that it runs, "" where that is nothing, and for how many seconds at least its
                                      child waits once it has ended
    command(token, line)              somebody asks. `begin alone` says that nobody is to be waited for; all else is the node's. What changes nothing is
                                      answered whenever there is a node, the rest `not yet: ..` with the reason while something hinders this machine
    stop                              SIGTERM

    ("ask", line)                     a line for the node; its answers come in the order of the lines
    ("begin node",), ("kill node",), ("end leftovers",)
    ("keep ahead", n)                 beside the image: what is told as `ahead` to the next core
    ("words", name, words), ("letter", name, session, text)   to a machine, now or never
    ("begin", key, id, number, spec), ("term", key), ("kill", key)
    ("reply", token, lines), ("log", ..), ("left",)

`options` are those of the command line: every, silent, grace, least, label, intensity, period, backoff, stable, rejoin, leave_time, patience, alone;
and `setting`, a text that is the same on machines that place and count alike.
`why()` is what hinders this machine, as a sentence; "" where nothing does. What else people are told is read from outside (`people.py`).
"""
import functools

from core import answer, claims, hold, leaving, letters, members, node, runs, sight, telling, word

LOOKS = {"show", "inspect", "members", "where", "image"}  # lines that change nothing
CANT_BE_SAID_AWAY = word.RIVAL, word.SETTING


def event(take):
    """What happens is taken up, at a moment that is told last, and then all is done that there is to do."""
    @functools.wraps(take)
    def do(self, *words):
        self.notice_hold(words[-1])
        take(self, *words[:-1])
        return self.turn(words[-1])
    return do


class Core:
    def __init__(self, name, mark, options, peers, now, whole_letter=answer.whole_letter, ahead=0):
        """`mark` is no other process's. `peers` are the other machines to which there may be links, None where nobody knows them. `ahead` is by how much
        its sessions are later than its image's boots, since an earlier process took the place of one with a later boot."""
        self.name, self.options, self.now, self.actions = name, options, now, []
        self.up, self.state, self.leave_at, self.ahead = set(), word.BEGINS, None, ahead  # `up`: the machines to which there are links
        self.holds, self.held = 0, 0  # how often this machine didn't listen for long, and for how many seconds in all
        self.sight = sight.Sight(name, mark, options.setting, options.silent, self.log, now)
        self.members = members.Members(name, options, peers, now)
        self.claims, self.runs, self.node = claims.Claims(name), runs.Runs(options, self.act), node.Node(self.act, options, now)
        self.hold = hold.Hold(name, options, peers, self.sight, self.members, self.log, now)
        self.telling, self.letters, self.leaving = telling.Telling(self), letters.Letters(self, whole_letter), leaving.Leaving(self)

    def act(self, *action):
        self.actions.append(action)

    def log(self, *words):
        self.act("log", *words)

    # -- events

    @event
    def tick(self):
        pass

    @event
    def link(self, name, is_up):
        (self.up.add if is_up else self.up.discard)(name)
        if is_up:
            self.telling.link(name)

    @event
    def unsealed(self, name):
        self.hold.meet_unsealed(name)

    @event
    def heard(self, sender, words):
        for one in words:
            before, was_stale = self.sight.words.get(one.name), self.sight.is_stale(one.name, self.now)
            if self.sight.hear(one, self.now, one.name == sender):
                self.telling.take_news(one, before, was_stale)
                self.letters.take_word(one, before)

    @event
    def letter(self, sender, session, text):
        known = self.sight.words.get(sender)
        if known and known.session == session:  # of the newest process of a machine alone
            self.letters.take(sender, text)

    @event
    def node_began(self, lines):
        first, is_first = self.node.begins(lines)
        self.letters.change()
        self.hold.refused_from = None  # it has kept its boot
        if is_first:
            self.sight.begin_session(self.node.boot + self.ahead)
            self.act("end leftovers")
        if self.hold.own is None:
            self.ask("inspect", self.hold.take_first_look)
        self.runs.adopt(first.orders, self.now)

    @event
    def answered(self, answers):
        for lines in answers:
            told, (take, _) = answer.Answer(lines), self.node.asked.popleft()
            for to, text in told.letters:
                self.act("letter", to, self.sight.session, text)
            take(told)
        self.node.answered(self.now)

    @event
    def node_gone(self, why):
        self.letters.node_goes()
        self.node.goes(why, self.now)

    @event
    def processes(self, began, ended):
        for key, process in began:
            self.runs.began(key, process)
        for key, status, reason in ended:
            self.runs.ended(key, status, reason, self.now)

    @event
    def noted(self, key, note, delay):
        self.runs.note(key, note, delay)

    @event
    def command(self, token, line):
        if line == "begin alone" and self.hold.own is not None and self.state not in CANT_BE_SAID_AWAY:
            self.hold.begin_alone()
            self.state = word.BEGINS
            self.act("reply", token, ["ok begins alone"])
        elif not self.node.is_there or not self.is_open() and line.split(" ")[0] not in LOOKS:
            self.act("reply", token, node.NO_NODE if not self.node.is_there else ["not yet: " + self.why()])
        else:
            self.ask(line, lambda told: self.reply(token, line, told), lambda: self.act("reply", token, node.NO_NODE))

    @event
    def stop(self):
        self.leave_at = self.now if self.leave_at is None else float("-inf")  # told twice, all is killed at once

    # -- the node

    def ask(self, line, take, otherwise=None):
        self.node.ask(line, take, otherwise, self.now)

    def ask_and_do(self, line):
        self.ask(line, lambda told: self.note_and_do(line, told))

    def note_and_do(self, line, told):
        """Takes an answer: what it means for the timers, its line of the log, its orders."""
        self.node.note(line, told.reply)
        if told.reply.startswith("ok"):
            self.letters.change()
        self.hold.note_kept(told.reply, self.now)
        self.letters.do(told.orders)

    def reply(self, token, line, told):
        if line.split(" ")[0] not in LOOKS:
            self.note_and_do(line, told)
        self.act("reply", token, told.lines)

    def tell_end(self, run):
        line = f"exit {run.id} {run.number} {runs.reason_of(run.status)} @{int(self.now)}"
        self.ask(line, lambda told: self.told_end(run, line, told))

    def told_end(self, run, line, told):
        self.runs.told_end(run, told.reply, self.now)
        self.note_and_do(line, told)

    def why(self):
        return self.hold.sentence(self.state)

    # -- turns

    def turn(self, now):
        self.node.look_after(now)
        if self.node.is_lost(now):
            self.runs.end_all(now)
        self.look_at_state()
        self.runs.kill_late(now)
        for run in self.runs.to_tell(now) if self.node.is_there else ():
            self.tell_end(run)
        if self.leave_at is not None:
            self.leaving.go_on()
        self.begin()
        self.telling.tell()
        self.letters.ship()
        actions, self.actions = self.actions, []
        return actions

    def next_moment(self):
        """When it wants a `tick`, at the latest."""
        moments = [self.letters.ship_at, *self.telling.moments(), *self.runs.moments(self.now, self.node.is_there), *self.node.moments()]
        if self.state and self.now < self.hold.ends():
            moments.append(self.hold.ends())
        return min(moments)

    def notice_hold(self, now):
        """Where this machine didn't listen for long, the others may have taken over what runs here."""
        held, self.now = now - self.now, now
        if held > max(self.options.silent / 2, 2 * self.options.every):
            self.log("held for", round(held, 1), "s")
            self.holds, self.held = self.holds + 1, self.held + held
            self.begin_anew()

    def begin_anew(self):
        self.hold.begin_anew(self.telling.n + 1, self.now)
        self.telling.at, self.letters.ship_at = self.now, self.now + min(0.2, self.options.every)

    def look_at_state(self):
        """What hinders this machine, and what that does to its runs."""
        if self.hold.outlives_rival(self.now):
            self.act("keep ahead", self.sight.session[0] - self.node.boot)
            self.begin_anew()
        before, self.state = self.state, word.LEFT if self.leaving.is_over() else self.hold.look(self.now)
        if before in word.ANEW and self.state not in word.ANEW and (before != word.UNHEARD or self.sight.heard(self.now)):
            self.begin_anew()
            self.state = self.hold.look(self.now)
        self.hold.is_sure = self.hold.is_sure or self.is_open()
        if before != self.state:
            self.log("state:", self.why() or "open")
            self.letters.ship_at = self.now
        if self.state in word.ASIDE:
            self.runs.put_off(self.runs.here, self.now)
        elif self.state in word.TAKES_NONE:  # others take over what it runs, each run when they are ready for it
            self.runs.put_off({ident for name in self.takers() for ident in self.sight.words[name].claims}, self.now)

    def takers(self):
        return [name for name in self.sight.touch(self.now) if self.sight.words[name].state not in word.TAKES_NONE]

    def is_open(self):
        return self.state in word.OPEN

    def is_free(self):
        return self.is_open() and self.leave_at is None and not self.hold.is_old

    def begin(self):
        """Begins what waits and has no process here, and that all machines in touch let begin, or take for running here still."""
        if not self.runs.waiting and not self.claims.claimed:
            return
        due, asked = self.runs.due(self.now) if self.is_free() and self.letters.withheld is None else [], self.sight.asked(self.now)
        if self.state == word.FULL:  # what others tell of is theirs now, and this machine's node can't know
            due = [ident for ident in due if not any(ident in self.sight.told[name].children for name in self.takers())]
        own = set() if self.sight.was_silent(self.now) else {ident for ident in due if self.telling.told.runs(ident) and not any(self.sight.told[name].runs(ident) for name in asked)}
        self.claims.claim([ident for ident in due if ident not in own], self.telling.n + 1)
        free = [ident for ident in due if ident in own or self.claims.may_begin(ident, self.sight, asked)]
        if free:
            self.runs.begin(free, self.now)
            self.claims.claim([ident for ident in self.claims.claimed if ident in self.runs.waiting], self.telling.n + 1)
