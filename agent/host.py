"""One machine of a cluster: it carries a core for each group of children, keeps their nodes and processes, and their words and letters.

All happens in one loop that waits for lines, for ends of processes and for the next moment of a core, and gives each event to the core that it
concerns.
"""
import collections
import os
import re
import selectors
import signal

import carrier
import cgroups
import channel_links
import groups
import handover
import kinds
import limits
import links
import log
import logs
import metrics
import peers
import processes
import questions
import scrapes
import seals
import upgrade
import view
import watch
from clock import seconds
from core import core

TOLD_EACH = 5  # seconds at least between two lines of the log about refused lines
EPOCH = re.compile("[0-9]{1,18}")
COMMANDS = groups.OF_PEOPLE - core.LOOKS
BEGINS_FOR = 0.1    # seconds of a turn in which runs are begun: meanwhile nobody is heard or told anything
LONGEST_WAIT = 0.5  # seconds, whatever a moment says: a clock that was set far back has all moments far ahead


class Agent:
    def __init__(self, options, secret, supd, table=None):
        """`table` is what an earlier program of this agent hands on. OSError or ValueError where the file of kinds is none, the address can't be had, or the
        table can't be gone on with; ImportError without the Redis library."""
        self.options, self.name, self.log, self.mark = options, options.name, log.Log(options.name), table["mark"] if table else seals.fresh()
        self.loop, self.events, self.begins = selectors.DefaultSelector(), collections.deque(), collections.deque()
        self.refused, self.refused_told = collections.Counter(), 0
        self.kinds = kinds.Kinds(options.kinds, self.log)
        self.cgroup = table["cgroup"] if table else cgroups.take_own()
        limits.take_files(table and table["files"])
        self.logs = logs.Logs(self.loop, self.name, options.logs, options.image + ".logs", self.log)
        if table:
            handover.take_tails(self.logs, table)
        self.questions = questions.Questions(self)
        self.server = links.Server(self.loop, options.listen, self.name, self.mark, secret, self, handover.socket_at(table, options.listen))
        self.links = self.links_of(secret)
        self.some_ended, self.stops, self.told_stops, self.turns, self.upgrades, self.told_upgrades = True, 0, 0, 0, 0, 0
        self.groups = [carrier.Carrier(number, supd, self.kinds, self, table and table["groups"][number]) for number in range(options.groups)]
        self.view, self.watch, self.metrics, self.upgrade = view.View(self), watch.Watch(self, self.mark), metrics.Metrics(self), upgrade.Upgrade(self)
        self.scrapes = scrapes.Scrapes(self.loop, options.metrics, self.metrics.ask, handover.socket_at(table, options.metrics)) if options.metrics else None
        if table:
            handover.take_rest(self, table)
            self.server.listens(False)  # until its nodes have begun
        self.wake_by_signals()
        processes.take_orphans()

    def links_of(self, secret):
        if self.options.via is None:
            return peers.TcpLinks(self.loop, self.options.peers, self.server, self.options.silent, self.options.every, self.log)
        return channel_links.ChannelLinks(self.loop, self.options, self.name, self.mark, secret, self)

    def wake_by_signals(self):
        """The end of a process, and a request to leave, wake the loop."""
        wake, woken = os.pipe()
        for end in (wake, woken):
            os.set_blocking(end, False)
        signal.set_wakeup_fd(woken, warn_on_full_buffer=False)
        signal.signal(signal.SIGCHLD, self.note_an_end)
        for number in (signal.SIGTERM, signal.SIGINT, signal.SIGHUP):
            if number == signal.SIGTERM or signal.getsignal(number) != signal.SIG_IGN:
                signal.signal(number, self.note_a_stop)
        signal.signal(signal.SIGUSR2, self.note_an_upgrade)
        signal.pthread_sigmask(signal.SIG_UNBLOCK, upgrade.SIGNALS)
        self.loop.register(wake, selectors.EVENT_READ, lambda _: os.read(wake, 4096))

    def note_an_end(self, *_):
        self.some_ended = True

    def note_a_stop(self, *_):
        self.stops += 1

    def note_an_upgrade(self, *_):
        self.upgrades += 1

    # -- what links tell

    def link(self, name, is_up):
        for one in self.groups:
            one.give("link", name, is_up)
        missed = self.watch.events.link(name, is_up)
        if missed:
            self.links.tell(name, missed)

    def unsealed(self, name):
        """What answers at a machine's own address has another secret."""
        for one in self.groups:
            one.give("unsealed", name)

    def take(self, sender, mark, text):
        """A line that a machine of this cluster said. Refused where it is no line of an agent."""
        word, _, rest = text.partition(" ")
        if word in questions.VERBS:
            self.events.append((self.questions.take, sender, word, rest))
            return
        if word == "events":
            self.hear_events(rest)
            return
        tag, _, rest = rest.partition(" ")
        epoch, _, letter = rest.partition(" ")
        own = [one for one in self.groups if one.tag == tag]
        if word == "words":
            for one in own or self.groups:  # by words of another count of groups each group learns of that
                one.hear(sender, mark, rest)
        elif word != "letter" or not EPOCH.fullmatch(epoch):
            raise seals.Refused("no line of a machine of this cluster")
        elif not own:
            raise seals.Refused("a line of another group")
        else:
            own[0].give("letter", sender, (int(epoch), mark), letter)

    def hear_events(self, text):
        try:
            self.watch.events.hear(text)
        except ValueError:
            raise seals.Refused("no events") from None

    def asked(self, line, answer, by, whence):
        """A line of somebody who asks, from a host; `answer` takes the lines that he is told."""
        self.events.append((self.answer, line, answer, by, whence))

    def answer(self, line, answer, by, whence):
        verb = line.partition(" ")[0]
        if line == "status":
            self.view.ask(answer)
        elif line.startswith(questions.LOGS):
            self.questions.ask(line, answer)
        elif line == "metrics":
            self.metrics.ask(answer)
        elif line == "upgrade":
            self.upgrade.ask(answer)
        elif verb == "events":
            answer([self.watch.events.told(line)])
        elif verb in COMMANDS:
            groups.ask(self.groups, line, lambda lines: self.note_command(line, lines, answer, by, whence))
        else:
            groups.ask(self.groups, line, answer)

    def note_command(self, line, lines, answer, by, whence):
        if not groups.is_early(lines):  # who is told so says it again
            self.watch.events.command(line, ", ".join(dict.fromkeys(groups.first_lines(lines))), by, whence)
        answer(lines)

    def refuse(self, where, why):
        self.refused[str(why)] += 1
        if seconds() - self.refused_told >= TOLD_EACH:
            self.refused_told = seconds()
            self.log("refused lines:", dict(self.refused), "the last from", where)

    # -- turns of the loop

    def run(self):
        """Goes on until it was told to leave and has left. NoNode where a node can't begin."""
        moment = 0
        while not all(one.is_over() for one in self.groups):
            for key, events in self.loop.select(min(LONGEST_WAIT, max(0, moment - seconds()))):
                key.data(events)
            self.links.tick(seconds())  # before a turn, which may be long: what came meanwhile isn't read yet
            self.server.tick(seconds())
            self.logs.tick(seconds())
            self.kinds.tick(seconds())
            self.questions.tick(seconds())
            if self.scrapes:
                self.scrapes.tick(seconds())
            began, moment = seconds(), self.turn()
            self.metrics.turns.note(seconds() - began)
        for one in self.groups:
            one.close()
        for one in (self.logs, self.server, self.links, self.scrapes):
            if one:
                one.close()
        self.log("left")

    def turn(self):
        """Does what there is to be done now. When there is more."""
        while self.told_stops < self.stops:
            self.told_stops += 1
            for one in self.groups:
                one.give("stop")
        while self.told_upgrades < self.upgrades:
            self.told_upgrades += 1
            self.upgrade.ask()
        self.do_events()
        some_ended, self.some_ended = self.some_ended, False
        for one in self.in_turn():
            one.tick(seconds(), some_ended)
        self.do_events()
        if some_ended:
            processes.reap_orphans()
        if not self.upgrade.is_resting():
            self.server.listens(all(one.has_begun or one.core.node.is_lost(seconds()) or not one.goes_on for one in self.groups))
        is_more = self.view.work() | self.watch.work() | bool(self.begins)
        self.upgrade.tick(seconds())
        return 0 if is_more else min(self.watch.at, self.upgrade.moment(), *(one.next_moment(seconds()) for one in self.groups))

    def do_events(self):
        """Does what happened, and then begins runs, for a while: each takes some milliseconds, and there may be thousands."""
        do_all(self.events)
        do_all(self.begins, seconds() + BEGINS_FOR)
        do_all(self.events)  # what is told of a begin, before anybody looks whether that run has ended

    def in_turn(self):
        """The groups, at each turn another one first: where much waits to leave, the letters of those behind are left out."""
        self.turns += 1
        first = self.turns % len(self.groups)
        return self.groups[first:] + self.groups[:first]


def do_all(events, until=float("inf")):
    """Does what waits, each after the other, at least one if any, until this moment."""
    while events:
        do, *words = events.popleft()
        do(*words)
        if until <= seconds():
            return
