"""One group of children at this machine: gives its core what happens, and does what the core says. It decides nothing."""
import os
import signal
import subprocess
import time

import children
import groups
import handover
import history
import last_words
import node
import overlap
import people
from clock import seconds
from core import core, word

FIRST_BEGIN = 5      # seconds at most in which a node has to begin at the first; one that a signal ended has as long as a node may take for its first answer
MOST_OF_A_REASON = 300  # characters that are told
AHEAD = ".ahead"     # how the name of the file beside the image ends that has `ahead` of the core
NEVER_BEGINS = 1, 2  # statuses with which a node tells that its image or its words are bad


class NoNode(Exception):
    """The node can't begin: why, and the status with which the agent ends."""


class Carrier:
    def __init__(self, number, supd, kinds, host, table=None):
        """`supd` begins the words of the node. `host` has the machine's name, mark, options, log, links, loop and queue of events; `table` is what an
        earlier program hands on."""
        options, self.host, self.name, self.links = host.options, host, host.name, host.links
        self.number, self.tag = number, groups.tag_of(number, options.groups)
        self.log = host.log if options.groups == 1 else host.log.of(self.tag)
        self.image = groups.image_of(options.image, number, options.groups)
        self.words_of_node = [supd, self.name, "--image", self.image, *options.settings]
        self.core = core.Core(self.name, host.mark, options, self.links.known(), seconds(), ahead=self.ahead())
        self.children = children.Children(self.name, number, kinds, os.path.abspath(self.image), host.cgroup, host.loop, host.logs, self.log)
        self.node, self.begun_at, self.has_begun, self.has_left = None, seconds(), False, False
        self.looks = None  # who looks at the tables that the node was asked to show
        self.newest = {}  # of each process of a machine the text of its newest words, as long as it waits to be read
        self.began, self.ended = [], []  # processes of which the core is to be told
        self.to_begin = {}  # of each key (id, number, spec): the runs that are to begin, each in its turn
        self.overlaps = overlap.Overlaps(self)
        self.replies, self.tokens = {}, 0  # of each command that somebody waits for, who takes the reply
        self.goes_on = table is not None
        if self.goes_on:
            handover.take_group(self, table)

    def ahead(self):
        """What an earlier core has kept of its sessions, 0 where that is nothing."""
        try:
            with open(self.image + AHEAD) as file:
                return max(0, int(file.read(20)))
        except (OSError, ValueError):
            return 0

    # -- what happens

    def take(self, event, *words):
        """Gives the core an event, and does what it says."""
        for action, *what in getattr(self.core, event)(*words, seconds()):
            DOES[action](self, *what)

    def give(self, event, *words):
        """Has the core take an event behind all that happened before."""
        self.host.events.append((self.take, event, *words))

    def hear(self, sender, mark, text):
        """Words that a process of a machine has said. Of those that wait to be read the newest alone count."""
        if (sender, mark) not in self.newest:
            self.host.events.append((self.read, sender, mark))
        self.newest[sender, mark] = text

    def read(self, sender, mark):
        self.take("heard", sender, word.words_of(self.newest.pop((sender, mark))))

    def note_begin(self, key, process):
        self.tell_processes_soon()
        self.began.append((key, process))

    def note_end(self, key, status, reason=""):
        self.tell_processes_soon()
        self.ended.append((key, status, reason))

    def tell_processes_soon(self):
        """The core takes all that begin or end at once: there may be thousands."""
        if not self.began and not self.ended:
            self.host.events.append((self.tell_processes,))

    def tell_processes(self):
        began, ended, self.began, self.ended = self.began, self.ended, [], []
        over = [run for key, _, _ in ended if (run := self.core.runs.live.get(key))]
        self.take("processes", began, ended)
        for run in over:
            self.note_over(run)

    def note_over(self, run):
        """Has the history know how a run ended, or that it couldn't be begun."""
        known, now = self.host.watch.history, time.time()
        self.host.metrics.restarts += not run.stops
        how = history.TOLD_TO_END if run.stops else self.core.runs.ends.get(run.id, (0, history.ENDED))[1]
        if known.live(self.name, run.id):
            known.ended(self.name, run.id, how, now)
        else:
            known.failed(run.id, history.Run(self.name, run.number, 0, now, now, how))

    def command(self, line, then):
        """Asks a line of somebody; `then` takes the lines of the reply."""
        self.tokens += 1
        self.replies[self.tokens] = then
        self.give("command", self.tokens, line)

    def shows(self, then):
        """Has the node show its tables; `then` takes this carrier and their lines, none where it ends before. Whether there is a node to ask."""
        if self.node is None or not (self.node.is_open and self.node.has_begun):
            return False
        self.looks = then
        self.node.ask("show", self.show)
        return True

    def people(self, now):
        """What people are told of this group."""
        return people.People(self.core, now)

    def show(self, lines):
        looks, self.looks = self.looks, None
        if looks is not None:
            looks(self, lines)

    def tick(self, now, some_ended):
        """Gives what time has brought, and ends of processes, where there may be some: what ended before the node knows of it is told behind its begin."""
        looks = self.has_begun or self.core.node.is_lost(now)
        for key, status, reason in self.children.ended() if looks and (some_ended or self.children.lingers) else ():
            self.note_end(key, status, plain(reason))
        for key, note, delay in self.children.look(now, some_ended):
            self.give("noted", key, plain(note), delay)
        self.children.sessions.tick(now)
        self.overlaps.look(now)
        if self.node is not None:
            self.node.tick(now)
        if now >= self.core.next_moment():
            self.give("tick")

    def next_moment(self, now):
        """When it wants to be called again, though nothing happens."""
        node = self.node.next_moment(now) if self.node is not None else None
        moments = [self.core.next_moment(), node, self.children.next_moment(now), self.overlaps.moment()]
        return min(moment for moment in moments if moment is not None)

    # -- what the core says

    def ask(self, line):
        if self.node is not None and self.node.is_open:  # else it has ended, and the core is still to hear of it
            asked = seconds()
            self.node.ask(line, lambda lines: self.answered(line, lines, asked))

    def answered(self, line, lines, asked):
        """An answer of the node to a line. What `where member` is told begins as a member does."""
        self.host.metrics.steps.note(seconds() - asked)
        if line == "members" and lines and lines[0].startswith("member "):
            self.links.learn(self.number, {one.split(" ")[1]: one.partition(" label=")[2] for one in lines})
        self.give("answered", [lines])

    def begin_node(self):
        try:
            self.node = node.Node(self.words_of_node, self.host.loop, self.node_began, self.node_gone)
        except (OSError, subprocess.SubprocessError) as fault:
            why = getattr(fault, "strerror", None) or str(fault)
            if not self.has_begun and not self.goes_on:
                raise NoNode(f"the node can't begin: {why}", 1) from None
            self.give("node_gone", why)

    def node_began(self, lines):
        self.has_begun = self.host.some_ended = True
        self.give("node_began", lines)

    def node_gone(self, why):
        status, self.node, why = self.node.process.returncode, None, last_words.told(why, self.image)
        self.show([])
        if not self.has_begun and not self.goes_on:
            if status in NEVER_BEGINS:
                raise NoNode(f"the node can't begin: {why}", 1)
            if seconds() - self.begun_at > (FIRST_BEGIN if status >= 0 else node.FIRST_ANSWER):
                raise NoNode(f"the node doesn't begin: {why}", 3)
        self.give("node_gone", why)

    def kill_node(self):
        if self.node is not None:
            self.node.kill("it doesn't answer")

    def end_leftovers(self):
        left = self.children.end_leftovers()
        if left:
            self.log("ended what an earlier agent left:", left)

    def keep_ahead(self, ahead):
        try:
            with open(self.image + AHEAD + ".new", "w") as file:
                file.write(str(ahead))
            os.rename(self.image + AHEAD + ".new", self.image + AHEAD)
        except OSError as fault:
            self.log("beside the image nothing can be kept:", fault.strerror)

    def words(self, name, words):
        self.links.tell(name, f"words {self.tag} {word.text_of(words)}")

    def letter(self, name, session, text):
        self.links.send(name, f"letter {self.tag} {session[0]} {text}")

    def begin(self, key, *run):
        self.to_begin[key] = run
        self.host.begins.append((self.begin_in_turn, key))

    def begin_in_turn(self, key):
        if key in self.to_begin:  # else it was told to end before
            self.begin_now(key, *self.to_begin.pop(key))

    def begin_now(self, key, ident, number, spec):
        try:
            process = self.overlaps.take_back(key, ident, spec) or self.children.begin(key, ident, number, spec)
        except (OSError, ValueError, subprocess.SubprocessError) as fault:
            self.log("no start", ident, number, fault)
            self.note_end(key, None, plain(getattr(fault, "strerror", None) or str(fault)))
            return
        self.log("start", ident, number, process)
        self.host.metrics.runs += 1
        self.host.watch.history.began(ident, history.Run(self.name, number, process, time.time(), None, ""))
        self.note_begin(key, process)
        if delay := self.children.runs[key].kind.delay:
            self.give("noted", key, "", delay)  # now: a short run may have ended when it is looked at first

    def term(self, key):
        if self.to_begin.pop(key, None):
            self.note_end(key, -signal.SIGTERM)
        elif not self.overlaps.takes(key):
            self.children.term(key)

    def kill(self, key):
        if self.to_begin.pop(key, None):
            self.note_end(key, -signal.SIGKILL)
        else:
            self.children.kill(key)

    def reply(self, token, lines):
        """Tells who asked; what the node orders beside is its host's business."""
        self.replies.pop(token)([line for line in lines if not line.startswith("  ")])

    def say(self, *words):
        self.log(*words)

    def left(self):
        self.has_left = True

    def is_over(self):
        """Whether nothing of it is to go on."""
        return self.has_left and self.overlaps.are_over()

    def is_at_rest(self):
        """Whether nobody waits for a reply, no child moves, and its node is told of each run that has ended."""
        return not (self.replies or self.to_begin or self.overlaps.asked or self.overlaps.freed or any(run.status is not None for run in self.core.runs.here.values()))

    def rest(self):
        """Ends all but the runs."""
        self.overlaps.end_all()
        self.children.rest()
        self.close()

    def close(self):
        if self.node is not None:
            self.node.close()


def plain(text):
    """A text that may stand in a line."""
    return "".join(one if one.isprintable() else "?" for one in text[:MOST_OF_A_REASON])


DOES = {"ask": Carrier.ask, "begin node": Carrier.begin_node, "kill node": Carrier.kill_node, "end leftovers": Carrier.end_leftovers, "keep ahead": Carrier.keep_ahead,
        "words": Carrier.words, "letter": Carrier.letter, "begin": Carrier.begin, "term": Carrier.term, "kill": Carrier.kill,
        "reply": Carrier.reply, "log": Carrier.say, "left": Carrier.left}
