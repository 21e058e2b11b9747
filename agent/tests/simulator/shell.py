"""Carries the core's actions at a machine of the world, as the agent's loop does at a real one."""
import json
import types

import handover
from core import core, word
from simulator import nodes, processes

OPTIONS = types.SimpleNamespace(silent=3, every=0.5, grace=3, least=1, label="x", intensity=1000, period=5, backoff=60, stable=10, rejoin=15,
                                leave_time=5, patience=2, setting="8 groups, weigher sha256", alone=False, text=False, knows_peers=True)
DO = {"begin node": "begin_node", "kill node": "kill_node", "end leftovers": "end_leftovers", "keep ahead": "keep_ahead"}  # the others are named as their actions
SOON = 0.002  # seconds until an agent hears of what has happened on its machine
MUTE = 1      # seconds for which an agent has told nothing, since it has no node, from which on nobody is said to hear it or to hear others by it


class Shell:
    def __init__(self, machine, before=None):
        """`before` is the shell of the program whose runs this one goes on with."""
        self.machine, self.world, self.node, self.processes, self.tick_at, self.lines, self.is_open = machine, machine.world, None, {}, None, [], True
        self.members = set()  # to which it connects, as it was looked at last
        self.mute_from = None  # since when it tells nothing
        options = types.SimpleNamespace(**{**vars(self.world.options), "setting": machine.setting or self.world.options.setting})
        others = [name for name, other in self.world.machines.items() if name != machine.name and not other.is_twin]
        peers = (others if machine.peers is None else machine.peers) if options.knows_peers else None
        mark = before.core.sight.session[1] if before else f"{self.world.chance.getrandbits(64):016x}"
        self.core = core.Core(machine.name, mark, options, peers, machine.clock(), self.whole, machine.ahead)
        self.has_text, self.late = options.text, None  # ends that are told once there is a node, None where they are told at once
        if before is not None:
            self.go_on_with(before)
        self.world.after(0, self.take, "tick")

    def go_on_with(self, before):
        handover.take_core(self.core.runs, json.loads(json.dumps(handover.of_core(before.core.runs))))
        self.processes = {key: before.processes[key] for key in self.core.runs.live}
        self.late = [(key, process.status) for key, process in self.processes.items() if not process.is_live]
        for key, process in self.processes.items():
            process.ended = lambda status, key=key: self.ended(key, status)

    def is_at_rest(self):
        """Whether it could become another program now."""
        runs = self.core.runs
        return not (self.core.why() or self.core.leave_at is not None or any(run.status is not None for run in runs.here.values()) or runs.live.keys() - self.processes.keys())

    def ended(self, key, status):
        if self.late is None:
            self.take_later("processes", [], [(key, status, "")])
        else:
            self.late.append((key, status))

    def tell_late(self):
        late, self.late = self.late or (), None
        for key, status in late:
            self.ended(key, status)

    def take(self, what, *words):
        """Gives the core an event, or keeps it while the agent is held."""
        if not self.is_open:
            return
        if self.machine.is_held:
            self.machine.missed.append((what, words))
            return
        if what == "heard" and self.has_text:
            words = words[0], word.words_of(words[1])
        elif what == "answered":
            node, *words = words
            if self.node is not node:
                return
        for action in getattr(self.core, what)(*words, self.machine.clock()):
            getattr(self, DO.get(action[0], action[0]))(*action[1:])
        if self.machine.peers is not None and self.core.members.since.keys() != self.members:
            self.members = set(self.core.members.since)
            self.world.network.relink()
        self.look_whether_it_tells()
        self.look_again()

    def look_whether_it_tells(self):
        is_silent = self.core.telling.is_silent()
        if is_silent != (self.mute_from is not None):
            self.mute_from = self.world.now if is_silent else None
            self.world.after(MUTE + 0.001 if is_silent else 0, self.world.network.changes)

    def is_mute(self):
        return self.mute_from is not None and self.world.now - self.mute_from > MUTE

    def look_again(self):
        now, machine = self.world.now, self.machine
        moment = max(self.core.next_moment() + machine.clock_is_behind, now + 0.001)
        if self.is_open and (self.tick_at is None or moment < self.tick_at - 0.001 or self.tick_at <= now):
            self.tick_at = moment
            self.world.at(moment, self.tick, moment)

    def tick(self, moment):
        if self.tick_at == moment:
            self.tick_at = None
            self.take("tick")
            if self.late and self.core.node.is_lost(self.machine.clock()):
                self.tell_late()

    def go_on(self, missed):
        for what, words in missed:
            self.take(what, *words)
        self.take("tick")

    def close(self):
        self.is_open = False
        self.end_node()

    def take_later(self, *event):
        self.world.after(SOON, self.take, *event)

    # -- the node answers a line after the other

    def begin_node(self):
        self.world.after(0.01 + 0.05 * self.world.chance.random(), self.node_comes)

    def node_comes(self):
        if not self.is_open:
            return
        if self.wakes() > self.world.now:
            self.world.at(self.wakes(), self.node_comes)
            return
        try:
            self.node, self.lines = self.world.node_of(self.machine), []
        except nodes.NoNode as fault:
            self.take("node_gone", fault.args[0])
            return
        self.take("node_began", self.node.first)
        self.tell_late()

    def wakes(self):
        return max(self.machine.frozen_until, self.machine.node_held_until)

    def ask(self, line):
        if self.node is None:
            return  # it has ended, and the core is still to hear of it
        self.lines.append(line)
        if len(self.lines) == 1:
            self.work(self.node)

    def work(self, node):
        self.world.after(self.machine.node_slow or 0.0005 + 0.002 * self.world.chance.random(), self.answer, node)

    def answer(self, node):
        if self.node is not node:
            return
        if self.wakes() > self.world.now:
            self.world.at(self.wakes(), self.answer, node)
            return
        count = 1 if self.machine.node_slow else len(self.lines)
        now, self.lines = self.lines[:count], self.lines[count:]
        told = [node.answer(line) for line in now]
        for lines in told:
            if lines and lines[0].startswith("ok ("):
                self.world.dot_is_given(self.machine, dot_of(lines[0]))
        if self.lines:
            self.work(node)
        self.take("answered", node, told)

    def kill_node(self):
        self.machine.node_held_until = 0
        if self.node is not None:
            self.end_node()
            self.take_later("node_gone", "signal 9")

    def end_node(self):
        if self.node is not None:
            self.node.end()
        self.node = None

    def whole(self, image, sender, to):
        return self.node.whole(image, sender, to)

    # -- lines, processes, people

    def words(self, name, words):
        sent = word.text_of(words) if self.has_text else words
        for machine in self.world.network.reached(self.machine, name):
            self.world.network.send(self.machine, machine, "heard", self.machine.name, sent)

    def letter(self, name, session, text):
        for machine in self.world.network.reached(self.machine, name):
            self.world.network.send(self.machine, machine, "letter", self.machine.name, session, text)

    def begin(self, key, ident, number, spec):
        kind = spec.split(" ", 1)[0]
        if kind == "missing":
            self.take_later("processes", [], [(key, None, "no kind missing")])
            return
        process = processes.Process(self.machine, ident, kind, lambda status: self.ended(key, status))
        self.processes[key] = process
        self.take_later("processes", [(key, process.pid)], [])

    def term(self, key):
        if key in self.processes:
            self.processes[key].term()

    def kill(self, key):
        if key in self.processes:
            self.processes[key].kill()

    def end_leftovers(self):
        self.machine.leftovers = set()

    def keep_ahead(self, ahead):
        self.machine.ahead = ahead

    def reply(self, token, lines):
        self.world.replies[token] = lines

    def log(self, *words):
        self.machine.say(*words)

    def left(self):
        self.machine.end_agent()


def dot_of(reply):
    """The dot that `ok (a,5)` tells, as (5, "a")."""
    name, number = reply.split(" ")[1].strip("()").split(",")
    return int(number), name
