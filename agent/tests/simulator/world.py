"""A cluster in one process with a clock of its own. All chance comes from one number, so what happens once happens again."""
import heapq
import random

from simulator import machines, network


class World:
    def __init__(self, chance, names, options, node_of):
        """`node_of(machine)` begins the node of a machine. `options` are those of each agent."""
        self.chance, self.now, self.heap, self.count = random.Random(chance), 0.0, [], 0
        self.options, self.node_of, self.log, self.replies, self.commands = options, node_of, [], {}, {}
        self.network, self.is_healed = network.Network(self), False
        self.machines = {name: machines.Machine(self, name) for name in names}
        self.processes, self.live = 0, {}     # how many began; of each child the processes that live
        self.ran_of_twins = 0, 0              # the processes of two machines of one name, when the second one ended
        self.begins, self.doubles = [], []    # what `promises.py` looks at
        self.given = set()                          # the dots that nodes gave to entries of theirs
        self.given_twice, self.unknowable = [], []  # those given again though others knew them: where the giver heard one of these, and where not
        self.letters = []                         # what nodes have written

    # -- time

    def at(self, moment, do, *words):
        self.count += 1
        heapq.heappush(self.heap, (moment if moment > self.now else self.now, self.count, do, words))

    def after(self, seconds, do, *words):
        self.at(self.now + seconds, do, *words)

    def run(self, until):
        heap, pop = self.heap, heapq.heappop
        while heap and heap[0][0] <= until:
            self.now, _, do, words = pop(heap)
            do(*words)
        self.now = until

    def note(self, *words):
        self.log.append((self.now, words))

    def lines(self):
        """The log as text."""
        return [f"{moment:8.3f} " + " ".join(map(str, words)) for moment, words in self.log]

    # -- letters

    def letter_token(self, letter):
        """What stands for a letter, as long for each: how long an agent rests behind a letter depends on that."""
        self.letters.append(letter)
        return f"L{len(self.letters) - 1:09}"

    def letter_of(self, token):
        return self.letters[int(token[1:])]

    # -- people

    def command(self, machine, line):
        if machine.agent is not None:
            token = len(self.commands) + 1
            self.commands[token] = Command(self.now, machine.name, line, len(machine.losses))
            machine.agent.take("command", token, line)

    # -- processes

    def process_begins(self, process):
        """Notes that a process of a child begins, and whether another one lives."""
        ident, machine = process.id, process.machine
        self.processes += 1
        process.pid = self.processes
        live = self.live.setdefault(ident, set())
        others = sorted(other.machine.key for other in live)
        self.begins.append((self.now, ident, machine.key))
        assert machine.key not in others, f"two processes of {ident} on {machine.key}"
        assert ident not in machine.leftovers, f"what an earlier agent left of {ident} on {machine.key} lives beside a new process of it"
        if others:
            self.doubles.append((self.now, ident, machine.key, others[0], self.network.was_whole()))
        live.add(process)

    def dot_is_given(self, machine, dot):
        """Notes a dot that a node gives to an entry of its own: once and for all, but for what only a lost disk knew."""
        knowing = {other.name for other in self.machines.values() if other.name != machine.name and dot in other.state().known} if dot in self.given else set()
        if knowing:
            sight = machine.agent.core.sight
            could_know = knowing & sight.heard(machine.clock()) or not sight.words and machine.is_new
            (self.given_twice if could_know else self.unknowable).append((self.now, machine.key, dot))
        self.given.add(dot)


class Command:
    """What somebody asked, where, and how many images that machine had lost before."""

    def __init__(self, moment, machine, line, losses):
        self.moment, self.machine, self.line, self.losses = moment, machine, line, losses
