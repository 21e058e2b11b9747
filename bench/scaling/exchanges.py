"""Nodes that exchange what they know, reckoned by sets of dots: whom each ships to, what its letter has, how long its text is, and what is answered.
Whoever plays the steps is told each with its answer, so that a program which answers otherwise, or writes a longer text, is found out."""
import random
from dataclasses import dataclass

ROW = '["child","",["",],{"arg":"x","kind":"worker","restart":"permanent","shutdown":5000}]'
MEMBER_ROW = '["member","",["",],{"label":"","status":"open"}]'
ROUNDS_AT_MOST = 400
# Of a child whose id has 9 bytes, by a node whose name has 3: bytes of its row, and of its dot in a cloud.
ROW_BYTES, DOT_BYTES = 100, 12


class TooMuch(Exception):
    """A run that would be larger than is allowed."""


def all_to_all(world, chance):
    return [(node, to) for node in world.nodes if node.is_up for to in world.nodes if to is not node]


def random_peer(world, chance):
    """Each picks one of all others; it doesn't know who is down."""
    return [(node, chance.choice([to for to in world.nodes if to is not node])) for node in world.nodes if node.is_up]


def ring(world, chance):
    return [(node, world.nodes[(node.place + 1) % len(world.nodes)]) for node in world.nodes if node.is_up]


WAYS = {"all to all": all_to_all, "random peer": random_peer, "ring": ring}


# -- sets of dots: for each node a number whose bit k - 1 is the node's dot k

def digits(dots):
    """How many digits the counters of these dots have in all."""
    total, low = 0, 1
    while dots >> low - 1:
        total += (dots >> low - 1).bit_count()
        low *= 10
    return total


def front(dots):
    """The greatest n with the dots 1 to n all there."""
    return (~dots & (dots + 1)).bit_length() - 1


def child_of(name, counter):
    return f"{name}-{counter:05d}"


def size_of(names, known):
    """How long the text of a context and its rows is, where no row was removed and each node's first dot is its member."""
    vector = cloud = rows = 0
    for name, dots in zip(names, known):
        ahead = front(dots)
        beyond = dots >> ahead << ahead
        vector += len(f',"{name}":{ahead}') if ahead else 0
        cloud += beyond.bit_count() * len(f',["{name}",]') + digits(beyond)
        rows += (dots & ~1).bit_count() * (len(ROW) + 1 + len(child_of(name, 0)) + len(name)) + digits(dots)
        rows += (dots & 1) * (len(MEMBER_ROW) + 1 + 2 * len(name))
    return len('"ctx":{"cloud":[],"vector":{}},"rows":[]') + max(vector - 1, 0) + max(cloud - 1, 0) + max(rows - 1, 0)


@dataclass
class Letter:
    sender: "Node"
    number: int  # among all that its sender ever sent
    to: "Node"
    kind: str
    count: int
    known: list  # None for an acknowledgement
    size: int

    def told(self):
        what = "ack" if self.known is None else "delta"
        return f"  sent {self.sender.name} {self.number} to {self.to.name} {what} {self.count} {self.kind}".rstrip()


class Node:
    def __init__(self, place, name, width):
        self.place, self.name = place, name
        self.is_up, self.boot, self.count, self.own, self.sent = True, 1, 0, 0, 0
        self.known = [0] * width
        self.forget()

    def forget(self):
        self.held, self.acknowledged = {}, {}

    def note(self, known, buffer):
        """Takes in a change, and holds it to send parts of."""
        self.known = [mine | its for mine, its in zip(self.known, known)]
        self.held[self.count] = known
        self.held.pop(self.count - buffer, None)
        self.count += 1

    def covers(self, known):
        return not any(its & ~mine for mine, its in zip(self.known, known))

    def lacks(self, to):
        """Whether there is something to ship to that node."""
        return self.acknowledged.get(to.name, 0) != self.count


class World:
    def __init__(self, names, buffer, player, bytes_at_most):
        self.names, self.buffer, self.player, self.bytes_at_most = names, buffer, player, bytes_at_most
        self.nodes = [Node(place, name, len(names)) for place, name in enumerate(names)]
        self.messages = self.bytes = 0

    def add(self, node, line):
        node.own += 1
        known = [0] * len(self.names)
        known[node.place] = 1 << node.own - 1
        node.note(known, self.buffer)
        self.player.does(node, line, f"ok ({node.name},{node.own})")

    def join(self, node):
        self.add(node, "join")

    def start(self, node):
        self.add(node, f"start {child_of(node.name, node.own + 1)} arg=x")

    def post(self, sender, to, kind, known, count):
        sender.sent += 1
        heads = f'{{"from":"{sender.name}","kind":"{"ack" if known is None else "delta"}","n":{count},"to":"{to.name}","v":2}}'
        size = len(heads) + (0 if known is None else size_of(self.names, known) + 1)
        self.messages += 1
        self.bytes += size
        if self.bytes > self.bytes_at_most:
            raise TooMuch(f"letters of over {self.bytes_at_most / 1e6:.0f} MB")
        return Letter(sender, sender.sent, to, kind, count, known, size)

    def ship(self, node, to):
        if not node.lacks(to):
            self.player.ships(node, to, None)
            return None
        numbers = range(node.acknowledged.get(to.name, 0), node.count)
        is_part = len(numbers) <= len(node.held) and all(n in node.held for n in numbers)
        known = list(node.known)
        if is_part:
            known = [0] * len(self.names)
            for n in numbers:
                known = [mine | its for mine, its in zip(known, node.held[n])]
        letter = self.post(node, to, "part" if is_part else "whole", known, node.count)
        self.player.ships(node, to, letter)
        return letter

    def deliver(self, letter):
        """The acknowledgement, if one leaves."""
        at, answer = letter.to, None
        if letter.known is None:
            at.acknowledged[letter.sender.name] = max(letter.count, at.acknowledged.get(letter.sender.name, 0))
            reply = "ok acked"
        else:
            reply = "ok known" if at.covers(letter.known) else "ok absorbed"
            if reply == "ok absorbed":
                at.note(letter.known, self.buffer)
            answer = self.post(at, letter.sender, "", None, letter.count)
        self.player.delivers(letter, reply, answer)
        return answer

    def stop(self, node):
        node.is_up = False
        node.forget()
        self.player.stops(node)

    def restart(self, node):
        node.is_up, node.boot = True, node.boot + 1
        self.player.restarts(node)

    def all_know_all(self):
        return all(node.is_up and node.known == self.nodes[0].known for node in self.nodes)

    def exchange(self, pairs, is_lost):
        """A round: all ship what they knew at its begin; then what isn't lost comes, and then the acknowledgements."""
        letters = [letter for node, to in pairs if (letter := self.ship(node, to))]
        answers = [self.deliver(letter) for letter in letters if not is_lost(letter) and letter.to.is_up]
        for answer in answers:
            if not is_lost(answer):
                self.deliver(answer)
        return len(letters)

    def meet(self):
        """All ship to the first, and that one to all, until nobody has anything to ship."""
        first, *others = self.nodes
        pairs = [(node, first) for node in others] + [(first, node) for node in others]
        while self.exchange(pairs, lambda letter: False):
            pass

    def settle_down(self):
        while self.exchange(all_to_all(self, None), lambda letter: False):
            pass


@dataclass
class Course:
    """How nodes exchange in a run."""
    way: str = "all to all"
    loss: float = 0.0
    seed: int = 1
    before: object = None  # what is done before a round, given its number from 1; answers whether more comes
    is_cut: object = lambda letter: False
    until_quiet: bool = False


@dataclass
class Outcome:
    rounds: int
    messages: int
    bytes: int


def run(world, course):
    """Rounds, messages and bytes from here until all nodes know all, or until nobody has anything left to ship."""
    peers, losses = random.Random(f"peers {course.seed}"), random.Random(f"losses {course.seed}")
    messages, sent = world.messages, world.bytes

    def is_lost(letter):
        return losses.random() < course.loss or course.is_cut(letter)

    for number in range(1, ROUNDS_AT_MOST + 1):
        more = course.before(number) if course.before else False
        world.exchange(WAYS[course.way](world, peers), is_lost)
        is_done = world.all_know_all() and not more
        if is_done and course.until_quiet:
            reached = all_to_all(world, None) if course.way == "random peer" else WAYS[course.way](world, peers)
            is_done = not any(node.lacks(to) for node, to in reached)
        if is_done:
            return Outcome(number, world.messages - messages, world.bytes - sent)
    raise TooMuch(f"more than {ROUNDS_AT_MOST} rounds")
