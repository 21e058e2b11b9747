"""Pictures of counts: rounds, messages and bytes by seeds that are fixed, each run reckoned beside the program; and how long images and letters are."""
import statistics
import sys

from .exchanges import WAYS, Course, TooMuch, World, child_of, run
from .players import Running, Script

NODES = (2, 4, 8, 12, 16)
ROWS = (100, 300, 1000, 3000, 10_000)
BUFFERS = (4, 8, 16, 32, 64, 128)
LOSSES = (0, 5, 10, 15, 20, 25, 30)  # percent
SEEDS = (1, 2, 3, 4, 5)


def names_of(count):
    return [f"n{number:02d}" for number in range(1, count + 1)]


def round_numbers(most, steps=(1, 2, 5)):
    return [step * 10**power for power in range(7) for step in steps if step * 10**power <= most]


def tried(name, call):
    """What a call gives; None, and a line on standard error, where it would be larger than is allowed."""
    print(f"{name} ..", file=sys.stderr, flush=True)
    try:
        return call()
    except TooMuch as fault:
        print(f"{name}: left out, {fault}", file=sys.stderr, flush=True)


class Counts:
    """Each picture's method gives its points: the panel, the line, x and y."""

    def __init__(self, program, seconds, megabytes):
        self.program, self.seconds, self.bytes_at_most = program, seconds, megabytes * 1_000_000

    def world(self, count, buffer=64):
        names = names_of(count)
        return World(names, buffer, Script(names), self.bytes_at_most)

    def play(self, world):
        world.player.play(self.program, world, self.seconds)

    def printed(self, lines):
        """What a script prints whose answers nobody reckoned."""
        with Running([*self.program, "simulate", "--weigh", "flat"], lines, self.seconds) as running:
            return list(iter(running.line, ""))

    # -- nodes: how rounds, messages and bytes grow with nodes and with losses

    def nodes(self):
        for way in WAYS:
            for loss in (0, 30):
                for count in NODES:
                    found = tried(f"nodes: {way}, {loss}% lost, {count} nodes", lambda: self.mean_spread(count, 1000, way, loss))
                    for panel, value in zip(("rounds", "messages", "bytes"), found or ()):
                        yield panel, f"{way}, {loss}% lost", count, value
            for loss in LOSSES:
                if found := tried(f"nodes: {way}, {loss}% lost", lambda: self.mean_spread(16, 100, way, loss)):
                    yield "losses", way, loss, found[0]

    def mean_spread(self, count, rows, way, loss):
        seeds = SEEDS if loss or way == "random peer" else SEEDS[:1]
        outcomes = [self.spread(count, rows, Course(way, loss / 100, seed)) for seed in seeds]
        return [statistics.mean(getattr(it, what) for it in outcomes) for what in ("rounds", "messages", "bytes")]

    def spread(self, count, rows, course):
        """So many rows spread over nodes, whose members all know, until all know all."""
        world = self.world(count)
        for node in world.nodes:
            world.join(node)
        world.settle_down()
        for number in range(rows - count):
            world.start(world.nodes[number % count])
        outcome = run(world, course)
        self.play(world)
        return outcome

    # -- rows: how bytes grow with rows, of eight nodes

    def rows(self):
        for panel, until_quiet in ("known", False), ("quiet", True):
            for way in WAYS:
                for rows in ROWS:
                    course = Course(way, until_quiet=until_quiet)
                    if found := tried(f"rows: {panel}, {way}, {rows}", lambda: self.spread(8, rows - 16, course)):
                        yield panel, way, rows, found.bytes

    # -- buffer: parts and wholes

    def buffer(self):
        for buffer in 16, 64, 256:
            for changes in round_numbers(1000):
                if found := tried(f"buffer: {buffer}, {changes} changes", lambda: self.one_ship(buffer, changes)):
                    yield "ship", f"buffer {buffer}", changes, found
        for loss in 0, 10, 30:
            for buffer in BUFFERS:
                if found := tried(f"buffer: {buffer}, {loss}% lost", lambda: self.news(buffer, loss)):
                    yield "news", f"{loss}% lost", buffer, found

    def one_ship(self, buffer, changes):
        """The bytes of a ship by a node of 1,000 rows to one that has acknowledged all but so many changes."""
        world = self.world(2, buffer)
        first, second = world.nodes
        world.join(first)
        for _ in range(999):
            world.start(first)
        world.settle_down()
        return self.shipped(world, changes)

    def shipped(self, world, changes):
        first, second = world.nodes
        for _ in range(changes):
            world.start(first)
        letter = world.ship(first, second)
        self.play(world)
        return letter.size

    def news(self, buffer, loss):
        """Bytes until all know all where each of eight nodes adds a row in each of ten rounds, all to all, over 1,000 rows that all know."""
        def before(number):
            for node in world.nodes if number <= 10 else ():
                world.start(node)
            return number < 10

        world = self.known_world(buffer)
        outcome = run(world, Course("all to all", loss / 100, before=before))
        self.play(world)
        return outcome.bytes

    def known_world(self, buffer):
        """Eight members with 1,000 rows that all know and have acknowledged."""
        world = self.world(8, buffer)
        for node in world.nodes:
            world.join(node)
        for number in range(992):
            world.start(world.nodes[number % 8])
        world.settle_down()
        return world

    # -- away: nodes that stop and come back

    def away(self):
        for line, buffer, is_stopped in ("stopped", 64, True), ("cut off", 64, False), ("cut off, buffer 16", 16, False):
            for count in range(8):
                if found := tried(f"away: {line}, {count}", lambda: self.gone("all to all", count, buffer, is_stopped, 1)):
                    yield "bytes", line, count, found.bytes
        for way in WAYS:
            seeds = SEEDS if way == "random peer" else SEEDS[:1]
            for count in range(8):
                if found := tried(f"away: {way}, {count}", lambda: [self.gone(way, count, 64, True, seed).rounds for seed in seeds]):
                    yield "rounds", way, count, statistics.mean(found)

    def gone(self, way, count, buffer, is_stopped, seed):
        """Of eight nodes so many are away for five rounds, in which each other one adds a row; until all know all."""
        world = self.known_world(buffer)
        out, here = world.nodes[8 - count:], world.nodes[:8 - count]
        begins = {1: world.stop, 6: world.restart} if is_stopped else {}
        is_cut = False

        def before(number):
            nonlocal is_cut
            for node in out if number in begins else ():
                begins[number](node)
            is_cut = number <= 5
            for node in here if is_cut else ():
                world.start(node)
            return is_cut

        course = Course(way, 0, seed, before, lambda letter: is_cut and (letter.sender in out or letter.to in out))
        outcome = run(world, course)
        self.play(world)
        return outcome

    # -- images, and letters by what they have

    def images(self):
        for count in 1, *NODES:
            yield "nodes", "measured", count, self.image_of_nodes(count)
        for count in 0, 100, 200, 400, 700, 1000:
            yield "gaps", "every second one", count, self.image_of_gaps(count)
            yield "gaps", "all of them", count, self.image_of_removed(count)
        for rows in *ROWS[:-1], 9_900:
            if found := tried(f"images: {rows} rows", lambda: self.image_of_rows(rows)):
                yield "rows", "image", rows, found
        for rows in round_numbers(1000):
            for line, buffer in ("part", 1024), ("whole", 1):
                if found := tried(f"images: a {line} of {rows} rows", lambda: self.letter_of(rows, buffer)):
                    yield "letters", line, rows, found

    def image_of_nodes(self, count):
        """Behind so many nodes of which each added one row, which is gone."""
        names = names_of(count)
        lines = ["nodes " + " ".join(names), *(f"start {name} {child_of(name, 1)}" for name in names)]
        for name in names[1:]:
            lines += [f"ship {name} n01", f"deliver {name} 1"]
        return self.last_image(lines + [f"delete n01 {child_of(name, 1)}" for name in names])

    def image_of_gaps(self, count):
        """Of a node that knows every second one of another's adds, so many, and has removed them."""
        lines = ["nodes n01 n02"]
        for number in range(1, count + 1):
            lines += [f"start n02 a{number}", f"start n02 b{number}", "push n02 n01", f"deliver n02 {number}", f"delete n01 b{number}"]
        return self.last_image(lines)

    def image_of_removed(self, count):
        """Of a node that knows all of another's adds, so many, and has removed them."""
        lines = ["nodes n01 n02"]
        for number in range(1, count + 1):
            lines += [f"start n02 a{number}", "push n02 n01", f"deliver n02 {number}", f"delete n01 a{number}"]
        return self.last_image(lines)

    def image_of_rows(self, rows):
        names = names_of(16)
        lines = ["nodes " + " ".join(names)]
        for number in range(rows):
            name = names[number % 16]
            lines.append(f"start {name} {child_of(name, number // 16 + 1)} arg=x")
        for name in names[1:]:
            lines += [f"ship {name} n01", f"deliver {name} 1"]
        return self.last_image(lines)

    def last_image(self, lines):
        return len(self.printed([*lines, "image n01"])[-1])

    def letter_of(self, rows, buffer):
        """Bytes of a letter of so many rows to a member that knew none of them, and with a buffer of 1 all besides."""
        world = self.world(2, buffer)
        for node in world.nodes:
            world.join(node)
        world.settle_down()
        return self.shipped(world, rows)
