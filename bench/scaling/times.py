"""Pictures of times: a step at each size by `simulate`, a placement by members, and real nodes with their files. They are of the machine and its load."""
import hashlib
import os
import statistics
import subprocess
import tempfile
import time

from .counts import NODES, names_of, tried
from .exchanges import WAYS, Course, World, run
from .players import Node, Processes, Running, demand, in_time, processor_of, written_by

SIZES = (100, 300, 1000, 3000, 9900)
RUNS = 3  # of a script of steps; the least of each counts
MEMBERS = (1, 2, 4, 8, 16)
MARK, NOTHING = "mark unknown", "nothing"
PIPE = 4096
MEMORY = "/dev/shm" if os.access("/dev/shm", os.W_OK) else None  # a folder whose files are in memory


def weight(member, id):
    return hashlib.sha256(f"{member}\0{id}".encode()).digest()


def is_won(id):
    """Whether n02 takes this child from n01, where both are members."""
    return weight("n02", id) > weight("n01", id)


class Steps:
    """A script that brings n01, the only member, to each size in turn, and has it make steps of each kind there. A mark stands before a batch of steps
    and behind it, and behind each mark what n14 knows, which is more than a pipe holds: so the program waits there until who reads goes on. To show n14
    takes some hundred microseconds, so a batch has as many steps as take some milliseconds."""

    def __init__(self):
        names = names_of(16)
        self.lines, self.batches, self.sent = ["nodes " + " ".join(names), "join n01"], [], dict.fromkeys(names, 0)
        self.first = next(id for id in map("first-{}".format, range(99)) if not is_won(id))
        self.lines.append(f"start n01 {self.first}")
        self.lines += [f"start n14 shown-{number}" for number in range(300)]
        self.ids, self.given, self.ran, self.made, self.now = [self.first], 1, 1, 0, 0

    def batch(self, kind, size, lines):
        self.batches.append((kind, size, len(lines)))
        self.lines += ["where n01 mark", "show n14", *lines, "where n01 mark", "show n14"]

    def sends(self, verb, node, to):
        self.lines.append(f"{verb} {node} {to}")
        self.sent[node] += 1

    def fill(self, size):
        """Twelve other nodes make rows, and ship them to n01."""
        makers = names_of(13)[1:]
        ids = [f"row-{self.made + number:05d}" for number in range(size - 1 - len(self.ids))]
        self.lines += [f"start {makers[number % 12]} {id} arg=x" for number, id in enumerate(ids)]
        for maker in makers:
            self.sends("ship", maker, "n01")
            self.lines.append(f"deliver {maker} {self.sent[maker]}")
            self.sent["n01"] += 1  # its acknowledgement
        self.ids += ids
        self.made += len(ids)
        self.given += len(ids)

    def starts(self, size, count):
        lines = ["start n01 extra arg=x", "delete n01 extra"] * (count // 2)
        self.given += count // 2
        self.batch("start or delete", size, lines)

    def restarts(self, size, count):
        lines = []
        for _ in range(count):
            self.now += 10
            self.given += 1
            lines.append(f"exit n01 {self.first} 1.{self.ran} crash @{self.now}")
            self.ran = self.given
        self.batch("restart", size, lines)

    def comes(self, size, count):
        """One row at a time from another node, and then each again."""
        ids = [f"one-{size}-{number}" for number in range(count)]
        for id in ids:
            self.lines.append(f"start n16 {id} arg=x")
            self.sends("push", "n16", "n01")
        deliveries = [f"deliver n16 {self.sent['n16'] - count + 1 + number}" for number in range(count)]
        self.batch("row that comes", size, deliveries)
        self.batch("row that is known", size, deliveries * -(-600 // count))
        self.lines += [f"delete n01 {id}" for id in ids]
        self.given += count

    def members(self, size, count):
        """Another member comes, takes about half of all children, and leaves; so many times."""
        lines, won = [], sum(map(is_won, self.ids))
        for _ in range(count):
            self.lines.append("join n02")
            self.sends("push", "n02", "n01")
            self.lines.append("leave n02 n02")
            lines += [f"deliver n02 {self.sent['n02']}", "leave n01 n02"]
        self.given += won * count
        self.batch("change of members", size, lines)

    def wholes(self, size, ships, deliveries):
        """All that n01 knows shipped to n15, which knows it from the first on."""
        self.batch("ship of all", size, ["ship n01 n15"] * ships)
        self.sent["n01"] += ships
        delivery = f"deliver n01 {self.sent['n01']}"
        self.lines.append(delivery)
        self.batch("delivery of all, known", size, [delivery] * deliveries)

    def at(self, size):
        self.fill(size)
        for _ in range(5):
            self.batch(NOTHING, size, [])
        few = max(6, min(200, 60_000 // size)) // 2 * 2
        self.starts(size, few)
        self.comes(size, few)
        self.restarts(size, 2000)
        self.wholes(size, max(4, 40_000 // size), max(4, 10_000 // size))
        self.members(size, max(3, 6000 // size))


def fitted(points):
    """Of points on a line its height at 0 and its rise, by least squares."""
    mean_x, mean_y = (statistics.mean(it) for it in zip(*points))
    rise = sum((x - mean_x) * (y - mean_y) for x, y in points) / sum((x - mean_x) ** 2 for x, _ in points)
    return mean_y - rise * mean_x, rise


class Times:
    """Each picture's method gives its points: the panel, the line, x and y."""

    def __init__(self, program, node_program, seconds, megabytes):
        self.program, self.node_program, self.seconds, self.bytes_at_most = program, node_program, seconds, megabytes * 1_000_000

    # -- steps, in microseconds of a processor

    def steps(self):
        script = Steps()
        for size in SIZES:
            script.at(size)
        runs = tried(f"steps: {len(script.lines)} lines, {RUNS} times", lambda: [self.batches_of(script) for _ in range(RUNS)]) or [{}]
        for kind, size in runs[0]:
            least = min(took[kind, size] for took in runs)
            demand(least > 0, "steps:", kind, "took no time: is what is printed held back?")
            yield "saves" if kind in ("start or delete", "row that comes") else "others", kind, size, least

    def batches_of(self, script):
        """What a step of each batch took."""
        took, shown, marks, refused = {}, {}, [], []
        with Running([*self.program, "simulate"], script.lines, self.seconds, PIPE) as running:
            while line := running.line():
                if line == MARK:
                    running.wait_until_it_waits()
                    marks.append(processor_of(running.process))
                if line.startswith("refused"):
                    refused.append(line)
        demand(not refused and len(marks) == 2 * len(script.batches), "steps:", refused[:3], len(marks))
        for (kind, size, count), begin, end in zip(script.batches, marks[::2], marks[1::2]):
            if kind == NOTHING:
                shown.setdefault(size, []).append(end - begin)
            else:
                took[kind, size] = (end - begin - statistics.median(shown[size])) / count
        return took

    # -- placing, in microseconds of a processor an id

    def placing(self):
        points = []
        for members in MEMBERS:
            if found := tried(f"placing: {members} members", lambda: self.placed(members)):
                points.append((members, found))
                yield "ids", "measured", members, found
        if len(points) > 1:
            base, each = fitted(points)
            for members in MEMBERS:
                yield "ids", f"{base:.1f} + {each:.2f} a member", members, base + each * members

    def placed(self, members, count=20_000):
        head = "members " + " ".join(names_of(members))
        took = [min(self.place([head, *(f"row-{n:05d}" for n in range(ids))]) for _ in range(3)) for ids in (0, count)]
        return (took[1] - took[0]) / count

    def place(self, lines):
        with tempfile.TemporaryFile() as script:
            script.write("\n".join([*lines, ""]).encode())
            script.seek(0)
            process = subprocess.Popen([*self.program, "place"], stdin=script, stdout=subprocess.DEVNULL)
            with in_time(self.seconds, process):
                _, process.returncode, usage = os.wait4(process.pid, 0)
                demand(process.returncode == 0, "place ends with", process.returncode)
        return (usage.ru_utime + usage.ru_stime) * 1e6

    # -- processes: real nodes, each with its image in a file

    def processes(self):
        if not self.node_program:
            return
        for name, folder in [("disk", None)] + [("memory", MEMORY)] * bool(MEMORY):
            yield from tried(f"processes: starts, {name}", lambda: list(self.starts(name, folder))) or ()
        for count in (1, 10, 100, 1000, 10_000):
            if found := tried(f"processes: {count} nodes that ever were", lambda: self.ever(count)):
                yield "ever", "measured", count, found
        for way in WAYS:
            for count in NODES:
                if found := tried(f"processes: {way}, {count} nodes", lambda: self.spread(count, 1000, way)):
                    yield "known", way, count, found

    def starts(self, name, folder, count=20):
        """What a start takes by the clock at each size; the rows come by letters that are written here."""
        with tempfile.TemporaryDirectory(dir=folder) as place, in_time(self.seconds):
            node = Node(self.node_program, "n01", os.path.join(place, "n01.image"))
            node.ask("join")
            for size in SIZES:
                node.ask("deliver " + letter_of_rows(size - 1))
                begin, processor, written = time.monotonic(), processor_of(node.process), written_by(node.process)
                for number in range(count):
                    demand(node.ask(f"start x{number} arg=x")[0].startswith("ok"), "a start at a real node")
                    demand(node.ask(f"delete x{number}")[0].startswith("ok"), "a delete at a real node")
                yield "start", f"by the clock, {name}", size, (time.monotonic() - begin) / (2 * count) * 1e6
                if not folder:
                    continue
                yield "start", "a processor's", size, (processor_of(node.process) - processor) / (2 * count)
                yield "written", "measured", size, (written_by(node.process) - written) / (2 * count)
            node.kill()

    def ever(self, count):
        """The image of a node that knows one dot of each of so many nodes."""
        vector = ",".join(f'"m{number:05d}":1' for number in range(1, count + 1))
        with tempfile.TemporaryDirectory() as place, in_time(self.seconds):
            node = Node(self.node_program, "n01", os.path.join(place, "n01.image"))
            letter = f'{{"ctx":{{"cloud":[],"vector":{{{vector}}}}},"from":"m00001","kind":"push","rows":[],"to":"n01","v":2}}'
            demand(node.ask("deliver " + letter) == ["ok absorbed"], "a context isn't taken in")
            size = len(node.ask("image")[0])
            node.kill()
            return size

    def spread(self, count, rows, way):
        """Seconds of a processor, of all nodes, until all know all, with no file on a disk; then a quarter of the nodes are killed, and come back."""
        names = names_of(count)
        with tempfile.TemporaryDirectory(dir=MEMORY) as place, in_time(self.seconds):
            world = World(names, 64, Processes(names, self.node_program, place, 64), self.bytes_at_most)
            for node in world.nodes:
                world.join(node)
            world.settle_down()
            for number in range(rows - count):
                world.start(world.nodes[number % count])
            begin = world.player.processor()
            run(world, Course(way))
            took = (world.player.processor() - begin) / 1e6
            out = world.nodes[-max(1, count // 4):]
            for node in out:
                world.stop(node)
            world.start(world.nodes[0])
            for node in out:
                world.restart(node)
            run(world, Course(way))
            world.player.end(world)
            return took


def letter_of_rows(count):
    """A push of so many children of a node z."""
    rows = ",".join(f'["child","row-{n:05d}",["z",{n}],{{"arg":"x","kind":"worker","restart":"permanent","shutdown":5000}}]' for n in range(1, count + 1))
    return f'{{"ctx":{{"cloud":[],"vector":{{"z":{count}}}}},"from":"z","kind":"push","rows":[{rows}],"to":"n01","v":2}}'
