"""Who plays the steps of reckoned nodes: one script for `supctl simulate`, or a process of `supd` a node. Each answer, each letter's head and the length
of each text must be what was reckoned; `Wrong` is raised where one isn't."""
import contextlib
import fcntl
import json
import os
import subprocess
import tempfile
import threading
import time

from .exchanges import TooMuch

SCRIPT_LIMIT = 1_048_576


class Wrong(Exception):
    pass


def demand(holds, *what):
    if not holds:
        raise Wrong(" ".join(str(it) for it in what))


@contextlib.contextmanager
def in_time(seconds, *processes):
    """Ends these processes, or the nodes that run then, where what stands inside takes longer; `TooMuch` is raised then."""
    is_late = threading.Event()

    def give_up():
        is_late.set()
        for process in processes or [node.process for node in Node.begun]:
            process.kill()

    timer = threading.Timer(seconds, give_up)
    timer.start()
    try:
        yield
    except (Wrong, OSError):
        if not is_late.is_set():
            raise
    finally:
        timer.cancel()
        for node in list(Node.begun):
            node.kill()
    if is_late.is_set():
        raise TooMuch("it took too long")


def processor_of(process):
    """Microseconds of a processor that a process has taken."""
    with open(f"/proc/{process.pid}/schedstat") as told:
        return int(told.read().split()[0]) / 1000


def written_by(process):
    """Bytes that a process has written, to files and pipes."""
    with open(f"/proc/{process.pid}/io") as told:
        return next(int(line.split()[1]) for line in told if line.startswith("wchar"))


def kept_alike(world, node, text):
    """Whether an image's text has what its node was reckoned to know."""
    image = json.loads(text)
    vector = {name: dots.bit_length() for name, dots in zip(world.names, node.known) if dots}
    demand(image["ctx"] == {"cloud": [], "vector": vector}, node.name, "knows", image["ctx"], "reckoned", vector)
    demand(len(image["rows"]) == sum(vector.values()), node.name, "has", len(image["rows"]), "rows")
    demand(image["count"] == node.count and image["boot"] == node.boot, node.name, "counts otherwise")


class Running:
    """A program over a script, whose lines come as they are printed; it is ended where it takes too long."""

    def __init__(self, words, lines, seconds, pipe=None):
        self.input = tempfile.TemporaryFile()
        self.input.write("\n".join([*lines, ""]).encode())
        if self.input.tell() > SCRIPT_LIMIT:
            raise TooMuch("its script has over 1 MiB")
        self.input.seek(0)
        self.process = subprocess.Popen(words, stdin=self.input, stdout=subprocess.PIPE, bufsize=1 << 20)
        if pipe:  # a small one, so that the program is never far ahead of who reads
            fcntl.fcntl(self.process.stdout, fcntl.F_SETPIPE_SZ, pipe)
        self.is_late = False
        self.timer = threading.Timer(seconds, self.give_up)
        self.timer.start()

    def give_up(self):
        self.is_late = True
        self.process.kill()

    def line(self):
        text = self.process.stdout.readline()
        if self.is_late:
            raise TooMuch("it took too long")
        return text.decode().removesuffix("\n")

    def wait_until_it_waits(self):
        """Until the program sleeps, since it can't write more."""
        while not self.is_late:
            with open(f"/proc/{self.process.pid}/stat") as told:
                if told.read().rsplit(")", 1)[1].split()[0] == "S":
                    return
            time.sleep(0.0005)

    def __enter__(self):
        return self

    def __exit__(self, *_):
        self.timer.cancel()
        self.process.kill()
        self.process.stdout.close()
        self.process.wait()
        self.input.close()


class Script:
    """Lines for `simulate`, each with the first line of its answer, and the last where a letter leaves."""

    def __init__(self, names):
        self.lines, self.answers = ["nodes " + " ".join(names)], []

    def say(self, line, reply, letter=None):
        self.lines.append(line)
        self.answers.append((line, reply, letter and letter.told()))
        if letter:
            self.lines.append(f"message {letter.sender.name} {letter.number}")
            self.answers.append((self.lines[-1], letter.size, None))

    def does(self, node, line, reply):
        verb, *words = line.split(" ")
        self.say(" ".join([verb, node.name, *words]), reply)

    def ships(self, node, to, letter):
        self.say(f"ship {node.name} {to.name}", "ok sent" if letter else "refused 12 UpToDate", letter)

    def delivers(self, letter, reply, answer):
        self.say(f"deliver {letter.sender.name} {letter.number}", reply, answer)

    def stops(self, node):
        self.say(f"stop {node.name}", "ok stopped")

    def restarts(self, node):
        self.say(f"restart {node.name}", f"ok boot {node.boot}")

    def play(self, program, world, seconds):
        lines = self.lines + [f"image {node.name}" for node in world.nodes]
        words = [*program, "simulate", "--weigh", "flat", "--buffer", str(world.buffer)]
        with Running(words, lines, seconds) as running:
            line = running.line()
            for asked, reply, letter in self.answers:
                line = self.meet(running, line, asked, reply, letter)
            for node in world.nodes:
                kept_alike(world, node, line)
                line = running.line()
            demand(line == "", "more is printed than was asked for:", line)

    def meet(self, running, line, asked, reply, letter):
        """Reads one answer, whose first line is here, and gives the first line of the next."""
        if isinstance(reply, int):
            demand(len(line) == reply, asked, "has", len(line), "bytes, reckoned", reply)
            return running.line()
        demand(line == reply, asked, "gives", line, "reckoned", reply)
        last, line = None, running.line()
        while line.startswith("  "):
            last, line = line, running.line()
        if letter is None:
            demand(last is None or not last.startswith("  sent "), asked, "sends", last)
        else:
            demand(last == letter, asked, "sends", last, "reckoned", letter)
        return line


class Node:
    """A process of `supd` over its pipes."""

    begun = []

    def __init__(self, program, name, image, options=()):
        words = [*program, name, "--image", str(image), *options]
        self.process = subprocess.Popen(words, stdin=subprocess.PIPE, stdout=subprocess.PIPE, stderr=subprocess.DEVNULL, bufsize=1 << 20)
        Node.begun.append(self)
        self.first = self.answer()

    def answer(self):
        lines = []
        while (line := self.process.stdout.readline()) != b"\n":
            demand(line.endswith(b"\n"), "a node ended in the middle of its answer")
            lines.append(line.decode().removesuffix("\n"))
        return lines

    def ask(self, line):
        self.process.stdin.write(line.encode() + b"\n")
        self.process.stdin.flush()
        return self.answer()

    def kill(self):
        self.process.kill()
        self.process.wait()
        self.process.stdout.close()
        with contextlib.suppress(BrokenPipeError):
            self.process.stdin.close()
        Node.begun.remove(self)


class Processes:
    """A process of `supd` for each node; letters are carried by their texts."""

    def __init__(self, names, program, folder, buffer):
        self.program, self.folder = program, folder
        self.options = ("--weigh", "flat", "--buffer", str(buffer))
        self.letters = {}
        self.running = {name: self.begun(name, 1) for name in names}

    def begun(self, name, boot):
        node = Node(self.program, name, os.path.join(self.folder, f"{name}.image"), self.options)
        demand(node.first[0] == f"ok boot {boot}", name, "begins with", node.first[0])
        return node

    def told(self, name, line, reply, letter):
        """Asks a node, which must answer this, and send that letter, if any."""
        lines = self.running[name].ask(line)
        demand(lines[0] == reply, name, line[:60], "gives", lines[0], "reckoned", reply)
        sends = lines[-1].strip().split(" ") if lines[-1].startswith("  send ") else None
        demand((sends is None) == (letter is None), name, line[:60], "sends", sends)
        if letter:
            demand(sends[1] == letter.to.name and len(sends[2]) == letter.size, name, "sends", len(sends[2]), "bytes, reckoned", letter.size)
            self.letters[letter.sender.name, letter.number] = sends[2]

    def does(self, node, line, reply):
        self.told(node.name, line, reply, None)

    def ships(self, node, to, letter):
        self.told(node.name, f"ship {to.name}", "ok sent" if letter else "refused 12 UpToDate", letter)

    def delivers(self, letter, reply, answer):
        text = self.letters[letter.sender.name, letter.number]
        self.told(letter.to.name, f"deliver {text}", reply, answer)

    def stops(self, node):
        self.running.pop(node.name).kill()

    def restarts(self, node):
        self.running[node.name] = self.begun(node.name, node.boot)

    def processor(self):
        """Microseconds of a processor that those that run have taken in all."""
        return sum(processor_of(node.process) for node in self.running.values())

    def end(self, world):
        for node in world.nodes:
            kept_alike(world, node, self.running[node.name].ask("image")[0])
