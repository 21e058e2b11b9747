"""Nodes that are real processes of `supd`, over pipes, each with a folder for its disk. An answer takes no virtual time by itself."""
import os
import shutil
import subprocess
import tempfile

import forms
import supd_lines
from core import answer
from simulator import nodes

KEPT = "ok (", "ok removed", "ok finished", "ok gave up", "ok absorbed"  # answers to what changed the image
FASTEST = "/dev/shm"
SAME = {}  # of each content of a row its text stands for one value, since those of rules.py are told apart by their identity


class Image:
    """What a disk has: a folder with the files of a node, and the state that they tell."""

    def __init__(self, folder, state):
        self.folder, self.state = folder, state


class Supds:
    """Begins nodes by a program, as a context in which their disks last."""

    def __init__(self, program):
        self.program, self.top = program, tempfile.TemporaryDirectory(dir=FASTEST if os.access(FASTEST, os.W_OK) else None)

    def __enter__(self):
        return self

    def __exit__(self, *error):
        self.top.cleanup()

    def __call__(self, machine):
        if machine.is_full:
            raise nodes.NoNode("device")
        folder = self.folder_with(machine.image)
        return SupdNode(machine, self.program, folder)

    def folder_with(self, image):
        folder = tempfile.mkdtemp(dir=self.top.name)
        return folder if image is None else shutil.copytree(image.folder, folder, dirs_exist_ok=True)

    def copy_of(self, image):
        return Image(self.folder_with(image), image.state)

    @staticmethod
    def state_of(image):
        return image.state


class SupdNode:
    def __init__(self, machine, program, folder):
        self.machine, self.world, self.folder, options = machine, machine.world, folder, machine.world.options
        words = [program, machine.name, "--image", os.path.join(folder, "image"), "--intensity", str(options.intensity), "--period", str(options.period)]
        self.process = subprocess.Popen(words, stdin=subprocess.PIPE, stdout=subprocess.PIPE, text=True)
        self.first = self.lines()
        machine.image = Image(folder, self.look())

    def end(self):
        self.process.kill()
        self.process.communicate()

    def lines(self):
        """The lines of an answer, which an empty one ends."""
        lines = []
        while not lines or lines[-1] != "":
            line = self.process.stdout.readline()
            assert line, f"{self.process.args[0]} has ended by itself"
            lines.append(line[:-1])
        return lines[:-1]

    def say(self, line):
        self.process.stdin.write(line + "\n")
        self.process.stdin.flush()
        return self.lines()

    def look(self):
        state = supd_lines.state_of(forms.read(self.say("image")[0], forms.IMAGES))
        state.rows = {dot: (table, key, SAME.setdefault(str(content), content)) for dot, (table, key, content) in state.rows.items()}
        return state

    def answer(self, line):
        if line.startswith("deliver "):
            line = "deliver " + self.world.letter_of(line.split(" ")[1])
        away = self.folder + " away"
        if self.machine.is_full:
            os.rename(self.folder, away)  # it can keep nothing
        lines = self.say(line)
        if self.machine.is_full:
            os.rename(away, self.folder)
        if lines and lines[0].startswith(KEPT):
            self.machine.image.state = self.look()
        return [self.told(line) for line in lines]

    def told(self, line):
        """A line of an answer. A token stands for a letter, as where nodes go by the rules."""
        if not line.startswith("  send "):
            return line
        _, _, verb, to, letter = line.split(" ", 4)
        return f"  {verb} {to} {self.world.letter_token(letter)}"

    def whole(self, image, sender, to):
        return self.world.letter_token(answer.whole_letter(image, sender, to))
