"""The commands of agent/README.md, as they stand there but for ports and folders: a newcomer's cluster of three on one machine."""
import contextlib
import os
import re
import shutil
import signal
import subprocess
import tempfile
import time
import unittest

from machines import SUPD, begin, end_process, free_ports
from pulse import until
from watcher import Watcher, children_of

import leftovers

TOP = os.path.dirname(os.path.dirname(os.path.dirname(os.path.abspath(__file__))))
IDS = ["w1", "w2", "w3"]
WAIT = 5  # seconds for which `agent.py ask` waits for an agent that begins yet


def commands():
    """The commands that stand alone in the page's first part."""
    with open(os.path.join(TOP, "agent", "README.md")) as file:
        part = file.read().split("\n## ")[1]
    blocks = re.findall(r"(?:^    .*\n)+", part, re.MULTILINE)
    return [line.strip() for block in blocks for line in block.splitlines() if re.match(r"    (peers=|for |agent/|kill )", line)]


class Docs(unittest.TestCase):
    def setUp(self):
        self.folder = tempfile.mkdtemp(prefix="sebrakt-agents-")
        self.addCleanup(shutil.rmtree, self.folder, True)
        self.watcher = Watcher(self.folder)
        self.addCleanup(self.watcher.stop)
        self.ports = dict(zip(("7001", "7002", "7003"), map(str, free_ports(3))))
        self.shell = begin(["bash"], stdin=subprocess.PIPE, stdout=subprocess.PIPE, text=True, cwd=TOP, env={**os.environ, "SUPD": SUPD})
        self.addCleanup(self.end_agents)
        self.addCleanup(end_process, self.shell)
        self.addCleanup(self.shell.stdout.close)
        self.addCleanup(self.kill_agents)

    def kill_agents(self):
        """Those of the shell that are left where the test has failed."""
        with contextlib.suppress(OSError):
            for process in children_of(self.shell.pid):
                os.kill(int(process), signal.SIGKILL)

    def end_agents(self):
        for name in "abc":
            leftovers.end(os.path.join(self.folder, name + ".image"))

    def say(self, command):
        """Gives the shell a command, and tells what it prints until it is done."""
        for port, other in self.ports.items():
            command = command.replace(":" + port, ":" + other)
        self.shell.stdin.write(command.replace("$(mktemp -d)", self.folder) + "\necho done $?\n")
        self.shell.stdin.flush()
        told = []
        for line in self.shell.stdout:
            if line.startswith("done "):
                return told
            told.append(line.rstrip("\n"))
        self.fail("the shell has ended")

    def start(self, command):
        """Starts the children; again, where agents of a busy machine began for longer than a command waits for them."""
        began, told = time.monotonic(), self.say(command)
        if [line[:2] for line in told] != ["ok"] * 3:
            self.assertGreater(time.monotonic() - began, WAIT, told)
            until(20, lambda: len([line for line in self.say(command) if line.startswith("ok") or "AlreadyPresent" in line]) == 3, "they are started")

    def where(self):
        """Where each child runs that runs once."""
        seen = self.watcher.now()[1]
        return {ident: next(iter(seen[ident]))[1] for ident in IDS if len(seen.get(ident, ())) == 1}

    def test_the_commands_of_the_page_do_what_it_says(self):
        peers, run, start, status, kill, again = commands()
        homes = {"w1": "c", "w2": "b", "w3": "b"}
        self.say(peers)
        self.say(run)
        self.start(start)  # pasted at once: the agents begin yet
        told = self.say(status)
        until(20, lambda: len([line for line in self.say(status) if " open " in line]) == 3, "three are members")
        until(10, lambda: self.where() == homes, "each runs at its place")
        self.assertEqual([line.split() for line in told if line.split(" ")[0] in ("machine", "child")],
                         ["machine member last contact label".split(), "child state place runs on run process for restarts last exit kind arg".split()])
        began = time.monotonic()
        self.say(kill)
        until(30, lambda: self.where() == {ident: "c" for ident in IDS}, "all run on c")
        away = time.monotonic() - began
        until(10, lambda: "out" in [line.split()[1] for line in self.say(status) if line.startswith("b ")], "b is out")
        began = time.monotonic()
        self.say(again)
        until(30, lambda: self.where() == homes, "all are home")
        home = time.monotonic() - began
        self.say("kill $(jobs -p); wait")
        until(10, lambda: not self.watcher.now()[1], "all has ended")
        print(f"    the page's commands: on c {away:.1f} s after the kill, home {home:.1f} s after the return", flush=True)


if __name__ == "__main__":
    unittest.main()
