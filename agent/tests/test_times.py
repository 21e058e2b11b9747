"""How long it takes from a child's death to its next begin, beside other supervisors on the same machine; and how long who reads a status waits."""
import os
import select
import shutil
import signal
import statistics
import subprocess
import time
import unittest

import readers
from machines import Machines, begin, end_process
from pulse import PACE, bound, slowness

ROUNDS = 15
PLAIN_BEGINS = 5  # a death is heard of, the node is asked, and the program begins behind another one
REST = 1.3  # seconds between two deaths of one child: runit and s6 begin none twice within a second


class Beats:
    """A program that tells its number by a pipe when it begins, and then sleeps."""

    def __init__(self, folder, name):
        self.path, self.program = os.path.join(folder, name + ".pipe"), os.path.join(folder, name + ".sh")
        os.mkfifo(self.path)
        self.pipe = os.open(self.path, os.O_RDWR)
        with open(self.program, "w") as file:
            file.write(f"#!/bin/sh\necho $$ > {self.path}\nexec sleep 100000\n")
        os.chmod(self.program, 0o755)

    def next(self, seconds):
        """The process that begins next, and when it did. AssertionError where none does within so many seconds."""
        if not select.select([self.pipe], [], [], seconds)[0]:
            raise AssertionError(f"{self.program} didn't begin")
        moment = time.monotonic()
        return int(os.read(self.pipe, 100).split()[-1]), moment


class Times(unittest.TestCase):
    def setUp(self):
        self.machines = Machines(["a"], options=["--stable", "1"])  # a run of more than a second is none that fails
        self.addCleanup(self.machines.end)

    def supervise(self, words):
        self.addCleanup(end_process, begin(words, stdout=subprocess.DEVNULL, stderr=subprocess.DEVNULL, cwd=self.machines.folder))

    def service(self, name, beats):
        """A folder of a service, as runit and s6 have it."""
        folder = self.machines.path(name)
        os.mkdir(folder)
        shutil.copy(beats.program, os.path.join(folder, "run"))
        return folder

    def all(self):
        """Of each supervisor that is there the program that it keeps alive."""
        beats = {"agent": Beats(self.machines.folder, "agent")}
        with open(self.machines.path("kinds.json"), "w") as file:
            file.write('{"beats": ["%s"]}' % beats["agent"].program)
        self.machines.begin_all()
        self.machines.ask("a", "start x kind=beats")
        for name, program in ("runit", "runsv"), ("s6", "s6-supervise"), ("supervisord", "supervisord"):
            if shutil.which(program):
                beats[name] = Beats(self.machines.folder, name)
                getattr(self, name)(beats[name])
        return beats

    def runit(self, beats):
        self.supervise(["runsv", self.service("of-runit", beats)])

    def s6(self, beats):
        self.supervise(["s6-supervise", self.service("of-s6", beats)])

    def supervisord(self, beats):
        with open(self.machines.path("supervisord.conf"), "w") as file:
            file.write(f"[supervisord]\nnodaemon=true\nuser=root\nlogfile=/dev/null\nlogfile_maxbytes=0\npidfile={self.machines.path('supervisord.pid')}\n"
                       f"[program:x]\ncommand={beats.program}\nautorestart=true\nstartsecs=0\n")
        self.supervise(["supervisord", "-c", self.machines.path("supervisord.conf")])

    def plain(self, beats):
        """How many milliseconds it takes until a process has begun that nobody supervises."""
        began = time.monotonic()
        process = subprocess.Popen([beats.program])
        _, moment = beats.next(30)
        process.kill()
        process.wait()
        return (moment - began) * 1000

    def test_a_child_is_back_within_10_ms_of_a_machine_that_has_time(self):
        beats, plain, alone = self.all(), Beats(self.machines.folder, "plain"), []
        processes = {name: one.next(30)[0] for name, one in beats.items()}
        took = {name: [] for name in beats}
        time.sleep(REST)
        for _ in range(ROUNDS):
            alone.append(self.plain(plain))
            for name, one in beats.items():
                began = time.monotonic()
                os.kill(processes[name], signal.SIGKILL)
                processes[name], moment = one.next(10 * PACE)
                took[name].append((moment - began) * 1000)
            time.sleep(REST)
        for name, times in took.items():
            print(f"    {name}: from death to begin {statistics.median(times):.1f} ms at the median of {ROUNDS}, {min(times):.1f} to {max(times):.1f}", flush=True)
        for name in {"runit", "s6", "supervisord"} - set(took):
            print(f"    {name}: not on this machine", flush=True)
        # a slow machine, or one with more to do than it has processors, is told by what some work and a begin of the same program take in the same minute
        slow = max(PACE, slowness())
        print(f"    a plain begin: {statistics.median(alone):.1f} ms at the median, {min(alone):.1f} to {max(alone):.1f}; some work took {slow:.1f} times as long as on a machine "
              f"that has time; load {os.getloadavg()[0]:.1f}", flush=True)
        # beside much else what counts is how late who waits for an end is woken, and that runit tells, where it is here
        runit = statistics.median(took.get("runit", [0]))
        self.assertLessEqual(statistics.median(took["agent"]), max(10 * slow, PLAIN_BEGINS * statistics.median(alone), 2 * runit))


class Readers(unittest.TestCase):
    def test_eight_readers_at_9000_children_take_nobody_out_and_have_their_answers_soon(self):
        machines = readers.begin(9000)
        self.addCleanup(machines.end)
        began = time.monotonic()
        times, taken_out = readers.measure(machines, 8)
        slow = max(bound(1, began), slowness())
        print(f"    some work, or a sleep, took {slow:.1f} times as long as on a machine that has time", flush=True)
        self.assertEqual(taken_out, [])
        self.assertLess(statistics.median(times), 0.3 * slow)
        self.assertLess(max(times), 1.5 * slow)


if __name__ == "__main__":
    unittest.main()
