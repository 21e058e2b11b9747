"""An agent that becomes its newer program: no child ends, what ends meanwhile is told, commands go on, and a bad newer program changes nothing."""
import itertools
import os
import shutil
import signal
import subprocess
import sys
import threading
import time
import unittest

from machines import AGENT, IDS, KINDS, Machines, OfMachines, tell
from promises import need
from pulse import PACE, until
from servers import Redis
from watcher import lives

import client
import groups
import leftovers
import upgrade

KINDS["counts"] = ["sh", "-c", "n=0; while n=$((n+1)); echo $n; do sleep 0.02; done"]
KINDS["ends"] = ["sh", "-c", "trap 'exit {arg}' USR1; echo ready; while :; do sleep 0.02; done"]
SLOW = 2 * PACE  # seconds that a slow program takes to begin
LATE = f'import os, sys, time\nif "SEBRAKT_TABLE" in os.environ and "--check-upgrade" not in sys.argv:\n    time.sleep({SLOW})\n'
PATIENCE = 60 * PACE
# Who hears nothing of a machine for so long runs its children too: here nobody is to, also where a program takes longer to begin than when it was tried.
PATIENT = ["--silent", str(20 * PACE), "--patience", str(PACE)]


class Upgraded(Machines):
    """Agents of a copy of the program, which a test may change."""

    def __init__(self, names, **options):
        super().__init__(names, **options)
        shutil.copytree(os.path.dirname(AGENT), self.path("agent"), ignore=shutil.ignore_patterns("tests", "__pycache__"))
        self.changes = 0

    def words(self, name):
        return [self.path("agent/agent.py") if word == AGENT else word for word in super().words(name)]

    def write(self, file, change):
        """Changes a file at once, as a program may just be read; and to another moment each time, as Python knows by that what it has compiled."""
        path = self.path("agent/" + file)
        with open(path) as old:
            text = old.read()
        with open(path + ".new", "w") as new:
            new.write(change(text))
        self.changes += 1
        moment = time.time() + 10 * self.changes
        os.utime(path + ".new", (moment, moment))
        shutil.copymode(path, path + ".new")
        os.replace(path + ".new", path)
        return text

    def be_slow(self):
        self.write("agent.py", lambda text: text.replace("import argparse\n", LATE + "import argparse\n", 1))

    def upgrade(self, name):
        """What the agent answers; on a busy machine it may be told again and again that a begin takes too long."""
        end = time.monotonic() + PATIENCE
        while True:
            told = client.ask(self.address(name), self.secret, "upgrade", PATIENCE)[0]
            if upgrade.SLOW not in told or time.monotonic() > end:
                return told

    def becomes_slow(self, name):
        """Has an agent become a program that takes its time, and waits until the old one is gone."""
        self.be_slow()
        before = self.count_of(name, "becomes its newer program")
        self.agents[name].send_signal(signal.SIGUSR2)
        until(60, lambda: self.count_of(name, "becomes its newer program") > before, "the old program is gone")

    def status(self, name):
        """What an agent tells, also one that is just becoming another program."""
        return client.status(self.address(name), self.secret, PATIENCE)

    def lines_of(self, ident):
        """The whole lines in the file of a child of a."""
        with open(self.path(f"a.image.logs/{ident}.log")) as file:
            return file.read().split("\n")[:-1]

    def is_well(self, name):
        try:
            told = self.status(name)
        except client.NoAnswer:
            return False
        return all(one["member"] == "open" and not one["hinders"] and one["how"] in ("here", "in touch") for one in told["machines"])

    def processes(self, idents=IDS):
        """The process of each child, once each is told: a run that was just begun has none yet, and of one elsewhere nothing may be known."""
        found = {}

        def are_told():
            runs = {child["id"]: child["runs"] for child in self.status(self.names[0])["children"] if child["id"] in idents}
            found.update((ident, of[0][2] if of else 0) for ident, of in runs.items())
            return found.keys() == set(idents) and all(found.values())

        until(10, are_told, f"the processes of {idents} are told")
        return found

    def count_of(self, name, words):
        return self.log(name).count(words)


class Upgrades(OfMachines):
    def machines(self, names=("a", "b", "c"), options=(), **others):
        machines = Upgraded(list(names), options=[*PATIENT, *options], **others)
        self.addCleanup(machines.end)
        return machines

    def test_three_machines_one_by_one_and_no_child_is_down(self):
        machines = self.begun()
        processes, began = machines.processes(), time.monotonic()
        for name in machines.names:
            self.assertEqual(machines.upgrade(name), f"ok {name} goes on as its newer program")
            until(5, lambda: all(map(machines.is_well, machines.names)), "all are well")  # with --silent of a few seconds nobody would have taken over
        took = time.monotonic() - began
        self.settle(machines)
        tell("three machines become newer programs", all_well_after=took, silence=machines.gap(began, IDS), two_at_once=machines.both(began, IDS))
        self.need_same(machines, began, processes)
        for name in machines.names:
            self.assertIsNone(machines.agents[name].poll())
            self.assertEqual(machines.count_of(name, "node boot"), 2)
            self.assertNotIn("ended", machines.log(name))
            for child in machines.status(name)["children"]:
                self.assertEqual([run[5] for run in child["history"]], [""], "each run goes on, as every machine knows")
        self.kill_one_of_each(machines)

    def need_same(self, machines, began, processes):
        """No child has ended since, and none has a second process."""
        machines.need_one_at_least(began, IDS)
        machines.need_one_at_most(began, IDS)
        need(machines.processes() == processes, f"each child is the process that it was: {processes}, now {machines.processes()}")

    def kill_one_of_each(self, machines):
        """The newer programs do what agents do."""
        for ident, process in machines.processes().items():
            os.kill(process, signal.SIGKILL)
            until(20, lambda: machines.each_once(IDS) and machines.process(ident) != process, "it begins again")
        self.settle(machines)

    @unittest.skipUnless(shutil.which("redis-server"), "redis-server")
    def test_over_redis_no_child_is_down(self):
        redis = Redis()
        self.addCleanup(redis.end)
        machines = self.begun(via=redis.url)
        processes, began = machines.processes(), time.monotonic()
        self.assertTrue(machines.upgrade("b").startswith("ok"))
        until(40, lambda: all(map(machines.is_well, machines.names)), "all are well")
        self.settle(machines)
        self.need_same(machines, began, processes)

    def test_what_ends_while_there_is_no_program_is_told_by_the_next_one(self):
        machines = self.machines(names=["a"])
        machines.begin_all()
        machines.start("a", ["w1"], kind="ends", arg="7")
        machines.start("a", ["w3"], kind="counts")
        told = machines.ask("a", "start w2 kind=ends arg=0 restart=transient")
        self.assertTrue(told[0].startswith("ok"), told)
        until(20, lambda: [child["state"] for child in machines.status("a")["children"]] == ["running"] * 3, "they run")
        processes = machines.processes(["w1", "w2", "w3"])
        for ident in ("w1", "w2"):
            until(20, lambda: os.path.exists(machines.path(f"a.image.logs/{ident}.log")) and machines.lines_of(ident), "it hears signals")
        until(20, lambda: os.path.exists(machines.path("a.image.logs/w3.log")) and len(machines.lines_of("w3")) > 20, "it counts")
        machines.becomes_slow("a")
        for ident in ("w1", "w2"):
            os.kill(processes[ident], signal.SIGUSR1)
        until(60, lambda: machines.is_well("a") and len(machines.status("a")["children"]) == 2, "one that may end has ended for good")
        until(20, lambda: (machines.child("a", "w1")["last"], machines.child("a", "w1")["restarts"]) == ("status 7", 1), "the other's end is told")
        until(20, lambda: [run[5] for run in machines.child("a", "w1")["history"]] == ["status 7", ""], "and it runs again")
        need(machines.processes(["w3"]) == {"w3": processes["w3"]}, "who doesn't end goes on")
        self.look_at_lines(machines)

    def look_at_lines(self, machines):
        """What a child prints goes on, each line once, in its file and at hand."""
        at_hand = client.ask(machines.address("a"), machines.secret, "logs w3 10000 a -")[0]
        lines = machines.lines_of("w3")
        self.assertEqual([int(line.split(" ")[-1]) for line in lines], list(range(1, len(lines) + 1)))
        self.assertGreater(len(lines), 20)
        self.assertIn(" 1.", at_hand)

    def test_commands_go_on_and_those_who_ask_wait(self):
        machines = self.machines(options=["--groups", "3"])
        machines.begin_all()
        machines.start("a", IDS)
        self.settle(machines)
        processes, said, ends, faults = machines.processes(), [], [], []

        def talk(number, name):
            for count in itertools.count(1):
                if ends:
                    return
                ident = f"{name}{number}-{count}"
                said.append(ident)
                try:
                    told = client.ask(machines.address(name), machines.secret, f"start {ident} kind=sleep arg=100000", PATIENCE, PATIENCE)
                    faults.extend([told] if not groups.is_done(told) else [])
                    told = client.status(machines.address(name), machines.secret, PATIENCE)
                    faults.extend(ident for ident in IDS if ident not in [child["id"] for child in told["children"]])
                except client.NoAnswer as fault:
                    faults.append(fault)
                time.sleep(0.2 * PACE)
        talkers = [threading.Thread(target=talk, args=one) for one in enumerate("aab")]
        for one in talkers:
            one.start()
        try:
            for name in "ab":
                self.assertTrue(machines.upgrade(name).startswith("ok"))
                until(30, lambda: all(map(machines.is_well, machines.names)), "all are well")
        finally:
            ends.append(True)
            for one in talkers:
                one.join()
        self.assertEqual(faults, [])
        until(30, lambda: machines.each_once([*IDS, *said]), "each child that was started runs once")
        need(machines.processes() == processes, "each child is the process that it was")

    def test_a_bad_newer_program_changes_nothing(self):
        machines = self.alone()
        processes, began = machines.processes(), time.monotonic()
        bad = {"host.py": ("SyntaxError", lambda text: text + "\nself.(\n"), "handover.py": ("has the format 1, and this program takes 2", lambda text: text.replace("FORMAT = 1", "FORMAT = 2")),
               "one_run.py": ("AttributeError", lambda text: text.replace("self.is_watched =", "self.is_watched_as =")),
               "options.py": ("unrecognized arguments: --check-upgrade", lambda text: text.replace('"--check-upgrade"', '"--other"'))}
        for file, (why, change) in bad.items():
            before = machines.write(file, change)
            told = machines.upgrade("a")
            self.assertTrue(told.startswith("not upgraded: the newer program can't go on") and why in told, told)
            machines.write(file, lambda _: before)
        os.rename(machines.path("agent/agent.py"), machines.path("agent/away.py"))
        self.assertIn("No such file", machines.upgrade("a"))
        os.rename(machines.path("agent/away.py"), machines.path("agent/agent.py"))
        self.assertEqual(machines.count_of("a", "goes on as it is"), len(bad) + 1)
        self.need_same(machines, began, processes)
        self.assertEqual(machines.count_of("a", "node boot"), 1)
        self.assertTrue(machines.upgrade("a").startswith("ok"))
        until(30, lambda: machines.is_well("a"), "a good one is taken then")
        self.need_same(machines, began, processes)
        self.assertEqual(machines.count_of("a", "node boot"), 2)

    def test_one_that_begins_too_late_for_the_others_is_none(self):
        machines = self.machines(names=["a", "b"], options=["--silent", str(1.5 * PACE)])
        machines.begin_all()
        machines.write("agent.py", lambda text: text.replace("import argparse\n", f"import argparse\nimport time\ntime.sleep({2 * PACE})\n", 1))
        told = client.ask(machines.address("a"), machines.secret, "upgrade", PATIENCE)[0]
        self.assertRegex(told, f"^not upgraded: the newer program begins in .* s, and the others wait {1.5 * PACE:g} s")

    def test_a_node_that_cant_begin_is_seen_before(self):
        machines = self.alone()
        processes = machines.processes()
        program = machines.path("agent/supd")
        with open(program, "w") as file:
            file.write("#!/bin/sh\necho bad image NotJson >&2\nexit 1\n")
        os.chmod(program, 0o755)
        machines.write("agent.py", lambda text: text.replace("supd = supd_of(given)", f"supd = {program!r}"))
        self.assertEqual(machines.upgrade("a"), "not upgraded: the newer program can't go on with its runs: its node can't begin: bad image NotJson")
        self.assertEqual((machines.processes(), machines.ask("a", "show")[0][:6]), (processes, "node a"))
        self.assertEqual([name for name in os.listdir(machines.folder) if "trial" in name], [])

    def test_a_stop_meanwhile_is_a_stop(self):
        for moment in ("while it is tried", "while there is no program"):
            with self.subTest(moment):
                machines = self.alone()
                if moment == "while it is tried":
                    machines.agents["a"].send_signal(signal.SIGUSR2)
                    time.sleep(0.1 * PACE)
                else:
                    machines.becomes_slow("a")
                machines.agents["a"].terminate()
                self.assertEqual(machines.wait("a", 60), 0)
                self.assertIn(" left", machines.log("a"))
                self.assertEqual(machines.count_of("a", " stop w"), len(IDS))
                self.assertEqual(leftovers.end(machines.path("a.image")), 0)

    def test_one_that_is_killed_meanwhile_leaves_nothing(self):
        machines = self.alone()
        processes = machines.processes()
        machines.becomes_slow("a")
        machines.kill("a")
        until(10, lambda: not any(lives(process) for process in processes.values()), "the kernel ends its children")
        machines.begin("a")
        until(60, lambda: machines.each_once(IDS), "all run again")

    def test_further_signals_meanwhile(self):
        machines = self.alone()
        processes, began = machines.processes(), time.monotonic()
        for _ in range(3):
            machines.agents["a"].send_signal(signal.SIGUSR2)
            time.sleep(0.05 * PACE)
        machines.becomes_slow("a")
        machines.agents["a"].send_signal(signal.SIGUSR2)
        until(60, lambda: machines.count_of("a", "becomes its newer program") >= 2, "it does so again")
        until(60, lambda: machines.is_well("a"), "it is well")
        self.need_same(machines, began, processes)

    def test_the_command(self):
        machines = self.alone()
        words = [sys.executable, os.path.join(os.path.dirname(AGENT), "sebrakt"), "upgrade", "--address", "{}:{}".format(*machines.address("a")), "--secret", machines.path("secret")]
        done = subprocess.run(words, stdout=subprocess.PIPE, stderr=subprocess.STDOUT, text=True)
        self.assertEqual((done.returncode, done.stdout), (0, "a goes on as its newer program\n"))
        machines.write("core/core.py", lambda text: "(" + text)
        done = subprocess.run(words, stdout=subprocess.PIPE, stderr=subprocess.STDOUT, text=True)
        self.assertEqual(done.returncode, 1)
        self.assertIn("sebrakt: not upgraded: the newer program can't go on with its runs: SyntaxError", done.stdout)


if __name__ == "__main__":
    unittest.main()
