"""Three agents through kills, holds and a clock that steps back, with what it cost."""
import os
import random
import shutil
import signal
import time
import unittest

from machines import IDS, OfMachines, tell
from pulse import PACE, bound, until
from servers import Redis

STORM = float(os.environ.get("STORM", "30"))


class Storms(OfMachines):
    def storm(self, machines, seconds):
        """Kills agents, nodes and children again and again, and at last one of each; how often each, and when last."""
        chance, counts, end = random.Random(7), {"agents": 0, "nodes": 0, "children": 0}, time.monotonic() + seconds
        while time.monotonic() < end:
            time.sleep(chance.uniform(0.5, 2))
            victim, name = chance.choice(list(counts)), chance.choice(machines.names)
            self.strike(machines, victim, name, chance)
            counts[victim] += 1
            if victim == "agents":
                time.sleep(chance.uniform(0, 1))
                machines.begin(name)
        for victim, name in zip(counts, machines.names):
            self.strike(machines, victim, name, chance)
            counts[victim] += 1
        last = time.monotonic()
        machines.begin(machines.names[0])
        return counts, last

    def strike(self, machines, victim, name, chance):
        processes = [process for _, runs in sorted(machines.watcher.now()[1].items()) for process, host in sorted(runs)]
        if victim == "agents":
            machines.kill(name)
        elif victim == "nodes":
            machines.kill_node(name)
        elif processes:
            machines.kill_child(chance.choice(processes))

    def go_through(self, **options):
        machines = self.begun(**options)
        began = time.monotonic()
        counts, last = self.storm(machines, STORM)
        until(30, lambda: machines.each_once(IDS), "each child runs once after the storm")
        time.sleep(1)
        self.settle(machines)
        settled = time.monotonic() - last
        time.sleep(3)
        once = next(moment for moment, seen in machines.watcher.since(last + 0.1) if all(len(seen.get(ident, ())) == 1 for ident in IDS)) - last
        machines.need_each_once(IDS)
        self.assertTrue(machines.tables_equal())
        tell(self.id().split(".")[-1], **counts, once_after=once, silence_of_a_child_that_comes_home_then=machines.gap(last + once, IDS), settled_after=settled,
             longest_silence_of_a_child=machines.gap(began, IDS), longest_two_at_once=machines.both(began, IDS))
        machines.need_one_at_most(last, IDS)
        self.assertLess(once, bound(3, last))

    def test_each_child_runs_once_after_kills_over_tcp(self):
        self.go_through()

    @unittest.skipUnless(shutil.which("redis-server"), "redis-server")
    def test_each_child_runs_once_after_kills_over_redis(self):
        redis = Redis()
        self.addCleanup(redis.end)
        self.go_through(via=redis.url)


class Holds(OfMachines):
    def test_a_held_agent_runs_its_children_beside_the_others_until_it_goes_on(self):
        machines = self.begun()
        began = time.monotonic()
        os.kill(machines.agents["b"].pid, signal.SIGSTOP)
        time.sleep(6 * PACE)
        resumed = time.monotonic()
        os.kill(machines.agents["b"].pid, signal.SIGCONT)
        time.sleep(0.5)
        self.settle(machines)
        time.sleep(1)
        second_after = resumed + bound(1, resumed)
        until(10, lambda: machines.watcher.now()[0] > second_after + 1, "it is looked at for a while after that")
        tell(f"an agent held for {6 * PACE:g} s", two_at_once=machines.both(began, IDS), longest_silence=machines.gap(began, IDS),
             two_at_once_from_a_second_after=machines.both(second_after, IDS))
        machines.need_one_at_most(second_after, IDS)
        for other in "a", "c":
            self.assertNotIn(f"asked leave {other} ", machines.log("b"))  # who didn't listen doesn't judge


class Clocks(OfMachines):
    @unittest.skipUnless(os.path.exists("/usr/lib/x86_64-linux-gnu/faketime/libfaketime.so.1"), "faketime")
    def test_a_clock_that_steps_back_does_no_harm(self):
        machines = self.machines()
        clock = machines.path("clock")
        with open(clock, "w") as file:
            file.write("+0")
        faked = {"LD_PRELOAD": "/usr/lib/x86_64-linux-gnu/faketime/libfaketime.so.1", "FAKETIME_TIMESTAMP_FILE": clock, "FAKETIME_NO_CACHE": "1",
                 "DONT_FAKE_MONOTONIC": "1"}
        for name in machines.names:
            machines.begin(name, environment=faked)
        for name in machines.names:
            until(60, lambda: machines.members(name) == machines.names, f"{name} knows all members")
        machines.start("a", IDS)
        self.settle(machines)
        before, began = machines.watcher.now()[1], time.monotonic()
        with open(clock, "w") as file:
            file.write("-3600")
        time.sleep(4)
        machines.need_same(before)
        self.assertEqual(machines.watcher.now()[1], before)
        host = machines.where(IDS)["w1"]
        os.kill(machines.process("w1"), signal.SIGKILL)
        until(5, lambda: machines.each_once(IDS) and machines.watcher.now()[1] != before, "a killed child runs again")
        self.settle(machines)
        logged = machines.log(host).splitlines()
        self.assertLess(logged[-1][:19], logged[0][:19], "the agents' clock went back")
        tell("a clock that steps back by an hour", longest_silence=machines.gap(began, IDS), two_at_once=machines.both(began, IDS))


if __name__ == "__main__":
    unittest.main()
