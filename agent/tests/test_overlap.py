"""Kinds that overlap: a child that moves has its next run ready before the earlier one ends; one that is deleted or replaced ends as others do."""
import collections
import json
import os
import signal
import time
import types
import unittest

from machines import OfMachines, tell
from promises import need
from pulse import PACE, until
from runs import OfRuns

import carrier
import overlap
import upgrade
from clock import seconds

WEB = {"command": ["sleep", "{arg}"], "overlap": True, "ready": {"command": ["sh", "-c", "test -e $HOME/ready.$SEBRAKT_NODE"], "period": 0.1}}
SLOW = ["sh", "-c", "trap 'sleep 0.5; echo done; exit 0' TERM; echo ready; while :; do sleep 0.05; done"]


class Alone(OfRuns):
    """Overlaps of one machine, beside another one that is made up."""

    def of(self, claims=(), states=(), **more):
        known = types.SimpleNamespace(id="web", spec="k permanent 5000 arg=")
        sight = types.SimpleNamespace(touch=lambda now: {"b"}, told={"b": types.SimpleNamespace(children={ident: types.SimpleNamespace(state="running") for ident in states})},
                                      words={"b": types.SimpleNamespace(claims=set(claims))})
        core = types.SimpleNamespace(options=types.SimpleNamespace(every=0.05, leave_time=30), leave_at=None, sight=sight, node=types.SimpleNamespace(is_lost=lambda now: False),
                                     runs=types.SimpleNamespace(live=dict.fromkeys(self.children.runs, known), waiting={}), next_moment=lambda: float("inf"))
        one = carrier.Carrier.__new__(carrier.Carrier)
        vars(one).update(children=self.children, core=core, host=types.SimpleNamespace(events=collections.deque(), stops=1), log=self.say, node=None, has_begun=True, began=[], ended=[], **more)
        one.overlaps = overlap.Overlaps(one)
        return one

    def begin_one(self):
        return self.begin_ready(SLOW, overlap=True, ready={"command": ["true"], "period": 0.1})

    def test_a_machine_that_is_stopped_waits_for_the_end_of_the_earlier_run(self):
        key, _ = self.begin_one()
        one = self.of(states=["web"], has_left=True)
        one.overlaps.freed[key] = "web", "", seconds() + 60
        self.until(lambda: one.overlaps.look(seconds()) or one.is_over(), "it goes")
        self.assertEqual((self.lines()[-1], self.children.runs), (f"1.{key} done", {}))

    def test_who_is_told_twice_waits_for_nothing(self):
        key, _ = self.begin_one()
        one = self.of(has_left=True)
        one.overlaps.freed[key], one.host.stops = ("web", "", seconds() + 60), 2
        one.overlaps.look(seconds())
        self.assertTrue(one.is_over())

    def test_a_run_may_end_in_the_turn_in_which_it_is_claimed(self):
        key, process = self.begin(["sleep", "1000"], overlap=True, ready={"command": ["true"], "period": 0.1})
        one = self.of(claims=["web"])
        self.assertTrue(one.overlaps.takes(key))
        os.kill(process, 9)
        os.waitid(os.P_PID, process, os.WEXITED | os.WNOWAIT)
        one.tick(seconds(), True)
        self.assertEqual((one.ended, one.overlaps.asked, one.overlaps.freed), ([(key, -9, "")], {}, {}))


class Overlaps(OfMachines):
    refused = 0  # lines that tell that a newer program takes too long

    def begun_with(self, *names, **options):
        machines = self.machines(names=list(names), **options)
        with open(machines.path("kinds.json"), "w") as file:
            json.dump({"web": {**WEB, "environment": {"HOME": machines.folder}}, "sleep": ["sleep", "{arg}"]}, file)
        machines.begin_all()
        for name in names:
            self.make_ready(machines, name)
        machines.start("a", ["w1"], kind="web")
        until(20, lambda: machines.child("a", "w1")["state"] == "running" and not machines.child("a", "w1")["health"], "it runs, and is ready")
        home = machines.child("a", "w1")["place"]
        return machines, home, next(name for name in names if name != home)

    def make_ready(self, machines, name, is_ready=True):
        path = machines.path("ready." + name)
        open(path, "w").close() if is_ready else os.unlink(path)

    def runs(self, machines):
        """The processes of the child, as (number, machine)."""
        return sorted(machines.watcher.now()[1].get("w1", ()), key=lambda run: run[1])

    def processes(self, machines):
        return {name: process for process, name in self.runs(machines)}

    def test_the_earlier_run_ends_once_the_next_one_is_ready(self):
        machines, home, other = self.begun_with("a", "b")
        self.make_ready(machines, other, False)
        before, began = self.processes(machines), time.monotonic()
        machines.ask(home, f"drain {home}")
        until(20, lambda: len(self.processes(machines)) == 2, "both run")
        time.sleep(1 * PACE)
        self.assertEqual((self.processes(machines)[home], machines.child(home, "w1")["place"]), (before[home], other))
        self.make_ready(machines, other)
        until(20, lambda: list(self.processes(machines)) == [other], "the earlier one has ended")
        tell("a child of a kind that overlaps moves", silence=machines.gap(began, ["w1"]), two_at_once=machines.both(began, ["w1"]))
        machines.need_one_at_least(began, ["w1"])

    def test_a_machine_that_is_stopped_goes_once_it_has_moved(self):
        machines, home, other = self.begun_with("a", "b")
        self.make_ready(machines, other, False)
        before, began = self.processes(machines), time.monotonic()
        machines.agents[home].terminate()
        until(20, lambda: len(self.processes(machines)) == 2, "both run")
        time.sleep(1 * PACE)
        self.assertEqual((self.processes(machines)[home], machines.agents[home].poll()), (before[home], None))
        self.make_ready(machines, other)
        self.assertEqual(machines.wait(home), 0)
        self.assertEqual(list(self.processes(machines)), [other])
        machines.need_one_at_least(began, ["w1"])

    def test_one_that_comes_home_meanwhile_has_never_ended(self):
        machines, home, other = self.begun_with("a", "b")
        self.make_ready(machines, other, False)
        before, began = self.processes(machines), time.monotonic()
        machines.ask(home, f"drain {home}")
        until(20, lambda: len(self.processes(machines)) == 2, "both run")
        machines.ask(home, f"leave {home}")
        until(20, lambda: list(self.processes(machines)) == [home], "it is home")
        until(20, lambda: machines.child(home, "w1")["runs"] and machines.child(home, "w1")["runs"][0][:1] + machines.child(home, "w1")["runs"][0][2:3] == [home, before[home]], "as it was")
        machines.need_one_at_least(began, ["w1"])
        need(self.processes(machines) == before, "it goes on as the same process")
        os.kill(before[home], signal.SIGKILL)
        until(20, lambda: self.processes(machines).get(home, before[home]) != before[home], "it is kept alive as before")

    def test_one_that_is_deleted_or_replaced_ends_as_others_do(self):
        machines, home, _ = self.begun_with("a", "b")
        before, began = self.processes(machines), time.monotonic()
        self.assertTrue(machines.ask(home, "replace w1 kind=web arg=200000")[0].startswith("ok"))
        until(20, lambda: self.processes(machines) and self.processes(machines) != before, "another run has begun")
        self.assertEqual(list(self.processes(machines)), [home])
        machines.need_one_at_most(began, ["w1"])
        self.assertTrue(machines.ask(home, "delete w1")[0].startswith("ok"))
        until(10, lambda: not self.processes(machines), "it has ended")
        self.assertEqual(machines.status(home)["children"], [])

    def test_one_that_is_deleted_while_it_moves_ends_on_both(self):
        machines, home, other = self.begun_with("a", "b")
        self.make_ready(machines, other, False)
        machines.ask(home, f"drain {home}")
        until(20, lambda: len(self.processes(machines)) == 2, "both run")
        self.assertTrue(machines.ask(home, "delete w1")[0].startswith("ok"))
        until(10, lambda: not self.processes(machines), "both have ended")

    def test_an_upgrade_waits_for_it_and_then_ends_the_earlier_run(self):
        machines, home, other = self.begun_with("a", "b")
        self.make_ready(machines, other, False)
        machines.ask(home, f"drain {home}")
        until(20, lambda: len(self.processes(machines)) == 2, "both run")
        machines.agents[home].send_signal(signal.SIGUSR2)
        until(60, lambda: self.has_become(machines, home), "it becomes its newer program")
        until(20, lambda: list(self.processes(machines)) == [other], "the earlier one has ended")

    def has_become(self, machines, home):
        """Whether an agent is its newer program; one that takes too long for the others on a busy machine is asked to again."""
        told = [line for line in machines.log(home).splitlines() if "newer program" in line]
        if told and upgrade.SLOW in told[-1] and len(told) > self.refused:
            self.refused = len(told)
            machines.agents[home].send_signal(signal.SIGUSR2)
        return any("becomes its newer program" in line for line in told)


if __name__ == "__main__":
    unittest.main()
