"""Children that move: of a machine that is killed, drained or stopped, or whose node stays away; and children that fail."""
import os
import signal
import subprocess
import time
import unittest

from machines import IDS, SUPD, OfMachines, free_ports, tell
from promises import need
from pulse import bound, until


class Moves(OfMachines):
    def test_children_of_a_killed_machine_run_elsewhere_and_come_home(self):
        machines = self.begun()
        homes, began = machines.where(IDS), time.monotonic()
        machines.kill("b")
        away = until(10, lambda: machines.each_once(IDS) and "b" not in machines.where(IDS).values(), "all run elsewhere")
        gone = machines.gap(began, IDS)
        back = time.monotonic()
        machines.begin("b")
        until(20, lambda: machines.each_once(IDS) and machines.where(IDS) == homes, "all are home")
        home = time.monotonic() - back
        self.settle(machines)
        tell("a machine is killed and comes back", elsewhere_after=away, silence=gone, home_after=home, silence_at_the_move=machines.gap(back, IDS),
             two_at_once=machines.both(began, IDS))
        machines.need_one_at_most(began, IDS)

    def test_a_drain_moves_all_children_before_a_stop(self):
        machines = self.begun()
        began = time.monotonic()
        machines.ask("b", "drain b")
        moved = until(10, lambda: machines.each_once(IDS) and "b" not in machines.where(IDS).values(), "all have moved")
        gap = machines.gap(began, IDS)
        stopped = time.monotonic()
        machines.agents["b"].terminate()
        self.assertEqual(machines.wait("b"), 0)
        ended = time.monotonic() - stopped
        until(10, lambda: machines.members("a") == ["a", "c"], "a has heard that it left")
        self.assertNotIn("asked leave b", machines.log("a") + machines.log("c"))
        time.sleep(2)
        tell("a drain, then a stop", moved_after=moved, longest_silence=gap, silence_at_the_stop=machines.gap(stopped, IDS), ended_after=ended,
             two_at_once=machines.both(began, IDS))
        machines.need_one_at_least(stopped, IDS)
        machines.need_one_at_most(began, IDS)

    def test_a_stop_alone_drains_first(self):
        machines = self.begun()
        began = time.monotonic()
        machines.agents["c"].terminate()
        self.assertEqual(machines.wait("c"), 0)
        until(10, lambda: machines.each_once(IDS), "all run elsewhere")
        until(10, lambda: machines.members("a") == ["a", "b"], "a has heard that it left")
        self.assertNotIn("asked leave c", machines.log("a") + machines.log("b"))
        tell("a stop", longest_silence=machines.gap(began, IDS), two_at_once=machines.both(began, IDS))
        machines.need_one_at_most(began, IDS)
        self.assertLess(machines.gap(began, IDS), bound(3, began))

    def test_a_child_that_is_slow_to_end_moves_once_it_has_ended(self):
        machines = self.machines()
        machines.begin("a", "b")
        until(30, lambda: machines.members("a") == ["a", "b"] == machines.members("b"), "both are members")
        machines.start("a", IDS, kind="stubborn", shutdown=1500)
        until(10, lambda: all(machines.watcher.now()[1].get(ident) for ident in IDS), "all run")
        until(10, lambda: all(any(os.path.exists(machines.path(f"{name}.image.logs/{ident}.log")) for name in "ab") for ident in IDS), "each has told that it ignores SIGTERM")
        began = time.monotonic()
        machines.ask("a", "drain a")
        until(10, lambda: "a" not in self.hosts(machines).values(), "all have moved")
        both = self.two_hosts(machines, began)
        tell("children that ignore SIGTERM move", two_hosts_at_once=both, moved_after=time.monotonic() - began)
        need(both == 0, f"a child had processes at two machines in {both} looks")

    def hosts(self, machines):
        return {ident: host for ident, runs in machines.watcher.now()[1].items() for _, host in runs}

    def two_hosts(self, machines, began):
        """In how many looks a child had processes at two machines."""
        return sum(len({host for _, host in runs}) > 1 for _, seen in machines.watcher.since(began) for runs in seen.values())

    def test_a_killed_node_is_noticed_by_no_child(self):
        machines = self.begun()
        before = machines.watcher.now()[1]
        began = time.monotonic()
        machines.kill_node("a")
        machines.kill_node("b")
        until(20, lambda: all("boot 2" in "".join(machines.ask(name, "show")) for name in "ab"), "the nodes are back")
        time.sleep(2)
        self.settle(machines)
        machines.need_same(before)
        self.assertEqual(machines.watcher.now()[1], before)
        tell("nodes killed", longest_silence=machines.gap(began, IDS))

    def test_a_machine_whose_node_stays_away_ends_its_children_and_others_take_over(self):
        machines = self.machines()
        machines.supd["b"] = machines.path("supd-of-b")
        os.symlink(SUPD, machines.supd["b"])
        machines.begin_all()
        machines.start("a", IDS)
        self.settle(machines)
        homes, began = machines.where(IDS), time.monotonic()
        os.unlink(machines.supd["b"])
        machines.kill_node("b")
        until(20, lambda: machines.each_once(IDS) and "b" not in machines.where(IDS).values(), "all run elsewhere")
        silence = machines.gap(began, IDS)
        os.symlink(SUPD, machines.supd["b"])
        until(30, lambda: machines.each_once(IDS) and machines.where(IDS) == homes, "all are home")
        tell("a node stays away", silence=silence, two_at_once=machines.both(began, IDS))
        machines.need_one_at_most(began, IDS)

    def test_a_second_agent_on_one_image_ends_and_no_child_notices(self):
        machines = self.machines(names=["a"])
        machines.begin_all()
        machines.start("a", IDS)
        until(10, lambda: machines.each_once(IDS), "all run")
        before, words = machines.watcher.now()[1], machines.words("a")
        words[words.index("--listen") + 1] = "127.0.0.1:" + str(free_ports(1)[0])
        self.assertEqual(subprocess.run(words, stderr=subprocess.DEVNULL, timeout=60).returncode, 3)
        self.assertEqual(subprocess.run(machines.words("a"), stderr=subprocess.DEVNULL, timeout=60).returncode, 2)
        time.sleep(0.1)
        machines.need_same(before)
        self.assertEqual(machines.watcher.now()[1], before)

    def test_what_children_have_begun_ends_with_their_run_and_behind_a_killed_agent(self):
        machines = self.machines(names=["a"])
        machines.begin_all()
        machines.start("a", ["w1"], kind="nested")
        until(10, lambda: len(machines.watcher.now()[1].get("w1", ())) == 2, "a child and its own child run")
        before = machines.watcher.now()[1]["w1"]
        os.kill(min(process for process, _ in before), signal.SIGKILL)
        until(10, lambda: len(machines.watcher.now()[1].get("w1", ())) == 2 and not machines.watcher.now()[1]["w1"] & before, "both are others")
        before = machines.watcher.now()[1]["w1"]
        machines.kill("a")
        machines.begin("a")
        until(20, lambda: len(machines.watcher.now()[1].get("w1", ())) == 2 and not machines.watcher.now()[1]["w1"] & before, "both are others again")
        machines.ask("a", "delete w1")
        until(10, lambda: not machines.watcher.now()[1].get("w1"), "both have ended")

if __name__ == "__main__":
    unittest.main()
