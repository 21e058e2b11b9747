"""What real machines do to an agent: full disks, folders that can't be written, signals, processes that stay."""
import os
import signal
import subprocess
import time
import unittest

from machines import IDS, OfMachines, begin
from pulse import until
from watcher import children_of

import leftovers


class Faults(OfMachines):
    """What real machines do to an agent."""

    def test_a_log_on_a_full_disk_ends_nothing(self):
        machines = self.machines(names=["a"])
        with open("/dev/full", "w") as full:
            machines.agents["a"] = begin(machines.words("a"), stderr=full)
        until(60, lambda: machines.members("a") == ["a"], "it is a member")
        machines.start("a", IDS)
        until(10, lambda: machines.each_once(IDS), "all run")
        os.kill(machines.process("w1"), signal.SIGKILL)
        until(10, lambda: machines.each_once(IDS), "all run again")

    def test_a_log_that_nobody_reads_holds_nothing_up(self):
        machines = self.machines(names=["a"])
        machines.agents["a"] = begin(machines.words("a"), stderr=subprocess.PIPE)
        self.addCleanup(machines.agents["a"].stderr.close)
        until(60, lambda: machines.members("a") == ["a"], "it is a member")
        for number in range(1000):
            machines.ask("a", f"delete {'x' * 100}{number}")
        machines.start("a", IDS)
        until(10, lambda: machines.each_once(IDS), "all run")

    def test_a_folder_that_cannot_be_written_keeps_what_runs_and_refuses_the_rest(self):
        machines = self.machines(names=["a"])
        folder = machines.path("of-a")
        os.mkdir(folder)
        words = machines.words("a")
        words[words.index("--image") + 1] = os.path.join(folder, "image")
        machines.words = lambda _: words
        self.addCleanup(leftovers.end, os.path.join(folder, "image"))
        machines.begin_all()
        machines.start("a", IDS)
        until(10, lambda: machines.each_once(IDS), "all run")
        os.rename(folder, folder + "-away")
        self.assertEqual(machines.ask("a", "start more kind=sleep arg=100"), ["refused 16 KeepFailed"])
        self.assertEqual(machines.ask("a", "delete w1"), ["refused 16 KeepFailed"])
        os.kill(machines.process("w1"), signal.SIGKILL)  # a restart changes no image
        until(10, lambda: machines.each_once(IDS), "all run")
        os.rename(folder + "-away", folder)
        self.assertTrue(machines.ask("a", "start more kind=sleep arg=100000")[0].startswith("ok"))
        until(10, lambda: machines.each_once(IDS + ["more"]), "all run, and one more")

    def test_who_is_to_stop_while_its_node_is_away_leaves_once_that_is_back(self):
        machines = self.machines(names=["a", "b"])
        machines.begin_all()
        machines.start("a", IDS)
        until(10, lambda: machines.each_once(IDS), "all run")
        machines.kill_node("b")
        machines.agents["b"].terminate()
        self.assertEqual(machines.wait("b", 30), 0)
        until(10, lambda: machines.members("a") == ["a"], "a has heard that it left")
        self.assertNotIn("asked leave b", machines.log("a"))
        self.assertEqual(machines.log("b").count("asked leave b -> ok"), 1)

    def test_a_terminal_that_closes_or_interrupts_stops_the_machine_as_a_stop_does(self):
        for number in (signal.SIGHUP, signal.SIGINT):
            machines = self.alone()
            machines.agents["a"].send_signal(number)
            self.assertEqual(machines.wait("a"), 0)
            self.assertIn("asked leave a -> ok", machines.log("a"))
            self.assertTrue(machines.log("a").endswith(" a left\n"))
            until(5, lambda: not machines.watcher.now()[1], "nothing runs")

    def test_an_interrupt_of_the_terminal_reaches_the_agent_alone(self):
        machines = self.alone()
        self.assertEqual({os.getpgid(machines.node("a")), *(os.getpgid(machines.process(ident)) for ident in IDS)},
                         {machines.node("a"), *(machines.process(ident) for ident in IDS)})

    def test_who_ignores_hangups_is_not_stopped_by_one(self):
        machines = self.machines(names=["a"])
        machines.agents["a"] = begin(["nohup", *machines.words("a")], stdin=subprocess.DEVNULL, stdout=subprocess.DEVNULL, stderr=subprocess.DEVNULL)
        until(60, lambda: machines.members("a") == ["a"], "it is a member")
        machines.agents["a"].send_signal(signal.SIGHUP)
        time.sleep(0.5)
        self.assertEqual(machines.members("a"), ["a"])

    def test_signals_that_come_again_and_again_interrupt_nothing(self):
        machines = self.alone()
        before, asked, end = machines.watcher.now()[1], 0, time.monotonic() + 2
        while time.monotonic() < end:
            for number in (signal.SIGCHLD, signal.SIGCONT, signal.SIGWINCH):
                machines.agents["a"].send_signal(number)
            if time.monotonic() > end - 2 + asked / 10:
                self.assertEqual(len(machines.members("a")), 1)
                asked += 1
        machines.need_same(before)
        self.assertEqual(machines.watcher.now()[1], before)

    def test_no_ended_process_stays(self):
        machines = self.alone()
        machines.start("a", ["leaves"], kind="leaves")
        until(10, lambda: machines.each_once(["leaves"]), "what it has begun has ended")
        for ident in IDS:
            os.kill(machines.process(ident), signal.SIGKILL)
        machines.kill_node("a")
        until(10, lambda: machines.each_once(IDS) and "boot 2" in machines.ask("a", "show")[0], "all run again")
        until(10, lambda: "Z" not in states(machines.agents["a"].pid), "all that ended is reaped")
        until(10, lambda: len(states(machines.agents["a"].pid)) >= 7, "and what runs is there")


def states(parent):
    """The states of a process's children, as the kernel has them."""
    return [state for state in map(state_of, children_of(parent)) if state]


def state_of(process):
    try:
        with open(f"/proc/{process}/stat") as file:
            return file.read().rsplit(")", 1)[1].split()[0]
    except OSError:
        return None


if __name__ == "__main__":
    unittest.main()
