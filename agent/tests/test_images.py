"""Machines with a lost or an older image, with another secret, or with another machine's name: they run nothing before they may, and say why."""
import os
import shutil
import time
import unittest

from machines import IDS, Machines, OfMachines, each_once_in, free_ports, tell
from promises import need
from pulse import PACE, until


class Images(OfMachines):
    def image(self, machines):
        return machines.path("b.image")

    def after(self, machines, ident):
        """Checks that each child runs once, this one too, which only others may have known, and that all stays so."""
        all_of_them = [*IDS, ident]
        until(40, lambda: machines.each_once(all_of_them) and machines.tables_equal(), "each child runs once, and tables are equal")
        time.sleep(2 * PACE)
        machines.need_each_once(all_of_them)
        self.assertEqual(machines.members("a"), ["a", "b", "c"])

    def test_a_lost_image_is_told_and_nothing_vanishes(self):
        machines = self.begun()
        machines.start("b", ["of-b"])
        until(10, lambda: machines.each_once(["of-b"]) and machines.tables_equal(), "what it started is known to all")
        began = time.monotonic()
        machines.kill("b")
        os.unlink(self.image(machines))
        machines.begin("b")
        until(30, lambda: "lost or old" in machines.log("b"), "that is told")
        self.after(machines, "of-b")
        tell("a lost image", well_after=time.monotonic() - began, longest_silence=machines.gap(began, IDS), two_at_once=machines.both(began, IDS))
        machines.need_one_at_most(began, IDS)

    def test_an_older_image_is_told_and_nothing_vanishes(self):
        machines = self.begun()
        shutil.copy(self.image(machines), machines.path("older"))
        machines.start("b", ["of-b"])
        until(10, lambda: machines.each_once(["of-b"]) and machines.tables_equal(), "what it started is known to all")
        began = time.monotonic()
        machines.kill("b")
        os.replace(machines.path("older"), self.image(machines))
        machines.begin("b")
        until(30, lambda: "lost or old" in machines.log("b"), "that is told")
        self.after(machines, "of-b")
        tell("an older image", well_after=time.monotonic() - began, longest_silence=machines.gap(began, IDS), two_at_once=machines.both(began, IDS))
        machines.need_one_at_most(began, IDS)

    def test_a_new_image_beside_peers_that_are_silent_waits_for_a_word(self):
        machines = self.machines()
        machines.begin("b")
        until(30, lambda: "begin alone" in machines.hindered("b", "b"), "it says for what it waits")
        time.sleep(3 * PACE)
        self.assertEqual(machines.members("b"), [])
        self.assertEqual(machines.ask("b", "begin alone"), ["ok begins alone"])
        until(10, lambda: machines.members("b") == ["b"], "it goes on")
        machines.start("b", ["x"])
        until(10, lambda: machines.each_once(["x"]), "what is started there runs")


class Secrets(OfMachines):
    def test_a_machine_with_another_secret_runs_nothing_and_says_why(self):
        machines = self.begun()
        machines.secrets["b"] = machines.path("another secret")
        with open(machines.secrets["b"], "w") as file:
            os.chmod(file.fileno(), 0o600)
            file.write("a secret of another cluster")
        began = time.monotonic()
        machines.kill("b")
        machines.begin("b")
        until(30, lambda: machines.each_once(IDS) and "b" not in machines.where(IDS).values(), "the others run all")
        time.sleep(6 * PACE)
        machines.need_each_once(IDS)
        self.assertNotIn("b", machines.where(IDS).values())
        self.assertIn("secret", machines.log("b"))
        tell("a machine with another secret", two_at_once=machines.both(began, IDS), longest_silence=machines.gap(began, IDS))
        machines.need_one_at_most(began, IDS)


class Names(OfMachines):
    def twin(self, machines, image=None):
        """A second machine that calls itself b: other port, other image, the same peers."""
        twin = Machines(["a", "b", "c"])
        self.addCleanup(twin.end)
        twin.ports = {**machines.ports, "b": free_ports(1)[0]}
        if image:
            shutil.copy(image, twin.path("b.image"))
        twin.begin("b")
        return twin

    def go_through(self, twin, machines):
        """One of the two says why it runs nothing, and each child runs once then, at the other one or elsewhere."""
        until(40, lambda: any("another process of this name lives" in one.hindered("b", "b") for one in (machines, twin)), "one says why")
        until(40, lambda: each_once_in([machines, twin], IDS), "each child runs once")
        time.sleep(3 * PACE)
        need(each_once_in([machines, twin], IDS), "each child still runs, once")
        until(10, lambda: "two processes of the name b live" in machines.log("a"), "the others tell it, too")

    def test_of_two_machines_of_a_name_one_runs_nothing_and_says_why(self):
        machines = self.begun()
        self.go_through(self.twin(machines), machines)

    def test_of_two_machines_of_a_name_with_one_image_one_runs_nothing_and_says_why(self):
        machines = self.begun()
        self.go_through(self.twin(machines, machines.path("b.image")), machines)


if __name__ == "__main__":
    unittest.main()
