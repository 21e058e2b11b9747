"""Three hosts in network namespaces: a port that is closed, a cut between two that both see a third, a host that is cut off."""
import time
import unittest

from machines import IDS, OfMachines, tell
from pulse import PACE, until

import hosts

MORE = [f"more{number}" for number in range(1, 7)]


@unittest.skipIf(hosts.MISSING, hosts.MISSING)
@unittest.skipUnless(hosts.is_possible(), "network namespaces")
class Namespaces(OfMachines):
    def machines(self, names=("a", "b", "c"), **options):
        machines = hosts.Hosts(list(names), **options)
        self.addCleanup(machines.end)
        return machines

    def test_a_closed_port_changes_nothing(self):
        """One that connects to the others is reached over its own connections."""
        machines = self.begun()
        before, began = machines.watcher.now()[1], time.monotonic()
        machines.close_port("c")
        time.sleep(6 * PACE)
        machines.start("a", MORE)
        until(10, lambda: machines.each_once(IDS + MORE), "what is started runs")
        self.assertIn("c", machines.where(MORE).values())
        machines.ask("a", "drain b")
        until(10, lambda: machines.each_once(IDS + MORE) and "b" not in machines.where(IDS + MORE).values(), "what is drained moves")
        machines.ask("a", "leave b")

        def is_home():
            seen, where = machines.watcher.now()[1], machines.where(IDS)
            return {ident: seen.get(ident) for ident in IDS if where[ident] != "b"}.items() <= before.items() and "b" in where.values()
        until(20, is_home, "what was moved is home, and nothing else has begun anew")
        tell("a closed port", two_at_once=machines.both(began, IDS + MORE), longest_silence=machines.gap(began, IDS))
        machines.need_one_at_most(began, IDS + MORE)

    def test_a_host_that_begins_behind_a_closed_port_takes_part(self):
        machines = self.machines()
        machines.close_port("c")
        for name in machines.names:
            machines.begin(name)
        machines.start("a", IDS)
        until(30, lambda: machines.each_once(IDS) and "c" in machines.where(IDS).values(), "it runs its children")

    def test_a_cut_between_two_of_three_moves_no_child(self):
        machines = self.begun()
        before, began = machines.watcher.now()[1], time.monotonic()
        machines.cut("a", "b")
        time.sleep(10 * PACE)
        machines.need_same(before)
        machines.start("a", MORE)
        until(10, lambda: machines.each_once(IDS + MORE), "what is started runs")
        machines.cut("a", "b", False)
        time.sleep(4 * PACE)
        machines.need_same(before)
        tell("a cut between two of three", two_at_once=machines.both(began, IDS + MORE), longest_silence=machines.gap(began, IDS))
        machines.need_one_at_most(began, IDS + MORE)

    def test_a_host_that_is_cut_off_runs_all_beside_the_others_until_it_is_back(self):
        machines = self.begun()
        for other in "ab":
            machines.cut("c", other)
        until(20, lambda: all(len({host for _, host in machines.watcher.now()[1].get(ident, ())}) == 2 for ident in IDS), "both sides run all")
        for other in "ab":
            machines.cut("c", other, False)
        healed = time.monotonic()
        until(20, lambda: machines.each_once(IDS), "each runs once")
        self.settle(machines)
        tell("a host that was cut off", each_once_after=time.monotonic() - healed)


if __name__ == "__main__":
    unittest.main()
