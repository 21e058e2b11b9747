"""Lines between machines that are cut, in both directions or in one, or dropped."""
import time
import unittest

from machines import IDS, OfMachines, tell
from pulse import PACE, until
from servers import Proxy


class Partitions(OfMachines):
    def parted(self, options=()):
        """Three machines whose lines all go through proxies."""
        self.proxies, machines = {}, None

        def address(sender, to):
            if (sender, to) not in self.proxies:
                self.proxies[sender, to] = Proxy(machines.ports[to])
            return f"127.0.0.1:{self.proxies[sender, to].port}"
        machines = self.machines(addresses=address, options=list(options))
        self.addCleanup(lambda: [proxy.server.close() for proxy in self.proxies.values()])
        machines.begin_all()
        machines.start("a", IDS)
        self.settle(machines)
        return machines

    def cut(self, names, others, is_cut):
        """Cuts all that these machines say to the others, over whichever connection, or lets it pass again."""
        for (maker, to), proxy in self.proxies.items():
            if maker in names and to in others:
                proxy.cut["there"] = is_cut
            if to in names and maker in others:
                proxy.cut["back"] = is_cut

    def part(self, name, is_cut):
        """Cuts all lines from and to a machine."""
        self.cut(name, "abc", is_cut)
        self.cut("abc", name, is_cut)

    def test_both_sides_of_a_partition_run_all_and_one_again_when_it_is_healed(self):
        machines = self.parted()
        self.part("c", True)
        began = time.monotonic()
        until(20, lambda: all(len({host for _, host in machines.watcher.now()[1].get(ident, ())}) == 2 for ident in IDS), "both sides run all")
        parted = time.monotonic() - began
        machines.start("c", ["of-c"])
        machines.start("a", ["of-a"])
        self.part("c", False)
        healed = time.monotonic()
        once = until(20, lambda: machines.each_once(IDS + ["of-c", "of-a"]), "each runs once")
        self.settle(machines)
        time.sleep(1)
        machines.need_each_once(IDS + ["of-c", "of-a"])
        tell("a partition", both_sides_run_all_after=parted, each_once_after_healing=once, two_at_once_from_3_s_after=machines.both(healed + 3, IDS))

    def test_with_least_the_lonely_side_runs_nothing(self):
        machines = self.parted(options=["--least", "2"])
        self.part("c", True)
        began = time.monotonic()
        until(20, lambda: machines.each_once(IDS) and "c" not in machines.where(IDS).values(), "the greater side alone runs all")
        moved = time.monotonic() - began
        self.part("c", False)
        until(20, lambda: machines.each_once(IDS) and "c" in machines.where(IDS).values(), "the machine is back")
        self.settle(machines)
        tell("a partition with --least 2", the_greater_side_alone_after=moved, two_at_once=machines.both(began, IDS))

    def test_a_network_that_is_open_one_way_is_a_partition(self):
        """No connection lasts where nothing comes back over it; so who isn't heard hears nobody."""
        machines = self.parted(options=["--least", "2"])
        homes, began = machines.where(IDS), time.monotonic()
        self.cut("c", "ab", True)
        until(20, lambda: machines.each_once(IDS) and "c" not in machines.where(IDS).values(), "the others run all")
        time.sleep(4 * PACE)  # it tries to join again meanwhile
        machines.need_each_once(IDS)
        self.assertNotIn("c", machines.where(IDS).values())
        self.cut("c", "ab", False)
        until(20, lambda: machines.each_once(IDS) and machines.where(IDS) == homes, "all are home")
        self.settle(machines)
        tell("a network that is open one way, with --least 2", two_at_once=machines.both(began, IDS))

    def test_a_machine_that_is_heard_over_its_own_connections_alone_is_one_like_any_other(self):
        """As where its port is closed: it connects to the others, and nobody connects to it."""
        machines = self.parted()
        before, began = machines.watcher.now()[1], time.monotonic()
        for maker in "ab":
            self.proxies[maker, "c"].cut = {"there": True, "back": True}
        time.sleep(3 * PACE)
        more = [f"more{number}" for number in range(6)]
        machines.start("a", more)
        until(10, lambda: machines.each_once(IDS + more), "what was started elsewhere runs, too")
        self.assertIn("c", machines.where(more).values())
        machines.need_same(before)
        tell("a machine to which nobody can connect", two_at_once=machines.both(began, IDS + more), longest_silence=machines.gap(began, IDS))
        machines.need_one_at_most(began, IDS + more)

    def test_a_cut_between_two_machines_that_both_hear_a_third_moves_no_child(self):
        machines = self.parted()
        before, began = machines.watcher.now()[1], time.monotonic()
        self.cut("a", "b", True)
        self.cut("b", "a", True)
        time.sleep(8 * PACE)
        machines.need_same(before)
        machines.start("a", ["more"])
        until(10, lambda: machines.each_once([*IDS, "more"]) and machines.tables_equal(), "what is started meanwhile is known to all, and runs once")
        self.cut("a", "b", False)
        self.cut("b", "a", False)
        time.sleep(3 * PACE)
        machines.need_same(before)
        tell("a cut between two of three", two_at_once=machines.both(began, IDS), longest_silence=machines.gap(began, IDS))
        machines.need_one_at_most(began, IDS)

    def test_a_network_that_drops_a_third_of_all_lines_brings_all(self):
        machines = self.parted()
        for proxy in self.proxies.values():
            proxy.loss = 0.33
        began = time.monotonic()
        more = [f"more{number}" for number in range(10)]
        machines.start("b", more)
        lost = until(30, lambda: machines.each_once(IDS + more) and machines.tables_equal(), "all is known and runs")
        tell("a third of all lines dropped", all_known_and_run_after=lost, two_at_once=machines.both(began, IDS))


if __name__ == "__main__":
    unittest.main()
