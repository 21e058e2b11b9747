"""Agents with several groups: each child is kept by the nodes of its group, and the agents' work is as with one."""
import os
import signal
import subprocess
import sys
import time
import unittest
import unittest.mock

from machines import AGENT, SUPD, Machines, free_ports, tell
from promises import need
from pulse import PACE, until

import client
import groups
import move
import page

IDS = [f"w{number}" for number in range(1, 13)]


class OfGroups(unittest.TestCase):
    def machines(self, names=("a", "b", "c"), count=3, **options):
        machines = Machines(list(names), options=["--groups", str(count)], **options)
        self.addCleanup(machines.end)
        return machines

    def begun(self, **options):
        machines = self.machines(**options)
        machines.begin_all()
        machines.start("a", IDS)
        self.settle(machines)
        return machines

    def settle(self, machines):
        return until(30, lambda: machines.each_once(IDS) and machines.tables_equal() and self.at_home(machines), "each child runs once, at its place, and tables are equal")

    def at_home(self, machines):
        places = {child["id"]: child["place"] for child in machines.status(machines.names[0])["children"]}
        return machines.where(IDS) == {ident: places.get(ident) for ident in IDS}

    def test_children_of_all_groups_run_and_those_of_a_killed_machine_elsewhere(self):
        machines = self.begun()
        shown, began = machines.ask("b", "show"), time.monotonic()
        for number in range(3):
            part = "\n".join(shown).split(f"group {number}/3\n")[1].split("group ")[0]
            need({ident for ident in IDS if f"child {ident} " in part} == {ident for ident in IDS if groups.group_of(ident, 3) == number}, f"each id is its group's: {shown}")
        homes = machines.where(IDS)
        machines.kill("b")
        away = until(15, lambda: machines.each_once(IDS) and "b" not in machines.where(IDS).values(), "all run elsewhere")
        machines.begin("b")
        until(20, lambda: machines.where(IDS) == homes, "all are home")
        self.settle(machines)
        tell("three groups, a machine is killed and comes back", elsewhere_after=away, longest_silence=machines.gap(began, IDS), two_at_once=machines.both(began, IDS))
        machines.need_one_at_most(began, IDS)

    def test_a_drain_and_a_stop_are_of_all_groups(self):
        machines = self.begun()
        began = time.monotonic()
        self.assertTrue(groups.is_done(machines.ask("b", "drain b")))
        until(15, lambda: machines.each_once(IDS) and "b" not in machines.where(IDS).values(), "all have moved")
        machines.agents["b"].terminate()
        self.assertEqual(machines.wait("b"), 0)
        until(10, lambda: machines.members("a") == ["a", "c"] * 3, "it has left each group")
        machines.need_one_at_most(began, IDS)

    def test_a_node_that_stays_away_moves_the_children_of_its_group_alone(self):
        machines = self.machines(names=["a", "b"])
        machines.supd["b"] = machines.path("supd-of-b")
        with open(machines.supd["b"], "w") as file:
            file.write(f'#!/bin/sh\ncase "$*" in *1-of-3*) [ -e {machines.path("closed")} ] && exit 3;; esac\nexec {SUPD} "$@"\n')
        os.chmod(machines.supd["b"], 0o755)
        machines.begin_all()
        machines.start("a", IDS)
        self.settle(machines)
        homes, began = machines.where(IDS), time.monotonic()
        moved = {ident for ident in IDS if homes[ident] == "b" and groups.group_of(ident, 3) == 1}
        self.assertNotIn(len(moved), (0, sum(home == "b" for home in homes.values())))
        seen = machines.watcher.now()[1]
        kept = {ident: seen[ident] for ident in IDS if ident not in moved}
        with open(machines.path("closed"), "w"):
            pass
        os.kill(machines.node("b", "1-of-3"), signal.SIGKILL)
        until(20, lambda: machines.where(IDS) == {ident: "a" if ident in moved else home for ident, home in homes.items()}, "they run elsewhere")
        machines.need_same(kept)
        self.assertIn("gone in 1", machines.status("b")["node"])
        os.unlink(machines.path("closed"))
        until(30, lambda: machines.each_once(IDS) and machines.where(IDS) == homes, "they are home")
        tell("a node of three stays away", two_at_once=machines.both(began, IDS))
        machines.need_one_at_most(began, IDS)

    def test_names_and_members_are_asked_of_all_groups(self):
        machines = self.machines(names=["a"])
        machines.begin_all()
        machines.start("a", IDS)
        for ident in IDS[:4]:
            self.assertTrue(machines.ask("a", f"register the-{ident} {ident}")[0].startswith("ok"))
            self.assertEqual(machines.ask("a", f"where the-{ident}"), [f"the-{ident} {ident} on a"])
        self.assertEqual(machines.ask("a", f"register the-{IDS[0]} {IDS[5]}"), ["refused 8 NameTaken"])
        self.assertEqual(machines.ask("a", "where nothing"), ["nothing unknown"])
        self.assertTrue(machines.ask("a", f"unregister the-{IDS[0]}")[0].startswith("ok removed"))
        self.assertEqual(machines.ask("a", f"where the-{IDS[0]}"), [f"the-{IDS[0]} unknown"])
        told = subprocess.run([sys.executable, AGENT, "status", f"127.0.0.1:{machines.ports['a']}", "--secret", machines.path("secret")], stdout=subprocess.PIPE, text=True).stdout
        for ident in IDS:
            self.assertRegex(told, rf"(?m)^{ident} .* {groups.group_of(ident, 3)}$")

    def test_the_page_shows_and_drains_all_groups_as_one(self):
        machines = self.begun(names=["a", "b"])
        view = page.View(("127.0.0.1", machines.ports["a"]), machines.secret, "key")
        shown = view.part("/", {})[1]
        for ident in IDS:
            self.assertRegex(shown, rf'<code>{ident}</code></a> <span class="quiet">group {groups.group_of(ident, 3)}</span></td>')
        self.assertEqual(shown.count('<code>b</code></td><td data-head="member"><span class="good">open</span>'), 1)
        self.assertRegex(view.do({"verb": "drain", "id": "b"}), r"^drain b: ok \(a,\d+\) removed \(b,1\)(, ok \(a,\d+\) removed \(b,1\))*$")
        until(10, lambda: '<code>b</code></td><td data-head="member"><span class="bad">draining</span>' in view.part("/", {})[1], "it is draining in each group")
        self.assertEqual(view.do({"do": "drain nobody"}), "drain nobody: refused 7 NotMember\nno member is named nobody")

    def test_a_machine_of_another_count_runs_nothing_and_says_why(self):
        machines = self.machines(names=["a", "b"])
        machines.begin("a")
        until(10, lambda: machines.ask("a", "begin alone")[1::2] == ["ok begins alone"] * 3, "it begins alone")
        until(20, lambda: machines.members("a") == ["a"] * 3, "the first goes on")
        machines.options = ["--groups", "2"]
        machines.begin("b")
        until(10, lambda: "setting" in machines.hindered("b", "b"), "the other one says why it runs nothing")
        machines.start("a", IDS)
        until(10, lambda: machines.each_once(IDS) and set(machines.where(IDS).values()) == {"a"}, "each child runs at the first")
        time.sleep(PACE)
        machines.need_each_once(IDS)
        self.assertEqual(machines.members("b"), [])
        until(10, lambda: [told["how"][:25] for told in machines.status("a")["machines"] if told["name"] == "b"] == ["another setting: 2 groups"], "the first one tells of it")
        machines.need_each_once(IDS)


class Moves(unittest.TestCase):
    """How the count of groups is changed: a second agent on each machine, on other ports, to which all children move."""

    def setUp(self):
        self.machines = Machines(["a", "b"])
        self.addCleanup(self.machines.end)
        self.machines.begin_all()
        self.old = dict(self.machines.ports)

    def begin_others(self):
        """Agents of the same machines, images and all, but for ports and the count of groups."""
        machines = self.machines
        machines.ports = dict(zip(machines.names, free_ports(2)))
        machines.options = ["--groups", "4"]
        self.others, self.agents = machines.ports, dict(machines.agents)
        machines.begin(*machines.names)
        self.addCleanup(lambda: [agent.terminate() for agent in self.agents.values()])
        until(60, lambda: all(machines.members(name) == ["a", "b"] * 4 for name in machines.names), "they are members")

    def move(self):
        words = [sys.executable, AGENT, "move", f"127.0.0.1:{self.old['a']}", f"127.0.0.1:{self.others['b']}", "--secret", self.machines.path("secret")]
        return subprocess.run(words, stdout=subprocess.PIPE, stderr=subprocess.PIPE, text=True)

    def test_all_children_and_names_move_and_none_runs_twice(self):
        machines = self.machines
        machines.start("a", IDS)
        machines.start("a", ["slow"], kind="stubborn", shutdown=700)
        machines.ask("b", "register www w3")
        until(10, lambda: machines.each_once(IDS), "each runs once")
        self.begin_others()
        began = time.monotonic()
        told = self.move()
        self.assertEqual((told.returncode, told.stderr), (0, ""))
        self.assertIn("start w3 kind=sleep arg=100000 restart=permanent shutdown=5000\nregister www w3", told.stdout)
        until(15, lambda: machines.each_once(IDS), "each runs once again")
        tell("12 children move to four groups", after=time.monotonic() - began, longest_silence=machines.gap(began, IDS), two_at_once=machines.both(began, IDS))
        machines.need_one_at_most(began, IDS)
        self.assertRegex(machines.ask("a", "where www")[0], "www w3 on [ab]")
        self.assertEqual([child["id"] for child in client.status(("127.0.0.1", self.old["a"]), machines.secret)["children"]], [])
        seen = machines.watcher.now()[1]
        before = {ident: seen[ident] for ident in IDS}
        for agent in self.agents.values():
            agent.terminate()
            until(20, lambda: agent.poll() is not None, "it ends")
            self.assertEqual(agent.returncode, 0)
        time.sleep(0.5)
        machines.need_same(before)

    def test_what_both_clusters_have_stays_where_it_is(self):
        machines = self.machines
        machines.start("a", ["w1", "w2"])
        self.begin_others()
        machines.start("a", ["w2"])
        told = self.move()
        self.assertEqual((told.returncode, told.stderr, told.stdout), (1, "both clusters have w2\n", ""))
        self.assertEqual(len(client.status(("127.0.0.1", self.old["a"]), machines.secret)["children"]), 2)

    def test_a_machine_that_is_away_keeps_all_where_they_are(self):
        """Once it is back it would be alone in the first cluster, and run all."""
        status = {"machines": [{"name": "a", "heard": 0}, {"name": "b", "heard": None}, {"name": "c", "heard": 11}], "children": [], "names": [], "ending": [], "node": "runs"}
        with unittest.mock.patch.object(client, "status", lambda *_, **__: status):
            with self.assertRaises(move.NotMoved) as fault:
                move.move("here", "there", None, print, ["b"])
            self.assertEqual(str(fault.exception), "away: c")
            move.move("here", "there", None, print, ["b", "c"])

    def test_what_was_not_started_is_told(self):
        asked = []

        def do(address, secret, line):
            asked.append(line)
            if line == "start w2 kind=sleep arg=1":
                raise client.NoAnswer("gone")
        child = {"kind": "sleep", "arg": "1", "restart": "", "shutdown": ""}
        status = {"machines": [], "children": [{"id": "w1", **child}, {"id": "w2", **child}], "names": ["www (a,3) w2 on a"], "ending": [], "node": "runs"}
        with unittest.mock.patch.multiple(move, do=do), unittest.mock.patch.object(client, "status", lambda at, *_, **__: status if at == "here" else {"children": [], "node": "runs"}):
            with self.assertRaises(move.NotMoved) as fault:
                move.move("here", "there", None, lambda lines: None)
        self.assertEqual(asked, ["delete w1", "delete w2", "start w1 kind=sleep arg=1", "start w2 kind=sleep arg=1"])
        self.assertEqual(str(fault.exception).splitlines(), ["gone", "to be said yet to the other cluster, once these children have ended:", "start w2 kind=sleep arg=1", "register www w2"])


if __name__ == "__main__":
    unittest.main()
