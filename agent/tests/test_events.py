"""What has happened: the last runs of children, commands with who gave them, machines in and out; as lines for people and at real agents."""
import json
import os
import re
import signal
import socket
import subprocess
import sys
import time
import unittest

from fake_agent import COMMAND
from machines import OfMachines
from pulse import bound, until
from servers import Proxy
import test_sebrakt

import client
import event_commands
import events
import seals
import shown


class Rings(unittest.TestCase):
    def setUp(self):
        self.said = []
        self.one, self.other = (events.Events(name, name * 4, lambda text, name=name: self.said.append((name, text))) for name in "ab")

    def lines(self, ring):
        return [event["line"] for event in json.loads(ring.told("events"))["events"] if event["what"] == "command"]

    def test_a_command_is_told_to_all_once_and_to_who_comes_back(self):
        self.one.link("b", True)
        self.one.command("start x", "ok (a,2)", "me@host", "10.0.0.1")
        line = self.one.take_unsaid()
        self.assertIsNone(self.one.take_unsaid())
        for _ in range(2):
            self.other.hear(line.removeprefix("events "))
        self.assertEqual((self.lines(self.other), len(self.other.commands)), (["start x"], 1))
        self.one.command("delete x", "ok removed (a,2)", "", "10.0.0.1")
        self.other.hear(self.one.link("b", True).removeprefix("events "))
        self.assertEqual(self.lines(self.other), ["start x", "delete x"])
        self.assertEqual(self.said, [("a", "me@host from 10.0.0.1 to a: start x -> ok (a,2)"), ("a", "somebody from 10.0.0.1 to a: delete x -> ok removed (a,2)")])

    def talk(self):
        """Has each tell the other what it is to be told, until neither has anything to tell. How often that was."""
        for turn in range(20):
            said = [(other, line) for ring, other in ((self.one, self.other), (self.other, self.one)) if (line := ring.take_unsaid())]
            if not said:
                return turn
            for other, line in said:
                other.hear(line.removeprefix("events "))
        return 20

    def test_a_command_that_was_pushed_out_and_is_told_again_is_not_kept_again(self):
        """Else it would push out the next one, which would come back, too, and so all of them, without end."""
        self.one.link("b", True), self.other.link("a", True)
        for number in range(events.MOST_COMMANDS + 100):
            self.one.command(f"start {number}", "ok", "me", "h")
            self.talk()
        self.one.link("b", False), self.other.link("a", False)
        self.one.command("start last", "ok", "me", "h")
        self.one.take_unsaid()
        for told, by in (self.other, self.one.link("b", True)), (self.one, self.other.link("a", True)):
            told.hear(by.removeprefix("events "))
        self.assertLess(self.talk(), 3)
        self.assertEqual((self.lines(self.one), self.lines(self.one)[-1]), (self.lines(self.other), "start last"))

    def test_what_each_side_of_a_cut_was_told_is_told_to_the_other_once(self):
        for ring in (self.one, self.other):
            for number in range(events.MOST_COMMANDS):
                ring.command(f"start {ring.name}{number}", "ok", "me", "h")
            ring.take_unsaid()
        for told, by in (self.other, self.one.link("b", True)), (self.one, self.other.link("a", True)):
            told.hear(by.removeprefix("events "))
        self.assertLess(self.talk(), 3)

    def test_what_is_no_list_of_commands_is_refused(self):
        good = ["m", 1, 5.0, "a", "start x", "ok", "me", "h"]
        self.other.hear(json.dumps([good]))
        for text in ("", "{}", "5", "null", "[5]", "[[]]", "[" * 5000, '{"a":1}', *(json.dumps([good[:place] + [bad] + good[place + 1:]]) for place, bad in
                                                                                  [(0, 1), (1, "1"), (1, True), (2, "x"), (2, float("nan")), (2, 1e300), (3, None), (4, "x" * 301), (5, []), (6, "\u00e9"), (7, "\x1b[2J")])):
            with self.assertRaises(ValueError, msg=text[:80]):
                self.other.hear(text)
        self.assertEqual(len(self.other.commands), 1)

    def test_it_has_a_bound_and_a_crowd_of_runs_pushes_no_command_out(self):
        for number in range(3000):
            self.one.command(f"start {number} " + "x" * 2000, "ok", "me", "h")
        for number in range(9000):
            self.one.note("begin", "a", id=f"x{number}", run="1.1", process=1)
        told = self.one.told("events")
        self.assertEqual(len(json.loads(told)["events"]), events.MOST_COMMANDS + events.MOST)
        self.assertLess(len(told), 1 << 20)
        self.assertLess(len(self.one.take_unsaid() or ""), 1 << 20)

    def test_who_follows_is_told_what_is_new_alone_and_all_by_another_process(self):
        self.one.command("start x", "ok", "me", "h")
        first = json.loads(self.one.told("events"))
        self.one.note("in", "b")
        place = f"{first['mark']} {first['last']}"
        self.assertEqual([event["what"] for event in json.loads(self.one.told("events " + place))["events"]], ["in"])
        self.assertEqual(len(json.loads(self.one.told("events other 7"))["events"]), 2)
        for words in ("x" * 5000, f"{first['mark']} x", f"{first['mark']} {'9' * 5000}"):
            self.assertEqual(len(json.loads(self.one.told("events " + words))["events"]), 2)

    def test_the_command_that_has_added_an_entry_is_found(self):
        self.one.command("start x kind=y", "ok (a,2)", "me", "h")
        self.one.command("register n x", "ok (a,3)", "me", "h")
        self.assertEqual((self.one.of_dot("child", "(a,2)")["line"], self.one.of_dot("name", "(a,3)")["line"], self.one.of_dot("child", "(a,20)")),
                         ("start x kind=y", "register n x", None))

    def test_each_event_has_words(self):
        self.one.note("move", "b", id="x", run="1.2", process=5, before="a")
        self.one.note("end", "b", id="x", run="1.2", how="signal 9")
        self.one.note("lost", "b", id="x", dot="(b,2)", line="start x")
        self.assertEqual([events.text_of(event) for _, event in self.one.others],
                         ["x began on b, where it came from a: run 1.2, process 5", "x ended on b: run 1.2, signal 9", "of two commands for x that of b has lost: (b,2), start x"])


class Tables(unittest.TestCase):
    def test_a_status_is_told_in_columns_with_reasons_and_runs(self):
        web, now = {"group": 0, "restart": "permanent", "shutdown": "5000"}, time.time()
        status = {"name": "a", "groups": 1, "boot": "2", "node": "runs", "refused": {"wrong seal": 3}, "names": ["www (a,3) web on a"], "counts": {"running": 1, "not placed": 1, "waiting": 1},
                  "losers": [{"table": "child", "key": "web", "dot": "(b,7)", "at": "b", "line": "start web kind=x", "by": "me@there", "whence": "10.0.0.1", "when": None}], "ending": [["old", "b"]],
                  "machines": [{"name": "a", "member": "open", "label": "x", "heard": 0, "how": "here", "hinders": "", "reasons": []},
                               {"name": "b", "member": "out", "label": "", "heard": None, "how": "not heard yet", "hinders": "", "reasons": ["not heard yet", "no member"]},
                               {"name": "c", "member": "open", "label": "z", "heard": 0.2, "how": "in touch through others", "hinders": "", "reasons": ["in touch through others"]}],
                  "children": [{"id": "web", **web, "kind": "http", "arg": "80", "place": "a", "runs": [["a", "1.2", 17, 1, "signal 9"]], "state": "running", "why": "running, not ready", "health": "not ready", "restarts": 1, "last": "x",
                                "history": [["a", "1.1", 15, None, now, "signal 9"], ["a", "1.2", 17, now - 3700, None, ""]]},
                               {"id": "q", **web, "kind": "w", "arg": "", "place": None, "runs": [], "state": "not placed", "why": "not placed", "health": "", "restarts": 0, "last": "", "history": []},
                               {"id": "bad", **web, "kind": "b", "arg": "", "place": "c", "runs": [], "state": "waiting", "why": "waits 2.5 s, 3 restarts, status 1", "health": "", "restarts": 3, "last": "status 1",
                                "history": [["c", "", 0, 1000, 1001, "status 1"]]}]}
        self.assertEqual(shown.tables(json.loads(json.dumps(status))), [
            "agent a: its node: runs, boot 2; refused lines: 3 wrong seal", "3 children: 1 not placed, 1 waiting; 3 machines: 1 out", "b: not heard yet, no member", "c: in touch through others", "",
            "machine  member  last contact                        label", "a        open    here                                x", "b        out     never",
            "c        open    0.2 s ago, in touch through others  z", "",
            "child  state       place  runs on  run  process  for        restarts  last exit  kind  arg",
            "web    running     a      a        1.2  17       1 h 1 min  1         signal 9   http  80",
            "q      not placed  none                                                          w",
            "bad    waiting     c                                        3         status 1   b", "",
            "children that don't run", "q: not placed", "bad: waits 2.5 s, 3 restarts, status 1", f"  {events.moment(1000)} to {events.moment(1001)[11:]} on c, run ?: status 1", "", "runs, but", "web: not ready", "",
            "name  dot    child", "www   (a,3)  web on a", "",
            "of two commands the one that lost  dot    line              by", "child web                          (b,7)  start web kind=x  me@there at b, ?", "", "deleted, and running still", "old on b"])

    def test_of_a_span_the_day_is_said_once(self):
        first, later = events.moment(1000), events.moment(1000 + 2 * 86400)
        self.assertEqual([events.span(1000, 1001), events.span(1000, 1000 + 2 * 86400), events.span(None, 1000), events.span(None, None)],
                         [f"{first} to {events.moment(1001)[11:]}", f"{first} to {later}", f"? to {first}", "? to ?"])

    def test_times_are_told_in_two_units(self):
        self.assertEqual([shown.lasted(seconds) for seconds in (-1, 0.5, 59, 61, 3600, 7261, 90000)], ["0 s", "0 s", "59 s", "1 min 1 s", "1 h 0 min", "2 h 1 min", "1 d 1 h"])

    def test_what_is_asked_for_is_what_has_to_do_with_it(self):
        told = [{"what": "command", "machine": "a", "line": "register www web"}, {"what": "begin", "machine": "b", "id": "web"}, {"what": "in", "machine": "b"}]
        self.assertEqual([[event_commands.is_about(event, about) for event in told] for about in (None, "web", "b", "www", "w")],
                         [[True] * 3, [True, True, False], [False, True, True], [True, False, False], [False] * 3])


class AtAgents(test_sebrakt.OfAgents):
    """Two real agents."""

    def events(self, *words, at="a"):
        return json.loads(self.do("events", "--json", *words, at=at))["events"]

    def test_a_command_is_told_at_each_agent_with_who_and_from_where(self):
        self.do("start", "who", "--kind", "sleep", "--arg", "100000", SUDO_USER="alice")
        self.machines.child("b", "who")
        self.do("delete", "who", at="b", SUDO_USER="bob")
        until(10, lambda: not any(one["id"] == "who" for one in self.machines.status("a")["children"]), "a knows that it is gone")
        self.do("delete", "who", status=1)
        for at in "ab":
            until(10, lambda: len(self.events("who", at=at)) >= 3 and [event["what"] for event in self.events("who", at=at)].count("command") == 3, "all three are known")
            told = [event for event in self.events("who", at=at) if event["what"] == "command"]
            self.assertEqual([(event["machine"], event["by"].split("@")[0], event["whence"]) for event in told[:2]], [("a", "alice", "127.0.0.1"), ("b", "bob", "127.0.0.1")])
            self.assertRegex(told[0]["answer"] + told[2]["answer"], r"^ok \(a,\d+\)refused 5 NotFound$")
        self.assertRegex(self.machines.log("a"), r"alice@\S+ from 127.0.0.1 to a: start who .* -> ok")

    def test_runs_are_told_alike_by_both_agents_with_their_ends(self):
        asked = time.monotonic()
        self.do("start", "runs", "--kind", "sleep", "--arg", "100000", "--wait")
        os.kill(json.loads(self.do("where", "runs", "--json"))["children"][0]["runs"][0][2], signal.SIGKILL)
        for at in "ab":
            until(10, lambda: [run[5] for run in self.machines.child(at, "runs")["history"]] == ["signal 9", ""], "both runs are known")
            began, ended = self.machines.child(at, "runs")["history"][0][3:5]
            self.assertTrue(time.time() - bound(60, asked) < began <= ended < time.time() + 1)
            self.assertRegex(self.do("where", "runs", at=at), r"runs runs on . .*\n  \S+ \S+ to now on ., run \S+\n  \S+ \S+ to [\S ]+ on ., run \S+: signal 9\n")
            self.assertEqual([event["what"] for event in self.events("runs", at=at) if event["what"] != "command"], ["begin", "end", "begin"])
        home = self.machines.child("a", "runs")["place"]
        self.do("drain", home, "--wait")
        until(10, lambda: [event["what"] for event in self.events("runs")][-1] == "move", "it has moved")
        self.assertEqual(self.events("runs")[-1]["before"], home)
        machine = next(one for one in json.loads(self.do("status", "--json"))["machines"] if one["name"] == home)
        self.assertRegex(machine["reasons"][0], r"^draining, by \S+@\S+ at ")
        self.do("undrain", home)
        self.do("delete", "runs")

    def test_each_state_is_told_with_its_reason(self):
        for ident, kind in ("bad", "bad"), ("kindless", "nix"), ("good", "sleep"):
            self.do("start", ident, "--kind", kind, "--arg", "100000")
        seen = {}

        def states():
            seen.update((one["id"], one) for one in json.loads(self.do("status", "--json"))["children"])
            return [seen[ident]["state"] for ident in ("bad", "kindless", "good")]
        until(20, lambda: states() == ["waiting", "kind missing", "running"] and seen["kindless"]["seconds"] > 0, "each is in its state")
        self.assertLess(seen["kindless"]["seconds"], 60)
        self.assertIn("no kind nix in kinds.json", seen["kindless"]["why"])
        self.assertTrue(seen["bad"]["history"] and all(run[5] in ("status 1", "") for run in seen["bad"]["history"]))
        self.assertTrue(seen["kindless"]["history"] and all(run[5] == "failed: no kind nix in kinds.json" for run in seen["kindless"]["history"]))
        until(10, lambda: re.search(r"children: (\d+ \w+, )*1 kind missing", self.do("status")), "and counted")
        self.do("delete", "bad", "kindless", "good")

    def test_who_follows_is_told_what_comes(self):
        words = [sys.executable, COMMAND, "events", "-f", "--json", "--last", "1", "--address", f"127.0.0.1:{self.machines.ports['a']}", "--secret", self.machines.path("secret")]
        with subprocess.Popen(words, stdout=subprocess.PIPE, text=True) as follower:
            try:
                follower.stdout.readline()
                self.do("start", "new", "--kind", "sleep", "--arg", "100000")
                told = (event for event in map(json.loads, follower.stdout) if event_commands.is_about(event, "new"))  # others may end what they began before
                self.assertEqual(next(told)["line"].split(" ")[:2], ["start", "new"])
                self.assertEqual(next(told)["what"], "begin")
            finally:
                follower.terminate()
        self.do("delete", "new")

    def test_who_follows_and_does_not_read_holds_nobody_up(self):
        """One that asks and asks over one connection, and reads nothing."""
        with socket.create_connection(self.machines.address("a")) as link, link.makefile("rb") as lines:
            hello = lines.readline().decode().split()
            seal = seals.Seal(self.machines.secret, seals.CLIENT, seals.fresh(), hello[1], hello[2])
            link.settimeout(30)
            link.sendall("".join(seal.line(text) + "\n" for text in ["hello", *["ask events"] * 2000]).encode())
            began, slowest = time.monotonic(), 0
            for _ in range(20):
                asked = time.monotonic()
                client.ask(self.machines.address("a"), self.machines.secret, "members")
                slowest = max(slowest, time.monotonic() - asked)
                time.sleep(0.05)
            self.assertLess(slowest, bound(1, began))
        self.assertEqual({one["member"] for one in self.machines.status("b")["machines"]}, {"open"})


class Partition(OfMachines):
    def test_of_two_commands_for_one_child_the_one_that_lost_is_told_with_who_gave_it(self):
        machines = self.machines("ab", addresses=lambda sender, to: f"127.0.0.1:{of[to].port}")
        of = {name: Proxy(machines.ports[name]) for name in "ab"}
        self.addCleanup(lambda: [proxy.server.close() for proxy in of.values()])
        machines.begin_all()
        for proxy in of.values():
            proxy.cut.update(there=True, back=True)
        until(20, lambda: all(len(machines.members(name)) == 1 for name in "ab"), "each is alone")
        for name, arg in ("a", "100001"), ("b", "100002"):
            machines.start(name, ["twice"], arg=arg)
        for proxy in of.values():
            proxy.cut.update(there=False, back=False)
        until(30, lambda: all([one["key"] for one in machines.status(name)["losers"]] == ["twice"] for name in "ab"), "the loser is told")
        for name in "ab":
            until(10, lambda: machines.status(name)["losers"][0]["line"], "its command is known")
            lost, kept = machines.status(name)["losers"][0], machines.child(name, "twice")["arg"]
            self.assertEqual(lost["line"], f"start twice kind=sleep arg={'100002' if kept == '100001' else '100001'}")
            self.assertEqual((lost["at"], lost["by"]), ("b" if kept == "100001" else "a", client.who()))
            until(10, lambda: f"of two commands for twice that of {lost['at']} has lost: {lost['dot']}, start twice" in machines.log(name), "it is logged")


if __name__ == "__main__":
    unittest.main()
