"""Small parts of an agent: its log, groups of children, the words of its command line, what people are told."""
import argparse
import collections
import contextlib
import io
import json
import os
import subprocess
import sys
import time
import types
import unittest
import unittest.mock

sys.path.insert(0, os.path.dirname(os.path.dirname(os.path.abspath(__file__))))

import agent
import carrier
import client
import groups
import host
import log
import move
import options
import people
import view
import watch
from core import core, word
from pulse import until


class OfLogs(unittest.TestCase):
    def test_a_log_that_cannot_be_written_holds_nothing_up(self):
        reader, full = os.pipe()
        with open("/dev/full", "wb") as disk:
            for output in (disk.fileno(), full):
                told = log.Log("a", output)
                for number in range(5000):  # more than a pipe holds
                    told("a line", number)
            os.set_blocking(reader, False)
            heard = os.read(reader, 1 << 20).decode().splitlines()
            self.assertTrue(all(line.endswith(f" a a line {number}") for number, line in enumerate(heard)))
            os.close(reader)
            log.Log("a", full)("nobody reads this")
            os.close(full)
            log.Log("a", full)("nor this")

    def test_a_line_is_short_and_tells_its_group(self):
        reader, output = os.pipe()
        log.Log("a", output).of("3/8")("asked", "x" * 100000)
        os.close(output)
        with open(reader) as lines:
            line = lines.read()
        self.assertRegex(line, r"^\S+ a group 3/8 asked x+\n$")
        self.assertLess(len(line), 4096)


class OfGroup:
    """A group of a test: it has some names, and notes what it is asked."""

    def __init__(self, number, count, names=(), is_away=False):
        self.tag, self.names, self.asked, self.is_away = groups.tag_of(number, count), names, [], is_away

    def command(self, line, then):
        words = line.split(" ")
        if self.is_away:
            then(["no node"])
            return
        if words[0] == "where" and len(words) == 2:
            then([f"{words[1]} x on a" if words[1] in self.names else f"{words[1]} unknown"])
            return
        self.asked.append(line)
        then(["refused 7 NotMember"] if words == ["leave", "nobody"] else ["ok"])


def answer(some, line):
    """What somebody who asks is told."""
    told = []
    groups.ask(some, line, told.append)
    return told[0]


class Groups(unittest.TestCase):
    def test_a_childs_group_is_its_ids_sha_256_over_their_count(self):
        for ident in ("web", "w1", "!", "~" * 128, "a,b"):
            told = subprocess.run(["sha256sum"], input=ident.encode(), stdout=subprocess.PIPE, check=True).stdout.decode()
            for count in (1, 2, 3, 8, 64):
                self.assertEqual(groups.group_of(ident, count), int(told.split()[0], 16) % count)

    def test_each_count_has_its_own_images(self):
        images = [groups.image_of("a.image", number, count) for count in range(1, 10) for number in range(count)]
        self.assertEqual(images[:3], ["a.image", "a.image.0-of-2", "a.image.1-of-2"])
        self.assertEqual(len(set(images)), len(images))

    def test_a_line_goes_to_the_groups_that_it_concerns(self):
        some = [OfGroup(number, 3, names) for number, names in enumerate(([], ["www"], []))]
        own = groups.group_of("web", 3)
        for line in ("start web kind=http", "replace web", "delete web", "register mail web"):
            self.assertEqual(answer(some, line), ["ok"])
            self.assertEqual([line in group.asked for group in some], [number == own for number in range(3)])
        self.assertEqual(answer(some, "unregister www"), ["ok"])
        self.assertEqual([group.asked[-1:] == ["unregister www"] for group in some], [False, True, False])
        self.assertEqual(answer(some, "drain b"), ["group 0/3", "ok", "group 1/3", "ok", "group 2/3", "ok"])
        self.assertEqual(answer(some, "start"), ["bad line"])
        for line in ("exit web 1.1 crash", "deliver x", "ship b", ""):
            self.assertTrue(answer(some, line)[0].startswith("not asked"))

    def test_a_name_stands_in_one_group(self):
        elsewhere = next(f"w{number}" for number in range(100) if groups.group_of(f"w{number}", 3) != 1)
        here = next(f"w{number}" for number in range(100) if groups.group_of(f"w{number}", 3) == 1)
        some = [OfGroup(number, 3, names) for number, names in enumerate(([], ["www"], []))]
        self.assertEqual(answer(some, "register www " + elsewhere), ["refused 8 NameTaken"])
        self.assertEqual(answer(some, "register www " + here), ["ok"])

    def test_no_name_is_given_while_some_group_can_not_tell_whether_it_has_it(self):
        here = next(f"w{number}" for number in range(100) if groups.group_of(f"w{number}", 3) == 1)
        some = [OfGroup(0, 3, ["ftp"]), OfGroup(1, 3), OfGroup(2, 3, is_away=True)]
        self.assertEqual([answer(some, line) for line in ("register www " + here, "where www", "unregister www")], [["no node"]] * 3)
        self.assertEqual(answer(some, "register ftp " + here), ["refused 8 NameTaken"])
        self.assertEqual(answer(some, "unregister ftp"), ["ok"])
        self.assertEqual(some[1].asked, [])

    def test_a_line_is_done_where_each_group_has_done_it(self):
        some = [OfGroup(0, 2), OfGroup(1, 2)]
        self.assertTrue(groups.is_done(answer(some, "leave b")))
        self.assertFalse(groups.is_done(answer(some, "leave nobody")))
        self.assertFalse(groups.is_done(answer(some[:1], "leave nobody")))
        self.assertFalse(groups.is_done(["group 0/2", "ok (a,1)", "group 1/2", "no node"]))
        self.assertFalse(groups.is_done(["not yet: it begins"]))
        self.assertTrue(groups.is_done(answer(some[:1], "leave b")))
        self.assertTrue(groups.is_done([]))


class Options(unittest.TestCase):
    def test_an_agents_addresses_are_in_numbers(self):
        """A name would be looked up, for seconds where its server is away."""
        self.assertEqual(options.address_in_numbers("localhost:7001"), ("127.0.0.1", 7001))
        self.assertEqual(options.peer("b=[fd00::1]:7001"), ("b", ("fd00::1", 7001)))
        self.assertRaises(argparse.ArgumentTypeError, options.address_in_numbers, "b.example:7001")

    def test_an_address_has_a_host_and_a_port(self):
        self.assertEqual(options.address("127.0.0.1:7001"), ("127.0.0.1", 7001))
        self.assertEqual(options.address("[::1]:7001"), ("::1", 7001))
        for bad in ("127.0.0.1", "a:", "a:x", "a:0", "a:65536", ""):
            self.assertRaises(argparse.ArgumentTypeError, options.address, bad)

    def given(self, *words):
        return options.words("").parse_args(["run", "--name", "a", "--image", "x", "--kinds", "y", "--peer", "a=127.0.0.1:7001", "--peer", "b=127.0.0.1:7002", *words])

    def test_a_node_that_does_not_answer_is_begun_anew_before_the_others_take_over(self):
        for words, patience in (((), 2), (("--silent", "1.5"), 1), (("--silent", "8", "--patience", "7"), 7)):
            given = self.given(*words)
            self.assertIsNone(options.fault_of(given))
            self.assertEqual(given.patience, patience)
        self.assertIn("--patience", options.fault_of(self.given("--patience", "3")))

    def test_what_cannot_be_is_told(self):
        for words, told in ((("--silent", "1"), "three times"), (("--listen", "0.0.0.0:7001"), "secret"), (("--via", "redis://x"), "--via")):
            self.assertIn(told, options.fault_of(self.given(*words)))
        for words in (("--intensity", "0"), ("--period", "x"), ("--silent", "-1"), ("--groups", "65"), ("--label", "a b")):
            with self.assertRaises(SystemExit), contextlib.redirect_stderr(io.StringIO()):
                self.given(*words)


class Waiting(unittest.TestCase):
    """Who asks waits for an agent that begins yet."""

    def ask(self, answers, wait):
        told = iter(answers)

        def ask_all(*_):
            one = next(told)
            if isinstance(one, Exception):
                raise one
            return [one]
        with unittest.mock.patch.multiple(client, ask_all=ask_all, AGAIN=0.01):
            return client.ask("address", None, "start w1", wait=wait)

    def test_it_asks_again_until_the_agent_takes_commands(self):
        self.assertEqual(self.ask([client.NotThere("refused"), ["no node"], ["not yet: it begins"], ["ok (a,1)"]], 5), ["ok (a,1)"])
        self.assertEqual(self.ask([["refused 4 AlreadyPresent"]], 5), ["refused 4 AlreadyPresent"])

    def test_it_waits_for_so_long_and_no_longer(self):
        began = time.monotonic()
        with self.assertRaises(client.NotThere):
            self.ask(iter(lambda: client.NotThere("refused"), None), 0.1)
        self.assertEqual(self.ask(iter(lambda: ["not yet: it begins"], None), 0.1), ["not yet: it begins"])
        self.assertGreater(time.monotonic() - began, 0.2)

    def test_who_does_not_answer_is_asked_once(self):
        """A command may be done where its answer was lost."""
        with self.assertRaises(client.NoAnswer):
            self.ask([client.NoAnswer("it ended the connection"), ["ok (a,1)"]], 5)


class Moving(unittest.TestCase):
    """Children that move from an agent `here` to one `there`, of which each look is given."""

    CHILD = {"id": "x", "kind": "sleep", "arg": "1", "restart": "permanent", "shutdown": "5000"}

    def move(self, *looks, there="runs"):
        """What was said to each."""
        status, said, looks = {"name": "a", "machines": [], "names": [], "ending": [], "node": "runs", "children": []}, [], iter(looks)
        with unittest.mock.patch.multiple(client, status=lambda at, *_, **__: {**status, **(next(looks) if at == "here" else {"node": there})},
                                          ask=lambda at, secret, line, *_, **__: said.append((at, line.split(" ")[0])) or ["ok"]), unittest.mock.patch.object(move, "LOOK", 0.001):
            try:
                move.move("here", "there", None, lambda lines: None)
            except move.NotMoved as fault:
                said.append(str(fault).splitlines()[0])
        return said

    def test_an_agent_that_does_not_know_all_children_moves_none(self):
        self.assertEqual(self.move({"node": "gone in 1, runs in 3"}), ["the agent a doesn't know all children now, its node: gone in 1, runs in 3"])
        self.assertEqual(self.move({"children": [self.CHILD]}, there="gone"), ["the agent a doesn't know all children now, its node: gone"])

    def test_a_child_begins_there_once_it_is_known_that_it_has_ended(self):
        looks = [{"children": [self.CHILD]}, {"ending": [["x", "b"]]}, {"node": "gone"}, {"ending": [["x", "b"]]}, {}]
        self.assertEqual(self.move(*looks), [("here", "delete"), ("there", "start")])
        self.assertEqual(self.move(*looks[:4], *looks[1:]), [("here", "delete"), ("there", "start")])
        with unittest.mock.patch.object(move, "AWAY", 0):
            self.assertEqual(self.move(looks[0], *[{"node": "gone"}] * 99), [("here", "delete"), "the agent a doesn't know any more what runs, its node: gone"])

    def test_what_starts_a_child_is_written_before_it_is_deleted(self):
        """Who moves children into a log, and is killed, has lost none."""
        file, seen = io.BytesIO(), []
        status = {"name": "a", "machines": [], "names": [], "ending": [], "node": "runs", "children": []}
        with unittest.mock.patch.multiple(client, status=lambda at, *_, **__: {**status, "children": [self.CHILD] * (at[1] == 1 and not seen)},
                                          ask=lambda at, secret, line, *_, **__: seen.append((line, file.getvalue())) or ["ok"]):
            with unittest.mock.patch.object(sys, "argv", ["agent.py", "move", "127.0.0.1:1", "127.0.0.1:2"]), contextlib.redirect_stdout(io.TextIOWrapper(io.BufferedWriter(file))):
                agent.main()
        self.assertEqual(seen[0], ("delete x", b"start x kind=sleep arg=1 restart=permanent shutdown=5000\n"))


class Statuses(unittest.TestCase):
    """The status is made once for all who ask within a second, in pieces between turns of the loop."""

    def agent(self, count):
        given = options.words("").parse_args(["run", "--name", "a", "--image", "x", "--kinds", "y", "--listen", "127.0.0.1:7001"])
        self.assertIsNone(options.fault_of(given))
        shown = ["node a boot 1", "member a (a,1) label=x", *(f"child w{number} (a,{number}) sleep permanent 5000 arg=1 on a" for number in range(count))]
        self.looks = []
        of_group = types.SimpleNamespace(number=0, name="a", core=core.Core("a", "mark", given, [], 0), shows=lambda then: self.looks.append(then) or True)
        of_group.people = lambda now: people.People(of_group.core, now)
        agent = types.SimpleNamespace(name="a", groups=[of_group], refused={}, log=lambda *words: None, logs=types.SimpleNamespace(state=lambda: ""), kinds=types.SimpleNamespace(state=lambda: ""))
        agent.watch = watch.Watch(agent, "mark")
        agent.view = view.View(agent)
        self.show = lambda: self.looks.pop()(of_group, shown)
        return agent.view

    def test_all_who_ask_within_a_second_are_told_the_same(self):
        patch = unittest.mock.patch.object(view, "seconds", lambda: 1000)  # however long this takes here, it is one moment
        patch.start()
        self.addCleanup(patch.stop)
        one, told = self.agent(10), []
        for _ in range(3):
            one.ask(told.append)
        self.assertEqual(len(self.looks), 1)
        self.show()
        until(5, lambda: not one.work(), "it is made")
        one.ask(told.append)
        self.assertEqual((len(told), len(self.looks), len(set(map(tuple, told)))), (4, 0, 1))
        self.assertEqual(len(json.loads(told[0][0])["children"]), 10)
        one.made_at -= 2
        one.ask(told.append)  # it is told once more, while it is made anew
        self.assertEqual(len(told), 5)
        one.made_at -= 2
        one.ask(told.append)
        self.assertEqual(len(told), 5)
        until(5, lambda: not one.work(), "it is made anew")
        self.assertEqual(len(told), 6)

    def test_what_has_not_changed_is_neither_asked_for_nor_made_again(self):
        one, told = self.agent(10), []
        children = one.agent.groups[0].core.telling.told.children = {f"w{number}": word.Child("running", "1.1", 7, 0, "", None) for number in range(9)}
        made = unittest.mock.Mock(wraps=view.child_of)

        def ask():
            made.reset_mock()
            one.made_at -= 4
            one.ask(told.append)
            if self.looks:
                self.show()
            until(5, lambda: not one.work(), "it is made")
            return made.call_count, [child["state"] for child in json.loads(told[-1][0])["children"]][:3]
        with unittest.mock.patch.object(view, "child_of", made):
            self.assertEqual(ask(), (10, ["running"] * 3))
            looks = self.looks = unittest.mock.MagicMock()
            looks.__bool__.return_value = False
            self.assertEqual(ask(), (1, ["running"] * 3))  # the tenth doesn't run, so that why it doesn't may change
            children["w1"] = word.Child("stopping", "1.1", 7, 0, "", None)
            self.assertEqual(ask(), (2, ["running", "stopping", "running"]))
            looks.append.assert_not_called()

    def test_a_status_tells_what_was_commanded_before_it_was_asked_for(self):
        """Who moves children to another cluster begins them there once the status of this one shows them no more."""
        one, told = self.agent(10), []
        one.ask(told.append)
        self.show()
        until(5, lambda: not one.work(), "it is made")
        one.agent.groups[0].core.letters.changes += 1
        one.ask(told.append)
        self.assertEqual((len(told), len(self.looks)), (1, 1))
        one.agent.groups[0].core.letters.changes += 1
        one.ask(told.append)  # what is being made is too old for this one
        self.show()
        until(5, lambda: not one.work(), "it is made again")
        self.assertEqual((len(told), len(self.looks)), (2, 1))
        self.show()
        until(5, lambda: not one.work(), "and again")
        self.assertEqual((len(told), len(self.looks)), (3, 0))

    def test_a_node_that_is_away_keeps_nobody_waiting(self):
        one, told = self.agent(10), []
        one.agent.groups[0].shows = lambda then: False
        for _ in range(2):
            one.ask(told.append)
            one.agent.groups[0].core.letters.changes += 1
        until(5, lambda: not one.work() and len(told) == 2, "both are answered")
        self.assertEqual([json.loads(lines[0])["children"] for lines in told], [[], []])
        self.assertNotIn("runs", [json.loads(lines[0])["node"] for lines in told])  # nobody takes it for one without children

    def test_a_child_that_waits_and_of_which_it_is_not_told_how_long_is_shown(self):
        of_group = self.agent(1).agent.groups[0]
        of_group.core.state, of_group.core.telling.told.children = "", {"w0": word.Child("waits", "1.1", 0, 0, "", None)}
        self.assertEqual(of_group.people(5).child("w0", "a").state, "begins")

    def test_a_node_begins_then_runs_and_is_gone_only_behind_that(self):
        one, told = self.agent(1), []
        node = one.agent.groups[0].core.node
        for node.is_there, node.boot in ((False, None), (True, 1), (False, 1)):
            one.ask(told.append)
            self.show()
            until(5, lambda: not one.work() and len(told) == 1, "it is told")
            self.assertEqual(json.loads(told.pop()[0])["node"], {(False, None): "begins", (True, 1): "runs", (False, 1): "gone"}[node.is_there, node.boot])

    def test_it_takes_little_of_a_turn_however_many_children_there_are(self):
        one, told, turns = self.agent(20_000), [], []
        one.ask(told.append)
        self.show()
        while not told:
            began = time.thread_time()
            one.work()
            turns.append(time.thread_time() - began)
        self.assertGreater(len(turns), 5)
        self.assertEqual(len(json.loads(told[0][0])["children"]), 20_000)
        self.assertLess(sorted(turns)[len(turns) // 2], 4 * view.PIECE)
        print(f"    a status of 20,000 children: {len(turns)} pieces, the longest {max(turns) * 1000:.0f} ms", flush=True)


class Turns(unittest.TestCase):
    """Runs that begin at once."""

    def test_runs_that_begin_at_once_hold_no_turn_up(self):
        agent, begun = host.Agent.__new__(host.Agent), []
        agent.events, agent.begins = collections.deque(), collections.deque()
        for number in range(100):
            agent.begins.append((lambda number: (time.sleep(0.01), begun.append(number)), number))
        began = time.monotonic()
        agent.do_events()
        self.assertLess(time.monotonic() - began, 0.5)
        while agent.begins:
            agent.do_events()
        self.assertEqual(begun, list(range(100)))

    def test_what_is_told_of_a_begin_is_done_before_the_run_is_looked_at(self):
        """Its kind's delay: a run may have ended at once."""
        agent, done = host.Agent.__new__(host.Agent), []
        agent.events, agent.begins = collections.deque(), collections.deque([(lambda: agent.events.append((done.append, "its delay")),)])
        agent.do_events()
        self.assertEqual((done, list(agent.events)), (["its delay"], []))

    def test_a_run_that_is_told_to_end_before_its_turn_never_begins(self):
        one, ended = carrier.Carrier.__new__(carrier.Carrier), []
        one.to_begin, one.host, one.note_end = {}, types.SimpleNamespace(begins=collections.deque()), lambda *words: ended.append(words)
        one.begin_now = lambda *words: self.fail("it begins")
        one.begin(1, "w", "1.1", "good permanent 300 arg=")
        one.term(1)
        for do, *words in one.host.begins:
            do(*words)
        self.assertEqual(ended, [(1, -15)])


if __name__ == "__main__":
    unittest.main()
