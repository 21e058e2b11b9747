"""Connections, lines over them, and which way a line to a machine goes."""
import contextlib
import itertools
import json
import os
import queue
import selectors
import socket
import struct
import sys
import threading
import time
import types
import unittest
import unittest.mock

sys.path.insert(0, os.path.dirname(os.path.dirname(os.path.abspath(__file__))))

import channel_links
import client
import host
import links
import peers
import seals
import ways
import wires
from clock import seconds
from pulse import bound

SECRET = b"a secret of this test alone"
SILENT = 3  # seconds after which a connection over which nothing comes is closed


class Wires(unittest.TestCase):
    def test_half_a_line_is_none_and_no_line_is_torn(self):
        loop, heard, lost = selectors.DefaultSelector(), [], []
        there, here = socket.socketpair()
        wires.Wire(loop, here, heard.append, lost.append, 100)

        def say(text):
            there.sendall(text)
            while loop.get_map() and (some := loop.select(0.05)):
                for key, events in some:
                    key.data(events)
        for text, lines in ((b"on", []), (b"e\ntw", [b"one"]), (b"o", []), (b"\n\nthree\nhalf", [b"two", b"", b"three"])):
            say(text)
            self.assertEqual(heard, lines)
            heard.clear()
        there.close()
        for key, events in loop.select(1):
            key.data(events)
        self.assertEqual((heard, lost, len(loop.get_map())), ([], [None], 0))

    def test_much_that_has_come_is_read_in_few_turns_from_one_who_is_known(self):
        for longest in (wires.LONGEST, 1 << 20):
            loop, heard = selectors.DefaultSelector(), []
            there, here = socket.socketpair()
            there.setsockopt(socket.SOL_SOCKET, socket.SO_SNDBUF, 4 << 20)
            there.setblocking(False)
            wire, sent = wires.Wire(loop, here, heard.append, lambda why: None, longest), there.send(b"x\n" * (1 << 20))
            self.assertGreater(sent, wires.CHUNK)
            wire.ready(selectors.EVENT_READ)
            self.assertEqual(2 * len(heard), sent if longest == wires.LONGEST else wires.CHUNK)
            there.close()
            wire.close()


class Hearer:
    """What a host does with lines: it notes them, and answers each question by itself."""

    def __init__(self):
        self.heard, self.links, self.others, self.refused = [], [], [], []

    def take(self, sender, mark, text):
        self.heard.append((sender, mark[:1], text))

    def asked(self, line, answer, by, whence):
        answer([line, "more"])

    def link(self, name, is_up):
        self.links.append((name, is_up))

    def unsealed(self, name):
        self.others.append(name)

    def refuse(self, where, why):
        self.refused.append(str(why))


class Machine:
    """One end of lines over TCP: a server, and connections to some others."""

    def __init__(self, test, loop, name, mark, secret=SECRET):
        self.hearer, self.loop, self.links, self.is_open = Hearer(), loop, None, True
        self.server = links.Server(loop, ("127.0.0.1", 0), name, mark * 32, secret, self.hearer)
        self.address = self.server.socket.getsockname()
        test.addCleanup(self.close)

    def connect(self, others, knows=()):
        """Has it connect to some machines, whose addresses are named; of those that it knows beside these it takes lines."""
        self.links = peers.TcpLinks(self.loop, others, self.server, SILENT, 0.1, print)
        self.server.known |= set(knows)

    def close(self):
        if self.is_open:
            self.is_open = False
            self.server.close()
            if self.links:
                self.links.close()


class Links(unittest.TestCase):
    def setUp(self):
        self.loop, self.seconds = selectors.DefaultSelector(), seconds

    def run_until(self, holds, *machines, limit=10):
        began = time.monotonic()
        while not holds():
            self.assertLess(time.monotonic() - began, bound(limit, began), "it took too long")
            self.turn(*machines)

    def turn(self, *machines):
        for machine in machines:
            machine.links.tick(self.seconds())
        for key, events in self.loop.select(0.01):
            key.data(events)

    def two(self, **options):
        """Two machines, of which only the first one can connect to the other."""
        a, b = Machine(self, self.loop, "a", "1"), Machine(self, self.loop, "b", "2", **options)
        a.connect({"b": b.address})
        b.connect({"a": ("127.0.0.1", 1)})
        return a, b

    def test_lines_go_both_ways_over_a_connection_that_one_of_two_machines_has_made(self):
        a, b = self.two()
        self.run_until(lambda: a.hearer.links and b.hearer.links, a, b)
        self.assertEqual((a.hearer.links, b.hearer.links), ([("b", True)], [("a", True)]))
        a.links.tell("b", "words of a")
        b.links.send("a", "words of b")
        self.run_until(lambda: a.hearer.heard and b.hearer.heard, a, b)
        self.assertEqual((a.hearer.heard, b.hearer.heard), ([("b", "2", "words of b")], [("a", "1", "words of a")]))
        b.close()
        self.run_until(lambda: len(a.hearer.links) > 1, a)
        self.assertEqual(a.hearer.links, [("b", True), ("b", False)])

    def test_a_first_line_that_is_long_is_no_strangers(self):
        """What a machine with many children runs is a long line, and may be the first one that it has to say."""
        a, b = self.two()
        long = "words " + "x" * 100_000
        while not b.hearer.heard:
            a.links.tell("b", long)
            self.turn(a, b)
        self.assertEqual((b.hearer.heard[0][2], b.hearer.refused), (long, []))

    def test_a_line_goes_to_each_process_of_a_name(self):
        a, b, other = Machine(self, self.loop, "a", "1"), Machine(self, self.loop, "b", "2"), Machine(self, self.loop, "b", "3")
        a.connect({"b": b.address})
        for one in (b, other):
            one.connect({"a": a.address})
        self.run_until(lambda: len(a.links.ways.of.get("b", ())) == 3, a, b, other)
        a.links.tell("b", "words")
        self.run_until(lambda: b.hearer.heard and other.hearer.heard, a, b, other)
        self.turn(a, b, other)
        self.assertEqual((len(b.hearer.heard), len(other.hearer.heard)), (1, 1))

    def test_a_machine_with_another_secret_is_told_from_one_that_is_away(self):
        a, b = self.two(secret=b"another secret of 16 bytes")
        self.run_until(lambda: a.hearer.others, a, b)
        self.assertEqual((a.hearer.others, a.hearer.links, b.hearer.links, b.hearer.refused[0]), (["b"], [], [], "wrong seal"))

    def test_a_connection_over_which_nothing_comes_is_closed_and_a_quiet_one_is_not(self):
        moments = itertools.count()  # by a clock of its own: who doesn't turn for a while, since others have the processor, is silent
        self.seconds = lambda: now[0]
        now = [0.0]
        with contextlib.ExitStack() as patches:
            for module in (links, peers, wires):
                patches.enter_context(unittest.mock.patch.object(module, "seconds", self.seconds))
            a, b = self.two()
            self.run_until(lambda: a.hearer.links and b.hearer.links, a, b)
            while now[0] < 3 * SILENT:
                now[0] = 0.05 * next(moments)
                self.turn(a, b)
            self.assertEqual(a.hearer.links, [("b", True)])
            while len(a.hearer.links) < 2 and now[0] < 5 * SILENT:  # b turns no more
                now[0] = 0.05 * next(moments)
                self.turn(a)
            self.assertEqual(a.hearer.links, [("b", True), ("b", False)])

    def test_a_stranger_with_a_long_first_line_is_told_that(self):
        a = Machine(self, self.loop, "a", "1")
        with socket.create_connection(a.address) as link:
            link.sendall(b"x" * 5000)
            self.run_until(lambda: a.hearer.refused)
            self.assertEqual(a.hearer.refused, ["too long"])
            self.assertEqual(link.makefile().read().splitlines()[1:], ["refused too long"])

    def test_connections_that_are_gone_before_a_word_leave_nothing(self):
        a = Machine(self, self.loop, "a", "1")
        for _ in range(50):
            link = socket.create_connection(a.address)
            link.setsockopt(socket.SOL_SOCKET, socket.SO_LINGER, struct.pack("ii", 1, 0))
            link.close()  # by a reset
        idle = socket.create_connection(a.address)
        self.addCleanup(idle.close)
        for _ in range(100):
            self.turn()
        self.run_until(lambda: len(a.server.callers) == 1)
        self.assertEqual((len(a.server.callers), len(self.loop.get_map()), a.hearer.refused), (1, 2, []))
        a.server.tick(seconds() + 6)
        self.assertEqual((a.server.callers, len(self.loop.get_map()), a.hearer.refused), (set(), 1, ["said nothing"]))

    def ask(self, machine, what):
        """What somebody is told who asks while the machine turns."""
        told = []

        def work():
            try:
                told.append(what())
            except client.NoAnswer as none:
                told.append(str(none))
        asker = threading.Thread(target=work)
        asker.start()
        while asker.is_alive():
            self.turn()
        return told[0]

    def test_some_lines_are_asked_at_once_and_answered_in_their_order(self):
        a = Machine(self, self.loop, "a", "1")
        told = self.ask(a, lambda: client.ask_all(a.address, SECRET, ["one", "two", "three"]))
        self.assertEqual(told, [["one", "more"], ["two", "more"], ["three", "more"]])

    def test_a_long_line_is_answered_and_a_stranger_is_told_why_it_is_refused(self):
        a = Machine(self, self.loop, "a", "1")
        long = "start " + "x" * 100_000
        self.assertEqual(self.ask(a, lambda: client.ask(a.address, SECRET, long)), [long, "more"])
        for line in ("show", "start " + "x" * 10_000_000):
            self.assertEqual(self.ask(a, lambda: client.ask(a.address, b"another secret of 16 bytes", line)),
                             "the agent has refused wrong seal: has it the same secret?")


class OfHosts(unittest.TestCase):
    def test_a_letter_of_no_epoch_is_refused(self):
        took = []
        agent = types.SimpleNamespace(groups=[types.SimpleNamespace(tag="0/1", give=lambda *words: took.append(words))])
        for epoch in ("", "x", "-1", "1.5", "9" * 5000):
            self.assertRaises(seals.Refused, host.Agent.take, agent, "b", "m", f"letter 0/1 {epoch} {{}}")
        host.Agent.take(agent, "b", "m", "letter 0/1 7 {}")
        self.assertEqual(took, [("letter", "b", (7, "m"), "{}")])


class OfChannels(unittest.TestCase):
    def test_a_newer_program_goes_on_under_its_token_and_takes_no_line_twice(self):
        given, token, theirs, taken = types.SimpleNamespace(via="", cluster="sebrakt", silent=3, every=1), seals.fresh(), seals.fresh(), []
        loop, hearer = selectors.DefaultSelector(), types.SimpleNamespace(take=lambda *words: taken.append(words), link=lambda *words: taken.append(words))
        with unittest.mock.patch("channels.of_url", lambda url: None):
            before, after = (channel_links.ChannelLinks(loop, given, "a", token, SECRET, hearer) for _ in range(2))
        seal, guard = seals.Seal(SECRET, "b", theirs, "a", token), seals.Guard(SECRET, "b", theirs)
        line = seal.line("some").encode()
        before.line(line)
        before.tell("b", "one")
        after.go_on(json.loads(json.dumps(before.handed())))
        after.tell("b", "two")
        self.assertRaises(seals.Refused, after.line, line)
        after.line(seal.line("more").encode())
        said = [guard.open(links.leave.get_nowait()[1].encode())[2] for links in (before, before, after)]
        self.assertEqual((taken, said), ([("b", True), ("b", theirs, "some"), ("b", True), ("b", theirs, "more")], ["hello", "one", "two"]))

    def test_what_is_said_to_a_machine_named_all_is_not_said_to_all(self):
        messages, loop, hearer = queue.Queue(), selectors.DefaultSelector(), unittest.mock.Mock()
        server = types.SimpleNamespace(listen=lambda names: iter(messages.get, "end"), publish=lambda *_: None)
        token, session, given = seals.fresh(), seals.fresh(), types.SimpleNamespace(via="", cluster="sebrakt", silent=3, every=1)
        with unittest.mock.patch("channels.of_url", lambda url: lambda: server):
            of_all = channel_links.ChannelLinks(loop, given, "all", token, SECRET, hearer)
        of_all.begin()
        messages.put(("sebrakt:to:all", seals.Seal(SECRET, "b", session, "all", token).line("some").encode()))
        until = seconds() + 10
        while not hearer.take.called and not hearer.refuse.called and seconds() < until:
            for key, events in loop.select(0.1):
                key.data(events)
        of_all.close()
        messages.put("end")
        hearer.refuse.assert_not_called()
        hearer.take.assert_called_once_with("b", session, "some")


class Way:
    def __init__(self, mark, is_own, came):
        self.name, self.mark, self.is_own, self.came, self.said = "b", mark, is_own, came, 0


class Ways(unittest.TestCase):
    def test_of_two_ways_to_a_process_the_one_counts_over_which_something_comes(self):
        of_b = ways.Ways(3, 0.5, lambda name, is_up: None)
        own, other, rival = Way("m", True, 100), Way("m", False, 100), Way("r", False, 90)
        for way in (own, other, rival):
            of_b.add(way)
        self.assertEqual(of_b.best("b", 101), [own, rival])
        other.came = 103
        self.assertEqual(of_b.best("b", 103), [other, rival])
        self.assertEqual(of_b.best("c", 103), [])

    def test_a_machine_is_reached_from_its_first_way_to_its_last_one(self):
        told = []
        of_b = ways.Ways(3, 0.5, lambda name, is_up: told.append((name, is_up)))
        first, second = Way("m", True, 100), Way("m", False, 100)
        of_b.add(first)
        of_b.add(second)
        of_b.drop(first)
        of_b.drop(first)
        self.assertEqual(told, [("b", True)])
        of_b.drop(second)
        self.assertEqual((told, of_b.names()), ([("b", True), ("b", False)], []))


if __name__ == "__main__":
    unittest.main()
