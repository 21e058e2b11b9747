"""What strangers, servers of others and odd moments do to the lines between machines: each of these has ended, stopped or deceived an agent once."""
import contextlib
import os
import queue
import selectors
import socket
import struct
import sys
import threading
import types
import unittest
import unittest.mock

sys.path.insert(0, os.path.dirname(os.path.dirname(os.path.abspath(__file__))))

import carrier
import channel_links
import channels
import client
import scrapes
import seals
import wires
from clock import seconds
from test_links import SECRET, Machine


class Wires(unittest.TestCase):
    def test_of_one_who_is_refused_nothing_more_is_cut_or_kept(self):
        """Else 256 KiB of line feeds of each stranger would take the loop 65 ms, of 200 of them in a turn more than `--silent`."""
        loop, heard = selectors.DefaultSelector(), []
        there, here = socket.socketpair()
        self.addCleanup(there.close)
        wire = wires.Wire(loop, here, lambda line: (heard.append(line), wire.close()), lambda why: None, wires.OF_STRANGERS)
        there.sendall(b"x\n" + b"\n" * 3000 + b"y" * 3000)
        with unittest.mock.patch.object(wire, "cut", wraps=wire.cut) as cut:
            wire.ready(selectors.EVENT_READ)
        self.assertEqual((heard, cut.call_count, len(wire.come)), ([b"x"], 1, 0))

    def test_of_a_stranger_little_is_read_in_a_turn(self):
        loop, heard = selectors.DefaultSelector(), []
        there, here = socket.socketpair()
        self.addCleanup(there.close)
        there.setblocking(False)
        wire = wires.Wire(loop, here, heard.append, lambda why: None, wires.OF_STRANGERS)
        self.addCleanup(wire.close)
        there.send(b"x\n" * (1 << 16))
        wire.ready(selectors.EVENT_READ)
        self.assertLessEqual(2 * len(heard), 4 * wires.OF_STRANGERS)


class Scraped(unittest.TestCase):
    def test_a_question_of_too_many_lines_is_ended(self):
        ended = []
        there, here = socket.socketpair()
        self.addCleanup(there.close)
        one = scrapes.Scrape(selectors.DefaultSelector(), here, lambda answer: None, ended.append)
        there.sendall(b"GET /metrics HTTP/1.1\r\n" + b"X: y\r\n" * 1000)
        one.ready(selectors.EVENT_READ)
        self.assertEqual((ended, one.open), ([one], False))


class Links(unittest.TestCase):
    def test_a_machine_that_is_gone_before_its_hello_is_read_leaves_no_way(self):
        for resets in (True, False):
            loop = selectors.DefaultSelector()
            b = Machine(self, loop, "b", "2")
            b.connect({"a": ("127.0.0.1", 1)})
            note = b.hearer.link
            b.hearer.link = lambda name, is_up: (note(name, is_up), is_up and b.links.tell(name, "events []"))  # as a host tells what was missed

            def turn():
                for key, events in loop.select(0.05):
                    key.data(events)
            link = socket.create_connection(b.address)
            turn()
            challenge = link.makefile().readline().split()[2]
            link.sendall(seals.Seal(SECRET, "a", "1" * 32, "b", challenge).line("hello " + seals.fresh()).encode() + b"\n")
            link.setsockopt(socket.SOL_SOCKET, socket.SO_LINGER, struct.pack("ii", resets, 0))
            link.close()
            for _ in range(4):
                turn()
            self.assertEqual((b.links.ways.names(), b.hearer.links[-1:] in ([], [("a", False)])), ([], True))
            b.close()


class Answers(unittest.TestCase):
    def test_an_answer_of_which_a_line_is_missing_is_none(self):
        """Who may end lines on the way, and has no secret, would have a refused command be told as done."""
        agent = socket.socketpair()
        with agent[0], agent[1], unittest.mock.patch.object(client, "connect", lambda address, patience: agent[0]):
            def answer():
                lines = agent[1].makefile("rb")
                session = [lines.readline(), lines.readline()][1].split(b" ")[1].decode()
                seal = seals.Seal(SECRET, "a", "2" * 32, seals.CLIENT, session)
                seal.line("line refused 16 KeepFailed")  # never comes
                agent[1].sendall(seal.line("end").encode() + b"\n")
            agent[1].sendall(b"hello a " + b"2" * 32 + b"\n")
            thread = threading.Thread(target=answer)
            thread.start()
            with self.assertRaises(client.NoAnswer):
                client.ask(None, SECRET, "start web kind=http")
            thread.join()


class Members(unittest.TestCase):
    def test_where_a_name_leads_that_is_called_member_is_no_list_of_members(self):
        learned = []
        one = types.SimpleNamespace(links=types.SimpleNamespace(learn=lambda *words: learned.append(words)), number=0, host=unittest.mock.MagicMock(), give=lambda *words: None)
        one.answered = lambda *words: carrier.Carrier.answered(one, *words)
        for line, lines in (("members", ["member d (d,1) label=127.0.0.1:7004"]), ("where member", ["member unknown"]), ("members", [])):
            one.node = types.SimpleNamespace(is_open=True, ask=lambda line, then: then(lines))
            carrier.Carrier.ask(one, line)
        self.assertEqual(learned, [(0, {"d": "127.0.0.1:7004"})])


class OfChannels(unittest.TestCase):
    def links(self, server, hearer):
        given = types.SimpleNamespace(via="", cluster="sebrakt", silent=3, every=1)
        self.loop = selectors.DefaultSelector()
        with unittest.mock.patch("channels.of_url", lambda url: lambda: server):
            return channel_links.ChannelLinks(self.loop, given, "a", seals.fresh(), SECRET, hearer)

    def test_who_floods_the_server_leaves_the_loop_its_turns(self):
        """Anybody may write there, without end."""
        hearer = unittest.mock.Mock()
        of_a = self.links(None, hearer)
        line = seals.Seal(b"another secret of 16 bytes", "b", seals.fresh(), "a", seals.fresh()).line("x" * 1000).encode()

        def refuse(*_):
            if hearer.refuse.call_count < 100_000:
                of_a.bring(False, line)  # for each that is opened another one has come
        hearer.refuse.side_effect = refuse
        of_a.bring(False, line)
        of_a.arrived(None)
        self.assertLess(hearer.refuse.call_count, 100_000)
        self.assertTrue(self.loop.select(0), "the rest wakes it")

    def test_what_waits_to_be_opened_has_few_bytes(self):
        of_a, line = self.links(None, unittest.mock.Mock()), b"x" * 1000
        with unittest.mock.patch.object(channel_links, "MOST_BYTES", 10_000):
            for _ in range(3):
                for _ in range(100):
                    of_a.bring(False, line)
                self.assertEqual(of_a.come.qsize(), 10)
                of_a.arrived(None)
                self.assertEqual(of_a.come.qsize(), 0)

    def test_why_nothing_leaves_is_told(self):
        hearer, stop = unittest.mock.Mock(), queue.Queue()

        def publish(*_):
            raise OSError("no leave")
        of_a = self.links(types.SimpleNamespace(listen=lambda names: iter(stop.get, None), publish=publish), hearer)
        of_a.tick(seconds())
        until = seconds() + 5
        while not hearer.log.called and seconds() < until:
            for key, events in self.loop.select(0.1):
                key.data(events)
        of_a.close()
        stop.put(None)
        hearer.log.assert_called_once_with(":", "no line leaves: no leave")


class OfNats(unittest.TestCase):
    def test_a_server_that_ends_a_connection_before_its_first_word_is_used_again(self):
        """As a proxy does whose server isn't there yet."""
        server, came = socket.create_server(("127.0.0.1", 0)), queue.Queue()
        self.addCleanup(server.close)

        def serve():
            server.accept()[0].close()
            link = server.accept()[0]
            with link, link.makefile("rb") as lines, contextlib.suppress(ConnectionError):  # its other end is closed at the end of the test
                link.sendall(b'INFO {"max_payload":1048576}\r\n')
                for line in lines:
                    came.put(line)
                    if line == b"PING\r\n":
                        link.sendall(b"PONG\r\n")
        threading.Thread(target=serve, daemon=True).start()
        publisher = channels.of_url("nats://127.0.0.1:{}".format(server.getsockname()[1]))()
        self.addCleanup(publisher.close)
        with self.assertRaises(OSError):
            publisher.publish("x", b"one")
        publisher.publish("x", b"two")
        heard = [came.get(timeout=5) for _ in range(4)]
        self.assertEqual(heard[2:], [b"PUB x 3\r\n", b"two\r\n"])


if __name__ == "__main__":
    unittest.main()
