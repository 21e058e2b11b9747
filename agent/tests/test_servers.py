"""Letters over a server of Redis or NATS, what strangers do there, and a server that goes away."""
import contextlib
import os
import shutil
import threading
import time
import unittest
import unittest.mock

from machines import IDS, SECRET, Machines, closed_port, each_once_in
from pulse import PACE, until
from servers import Nats, Proxy, Redis

import channels
import seals

try:
    import redis
except ImportError:
    redis = None


class OfServer:
    """What holds over either server."""

    server_of = None

    def server(self):
        server = self.server_of()
        self.addCleanup(server.end)
        return server

    def machines(self, names, url, **options):
        machines = Machines(names, via=url, **options)
        self.addCleanup(machines.end)
        return machines

    def test_strangers_at_the_server_change_nothing(self):
        server = self.server()
        machines = self.machines(["a", "b"], server.url)
        machines.begin_all()
        with unittest.mock.patch("channels.DEAD", 60):  # it takes its time for 100 MiB
            stranger = channels.of_url(server.url)()
        heard = self.record(server)
        machines.start("a", ["w1", "w2"])
        until(10, lambda: machines.each_once(["w1", "w2"]) and machines.tables_equal(), "both children run")
        machines.ask("a", "delete w2")
        until(10, lambda: not machines.watcher.now()[1].get("w2"), "one is deleted")
        until(30, lambda: len(heard) > 20, "they have said much")
        tables, lines = machines.tables("a"), list(heard)
        for channel, line in lines:  # all that was said, once more
            stranger.publish(channel, line)
        forged = seals.Seal(b"another secret of 16 bytes", "b", seals.fresh(), "a", seals.fresh())
        for line in (b"\xff\xfe", b"", b"x" * (1 << 20), forged.line("letter x"), seals.Seal(None, "b", seals.fresh(), "a", "x").line("hello")):
            stranger.publish("sebrakt:to:a", line)
            stranger.publish("sebrakt:all", line)
        time.sleep(1)
        with contextlib.suppress(channels.TooLong):
            stranger.publish("sebrakt:to:a", b"x" * (100 << 20))  # for this a Redis server ends the connections of who listens
        time.sleep(2)
        machines.kill("b")  # its lines, said once more, don't have it alive
        for _ in range(10):
            for channel, line in lines[-50:]:
                stranger.publish(channel, line)
            time.sleep(0.2)
        until(5, lambda: machines.members("a") == ["a"], "the killed machine is taken out")
        refused = machines.status("a")["refused"]
        self.assertGreater(refused["said before"], 10)
        self.assertGreater(refused["wrong seal"], 0)
        self.assertEqual([row for row in machines.tables("a") if row.startswith("child")][0].split()[:3], [row for row in tables if row.startswith("child")][0].split()[:3])
        machines.begin("b")
        until(20, lambda: machines.members("a") == ["a", "b"] and machines.each_once(["w1"]) and machines.tables_equal(), "it is back")
        print(f"    strangers at {server.kind}: refused {refused}", flush=True)

    def record(self, server):
        """All lines that are said from now on, as channel and line."""
        heard = []

        def listen():
            with contextlib.suppress(Exception):  # the server has ended
                for message in channels.of_url(server.url)().listen(["sebrakt:all", "sebrakt:to:a", "sebrakt:to:b"]):
                    if message is not None:
                        heard.append(message)
        threading.Thread(target=listen, daemon=True).start()
        return heard

    def test_a_connection_to_the_server_that_went_silent_is_begun_anew(self):
        """As where the server's machine lost its power: nothing ends the connection, and nothing comes."""
        server = self.server()
        proxy = Proxy(server.port)
        self.addCleanup(proxy.server.close)
        machines = self.machines(["a", "b"], f"{server.kind}://127.0.0.1:{proxy.port}")
        machines.begin_all()
        proxy.forget()
        until(30, lambda: all(machines.log(name).count(f"{server.kind}: listens") > 1 for name in "ab"), "each has begun another connection")
        back = until(30, lambda: machines.members("a") == ["a", "b"] == machines.members("b"), "they meet over these")
        print(f"    connections to {server.kind} that went silent: others bring all {back:.2f} s after they were begun", flush=True)

    def test_a_server_that_goes_away_and_comes_back_is_used_again(self):
        server = self.server()
        machines = self.machines(["a", "b"], server.url)
        machines.begin_all()
        machines.start("a", ["w1", "w2"])
        until(10, lambda: machines.each_once(["w1", "w2"]) and machines.tables_equal(), "both children run")
        server.stop()
        until(10, lambda: machines.members("a") == ["a"] and machines.members("b") == ["b"], "each is alone")
        server.begin()
        back = until(20, lambda: machines.members("a") == ["a", "b"] and machines.tables_equal() and machines.each_once(["w1", "w2"]), "they meet")
        print(f"    a {server.kind} server that was away: each child runs once {back:.2f} s after it is back", flush=True)

    def test_while_the_server_is_away_a_machine_does_what_least_says(self):
        """It is alone then: with `--least` of a majority no machine runs anything."""
        server = self.server()
        machines = self.machines(["a", "b", "c"], server.url, options=["--least", "2"])
        machines.begin_all()
        machines.start("a", IDS)
        until(20, lambda: machines.each_once(IDS) and machines.tables_equal(), "each child runs once")
        began = time.monotonic()
        server.stop()
        until(20, lambda: not machines.watcher.now()[1], "nothing runs")
        time.sleep(2 * PACE)
        self.assertEqual(machines.watcher.now()[1], {})
        server.begin()
        back = until(30, lambda: machines.each_once(IDS) and machines.tables_equal(), "each runs once again")
        print(f"    a {server.kind} server that was away, with --least 2: each child runs once {back:.2f} s after it is back, two at once {machines.both(began, IDS):.3f}", flush=True)

    def test_a_machine_with_another_secret_runs_nothing_and_says_why_over_a_server_too(self):
        server = self.server()
        machines = self.machines(["a", "b"], server.url)
        machines.begin_all()
        machines.start("a", IDS)
        until(20, lambda: machines.each_once(IDS) and machines.tables_equal(), "each child runs once")
        machines.secrets["b"] = machines.path("another secret")
        with open(machines.secrets["b"], "w") as file:
            os.chmod(file.fileno(), 0o600)
            file.write("a secret of another cluster")
        machines.kill("b")
        machines.begin("b")
        until(30, lambda: machines.each_once(IDS) and set(machines.where(IDS).values()) == {"a"}, "the other one runs all")
        time.sleep(6 * PACE)
        machines.need_each_once(IDS)
        self.assertEqual(set(machines.where(IDS).values()), {"a"})
        self.assertIn("the lines of a are sealed by another secret", machines.log("b"))
        self.assertEqual(machines.hindered("a", "a"), "")
        machines.secret = b"a secret of another cluster"
        self.assertIn("another secret", machines.hindered("b", "b"))
        machines.secret = SECRET

    def test_a_second_machine_of_a_name_is_told_over_a_server_too(self):
        server = self.server()
        machines = self.machines(["a", "b"], server.url)
        machines.begin_all()
        machines.start("a", IDS)
        until(20, lambda: machines.each_once(IDS) and machines.tables_equal(), "each child runs once")
        twin = self.machines(["b"], server.url)
        twin.begin("b")
        until(20, lambda: any("another process" in one.hindered("b", "b") for one in (machines, twin)), "one of the two says why it runs nothing")
        until(20, lambda: each_once_in([machines, twin], IDS), "each child runs once, at one of the two or elsewhere")


@unittest.skipUnless(shutil.which("redis-server"), "redis-server")
@unittest.skipUnless(redis, "python3-redis")
class OfRedis(OfServer, unittest.TestCase):
    server_of = Redis


@unittest.skipUnless(shutil.which("nats-server"), "nats-server")
class OfNats(OfServer, unittest.TestCase):
    server_of = Nats

    def test_each_machine_may_have_a_server_of_its_own(self):
        first = self.server()
        second = Nats(first)
        self.addCleanup(second.end)
        machines = self.machines(["a", "b"], first.url)
        machines.vias["b"] = second.url
        machines.begin_all()
        second.stop()
        until(20, lambda: machines.members("a") == ["a"], "b is alone")
        second.begin()
        until(30, lambda: machines.members("a") == ["a", "b"] == machines.members("b"), "they meet again")

    def test_a_line_that_is_too_long_for_the_server_is_told_and_the_next_one_leaves(self):
        server, heard = self.server(), []
        lines = channels.of_url(server.url)().listen(["x"])
        next(lines)
        stranger = channels.of_url(server.url)()
        with self.assertRaises(channels.TooLong):
            stranger.publish("x", b"x" * (2 << 20))
        for line in (b"", b"one\r\nPING\r\n", b"y" * (1 << 20)):
            stranger.publish("x", line)
            heard.append(next(line for line in lines if line is not None)[1])
        self.assertEqual([len(line) for line in heard], [0, 11, 1 << 20])

    def test_who_has_no_leave_and_what_is_no_server_are_told(self):
        with self.assertRaises(OSError):
            channels.of_url(f"nats://127.0.0.1:{closed_port(self)}")().publish("x", b"")
        with self.assertRaises(ValueError):
            channels.of_url("amqp://127.0.0.1")


if __name__ == "__main__":
    unittest.main()
