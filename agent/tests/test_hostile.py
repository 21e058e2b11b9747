"""What strangers do at an agent's port: nothing changes, and the agent lives."""
import os
import resource
import signal
import socket
import subprocess
import time
import unittest

from machines import SECRET, Machines
from pulse import PACE, bound, until

import client
import seals


class Hostile(unittest.TestCase):
    def setUp(self):
        self.machines = Machines(["a", "b"])
        self.addCleanup(self.machines.end)
        self.machines.begin_all()
        self.machines.start("a", ["w1", "w2"])
        until(10, lambda: self.machines.each_once(["w1", "w2"]) and self.machines.tables_equal(), "both children run")
        self.tables, self.runs = self.machines.tables("a"), self.machines.watcher.now()[1]
        self.boots = [self.machines.ask(name, "show")[0] for name in "ab"]
        self.address = ("127.0.0.1", self.machines.ports["a"])

    def tearDown(self):
        self.assertEqual(self.machines.tables("a"), self.tables)
        self.assertEqual([self.machines.ask(name, "show")[0] for name in "ab"], self.boots)
        time.sleep(0.2)
        self.machines.need_same(self.runs)
        self.assertEqual(self.machines.watcher.now()[1], self.runs)
        self.assertIsNone(self.machines.agents["a"].poll())
        if hasattr(self, "worst"):
            print(f"    {self.id().split('.')[-1]}: {self.worst}", flush=True)

    def refused(self):
        return self.machines.status("a")["refused"]

    def connect(self):
        """A connection and the challenge that came over it."""
        link = socket.create_connection(self.address, 5)
        self.addCleanup(link.close)
        lines = link.makefile("rb")
        self.addCleanup(lines.close)
        return link, lines, lines.readline().split()[2].decode()

    def ends(self, lines):
        """Whether the agent has ended a connection, with no word but why."""
        try:
            rest = lines.read()
        except OSError:
            return True
        return rest == b"" or rest.startswith(b"refused ") and rest.count(b"\n") == 1

    def memory(self):
        """The most memory that the agent had, in MiB."""
        with open(f"/proc/{self.machines.agents['a'].pid}/status") as file:
            return int(next(line for line in file if line.startswith("VmHWM")).split()[1]) // 1024

    def test_a_wrong_secret_is_refused_and_told(self):
        with self.assertRaises(client.NoAnswer):
            client.ask(self.address, b"another secret of 16 bytes", "delete w1")
        with self.assertRaises(client.NoAnswer):
            client.ask(self.address, None, "delete w1")
        self.assertEqual(self.refused(), {"wrong seal": 2})
        self.assertIn("wrong seal", self.machines.log("a"))

    def test_a_replayed_line_is_refused_over_its_connection_and_over_another(self):
        link, lines, challenge = self.connect()
        line = seals.Seal(SECRET, seals.CLIENT, seals.fresh(), "a", challenge).line("ask start w9 kind=sleep arg=1").encode() + b"\n"
        again, others, _ = self.connect()
        again.sendall(line)
        self.assertTrue(self.ends(others))
        at_b = socket.create_connection(("127.0.0.1", self.machines.ports["b"]), 5)
        self.addCleanup(at_b.close)
        at_b.sendall(line)
        link.sendall(line.replace(b"w9", b"w8"))
        self.assertTrue(self.ends(lines))
        link, lines, challenge = self.connect()
        look = seals.Seal(SECRET, seals.CLIENT, seals.fresh(), "a", challenge).line("ask show").encode() + b"\n"
        link.sendall(look)
        self.assertIn(b"line node a boot 1", lines.readline())
        link.sendall(look)
        while lines.readline():
            pass
        self.assertEqual(self.refused(), {"wrong seal": 2, "said before": 1})

    def test_who_has_its_own_name_and_lines_of_hosts_are_refused(self):
        for sender, text in (("a", "hello " + seals.fresh()), ("b", "ask delete w1"), ("b", "words 0/1 []"), (seals.CLIENT, "letter 0/1 1 {}")):
            link, lines, challenge = self.connect()
            link.sendall(seals.Seal(SECRET, sender, seals.fresh(), "a", challenge).line(text).encode() + b"\n")
            self.assertTrue(self.ends(lines))
        self.assertEqual(self.machines.ask("a", "exit w1 1.1 crash")[0].split(":")[0], "not asked")
        self.assertEqual(self.machines.ask("a", "deliver x")[0].split(":")[0], "not asked")

    def test_a_machine_that_is_no_peer_is_taken_by_its_secret_and_changes_nothing(self):
        link, lines, challenge = self.connect()
        link.sendall(seals.Seal(SECRET, "c", seals.fresh(), "a", challenge).line("hello " + seals.fresh()).encode() + b"\n")
        self.assertTrue(lines.readline().endswith(b" hello\n"))

    def machine(self):
        """A connection over which lines of b are taken, and what seals them."""
        link, lines, challenge = self.connect()
        seal = seals.Seal(SECRET, "b", seals.fresh(), "a", challenge)
        link.sendall(seal.line("hello " + seals.fresh()).encode() + b"\n")
        return link, lines, seal

    def test_words_and_letters_of_no_form_change_nothing(self):
        link, _, seal = self.machine()
        for text in ("words 0/1 ", "words 0/1 []", 'words 0/1 [["b",1]]', "words 0/1 " + "[" * 3000, "words 0/2 []", 'letter 0/1 1 {"from":"b"}', "letter 0/1 1 ",
                     "letter 0/1 1 " + "[" * 100_000, "hello"):
            link.sendall(seal.line(text).encode() + b"\n")
        for text in ("letter 0/1", "letter 0/1 x y", f"letter 0/1 {'9' * 5000} {{}}", "letter 0/2 1 {}", "runs 0/1 {}", "ask show"):
            link, lines, seal = self.machine()
            link.sendall(seal.line(text).encode() + b"\n")
            self.assertTrue(self.ends_late(lines), text)

    def ends_late(self, lines):
        """Whether the agent has ended a connection of a machine, over which it has said some lines."""
        try:
            return lines.read().split(b"\n")[-2].startswith(b"refused ")
        except OSError:
            return True

    def test_a_line_of_100_mib_ends_its_connection_and_takes_no_memory_of_a_stranger(self):
        before = self.memory()
        for known in (False, True):
            link, lines, challenge = self.connect()
            if known:
                link.sendall(seals.Seal(SECRET, seals.CLIENT, seals.fresh(), "a", challenge).line("ask members").encode() + b"\n")
            sent = 0
            try:
                while sent < 100 << 20:
                    sent += link.send(b"x" * (1 << 16))
            except OSError:
                pass
            self.worst = f"{self.memory() - before} MiB more {'by one with the secret' if known else 'by a stranger'}"
            if not known:
                self.assertLess(self.memory() - before, 4)
        self.assertEqual(self.refused(), {"too long": 2})

    def test_bytes_that_are_no_text_are_refused(self):
        for text in (b"\0\n", b"\xff\xfe\n", b"\r\n", b"\n", b"GET / HTTP/1.1\r\n", os.urandom(1000) + b"\n", b"? " * 100 + b"\n"):
            link, lines, _ = self.connect()
            link.sendall(text)
            self.assertTrue(self.ends(lines))
        self.assertGreaterEqual(sum(self.refused().values()), 7)

    def test_a_thousand_connections_keep_nobody_out(self):
        hard = resource.getrlimit(resource.RLIMIT_NOFILE)[1]
        resource.setrlimit(resource.RLIMIT_NOFILE, (min(4096, hard), hard))
        idle = []
        self.addCleanup(lambda: [link.close() for link in idle])
        asked = []

        def ask():
            began = time.monotonic()
            client.ask(self.address, SECRET, "members")
            asked.append(time.monotonic() - began)
        for number in range(1000):
            link = socket.socket()
            link.setblocking(False)
            link.connect_ex(self.address)
            idle.append(link)
            if number % 250 == 249:
                ask()
        time.sleep(1)
        ask()
        self.worst = f"longest of {len(asked)} answers among 1,000 connections {max(asked):.3f} s"
        until(10, lambda: self.refused().get("too many connections", 0) >= 500, "those are refused")  # some are accepted later, where there were too many at once

    def test_who_may_open_few_files_takes_few_connections(self):
        """Where accept fails for want of files the loop would turn without end."""
        self.machines.kill("a")
        words = self.machines.words
        self.machines.words = lambda name: ["prlimit", "--nofile=100", *words(name)]
        self.machines.begin("a")
        self.machines.words = words
        until(20, lambda: self.machines.each_once(["w1", "w2"]) and self.machines.members("a") == ["a", "b"] and self.machines.tables_equal(), "it is back")
        self.tables, self.runs, self.boots[0] = self.machines.tables("a"), self.machines.watcher.now()[1], "node a boot 2"
        idle, began = [socket.create_connection(self.address, 30) for _ in range(300)], time.monotonic()
        self.addCleanup(lambda: [link.close() for link in idle])
        time.sleep(0.5)
        self.assertEqual(client.ask(self.address, SECRET, "members", bound(4, began)), self.machines.ask("b", "members"))  # strangers have 5 seconds
        self.assertLess(len(os.listdir(f"/proc/{self.machines.agents['a'].pid}/fd")), 100)

    def test_a_node_that_no_longer_answers_is_begun_anew_and_no_child_notices(self):
        machines = self.machines
        machines.options = ["--patience", str(PACE), "--silent", str(8 * PACE)]
        for name in machines.names:
            machines.kill(name)
        machines.begin_all()
        until(20, lambda: machines.each_once(["w1", "w2"]) and machines.tables_equal(), "they are back")
        self.runs, self.tables = machines.watcher.now()[1], machines.tables("a")
        os.kill(machines.node("b"), signal.SIGSTOP)
        until(20, lambda: "boot 3" in machines.ask("b", "show")[0] and machines.tables_equal(), "its node is begun anew")
        self.boots = [machines.ask(name, "show")[0] for name in "ab"]

    def test_without_a_secret_an_agent_listens_at_the_loopback_alone(self):
        words = self.machines.words("a")
        bare = words[:words.index("--secret")] + words[words.index("--secret") + 2:]
        bare[bare.index("--listen") + 1] = "0.0.0.0:0"
        for given in (bare, [word.replace(self.machines.path("secret"), self.machines.path("kinds.json")) for word in words]):
            self.assertEqual(subprocess.run(given, stderr=subprocess.DEVNULL, timeout=20).returncode, 2)

if __name__ == "__main__":
    unittest.main()
