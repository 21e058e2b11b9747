"""What children print: where it is kept, what is told of it, and that nothing of it holds anybody up."""
import json
import os
import random
import re
import resource
import shutil
import signal
import socket
import subprocess
import sys
import time
import unittest
import unittest.mock

from runs import OfRuns

import log_sinks
import logs
from pulse import PACE

MOMENT = rb"\d{4}-\d\d-\d\dT\d\d:\d\d:\d\d\.\d{3}Z"
EVERY = "".join(map(chr, range(0x21, 0x7f)))


class Files(OfRuns):
    def test_lines_of_both_outputs_are_kept_in_their_order_with_moment_and_run(self):
        key, _ = self.begin(["sh", "-c", "echo one; echo two >&2; printf 'three\\nrest'"])
        self.end_of(key)
        self.until(lambda: b"rest\n" in self.written(), "they are written")
        self.assertRegex(self.written(), b"^" + b"".join(MOMENT + b" 1.1 " + word + b"\n" for word in (b"one", b"two", b"three", b"rest")) + b"$")
        self.assertEqual(self.lines(), ["1.1 one", "1.1 two", "1.1 three", "1.1 rest"])

    def test_nothing_comes_to_the_agents_own_output(self):
        told = subprocess.run([sys.executable, "-c", "import runs, unittest\nclass T(runs.OfRuns):\n    def test(self):\n        self.end_of(self.begin(['sh', '-c', 'echo x; echo y >&2'])[0])\n"
                               "unittest.main(verbosity=0)"], stdout=subprocess.PIPE, stderr=subprocess.STDOUT, text=True, cwd=os.path.dirname(os.path.abspath(__file__)))
        self.assertEqual(told.returncode, 0, told.stdout)
        self.assertEqual([line for line in told.stdout.split("\n") if line in ("x", "y")], [])

    def test_an_id_with_every_character_has_a_file_of_its_own(self):
        halves = EVERY[:47], EVERY[47:]
        idents = [*EVERY, "..", "a.log", "a.log.1", "a" * 128, "/" * 128, "//etc/passwd", "../../x", *halves, (halves[0] * 3)[:128], (halves[1] * 3)[:128]]
        for ident in idents:
            self.begin(["sh", "-c", 'echo "$SEBRAKT_ID"'], ident=ident)
        self.until(lambda: len(self.ends) == len(idents), "all have ended", 60)
        for ident in idents:
            self.until(lambda: self.written(ident).endswith(b" " + ident.encode() + b"\n"), f"{ident} is written")
            self.assertEqual(self.written(ident).count(b"\n"), 1)
            self.assertEqual(os.path.dirname(self.logs.path(ident)), self.path("logs"))
        self.assertEqual(len(os.listdir(self.path("logs"))), len(set(idents)))

    def test_a_file_is_turned_by_its_size_and_so_many_earlier_ones_stay(self):
        key, _ = self.begin(["seq", "1", "30000"], log={"size": "50K", "keep": 2})
        self.end_of(key)
        self.until(lambda: self.written().endswith(b" 30000\n"), "all is written")
        files = {name: os.path.getsize(os.path.join(self.path("logs"), name)) for name in os.listdir(self.path("logs"))}
        self.assertEqual(set(files), {"web.log", "web.log.1", "web.log.2"})
        self.assertLess(max(files.values()), (50 << 10) + 33 * logs.CHUNK)
        whole = b"".join(open(os.path.join(self.path("logs"), name), "rb").read() for name in ("web.log.2", "web.log.1", "web.log"))
        numbers = [int(line.rsplit(b" ", 1)[1]) for line in whole.splitlines()]
        self.assertEqual(numbers, list(range(numbers[0], 30001)))

    def test_a_kind_may_keep_none_or_no_earlier_one(self):
        key, _ = self.begin(["echo", "x"], log={"to": "none"})
        self.end_of(key)
        self.assertEqual((self.lines(), os.path.exists(self.path("logs"))), ([], False))
        key, _ = self.begin(["seq", "1", "20000"], log={"size": "4K", "keep": 0})
        self.end_of(key)
        self.until(lambda: self.written().endswith(b" 20000\n"), "all is written")
        self.assertEqual(os.listdir(self.path("logs")), ["web.log"])

    def test_very_long_lines_and_bytes_that_are_no_text_come_through(self):
        key, _ = self.begin([sys.executable, "-c", "import sys; sys.stdout.buffer.write(b'x' * 200000 + b'\\n' + bytes(range(256)) * 2)"])
        self.end_of(key)
        self.until(lambda: self.written().endswith(b"\xff\n"), "all is written")
        self.assertEqual(re.sub(MOMENT + b" 1.1 ", b"", self.written()).replace(b"\n", b""), b"x" * 200000 + (bytes(range(256)) * 2).replace(b"\n", b""))
        known = self.logs.lines("web", 100)
        self.assertTrue(json.dumps(known).isascii())
        self.assertLess(sum(map(len, known["lines"])), 2 * logs.LAST)

    def test_an_agent_that_is_begun_anew_knows_the_last_lines_of_the_file(self):
        os.mkdir(self.path("logs"))
        with open(self.logs.path("web"), "w") as file:
            file.write("".join(f"2026-01-01T00:00:00.000Z 1.0 {number}\n" for number in range(10_000)))
        self.begin(["echo", "new"])
        self.until(lambda: self.lines()[-2:] == ["1.0 9999", "1.1 new"], "both are known")
        self.assertEqual(self.logs.lines("web", 2)["lines"][0], "2026-01-01T00:00:00.000Z 1.0 9999")

    def test_what_comes_behind_a_place_is_told_and_what_is_lost_is_counted(self):
        tail, said = logs.Tail(), b""
        for number in range(3000):
            line = f"{number}\n".encode() * random.randrange(1, 20)
            tail.add(line)
            said += line
            self.assertLessEqual(len(tail.text), logs.LAST)
            at = random.randrange(len(said) + 1)
            text, lost = tail.since(at)
            self.assertEqual(said[at + lost:], text)
        self.assertEqual(tail.since(len(said)), (b"", 0))

    def test_of_many_children_those_are_forgotten_that_said_nothing_for_longest(self):
        with unittest.mock.patch.object(logs, "MOST", 100_000), unittest.mock.patch.object(logs, "LOOK_EACH", 1000):  # it is looked at here alone
            for number in range(10):
                self.end_of(self.begin(["sh", "-c", "seq 1 5000"], ident=f"w{number}")[0])
            self.logs.keep_few()
        self.assertEqual([ident for ident in self.logs.tails], ["w9"])


class Faults(OfRuns):
    def fault(self):
        return [line for line in self.said if line.startswith("logs:")]

    def test_a_full_disk_is_told_once_and_blocks_nothing(self):
        """By a limit of the size of files, which the kernel refuses as it does a full disk."""
        self.addCleanup(resource.setrlimit, resource.RLIMIT_FSIZE, resource.getrlimit(resource.RLIMIT_FSIZE))
        self.addCleanup(signal.signal, signal.SIGXFSZ, signal.signal(signal.SIGXFSZ, signal.SIG_IGN))
        resource.setrlimit(resource.RLIMIT_FSIZE, (40_000, resource.getrlimit(resource.RLIMIT_FSIZE)[1]))
        key, process = self.begin(["sh", "-c", "seq 1 20000; echo done; exec sleep 1000"])
        self.until(lambda: self.lines()[-1:] == ["1.1 done"], "it has said all")
        self.until(self.fault, "the fault is told")
        self.assertEqual(self.fault(), [f"logs: lines of children aren't kept: {self.path('logs')}: File too large"])
        self.assertIn("File too large", self.logs.state())
        self.until(lambda: self.logs.writer.size == 0, "nothing waits to be written")  # what is written in part is cut off again
        self.assertLessEqual(len(self.written()), 40_000)
        self.assertTrue(self.written() == b"" or self.written().endswith(b"\n"))
        self.assertTrue(os.path.exists(f"/proc/{process}"))
        resource.setrlimit(resource.RLIMIT_FSIZE, (resource.RLIM_INFINITY, resource.getrlimit(resource.RLIMIT_FSIZE)[1]))
        with unittest.mock.patch.object(log_sinks, "BAD_FOR", 0):
            self.begin(["echo", "again"])
            self.until(lambda: len(self.fault()) == 2, "it is kept again")
        self.assertIn("are kept again", self.fault()[1])

    def test_a_disk_that_hangs_blocks_no_child_and_is_told(self):
        hangs = unittest.mock.patch.object(log_sinks.File, "write", lambda *_: time.sleep(1000))
        with hangs, unittest.mock.patch.object(log_sinks, "MOST_WAITING", 1 << 20):
            began = time.monotonic()
            key, _ = self.begin(["sh", "-c", "yes '' | head -c 5000000; echo done; exec sleep 1000"])
            self.until(lambda: self.lines()[-1:] == ["1.1 done"], "it has said all", 30)
            self.assertLess(self.logs.writer.size, 2 << 20)
            self.assertEqual(len(self.fault()), 1)
            self.assertIn("faster than they can be written", self.fault()[0])
            print(f"    5 MB of empty lines past a disk that hangs: {time.monotonic() - began:.1f} s", flush=True)
        self.logs.writer.end = lambda: None  # which would wait for that disk

    def test_lines_behind_a_file_that_was_removed_are_in_a_new_one(self):
        os.mkfifo(self.path("go"))
        key, _ = self.begin(["sh", "-c", f"echo one; read line < {self.path('go')}; echo two"])
        self.until(lambda: self.written().endswith(b" one\n"), "the first line is written")
        shutil.rmtree(self.path("logs"))
        with open(self.path("go"), "w") as go:
            go.write("\n")
        self.end_of(key)
        self.until(lambda: self.written().endswith(b" two\n"), "the second line is written")
        self.assertEqual(self.fault(), [])

    def test_a_folder_that_is_not_there_is_told(self):
        self.logs.folder = "/nonexistent/logs"
        self.end_of(self.begin(["echo", "x"])[0])
        self.until(self.fault, "it is told")
        self.assertEqual(self.fault(), ["logs: lines of children aren't kept: /nonexistent/logs: No such file or directory"])

    def test_a_child_that_talks_all_the_time_takes_little_of_a_turn(self):
        self.begin(["yes", "x" * 1000])
        self.begin(["yes"], ident="other")
        turns = []
        until_then = time.monotonic() + 1
        while time.monotonic() < until_then:
            began = time.thread_time()
            self.turn()
            turns.append(time.thread_time() - began)
        self.assertLess(sorted(turns)[len(turns) // 2], 0.02 * PACE)
        size = sum(size_there(os.path.join(self.path("logs"), name)) for name in os.listdir(self.path("logs")))
        self.assertLess(size, 4 * (kind_size() + 4 * (1 << 20)))
        print(f"    two that talk all the time: {len(turns)} turns, {self.logs.tails['web'].end + self.logs.tails['other'].end >> 20} MB in a second", flush=True)

    def test_pipes_are_closed_with_their_runs(self):
        self.end_of(self.begin(["true"])[0])
        before = len(os.listdir("/proc/self/fd"))
        for _ in range(20):
            self.end_of(self.begin(["sh", "-c", "echo x; (setsid sleep 5 &)"])[0])
        self.until(lambda: len(os.listdir("/proc/self/fd")) <= before, "as many are open as before")

    def test_where_the_system_has_no_room_for_a_thread_lines_wait_and_nobody_ends(self):
        """As behind a child that forks without end: a unit's processes and threads are counted together."""
        with unittest.mock.patch.object(log_sinks.threading.Thread, "start", side_effect=RuntimeError("can't start new thread")):
            self.begin(["echo", "one"])
            self.until(lambda: self.lines() == ["1.1 one"] and self.ends, "it ends")
            self.assertIn("can't start new thread", self.logs.state())
        self.end_of(self.begin(["echo", "two"])[0])
        self.until(lambda: self.written().count(b"\n") == 2, "both are written")


def kind_size():
    return logs.kind_keys.size_of(logs.SIZE)


def size_there(path):
    """The size of a file; none of one that is just turned."""
    try:
        return os.path.getsize(path)
    except FileNotFoundError:
        return 0


class Journal(OfRuns):
    """By a socket that takes what the system's journal would."""
    to = "journal"

    def setUp(self):
        super().setUp()
        self.journal = socket.socket(socket.AF_UNIX, socket.SOCK_DGRAM)
        self.addCleanup(self.journal.close)
        self.journal.bind(self.path("journal"))
        self.journal.settimeout(10)
        patch = unittest.mock.patch.object(log_sinks, "JOURNAL", self.path("journal"))
        patch.start()
        self.addCleanup(patch.stop)

    def entry(self):
        return dict(line.split(b"=", 1) for line in self.journal.recv(1 << 20).split(b"\n")[:-1])

    def test_each_line_is_an_entry_with_the_fields_of_its_child(self):
        self.end_of(self.begin(["sh", "-c", "echo 'a=b c'; echo '<3>bad'; printf '\\377end'"], ident=EVERY)[0])
        fields = {b"SYSLOG_IDENTIFIER": EVERY.encode(), b"SEBRAKT_ID": EVERY.encode(), b"SEBRAKT_RUN": b"1.1", b"SEBRAKT_NODE": b"a"}
        self.assertEqual([self.entry() for _ in range(3)], [{**fields, b"PRIORITY": b"6", b"MESSAGE": b"a=b c"}, {**fields, b"PRIORITY": b"3", b"MESSAGE": b"bad"},
                                                            {**fields, b"PRIORITY": b"6", b"MESSAGE": b"\xffend"}])
        self.assertEqual(self.lines(EVERY)[0], "1.1 a=b c")
        self.assertEqual(self.logs.lines(EVERY, 1)["where"], "journal")

    def test_it_is_taken_where_there_is_one_and_nothing_else_is_said(self):
        choose = lambda to: logs.Logs(self.loop, "a", to, "/folder", print)
        self.assertEqual((choose(None).target, choose("journal").target, choose("/x").target, choose("/x").folder), ("journal", "journal", "file", "/x"))
        os.unlink(self.path("journal"))
        self.assertEqual((choose(None).target, choose(None).folder), ("file", "/folder"))

    def test_one_that_goes_away_and_comes_back_is_told_and_used_again(self):
        os.unlink(self.path("journal"))
        self.end_of(self.begin(["echo", "lost"])[0])
        self.until(lambda: self.logs.state(), "it is told")
        self.journal.close()
        self.journal = socket.socket(socket.AF_UNIX, socket.SOCK_DGRAM)
        self.journal.bind(self.path("journal"))
        self.journal.settimeout(10)
        self.end_of(self.begin(["echo", "kept"])[0])
        self.assertEqual(self.entry()[b"MESSAGE"], b"kept")

    def test_one_that_takes_nothing_blocks_no_child(self):
        with unittest.mock.patch.object(log_sinks, "MOST_WAITING", 1 << 18), unittest.mock.patch.object(log_sinks, "ENDS_WITHIN", 0.2):
            self.begin(["sh", "-c", "seq 1 200000; echo done; exec sleep 1000"])
            self.until(lambda: self.lines()[-1:] == ["1.1 done"], "it has said all", 30)
            self.until(lambda: self.logs.state(), "it is told")


if __name__ == "__main__":
    unittest.main()
