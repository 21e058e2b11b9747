"""Checks of runs: what they find, what comes of it, and that none of them holds anybody up."""
import contextlib
import json
import os
import socket
import threading
import time
import unittest
import unittest.mock

from machines import OfMachines, closed_port, free_ports
from runs import OfRuns

import health
from clock import seconds
from pulse import PACE, bound, until

SLEEPS = ["sleep", "1000"]
SOON = round(0.5 * PACE, 3)  # seconds for a check that hangs
FAST = {"period": 0.1, "timeout": 1000}
HANGS = {**FAST, "timeout": SOON}
HUNG = f"no answer in {SOON:g} s"


class Server(threading.Thread):
    """A server that takes connections, and gives each an answer; with None it says nothing."""

    def __init__(self, test, answer):
        super().__init__(daemon=True)
        self.socket, self.answer, self.asked, self.kept = socket.create_server(("127.0.0.1", 0)), answer, [], []
        self.address = "127.0.0.1:{}".format(self.socket.getsockname()[1])
        test.addCleanup(self.close)
        self.start()

    def run(self):
        while True:
            try:
                link = self.socket.accept()[0]
            except OSError:
                return
            if self.answer is None:
                self.kept.append(link)
                continue
            with link, contextlib.suppress(OSError):  # who only wanted to connect has gone
                self.asked.append(link.recv(4096))
                link.sendall(self.answer)

    def close(self):
        self.socket.shutdown(socket.SHUT_RDWR)
        self.socket.close()
        for link in self.kept:
            link.close()


class Checks(OfRuns):
    def checked(self, words=SLEEPS, failures=2, **check):
        """How a run ends that has this check."""
        key, _ = self.begin(words, health={**FAST, "failures": failures, **check})
        return self.end_of(key)

    def goes_on(self, seconds=1.0, **check):
        """Whether a run that has this check goes on, and nothing is told of it."""
        _, process = self.begin(SLEEPS, health={**FAST, "failures": 2, **check})
        until_then = time.monotonic() + seconds * PACE
        while time.monotonic() < until_then:
            self.turn()
        return self.ends == [] and set(self.notes) <= {""} and os.path.exists(f"/proc/{process}")

    def test_a_run_whose_command_fails_so_often_is_ended_for_this_reason(self):
        self.assertEqual(self.checked(command=["sh", "-c", "exit 3"]), (None, "its check failed 2 times: status 3"))
        self.assertEqual(self.notes, ["its check failed 1 of 2 times: status 3", "ends, since its check failed 2 times: status 3"])
        self.assertEqual(self.checked(command=["/nonexistent"]), (None, "its check failed 2 times: no program /nonexistent"))
        self.assertEqual(self.checked(command=["false"], failures=1), (None, "its check failed: status 1"))

    def test_a_check_that_hangs_is_a_failure_and_ends_with_all_that_it_began(self):
        began = time.monotonic()
        self.assertEqual(self.checked(command=["sh", "-c", "sleep 1000.5 & sleep 1000.5"], timeout=SOON), (None, "its check failed 2 times: " + HUNG))
        self.assertLess(time.monotonic() - began, bound(10, began))
        until(10, lambda: not [one for one in os.listdir("/proc") if one.isdecimal() and sleeps_here(one)], "all of it has ended")

    def test_a_run_that_is_well_goes_on(self):
        self.assertTrue(self.goes_on(command=["sh", "-c", "test $SEBRAKT_ID = web && kill -0 $SEBRAKT_PROCESS"]))
        self.assertTrue(self.goes_on(tcp=Server(self, b"x").address))
        server = Server(self, b"HTTP/1.1 204 No Content\r\n\r\n")
        self.assertTrue(self.goes_on(http=f"http://{server.address}/well?x=1"))
        self.assertTrue(server.asked[0].startswith(f"GET /well?x=1 HTTP/1.1\r\nHost: {server.address}\r\n".encode()), server.asked[0])

    def test_a_port_where_nobody_listens_is_a_failure(self):
        self.assertEqual(self.checked(tcp=f"127.0.0.1:{closed_port(self)}"), (None, "its check failed 2 times: Connection refused"))
        self.assertEqual(self.checked(http=f"http://localhost:{closed_port(self)}/"), (None, "its check failed 2 times: Connection refused"))

    def test_an_answer_that_is_none_is_a_failure(self):
        for answer, why in ((b"HTTP/1.0 503 Busy\r\n\r\n", "HTTP status 503"), (b"HTTP/1.1 404 No\n", "HTTP status 404"), (b"", "no answer of HTTP"), (b"SSH-2.0\r\n", "no answer of HTTP"),
                            (b"x" * 5000, "no answer of HTTP"), (None, HUNG), (b"HTTP/1.1 99 x\r\n", "no answer of HTTP")):
            told = self.checked(http=f"http://{Server(self, answer).address}/", failures=1, **(HANGS if answer is None else FAST))
            self.assertIn(told, [(None, f"its check failed: {why}"), (None, "its check failed: Connection reset by peer")], answer)

    def test_only_failures_in_a_row_count(self):
        key, _ = self.begin(SLEEPS, health={"command": ["sh", "-c", f"echo x >> {self.path('tries')}; test $(($(wc -l < {self.path('tries')}) % 3)) = 0"], **FAST, "failures": 3})
        self.until(lambda: os.path.exists(self.path("tries")) and self.read("tries").count("x") > 8, "it is checked", 30)
        self.assertEqual(self.ends, [])
        self.assertIn("its check failed 2 of 3 times: status 1", self.notes)
        self.assertIn("", self.notes)

    def test_failures_of_the_first_time_do_not_count_until_it_is_well_once(self):
        key, _ = self.begin(SLEEPS, health={"command": ["test", "-e", self.path("well")], **FAST, "failures": 2, "start": 1000})
        until_then = time.monotonic() + 1
        while time.monotonic() < until_then:
            self.turn()
        self.assertEqual((self.ends, self.notes), ([], []))
        open(self.path("well"), "w").close()
        self.until(lambda: self.children.runs[key].health.counts_from < 1000 + time.clock_gettime(time.CLOCK_BOOTTIME) - 900, "it was well")
        os.unlink(self.path("well"))
        self.assertEqual(self.end_of(key), (None, "its check failed 2 times: status 1"))

    def test_one_that_ignores_its_end_is_killed_after_its_shutdown(self):
        key, _ = self.begin_ready(["sh", "-c", "trap '' TERM; echo ready; while :; do sleep 0.05; done"], shutdown="200",
                                  health={"command": ["test", "!", "-e", self.path("sick")], **FAST, "failures": 1})
        open(self.path("sick"), "w").close()
        self.assertEqual(self.end_of(key), (None, "its check failed: status 1"))

    def test_one_that_is_stopped_is_found_by_a_check_of_its_own(self):
        """Whoever holds a child by SIGSTOP leaves its port open: only an answer tells that it is well."""
        port = free_ports(1)[0]
        key, process = self.begin(["python3", "-m", "http.server", str(port), "--bind", "127.0.0.1"],
                                  health={"http": f"http://127.0.0.1:{port}/", "period": 0.2, "timeout": 4 * SOON, "failures": 2, "start": 30}, folder=self.folder)
        self.until(lambda: any("GET / HTTP" in line for line in self.lines()), "it answers", 30)
        os.kill(process, 19)
        self.assertEqual(self.end_of(key), (None, f"its check failed 2 times: no answer in {4 * SOON:g} s"))

    def test_a_run_that_ends_takes_its_check_with_it(self):
        key, process = self.begin(["sleep", "0.3"], health={"command": ["sh", "-c", "sleep 1000.75"], "period": 0.1})
        self.assertEqual(self.end_of(key), (0, ""))
        until(10, lambda: not [one for one in os.listdir("/proc") if one.isdecimal() and sleeps_here(one, "1000.75")], "it has ended")

    def test_many_checks_leave_nothing_open(self):
        server = Server(self, b"HTTP/1.1 200 OK\r\n\r\n")
        key, _ = self.begin(SLEEPS, health={"http": f"http://{server.address}/", "period": 0.1})
        self.until(lambda: len(server.asked) > 1, "it is checked")
        before = len(os.listdir("/proc/self/fd"))
        self.until(lambda: len(server.asked) > 8, "and again", 30)
        self.until(lambda: len(os.listdir("/proc/self/fd")) <= before, "nothing more is open")

    def test_what_this_machine_lacks_is_no_failure_of_the_run(self):
        with unittest.mock.patch.object(health.socket, "socket", side_effect=OSError(24, "Too many open files")):
            self.assertTrue(self.goes_on(tcp="127.0.0.1:1", failures=1))


    def test_where_the_agent_itself_did_not_listen_no_check_has_failed(self):
        key, _ = self.begin(SLEEPS, health={"command": ["sleep", "1000"], "period": 1, "timeout": 30, "failures": 1})
        now = seconds()
        for later in (0, 1, 2, 3):
            self.children.look(now + later, True)
        self.assertIsNotNone(self.children.runs[key].health.check.trial)
        for later in range(100, 135):
            self.children.look(now + later, True)
            self.assertEqual(self.children.runs[key].is_ending, later >= 130, later)


class Ready(OfRuns):
    def test_a_run_is_ready_once_its_check_is_good_and_is_not_asked_again(self):
        key, _ = self.begin(SLEEPS, ready={"command": ["sh", "-c", f"echo x >> {self.path('asked')}; test -e {self.path('ready')}"], "period": 0.1, "timeout": 1000})
        self.until(lambda: "not ready: status 1" in self.notes, "it is not ready")
        self.assertEqual(self.notes[0], "not ready: not asked yet")
        open(self.path("ready"), "w").close()
        self.until(lambda: self.notes[-1] == "", "it is ready")
        asked = self.read("asked")
        time.sleep(0.5)
        self.turn()
        self.assertEqual((self.read("asked"), self.ends), (asked, []))


def sleeps_here(process, seconds="1000.5"):
    try:
        with open(f"/proc/{process}/cmdline") as file:
            return file.read() == f"sleep\0{seconds}\0"
    except OSError:
        return False


class OfAgents(OfMachines):
    def begun_with(self, of_kinds, *names):
        machines = self.machines(names=list(names))
        with open(machines.path("kinds.json"), "w") as file:
            json.dump(of_kinds, file)
        machines.begin_all()
        return machines

    def test_a_child_whose_check_fails_begins_again_by_its_backoff_and_any_machine_tells_why(self):
        machines = self.begun_with({"sick": {"command": SLEEPS, "health": {"command": ["false"], "period": 0.2, "failures": 2}}, "sleep": SLEEPS}, "a", "b")
        machines.start("a", ["s1"], kind="sick")
        machines.start("a", ["w1"])
        for name in "ab":
            until(30, lambda: "failed: its check failed 2 times: status 1" in machines.child(name, "s1")["why"], "it waits, and why is told")
        until(30, lambda: machines.child("a", "s1")["restarts"] > 2, "it begins again and again")
        self.assertEqual(machines.child("a", "w1")["restarts"], 0)

    def test_who_waits_for_a_child_waits_until_it_is_ready(self):
        machines = self.begun_with({"slow": {"command": SLEEPS, "ready": {"command": ["test", "-e", "{arg}"], "period": 0.2}}}, "a", "b")
        ready = machines.path("ready")
        machines.start("a", ["s1"], kind="slow", arg=ready)
        for name in "ab":
            until(20, lambda: machines.child(name, "s1")["health"] == "not ready: status 1", "it isn't ready")
        open(ready, "w").close()
        for name in "ab":
            until(20, lambda: (machines.child(name, "s1")["state"], machines.child(name, "s1")["health"]) == ("running", ""), "it is ready")


if __name__ == "__main__":
    unittest.main()
