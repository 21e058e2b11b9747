"""Runs that are handed on to a newer program: they end, are checked and print as if nothing had been; and what can't be handed on."""
import json
import os
import selectors
import signal
import time
import types
import unittest
from unittest import mock

from runs import OfRuns

import children
import handover
import history
import kinds
import leftovers
import logs
import upgrade
from core import runs

WAITS = ["sh", "-c", "trap 'exit 3' TERM; echo ready; while :; do sleep 0.05; done"]
STAYS = ["sh", "-c", "trap '' TERM; echo ready; while :; do sleep 0.05; done"]
IS_ROOT = os.geteuid() == 0


class HandedOn(OfRuns):
    def setUp(self):
        self.before = []  # an object of Python's own for a process reaps it when it goes, which an `exec` doesn't
        super().setUp()

    def hand_on(self):
        """Goes on with another loop and other children, as another program does."""
        before, tails = self.children, {ident: [handover.text_of(tail.before), handover.text_of(tail.text), tail.end, tail.where, tail.said_at] for ident, tail in self.logs.tails.items()}
        table = json.loads(json.dumps({"processes": [[key, handover.of_run(run)] for key, run in before.runs.items()], "core": handover.of_core(runs_of_core()),
                                       "sessions": before.sessions.live, "tails": tails}))
        before.rest()
        self.before.append(before)
        self.loop = selectors.DefaultSelector()
        self.logs = logs.Logs(self.loop, "a", self.path("logs"), None, self.say)
        handover.take_tails(self.logs, table)
        self.children = children.Children("a", 0, kinds.Kinds(self.path("kinds.json"), self.say), self.path("image"), self.cgroup, self.loop, self.logs, self.say)
        handover.take_group(types.SimpleNamespace(children=self.children, core=types.SimpleNamespace(runs=runs_of_core())), table)

    def test_how_it_ends_is_known(self):
        key, process = self.begin_ready(WAITS)
        other, _ = self.begin(["sh", "-c", "exit 5"])
        self.hand_on()
        os.kill(process, signal.SIGTERM)
        self.assertEqual((self.end_of(key), self.end_of(other)), ((3, ""), (5, "")))
        self.assertEqual(self.children.runs, {})

    def test_one_whose_first_process_had_ended_ends_when_all_of_it_has(self):
        key, _ = self.begin(["sh", "-c", "sleep 1000 & exit 4"])
        self.children.runs[key].signal = lambda number: None  # as where what is killed runs on for a moment
        self.until(lambda: self.children.runs[key].lingers() if not self.children.ended() else True, "its first process has ended")
        self.hand_on()
        self.children.kill(key)
        os.killpg(self.children.runs[key].process.pid, signal.SIGKILL)
        self.assertEqual(self.end_of(key), (4, ""))

    def test_its_longest_time_goes_on(self):
        began = time.monotonic()
        key, _ = self.begin(WAITS, max_runtime=1.5)
        time.sleep(1)
        self.hand_on()
        self.assertEqual(self.end_of(key), (None, "its max-runtime of 1.5 s is over"))
        self.assertGreater(time.monotonic() - began, 1.4)

    def test_failures_of_its_check_count_on(self):
        key, _ = self.begin(WAITS, health={"command": ["sh", "-c", f"echo x >> {self.path('asked')}; exit 1"], "period": 0.1, "timeout": 1000, "failures": 4})
        self.until(lambda: any("failed 2 of 4" in note for note in self.notes), "it fails")
        self.hand_on()
        self.assertEqual(self.end_of(key), (None, "its check failed 4 times: status 1"))
        self.assertLessEqual(self.read("asked").count("x"), 5)  # one that was under way is made anew

    def test_one_that_was_ready_is_not_asked_again(self):
        self.begin(WAITS, ready={"command": ["sh", "-c", f"echo x >> {self.path('asked')}"], "period": 0.1, "timeout": 1000})
        self.until(lambda: self.notes[-1:] == [""], "it is ready")
        self.hand_on()
        self.notes.clear()
        for _ in range(10):
            self.turn()
        self.assertEqual((self.notes, self.read("asked")), ([], "x\n"))

    @unittest.skipUnless(IS_ROOT, "root")
    def test_programs_beside_it_are_of_its_user(self):
        self.begin(["sleep", "1000"], user="nobody", folder="/", health={"command": ["sh", "-c", f"id -un > {self.path('who')}"], "period": 0.2})
        with open(self.path("who"), "w"):
            os.chmod(self.path("who"), 0o666)
        self.hand_on()
        self.until(lambda: self.read("who") == "nobody\n", "it is checked")

    def test_one_that_ends_already_is_killed_when_its_time_is_over(self):
        key, _ = self.begin_ready(STAYS, shutdown="1000", health={"command": ["test", "!", "-e", self.path("sick")], "period": 0.1, "timeout": 1000, "failures": 1})
        open(self.path("sick"), "w").close()
        self.until(lambda: self.children.runs[key].is_ending, "its check has failed")
        self.hand_on()
        self.assertEqual(self.end_of(key), (None, "its check failed: status 1"))

    def test_a_command_that_stops_it_goes_on(self):
        key, _ = self.begin(WAITS, stop=["sh", "-c", "sleep 0.7; kill -9 $SEBRAKT_PROCESS"])
        self.children.term(key)
        self.hand_on()
        self.assertEqual(self.end_of(key), (-9, ""))

    def test_lines_go_on_and_one_that_was_begun_is_whole(self):
        self.begin(["sh", "-c", f"echo one; printf tw; until test -e {self.path('go')}; do sleep 0.05; done; echo o; echo three"])
        self.until(lambda: self.lines() and any(run.stream.rest for run in self.children.runs.values()), "it has begun a line")
        self.hand_on()
        open(self.path("go"), "w").close()
        self.until(lambda: len(self.lines()) == 3, "it goes on")
        self.assertEqual(self.lines(), ["1.1 one", "1.1 two", "1.1 three"])
        self.until(lambda: self.written().count(b"\n") == 3, "all of it is written once")

    def test_one_that_has_closed_its_output_and_one_without_a_program(self):
        key, process = self.begin(["sh", "-c", "exec >&- 2>&-; exec sleep 1000"])
        note, _ = self.begin([])
        self.until(lambda: self.children.runs[key].stream.pipe is None, "its output is closed")
        self.hand_on()
        self.children.term(note)
        os.kill(process, signal.SIGKILL)
        self.assertEqual((self.end_of(key), self.end_of(note)), ((-9, ""), (0, "")))

    def test_what_is_handed_on_is_found_where_its_agent_is_killed_then(self):
        _, process = self.begin(["sleep", "1000"])
        self.hand_on()
        self.assertEqual(self.children.end_leftovers(), 0)
        self.children.sessions.settle()
        self.assertIn(process, leftovers.Sessions(self.path("image") + ".sessions").left()[0])
        os.kill(process, 0)


class Tables(unittest.TestCase):
    def test_runs_of_a_core_come_through(self):
        before, after = runs_of_core(), runs_of_core()
        spec = "sleep permanent 5000 arg=1 2"
        before.do([("start", ident, "1.1", spec) for ident in ("w1", "w2")], 5)
        before.begin(["w1", "w2"], 5)
        before.began(1, 77)
        before.end(before.here["w2"], 6)
        before.backoff.note(("w1", spec), 1, 6)
        before.ends["w1"] = 3, "status 1"
        handover.take_core(after, json.loads(json.dumps(handover.of_core(before))))
        for one in (before, after):
            one.touched = set()
        self.assertEqual([{key: vars(run) for key, run in one.live.items()} for one in (before, after)], [{key: vars(run) for key, run in before.live.items()}] * 2)
        self.assertEqual(*[(one.keys, one.here.keys(), one.ending.keys(), one.kill_from, one.ends, one.backoff.of) for one in (before, after)])

    def test_a_table_of_another_form_or_another_agent_is_not_taken(self):
        options = types.SimpleNamespace(name="a", image="/x/a.image", groups=1)
        table = {"format": handover.FORMAT, "settings": vars(options)}
        self.assertIsNone(handover.fault_of(table, options))
        self.assertEqual(handover.fault_of({**table, "format": 7}, options), f"the table of runs has the format 7, and this program takes {handover.FORMAT}")
        self.assertEqual(handover.fault_of(table, types.SimpleNamespace(name="a", image="/y", groups=2)), "image and groups changed, which takes a stop and a begin")

    def test_what_is_no_table_is_none(self):
        for text in ("", "x", "[]", "{}", "[1]"):
            file = os.memfd_create("table")
            os.write(file, text.encode())
            with mock.patch.dict(os.environ, {handover.VARIABLE: str(file)}):
                self.assertRaises(handover.NotTaken, handover.read)
                self.assertNotIn(handover.VARIABLE, os.environ)
        self.assertIsNone(handover.read())

    def test_where_the_system_refuses_the_newer_program_this_one_goes_on(self):
        answers, said = [], []
        agent = types.SimpleNamespace(name="a", stops=0, groups=[], log=lambda *words: said.append(" ".join(map(str, words))))
        one = upgrade.Upgrade(agent)
        one.asked, one.step = [answers.append, None], one.rest
        with mock.patch.object(handover, "table_of", lambda _: {"groups": [], "sockets": []}), mock.patch.object(os, "execve", side_effect=OSError(7, "Argument list too long")):
            one.become()
        self.assertEqual((answers, one.step, said[-1]), ([["ok a goes on as its newer program"]], None, "goes on as it is: Argument list too long"))
        self.assertEqual(signal.pthread_sigmask(signal.SIG_BLOCK, ()) & upgrade.SIGNALS, set())

    def test_last_runs_and_events_come_through(self):
        noted = history.Run("a", "1.1", 7, 5.0, None, "")
        self.assertEqual(history.Run(*json.loads(json.dumps(noted))), noted)


def runs_of_core():
    options = types.SimpleNamespace(silent=3, backoff=60, stable=10, intensity=1000, period=5)
    return runs.Runs(options, lambda *action: None)


if __name__ == "__main__":
    unittest.main()
