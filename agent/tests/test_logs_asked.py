"""Lines of children that any machine is asked for."""
import json
import os
import signal
import subprocess
import sys
import unittest

from machines import Machines, OfMachines

import asking
import log_commands
import shown
from promises import need
from pulse import PACE, until

COMMAND = os.path.join(os.path.dirname(os.path.dirname(os.path.abspath(__file__))), "sebrakt")

# In one process: what a shell begins beside itself would be a second one of its child.
TALK = "import itertools, time\nfor number in itertools.count(1):\n    print(number, flush=True)\n    time.sleep(0.05)"


class Asked(unittest.TestCase):
    """Two machines with children that talk, each once in a while."""

    @classmethod
    def setUpClass(cls):
        cls.machines = Machines(["a", "b"])
        with open(cls.machines.path("kinds.json"), "w") as file:
            json.dump({"talk": [sys.executable, "-c", TALK]}, file)
        cls.machines.begin_all()
        cls.idents = [f"t{number}" for number in range(4)]
        cls.machines.start("a", cls.idents, kind="talk", arg="x")
        until(20, lambda: all(cls.machines.where(cls.idents).values()), "they run")
        cls.home = cls.machines.where(["t0"])["t0"]
        cls.away = "b" if cls.home == "a" else "a"

    @classmethod
    def tearDownClass(cls):
        cls.machines.end()

    def logs(self, at, *words):
        """What a machine answers."""
        return json.loads(self.machines.ask(at, " ".join(["logs", *words]))[0])

    def told_at(self, at, ident):
        """The machine whose lines of a child another one tells, and how many."""
        value = self.logs(at, ident, "3", "-", "-")
        return value.get("machine"), len(value.get("lines", ()))

    def sebrakt(self, at, *words):
        """(status, standard output, standard error) of a command."""
        done = subprocess.run([sys.executable, COMMAND, "--address", "{}:{}".format(*self.machines.address(at)), "--secret", self.machines.path("secret"), *words],
                              stdout=subprocess.PIPE, stderr=subprocess.PIPE, text=True, timeout=60 * PACE)
        return done.returncode, done.stdout, done.stderr

    def test_any_machine_tells_the_lines_of_a_child_wherever_it_runs(self):
        self.assertEqual(set(self.machines.where(self.idents).values()), {"a", "b"})
        for ident in self.idents:
            for at in "ab":
                until(20, lambda: self.told_at(at, ident) == (self.machines.where([ident])[ident], 3), f"{at} tells of {ident}")
        status, told, _ = self.sebrakt(self.away, "--json", "logs", "t0", "-n", "2")
        value = json.loads(told)
        self.assertEqual((status, value["machine"], len(value["lines"]), os.path.basename(value["where"]), value["ok"]), (0, self.home, 2, "t0.log", True))
        self.assertEqual(self.logs(self.home, "nix", "1", self.away, "-")["why"], f"{self.away} has no lines of nix since its agent began")
        self.assertEqual(self.logs("a", "t0", "1", "zz", "-")["why"], "a has no connection with zz")
        status, told, why = self.sebrakt("a", "logs", "nix")
        self.assertEqual((status, told), (1, ""))
        self.assertIn("a has no lines of nix", why)

    def test_odd_questions_are_refused(self):
        for line in ("logs", "logs t1", "logs t1 x - -", "logs t1 5 - x:1", "logs t1 5 - - -", "logs t1 999999 - -", f"logs t1 5 - {'0' * 32}:{'9' * 30}"):
            self.assertTrue(self.machines.ask("a", line)[0].startswith(("bad line", "not asked")), line)
        until(20, lambda: len(self.logs("a", "t1", "5", "-", f"{'0' * 32}:0").get("lines", ())) == 5, "a place of another agent is none")

    def test_a_machine_that_does_not_answer_is_told(self):
        before = self.machines.where(self.idents)
        self.machines.agents[self.home].send_signal(signal.SIGSTOP)
        try:
            self.assertRegex(self.logs(self.away, "t0", "5", self.home, "-")["why"], f"^({self.home} doesn't answer|{self.away} has no connection with {self.home})$")
        finally:
            self.machines.agents[self.home].send_signal(signal.SIGCONT)
        until(60, lambda: self.machines.each_once(self.idents) and self.machines.where(self.idents) == before and self.machines.tables_equal(), "all is as before")

    def test_who_follows_sees_each_line_once_also_while_the_child_moves(self):
        agent = asking.Agent(self.machines.address(self.away), self.machines.secret, "a test")
        following, seen = log_commands.Following("t0", 1000, None), []

        def look():
            value = following.look(agent)
            seen.extend((value["machine"], *line.split(" ")[1:]) for line in value.get("lines", ()))
            return [one for one in seen if one[0] == value.get("machine")]
        until(20, lambda: len(look()) > 20, "it is followed")
        self.machines.ask(self.away, f"drain {self.home}")
        until(30, lambda: len(look()) > 20 and seen[-1][0] != self.home, "and elsewhere")
        for machine in "ab":
            numbers = [(run, int(number)) for at, run, number in seen if at == machine]
            for run in dict(numbers):
                of_run = [number for of, number in numbers if of == run]
                need(of_run == list(range(of_run[0], of_run[-1] + 1)), f"each line is seen once, of run {run} on {machine}: {of_run}")


class OfOne(OfMachines):
    def test_a_full_disk_is_told_in_status_and_children_go_on(self):
        machines = self.machines(names=["a"])
        with open(machines.path("full"), "w"):
            pass  # a file, where the folder should be
        machines.options += ["--logs", os.path.join(machines.path("full"), "logs")]
        with open(machines.path("kinds.json"), "w") as file:
            json.dump({"talk": ["sh", "-c", "while :; do echo x; sleep 0.05; done"]}, file)
        machines.begin_all()
        machines.start("a", ["t1"], kind="talk")
        until(20, lambda: "aren't kept" in machines.status("a").get("logs", ""), "it is told")
        self.assertIn("Not a directory", "\n".join(shown.tables(machines.status("a"))))
        self.assertEqual(machines.log("a").count("aren't kept"), 1)
        self.assertEqual(machines.child("a", "t1")["restarts"], 0)


if __name__ == "__main__":
    unittest.main()
