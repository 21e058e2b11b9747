"""The command `sebrakt` at real agents: a person's first hour, and several groups."""
import importlib.util
import json
import os
import random
import shlex
import stat
import subprocess
import sys
import unittest

from fake_agent import COMMAND

import wanted
from groups import group_of
from machines import Machines
from pulse import until
from test_apply import CHARACTERS, word


class OfAgents(unittest.TestCase):
    """Two agents with processes and a secret, and a person at one of them."""

    groups = "1"

    @classmethod
    def setUpClass(cls):
        # nobody is held here: what is slow is the test's own
        cls.machines = Machines(["a", "b"], options=["--silent", "10", "--patience", "5", "--groups", cls.groups])
        cls.addClassCleanup(cls.machines.end)
        cls.machines.begin_all()

    def do(self, *words, at="a", status=0, **environment):
        """What a command prints on each of its streams."""
        settings_of = {"SEBRAKT_ADDRESS": f"127.0.0.1:{self.machines.ports[at]}", "SEBRAKT_SECRET": self.machines.path("secret"), "XDG_CONFIG_HOME": self.machines.folder}
        done = subprocess.run([sys.executable, COMMAND, *words], capture_output=True, text=True, timeout=60, env={**os.environ, **settings_of, **environment})
        self.assertNotIn("Traceback", done.stderr)
        self.assertEqual(done.returncode, status, done)
        return done.stdout + done.stderr

    def file(self, content):
        path = self.machines.path("children.toml")
        with open(path, "w") as file:
            file.write(content)
        return path


class AtAgents(OfAgents):
    def test_children_start_move_and_end_by_commands(self):
        self.assertIn("web runs on ", self.do("start", "web", "--kind", "sleep", "--arg", "100000", "--wait"))
        before = json.loads(self.do("where", "web", "--json"))["children"][0]["runs"][0]
        self.assertIn("sebrakt: there is a child web already\n  replace it with: sebrakt replace --kind=sleep web", self.do("start", "web", "--kind", "sleep", status=1))
        self.do("restart", "web", "--wait")
        after = json.loads(self.do("where", "web", "--json"))["children"][0]["runs"][0]
        self.assertNotEqual(before[2], after[2])
        self.do("register", "www", "web")
        self.assertIn(f"www is a name of web, which runs on {after[0]} ", self.do("where", "www"))
        other = "b" if after[0] == "a" else "a"
        self.do("drain", after[0], "--wait")
        self.do("drain", after[0], "--wait", status=1)
        until(10, lambda: f"web runs on {other} " in self.do("where", "web"), "web runs on the other machine")
        self.do("undrain", after[0])
        self.assertIn("it comes back with: sebrakt start --kind=sleep --arg=100000 web", self.do("stop", "web"))
        self.do("where", "web", status=1)

    def test_who_waits_is_told_why_a_child_does_not_run(self):
        told = self.do("start", "bad", "--kind", "none", "--wait", "4", status=1)
        self.assertRegex(told, r"sebrakt: after 4 s of waiting, bad: (waits \d\.\d s, \d restarts, failed|begins|not ordered yet)")
        self.do("delete", "bad")

    def test_a_file_is_applied_once_and_an_export_is_it(self):
        path = self.file("".join(f'[child."f/{number}"]\nkind = "sleep"\narg = "100000"\nnames = ["n{number}"]\n' for number in range(3)))
        self.assertIn("would start f/0", self.do("apply", path, "--diff"))
        told = self.do("apply", path, "--wait")
        self.assertEqual((told.count("started f/"), told.count("all 3 children of the file run")), (3, 1))
        self.assertIn("nothing to do", self.do("apply", path, "--wait"))
        self.assertEqual(json.loads(self.do("apply", self.file(self.do("export")), "--prune", "--json"))["done"], [])
        self.file('[child."f/1"]\nkind = "sleep"\narg = "100001"\n')
        self.assertEqual([line.split(":")[0].split(";")[0] for line in self.do("apply", path, "--prune", "--wait").splitlines()[:4]],
                         ["deleted f/0", "deleted f/2", "unregistered n1 of f/1", "replaced f/1"])
        self.do("delete", "f/1")

    def test_an_id_and_an_argument_with_every_byte_come_to_the_agent_and_back(self):
        chance = random.Random(4)
        whole = "".join(CHARACTERS)
        children = [wanted.Child(ident, "nix", arg) for ident, arg in [(whole, whole[::-1]), ("-x", "--y"), *((word(chance), word(chance)) for _ in range(4))]]
        for one in children:
            self.do("start", f"--kind={one.kind}", f"--arg={one.arg}", "--", one.id)
        path = self.file(self.do("export"))
        self.assertEqual(json.loads(self.do("apply", path, "--json"))["done"], [])
        there = json.loads(self.do("export", "--json"))["child"]
        self.assertEqual({one.id: one.arg for one in children}, {ident: there[ident]["arg"] for ident in (one.id for one in children)})
        self.do("delete", "--", *(one.id for one in children))
        self.do("apply", path)
        self.do("delete", "--", *(one.id for one in children))

    def test_another_secret_or_none_is_told(self):
        other = self.machines.path("other")
        with open(other, "w") as file:
            os.chmod(file.fileno(), 0o600)
            file.write("another secret, as long as the first")
        for secret in (other, ""):
            told = self.do("start", "web", "--kind", "sleep", SEBRAKT_SECRET=secret, status=1)
            self.assertIn("--secret FILE or SEBRAKT_SECRET names the file of the cluster's secret", told)
            self.assertNotIn("not sure", told)

    def test_nobody_there_is_told(self):
        self.assertIn("is an agent there?", self.do("start", "web", "--kind", "x", "--address", "127.0.0.1:9", status=1))

    def test_a_reader_that_ends_early_is_no_fault(self):
        done = subprocess.run(f"{shlex.quote(sys.executable)} {shlex.quote(COMMAND)} --address 127.0.0.1:{self.machines.ports['a']} --secret {self.machines.path('secret')} status | true",
                              shell=True, capture_output=True, text=True, timeout=30)
        self.assertEqual(done.stderr, "")

    def test_words_are_completed_where_argcomplete_is(self):
        if importlib.util.find_spec("argcomplete") is None:
            self.skipTest("python3-argcomplete")
        self.do("start", "complete-me", "--kind", "nix")
        with open(COMMAND) as file:
            self.assertIn("PYTHON_ARGCOMPLETE_OK", file.read(1024))
        self.assertTrue(os.stat(COMMAND).st_mode & stat.S_IXUSR)
        for line, words in (("sebrakt und", ["undrain"]), ("sebrakt delete compl", ["complete-me"]), ("sebrakt drain ", ["a", "b"]), ("sebrakt start x --restart t", ["temporary", "transient"])):
            told = self.complete(line)
            self.assertEqual([one.strip() for one in told if not one.startswith("-")], words, line)
        self.do("delete", "complete-me")
        self.assertEqual([one for one in self.complete("sebrakt drain ", SEBRAKT_ADDRESS="127.0.0.1:9") if not one.startswith("-")], [])

    def complete(self, line, **other):
        path = self.machines.path("completed")
        environment = {"_ARGCOMPLETE": "1", "_ARGCOMPLETE_IFS": "\n", "_ARGCOMPLETE_SHELL": "bash", "COMP_LINE": line, "COMP_POINT": str(len(line)), "COMP_TYPE": "9",
                       "SEBRAKT_ADDRESS": f"127.0.0.1:{self.machines.ports['a']}", "SEBRAKT_SECRET": self.machines.path("secret")}
        subprocess.run(["bash", "-c", f'exec "$0" "$1" 8>{shlex.quote(path)} 9>/dev/null', sys.executable, COMMAND], env={**os.environ, **environment, **other}, timeout=30)
        with open(path) as file:
            return sorted(file.read().split("\n"))


class AtGroups(OfAgents):
    groups = "3"

    def test_children_and_names_of_all_groups_are_as_the_file_says(self):
        idents = [f"g{number}" for number in range(6)]
        self.assertEqual({group_of(ident, 3) for ident in idents}, {0, 1, 2})
        tables = "".join(f'[child.{ident}]\nkind = "sleep"\narg = "100000"\n' for ident in idents)
        for ident in idents:  # the name moves from group to group
            path = self.file(tables.replace(f"[child.{ident}]\n", f'[child.{ident}]\nnames = ["www"]\n'))
            self.do("apply", path, "--wait")
            self.assertIn(f"www is a name of {ident}, which runs on", self.do("where", "www"))
            self.assertIn("nothing to do", self.do("apply", path))
        self.assertEqual(json.loads(self.do("apply", self.file(self.do("export")), "--prune", "--json"))["done"], [])
        self.assertIn("a is empty", self.do("drain", "a", "--wait"))
        self.assertIn("a is draining already", self.do("drain", "a", status=1))
        self.do("undrain", "a")
        self.assertEqual(len(json.loads(self.do("apply", self.file("[child]"), "--prune", "--json"))["done"]), 6)



if __name__ == "__main__":
    unittest.main()
