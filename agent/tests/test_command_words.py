"""The words of the command `sebrakt`, what it tells of refusals, where it finds its agent, and how it waits."""
import contextlib
import io
import json
import os
import random
import re
import shlex
import shutil
import subprocess
import sys
import tempfile
import types
import unittest
import unittest.mock

from fake_agent import COMMAND, TOP, given, parsed

import asking
import bad_lines
import commands
import options
import command_words
import refusals
import seals
import settings
import supd_lines
import waits
import wanted
from test_apply import CHARACTERS, child


class Refusals(unittest.TestCase):
    def test_each_refusal_of_the_page_has_words_and_something_to_do(self):
        with open(os.path.join(TOP, "docs", "SUPCTL.md")) as file:
            listed = re.findall(r"^\| `(refused (\d+) \w+)` \|", file.read(), re.MULTILINE)
        self.assertEqual({int(number) for _, number in listed}, set(refusals.WORDS))
        for answer, _ in listed:
            why, advice = refusals.words_of("start web kind=http arg=1", answer)
            self.assertNotIn("refused", why)
            self.assertTrue(advice)

    def test_a_refusal_says_what_it_is_about_and_the_command_that_helps(self):
        for line, answer, why, advice in (
                ("start web kind=http arg=8080 restart=permanent shutdown=5000", "refused 4 AlreadyPresent", "there is a child web already", "replace it with: sebrakt replace --kind=http --arg=8080 web"),
                ("replace web kind=http arg= restart=transient", "refused 5 NotFound", "there is no child web", "start it with: sebrakt start --kind=http --restart=transient web"),
                ("delete web", "refused 5 NotFound", "there is no child web", "see what there is: sebrakt status"),
                ("drain b", "refused 7 NotMember", "no member is named b", "see what there is: sebrakt status"),
                ("register www web", "refused 8 NameTaken", "the name www is taken", "see by which child: sebrakt where www; take it back first: sebrakt unregister www"),
                ("register www web", "refused 9 NoSuchChild", "there is no child web", "start it first: sebrakt start --kind KIND web"),
                ("unregister www", "refused 10 NameUnknown", "no child has the name www", "see what there is: sebrakt status"),
                ("drain b", "refused 23 AlreadyDraining", "b is draining already", "take it back with: sebrakt undrain b"),
                ("start {x} kind=$HOME", "refused 4 AlreadyPresent", "there is a child {x} already", "replace it with: sebrakt replace '--kind=$HOME' '{x}'"),
                ("start web kind=http arg=a b", "bad line", '"b" is one word too many: an argument is one word, without spaces',
                 "its form is: start ID [kind=K] [arg=TEXT] [restart=permanent|transient|temporary] [shutdown=MS]"),
                ("delete", "bad line", "ID is missing", "its form is: delete ID"),
                ("drain B", "bad line", 'a machine\'s name has a-z, 0-9, _ and - alone, at most 64 of them, and this is "B"', "its form is: drain MEMBER"),
                ("shw", "not asked: delete, drain", "the agent takes no such line from people", "it takes delete, drain"),
                ("x", "refused 99 New", "refused 99 New", "see what there is: sebrakt status")):
            self.assertEqual(refusals.words_of(line, answer), (why, advice))

    def test_a_line_has_a_fault_in_words_where_the_rules_have_no_form_for_it_and_nowhere_else(self):
        """Of lines whose words are right, wrong, doubled, missing or too many."""
        chance, told = random.Random(5), set()
        words = ["web", "www", "B", "b", "x" * 128, "x" * 129, "", "alone", "kind=http", "kind=", "arg=", "arg=a=b", "arg=" + "x" * 1025, "label=a", "restart=always",
                 "restart=temporary", "shutdown=0", "shutdown=007", "shutdown=4294967296", "shutdown=infinity", "@5", "@05", "@9007199254740992"]
        for _ in range(5_000):
            verb = chance.choice(["start", "replace", "delete", "register", "unregister", "join", "leave", "drain"])
            line = " ".join([verb, *(chance.choice(words) for _ in range(chance.randrange(5)))])
            fault = bad_lines.fault_of(line)
            self.assertEqual(fault is None, supd_lines.read_act(line) is not None, (line, fault))
            told.add(fault and re.sub('".*"', "", fault))
        self.assertGreater(len(told), 12)
        for line, is_right in (("show", True), ("show x", False), ("where www", True), ("where", False), ("where @5", True), ("begin alone", True), ("begin", False), ("x", False)):
            self.assertEqual(bad_lines.fault_of(line) is None, is_right, line)

    def test_a_command_says_the_line_that_it_stands_for(self):
        """Through a shell's words and the parser, for ids and arguments with every byte that is allowed."""
        chance = random.Random(3)
        whole = "".join(CHARACTERS)
        for one in [child(chance) for _ in range(60)] + [wanted.Child(ident, ident, ident) for ident in ("-x", "--wait", whole, "'", '"', "=", "$(ls)", "a;b", "#x", "~", "{id}")]:
            before = wanted.Child(one.id, "")
            for verb in ("start", "replace"):
                words = shlex.split(command_words.command_of(one.line(verb)))
                said = parsed(*words[1:])
                self.assertEqual((words[0], said.verb, commands.child_of(said, before)), ("sebrakt", verb, one))


OF_AGENTS = ("run", "init", "serve", "move")  # which `sebrakt` hands on


class Words(unittest.TestCase):
    def refused(self, *words):
        with contextlib.redirect_stderr(io.StringIO()) as told, self.assertRaises(SystemExit) as end:
            parsed(*words)
        self.assertEqual(end.exception.code, 2)
        return told.getvalue()

    def test_mistakes_in_the_words_are_told_before_anything_is_asked(self):
        for words, told in (
                (("start", "web"), "--kind"), (("start", "a b", "--kind", "x"), 'an id has no spaces, and "a b" has some'), (("start", "", "--kind", "x"), "at least one"),
                (("start", "web", "--kind", "x", "--arg", "a b"), "an argument is one word without spaces, since the node keeps it so"),
                (("start", "web", "--kind", "x", "--restart", "always"), '"always" is none of permanent, transient, temporary'),
                (("start", "web", "--kind", "x", "--shutdown", "5s"), '"5s" is no number of milliseconds up to 4294967295, nor brutal_kill or infinity'),
                (("start", "web", "--kind", "x", "--shutdown", "05"), '"05" is no number'), (("start", "web", "--kind", "x", "--shutdown", 5000 * "9"), "is no number"),
                (("start", "web", "--kind", "x", "--shutdown", "4294967296"), "is no number"), (("start", "w\u00e9b", "--kind", "x"), 'has "\\u00e9"'),
                (("start", 129 * "x", "--kind", "x"), "at most 128"), (("start", "x", "--kind", "x", "--arg", 1025 * "x"), "at most 1024"),
                (("start", "web", "http", "8080", "--kind", "x"), "unrecognized arguments: http 8080"), (("start", "web", "--kind", "x", "--wait", "soon"), "unrecognized arguments: soon; --wait takes seconds"),
                (("start", "web", "--kind", "x", "--wait", "0"), "0: seconds"), (("sart", "web"), "invalid choice: 'sart'"), (("apply",), "FILE"),
                (("ask", "where", "w\u00e9b"), "visible ASCII"), (("delete",), "ID"), (("register", "www"), "ID"), (("drain",), "MACHINE"), (("ask",), "LINE")):
            with self.subTest(words=words):
                self.assertIn(told, self.refused(*words))

    def test_options_of_all_stand_before_and_behind_the_command(self):
        for words in (("--json", "--address", "x:1", "status"), ("status", "--json", "--address", "x:1"), ("--address", "x:1", "status", "--json")):
            said = parsed(*words)
            self.assertEqual((said.verb, said.json, said.address), ("status", True, "x:1"))
        self.assertEqual((parsed("stop", "web", "x").verb, parsed("stop", "web", "x").ids), ("delete", ["web", "x"]))
        self.assertEqual([parsed("drain", "a", *wait).wait for wait in ([], ["--wait"], ["--wait", "5"])], [None, command_words.PATIENCE, 5])

    def test_what_a_command_is_about_may_stand_behind_wait(self):
        for words in (("drain", "--wait", "a"), ("drain", "--wait", "--json", "a"), ("--json", "drain", "--wait", "--", "a"), ("drain", "--wait", "30", "a")):
            said = parsed(*words)
            self.assertEqual((said.machine, said.wait), ("a", command_words.PATIENCE))
        self.assertEqual((parsed("apply", "--wait", "children.toml").file, parsed("apply", "--wait", "-").file), ("children.toml", "-"))
        said = parsed("start", "--wait", "web", "--kind", "x")
        self.assertEqual((said.id, said.kind, said.wait), ("web", "x", command_words.PATIENCE))
        self.assertEqual(parsed("restart", "--", "--wait").id, "--wait")

    def test_a_mistake_in_the_words_is_a_value_where_values_are_wanted(self):
        done = subprocess.run([sys.executable, COMMAND, "start", "web", "--json"], capture_output=True, text=True)
        self.assertEqual((done.returncode, done.stderr), (2, ""))
        self.assertFalse(json.loads(done.stdout)["ok"])

    def test_each_command_is_told_and_each_is_in_the_page(self):
        done = subprocess.run([sys.executable, COMMAND], capture_output=True, text=True)
        self.assertEqual(done.returncode, 2)
        with open(os.path.join(TOP, "agent", "REFERENCE.md")) as file:
            page = file.read()
        for verb in commands.COMMANDS:
            self.assertIn(f"\n    {verb}", done.stdout)
            self.assertTrue(f"`sebrakt {verb}" in page, f"the page has no `sebrakt {verb}`")

    def test_the_commands_of_the_page_are_some(self):
        with open(os.path.join(TOP, "agent", "REFERENCE.md")) as file:
            said = re.findall(r"`sebrakt ([a-z][^`]*)`", file.read())
        self.assertGreater(len(said), 10)
        for words in (one.removeprefix("sebrakt ").partition(" > ")[0] for line in said for one in line.split(" | ")):
            if words.split()[0] in OF_AGENTS:
                self.assertEqual(options.words("").parse_args(shlex.split(words)).way if words.startswith("init ") else words.split()[0], words.split()[0])
                continue
            verb = parsed(*shlex.split(words)).verb if " " in words else words
            self.assertTrue(verb in commands.COMMANDS or verb == "stop", words)


class Settings(unittest.TestCase):
    def setUp(self):
        self.folder = tempfile.mkdtemp(prefix="sebrakt-settings-")
        self.addCleanup(shutil.rmtree, self.folder)
        os.mkdir(os.path.join(self.folder, "sebrakt"))
        self.path = os.path.join(self.folder, "sebrakt", "sebrakt.conf")

    def find(self, content=None, said=None, **environment):
        if content is not None:
            with open(self.path, "w") as file:
                file.write(content)
        return settings.find(given(**said or {}), {"XDG_CONFIG_HOME": self.folder, **environment})

    def test_options_count_before_the_environment_and_that_before_the_file(self):
        content = "# the agent here\naddress = \"127.0.0.1:1\"  # its port\n\n  secret = 'secret'\n"
        self.assertEqual(self.find(content), (("127.0.0.1:1", self.path), (os.path.join(self.folder, "sebrakt", "secret"), self.path)))
        self.assertEqual(self.find(SEBRAKT_ADDRESS="127.0.0.1:2")[0], ("127.0.0.1:2", "$SEBRAKT_ADDRESS"))
        self.assertEqual(self.find(SEBRAKT_SECRET="s")[1], ("s", "$SEBRAKT_SECRET"))
        self.assertEqual(self.find(said={"address": "127.0.0.1:3"}, SEBRAKT_ADDRESS="127.0.0.1:2")[0], ("127.0.0.1:3", "--address"))
        self.assertEqual(self.find('address = "x:1"\nsecret = "/etc/s"')[1][0], "/etc/s")
        self.assertEqual(self.find('address = "x:1"\nsecret = "~/s"')[1][0], os.path.expanduser("~/s"))
        self.assertEqual(self.find('address = "x:1"')[1], (None, ""))

    def test_the_settings_of_the_page_are_some(self):
        with open(os.path.join(TOP, "agent", "REFERENCE.md")) as file:
            block = re.search(r"(?:^    (?:address|secret) = .*\n)+", file.read(), re.MULTILINE)[0]
        self.assertEqual([text for text, _ in self.find(block)], ["10.7.0.1:7001", os.path.join(self.folder, "sebrakt", "secret")])

    def test_a_mistake_in_the_file_is_told_with_its_line(self):
        for content, line in (("addres = \"x:1\"", 1), ("\naddress = x:1", 2), ('address = "x:1"\naddress = "y:1"', 2), ("[sebrakt]\naddress = \"x:1\"", 1), ('secret = ""', 1), ("\x00\xff", 1)):
            with self.assertRaises(settings.NoSettings) as told:
                self.find(content)
            self.assertTrue(str(told.exception).startswith(f"{self.path}:{line}: "), told.exception)

    def test_who_names_no_agent_is_told_how(self):
        for content in (None, 'secret = "s"'):
            with self.assertRaises(settings.NoSettings) as told:
                self.find(content)
            self.assertIn("--address HOST:PORT", str(told.exception))

    def test_an_address_or_a_secret_that_is_none_is_told_with_where_it_was_said(self):
        for address, secret, told in (("127.0.0.1", None, "127.0.0.1: not of the form HOST:PORT ($SEBRAKT_ADDRESS)"), ("x:0", None, "HOST:PORT"),
                                      ("x:1", "/nonexistent", "/nonexistent: No such file or directory (the secret's file, by $SEBRAKT_SECRET)")):
            with self.assertRaises((settings.NoSettings, seals.BadSecret)) as fault:
                asking.agent_of(given(), {"XDG_CONFIG_HOME": self.folder, "SEBRAKT_ADDRESS": address, **({"SEBRAKT_SECRET": secret} if secret else {})})
            self.assertIn(told, str(fault.exception))


def status_of(*runs, why=""):
    return {"children": [{"id": "web", "shutdown": "5000", "runs": [list(run) + [0, ""] for run in runs], "why": why}]}


class Waits(unittest.TestCase):
    def whys(self, looks, old=()):
        """What is told at each of some looks, each (seconds, status)."""
        wait = waits.Wait(["web"], old)
        return [wait.look(status, now).get("web") for now, status in looks]

    def test_a_child_runs_once_its_run_is_seen_for_a_while(self):
        one, two = status_of(("b", "1.1", 5)), status_of(("b", "1.2", 6))
        self.assertEqual(self.whys([(0, one), (1, one), (1.3, one)]), ["its run on b has begun just now"] * 2 + [None])
        self.assertEqual(self.whys([(0, one), (1, two), (2, status_of()), (3, two), (4.5, two)])[-2:], ["its run on b has begun just now", None])
        self.assertEqual(self.whys([(0, one), (1.3, two), (2.6, one)]), ["its run on b has begun just now"] * 3)

    def test_the_run_before_a_replace_counts_no_more(self):
        before = ("b", "1.1", 5)
        self.assertEqual(self.whys([(0, status_of(before)), (9, status_of(before))], [before])[-1], "its earlier run on b hasn't ended yet (it has 5000 ms)")
        self.assertIsNone(self.whys([(0, status_of(before, ("c", "1.1", 5))), (2, status_of(("c", "1.1", 5)))], [before])[-1])

    def test_a_run_that_is_told_to_end_counts_no_more_though_it_began_behind_the_last_look(self):
        ends = {"children": [{**status_of(("b", "1.1", 5))["children"][0], "state": "stopping"}]}
        self.assertEqual(self.whys([(0, ends), (9, ends)]), ["its earlier run on b hasn't ended yet (it has 5000 ms)"] * 2)

    def test_who_does_not_know_all_children_is_asked_again(self):
        """Without its node an agent tells of no child."""
        child = {**status_of(("b", "1.1", 5))["children"][0], "state": "running"}
        looks = iter([{"node": "gone", "children": []}, {"node": "gone in 1, runs in 7", "children": []}, {"node": "runs", "children": [child]}, {"node": "runs", "children": []}])
        with unittest.mock.patch.object(waits, "LOOK", 0):
            self.assertEqual(waits.until_it_is_empty(types.SimpleNamespace(status=lambda: next(looks)), "b", 60), {})
        self.assertEqual(list(looks), [])
        agent = types.SimpleNamespace(status=lambda: {"node": "gone", "children": []})
        self.assertEqual(waits.until_it_is_empty(agent, "b", 0), {"": "the agent doesn't know all children now, its node: gone"})

    def test_why_it_does_not_run_is_told(self):
        self.assertEqual(self.whys([(0, status_of(why="waits 4.0 s, 3 restarts, status 1"))]), ["waits 4.0 s, 3 restarts, status 1"])
        self.assertEqual(self.whys([(0, {"children": []})]), ["it is no child any more: it was deleted, or has ended for good"])

    def test_an_agent_that_does_not_answer_is_a_reason_too(self):
        agent = asking.Agent(("127.0.0.1", 1), None, "", begins=0)
        self.assertIn("the agent doesn't answer", waits.until_they_run(agent, ["web"], [], 0.1)[""])


if __name__ == "__main__":
    unittest.main()
