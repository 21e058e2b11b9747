"""What the command `sebrakt` says and prints, at an agent without processes."""
import contextlib
import io
import json
import os
import shlex
import shutil
import tempfile
import unittest

from fake_agent import Fake, parsed

import commands


class AtAFake(unittest.TestCase):
    """What commands print and say, at an agent that has no processes."""

    def setUp(self):
        self.fake = Fake()
        self.agent = self.fake.asked(self)
        self.folder = tempfile.mkdtemp(prefix="sebrakt-commands-")
        self.addCleanup(shutil.rmtree, self.folder)

    def do(self, *words):
        """The value that a command ends with."""
        given = parsed("--json", "--address", "127.0.0.1:1", *words)
        with contextlib.redirect_stdout(io.StringIO()) as told:
            status = commands.run(given, {"XDG_CONFIG_HOME": self.folder})
        value = json.loads(told.getvalue())
        self.assertEqual(value["ok"], status == 0)
        return value

    def path(self, text):
        path = os.path.join(self.folder, "children.toml")
        with open(path, "w") as file:
            file.write(text)
        return path

    def test_what_a_replace_does_not_say_stays(self):
        self.do("start", "web", "--kind", "http", "--arg", "8080", "--restart", "transient")
        self.do("replace", "web", "--shutdown", "infinity")
        self.do("replace", "web", "--arg", "")
        self.do("restart", "web")
        rest = "restart=transient shutdown=infinity"
        self.assertEqual(self.fake.said[1:], [f"replace web kind=http arg=8080 {rest}", f"replace web kind=http arg= {rest}", f"replace web kind=http arg= {rest}"])

    def test_who_is_not_there_is_replaced_and_restarted_by_no_line(self):
        self.assertEqual(self.do("replace", "web", "--arg", "1")["advice"], "start it with: sebrakt start --kind=KIND --arg=1 web")
        self.assertEqual(self.do("restart", "web")["why"], "there is no child web")
        self.assertEqual(self.fake.said, [])

    def test_what_a_deletion_tells_brings_the_child_and_its_names_back(self):
        self.do("start", "--kind=http", "--arg=--x", "--", "-web")
        for name in ("www", "-n", "a'b"):
            self.do("register", "--", name, "-web")
        before = self.agent.tables()
        with contextlib.redirect_stdout(io.StringIO()) as told:
            commands.run(parsed("delete", "--address", "127.0.0.1:1", "--", "-web"), {"XDG_CONFIG_HOME": self.folder})
        self.assertEqual(self.agent.tables().children, {})
        for command in told.getvalue().partition("with: ")[2].split(" && "):
            self.do(*shlex.split(command)[1:])
        after = self.agent.tables()
        self.assertEqual((after.children, after.names), (before.children, before.names))

    def test_a_deletion_that_is_refused_leaves_what_was_behind_it(self):
        self.do("start", "web", "--kind", "http")
        value = self.do("delete", "web", "nix", "x")
        self.assertEqual((value["done"], value["refused"], value["left"]), (["delete web"], "delete nix", ["delete x"]))

    def test_a_diff_does_nothing_and_a_second_apply_neither(self):
        path = self.path('[child.web]\nkind = "http"\nnames = ["www"]\n')
        lines = ["start web kind=http arg= restart=permanent shutdown=5000", "register www web"]
        self.assertEqual((self.do("apply", path, "--diff")["would"], self.fake.said), (lines, []))
        self.assertEqual((self.do("apply", path)["done"], self.fake.said), (lines, lines))
        self.assertEqual((self.do("apply", path)["done"], self.do("apply", path, "--diff")["would"], self.fake.said), ([], [], lines))

    def test_what_is_not_in_the_file_is_told_and_deleted_by_prune_alone(self):
        for ident, name in (("old", "was"), ("web", "www")):
            self.do("start", ident, "--kind", "http")
            self.do("register", name, ident)
        path = self.path('[child.web]\nkind = "http"\nnames = ["w"]\n')
        for words in ((), ("--diff",)):
            value = self.do("apply", path, *words)
            self.assertEqual((value["others"], value["other_names"]), (["old"], ["www"]))
        value = self.do("apply", path, "--prune")
        self.assertEqual((value["done"], value.get("others")), (["delete old", "unregister www"], None))

    def test_a_mistake_in_the_file_has_nothing_asked(self):
        self.fake.ask = None
        value = self.do("apply", self.path('[child.web]\nkind = "http"\n[child.x]\nkind = 5\n'))
        self.assertEqual(value["mistakes"], [os.path.join(self.folder, "children.toml") + ':4:1: [child.x] kind: a text is wanted, in quotes: "5"'])

    def test_an_empty_file_with_prune_deletes_nothing(self):
        self.do("start", "web", "--kind", "http")
        self.assertFalse(self.do("apply", self.path(""), "--prune")["ok"])
        self.assertEqual(self.do("apply", self.path("[child]"), "--prune")["done"], ["delete web"])

    def test_an_agent_that_ends_in_the_midst_is_told_with_what_was_done_and_apply_goes_on(self):
        path = self.path("".join(f'[child.{ident}]\nkind = "x"\n' for ident in "abcd"))
        self.fake.ends_at = 2
        value = self.do("apply", path)
        self.assertEqual([len(value["done"]), value["unsure"].split(" ")[1], len(value["left"])], [2, "c", 1])
        self.assertIn("say it again", value["advice"])
        self.fake.ends_at = None
        self.assertEqual(len(self.do("apply", path)["done"]), 2)

    def test_an_export_is_what_apply_makes_and_names_of_nobody_are_left_out(self):
        self.do("start", "web", "--kind", "http", "--arg", '"\\')
        self.do("register", "www", "web")
        given = parsed("export", "--address", "127.0.0.1:1")
        with contextlib.redirect_stdout(io.StringIO()) as told:
            commands.run(given, {"XDG_CONFIG_HOME": self.folder})
        self.assertEqual(told.getvalue(), '[child.web]\nkind = "http"\narg = "\\"\\\\"\nnames = ["www"]\n')
        self.assertEqual(self.do("apply", self.path(told.getvalue()), "--prune")["done"], [])
        self.assertEqual(self.do("export")["child"], {"web": {"kind": "http", "arg": '"\\', "restart": "permanent", "shutdown": "5000", "names": ["www"]}})

    def test_a_node_that_is_away_is_told_and_nothing_is_exported(self):
        self.fake.instead = {"show": ["no node"]}
        for words in (("export",), ("apply", self.path("[child]"), "--prune"), ("delete", "web")):
            self.assertEqual(self.do(*words)["why"], "the agent's node is away")
        self.assertEqual(self.fake.said, [])

    def test_a_line_is_given_as_it_is_and_a_refusal_is_told_in_words_beside_it(self):
        self.assertEqual(self.do("ask", "start", "web", "kind=http")["lines"][0], "ok (a,2)")
        value = self.do("ask", "start web kind=http")
        self.assertEqual((value["lines"], value["why"]), (["refused 4 AlreadyPresent"], "there is a child web already"))


if __name__ == "__main__":
    unittest.main()
