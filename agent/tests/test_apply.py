"""Children in a file: how it is read and written, what is told of its mistakes, and what is said so that a cluster's children are those."""
import dataclasses
import os
import random
import re
import tempfile
import unittest.mock

from fake_agent import Fake

import apply
import child_file
import toml_places
import wanted

CHARACTERS = [chr(code) for code in range(ord("!"), ord("~") + 1)]


def word(chance, least=1, most=12):
    return "".join(chance.choice(CHARACTERS) for _ in range(chance.randint(least, most)))


def child(chance, ident=None):
    return wanted.Child(ident or word(chance), word(chance), word(chance, 0, 30), chance.choice(wanted.RESTARTS), chance.choice(["5000", "0", "4294967295", *wanted.SHUTDOWNS]))


def tables(chance, idents):
    """Some children of these ids, with names."""
    children = [child(chance, ident) for ident in idents if chance.random() < 0.7]
    names = {name: chance.choice(children).id for name in ("www", "q", word(chance)) if children and chance.random() < 0.6}
    return wanted.Tables(children, names)


def read(text):
    return child_file.tables_of(text, "f.toml")


class Mistakes(unittest.TestCase):
    def mistakes(self, text):
        with self.assertRaises(child_file.Mistakes) as told:
            read(text)
        return told.exception.lines

    def test_a_mistake_at_each_key_is_told_with_its_line(self):
        for line, told in (
                ('kind = 5', 'kind: a text is wanted, in quotes: "5"'), ('kind = ""', "kind: a kind has at least one character"),
                ('kind = "a b"', 'kind: a kind has no spaces, and "a b" has some'), ('kind = true', "kind: a text is wanted, in quotes"),
                ('kind = "' + 129 * "k" + '"', "kind: a kind has at most 128 characters, and this one has 129"),
                ('arg = 8080', 'arg: a text is wanted, in quotes: "8080"'), ('arg = ["a", "b"]', "arg: a text is wanted, in quotes"),
                ('arg = "a b"', 'arg: an argument is one word without spaces, since the node keeps it so, and "a b" has some: further words belong to its kind'),
                ('arg = "\\u00e9"', 'arg: an argument has visible ASCII alone, from ! to ~, and "\\u00e9" has "\\u00e9"'),
                ('arg = """a\nb"""', 'arg: an argument has visible ASCII alone, from ! to ~, and "a\\nb" has "\\n"'),
                ('arg = "' + 1025 * "x" + '"', "arg: an argument has at most 1024 characters, and this one has 1025"),
                ('restart = "never"', 'restart: "never" is none of permanent, transient, temporary'), ('restart = false', "restart: a text is wanted, in quotes"),
                ('shutdown = "5000"', 'shutdown: milliseconds are wanted, a number up to 4294967295 without quotes, or "brutal_kill" or "infinity"'),
                ('shutdown = 4294967296', 'shutdown: milliseconds are wanted, a number up to 4294967295 without quotes, or "brutal_kill" or "infinity"'),
                ('shutdown = 0x' + 5000 * "f", 'shutdown: milliseconds are wanted, a number up to 4294967295 without quotes, or "brutal_kill" or "infinity"'),
                ('shutdown = -1', 'shutdown: milliseconds are wanted, a number up to 4294967295 without quotes, or "brutal_kill" or "infinity"'),
                ('shutdown = true', 'shutdown: milliseconds are wanted, a number up to 4294967295 without quotes, or "brutal_kill" or "infinity"'),
                ('names = "www"', 'names: a list of texts is wanted, as ["www", "web"]'), ('names = [1]', 'names: a list of texts is wanted, as ["www", "web"]'),
                ('names = ["w w"]', 'names: a name has no spaces, and "w w" has some'),
                ('names = ["w", "w"]', 'names: "w" is a name of web already'),
                ('restrat = "permanent"', "restrat: no such key; is restart meant?"), ('x = 1', "x: no such key; there are kind, arg, restart, shutdown, names")):
            with self.subTest(line=line[:40]):
                kind = '' if line.startswith("kind") else '  kind = "http"\n'
                text = f'# children\n[child.web]\n{kind}   {line}\n'
                self.assertEqual(self.mistakes(text), [f"f.toml:{3 + bool(kind)}:4: [child.web] {told}"])

    def test_a_mistake_of_a_table_is_told_with_its_line(self):
        for text, told in (
                ('', "f.toml:1:1: no children: each has a table [child.ID]; a file for no children at all says [child]"),
                ('[child.web]', "f.toml:1:1: [child.web]: its kind is missing"),
                ('\n[web]\nkind = "x"', "f.toml:2:1: web: a child's table is [child.ID], and there is nothing else; is [child.web] meant?"),
                ('[children.web]\nkind = "x"', "f.toml:1:1: children: a child's table is [child.ID], and there is nothing else; is [child.web] meant?"),
                ('[[child]]\nid = "x"', "f.toml:1:1: child: each child has a table with its id, [child.ID] in single brackets"),
                ('[child]\nweb = 5', 'f.toml:2:1: [child.web]: a child is a table, as [child.web] and below it kind = "http"'),
                ('\n[child.web.1]\nkind = "x"', 'f.toml:2:1: [child.web] 1: an id with a dot stands in quotes, as [child."web.1"]'),
                ('[child."a b"]\nkind = "x"', 'f.toml:1:1: [child."a b"]: an id has no spaces, and "a b" has some'),
                ('[child.""]\nkind = "x"', 'f.toml:1:1: [child.""]: an id has at least one character'),
                ('child.web = {kind = "x", arg = 1}', 'f.toml:1:1: [child.web] arg: a text is wanted, in quotes: "1"')):
            with self.subTest(text=text):
                self.assertEqual(self.mistakes(text), [told])

    def test_what_is_no_toml_is_told_with_line_and_column_and_a_hint(self):
        for text, place, hint in (
                ('[child.web]\nkind = http\n', "2:8", 'a text stands in quotes, as kind = "http"'), ('\n[child.web/1]\nkind = "x"', "2:11", 'as [child."web/1"]'),
                ('[child.@]\n', "1:8", 'as [child."web/1"]'), ('[child.web]\nkind = "x"\nkind = "y"', "3:11", "it is said twice"),
                ('[child.web]\n[child.x]\n[child.web]\n', "3:11", "twice"), ('[child.web]\nkind = "x', "2:10", "Unterminated"), ('[child.web]\nkind =', "2:7", ""),
                ('[child.web]\nshutdown = ' + 5000 * "9", "2:5012", "limit"), ('[child.web', "1:11", ""), ('{"web": {}}', "1:1", "a child is [child.web]")):
            with self.subTest(text=text[:40]):
                told, = self.mistakes(text)
                self.assertEqual(told.split(" ")[0], f"f.toml:{place}:")
                self.assertIn(hint, told)
        self.assertEqual(self.mistakes("a = " + 100000 * "["), ["f.toml: brackets in brackets, too deep"])

    def test_all_mistakes_are_told_in_the_order_of_their_lines(self):
        text = '[child.b]\narg = 1\n[child.a]\nkind = "x"\nnames = ["n"]\n[child.c]\nkind = "x"\nshutdown = 1.5\n[child.d]\nkind = "x"\nnames = [\n  "m",\n  "n",\n]\n[d]\n'
        self.assertEqual([line.split(" ")[0] for line in self.mistakes(text)], ["f.toml:1:1:", "f.toml:2:1:", "f.toml:8:1:", "f.toml:11:1:", "f.toml:15:1:"])

    def test_a_file_that_cannot_be_read_is_told(self):
        with tempfile.TemporaryDirectory() as folder:
            path = os.path.join(folder, "children.toml")
            for content, told in ((None, f"{path}: No such file or directory"), (b'[child.web]\nkind = "\xff"', f"{path}:2: no text in UTF-8")):
                if content is not None:
                    with open(path, "wb") as file:
                        file.write(content)
                with self.assertRaises(child_file.Mistakes) as mistakes:
                    child_file.read(path)
                self.assertEqual(mistakes.exception.lines, [told])
            self.assertRaises(child_file.Mistakes, child_file.read, folder)

    def test_a_python_without_tomllib_is_told(self):
        with unittest.mock.patch.object(child_file, "tomllib", None), self.assertRaises(child_file.Mistakes) as told:
            child_file.read("f.toml")
        self.assertIn("Python 3.11 or later", told.exception.lines[0])


class Places(unittest.TestCase):
    def test_each_key_has_the_line_on_which_its_statement_begins(self):
        places = toml_places.Places('a = 1\r\n\n# b = 2\n  b.c = """\n[x]\n"""\n[t]\n  a = [\n 1,\n]\n[t.u]\na = "[t]"\n[[v]]\nw = 1\n')
        for path, place in ((("a",), (1, 1)), (("b", "c"), (4, 3)), (("t",), (7, 1)), (("t", "a"), (8, 3)), (("t", "u", "a"), (12, 1)), (("v", "w"), (14, 1)), (("t", "nix"), (7, 1)), (("x",), (1, 1))):
            self.assertEqual(places.of(path), place, path)


class Writing(unittest.TestCase):
    def test_what_is_written_is_read_as_it_was_with_all_bytes_that_are_allowed(self):
        chance = random.Random(1)
        for _ in range(60):
            before = wanted.Tables([child(chance) for _ in range(chance.randint(0, 5))])
            before.names = {word(chance): chance.choice(list(before.children)) for _ in range(3) if before.children}
            after = read(child_file.text_of(before))
            self.assertEqual((after.children, after.names), (before.children, before.names))
        whole = "".join(CHARACTERS)
        for ident in (*CHARACTERS, whole, whole[::-1], 128 * "\\", 128 * '"', "a.b", "[x]", "'''", '"""', "#", "child"):
            before = wanted.Tables([wanted.Child(ident, ident, ident)], {ident: ident})
            self.assertEqual(read(child_file.text_of(before)).children, before.children)

    def test_what_is_as_without_a_word_is_left_out(self):
        self.assertEqual(child_file.text_of(wanted.Tables([wanted.Child("web", "http")])), '[child.web]\nkind = "http"\n')


class Steps(unittest.TestCase):
    def setUp(self):
        self.fake = Fake()
        self.agent = self.fake.asked(self)

    def have(self, aims, prunes=True):
        """Says the steps to some tables. Their lines."""
        said = []
        apply.do(apply.steps_to(aims, self.agent.tables(), prunes), self.agent, lambda step: said.append(step.line))
        return said

    def test_from_any_tables_to_any_others_and_then_nothing_more(self):
        chance = random.Random(2)
        idents = [word(chance) for _ in range(6)]
        for turn in range(200):
            before, aims, prunes = self.agent.tables(), tables(chance, idents), chance.random() < 0.5
            self.have(aims, prunes)
            after = self.agent.tables()
            with self.subTest(turn=turn):
                kept = {} if prunes else {ident: one for ident, one in before.children.items() if ident not in aims.children}
                self.assertEqual(after.children, {**kept, **aims.children})
                self.assertEqual(after.names, {**({} if prunes else before.names), **aims.names})
                self.assertEqual(self.have(aims, prunes), [])
                self.assertEqual(self.have(after), [])

    def test_a_name_moves_from_a_child_that_stays_and_from_one_that_goes(self):
        web, api = wanted.Child("web", "x"), wanted.Child("api", "x")
        self.have(wanted.Tables([web], {"www": "web"}))
        self.assertEqual(self.have(wanted.Tables([web, api], {"www": "api"})), ["unregister www", api.line("start"), "register www api"])
        self.assertEqual(self.have(wanted.Tables([web], {"www": "web"})), ["delete api", "register www web"])
        self.assertEqual(self.have(wanted.Tables([web])), ["unregister www"])

    def test_what_the_file_does_not_name_is_left_alone_without_prune(self):
        web, api = wanted.Child("web", "x"), wanted.Child("api", "x")
        self.have(wanted.Tables([web, api], {"www": "web", "n": "api"}))
        self.assertEqual(self.have(wanted.Tables([api], {"n": "api"}), prunes=False), [])
        self.assertEqual(self.have(wanted.Tables([api]), prunes=False), [])
        self.assertEqual(self.have(wanted.Tables([api])), ["delete web", "unregister n"])

    def test_children_start_in_the_order_of_the_file(self):
        text = "".join(f'[child.{ident}]\nkind = "x"\nnames = ["n{ident}"]\n' for ident in ("b", "a", "c"))
        self.assertEqual([line.split(" ")[1] for line in self.have(read(text))], ["b", "a", "c", "nb", "na", "nc"])

    def test_each_key_alone_that_differs_is_a_replace(self):
        web = wanted.Child("web", "x")
        self.have(wanted.Tables([web]))
        for key, value in (("kind", "y"), ("arg", "1"), ("restart", "transient"), ("shutdown", "infinity")):
            web = dataclasses.replace(web, **{key: value})
            self.assertEqual(self.have(wanted.Tables([web])), [web.line("replace")])

    def test_a_name_of_a_child_that_another_machine_deleted_is_taken_back_by_prune_or_by_its_file(self):
        other = Fake("b")
        other.node.state.join(self.fake.node.state)
        other.take("start web kind=x")
        self.fake.node.state.join(other.node.state)
        self.fake.take("register www web")
        other.take("delete web")
        self.fake.node.state.join(other.node.state)
        self.assertEqual(self.agent.tables().names, {"www": "web"})
        self.assertEqual(self.have(wanted.Tables(), prunes=False), [])
        web = wanted.Child("web", "x")
        self.assertEqual(self.have(wanted.Tables([web], {"www": "web"})), [web.line("start")])
        self.assertEqual([step.line for step in apply.steps_to(wanted.Tables(), wanted.Tables((), {"www": "web"}), True)], ["unregister www"])

    def test_of_entries_that_two_machines_made_the_winner_counts(self):
        other = Fake("b")
        for one, kind in ((other, "second"), (self.fake, "first")):
            one.take("start web kind=" + kind)
        self.fake.node.state.join(other.node.state)
        self.assertTrue(any(line.startswith("loser child web") for line in self.fake.take("show")))
        self.assertEqual(self.agent.tables().children["web"].kind, "first")
        self.assertEqual(self.have(wanted.Tables([wanted.Child("web", "first")])), [])
        self.have(wanted.Tables([wanted.Child("web", "second")]))
        self.assertEqual([line for line in self.fake.take("show") if line.startswith("loser child")], [])

    def test_a_step_that_gets_no_answer_or_a_refusal_ends_it_and_the_rest_is_told(self):
        idents = ["a", "b", "c"]
        aims = wanted.Tables([wanted.Child(ident, "x") for ident in idents], {"n": "a"})
        for ends_at, instead, is_unsure in ((2, {}, True), (None, {aims.children["c"].line("start"): ["refused 15 TableFull"]}, False),
                                            (None, {aims.children["c"].line("start"): ["no node"]}, True), (None, {aims.children["c"].line("start"): ["refused 16 KeepFailed"]}, True)):
            self.fake.said.clear()
            self.fake.ends_at, self.fake.instead = ends_at, instead
            with self.assertRaises(apply.Halted) as told:
                self.have(aims)
            halt = told.exception
            self.assertEqual([step.plan().split(":")[0] for step in halt.done], ["start a", "start b"])
            self.assertEqual((halt.step.about.split(":")[0], halt.is_unsure, [step.line for step in halt.left]), ("c", is_unsure, ["register n a"]))
            self.fake.ends_at, self.fake.instead = None, {}
            self.assertEqual(self.have(aims), [aims.children["c"].line("start"), "register n a"])
            self.have(wanted.Tables())

    def test_of_several_nodes_each_shows_its_children_or_nothing_is_done(self):
        lines = ["group 0/2", "node a boot 1", "child x (a,1) k permanent 5000 arg= on a", "group 1/2", "node a boot 1", "child y (a,1) k transient infinity arg=z unplaced", "name n (a,2) y unplaced"]
        shown = wanted.tables_shown(lines)
        self.assertEqual((shown.children, shown.names), ({"x": wanted.Child("x", "k"), "y": wanted.Child("y", "k", "z", "transient", "infinity")}, {"n": "y"}))
        for answer in ("no node", "refused 1 Down", "not yet: begins"):
            self.assertRaises(wanted.NotShown, wanted.tables_shown, [*lines[:3], "group 1/2", answer])


class Page(unittest.TestCase):
    def test_the_file_of_the_page_is_one(self):
        with open(os.path.join(os.path.dirname(os.path.dirname(os.path.abspath(__file__))), "README.md")) as file:
            blocks = re.findall(r"(?:^    .*\n|^\n)+", file.read(), re.MULTILINE)
        text = next(block for block in blocks if "[child." in block)
        self.assertGreater(len(read(re.sub("^    ", "", text, flags=re.MULTILINE)).children), 1)


if __name__ == "__main__":
    unittest.main()
