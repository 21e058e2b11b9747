#!/usr/bin/env python3
"""Tests of history.py and judge.py, over nodes by rules.py. Usage: test_histories.py [-v]"""
import fcntl
import os
import pathlib
import subprocess
import sys
import tempfile
import unittest

import judge
import rules
import supd_lines

HERE = pathlib.Path(__file__).parent
BY_RULES = [sys.executable, str(HERE.parent / "agent/tests/by_rules.py")]
BEGIN = "begin {} sha256 1 5 64 {}"


class Written:
    """The history of a node by the rules, as it is written down."""

    def __init__(self, name):
        self.node, self.text = rules.Node(name, rules.Setting("sha256", 1, 5, 64)), ""

    def put(self, mark, lines):
        self.text += "".join(f"{mark}{line}\n" for line in lines)
        return self

    def begin(self, count=None):
        self.text += "\n" + BEGIN.format(self.node.name, self.node.count if count is None else count) + "\n"
        return self

    def boot(self, told=None):
        """The first boot, or one more."""
        self.begin()
        if self.text.count("\n>ok boot ") == 0:
            return self.put(">", ["ok boot 1", ""])
        self.node.act("stop", [], 0, True)
        lines = self.node.act("restart", [], 0, True)[0]
        return self.put(">", [*(supd_lines.order(self.node, line) for line in lines), ""])

    def do(self, line):
        """The answer, which is told."""
        told = supd_lines.answer(self.node, line)
        self.put("<", [line]).put(">", [*told, ""])
        return told

    def letter(self, line):
        return supd_lines.letter_in(self.do(line))


def verdict(*texts):
    lines, status = judge.verdict([f"file{place}" for place in range(len(texts))], texts, False)
    return lines[0], status


class OneNode(unittest.TestCase):
    def setUp(self):
        self.a = Written("a").boot()
        self.a.do("join")

    def test_an_act_without_its_answer_was_done_where_the_next_begins_count_is_one_higher(self):
        self.a.do("start web")
        self.a.put("<", ["delete web"])
        for count, wanted in [(2, ("certified 4", 0)), (3, ("certified 5", 0))]:
            orders = [] if count == 3 else [">  start web 2.1 worker permanent 5000 arg="]
            text = self.a.text + "\n" + "\n".join([BEGIN.format("a", count), ">ok boot 2", *orders, ">"]) + "\n"
            self.assertEqual(verdict(text), wanted)
        text = self.a.text + "\n" + BEGIN.format("a", 4) + "\n>ok boot 2\n>\n"
        self.assertEqual(verdict(text), ("bad history file0 14: the image's count is 4; the acts before it make 2 or 3", 1))

    def test_a_save_that_was_told_16_before_an_end_was_done_or_not(self):
        self.a.put("<", ["start web"]).put(">", ["refused 16 KeepFailed", ""])
        for count, boot in [(1, [">ok boot 2"]), (2, [">ok boot 2", ">  start web 2.1 worker permanent 5000 arg="])]:
            text = self.a.text + "\n" + "\n".join([BEGIN.format("a", count), *boot, ">"]) + "\n"
            self.assertEqual(verdict(text)[1], 0, text)
        self.assertEqual(verdict(self.a.text + "\n" + BEGIN.format("a", 3) + "\n")[1], 1)

    def test_a_save_that_was_told_16_at_a_node_that_went_on_was_not_done(self):
        self.a.put("<", ["start web"]).put(">", ["refused 16 KeepFailed", ""])
        self.a.do("start web")
        self.assertEqual(verdict(self.a.boot().text), ("certified 5", 0))

    def test_want_of_memory_and_bad_lines_did_nothing(self):
        self.a.put("<", ["start web"]).put(">", ["refused 19 OutOfMemory", ""]).put("<", ["nonsense"]).put(">", ["bad line", ""])
        self.assertEqual(verdict(self.a.boot().text), ("certified 3", 0))

    def test_of_begins_without_an_answer_the_next_boots_number_tells_how_many_were_done(self):
        for begins, boot, status in [(0, 2, 0), (1, 2, 0), (1, 3, 0), (2, 3, 0), (0, 3, 1), (1, 4, 1), (0, 1, 1)]:
            text = self.a.text + ("\n" + BEGIN.format("a", 1) + "\n") * begins + f"\n{BEGIN.format('a', 1)}\n>ok boot {boot}\n>\n"
            self.assertEqual(verdict(text)[1], status, (begins, boot))

    def test_an_answer_that_the_rules_dont_give_is_told_with_theirs(self):
        text = self.a.text.replace("ok (a,1)", "ok (a,2)")
        lines, status = judge.verdict(["a.history"], [text], False)
        self.assertEqual((lines, status), (["not certified differs a 5", "by the rules:", "  ok (a,1)", "by the history:", "  ok (a,2)"], 4))

    def test_a_line_of_no_form_that_was_done_differs(self):
        for line in ("nonsense", "start", "start a b", "stop", "restart", "exit web", "ship B", "deliver", "join \xff"):
            self.assertEqual(verdict(self.a.text + f"<{line}\n>ok (a,2)\n>\n"), ("not certified differs a 8", 4), line)

    def test_an_image_of_another_time_is_told_by_its_count(self):
        self.a.do("start web")
        for count in (0, 1, 3):
            self.assertEqual(verdict(self.a.text + "\n" + BEGIN.format("a", count) + "\n")[1], 1, count)

    def test_other_settings_are_no_history_of_this_node(self):
        self.assertEqual(verdict(self.a.text + "\nbegin a flat 1 5 64 1\n")[1], 1)
        self.assertEqual(verdict(self.a.text + "\nbegin b sha256 1 5 64 1\n")[1], 1)

    def test_a_history_cut_at_any_byte_is_certified_or_empty(self):
        self.a.do("start web arg=x")
        self.a.boot()
        text = self.a.text
        for count in range(len(text)):
            line, status = verdict(text[:count])
            self.assertEqual(status, 0 if count >= text.index("0\n>ok boot 1") + 2 else 1, (count, line))

    def test_the_first_line_that_stands_nowhere_is_told(self):
        for text, number in [("", 0), ("\n\n", 0), ("begin a", 0), ("<join\n", 1), ("\nbegin a\n", 2), ("\nbegin a sha256 1 5 64 00\n", 2),
                             ("\nbegin a sha256 1 5 64 0\n<join\n", 3), ("\nbegin a sha256 1 5 64 0\n>ok boot 1\n>\n>\n", 5),
                             ("\nbegin a sha256 1 5 64 0\n>ok boot 1\n>\n<join\n\xff\n", 6), ("\nbegin a sha256 1 5 64 0\n>\n", 3),
                             ("\nbegin a sha256 1 5 64 0\n>ok boot 1\n>\n<join\n>\n", 5)]:
            line, status = verdict(text)
            self.assertEqual((status, line.split(":")[0]), (1, f"bad history file0 {number}"), text)


class SomeNodes(unittest.TestCase):
    def setUp(self):
        self.a, self.b = Written("a").boot(), Written("b").boot()

    def test_a_letter_comes_behind_the_act_that_sent_it(self):
        self.a.do("join")
        letter = self.a.letter("ship b")
        self.assertEqual(self.b.do(f"deliver {letter}")[0], "ok absorbed")
        self.assertEqual(verdict(self.b.text, self.a.text), ("certified 3", 0))

    def test_a_letter_that_nobody_sent_is_unsent(self):
        self.a.do("join")
        letter = self.a.letter("ship b")
        self.b.do("deliver " + letter.replace('"label":""', '"label":"x"'))
        self.assertEqual(verdict(self.a.text, self.b.text), ("not certified unsent b 5", 4))
        self.assertEqual(verdict(self.b.text), ("not certified unsent b 5", 4))

    def test_bytes_that_are_no_message_may_come_from_anywhere(self):
        self.b.do("deliver {}")
        self.assertEqual(verdict(self.b.text), ("certified 1", 0))

    def test_letters_that_each_come_before_they_are_sent_are_stuck(self):
        self.a.do("join")
        self.b.do("join")
        later = {}
        for one, other in (self.a, "b"), (self.b, "a"):
            ahead = Written(one.node.name).boot()
            ahead.do("join")
            ahead.do("start web" if other == "b" else "start job")
            later[one.node.name] = ahead.letter(f"ship {other}")
        self.a.do(f"deliver {later['b']}")
        self.b.do(f"deliver {later['a']}")
        self.assertEqual(verdict(self.a.text, self.b.text), ("not certified unsent a 8", 4))
        self.a.text += f"<ship b\n>ok sent\n>  send b {later['a']}\n>\n"
        self.assertEqual(verdict(self.a.text, self.b.text)[0], "not certified differs a 13")

    def test_two_acknowledgements_of_one_another_are_stuck(self):
        one, other = Written("a").boot(), Written("b").boot()
        one.do("join")
        letter = one.letter("push b")
        # b sends its ship before it knows of a, and a's push comes before a sends it
        other.do("join")
        back = other.letter("push a")
        for node, first, last in (self.a, back, "push b"), (self.b, letter, "push a"):
            node.do(f"deliver {first}")
            node.do("join")
            self.assertIn(node.letter(last), (letter, back))
        self.assertEqual(verdict(self.a.text, self.b.text), ("not certified stuck a 5 b 5", 4))

    def test_a_target_needs_no_history(self):
        self.a.do("join")
        self.a.do("ship c")
        self.assertEqual(verdict(self.a.text), ("certified 2", 0))

    def test_files_that_are_not_of_one_cluster_are_told(self):
        self.assertEqual(verdict(self.a.text, self.a.text)[1], 1)
        self.assertEqual(verdict(self.a.text, self.b.text.replace("sha256", "flat"))[1], 1)
        many = [Written(f"n{number}").boot().text for number in range(17)]
        self.assertEqual(verdict(*many[:16]), ("certified 0", 0))
        self.assertEqual(verdict(*many)[1], 1)


class Files(unittest.TestCase):
    def setUp(self):
        self.folder = tempfile.TemporaryDirectory()
        self.addCleanup(self.folder.cleanup)
        self.history, self.image = (str(pathlib.Path(self.folder.name) / name) for name in ("a.history", "a.image"))

    def run_writer(self, given, *flags, node=None, options=(), before="pass"):
        words = [self.history, *flags, "--", *(node or BY_RULES), "a", "--image", self.image, *options]
        program = f"import sys; sys.path.insert(0, {str(HERE)!r}); import history; {before}; sys.argv[1:] = {words!r}; history.main()"
        return subprocess.run([sys.executable, "-c", program], input=given, capture_output=True, timeout=60)

    def written(self):
        return pathlib.Path(self.history).read_text(encoding="latin-1")

    def fake(self, program):
        """A node that says its boot, and then does this with each line."""
        return [sys.executable, "-c", f"import sys, os\nprint('ok boot 1\\n', flush=True)\nfor line in sys.stdin:\n  {program}"]

    def test_what_a_node_hears_and_tells_is_written_and_handed_on(self):
        run = self.run_writer(b"join\nshow\nnonsense\nwhere x\nexit web 1.1 crash\nfront")
        self.assertEqual((run.returncode, run.stderr), (0, b""))
        self.assertEqual(run.stdout, b"ok boot 1\n\nok (a,1)\n\nnode a boot 1\nmember a (a,1) label=\n\nbad line\n\nx unknown\n\n"
                                     b"refused 14 StaleExit\n\n")
        self.assertEqual(self.written(), "\nbegin a sha256 1 5 64 0\n>ok boot 1\n>\n<join\n>ok (a,1)\n>\n<nonsense\n>bad line\n>\n"
                                         "<exit web 1.1 crash\n>refused 14 StaleExit\n>\n")

    def test_a_later_begin_has_the_images_count_and_the_same_file(self):
        self.run_writer(b"join\nstart web\n", options=["--buffer", "8"])
        self.run_writer(b"", "--sync", options=["--buffer", "8"])
        self.assertIn("\n\nbegin a sha256 1 5 8 2\n>ok boot 2\n>  start web 2.1 worker permanent 5000 arg=\n>\n", self.written())
        self.assertEqual(verdict(self.written()), ("certified 4", 0))

    def test_a_node_that_ends_in_an_act_leaves_its_line_without_an_answer(self):
        run = self.run_writer(b"join\njoin\n", node=self.fake("os._exit(7)"))
        self.assertEqual((run.returncode, run.stdout), (7, b"ok boot 1\n\n"))
        self.assertTrue(self.written().endswith(">\n<join\n"), self.written())

    def test_a_half_answer_is_neither_written_nor_told(self):
        run = self.run_writer(b"join\n", node=self.fake("print('ok (a,1)', flush=True); os._exit(7)"))
        self.assertEqual(run.stdout, b"ok boot 1\n\n")
        self.assertTrue(self.written().endswith(">\n<join\n"), self.written())

    def test_behind_a_16_that_ends_the_node_nothing_is_written(self):
        node = self.fake("line == 'members\\n' and os._exit(3); print('refused 16 KeepFailed\\n', flush=True)")
        run = self.run_writer(b"join\nstart web\n", node=node)
        self.assertEqual((run.returncode, run.stdout), (3, b"ok boot 1\n\nrefused 16 KeepFailed\n\n"))
        self.assertTrue(self.written().endswith("<join\n>refused 16 KeepFailed\n>\n"), self.written())

    def test_a_host_that_is_gone_ends_the_node(self):
        words = [sys.executable, str(HERE / "history.py"), self.history, "--", *BY_RULES, "a", "--image", self.image]
        writer = subprocess.Popen(words, stdin=subprocess.PIPE, stdout=subprocess.PIPE, stderr=subprocess.PIPE)
        self.assertEqual(writer.stdout.read(11), b"ok boot 1\n\n")
        writer.stdout.close()
        with writer.stdin, writer.stderr:
            writer.stdin.write(b"join\nstart web\n")
            writer.stdin.flush()
            told = writer.stderr.read()
        self.assertEqual((writer.wait(60), told), (3, b"history.py: the host can't be heard or told any more\n"))
        self.assertTrue(self.written().endswith("<join\n>ok (a,1)\n>\n"), self.written())

    def test_a_history_is_written_by_one_at_a_time(self):
        with open(self.history, "w") as file:
            fcntl.flock(file, fcntl.LOCK_EX)
            run = self.run_writer(b"join\n", before="history.SECONDS_FOR_LOCK = 0.1")
        self.assertEqual((run.returncode, run.stdout, run.stderr), (3, b"", b"history.py: history in use\n"))
        self.assertFalse(os.path.exists(self.image))

    def test_a_history_that_cant_be_written_begins_no_node(self):
        self.history = "/dev/full"
        run = self.run_writer(b"join\n")
        self.assertEqual((run.returncode, run.stdout), (3, b""))
        self.assertIn(b"can't be written", run.stderr)
        self.assertFalse(os.path.exists(self.image))

    def test_an_image_that_cant_be_read_begins_no_node(self):
        pathlib.Path(self.image).write_text("{")
        run = self.run_writer(b"")
        self.assertEqual((run.returncode, self.written()), (3, ""))

    def test_words_that_supd_would_not_take_are_not_written(self):
        for options in (["--buffer", "9999"], ["--buffer"], ["--weigh", "heavy"], ["--period", "0"], ["--image", "x"], ["--other", "1"], ["--buffer=8"]):
            run = self.run_writer(b"", options=options)
            self.assertEqual((run.returncode, run.stdout), (2, b""), options)
            self.assertTrue(run.stderr.startswith(b"usage: history.py "), run.stderr)
        self.assertFalse(os.path.exists(self.history))

    def test_the_judge_tells_a_file_that_isnt_there(self):
        run = subprocess.run([sys.executable, str(HERE / "judge.py"), self.history], capture_output=True, text=True)
        self.assertEqual((run.returncode, run.stdout, run.stderr), (3, "", f"{self.history}: No such file or directory\n"))


if __name__ == "__main__":
    unittest.main()
