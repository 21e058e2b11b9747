"""The file of kinds."""
import json
import os
import re
import sys
import tempfile
import unittest

sys.path.insert(0, os.path.dirname(os.path.dirname(os.path.abspath(__file__))))

import kind_keys
import kinds

# Of each key a value that it can't have, and one that it can.
WRONG = [(("command",), "x"), (("command",), [""]), (("command",), ["x", 1]), (("command",), ["a\0b"]), (("command",), ["\ud800"]), (("split",), ""), (("split",), ", "),
         (("environment",), {"A": 1}), (("environment",), {"A=B": "x"}), (("environment",), {"SEBRAKT_ID": "x"}), (("environment",), []), (("folder",), "var"), (("folder",), 1),
         (("user",), ""), (("user",), 33), (("user",), "a b"), (("group",), None), (("stop",), "INT"), (("stop",), []), (("stop",), 2), (("limits",), []),
         (("limits", "memory"), "5X"), (("limits", "memory"), -1), (("limits", "memory"), True), (("limits", "processes"), 0), (("limits", "processes"), 1.5),
         (("limits", "processor"), 0), (("limits", "files"), "1024"), (("max-runtime",), 0), (("max-runtime",), "1h"), (("delay",), -1), (("overlap",), 1), (("log",), "file"), (("log", "to"), "syslog"),
         (("log", "size"), "big"), (("log", "keep"), -1), (("log", "keep"), 1.0), (("health",), "tcp"), (("health", "command"), []), (("health", "command"), "true"),
         (("health", "tcp"), "web.example:80"), (("health", "tcp"), "127.0.0.1"), (("health", "tcp"), 80), (("health", "http"), "https://127.0.0.1:80/"),
         (("health", "http"), "http://127.0.0.1/"), (("health", "http"), "http://127.0.0.1:80/a b"), (("health", "period"), 0), (("health", "timeout"), None), (("health", "start"), -1),
         (("health", "failures"), 0), (("ready",), True), (("ready", "command"), [1]), (("ready", "tcp"), ""), (("ready", "http"), ""), (("ready", "period"), []), (("ready", "timeout"), 0)]
RIGHT = [(("command",), []), (("split",), ","), (("environment",), {"A_1": "\u00e4 {arg}"}), (("folder",), "/var/{id}"), (("user",), "www-data"), (("group",), "33"), (("stop",), "SIGINT"),
         (("stop",), ["kill", "{id}"]), (("limits", "memory"), "512M"), (("limits", "memory"), 4096), (("limits", "processes"), 10), (("limits", "processor"), 0.5),
         (("limits", "files"), 1024), (("max-runtime",), 0.5), (("delay",), 0), (("overlap",), True), (("log", "to"), "none"), (("log", "size"), "1M"), (("log", "keep"), 0), (("health", "command"), ["true"]),
         (("health", "tcp"), "[::1]:{arg}"), (("health", "tcp"), "localhost:80"), (("health", "http"), "http://127.0.0.1:{arg}/health?x=1"), (("health", "period"), 0.1),
         (("health", "timeout"), 5), (("health", "start"), 60), (("health", "failures"), 1), (("ready", "command"), ["true"]), (("ready", "tcp"), "127.0.0.1:1"),
         (("ready", "http"), "http://[::1]:80"), (("ready", "period"), 1), (("ready", "timeout"), 1)]


class Kinds(unittest.TestCase):
    def setUp(self):
        self.file = tempfile.NamedTemporaryFile("w")
        self.addCleanup(self.file.close)
        self.moment, self.said = 0, []

    def put(self, text):
        self.moment += 1
        with open(self.file.name, "w") as out:
            out.write(text)
        os.utime(self.file.name, (self.moment, self.moment))

    def kinds(self, text):
        self.put(text)
        return kinds.Kinds(self.file.name, lambda *words: self.said.append(" ".join(map(str, words))))

    def test_words_stand_for_the_childs_own_and_nothing_in_these_does(self):
        of_kinds = self.kinds('{"sleep": ["sleep", "{arg}", "{id}-{arg}"]}')
        self.assertEqual(of_kinds.of("web", "sleep", "5").command, ["sleep", "5", "web-5"])
        self.assertEqual(of_kinds.of("{arg}", "sleep", "{id}\\1").command, ["sleep", "{id}\\1", "{arg}-{id}\\1"])

    def test_a_file_that_changes_counts_once_it_is_good(self):
        of_kinds = self.kinds('{"sleep": ["sleep", "{arg}"]}')
        for broken in ("{", '{"sleep": "sleep"}', "[]", "[" * 100_000):
            self.put(broken)
            self.assertEqual(of_kinds.of("web", "sleep", "5").command, ["sleep", "5"])
        self.put('{"other": ["x"]}')
        self.assertEqual(of_kinds.of("web", "other", "").command, ["x"])
        self.assertRaises(OSError, of_kinds.of, "web", "sleep", "5")

    def test_a_file_that_breaks_is_told_once_with_its_name_line_and_column(self):
        of_kinds = self.kinds('{"sleep": ["sleep"]}')
        self.put('{"sleep": ["sleep"],\n "http": ["httpd",]}')
        for _ in range(3):
            of_kinds.of("web", "sleep", "")
        self.assertEqual(len(self.said), 1)
        self.assertIn(f"{self.file.name}: line 2, column", self.said[0])

    def test_a_file_that_breaks_is_told_though_nothing_begins_and_until_it_is_mended(self):
        of_kinds, now = self.kinds('{"sleep": ["sleep"]}'), 100
        for text, told in (('{"sleep": ["sl', "line 1, column 12"), ('{"sleep": 5, "\\ud800": 5}', "kind \\ud800"), ('{"sleep": ["sleep"]}', "")):
            self.put(text)
            now += kinds.LOOK_EACH
            of_kinds.tick(now)
            self.assertEqual(of_kinds.state()[:31], "what was read before goes on, s"[:31 * bool(told)])
            self.assertIn(told, of_kinds.state())
        self.assertEqual(len(self.said), 3)

    def test_a_file_that_changes_twice_in_a_moment_is_read_twice(self):
        of_kinds = self.kinds('{"sleep": ["sleep"]}')
        for text, moment in (('{"sleep": ["sl', 7), ('{"sleep": ["slower"]}', 7)):
            with open(self.file.name, "w") as out:
                out.write(text)
            os.utime(self.file.name, (moment, moment))
            of_kinds.look_again()
        self.assertEqual((of_kinds.state(), of_kinds.of("web", "sleep", "").command), ("", ["slower"]))

    def test_a_file_that_is_broken_at_the_begin_is_refused_with_its_name_and_place(self):
        for broken, place in (("{", "line 1, column 2"), ('{"x": ["y"],\n}', "line 2, column 1"), ("[]", "not of the form"), ('{"x": {}}', "kind x"),
                              ('{"x": [1]}', "kind x"), ("[" * 100_000, "brackets")):
            with self.assertRaises(ValueError) as fault:
                self.kinds(broken)
            self.assertIn(self.file.name, str(fault.exception))
            self.assertIn(place, str(fault.exception))

    def faults(self, text):
        """What is said of a file that is none: a list of (place, words)."""
        with self.assertRaises(ValueError) as fault:
            self.kinds(text)
        self.assertTrue(str(fault.exception).startswith(self.file.name + ": line "), fault.exception)
        return re.findall(r"(line \d+, column \d+): (.*?)(?:; (?=line \d)|$)", str(fault.exception))

    def test_a_mistake_at_each_key_is_told_with_its_place(self):
        for path, bad in WRONG:
            value = bad
            for key in reversed(path):
                value = {key: value}
            beside = {"command": ["x"]} if path[0] != "command" else {}
            if path[0] in ("health", "ready") and path[1:] and path[1] not in kind_keys.WAYS:
                value[path[0]]["command"] = ["true"]
            text = json.dumps({"good": ["x"], "bad": {**beside, **value}}, indent=1)
            line = max(number for number, one in enumerate(text.split("\n"), 1) if f'"{path[-1]}":' in one)
            told = self.faults(text)
            self.assertEqual([place.split(",")[0] for place, _ in told], [f"line {line}"], (path, bad, told))
            self.assertIn(f"kind bad {' '.join(path)}: ", told[0][1])

    def test_each_key_is_among_those_that_are_tried(self):
        keys = set()
        for key, of in kind_keys.KEYS.items():
            keys |= {(key, further) for further in of} | {(key,)} if isinstance(of, dict) else {(key,)}
        self.assertEqual({path for path, _ in WRONG}, keys)
        self.assertEqual({path for path, _ in RIGHT}, keys - {("log",), ("limits",), ("health",), ("ready",)})

    def test_each_key_takes_what_it_is_for(self):
        for path, good in RIGHT:
            value = good
            for key in reversed(path):
                value = {key: value}
            if path[0] in ("health", "ready") and path[1] not in kind_keys.WAYS:
                value[path[0]]["command"] = ["true"]
            if path == ("overlap",):
                value["ready"] = {"command": ["true"]}
            self.kinds(json.dumps({"k": {"command": ["x"], **value}})).of("web", "k", "8080")

    def test_all_keys_stand_in_the_page(self):
        with open(os.path.join(os.path.dirname(os.path.dirname(os.path.abspath(__file__))), "REFERENCE.md")) as file:
            rows = re.findall(r"^\| (`.*?) \|", file.read().split("## Kinds")[1].split("\n## ")[0], re.MULTILINE)
        told = {name for row in rows for name in re.findall("`([a-z.-]+)`", row)}
        keys = {".".join(path) for path, _ in RIGHT}
        self.assertEqual(told, keys)

    def test_all_mistakes_of_a_file_are_told_at_once(self):
        last = ' "a": ["y"], "d": {"command": ["x"], "health": {"period": 1}}}'
        told = self.faults('{"a": {"comand": ["x"]},\n "b": 5,\n "c": ["x", 1],\n' + last)
        places = ["line 2, column 2", "line 3, column 2", f"line 4, column {last.index('health')}", "line 4, column 2"]
        self.assertEqual([(place, words.split(":")[0]) for place, words in told], list(zip(places, ["kind b", "kind c", "kind d health", "kind a"])))

    def test_a_key_that_is_nearly_one_is_told(self):
        self.assertIn("is max-runtime meant?", self.faults('{"a": {"command": ["x"], "max_runtime": 5}}')[0][1])
        self.assertIn("its command is missing", self.faults('{"a": {}}')[0][1])
        self.assertIn("one of command, tcp, http is wanted", self.faults('{"a": {"command": ["x"], "health": {"tcp": "127.0.0.1:1", "command": ["x"]}}}')[0][1])
        self.assertIn("it wants ready", self.faults('{"a": {"command": ["x"], "overlap": true}}')[0][1])
        self.assertIn("it is said twice", self.faults('{"a": {"command": ["x"], "folder": "/", "folder": "/tmp"}}')[0][1])

    def test_a_kind_that_no_child_can_name_is_a_mistake(self):
        for name, told in (("", "a kind has at least one character"), ("my web", "a kind has no spaces"), ("\u00e4", "visible ASCII"), ("\ud800", "visible ASCII"), (129 * "k", "at most 128")):
            self.assertIn(told, self.faults(json.dumps({"good": ["x"], name: ["x"]}))[0][1])

    def test_a_kind_that_is_said_twice_is_told_once(self):
        told = self.faults('{"a": {"command": ["x"], "limits": {"files": 1}},\n "a": {"command": ["x"], "limits": {"files": 2}}}')
        self.assertEqual(told, [("line 2, column 2", "kind a: it is said twice")])

    def test_a_mark_of_byte_order_before_a_file_is_none_of_it(self):
        self.assertEqual(self.kinds('\ufeff{"sleep": ["sleep"]}').of("web", "sleep", "").command, ["sleep"])

    def test_numbers_that_are_none_are_mistakes(self):
        for bad in ("NaN", "Infinity", "-1", "1e999", "true", '"5"'):
            self.assertIn("a number from", self.faults('{"a": {"command": ["x"], "delay": %s}}' % bad)[0][1])
        self.assertIn("a number from", self.faults('{"a": {"command": ["x"], "delay": %s}}' % ("9" * 5000))[0][1])

    def test_an_argument_that_is_split_is_several_words(self):
        of_kinds = self.kinds('{"web": {"command": ["httpd", "{args}", "-p{1}", "{2}{2}"], "split": ",", "environment": {"A": "{arg} {1}"}, "stop": ["kill", "{id}", "{2}"]}}')
        kind = of_kinds.of("x", "web", "80,/a b,{1}")
        self.assertEqual((kind.command, kind.environment, kind.stop), (["httpd", "80", "/a b", "{1}", "-p80", "/a b/a b"], {"A": "80,/a b,{1} 80"}, ["kill", "x", "/a b"]))
        with self.assertRaises(OSError) as fault:
            of_kinds.of("x", "web", "80")
        self.assertEqual(fault.exception.strerror, "its argument has 1 parts, and its kind wants 2")

    def test_braces_of_a_kind_that_splits_nothing_stay(self):
        self.assertEqual(self.kinds('{"awk": ["awk", "{1}{args}{print}"]}').of("x", "awk", "1").command, ["awk", "{1}{args}{print}"])

    def test_ids_and_arguments_with_every_character_come_through(self):
        every = "".join(map(chr, range(0x21, 0x7f)))
        kind = self.kinds('{"k": {"command": ["x", "{id}", "{arg}"], "folder": "/{id}", "environment": {"A": "{arg}"}}}').of(every, "k", every[::-1])
        self.assertEqual((kind.command, kind.folder, kind.environment), (["x", every, every[::-1]], "/" + every, {"A": every[::-1]}))

    def test_bytes_that_are_no_text_are_told_with_their_place(self):
        with open(self.file.name, "wb") as out:
            out.write(b'{"x": ["\xff"]}')
        with self.assertRaises(ValueError) as fault:
            kinds.Kinds(self.file.name, print)
        self.assertIn(f"{self.file.name}: byte 8 is no UTF-8", str(fault.exception))

    def test_a_file_that_can_not_be_read_at_the_begin_is_told_by_its_path(self):
        for path, why in ((self.file.name + "-no", "No such file or directory"), (os.path.dirname(self.file.name), "Is a directory")):
            with self.assertRaises(ValueError) as fault:
                kinds.Kinds(path, print)
            self.assertEqual(str(fault.exception), f"{path}: {why}")

    def test_a_kind_that_is_missing_is_told_by_its_name_and_the_files(self):
        with self.assertRaises(OSError) as fault:
            self.kinds("{}").of("web", "http", "8080")
        self.assertEqual(fault.exception.strerror, f"no kind http in {os.path.basename(self.file.name)}")

    def test_a_file_that_goes_away_changes_nothing(self):
        of_kinds = self.kinds('{"sleep": ["sleep"]}')
        os.rename(self.file.name, self.file.name + "-away")
        self.addCleanup(lambda: os.path.exists(self.file.name + "-away") and os.rename(self.file.name + "-away", self.file.name))
        for _ in range(3):
            self.assertEqual(of_kinds.of("web", "sleep", "").command, ["sleep"])
        self.assertEqual(len(self.said), 1)


if __name__ == "__main__":
    unittest.main()
