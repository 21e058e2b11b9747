#!/usr/bin/env python3
"""Tests what supctl, supd and supdraw say to their words: by the programs that the gate built, or else by those of ./quick.

usage: building/test_programs.py [-v] [TEST..]"""
import os
import pathlib
import shutil
import subprocess
import sys
import tempfile
import unittest

sys.path.insert(0, str(pathlib.Path(__file__).resolve().parent.parent))

from building import version
from building.crates import PROGRAMS, TOP, VERSION
from building.quick import quick_program

COMMANDS = ("simulate", "cluster", "place", "inspect")
HELP = ("--help", "-h")
# Where a worked row says `usage`, the text is the option parser's.
ROWS = TOP / "crates" / "sup_rows" / "data"
ASKING = {"help-is-no-command", "version-is-no-command", "help-of-simulate-is-no-command"}
SUPD_USAGE = b"usage: supd NAME --image FILE [--weigh sha256|flat] [--intensity N] [--period N] [--buffer N]\n"
SUPDRAW_USAGE = b"usage: supdraw < SCRIPT > FILE.svg\n"


def built(name):
    """The program of the gate, or that of ./quick."""
    program = TOP / "crates" / name / "out" / name
    return program if program.exists() else quick_program(name)


PROGRAM = {name: built(name) for name in PROGRAMS}


def ran(program, *words, given=b"", **how):
    """Status, output and errors of a run."""
    run = subprocess.run([program, *words], input=given, stdout=how.pop("stdout", subprocess.PIPE), stderr=subprocess.PIPE, timeout=60, **how)
    return run.returncode, run.stdout, run.stderr


class Help(unittest.TestCase):
    def test_each_program_tells_it_on_its_output(self):
        for name in PROGRAMS:
            for word in HELP:
                status, output, errors = ran(PROGRAM[name], word)
                self.assertEqual((status, errors), (0, b""), (name, word))
                self.assertIn(f"\nUsage: {name} ".encode(), output)
                self.assertIn(b"\n      --version  ", output)

    def test_each_command_tells_its_own_as_the_option_parser_has_it(self):
        for command in COMMANDS:
            parsers = ran(PROGRAM["supctl"], command, "--weigh", "flat", "--help")
            self.assertEqual(parsers[:2], (2, b""))
            for word in HELP:
                self.assertEqual(ran(PROGRAM["supctl"], command, word), (0, parsers[2], b""), (command, word))

    def test_the_commands_are_told_as_the_option_parser_tells_them(self):
        parsers = ran(PROGRAM["supctl"], "help")[2].partition(b"\nOptions:")[0].splitlines()
        told = ran(PROGRAM["supctl"], "--help")[1].partition(b"\nOptions:")[0].splitlines()
        self.assertEqual(told, [line for line in parsers if not line.startswith(b"  help ")])

    def test_the_options_of_a_node_are_those_of_a_script(self):
        scripts = ran(PROGRAM["supctl"], "simulate", "--help")[1].splitlines()
        nodes = ran(PROGRAM["supd"], "--help")[1].splitlines()
        self.assertEqual([line for line in scripts if line.startswith(b"      --")], [line for line in nodes if line.startswith(b"      --")][1:-1])

    def test_no_input_is_waited_for(self):
        for name in PROGRAMS:
            reader, writer = os.pipe()
            try:
                run = subprocess.run([PROGRAM[name], "--help"], stdin=reader, stdout=subprocess.PIPE, timeout=60)
                self.assertEqual(run.returncode, 0)
            finally:
                os.close(reader)
                os.close(writer)


class Outputs(unittest.TestCase):
    """An answer that can't be written ends as any output that can't."""

    def same(self, *words, **how):
        other = ran(PROGRAM["supctl"], "simulate", given=b"nodes a\nshow a\n", **how)
        self.assertEqual(ran(PROGRAM["supctl"], *words, **how), other)
        return other

    def test_a_full_one_is_a_device_that_fails(self):
        with open("/dev/full", "wb") as full:
            for words in ("--help",), ("simulate", "--help"), ("--version",):
                self.assertEqual(self.same(*words, stdout=full), (3, None, b"device\n"))
            for name in "supd", "supdraw":
                self.assertEqual(ran(PROGRAM[name], "--help", stdout=full), (3, None, b"device\n"))

    def test_a_closed_one_too(self):
        for words in ("--help",), ("simulate", "--help"), ("--version",):
            self.assertEqual(self.same(*words, preexec_fn=lambda: os.close(1)), (3, b"", b"device\n"))

    def test_a_reader_that_is_gone_ends_it_as_it_ends_a_run(self):
        reader, writer = os.pipe()
        os.close(reader)
        try:
            self.assertNotEqual(self.same("--help", stdout=writer)[0], 0)
        finally:
            os.close(writer)


class Version(unittest.TestCase):
    def setUp(self):
        self.room = pathlib.Path(tempfile.mkdtemp(prefix="version-test-"))
        self.addCleanup(shutil.rmtree, self.room)

    def copied(self, name):
        return pathlib.Path(shutil.copy(PROGRAM[name], self.room / name))

    def own(self, name):
        return f"{name} {VERSION.read_text().strip()}, not told whether proved: no {name}.version stands beside it\n".encode()

    def said(self, program):
        status, output, errors = ran(program, "--version")
        self.assertEqual((status, errors), (0, b""))
        return output

    def test_a_program_alone_tells_its_version_and_not_whether_it_is_proved(self):
        for name in PROGRAMS:
            self.assertEqual(self.said(self.copied(name)), self.own(name))

    def test_what_built_it_tells_it(self):
        for name in PROGRAMS:
            program = self.copied(name)
            for proof in "proved", "not proved":
                version.write(program, proof)
                line = self.said(program)
                self.assertEqual(line, version.beside(program).read_bytes())
                self.assertTrue(line.endswith(f", {proof}\n".encode()))

    def test_no_other_file_makes_it_say_that_it_is_proved(self):
        program = self.copied("supd")
        line = f"supd {VERSION.read_text().strip()}, a kit, proved\n"
        others = ["", line[:-1], f"{line}\n", line + line, line.replace("supd", "supctl"), line.replace("supd ", "supd 1"), "x" * 2_000_000]
        for other in others:
            version.beside(program).write_text(other)
            self.assertEqual(self.said(program), self.own("supd"), other[:60])
        version.beside(program).unlink()
        version.beside(program).mkdir()
        self.assertEqual(self.said(program), self.own("supd"))

    def test_it_is_found_beside_the_file_that_runs(self):
        program = self.copied("supctl")
        version.write(program, "not proved")
        (self.room / "elsewhere").mkdir()
        (self.room / "elsewhere" / "supctl").symlink_to(program)
        self.assertEqual(self.said(self.room / "elsewhere" / "supctl"), version.beside(program).read_bytes())
        run = subprocess.run(["supctl", "--version"], env={"PATH": str(self.room / "elsewhere")}, cwd="/", stdout=subprocess.PIPE)
        self.assertEqual(run.stdout, version.beside(program).read_bytes())


class Others(unittest.TestCase):
    """All other words are answered as ever."""

    def test_each_worked_row_but_three_comes_out_as_it_stands(self):
        for name in (ROWS / "cases").read_text().splitlines():
            words, given, status, output, errors = (self.part(name, part) for part in ("args", "stdin", "status", "stdout", "stderr"))
            came = ran(PROGRAM["supctl"], *words.split(b"\n")[:-1], given=given)
            if name in ASKING:
                self.assertEqual((came[0], came[2]), (0, b""), name)
                continue
            if errors == b"usage\n":
                self.assertNotEqual(came[2], b"", name)
                came = (*came[:2], errors)
            self.assertEqual(came, (int(status), output, errors), name)

    def part(self, name, part):
        path = ROWS / name / part
        return path.read_bytes() if path.exists() else b""

    def test_words_beside_those_that_ask_are_wrong_words(self):
        for words in (), ("--help", "a"), ("a", "--help"), ("--version", "--version"), ("a", "--version"), ("-V",), ("help",):
            self.assertEqual(ran(PROGRAM["supd"], *words), (2, b"", SUPD_USAGE), words)
        for words in ("--help", "-h"), ("x",), ("--version", ""), ("-V",), ("",):
            self.assertEqual(ran(PROGRAM["supdraw"], *words), (2, b"", SUPDRAW_USAGE), words)
        for words in (), ("--version", "simulate"), ("simulate", "--version"), ("-V",), ("help",), ("simulated", "--help"), ("simulate", "--weigh", "--help"):
            status, output, errors = ran(PROGRAM["supctl"], *words)
            self.assertEqual((status, output), (2, b""), words)
            self.assertNotEqual(errors, b"", words)

    def test_words_that_are_no_text_are_wrong_words(self):
        line = b"error: invalid UTF-8 was detected in one or more arguments\n"
        self.assertEqual(ran(PROGRAM["supctl"], b"\xff"), (2, b"", line))
        self.assertEqual(ran(PROGRAM["supctl"], "simulate", b"--help\xff"), (2, b"", line))
        self.assertEqual(ran(PROGRAM["supd"], b"\xff"), (2, b"", SUPD_USAGE))
        self.assertEqual(ran(PROGRAM["supdraw"], b"\xff"), (2, b"", SUPDRAW_USAGE))

    def test_an_image_may_have_the_name_of_an_option(self):
        with tempfile.TemporaryDirectory() as folder:
            for name in "--help", "-h", "--version":
                self.assertEqual(ran(PROGRAM["supd"], "a", "--image", name, given=b"join\n", cwd=folder), (0, b"ok boot 1\n\nok (a,1)\n\n", b""))
                self.assertTrue((pathlib.Path(folder) / name).is_file())


if __name__ == "__main__":
    result = unittest.main(exit=False).result
    failed = len(result.failures) + len(result.errors)
    print(f"{result.testsRun - failed} passed, {failed} failed", file=sys.stderr)
    sys.exit(1 if failed else 0)
