#!/usr/bin/env python3
"""What is packed: manuals, completions, archives, and which trees are refused."""
import os
import pathlib
import re
import shutil
import subprocess
import sys
import tempfile
import unittest

sys.path.insert(0, str(pathlib.Path(__file__).resolve().parent.parent))
from building import version
from building.crates import PROGRAMS, TOP
from building.quick import quick_program
from package import archives, completion, counted, man, proof, tree


def call(*words, **more):
    return subprocess.run(words, check=True, stdin=subprocess.DEVNULL, stdout=subprocess.PIPE, stderr=subprocess.STDOUT, text=True, **more).stdout


def programs():
    """Those of the gate where they are there, else ones with nothing proved."""
    built = {name: TOP / "crates" / name / "out" / name for name in PROGRAMS}
    return {name: path if path.exists() else quick_program(name) for name, path in built.items()}


class Pages(unittest.TestCase):
    def told(self, text):
        return man.page("# x\n\n" + text, "x", "about", "1", "2026-01-01").split(".SH DESCRIPTION\n")[1]

    def test_text_and_code(self):
        self.assertEqual(self.told("One `a-b` and\n**two** [three](x.md).\n"), ".PP\nOne \\fBa\\-b\\fR and \\fBtwo\\fR three.\n")
        self.assertEqual(self.told("    .x -y\n"), ".PP\n.RS 4\n.nf\n\\&.x \\-y\n.fi\n.RE\n")

    def test_a_table_is_a_list_of_its_rows(self):
        self.assertEqual(self.told("| a | b |\n|---|---|\n| `x \\| y` | z |\n"), ".TP\n\\fBx | y\\fR\nz\n")
        self.assertEqual(self.told("| a | b | c |\n|---|---|---|\n| x | y | z |\n"), ".TP\n\\fBx\\fR\nb: y\n.br\nc: z\n")

    @unittest.skipIf(not shutil.which("man"), "man-db")
    def test_the_manuals_are_read_without_a_warning(self):
        with tempfile.TemporaryDirectory() as folder:
            tree.put_manuals(pathlib.Path(folder), "2026-01-01")
            for file in sorted(pathlib.Path(folder).rglob("*.gz")):
                read = subprocess.run(["man", "--warnings=mac", "--local-file", file], stdin=subprocess.DEVNULL, stdout=subprocess.PIPE, stderr=subprocess.PIPE,
                                      text=True, env={**os.environ, "LC_ALL": "C.UTF-8", "MANWIDTH": "100"})
                faults = [line for line in read.stderr.splitlines() if "cannot adjust line" not in line]  # a long name at the edge
                self.assertEqual((read.returncode, faults), (0, []), file)
                self.assertGreater(read.stdout.count("\n"), 5)


class Completions(unittest.TestCase):
    def test_each_command_and_each_option_stands_in_them(self):
        words = completion.of_sebrakt()
        self.assertLessEqual({"start", "apply", "run", "init", "serve"}, set(words))
        self.assertIn("--conf", words["run"])
        for name, verbs in completion.all_of_them().items():
            text = completion.bash(name, verbs)
            subprocess.run(["bash", "-n"], input=text, text=True, check=True)
            asked = f"{text}\nCOMP_WORDS=({name} '') COMP_CWORD=1; _{name}; echo ${{COMPREPLY[@]}}"
            self.assertLessEqual({verb for verb in verbs if verb}, set(call("bash", "-c", asked).split()))


@unittest.skipIf(not shutil.which("dpkg-deb"), "dpkg")
class Package(unittest.TestCase):
    @classmethod
    def setUpClass(cls):
        cls.folder = pathlib.Path(tempfile.mkdtemp(prefix="sebrakt-package-"))
        cls.addClassCleanup(shutil.rmtree, cls.folder, True)
        cls.made = [archives.make(programs(), cls.folder / name, True) for name in ("one", "two")]

    def test_it_is_the_same_each_time(self):
        for one, two in zip(*self.made):
            self.assertEqual(one.read_bytes(), two.read_bytes(), one)
        call("sha256sum", "--check", "SHA256SUMS", cwd=self.folder / "one")

    @unittest.skipIf(not shutil.which("lintian"), "lintian")
    def test_lintian_finds_no_error(self):
        self.assertNotIn("E: ", subprocess.run(["lintian", "--allow-root", self.made[0][1]], stdin=subprocess.DEVNULL, stdout=subprocess.PIPE, text=True).stdout)

    def test_the_agent_is_whole(self):
        """But for its tests and pages."""
        with tempfile.TemporaryDirectory() as folder:
            tree.put_agent(pathlib.Path(folder))
            installed = {path.name for path in pathlib.Path(folder, tree.AGENT).rglob("*")}
            files = {path.name for path in [*(TOP / "agent").iterdir(), *(TOP / "agent/core").iterdir()]}
            self.assertEqual({name for name in files - installed if not name.endswith((".md", ".png", ".sh"))} - {"tests", "walk", "__pycache__"}, set())
            self.assertTrue(subprocess.run([f"{folder}/usr/bin/sebrakt", "--version"], stdout=subprocess.PIPE, text=True).stdout.startswith("sebrakt "))

    def test_its_programs_tell_of_themselves_what_built_them_told(self):
        with tempfile.TemporaryDirectory() as folder:
            tree.put_programs(pathlib.Path(folder), programs())
            for name, path in programs().items():
                said = call(f"{folder}/usr/bin/{name}", "--version")
                self.assertEqual(said, version.beside(path).read_text())
                self.assertRegex(said, f"^{name} {re.escape(tree.number())}, .*proved\n$")

    def test_its_programs_need_the_c_library_alone(self):
        for name, path in programs().items():
            needed = re.findall(r"^\s*(\S+) (?:=>|\()", subprocess.run(["ldd", path], stdout=subprocess.PIPE, stderr=subprocess.STDOUT, text=True).stdout, re.MULTILINE)
            self.assertLessEqual({library.split("/")[-1] for library in needed}, {"linux-vdso.so.1", "libc.so.6", "ld-linux-x86-64.so.2", "libpthread.so.0", "libm.so.6"}, name)

    def test_a_tree_that_did_not_pass_is_refused(self):
        for told, why in (("", "there is no review/gate.txt"), ("commit 0123456789ab\n1 passed, 2 failed\n", "the gate failed"),
                          ("commit 4b825dc642cb6eb9a060e54bf8d69288fbee4904\n1 passed, 0 failed\n", "files have changed since")):
            gate, proof.GATE = proof.GATE, self.folder / "gate.txt"
            try:
                proof.GATE.write_text(told)
                with self.assertRaises(proof.Refused) as fault:
                    proof.need_gate()
            finally:
                proof.GATE = gate
            self.assertIn(why, str(fault.exception))


if __name__ == "__main__":
    counted.main("the package")
