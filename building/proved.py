"""Proves a program of crates/ and builds it, and tells how far that is."""
import os
import re
import subprocess
import sys

from building import kit, version
from building.crates import TOP, is_current, libraries_of_each, with_all_below
from building.endings import Interrupted, become, end_as, hold_signals, pause
from building.kit import NotBuilt
from building.progress import Progress

PARTS = ["src", "specs", "proofs"]
# What the log of `rt run` has of a crate, while that is proved.
NAMED = re.compile(r"^(?:rt: chose --jobs \d+ for|(?:fn|struct|enum|trait|impl|crate)) (\w+)", re.MULTILINE)


def run_proved(name, words):
    """Becomes the proved program of this name, given these words. It is proved and built first where it isn't yet, or where a crate that it stands on
    has changed since. Status 125: that could not be done."""
    program = TOP / "crates" / name / "out" / name
    hold_signals()
    try:
        if not is_current(program, PARTS):
            Proving(program).build()
        elif words == ["--version"]:
            tell_proved(program)
    except NotBuilt as why:
        print(f"{name}: {why}", file=sys.stderr)
        sys.exit(125)
    except Interrupted as interrupted:
        end_as(interrupted)
    become(program, words)


def tell_proved(program):
    """Writes the line of a program that `rt run` or `rt ci` built: they build what is proved and nothing else, and write none."""
    if kit.is_there() and not version.beside(program).exists():
        version.write(program, "proved")


class Proving:
    """One run of `rt run` for a program, which is given no words and no input."""

    def __init__(self, program):
        self.program = program
        self.libraries = libraries_of_each()
        self.every = with_all_below([program.name], self.libraries)
        self.log = program.parent / "proving.log"
        self.progress = Progress(program.name, "min", 60)

    def build(self):
        kit.need()
        self.program.parent.mkdir(parents=True, exist_ok=True)
        self.progress.tell(f"proves and builds the program, an hour or more the first time; the log is {self.log}")
        began = self.program.parent / "proving.began"
        began.touch()
        self.prove()
        os.utime(self.program, ns=(began.stat().st_mtime_ns,) * 2)
        version.write(self.program, "proved")

    def prove(self):
        with open(self.log, "w") as log:
            proving = subprocess.Popen(["rt", "run"], cwd=TOP / "crates" / self.program.name, stdin=subprocess.DEVNULL, stdout=log, stderr=log)
            try:
                while proving.poll() is None:
                    self.progress.show(self.so_far())
                    pause(1)
            finally:
                proving.kill()  # what it started ends with it
                proving.wait()
        self.progress.close()
        if "\nrt: running " not in self.log.read_text():
            raise NotBuilt(f"it could not be built; the log is {self.log}")

    def so_far(self):
        """How many crates are done, and which one is under way."""
        named = [it for it in dict.fromkeys(NAMED.findall(self.log.read_text())) if it in self.every]
        if not named:
            return f"looks at {len(self.every)} crates"
        done = with_all_below(named, self.libraries) - {named[-1]}
        return f"{len(done)} of {len(self.every)} crates proved, {named[-1]} under way"
