"""Which programs go into a package: the proved ones of a passed gate, or ones that say that they aren't."""
import re
import subprocess

from building import version
from building.crates import PROGRAMS, TOP, is_current
from building.quick import quick_program

GATE = TOP / "review" / "gate.txt"


class Refused(Exception):
    """Why this tree can't be packed."""


def git(*words):
    return subprocess.run(["git", *words], cwd=TOP, stdin=subprocess.DEVNULL, stdout=subprocess.PIPE, text=True, check=True).stdout.strip()


def need_commit():
    """A package is that of a commit."""
    if git("status", "--porcelain"):
        raise Refused("there are changes that are not committed")


def proved_programs():
    """The programs that the gate built from this tree. Refused where one isn't proved, or the gate didn't pass."""
    need_gate()
    return {name: proved(name) for name in PROGRAMS}


def need_gate():
    """That review/gate.txt is of this tree, but for itself, and tells of no failure."""
    told = GATE.read_text() if GATE.exists() else ""
    commit, counts = re.match(r"commit ([0-9a-f]+)$", told, re.MULTILINE), re.findall(r"^(\d+) passed, (\d+) failed$", told, re.MULTILINE)
    if not commit or not counts:
        raise Refused("there is no review/gate.txt: review/gate.sh runs all tests and makes it")
    if counts[-1][1] != "0":
        raise Refused(f"the gate failed: {' passed, '.join(counts[-1])} failed")
    if subprocess.run(["git", "diff", "--quiet", commit[1], "HEAD", "--", ".", ":!review/gate.txt"], cwd=TOP).returncode:
        raise Refused(f"review/gate.txt is of the commit {commit[1]}, and files have changed since: review/gate.sh makes it anew")


def proved(name):
    program = TOP / "crates" / name / "out" / name
    if not is_current(program, ["src", "specs", "proofs"]):
        raise Refused(f"{program.relative_to(TOP)} isn't there, or older than its sources: review/gate.sh proves and builds it")
    beside = version.beside(program)
    if not (beside.exists() and beside.read_text().rstrip().endswith(", proved")):
        raise Refused(f"nothing says that {program.relative_to(TOP)} is proved: review/gate.sh does")
    return program


def unproved_programs():
    return {name: quick_program(name) for name in PROGRAMS}
