"""Runs the parts of the agent's tests that are named, or all, and counts what passed and what failed: `agent/test.sh` tells the rest."""
import glob
import os
import signal
import subprocess
import sys
import time

TESTS = os.path.dirname(os.path.abspath(__file__))
AGENT = os.path.dirname(TESTS)
sys.path.insert(0, os.path.dirname(AGENT))

from building.retried import Outcome, Tally, shown

# Of each part its files, and the seconds that each of them may take, several times what it takes on a machine that has time.
PARTS = {
    "core": (180, ["core_begins", "core_hindrances", "core_runs", "core_words"]),
    "simulator": (3600, ["simulator"]),
    "parts": (240, ["seals", "links", "lines", "node", "kinds", "processes", "runs", "small", "run"]),
    "logs": (240, ["logs", "logs_asked"]),
    "health": (240, ["health", "overlap"]),
    "machines": (480, ["storms", "moves", "faults", "partitions", "seeds"]),
    "hazards": (480, ["hazards", "images"]),
    "upgrade": (480, ["upgrade", "handover"]),
    "namespaces": (480, ["namespaces"]),
    "groups": (480, ["groups"]),
    "hostile": (480, ["hostile", "servers"]),
    "times": (900, ["times"]),
    "page": (300, ["page_parts", "page"]),
    "docs": (240, ["docs"]),
    "apply": (240, ["apply"]),
    "commands": (480, ["command_words", "commands", "sebrakt", "init"]),
    "events": (240, ["history", "events"]),
    "metrics": (240, ["metrics"]),
}


BUSY_LATER = 3  # the least pace for these seconds: a machine that has time now may be busy before a file has come to its end


def lint(tally):
    """Looks through the whole source, by pyflakes where it is there; else whether it compiles."""
    print("== lint", flush=True)
    files = [file for pattern in ("*.py", "core/*.py", "tests/*.py", "tests/simulator/*.py") for file in sorted(glob.glob(os.path.join(AGENT, pattern)))]
    if subprocess.run([sys.executable, "-c", "import pyflakes"], stderr=subprocess.DEVNULL).returncode == 0:
        is_good = subprocess.run([sys.executable, "-m", "pyflakes", *files]).returncode == 0
    else:
        is_good = subprocess.run([sys.executable, "-m", "compileall", "-q", *files]).returncode == 0
        tally.skipped.append("skipped: lint (python3-pyflakes)")
    tally.passed += is_good
    tally.failed += not is_good


def first():
    """The bounds are those of agents that get a processor when they want one, on a busy machine too where root runs this."""
    try:
        return ["nice", "-n", "-15"] if subprocess.run(["nice", "-n", "-15", "true"], stderr=subprocess.PIPE).stderr == b"" else []
    except OSError:
        return []


def pace_of(python):
    """How many times as long as on a machine that has time all is given now: what $PACE says, else as much longer as some work takes."""
    return round(float(os.environ.get("PACE") or subprocess.check_output([*python, os.path.join(AGENT, "tests", "pulse.py")])), 1)


def run(part, name, seconds, tally):
    """Runs a file of tests, at most for so many seconds, and those that fail once more."""
    def turn(*tests):
        python = [*([] if part in ("core", "simulator") else first()), sys.executable]
        pace = pace_of(python)
        most = seconds * max(pace, BUSY_LATER)
        print(f"== {part}: {name}, pace {pace:g}", *tests, flush=True)
        until = time.monotonic() + most
        words = ["timeout", "-k", "20", str(most), *python, "-W", "ignore::ResourceWarning", os.path.join(TESTS, f"test_{name}.py"), *tests, "-v"]
        told, file = shown(words, cwd=TESTS, env={"SCHEDULES": "1000", **os.environ, "PACE": str(pace)})  # `timeout` tells an interrupt to its tests
        if time.monotonic() >= until:
            print(f"{name} took longer than {most:g} s", flush=True)
        return Outcome(told, file.returncode)
    tally.take(part, turn)


def main():
    parts = sys.argv[1:] or ["lint", *PARTS]
    for part in parts:
        if part != "lint" and part not in PARTS:
            sys.exit(f"no tests {part}")
    tally = Tally()
    signal.signal(signal.SIGTERM, signal.default_int_handler)
    for part in parts:
        if part == "lint":
            lint(tally)
            continue
        seconds, files = PARTS[part]
        for name in files:
            run(part, name, seconds, tally)
    sys.exit(tally.close())


if __name__ == "__main__":
    main()
