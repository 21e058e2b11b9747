#!/usr/bin/env python3
"""The simulator: agents keep their promises in schedules of faults, agents without one of their rules don't, and what was found once stays found.

$SCHEDULES is how many are played over all flavours (96). With $SUPD one of each flavour is played with processes of that program, too.
"""
import hashlib
import os
import shutil
import subprocess
import sys
import tempfile
import unittest

HERE = os.path.dirname(os.path.abspath(__file__))
sys.path.insert(0, HERE)

import found
import mutants
import simulate
from simulator import play, promises, schedules, script, shrink

SCHEDULES = int(os.environ.get("SCHEDULES", 96))
SUPD = os.environ.get("SUPD", "")
SEEDS = 40  # of a mutant, within which it has to break its promise


def digest_of(flavour, seed):
    """A number for all that is said in a schedule."""
    played = play.Played(schedules.Schedule(flavour, seed).script)
    return hashlib.sha256("\n".join(played.world.lines()).encode()).hexdigest()


def simulate_with(*words):
    return subprocess.run([shutil.which("pypy3") or sys.executable, simulate.__file__, *words], capture_output=True, text=True)


class Promises(unittest.TestCase):
    def test_agents_keep_their_promises(self):
        told = simulate_with("--schedules", str(SCHEDULES))
        self.assertEqual(told.returncode, 0, told.stdout + told.stderr)
        print("\n" + told.stdout, file=sys.stderr)

    def test_what_was_found_once_stays_found(self):
        for sentence, text in found.FOUND.items():
            with self.subTest(sentence):
                self.assertEqual(play.Played(script.read(text)).broken, {})


    def test_a_cut_among_many_machines_costs_some_lines_a_second(self):
        names = "abcdefg"
        steps = [script.step(0, "begin", name) for name in names]
        steps += [script.step(4, "ask", "a", "start", f"g{number}", "kind=good", "shutdown=300") for number in range(5)]
        gone = [f"{one}>{other}" for one in names for other in names if abs(names.index(one) - names.index(other)) > 2]
        played = play.Played(script.Script("cut", tuple(names), 1, 25, {}, (*steps, script.step(5, "cut", 1000, *gone))))
        seconds, pairs = played.world.now, len(names) * (len(names) - 1)
        self.assertEqual(played.broken, {})
        self.assertLess(played.world.network.sent / seconds / pairs, 6)  # it tells its own word twice a second


class RealNodes(unittest.TestCase):
    @unittest.skipUnless(os.path.exists(SUPD), "no supd at $SUPD")
    def test_supd_does_as_the_rules_say_line_by_line(self):
        for flavour in schedules.FLAVOURS:
            one = schedules.Schedule(flavour, 1).script
            with self.subTest(flavour):
                played = play.Played(one)
                simulate.compare(one, played, SUPD)
                self.assertEqual(played.broken, {})


class Mutants(unittest.TestCase):
    def test_agents_without_one_of_their_rules_break_a_promise(self):
        for mutant in mutants.MUTANTS:
            with self.subTest(mutant.name):
                kept = set(mutant.promises)
                for seed in range(SEEDS):
                    kept -= set(mutants.broken_by(mutant, seed)) if kept else set()
                self.assertEqual(kept, set())

    def test_each_promise_is_broken_by_some_of_them(self):
        of_flavours = sum([*promises.UNDER.values(), *promises.AFTER_OF.values()], ())
        looked_at = {promises.name_of(promise) for promise in promises.WHILE + promises.AFTER + of_flavours}
        self.assertEqual(looked_at | {promises.WELL, promises.ONE_EACH}, {promise for mutant in mutants.MUTANTS for promise in mutant.promises})


class Simulator(unittest.TestCase):
    def test_a_seed_gives_the_same_lines_in_any_process(self):
        code = "import test_simulator; print(*[test_simulator.digest_of(flavour, 1) for flavour in ('any', 'cut', 'image', 'twin')])"
        programs = [sys.executable, sys.executable, shutil.which("pypy3") or sys.executable]
        told = {subprocess.run([program, "-c", code], env={**os.environ, "PYTHONHASHSEED": seed}, cwd=HERE, capture_output=True, check=True).stdout
                for program, seed in zip(programs, ("1", "2", "3"))}
        self.assertEqual(len(told), 1)

    def test_a_script_is_read_as_it_was_written(self):
        for flavour in schedules.FLAVOURS:
            one = schedules.Schedule(flavour, 3).script
            self.assertEqual(script.read(str(one)), one)

    def test_a_script_that_breaks_a_promise_is_made_small_and_breaks_it_still(self):
        mutant = mutants.MUTANTS[0]
        promise = mutant.promises[0]
        with mutants.changed(mutant):
            one = next(one for one in (schedules.Schedule(mutant.flavour, seed).script for seed in range(SEEDS)) if promise in play.Played(one).broken)
            small = shrink.Shrinker(one, promise).shrink()
            self.assertIn(promise, play.Played(script.read(str(small))).broken)
        self.assertLessEqual(len([step for step in small.steps if step.verb != "begin"]), 3, str(small))
        self.assertEqual(play.Played(small).broken, {})

    def test_a_script_can_be_played_again_from_a_file(self):
        with tempfile.NamedTemporaryFile("w", suffix=".script") as file:
            file.write(found.RING)
            file.flush()
            told = simulate_with("--play", file.name, "--log")
        self.assertEqual((told.returncode, "FAULT at 5.000 cut 1000 a>c c>b b>a" in told.stdout), (0, True), told.stdout[-2000:] + told.stderr)


if __name__ == "__main__":
    unittest.main()
