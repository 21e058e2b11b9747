"""What hurts a cluster in its first week: children that fail, nodes that don't answer, broken files, full disks, programs that hide what they are."""
import atexit
import json
import os
import re
import shutil
import signal
import subprocess
import time
import unittest

from machines import IDS, OfMachines, free_ports, tell
from pulse import PACE, until
from watcher import lives

import leftovers

GOOD = [f"w{number}" for number in range(1, 11)]


class Failing(OfMachines):
    """Children that fail cost no other child anything."""

    def test_of_ten_good_children_none_is_begun_anew_where_others_fail(self):
        machines = self.machines()
        machines.begin_all()
        machines.start("a", GOOD)
        until(20, lambda: machines.each_once(GOOD) and machines.tables_equal(), "each runs once")
        time.sleep(PACE)
        before, began = machines.watcher.now()[1], time.monotonic()
        for ident, kind in ("ends", "bad"), ("missing", "none"), ("unknown", "http"), ("short", "short"):
            machines.start("a", [ident], kind=kind)
        time.sleep(12 * PACE)
        machines.need_same(before)
        machines.need_one_at_least(began, GOOD)
        self.assertTrue(all(machine["member"] == "open" for machine in machines.status("b")["machines"]))
        begins = sum(machines.log(name).count(" start ends ") for name in machines.names)
        self.assertLessEqual(begins, 3 + 12)  # on each of three machines it may have been for a moment
        for asked in machines.names:
            for ident, why in (("ends", r"waits [\d.]+ s, [1-9]\d* restarts, status 1"), ("missing", r"waits [\d.]+ s, \d+ restarts, failed: no program /nonexistent"),
                               ("unknown", r"waits [\d.]+ s, \d+ restarts, failed: no kind http in kinds.json")):
                until(10, lambda: re.fullmatch(why, machines.child(asked, ident)["why"]), f"{asked} tells why {ident} waits, though it may just have been tried again")
        tell("ten good children beside four that fail", begins_of_one_that_ends_at_once=begins, longest_silence_of_a_good_one=machines.gap(began, GOOD))

    def test_a_child_that_was_corrected_begins_at_once(self):
        machines = self.alone()
        machines.start("a", ["x"], kind="bad")
        until(20, lambda: re.match(r"waits [2-9]", machines.child("a", "x")["why"]), "it waits")
        machines.ask("a", "replace x kind=sleep arg=100000")
        took = until(1.5, lambda: machines.each_once(["x"]), "it runs")
        tell("a child that had to wait is corrected", begins_after=took)

    def test_two_good_children_that_end_cost_nobody_else_anything(self):
        machines = self.begun()
        seen = machines.watcher.now()[1]
        others = {ident: seen[ident] for ident in IDS[2:]}
        for ident in IDS[:2]:
            os.kill(machines.process(ident), signal.SIGKILL)
        until(5, lambda: machines.each_once(IDS), "they run again")
        machines.need_same(others)


class Nodes(OfMachines):
    def test_a_node_that_is_held_holds_nobody_up_and_no_child_notices(self):
        """It is begun anew before the others take over; its agent goes on telling that it is there."""
        machines = self.begun()
        before, began = machines.watcher.now()[1], time.monotonic()
        node = machines.node("b")
        os.kill(node, signal.SIGSTOP)
        machines.start("a", ["more"])
        until(10, lambda: "the node doesn't answer" in machines.log("b"), "that is noticed")
        until(10, lambda: machines.node("b") not in (None, node) and "boot 2" in machines.ask("b", "show")[0], "another one is there")
        until(10, lambda: machines.each_once(["more"]) and machines.tables_equal(), "what was started meanwhile is known there, too")
        time.sleep(2 * PACE)
        machines.need_same(before)
        self.assertNotIn("leave b", machines.log("a") + machines.log("c"))
        tell("a node is held", two_at_once=machines.both(began, IDS), longest_silence=machines.gap(began, IDS))

    def test_a_bad_image_is_told_with_the_nodes_own_words_and_left_as_it_is(self):
        for content, words in ((b"garbage", r"bad image \w+: \S+a\.image is no whole image"), (b"", r"bad image \w+: \S+a\.image is no whole image")):
            machines = self.machines(names=["a"])
            with open(machines.path("a.image"), "wb") as image:
                image.write(content)
            told = subprocess.run(machines.words("a"), stderr=subprocess.PIPE, timeout=60, text=True)
            self.assertEqual(told.returncode, 1)
            self.assertIn("the node can't begin", told.stderr)
            if machines.has_proved_node():
                self.assertRegex(told.stderr, words)
            self.assertRegex(told.stderr.splitlines()[-1], r"^\d{4}-\d\d-\d\dT\S+Z a ")
            with open(machines.path("a.image"), "rb") as image:
                self.assertEqual(image.read(), content)


class Kinds(OfMachines):
    def test_a_file_of_kinds_that_breaks_is_named_in_the_log_and_the_old_one_goes_on(self):
        machines = self.alone()
        with open(machines.path("kinds.json"), "w") as file:
            file.write('{"sleep": ["sleep", "{arg}"],\n "http": ["httpd",]}')
        until(10, lambda: "kinds.json: line 2, column" in machines.status("a").get("kinds", ""), "it is told")
        machines.start("a", ["more"])
        until(10, lambda: machines.each_once([*IDS, "more"]), "what is started runs")
        self.assertRegex(machines.log("a"), r"kinds\.json: line 2, column \d+")

    def test_jobs_that_end_at_once_wait_for_the_delay_of_their_kind(self):
        machines, jobs = self.alone(), [f"job{number}" for number in range(10)]
        with open(machines.path("kinds.json"), "w") as file:
            file.write('{"sleep": ["sleep", "{arg}"], "job": {"command": ["true"], "delay": 1000}}')
        machines.start("a", jobs, kind="job")
        until(10, lambda: all(f" ended {job} " in machines.log("a") for job in jobs), "each has ended once")
        time.sleep(3 * PACE)
        self.assertEqual([machines.log("a").count(f"Z a start {job} ") for job in jobs], [1] * len(jobs))

    def test_a_file_of_kinds_that_is_broken_at_the_begin_ends_the_agent_by_its_name_and_place(self):
        machines = self.machines(names=["a"])
        with open(machines.path("kinds.json"), "w") as file:
            file.write('{"sleep": ["sleep"],}')
        told = subprocess.run(machines.words("a"), stderr=subprocess.PIPE, timeout=60, text=True)
        self.assertEqual(told.returncode, 2)
        self.assertRegex(told.stderr, re.escape(machines.path("kinds.json")) + r": line 1, column \d+")


class Hidden(OfMachines):
    """Programs that write over their environment, in which the mark is."""

    def leftover(self, machines, worker):
        """Kills an agent whose child has this worker, and begins it anew."""
        begun, sessions = leftovers.Process(worker).begun, leftovers.Sessions(machines.path("a.image.sessions"))
        until(20, lambda: sessions.left()[1] > begun, "the agent has told that it lives, since the worker was begun")
        machines.kill("a")
        until(5, lambda: leftovers.MARK.encode() not in b"".join(leftovers.environment(worker)), "nothing of its mark is left")
        self.assertTrue(lives(worker))
        machines.begin("a")
        until(20, lambda: not lives(worker), "it is ended")

    def test_the_workers_of_one_end_with_a_killed_agent_that_is_back(self):
        machines = self.machines(names=["a"])
        machines.begin_all()
        told = machines.path("worker")
        machines.start("a", ["x"], kind="titled", arg=told)
        until(10, lambda: os.path.exists(told), "it has a worker")
        with open(told) as file:
            self.leftover(machines, int(file.read()))

    @unittest.skipUnless(shutil.which("nginx"), "nginx")
    def test_the_workers_of_nginx_end_and_its_port_is_free_for_the_next_one(self):
        machines = self.machines(names=["a"])
        port = free_ports(1)[0]
        with open(machines.path("nginx.conf"), "w") as file:
            file.write(f"daemon off; user root; worker_processes 2; pid {machines.path('nginx.pid')}; error_log {machines.path('nginx.log')};\n"
                       f"events {{}} http {{ access_log off; server {{ listen 127.0.0.1:{port}; }} }}\n")
        with open(machines.path("kinds.json"), "w") as file:
            json.dump({"nginx": ["nginx", "-c", machines.path("nginx.conf")]}, file)
        machines.begin_all()
        machines.start("a", ["x"], kind="nginx")
        found = []
        until(20, lambda: found.extend(self.workers(machines)) or found, "it has workers")
        worker = found[0]
        self.leftover(machines, worker)
        until(20, lambda: self.workers(machines) and worker not in self.workers(machines), "it runs again")
        machines.ask("a", "delete x")
        until(10, lambda: not self.workers(machines), "all has ended")

    def workers(self, machines):
        """The processes of nginx that belong to this test, but for the first."""
        try:
            with open(machines.path("nginx.pid")) as file:
                master = int(file.read())
            with open(f"/proc/{master}/task/{master}/children") as file:
                return [int(word) for word in file.read().split()]
        except (OSError, ValueError):
            return []


@unittest.skipUnless(os.geteuid() == 0, "root")
class Disks(OfMachines):
    def mount(self, disk):
        """Mounts a small disk. It is taken away where the test is interrupted, too, and cleanups aren't done."""
        if subprocess.run(["mount", "-t", "tmpfs", "-o", "size=256k", "tmpfs", disk], stderr=subprocess.DEVNULL).returncode:
            self.skipTest("leave to mount a disk")  # as root of a container

        def unmount():
            atexit.unregister(unmount)
            subprocess.run(["umount", "-l", disk])
        atexit.register(unmount)
        self.addCleanup(unmount)

    def test_children_run_elsewhere_while_a_disk_is_full_and_come_home(self):
        machines = self.machines()
        disk = machines.path("disk")
        os.mkdir(disk)
        self.mount(disk)
        words = machines.words

        def with_disk(name):
            return [word.replace(machines.path("b.image"), os.path.join(disk, "b.image")) for word in words(name)]
        machines.words = with_disk
        machines.begin_all()
        machines.start("a", IDS)
        self.settle(machines)
        with open(os.path.join(disk, "much"), "wb", buffering=0) as file:
            self.assertRaises(OSError, lambda: [file.write(b"x" * 4096) for _ in range(1000)])
        more = [f"more{number}" for number in range(6)]
        machines.start("a", more)
        until(20, lambda: machines.each_once(IDS + more), "all run, also what its node can't know")
        os.unlink(os.path.join(disk, "much"))
        until(30, lambda: machines.each_once(IDS + more) and machines.tables_equal(), "it knows all again")


if __name__ == "__main__":
    unittest.main()
