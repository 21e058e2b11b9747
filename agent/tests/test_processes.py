"""Children as processes, what a killed agent leaves of them, and cgroups of runs."""
import json
import os
import selectors
import shutil
import signal
import socket
import subprocess
import sys
import tempfile
import threading
import time
import unittest
import unittest.mock

sys.path.insert(0, os.path.dirname(os.path.dirname(os.path.abspath(__file__))))

import cgroups
import children
import kinds
import leftovers
import logs
import processes
from pulse import until
from watcher import lives

TESTS = os.path.dirname(os.path.abspath(__file__))
SPEC = "{} permanent 5000 arg={}"
KINDS = {"sleep": ["sleep", "{arg}"], "noted": [], "exits": ["sh", "-c", "exit {arg}"], "shows": ["sh", "-c", "env > {arg}.new; mv {arg}.new {arg}; exec sleep 1000"],
         "nested": ["sh", "-c", "sleep 1000 & echo $! > {arg}; wait"], "escapes": ["sh", "-c", "setsid sleep 1000 & echo $! > {arg}; exec sleep 1000"],
         "titled": [sys.executable, os.path.join(TESTS, "titled.py"), "{arg}"]}


class OfProcesses(unittest.TestCase):
    def test_what_a_child_has_open_is_its_own(self):
        """Files, sockets and pipes of the agent and of whoever began it don't come to its children."""
        kept = [os.open("/dev/null", os.O_RDONLY), *os.pipe(), socket.socket().detach()]
        os.set_inheritable(kept[0], True)
        process = processes.begin(["ls", "/proc/self/fd"], stdin=subprocess.DEVNULL, stdout=subprocess.PIPE)
        self.assertEqual(process.communicate()[0].split(), [b"0", b"1", b"2", b"3"])  # 3 is what ls reads
        for one in kept:
            os.close(one)

    def test_signals_of_a_child_are_as_the_system_has_them(self):
        process = processes.begin(["cat", "/proc/self/status"], stdout=subprocess.PIPE)
        status = dict(line.split(":\t") for line in process.communicate()[0].decode().splitlines() if line.startswith("Sig"))
        self.assertEqual([int(status[what], 16) for what in ("SigBlk", "SigIgn")], [0, 0])

    def test_who_begins_nothing_is_told(self):
        self.assertRaises(OSError, processes.begin, ["/nonexistent"])

    def test_an_orphan_is_reaped_and_what_was_begun_here_is_not(self):
        processes.take_orphans()
        orphan = int(subprocess.run(["sh", "-c", "setsid sleep 0.2 >/dev/null & echo $!"], stdout=subprocess.PIPE).stdout)
        own = processes.begin(["sh", "-c", "exit 7"])
        until(10, lambda: processes.reap_orphans() or not os.path.exists(f"/proc/{orphan}"), "it is reaped")
        self.assertEqual(own.wait(), 7)


class OfChildren(unittest.TestCase):
    cgroup, count = None, 0

    def setUp(self):
        processes.take_orphans()
        self.folder = tempfile.mkdtemp()
        self.addCleanup(shutil.rmtree, self.folder, True)
        with open(self.path("kinds.json"), "w") as file:
            json.dump(KINDS, file)
        self.loop = selectors.DefaultSelector()
        self.logs = logs.Logs(self.loop, "a", self.path("logs"), None, print)
        self.addCleanup(self.logs.close)
        self.children = self.anew()
        self.addCleanup(leftovers.end, self.path("image"))

    def anew(self):
        OfChildren.count += 1
        return children.Children("a", OfChildren.count, kinds.Kinds(self.path("kinds.json"), print), self.path("image"), self.cgroup, self.loop, self.logs, print)

    def path(self, name):
        return os.path.join(self.folder, name)

    def ends(self, count=1):
        """The next so many runs that have ended, as (key, status)."""
        ends = []
        until(10, lambda: ends.extend(one[:2] for one in self.children.ended()) or len(ends) >= count, "they end")
        return ends

    def told(self, name):
        """The process whose number is told in a file."""
        until(10, lambda: os.path.exists(self.path(name)) and open(self.path(name)).read().endswith("\n"), "it tells its number")
        with open(self.path(name)) as file:
            return int(file.read())

    def begin(self, key, kind, arg):
        return self.children.begin(key, "x", "1.1", SPEC.format(kind, arg))

    def test_a_run_ends_with_its_status_or_signal(self):
        self.begin(1, "exits", "7")
        os.kill(self.begin(2, "sleep", "1000"), signal.SIGKILL)
        self.assertEqual(sorted(self.ends(2)), [(1, 7), (2, -signal.SIGKILL)])

    def test_a_run_has_ended_once_its_whole_process_group_has(self):
        """A process that was killed runs on until the system gets to it; another machine waits for that."""
        process, other = self.begin(1, "nested", self.path("beside")), self.told("beside")
        os.kill(process, signal.SIGKILL)
        self.assertEqual(self.ends(), [(1, -signal.SIGKILL)])
        self.assertFalse(lives(other))

    def test_what_is_noted_has_no_process_and_ends_when_it_is_told_to(self):
        self.assertEqual((self.begin(1, "noted", ""), self.children.ended()), (0, []))
        self.children.term(1)
        self.assertTrue(self.children.lingers)
        self.assertEqual((self.children.ended(), self.children.lingers), ([(1, 0, "")], False))

    def test_a_stopped_process_hears_that_it_is_to_end(self):
        os.kill(self.begin(1, "sleep", "1000"), signal.SIGSTOP)
        self.children.term(1)
        self.assertEqual(self.ends(), [(1, -signal.SIGTERM)])

    def test_a_child_gets_few_of_the_agents_variables(self):
        for name in ("NOTIFY_SOCKET", "CREDENTIALS_DIRECTORY", "LD_PRELOAD_OF_THIS_TEST", "LC_TEST"):
            os.environ[name] = "x"
            self.addCleanup(os.environ.pop, name)
        self.begin(1, "shows", self.path("shown"))
        until(10, lambda: os.path.exists(self.path("shown")), "it shows its environment")
        with open(self.path("shown")) as file:
            shown = {line.split("=")[0] for line in file}
        self.assertLessEqual({"PATH", "LC_TEST", "SEBRAKT_ID", "SEBRAKT_RUN", "SEBRAKT_NODE", leftovers.MARK}, shown)
        self.assertEqual(shown & {"NOTIFY_SOCKET", "CREDENTIALS_DIRECTORY", "LD_PRELOAD_OF_THIS_TEST", "SUPD"}, set())

    def test_what_begins_nothing_leaves_nothing(self):
        self.assertRaises(OSError, self.begin, 1, "unknown", "")
        self.assertEqual((self.children.runs, self.children.sessions.live), ({}, {}))


def usable_cgroup():
    """A cgroup of the tests' own, None where there can be none."""
    try:
        with open("/proc/self/mountinfo") as file:
            mount = next(words[4] for words in map(str.split, file) if words[words.index("-") + 1] == "cgroup2")
        folder = tempfile.mkdtemp(prefix="sebrakt-test-", dir=mount)
    except (OSError, StopIteration):
        return None
    if os.path.exists(os.path.join(folder, "cgroup.kill")):
        return folder
    os.rmdir(folder)
    return None


CGROUP = usable_cgroup()


def tearDownModule():
    if CGROUP:
        cgroups.end_all(CGROUP)
        until(10, lambda: cgroups.end_all(CGROUP) or cgroups.remove(CGROUP) or not os.path.exists(CGROUP), "the cgroup is gone")


@unittest.skipUnless(CGROUP, "no cgroup v2 that may be written")
class OfCgroups(OfChildren):
    """Whatever holds of runs holds of those in cgroups of their own, too."""
    cgroup = CGROUP

    def test_what_has_left_its_session_ends_with_its_run(self):
        process, other = self.begin(1, "escapes", self.path("escaped")), self.told("escaped")
        os.kill(process, signal.SIGKILL)
        self.assertEqual(self.ends(), [(1, -signal.SIGKILL)])
        self.assertFalse(lives(other))
        self.assertFalse(any(one.name.endswith(f".{self.children.group}.1") for one in os.scandir(CGROUP)))

    def test_what_an_earlier_agent_left_ends(self):
        self.begin(1, "escapes", self.path("escaped"))
        other = self.told("escaped")
        cgroups.end_all(CGROUP)
        until(10, lambda: not lives(other), "it ends")
        self.ends()

    def test_an_agent_has_a_cgroup_of_its_own_where_it_is_alone_in_one(self):
        look = f"{sys.executable} -c 'import cgroups; print(cgroups.own())'"
        folder = os.path.dirname(TESTS)
        alone = subprocess.run(["sh", "-c", f"echo 0 > {CGROUP}/cgroup.procs; exec {look}"], cwd=folder, stdout=subprocess.PIPE, text=True).stdout
        beside = subprocess.run(["sh", "-c", f"echo 0 > {CGROUP}/cgroup.procs; {look}; :"], cwd=folder, stdout=subprocess.PIPE, text=True).stdout
        self.assertEqual((alone, beside), (CGROUP + "\n", "None\n"))


class Leftovers(OfChildren):
    """What is found by who begins anew, once an agent has ended without a word."""

    def test_what_was_left_is_found_by_its_mark_alone(self):
        image = self.path("a.image")
        marked = subprocess.Popen(["sleep", "100"], env={leftovers.MARK: image})
        other = subprocess.Popen(["sleep", "100"], env={leftovers.MARK: image + ".0-of-2", "X": f"{leftovers.MARK}={image}"})
        self.addCleanup(lambda: [(one.kill(), one.wait()) for one in (marked, other)])
        until(10, lambda: any(leftovers.environment(marked.pid)) and any(leftovers.environment(other.pid)), "both run")
        self.assertEqual(leftovers.end(image), 1)
        self.assertEqual(marked.wait(60), -signal.SIGKILL)
        self.assertIsNone(other.poll())

    def test_programs_that_write_over_their_environment_are_found_by_their_session(self):
        """As nginx does: its workers outlive their master, and nothing of the mark is left."""
        master, worker = self.begin(1, "titled", self.path("worker")), self.told("worker")
        self.children.sessions.tick(time.monotonic() + 100)
        self.children.sessions.settle()
        os.kill(master, signal.SIGKILL)  # as the kernel does where the agent ends
        until(10, lambda: leftovers.Process(master).lives is False, "it has ended")
        self.assertFalse(any(leftovers.MARK.encode() in word for word in leftovers.environment(worker)))
        self.assertTrue(lives(worker))
        self.assertEqual(self.anew().end_leftovers(), 1)
        self.assertFalse(lives(worker))

    def test_a_copy_of_the_file_tells_of_another_agents_runs_and_counts_for_nothing(self):
        sessions = leftovers.Sessions(self.path("sessions"))
        sessions.begin()
        sessions.note(os.getpid())
        sessions.settle()
        sessions.close()
        shutil.copy(self.path("sessions"), self.path("copy"))
        self.assertIn(os.getpid(), leftovers.Sessions(self.path("sessions")).left()[0])
        self.assertEqual(leftovers.Sessions(self.path("copy")).left(), ({}, 0))

    def test_a_session_whose_number_was_given_again_is_nobodys(self):
        sessions = leftovers.Sessions(self.path("sessions"))
        other = subprocess.Popen(["sh", "-c", "sleep 100 & echo $! > " + self.path("of-other") + "; wait"], start_new_session=True)
        member = self.told("of-other")
        self.addCleanup(lambda: [os.kill(member, signal.SIGKILL), other.kill(), other.wait()])
        sessions.begin()
        sessions.note(other.pid)
        sessions.settle()
        noted, lived = leftovers.Sessions(self.path("sessions")).left()
        self.assertEqual(noted, {other.pid: leftovers.Process(other.pid).begun})
        found = lambda sessions, lived: {process.pid for process in leftovers.find("/x", sessions, lived)}
        self.assertEqual(found(noted, lived + 100), {other.pid, member})
        self.assertEqual(found({other.pid: noted[other.pid] - 1}, lived + 100), set())  # another leader has this number
        other.kill()
        other.wait()
        begun = leftovers.Process(member).begun
        self.assertEqual((found(noted, begun), found(noted, begun - 1)), ({member}, set()))  # begun before, or after the agent was gone

    def test_what_was_noted_is_written_anew_and_of_another_boot_nothing_counts(self):
        sessions = leftovers.Sessions(self.path("sessions"))
        sessions.begin()
        for _ in range(leftovers.MOST_LINES + 10):
            sessions.note(os.getpid())
            sessions.forget(os.getpid())
        sessions.note(os.getpid())
        sessions.settle()
        self.assertEqual(list(sessions.left()[0]), [os.getpid()])
        with open(self.path("sessions")) as file:
            text = file.read()
        self.assertLess(text.count("\n"), 2 * leftovers.MOST_LINES)
        with open(self.path("sessions"), "w") as file:
            file.write("f" + text[1:] if text[0] != "f" else "e" + text[1:])
        self.assertEqual(sessions.left(), ({}, 0))
        for broken in ("", "x", leftovers.boot() + " x\n", f"{leftovers.boot()} 5\n+ x\n", "\n\n"):
            with open(self.path("sessions"), "w") as file:
                file.write(broken)
            self.assertEqual(sessions.left(), ({}, 0))

    def test_where_the_file_cannot_be_written_runs_go_on(self):
        sessions = leftovers.Sessions("/nonexistent/sessions")
        sessions.begin()
        sessions.note(os.getpid())
        sessions.tick(0)
        sessions.forget(os.getpid())
        sessions.settle()
        self.assertEqual(sessions.left(), ({}, 0))

    def test_a_disk_that_stands_still_holds_nobody_up(self):
        """As while it is copied. Of what comes meanwhile all is written then."""
        goes_on, write, sign = threading.Event(), os.write, os.pwrite
        sessions = leftovers.Sessions(self.path("sessions"))
        sessions.begin()
        sessions.note(os.getpid())
        sessions.settle()
        waits = lambda does: lambda *words: goes_on.wait(60) and does(*words)
        with unittest.mock.patch.multiple(os, write=waits(write), pwrite=waits(sign)):
            began = time.monotonic()
            for now in range(0, 20, 4):
                sessions.tick(now)
                sessions.forget(os.getpid())
                sessions.note(os.getpid())
            self.assertLess(time.monotonic() - began, 5)
            goes_on.set()
            sessions.settle()
        self.assertIn(os.getpid(), leftovers.Sessions(self.path("sessions")).left()[0])

    def test_a_process_whose_name_is_no_text_holds_nobody_up(self):
        """Whoever may begin a process gives it any name, and the kernel cuts a longer one in the midst of a letter."""
        names = "import ctypes, sys, time; ctypes.CDLL(None).prctl(15, b'\\xff) Z', 0, 0, 0); print(flush=True); time.sleep(100)"
        other = subprocess.Popen([sys.executable, "-c", names], stdout=subprocess.PIPE)
        self.addCleanup(lambda: (other.kill(), other.communicate()))
        other.stdout.readline()
        self.assertTrue(leftovers.Process(other.pid).lives)
        self.assertEqual(leftovers.end("/x/none.image"), 0)

    def test_an_image_may_lie_in_a_folder_of_any_name(self):
        folder = tempfile.mkdtemp()
        self.addCleanup(shutil.rmtree, folder)
        for name in ("jürgen", os.fsdecode(b"\xff")):
            os.mkdir(os.path.join(folder, name))
            sessions = leftovers.Sessions(os.path.join(folder, name, "a.image.sessions"))
            sessions.begin()
            sessions.note(os.getpid())
            sessions.tick(1e9)
            sessions.settle()
            self.assertIn(os.getpid(), leftovers.Sessions(sessions.path).left()[0])
            sessions.close()
            self.assertEqual(leftovers.find(sessions.path, {}, 0), [])


if __name__ == "__main__":
    unittest.main()
