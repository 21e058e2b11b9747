"""What the keys of a kind do to its runs: environment, folder, user, stop, limits, the longest time, the delay."""
import os
import pwd
import signal
import subprocess
import sys
import time
import types
import unittest

from runs import OfRuns

import cgroups
import children
import leftovers
import limits
import overlap
import users
from pulse import until
from watcher import lives

NOBODY = pwd.getpwnam("nobody")
IS_ROOT = os.geteuid() == 0
AS_NOBODY = {"user": "nobody"}
CAPS = "-all,+setuid,+setgid,+kill"
GIVEN = ["setpriv", "--reuid=nobody", "--regid=nogroup", "--clear-groups", "--inh-caps=" + CAPS, "--ambient-caps=" + CAPS]  # as a unit's AmbientCapabilities
WAITS = ["sh", "-c", "trap 'echo term; exit 0' TERM; trap 'echo int; exit 3' INT; echo ready; while :; do sleep 0.05; done"]


def status_of(process, what):
    """Words of a process's status."""
    with open(f"/proc/{process}/status") as file:
        return next(line.split()[1:] for line in file if line.startswith(what + ":"))


def limit_of(process, what):
    with open(f"/proc/{process}/limits") as file:
        return next(line[len(what):].split()[0] for line in file if line.startswith(what))


class Words(OfRuns):
    def test_environment_and_folder_are_those_of_the_kind_and_the_child(self):
        self.begin(["sh", "-c", "pwd; echo $A $SEBRAKT_ID $SEBRAKT_RUN $TZ"], arg="x/y", environment={"A": "{id}-{arg}", "TZ": "UTC"}, folder="/proc")
        self.until(lambda: len(self.lines()) == 2, "it tells")
        self.assertEqual(self.lines(), ["1.1 /proc", "1.1 web-x/y web 1.1 UTC"])

    def test_what_can_not_be_begun_says_why_and_leaves_nothing(self):
        for keys, why in (({"folder": "/nonexistent"}, "no folder /nonexistent"), ({"user": "nobody-at-all"}, "no user nobody-at-all"), ({"group": "99999999999"}, "no group 99999999999"),
                          ({"health": {"tcp": "127.0.0.1:{arg}"}}, "127.0.0.1:x is no address in numbers"), ({"environment": {"PATH": "/nonexistent"}}, "no program sleep")):
            before = set(os.listdir("/proc/self/fd"))
            with self.assertRaises(OSError) as fault:
                self.begin(["sleep", "1000"], arg="x", **keys)
            self.assertEqual(fault.exception.strerror, why)
            self.assertEqual(self.children.runs, {})
            self.assertLessEqual(set(os.listdir("/proc/self/fd")), before)

    def test_a_program_of_a_path_of_the_kind_is_found_there(self):
        os.mkdir(self.path("bin"))
        with open(self.path("bin/own"), "w") as file:
            file.write("#!/bin/sh\necho found\n")
        os.chmod(self.path("bin/own"), 0o755)
        self.begin(["own"], environment={"PATH": self.path("bin") + ":/usr/bin:/bin"})
        self.until(lambda: self.lines() == ["1.1 found"], "it tells")

    def test_words_that_are_made_of_no_parts_are_a_fault_of_the_child_alone(self):
        with self.assertRaises(OSError) as fault:
            self.begin(["{args}"], split=",")
        self.assertEqual((fault.exception.strerror, self.children.runs), ("its argument has no parts, and its kind's command is made of them alone", {}))
        key, _ = self.begin(["sleep", "1000"], split=",", health={"command": ["{args}"], "period": 0.1, "failures": 1})
        self.assertEqual(self.end_of(key), (None, "its check failed: no program: it has no words"))
        key, _ = self.begin(["sleep", "1000"], split=",", stop=["{args}"])
        self.children.term(key)
        self.assertEqual(self.end_of(key), (-15, ""))

    def test_a_run_without_a_program_does_not_overlap(self):
        key, _ = self.begin([], overlap=True, ready={"tcp": "127.0.0.1:1"})
        core = types.SimpleNamespace(runs=types.SimpleNamespace(live={key: types.SimpleNamespace(id="web", spec="")}, waiting={}))
        self.assertFalse(overlap.Overlaps(types.SimpleNamespace(children=self.children, core=core)).takes(key))


@unittest.skipUnless(IS_ROOT, "root")
class Users(OfRuns):
    def test_a_child_is_its_user_alone_and_can_not_read_what_is_the_agents(self):
        for name in ("secret", "image"):
            with open(self.path(name), "w") as file:
                file.write("hidden")
            os.chmod(self.path(name), 0o600)
        os.chmod(self.path("kinds.json"), 0o600)
        key, process = self.begin(["sh", "-c", "cat secret image kinds.json; cat /proc/$PPID/environ | wc -c; echo $USER $HOME; id -Gn; echo done; sleep 1000"], folder=self.folder, **AS_NOBODY)
        self.until(lambda: self.lines()[-1:] == [f"1.{key} done"], "it has tried")
        self.assertEqual([line for line in self.lines() if "hidden" in line or "command" in line], [])
        self.assertEqual(sum("ermission denied" in line for line in self.lines()), 4)
        self.assertIn(f"1.{key} nobody {NOBODY.pw_dir}", self.lines())
        self.assertEqual((status_of(process, "Uid"), status_of(process, "Gid")), ([str(NOBODY.pw_uid)] * 4, [str(NOBODY.pw_gid)] * 4))
        self.assertEqual([status_of(process, what) for what in ("CapEff", "CapPrm", "CapInh", "CapAmb")], [["0" * 16]] * 4)

    def test_it_may_open_its_output_by_its_name(self):
        self.begin(["sh", "-c", "echo one > /dev/stdout; echo two > /dev/stderr"], **AS_NOBODY)
        self.until(lambda: len(self.lines()) == 2, "it tells")
        self.assertEqual(self.lines(), ["1.1 one", "1.1 two"])

    def test_others_of_its_machine_can_not(self):
        _, process = self.begin(["sleep", "1000"])
        other = subprocess.run(["sh", "-c", f"echo x > /proc/{process}/fd/1 || echo x > /proc/{os.getpid()}/fd/{next(iter(self.logs.loop.get_map()))}"], user="nobody", stderr=subprocess.PIPE, text=True)
        self.assertEqual((other.returncode, other.stderr.count("ermission denied")), (2, 2))
        self.assertEqual(self.lines(), [])

    def test_a_group_of_its_own(self):
        _, process = self.begin(["sleep", "1000"], group="daemon", **AS_NOBODY)
        until(10, lambda: status_of(process, "Gid") == ["1"] * 4, "it is of that group")
        _, other = self.begin(["sleep", "1000"], group="1")
        until(10, lambda: (status_of(other, "Gid"), status_of(other, "Uid")) == (["1"] * 4, ["0"] * 4), "the group alone")

    def test_it_ends_when_it_is_told_to_and_dies_with_the_agent(self):
        key, _ = self.begin(["sleep", "1000"], **AS_NOBODY)
        self.children.term(key)
        self.assertEqual(self.end_of(key), (-signal.SIGTERM, ""))
        for before in ([], GIVEN):
            self.dies_with(before)

    def dies_with(self, before):
        """Whether a child of another user dies with its agent; `before` are words that take the agent's rights."""
        begins = "import sys, time; sys.path.insert(0, sys.argv[1]); import processes, users; " \
                 "print(processes.begin(['sleep', '1000'], (), users.of('daemon', None)).pid, flush=True); time.sleep(1000)"
        agent = subprocess.Popen([*before, sys.executable, "-c", begins, os.path.dirname(children.__file__)], stdout=subprocess.PIPE, text=True, cwd="/")
        process = int(agent.stdout.readline())
        until(10, lambda: status_of(process, "Uid")[0] == "1" and any(leftovers.environment(process)), "it is that user's")
        until(10, lambda: open(f"/proc/{process}/comm").read() == "sleep\n", "it has become its program")
        agent.kill()
        agent.communicate()
        until(10, lambda: not lives(process), "it dies, too")

    def test_who_is_not_root_is_told_so(self):
        tries = "import sys; sys.path.insert(0, sys.argv[1]); import users\ntry: users.of('root', None)\nexcept OSError as fault: print(fault.strerror)\nprint(users.of('nobody', None))"
        told = subprocess.run([sys.executable, "-c", tries, os.path.dirname(children.__file__)], stdout=subprocess.PIPE, text=True, user="nobody", group=NOBODY.pw_gid, extra_groups=[],
                              cwd="/").stdout
        self.assertEqual(told, "the agent may not begin it as root: it is not root's, and hasn't CAP_SETUID, CAP_SETGID and CAP_KILL\nNone\n")

    def test_what_an_agent_may_that_is_not_root_its_children_may_not(self):
        tries = "import subprocess, sys; sys.path.insert(0, sys.argv[1]); import processes, users\n" \
                "for user in (None, 'daemon', 'nobody'):\n    print(processes.begin(['grep', '-hE', '^(Uid|CapEff|CapAmb)', '/proc/self/status'], (), users.of(user, None), stdout=subprocess.PIPE)" \
                ".communicate()[0].decode().split())"
        told = subprocess.run([*GIVEN, sys.executable, "-c", tries, os.path.dirname(children.__file__)], stdout=subprocess.PIPE, text=True, cwd="/").stdout
        none = ["CapEff:", "0" * 16, "CapAmb:", "0" * 16]
        self.assertEqual(told.splitlines(), [str(["Uid:", *[str(number)] * 4, *none]) for number in (NOBODY.pw_uid, 1, NOBODY.pw_uid)])

    def test_its_check_and_its_stop_are_that_user_too(self):
        os.mkdir(self.path("told"))
        os.chmod(self.path("told"), 0o777)
        tells = ["sh", "-c", f"id -un >> {self.path('told')}/$0; test $0 = check || kill $SEBRAKT_PROCESS"]
        key, _ = self.begin(["sleep", "1000"], health={"command": [*tells, "check"], "period": 0.1}, stop=[*tells, "stop"], **AS_NOBODY)
        self.until(lambda: os.path.exists(self.path("told/check")) and self.read("told/check"), "it is checked")
        self.children.term(key)
        self.assertEqual(self.end_of(key), (-signal.SIGTERM, ""))
        self.assertEqual((set(self.read("told/check").split("\n")), self.read("told/stop")), ({"nobody", ""}, "nobody\n"))


class Ends(OfRuns):
    def stopped(self, **keys):
        """The status of a run that is told to end, once it is ready for that."""
        key, _ = self.begin_ready(WAITS, **keys)
        self.children.term(key)
        return self.end_of(key)

    def test_the_signal_of_its_kind_ends_it(self):
        self.assertEqual(self.stopped(stop="SIGINT"), (3, ""))
        self.assertEqual(self.stopped(), (0, ""))
        self.assertEqual(self.stopped(stop="SIGKILL"), (-9, ""))

    def test_the_command_of_its_kind_ends_it_and_ends_with_it(self):
        self.assertEqual(self.stopped(stop=["sh", "-c", "kill -INT $SEBRAKT_PROCESS; exec sleep 1000.25"]), (3, ""))
        until(10, lambda: not subprocess.run(["pgrep", "-f", "^sleep 1000.25$"], stdout=subprocess.PIPE).stdout, "the command has ended")

    def test_where_its_command_fails_it_is_ended_as_others_are(self):
        self.assertEqual(self.stopped(stop=["false"]), (0, ""))
        self.assertEqual(self.stopped(stop=["/nonexistent"]), (0, ""))

    def test_it_is_begun_once_however_often_the_run_is_told(self):
        key, _ = self.begin_ready(WAITS, stop=["sh", "-c", f"echo x >> {self.path('stops')}; sleep 0.3; kill -INT $SEBRAKT_PROCESS"])
        for _ in range(3):
            self.children.term(key)
        self.assertEqual(self.end_of(key), (3, ""))
        self.assertEqual(self.read("stops"), "x\n")

    def test_a_run_that_takes_too_long_fails(self):
        began = time.monotonic()
        key, _ = self.begin(["sleep", "1000"], max_runtime=0.3)
        self.assertEqual(self.end_of(key), (None, "its max-runtime of 0.3 s is over"))
        self.assertGreater(time.monotonic() - began, 0.29)

    def test_one_that_does_not_end_is_killed_after_its_shutdown(self):
        key, _ = self.begin(["sh", "-c", "trap '' TERM; while :; do sleep 0.05; done"], shutdown="300", max_runtime=0.3)
        self.assertEqual(self.end_of(key), (None, "its max-runtime of 0.3 s is over"))
        key, _ = self.begin(["sh", "-c", "trap '' TERM; while :; do sleep 0.05; done"], shutdown="brutal_kill", max_runtime=0.3)
        self.assertEqual(self.end_of(key), (None, "its max-runtime of 0.3 s is over"))

    def test_the_delay_of_a_kind_is_told_with_its_run(self):
        told = []
        self.begin(["sleep", "1000"], delay=7)
        self.begin(["sleep", "1000"])
        for _ in range(3):
            told += self.children.look(1e9, True)
        self.assertEqual(told, [(1, "", 7)])


class Limits(OfRuns):
    def test_without_a_cgroup_each_process_is_bounded_and_the_log_tells_what_is_not(self):
        _, process = self.begin(["sleep", "1000"], limits={"memory": "300M", "processes": 50, "files": 64, "processor": 0.5})
        until(10, lambda: open(f"/proc/{process}/comm").read() == "sleep\n", "it has become its program")
        self.assertEqual([limit_of(process, what) for what in ("Max address space", "Max processes", "Max open files")], [str(300 << 20), "50", "64"])
        self.begin(["sleep", "1000"], limits={"processor": 0.5})
        self.assertEqual([line for line in self.said if "limits" in line], ["nothing limits processor of kind k here: the agent has no cgroup with a controller for it"])

    def test_who_takes_more_is_stopped_by_its_limit(self):
        key, _ = self.begin([sys.executable, "-c", "x = bytearray(400 << 20)"], limits={"memory": "200M"})
        self.assertNotEqual(self.end_of(key)[0], 0)
        self.assertIn(f"1.{key} MemoryError", self.lines())

    def test_children_have_as_many_files_as_the_agent_had_before_it_took_more(self):
        before = "import os, resource, sys; sys.path.insert(0, sys.argv[1]); import limits; resource.setrlimit(resource.RLIMIT_NOFILE, (256, 4096)); " \
                 "limits.take_files(); print(resource.getrlimit(resource.RLIMIT_NOFILE), limits.words({}, None), limits.words({'files': 9}, None))"
        told = subprocess.run([sys.executable, "-c", before, os.path.dirname(children.__file__)], stdout=subprocess.PIPE, text=True).stdout
        self.assertEqual(told, f"(4096, 4096) (['{limits.PRLIMIT}', '--nofile=256:4096', '--'], []) (['{limits.PRLIMIT}', '--nofile=9', '--'], [])\n")

    def test_a_cgroup_with_the_controllers_keeps_them(self):
        """By a folder that looks as the kernel's: here there may be no controller."""
        os.mkdir(self.path("run.x"))
        one = cgroups.Cgroup.__new__(cgroups.Cgroup)
        one.folder = self.path("run.x")
        for name in ("memory.max", "memory.oom.group", "pids.max", "cpu.max", "memory.events"):
            open(os.path.join(one.folder, name), "w").close()
        self.assertEqual(limits.words({"memory": "512M", "processes": 9, "processor": 1.5, "files": 5}, one), ([limits.PRLIMIT, "--nofile=5", "--"], []))
        self.assertEqual([self.read("run.x/" + name) for name in ("memory.max", "memory.oom.group", "pids.max", "cpu.max")], [str(512 << 20), "1", "9", "150000 100000"])
        os.unlink(self.path("run.x/memory.max"))
        self.assertEqual(limits.words({"memory": "1G", "processor": 1}, one), ([limits.PRLIMIT, f"--as={1 << 30}", "--"], []))
        self.assertFalse(one.ran_out_of_memory())
        with open(self.path("run.x/memory.events"), "w") as file:
            file.write("low 0\noom 1\noom_kill 2\n")
        self.assertTrue(one.ran_out_of_memory())

    def test_a_user_is_known_by_name_or_number(self):
        if IS_ROOT:
            self.assertEqual(users.of("nobody", None)[:2], users.of(str(NOBODY.pw_uid), None)[:2])
        self.assertIsNone(users.of(None, None))

    def test_where_the_kernel_has_killed_some_process_of_it_for_memory_it_ends_as_its_first_one_does(self):
        """Of any kind: the machine's memory, or that of the unit, may be used up, and a program may begin its workers again."""
        for words, bounds, end in ((["sh", "-c", "exit 0"], {}, (0, "")), (["sh", "-c", "exit 0"], {"memory": "1G"}, (0, "")), (["sh", "-c", "kill -9 $$"], {}, (-9, "")),
                                   (["sh", "-c", "kill -9 $$"], {"memory": "1G"}, (None, "it took more memory than its limit"))):
            key, _ = self.begin(words, limits=bounds)
            self.children.runs[key].cgroup = types.SimpleNamespace(ran_out_of_memory=lambda: True, has_any=lambda: False, kill=lambda: None, remove=lambda: None)
            self.assertEqual(self.end_of(key), end)


if __name__ == "__main__":
    unittest.main()
