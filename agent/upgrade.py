"""An agent becomes its newer program, by `exec`, which keeps a process with its children and its open files. So no child ends.

The newer program is tried first, beside this one: it takes up the table of runs, does nothing with it, and has its node begin with a copy of each
image. Where that fails this one goes on. Else it comes to rest: who waits for an answer has it, and who comes now waits for the newer program. Whatever
ends from then on stays a child of this process that has ended, until the newer program looks.
"""
import os
import shutil
import signal
import subprocess
import sys

import beside
import handover
import processes
from clock import seconds

SIGNALS = {signal.SIGTERM, signal.SIGINT, signal.SIGHUP, signal.SIGUSR2}  # those that wait while no program of this agent listens
WELL_WITHIN, TRIED_WITHIN, ENDS_WITHIN = 15, 40, 30  # seconds for what hinders this machine to pass, for the trial, and for a node in it
LOOK_EACH = 0.02  # seconds between two looks whether it is at rest
MOST_SAID = 2000  # bytes at the end of what the trial says that are read
COPY = ".trial"   # of an image
SLOW = "the newer program begins in"


class Upgrade:
    def __init__(self, agent):
        self.agent, self.asked, self.step, self.until, self.trial = agent, [], None, 0, None  # `asked`: who takes the answer, None for a signal

    def ask(self, answer=None):
        """`answer` takes a line that begins with `ok` just before this program ends, or a reason. Where it is tried already it is tried again, since it
        may have changed."""
        self.asked.append(answer)
        self.step, self.until = self.begin, seconds() + WELL_WITHIN

    def tick(self, now):
        if self.step and self.agent.stops:
            self.refuse("it was told to leave")
        elif self.step:
            self.step(now)

    def is_resting(self):
        return self.step == self.rest

    def moment(self):
        """When it wants to go on, though nothing happens."""
        return seconds() + LOOK_EACH if self.is_resting() else float("inf")

    # -- its steps

    def begin(self, now):
        why = "; ".join(dict.fromkeys(filter(None, (group.core.why() for group in self.agent.groups))))
        if not why:
            self.end_trial()
            try:
                self.step, self.until, self.trial = self.look, now + TRIED_WITHIN, Trial(handover.table_of(self.agent))
            except OSError as fault:
                self.refuse(f"the newer program can't be tried: {fault.strerror}")
        elif now > self.until:
            self.refuse(why)

    def look(self, now):
        """Looks whether the trial has ended, and how."""
        why, took, silent = self.trial.result(), now - self.trial.began, self.agent.options.silent
        if why or now > self.until:
            self.refuse("the newer program can't go on with its runs: " + (why or f"it was tried for {TRIED_WITHIN} s"))
        elif why is not None and took > silent and any(group.core.members.others for group in self.agent.groups):
            self.refuse(f"{SLOW} {took:.1f} s, and the others wait {silent:g} s for a machine that is silent")
        elif why is not None:
            self.agent.server.listens(False)
            self.step, self.until = self.rest, now + self.agent.options.patience

    def rest(self, now):
        if now > self.until or self.is_at_rest():
            self.become()

    def is_at_rest(self):
        """Whether nobody waits for an answer or a line to be written, and no group has something to finish."""
        agent = self.agent
        busy = agent.events or agent.questions.asked or agent.scrapes and agent.scrapes.all or agent.logs.writer.size
        waiting = sum(caller.way is None for caller in agent.server.callers) - sum(answer is not None for answer in self.asked)
        return not busy and waiting <= 0 and all(group.is_at_rest() for group in agent.groups)

    def become(self):
        """Is the newer program from here on, unless the system refuses that."""
        agent = self.agent
        signal.pthread_sigmask(signal.SIG_BLOCK, SIGNALS)
        if agent.stops:
            signal.pthread_sigmask(signal.SIG_UNBLOCK, SIGNALS)
            return
        for group in agent.groups:
            group.rest()
        table = handover.table_of(agent)
        agent.log("becomes its newer program, with", sum(len(group.children.runs) for group in agent.groups), "runs")
        self.tell(f"ok {agent.name} goes on as its newer program")
        file = handover.file_of(table)
        for one in [file, *handover.files_of(table)]:
            os.set_inheritable(one, True)
        try:
            os.execve(sys.executable, words(), {**os.environ, handover.VARIABLE: str(file)})
        except OSError as fault:
            signal.pthread_sigmask(signal.SIG_UNBLOCK, SIGNALS)
            self.refuse(fault.strerror)

    # -- its end

    def refuse(self, why):
        self.agent.log("goes on as it is:", why)
        self.end_trial()
        self.step = None
        self.tell("not upgraded: " + "".join(one if one.isascii() and one.isprintable() else "?" for one in why))

    def tell(self, line):
        asked, self.asked = self.asked, []
        for answer in filter(None, asked):
            answer([line])

    def end_trial(self):
        if self.trial is not None:
            self.trial.close()
            self.trial = None


def words():
    """Those by which this program was begun."""
    with open("/proc/self/cmdline", "rb") as file:
        return [os.fsencode(sys.executable), *file.read().split(b"\0")[1:-1]]


class Trial:
    """The newer program, which takes up a table and ends."""

    def __init__(self, table):
        self.began, self.said, file = seconds(), os.memfd_create("said"), handover.file_of(table)
        self.process = beside.Beside(processes.begin([*words(), b"--check-upgrade"], stdin=subprocess.DEVNULL, stdout=subprocess.DEVNULL, stderr=self.said,
                                                     pass_fds=[file, *handover.files_of(table)], env={**os.environ, handover.VARIABLE: str(file)}))
        os.close(file)

    def result(self):
        """None while it goes on, then the last line that it said, or how it ended; "" where all is well."""
        how = self.process.result()
        if not how:
            return how
        said = os.pread(self.said, MOST_SAID, max(0, os.fstat(self.said).st_size - MOST_SAID)).decode("utf-8", "replace").split("\n")
        return next((line for line in reversed(said) if line.strip()), how)

    def close(self):
        self.process.close()
        os.close(self.said)


def try_nodes(agent):
    """Has a node begin with a copy of each image. OSError where there is no room for it, NotTaken where it doesn't begin."""
    for group in agent.groups:
        copy = group.image + COPY
        try:
            shutil.copyfile(group.image, copy)
            told = subprocess.run([copy if word == group.image else word for word in group.words_of_node], stdin=subprocess.DEVNULL, stdout=subprocess.PIPE,
                                  stderr=subprocess.PIPE, timeout=ENDS_WITHIN)
        except subprocess.TimeoutExpired:
            raise handover.NotTaken(f"its node takes longer than {ENDS_WITHIN} s to begin") from None
        finally:
            for end in ("", ".lock", ".new"):
                if os.path.exists(copy + end):
                    os.unlink(copy + end)
        if told.returncode or not told.stdout.startswith(b"ok boot "):
            raise handover.NotTaken("its node can't begin: " + (told.stderr.decode("ascii", "replace").strip() or f"status {told.returncode}"))
