"""What sees, of the processes of this machine, which are of children of a test."""
import os
import threading
import time

import leftovers

SCAN = 0.02  # seconds between two looks
FRESH_WITHIN = 10  # seconds in which a further look is made, if ever
STRANGE = 10  # seconds after which a process without the mark is looked at no more; on a busy machine a new one may take a while to become its program


def parent(process):
    with open(f"/proc/{process}/stat") as file:
        return int(file.read().rsplit(")", 1)[1].split()[1])


def children_of(process):
    with open(f"/proc/{process}/task/{process}/children") as file:
        return file.read().split()


def command(process):
    with open(f"/proc/{process}/cmdline") as file:
        return file.read().split("\0")


def lives(process):
    """Whether a process is there that hasn't ended; one that has may stay for its parent."""
    try:
        return leftovers.Process(process).lives
    except OSError:
        return False


class Watcher(threading.Thread):
    """Looks again and again which processes carry the mark of a folder: at each look of each child its processes, as (number, machine)."""

    def __init__(self, folder):
        super().__init__(daemon=True)
        self.mark, self.looks, self.strange_since, self.goes_on = f"{leftovers.MARK}={folder}/".encode(), [], {}, True
        self.has_looked, self.held = threading.Condition(), []  # `held`: one look for all who ask meanwhile, None until somebody does; the last one counts
        self.start()

    def run(self):
        while self.goes_on:
            look = time.monotonic(), self.look()
            with self.has_looked:
                self.looks.append(look)
                self.has_looked.notify_all()
            time.sleep(SCAN)

    def look(self):
        seen, alive, now = {}, set(), time.monotonic()
        for name in os.listdir("/proc"):
            if not name.isdecimal():
                continue
            alive.add(name)
            if now - self.strange_since.setdefault(name, now) > STRANGE:
                continue
            words = leftovers.environment(name)
            if self.is_marked(words):
                self.strange_since[name] = now
                of = dict(word.decode().partition("=")[::2] for word in words if word.startswith(b"SEBRAKT_"))
                if of.get("SEBRAKT_ID") and of.get("SEBRAKT_NODE") and "SEBRAKT_PROCESS" not in of:  # which those have that run beside a child: its checks, and what stops it
                    seen.setdefault(of["SEBRAKT_ID"], set()).add((int(name), of["SEBRAKT_NODE"]))
        self.strange_since = {name: since for name, since in self.strange_since.items() if name in alive}
        for runs in seen.values():
            if len(runs) > 1:  # a look takes its time: who has ended by now may not have run beside who came after it
                runs -= {run for run in runs if not self.is_marked(leftovers.environment(run[0]))}
        return seen

    def is_marked(self, words):
        return any(word.startswith(self.mark) for word in words)

    def now(self):
        """A look that was begun after this was asked for, and when: an earlier one may tell of who has ended since. The last one where nobody looks."""
        look = self.held[-1] if self.held and self.held[-1] else self.fresh()
        self.held[-1:] = [look] * bool(self.held)
        return look

    def fresh(self):
        asked = time.monotonic()
        with self.has_looked:
            self.has_looked.wait_for(lambda: not self.goes_on or self.looks and self.looks[-1][0] >= asked, FRESH_WITHIN)
            return self.looks[-1] if self.looks else (0, {})

    def since(self, began):
        return [look for look in self.looks if look[0] >= began]

    def longest(self, began, ident, wrong):
        """The longest time in which every look had `wrong` many processes of a child, from the first such look to the next other one."""
        longest, first = 0, None
        for moment, seen in self.since(began):
            if wrong(len(seen.get(ident, ()))):
                first = moment if first is None else first
                longest = max(longest, moment - first)
            else:
                longest = max(longest, moment - first) if first is not None else longest
                first = None
        return longest

    def stop(self):
        with self.has_looked:
            self.goes_on = False
            self.has_looked.notify_all()
        self.join(5)
