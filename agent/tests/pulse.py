"""How busy the machine is that runs the tests. Their waits and bounds, and the times of their agents, scale with how long some work takes when they
begin; their bounds scale besides with how late a plain sleep comes back meanwhile.
"""
import os
import threading
import time

from promises import Promise

PACE = float(os.environ.get("PACE", "1"))  # how many times as long all waits and bounds are, whatever the machine does; `run.py` measures it
WORK = 0.5   # seconds of work by which it is measured
BEAT = 0.05  # seconds of a sleep


def slowness():
    """How many times as long some work takes as on a machine that has a processor for it."""
    began, before = time.monotonic(), time.process_time()
    while time.process_time() - before < WORK:
        pass
    return max(1, (time.monotonic() - began) / WORK)


class Pulse(threading.Thread):
    def __init__(self):
        super().__init__(daemon=True)
        self.beats = []  # when each sleep began, and how long it took
        self.start()

    def run(self):
        while True:
            began = time.monotonic()
            time.sleep(BEAT)
            self.beats.append((began, time.monotonic() - began))

    def lateness(self, since):
        """How many times as long as they should sleeps took since a moment; 1 on a machine that has time."""
        took = [took for began, took in self.beats if began >= since]
        return max(1, sum(took) / (len(took) * BEAT)) if took else 1


pulse = Pulse()
judges = []  # those who look whether something has come that is waited for, from `begin_look()` to `end_look()`, and tell by `broken()` what is wrong where it doesn't come


def bound(seconds, since):
    """What so many seconds of a machine that has time are on this one."""
    return seconds * PACE * pulse.lateness(since)


def until(seconds, holds, what):
    """Waits until something holds; how long that took. AssertionError once a bound of so many seconds has passed, Promise where one is broken then."""
    began = time.monotonic()
    while not is_so(holds):
        if time.monotonic() - began > bound(seconds, began):
            late, broken = f"not within {bound(seconds, began):.1f} s: {what}", [line for judge in list(judges) for line in judge.broken()]
            raise Promise("; ".join([late, *broken])) if broken else AssertionError(late)
        time.sleep(0.02)
    return time.monotonic() - began


def is_so(holds):
    looking = list(judges)
    for judge in looking:
        judge.begin_look()
    try:
        return holds()
    finally:
        for judge in looking:
            judge.end_look()


if __name__ == "__main__":
    print(slowness())
