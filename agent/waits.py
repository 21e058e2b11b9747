"""Waits until children run, and tells why one doesn't."""
import time

import client
from core import word

STEADY = 1.2  # seconds for which a child's run is seen until the child counts as running: one that fails at once doesn't
LOOK = 0.3    # seconds between two looks
NOT_READY = "not ready"  # how it begins what is told of a run that isn't


class Wait:
    """For children, of which some runs (machine, number, process) count no more: those before a replace."""

    def __init__(self, idents, old=()):
        self.idents, self.old, self.since = list(idents), set(old), {}

    def look(self, status, now):
        """Takes a status that came at a moment. Of each child that doesn't run steadily yet, why."""
        children = {child["id"]: child for child in status["children"]}
        return {ident: why for ident in self.idents for why in [self.look_at(ident, children.get(ident), now)] if why}

    def look_at(self, ident, child, now):
        if child is None:
            return "it is no child any more: it was deleted, or has ended for good"
        new = [run for run in runs_of(child) if run not in self.old] if child.get("state") != word.STOPPING else []
        if not new:
            self.since.pop(ident, None)
            return child["why"] if not child["runs"] else f"its earlier run on {child['runs'][0][0]} hasn't ended yet (it has {child['shutdown']} ms)"
        if child.get("health", "").startswith(NOT_READY):
            return child["health"]
        run, moment = self.since.get(ident, (None, None))
        if run not in new:
            self.since[ident] = new[0], now
        elif now - moment >= STEADY:
            return None
        return f"its run on {new[0][0]} has begun just now"


def runs_of(child):
    return [tuple(run[:3]) for run in child["runs"]]


def until_they_run(agent, idents, old, patience):
    """Waits at most so many seconds. Of each child that doesn't run then, why."""
    return until(agent, patience, Wait(idents, old).look)


def until_it_is_empty(agent, machine, patience):
    """Waits at most so many seconds until no child runs on a machine. Of each child that still does, why."""
    return until(agent, patience, lambda status, _: {child["id"]: f"it runs on {machine} still" for child in status["children"]
                                                     if machine in [run[0] for run in child["runs"]]})


def until(agent, patience, look):
    end = time.monotonic() + patience
    while True:
        try:
            status = agent.status()
            left = look(status, time.monotonic()) if status["node"] == "runs" else {"": f"the agent doesn't know all children now, its node: {status['node']}"}
        except client.NoAnswer as fault:
            left = {"": f"the agent doesn't answer: {fault}"}
        if not left or time.monotonic() > end:
            return left
        time.sleep(LOOK)
