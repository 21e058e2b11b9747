"""Moves all children of one cluster to another one, by which the count of groups is changed.

A child is deleted where it was, and started in the other cluster once no machine in sight runs it any more. What it is started by is told
before it is deleted, so that whoever ends this in between can say it by hand.
"""
import time

import client
import groups

AT_ONCE = 20  # children
LOOK = 0.05   # seconds between two looks whether they have ended
AWAY = 10     # seconds without a word, after which a machine is away


class NotMoved(Exception):
    """What was refused, and what is to be said by hand."""


def move(here, there, secret, tell, without=(), wait=0):
    """Moves them from the cluster of the agent at one address to that of another. NotMoved; NoAnswer where an agent isn't there within `wait` seconds.

    Each machine of the first cluster has to be there, but those that will never be back: one that comes back later would know of no deletion,
    and, alone there, run all children.
    """
    status, other = (client.status(address, secret, wait=wait) for address in (here, there))
    for told in (status, other):
        if told["node"] != "runs":
            raise NotMoved(f"the agent {told['name']} doesn't know all children now, its node: {told['node']}")
    away = [one["name"] for one in status["machines"] if one["name"] not in without and (one["heard"] is None or one["heard"] > AWAY)]
    if away:
        raise NotMoved("away: " + " ".join(away))
    both = {child["id"] for child in status["children"]} & {child["id"] for child in other["children"]}
    if both:
        raise NotMoved("both clusters have " + " ".join(sorted(both)))
    for first in range(0, len(status["children"]), AT_ONCE):
        some = status["children"][first:first + AT_ONCE]
        lines = [line for child in some for line in lines_of(child, status["names"])]
        tell("\n".join(lines))
        try:
            end(here, secret, [child["id"] for child in some])
            while lines:
                do(there, secret, lines[0])
                lines.pop(0)
        except (client.NoAnswer, NotMoved) as fault:
            raise NotMoved("\n".join([str(fault), "to be said yet to the other cluster, once these children have ended:", *lines])) from None


def lines_of(child, names):
    """What starts a child anew, and gives it its names, of which each tells `NAME DOT ID ..`."""
    words = [f"{key}={child[key]}" for key in ("kind", "arg", "restart", "shutdown") if child[key]]
    return [" ".join(["start", child["id"], *words])] + [f"register {name.split(' ')[0]} {child['id']}" for name in names if name.split(" ")[2] == child["id"]]


def do(address, secret, line):
    told = client.ask(address, secret, line)
    if not groups.is_done(told):
        raise NotMoved(f"{line}: {told[0]}")


def end(address, secret, idents):
    """Deletes these, and waits until no machine runs one of them."""
    for ident in idents:
        do(address, secret, "delete " + ident)
    until = time.monotonic() + AWAY
    while True:
        status = client.status(address, secret)
        if status["node"] == "runs":
            if not any(ident in idents for ident, _ in status["ending"]):
                return
            until = time.monotonic() + AWAY
        elif time.monotonic() > until:  # which of these run still isn't known
            raise NotMoved(f"the agent {status['name']} doesn't know any more what runs, its node: {status['node']}")
        time.sleep(LOOK)
