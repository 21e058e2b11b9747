"""The status of a cluster as lines for people."""
import time

import events

WELL = "running"
LONGEST_WHY = 200  # children of which it is told why they don't run; --json has all


def moment(heard):
    return "never" if heard is None else f"{heard} s ago"


def said(how):
    """How a machine is heard, where that isn't as it should be."""
    return "" if how in ("here", "in touch", "silent", "not heard yet") else f", {how}"


def lasted(seconds):
    """A time in its two greatest units."""
    seconds = max(0, int(seconds))
    for unit, size, less, part in ("d", 86400, "h", 3600), ("h", 3600, "min", 60), ("min", 60, "s", 1):
        if seconds >= size:
            return f"{seconds // size} {unit} {seconds % size // part} {less}"
    return f"{seconds} s"


def since(child, run, now):
    """For how long a run of a child goes on, "" where that isn't known."""
    began = next((began for machine, number, process, began, _, how in reversed(child["history"])
                  if machine == run[0] and (number == run[1] or process == run[2] != 0) and not how), None)
    return "" if began is None else lasted(now - began)


def tables(status):
    """The status as lines for people."""
    several, now = status["groups"] > 1, time.time()
    machines = [["machine", "member", "last contact", "label"]]
    for machine in status["machines"]:
        heard = "here" if machine["name"] == status["name"] else moment(machine["heard"])
        machines.append([machine["name"], machine["member"], heard + said(machine["how"]), machine["label"]])
    rows = [["child", "state", "place", "runs on", "run", "process", "for", "restarts", "last exit", "kind", "arg"] + ["group"] * several]
    for child in status["children"]:
        lead, end = [child["id"], child["state"], child["place"] or "none"], [child["kind"], child["arg"]] + [str(child["group"])] * several
        runs = [[*map(str, run[:3]), since(child, run, now), *map(str, run[3:])] for run in child["runs"]]
        rows += [lead + run + end for run in runs or [["", "", "", "", str(child["restarts"] or ""), child["last"]]]]
    names = [["name", "dot", "child"]] + [name.split(" ", 2) for name in status["names"]]
    ending = [["deleted, and running still"]] + [[f"{ident} on {name}"] for ident, name in status["ending"]]
    noted = [["runs, but"]] + [[f"{child['id']}: {child['health']}"] for child in status["children"] if child["health"]]
    parts = [table(machines), table(rows), why(status)] + [table(more) for more in (noted, names, losers(status), ending)]
    refused = ", ".join(f"{count} {why}" for why, count in status["refused"].items()) or "none"
    lead = f"agent {status['name']}: its node{'s' * several}: {status['node']}, boot {status['boot']}; refused lines: {refused}"
    reasons = [f"{machine['name']}: {', '.join(machine['reasons'])}" for machine in status["machines"] if machine["reasons"]]
    reasons += [f"{status['name']}: {fault}" for fault in faults(status)]
    return [lead, summary(status), *reasons] + [line for part in parts if len(part) > 1 for line in ["", *part]]


def faults(status):
    """What is wrong with files of the machine that was asked, and hinders nothing that runs."""
    return [f"{what}: {status[what]}" for what in ("kinds", "logs") if status.get(what)]


def summary(status):
    """How many there are of all, and of each state but the good ones."""
    counts, members = status["counts"], [machine["member"] for machine in status["machines"]]
    others = [f"{count} {state}" for state, count in sorted(counts.items()) if state != WELL]
    away = [f"{members.count(state)} {state}" for state in sorted(set(members)) if state != "open"]
    return "; ".join(": ".join([several(count, *words), ", ".join(told)]) for count, words, told in (
        (sum(counts.values()), ("child", "children"), others or ["all run"]), (len(members), ("machine", "machines"), away or ["all open"])))


def several(count, one, more):
    return f"{count} {one if count == 1 else more}"


def why(status):
    """Why children don't run, with their last runs."""
    ill = [child for child in status["children"] if child["state"] != WELL]
    more = [f"  and {len(ill) - LONGEST_WHY} more"] * (len(ill) > LONGEST_WHY)
    return ["children that don't run"] + [line for child in ill[:LONGEST_WHY] for line in [f"{child['id']}: {child['why']}", *runs(child)]] + more


def runs(child):
    """The last runs of a child, the newest first."""
    return [f"  {events.span(began, ended) if how else events.moment(began) + ' to now'} on {machine}, run {number or '?'}{': ' + how if how else ''}"
            for machine, number, _, began, ended, how in reversed(child["history"])]


def losers(status):
    rows = [[f"{loser['table']} {loser['key']}", loser["dot"], loser["line"] or "?", f"{loser['by'] or '?'} at {loser['at']}, {events.moment(loser['when'])}"]
            for loser in status["losers"]]
    return [["of two commands the one that lost", "dot", "line", "by"], *rows]


def table(rows):
    widths = [max(len(row[i]) for row in rows) for i in range(len(rows[0]))]
    return ["  ".join(cell.ljust(width) for cell, width in zip(row, widths)).rstrip() for row in rows]
