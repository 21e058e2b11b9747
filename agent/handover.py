"""What an agent hands on to its newer program: a table, as JSON in a file without a name, and the files that stay open.

All of the table's form is said here, so FORMAT changes with this file. What isn't handed on begins anew: the node, connections, what others have told.
The mark stays: a session of a later boot is a later one.
"""
import collections
import dataclasses
import json
import os

import beside
import cgroups
import health
import history
import kinds
import limits
import logs
import one_run
import processes
import users
from clock import seconds
from core import runs as core_runs

FORMAT = 1
VARIABLE = "SEBRAKT_TABLE"                    # names the file to the newer program
KEPT_SETTINGS = "name", "image", "groups"     # other ones are another agent's
OF_RUN = "shutdown", "given_up_at", "is_ending", "reason", "kill_at", "ends_at"
OF_HEALTH = "failed", "why", "unready", "counts_from"


class NotTaken(ValueError):
    """Why a table can't be gone on with."""


# -- the whole

def table_of(agent):
    sockets = (agent.options.listen, agent.server), (agent.options.metrics, agent.scrapes)
    return {"format": FORMAT, "settings": settings_of(agent.options), "mark": agent.mark, "links": agent.links.handed(), "cgroup": agent.cgroup, "files": limits.files_of_children,
            "sockets": [[*address, one.socket.fileno()] for address, one in sockets if one], "groups": [of_group(group) for group in agent.groups],
            "tails": {ident: [text_of(tail.before), text_of(tail.text), tail.end, tail.where, tail.said_at] for ident, tail in agent.logs.tails.items()},
            "events": of_events(agent.watch.events), "history": agent.watch.history.runs, "losers": sorted(agent.watch.losers)}


def settings_of(options):
    return {name: getattr(options, name) for name in KEPT_SETTINGS}


def fault_of(table, options):
    """Why an agent with these options can't go on with a table, None where it can."""
    if table["format"] != FORMAT:
        return f"the table of runs has the format {table['format']}, and this program takes {FORMAT}"
    changed = [name for name, value in settings_of(options).items() if table["settings"][name] != value]
    return f"{' and '.join(changed)} changed, which takes a stop and a begin" if changed else None


def take_tails(kept, table):
    for ident, (before, text, end, where, said_at) in table["tails"].items():
        tail = kept.tails[ident] = logs.Tail()
        tail.before, tail.text, tail.end, tail.where, tail.said_at = bytes_of(before), bytes_of(text), end, where, said_at


def take_rest(agent, table):
    """Gives an agent what isn't a group's own, and closes the sockets of addresses that it has no more."""
    taken = [one.socket.fileno() for one in (agent.server, agent.scrapes) if one]
    for _, _, file in table["sockets"]:
        if file not in taken:
            os.close(file)
    if table["links"]:
        agent.links.go_on(table["links"])
    take_events(agent.watch.events, table["events"])
    agent.watch.history.runs = {ident: tuple(history.Run(*run) for run in runs) for ident, runs in table["history"].items()}
    agent.watch.losers = {tuple(loser) for loser in table["losers"]}


def of_events(events):
    return {"n": events.n, "count": events.count, "others": list(events.others), "commands": [[*key, *kept] for key, kept in events.commands.items()]}


def take_events(events, table):
    events.n, events.count = table["n"], table["count"]
    events.others.extend(map(tuple, table["others"]))
    events.commands = collections.OrderedDict(((mark, count), (n, event)) for mark, count, n, event in table["commands"])


# -- a group: what its core knows of its runs, and these as processes

def of_group(group):
    return {"core": of_core(group.core.runs), "processes": [[key, of_run(run)] for key, run in group.children.runs.items()], "sessions": group.children.sessions.live}


def take_group(group, table):
    take_core(group.core.runs, table["core"])
    for key, handed in table["processes"]:
        group.children.resume(key, run_of(group.children, handed))
    group.children.sessions.live = {int(number): begun for number, begun in table["sessions"].items()}


def of_core(runs):
    live = [[run.key, run.id, run.number, run.spec, run.begun, run.process, run.stops, run.kill_at] for run in runs.live.values()]
    return {"keys": runs.keys, "live": live, "ends": runs.ends, "waits": [[*form, *waits] for form, waits in runs.backoff.of.items()]}


def take_core(runs, table):
    """Gives a core that begins the runs of an earlier one. What its node orders first tells which of them go on, and what waits."""
    runs.keys = table["keys"]
    for key, ident, number, spec, begun, process, stops, kill_at in table["live"]:
        run = runs.here[ident] = runs.live[key] = core_runs.Run(key, ident, number, spec, begun)
        run.process, run.stops, run.kill_at = process, stops, kill_at
        if stops:
            runs.ending[key] = run
    runs.kill_from = min((run.kill_at for run in runs.ending.values()), default=core_runs.NEVER)
    runs.ends = {ident: tuple(told) for ident, told in table["ends"].items()}
    runs.backoff.of = {(ident, spec): (short, due) for ident, spec, short, due in table["waits"]}
    runs.touched.update(runs.here)


# -- a run as a process

def of_run(run):
    handed = {"kind": dataclasses.asdict(run.kind)}
    if isinstance(run, one_run.Note):
        return {**handed, "is_over": run.is_over}
    place, stopper = run.place, run.stopper and run.stopper.process
    return {**handed, **{name: getattr(run, name) for name in OF_RUN}, "process": of_process(run.process), "stopper": stopper and of_process(stopper),
            "place": [place.before, place.user, place.folder, place.environment], "cgroup": run.cgroup and run.cgroup.folder,
            "stream": run.stream and [run.stream.pipe, text_of(run.stream.rest)], "health": run.health and of_health(run.health)}


def run_of(children, handed):
    """A run that an earlier program has begun. OSError, TypeError or KeyError where it is none for this one."""
    kind = kinds.Kind(**handed["kind"])
    if "is_over" in handed:
        run = one_run.Note(kind)
        run.is_over = handed["is_over"]
        return run
    before, user, folder, environment = handed["place"]
    place = beside.Place(before, user and users.User(*user), folder, environment)
    cgroup = handed["cgroup"] and cgroups.Cgroup(handed["cgroup"])
    checks = handed["health"] and health_of(handed["health"], kind, place, children)
    run = one_run.Run(processes.Begun(*handed["process"]), kind, handed["shutdown"], place, cgroup, stream_of(children.logs, kind, environment, handed["stream"]), checks)
    for name in OF_RUN:
        setattr(run, name, handed[name])
    run.stopper = handed["stopper"] and beside.Beside(processes.Begun(*handed["stopper"]))
    return run


def of_process(process):
    return process.pid, process.returncode


def stream_of(kept, kind, environment, handed):
    if handed is None:
        return None
    stream = kept.stream(environment["SEBRAKT_ID"], environment["SEBRAKT_RUN"], kind, (handed[0], None))
    stream.rest = bytes_of(handed[1])
    return stream


def of_health(checks):
    return {**{name: getattr(checks, name) for name in OF_HEALTH}, "is_ready": checks.ready is None, "at": [one and one.at for one in (checks.ready, checks.check)]}


def health_of(handed, kind, place, children):
    """Checks that go on. One that was under way is made anew."""
    checks = health.Health(kind, place, children.loop, children.wake, seconds())
    for name in OF_HEALTH:
        setattr(checks, name, handed[name])
    checks.ready = None if handed["is_ready"] else checks.ready
    for one, at in zip((checks.ready, checks.check), handed["at"]):
        if one is not None:
            one.at = at
    return checks


# -- its file, and the files that stay open

def socket_at(table, address):
    """The file of the socket that listens at an address, None where none does."""
    return next((file for host, port, file in table["sockets"] if (host, port) == tuple(address)), None) if table and address else None


def file_of(table):
    """A file without a name that has it."""
    file = os.memfd_create("table")
    with open(file, "wb", closefd=False) as out:
        out.write(json.dumps(table).encode())
    return file


def files_of(table):
    """What stays open besides: the pipes of runs, and the sockets at which this agent listens."""
    pipes = [handed["stream"][0] for group in table["groups"] for _, handed in group["processes"] if handed.get("stream")]
    return [file for file in pipes if file is not None] + [file for _, _, file in table["sockets"]]


def read():
    """The table of an earlier program of this agent, None where there was none. NotTaken where it is none; OSError."""
    file = os.environ.pop(VARIABLE, "")
    if not file:
        return None
    try:
        with open(int(file), "rb") as told:
            told.seek(0)
            table = dict(json.load(told))
        form = table["format"]
    except (KeyError, TypeError, ValueError):
        raise NotTaken("there is no table of runs") from None
    for one in files_of(table) if form == FORMAT else ():
        os.set_inheritable(one, False)
    return table


def text_of(data):
    return data.decode("latin-1")


def bytes_of(text):
    return text.encode("latin-1")
