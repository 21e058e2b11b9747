"""What the agents promise: each as a function, by whose name it is told, that gives what in a world breaks it."""
import collections

from core.node import NO_NODE
from simulator.nodes import weight

BOUND = 45               # seconds after the last fault within which all has to be well
CALM = 4                 # seconds for which it has to stay so
SILENT = 3               # as the agents' option
MANY = 4                 # begins of a child for each fault, at most
SETTLED = 3 * SILENT     # seconds for which a cut has stood, when nothing is to begin any more
NAME_IS_TAKEN = 4        # seconds in which nobody can tell a machine from the one that takes its name
BAD = "cm"               # the first letters of children that crash, or can't be begun


# what `play.py` looks at itself
WELL = "well after the last fault"                       # each wanted child runs exactly once and all tables are equal, within BOUND
ONE_EACH = "one process of a child on a machine"         # nor one beside what an earlier agent left
NO_ERROR = "no error"


def when(script, verb):
    return [step.at for step in script.steps if step.verb == verb]


# -- while faults last

def once_while_all_hear_one_another(world, script):
    """While all machines hear one another, straight or through others, no child has two processes."""
    for moment, ident, one, other, was_whole in world.doubles:
        if was_whole and not any(0 <= moment - at < NAME_IS_TAKEN for at in when(script, "twin")):
            yield f"{ident} begins on {one}, lives on {other}, at {moment:.3f}"


def once_under_a_cut_that_stands(world, script):
    """Under a cut that stands, after which all hear one another through others, or with a majority, each child has one process."""
    few = hears_nobody(script)
    for ident in started(world):
        live = [process.machine.key for process in world.live.get(ident, ()) if process.machine.key not in few]
        if len(live) != 1:
            yield f"{ident} runs on {live}"


def settles_under_a_cut_that_stands(world, script):
    """No child begins more than twice once a cut has stood for three times `--silent`."""
    settled = min(when(script, "cut"), default=script.end) + SETTLED
    since = collections.Counter(ident for moment, ident, _ in world.begins if moment > settled)
    for ident, count in since.items():
        if count > 2:
            yield f"{ident} began {count} times"


def nobody_pays(world, script):
    """A child that fails, a node that is slow or held, and an agent that becomes another program cost no other child anything."""
    for ident, count in begins_of_children(world).items():
        if count > 1:
            yield f"{ident} began {count} times"


def crash_loops_are_slow(world, script):
    """A child that ends again and again begins ever later."""
    for ident, count in collections.Counter(ident for _, ident, _ in world.begins if ident[0] in BAD).items():
        if count > 8:
            yield f"{ident} began {count} times"


def one_of_two_of_a_name_runs(world, script):
    """Of two machines of one name one runs nothing, and says why."""
    if min(world.ran_of_twins) > 0:
        yield f"{world.ran_of_twins[0]} processes on the one and {world.ran_of_twins[1]} on the other"
    if not any("of this name" in str(line) for _, words in world.log for line in words):
        yield "nobody tells of the other one"


def strangers_run_nothing(world, script):
    """A machine with another secret, or one that places and counts otherwise, runs nothing and says why; the others run all."""
    stranger = next(machine for machine in world.machines.values() if machine.secret or machine.setting)
    if stranger.processes:
        yield f"{len(stranger.processes)} processes on {stranger.name}"
    if not stranger.agent.core.why():
        yield f"{stranger.name} doesn't say why"
    for ident in started(world):
        live = [process.machine.key for process in world.live.get(ident, ()) if process.machine is not stranger]
        if len(live) != 1:
            yield f"{ident} runs on {live}"


def heirs_run_all(world, script):
    """A machine that places and counts otherwise than those that were there goes on once these are gone, and says in whose place."""
    heir = next(machine for machine in world.machines.values() if machine.setting)
    missing = set(started(world)) - {process.id for process in heir.processes.values()}
    if missing or heir.agent.core.state != "later":
        yield f"{sorted(missing)} run nowhere, and {heir.name} says: {heir.agent.core.why()}"


def a_full_disk_stops_no_child(world, script):
    """Where a machine can keep nothing new, each child runs once, there or elsewhere, and the machine says why it is no place for children."""
    for ident in started(world):
        live = [process.machine.key for process in world.live.get(ident, ())]
        if len(live) != 1:
            yield f"{ident} runs on {live}"
    full = next(machine for machine in world.machines.values() if machine.is_full)
    if full.agent.core.state != "full":
        yield f"{full.name} tells not that its disk is full"


def a_lost_image_alone_waits(world, script):
    """A machine with a new image, beside peers that are all silent, runs nothing and says why."""
    alone = next(machine for machine in world.machines.values() if machine.agent is not None)
    if alone.processes:
        yield f"{len(alone.processes)} processes on {alone.name}"
    if not alone.agent.core.why():
        yield f"{alone.name} doesn't say why"


# -- after the last fault

def healing_ends_no_run(world, script):
    """When a partition heals, what runs at its place goes on."""
    for moment, ident, machine in world.begins:
        if moment > script.end:
            yield f"{ident} began on {machine} at {moment:.3f}"


def begins_are_bounded(world, script):
    """A child begins at most some times for each fault."""
    faults = len(script.faults()) + sum("drain" in step.words for step in script.steps)
    for ident, count in begins_of_children(world).items():
        if count > MANY * (faults + 2):
            yield f"{ident} began {count} times, by {faults} faults"


def no_command_is_lost(world, script):
    """What was answered `ok` by a machine whose disk held isn't lost. What nobody answered, since the node ended meanwhile, may be done or not."""
    done, untold = {"start": set(), "delete": set(), "replace": set()}, set()
    for token, command in world.commands.items():
        reply, (verb, ident) = world.replies.get(token, [""])[0], command.line.split(" ")[:2]
        if reply.startswith("ok") and verb in done and not is_lost(world, command, reply):
            done[verb].add(ident)
        elif reply in ("", *NO_NODE) and verb != "start":
            untold.add(ident)
    there = {key for table, key, _ in next(iter(world.machines.values())).state().rows.values() if table == "child"}
    for ident in done["start"] - done["delete"] - done["replace"] - untold - there:
        yield f"{ident} was started, and isn't there"
    for ident in done["delete"] & there - done["replace"] - untold:
        if not any(machine.losses for machine in world.machines.values()):
            yield f"{ident} was deleted, and is there"


def is_lost(world, command, reply):
    """Whether what a command made stood on a disk alone that was lost."""
    if not reply.startswith("ok ("):
        return False
    name, number = reply.split(" ")[1].strip("()").split(",")
    dot = int(number), name
    return any(dot in loss.gone and dot not in loss.elsewhere for loss in world.machines[command.machine].losses[command.losses:])


def lost_images_are_told(world, script):
    """A machine that began with an image which lacks what others know of it says so, if it lives until it hears all of them."""
    for machine in world.machines.values():
        for moment, count in machine.lacks:
            if moment > machine.ended_at and not any("lost or old" in line for when, line in machine.log if when > moment):
                yield f"{machine.name} knows not that {count} of its dots are known elsewhere"


def no_dot_is_given_twice(world, script):
    """A machine whose image was lost, or is an older one, gives no entry a number that another machine which it hears knows of it already. One that
    has fallen silent before it told all may be dead, and who waited for the dead would run nothing."""
    for moment, machine, (number, name) in world.given_twice:
        if not when(script, "twin"):
            yield f"{machine} gave ({name},{number}) again at {moment:.3f}"


# -- what is asked of each flavour

WHILE = (once_while_all_hear_one_another, no_dot_is_given_twice)
STANDING = (once_under_a_cut_that_stands, settles_under_a_cut_that_stands)
UNDER = {"cut": STANDING, "one-way": STANDING, "mute": STANDING, "least": STANDING, "deaf": STANDING, "partition": (settles_under_a_cut_that_stands,),
         "crash": (nobody_pays, crash_loops_are_slow), "slow": (nobody_pays,), "upgrade": (nobody_pays,), "twin": (one_of_two_of_a_name_runs,), "stranger": (strangers_run_nothing,),
         "heir": (heirs_run_all,), "full": (a_full_disk_stops_no_child,), "alone": (a_lost_image_alone_waits,)}
AFTER = (begins_are_bounded, no_command_is_lost, lost_images_are_told)
AFTER_OF = {"partition": (healing_ends_no_run,)}


def name_of(promise):
    return promise.__name__.replace("_", " ")


# what can't be had behind an older image whose machine met nobody that knew more
NOT_BEHIND_AN_OLDER_IMAGE = {WELL, *map(name_of, AFTER)}


# -- looks at a world

def started(world):
    """The children whose start was answered `ok`, and that can run."""
    lines = [command.line.split(" ") for token, command in world.commands.items() if world.replies.get(token, [""])[0].startswith("ok")]
    return [words[1] for words in lines if words[0] == "start" and words[1][0] not in BAD]


def hears_nobody(script):
    """The machines to which, by the cut, no line goes: they can't know of the others."""
    gone = {pair for step in script.steps if step.verb == "cut" for pair in step.words[1:]}
    deaf = {name for name in script.machines if all(f"{other}>{name}" in gone for other in script.machines if other != name)}
    return deaf if script.flavour == "deaf" else set()


def begins_of_children(world):
    return collections.Counter(ident for _, ident, _ in world.begins if ident[0] not in BAD)


def why_not_well(world):
    """Why not each child that is wanted runs once, at its place, with equal tables everywhere; None where it does."""
    agents = [machine.agent for machine in world.machines.values()]
    if not all(agent and agent.node for agent in agents):
        return "a node is away"
    states = [machine.state() for machine in world.machines.values()]
    first = states[0]
    if any(state.known != first.known or state.rows != first.rows for state in states[1:]):
        return "tables differ"
    members = {row[1] for row in first.rows.values() if row[0] == "member" and row[2][1] == "open"}
    if members != set(world.machines):
        return f"members are {sorted(members)}"
    wanted = {ident: (max(members, key=lambda member: weight(member, ident)), first.rows[dots[0]][2].kind) for ident, dots in first.entries("child").items()}
    for ident, (place, kind) in wanted.items():
        live = world.live.get(ident, ())
        if kind not in ("crash", "missing") and ([process.machine.name for process in live] != [place] or any(process.is_told_to_end for process in live)):
            return f"{ident} runs on {[process.machine.name for process in live]} and not on {place}"
    more = [ident for ident, live in world.live.items() if live and ident not in wanted]
    return f"{more} run and aren't wanted" if more else None
