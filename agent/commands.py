"""What the command `sebrakt` does: each of its words is a line for an agent's node, or a look at what it shows."""
import dataclasses
import os
import sys

import apply
import asking
import child_file
import client
import command_words
import doing
import event_commands
import file_commands
import groups
import log_commands
import refusals
import seals
import settings
import shown
import waits
import wanted
from telling import NotDone, Told


UPGRADED_WITHIN, WELL_WITHIN = 60, 20  # seconds for an agent's newer program to be there, and to be well


# -- commands that change something

def start(agent, options, told):
    run_child(agent, options, told, "start", child_of(options, wanted.Child(options.id, "")))


def replace(agent, options, told):
    before = known(agent, child_of(options, wanted.Child(options.id, "KIND")), "replace")
    run_child(agent, options, told, "replace", child_of(options, before))


def restart(agent, options, told):
    run_child(agent, options, told, "restart", known(agent, wanted.Child(options.id, ""), "restart"))


def known(agent, child, verb):
    """What is known of a child. NotDone where there is none."""
    before = agent.tables().children.get(child.id)
    if before is None:
        raise NotDone(*refusals.words_of(child.line(verb), "refused 5 NotFound"))
    return before


def child_of(options, before):
    """A child with what is said, and with what was before where nothing is."""
    said = {key: getattr(options, key) for key in command_words.OPTIONS}
    return dataclasses.replace(before, **{key: value for key, value in said.items() if value is not None})


def run_child(agent, options, told, verb, child):
    """A restart is a replace by the same."""
    old = doing.runs_now(agent, [child.id]) if options.wait and verb != "start" else []
    doing.do_steps(agent, [apply.Step(verb, child.line("start" if verb == "start" else "replace"), child.id)], told)
    if options.wait:
        doing.wait_until_they_run(agent, [child.id], old, options.wait, told)
        told.say(*[where_line(one) for one in agent.status()["children"] if one["id"] == child.id])


def delete(agent, options, told):
    tables = agent.tables()
    doing.do_steps(agent, [apply.Step("delete", "delete " + ident, ident, back(tables, ident)) for ident in options.ids], told)


def back(tables, ident):
    """What has a child as it is now, once it is deleted."""
    if ident not in tables.children:
        return ""
    lines = [tables.children[ident].line("start"), *(f"register {name} {ident}" for name in tables.names_of(ident))]
    return "it comes back with: " + " && ".join(map(command_words.command_of, lines))


def register(agent, options, told):
    doing.do_steps(agent, [apply.Step("register", f"register {options.name} {options.id}", f"{options.name} for {options.id}")], told)


def unregister(agent, options, told):
    doing.do_steps(agent, [apply.Step("unregister", "unregister " + options.name, options.name)], told)


def drain(agent, options, told):
    note = f"it comes back with: sebrakt undrain {command_words.operand(options.machine)}"
    doing.do_steps(agent, [apply.Step("drain", "drain " + options.machine, options.machine, note)], told)
    if options.wait:
        doing.wait_until_it_is_empty(agent, options.machine, options.wait, told)


def undrain(agent, options, told):
    entries = [line.split(" ") for line in agent.ask("members") if line.startswith(f"member {options.machine} ")]
    if entries and not any(entry[3] == "draining" for entry in entries):
        raise NotDone(f"{options.machine} isn't draining")
    doing.do_steps(agent, [apply.Step("undrain", "leave " + options.machine, options.machine, "it joins again in a moment")], told)


# -- looks

def where(agent, options, told):
    idents = options.what, agent.tables().names.get(options.what)
    found = [child for child in agent.status()["children"] if child["id"] in idents]
    if not found:
        raise NotDone(f"there is no child {options.what}, and no name", refusals.TABLES)
    lines = [line for child in found for line in [where_line(child, options.what if child["id"] != options.what else ""), *shown.runs(child)]]
    told.say(*lines, children=found)


def where_line(child, name=""):
    place = "no machine is open" if child["place"] is None else f"its place is {child['place']}"
    runs = " and ".join(f"on {run[0]} (run {run[1]}, process {run[2]})" for run in child["runs"])
    return f"{name + ' is a name of ' if name else ''}{child['id']}{', which' if name else ''} {'runs ' + runs if runs else 'runs nowhere: ' + child['why']}; {place}"


def status(agent, options, told):
    seen = agent.status()
    told.say(*shown.tables(seen), **seen)


def upgrade(agent, options, told):
    """Its connections wait until the newer program is there."""
    answer, = client.ask(agent.address, agent.secret, "upgrade", UPGRADED_WITHIN, agent.begins)
    if not groups.is_done([answer]):
        raise NotDone(answer, "it goes on as it is; a stop and a begin of it have its children move, and come home")
    doing.tell_left(waits.until(agent, WELL_WITHIN, hindered), WELL_WITHIN)
    told.say(answer.removeprefix("ok "))


def hindered(status, _):
    """What hinders the machine that tells this."""
    return {one["name"]: one["hinders"] for one in status["machines"] if one["name"] == status["name"] and one["hinders"]}


def ask(agent, options, told):
    line = " ".join(options.line)
    lines = agent.ask(line)
    if not groups.is_done(lines):
        told.say(*lines)
        answer = next(first for first in groups.first_lines(lines) if first.startswith(groups.NOT_DONE))
        raise NotDone(*refusals.words_of(line, answer), lines=lines)
    told.say(*lines, lines=lines)


COMMANDS = {"start": start, "replace": replace, "delete": delete, "restart": restart, "register": register, "unregister": unregister, "drain": drain,
            "undrain": undrain, "where": where, "status": status, "upgrade": upgrade, "events": event_commands.tell_events, "logs": log_commands.logs,
            "apply": file_commands.apply_file, "export": file_commands.export, "ask": ask}


def run(options, environment=os.environ):
    """Does a command. The status of the program."""
    told = Told(getattr(options, "json", False))
    try:
        agent = asking.agent_of(options, environment)
        try:
            COMMANDS[options.verb](agent, options, told)
        except client.NoAnswer as fault:
            raise NotDone(*agent.words_of(fault)) from None
        except wanted.NotShown as answer:
            raise NotDone(*refusals.words_of("show", str(answer))) from None
    except child_file.Mistakes as mistakes:
        return told.fail(NotDone("nothing was done: the file can't be taken", "\n".join(mistakes.lines), 2, mistakes=mistakes.lines))
    except (settings.NoSettings, seals.BadSecret) as fault:
        return told.fail(NotDone(str(fault), "", 2))
    except NotDone as fault:
        return told.fail(fault)
    return told.end()


def main():
    words = command_words.parser()
    try:
        import argcomplete
        argcomplete.autocomplete(words)
    except ImportError:
        pass  # Debian's python3-argcomplete
    options = words.parse_args()
    if options.verb is None:
        words.print_help()
        sys.exit(2)
    try:
        sys.exit(run(options))
    except KeyboardInterrupt:
        sys.exit(130)
    except BrokenPipeError:
        os.dup2(os.open(os.devnull, os.O_WRONLY), 1)  # or the interpreter tells it once more at its end
        sys.exit(1)
