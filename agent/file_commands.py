"""The commands that have to do with a file of children."""
import sys

import apply
import child_file
import doing


def apply_file(agent, options, told):
    aims = child_file.read(options.file)
    shown = agent.tables()
    steps = apply.steps_to(aims, shown, options.prune)
    if options.diff:
        told.say(*["would " + step.plan() for step in steps] or [nothing_to_do(aims)], would=[step.line for step in steps])
    else:
        do(agent, options, told, aims, steps)
    if not options.prune:
        tell_others(aims, shown, told)


def tell_others(aims, shown, told):
    """Tells what isn't in the file, and stays."""
    children = sorted(set(shown.children) - set(aims.children))
    names = sorted(name for name, ident in shown.names.items() if name not in aims.names and ident not in children)
    if children or names:
        told.say("not in the file, and left as it is (--prune takes it away): " + ", ".join([*children, *("the name " + name for name in names)]),
                 others=children, other_names=names)


def do(agent, options, told, aims, steps):
    changed = {step.line.split(" ")[1] for step in steps if step.verb == "replace"}
    old = doing.runs_now(agent, changed) if options.wait else []
    doing.do_steps(agent, steps, told, "once that is mended say it again: it does what is missing alone")
    if not steps:
        told.say(nothing_to_do(aims), done=[])
    if options.wait:
        doing.wait_until_they_run(agent, list(aims.children), old, options.wait, told)
        told.say(f"all {count_of(aims)} of the file run")


def nothing_to_do(aims):
    return f"nothing to do: it is as the file says ({count_of(aims)})"


def count_of(aims):
    return f"{len(aims.children)} {'child' if len(aims.children) == 1 else 'children'}"


def export(agent, options, told):
    tables = agent.tables()
    lost = sorted(name for name, ident in tables.names.items() if ident not in tables.children)
    if lost:
        print("left out, names whose child isn't there:", *lost, file=sys.stderr)
    children = {child.id: {**child.fields(), "names": tables.names_of(child.id)} for child in tables.children.values()}
    told.say(child_file.text_of(tables).rstrip("\n"), child=children)
