"""Does the steps of a command, and waits for what comes of them; what isn't done is told."""
import apply
import waits
from telling import NotDone

MOST_TOLD = 20  # steps that weren't done; who reads values has them all


def do_steps(agent, steps, told, *again):
    """Does them; `again` is told where one isn't done. NotDone."""
    done = []

    def tell(step):
        done.append(step.line)
        told.say(step.done(), done=done)

    try:
        apply.do(steps, agent, tell)
    except apply.Halted as halt:
        what = {"done": done, "unsure" if halt.is_unsure else "refused": halt.step.line, "left": [step.line for step in halt.left]}
        raise NotDone(halt.why, "\n".join([*lines_of(halt), *again]), **what) from None


def lines_of(halt):
    """What is to be known where a step wasn't done."""
    lines = [halt.advice]
    if halt.is_unsure:
        lines.append("not sure whether it was done: " + halt.step.plan())
    left = [*[halt.step] * (not halt.is_unsure), *halt.left]
    if halt.done or halt.left:
        lines += [f"{len(halt.done)} done, these {len(left)} not:", *("  " + step.plan() for step in left[:MOST_TOLD])]
        lines += [f"  and {len(left) - MOST_TOLD} more"] * (len(left) > MOST_TOLD)
    return lines


def runs_now(agent, idents):
    """The runs of some children, which count no more once the children are replaced."""
    return [run for child in agent.status()["children"] if child["id"] in idents for run in waits.runs_of(child)]


def wait_until_they_run(agent, idents, old, patience, told):
    """NotDone where some don't in that time."""
    tell_left(waits.until_they_run(agent, idents, old, patience), patience)
    told.value["running"] = idents


def wait_until_it_is_empty(agent, machine, patience, told):
    """NotDone where some of a machine's children run there still after that time."""
    tell_left(waits.until_it_is_empty(agent, machine, patience), patience)
    told.say(f"{machine} is empty")


def tell_left(left, patience):
    if left:
        lines = [f"{ident}: {why}" if ident else why for ident, why in left.items()]
        advice = "\n".join([*lines[1:], "it goes on by itself: sebrakt status tells how far it is"])
        raise NotDone(f"after {patience:g} s of waiting, {lines[0]}", advice, waiting=left)
