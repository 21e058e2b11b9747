"""The command that tells what has happened, and goes on telling it."""
import json
import sys
import time

import client
import events
from telling import NotDone

LOOK = 0.5  # seconds between two looks


def tell_events(agent, options, told):
    """Tells the last ones, or each as it comes: then it asks again and again, so that who doesn't read it keeps no agent waiting."""
    new, place = ask(agent, "events")
    some = [event for event in new if is_about(event, options.about)][-options.last:]
    if not options.follow:
        told.say(*[line_of(event) for event in some], events=some)
        return
    is_there = True
    while True:
        for event in some:
            print(json.dumps(event) if told.is_value else line_of(event), flush=True)
        time.sleep(LOOK)
        try:
            some, place = ask(agent, f"events {place}")
            some = [event for event in some if is_about(event, options.about)]
            is_there = True
        except client.NoAnswer as fault:
            some = []
            if is_there:
                print(f"the agent doesn't answer, and is asked again: {fault}", file=sys.stderr)
            is_there = False


def ask(agent, line):
    """The events that an agent tells, and behind which it is to go on."""
    try:
        answer = json.loads(agent.ask(line)[0])
        return answer["events"], f"{answer['mark']} {answer['last']}"
    except (ValueError, IndexError):
        raise NotDone("the agent tells no events") from None


def is_about(event, about):
    """Whether an event has to do with a child or a machine."""
    return about is None or about in (event["machine"], event.get("id"), event.get("before"), *event.get("line", "").split(" "))


def line_of(event):
    return f"{events.moment(event['at'])}  {events.text_of(event)}"
