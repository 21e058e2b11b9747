"""What a node answers to a line of `supd`, by the rules of rules.py: the line's form, the act, its orders and its letter."""
import re

import forms
import rules

NODE, WORD, TEXT, NUMBER = "[a-z0-9_-]{1,64}", "[!-~]{1,128}", "[!-~]{0,1024}", "(?:0|[1-9][0-9]{0,15})"
SPEC = (f"{WORD}(?: kind={WORD})?(?: arg={TEXT})?(?: restart=(?:permanent|transient|temporary))?"
        f"(?: shutdown=(?:brutal_kill|infinity|(?P<shutdown>{NUMBER})))?")
FORMS = {
    "join": f"(?: (?P<words>label={TEXT}))?", "leave": NODE, "drain": NODE, "start": SPEC, "replace": SPEC, "delete": WORD,
    "register": f"{WORD} {WORD}", "unregister": WORD, "exit": f"{WORD} {NUMBER}\\.{NUMBER} (?:normal|shutdown(?::{WORD})?|failed|crash)",
    "ship": NODE, "push": NODE,
}
FORMS.update((verb, f" (?P<words>{form})") for verb, form in FORMS.items() if verb != "join")
GREATEST_SHUTDOWN = 4_294_967_295


class Act:
    """A line that a node may do: its verb, its words and its moment."""

    def __init__(self, verb, words, moment=0):
        self.verb, self.words, self.moment = verb, words, moment


def read_act(line):
    """The act of a line; None where it has none of the forms."""
    verb, space, rest = line.partition(" ")
    if verb == "deliver":
        return Act(verb, [rest]) if space and re.fullmatch("[ -~]*", rest) else None
    found = re.fullmatch(f"{verb}{FORMS[verb]}(?: @(?P<moment>{NUMBER}))?", line) if verb in FORMS else None
    if found is None:
        return None
    moment, shutdown = int(found["moment"] or 0), int(found.groupdict().get("shutdown") or 0)
    if moment > forms.MAX or shutdown > GREATEST_SHUTDOWN:
        return None
    return Act(verb, (found["words"] or "").split(), moment)


def state_of(value):
    """The state that the context and the rows of an image or a message tell."""
    known = {(number, node) for node, last in value["ctx"]["vector"].items() for number in range(1, last + 1)}
    known |= {(number, node) for node, number in value["ctx"]["cloud"]}
    return rules.State(known, {(dot[1], dot[0]): (table, key, content_of(table, content)) for table, key, dot, content in value["rows"]})


def content_of(table, content):
    if table == "member":
        return content["label"], content.get("status", rules.OPEN)
    return rules.Spec({**content, "shutdown": str(content["shutdown"])}) if table == "child" else content


def read_letter(text):
    """The sender of a message and what it says, as `rules.Node.deliver` takes them; None where the text is no message."""
    try:
        value = forms.read(text, forms.MESSAGES)
    except forms.Fault:
        return None
    return value["from"], (value["to"], value["kind"], (value.get("n"), state_of(value) if "rows" in value else None))


def answer(node, line, saves=True):
    """The lines that the node tells, without the empty one that ends them."""
    act = read_act(line)
    if act is None:
        return ["bad line"]
    try:
        lines, letter = do(node, act, saves)
    except rules.Refused as refusal:
        return [f"refused {rules.NUMBERS[refusal.args[0]]} {refusal.args[0]}"]
    told = [order(node, line) for line in lines]
    return told + [f"  send {letter[0]} {forms.message(node.name, letter)}"] if letter else told


def do(node, act, saves):
    if act.verb != "deliver":
        return node.act(act.verb, act.words, act.moment, saves)
    letter = read_letter(act.words[0])
    rules.refuse_if(letter is None, "BadMessage")
    return node.deliver(*letter, True, saves)


def order(node, line):
    """A line as `supd` tells it: of starts and stops without the node's name, and of starts with the specification."""
    if not line.startswith("  "):
        return line
    _, verb, ident, run = line.split()
    return f"  stop {ident} {run}" if verb == "stop" else f"  start {ident} {run} {node.state.rows[node.kept[ident][0]][2]}"


def letter_in(lines):
    """The text of the message that leaves with an answer; None where none does."""
    return lines[-1].split(" ", 4)[4] if lines and lines[-1].startswith("  send ") else None
