"""What a refusal means in words, and what to do about it. The numbers are those of docs/SUPCTL.md."""
import re

import bad_lines
import command_words

NUMBER = re.compile(r"refused (\d+) ")
LATER = "nothing is to be done: agents say this to one another, again and again"
TABLES = "see what there is: sebrakt status"
ELSEWHERE = "give the command to another machine's agent: --address HOST:PORT"
BY_ITSELF = "its agent begins it again by itself: say it again in a few seconds"

# Of each number why, and what to do. {id}, {name} and {member} are what the line is about, in capitals as words of a command; {instead} is
# what does what the line was to do.
WORDS = {
    1: ("the node is stopped", BY_ITSELF),
    2: ("the node runs already", "nothing is to be done"),
    3: ("no node has this name", TABLES),
    4: ("there is a child {id} already", "{instead}"),
    5: ("there is no child {id}", "{instead}"),
    6: ("this machine is a member already", "nothing is to be done"),
    7: ("no member is named {member}", TABLES),
    8: ("the name {name} is taken", "see by which child: sebrakt where {NAME}; take it back first: sebrakt unregister {NAME}"),
    9: ("there is no child {id}", "start it first: sebrakt start --kind KIND {ID}"),
    10: ("no child has the name {name}", TABLES),
    11: ("this machine's node has counted to its end, and adds nothing any more", ELSEWHERE),
    12: ("the other machine knows all of it", LATER),
    13: ("there is no such message", LATER),
    14: ("no such run of the child is there", LATER),
    15: ("the tables are full: a node adds nothing from 10,000 entries on", "delete children that nobody needs, or have more groups (agent/REFERENCE.md)"),
    16: ("the machine couldn't keep it: its disk is full, or its folder can't be written", "look at that machine's disk and its agent's log, then at: sebrakt status"),
    17: ("this was no message of a node", LATER),
    18: ("this was a message for another machine", LATER),
    19: ("the machine has no memory left for it", "see what else takes memory there, or " + ELSEWHERE),
    20: ("a history is full", LATER),
    21: ("this machine's node has counted to its end, and changes nothing any more", ELSEWHERE),
    22: ("the node has changed nothing that it could send", LATER),
    23: ("{member} is draining already", "take it back with: sebrakt undrain {MEMBER}"),
}
OTHERS = {
    "bad line": ("{fault}", "{form}"),
    "not asked": ("the agent takes no such line from people", "it takes {rest}"),
    "no node": ("the agent's node is away", BY_ITSELF),
    "not yet": ("the agent takes no commands yet: {rest}", "say it again in a few seconds; where that doesn't help, see what hinders it: sebrakt status"),
}
UNSURE = ("no node", "refused 16 ")  # what was answered so may have been done


def words_of(line, answer):
    """Why a line was answered so, and what to do about it. The answer itself, where it has no words here."""
    number = NUMBER.match(answer)
    begin, _, rest = answer.partition(": ")
    why, advice = WORDS.get(int(number[1]), (answer, TABLES)) if number else OTHERS.get(begin, (answer, TABLES))
    about = {**about_of(line), "rest": rest, "instead": instead(line), "fault": bad_lines.fault_of(line) or "the node knows no such line", "form": form_of(line)}
    return why.format(**about), advice.format(**about)


def about_of(line):
    """What a line is about, by the places of its words."""
    words = line.split(" ") + ["", ""]
    about = {"id": words[2] if words[0] == "register" else words[1], "name": words[1], "member": words[1]}
    return {**about, **{key.upper(): command_words.operand(word) for key, word in about.items()}}


def form_of(line):
    verb = line.partition(" ")[0]
    return f"its form is: {bad_lines.form_of(verb)}" if verb in bad_lines.FORMS else "the lines stand in docs/SUPD.md"


def instead(line):
    """What does what a start of a child that is there, or a replace of one that isn't, was to do."""
    verb, _, rest = line.partition(" ")
    if verb == "start":
        return "replace it with: " + command_words.command_of("replace " + rest)
    return "start it with: " + command_words.command_of("start " + rest) if verb == "replace" else TABLES
