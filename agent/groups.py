"""The groups of children. Each has nodes and tables of its own, so K groups keep K times as many children as one node does.

A child is of the group that its id says; all machines of a cluster have as many groups. What is asked of an agent goes to the groups that it
concerns.
"""
import hashlib

MOST = 64
CHILD_AT = {"start": 1, "replace": 1, "delete": 1, "register": 2}  # the place of the child's id in a line
OF_NAMES = {"where", "unregister"}
OF_ALL = {"show", "inspect", "members", "image", "join", "leave", "drain", "begin"}  # `begin alone` is the agent's own
OF_PEOPLE = set(CHILD_AT) | OF_NAMES | OF_ALL


def group_of(ident, count):
    """The number of a child's group, from 0: what SHA-256 of its id leaves when it is divided by the count of groups."""
    return int(hashlib.sha256(ident.encode("ascii")).hexdigest(), 16) % count


def image_of(path, number, count):
    """Where a group's node keeps what it knows. Other counts have other files: their children are in other groups."""
    return path if count == 1 else f"{path}.{number}-of-{count}"


def tag_of(number, count):
    """How letters name their group, so that those of another count are refused."""
    return f"{number}/{count}"


def ask(groups, line, answer):
    """Has the groups that a line concerns asked; `answer` takes what somebody who asks is told. Each group has `command(line, then)` and a `tag`."""
    words = line.split(" ")
    if words[0] not in OF_PEOPLE:
        answer(["not asked: " + ", ".join(sorted(OF_PEOPLE))])
    elif words[0] in OF_ALL or len(groups) == 1:
        ask_each(groups, line, answer)
    elif words[0] in OF_NAMES:
        find_name(groups, words[-1], lambda having, away: answer(away) if away and not having else ask_each(having or groups[:1], line, answer))
    elif len(words) <= CHILD_AT[words[0]]:
        answer(["bad line"])
    else:
        ask_own(groups, groups[group_of(words[CHILD_AT[words[0]]], len(groups))], line, answer)


def ask_own(groups, own, line, answer):
    """Has a child's group asked. A name stands in one group alone, so none is given while some group can't tell whether it has it."""
    verb, name, *_ = line.split(" ")
    if verb == "register":
        others = [group for group in groups if group is not own]
        find_name(others, name, lambda having, away: answer(["refused 8 NameTaken"]) if having else answer(away) if away else own.command(line, answer))
    else:
        own.command(line, answer)


def ask_each(groups, line, answer):
    if len(groups) == 1:
        groups[0].command(line, answer)
    else:
        gather(groups, line, lambda told: answer([one for group, lines in zip(groups, told) for one in ["group " + group.tag, *lines]]))


def find_name(groups, name, then):
    """`then` takes the groups that have a name, and the answer of one that can't tell whether it has it, if there is one."""
    gather(groups, "where " + name, lambda told: then([group for group, lines in zip(groups, told) if is_place(lines, name)],
                                                      next((lines for lines in told if not is_done(lines)), None)))


def is_place(lines, name):
    return is_done(lines) and lines != [f"{name} unknown"]


def gather(groups, line, then):
    """Asks each group a line; `then` takes what each has told, once all have."""
    told = {}

    def take(number, lines):
        told[number] = lines
        if len(told) == len(groups):
            then([told[number] for number in range(len(groups))])
    for number, group in enumerate(groups):
        group.command(line, lambda lines, number=number: take(number, lines))


NOT_YET = ("no node", "not yet")  # how the answers begin of a machine that begins
NOT_DONE = ("refused ", "bad line", "not asked", "not upgraded", *NOT_YET)  # how the answers begin of lines that did nothing


def first_lines(told):
    """The first line that each group has told."""
    return told[:1] if not told or not told[0].startswith("group ") else [line for before, line in zip(told, told[1:]) if before.startswith("group ")]


def is_done(told):
    """Whether each group that a line concerns has done it."""
    return not any(line.startswith(NOT_DONE) for line in first_lines(told))


def is_early(told):
    """Whether some group could take no command yet."""
    return any(line.startswith(NOT_YET) for line in first_lines(told))
