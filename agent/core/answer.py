"""What the node answers: a first line, the orders below it, the letters that leave; and a letter with all that a node knows, made of its image."""
import json
import re

KEPT = "ok absorbed", "ok (", "ok removed", "ok finished", "ok gave up"  # answers to what changed the image
NOT_KEPT = "refused 16"                                                  # and to what the disk couldn't keep

class Answer:
    def __init__(self, lines):
        self.reply, self.lines = lines[0] if lines else "", lines
        self.orders, self.letters = [], []  # ("start", id, run, spec) or ("stop", id, run, ""); (member, text)
        for line in lines[1:]:
            if line.startswith("  "):
                self.read(*line[2:].split(" ", 2))

    def read(self, verb, first, rest=""):
        if verb == "send":
            self.letters.append((first, rest))
        else:
            run, _, spec = rest.partition(" ")
            self.orders.append((verb, first, run, spec))  # the spec as it is written: KIND RESTART SHUTDOWN arg=ARG


def members(answer):
    return {line.split(" ", 2)[1] for line in answer.lines if line.startswith("member ")}


def newest_dot(answer, name):
    """The number of the newest dot of a machine that `inspect` shows."""
    dots = re.findall(rf"^(?:vector {name} |cloud \({name},)(\d+)", "\n".join(answer.lines), re.MULTILINE)
    return max(map(int, dots), default=0)


def who_gave_dots(answer):
    """The machines of whose dots `inspect` shows any."""
    return set(re.findall(r"^(?:vector |cloud \()([^ ,]+)", "\n".join(answer.lines), re.MULTILINE))


def whole_letter(image, sender, to):
    """What `ship` sends leaves out what the receiver acknowledged once, and may have lost. This leaves out nothing."""
    value = json.loads(image)
    return json.dumps({"kind": "push", "v": value["v"], "from": sender, "to": to, "ctx": value["ctx"], "rows": value["rows"]},
                      sort_keys=True, separators=(",", ":"))
