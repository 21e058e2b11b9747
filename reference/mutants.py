"""Histories that are altered, as an incident or a fault might. Of each it is known why it may stand all the same, if it may: what is certified stays
a matter of what depends on it."""
import json
import re

import supd_lines
from recorded_acts import CHANGES

EXCHANGE = re.compile(r"<[^\n]*\n(?:>[^\n]+\n)+>\n")
BEGIN = "\nbegin "

DID_NOTHING = "it had done nothing to the node"
SPARED_NOTHING = "an acknowledgement only spares letters, and it had spared none"
NEVER_CAME = "what it sent came nowhere, or was sent by another act, too"
NO_COUNT = "no begin behind it tells a count, and nothing else depends on it"
ANSWERED_ALIKE = "each act is answered alike in this order"
SENT_TOO = "another act sent just that message"
NOT_DONE = "by the next begin's count it was not done"
UNSURE = "the act without its answer is taken as not done"
UNANSWERED = "a begin that nobody was told of, and that was not done"
LESS = "it is a history of less, and nobody heard of the rest"


class Mutant:
    """An altered history; and why it may be certified, None where it may not."""

    def __init__(self, text, may_stand):
        self.text, self.may_stand = text, may_stand


def exchanges(text):
    """The places of acts with their answers, where the line has a form."""
    return [found.span() for found in EXCHANGE.finditer(text) if "\n>bad line\n" not in found[0]]


def does_nothing(exchange):
    """Why an act may be left out or made twice, by its answer; None where it changes what its node knows or runs."""
    told = exchange.split("\n")[1][1:]
    if told.startswith(("refused ", "ok known")):
        return DID_NOTHING
    return {"ok acked": SPARED_NOTHING, "ok sent": NEVER_CAME}.get(told)


def swapped(text, one, other):
    (a, b), (c, d) = sorted([one, other])
    return Mutant(text[:a] + text[c:d] + text[b:c] + text[a:b] + text[d:], ANSWERED_ALIKE)


def neighbours_swapped(chance, text):
    places = exchanges(text)
    if len(places) < 2:
        return None
    at = chance.randrange(len(places) - 1)
    return swapped(text, places[at], places[at + 1])


def acts_swapped(chance, text):
    places = exchanges(text)
    return swapped(text, *chance.sample(places, 2)) if len(places) > 2 else None


def answer_changed(chance, text):
    """One byte of an answer is another."""
    lines = [found.span() for found in re.finditer(r"^>[^\n]+$", text, re.M) if found[0] != ">bad line"]
    if not lines:
        return None
    start, end = chance.choice(lines)
    at = chance.randrange(start + 1, end)
    byte = chance.choice([byte for byte in "0123456789abwx(), " if byte != text[at]])
    return Mutant(text[:at] + byte + text[at + 1:], None)


def act_dropped(chance, text):
    places = exchanges(text)
    if not places:
        return None
    start, end = chance.choice(places)
    is_counted = text[start:end].split("\n>")[1].startswith(CHANGES) and BEGIN in text[end:]
    return Mutant(text[:start] + text[end:], None if is_counted else does_nothing(text[start:end]) or NO_COUNT)


def act_doubled(chance, text):
    places = exchanges(text)
    if not places:
        return None
    start, end = chance.choice(places)
    return Mutant(text[:end] + text[start:end] + text[end:], does_nothing(text[start:end]))


def message_forged(chance, text):
    """A message that came has another argument of a child, or another number."""
    letters = [found for found in re.finditer(r"^<deliver (\{[^\n]*\})(?=\n>.*\n(?:>.*\n)*?>\n)", text, re.M) if supd_lines.read_letter(found[1])]
    if not letters:
        return None
    letter = chance.choice(letters)
    value = json.loads(letter[1])
    children = [row for row in value.get("rows", []) if row[0] == "child"]
    if children:
        chance.choice(children)[3]["arg"] += "x"
    elif "n" in value:
        value["n"] += 1
    else:
        return None
    forged = json.dumps(value, sort_keys=True, separators=(",", ":"))
    return Mutant(text[:letter.start(1)] + forged + text[letter.end(1):], None if children else SENT_TOO)


def image_older(chance, text):
    """A begin is from an image that has one change less."""
    counts = [found for found in re.finditer(r"^begin [^\n]* (\d+)$", text, re.M) if int(found[1]) > 0]
    if not counts:
        return None
    count = chance.choice(counts)
    is_behind_unsure = re.search(r"\n(?:<[^\n]*\n(?:>[^\n]+\n)*|>refused 16 KeepFailed\n>\n)\n\Z", text[:count.start()])
    return Mutant(text[:count.start(1)] + str(int(count[1]) - 1) + text[count.end(1):], UNSURE if is_behind_unsure else None)


def session_dropped(chance, text):
    sessions = text.split(BEGIN)
    if len(sessions) < 3:
        return None
    dropped = sessions.pop(chance.randrange(1, len(sessions) - 1))
    return Mutant(BEGIN.join(sessions), None if "\n>\n" in dropped else UNANSWERED)


def unanswered_act_dropped(chance, text):
    acts = [found.span() for found in re.finditer(r"^<[^\n]*\n(?:>[^\n]+\n)*(?=\nbegin )", text, re.M)]
    if not acts:
        return None
    start, end = chance.choice(acts)
    return Mutant(text[:start] + text[end:], NOT_DONE)


def end_cut_off(chance, text):
    return Mutant(text[:chance.randrange(len(text) // 2, len(text))], LESS)


def act_torn(chance, text):
    """The line of an act without an answer was not written whole."""
    acts = [found.span() for found in re.finditer(r"^<[^\n]+\n(?=\nbegin [^\n]* \d+$)", text, re.M)]
    if not acts:
        return None
    start, end = chance.choice(acts)
    return Mutant(text[:chance.randrange(start, end - 1)] + text[end:], NOT_DONE)


def begin_torn(chance, text):
    """A begin of which a part was written stands before one."""
    at = chance.choice([found.start() for found in re.finditer(r"^\nbegin ", text, re.M)])
    line = text[at:text.index("\n", at + 1)]
    return Mutant(text[:at] + line[:chance.randrange(len(line) + 1)] + text[at:], UNANSWERED)


KINDS = {
    "a byte of an answer": answer_changed, "an image that is one change older": image_older, "a session dropped": session_dropped,
    "a message that nobody sent": message_forged, "two acts swapped": acts_swapped, "two neighbours swapped": neighbours_swapped,
    "an act dropped": act_dropped, "an act doubled": act_doubled, "an act without its answer dropped": unanswered_act_dropped,
    "a file cut off": end_cut_off, "an act's line torn": act_torn, "a begin torn": begin_torn,
}


def of(chance, histories, times):
    """So many mutants of each kind, as far as there are any: the kind, the altered histories, and why they may be certified."""
    for kind, alter in KINDS.items():
        for _ in range(times):
            name = chance.choice(sorted(histories))
            mutant = alter(chance, histories[name])
            if mutant is not None and mutant.text != histories[name]:
                yield kind, {**histories, name: mutant.text}, mutant.may_stand
