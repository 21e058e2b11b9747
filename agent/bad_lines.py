"""Why a line is answered `bad line`: what of its form is wrong, in words. The forms are those of docs/SUPD.md, of the lines that people say."""
import re

import wanted

SPEC = {"kind": "K", "arg": "TEXT", "restart": "permanent|transient|temporary", "shutdown": "MS"}
FORMS = {  # of each verb the words that it takes, and the options behind them, in their order
    "start": (("ID",), SPEC), "replace": (("ID",), SPEC), "delete": (("ID",), {}), "register": (("NAME", "ID"), {}), "unregister": (("NAME",), {}),
    "where": (("NAME",), {}), "join": ((), {"label": "TEXT"}), "leave": (("MEMBER",), {}), "drain": (("MEMBER",), {}), "show": ((), {}),
    "inspect": ((), {}), "members": ((), {}), "image": ((), {}), "begin": (("alone",), {}),
}
LOOKS = {"where", "show", "inspect", "members", "image", "begin"}  # behind the others a moment may stand
MOMENT = re.compile("@(0|[1-9][0-9]{0,15})")
MEMBER = re.compile("[a-z0-9_-]{1,64}")
LAST = 9_007_199_254_740_991


def form_of(verb):
    """How a line is written that begins with a verb."""
    places, options = FORMS[verb]
    return " ".join([verb, *places, *(f"[{key}={what}]" for key, what in options.items())])


def fault_of(line):
    """What is wrong with a line; None where it has a form."""
    verb, *words = line.split(" ")
    if verb not in FORMS:
        return f"no line of a node begins with {wanted.quoted(verb)}"
    if "" in words:
        return "between two words stands one space, and none behind the last one"
    places, options = FORMS[verb]
    if words and verb not in LOOKS and (found := MOMENT.fullmatch(words[-1])) and int(found[1]) <= LAST and len(words) > len(places):
        words.pop()
    if len(words) < len(places):
        return f"{' '.join(places[len(words):])} is missing"
    faults = [fault_of_place(place, text) for place, text in zip(places, words)] + [fault_of_options(options, words[len(places):])]
    return next((fault for fault in faults if fault), None)


def fault_of_place(place, text):
    if place == "alone":
        return None if text == place else f"{wanted.quoted(text)} is not the word {place}"
    if place != "MEMBER":
        return wanted.fault_of_word("an id" if place == "ID" else "a name", text)
    return None if MEMBER.fullmatch(text) else f"a machine's name has a-z, 0-9, _ and - alone, at most 64 of them, and this is {wanted.quoted(text)}"


def fault_of_options(options, words):
    """Of options, each at most once, in their order."""
    left = list(options)
    for text in words:
        key, equals, value = text.partition("=")
        if not equals or key not in options:
            spaces = ": an argument is one word, without spaces" if "arg" in options else ""
            return f"{wanted.quoted(text)} is one word too many{spaces}"
        if key not in left:
            return f"{key}= stands twice, or behind an option that comes after it"
        left = left[left.index(key) + 1:]
        fault = fault_of_value(key, value)
        if fault:
            return fault
    return None


def fault_of_value(key, value):
    if key == "kind":
        return wanted.fault_of_word("a kind", value)
    if key == "restart":
        return wanted.fault_of_restart(value)
    if key == "shutdown":
        return wanted.fault_of_shutdown(value)
    return wanted.fault_of_characters("a label" if key == "label" else "an argument", value, wanted.MOST_OF_AN_ARGUMENT)
