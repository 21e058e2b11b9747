"""The keys of a kind in the file of kinds, and what is wrong with their values."""
import difflib
import ipaddress
import json
import re
import signal

import wanted
import wires

ABSOLUTE = re.compile(r"/|\{[a-z0-9]+\}")
SIZE = re.compile(r"([1-9][0-9]{0,14})([KMGT]?)")
VARIABLE = re.compile(r"[A-Za-z_][A-Za-z0-9_]*")
PLACE = re.compile(r"\{[a-z0-9]+\}")
MOST_SECONDS = 366 * 86400
WAYS = ("command", "tcp", "http")  # of a check


def size_of(value):
    """Bytes, as of 512M. None where it is none."""
    found = SIZE.fullmatch(value if isinstance(value, str) else str(value) if type(value) is int else "")
    return int(found[1]) << 10 * " KMGT".index(found[2] or " ") if found else None


# -- why a value can't be one: None where it can

def of_text(value):
    if not isinstance(value, str):
        return "a text is wanted, in double quotes"
    return "a text has no NUL, and is Unicode" if "\0" in value or not value.isascii() and not is_unicode(value) else None


def is_unicode(text):
    try:
        return bool(text.encode("utf-8"))
    except UnicodeEncodeError:
        return False


def of_words(value):
    if not isinstance(value, list) or any(map(of_text, value)):
        return 'a list of words is wanted, as ["program", "word", ..]'
    return "its first word is empty" if value[:1] == [""] else None


def of_one_word_at_least(value):
    return of_words(value) or (None if value else "it has no words")


def of_character(value):
    return of_text(value) or (None if len(value) == 1 and "!" <= value <= "~" else "one visible character of ASCII is wanted")


def of_environment(value):
    if not isinstance(value, dict) or any(map(of_text, value.values())):
        return 'variables are wanted, with texts, as {"NAME": "text", ..}'
    strange = next((name for name in value if not VARIABLE.fullmatch(name)), None)
    if strange is not None:
        return f"{json.dumps(strange)} is no name of a variable: these have A-Z a-z 0-9 _"
    return "variables that begin with SEBRAKT_ are the agent's" if any(name.startswith("SEBRAKT_") for name in value) else None


def of_folder(value):
    return of_text(value) or (None if ABSOLUTE.match(value) else "a path from / on is wanted")


def of_name(value):
    return of_text(value) or (None if value and not re.search(r"[\s:,]", value) else "a name is wanted, or a number in quotes")


def of_stop(value):
    if isinstance(value, list):
        return of_one_word_at_least(value)
    return None if isinstance(value, str) and value in SIGNALS else 'a signal is wanted, as "SIGINT", or a list of words, as ["program", "word", ..]'


def of_size(value):
    return None if size_of(value) else 'a size is wanted, as "512M"; there are K, M, G and T'


def number(least, most, is_whole=False):
    """What tells of a number in some bounds."""
    def of(value):
        is_one = type(value) is int or type(value) is float and not is_whole
        return None if is_one and least <= value <= most else f"a {'whole ' * is_whole}number from {least:g} to {most:g} is wanted, without quotes"
    return of


def of_truth(value):
    return None if type(value) is bool else "true or false is wanted"


def of_target(value):
    return None if value in ("journal", "file", "none") else '"journal", "file" or "none" is wanted'


def of_address(value):
    """HOST:PORT, where the host needs no look-up: that may take seconds, in which the agent would hear nobody."""
    try:
        host = wires.address_of(PLACE.sub("1", value))[0]
        if host != "localhost":
            ipaddress.ip_address(host)
    except (ValueError, TypeError, AttributeError):
        return 'an address in numbers and a port are wanted, as "127.0.0.1:8080" or "127.0.0.1:{arg}"'
    return None


def of_url(value):
    begin, _, rest = value.partition("://") if isinstance(value, str) else ("", "", "")
    if begin != "http" or of_address(rest.partition("/")[0]) or not all("!" <= one <= "~" for one in rest):
        return 'an address in numbers, a port and a path are wanted, as "http://127.0.0.1:8080/health"; of other ways to ask make a command'
    return None


SIGNALS = {one.name for one in signal.Signals}
some_seconds, count = number(0.1, MOST_SECONDS), number(1, 10 ** 9, True)
CHECK = {"command": of_one_word_at_least, "tcp": of_address, "http": of_url, "period": some_seconds, "timeout": some_seconds}
KEYS = {
    "command": of_words, "split": of_character, "environment": of_environment, "folder": of_folder, "user": of_name, "group": of_name, "stop": of_stop,
    "limits": {"memory": of_size, "processes": count, "processor": number(0.01, 10000), "files": count},
    "max-runtime": some_seconds, "delay": number(0, MOST_SECONDS), "overlap": of_truth, "log": {"to": of_target, "size": of_size, "keep": number(0, 100, True)},
    "health": {**CHECK, "start": number(0, MOST_SECONDS), "failures": count}, "ready": CHECK,
}


def faults(kinds):
    """What is wrong with a value of JSON as kinds, as (path of keys, words)."""
    if not isinstance(kinds, dict):
        yield (), 'not of the form {"KIND": ["program", "word", ..]} or {"KIND": {"command": ["program", ..], ..}}'
        return
    for kind, value in kinds.items():
        fault = wanted.fault_of_word("a kind", kind)
        yield from [((kind,), fault)] if fault else []  # no child has one of that name
        if isinstance(value, list):
            fault = of_words(value)
            yield from [((kind,), fault)] if fault else []
        else:
            yield from faults_of_keys(value, KEYS, (kind,), '["program", "word", ..] or {"command": ["program", ..], ..}')
            if isinstance(value, dict):
                yield from faults_of_kind(value, (kind,))


def faults_of_keys(value, keys, path, form):
    if not isinstance(value, dict):
        yield path, f"{form} is wanted"
        return
    for key, one in value.items():
        of = keys.get(key)
        if of is None:
            near = difflib.get_close_matches(key, keys, 1)
            yield path + (key,), f"no such key; is {near[0]} meant?" if near else f"no such key; there are {', '.join(keys)}"
        elif isinstance(of, dict):
            yield from faults_of_keys(one, of, path + (key,), '{"KEY": VALUE, ..}')
        elif (fault := of(one)) is not None:
            yield path + (key,), fault


def faults_of_kind(value, path):
    """What is wrong with keys that are there or not beside others."""
    if "command" not in value:
        yield path, "its command is missing"
    if value.get("overlap") is True and "ready" not in value:
        yield path + ("overlap",), "it wants ready, which tells when the earlier run may end"
    for key in ("health", "ready"):
        if isinstance(value.get(key), dict) and sum(way in value[key] for way in WAYS) != 1:
            yield path + (key,), f"one of {', '.join(WAYS)} is wanted"
