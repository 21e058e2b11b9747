"""Children in a file of TOML: a table `[child.ID]` for each, with `kind`, `arg`, `restart`, `shutdown` and `names`.

All mistakes of a file are told at once, each with its line and column.
"""
import difflib
import re
import sys

import wanted

try:
    import tomllib
    from toml_places import Places
except ImportError:
    tomllib = None

BARE = re.compile(r"[A-Za-z0-9_-]+")
AT = re.compile(r" \(at (?:line (\d+), column (\d+)|end of document)\)$")
DEFAULTS = wanted.Child("", "")
OF_IDS = '; an id with other characters than A-Z a-z 0-9 _ - stands in quotes, as [child."web/1"]'
HINTS = {"Expected ']'": OF_IDS, "Invalid initial character": OF_IDS, "Invalid value": '; a text stands in quotes, as kind = "http"',
         "Cannot overwrite": "; it is said twice", "Invalid statement": '; a child is [child.web], and below it kind = "http"'}


class Mistakes(Exception):
    """Lines that tell what is wrong in a file."""

    def __init__(self, lines):
        super().__init__("\n".join(lines))
        self.lines = lines


# -- reading

def read(path):
    """The tables of a file; `-` is the standard input. Mistakes where it can't be read, or is none."""
    if tomllib is None:
        raise Mistakes([f"a file of children is read by Python 3.11 or later, which has tomllib; this is {sys.version.split()[0]}"])
    try:
        with open(0 if path == "-" else path, "rb", closefd=path != "-") as file:
            data = file.read()
    except OSError as fault:
        raise Mistakes([f"{path}: {fault.strerror}"]) from None
    path = "standard input" if path == "-" else path
    try:
        return tables_of(data.decode("utf-8-sig"), path)
    except UnicodeDecodeError as fault:
        line = data[:fault.start].count(b"\n") + 1
        raise Mistakes([f"{path}:{line}: no text in UTF-8"]) from None


def tables_of(text, path):
    try:
        value = tomllib.loads(text)
    except ValueError as fault:  # tomllib's own, and that of a number with very many digits
        raise Mistakes([syntax_mistake(str(fault), text, path)]) from None
    except RecursionError:
        raise Mistakes([f"{path}: brackets in brackets, too deep"]) from None
    found = Reading(value)
    if found.mistakes:
        places = Places(text)
        raise Mistakes([f"{path}:{line}:{column}: {told}" for (line, column), told in sorted((places.of(keys), told) for keys, told in found.mistakes)])
    return wanted.Tables(found.children, found.names)


def syntax_mistake(fault, text, path):
    lines = text.split("\n")
    at = AT.search(fault)
    line, column = (int(at[1]), int(at[2])) if at and at[1] else (len(lines), len(lines[-1]) + 1)
    hint = next((hint for begin, hint in HINTS.items() if fault.startswith(begin)), "")
    return f"{path}:{line}:{column}: {AT.sub('', fault)}{hint}"


class Reading:
    """The children and names of a value of TOML, and what is wrong with it, as (path of keys, words)."""

    def __init__(self, value):
        self.children, self.names, self.mistakes = [], {}, []
        for key in value:
            if key != "child":
                self.mistakes.append(((key,), f"{key_of(key)}: a child's table is [child.ID], and there is nothing else; is [child.{key_of(meant(key, value[key]))}] meant?"))
        children = value.get("child", {})
        if not value:
            self.mistakes.append(((), "no children: each has a table [child.ID]; a file for no children at all says [child]"))
        elif not isinstance(children, dict):
            self.mistakes.append((("child",), "child: each child has a table with its id, [child.ID] in single brackets"))
        else:
            for ident, keys in children.items():
                self.read_child(ident, keys)

    def read_child(self, ident, keys):
        before = len(self.mistakes)
        header = f"[child.{key_of(ident)}]"
        fault = wanted.fault_of_word("an id", ident)
        if fault:
            self.mistakes.append((("child", ident), f"{header}: {fault}"))
        if not isinstance(keys, dict):
            self.mistakes.append((("child", ident), f'{header}: a child is a table, as {header} and below it kind = "http"'))
            return
        for key, value in keys.items():
            fault = OF_KEYS[key](value) if key in OF_KEYS else unknown(ident, key, value)
            if fault:
                self.mistakes.append((("child", ident, key), f"{header} {key}: {fault}"))
        if "kind" not in keys and not any(isinstance(value, dict) for value in keys.values()):
            self.mistakes.append((("child", ident), f"{header}: its kind is missing"))
        if len(self.mistakes) == before:
            self.take(ident, keys, header)

    def take(self, ident, keys, header):
        fields = {key: str(value) for key, value in keys.items() if key != "names"}
        self.children.append(wanted.Child(ident, **fields))
        for name in keys.get("names", []):
            if name in self.names:
                self.mistakes.append((("child", ident, "names"), f"{header} names: {wanted.quoted(name)} is a name of {self.names[name]} already"))
            self.names[name] = ident


def meant(key, value):
    """The id of a child whose table is said in another way: `[web]`, or `[children.web]`."""
    return next(iter(value), key) if isinstance(value, dict) and difflib.get_close_matches(key, ["child"]) else key


def unknown(ident, key, value):
    if isinstance(value, dict):
        return f"an id with a dot stands in quotes, as [child.{wanted.quoted(ident + '.' + key)}]"
    near = difflib.get_close_matches(key, OF_KEYS, 1)
    return f"no such key; is {near[0]} meant?" if near else f"no such key; there are {', '.join(OF_KEYS)}"


# -- why the value of a key can't be one: None where it can

def of_text(fault_of):
    return lambda value: fault_of(value) if isinstance(value, str) else f"a text is wanted, in quotes{as_text(value)}"


def as_text(value):
    return f': "{value}"' if type(value) is int and abs(value) < 1 << 64 else ""


def of_shutdown(value):
    if type(value) is int and 0 <= value <= wanted.MOST_MILLISECONDS or value in wanted.SHUTDOWNS:
        return None
    return f'milliseconds are wanted, a number up to {wanted.MOST_MILLISECONDS} without quotes, or {" or ".join(map(wanted.quoted, wanted.SHUTDOWNS))}'


def of_names(value):
    if not (isinstance(value, list) and all(isinstance(name, str) for name in value)):
        return 'a list of texts is wanted, as ["www", "web"]'
    return next((fault for fault in (wanted.fault_of_word("a name", name) for name in value) if fault), None)


OF_KEYS = {"kind": of_text(lambda text: wanted.fault_of_word("a kind", text)), "arg": of_text(wanted.fault_of_argument),
           "restart": of_text(wanted.fault_of_restart), "shutdown": of_shutdown, "names": of_names}


# -- writing

def text_of(tables):
    """A file of these children. What is as it would be without a word is left out."""
    return "\n".join(["[child]\n"] * (not tables.children) + [table_of(child, tables.names_of(child.id)) for _, child in sorted(tables.children.items())])


def table_of(child, names):
    lines = [f"[child.{key_of(child.id)}]", f"kind = {wanted.quoted(child.kind)}"]
    lines += [f"{key} = {wanted.quoted(getattr(child, key))}" for key in ("arg", "restart") if getattr(child, key) != getattr(DEFAULTS, key)]
    if child.shutdown != DEFAULTS.shutdown:
        lines.append("shutdown = " + (child.shutdown if child.shutdown.isdecimal() else wanted.quoted(child.shutdown)))
    if names:
        lines.append(f"names = [{', '.join(map(wanted.quoted, names))}]")
    return "".join(line + "\n" for line in lines)


def key_of(ident):
    return ident if BARE.fullmatch(ident) else wanted.quoted(ident)
