"""Where the keys of a text in TOML stand: `tomllib` tells their values alone.

A header, and a key with its value, is a text in TOML by itself. So lines are put together until they are one; what it has then began there.
"""
import tomllib


class Places:
    def __init__(self, text):
        """Of a text that is TOML."""
        self.found, self.table, some, first = {}, (), "", 1
        for number, line in enumerate(text.split("\n"), 1):
            some += line + "\n"
            try:
                value = tomllib.loads(some)
            except tomllib.TOMLDecodeError:
                continue  # a value of several lines
            self.note(some, path_of(value), first)
            some, first = "", number + 1

    def note(self, statement, path, line):
        column = len(statement) - len(statement.lstrip()) + 1
        if statement.lstrip().startswith("["):
            self.table = ()
        path = self.table + path
        for end in range(1, len(path) + 1):
            self.found.setdefault(path[:end], (line, column))
        if statement.lstrip().startswith("["):
            self.table = path

    def of(self, path):
        """The line and column, from 1, at which a path of keys, or the longest part of it that has a place, is said first."""
        return next((self.found[path[:end]] for end in range(len(path), 0, -1) if path[:end] in self.found), (1, 1))


def path_of(value):
    """The keys that lead to the only value there is."""
    path = ()
    while isinstance(value, dict) and len(value) == 1:
        (key, value), = value.items()
        path += (key,)
    return path
