"""Where the keys of a text in JSON stand: `json` tells their values alone."""
import json
import json.decoder
import re

SPACE = re.compile(r"[ \t\n\r]*")
DECODER = json.JSONDecoder(parse_int=len)  # Python makes no number of very many digits


class Places:
    def __init__(self, text):
        """Of a text that is JSON. RecursionError where its brackets are very deep in one another."""
        self.text, self.found, self.twice, self.again = text, {}, [], set()  # of each path of keys where it stands first; those that are said again
        self.value(self.skip(0), ())

    def skip(self, at):
        return SPACE.match(self.text, at).end()

    def value(self, at, path):
        """Takes the value at a place. Where it ends."""
        if self.text[at] == "{":
            return self.members(self.skip(at + 1), path)
        if self.text[at] == "[":
            return self.items(self.skip(at + 1), path)
        return DECODER.raw_decode(self.text, at)[1]

    def members(self, at, path):
        while self.text[at] != "}":
            key, end = json.decoder.scanstring(self.text, at + 1)
            self.note(path + (key,), at)
            at = self.skip(self.value(self.skip(self.skip(end) + 1), path + (key,)))
            at = self.skip(at + 1) if self.text[at] == "," else at
        return at + 1

    def items(self, at, path):
        number = 0
        while self.text[at] != "]":
            self.note(path + (number,), at)
            at = self.skip(self.value(at, path + (number,)))
            at, number = self.skip(at + 1) if self.text[at] == "," else at, number + 1
        return at + 1

    def note(self, path, at):
        if path in self.found:
            if path[:-1] not in self.again:  # what is in a value that is said again goes without saying
                self.twice.append((path, at))
            self.again.add(path)
        else:
            self.found[path] = at

    def of(self, path):
        """In words, where a path, or the longest part of it that has a place, is said first."""
        return self.words(next((self.found[path[:end]] for end in range(len(path), 0, -1) if path[:end] in self.found), 0))

    def words(self, at):
        return f"line {self.text.count(chr(10), 0, at) + 1}, column {at - self.text.rfind(chr(10), 0, at)}"
