#!/usr/bin/env python3
"""Writes down what a node of `supd` hears and tells: a filter between the node and its host, which is used as `supd` itself is.

    history.py FILE [--sync] -- SUPD.. NAME --image IMAGE [OPTION VALUE]..

The words behind `--` are run, and hear what this program hears. The node's history is written at the end of FILE: a line before the node hears it,
its answer before the host is told it, so that what a kill leaves can be told apart. `show`, `inspect`, `members`, `image` and `where` are not
written. With --sync each write is flushed to the disk, so that a loss of power leaves what was told.

The status is that of the node; 2 where the words aren't these; and 3 where FILE can't be written or the image can't be read, or another
node has FILE.
"""
import fcntl
import json
import os
import re
import subprocess
import sys
import time

QUERIES = (b"show", b"inspect", b"members", b"image")
LINE_LIMIT = 64 * 1024 * 1024
# Of each option that a begin tells: its value where it is left out, and what values there are.
SETTING = {"--weigh": ("sha256", "sha256|flat"), "--intensity": ("1", "0|[1-9][0-9]{0,2}|1000"), "--period": ("5", "[1-9][0-9]{0,5}|1000000"),
           "--buffer": ("64", "[1-9][0-9]{0,2}|10[01][0-9]|102[0-4]")}
SECONDS_FOR_LOCK = 10


class Words:
    """What the command line asks for. What `supd` wouldn't take is refused before a begin is written, since a begin stays."""

    def __init__(self, words):
        cut = words.index("--")
        self.path, flags, self.command = words[0], words[1:cut], words[cut + 1:]
        first = next(place for place, word in enumerate(self.command) if word.startswith("--"))
        self.name, options = self.command[first - 1], self.command[first:]
        self.options = dict(zip(options[::2], options[1::2]))
        self.setting = [self.options.get(option, default) for option, (default, _) in SETTING.items()]
        self.syncs = flags == ["--sync"]
        if cut < 1 or flags not in ([], ["--sync"]) or first < 2 or not self.are_a_nodes(options):
            raise ValueError

    def are_a_nodes(self, options):
        is_known = self.options.keys() <= {"--image", *SETTING} and "--image" in self.options and len(options) == 2 * len(self.options)
        fits = all(re.fullmatch(values, value) for value, (_, values) in zip(self.setting, SETTING.values()))
        return is_known and fits and re.fullmatch("[a-z0-9_-]{1,64}", self.name)


class History:
    """The file that a history is written to. The node inherits it and its lock, so that the next begin waits until the last node has ended."""

    def __init__(self, path, syncs):
        self.file, self.syncs = os.open(path, os.O_WRONLY | os.O_APPEND | os.O_CREAT, 0o644), syncs

    def lock(self):
        end = time.monotonic() + SECONDS_FOR_LOCK
        while True:
            try:
                fcntl.flock(self.file, fcntl.LOCK_EX | fcntl.LOCK_NB)
                return
            except BlockingIOError:
                if time.monotonic() > end:
                    fail("history in use")
                time.sleep(0.01)

    def put(self, data):
        """Writes all of it, or ends this program and with it the node, which is never to do what its history lacks."""
        try:
            while data:
                data = data[os.write(self.file, data):]
            if self.syncs:
                os.fdatasync(self.file)
        except OSError as error:
            fail(f"the history can't be written: {error.strerror}")


def fail(why):
    print(f"history.py: {why}", file=sys.stderr, flush=True)
    os._exit(3)


def count_in(image):
    """The image's count of changes, 0 where there is no image yet."""
    try:
        with open(image, encoding="ascii") as file:
            return json.load(file)["count"]
    except FileNotFoundError:
        return 0
    except (OSError, ValueError, TypeError, KeyError):
        fail(f"{image} is no image that can be read")


def begin_of(words):
    return f"\nbegin {words.name} {' '.join(words.setting)} {count_in(words.options['--image'])}\n".encode()


def quoted(answer):
    return b"".join(b">" + line for line in answer)


def is_act(line):
    """Whether a line may be an act. One that is too long is none, and neither is one that only asks."""
    return len(line) <= LINE_LIMIT + 1 and line[:-1] not in QUERIES and not line.startswith(b"where ")


class Node:
    """The node, and its host on this program's own input and output."""

    def __init__(self, words, history):
        self.history = history
        self.process = subprocess.Popen(words.command, stdin=subprocess.PIPE, stdout=subprocess.PIPE, pass_fds=[history.file])

    def serve(self, host):
        """Has the node hear the host's lines, one after another, until one of both ends."""
        first = self.answer()
        if first is None:
            return
        self.history.put(quoted(first))
        tell(first)
        for line in host:
            if not line.endswith(b"\n") or not self.serve_line(line):
                return

    def serve_line(self, line):
        """Whether the node goes on behind this line."""
        if is_act(line):
            self.history.put(b"<" + line)
        answer = self.ask(line)
        if answer is None:
            return False
        if is_act(line):
            self.history.put(quoted(answer))
        # (no line may stand in the history behind a save of which the node doesn't know what is kept, since it ends then)
        goes_on = not answer[0].startswith(b"refused 16 ") or self.ask(b"members\n") is not None
        tell(answer)
        return goes_on

    def ask(self, line):
        """The node's answer to a line; None where it has ended."""
        try:
            self.process.stdin.write(line)
            self.process.stdin.flush()
        except BrokenPipeError:
            return None
        return self.answer()

    def answer(self):
        """The lines of the next answer, with the empty one; None where the output ends before that."""
        lines = []
        while not lines or lines[-1] != b"\n":
            line = self.process.stdout.readline()
            if not line.endswith(b"\n"):
                return None
            lines.append(line)
        return lines

    def end(self):
        """The node's status, once it has ended."""
        try:
            self.process.stdin.close()
        except BrokenPipeError:
            pass
        status = self.process.wait()
        return status if status >= 0 else 128 - status


def tell(answer):
    sys.stdout.buffer.write(b"".join(answer))
    sys.stdout.buffer.flush()


def main():
    try:
        words = Words(sys.argv[1:])
    except (ValueError, StopIteration):
        print("usage: history.py FILE [--sync] -- SUPD.. NAME --image IMAGE [OPTION VALUE]..", file=sys.stderr)
        sys.exit(2)
    try:
        history = History(words.path, words.syncs)
        history.lock()
        history.put(begin_of(words))
        node = Node(words, history)
    except OSError as error:
        fail(f"{error.filename}: {error.strerror}")
    try:
        node.serve(sys.stdin.buffer)
    except OSError:
        node.end()
        fail("the host can't be heard or told any more")
    sys.exit(node.end())


if __name__ == "__main__":
    main()
