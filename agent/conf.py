"""The file of a machine's settings, for its agent and for the command `sebrakt`: lines KEY = VALUE, and one table [peer] behind them. It is TOML, and is
read by this alone, so that a Python without tomllib reads it, too."""
import os
import re

import options

PATHS = ("secret", "image", "kinds", "supd")  # those that are relative are beside the file
KEYS = {"address", *options.keys_of_run()} - {"peer", "listen", "conf", "check-upgrade"}
COMMENT = re.compile(r"\s*(#.*)?")
TABLE = re.compile(r"\s*\[peer\]\s*(#.*)?")
LINE = re.compile(r"""\s*([A-Za-z0-9_-]+)\s*=\s*(?:"([^"\\]+)"|'([^']+)'|(\d+(?:\.\d+)?|true|false))\s*(#.*)?""")


class Mistake(Exception):
    """What is wrong with the file, with its line."""


def read(path):
    """What a file says, by key; that of a peer b is `peer.b`."""
    try:
        with open(path, encoding="utf-8", errors="replace") as file:
            lines = file.read().split("\n")
    except OSError as fault:
        raise Mistake(f"{path}: {fault.strerror}") from None
    said, table = {}, ""
    for number, line in enumerate(lines, 1):
        if TABLE.fullmatch(line) and not table:
            table = "peer."
        elif not COMMENT.fullmatch(line):
            found = LINE.fullmatch(line)
            if not found:
                raise Mistake(f'{path}:{number}: a line is KEY = "TEXT", KEY = NUMBER, KEY = true, KEY = false, or once [peer]')
            key, text = table + found[1], next(one for one in found.group(2, 3, 4) if one is not None)
            if not table and key not in KEYS:
                raise Mistake(f"{path}:{number}: there is no key {key}")
            if key in said:
                raise Mistake(f"{path}:{number}: {key} is said twice")
            said[key] = os.path.join(os.path.dirname(path), os.path.expanduser(text)) if key in PATHS and text else text
    return said


def words(path):
    """The words of `run` that a file says."""
    said = []
    for key, text in read(path).items():
        if key.startswith("peer."):
            said += ["--peer", f"{key[5:]}={text}"]
        elif text != "false":
            said.append(f"--{'listen' if key == 'address' else key}" + ("" if text == "true" else "=" + text))
    return said
