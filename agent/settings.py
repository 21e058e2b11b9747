"""Which agent is asked, and with which secret: by options, else by the environment, else by a file."""
import os

import conf

KEYS = ("address", "secret")


class NoSettings(Exception):
    """Why it isn't known which agent is asked."""


def files(environment):
    home = environment.get("XDG_CONFIG_HOME") or os.path.join(os.path.expanduser("~"), ".config")
    return [os.path.join(folder, "sebrakt", "sebrakt.conf") for folder in (home, "/etc")]


def find(options, environment):
    """The address and the secret's file, each as (text, where it was said), or (None, ""). NoSettings where a file is wrong or there is no address."""
    of_file = {}
    for path in files(environment):
        if os.path.exists(path):
            of_file = read(path)
            break
    found = {}
    for key in KEYS:
        variable = "SEBRAKT_" + key.upper()
        said = [(getattr(options, key, None), "--" + key), (environment.get(variable), "$" + variable), of_file.get(key, (None, ""))]
        found[key] = next((one for one in said if one[0]), (None, ""))
    if found["address"][0] is None:
        raise NoSettings(f"no agent's address: say --address HOST:PORT, set SEBRAKT_ADDRESS, or write address = \"HOST:PORT\" into {files(environment)[0]}")
    return found["address"], found["secret"]


def read(path):
    """What a file says of them. The first file that is there counts."""
    try:
        return {key: (text, path) for key, text in conf.read(path).items() if key in KEYS}
    except conf.Mistake as mistake:
        raise NoSettings(str(mistake)) from None
