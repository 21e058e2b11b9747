"""The words of the command `sebrakt`, and the command for a line of a node."""
import argparse
import json
import pathlib
import re
import shlex
import sys

import asking
import client
import seals
import settings
import wanted

OPTIONS = ("kind", "arg", "restart", "shutdown")
PATIENCE = 30  # seconds that --wait takes without a number
NUMBER = re.compile(r"[0-9.]+")
ABOUT = """Gives commands to an agent, which keeps children alive on several machines.

The agent's address and the file of the cluster's secret are told by the options --address and --secret, else by $SEBRAKT_ADDRESS and
$SEBRAKT_SECRET, else by the file sebrakt/sebrakt.conf in ~/.config or /etc: address = "HOST:PORT" and secret = "FILE".

`sebrakt init --help` tells how a machine is made one of a cluster, `sebrakt run --help` how its agent is begun; so do `serve` and `move`."""


class Parser(argparse.ArgumentParser):
    waits = False  # whether --wait is said

    def parse_args(self, args=None, namespace=None):
        words = sys.argv[1:] if args is None else list(args)
        self.waits = "--wait" in words
        return super().parse_args(waiting_last(words), namespace)

    def error(self, message):
        """Tells a mistake in the words, as a value where values are wanted."""
        message += "; --wait takes seconds" * (self.waits and message.startswith("unrecognized arguments"))
        if "--json" in sys.argv:
            print(json.dumps({"ok": False, "why": message, "advice": f"{self.prog} --help"}))
            sys.exit(2)
        super().error(message)


def word(fault_of):
    """A type of words, by what tells why one can't be such."""
    def of(text):
        fault = fault_of(text)
        if fault:
            raise argparse.ArgumentTypeError(fault)
        return text
    return of


ident = word(lambda text: wanted.fault_of_word("an id", text))
name = word(lambda text: wanted.fault_of_word("a name", text))
machine = word(lambda text: wanted.fault_of_word("a machine's name", text))


def fault_of_line(text):
    return None if text.isascii() and text.isprintable() else "a line has visible ASCII and spaces alone"


def seconds(text):
    try:
        number = float(text)
    except ValueError:
        number = 0
    if not 0 < number <= 86400:
        raise argparse.ArgumentTypeError(f"{text}: seconds, up to a day")
    return number


def waiting_last(words):
    """The words, with each `--wait` behind a word that follows it and is no number: that is what the command is about, as in `drain --wait b`."""
    words = list(words)
    for at, (word, following) in enumerate(zip(words, words[1:])):
        if word == "--":
            break
        if word == "--wait" and (following == "-" or not following.startswith("-")) and not NUMBER.fullmatch(following):
            words[at:at + 2] = [following, word]
    return words


def version():
    """As it stands in the file VERSION of the repository, or of what is installed."""
    here = pathlib.Path(__file__).resolve().parent
    return next((file.read_text().strip() for file in (here / "VERSION", here.parent / "VERSION") if file.exists()), "of no version")


def lines(text):
    if not text.isdecimal() or not 0 <= int(text) <= 10_000:
        raise argparse.ArgumentTypeError("0 to 10000")
    return int(text)


def count(text):
    if not text.isdecimal() or not 0 < int(text) <= 1_000_000:
        raise argparse.ArgumentTypeError("1 to 1000000")
    return int(text)


def parser():
    words = Parser(prog="sebrakt", description=ABOUT, formatter_class=argparse.RawDescriptionHelpFormatter, allow_abbrev=False)
    add_common(words)
    words.add_argument("--version", action="version", version=f"sebrakt {version()}")
    verbs = words.add_subparsers(dest="verb", metavar="COMMAND")

    def verb(of, text, *aliases):
        one = verbs.add_parser(of, help=text, description=text, aliases=aliases, allow_abbrev=False)
        one.set_defaults(verb=of)
        add_common(one)
        return one

    add_spec(verb("start", "have a child kept running"), kind_is_required=True)
    add_spec(verb("replace", "give a child another kind, argument, restart or shutdown: its run ends, and a new one begins; what isn't said stays"), kind_is_required=False)
    verb("delete", "end children, and keep them no more", "stop").add_argument("ids", nargs="+", type=ident, metavar="ID").completer = idents
    restart = verb("restart", "end a child's run, and begin a new one")
    restart.add_argument("id", type=ident, metavar="ID").completer = idents
    add_wait(restart, "until it runs again")
    register = verb("register", "give a child a name")
    register.add_argument("name", type=name, metavar="NAME")
    register.add_argument("id", type=ident, metavar="ID").completer = idents
    verb("unregister", "take a name back").add_argument("name", type=name, metavar="NAME")
    drain = verb("drain", "have a machine's children run elsewhere, and no more begin there")
    drain.add_argument("machine", type=machine, metavar="MACHINE").completer = machines
    add_wait(drain, "until none of its children runs there")
    verb("undrain", "take a drained machine back").add_argument("machine", type=machine, metavar="MACHINE").completer = machines
    verb("where", "tell where a child, or the child of a name, runs, and its last runs").add_argument("what", metavar="ID|NAME").completer = idents
    verb("status", "tell of machines and children")
    verb("upgrade", "have the agent become its newer program, if that can go on with its runs; no child ends")
    logs = verb("logs", "print the last lines of a child")
    logs.add_argument("id", type=ident, metavar="ID").completer = idents
    logs.add_argument("-f", "--follow", action="store_true", help="go on with those that come")
    logs.add_argument("-n", "--lines", type=lines, default=50, metavar="N", help="so many at most (%(default)s)")
    logs.add_argument("--machine", type=machine, help="of its runs on this machine; else where it runs").completer = machines
    told = verb("events", "tell what has happened: who commanded what from where, runs that begin, end and move, machines that come and go")
    told.add_argument("about", nargs="?", metavar="ID|MACHINE", help="tell what has to do with it alone").completer = lambda **more: idents(**more) + machines(**more)
    told.add_argument("-f", "--follow", action="store_true", help="go on telling")
    told.add_argument("--last", type=count, default=50, metavar="N", help="so many at the most of those that there are already (%(default)s)")
    apply = verb("apply", "make children as a file says; what is so already is left alone")
    apply.add_argument("file", metavar="FILE", help="a table [child.ID] for each, in TOML; - is the standard input")
    apply.add_argument("--diff", action="store_true", help="tell what would be done, and do nothing")
    apply.add_argument("--prune", action="store_true", help="take away children and names that aren't in the file")
    add_wait(apply, "until all children of the file run")
    verb("export", "print a file for `apply` of the children that there are")
    verb("ask", "give a line to the agent's node, and print its answer").add_argument("line", nargs="+", type=word(fault_of_line), metavar="LINE", help="as in docs/SUPD.md: show | inspect | ..")
    return words


def add_common(words):
    """Options that stand before or behind the command. Without SUPPRESS those of the command would undo those before it."""
    words.add_argument("--address", default=argparse.SUPPRESS, metavar="HOST:PORT", help="the agent's")
    words.add_argument("--secret", default=argparse.SUPPRESS, metavar="FILE", help="the secret of the cluster")
    words.add_argument("--json", action="store_true", default=argparse.SUPPRESS, help="print one value of JSON")


def add_spec(words, kind_is_required):
    words.add_argument("id", type=ident, metavar="ID").completer = idents
    words.add_argument("--kind", required=kind_is_required, type=word(lambda text: wanted.fault_of_word("a kind", text)), help="of program, from the machines' file of kinds")
    words.add_argument("--arg", type=word(wanted.fault_of_argument), metavar="TEXT", help="that its program is given; one word without spaces")
    words.add_argument("--restart", type=word(wanted.fault_of_restart), metavar="WHEN", help="permanent (always), transient (not after status 0) or temporary (never)").completer = \
        lambda **_: wanted.RESTARTS
    words.add_argument("--shutdown", type=word(wanted.fault_of_shutdown), metavar="MS", help="milliseconds that it has to end, brutal_kill or infinity")
    add_wait(words, "until it runs")


def add_wait(words, until):
    words.add_argument("--wait", nargs="?", type=seconds, const=PATIENCE, metavar="S", help=f"wait {until}, at most S seconds ({PATIENCE}); status 1 if not")


# -- what completion offers: nothing where no agent answers

def idents(parsed_args, **_):
    return [child["id"] for child in seen(parsed_args)["children"]]


def machines(parsed_args, **_):
    return [one["name"] for one in seen(parsed_args)["machines"]]


def seen(options):
    try:
        return asking.agent_of(options, patience=1, begins=0).status()
    except (client.NoAnswer, settings.NoSettings, seals.BadSecret):
        return {"children": [], "machines": []}


# -- a command for a line

def operand(text):
    """A word of a command that is no option of it, as a shell takes it."""
    return ("-- " if text.startswith("-") else "") + shlex.quote(text)


def command_of(line):
    """The command that says a node's line, as a shell takes it."""
    verb, *words = line.split(" ")
    if verb not in ("start", "replace"):
        return " ".join(["sebrakt", verb, *["--"] * any(word.startswith("-") for word in words), *map(shlex.quote, words)])
    options = [f"--{option.partition('=')[0]}={option.partition('=')[2]}" for option in words[1:] if option not in DEFAULTS]
    return " ".join(["sebrakt", verb, *map(shlex.quote, options), operand(words[0])])


DEFAULTS = {f"{key}={value}" for key, value in wanted.Child("", "").fields().items()}
