"""The words of the agent's command line."""
import argparse
import ipaddress
import re

import groups
import wires

NODE = re.compile(r"[a-z0-9_-]{1,64}")


def name(text):
    if not NODE.fullmatch(text):
        raise argparse.ArgumentTypeError("a name has 1 to 64 of a-z 0-9 _ -")
    return text


def address(text):
    try:
        return wires.address_of(text)
    except ValueError as fault:
        raise argparse.ArgumentTypeError(str(fault)) from None


def address_in_numbers(text):
    """An address that needs no look-up: that may take seconds, in which an agent would hear nobody."""
    host, port = address(text)
    host = "127.0.0.1" if host == "localhost" else host
    try:
        ipaddress.ip_address(host)
    except ValueError:
        raise argparse.ArgumentTypeError(f"{host}: an agent takes addresses in numbers, as 10.7.0.1 or [fd00::1]") from None
    return host, port


def peer(text):
    before, _, behind = text.partition("=")
    return name(before), address_in_numbers(behind)


def count_of_groups(text):
    if not text.isdecimal() or not 1 <= int(text) <= groups.MOST:
        raise argparse.ArgumentTypeError(f"1 to {groups.MOST}")
    return int(text)


def label(text):
    if not (text.isascii() and text.isprintable() and " " not in text and len(text) <= 1024):
        raise argparse.ArgumentTypeError("a label has at most 1024 bytes of visible ASCII")
    return text


def positive(text):
    number = float(text)
    if not 0 < number < 1e6:
        raise argparse.ArgumentTypeError("more than 0 seconds, less than a million")
    return number


def whole(text):
    if not text.isdecimal() or not 0 < int(text) <= 1_000_000:
        raise argparse.ArgumentTypeError("1 to 1000000")
    return int(text)


def words(page):
    """The parser; `page` is what it says at the top."""
    parser = argparse.ArgumentParser(description=page, formatter_class=argparse.RawDescriptionHelpFormatter)
    ways = parser.add_subparsers(dest="way", required=True, metavar="run | init | ask | status | serve | move")
    run_words(ways.add_parser("run", help="keep this machine's children alive, until SIGTERM"))
    init_words(ways.add_parser("init", help="make a machine one of a cluster: its settings, its secret, and the first machine's image"))
    ask = ways.add_parser("ask", help="give a line to an agent's node, and print its answer")
    ask.add_argument("address", type=address, metavar="HOST:PORT")
    ask.add_argument("line", nargs="+", help="show | start ID .. | delete ID | drain MEMBER | ..")
    status = ways.add_parser("status", help="print an agent's view of machines and children")
    status.add_argument("address", type=address, metavar="HOST:PORT")
    serve = ways.add_parser("serve", help="show an agent's view as a page of HTML, at the loopback alone")
    serve.add_argument("address", type=address, metavar="HOST:PORT")
    serve.add_argument("--port", type=int, required=True, help="of the page; 0 for any that is free")
    moves = ways.add_parser("move", help="start each child of one cluster in another one, once it has ended where it was, and print its line")
    moves.add_argument("address", type=address, metavar="FROM", help="an agent of the cluster that is left, as HOST:PORT")
    moves.add_argument("to", type=address, metavar="TO", help="an agent of the other one")
    moves.add_argument("--without", action="append", default=[], type=name, metavar="NAME", help="a machine of the first that is away for ever")
    for way in (ask, status, serve, moves):
        way.add_argument("--secret", metavar="FILE", help="the secret of the cluster")
        way.add_argument("--wait", type=float, default=5, metavar="S", help="so long for an agent that begins yet (%(default)s)")
    return parser


def init_words(init):
    init.add_argument("--name", required=True, type=name, help="of this machine; no other one has it")
    init.add_argument("--address", required=True, type=address_in_numbers, metavar="HOST:PORT", help="where the other machines reach its agent")
    init.add_argument("--peer", action="append", default=[], type=peer, metavar="NAME=HOST:PORT", help="each other machine")
    init.add_argument("--secret", metavar="FILE", help="the cluster's, from its first machine; without it this is the first machine, and its secret is made")
    init.add_argument("--folder", metavar="FOLDER", help="of settings (/etc/sebrakt for root, else ~/.config/sebrakt)")
    init.add_argument("--state", metavar="FOLDER", help="of the image (/var/lib/sebrakt for root, else ~/.local/state/sebrakt)")
    init.add_argument("--supd", metavar="FILE", help="the node's program ($SUPD, else the one that is built in this repository, else on $PATH)")


def keys_of_run():
    """The names of the options of `run`."""
    run = argparse.ArgumentParser(add_help=False)
    run_words(run)
    return [option[2:] for action in run._actions for option in action.option_strings]


def run_words(run):
    run.add_argument("--conf", metavar="FILE", help="that says options, as `init` writes it; those that are said beside it count before its own")
    run.add_argument("--name", required=True, type=name, help="of this machine; no other one has it")
    run.add_argument("--image", required=True, metavar="FILE", help="where the node keeps what it knows")
    run.add_argument("--kinds", required=True, metavar="FILE", help='which program a kind is: {"sleep": ["sleep", "{arg}"]}')
    run.add_argument("--peer", action="append", default=[], type=peer, metavar="NAME=HOST:PORT", help="a machine, once for each; this one among them is passed over")
    run.add_argument("--listen", type=address_in_numbers, metavar="HOST:PORT", help="where others, and who asks, reach this agent (its own --peer)")
    run.add_argument("--via", metavar="URL", help="carry letters over a server of Redis or NATS, as redis://HOST:PORT or nats://HOST:PORT, in place of --peer")
    run.add_argument("--cluster", default="sebrakt", type=name, metavar="NAME", help="which one, where several are at one server (%(default)s)")
    run.add_argument("--groups", default=1, type=count_of_groups, metavar="K", help="of children, each with nodes of its own; all machines have as many (%(default)s)")
    run.add_argument("--secret", metavar="FILE", help="of all machines of the cluster, at least 16 bytes; without it, the loopback alone")
    run.add_argument("--metrics", type=address_in_numbers, metavar="HOST:PORT", help="where Prometheus finds /metrics of this agent")
    run.add_argument("--label", type=label, help="with which this machine joins (its address)")
    run.add_argument("--logs", metavar="FOLDER", help="of a file for each child's lines, or `journal` (the journal where there is one, else IMAGE.logs)")
    run.add_argument("--supd", metavar="FILE", help="the node's program ($SUPD, else the one that is built in this repository, else on $PATH)")
    run.add_argument("--check-upgrade", action="store_true", help="tell whether this program can go on with the runs of an agent, which asks that of its newer program")
    time_words(run)
    run.add_argument("--least", type=int, default=1, metavar="N", help="who sees fewer machines, itself counted, takes itself out (%(default)s)")
    run.add_argument("--alone", action="store_true", help="with a new image, begin though no other machine is heard: nobody has run children before")
    run.add_argument("--intensity", type=whole, default=1000, metavar="N", help="the node's: more restarts in a period have this machine give up (%(default)s)")
    run.add_argument("--period", type=whole, default=5, metavar="S", help="the node's, whole seconds (%(default)s)")
    for word, what in ("--buffer", "changes"), ("--weigh", "sha256 or flat"):
        run.add_argument(word, help=f"the node's: {what}")


def time_words(run):
    """The words that are seconds."""
    for word, default, what in (
            ("silent", 3, "a member that was silent so long is taken out"),
            ("grace", 3, "at most so long nothing begins, until all others have told what they run"),
            ("every", 0.5, "between two words to the other machines"),
            ("rejoin", 15, "this machine joins again after 0, 1, 2, 4 .. seconds where it is taken out again and again, at most so many"),
            ("leave-time", 30, "at most so long for children to end at SIGTERM"),
            ("backoff", 60, "a child whose runs are short begins again after 0, 1, 2, 4 .. seconds, at most so many"),
            ("stable", 10, "a shorter run is short")):
        run.add_argument("--" + word, type=positive, default=default, metavar="S", help=f"{what} (%(default)s)")
    run.add_argument("--patience", type=positive, metavar="S", help="a node that answers later is begun anew (2, or two thirds of --silent where that is less)")


def fault_of(options):
    """What is wrong with the words of a run, None where all is well; those that weren't given are filled in."""
    options.peers = dict(options.peer)
    own = options.peers.pop(options.name, None)
    options.listen = options.listen or own
    if options.listen is None:
        return "no address: give --listen, or a --peer of this machine's name"
    if options.secret is None and not ipaddress.ip_address(options.listen[0]).is_loopback:
        return "without --secret whoever reaches the port commands this machine: listen at 127.0.0.1, or give a secret"
    if options.silent < 3 * options.every:
        return "--silent is at least three times --every"
    options.patience = options.patience or min(2, options.silent * 2 / 3)
    if options.patience >= options.silent:
        return "--patience is less than --silent: the others take over what a machine runs whose node doesn't answer"
    if options.via and options.peers:
        return "--via takes no --peer"
    options.label = options.label or "{}:{}".format(*options.listen)
    options.setting = f"{options.groups} groups, weigher {options.weigh or 'sha256'}"
    options.settings = [word for key in ("intensity", "period", "buffer", "weigh") if getattr(options, key) for word in ("--" + key, str(getattr(options, key)))]
    return None
