#!/usr/bin/env python3
"""Keeps children alive on several machines: an agent on each runs a node, `supd`, does what it orders, and carries its letters to the others.

    agent.py run --name a --peer a=127.0.0.1:7001 --peer b=127.0.0.1:7002 --image a.image --kinds kinds.json
    agent.py init --name a --address 10.7.0.1:7001 --peer b=10.7.0.2:7001
    agent.py ask 127.0.0.1:7001 start web kind=http arg=8080
    agent.py status 127.0.0.1:7001
    agent.py serve 127.0.0.1:7001 --port 7080
    agent.py move 127.0.0.1:7001 127.0.0.1:7101

agent/README.md goes through it. Python 3 alone; Linux. Over a Redis server it takes Debian's python3-redis.
"""
import argparse
import os
import shutil
import sys
import time

import carrier
import client
import conf
import groups
import init
import log
import move
import options
import refusals
import seals
import shown

BUILT = os.path.join(os.path.dirname(os.path.abspath(__file__)), "..", "crates", "supd", "out", "supd")


def program(given):
    """The node's program. None where there is none."""
    named = given.supd or os.environ.get("SUPD")
    return named or (BUILT if os.access(BUILT, os.X_OK) else shutil.which("supd"))


def end(status, *words):
    print(*words, file=sys.stderr)
    sys.exit(status)


def words_of(bad):
    """Why something can't be had, with its file where it is one."""
    if not getattr(bad, "strerror", None):
        return str(bad)
    return f"{bad.filename}: {bad.strerror}" if bad.filename else bad.strerror


def supd_of(given):
    found = program(given)
    if found is None:
        end(2, "no supd: name it by --supd, or build it by ./quick supd")
    return found


def run(given, secret):
    import handover
    import host
    import upgrade
    supd = supd_of(given)
    fault = options.fault_of(given)
    if fault is not None:
        end(2, fault)
    try:
        table = handover.read()
        fault = handover.fault_of(table, given) if table else "only an agent asks that of its newer program" if given.check_upgrade else None
        if fault is not None:
            end(2, fault)
        agent = host.Agent(given, secret, supd, table)
        if given.check_upgrade:
            upgrade.try_nodes(agent)
            os._exit(0)  # and all that it has taken up stays the agent's
    except (OSError, ValueError) as bad:
        end(2, *([] if given.check_upgrade else [log.moment(time.time()), given.name]), words_of(bad))
    except ImportError:
        end(2, "--via takes python3-redis")
    try:
        agent.run()
    except carrier.NoNode as none:
        end(none.args[1], log.moment(time.time()), given.name, none.args[0])


def ask(given, secret):
    told = client.ask(given.address, secret, " ".join(given.line), wait=given.wait)
    print("\n".join(told))
    if "bad line" in groups.first_lines(told):
        print(*refusals.words_of(" ".join(given.line), "bad line"), sep="\n", file=sys.stderr)
    sys.exit(0 if groups.is_done(told) else 1)


def words():
    """The words of the command line, with those of the file that they name."""
    said = sys.argv[1:]
    named = argparse.ArgumentParser(add_help=False, allow_abbrev=False)
    named.add_argument("--conf")
    file, others = named.parse_known_args(said)
    return ["run", *conf.words(file.conf), *others[1:]] if said[:1] == ["run"] and file.conf else said


def main():
    try:
        given = options.words(__doc__).parse_args(words())
        if given.way == "init":
            return init.init(given, supd_of(given), print)
        secret = seals.read_secret(given.secret)
        if given.way == "run":
            run(given, secret)
        elif given.way == "ask":
            ask(given, secret)
        elif given.way == "status":
            print("\n".join(shown.tables(client.status(given.address, secret, wait=given.wait))))
        elif given.way == "move":
            move.move(given.address, given.to, secret, lambda lines: print(lines, flush=True), given.without, given.wait)
        else:
            import page
            page.serve(given.address, secret, given.port, given.wait)
    except (seals.BadSecret, conf.Mistake, init.NotDone) as bad:
        end(2, bad)
    except (client.NoAnswer, move.NotMoved) as fault:
        end(1, fault)


if __name__ == "__main__":
    main()
