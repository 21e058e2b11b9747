"""What the page shows, as HTML. Whatever people or machines have named goes through `text` first."""
import collections
import html
import time
import urllib.parse

import events
import shown

ROWS = 100  # children that are shown at once
SORTS = ("trouble", "id", "machine", "restarts")
GOOD, SOON = ("running",), ("stopping", "begins")  # states that are well, and that pass by themselves
RESTARTS = ("permanent", "transient", "temporary")


def text(value):
    return html.escape(str(value), quote=True)


def code(value):
    return f"<code>{text(value)}</code>"


def link(path, said, **words):
    return f'<a href="{text(path + ("?" + urllib.parse.urlencode(words) if words else ""))}">{said}</a>'


def table(heads, rows):
    """Cells know their head, which a narrow screen shows beside each."""
    lead = "<thead><tr>" + "".join(f"<th>{head}</th>" for head in heads) + "</tr></thead>" if any(heads) else ""
    body = "".join("<tr>" + "".join(f'<td data-head="{head}">{cell}</td>' for head, cell in zip(heads, row)) + "</tr>" for row in rows)
    return f"<table>{lead}<tbody>{body}</tbody></table>"


def color(state):
    return "good" if state in GOOD else "soon" if state in SOON else "bad"


def button(verb, what, said, question):
    """One of the form `act`, which has the page's key."""
    return f'<button form="act" name="do" value="{text(verb)} {text(what)}" data-ask="{text(question)}">{text(said)}</button>'


# -- the whole

def prepared(status):
    """A status, with what is looked up in it for each row."""
    status["called"] = names = {}  # of each child its names
    for line in status["names"]:
        name, _, lead = line.split(" ", 2)
        names.setdefault(lead.split(" ")[0], []).append(name)
    status["here"] = collections.Counter(run[0] for child in status["children"] for run in child["runs"])
    return status


def title(status):
    """What a tab tells: that all is well, or how much isn't."""
    unwell = sum(bool(child["health"]) for child in status["children"])
    ill = sum(count for state, count in status["counts"].items() if color(state) == "bad")
    away = sum(machine["member"] != "open" or bool(machine["hinders"]) for machine in status["machines"])
    told = [f"{ill} of {sum(status['counts'].values())} don't run"] * bool(ill) + [f"{away} of {len(status['machines'])} machines not open"] * bool(away)
    told += [f"{unwell} run, but not well"] * bool(unwell) + ["a command lost"] * bool(status["losers"])
    return ", ".join(told or ["all well"]) + f" - Sebrakt {status['name']}"


def overview(status, words):
    """Machines and children, as far as `words` of the address choose them."""
    return summary(status, words) + "<h2>Machines</h2>" + machines(status) + "<h2>Children</h2>" + children(status, words) + losers(status) + others(status)


def summary(status, words):
    counts, members = status["counts"], [machine["member"] for machine in status["machines"]]
    states = sorted(counts, key=lambda state: (color(state) != "bad", state))
    parts = [link("./", f'<b>{sum(counts.values())}</b> {"child" if sum(counts.values()) == 1 else "children"}', **{**words, "state": "", "from": "0"})]
    parts += [link("./", f'<b class="{color(state)}">{counts[state]}</b> {text(state)}', **{**words, "state": state, "from": "0"}) for state in states]
    parts += [f'<span><b class="{"good" if member == "open" else "bad"}">{members.count(member)}</b> {text(member)} of {len(members)} machines</span>' for member in sorted(set(members))]
    parts += [f'<span><b class="bad">{len(status["losers"])}</b> lost {"command" if len(status["losers"]) == 1 else "commands"}</span>'] * bool(status["losers"])
    refused = ", ".join(f"{count} {why}" for why, count in status["refused"].items()) or "none"
    several = "s" * (status["groups"] > 1)
    return (f'<p class="sum">{"".join(parts)}</p><p class="quiet">Agent {code(status["name"])}, its node{several}: {text(status["node"])}, boot {text(status["boot"])}; '
            f'refused lines: {text(refused)}.</p>' + "".join(f'<p class="bad">{text(status["name"])}: {text(fault)}</p>' for fault in shown.faults(status)))


def machines(status):
    heads, rows = ["machine", "member", "last contact", "children", "label", ""], []
    for one in status["machines"]:
        name, here = one["name"], status["here"][one["name"]]
        heard = "here" if name == status["name"] else shown.moment(one["heard"])
        reasons = "".join(f'<br><span class="bad">{text(reason)}</span>' for reason in one["reasons"])
        is_last = not any(other["member"] == "open" for other in status["machines"] if other["name"] != name)
        asked = f"Drain {name}? " + ("No other machine is open, so its children would run nowhere." if is_last else f"Its {here} runs end, and begin elsewhere.")
        drain = button("drain", name, "drain", asked) if "open" in one["member"] else button("leave", name, "undrain", f"Take {name} back?") if "draining" in one["member"] else ""
        rows.append([code(name), f'<span class="{"good" if one["member"] == "open" else "bad"}">{text(one["member"])}</span>', text(heard) + reasons, here, code(one["label"]), drain])
    return table(heads, rows)


def chosen(status, words):
    """The children that are asked for, in the order that is asked for."""
    find, state, names = words.get("find", "").lower(), words.get("state", ""), status["called"]

    def is_found(child):
        return not find or any(find in part.lower() for part in (child["id"], child["kind"], child["arg"], child["place"] or "", *names.get(child["id"], ())))
    found = [child for child in status["children"] if (not state or child["state"] == state) and is_found(child)]
    keys = {"trouble": lambda child: (("bad", "soon", "good").index(color(child["state"])), not child["health"], child["id"]), "id": lambda child: child["id"],
            "machine": lambda child: (child["place"] or "", child["id"]), "restarts": lambda child: (-child["restarts"], child["id"])}
    return sorted(found, key=keys.get(words.get("sort"), keys["trouble"]))


def children(status, words):
    found, names = chosen(status, words), status["called"]
    first = int(words.get("from", "")) if words.get("from", "").isdecimal() and len(words["from"]) < 9 else 0
    first = first if first < len(found) else 0
    rows = [child_row(status, child, names.get(child["id"], ())) for child in found[first:first + ROWS]]
    steps = [link("./", said, **{**words, "from": str(max(0, at))}) for said, at, is_there in
             (("before", first - ROWS, first > 0), ("next", first + ROWS, first + ROWS < len(found))) if is_there]
    where = f'<p class="quiet">{first + 1} to {first + len(rows)} of {len(found)}' + (f", of {len(status['children'])} in all" if len(found) < len(status["children"]) else "")
    return table(["child", "state", "runs on", "restarts", "kind, argument", ""], rows) + (where + " " + " ".join(steps) + "</p>" if found else '<p class="quiet">None.</p>')


def child_row(status, child, names):
    group = f' <span class="quiet">group {child["group"]}</span>' if status["groups"] > 1 else ""
    called = f'<br><span class="quiet">{" ".join(map(code, names))}</span>' if names else ""
    last = f'{child["restarts"] or ""} <span class="quiet">{text(child["last"])}</span>' if child["last"] or child["restarts"] else ""
    return [link("child", code(child["id"]), id=child["id"]) + group + called, state(child), runs_now(child), last, spec(child), buttons(child, f' {link("child", "replace", id=child["id"])} ')]


def state(child):
    why = "" if child["why"].partition(", ")[0] == child["state"] else child["why"]
    return f'<b class="{color(child["state"])}">{text(child["state"])}</b>' + "".join(
        f'<br><span class="{look}">{text(told)}</span>' for look, told in (("quiet", why), ("soon", child["health"])) if told)


def runs_now(child):
    now, told = time.time(), []
    for run in child["runs"]:
        since = shown.since(child, run, now)
        told.append(f'{code(run[0])} <span class="quiet">run {text(run[1])}{f", process {run[2]}" if run[2] else ""}{", for " + since if since else ""}</span>')
    away = [f'<span class="quiet">its place is {code(child["place"])}</span>'] if child["place"] and child["place"] not in [run[0] for run in child["runs"]] else []
    return "<br>".join(told + away)


def spec(child):
    return f'{code(child["kind"])} {code(child["arg"])} <span class="quiet">{text(child["restart"])} {text(child["shutdown"])}</span>'


def buttons(child, between=" "):
    ident = child["id"]
    return (button("restart", ident, "restart", f"Restart {ident}? Its run ends, and a new one begins.") + between +
            button("delete", ident, "delete", f"Delete {ident}? Its run ends, and it is kept no more."))


def losers(status):
    rows = [[text(loser["table"]), code(loser["key"]), code(loser["dot"]), code(loser["line"] or "?"), f'{text(loser["by"] or "?")} at {code(loser["at"])}', text(events.moment(loser["when"]))]
            for loser in status["losers"]]
    return "<h2>Of two commands the one that lost</h2>" + table(["of a", "id or name", "entry", "line", "by", "when"], rows) if rows else ""


def others(status):
    """Names whose child is gone, and children that are deleted and run still."""
    there = {child["id"] for child in status["children"]}
    lost = [[code(name), code(ident)] for ident, names in status["called"].items() if ident not in there for name in names]
    ending = [[code(ident), code(name)] for ident, name in status["ending"]]
    return ("<h2>Names whose child is gone</h2>" + table(["name", "child"], lost) if lost else "") + ("<h2>Deleted, and running still</h2>" + table(["child", "machine"], ending) if ending else "")


# -- one child, and what has happened

def child_page(status, ident, log, happened):
    child = next((child for child in status["children"] if child["id"] == ident), None)
    lead = f"<h2>{code(ident)}</h2>"
    if child is None:
        return lead + '<p class="bad">There is no such child any more.</p>' + happenings(happened)
    runs = [[code(machine), text(number or "?"), text(process or ""), text(events.moment(began)), text(events.moment(ended) if ended or how else "runs"), f'<span class="{"quiet" if not how else ""}">{text(how)}</span>']
            for machine, number, process, began, ended, how in reversed(child["history"])]
    names = status["called"].get(ident, ())
    rows = [["state", state(child)], ["runs on", runs_now(child)], ["restarts", f'{child["restarts"]} {text(child["last"])}'], ["kind, argument", spec(child)]]
    rows += [["names", " ".join(map(code, names))]] * bool(names)
    lines = f'<h3>Its last lines</h3><pre>{text(chr(10).join(log))}</pre>' if log else ""
    return (lead + table(["", ""], rows) + f"<p>{buttons(child)}</p><h3>Its last runs</h3>" + (table(["machine", "run", "process", "began", "ended", "how"], runs) if runs else '<p class="quiet">None is known.</p>')
            + lines + happenings(happened))


def happenings(happened):
    rows = [[text(events.moment(event["at"])), text(events.text_of(event))] for event in reversed(happened)]
    return "<h3>What has happened</h3>" + (table(["when", "what"], rows) if rows else '<p class="quiet">Nothing that is known.</p>')


# -- forms

def options(values, chosen_one):
    return "".join(f'<option{" selected" if value == chosen_one else ""}>{text(value)}</option>' for value in values)


def filter_form(words):
    states = "".join(f'<option value="{text(state)}"{" selected" if state == words.get("state", "") else ""}>{text(state or "any state")}</option>'
                     for state in ("", "running", "stopping", "begins", "waiting", "kind missing", "held back", "not placed"))
    return (f'<form id="filter" method="get" action="./"><input name="find" type="search" placeholder="id, name, kind, argument, machine" aria-label="find" value="{text(words.get("find", ""))}">'
            f'<select name="state" aria-label="state">{states}</select><label>by <select name="sort">{options(SORTS, words.get("sort"))}</select></label><button>show</button></form>')


def spec_form(key, verb, child):
    """What starts a child, or replaces one, which is asked for first, since its run ends."""
    asked = f' data-ask="{text("Replace " + child["id"] + "? Its run ends, and a new one begins.")}"' if verb == "replace" else ""
    ident = f'<input type="hidden" name="id" value="{text(child["id"])}">' if verb == "replace" else '<label>id <input name="id" required maxlength="128" size="14"></label>'
    return (f'<details{" open" if verb == "replace" else ""}><summary>{verb} {"it by another form" if verb == "replace" else "a child"}</summary><form class="spec" method="post" action="do"><input type="hidden" name="key" value="{text(key)}">'
            f'<input type="hidden" name="verb" value="{verb}">{ident}<label>kind <input name="kind" maxlength="128" size="10" value="{text(child.get("kind", ""))}"></label>'
            f'<label>arg <input name="arg" maxlength="1024" size="20" value="{text(child.get("arg", ""))}"></label><label>restart <select name="restart">{options(RESTARTS, child.get("restart"))}</select></label>'
            f'<label>shutdown <input name="shutdown" size="8" placeholder="5000" value="{text(child.get("shutdown", ""))}"></label><button{asked}>{verb}</button></form></details>')


def question(key, do, asked):
    """For who has no script."""
    return (f'<h2>{text(asked)}</h2><form method="post" action="do"><input type="hidden" name="key" value="{text(key)}"><input type="hidden" name="sure" value="yes">'
            f'<button name="do" value="{text(do)}">yes</button> <a href="./">no</a></form>')


def page(key, said, live, told="", before="", behind=""):
    return (f'<!doctype html><html lang="en"><head><meta charset="utf-8"><meta name="viewport" content="width=device-width, initial-scale=1"><title>{text(said)}</title>'
            '<link rel="icon" href="data:,"><link rel="stylesheet" href="/page.css"><noscript><meta http-equiv="refresh" content="5"></noscript></head>'
            f'<body><header><h1>{link("./", "Sebrakt")}</h1><nav>{link("events", "what has happened")}</nav></header><p id="told"{"" if told else " hidden"}>{text(told)}</p>{before}'
            f'<main id="live">{live}</main>{behind}<form id="act" method="post" action="do"><input type="hidden" name="key" value="{text(key)}"></form><script src="/page.js"></script></body></html>')
