"""Texts of messages and images by the rules: how each is written, and the first fault of a text that is none."""
import json
import re

MAX = 9_007_199_254_740_991
TABLES = ["member", "child", "name"]
FIELDS = {"delta": "ctx from kind n rows to v", "push": "ctx from kind rows to v", "ack": "from kind n to v",
          "image": "boot count ctx kind node rows v"}
MESSAGES, IMAGES = ("delta", "push", "ack"), ("image",)


# -- writing; a dot is (counter, node), a row (table, key, value)

def cut(known):
    """Known dots as a vector, from nodes to the greatest n with 1 to n all known, and the dots beyond, in their order."""
    vector = {}
    for node in sorted({node for _, node in known}):
        while (vector.get(node, 0) + 1, node) in known:
            vector[node] = vector.get(node, 0) + 1
    return vector, sorted(dot for dot in known if dot[0] > vector.get(dot[1], 0))


def parts(state):
    vector, cloud = cut(state.known)
    rows = sorted((TABLES.index(table), key, dot, value) for dot, (table, key, value) in state.rows.items())
    return {"ctx": {"cloud": [[node, n] for n, node in cloud], "vector": vector},
            "rows": [[TABLES[place], key, [dot[1], dot[0]], value_of(value)] for place, key, dot, value in rows]}


def value_of(value):
    if isinstance(value, tuple):
        return {"label": value[0], "status": value[1]}
    return value if isinstance(value, str) else value.fields()


def written(kind, **fields):
    return json.dumps({"kind": kind, "v": 2, **fields}, sort_keys=True, separators=(",", ":"))


def message(sender, letter):
    to, _, (number, content) = letter
    number = {} if number is None else {"n": number}
    if content is None:
        return written("ack", **{"from": sender}, to=to, **number)
    return written("delta" if number else "push", **{"from": sender}, to=to, **number, **parts(content))


def image(node):
    return written("image", node=node.name, boot=node.boot, count=node.count, **parts(node.state))


# -- reading

class Fault(Exception):
    pass


def fault_if(wrong, name):
    if wrong:
        raise Fault(name)


def whole(text):
    number = int(text)
    return number if text != "-0" and -2**63 <= number < 2**64 else float(text)


def finite(text):
    number = float(text)
    if number in (float("inf"), float("-inf")):
        raise ValueError(text)
    return number


def no_constant(text):
    raise ValueError(text)


def is_number(value, least, most=MAX):
    return type(value) is int and least <= value <= most


def is_text(value, least, most):
    return isinstance(value, str) and re.fullmatch(f"[!-~]{{{least},{most}}}", value) is not None


def is_node(value):
    return isinstance(value, str) and re.fullmatch("[a-z0-9_-]{1,64}", value) is not None


def is_object(value, keys):
    return isinstance(value, dict) and sorted(value) == keys.split()


def is_dot(value):
    return isinstance(value, list) and len(value) == 2 and is_node(value[0]) and is_number(value[1], 1)


def is_context(value):
    return (is_object(value, "cloud vector") and isinstance(value["cloud"], list) and all(map(is_dot, value["cloud"]))
            and isinstance(value["vector"], dict) and all(is_node(node) and is_number(n, 1) for node, n in value["vector"].items()))


def is_info(value, version):
    if version == 1:
        return is_object(value, "label") and is_text(value["label"], 0, 1024)
    return is_object(value, "label status") and is_text(value["label"], 0, 1024) and value["status"] in ("open", "draining")


def is_spec(value):
    return (is_object(value, "arg kind restart shutdown") and is_text(value["arg"], 0, 1024) and is_text(value["kind"], 1, 128)
            and value["restart"] in ("permanent", "transient", "temporary")
            and (value["shutdown"] in ("brutal_kill", "infinity") or is_number(value["shutdown"], 0, 4_294_967_295)))


def is_row(row, version):
    if not (isinstance(row, list) and len(row) == 4 and row[0] in TABLES and is_dot(row[2])):
        return False
    if row[0] == "member":
        return is_node(row[1]) and is_info(row[3], version)
    return is_text(row[1], 1, 128) and (is_spec(row[3]) if row[0] == "child" else is_text(row[3], 1, 128))


def is_field(name, value, version):
    if name in ("from", "to", "node"):
        return is_node(value)
    if name in ("n", "boot", "count"):
        return is_number(value, 0 if name == "count" else 1)
    if name == "rows":
        return isinstance(value, list) and all(is_row(row, version) for row in value)
    return name in ("kind", "v") or is_context(value)


def rise(keys):
    return all(a < b for a, b in zip(keys, keys[1:]))


def is_canonical(context, rows):
    vector, cloud = context["vector"], [(n, node) for node, n in context["cloud"]]
    dots = [(n, node) for _, _, (node, n), _ in rows]
    return (rise(cloud) and all(n >= vector.get(node, 0) + 2 for n, node in cloud)
            and rise([(TABLES.index(row[0]), row[1], dot) for row, dot in zip(rows, dots)])
            and all(dot[0] <= vector.get(dot[1], 0) or dot in cloud for dot in dots))


def read(text, kinds):
    """The value of a text of one of these kinds; of any other text its first fault is raised."""
    try:
        value = json.loads(text, parse_int=whole, parse_float=finite, parse_constant=no_constant)
    except (ValueError, OverflowError, RecursionError):
        raise Fault("NotJson") from None
    fault_if(not (isinstance(value, dict) and is_number(value.get("v"), 0, 2**64 - 1)), "NotMessage")
    version, kind = value["v"], value.get("kind")
    fault_if(version not in (1, 2), "BadVersion")
    fault_if(kind not in kinds or not is_object(value, FIELDS[kind]), "NotMessage")
    fault_if(not all(is_field(name, field, version) for name, field in value.items()), "NotMessage")
    fault_if(kind != "image" and value["from"] == value["to"], "NotMessage")
    fault_if("rows" in value and not is_canonical(value["ctx"], value["rows"]), "NotCanonical")
    return value
