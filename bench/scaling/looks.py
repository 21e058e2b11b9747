"""How each picture looks: its panels with their axes, and the formulas that stand beside what was measured."""
from .charts import Axis, Line, Panel, drawing
from .counts import BUFFERS, NODES
from .exchanges import DOT_BYTES, ROW_BYTES
from .times import MEMBERS

IMAGE, ENTRY = 94, 8  # bytes of an image beside its rows and context, and of a node in a vector


def growth(found):
    """How many times as long a step takes at the greatest size as at the least, a text for each panel."""
    for panel in "saves", "others":
        lines = found.lines("steps", panel)
        if lines:
            sizes = [x for x, _ in lines[0].points]
            times = {line.name: line.points[-1][1] / line.points[0][1] for line in lines}
            told = ", ".join(f"{name} {value:.{1 if value < 10 else 0}f}" for name, value in times.items())
            yield f"Times as long at {max(sizes):,.0f} rows as at {min(sizes):,.0f}: {told}"


def formula(name, xs, height):
    return Line(name, [(x, height(x)) for x in xs], is_formula=True)


def picture_of(found, name):
    title, panels = LOOKS[name]
    drawn = []
    for panel, head, x, y, formulas in panels:
        lines = found.lines(name, panel)
        if lines:
            drawn.append(Panel(head, x, y, lines + formulas()))
    notes = [*(growth(found) if name == "steps" else ()), found.how.get(name, "")]
    return drawing(title, drawn, notes) if drawn else None


def spread(low, high):
    return [low * (high / low) ** (k / 40) for k in range(41)]


NODES_AXIS, ROWS_AXIS = Axis("nodes", marks=NODES), Axis("rows", is_log=True)
BYTES, LOG_BYTES = Axis("bytes", "bytes"), Axis("bytes", "bytes", True)
LOOKS = {
    "nodes": ("Until all nodes know all", [
        ("rounds", "Rounds by nodes, 1,000 rows", NODES_AXIS, Axis("rounds"), lambda: []),
        ("losses", "Rounds by losses, 16 nodes, 100 rows", Axis("messages lost", "%"), Axis("rounds"), lambda: []),
        ("messages", "Messages by nodes, 1,000 rows", NODES_AXIS, Axis("messages, acknowledgements among them", is_log=True), lambda: []),
        ("bytes", "Bytes by nodes, 1,000 rows", NODES_AXIS, LOG_BYTES, lambda: [
            formula("(n - 1) x rows", spread(2, 16), lambda n: (n - 1) * 1000 * ROW_BYTES)])]),
    "rows": ("Bytes by rows, of eight nodes, none lost", [
        ("known", "Until all know all", ROWS_AXIS, LOG_BYTES, lambda: [formula("7 x rows", spread(100, 10_000), lambda rows: 7 * rows * ROW_BYTES)]),
        ("quiet", "Until nobody has anything to ship", ROWS_AXIS, LOG_BYTES, lambda: [
            formula("8 x rows", spread(100, 10_000), lambda rows: 8 * rows * ROW_BYTES),
            formula("56 x rows", spread(100, 10_000), lambda rows: 56 * rows * ROW_BYTES)])]),
    "buffer": ("Parts and wholes", [
        ("ship", "One ship by a node of 1,000 rows", Axis("changes since the last acknowledgement", is_log=True), LOG_BYTES, lambda: [
            formula("part", spread(1, 1000), lambda changes: 90 + (ROW_BYTES + DOT_BYTES) * changes),
            formula("whole", spread(1, 1000), lambda changes: 100 + ROW_BYTES * (1000 + changes))]),
        ("news", "80 rows come in ten rounds, 8 nodes of 1,000, all to all", Axis("buffer, in changes", "", True, BUFFERS), LOG_BYTES, lambda: [])]),
    "away": ("Some of eight nodes are away for five rounds, 1,000 rows", [
        ("bytes", "Bytes from then until all know all, all to all", Axis("nodes away"), BYTES, lambda: [
            formula("7 x image a stop", (0, 7), lambda away: 7 * away * 1000 * ROW_BYTES)]),
        ("rounds", "Rounds from then until all know all, where they stop", Axis("nodes away"), Axis("rounds"), lambda: [])]),
    "images": ("Texts by what they have", [
        ("nodes", "An image without rows, by nodes that ever were", NODES_AXIS, BYTES, lambda: [
            formula("94 + 8 a node", (1, 16), lambda nodes: IMAGE + ENTRY * nodes)]),
        ("gaps", "The same by removed rows of another node", Axis("removed rows that the node knows of"), BYTES, lambda: [
            formula("12 a gap", (0, 1000), lambda gaps: IMAGE + ENTRY + DOT_BYTES * gaps)]),
        ("rows", "An image by rows", ROWS_AXIS, LOG_BYTES, lambda: [formula("100 a row", spread(100, 9900), lambda rows: 250 + ROW_BYTES * rows)]),
        ("letters", "A letter by its rows", ROWS_AXIS, LOG_BYTES, lambda: [])]),
    "steps": ("A step by the rows of its node, in time of a processor", [
        ("saves", "Steps that save the image", ROWS_AXIS, Axis("time a step", "us", True), lambda: []),
        ("others", "Steps of other kinds", ROWS_AXIS, Axis("time a step", "us", True), lambda: [])]),
    "placing": ("A placement by members, in time of a processor", [
        ("ids", "supctl place, an id", Axis("members", marks=MEMBERS), Axis("time an id", "us"), lambda: [])]),
    "processes": ("Real nodes, each with its image in a file", [
        ("start", "A start or a delete by rows", ROWS_AXIS, Axis("time a step", "us", True), lambda: []),
        ("written", "Bytes written a start or a delete", ROWS_AXIS, LOG_BYTES, lambda: [
            formula("100 a row", spread(100, 9900), lambda rows: IMAGE + ROW_BYTES * rows)]),
        ("ever", "An image without rows, by nodes that ever were", Axis("nodes that ever were", is_log=True), LOG_BYTES, lambda: [
            formula("94 + 11 a node", spread(1, 10_000), lambda nodes: IMAGE + 11 * nodes)]),
        ("known", "Until all know 1,000 rows, in time of a processor, all nodes", NODES_AXIS, Axis("time", "s"), lambda: [])]),
}
