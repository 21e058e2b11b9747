"""Charts of lines as SVG, for light ground and dark: axes with their units, and each line's name at its end."""
import math
from dataclasses import dataclass, field
from html import escape

WIDE, HIGH = 300, 240  # of a panel's field
LEFT, RIGHT, TOP, BELOW = 74, 146, 48, 50  # around it
LINE_OF_TEXT = 13
COLOURS = 6
STYLE = """text{font:11px system-ui,sans-serif;fill:#1f2328}
.back{fill:#fff}
.head{font-size:15px;font-weight:600}
.of-panel{font-size:12px;font-weight:600}
.axis{fill:#59636e}
.grid{stroke:#d1d9e0;stroke-width:1}
.lead{stroke:#8b949e;stroke-width:1}
path{fill:none}
.measured{stroke-width:2;stroke-linejoin:round}
.formula{stroke:#6e7781;stroke-width:1.5;stroke-dasharray:2 3}
.second{stroke-dasharray:7 4}
.c0{stroke:#0969da}.c1{stroke:#bc4c00}.c2{stroke:#1a7f37}.c3{stroke:#8250df}.c4{stroke:#bf3989}.c5{stroke:#7d6608}
.dot{stroke-width:2;fill:#fff}
@media(prefers-color-scheme:dark){text{fill:#e6edf3}.back,.dot{fill:#0d1117}.axis{fill:#9198a1}.grid{stroke:#3d444d}.formula{stroke:#9198a1}
.c0{stroke:#58a6ff}.c1{stroke:#f0883e}.c2{stroke:#3fb950}.c3{stroke:#bc8cff}.c4{stroke:#f778ba}.c5{stroke:#d4b106}}"""
UNITS = {  # of a unit the steps by which its numbers are told
    "bytes": [(1, "B"), (1e3, "kB"), (1e6, "MB"), (1e9, "GB")],
    "us": [(1, "us"), (1e3, "ms"), (1e6, "s")],
}


@dataclass
class Axis:
    title: str
    unit: str = ""
    is_log: bool = False
    marks: tuple = ()  # where ticks stand, if not at round values

    def place(self, value):
        return math.log10(value) if self.is_log else value

    def told(self, value):
        size, name = 1, self.unit
        for size, name in UNITS.get(self.unit, [(1, self.unit)]):
            if abs(value) < size * 999.5:
                break
        text = f"{value / size:,.10g}"
        return text + name if name == "%" else f"{text} {name}".strip() if value or self.unit not in UNITS else "0"


@dataclass
class Line:
    name: str
    points: list  # of (x, y)
    colour: int = 0
    is_second: bool = False  # of two of one colour
    is_formula: bool = False


@dataclass
class Panel:
    title: str
    x: Axis
    y: Axis
    lines: list = field(default_factory=list)
    notes: list = field(default_factory=list)


def ticks(axis, least, most):
    """Round values from the least to the most, both among them."""
    if axis.is_log:
        low, high = math.floor(math.log10(least) + 1e-9), math.ceil(math.log10(most) - 1e-9)
        low = low if low < high else low - 1
        between = (1,) if high - low > 2 else (1, 2, 5)
        values = [m * 10.0**e for e in range(low, high + 1) for m in between]
        first = max((v for v in values if v <= least * 1.0001), default=values[0])
        last = min((v for v in values if v >= most * 0.9999), default=values[-1])
        return [v for v in values if first <= v <= last]
    step = 10.0 ** math.floor(math.log10(max(most, 1e-9) / 4))
    step *= next(m for m in (1, 2, 2.5, 5, 10) if most / (step * m) <= 5)
    return [step * k for k in range(math.ceil(most / step - 1e-9) + 1)]


class Field:
    """A panel's field, at a place of the drawing."""

    def __init__(self, panel, left, top):
        self.panel, self.left, self.top = panel, left, top
        points = [point for line in panel.lines for point in line.points]
        xs, ys = zip(*points)
        self.x_ticks, self.y_ticks = ticks(panel.x, min(xs), max(xs)), ticks(panel.y, min(ys), max(ys))
        self.x_ends, self.y_ends = [self.x_ticks[0], self.x_ticks[-1]], [self.y_ticks[0], self.y_ticks[-1]]
        if panel.x.is_log and panel.x.marks:
            self.x_ticks, self.x_ends = panel.x.marks, (panel.x.marks[0], panel.x.marks[-1])
        elif not panel.x.is_log:  # what is told of x ends with the points
            self.x_ends[1] = max(xs)
            self.x_ticks = [x for x in panel.x.marks or self.x_ticks if x <= max(xs)]

    def at(self, point):
        (x, y), panel = point, self.panel
        return (self.left + WIDE * share(panel.x, x, self.x_ends), self.top + HIGH * (1 - share(panel.y, y, self.y_ends)))

    def drawn(self):
        yield f"<text class='of-panel' x='{self.left}' y='{self.top - 14}'>{escape(self.panel.title)}</text>"
        yield from self.axes()
        ends = []
        for line in self.panel.lines:
            places = [self.at(point) for point in line.points]
            yield from self.line(line, places)
            if line.name:
                ends.append((line, places[-1]))
        yield from names(ends, self.left + WIDE, self.top + HIGH)

    def axes(self):
        low, high = self.top + HIGH, self.top
        for value in self.y_ticks:
            y = self.at((self.x_ticks[0], value))[1]
            yield f"<path class='grid' d='M{self.left} {y:.1f}h{WIDE}'/>"
            yield f"<text class='axis' x='{self.left - 6}' y='{y + 4:.1f}' text-anchor='end'>{self.panel.y.told(value)}</text>"
        for value in self.x_ticks:
            x = self.at((value, self.y_ticks[0]))[0]
            yield f"<path class='grid' d='M{x:.1f} {low}v5'/>"
            yield f"<text class='axis' x='{x:.1f}' y='{low + 18}' text-anchor='middle'>{self.panel.x.told(value)}</text>"
        yield f"<text class='axis' x='{self.left + WIDE / 2}' y='{low + 36}' text-anchor='middle'>{escape(self.panel.x.title)}</text>"
        x, y = self.left - 60, (low + high) / 2
        yield f"<text class='axis' x='{x}' y='{y}' text-anchor='middle' transform='rotate(-90 {x} {y})'>{escape(self.panel.y.title)}</text>"

    def line(self, line, places):
        path = "M" + "L".join(f"{x:.1f} {y:.1f}" for x, y in places)
        if line.is_formula:
            yield f"<path class='formula' d='{path}'/>"
            return
        look = f"c{line.colour % COLOURS}{' second' * line.is_second}"
        yield f"<path class='measured {look}' d='{path}'/>"
        for (x, y), point in zip(places, line.points):
            told = f"{line.name}: {self.panel.x.told(point[0])}, {self.panel.y.told(round(point[1], 3))}"
            yield f"<circle class='dot c{line.colour % COLOURS}' cx='{x:.1f}' cy='{y:.1f}' r='2.5'><title>{escape(told)}</title></circle>"


def share(axis, value, ends):
    low, high = map(axis.place, ends)
    return (axis.place(value) - low) / (high - low)


def names(ends, right, low):
    """The names of lines beside their ends, so that none stands over another."""
    ends = sorted(ends, key=lambda it: it[1][1])
    heights, last = [], -math.inf
    for _, (_, y) in ends:
        last = max(y, last + LINE_OF_TEXT)
        heights.append(last)
    last = low + LINE_OF_TEXT
    for place in reversed(range(len(heights))):
        last = heights[place] = min(heights[place], last - LINE_OF_TEXT)
    for (line, (x, y)), height in zip(ends, heights):
        yield f"<path class='lead' d='M{x + 4:.1f} {y:.1f}L{right + 10} {height:.1f}'/>" if abs(height - y) > 3 or x < right - 1 else ""
        yield f"<text x='{right + 12}' y='{height + 4:.1f}'>{escape(line.name)}</text>"


def drawing(title, panels, notes=()):
    """The whole picture: panels two by two, and notes below."""
    across = min(2, len(panels))
    down = -(-len(panels) // 2)
    wide, each = across * (LEFT + WIDE + RIGHT), TOP + HIGH + BELOW
    high = 24 + down * each + len(notes) * 15 + 8
    parts = [f"<svg xmlns='http://www.w3.org/2000/svg' viewBox='0 0 {wide} {high}' width='{wide}' height='{high}'>",
             f"<title>{escape(title)}</title>", f"<style>\n{STYLE}\n</style>", f"<path class='back' d='M0 0H{wide}V{high}H0z'/>",
             f"<text class='head' x='14' y='24'>{escape(title)}</text>"]
    for number, panel in enumerate(panels):
        field_of = Field(panel, LEFT + number % 2 * (LEFT + WIDE + RIGHT), 24 + TOP + number // 2 * each)
        parts += [it for it in field_of.drawn() if it]
    parts += [f"<text class='axis' x='14' y='{24 + down * each + 12 + 15 * number}'>{escape(note)}</text>" for number, note in enumerate(notes)]
    return "\n".join([*parts, "</svg>", ""])
