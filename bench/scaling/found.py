"""What was found: points by picture, and how; kept as a text, from which pictures are drawn anew at will."""
from .charts import Line
from .exchanges import WAYS

WAY_COLOURS = {name: colour for colour, name in enumerate(WAYS)}


class Found:
    """Lines `# PICTURE`, with what stands below the picture, and lines of a picture, its panel, a line there, x and y, with tabs between."""

    def __init__(self, file):
        self.file, self.points, self.how = file, {}, {}
        for line in file.read_text().splitlines() if file.exists() else ():
            picture, *rest = line.split("\t")
            if picture.startswith("# "):
                self.how[picture[2:]] = rest[0]
            else:
                panel, name, x, y = rest
                self.points.setdefault(picture, []).append((panel, name, float(x), float(y)))

    def take(self, picture, points, how):
        self.points[picture], self.how[picture] = points, how
        lines = []
        for name in sorted(self.points):
            lines.append(f"# {name}\t{self.how[name]}")
            lines += [f"{name}\t{panel}\t{line}\t{x:.10g}\t{y:.10g}" for panel, line, x, y in self.points[name]]
        self.file.parent.mkdir(parents=True, exist_ok=True)
        self.file.write_text("\n".join([*lines, ""]))

    def lines(self, picture, panel):
        """Lines in the order in which they came, coloured by their ways where they are named after one."""
        found = {}
        for of, name, x, y in self.points.get(picture, ()):
            if of == panel:
                found.setdefault(name, []).append((x, y))
        lines = []
        for number, (name, points) in enumerate(found.items()):
            colour = next((WAY_COLOURS[way] for way in WAYS if name.startswith(way)), number)
            is_second = any(name.startswith(way) for way in WAYS) and "30% lost" in name
            lines.append(Line(name, sorted(points), colour, is_second, is_formula=" + " in name))
        return lines
