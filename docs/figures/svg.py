"""A canvas that writes SVG: text as text, a card of its own, and colours for light and for dark backgrounds."""
from html import escape

# name: (light, dark). Ink is for text, soft for what is said beside, faint for what is gone; row0 to row4 are the
# involutions, kernel0 and kernel1 shade cells that are taken out, ours and theirs are two sides of a comparison.
COLOURS = {
    "card": ("#ffffff", "#11161d"),
    "ink": ("#1f2328", "#e6edf3"),
    "soft": ("#57606a", "#a3adb8"),
    "faint": ("#c3cad2", "#454e59"),
    "grid": ("#e4e8ec", "#2a313a"),
    "row0": ("#0b5cad", "#62b0ff"),
    "row1": ("#b34700", "#ffa657"),
    "row2": ("#8a2be2", "#d2a8ff"),
    "kernel0": ("#ffe8b0", "#5a4300"),
    "kernel1": ("#cdeccd", "#1d4d2b"),
    "good": ("#1a7f37", "#56d364"),
    "bad": ("#c0182b", "#ff7b72"),
    "ours": ("#0b5cad", "#62b0ff"),
    "theirs": ("#b34700", "#ffa657"),
}
# Involutions are told apart by their dashes too, and not by colour alone.
DASHES = {"row1": "7 4", "row2": "2 4", "theirs": "7 4"}
MOST_BYTES = 30_000


def number(x):
    """A coordinate, as short as a tenth of a pixel allows."""
    short = f"{x:.1f}".removesuffix(".0")
    return "0" if short == "-0" else short


def points(*pairs):
    return " ".join(f"{number(x)},{number(y)}" for x, y in pairs)


class Picture:
    """Shapes in the order in which they are drawn. A class such as 'row1' gives a line its colour and dashes, and the
    same with a leading 'f-' a text or an area its fill."""

    def __init__(self, name, title, width, height):
        self.name, self.title, self.width, self.height = name, title, width, height
        self.parts, self.used = [], {"card", "ink", "faint"}

    def put(self, part, *classes):
        self.used.update(c.removeprefix("f-") for c in " ".join(classes).split())
        self.parts.append(part)

    def line(self, start, end, kind="ink", width=2, extra=""):
        (x, y), (u, v) = start, end
        at = f'x1="{number(x)}" y1="{number(y)}" x2="{number(u)}" y2="{number(v)}"'
        self.put(f'<line class="{kind}" {at} stroke-width="{width}"{extra}/>', kind)

    def path(self, d, kind="ink", width=2, extra=""):
        self.put(f'<path class="{kind}" d="{d}" stroke-width="{width}"{extra}/>', kind)

    def curve(self, start, bend, end, kind="ink", width=2, extra=""):
        self.path(f"M{points(start)} Q{points(bend, end)}", kind, width, extra)

    def broken(self, pairs, kind="ink", width=2, extra=""):
        self.put(f'<polyline class="{kind}" points="{points(*pairs)}" stroke-width="{width}"{extra}/>', kind)

    def dot(self, at, radius, fill="ink"):
        self.put(f'<circle class="f-{fill}" cx="{number(at[0])}" cy="{number(at[1])}" r="{number(radius)}"/>', fill)

    def ring(self, at, radius, kind="ink", width=2):
        self.put(
            f'<circle class="{kind}" cx="{number(at[0])}" cy="{number(at[1])}" r="{number(radius)}" stroke-width="{width}"/>', kind
        )

    def box(self, x, y, width, height, fill="grid", radius=6, extra=""):
        at = f'x="{number(x)}" y="{number(y)}" width="{number(width)}" height="{number(height)}" rx="{radius}"'
        self.put(f'<rect class="f-{fill}" {at}{extra}/>', fill)

    def text(self, at, words, fill="ink", size=17, anchor="start", bold=False):
        style = f' font-size="{size}"' if size != 17 else ""
        style += f' text-anchor="{anchor}"' if anchor != "start" else ""
        style += ' font-weight="600"' if bold else ""
        self.put(f'<text class="f-{fill}" x="{number(at[0])}" y="{number(at[1])}"{style}>{escape(words)}</text>', fill)

    def styles(self, which):
        """The rules of one scheme, for the colours that are used."""
        rules = []
        for name in COLOURS:
            if name in self.used:
                colour = COLOURS[name][which]
                rules.append(f".{name}{{stroke:{colour}}}.f-{name}{{fill:{colour}}}")
                if name in DASHES and which == 0:
                    lines = ",".join(f"{shape}.{name}" for shape in ("line", "path", "polyline"))
                    rules.append(f"{lines}{{stroke-dasharray:{DASHES[name]}}}")
        return "".join(rules)

    def written(self):
        """The file's text."""
        head = (
            f'<svg xmlns="http://www.w3.org/2000/svg" viewBox="0 0 {self.width} {self.height}" width="{self.width}" '
            f'height="{self.height}" role="img" aria-labelledby="t" font-family="system-ui,Helvetica,Arial,sans-serif" font-size="17">'
        )
        style = f"line,path,polyline,circle{{fill:none}}{self.styles(0)}@media (prefers-color-scheme:dark){{{self.styles(1)}}}"
        card = f'<rect class="f-card faint" x="1" y="1" width="{self.width - 2}" height="{self.height - 2}" rx="12" stroke-width="1"/>'
        body = "\n".join(self.parts)
        return f'{head}\n<title id="t">{escape(self.title)}</title>\n<style>{style}</style>\n{card}\n{body}\n</svg>\n'
