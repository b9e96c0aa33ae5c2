"""The shapes of a picture in SVG: picture.py draws with them."""
from xml.sax.saxutils import escape

from names import value_of

INK, FAINT, RULE = "#1b1f24", "#57606a", "#d0d7de"


def width_of(words, size=11):
    return 0.62 * size * len(words)


def cut(words, room, size=11):
    """As much of the words as there is room for."""
    most = int(room / (0.62 * size))
    return words if len(words) <= most else words[:max(most - 1, 0)] + "…" if most > 1 else ""


class Picture:
    """Shapes, and how far they reach; the names of items, where there are some; and the programs of the plan that was drawn, if one was."""

    def __init__(self, names=None):
        self.shapes, self.width, self.height, self.names, self.programs = [], 0, 16, names, None

    def called(self, item):
        return self.names.called(item) if self.names else str(item)

    def value(self, item, value):
        return value_of(int(value), self.names.names[item][1]) if self.names and item in self.names.names else value

    def rect(self, x, y, w, h, fill, tip="", edge="none"):
        self.width = max(self.width, x + w)
        self.shapes.append(f'<rect x="{x:.1f}" y="{y:.1f}" width="{w:.1f}" height="{h:.1f}" rx="2" fill="{fill}" stroke="{edge}">'
                           f"<title>{escape(tip)}</title></rect>")

    def text(self, x, y, words, fill=INK, anchor="start", size=12, weight="normal"):
        self.width = max(self.width, x + (width_of(words, size) if anchor == "start" else 0))
        self.shapes.append(f'<text x="{x:.1f}" y="{y:.1f}" fill="{fill}" text-anchor="{anchor}" font-size="{size}" '
                           f'font-weight="{weight}">{escape(words)}</text>')

    def line(self, points, stroke, width=1.0):
        self.width = max([self.width] + [x for x, _ in points])
        path = " ".join(f"{x:.1f},{y:.1f}" for x, y in points)
        self.shapes.append(f'<polyline points="{path}" fill="none" stroke="{stroke}" stroke-width="{width}"/>')

    def dot(self, x, y, fill, tip=""):
        self.shapes.append(f'<circle cx="{x:.1f}" cy="{y:.1f}" r="4" fill="{fill}"><title>{escape(tip)}</title></circle>')

    def cross(self, x, y, stroke):
        self.line([(x - 5, y - 5), (x + 5, y + 5)], stroke, 2.5)
        self.line([(x - 5, y + 5), (x + 5, y - 5)], stroke, 2.5)

    def heading(self, words, more):
        self.text(16, self.height + 18, words, size=16, weight="bold")
        self.text(16, self.height + 38, more, FAINT)
        self.height += 50

    def legend(self, signs):
        """Signs, each with what it means: a function that draws it at a place, and words."""
        x, y = 16, self.height + 12
        for draw, words in signs:
            draw(x + 6, y)
            self.text(x + 18, y + 4, words, FAINT, size=11)
            x += 34 + width_of(words)
        self.height += 28

    def box(self, fill, edge="none"):
        return lambda x, y: self.rect(x - 6, y - 6, 12, 12, fill, edge=edge)

    def whole(self):
        size = f'width="{self.width + 16:.0f}" height="{self.height:.0f}"'
        return (f'<svg xmlns="http://www.w3.org/2000/svg" {size} font-family="DejaVu Sans, Verdana, sans-serif">\n'
                f'<rect width="100%" height="100%" fill="white"/>\n' + "\n".join(self.shapes) + "\n</svg>\n")


def shade(share):
    """A fill for a share from 0 to 1, and what can be read on it."""
    low, high = (221, 235, 252), (10, 60, 130)
    fill = [round(a + (b - a) * share) for a, b in zip(low, high)]
    return "#%02x%02x%02x" % tuple(fill), INK if share < 0.5 else "white"
