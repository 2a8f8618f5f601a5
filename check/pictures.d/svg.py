"""A writer of SVG pictures that are read on light and on dark pages."""
from html import escape

STYLE = """\
text { font: 13px sans-serif; fill: #222 }
.small { font-size: 12px; fill: #555 }
.head { font-weight: bold }
.line { stroke: #444; stroke-width: 1.3; fill: none }
.thin { stroke: #bbb; stroke-width: 1; fill: none }
.lost { stroke: #b3261e; stroke-width: 1.3; stroke-dasharray: 5 4; fill: none }
.box { fill: #eef2f7; stroke: #8a9bb0 }
.note { fill: #fff6d6; stroke: #d5b94a }"""
COLOURS = ("#1f5fa8", "#c4541a", "#2e7d32", "#7b3fa0", "#a8811f", "#0f8b8d")


class Picture:
    """A picture of a size, with a white ground, to which shapes are added."""

    def __init__(self, width, height, title):
        self.width, self.height, self.title, self.shapes = width, height, title, []

    def add(self, shape):
        self.shapes.append(shape)

    def line(self, start, end, kind="line", arrow=False, colour=""):
        """A line, with an arrow at its end if need be."""
        ends = f'x1="{start[0]:g}" y1="{start[1]:g}" x2="{end[0]:g}" y2="{end[1]:g}"'
        more = ' marker-end="url(#arrow)"' if arrow else ""
        more += f' style="stroke: {colour}"' if colour else ""
        self.add(f'<line class="{kind}" {ends}{more}/>')

    def path(self, points, colour):
        """A line through points, each of which has a dot."""
        steps = " ".join(f"{x:.1f},{y:.1f}" for x, y in points)
        self.add(f'<polyline class="line" style="stroke: {colour}" points="{steps}"/>')
        for x, y in points:
            self.add(f'<circle cx="{x:.1f}" cy="{y:.1f}" r="3" fill="{colour}"/>')

    def text(self, at, text, kind="", anchor="middle"):
        self.add(f'<text x="{at[0]:g}" y="{at[1]:g}" text-anchor="{anchor}" class="{kind}">{escape(text)}</text>')

    def box(self, corner, size, kind="box"):
        self.add(f'<rect x="{corner[0]:g}" y="{corner[1]:g}" width="{size[0]:g}" height="{size[1]:g}" rx="4" class="{kind}"/>')

    def cross(self, at):
        """A mark where something is lost."""
        x, y = at
        for slope in (1, -1):
            self.line((x - 5, y - 5 * slope), (x + 5, y + 5 * slope), "lost")

    def __str__(self):
        head = f'<svg xmlns="http://www.w3.org/2000/svg" viewBox="0 0 {self.width} {self.height}" width="{self.width}" height="{self.height}">'
        marker = '<marker id="arrow" viewBox="0 0 10 10" refX="9" refY="5" markerWidth="7" markerHeight="7" orient="auto"><path d="M0,0 L10,5 L0,10 z" fill="#444"/></marker>'
        parts = [head, f"<title>{escape(self.title)}</title>", f"<style>{STYLE}</style>", f"<defs>{marker}</defs>"]
        parts.append(f'<rect width="{self.width}" height="{self.height}" fill="#fff"/>')
        return "\n".join([*parts, *self.shapes, "</svg>"]) + "\n"
