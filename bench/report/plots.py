"""Draws each plot of growth as an SVG in docs/: the time of a call on a logarithmic scale, ours drawn through, the plain implementation dashed."""
import math
from html import escape

from lines import DOCS, growth

WIDTH, HEIGHT, LEFT, RIGHT, TOP, ROW = 760, 340, 70, 20, 40, 18
COLOURS = ["#0072b2", "#d55e00", "#009e73", "#cc79a7", "#b8860b", "#56b4e9"]
TITLES = {
    "log": ("A call as the log grows", "steps in the log"),
    "bytes": ("A call as the rule grows in bytes", "bytes of the rule"),
    "depth": ("A call as the rule grows in depth", "depth of the rule"),
    "nested": ("Nested families", "k"),
    "tests": ("Families in which tests inside walks nest", "k"),
    "actions": ("Finish as the theory grows", "actions"),
    "more": ("Finish as the bound grows", "more"),
}


class Frame:
    """From values to places on the page."""

    def __init__(self, points):
        times = [t for _, *each in points for t in each[:2] if t]
        self.low, self.high = math.floor(math.log10(min(times))), math.ceil(math.log10(max(times)))
        self.first, self.last = min(p[0] for p in points), max(p[0] for p in points)

    def x(self, value):
        return LEFT + (WIDTH - LEFT - RIGHT) * (value - self.first) / max(self.last - self.first, 1)

    def y(self, time):
        return TOP + (HEIGHT - TOP) * (self.high - math.log10(time)) / max(self.high - self.low, 1)


def text(x, y, words, more=""):
    return f'<text x="{x:.0f}" y="{y:.0f}" {more}>{escape(words)}</text>'


def unit(power):
    """Ten to this power in microseconds, as a reader says it."""
    for least, name in ((6, "s"), (3, "ms"), (-9, "µs")):
        if power >= least:
            return f"{10.0 ** (power - max(least, 0)):g} {name}"


def line(x, y, to_x, to_y, colour):
    return f'<line x1="{x:.1f}" y1="{y:.1f}" x2="{to_x:.1f}" y2="{to_y:.1f}" stroke="{colour}"/>'


def path(frame, points, which, colour):
    points = [p for p in points if p[which]]
    places = " ".join(f"{frame.x(p[0]):.1f},{frame.y(p[which]):.1f}" for p in points)
    dashed = ' stroke-dasharray="5 4"' if which == 2 else ""
    drawn = f'<polyline points="{places}" fill="none" stroke="{colour}" stroke-width="1.6"{dashed}/>'
    if len(points) <= 12:
        drawn += "".join(f'<circle cx="{frame.x(p[0]):.1f}" cy="{frame.y(p[which]):.1f}" r="2.5" fill="{colour}"/>' for p in points)
    return drawn


def scales(frame):
    drawn = []
    for power in range(frame.low, frame.high + 1):
        y = frame.y(10.0 ** power)
        drawn += [line(LEFT, y, WIDTH - RIGHT, y, "#ddd"), text(LEFT - 6, y + 4, unit(power), 'text-anchor="end"')]
    step = max(1, round((frame.last - frame.first) / 8))
    for value in range(frame.first, frame.last + 1, step):
        drawn.append(text(frame.x(value), HEIGHT + 16, str(value), 'text-anchor="middle"'))
    if frame.high >= 4:
        drawn.append(line(LEFT, frame.y(1e4), WIDTH - RIGHT, frame.y(1e4), "#c00"))
        drawn.append(text(WIDTH - RIGHT, frame.y(1e4) - 4, "10 ms", 'text-anchor="end" fill="#c00"'))
    return drawn


def plot(name, series):
    title, axis = TITLES[name]
    frame = Frame([p for points in series.values() for p in points])
    drawn = scales(frame) + [text(LEFT, 22, title, 'font-size="15"'), text(WIDTH / 2, HEIGHT + 36, axis, 'text-anchor="middle"')]
    for k, (label, points) in enumerate(series.items()):
        drawn += [path(frame, points, which, COLOURS[k]) for which in (2, 1)]
        y = HEIGHT + 60 + ROW * k
        drawn += [line(LEFT, y - 4, LEFT + 24, y - 4, COLOURS[k]), text(LEFT + 32, y, label.replace("`", ""))]
    bottom = HEIGHT + 60 + ROW * len(series)
    drawn.append(text(LEFT + 32, bottom, "drawn through: ours; dashed: plain Rust", 'fill="#555"'))
    size = f'width="{WIDTH}" height="{bottom + 12}" viewBox="0 0 {WIDTH} {bottom + 12}"'
    head = f'<svg xmlns="http://www.w3.org/2000/svg" {size} font-family="sans-serif" font-size="12">'
    body = "\n".join([head, '<rect width="100%" height="100%" fill="#fff"/>', *drawn, "</svg>", ""])
    (DOCS / f"growth-{name}.svg").write_text(body)


for name, series in growth().items():
    plot(name, series)
