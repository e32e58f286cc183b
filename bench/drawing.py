"""Draws lines over one axis of powers of ten, as SVG."""
import math

WIDTH, HEIGHT = 640, 360
LEFT, RIGHT, TOP, BOTTOM = 70, 20, 50, 55
COLOURS = {"Rattle": "#0b63a5", "Rust": "#c2410c", "strong": "#4d7c0f", "Rust, yielding": "#c2410c", "Rust, parking": "#7e22ce"}


def step_for(greatest):
    """A round step that divides an axis up to a number into four to eight parts."""
    rough = greatest / 5
    power = 10 ** math.floor(math.log10(rough))
    return min((factor * power for factor in (1, 2, 5, 10)), key=lambda step: abs(step - rough))


class Plot:
    """Points of several lines; `lines` gives for each name its points: two numbers, and the quartiles of the second one
    where it was measured several times."""

    def __init__(self, title, across, up, lines):
        self.title, self.across, self.up, self.lines = title, across, up, lines
        points = [point for line in lines.values() for point in line]
        self.least, self.most = (math.log10(f(point[0] for point in points)) for f in (min, max))
        highest = max(max(point[1], *point[2:]) if point[2:] else point[1] for point in points)
        self.step = step_for(highest)
        self.top = self.step * math.ceil(highest / self.step * 1.02)

    def x(self, number):
        share = (math.log10(number) - self.least) / (self.most - self.least)
        return LEFT + 15 + share * (WIDTH - LEFT - RIGHT - 30)

    def y(self, number):
        return HEIGHT - BOTTOM - number / self.top * (HEIGHT - TOP - BOTTOM)

    def text(self, x, y, text, anchor="middle", more=""):
        return f'<text x="{x:.1f}" y="{y:.1f}" text-anchor="{anchor}"{more}>{text}</text>'

    def axes(self):
        for number in range(round(self.top / self.step) + 1):
            y = self.y(number * self.step)
            yield f'<line x1="{LEFT}" y1="{y:.1f}" x2="{WIDTH - RIGHT}" y2="{y:.1f}" stroke="#dddddd"/>'
            yield self.text(LEFT - 8, y + 4, f"{number * self.step:,g}", "end")
        for number, *_ in next(iter(self.lines.values())):
            yield self.text(self.x(number), HEIGHT - BOTTOM + 18, f"{number:,}")
        yield self.text((LEFT + WIDTH - RIGHT) / 2, HEIGHT - 12, self.across)
        yield self.text(LEFT, TOP - 12, self.up, "start")
        yield self.text(LEFT, 20, self.title, "start", ' font-weight="bold"')

    def line(self, name, points):
        places = " ".join(f"{self.x(x):.1f},{self.y(y):.1f}" for x, y, *_ in points)
        yield f'<polyline points="{places}" fill="none" stroke="{COLOURS[name]}" stroke-width="2"/>'
        for x, y, *spread in points:
            if spread:
                low, high = map(self.y, spread)
                yield (f'<line x1="{self.x(x):.1f}" y1="{low:.1f}" x2="{self.x(x):.1f}" y2="{high:.1f}" '
                       f'stroke="{COLOURS[name]}" stroke-width="5" stroke-opacity="0.35"/>')
            yield f'<circle cx="{self.x(x):.1f}" cy="{self.y(y):.1f}" r="3.5" fill="{COLOURS[name]}"/>'

    def legend(self):
        step = max(80, 30 + 6 * max(map(len, self.lines)))
        for place, name in enumerate(self.lines):
            x = WIDTH - RIGHT + 10 - (3 - place) * step
            yield f'<rect x="{x}" y="{TOP - 22}" width="12" height="12" fill="{COLOURS[name]}"/>'
            yield self.text(x + 18, TOP - 12, name, "start")

    def svg(self):
        """The text of the file."""
        parts = [f'<rect width="{WIDTH}" height="{HEIGHT}" fill="white"/>', *self.axes(), *self.legend()]
        for name, points in self.lines.items():
            parts += self.line(name, points)
        head = (f'<svg xmlns="http://www.w3.org/2000/svg" viewBox="0 0 {WIDTH} {HEIGHT}" width="{WIDTH}" '
                f'height="{HEIGHT}" font-family="sans-serif" font-size="12" fill="#222222">')
        return "\n".join([head, *parts, "</svg>"]) + "\n"
