"""Draws panels beside each other as one SVG picture: lines, columns, and what they stand for.

It has what tools/plot_measures.py needs, which so wants nothing but Python. Each panel has an axis
that goes up from 0 with round numbers at it, and one that goes right, by steps alike or by powers.
A figure is drawn at its median, with a bar from the least round to the greatest. Lengths are in
points."""

from dataclasses import dataclass, field
from math import ceil, floor, log, log10
from xml.sax.saxutils import escape

# The size of a panel with all that belongs to it, and what of that is beside, above and below its
# axes.
WIDTH, HEIGHT = 245, 222
LEFT, RIGHT, TOP, BOTTOM = 50, 10, 22, 40
# The height of a line of words, how wide a letter is taken to be, and half the width of a mark.
LINE, LETTER, HALF = 12, 5.1, 3.2
# How much longer than the greatest figure an axis may be that it ends at a round number.
STEPS = (1, 2, 2.5, 5, 10)
MOST_STEPS = 6


@dataclass(frozen=True)
class Look:
    """How figures of one kind are drawn: the colour, a mark (`o`, `s`, `^` or `v`) for each, the
    dashes of the line that joins them, and whether the marks are white within."""

    colour: str
    mark: str = ""
    dashes: str = ""
    is_hollow: bool = False


@dataclass(frozen=True)
class Point:
    """The least figure over the rounds at a place, the median, and the greatest."""

    place: float
    least: float
    middle: float
    greatest: float


@dataclass
class Panel:
    """What one panel shows."""

    title: str = ""
    right: str = ""
    up: str = ""
    ticks: list = field(default_factory=list)
    is_by_powers: bool = False
    lines: list = field(default_factory=list)
    columns: list = field(default_factory=list)
    levels: list = field(default_factory=list)

    def add_line(self, points, look, words):
        """A line through the medians; the words are what it stands for."""
        self.lines.append((points, look, words))

    def add_columns(self, points, width, colour, words):
        """A column up to each median, so many places wide."""
        self.columns.append((points, width, colour, words))

    def add_level(self, figure, look):
        """A level line through the whole panel."""
        self.levels.append((figure, look))

    def greatest(self):
        """The greatest figure that is shown."""
        drawn = [points for points, *_ in (*self.lines, *self.columns)]
        return max([it.greatest for points in drawn for it in points] + [figure for figure, _ in self.levels], default=1)


def round_step(greatest):
    """A round number of which a few reach the greatest figure."""
    power = 10 ** floor(log10(greatest / MOST_STEPS))
    return next(power * it for it in STEPS if power * it * MOST_STEPS >= greatest)


@dataclass(frozen=True)
class Axes:
    """Where the places and figures of a panel lie in the picture."""

    left: float
    step: float
    top: float
    first: float
    last: float
    is_by_powers: bool

    def x(self, place):
        scale = log if self.is_by_powers else float
        share = (scale(place) - scale(self.first)) / (scale(self.last) - scale(self.first))
        return self.left + LEFT + share * (WIDTH - LEFT - RIGHT)

    def y(self, figure):
        return HEIGHT - BOTTOM - figure / self.top * (HEIGHT - TOP - BOTTOM)


def axes_of(panel, number, greatest):
    """The axes of the panel with this number, which show figures up to the greatest."""
    step = round_step(greatest)
    places = [place for place, _ in panel.ticks]
    first, last = min(places), max(places)
    room = (1 / 1.5, 1.5) if panel.is_by_powers else None
    ends = (first * room[0], last * room[1]) if room else (first - (last - first) * 0.1, last + (last - first) * 0.1)
    if panel.columns:
        ends = (first - 0.6, last + 0.6)
    return Axes(number * WIDTH, step, step * ceil(greatest / step), *ends, panel.is_by_powers)


def line(x, y, to_x, to_y, colour, width=1.0, dashes=""):
    dashed = f' stroke-dasharray="{dashes}"' if dashes else ""
    return f'<line x1="{x:.1f}" y1="{y:.1f}" x2="{to_x:.1f}" y2="{to_y:.1f}" stroke="{colour}" stroke-width="{width}"{dashed}/>'


def words(x, y, text, anchor="middle", more=""):
    return f'<text x="{x:.1f}" y="{y:.1f}" text-anchor="{anchor}"{more}>{escape(text)}</text>'


def mark(x, y, look):
    """The mark of a figure."""
    within = "white" if look.is_hollow else look.colour
    drawn = f'fill="{within}" stroke="{look.colour}"'
    if look.mark == "o":
        return f'<circle cx="{x:.1f}" cy="{y:.1f}" r="{HALF}" {drawn}/>'
    if look.mark == "s":
        return f'<rect x="{x - HALF:.1f}" y="{y - HALF:.1f}" width="{2 * HALF}" height="{2 * HALF}" {drawn}/>'
    up = {"^": -1, "v": 1}.get(look.mark)
    if up is None:
        return ""
    corners = ((x, y + up * HALF), (x - HALF, y - up * HALF), (x + HALF, y - up * HALF))
    return f'<polygon points="{" ".join(f"{a:.1f},{b:.1f}" for a, b in corners)}" {drawn}/>'


def span(axes, it, colour, place=None):
    """The bar from the least round to the greatest."""
    x, low, high = axes.x(it.place if place is None else place), axes.y(it.least), axes.y(it.greatest)
    yield line(x, low, x, high, colour)
    yield from (line(x - HALF, y, x + HALF, y, colour) for y in (low, high))


def frame(panel, axes):
    """The axes of a panel, with what stands at them."""
    left, right, bottom = axes.left + LEFT, axes.left + WIDTH - RIGHT, HEIGHT - BOTTOM
    for number in range(round(axes.top / axes.step) + 1):
        figure = number * axes.step
        if number:
            yield line(left, axes.y(figure), right, axes.y(figure), "#dddddd")
        yield words(left - 5, axes.y(figure) + 3.5, f"{figure:,.10g}", "end")
    yield line(left, TOP, left, bottom, "black")
    yield line(left, bottom, right, bottom, "black")
    for place, text in panel.ticks:
        if not panel.columns:
            yield line(axes.x(place), bottom, axes.x(place), bottom + 3, "black")
        for number, part in enumerate(text.split("\n")):
            yield words(axes.x(place), bottom + LINE + 2 + number * LINE, part)
    yield words((left + right) / 2, TOP - 8, panel.title, more=' font-size="11"')
    yield words((left + right) / 2, HEIGHT - 10, panel.right)
    x, y = axes.left + 9, (TOP + bottom) / 2
    yield words(x, y, panel.up, more=f' transform="rotate(-90 {x:.1f} {y:.1f})"')


def shown(panel, axes):
    """What the panel shows, within its axes."""
    for figure, look in panel.levels:
        yield line(axes.left + LEFT, axes.y(figure), axes.left + WIDTH - RIGHT, axes.y(figure), look.colour, 1, look.dashes)
    for points, width, colour, _ in panel.columns:
        for it in points:
            x, y = axes.x(it.place - width / 2), axes.y(it.middle)
            wide, high = axes.x(it.place + width / 2) - x, HEIGHT - BOTTOM - y
            yield f'<rect x="{x:.1f}" y="{y:.1f}" width="{wide:.1f}" height="{high:.1f}" fill="{colour}" stroke="black"/>'
            yield from span(axes, it, "black")
    for points, look, _ in panel.lines:
        for one, other in zip(points, points[1:]):
            yield line(axes.x(one.place), axes.y(one.middle), axes.x(other.place), axes.y(other.middle), look.colour, 1.5, look.dashes)
        for it in points:
            yield from span(axes, it, look.colour)
            yield mark(axes.x(it.place), axes.y(it.middle), look)


def legend(panels, width):
    """What each kind of line and column stands for, once, in as many rows as that takes, and the
    height of these."""
    kinds = {text: look for panel in panels for _, look, text in panel.lines if text}
    kinds |= {text: colour for panel in panels for *_, colour, text in panel.columns if text}
    rows = [[]]
    for text in kinds:
        if rows[-1] and sum(36 + LETTER * len(it) for it in (*rows[-1], text)) > width:
            rows.append([])
        rows[-1].append(text)
    drawn = []
    for number, row in enumerate(rows):
        x = (width - sum(36 + LETTER * len(it) for it in row)) / 2
        y = HEIGHT + LINE * (number + 1)
        for text in row:
            look = kinds[text]
            if isinstance(look, Look):
                drawn += [line(x, y - 3.5, x + 22, y - 3.5, look.colour, 1.5, look.dashes), mark(x + 11, y - 3.5, look)]
            else:
                drawn.append(f'<rect x="{x:.1f}" y="{y - 8:.1f}" width="20" height="9" fill="{look}" stroke="black"/>')
            drawn.append(words(x + 27, y, text, "start"))
            x += 36 + LETTER * len(text)
    return drawn, LINE * len(rows) + 8


def picture(panels, is_alike):
    """The text of a picture of these panels; where they are to be alike, all go up to one
    figure."""
    most = max(it.greatest() for it in panels)
    drawn = []
    for number, panel in enumerate(panels):
        axes = axes_of(panel, number, most if is_alike else panel.greatest())
        drawn += [*frame(panel, axes), *shown(panel, axes)]
    width = WIDTH * len(panels)
    below, height = legend(panels, width)
    head = f'<svg xmlns="http://www.w3.org/2000/svg" width="{width}" height="{HEIGHT + height}" viewBox="0 0 {width} {HEIGHT + height}" font-family="sans-serif" font-size="9.5">'
    return "\n".join([head, '<rect width="100%" height="100%" fill="white"/>', *drawn, *below, "</svg>", ""])
