"""A chart of a room as SVG: readings, missing ones, the smoothed level, the forecast and its band."""

from typing import NamedTuple
from xml.sax.saxutils import escape

from lib import axes

WIDTH, HEIGHT = 960, 500
LEFT, RIGHT, BOTTOM = 78, 936, 424
FONT = "system-ui, -apple-system, 'Segoe UI', 'DejaVu Sans', sans-serif"
INK, FAINT, GRID = "#24292f", "#57606a", "#e6e9ec"
LEVEL, FORECAST, GAP = "#0969da", "#bc4c00", "#d0d7de"
CHARACTER = 6.6  # the width of a character at the legend's size, on the generous side


class Drawing(NamedTuple):
    """What is drawn, in the user's units. Steps are numbered from `first`."""

    first: int
    readings: list  # None where missing
    levels: list  # runs of (step, level), one for each opened state
    forecasts: list
    deviations: list  # standard deviations, as many as forecasts, or none
    band_note: str
    score: str


class Frame:
    """Where steps and values stand in the picture."""

    def __init__(self, drawing, top):
        self.top = top
        self.first = drawing.first - 0.5
        self.last = drawing.first + len(drawing.readings) + len(drawing.forecasts) - 0.5
        values = [reading for reading in drawing.readings if reading is not None]
        values += [level for run in drawing.levels for _, level in run] + drawing.forecasts
        for forecast, deviation in zip(drawing.forecasts, drawing.deviations):
            values += [forecast - 2 * deviation, forecast + 2 * deviation]
        low, high = min(values), max(values)
        margin = (high - low) * 0.06 or max(abs(high), 1) * 0.1
        self.low, self.high = low - margin, high + margin

    def x(self, step):
        return LEFT + (step - self.first) / (self.last - self.first) * (RIGHT - LEFT)

    def y(self, value):
        return BOTTOM - (value - self.low) / (self.high - self.low) * (BOTTOM - self.top)

    def point(self, step, value):
        return f"{self.x(step):.1f},{self.y(value):.1f}"


def clean(words):
    """Text that may stand in XML."""
    return escape("".join(c if c.isprintable() else " " for c in words), {'"': "&quot;"})


def label(x, y, words, anchor="middle", size=12, fill=FAINT, extra=""):
    return f'<text x="{x:.1f}" y="{y:.1f}" text-anchor="{anchor}" font-size="{size}" fill="{fill}"{extra}>{clean(words)}</text>'


def path(kind, points, style):
    return f'<path class="{kind}" d="M{" L".join(points)}" {style}/>' if points else ""


def line(kind, points, colour):
    """A line, or a dot where there is one point only."""
    width = 2 if len(points) > 1 else 6
    style = f'fill="none" stroke="{colour}" stroke-width="{width}" stroke-linejoin="round" stroke-linecap="round"'
    return path(kind, points * 2 if len(points) == 1 else points, style)


def value_axis(frame, unit):
    for tick in axes.value_ticks(frame.low, frame.high):
        y = frame.y(tick.at)
        yield f'<path d="M{LEFT},{y:.1f} H{RIGHT}" stroke="{GRID}"/>'
        yield label(LEFT - 10, y + 4, tick.label.replace("-", "−"), "end", extra=' class="value"')
    if unit:
        yield label(LEFT - 10, frame.top - 10, unit, "end")


def time_axis(frame, axis):
    yield f'<path d="M{LEFT},{BOTTOM} H{RIGHT}" stroke="{FAINT}"/>'
    for tick in axis.ticks(frame.first + 0.5, frame.last - 0.5):
        x = frame.x(tick.at)
        yield f'<path d="M{x:.1f},{BOTTOM} v5" stroke="{FAINT}"/>'
        yield label(x, BOTTOM + 20, tick.label, extra=' class="time"')
        if tick.below:
            yield label(x, BOTTOM + 37, tick.below, fill=INK)
    if axis.title:
        yield label((LEFT + RIGHT) / 2, BOTTOM + 40, axis.title)


def gaps(frame, drawing):
    """A grey strip for each run of missing readings."""
    begin = None
    for k, reading in enumerate(drawing.readings + [0.0]):
        if reading is None:
            begin = k if begin is None else begin
        elif begin is not None:
            x, end = frame.x(drawing.first + begin - 0.5), frame.x(drawing.first + k - 0.5)
            yield (
                f'<rect class="missing" x="{x:.1f}" y="{frame.top}" width="{end - x:.1f}" height="{BOTTOM - frame.top}" '
                f'fill="{GAP}" fill-opacity="0.55"/>'
            )
            begin = None


def band(frame, drawing, many, opacity):
    """The forecast within `many` standard deviations."""
    start = drawing.first + len(drawing.readings)
    found = list(zip(drawing.forecasts, drawing.deviations))
    steps = range(start, start + len(found))
    if len(found) == 1:  # one horizon alone is drawn as wide as a step
        steps, found = [start - 0.4, start + 0.4], found * 2
    above = [frame.point(step, f + many * d) for step, (f, d) in zip(steps, found)]
    below = [frame.point(step, f - many * d) for step, (f, d) in zip(steps, found)]
    return path(f"band{many}", above + below[::-1], f'fill="{FORECAST}" fill-opacity="{opacity}"')


def forecast(frame, drawing):
    start = drawing.first + len(drawing.readings)
    points = [frame.point(start + k, value) for k, value in enumerate(drawing.forecasts)]
    if not points:
        return
    x = frame.x(start - 0.5)
    yield f'<path d="M{x:.1f},{frame.top} V{BOTTOM}" stroke="{FAINT}" stroke-dasharray="3 4"/>'
    yield line("forecast", points, FORECAST)


def levels(frame, drawing):
    for run in drawing.levels:
        yield line("level", [frame.point(step, level) for step, level in run], LEVEL)


def readings(frame, drawing):
    """All readings are one path of dots: a long series stays a small file."""
    dots = [f"M{frame.point(drawing.first + k, y)}h0" for k, y in enumerate(drawing.readings) if y is not None]
    width, opacity = (4.5, 1) if len(drawing.readings) <= 400 else (2, 0.4)
    if dots:
        style = f'stroke="{INK}" stroke-width="{width}" stroke-opacity="{opacity}" stroke-linecap="round"'
        yield f'<path class="readings" d="{"".join(dots)}" {style}/>'


def legend_entries(drawing):
    """Symbol and words of each thing that is drawn."""
    dot = f'<circle cx="12" cy="-4" r="2.6" fill="{INK}"/>'
    stroke = '<path d="M0,-4 H24" stroke="{}" stroke-width="2" stroke-linecap="round"/>'
    box = '<rect y="-11" width="24" height="14" fill="{}" fill-opacity="{}"/>'
    if any(reading is not None for reading in drawing.readings):
        yield dot, "reading"
    if None in drawing.readings:
        yield box.format(GAP, 0.55), "missing"
    if any(drawing.levels):
        yield stroke.format(LEVEL), "smoothed level"
    if drawing.forecasts:
        yield stroke.format(FORECAST), "forecast"
    if drawing.deviations:
        yield box.format(FORECAST, 0.34), "± 1 standard deviation"
        yield box.format(FORECAST, 0.14), "± 2 standard deviations"


def legend(drawing, y):
    x = LEFT
    for symbol, words in legend_entries(drawing):
        yield f'<g transform="translate({x:.1f},{y})">{symbol}</g>' + label(x + 31, y, words, "start", fill=INK)
        x += 31 + CHARACTER * len(words) + 20
    yield label(LEFT, HEIGHT - 10, drawing.score, "start", 11)
    if drawing.band_note:
        yield label(RIGHT, HEIGHT - 10, drawing.band_note, "end", 11)


def svg(drawing, axis, unit="", title=""):
    """The picture."""
    top = 92 if title else 62
    frame = Frame(drawing, top)
    parts = [
        f'<svg xmlns="http://www.w3.org/2000/svg" width="{WIDTH}" height="{HEIGHT}" viewBox="0 0 {WIDTH} {HEIGHT}" '
        f'font-family="{FONT}" role="img" aria-label="{clean(title or "readings and forecast")}">',
        f'<rect width="{WIDTH}" height="{HEIGHT}" fill="#ffffff"/>',
        *([label(LEFT, 30, title, "start", 17, INK, ' font-weight="600"')] if title else []),
        *legend(drawing, top - 36),
        *gaps(frame, drawing),
        *value_axis(frame, unit),
        band(frame, drawing, 2, 0.14),
        band(frame, drawing, 1, 0.22),
        *readings(frame, drawing),
        *levels(frame, drawing),
        *forecast(frame, drawing),
        *time_axis(frame, axis),
        "</svg>",
    ]
    return "".join(part + "\n" for part in parts if part)
