"""tools/plot: what the picture shows is read back from its axes and held to the second implementation's numbers."""

import math
import re
import xml.etree.ElementTree as ElementTree

import forecaster as f
from harness import PROGRAM, ROOT, TOOLS, case, environment, holds, old_form, play, same, tool

SVG = "{http://www.w3.org/2000/svg}"
ROOM = (ROOT / "tools/room.txt").read_text()


class Picture:
    """A picture's elements, with values read from the value axis and steps from the readings."""

    def __init__(self, path):
        self.root = ElementTree.parse(path).getroot()
        ticks = [e for e in self.root.iter(SVG + "text") if e.get("class") == "value"]
        values = [(float(e.get("y")) - 4, float(e.text.replace("\u2212", "-"))) for e in ticks]
        (y0, v0), (y1, v1) = values[0], values[-1]
        self.value = lambda y: v0 + (y - y0) * (v1 - v0) / (y1 - y0)
        self.tolerance = abs(self.value(0.15) - self.value(0))  # coordinates have a tenth of a pixel, the axis too

    def points(self, kind):
        """The points of the paths of the kind."""
        paths = " ".join(e.get("d") for e in self.root.iter(SVG + "path") if e.get("class") == kind)
        return [(float(x), float(y)) for x, y in re.findall(r"(-?[\d.]+),(-?[\d.]+)", paths)]

    def count(self, kind):
        return sum(e.get("class") == kind for e in self.root.iter())

    def texts(self):
        return [e.text for e in self.root.iter(SVG + "text")]

    def near(self, kind, expected):
        found = [self.value(y) for _, y in self.points(kind)]
        same(len(found), len(expected), f"how many points {kind} has")
        worst = max(abs(a - b) for a, b in zip(found, expected))
        holds(worst <= self.tolerance, f"{kind} is {worst} off, where {self.tolerance} is a pixel's share")


def second(text_stream):
    """Readings, levels and residuals of a stream, those of relative errors as shares of their forecasts, and the state after it, by
    the second implementation."""
    x, at = f.read_group(text_stream)
    readings, levels, residuals, kept = [], [], [], {}
    while at < len(text_stream):
        byte = text_stream[at]
        if byte == 0x10:
            (x, at), residuals = f.read_group(text_stream, at), []
            continue
        reading = byte == 0x20
        found, at = f.operands(text_stream, at, lambda c: True)
        if byte == 0x14:
            x = f.switch_to_even(x)
            continue
        if byte == 0x50:
            kept[found[0]] = x, list(residuals)
            continue
        if byte == 0x51:
            x, residuals = kept[found[0]][0], list(kept[found[0]][1])
            continue
        if reading:
            x, e = f.step(x, *found)
            residuals.append(e / (65536 * found[0] - e) if x.relative else e / 65536)
        else:
            x = f.missing(x)
        readings.append(found[0] if reading else None)
        levels.append(x.l / 65536)
    return readings, levels, residuals, x


def score_of(x, scale):
    root = f"{round(math.sqrt(x.sum / x.readings) / scale, 4):.6g}"
    return f"root mean square {root} over {x.readings} reading{'s' * (x.readings != 1)}"


def variance_of(x, h, sigma2):
    """The variance for a horizon, in the station's units."""
    return f.relative_variance(x, h, f.bits(sigma2), [0.0] * h) if x.relative else f.weight(x, h) / 2**32 * sigma2


def draw(folder, text, *words, **how):
    (folder / "day.txt").write_text(text)
    return tool("plot", folder, "day.txt", "day.svg", *words, **how)


def check_numbers(folder, text, scale, horizon, *words, sigma2=None):
    stream = play(folder, text, tool_name="stream").out
    readings, levels, residuals, x = second(stream)
    ended = draw(folder, text, "--horizon", str(horizon), *words)
    same((ended.status, ended.out, ended.err), (0, b"", ""), "status, output and message")
    picture = Picture(folder / "day.svg")
    holds(f"score: {score_of(x, scale)}" in picture.texts(), f"the score is not {score_of(x, scale)}: {picture.texts()}")
    picture.near("readings", [y / scale for y in readings if y is not None])
    picture.near("level", [level / scale for level in levels])
    forecasts = [f.forecast(x, h) / 65536 / scale for h in range(1, horizon + 1)]
    picture.near("forecast", forecasts)
    sigma2 = sum(e * e for e in residuals) / len(residuals) if sigma2 is None else sigma2
    spread = [math.sqrt(variance_of(x, h, sigma2)) / scale for h in range(1, horizon + 1)]
    for many in (1, 2):
        above = [y + many * d for y, d in zip(forecasts, spread)]
        below = [y - many * d for y, d in zip(forecasts, spread)]
        picture.near(f"band{many}", above + below[::-1])
    return picture, readings


@case("plot: season, damped trend and gaps: every number is the second implementation's")
def room(folder):
    picture, readings = check_numbers(folder, ROOM, 10, 48)
    same(picture.count("missing"), 3, "runs of missing readings")
    xs = [x for x, _ in picture.points("readings")]
    taken = [k for k, y in enumerate(readings) if y is not None]
    step = (xs[-1] - xs[0]) / (taken[-1] - taken[0])
    holds(all(abs(xs[0] + (k - taken[0]) * step - x) < 0.11 for k, x in zip(taken, xs)), "readings stand evenly, gaps left out")
    holds(abs(picture.points("forecast")[0][0] - xs[0] - len(readings) * step) < 0.11, "the forecast begins a step after the last reading")


@case("plot: a straight trend with a given σ²")
def straight(folder):
    text = "model straight alpha 0.5 beta 0.1\nlevel -20\nreading -18\nreading -14\nmissing\nreading -19\n"
    picture, _ = check_numbers(folder, text, 1, 30, "--sigma2", "2.25", sigma2=2.25)
    holds("residual standard deviation 1.5" in picture.texts(), "the note on σ")


@case("plot: relative errors: the band is that of their variance")
def relative(folder):
    picture, readings = check_numbers(folder, ROOM.replace("model ", "model relative "), 10, 48)
    found = [text for text in picture.texts() if text.startswith("relative residual standard deviation 0.0")]
    holds(len(found) == 1 and found[0].endswith(f": root mean square of {sum(y is not None for y in readings)} residuals"), f"the note on σ: {picture.texts()}")


@case("plot: relative errors with a given σ², ties to even")
def relative_given(folder):
    text = "scale 10\nmodel relative even straight alpha 0.5 beta 0.1\nlevel -20\nreading -18\nreading -14\nmissing\nreading -19\n"
    picture, _ = check_numbers(folder, text, 10, 30, "--sigma2", "0.0625", sigma2=0.0625)
    holds("relative residual standard deviation 0.25" in picture.texts(), "the note on σ")


@case("plot: relative errors of which no σ² can be taken")
def no_relative(folder):
    for text, reason in (
        ("model relative none alpha 0\nreading 5\n", "there is no residual to take its σ² from; --sigma2 gives it"),
        ("model relative none\nlevel 1\nreading 5\n", "the mean square of the relative residuals is above 1; --sigma2 gives another σ²"),
    ):
        same(draw(folder, text), (0, b"", f"plot: no band: {reason}\n"), text)
        picture = Picture(folder / "day.svg")
        same((picture.count("band1"), len(picture.points("forecast"))), (0, 24), "bands and forecasts")


@case("plot: the errors of the state that stands at the end")
def kinds_by_turns(folder):
    first, second = "model none alpha 0.5\nlevel 5\nreading 7\n", "model relative none alpha 0.5\nlevel 10\nreading 15\n"
    for text, told in ((first + second, "relative residual standard deviation 0.5"), (second + first, "residual standard deviation 2")):
        same(draw(folder, text).status, 0, "status")
        holds(f"{told}: root mean square of 1 residual" in Picture(folder / "day.svg").texts(), text)


@case("plot: no trend, no season")
def plain(folder):
    check_numbers(folder, "model none alpha 0.5\nreading 5\nreading 7\nreading 6\n", 1, 512)


@case("plot: a switch to ties to even among the readings")
def switched(folder):
    check_numbers(folder, "model damped alpha 0.5 beta 0.25 phi 0.5\nl 7\nb 3\nreading 5\neven\nreading 7\nmissing\neven\nreading 6\n", 1, 60)


HOLIDAY = "keep 1\nreading 29\nmodel {} none alpha 0.25\nlevel 26\nkeep 0\nreading 31\nreading 28\nback 1\nreading 21\nmissing\nback 0\nreading 27\nreading 24\n{}"


@case("plot: states kept and brought back: every reading, the level of the state that stands, the residuals of the one at the end")
def brought_back(folder):
    for kinds in (("", ""), ("even ", "relative "), ("relative ", "even")):
        start = f"scale 10\nmodel {kinds[0]}damped alpha 0.5 beta 0.25 phi 0.5\nlevel 20\ntrend 0.5\nreading 22\nreading 19\n"
        for last, many in (("", 2), ("back 1\n", 2), ("back 1\nreading 23\nreading 20.5\n", 4), ("back 0\nreading 23\nmissing\nkeep 3\n", 1)):
            picture, readings = check_numbers(folder, start + HOLIDAY.format(kinds[1], last), 10, 30)
            same(picture.count("level"), 4 + (last.count("reading") > 0), "lines of the level")
            holds(any(text.endswith(f": root mean square of {many} residual{'s' * (many != 1)}") for text in picture.texts()), f"{many}: {picture.texts()}")


@case("plot: a state kept and brought back 15,000 readings later, in another run")
def long_holiday(folder):
    start = "model none alpha 0.1\nlevel 50\nreading 48\nreading 51\nkeep 2\n"
    text = start + "".join(f"reading {k * k % 101}\n" for k in range(15000)) + "back 2\nreading 52\nmissing\n"
    picture, readings = check_numbers(folder, text, 1, 24)
    same((picture.count("level"), len(readings)), (2, 15004), "lines of the level, and readings")
    holds(any(text.endswith(": root mean square of 3 residuals") for text in picture.texts()), f"{picture.texts()}")


@case("plot: 15,000 readings, more than one run takes")
def long(folder):
    text = "model none alpha 0.1\nlevel 50\n" + "".join(f"reading {k * k % 101}\n" for k in range(15000))
    picture, _ = check_numbers(folder, text, 1, 24)
    same(picture.count("missing"), 0, "runs of missing readings")


@case("plot: raw bytes and a saved group are drawn as well")
def raw(folder):
    group = f.group_bytes(f.State(A=32768, l=5 * 65536)).hex()
    text = f"group {group}\nscale 10\nreading 0.7\nbytes 20 09 00 00 00\nforecast 1\nsave\n"
    ended = draw(folder, text)
    same((ended.status, ended.err), (0, ""), "status and message")
    Picture(folder / "day.svg").near("readings", [0.7, 0.9])


@case("plot: two states, each with a level of its own")
def two_states(folder):
    same(draw(folder, "model none\nlevel 5\nmissing\nmissing\nmodel none\nlevel 9\nreading 8\nmissing\n").status, 0, "status")
    same(Picture(folder / "day.svg").count("level"), 2, "levels")


def score_shown(folder, text, *words, **how):
    same(draw(folder, text, *words, **how).status, 0, "status")
    return [text for text in Picture(folder / "day.svg").texts() if text.startswith("score")]


@case("plot: the score of the state that stands at the end, what its group brought included")
def scores(folder):
    new = f.group_bytes(f.State(count=12, readings=9, low=1225))
    brought = "model none\ncount 12\nscore 9 0 1225\n"
    for text, words, shown in (
        ("model none\nmissing\n", [], "no readings yet"),
        (f"scale 10\n{brought}missing\nforecast 1\n", [], "root mean square 1.1667 over 9 readings"),
        (f"scale 10\n{brought}reading 5\n", ["--unit", "°C"], "root mean square 1.93 °C over 10 readings"),
        (f"group {new.hex()}\nreading 12\nsave\n", [], "root mean square 11.7004 over 10 readings"),
        (f"group {old_form(new).hex()}\nreading 12\nsave\n", [], "root mean square 12 over 1 reading"),
        (f"{brought}reading 5\nmodel none\nreading 3\n", [], "root mean square 3 over 1 reading"),
    ):
        same(score_shown(folder, text, *words), [f"score: {shown}"], text)


@case("plot: the score is the one that the program saved, whatever its residuals say")
def score_of_the_program(folder):
    other = folder / "other"
    words = f.encode(0x15, 4, 0, 64).hex()
    other.write_text(f'#!/bin/sh\n"{PROGRAM}" | sed -E "s/^(S .{{72}})15.{{48}}/\\1{words}/"\n')
    other.chmod(0o755)
    found = score_shown(folder, "model none\ncount 9\nreading 5\n", env=environment(FORECAST_RUN=str(other)))
    same(found, ["score: root mean square 4 over 4 readings"], "the score")


def labels(folder, *words):
    same(draw(folder, ROOM, *words).status, 0, "status")
    return Picture(folder / "day.svg").texts()


@case("plot: units, title and time on the axes")
def axes(folder):
    found = labels(folder, "--start", "2024-02-28 12:00", "--step", "1h", "--unit", "°C", "--title", 'a & <b> "c"', "--last", "40")
    for label in ("°C", 'a & <b> "c"', "12:00", "00:00", "3 Mar", "4 Mar"):
        holds(label in found, f"no label {label}: {found}")
    found = labels(folder, "--start", "2023-12-30", "--step", "1d")
    for label in ("30 Dec", "2023", "2024"):
        holds(label in found, f"no label {label}: {found}")
    holds("hours since the first reading" in labels(folder, "--step", "5m"), "the title of elapsed time")
    holds("step" in labels(folder), "the title of steps")


@case("plot: a state alone, one horizon, and no horizon")
def small(folder):
    ended = draw(folder, "model none\nlevel 5\n", "--horizon", "3")
    same((ended.status, ended.err), (0, "plot: no band: there is no residual to take its σ² from; --sigma2 gives it\n"), "a state alone")
    same(Picture(folder / "day.svg").count("band1"), 0, "bands")
    same(draw(folder, "model none\nreading 5\n", "--horizon", "1").status, 0, "one horizon")
    same(Picture(folder / "day.svg").count("band2"), 1, "bands")
    same(draw(folder, "model none\nreading 5\n", "--horizon", "0").status, 0, "no horizon")
    same(Picture(folder / "day.svg").count("forecast"), 0, "forecasts")


WRONG = [
    ("a refused reading", "model none\nreading 5\nreading 1000001\n", [], 1, "day.txt, line 3: the reading is out of range"),
    ("a refused season", "model none m 2\nplace 2\nreading 5\n", [], 1, "day.txt, line 1: the place is out of range, or the count is above 2^48"),
    ("a refused score", "model none\nlevel 5\nscore 1 0 0\nreading 5\n", [], 1, "day.txt, line 1: the score has more readings than the count, or a sum above its readings times 2^52"),
    ("a refused forecast", "model none\nreading 5\nforecast 0\n", [], 1, "day.txt, line 3: the horizon is outside 1 to 512"),
    ("a refused variance", "model relative none\nreading 5\nvariance 1 4\n", [], 1, "day.txt, line 3: the command is out of place, or asks for a variance that the model's errors do not have"),
    ("a name above 3", "model none\nkeep 3\nreading 5\nkeep 4\nreading 6\n", [], 1, "day.txt, line 4: the name is above 3, or holds no state to bring back"),
    ("a name that holds nothing", "model none\nkeep 1\nreading 5\neven\nback 0\nsave\n", [], 1, "day.txt, line 5: the name is above 3, or holds no state to bring back"),
    ("a refused reading after a name", "model none\nkeep 1\nreading 5\nback 1\nreading 1000001\n", [], 1, "day.txt, line 5: the reading is out of range"),
    ("a name before a state", "keep 1\nmodel none\n", [], 2, "day.txt: the first command opens no state"),
    ("a name that was cut", "model none\nreading 5\nbytes 50\n", [], 2, "day.txt, line 3: from here on the bytes are no commands"),
    ("a variance that leaves the doubles", "model relative straight alpha 1 beta 1\nlevel 16777216\ntrend 16777216\n", ["--horizon", "512", "--sigma2", "1"], 1,
     "day.txt, horizon 376: the variance, or a number on the way to it, is too large for a double"),
    ("a relative σ² above 1", "model relative none\nreading 5\n", ["--sigma2", "1.5"], 2, "--sigma2 1.5 is above 1, and the errors are relative"),
    ("bytes that are no command", "model none\nreading 5\nbytes ff\n", [], 2, "day.txt, line 3: from here on the bytes are no commands"),
    ("no state", "reading 5\n", [], 2, "day.txt: the first command opens no state"),
    ("an empty text", "", [], 2, "day.txt: the first command opens no state"),
    ("nothing to draw", "model none\n", ["--horizon", "0"], 2, "day.txt: there is nothing to draw, neither a reading nor a horizon"),
    ("a mistake", "model none\nreading x\n", [], 2, "day.txt, line 2: reading x is not a number"),
    ("a long horizon", "model none\n", ["--horizon", "513"], 2, "--horizon 513 is outside 0 to 512"),
    ("a step", "model none\n", ["--step", "1y"], 2, "--step 1y is not a time such as 30s, 5m, 1h or 1d"),
    ("a start", "model none\n", ["--step", "1h", "--start", "noon"], 2, "--start noon is not a time such as 2024-02-05 06:00"),
    ("a start without a step", "model none\n", ["--start", "2024-02-05"], 2, "--start takes --step beside it"),
    ("a σ² below 0", "model none\n", ["--sigma2=-1"], 2, "--sigma2 -1 is below 0"),
]


def add(name, text, words, status, message):
    @case(f"plot: wrong: {name}")
    def check(folder):
        same(draw(folder, text, *words), (status, b"", f"plot: {message}\n"))
        holds(not (folder / "day.svg").exists(), "a picture was written")


for row in WRONG:
    add(*row)


@case("plot: a picture that can't be written")
def not_written(folder):
    ended = tool("plot", folder, TOOLS / "room.txt", "nosuch/day.svg")
    same(ended, (1, b"", "plot: nosuch/day.svg: No such file or directory\n"))
