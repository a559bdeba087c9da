"""tools/series: files read, the state opened, long series in pieces. The second implementation gives the lines to hold them to."""

import random

import forecaster as f
import random_streams
from forecaster import State
from harness import PROGRAM, case, holds, play, same, tool
from lib import commands, program

FIXED_POINT = 65536


def unlimited(stream):
    """The lines of the second implementation without the input's limit."""
    x, kept, at, lines = None, {}, 0, []
    while at < len(stream):
        try:
            x, line, at = f.perform(x, kept, stream, at)
        except f.Rejected as r:
            return lines + [f"X {r.code} {r.offset}"]
        lines += [] if line is None else [line]
    return lines + [f"N {x.count if x else 0}"]


def output(stream):
    return "".join(line + "\n" for line in unlimited(stream)).encode()


def steps(values):
    return b"".join(f.encode(0x21) if value is None else f.encode(0x20, value) for value in values)


def series(folder, content, *words):
    (folder / "room.csv").write_bytes(content if isinstance(content, bytes) else content.encode())
    return tool("series", folder, *words, "room.csv")


def opened(level, **numbers):
    return f.group_bytes(State(A=32768, l=level * FIXED_POINT, **numbers))


TABLE = "time,t\n0:00,20.5\n1:00,\n2:00, NA \n3:00,21\n"
TAKEN = opened(205) + steps([205, None, None, 210])
FILES = [
    ("one number to a line", "21\n22\n\nNA\n23\n", [], opened(21) + steps([21, 22, None, None, 23])),
    ("no last line end", "21\n22", [], opened(21) + steps([21, 22])),
    ("a missing reading first", "\n21\n", [], opened(21) + steps([None, 21])),
    ("a blank last line", "21\n\n", [], opened(21) + steps([21, None])),
    ("an empty file", "", [], opened(0)),
    ("a column by name", TABLE, ["--column", "t", "--scale", "10"], TAKEN),
    ("a column by number", TABLE, ["--column", "2", "--header", "--scale", "10"], TAKEN),
    ("a column by number is no name", "1,2\n3,4\n", ["--column", "2"], opened(2) + steps([2, 4])),
    ("a byte order mark and CRLF", "\ufeff" + TABLE.replace("\n", "\r\n"), ["--column", "t", "--scale", "10"], TAKEN),
    ("quotes and another separator", TABLE.replace(",", ";").replace("21", '"21"'), ["--column", "t", "--separator", ";", "--scale", "10"], TAKEN),
    ("a model", "5\n7\n", ["--model", "damped", "--alpha", "0.25", "--beta", "0.125", "--phi", "1/2", "--level=-1.5", "--trend", "2"],
     f.group_bytes(State(model=2, A=16384, B=8192, F=32768, l=-98304, b=2 * FIXED_POINT)) + steps([5, 7])),
    ("gains outside the usual region", "5\n7\n", ["--outside", "--model", "damped", "--alpha", "0.25", "--beta", "0.5", "--phi", "1/2", "--level=-1.5", "--trend", "2"],
     f.group_bytes(State(model=2, A=16384, B=32768, F=32768, opener=0x18, l=-98304, b=2 * FIXED_POINT)) + steps([5, 7])),
    ("ties to even", "5\n7\n", ["--even", "--alpha", "0.25"], f.group_bytes(State(model=0x40, A=16384, l=5 * FIXED_POINT)) + steps([5, 7])),
    ("relative errors", "5\n7\n", ["--relative", "--alpha", "0.25", "--then", "relative 3 0.04"],
     f.group_bytes(State(model=8, A=16384, l=5 * FIXED_POINT)) + steps([5, 7]) + f.encode(0x32, 3, f.bits(0.04))),
    ("relative errors, ties to even and gains outside the usual region", "5\n7\n", ["--relative", "--outside", "--even", "--model", "straight", "--alpha", "0.25", "--beta", "0.5"],
     f.group_bytes(State(model=0x49, A=16384, B=32768, F=65536, opener=0x18, l=5 * FIXED_POINT)) + steps([5, 7])),
    ("a switch after the readings", "5\n7\n", ["--then", "even", "--then", "forecast 1"], opened(5) + steps([5, 7]) + b"\x14" + f.encode(0x30, 1)),
    ("a state kept and brought back after the readings", "5\n7\n", ["--then", "keep 2", "--then", "reading 9", "--then", "back 2", "--then", "save"],
     opened(5) + steps([5, 7]) + f.encode(0x50, 2) + steps([9]) + f.encode(0x51, 2) + b"\x40"),
    ("a season that is given", "5\n7\n", ["--m", "2", "--gamma", "0.5", "--season=-1,1", "--place", "1"],
     f.group_bytes(State(model=4, m=2, A=32768, G=32768, l=4 * FIXED_POINT, s=(-FIXED_POINT, FIXED_POINT) + (0,) * 46, p=1)) + steps([5, 7])),
    ("a season from the first readings", "5\nNA\n8\n9\n", ["--m", "3", "--place", "2"],
     f.group_bytes(State(model=4, m=3, A=32768, l=425984, s=(0, 98304, -98304) + (0,) * 45, p=2)) + steps([5, None, 8, 9])),
    ("a season around a level that is given", "5\n8\n", ["--m", "2", "--level", "6"],
     f.group_bytes(State(model=4, m=2, A=32768, l=6 * FIXED_POINT, s=(-FIXED_POINT, 2 * FIXED_POINT) + (0,) * 46)) + steps([5, 8])),
    ("lines after the readings", "5\n", ["--then", "forecast 3", "--then", "variance 2 4", "--then", "save"],
     opened(5) + steps([5]) + f.encode(0x30, 3) + f.encode(0x31, 2, 4) + b"\x40"),
]  # fmt: skip


def add(name, content, words, stream):
    @case(f"series: {name}")
    def check(folder):
        same(series(folder, content, *words), (0, output(stream), ""))
        text = series(folder, content, "--text", *words)
        same((text.status, text.err), (0, ""), "status and message with --text")
        same(play(folder, text.out, tool_name="stream").out, stream, "the text's stream")


for row in FILES:
    add(*row)

WRONG = [
    ("a word", "21\nx\n", [], "room.csv, line 2: reading x is not a number"),
    ("a first row of names", "t\n21\n", [], "room.csv, line 1: reading t is not a number; --header skips a first row of names"),
    ("a decimal comma", '"21,5"\n', [], "room.csv, line 1: reading 21,5 is not a number; --header skips a first row of names"),
    ("a reading too fine for the scale", "21.25\n", ["--scale", "10"], "room.csv, line 1: reading 21.25 is not whole at scale 10; --scale 100 would do"),
    ("a long reading", "3e9\n", [], "room.csv, line 1: reading 3e9, written as 3000000000 at scale 1, does not fit: -2147483648 to 2147483647"),
    ("a column to choose", TABLE, [], "room.csv: rows have 2 fields; choose one with --column: time, t"),
    ("a column that is not there", TABLE, ["--column", "u"], "room.csv: no columns are called u; the first row has time, t"),
    ("a column's name twice", "t,t\n1,2\n", ["--column", "t"], "room.csv: 2 columns are called t; the first row has t, t"),
    ("a column's number", TABLE, ["--column", "3"], "room.csv: no column 3; rows have 2 fields"),
    ("a row too short", "1,2\n3\n", ["--column", "1"], "room.csv, line 2: 1 field, where the first row has 2"),
    ("a blank row among columns", "1,2\n\n3,4\n", ["--column", "1"], "room.csv, line 2: 1 field, where the first row has 2"),
    ("an open quote", '1\n"2\n', [], "room.csv, line 2: unexpected end of data"),
    ("a parameter", "1\n", ["--alpha", "x"], "the text made of the options, line 2: alpha x is not a number"),
    ("a long m", "1\n", ["--m", "1000000000"], "m 1000000000 does not fit: 0 to 255"),
    ("a season of another length", "1\n", ["--m", "2", "--season", "1"], "--season has 1 number, where m is 2"),
    ("bytes that are not UTF-8", b"1\n\xe9\n", [], "room.csv, line 2: the byte e9 is not UTF-8"),
]


def add_wrong(name, content, words, message):
    @case(f"series: wrong: {name}")
    def check(folder):
        same(series(folder, content, *words), (2, b"", f"series: {message}\n"))


for row in WRONG:
    add_wrong(*row)


def long_series(many):
    rng = random.Random(8)
    return [None if rng.random() < 0.03 else 200 + rng.randint(-50, 50) for _ in range(many)]


def as_file(values):
    return "".join("NA\n" if value is None else f"{value}\n" for value in values)


LONG = ["--model", "damped", "--alpha", "0.3", "--beta", "0.01", "--phi", "0.9"]


@case("series: 45,000 readings in pieces give what one run would, and so do 41,000 and a refused one")
def long(folder):
    values = long_series(45000)
    group = f.group_bytes(State(model=2, A=19661, B=655, F=58982, l=values[0] * FIXED_POINT))
    expected = unlimited(group + steps(values) + f.encode(0x30, 9) + b"\x40")
    ended = series(folder, as_file(values), *LONG, "--then", "forecast 9", "--then", "save")
    same((ended.status, ended.err), (0, ""), "status and message")
    same_lines(ended.text.splitlines(), expected)

    values = values[:41000] + [1000001] + values[41000:]
    refused = f"X 13 {len(group + steps(values[:41000]))}"
    ended = series(folder, as_file(values), *LONG)
    same_lines(ended.text.splitlines(), expected[:41001] + [refused])
    message = "series: room.csv, line 41001: reading number 41001, 1000001, is refused: the reading is out of range\n"
    same((ended.status, ended.err), (1, message), "status and message")


def same_lines(found, expected):
    """As `same`, for lists too long to be printed."""
    same(len(found), len(expected), "the number of lines")
    for k, pair in enumerate(zip(found, expected)):
        same(*pair, f"line {k + 1}")


@case("series: a model that the program refuses")
def rejected_model(folder):
    ended = series(folder, "1\n2\n", "--model", "damped")
    same(ended, (1, b"X 7 0\n", "series: model damped alpha 0.5 is refused: a parameter is not one the model allows, or command 18 has gains inside the usual region\n"))


@case("series: a line after the readings that the program refuses")
def rejected_then(folder):
    ended = series(folder, "1\n", "--then", "forecast 513")
    same(ended, (1, b"O 0 0\nE 0\nX 11 76\n", "series: forecast 513 is refused: the horizon is outside 1 to 512\n"))


@case("series: a name after the readings that the program refuses")
def rejected_name(folder):
    ended = series(folder, "1\n", "--then", "keep 1", "--then", "back 2")
    same(ended, (1, b"O 0 0\nE 0\nX 21 78\n", "series: back 2 is refused: the name is above 3, or holds no state to bring back\n"))


@case("pieces: states that one run kept are brought back in later ones")
def kept_in_pieces(folder):
    kinds = State(A=20000), State(model=0x4D, m=3, A=9, B=9, F=65536), State(model=6, m=48, A=1, B=2, F=3, opener=0x18), State(count=70, readings=9, low=8)
    stream = b"".join(f.group_bytes(x) + steps([7, None, k]) + f.encode(0x50, k) for k, x in enumerate(kinds))
    for _ in range(2):
        for k in (2, 0, 3, 1):
            stream += steps([5] * 1000) + f.encode(0x51, k) + b"\x40" + steps([k]) + b"\x40"
        stream += f.encode(0x50, 3)
    for last in (b"", f.encode(0x50, 4), f.encode(0x51, 255)):
        found = program.play(str(PROGRAM), commands.items(stream + last), limit=8000)
        same_lines(found.answers + [found.last], unlimited(stream + last))


@case("pieces: 250 random streams in runs of 600 bytes give what one run gives")
def pieces(folder):
    rng = random.Random(9)
    runs = 0
    for _ in range(250):
        stream = random_streams.stream(rng)[:60000]
        found = program.play(str(PROGRAM), commands.items(stream), limit=600)
        same(found.answers + [found.last], unlimited(stream), stream.hex())
        runs += len(stream) > 600
    holds(runs > 20, f"only {runs} streams were long enough for two runs")
