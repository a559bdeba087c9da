"""tools/run and tools/stream --explain: each line beside its text, exit status, pipes, time."""

import os
import signal
import time

import forecaster as f
from harness import TOOLS, case, environment, holds, old_form, play, same, shell, started, tool

LISTING = "model none alpha 0.5\nreading 10\nforecast 2\nvariance 2 4\n"
PARAMETER = "a parameter is not one the model allows, or command 18 has gains inside the usual region"
UNUSUAL = "command 10 has gains outside the usual region: model outside opens them by 18"
RANGE = "a level, trend or season value is out of range, or not 0 where the model has none"
PLACE = "the command is out of place, or asks for a variance that the model's errors do not have"
SIGMA2 = "the variance of the relative residuals is not a number from 0 to 1"
LARGE = "the variance, or a number on the way to it, is too large for a double"
SCORE = "the score has more readings than the count, or a sum above its readings times 2^52"
NAME = "the name is above 3, or holds no state to bring back"


def table(*rows):
    """Rows of number, text, line and meaning as the tool shows them; a word alone is said after an X."""
    layout = lambda row: f"       {row}" if isinstance(row, str) else "{:>5}  {:40}  {:40}  {}".format(*row).rstrip()
    return "".join(layout(row) + "\n" for row in rows)


OPENED = "state opened: model 0, season length 0"
EVEN = "no line; ties go to the even number from here on"
SHOWN = [
    (
        "the scale of each line beside raw bytes",
        "model none alpha 0.5\nreading 5\nbytes 21\nscale 100\nforecast 1\n",
        0,
        table(
            (1, "model none alpha 0.5", "O 0 0", OPENED),
            (2, "reading 5", "E 327680", "residual 5"),
            (3, "bytes 21", "M", "missing reading taken"),
            (5, "forecast 1", "F 1 163840", "forecast 0.025 for horizon 1"),
            ("", "", "N 2", "2 steps counted"),
        ),
    ),
    (
        "several commands of one bytes line, and one command of two lines",
        "model none alpha 0.5\nscale 10\nbytes 2005000000 21 2006\nbytes 000000 21\nmissing\n",
        0,
        table(
            (1, "model none alpha 0.5", "O 0 0", OPENED),
            (3, "bytes 2005000000 21 2006", "E 327680", "residual 0.5"),
            (3, "bytes 2005000000 21 2006", "M", "missing reading taken"),
            (3, "bytes 2005000000 21 2006", "E 229376", "residual 0.35"),
            (4, "bytes 000000 21", "M", "missing reading taken"),
            (5, "missing", "M", "missing reading taken"),
            ("", "", "N 5", "5 steps counted"),
        ),
    ),
    ("an empty text", "", 0, table(("", "", "N 0", "0 steps counted"))),
    (
        "m 49 is the program's to refuse",
        "model none m 49\nreading 4\n\nmissing\n",
        1,
        table((1, "model none m 49", "X 6 0", "the season length is not one the model allows"), "lines 2 to 4 were not played"),
    ),
    (
        "a refused season line",
        "model none m 4\nseason 0 1\nseason 1 1\nseason 2 1e8\nseason 3 1\nreading 4\n",
        1,
        table((4, "season 2 1e8", "X 9 81", RANGE), "lines 5 to 6 were not played"),
    ),
    (
        "a refused season that stands before the level",
        "model none m 2\nseason 1 1e8\nlevel 4\nmissing\n",
        1,
        table((2, "season 1 1e8", "X 9 71", RANGE), "line 4 was not played"),
    ),
    ("a refused level", "model none\nlevel 1e9\n", 1, table((2, "level 1e9", "X 9 19", RANGE))),
    (
        "a command of two lines",
        "model none\ntrend 4\nlevel 1\nmissing\n",
        1,
        table((2, "trend 4; level 1", "X 9 19", RANGE), "line 4 was not played"),
    ),
    ("a refused place", "model none m 2\nplace 2\n", 1, table((2, "place 2", "X 10 81", "the place is out of range, or the count is above 2^48"))),
    (
        "a number that no line gave",
        "model damped\nlevel 4\n",
        1,
        table((1, "model damped", "X 7 0", PARAMETER), "line 2 was not played"),
    ),
    (
        "gains outside the usual region",
        "model straight alpha 0.25 beta 0.5\nreading 4\n",
        1,
        table((1, "model straight alpha 0.25 beta 0.5", "X 16 0", UNUSUAL), "line 2 was not played"),
    ),
    (
        "the same by 18",
        "model outside straight A 2 B 3\nmissing\n",
        0,
        table(
            (1, "model outside straight A 2 B 3", "O 1 0", "state opened: model 1, season length 0"),
            (2, "missing", "M", "missing reading taken"),
            ("", "", "N 1", "1 step counted"),
        ),
    ),
    (
        "a switch has a row and no line",
        "model none alpha 0.5\neven\nreading 1\neven\nsave\neven\n",
        0,
        table(
            (1, "model none alpha 0.5", "O 0 0", OPENED),
            (2, "even", "", EVEN),
            (3, "reading 1", "E 65536", "residual 1"),
            (4, "even", "", EVEN),
            (5, "save", "S 10400000800000000000000000000000000...", "saved, 71 bytes; root mean square 1 over 1 reading"),
            (6, "even", "", EVEN),
            ("", "", "N 1", "1 step counted"),
        ),
    ),
    ("a switch where no state is open", "even\nmissing\n", 1, table((1, "even", "X 3 0", PLACE), "line 2 was not played")),
    (
        "a switch before a refused line",
        "model even none\neven\nreading 1000001\neven\n",
        1,
        table(
            (1, "model even none", "O 64 0", "state opened: model 64, season length 0, ties to even"),
            (2, "even", "", EVEN),
            (3, "reading 1000001", "X 13 72", "the reading is out of range"),
            "line 4 was not played",
        ),
    ),
    (
        "a state kept and brought back, each with a row and no line",
        "scale 10\nmodel none alpha 0.5\nreading 1\nkeep 2\nreading 5\neven\nback 2\nsave\nscale 1\nreading 6\nforecast 1\nback 2\n",
        0,
        table(
            (2, "model none alpha 0.5", "O 0 0", OPENED),
            (3, "reading 1", "E 655360", "residual 1"),
            (4, "keep 2", "", "no line; the state is kept as 2"),
            (5, "reading 5", "E 2949120", "residual 4.5"),
            (6, "even", "", EVEN),
            (7, "back 2", "", "no line; the state kept as 2 stands again"),
            (8, "save", "S 10000000800000000000000000000000000...", "saved, 71 bytes; root mean square 1 over 1 reading"),
            (10, "reading 6", "E 65536", "residual 1"),
            (11, "forecast 1", "F 1 360448", "forecast 5.5 for horizon 1"),
            (12, "back 2", "", "no line; the state kept as 2 stands again"),
            ("", "", "N 1", "1 step counted"),
        ),
    ),
    (
        "a state that a new one does not empty, and four commands of one bytes line",
        "model none\nlevel 3\nkeep 0\nmodel relative none\nlevel 4\nbytes 5001 5100 3001 00 5101\nforecast 1\n",
        0,
        table(
            (1, "model none", "O 0 0", OPENED),
            (3, "keep 0", "", "no line; the state is kept as 0"),
            (4, "model relative none", "O 8 0", "state opened: model 8, season length 0, relative errors"),
            (6, "bytes 5001 5100 3001 00 5101", "", "no line; the state is kept as 1"),
            (6, "bytes 5001 5100 3001 00 5101", "", "no line; the state kept as 0 stands again"),
            (6, "bytes 5001 5100 3001 00 5101", "F 1 196608", "forecast 3 for horizon 1"),
            (6, "bytes 5001 5100 3001 00 5101", "", "no line; the state kept as 1 stands again"),
            (7, "forecast 1", "F 1 262144", "forecast 4 for horizon 1"),
            ("", "", "N 0", "0 steps counted"),
        ),
    ),
    ("a keep where no state is open", "keep 0\nmissing\n", 1, table((1, "keep 0", "X 3 0", PLACE), "line 2 was not played")),
    (
        "a name above 3 is the program's to refuse",
        "model none\nkeep 3\nkeep 4\nback 3\nmissing\n",
        1,
        table(
            (1, "model none", "O 0 0", OPENED),
            (2, "keep 3", "", "no line; the state is kept as 3"),
            (3, "keep 4", "X 21 73", NAME),
            "lines 4 to 5 were not played",
        ),
    ),
    (
        "and so is one that holds nothing",
        "model none\nkeep 3\nmissing\nback 3\nback 2\n",
        1,
        table(
            (1, "model none", "O 0 0", OPENED),
            (2, "keep 3", "", "no line; the state is kept as 3"),
            (3, "missing", "M", "missing reading taken"),
            (4, "back 3", "", "no line; the state kept as 3 stands again"),
            (5, "back 2", "X 21 76", NAME),
        ),
    ),
    (
        "a name that was cut",
        "model none\nkeep 3\nbytes 51\n",
        1,
        table(
            (1, "model none", "O 0 0", OPENED),
            (2, "keep 3", "", "no line; the state is kept as 3"),
            (3, "bytes 51", "X 4 73", "the bytes end inside a command or before a group is finished"),
        ),
    ),
    (
        "relative errors and their variance, in the units of its line",
        "scale 10\nmodel relative none alpha 0.5\nlevel 10\nrelative 1 0.25\nrelative 2 0.25\nscale 1\nrelative 2 1/4\nforecast 2\nrelative 3 0\n",
        0,
        table(
            (2, "model relative none alpha 0.5", "O 8 0", "state opened: model 8, season length 0, relative errors"),
            (4, "relative 1 0.25", f"W 1 {f.bits(2500.0)}", "variance 25 for horizon 1"),
            (5, "relative 2 0.25", f"W 2 {f.bits(3281.25)}", "variance 32.8125 for horizon 2"),
            (7, "relative 2 1/4", f"W 2 {f.bits(3281.25)}", "variance 3281.25 for horizon 2"),
            (8, "forecast 2", "F 2 6553600", "forecast 100 for horizon 2"),
            (9, "relative 3 0", "W 3 0", "variance 0 for horizon 3"),
            ("", "", "N 0", "0 steps counted"),
        ),
    ),
    (
        "a σ² above 1 is the program's to refuse",
        "model relative even none\nrelative 3 1\nrelative 3 1.0000000000000003\nmissing\n",
        1,
        table(
            (1, "model relative even none", "O 72 0", "state opened: model 72, season length 0, relative errors, ties to even"),
            (2, "relative 3 1", "W 3 0", "variance 0 for horizon 3"),
            (3, "relative 3 1.0000000000000003", "X 18 82", SIGMA2),
            "line 4 was not played",
        ),
    ),
    (
        "and one below 0",
        "model 8\nrelative 3 -0.04\n",
        1,
        table((1, "model 8", "O 8 0", "state opened: model 8, season length 0, relative errors"), (2, "relative 3 -0.04", "X 18 71", SIGMA2)),
    ),
    (
        "a variance that leaves the doubles",
        "model relative straight alpha 1 beta 1\nlevel 16777216\ntrend 16777216\nrelative 375 1\nrelative 376 1\n",
        1,
        table(
            (1, "model relative straight alpha 1 beta 1", "O 9 0", "state opened: model 9, season length 0, relative errors"),
            (4, "relative 375 1", "W 375 9216908930821724773", "variance 1.40660694774e+308 for horizon 375"),
            (5, "relative 376 1", "X 19 82", LARGE),
        ),
    ),
    (
        "a variance where errors are relative",
        "model relative none\nvariance 2 4\n",
        1,
        table((1, "model relative none", "O 8 0", "state opened: model 8, season length 0, relative errors"), (2, "variance 2 4", "X 3 71", PLACE)),
    ),
    (
        "a relative variance where they are not",
        "model none\nrelative 2 0.04\n",
        1,
        table((1, "model none", "O 0 0", OPENED), (2, "relative 2 0.04", "X 3 71", PLACE)),
    ),
    (
        "a score, in the units of its line",
        "scale 10\nmodel none alpha 0.5\nsave\nreading 1\nmissing\nsave\nreading 1.2\neven\nforecast 1\nscale 1\nsave\n",
        0,
        table(
            (2, "model none alpha 0.5", "O 0 0", OPENED),
            (3, "save", "S 10000000800000000000000000000000000...", "saved, 71 bytes; no readings yet"),
            (4, "reading 1", "E 655360", "residual 1"),
            (5, "missing", "M", "missing reading taken"),
            (6, "save", "S 10000000800000000000000000000000000...", "saved, 71 bytes; root mean square 1 over 1 reading"),
            (7, "reading 1.2", "E 458752", "residual 0.7"),
            (8, "even", "", EVEN),
            (9, "forecast 1", "F 1 557056", "forecast 0.85 for horizon 1"),
            (11, "save", "S 10400000800000000000000000000000000...", "saved, 71 bytes; root mean square 8.63134 over 2 readings"),
            ("", "", "N 3", "3 steps counted"),
        ),
    ),
    (
        "the greatest score, and a reading more",
        "model none\ncount 281474976710655\nscore 281474976710655 68719476735 18442240474082181120\nsave\nreading 1\nsave\n",
        0,
        table(
            (1, "model none", "O 0 0", OPENED),
            (4, "save", "S 10000000000000000000000000000000000...", "saved, 71 bytes; root mean square 67108864 over 281474976710655 readings"),
            (5, "reading 1", "E 65536", "residual 1"),
            (6, "save", "S 10000000000000000000000000000000000...", "saved, 71 bytes; root mean square 67108864 over 281474976710656 readings"),
            ("", "", "N 281474976710656", "281474976710656 steps counted"),
        ),
    ),
    (
        "a score of more readings than steps",
        "model none\nscore 4 0 0\nlevel 1\ncount 3\nreading 4\n",
        1,
        table((2, "score 4 0 0; count 3", "X 17 61", SCORE), "line 5 was not played"),
    ),
    ("a score whose steps no line counts", "model none m 2\nscore 1 0 0\n", 1, table((2, "score 1 0 0", "X 17 81", SCORE))),
    (
        "a score of too great a sum",
        "model none\nplace 0\ncount 1\nscore 1 0 4503599627370496\nmodel none\ncount 1\nscore 1 0 4503599627370497\n",
        1,
        table((1, "model none", "O 0 0", OPENED), (6, "count 1; score 1 0 4503599627370497", "X 17 132", SCORE)),
    ),
    (
        "a score outside a group",
        "model none\nbytes 15" + " 00" * 24 + "\nmissing\n",
        1,
        table((1, "model none", "O 0 0", OPENED), (2, "bytes 15 00 00 00 00 00 00 00 00 00 0...", "X 3 71", PLACE), "line 3 was not played"),
    ),
    ("gains inside by 18", "model outside none m 2 A 3 G 65533\n", 1, table((1, "model outside none m 2 A 3 G 65533", "X 7 0", PARAMETER))),
    (
        "a refused reading",
        "model none\nreading 1000001\n# a comment\nforecast 1\n",
        1,
        table((1, "model none", "O 0 0", OPENED), (2, "reading 1000001", "X 13 71", "the reading is out of range"), "line 4 was not played"),
    ),
    (
        "a cut command",
        "model none\nbytes 20 05\n",
        1,
        table(
            (1, "model none", "O 0 0", OPENED),
            (2, "bytes 20 05", "X 4 71", "the bytes end inside a command or before a group is finished"),
        ),
    ),
    (
        "a group that ends between two commands names no line",
        "bytes " + f.encode(0x10, 0, 0, 0, 0, 0, 0).hex() + "\n",
        1,
        table(("", "", "X 4 19", "the bytes end inside a command or before a group is finished")),
    ),
    (
        "a large residual",
        "model none\nlevel -16777215.5\nreading 1000000\n",
        0,
        table(
            (1, "model none", "O 0 0", OPENED),
            (3, "reading 1000000", "E 1165047595008", "residual 17777215.5"),
            ("", "", "N 1", "1 step counted"),
        ),
    ),
]


def add(name, text, status, expected):
    @case(f"shown: {name}")
    def check(folder):
        ended = play(folder, text)
        same(ended.text, expected)
        same((ended.status, ended.err), (status, ""), "status and message")


for row in SHOWN:
    add(*row)


@case("shown: tools/stream --explain shows what tools/run shows")
def explain(folder):
    for _, text, status, expected in SHOWN[::4]:
        (folder / "day.txt").write_text(text)
        command = 'tools/stream day.txt > day.bin && "$FORECAST_RUN" < day.bin | tools/stream --explain day.txt'
        same(shell(command, folder)[:2], (status, expected.encode()))


@case("shown: lines of another text are told")
def other_lines(folder):
    (folder / "day.txt").write_text("model none\nmissing\n")
    ended = tool("stream", folder, "--explain", "day.txt", stdin=b"O 0 0\nE 5\nN 1\n")
    same(ended, (1, b"", "stream: the line E 5 does not belong to this text\n"))


@case("shown: 65,536 bytes are played, 65,537 name no line")
def limit(folder):
    text = "model none\n" + "missing\n" * (65536 - 71)
    ended = play(folder, text)
    same((ended.status, ended.text.splitlines()[-1].split()[:2]), (0, ["N", "65465"]), "status and last line")
    ended = play(folder, text + "missing\n")
    row = ("", "", "X 1 0", "the input is longer than 65,536 bytes")
    same((ended.status, ended.text), (1, table(row, "nothing was played: the stream has 65,537 bytes")))


@case("shown: a saved group whole, and played on")
def saved(folder):
    text = "model none m 48 alpha 0.5 gamma 0.5\nreading 10\nsave\n"
    whole = play(folder, text, "--full").text.splitlines()[2]
    group = whole.split("S ")[1].split()[0]
    same(len(group), 2 * 551, "the group's digits")
    short = play(folder, text).text.splitlines()[2]
    holds(short.endswith("...  saved, 551 bytes; root mean square 10 over 1 reading"), "without --full the line is cut")
    ended = play(folder, f"group {group}\nscale 10\nreading 10\n")
    expected = f.play(bytes.fromhex(group) + f.encode(0x20, 100))[0]
    same([line[49:].split("  ")[0] for line in ended.text.splitlines()], expected, "the lines")
    holds(ended.text.splitlines()[1].startswith("    3  reading 10 "), "the reading stands beside its line")


@case("shown: an old group opens with no readings, and is saved in the new form")
def old_group(folder):
    group = f.group_bytes(f.State(model=4, m=2, A=32768, G=16384, l=65536, count=70, p=1))
    old = old_form(group)
    same(len(old), 66, "the old group's length")
    text = f"group {old.hex()}\nsave\nmissing\nreading 5\nsave\n"
    stream = play(folder, text, tool_name="stream").out
    found = tool("run", folder, "-", stdin=stream).text.splitlines()
    same(found, f.play(old + b"\x40\x21" + f.encode(0x20, 5) + b"\x40")[0], "the lines")
    same(found[1], f"S {group.hex()}", "the group as it is saved")
    shown = play(folder, text).text.splitlines()
    holds(shown[1].endswith("  saved, 91 bytes; no readings yet"), shown[1])
    holds(shown[4].endswith("  saved, 91 bytes; root mean square 4 over 1 reading"), shown[4])


@case("shown: a saved group that arrived cut off")
def cut_group(folder):
    (folder / "day.txt").write_text("model none\nsave\n")
    for digits in ("100", "1000", f.group_bytes(f.State()).hex()[:-2], "15zz"):
        ended = tool("stream", folder, "--explain", "--full", "day.txt", stdin=f"O 0 0\nS {digits}".encode())
        row = (2, "save", f"S {digits}", f"saved, {len(digits) // 2} bytes")
        last = "the program's output ends without its last line, N or X"
        same((ended.status, ended.text, ended.err), (1, table((1, "model none", "O 0 0", OPENED), row, last), ""), digits)


@case("shown: the example of tools/run without words")
def example(folder):
    same(tool("run", folder), tool("run", folder, TOOLS / "example.txt"))
    same((tool("run", folder).status, len(tool("run", folder).text.splitlines())), (0, 10), "status and lines")


@case("shown: bytes of standard input")
def raw(folder):
    for stream, status in ((f.encode(0x21), 1), (b"", 0), (f.group_bytes(f.State(A=32768)) + f.encode(0x20, 10), 0)):
        same(tool("run", folder, "-", stdin=stream), (status, f.output(stream), ""))


@case("status: a program whose output is cut off")
def cut_off(folder):
    program = folder / "cut"
    program.write_text("#!/bin/sh\ncat > /dev/null\necho O 0 0\n")
    program.chmod(0o755)
    (folder / "day.txt").write_text("model none\nmissing\n")
    ended = tool("run", folder, "day.txt", env=environment(FORECAST_RUN=str(program)))
    row = (1, "model none", "O 0 0", OPENED)
    same(ended, (1, table(row, "the program's output ends without its last line, N or X").encode(), ""))
    ended = tool("run", folder, "-", env=environment(FORECAST_RUN=str(program)))
    same(ended, (1, b"O 0 0\n", ""))


@case("status: a program that is not there")
def no_program(folder):
    (folder / "day.txt").write_text("model none\n")
    ended = tool("run", folder, "day.txt", env=environment(FORECAST_RUN="/nonexistent/program"))
    same(ended, (3, b"", "run: /nonexistent/program: No such file or directory\n"))


@case("pipes: a text from <(..) and from /dev/stdin")
def from_pipes(folder):
    expected = play(folder, LISTING)
    same(expected.status, 0, "status")
    for command in ("tools/run <(cat day.txt)", "cat day.txt | tools/run /dev/stdin", "tools/run /dev/stdin < day.txt"):
        same(shell(command, folder), expected, command)


@case("pipes: a reader that went away")
def closed_pipe(folder):
    (folder / "day.txt").write_text(LISTING)
    (folder / "many.txt").write_text("model none\n" + "missing\n" * 20000)
    for words in (["run", "day.txt"], ["run", "many.txt"], ["stream", "many.txt"], ["series", "/dev/stdin"]):
        read, write = os.pipe()
        os.close(read)
        ended = tool(words[0], folder, words[1], stdout=write, stdin=b"5\n")
        os.close(write)
        same((ended.status, ended.err), (-signal.SIGPIPE, ""), f"{words}: status and message")
    ended = shell("tools/run many.txt | head -1", folder)
    same((ended.status, ended.text, ended.err), (0, table((1, "model none", "O 0 0", OPENED)), ""))


@case("pipes: a full disk")
def full(folder):
    (folder / "day.txt").write_text(LISTING)
    for words in (["run", "day.txt"], ["stream", "day.txt"], ["run", "-"], ["series", "/dev/stdin"]):
        with open("/dev/full", "wb") as device:
            ended = tool(*[words[0], folder, words[1]], stdout=device)
        same((ended.status, ended.err), (1, f"{words[0]}: standard output: No space left on device\n"), words)


@case("pipes: closed outputs")
def closed(folder):
    (folder / "day.txt").write_text(LISTING)
    for name in ("run", "stream"):
        same(shell(f"tools/{name} day.txt >&-", folder), (1, b"", f"{name}: standard output is closed\n"))
        same(shell(f"tools/{name} nosuch.txt 2>&-", folder), (2, b"", ""))


@case("time: 65,000 commands in seconds")
def linear(folder):
    for text in ("model none\n" + "missing\n" * 65000, "model none\n" + "reading 5\n" * 13000):
        began = time.monotonic()
        ended = play(folder, text)
        took = time.monotonic() - began
        same((ended.status, len(ended.out.splitlines())), (0, len(text.splitlines()) + 1), "status and lines")
        holds(took < 60, f"{len(text.splitlines())} lines took {took:.1f} s")


@case("text: a place of its own, without the tests")
def alone(folder):
    started(["cp", "-r", TOOLS, folder / "tools"], folder)
    (folder / "day.txt").write_text(LISTING)
    for words in (["run", "day.txt"], ["series", "--text", "/dev/stdin"], ["plot", "day.txt", "day.svg"]):
        ended = started([folder / "tools" / words[0], *words[1:]], folder, stdin=b"5\n")
        same((ended.status, ended.err), (0, ""), f"{words}: status and message")
    holds(not list((folder / "tools").rglob("__pycache__")), "a tool left compiled files")
