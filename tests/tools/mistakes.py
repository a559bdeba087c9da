"""Texts that can't be written as a stream: status 2, nothing written, and a message with the line, the field and the value."""

from harness import case, holds, old_form, play, same, tool

GROUP = "1000000080000000000000000000000000000011000005000000000000000000000000001501000000000000000000000000000000640000000000000013000100000000000000"

MISTAKES = [
    # what was lost or bent
    ("a season's place from m on", "model none m 2\nseason 2 5\n", 2, "season 2: the model's m is 2, so its places are 0 to 1"),
    ("a season's place below 0", "model none m 2\nseason -1 5\n", 2, "season -1: the model's m is 2, so its places are 0 to 1"),
    ("a season without a seasonal model", "model none\nseason 0 5\n", 2, "season 0: the model has no season, its line gives no m"),
    ("a season where m is 0", "model none m 0\ns 0 5\n", 2, "s 0: the model's m is 0, so its places are none"),
    (
        "a parameter twice",
        "model none alpha 0.5 alpha 0.25\n",
        1,
        "alpha 0.25 is given a second time: alpha 0.5 stands on this line already",
    ),
    ("a parameter as word and letter", "model none alpha 0.5 A 7\n", 1, "A 7 is given a second time: alpha 0.5 stands on this line already"),
    ("m twice", "model none m 2 m 3\n", 1, "m 3 is given a second time: m 2 stands on this line already"),
    ("a level twice", "model none\nlevel 3\n\nl 4\n", 4, "l 4 is given a second time: level 3 stands on line 2 already"),
    ("a season twice", "model none m 3\nseason 2 5\ns 2 77\n", 3, "s 2 77 is given a second time: season 2 5 stands on line 2 already"),
    ("a count twice", "model none\ncount 1\ncount 1\n", 3, "count 1 is given a second time: count 1 stands on line 2 already"),
    ("a score twice", "model none\nscore 1 0 4\nscore 1 0 0\n", 3, "score 1 0 0 is given a second time: score 1 0 4 stands on line 2 already"),
    # numbers that do not fit
    ("a long reading", "model none\nreading 99999999999999999999\n", 2, "reading 99999999999999999999 does not fit: -2147483648 to 2147483647"),
    (
        "a reading that the scale makes long",
        "scale 100\nmodel none\nreading 21474836.48\n",
        3,
        "reading 21474836.48, written as 2147483648 at scale 100, does not fit: -2147483648 to 2147483647",
    ),
    ("a σ² below 0", "model none\nvariance 2 -4\n", 2, "variance's sigma2 -4 does not fit: 0 to 4294967295"),
    ("a variance's long horizon", "model none\nvariance 65536 4\n", 2, "variance's horizon 65536 does not fit: 0 to 65535"),
    ("a relative variance's long horizon", "model none\nrelative 65536 0.04\n", 2, "relative's horizon 65536 does not fit: 0 to 65535"),
    ("a relative σ² beyond the doubles", "model none\nrelative 2 1e309\n", 2, "relative's sigma2 1e309 does not fit a double"),
    ("a long name", "model none\nkeep 256\n", 2, "keep's name 256 does not fit: 0 to 255"),
    ("a name below 0", "model none\nkeep 1\nback -1\n", 3, "back's name -1 does not fit: 0 to 255"),
    ("a horizon below 0", "model none\nforecast -1\n", 2, "forecast's horizon -1 does not fit: 0 to 65535"),
    ("a long horizon", "model none\nforecast 65536\n", 2, "forecast's horizon 65536 does not fit: 0 to 65535"),
    ("a parameter below 0", "model none alpha -0.5\n", 1, "alpha -0.5, written as -32768 65,536ths, does not fit: 0 to 4294967295"),
    ("a long parameter", "model none A 4294967296\n", 1, "A 4294967296 does not fit: 0 to 4294967295"),
    ("a count below 0", "model none\ncount -1\n", 2, "count -1 does not fit: 0 to 18446744073709551615"),
    ("a score below 0", "model none\nscore -1 0 0\n", 2, "score's readings -1 does not fit: 0 to 18446744073709551615"),
    ("a long word of a score", "model none\nscore 1 0 18446744073709551616\n", 2, "score's low 18446744073709551616 does not fit: 0 to 18446744073709551615"),
    ("a long place", "model none\nlevel 4\nplace 300\n", 3, "place 300 does not fit: 0 to 255"),
    ("a long m", "model none m 256\n", 1, "m 256 does not fit: 0 to 255"),
    ("a long model byte", "model 256\n", 1, "model 256 does not fit: 0 to 255"),
    (
        "a long level",
        "model none\nlevel 1e15\n",
        2,
        "level 1e15, written as 65536000000000000000 65,536ths, does not fit: -9223372036854775808 to 9223372036854775807",
    ),
    (
        "a long season value",
        "model none m 2\ns 1 9223372036854775808\n",
        2,
        "s 1 9223372036854775808 does not fit: -9223372036854775808 to 9223372036854775807",
    ),
    # number forms; each ends at once
    ("a large exponent", "model none alpha 1e999999999\n", 1, "alpha 1e999999999 has an exponent beyond 999"),
    ("a reading's large exponent", "model none\nreading 1e12345678\n", 2, "reading 1e12345678 has an exponent beyond 999"),
    ("a small exponent", "model none\nlevel 1e-999999999\n", 2, "level 1e-999999999 has an exponent beyond 999"),
    (
        "an exponent of 999",
        "model none\nreading 1e999\n",
        2,
        "reading 1e999, written as 10000000000000000000... (1000 digits) at scale 1, does not fit: -2147483648 to 2147483647",
    ),
    ("many digits", "model none\nreading " + "9" * 200000 + "\n", 2, "reading " + "9" * 57 + "... has more than 100 characters"),
    ("a scale of many digits", "scale " + "9" * 200000 + "\n", 1, "scale " + "9" * 57 + "... has more than 100 characters"),
    ("an underscore", "model none\nreading 1_000\n", 2, "reading 1_000 is not a number"),
    ("an underscore in a whole number", "model none\nforecast 1_0\n", 2, "forecast's horizon 1_0 is not a whole number"),
    ("a decimal comma", "model none\nreading 21,5\n", 2, "reading 21,5 is not a number"),
    ("Arabic digits", "model none\nreading \u0663\n", 2, "reading '\\u0663' is not a number"),
    ("Arabic digits in a whole number", "model none\nforecast \u0663\n", 2, "forecast's horizon '\\u0663' is not a whole number"),
    ("not a number", "model none\nreading nan\n", 2, "reading nan is not a number"),
    ("a relative σ² that is not a number", "model none\nrelative 2 nan\n", 2, "relative's sigma2 nan is not a number"),
    ("an infinite number", "model none\nlevel inf\n", 2, "level inf is not a number"),
    ("a division by 0", "model none alpha 1/0\n", 1, "alpha 1/0 divides by 0"),
    ("a decimal where a whole number is due", "model none\nforecast 1.5\n", 2, "forecast's horizon 1.5 is not a whole number"),
    ("a name that is a word", "model none\nkeep easter\n", 2, "keep's name easter is not a whole number"),
    ("a decimal in a score", "model none\nscore 2 0.5 0\n", 2, "score's high 0.5 is not a whole number"),
    ("a reading between two units", "model none\nreading 1/2\n", 2, "reading 1/2 is not whole at scale 1"),
    ("a reading too fine for its scale", "scale 10\nmodel none\nreading 21.55\n", 3, "reading 21.55 is not whole at scale 10"),
    # words
    ("an unknown word", "model none\nreding 4\n", 2, "reding is not known"),
    ("an unknown parameter", "model none delta 4\n", 1, "a model has no delta"),
    ("a parameter without a number", "model none alpha\n", 1, "alpha takes a number"),
    ("an unknown model", "model linear\n", 1, "a model is none, straight or damped, or a model byte"),
    ("outside and no model", "model outside\n", 1, "a model is none, straight or damped, or a model byte"),
    ("outside twice", "model outside outside none\n", 1, "outside is given a second time"),
    ("even twice", "model even outside even none\n", 1, "even is given a second time"),
    ("even twice after another word", "model outside even even none\n", 1, "even is given a second time"),
    ("relative twice", "model relative even relative none\n", 1, "relative is given a second time"),
    ("relative and no model", "model relative\n", 1, "a model is none, straight or damped, or a model byte"),
    ("even and no model", "model even\n", 1, "a model is none, straight or damped, or a model byte"),
    ("a switch with a number", "model none\neven 2\n", 2, "even takes no numbers"),
    ("a keep without a name", "model none\nkeep\n", 2, "keep takes 1 number"),
    ("a back of two names", "model none\nkeep 1\nback 1 2\n", 3, "back takes 1 number"),
    ("no model", "model\n", 1, "a model is none, straight or damped, or a model byte"),
    ("a level before a model", "level 4\nmodel none\n", 1, "level belongs after a model line"),
    ("a score before a model", "score 1 0 0\n", 1, "score belongs after a model line"),
    ("a score after a reading", "model none\nreading 4\nscore 1 0 0\n", 3, "score belongs after a model line"),
    ("a level after a reading", "model none\nreading 4\nlevel 4\n", 3, "level belongs after a model line"),
    ("a reading without a number", "model none\nreading\n", 2, "reading takes 1 number"),
    ("a missing reading with a number", "model none\nmissing 4\n", 2, "missing takes no numbers"),
    ("a variance with one number", "model none\nvariance 4\n", 2, "variance takes 2 numbers"),
    ("a relative variance with one number", "model none\nrelative 4\n", 2, "relative takes 2 numbers"),
    ("a season without its place", "model none m 2\nseason 4\n", 2, "season takes a place and a number"),
    ("a level with two numbers", "model none\nlevel 4 5\n", 2, "level takes one number"),
    ("a score with two numbers", "model none\nscore 4 5\n", 2, "score takes three numbers: the readings, and the sum's high and low word"),
    ("a score with four", "model none\nscore 4 5 6 7\n", 2, "score takes three numbers: the readings, and the sum's high and low word"),
    ("a scale of 0", "scale 0\n", 1, "scale takes one whole number above 0"),
    ("a scale without a number", "scale\n", 1, "scale takes one whole number above 0"),
    ("half a byte", "bytes 10 f\n", 1, "bytes takes hexadecimal digits, two to a byte"),
    ("no bytes", "bytes\n", 1, "bytes takes hexadecimal digits, two to a byte"),
    ("a group that was cut", "group 10000080000000\n", 1, "the 7 bytes after group are not one whole group (bytes takes any)"),
    (
        "a group with a byte too many",
        f"group {GROUP}21\n",
        1,
        "the 72 bytes after group are not one whole group (bytes takes any)",
    ),
    ("a group cut in its score", f"group {GROUP[:100]}\n", 1, "the 50 bytes after group are not one whole group (bytes takes any)"),
    (
        "an old group with a byte too many",
        f"group {old_form(bytes.fromhex(GROUP)).hex()}21\n",
        1,
        "the 47 bytes after group are not one whole group (bytes takes any)",
    ),
    ("a shortened group", "group 1000000080000000000000000000000...\n", 1, "group takes hexadecimal digits, two to a byte"),
    ("a blank that is none", "model none\nreading\u00a04\n", 2, "'reading\\xa04' is not known"),
    ("a later byte order mark", "model none\n\ufeffreading 4\n", 2, "'\\ufeffreading' is not known"),
    # lines are counted as an editor counts them
    ("CRLF", "model none\r\n\r\nreading x\r\n", 3, "reading x is not a number"),
    ("CR", "model none\rreading x\r", 2, "reading x is not a number"),
    ("a form feed is no line end", "model none\n#\x0c\x1c\u2028\nreading x\n", 3, "reading x is not a number"),
    ("after a byte order mark", "\ufeffmodel none\nreading x\n", 2, "reading x is not a number"),
]


def told(folder, tool_name, text, line, message):
    ended = play(folder, text, tool_name=tool_name)
    same(ended.err, f"{tool_name}: day.txt, line {line}: {message}\n", "the message")
    same((ended.status, ended.out), (2, b""), "status and output")


def add(name, text, line, message):
    @case(f"mistake: {name}")
    def check(folder):
        told(folder, "stream", text, line, message)


for row in MISTAKES:
    add(*row)


@case("mistake: tools/run tells what tools/stream tells")
def run_tells(folder):
    for _, text, line, message in MISTAKES[::10]:
        told(folder, "run", text, line, message)


@case("mistake: bytes that are not UTF-8")
def not_utf8(folder):
    ended = play(folder, b"model none\nreading 4 # \xff\n")
    same(ended, (2, b"", "run: day.txt, line 2: the byte ff is not UTF-8\n"))


@case("mistake: a file that is not there")
def no_file(folder):
    for name in ("stream", "run"):
        same(tool(name, folder, "nosuch.txt"), (2, b"", f"{name}: nosuch.txt: No such file or directory\n"))


@case("mistake: a folder")
def a_folder(folder):
    same(tool("run", folder, "."), (2, b"", "run: .: Is a directory\n"))


@case("mistake: a second file")
def second_file(folder):
    for name in ("stream", "run"):
        (folder / "b.txt").write_text("model none\n")
        ended = play(folder, "model none\n", "b.txt", tool_name=name)
        same((ended.status, ended.out), (2, b""), "status and output")
        holds("unrecognized arguments: day.txt" in ended.err, f"the message does not name the second file: {ended.err}")


@case("mistake: an unknown option")
def unknown_option(folder):
    for name in ("stream", "run", "series", "plot", "changes"):
        ended = tool(name, folder, "--loud", "a", "b")
        same((ended.status, ended.out), (2, b""), "status and output")
