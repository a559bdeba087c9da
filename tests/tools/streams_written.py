"""Texts that can be written: their bytes are those of the second implementation, which has an encoder of its own."""

import random
from dataclasses import replace

import forecaster as f
import random_streams
from forecaster import State
from harness import case, holds, old_form, play, same
from lib import commands, lines, texts

SEASONS = tuple(range(1, 49))


def written(folder, text):
    ended = play(folder, text, tool_name="stream")
    same((ended.status, ended.err), (0, ""), "status and message")
    return ended.out


def wide_snapshot(m, place, value):
    """A group with any m that its byte can hold."""
    cells = b"".join(f.encode(0x12, k, value if k == place else 0) for k in range(m))
    return f.encode(0x10, 4, m, 0, 0, 0, 0) + f.encode(0x11, 0, 0) + f.encode(0x15, 0, 0, 0) + cells + f.encode(0x13, 0, 0)


S = f.group_bytes
WRITTEN = [
    ("the listing", "model none alpha 0.5\nreading 10\nforecast 2\nvariance 2 4\n", S(State(A=32768)) + bytes.fromhex("200a000000 300200 31020004000000")),
    ("an empty text", "", b""),
    ("comments alone", "# nothing\n\n   # at all\n", b""),
    ("straight: phi is 1", "model straight\n", S(State(model=1, F=65536))),
    ("straight with another phi", "model straight F 7\n", S(State(model=1, F=7))),
    ("letters", "model damped A 1 B 2 G 3 F 4\nl -5\nb 6\ncount 8\n", S(State(model=2, A=1, B=2, G=3, F=4, l=-5, b=6, count=8))),
    ("words", "model damped alpha 1 beta .5 gamma 25e-2 phi 1/3\n", S(State(model=2, A=65536, B=32768, G=16384, F=21845))),
    ("by 18", "model outside straight alpha 0.25 beta 0.5\nsave\n", S(State(model=1, A=16384, B=32768, F=65536, opener=0x18)) + b"\x40"),
    ("by 18 with a season", "model outside none m 2 A 40000 G 40000\ns 1 7\n", S(State(model=4, m=2, A=40000, G=40000, s=(0, 7) + (0,) * 46, opener=0x18))),
    ("by 18, whatever its gains", "model outside 0x03 alpha 1\n", S(State(model=3, A=65536, opener=0x18))),
    ("ties to even", "model even damped alpha 1 phi 0.5\nsave\n", S(State(model=0x42, A=65536, F=32768)) + b"\x40"),
    ("ties to even with a season, by 18", "model outside even none m 2 A 40000 G 40000\n", S(State(model=0x44, m=2, A=40000, G=40000, opener=0x18))),
    ("the same in the other order", "model even outside none m 2 A 40000 G 40000\n", S(State(model=0x44, m=2, A=40000, G=40000, opener=0x18))),
    ("ties to even of a model byte", "model even 0x03\nmodel even 64\n", S(State(model=0x43)) + S(State(model=0x40))),
    ("relative errors", "model relative damped alpha 1 phi 0.5\nsave\n", S(State(model=0x0A, A=65536, F=32768)) + b"\x40"),
    ("relative errors and ties to even with a season, by 18", "model outside even relative none m 2 A 40000 G 40000\n",
     S(State(model=0x4C, m=2, A=40000, G=40000, opener=0x18))),
    ("the same in another order", "model relative outside even none m 2 A 40000 G 40000\n", S(State(model=0x4C, m=2, A=40000, G=40000, opener=0x18))),
    ("relative errors of a model byte", "model relative 0x03\nmodel relative 8\nmodel 13 m 2\n", S(State(model=11)) + S(State(model=8)) + S(State(model=13, m=2, F=65536))),
    ("a switch", "model none\neven\neven\nreading 5\n", S(State()) + b"\x14\x14" + f.encode(0x20, 5)),
    ("states kept and brought back", "model none\nkeep 0\nback 0\nkeep 3\nkeep 0x02\nback 003\n", S(State()) + bytes.fromhex("5000 5100 5003 5002 5103")),
    ("names for the program to refuse", "back 0\nkeep 4\nback 4\nkeep 255\nback 255\n", bytes.fromhex("5100 5004 5104 50ff 51ff")),
    ("a model byte", "model 0x03 m 2 alpha 1\n", S(State(model=3, m=2, A=65536))),
    ("a model byte without season and an m", "model 1 m 2\n", S(State(model=1, m=2, F=65536))),
    ("seasons in any order", "model none m 2\ns 1 7\nplace 1\ns 0 -7\n", S(State(model=4, m=2, s=(-7, 7) + (0,) * 46, p=1))),
    ("48 places", "model none m 48\n" + "".join(f"s {k} {k + 1}\n" for k in range(48)), S(State(model=4, m=48, s=SEASONS))),
    ("m 0", "model none m 0\n", S(State(model=4))),
    ("m 1", "model none m 1\ns 0 9\n", S(State(model=4, m=1, s=(9,) + (0,) * 47))),
    ("m 49", "model none m 49\ns 48 -9\n", wide_snapshot(49, 48, -9)),
    ("m 255", "model none m 255\ns 254 9\n", wide_snapshot(255, 254, 9)),
    ("edges of the widths", "model none A 4294967295\nl -9223372036854775808\nplace 255\ncount 18446744073709551615\n",
     f.encode(0x10, 0, 0, 2**32 - 1, 0, 0, 0) + f.encode(0x11, -(2**63), 0) + f.encode(0x15, 0, 0, 0) + f.encode(0x13, 255, 2**64 - 1)),
    ("a score", "model none m 2\nscore 9 0 1225\ns 1 7\ncount 12\n", S(State(model=4, m=2, s=(0, 7) + (0,) * 46, count=12, readings=9, low=1225))),
    ("edges of a score's widths", "model none\nscore 0xffffffffffffffff 18446744073709551615 18446744073709551614\n",
     S(State(readings=2**64 - 1, high=2**64 - 1, low=2**64 - 2))),
    ("readings at the edges", "reading -2147483648\nreading 2147483647\n", f.encode(0x20, -(2**31)) + f.encode(0x20, 2**31 - 1)),
    ("horizons at the edges", "forecast 0\nforecast 65535\nvariance 65535 4294967295\n",
     f.encode(0x30, 0) + f.encode(0x30, 65535) + f.encode(0x31, 65535, 2**32 - 1)),
    ("relative variances", "relative 2 0.04\nrelative 65535 1/3\nrelative 0 0\nrelative 1 25e-2\n",
     f.encode(0x32, 2, f.bits(0.04)) + f.encode(0x32, 65535, f.bits(1 / 3)) + f.encode(0x32, 0, 0) + f.encode(0x32, 1, f.bits(0.25))),
    ("relative variances for the program to refuse", "relative 1 1.5\nrelative 1 -0.04\nrelative 1 1e308\nrelative 1 -1e-999\n",
     b"".join(f.encode(0x32, 1, f.bits(value)) for value in (1.5, -0.04, 1e308, -0.0))),
    ("number forms", "forecast 007\nforecast +7\nforecast 0x07\nreading 7.\nreading 70e-1\nreading 14/2\nreading +7.0\n",
     f.encode(0x30, 7) * 3 + f.encode(0x20, 7) * 4),
    ("a scale", "scale 100\nmodel none\nlevel 21.5\nreading 21.55\n", S(State(l=2150 * 65536)) + f.encode(0x20, 2155)),
    ("the scale of each line", "reading 1\nscale 10\nreading 1\nscale 1\nreading 1\n", f.encode(0x20, 1) + f.encode(0x20, 10) + f.encode(0x20, 1)),
    ("a byte order mark and CRLF", "\ufeffmodel none\r\nreading 5\r\n", S(State()) + f.encode(0x20, 5)),
    ("tabs", "\tmodel\tnone \t m\t2\n", S(State(model=4, m=2))),
    ("no last line end", "model none\nmissing", S(State()) + b"\x21"),
    ("raw bytes", "bytes 10ff 00 AB\n", bytes.fromhex("10ff00ab")),
    ("a saved group of 18", "group " + S(State(model=1, B=1, F=65536, opener=0x18)).hex() + "\nsave\n", S(State(model=1, B=1, F=65536, opener=0x18)) + b"\x40"),
    ("an old group", "group " + old_form(S(State(model=6, m=3, A=1, F=2, l=-3))).hex() + "\nsave\n", old_form(S(State(model=6, m=3, A=1, F=2, l=-3))) + b"\x40"),
    ("a saved group with a score", "group " + S(State(count=5, readings=4, high=3, low=2)).hex() + "\n", S(State(count=5, readings=4, high=3, low=2))),
    ("a saved group", "group " + S(State(model=6, m=3, A=1, F=2, l=-3)).hex() + "\nsave\n", S(State(model=6, m=3, A=1, F=2, l=-3)) + b"\x40"),
]  # fmt: skip


def add(name, text, expected):
    @case(f"written: {name}")
    def check(folder):
        same(written(folder, text).hex(), expected.hex(), "the stream")


for row in WRITTEN:
    add(*row)


@case("written: decimals go to the nearest 65,536th, the upper one of two as near")
def nearest(folder):
    # in 65,536ths: half below and above 0, just beside each half, and a value that no double holds
    fixed_point = {"1/131072": 1, "-1/131072": 0, "0.000007629395": 1, "0.000007629394": 0, "-0.000007629395": -1, "-0.000007629394": 0}
    fixed_point.update({"3/131072": 2, "-3/131072": -1, "-0.0000228882": -2, "16777216.000007629394531250001": 2**40 + 1})
    text = "".join(f"model none\nlevel {word}\n" for word in fixed_point)
    same(written(folder, text), b"".join(S(State(l=expected)) for expected in fixed_point.values()), "the stream")


@case("written: relative variances go to the nearest double, the even one of two as near")
def nearest_double(folder):
    # half way from the double below 1 to 1, just below it, and the same at the other end, where the least double is 1 as a number
    half = "0.999999999999999944488848768742172978818416595458984375"
    bits = {"1": f.bits(1.0), half: f.bits(1.0), half[:-1] + "4": f.bits(1.0) - 1, "4.9e-324": 1, "2.4e-324": 0, "1e-999": 0, "-0": 0}
    text = "".join(f"relative 7 {word}\n" for word in bits)
    same(written(folder, text), b"".join(f.encode(0x32, 7, expected) for expected in bits.values()), "the stream")


@case("written: 65,537 bytes and more are written, for the program to refuse")
def long_stream(folder):
    same(len(written(folder, "model none\n" + "missing\n" * 70000)), 71 + 70000, "the length")


def random_text(rng):
    """A state as text, and the state."""
    x = random_streams.state(rng)
    names = ["none", "straight", "damped"]
    season = f" m {x.m}" if x.m else ""
    kinds = ("outside " if x.opener == 0x18 else "") + ("even " if x.model & f.EVEN else "") + ("relative " if x.relative else "")
    head = [f"model {kinds}{names[x.trend]} A {x.A} B {x.B} G {x.G} F {x.F}{season}", f"l {x.l}", f"b {x.b}", f"place {x.p}", f"count {x.count}"]
    rest = head[1:] + [f"s {k} {x.s[k]}" for k in range(x.m)] + [f"score {x.readings} {x.high} {x.low}"]
    rng.shuffle(rest)
    return "\n".join(head[:1] + rest), x


@case("written: 300 random states")
def random_states(folder):
    rng = random.Random(5)
    for _ in range(300):
        text, x = random_text(rng)
        found = b"".join(piece.data for piece in texts.pieces(text, "text"))
        same(found, S(x), text)


@case("decoded: what the encoder wrote, and every line's command in 400 random streams")
def decoded(folder):
    rng = random.Random(6)
    for _ in range(400):
        stream = random_streams.stream(rng)
        found = f.play(stream)[0]
        rows = list(lines.explained([texts.Piece(stream, (texts.Source(1, "bytes"),), 1)], found))
        answered = [row for row in rows if isinstance(row, lines.Row) and row.line[:1] not in ("X", "N")]
        same([row.line for row in answered if row.line], [line for line in found if line[0] not in "XN"], "the lines")
        holds(all(row.number == "1" for row in answered), "a line stands beside no text")
        same(b"".join(commands.items(stream[: commands.decode(stream)[1]])), stream[: commands.decode(stream)[1]], "the items")


@case("decoded: a group's numbers")
def snapshot_numbers(folder):
    rng = random.Random(7)
    for _ in range(200):
        x = random_streams.state(rng)
        for group, expected in ((S(x), x), (old_form(S(x)), replace(x, readings=0, high=0, low=0))):
            found, end = commands.decode_snapshot(group + b"\x21")
            same(replace(State(**found._asdict()), s=found.s + (0,) * (48 - x.m)), expected, "the numbers")
            same(end, len(group), "the length")
            holds(not any(commands.decode_snapshot(group[:cut]) for cut in range(len(group))), "a group that was cut has numbers")
