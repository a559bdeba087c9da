"""Document 01's station cases T1 to T12, T1 by the other rounding rule (W-211), the score of T5 and T6 and in their groups
(W-204), T3 and T5 with relative errors (W-205), clock changes (W-208), and T5 kept and brought back (W-209), of the second
implementation."""

from dataclasses import replace

import forecaster as f
from forecaster import State
from streams import cells, join, old


def code(call, *arguments):
    """The refusal's number, or 0."""
    try:
        call(*arguments)
    except f.Rejected as r:
        return r.code
    return 0


def relative(x, h, sigma2):
    """The variance of relative errors and the cells lent, of which the last stays."""
    lent = [77.0] * (h + 1)
    return f.relative_variance(x, h, f.bits(sigma2), lent), lent


def hold():
    first = State(A=32768)
    straight = State(model=1, A=32768, B=16384, F=65536, b=65536)
    seasonal = State(model=4, m=2, A=16384, G=32768, s=cells(65536, -65536))
    after3 = f.step(straight, 3)[0]
    after4 = f.step(State(model=2, F=32768, b=3), 0)[0]
    after5 = f.step(seasonal, 5)[0]
    after6 = f.missing(after5)
    yield "T1", [f.R(v) for v in (32767, 32768, -32768, -32769)] == [0, 1, 0, -1]
    yield "T1, ties to even", [f.ties_to_even(v) for v in (32767, 32768, -32768, -32769, 98304, -98304)] == [0, 0, 0, -1, 2, -2]
    yield "T2", f.step(first, 10)[0].l == 327680
    yield "T3", (after3.l, after3.b, f.forecast(after3, 3)) == (131072, 98304, 425984)
    yield "T4", (after4.l, after4.b, f.forecast(after4, 2)) == (2, 2, 4)
    yield "T5", (after5.l, after5.s[0], after5.p) == (65536, 196608, 1)
    yield "T5 forecasts", [f.forecast(after5, h) for h in (1, 2, 3)] == [0, 262144, 0]
    yield "T5, the score", (after5.readings, after5.sum) == (1, 16)
    yield "T6", after6 == State(4, 2, 16384, 0, 32768, 0, 65536, 0, cells(196608, -65536), 0, 2, readings=1, low=16)
    yield "T6 saved and read", f.read_group(f.group_bytes(after6)) == (after6, 91)
    yield "T6, an old group", f.group_bytes(f.read_group(old(after6))[0]) == old(after6)[:36] + b"\x15" + bytes(24) + old(after6)[36:]
    yield "17", [code(f.check, State(count=2, readings=n, low=low)) for n, low in ((2, 2**53), (2, 2**53 + 1), (3, 0))] == [0, 17, 17]
    yield "T7", f.weight(straight, 3) == 11005853696
    yield "T8", f.weight(seasonal, 3) == 6979321856
    relative3, relative5 = replace(after3, model=9), replace(after5, model=12)
    yield "T3 and T5, relative errors", [f.step(replace(straight, model=9), 3)[0], f.step(replace(seasonal, model=12), 5)[0]] == [relative3, relative5]
    # By hand, no operation of which is rounded: μ is 3.5, 5, 6.5 and c 0.75, 1; then μ is 0, 4, 0 and c 0.25, 0.75.
    yield "T3, the variance of 3", relative(relative3, 3, 0.5) == (42.3128662109375, [12.25, 28.4453125, 56.375244140625, 77.0])
    yield "T5, the variance of 3", relative(relative5, 3, 0.5) == (0.75, [0.0, 16.0, 0.5, 77.0])
    yield "3", [code(f.weight, relative3, 3), code(relative, after3, 3, 0.5)] == [3, 3]
    yield "18", [code(relative, relative3, 3, sigma2) for sigma2 in (1.0, 1.0000000000000002, -0.0)] == [0, 18, 18]
    yield "T9", [code(f.check, State(model=3)), code(f.check, State(model=6, m=2, F=1))] == [5, 0]
    yield "T10", [code(f.step, first, y) for y in (1_000_000, 1_000_001)] == [0, 13]
    yield "T11 level", [code(f.check, State(l=l)) for l in (2**40, 2**40 + 1)] == [0, 9]
    yield "T11 horizon", [code(f.forecast, first, h) for h in (512, 0, 513)] == [0, 11, 11]
    # By hand: the level is 0 and the value at a place its number in units. Each reading is 5: e is 2 at place 3 and 3 at place 2.
    hourly = State(model=4, m=24, A=16384, G=32768, s=cells(*[65536 * k for k in range(24)]), p=2, count=7)
    skip, again = f.step_on(hourly, [7], [], 5)[0], f.step_on(hourly, [], [7], 5)[0]
    yield "W-208, skipped", (skip.l, skip.s[2:4], skip.p, skip.count) == (32768, (131072, 262144), 4, 8)
    yield "W-208, used again", (again.l, again.s[2:4], again.p, again.count) == (49152, (229376, 196608), 2, 8)
    yield "W-208, without effect", [f.step_on(replace(hourly, p=p), [7], [8], 5) == f.step(replace(hourly, p=p), 5) for p in (1, 3, 23)] == [True] * 3
    yield "W-208, places", [f.places(replace(hourly, p=1, count=6), *lists, 5) for lists in (([7], []), ([], [7]), ([8], [7]), ([8], []))] == [
        [1, 3, 4, 5, 6], [1, 2, 2, 3, 4], [1, 2, 3, 4, 5], [1, 2, 3, 4, 5]
    ]  # fmt: skip
    yield "W-208, windows", [f.window_maximum(hourly, [7], [], *window) >> 16 for window in ((2, 3), (2, 4), (22, 2), (9, 9), (1, 0))] == [2, 3, 23, 23, 23]
    yield "20, a list", [code(f.missing_on, hourly, *lists) for lists in (([7], [8]), ([7, 7], []), ([], [8, 7]), ([7], [7]))] == [0, 20, 20, 20]
    yield "20, another season", [code(f.missing_on, x, [], []) for x in (first, seasonal)] == [20, 20]
    yield "20, a window", [code(f.window_maximum, hourly, [7, 30], [], *window) for window in ((2, 3), (2, 4), (24, 0), (0, 24))] == [20, 0, 20, 20]
    # T5 is kept; then come a reading, a missing one, the other rule and another group; then T5 is brought back, and what follows is
    # answered as if all between had never come.
    start, asked = [f.group_bytes(seasonal), (0x20, 5)], [(0x30, 2), (0x20, 9), (0x40,)]
    between = [(0x20, -7), (0x21,), (0x14,), f.group_bytes(straight), (0x20, 3)]
    yield "W-209, back", f.play(join(*start, (0x50, 3), *between, (0x51, 3))) == (["O 4 2", "E 262144", "E -458752", "M", "O 1 0", "E 131072", "N 1"], after5)
    yield "W-209, as if nothing came", f.play(join(*start, (0x50, 3), *between, (0x51, 3), *asked))[0][6:] == f.play(join(*start, *asked))[0][2:]
    yield "21", [f.play(join(*start, (0x50, 3), c))[0][2:] for c in ((0x50, 4), (0x51, 4), (0x51, 2), (0x51, 3))] == [["X 21 98"]] * 3 + [["N 1"]]
    lent = bytearray(b"M" * 2205)
    f.store(after5, 3, lent)
    yield "W-209, by value", lent == b"M" * 1653 + f.group_bytes(after5) + b"M" * 461 and f.restore(3, lent) == after5
    yield "21, by value", [code(f.store, after5, 4, lent), code(f.restore, 4, lent), code(f.restore, 2, lent), code(f.restore, 3, lent[:2203])] == [21] * 4
    yield "12, by value", [code(f.store, after5, 3, lent[:room]) for room in (2203, 2204)] == [12, 0]
    yield "T12", code(f.step, State(model=1, F=65536, l=2**40, b=2**40), 1_000_000) == 15
