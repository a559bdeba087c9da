"""Streams of commands for the stored vectors: every model, the edges of every range, every refusal at every place where it
can come, long runs, the longest inputs, saves reopened. Nothing here is random, so that the vectors can be made again.

A stream is a list of commands (byte, operands ..) or of bytes, joined by `join`.
"""

import itertools
from dataclasses import replace

import forecaster as f
from forecaster import State

V, C = f.VALUE_LIMIT, f.COUNT_LIMIT
WORD32 = 2**32 - 1
LOW64, HIGH64 = -(2**63), 2**63 - 1
WORD64 = 2**64 - 1

UNKNOWN = [0x00, 0x01, 0x0F, 0x16, 0x17, 0x19, 0x1F, 0x22, 0x2F, 0x33, 0x3F, 0x41, 0x4F, 0x52, 0x80, 0xFF]
MODELS = [0, 1, 2, 4, 5, 6]
TO_EVEN = [model | f.EVEN for model in MODELS]
RELATIVES = [model | f.RELATIVE for model in MODELS]

# The bits of a relative σ² (W-205): those that pass, 0.04 first, and those that 18 refuses: above 1.0, infinite, no number, negative.
ONE = f.bits(1.0)
SIGMA2S = [f.bits(0.04), 0, 1, 2**52 - 1, 2**52, f.bits(0.25), f.bits(0.5), ONE - 1, ONE]
BAD_SIGMA2S = [ONE + 1, f.bits(2.0), 0x7FEF_FFFF_FFFF_FFFF, 0x7FF0 << 48, (0x7FF0 << 48) + 1, 0x7FF8 << 48, f.bits(-0.0), f.bits(-0.04), f.bits(-1.0), 0xFFF0 << 48, WORD64]


def join(*parts):
    return b"".join(p if isinstance(p, bytes) else f.encode(*p) for p in parts)


def cells(*values):
    return tuple(values) + (0,) * (f.CELLS - len(values))


def opened(x):
    """The state by the command that opens its gains (W-201)."""
    return replace(x, opener=0x10 if f.usual(x.A, x.B, x.G) else 0x18)


def scored(x, n, total):
    """The state with n real readings and this sum (W-204)."""
    return replace(x, readings=n, high=total >> 64, low=total % 2**64)


def old(x):
    """The state's group as it was before W-204, without 15."""
    return join(*[c for c in f.group(x) if c[0] != 0x15])


def nominal(model, m=2):
    """A state of the model with every number that it allows away from 0."""
    trend, seasonal = model & 3, model & 4 != 0
    return State(
        model=model,
        m=m if seasonal else 0,
        A=20000,
        B=[0, 3000, 5000][trend],
        G=9000 if seasonal else 0,
        F=[0, 65536, 60000][trend],
        l=1_234_567,
        b=-54_321 if trend else 0,
        s=cells(*[(-1) ** k * (7_000 + 999 * k) for k in range(m)]) if seasonal else cells(),
        p=m - 1 if seasonal else 0,
        count=5000,
        readings=4900,
        high=1,
        low=987_654_321,
    )


def readings(n, start=21):
    """A day's curve in whole numbers, with a missing reading now and then."""
    return [(0x21,) if k % 11 == 7 else (0x20, start + (k * k) % 17 - k % 5) for k in range(n)]


QUESTIONS = [(0x30, 1), (0x30, 2), (0x30, 7), (0x31, 1, 1), (0x31, 3, 4), (0x31, 9, WORD32), (0x40,)]
RELATIVE_QUESTIONS = [(0x30, 1), (0x30, 2), (0x30, 7), (0x32, 1, ONE), (0x32, 3, f.bits(0.25)), (0x32, 9, f.bits(0.04)), (0x40,)]


def questions(model):
    """Those with the variance that the model's errors have (W-205)."""
    return RELATIVE_QUESTIONS if model & f.RELATIVE else QUESTIONS


def document():
    """The listing of document 01, in its own form and with the score, and the station cases T2 to T12 that a stream can show."""
    first = State(A=32768)
    for group in (old(first), f.group_bytes(first)):
        yield join(group, (0x20, 10), (0x30, 2), (0x31, 2, 4))
    straight = State(model=1, A=32768, B=16384, F=65536, b=65536)
    yield join(f.group_bytes(straight), (0x31, 3, 1), (0x20, 3), (0x30, 3), (0x40,))
    damped = State(model=2, F=32768, b=3)
    yield join(f.group_bytes(damped), (0x20, 0), (0x30, 2), (0x40,))
    seasonal = State(model=4, m=2, A=16384, G=32768, s=cells(65536, -65536))
    asked = [(0x30, 1), (0x30, 2), (0x30, 3), (0x40,)]
    yield join(f.group_bytes(seasonal), (0x31, 3, 1), (0x20, 5), *asked, (0x21,), *asked)
    for model in (3, 6):
        yield join((0x10, model, 2, 0, 0, 0, 1))
    for y in (1_000_000, 1_000_001, -1_000_000, -1_000_001):
        yield join(f.group_bytes(first), (0x20, y))
    for l in (V, V + 1, -V, -V - 1):
        yield f.group_bytes(State(l=l))
    for h in (512, 0, 513, 1):
        yield join(f.group_bytes(first), (0x30, h))
    yield join(f.group_bytes(State(model=1, F=65536, l=V, b=V)), (0x20, 1_000_000))


def models():
    """Every model, with season lengths at both ends of their range."""
    for model in MODELS + RELATIVES:
        for m in (2, 3, 7, 48) if model & 4 else (0,):
            x = nominal(model, m)
            farthest = (0x32, 512, SIGMA2S[0]) if x.relative else (0x31, 512, WORD32)
            yield join(f.group_bytes(x), *questions(model), *readings(3 * max(m, 4)), *questions(model), (0x30, 512), farthest)
            for p in (0, 1, m - 1) if m else (0,):
                yield join(f.group_bytes(replace(x, p=p)), *[(0x30, h) for h in range(1, 6)], (0x30, m + 1), (0x30, 2 * m + 3))


PARAMETERS = (0, 1, 32768, 65535, 65536, 65537, WORD32)
VALUES = (0, 1, -1, V, V + 1, -V, -V - 1, HIGH64, LOW64)
COUNTS = (0, 1, C - 1, C, C + 1, 2**64 - 1)


def edges():
    """Each number of a state at the edges of its range and just outside, for every model; the other numbers stay."""
    for model in range(17):
        for m in (0, 1, 2, 3, 48, 49, 255):
            yield join((0x10, model, m, 5, 0, 0, [0, 65536, 1, 0][model & 3]))
    for model in (24, 32, 40, 41, 64, 67, 68, 71, 72, 75, 76, 79, 80, 96, 104, 128, 132, 136, 192, 255):
        yield join((0x10, model, 0, 0, 0, 0, 0))
    for model in MODELS:
        x = nominal(model)
        for name in "ABGF":
            for value in PARAMETERS:
                for opener in (0x10, 0x18):
                    yield join(f.group_bytes(replace(x, opener=opener, **{name: value})), (0x31, 3, 1))
        for name in "lb":
            for value in VALUES:
                yield join(f.group_bytes(replace(x, **{name: value})), (0x30, 1))
        for value in VALUES if x.m else ():
            for k in range(x.m):
                s = list(x.s)
                s[k] = value
                yield join(f.group_bytes(replace(x, s=tuple(s))), (0x30, 1))
        for p in (0, 1, 2, 3, 48, 255):
            yield f.group_bytes(replace(x, p=p))
        for count in COUNTS:
            yield f.group_bytes(replace(x, count=count))
            yield f.group_bytes(scored(replace(x, count=count), 0, 0))
    for m in (2, 47, 48):
        yield f.group_bytes(replace(nominal(4, m), p=m - 1))
        yield f.group_bytes(replace(nominal(4, m), p=m))


def operands():
    """The operands of the commands outside a group, at and past their edges."""
    for model in MODELS:
        group = f.group_bytes(nominal(model))
        for y in (0, 1, -1, 999_999, 1_000_000, 1_000_001, -1_000_000, -1_000_001, f.SENTINEL, 2**31 - 1):
            yield join(group, (0x20, y), (0x40,))
        for h in (0, 1, 2, 511, 512, 513, 65535):
            yield join(group, (0x30, h))
            yield join(group, (0x31, h, 9))
        for sigma2 in (0, 1, 65536, 2**31, WORD32):
            yield join(group, (0x31, 512, sigma2))
    most = dict(A=65536, F=65536, B=65536)
    yield join(f.group_bytes(State(model=1, **most)), (0x31, 512, WORD32))
    yield join(f.group_bytes(opened(State(model=5, m=2, G=65536, **most))), (0x31, 512, WORD32))
    for sign in (1, -1):
        x = State(model=5, m=2, l=sign * V, b=sign * V, s=cells(sign * V, sign * V), **most)
        yield join(f.group_bytes(x), (0x30, 1), (0x30, 512))
        yield join(f.group_bytes(replace(x, model=6, F=65535)), (0x30, 1), (0x30, 512), (0x31, 512, WORD32))


def order():
    """Two or more refusals at once: the first in checking order is the one told."""
    for bad in (3, 1), (3, 0), (0, 1), (4, 0), (0, 2):
        yield join((0x10, *bad, 65537, 1, 1, 1))
    yield join((0x10, 0, 0, 65537, 0, 0, 0), (0x20, 0))
    group = f.group_bytes(State(model=4, m=2))
    for place, value in (0, V + 1), (1, V + 1), (1, 0), (2, 0), (255, LOW64):
        for begun in (group[:36], group[:61]):
            yield join(begun, (0x12, place, value))
            yield join(begun, (0x12, 0, 0), (0x12, place, value))
    full = f.group_bytes(State(model=1, F=65536, l=V, b=V, count=C))
    for y in (1_000_001, 1_000_000, 0):
        yield join(full, (0x20, y))
        yield join(full[:-8], (C - 1).to_bytes(8, "little"), (0x20, y))
    yield join(full, (0x21,))
    yield join(full[:-8], (C - 1).to_bytes(8, "little"), (0x21,))
    yield join(full, (0x30, 0))
    yield join(full, (0x31, 513, 0))
    # The count's last step, and every command at the count's limit.
    last = f.group_bytes(replace(nominal(5), count=C - 1))
    for final in (0x20, 3), (0x21,):
        for then in (0x20, 3), (0x21,), (0x20, f.SENTINEL), (0x30, 4), (0x31, 4, 4), (0x40,):
            yield join(last, final, then)
    # A new group that is refused: the offset is that of the command inside it.
    x = nominal(6)
    for bad in dict(model=3), dict(m=1), dict(F=65536), dict(B=20001), dict(opener=0x18), dict(l=V + 1), dict(b=-V - 1), dict(s=cells(0, V + 1)), dict(p=2), dict(count=C + 1), dict(count=4899), dict(high=2):
        yield join(f.group_bytes(x), (0x20, 20), f.group_bytes(replace(x, **bad)))


def gaps():
    """Missing readings one after another, of every model, with the forecasts before and after each; and a gap that is read again."""
    for model in MODELS + RELATIVES:
        for x in (nominal(model, 3), replace(nominal(model, 3), F=[0, 65536, 1][model & 3], b=[0, 70_001, 32_768][model & 3])):
            asked = [(0x30, h) for h in (1, 2, 3, 4, 5)]
            yield join(f.group_bytes(x), *asked, *([(0x21,), *asked, (0x40,)] * 4), (0x20, 20), *asked, (0x21,), (0x20, 21), (0x40,))


def tied(model):
    """A state of the model whose shares are ties: gains and damping of a half, odd numbers."""
    x, trend = nominal(model, 3), model & 3
    return replace(x, A=32768, B=[0, 32768, 16384][trend], G=32768 if x.m else 0, F=[0, 65536, 32768][trend], l=7, b=[0, 3, 5][trend], s=cells(1, -3, 5) if x.m else cells())


def even():
    """W-211: T1's numbers by both rules; groups with bit 6, and 14 at each place of a stream, once and twice, by every model,
    with shares that are ties (gains and damping of a half, odd numbers); 14 where no state is open, and inside a group."""
    for v in (32767, 32768, -32768, -32769, 98304, -98304):
        # With A = 1 the level moves by R(e), and e is v.
        for switch in (), ((0x14,),), ((0x14,), (0x14,)):
            yield join(f.group_bytes(State(A=1, l=-v)), *switch, (0x20, 0), (0x40,))
    for model in MODELS:
        plain = nominal(model, 3)
        half = tied(model)
        for x in (plain, half, replace(half, l=-8, A=16384, B=[0, 8192, 16384][model & 3], G=49152 if plain.m else 0)):
            asked = [(0x30, 1), (0x30, 4), (0x30, 9), (0x31, 5, 3), (0x31, 12, 1), (0x40,)]
            run = [c for k in range(8) for c in ((0x21,) if k % 5 == 3 else (0x20, (k * 7) % 5 - 2), (0x30, 2))]
            yield join(f.group_bytes(replace(x, model=model | f.EVEN)), *asked, *run, *asked)
            for at in range(len(run) + 1):
                yield join(f.group_bytes(x), *run[:at], (0x14,), *run[at:], *asked)
            yield join(f.group_bytes(x), *asked, (0x14,), *asked, (0x14,), *asked, *run, (0x14,), *asked, f.group_bytes(x), *run, *asked)
        saved = f.group_bytes(f.play(join(f.group_bytes(half), (0x14,), *readings(5)))[1])
        assert saved[1] == model | f.EVEN
        yield join(saved, *QUESTIONS, saved, (0x40,))
        # A group that is refused leaves the state and its rule.
        yield join(saved, f.group_bytes(replace(half, model=3 | f.EVEN)))
        yield join(saved, f.group_bytes(half)[:-1])
        for bad in dict(m=1), dict(F=2), dict(A=65537), dict(l=V + 1), dict(p=9), dict(count=C + 1):
            yield f.group_bytes(replace(half, model=model | f.EVEN, **bad))
    yield join((0x14,))
    yield join((0x14,), f.group_bytes(State()))
    group = f.group_bytes(nominal(4))
    for at in (0, 19, 36, 61, 71, 81):
        yield group[:at] + b"\x14" + group[at:]
    yield join(group, (0x14,), (0x14,), b"\x16")


def edge_scores(count):
    """Real readings and sums on both sides of refusal 17's edges for a state of this count, and far from them."""
    for n in sorted({n for n in (0, 1, 4095, 4096, count - 1, count, count + 1, WORD64) if n >= 0}):
        most = n * f.SQUARE_LIMIT
        for total in sorted({t for t in (0, 1, most - 1, most, most + 1, WORD64, WORD64 + 1, WORD64 << 64) if t >= 0}):
            yield n, total


def scores():
    """W-204: the edges of 17, and its place in the order of refusals."""
    for count in (0, 12, 5000, 2**47, C - 1, C):
        for n, total in edge_scores(count):
            yield join(f.group_bytes(scored(State(A=9000, count=count), n, total)), (0x20, 20), (0x40,))
    for model in MODELS:
        for n, high, low in (4900, 1, WORD64), (4900, 0, WORD64), (4900, 2, 0), (5000, 1, 5), (5001, 1, 5), (4096, 1, 0), (4096, 1, 1), (0, 0, 1), (1, WORD64, 0):
            yield join(f.group_bytes(replace(nominal(model), readings=n, high=high, low=low)), (0x20, 20), (0x40,))
    # With 17 another fault, which is told, a command cut short among them; what stands after 13 is not looked at.
    x = replace(nominal(6), readings=WORD64)
    for bad in dict(model=3), dict(m=1), dict(F=0), dict(B=20001), dict(l=V + 1), dict(s=cells(0, V + 1)), dict(p=2), dict(count=C + 1):
        yield f.group_bytes(replace(x, **bad))
    group = f.group_bytes(x)
    yield group[:62] + b"\x05" + group[63:]
    yield group[:-1]
    yield group + b"\xff"


def squares():
    """W-204: squares that carry into the high word, and just not; ties by both rules; the largest; what adds none."""
    for high in (0, 7, 2**36 - 2):
        for y in (3, -3, 1_000_000):
            for beyond in (-1, 0, 1):
                # The level stays 0, so that R(e) is y.
                x = scored(State(count=C - 3), C - 3, ((high + 1) << 64) + beyond - y * y)
                yield join(f.group_bytes(x), (0x20, y), (0x40,), (0x21,), (0x20, y), (0x40,))
    for v in (32767, 32768, 98304, 163840, -32768, -32769, -98304, -163840):
        # The level stays -v, so that e is v.
        yield join(f.group_bytes(State(l=-v)), (0x20, 0), (0x40,), (0x14,), (0x20, 0), (0x40,))
    for sign in (1, -1):
        end = sign * V
        for model, far in (0, {}), (1, dict(F=65536, b=end)), (4, dict(m=2, s=cells(end, end))), (5, dict(m=2, F=65536, b=end, s=cells(end, end))):
            x = State(model=model, A=36000, l=end, count=7, **far)
            for y in (1_000_000, -1_000_000):
                for before in (x, scored(x, 7, 7 * f.SQUARE_LIMIT)):
                    yield join(f.group_bytes(before), (0x20, y), (0x40,))
    for model in MODELS:
        yield join(f.group_bytes(nominal(model)), (0x21,), (0x40,), (0x14,), (0x30, 3), (0x31, 2, 4), (0x40,))


def old_groups():
    """W-204: groups without 15, which open with the score at 0 and save in the new form; 15 at each place of such a group
    and after it, once and twice; each unknown byte of a list, and each command byte, in the place of the right one."""
    for model in MODELS + RELATIVES:
        x = nominal(model, 3)
        outside = opened(replace(x, B=65536 if model & 3 else 0, G=65536 if model & 4 else 0))
        for y in (x, outside, replace(x, model=model | f.EVEN)):
            group = old(y)
            yield join(group, (0x40,), *readings(9), (0x40,), *questions(model), group, (0x21,), (0x40,))
            saved = f.group_bytes(f.play(join(group, *readings(9)))[1])
            yield join(saved, *readings(4), (0x40,), saved, (0x40,), group, *readings(2), (0x40,))
        for bad in dict(l=V + 1), dict(s=cells(V + 1)), dict(p=9), dict(count=0), dict(count=C), dict(count=C + 1):
            yield join(old(replace(x, **bad)), (0x40,))
    yield join(old(nominal(6, 48)), (0x20, 20), (0x40,))
    for model in (0, 4):
        parts = [c for c in f.group(nominal(model)) if c[0] != 0x15]
        run = [(0x20, 20), (0x40,)]
        for at in range(len(parts) + len(run) + 1):
            for score in [(0x15, 4900, 1, 7)], [(0x15, 0, 0, 0)] * 2:
                yield join(*(parts + run)[:at], *score, *(parts + run)[at:])
        for at in range(len(parts)):
            for byte in UNKNOWN + list(f.OPERANDS):
                yield join(*parts[:at], bytes([byte]) + f.encode(*parts[at])[1:], *parts[at + 1 :], *run)


def leaving():
    """Refusal 15: the level, the trend or a season value would leave its range, upward and downward; and just not."""
    for sign in (1, -1):
        y = sign * 1_000_000
        high = sign * V
        for d in (0, 1, 2):
            l = sign * (V - d)
            # With A = 0 the level moves by the trend alone, and with B = 0 the trend stays.
            yield join(f.group_bytes(State(model=1, F=65536, l=l, b=sign)), (0x20, 0), (0x40,))
            yield join(f.group_bytes(State(model=1, F=65536, l=l, b=sign)), (0x21,), (0x40,), (0x21,), (0x21,), (0x40,))
            yield join(f.group_bytes(State(model=2, F=32768, l=l, b=sign * 3)), (0x21,), (0x40,), (0x21,), (0x40,))
            yield join(f.group_bytes(State(model=0, l=l)), (0x21,), (0x40,))
            # With F = 1 and B = 65536 the trend becomes e, which nears 2^37 in one step from level 0.
            yield join(f.group_bytes(opened(State(model=1, B=65536, F=65536, b=l))), (0x20, sign), (0x40,))
            # A season value that moves by e alone: l is far from the reading.
            yield join(f.group_bytes(State(model=4, m=2, G=65536, s=cells(l, 0), l=-l)), (0x20, sign), (0x40,))
            yield join(f.group_bytes(State(model=4, m=2, G=65536, s=cells(0, l), p=1, l=-l)), (0x20, sign * d), (0x40,))
        yield join(f.group_bytes(State(model=0, A=65536, l=high)), (0x20, y), (0x40,))
        yield join(f.group_bytes(State(model=0, A=65536, l=high)), (0x20, -y), (0x40,))
        yield join(f.group_bytes(opened(State(model=6, m=2, F=65535, B=65536, A=1, b=high, l=-high))), (0x20, y), (0x40,))
        yield join(f.group_bytes(opened(State(model=6, m=2, F=65535, B=65536, A=1, b=high, l=high))), (0x20, y), (0x40,))


def edge_gains(model):
    """Gains on both sides of each edge of the usual region, and far from it."""
    trend, seasonal = model & 3, model & 4 != 0
    for A in (0, 1, 20000, 65535, 65536):
        for B in sorted({b for b in (0, A - 1, A, A + 1, 65536) if 0 <= b <= 65536}) if trend else (0,):
            left = 65536 - A
            for G in sorted({g for g in (0, left - 1, left, left + 1, B, 65536) if 0 <= g <= 65536}) if seasonal else (0,):
                yield A, B, G


def region():
    """W-201: gains inside and outside the usual region by 10 and by 18; the other refusals beside 16; saves by 18 opened again."""
    for model in MODELS:
        for A, B, G in edge_gains(model):
            for opener in (0x10, 0x18):
                yield join(f.group_bytes(replace(nominal(model), A=A, B=B, G=G, opener=opener)), (0x20, 20), (0x40,))
    x = opened(replace(nominal(5), A=100, B=101))
    y = opened(replace(nominal(6, 3), A=50000, G=15537))
    assert (x.opener, y.opener) == (0x18, 0x18)
    for z in (x, y):
        # With 16 or 7 of 18 another fault: the first in the order 5, 6, 7, 16, 8, 9, 10 is told.
        for opener in (0x10, 0x18):
            for bad in dict(model=3), dict(m=1), dict(F=0), dict(A=65537), dict(l=V + 1), dict(s=cells(V + 1)), dict(p=9), dict(count=C + 1):
                yield f.group_bytes(replace(z, opener=opener, **bad))
                yield f.group_bytes(replace(nominal(5), opener=opener, **bad))
        # 18 where 10 may stand: first, after a state, after a save; refused there the state before stays.
        group, plain, run = f.group_bytes(z), f.group_bytes(nominal(4)), readings(9)
        yield join(group, *run, (0x40,), plain, *run, (0x40,), group, *QUESTIONS)
        yield join(plain, *run, group, *run, (0x40,))
        saved = f.group_bytes(f.play(join(group, *run))[1])
        assert saved[0] == 0x18
        yield join(saved, *QUESTIONS, saved, (0x40,))
        yield join(b"\x10", saved[1:], *QUESTIONS)
        yield join(plain, b"\x10", saved[1:], *QUESTIONS)
        yield join(plain, b"\x18", plain[1:], *QUESTIONS)
        # A group that was begun: 10 and 18 are out of place in it.
        for at in (19, 36, 61, 71):
            for byte in (b"\x10", b"\x18"):
                yield group[:at] + byte + group[at + 1 :]
    # Without trend and season 18 opens nothing.
    for A in (0, 1, 65535, 65536):
        yield f.group_bytes(State(A=A, opener=0x18))


def near_zero():
    """W-205: states whose forecast for 10 is 0, so that θ of 10 is σ² × S alone, or near 0, or below it, or always 0."""
    for l, b in (0, 0), (655_360, -65_536), (655_360, -65_537), (-655_360, 0), (-V, -V), (1, 0), (-1, 0):
        yield State(model=9, A=30_001, B=7_001, F=65536, l=l, b=b)


def overflowing():
    """W-205: states, each with a σ² and the first horizon of refusal 19: what leaves the doubles is S, and θ would too; S alone, half
    of which would not; the answer alone, of a θ that is finite."""
    straight = State(model=9, A=65536, B=65536, F=65536, l=V, b=V)
    yield straight, ONE, 376
    yield replace(straight, l=640_000_000_000, b=640_000_000_000), f.bits(0.5), 492
    yield opened(State(model=13, m=2, A=65536, B=65536, G=65536, F=65536, l=V, b=V, s=cells(V, V))), ONE, 352


def relative():
    """W-205: 32 by every model with relative errors and both rules; its horizon and σ² at their edges, 11 before 18; 31 and 32 of
    the other models, 3 before 11 and 18; 14 among the readings, saved and opened again; groups of both kinds by turns; forecasts
    of 0 and below, σ² and θ that are not normal; 19 at its edges."""
    for model in RELATIVES:
        for rule in (0, f.EVEN):
            yield join(f.group_bytes(nominal(model | rule, 3)), *[(0x32, h, SIGMA2S[0]) for h in (1, 2, 3, 48, 512)])
        group = f.group_bytes(nominal(model))
        yield join(group, *[(0x32, h, sigma2) for h in (1, 3, 7) for sigma2 in SIGMA2S])
        for sigma2 in BAD_SIGMA2S:
            yield join(group, (0x32, 3, sigma2))
        for h in (0, 513, 65535):
            for sigma2 in (SIGMA2S[0], WORD64):
                yield join(group, (0x32, h, sigma2))
        for h in (0, 3):
            yield join(group, (0x31, h, 4))
        half, run = f.group_bytes(tied(model)), readings(9)
        for at in (0, 4, 9):
            yield join(half, *run[:at], (0x14,), *run[at:], *RELATIVE_QUESTIONS)
        saved = f.group_bytes(f.play(join(half, (0x14,), *run))[1])
        assert saved[1] == model | f.EVEN
        yield join(saved, *RELATIVE_QUESTIONS, saved, (0x40,))
        yield join(saved, half[:1] + b"\x0b" + half[2:])
    for model in MODELS + TO_EVEN:
        for command in (0x32, 3, SIGMA2S[0]), (0x32, 0, SIGMA2S[0]), (0x32, 3, WORD64):
            yield join(f.group_bytes(nominal(model)), command)
    plain, other = f.group_bytes(nominal(5)), f.group_bytes(nominal(13))
    for first, then in (plain, other), (other, plain):
        turns = [c for group in (first, then, first) for c in (group, (0x20, 20), *questions(group[1]))]
        yield join(*turns, *questions(then[1]))
        yield join(first, *questions(first[1]), then[:-1])
    for x in near_zero():
        yield join(f.group_bytes(x), *[(0x32, h, sigma2) for h in (1, 2, 10, 11) for sigma2 in SIGMA2S])
    for x, sigma2, h in overflowing():
        for sign in (1, -1):
            y = replace(x, l=sign * x.l, b=sign * x.b, s=tuple(sign * value for value in x.s))
            stream = join(f.group_bytes(y), (0x32, h - 1, sigma2), (0x32, h, sigma2))
            assert f.play(stream)[0][-1].startswith("X 19 ")
            yield stream
        yield join(f.group_bytes(x), (0x32, 512, sigma2))
        yield join(f.group_bytes(x), (0x32, 512, sigma2 - 1))
        yield join(f.group_bytes(x), (0x32, 512, SIGMA2S[0]), (0x32, 512, 0))


def holiday(model):
    """W-209: a state of the model, and commands that move every number of it that can move, its rounding rule too."""
    # The second reading's square carries into the high word.
    x = replace(tied(model), high=0, low=WORD64 - 9_999)
    return x, [(0x20, 26), (0x14,), (0x20, 30_000), (0x21,), (0x20, -9)]


def four():
    """W-209: four states, of both errors, rules and openers, each kept under its name after a reading."""
    states = nominal(0), tied(9), nominal(6 | f.EVEN, 3), opened(replace(nominal(5), A=100, B=101))
    return [part for k, x in enumerate(states) for part in (f.group_bytes(x), (0x20, 20 + k), (0x50, k))]


def kept_states():
    """W-209: 50 and 51 by every model, what is kept being all of the state; the four names in all orders, replaced, brought back
    twice, copied; groups of three lengths under one name; names that hold nothing, also right after a stream that held all four."""
    for k, model in enumerate(MODELS + RELATIVES):
        x, between = holiday(model)
        first, later = [f.group_bytes(x), *readings(4)], [(0x40,), *questions(model), *readings(5), (0x40,)]
        here, there = (vars(f.play(join(*first, *c))[1]) for c in ([], between))
        moved = {name for name in here if here[name] != there[name]}
        assert moved == {"model", "l", "count", "readings", "high", "low"} | ({"b"} if x.trend else set()) | ({"s", "p"} if x.m else set())
        keep, back = (0x50, k % f.NAMES), (0x51, k % f.NAMES)
        yield join(*first, keep, *between, (0x40,), back, *later, back)
        # Another group in between: with the other errors and season, or the other rounding rule.
        yield join(*first, keep, f.group_bytes(nominal(model ^ f.RELATIVE ^ 4, 5)), *readings(2), back, *later, back)
        yield join(f.group_bytes(replace(x, model=model | f.EVEN)), *readings(2), keep, *first, back, *later, back)
    # By 18 where 10's group stands, and the reverse; an old group, which is saved in the new form.
    usual, outside = (f.group_bytes(opened(replace(nominal(6), B=B))) for B in (5000, 20001))
    assert (usual[0], outside[0]) == (0x10, 0x18)
    for one, other in (usual, outside), (outside, usual):
        yield join(one, (0x20, 20), (0x50, 1), other, (0x20, 21), (0x40,), (0x51, 1), (0x40,), (0x20, 22), (0x40,))
        yield join(one, (0x50, 1), other, (0x50, 2), (0x51, 1), (0x50, 3), (0x51, 2), (0x40,), (0x51, 3), (0x40,))
    for model in (0, 14):
        group = old(nominal(model, 3))
        yield join(group, (0x50, 0), *readings(3), (0x51, 0), (0x40,), *readings(3), (0x40,))
        yield join(group, *readings(3), (0x50, 0), group, (0x40,), (0x51, 0), (0x40,))
    for order in itertools.permutations(range(f.NAMES)):
        yield join(*four(), *[c for k in order for c in ((0x51, k), (0x20, 19), (0x40,))], *[c for k in order for c in ((0x51, k), (0x40,))])
    group, all_saved = f.group_bytes(nominal(0)), [c for k in range(f.NAMES) for c in ((0x51, k), (0x40,))]
    for k in range(f.NAMES):
        other = (k + 1) % f.NAMES
        yield join(group, (0x50, k), (0x20, 25), (0x50, k), (0x20, 9), (0x51, k), (0x40,))
        yield join(group, (0x50, k), (0x51, k), *readings(3), (0x51, k), (0x40,), *readings(2, 9), (0x51, k), (0x51, k), (0x40,))
        yield join(group, (0x50, k), (0x20, 30), (0x50, other), (0x51, k), (0x50, other), (0x20, 5), (0x51, other), (0x40,))
        yield join(*four(), (0x51, other), (0x20, 30), (0x50, k), *all_saved)
        yield join(*four(), (0x51, k), (0x50, k), (0x50, other), (0x20, 30), *all_saved)
        # No name holds anything at first, whatever the stream before this one kept.
        yield join(group, (0x51, k))
        yield join(group, *[(0x50, j) for j in range(f.NAMES) if j != k], (0x20, 20), (0x51, k))
    # A new group empties no name; one that is refused ends the stream.
    yield join(*four(), group, (0x40,), group, *all_saved)
    yield join(*four(), f.group_bytes(replace(nominal(0), p=1)), *all_saved)
    # Groups of 71, 91 and 551 bytes under one name, and the longest under all names.
    for states in itertools.permutations((nominal(2), nominal(5), nominal(6, 48))):
        yield join(*[c for x in states for c in (f.group_bytes(x), (0x50, 2))], (0x21,), (0x51, 2), (0x40,))
    for order in (0, 1, 2, 3), (3, 2, 1, 0):
        yield join(f.group_bytes(nominal(6, 48)), *[c for k in order for c in ((0x20, 20 + k), (0x50, k))], *all_saved)
    # The count comes back too: its limit is met again, or not any more.
    full, last, plain = (f.group_bytes(replace(nominal(1), count=count)) for count in (C, C - 1, 5000))
    yield join(last, (0x50, 0), (0x20, 3), (0x51, 0), (0x21,), (0x51, 0), (0x20, 3), (0x20, 3))
    yield join(full, (0x50, 0), plain, (0x20, 3), (0x51, 0), (0x30, 1), (0x20, 3))
    yield join(plain, (0x50, 0), full, (0x51, 0), (0x20, 3), (0x40,))


def bad_names():
    """W-209: a byte above 3 where no name holds a state and where all do; 3 before 4 and before 21: where no state is open, and
    at each place inside a group of both forms, also where the name holds a state."""
    group = f.group_bytes(nominal(0))
    held = join(group, *[(0x50, k) for k in range(f.NAMES)], (0x20, 20))
    forms = [[c for c in f.group(nominal(4)) if c[0] not in left_out] for left_out in ((), (0x15,))]
    for command in (0x50, 0x51):
        for byte in (4, 7, 128, 131, 252, 255):
            yield join(group, (command, byte))
            yield join(held, (command, byte), (0x40,))
        for byte in (0, 3, 4, 255):
            yield join((command, byte), group)
        yield join(held, bytes([command]))
        for parts in forms:
            for at in range(1, len(parts)):
                for before in (b"", held):
                    yield join(before, *parts[:at], (command, 0), *parts[at:])
            yield join(held, *parts[:-1], (command, 4))
            yield join(held, *parts[:-1], bytes([command]))


def places():
    """At every command of a stream: each unknown byte of a list, and each command byte in the place of the right one.

    Refusals 2 and 3; a command that is in place after all goes on into 4 or a later refusal, or is accepted.
    """
    for model in (0, 4):
        x = nominal(model)
        parts = [f.encode(*c) for c in f.group(x)]
        parts += [f.encode(*c) for c in ((0x20, 20), (0x21,), (0x30, 2), (0x31, 2, 4), (0x40,))]
        parts += [f.encode(*c) for c in f.group(scored(replace(x, count=0), 0, 0))]
        at = 0
        stream = b"".join(parts)
        for part in parts:
            for byte in UNKNOWN + list(f.OPERANDS):
                yield stream[:at] + bytes([byte]) + stream[at + 1 :]
            at += len(part)
        for byte in UNKNOWN + list(f.OPERANDS):
            yield stream + bytes([byte])
    for byte in range(256):
        yield bytes([byte])
        yield f.group_bytes(State()) + bytes([byte])
    for byte in UNKNOWN + list(f.OPERANDS):
        yield f.group_bytes(State(model=f.RELATIVE)) + bytes([byte])


def saves():
    """A save reopened: the group that was saved is opened in the same stream and in a new one."""
    for model in MODELS + RELATIVES:
        x = nominal(model, 5)
        stream = join(f.group_bytes(x), *readings(13), (0x40,))
        lines, _ = f.play(stream)
        saved = bytes.fromhex(lines[-2][2:])
        later = join(*readings(6, 25), *questions(model))
        yield stream + later
        yield stream + saved + later
        yield saved + later
        yield join(saved, (0x40,), saved, (0x40,))


def damaged():
    """One byte of a short stream changed, at every place: its lowest bit, its highest, and set to 0 and 255. Of a relative
    model's only the bytes of command 32 are (W-205), and of one with 50 and 51 those after its group (W-209)."""
    group, plain = f.group_bytes(nominal(14)), f.group_bytes(nominal(0))
    for stream, start in (
        (join(f.group_bytes(nominal(6)), (0x20, 19), (0x21,), (0x30, 3), (0x31, 2, 4), (0x40,)), 0),
        (join(group, (0x32, 2, SIGMA2S[0])), len(group)),
        (join(plain, (0x50, 1), (0x20, 19), (0x51, 1), (0x40,)), len(plain)),
    ):
        for at in range(start, len(stream)):
            byte = stream[at]
            for new in sorted({byte ^ 1, byte ^ 0x80, 0, 255} - {byte}):
                yield stream[:at] + bytes([new]) + stream[at + 1 :]


def cut():
    """Streams to be played cut after each of their bytes."""
    for model in MODELS:
        x = nominal(model)
        yield join(f.group_bytes(x), (0x20, 20), (0x21,), (0x30, 2), (0x31, 2, 4), (0x40,), f.group_bytes(x), (0x20, -20))
    yield f.group_bytes(nominal(4, 48))
    yield join(old(nominal(0)), old(nominal(5)), (0x20, 20), (0x40,))
    yield join(f.group_bytes(nominal(2 | f.EVEN)), (0x20, 20), (0x14,), (0x40,))
    yield join(f.group_bytes(opened(replace(nominal(5), A=0))), (0x40,), f.group_bytes(nominal(0)))
    # 4 of the variance that the model has, 3 of the other (W-205).
    yield join(f.group_bytes(nominal(0)), (0x31, 2, 4), (0x32, 2, SIGMA2S[0]))
    yield join(f.group_bytes(nominal(14)), (0x20, 20), (0x32, 2, SIGMA2S[0]), (0x14,), (0x31, 2, 4))
    # 4 of a command that names a state, also where the name holds none (W-209).
    yield join(f.group_bytes(nominal(4)), (0x50, 1), (0x20, 20), (0x51, 1), (0x50, 3), (0x20, 21), (0x51, 3), (0x40,), (0x51, 0))


def long_runs():
    """Many readings, and the longest inputs: 65,536 bytes, cut in their last command, and 65,537."""
    for model in MODELS + [14]:
        x = nominal(model, 24)
        asked = [(0x30, 1), (0x30, 48), (0x30, 512), (0x32, 48, SIGMA2S[0]) if x.relative else (0x31, 48, 9), (0x40,)]
        run = readings(300)
        yield join(f.group_bytes(x), *run[:100], *asked, *run[100:200], *asked, *run[200:], *asked)
    start = f.group_bytes(replace(nominal(0), A=1311))
    readings_only = join(start, *[(0x20, 20 + (k * 7) % 5) for k in range((f.INPUT_LIMIT - len(start)) // 5)])
    assert len(readings_only) == f.INPUT_LIMIT
    yield readings_only
    large = f.group_bytes(nominal(6, 48))
    groups = large * (f.INPUT_LIMIT // len(large))
    rest = f.INPUT_LIMIT - len(groups)
    groups += join(*[(0x20, 20)] * (rest // 5), *[(0x21,)] * (rest % 5))
    assert len(groups) == f.INPUT_LIMIT
    yield groups
    yield groups[:-1] + b"\x30"
    yield groups + b"\x21"
    yield bytes(f.INPUT_LIMIT + 1)


def longest():
    """Streams as long as the program's input may be, a byte less and a byte more, and twice as long; not stored. The last
    byte that may be read is a command of its own, the last of a reading, or the first of a command that is cut there."""
    group = f.group_bytes(nominal(6, 24))
    for last in b"\x21", f.encode(0x20, 19), b"\x40", b"\x30", b"\xff":
        rest = f.INPUT_LIMIT - len(group) - len(last)
        whole = group + join(*[(0x20, 20 + k % 3) for k in range(rest // 5)], *[(0x21,)] * (rest % 5)) + last
        assert len(whole) == f.INPUT_LIMIT
        yield whole[:-1]
        yield whole
        yield whole + b"\x21"
    yield whole + b"\xff"
    yield whole + whole
    # 50 and 51 all along, of the shortest group and the longest (W-209).
    for x in (nominal(0), nominal(6, 48)):
        group = f.group_bytes(x)
        rest = f.INPUT_LIMIT - len(group) - 2
        names = [c for k in range(rest // 5) for c in ((0x21,), (0x50, k % 3), (0x51, 3 if k % 7 == 0 else k // 2 % 3))]
        yield join(group, (0x50, 3), *names, *[(0x21,)] * (rest % 5))


PLAYED = [document, models, edges, operands, order, gaps, even, scores, squares, old_groups, leaving, region, relative, kept_states, bad_names, places, saves, damaged, long_runs]


def records():
    """What the program `vectors` reads: each stream with a kind: 0 to be played, 1 to be played cut after each byte."""
    yield 0, b""
    for source in PLAYED:
        for stream in source():
            yield 0, stream
    for stream in cut():
        yield 1, stream


def container():
    """The records' bytes: kind, length in 32 bits with the low byte first, the stream."""
    return b"".join(bytes([kind]) + len(s).to_bytes(4, "little") + s for kind, s in records())


def expected():
    """What the program `vectors` writes."""
    found = []
    for kind, s in records():
        for end in range(len(s) + 1) if kind == 1 else (len(s),):
            found.append(f.output(s[:end]))
    return b"".join(found)
