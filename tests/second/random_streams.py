"""Random streams: nearly valid ones, with numbers near the edges of their ranges, and damaged ones."""

from dataclasses import replace

import forecaster as f
from forecaster import State
from streams import BAD_SIGMA2S, C, COUNTS, MODELS, ONE, SIGMA2S, UNKNOWN, V, WORD64, edge_gains, opened, scored

EDGES = {
    0x10: [
        [0, 1, 2, 3, 4, 5, 6, 7, 8, 9, 11, 14, 15, 16, 40, 64, 67, 70, 72, 75, 78, 255],
        [0, 1, 2, 3, 47, 48, 49, 255],
        *[[0, 1, 2, 32767, 32768, 65535, 65536, 65537, 2**32 - 1]] * 4,
    ],
    0x11: [[0, 1, -1, V - 1, V, V + 1, -V, -V - 1, 2**63 - 1, -(2**63)]] * 2,
    0x12: [[0, 1, 2, 46, 47, 48, 255], [0, 1, -1, V - 1, V, V + 1, -V, -V - 1, 2**63 - 1, -(2**63)]],
    0x13: [[0, 1, 2, 47, 48, 255], list(COUNTS)],
    0x20: [[0, 1, -1, 999_999, 1_000_000, 1_000_001, -1_000_000, -1_000_001, f.SENTINEL, 2**31 - 1]],
    0x30: [[0, 1, 2, 47, 48, 49, 511, 512, 513, 65535]],
    0x31: [[0, 1, 2, 48, 511, 512, 513, 65535], [0, 1, 65536, 2**32 - 1]],
    0x32: [[0, 1, 2, 48, 511, 512, 513, 65535], SIGMA2S + BAD_SIGMA2S],
    0x14: [],
    0x15: [[0, 1, 2, 4096, C, C + 1, WORD64], [0, 1, 2**36, WORD64], [0, 1, f.SQUARE_LIMIT, f.SQUARE_LIMIT + 1, WORD64]],
    0x21: [],
    0x40: [],
    0x50: [[0, 1, 2, 3, 4, 255]],
    0x51: [[0, 1, 2, 3, 4, 255]],
}


EDGES[0x18] = EDGES[0x10]
GAINS = {model: list(edge_gains(model)) for model in MODELS}


def magnitude(rng, limit):
    """A number from 0 to the limit whose size is random too."""
    return rng.choice([0, 1, limit, limit - 1, rng.randint(0, limit), rng.randint(0, limit) >> rng.randint(0, 39)])


def signed(rng, limit):
    return rng.choice([1, -1]) * magnitude(rng, limit)


def parameter(rng):
    return rng.choice([0, 1, 32768, 65535, 65536, rng.randint(0, 65536), rng.randint(0, 65536) >> rng.randint(0, 15)])


def score(rng, x):
    """The state with a score that passes, often near the edges of 17 or where the next square carries into the high word."""
    n = rng.choice([0, x.count, max(x.count - 1, 0), rng.randint(0, x.count)])
    most = n * f.SQUARE_LIMIT
    carry = rng.randint(1, max(most >> 64, 1)) << 64
    total = rng.choice([0, most, rng.randint(0, most), most - magnitude(rng, f.SQUARE_LIMIT), carry - magnitude(rng, 2**40)])
    return scored(x, n, min(max(total, 0), most))


def state(rng, hourly=False):
    """A state that passes the checks; `hourly`, one with 24 places."""
    model = rng.choice([4, 5, 6] if hourly else MODELS)
    trend, seasonal = model & 3, model & 4 != 0
    m = f.HOURS if hourly else rng.choice([2, 3, rng.randint(2, 12), 24, 48]) if seasonal else 0
    limit = rng.choice([10, 2**20, 2**27, V])
    s = [signed(rng, limit) for _ in range(m)] + [0] * (f.CELLS - m)
    gains = (parameter(rng), parameter(rng) if trend else 0, parameter(rng) if seasonal else 0)
    A, B, G = gains if rng.random() < 0.8 else rng.choice(GAINS[model])
    found = State(
        model=model | rng.choice([0, 0, f.EVEN]) | rng.choice([0, 0, f.RELATIVE]),
        m=m,
        A=A,
        B=B,
        G=G,
        F=[0, 65536, rng.choice([1, 32768, 65535, rng.randint(1, 65535)])][trend],
        l=signed(rng, limit),
        b=signed(rng, limit) if trend else 0,
        s=tuple(s),
        p=rng.choice([0, m - 1, rng.randint(0, m - 1)]) if m else 0,
        count=rng.choice([0, 1, 2, C - rng.randint(0, 20), rng.randint(0, C), *[rng.randint(0, 1000)] * 7]),
    )
    return score(rng, opened(found))


def group(rng, x):
    """The commands of the state's group; one in four has the old form, without the score (W-204)."""
    return [c for c in f.group(x) if c[0] != 0x15 or rng.random() < 0.75]


def sigma2(rng):
    """The bits of a relative σ² that passes, and now and then any (W-205)."""
    return rng.choice([*SIGMA2S, rng.randint(0, ONE), *[f.bits(rng.random())] * 9, rng.getrandbits(64)])


def name(rng, held):
    """A name for 50, or for 51 one of those that hold a state where any does; now and then any, or a byte that is none (W-209)."""
    return rng.choice([0, 1, 2, 3, 4, 255] if rng.random() < 0.02 else held)


def command(rng, reading_limit, relative, kept):
    """A command outside a group, with operands that pass; the variance is now and then that of the other errors (W-205). `kept`
    are the names that hold a state."""
    kind = rng.choice([0x20] * 6 + [0x14, 0x21, 0x30, 0x30, 0x31, 0x40, 0x50, 0x51])
    if kind == 0x31 and relative != (rng.random() < 0.02):
        kind = 0x32
    if kind == 0x51 and not kept and rng.random() < 0.98:
        kind = 0x50
    horizon = lambda: rng.choice([1, 2, 3, rng.randint(1, 60), rng.randint(1, 512), 512])
    if kind == 0x20:
        return (kind, signed(rng, reading_limit))
    if kind == 0x30:
        return (kind, horizon())
    if kind == 0x31:
        return (kind, horizon(), magnitude(rng, 2**32 - 1))
    if kind == 0x32:
        return (kind, horizon(), sigma2(rng))
    if kind in (0x50, 0x51):
        return (kind, name(rng, list(kept) if kind == 0x51 and kept else range(f.NAMES)))
    return (kind,)


def commands(rng):
    """One or more groups, each with commands after it; some of them are the group that a save would write there."""
    found, kept = [], {}  # kept: of each name that holds a state, whether its errors are relative
    for turn in range(rng.choice([1, 1, 1, 2, 3])):
        x = None
        if turn > 0 and rng.random() < 0.5:
            x = f.play(b"".join(f.encode(*c) for c in found))[1]
        x = x or state(rng)
        found += group(rng, x)
        limit = rng.choice([3, 30, 3000, f.READING_LIMIT])
        relative = x.relative
        for _ in range(rng.choice([0, 1, 3, 8, 20, 60])):
            found.append(command(rng, limit, relative, kept))
            byte, *operands = found[-1]
            if byte == 0x50:
                kept[operands[0]] = relative
            if byte == 0x51:
                relative = kept.get(operands[0], relative)
    return found


def spoil_command(rng, found):
    """Changes one command of the list: an operand to an edge, 10 to 18 or back, the score to an edge of 17, or the command left
    out, doubled, moved or put in."""
    at = rng.randrange(len(found))
    kind = rng.randrange(11)
    openers = [k for k, c in enumerate(found) if c[0] in (0x10, 0x18)]
    scores = [k for k, c in enumerate(found) if c[0] == 0x15]
    if kind == 10 and scores:
        # 15 itself doubled, moved or left out.
        at = rng.choice(scores)
        kind = rng.choice([4, 5, 6])
    c = found[at]
    if kind == 8 and openers:
        at = rng.choice(openers)
        found[at] = (0x28 - found[at][0], *found[at][1:])
    elif kind == 9 and scores:
        at = rng.choice(scores)
        n = min(found[at][1] + rng.choice([0, 0, 1]), WORD64)
        found[at] = (0x15, n, *divmod(n * f.SQUARE_LIMIT + rng.choice([0, 1, 2**64]), 2**64))
    elif kind < 4:
        at = rng.choice([k for k, c in enumerate(found) if len(c) > 1])
        c = list(found[at])
        which = rng.randrange(1, len(c))
        c[which] = rng.choice(EDGES[c[0]][which - 1])
        found[at] = tuple(c)
    elif kind == 4:
        del found[at]
    elif kind == 5:
        found.insert(at, c)
    elif kind == 6:
        found.insert(rng.randrange(len(found) + 1), found.pop(at))
    else:
        new = rng.choice(list(f.OPERANDS))
        found.insert(at, (new, *[rng.choice(edge) for edge in EDGES[new]]))


def spoil_bytes(rng, data):
    """Changes the bytes: one set, put in, left out, or the rest cut off."""
    at = rng.randrange(len(data) + 1)
    kind = rng.randrange(5)
    byte = rng.choice(UNKNOWN + list(f.OPERANDS) + [rng.randrange(256)])
    if kind == 0:
        return data[:at]
    if kind == 1:
        return data[:at] + bytes([byte]) + data[at:]
    if kind == 2:
        return data[:at] + data[at + 1 :]
    return data[:at] + bytes([byte]) + data[at + 1 :]


def stream(rng):
    """A random stream: three in ten are valid but for what the readings do, one in fifty is noise."""
    if rng.random() < 0.02:
        return bytes(rng.choice(list(f.OPERANDS) + [rng.randrange(256)]) for _ in range(rng.randrange(40)))
    found = commands(rng)
    way = rng.random()
    if way < 0.45:
        for _ in range(rng.choice([1, 1, 2])):
            if found:
                spoil_command(rng, found)
    data = b"".join(f.encode(*c) for c in found)
    if 0.45 <= way < 0.7:
        for _ in range(rng.choice([1, 1, 2])):
            data = spoil_bytes(rng, data)
    if rng.random() < 0.002:
        data += bytes([rng.choice([0x21, 0x40])]) * (rng.choice([65536, 65537]) - len(data))
    return data
