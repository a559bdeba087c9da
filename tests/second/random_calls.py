"""Random calls on a calendar of clock changes (W-208) for the program `call_vectors`: most with 24 places, lists whose counts are often
due, and numbers near the edges of their ranges."""

from dataclasses import replace
from typing import NamedTuple

import forecaster as f
import random_streams
from calls import BATCH_ON, FAULTS, FORECAST_ON, FORECASTS_ON, LIST_LIMIT, MISSING_ON, STEP_ON, WINDOW, Script, calendar
from streams import C, WORD32, WORD64

PLAYED = {
    STEP_ON: Script.step_on,
    MISSING_ON: Script.missing_on,
    BATCH_ON: Script.batch_on,
    FORECAST_ON: Script.forecast_on,
    FORECASTS_ON: Script.forecasts_on,
    WINDOW: Script.window,
}
READINGS_LIMIT, CELLS_LIMIT = 256, 520  # that the program has room for


def state(rng):
    """A state, most often one whose place 2 is due or soon will be; now and then one that a check refuses."""
    x = random_streams.state(rng, hourly=rng.random() < 0.95)
    if x.m == f.HOURS:
        x = replace(x, p=rng.choice([2, 2, 2, 1, rng.randrange(f.HOURS)]))
    if rng.random() < 0.03:
        x = replace(x, **rng.choice([*FAULTS, dict(opener=0x28 - x.opener)]))
    return x


def beside(rng, x):
    """Counts that have most often no effect: passed, soon, beyond 2^48, or anywhere."""
    count = rng.choice([x.count + rng.randint(-30, 600), rng.randint(0, 50), C + rng.randint(-2, 30), WORD64 - rng.randint(0, 3), rng.getrandbits(64)])
    return min(max(count, 0), WORD64)


def lists(rng, x):
    """The two lists, of at most 64 counts each; one pair in ten is spoilt."""
    changes = "".join(rng.choice(rng.choice(["s", "r", "sr-", "rrrs", "---sr"])) for _ in range(rng.choice([0, 1, 1, 2, 5, 20, 70])))
    found = [set(counts) for counts in (calendar(x, changes) if x.m == f.HOURS else ((x.count,), (x.count + 1,)))]
    for counts, others in (found, found[::-1]):
        counts |= {beside(rng, x) for _ in range(rng.choice([0, 0, 1, 3, 10, 60]))} - others
    found = [sorted(counts)[-LIST_LIMIT:] if rng.random() < 0.1 else sorted(counts)[:LIST_LIMIT] for counts in found]
    if rng.random() < 0.1:
        spoil(rng, found)
    return found


def spoil(rng, found):
    """A count doubled, moved, or put into the other list."""
    counts, others = rng.sample(found, 2)
    if not counts:
        counts.append(rng.choice(others) if others else 5)
    at = rng.randrange(len(counts))
    kind = rng.randrange(3)
    if kind == 0 and len(counts) < LIST_LIMIT:
        counts.insert(at, counts[at])
    elif kind == 1:
        counts.insert(rng.randrange(len(counts)), counts.pop(at))
    elif len(others) < LIST_LIMIT:
        others[:] = sorted({*others, counts[at]})


def room(rng, needed):
    """Cells for so many, and now and then too few or more."""
    return min(rng.choice([needed] * 12 + [max(needed - 1, 0), rng.randint(0, CELLS_LIMIT), needed + 1, needed + 5]), CELLS_LIMIT)


def reading(rng, limit):
    return rng.choice([f.SENTINEL, rng.choice([-1, 1]) * 1_000_001]) if rng.random() < 0.02 else random_streams.signed(rng, limit)


def operands(rng, operation):
    """The operands of a call after its lists."""
    limit = rng.choice([3, 30, 3000, f.READING_LIMIT])
    if operation == STEP_ON:
        return (reading(rng, limit),)
    if operation == MISSING_ON:
        return ()
    if operation == BATCH_ON:
        many = rng.choice([0, 1, 2, 3, rng.randint(0, 60), rng.randint(0, READINGS_LIMIT)])
        readings = [f.SENTINEL if rng.random() < 0.1 else reading(rng, limit) for _ in range(many)]
        return readings, room(rng, many)
    if operation == WINDOW:
        return window(rng)
    h = rng.choice([1, 2, 3, rng.randint(1, 60), rng.randint(1, 512), 512] * 5 + [0, 513, WORD32])
    return (h,) if operation == FORECAST_ON else (h, room(rng, h))


def window(rng):
    """A window, often of one place or of the whole day, now and then with a bound above 23."""
    start, end = rng.randrange(f.HOURS), rng.randrange(f.HOURS)
    above = rng.choice([24, 25, 255, rng.randint(24, 255)])
    return rng.choice([(start, end)] * 8 + [(start, start), (start, (start + 1) % f.HOURS), *[(2, 3)] * 4, (3, 4), (above, end), (start, above)])


class Call(NamedTuple):
    """A record, its line, and what they are of."""

    record: bytes
    line: str
    operation: int
    state: f.State
    lists: tuple
    operands: tuple


def call(rng):
    t, operation = Script(), rng.choice(list(PLAYED))
    x = state(rng)
    given = operands(rng, operation)
    t.use(x)
    t.on(*lists(rng, x))
    PLAYED[operation](t, *given)
    return Call(*t.records, *t.lines, operation, x, t.calendar, given)
