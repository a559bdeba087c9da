"""Calls that no stream reaches, for the program `call_vectors`: states handed in directly, batches, all horizons, the bedside
display's forecasts, weights, also by time of day, variances of relative errors, the calls on a calendar of clock changes, short
slices, groups read from a slice, states kept and brought back. Nothing here is random.

The program reads records and writes a line for each. A record is an operation's byte, the state that the call is made on
(none where a group is read or a state brought back), and the call's operands; low byte first, signed numbers in two's complement, lengths of 32 bits.

    1 read         a length and as many bytes, with a group at their start
    2 check
    3 step         with a reading of 32 bits
    4 missing
    5 batch        the length of the cells lent, a length and as many readings of 32 bits
    6 forecast     for a horizon of 32 bits
    7 forecasts    the length of the cells lent, for a horizon
    8 weight       of a horizon
    9 variance     of a horizon, with 32 bits for the residuals' variance
    10 save        the length of the byte cells lent
    11, 12         6 and 7 on the bedside display (W-206)
    13 switch      to ties to even (W-211)
    14 in place    the same on a lent slice: a length and as many bytes; an old group becomes a new one there (W-204)
    15 groups      of a weight (W-210): the length of the unsigned cells lent, for a horizon
    16 relative    variance (W-205): the length of the doubles lent, for a horizon, with the 64 bits of a double for the residuals' variance
    17 coefficients, C for 1 to a horizon: the length of the unsigned cells lent, for a horizon
    18 to 22       3 to 7 on a calendar of clock changes (W-208): before the call's operands two lists, each a length, at most 64,
                   and as many step counts of 64 bits: those at which place 2 is skipped, then those at which it is used again
    23 window      the largest forecast of the next 24 steps inside it (W-208): the two lists, then start and end, a byte each
    24 store       under a name (W-209), a byte, and the length of the byte cells lent
    25 restore     by a name, a byte: a length and as many bytes, in which the names have their states

A state is a length and as many season cells of 64 bits, the others being 0; 1 where command 18 opened it, or 0, model and m, a byte each; A, B, G, F of 32 bits;
l and b of 64 bits; p, a byte; count, the score's readings, high and low word (W-204), of 64 bits each.

A line is the operation, the refusal or 0, and what the call gives, each number before a blank; a byte is a number. A step, a
missing reading, a batch, a switch and a read give a state, with all its season cells after the score; 18 to 22 give what 3 to 7
do, and 23 what 6 does; 25 gives a state; a save gives the bytes that the state needs or its refusal; a read gives, after the state, the refusal
once more and the rest of the bytes, which after a refusal begins with the refused command. The cells lent stand last. They
start as 77, so that what a call leaves untouched is seen. A double is the unsigned number of its 64 bits.
"""

from dataclasses import replace

import forecaster as f
from forecaster import State
from streams import BAD_SIGMA2S, C, COUNTS, MODELS, ONE, PARAMETERS, RELATIVES, SIGMA2S, TO_EVEN, V, VALUES, WORD32, WORD64, cells, edge_gains, edge_scores, near_zero, nominal, old, opened, overflowing, scored

READ, CHECK, STEP, MISSING, BATCH, FORECAST, FORECASTS, WEIGHT, VARIANCE, SAVE, DISPLAY_FORECAST, DISPLAY_FORECASTS, SWITCH, SWITCH_IN_PLACE, WEIGHT_GROUPS, RELATIVE_VARIANCE, COEFFICIENTS, STEP_ON, MISSING_ON, BATCH_ON, FORECAST_ON, FORECASTS_ON, WINDOW, STORE, RESTORE = range(1, 26)
UNTOUCHED = 77
LIST_LIMIT = 64  # counts of a list that the program has room for


def numbers(size, *values):
    """The numbers in so many bytes each."""
    return b"".join((v % 256**size).to_bytes(size, "little") for v in values)


def outside(x):
    return 1 if x.opener == 0x18 else 0


def state_bytes(x):
    used = max((k + 1 for k, value in enumerate(x.s) if value), default=0)
    season = numbers(4, used) + numbers(8, *x.s[:used])
    return season + numbers(1, outside(x), x.model, x.m) + numbers(4, x.A, x.B, x.G, x.F) + numbers(8, x.l, x.b) + numbers(1, x.p) + numbers(8, x.count, x.readings, x.high, x.low)


def state_numbers(x):
    return [outside(x), x.model, x.m, x.A, x.B, x.G, x.F, x.l, x.b, x.p, x.count, x.readings, x.high, x.low, *x.s]


def attempted(call):
    """0 and the numbers that the call gives, or its refusal alone."""
    try:
        return [0, *call()]
    except f.Rejected as r:
        return [r.code]


class Script:
    """The records, and beside them what the program prints for them."""

    def __init__(self):
        self.records = []
        self.lines = []
        self.state = State()
        self.last = State()
        self.calendar = (), ()

    def record(self, operation, operands, found):
        """A record, and its line."""
        self.records.append(numbers(1, operation) + operands)
        self.lines.append("".join(f"{n} " for n in [operation, *found]))

    def play(self, operation, operands, found):
        """A call on the state."""
        self.record(operation, state_bytes(self.state) + operands, found)

    def use(self, x):
        """Makes x the state of the calls that follow."""
        self.state = x

    def keep(self):
        """The calls that follow are made on the state that the last step, missing, batch or read handed back."""
        self.state = self.last

    def on(self, skipped, repeated):
        """Makes these the lists of the calls on a calendar that follow."""
        self.calendar = tuple(skipped), tuple(repeated)

    def lists(self):
        assert all(len(counts) <= LIST_LIMIT for counts in self.calendar)
        return b"".join(numbers(4, len(counts)) + numbers(8, *counts) for counts in self.calendar)

    def check(self):
        self.play(CHECK, b"", attempted(lambda: f.check(self.state) or []))

    def play_change(self, operation, operands, call):
        """A call that hands back a state and numbers beside it; where it is refused, the state as it was."""
        self.last = self.state

        def beside():
            self.last, *found = call()
            return found

        found = attempted(beside)
        self.play(operation, operands, found + state_numbers(self.last))

    def step(self, y):
        self.play_change(STEP, numbers(4, y), lambda: f.step(self.state, y))

    def step_on(self, y):
        self.play_change(STEP_ON, self.lists() + numbers(4, y), lambda: f.step_on(self.state, *self.calendar, y))

    def missing(self):
        self.play_change(MISSING, b"", lambda: [f.missing(self.state)])

    def missing_on(self):
        self.play_change(MISSING_ON, self.lists(), lambda: [f.missing_on(self.state, *self.calendar)])

    def switch(self):
        self.play_change(SWITCH, b"", lambda: [f.switch_to_even(self.state)])

    def switch_in_place(self, data):
        """On a slice that is to hold one group: what it then holds."""
        code, held = 0, data
        try:
            held = f.rewrite_slice(data, f.switch_to_even)
        except f.Rejected as r:
            code = r.code
        self.record(SWITCH_IN_PLACE, numbers(4, len(data)) + data, [code, *held])

    def play_batch(self, operation, lists, readings, room, call):
        filled = [UNTOUCHED] * room
        self.last, taken, code = call(filled)
        operands = lists + numbers(4, room, len(readings), *readings)
        self.play(operation, operands, [code, taken, *state_numbers(self.last), *filled])

    def batch(self, readings, room):
        self.play_batch(BATCH, b"", readings, room, lambda filled: f.batch(self.state, readings, filled))

    def batch_on(self, readings, room):
        self.play_batch(BATCH_ON, self.lists(), readings, room, lambda filled: f.batch_on(self.state, *self.calendar, readings, filled))

    def forecast(self, h):
        """The forecast for one horizon, on the phone and on the bedside display."""
        for operation, limit in ((FORECAST, f.HORIZON_LIMIT), (DISPLAY_FORECAST, f.DISPLAY_LIMIT)):
            self.play(operation, numbers(4, h), attempted(lambda: [f.forecast(self.state, h, limit)]))

    def forecast_on(self, h):
        self.play(FORECAST_ON, self.lists() + numbers(4, h), attempted(lambda: [f.forecast_on(self.state, *self.calendar, h)]))

    def forecasts(self, h, room):
        """The forecasts for all horizons, on the phone and on the bedside display."""
        for operation, limit in ((FORECASTS, f.HORIZON_LIMIT), (DISPLAY_FORECASTS, f.DISPLAY_LIMIT)):
            filled = [UNTOUCHED] * room
            found = attempted(lambda: f.forecasts(self.state, h, filled, limit) or [])
            self.play(operation, numbers(4, room, h), found + filled)

    def forecasts_on(self, h, room):
        filled = [UNTOUCHED] * room
        found = attempted(lambda: f.forecasts_on(self.state, *self.calendar, h, filled) or [])
        self.play(FORECASTS_ON, self.lists() + numbers(4, room, h), found + filled)

    def window(self, start, end):
        found = attempted(lambda: [f.window_maximum(self.state, *self.calendar, start, end)])
        self.play(WINDOW, self.lists() + numbers(1, start, end), found)

    def weight(self, h):
        self.play(WEIGHT, numbers(4, h), attempted(lambda: [f.weight(self.state, h)]))

    def weight_groups(self, h, room):
        filled = [UNTOUCHED] * room
        found = attempted(lambda: f.weight_groups(self.state, h, filled) or [])
        self.play(WEIGHT_GROUPS, numbers(4, room, h), found + filled)

    def variance(self, h, sigma2):
        self.play(VARIANCE, numbers(4, h, sigma2), attempted(lambda: f.variance(self.state, h, sigma2)))

    def relative_variance(self, h, sigma2, room):
        filled = [float(UNTOUCHED)] * room
        found = attempted(lambda: [f.bits(f.relative_variance(self.state, h, sigma2, filled))])
        self.play(RELATIVE_VARIANCE, numbers(4, room, h) + numbers(8, sigma2), found + [f.bits(value) for value in filled])

    def coefficients(self, h, room):
        filled = [UNTOUCHED] * room
        found = attempted(lambda: f.coefficients(self.state, h, filled) or [])
        self.play(COEFFICIENTS, numbers(4, room, h), found + filled)

    def save(self, room):
        filled = bytearray([UNTOUCHED] * room)
        found = attempted(lambda: [f.save(self.state, filled)])
        needed = attempted(lambda: [f.save(self.state, bytearray(600))])
        self.play(SAVE, numbers(4, room), [found[0], needed[-1], *filled])

    def read(self, data):
        code = 0
        try:
            x, used = f.read_group(data)
            self.last = x
        except f.Rejected as r:
            x, used, code = State(model=255), r.offset, r.code
        self.record(READ, numbers(4, len(data)) + data, [code, *state_numbers(x), code, *data[used:]])

    def store(self, name, room):
        filled = bytearray([UNTOUCHED] * room)
        found = attempted(lambda: f.store(self.state, name, filled) or [])
        self.play(STORE, numbers(1, name) + numbers(4, room), [*found, *filled])
        return bytes(filled)

    def restore(self, name, data):
        code, x = 0, State(model=255)
        try:
            x = f.restore(name, data)
        except f.Rejected as r:
            code = r.code
        self.record(RESTORE, numbers(1, name) + numbers(4, len(data)) + data, [code, *state_numbers(x)])

    def everything(self):
        """Each call on the state, with operands that would pass."""
        self.check()
        self.step(20)
        self.missing()
        self.switch()
        self.batch([20, f.SENTINEL, 21], 4)
        self.forecast(3)
        self.forecasts(3, 4)
        self.weight(3)
        self.variance(3, 5)
        self.weight_groups(3, 50)
        self.relative_variance(3, SIGMA2S[0], 4)
        self.coefficients(3, 4)
        self.save(600)

    def everything_on(self):
        """Each call on a calendar, with operands that would pass."""
        self.step_on(20)
        self.missing_on()
        self.batch_on([20, f.SENTINEL, 21], 4)
        self.forecast_on(3)
        self.forecasts_on(3, 4)
        self.window(0, 0)


def refused_states(t):
    """Checks 5, 6, 7, 16, 9, 10, 17 of a state handed in directly, one fault at a time."""
    for model in (3, 7, *range(8, 17), 0x20, 0x28, 0x29, *range(0x48, 0x51), 0x68, 0x88, 255):
        t.use(replace(nominal(0), model=model))
        t.check()
    for model in MODELS:
        x = nominal(model)
        for m in (0, 1, 2, 48, 49, 255):
            t.use(replace(x, m=m))
            t.check()
        for name in "ABGF":
            for value in PARAMETERS:
                for opener in (0x10, 0x18):
                    t.use(replace(x, opener=opener, **{name: value}))
                    t.check()
        for A, B, G in edge_gains(model):
            for opener in (0x10, 0x18):
                t.use(replace(x, A=A, B=B, G=G, opener=opener))
                t.check()
        for name in "lb":
            for value in VALUES:
                t.use(replace(x, **{name: value}))
                t.check()
        for place in (0, 1, 2, 47):
            for value in (0, 1, -1, V, V + 1, -V, -V - 1):
                s = list(x.s)
                s[place] = value
                t.use(replace(x, s=tuple(s)))
                t.check()
        for p in (0, 1, 2, 255):
            t.use(replace(x, p=p))
            t.check()
        for count in COUNTS:
            for y in (x, scored(x, 0, 0)):
                t.use(replace(y, count=count))
                t.check()
    for count in (0, 5000, 2**47, C):
        for n, total in edge_scores(count):
            t.use(scored(State(count=count), n, total))
            t.check()


FAULTS = [dict(model=3), dict(m=49), dict(F=0), dict(B=20001), dict(l=V + 1), dict(p=48), dict(readings=WORD64)]


def first_fault(t):
    """The checks' order: with each fault and all those after it, and every call on such a state, its own operand refused too."""
    x = replace(nominal(5), count=C)
    for k in range(len(FAULTS)):
        for tail in FAULTS[k:]:
            x = replace(nominal(5), **{**FAULTS[k], **tail})
            t.use(x)
            t.check()
        x = nominal(5)
        for fault in FAULTS[k:]:
            x = replace(x, **fault)
        t.use(replace(x, count=C))
        t.everything()
        t.step(1_000_001)
        t.batch([1_000_001], 0)
        for h in (0, 49):
            t.forecast(h)
            t.forecasts(h, 0)
        t.weight(513)
        t.variance(513, 0)
        t.weight_groups(513, 0)
        t.relative_variance(513, WORD64, 0)
        t.coefficients(513, 0)
        t.save(0)
        t.on((5, 5), (5,))
        t.step_on(1_000_001)
        t.missing_on()
        t.batch_on([1_000_001], 0)
        t.forecast_on(0)
        t.forecasts_on(513, 0)
        t.window(24, 255)


def steps(t):
    """Steps and missing readings of every model, one after another, and their refusals in order."""
    for model in MODELS:
        t.use(nominal(model))
        for y in (20, -7, 1_000_000, -1_000_000):
            t.step(y)
            t.keep()
            t.missing()
            t.keep()
        for y in (1_000_001, -1_000_001, f.SENTINEL, 2**31 - 1):
            t.step(y)
        t.use(replace(nominal(model), count=C))
        for y in (0, 1_000_001):
            t.step(y)
        t.missing()
    for sign in (1, -1):
        for d in (0, 1, 2):
            edge = sign * (V - d)
            t.use(State(model=1, F=65536, l=edge, b=sign))
            t.step(0)
            t.missing()
            t.use(replace(t.state, count=C))
            t.missing()
            t.use(State(model=6, m=2, F=32768, l=edge, b=sign * 3, s=cells(V, -V), p=1))
            t.missing()
            t.keep()
            t.missing()
            t.use(opened(State(model=1, B=65536, F=65536, b=edge)))
            t.step(sign)
            t.use(State(model=4, m=2, G=65536, s=cells(edge, 0), l=-edge))
            t.step(sign)


def batches(t):
    """Batches: of nothing, with sentinels, with halts at each place, with too few cells and with more than needed."""
    mark = f.SENTINEL
    for model in MODELS:
        t.use(nominal(model))
        t.batch([], 0)
        t.batch([], 2)
        t.batch([20], 1)
        t.batch([mark], 1)
        t.batch([20, 21, mark, 25, mark, mark, 18], 7)
        t.batch([20, 21, mark, 25, mark, mark, 18], 9)
        t.batch([20, 21, mark], 2)
        t.batch([20], 0)
        for at in range(5):
            ys = [20, mark, 22, 23, 19]
            ys[at] = 1_000_001 if at % 2 else -1_000_001
            t.batch(ys, 6)
        for left in range(4):
            t.use(replace(nominal(model), count=C - left))
            t.batch([20, mark, 21], 4)
            t.batch([mark, 20, 1_000_001], 3)
            t.batch([], 1)
    # Refusal 15 after some readings, missing ones among them: the trend carries the level out.
    for sign in (1, -1):
        for k in range(4):
            t.use(State(model=1, F=65536, l=sign * (V - k * 1000), b=sign * 1000))
            t.batch([0, mark, 0, mark, 0, 0], 6)
            t.batch([mark] * 5, 7)
            t.use(State(model=6, m=2, F=60000, l=sign * (V - k * 1000), b=sign * 1000, s=cells(7, -7)))
            t.batch([mark] * 5, 7)
    t.use(nominal(6, 48))
    t.batch([15 + (k * k) % 13 for k in range(100)], 100)


def horizons(t):
    """Every call for a horizon, at the horizon's edges; all horizons with cells too few, just enough and more."""
    for model in MODELS:
        for m in (2, 48) if model & 4 else (0,):
            t.use(nominal(model, m))
            t.forecasts(512, 512)
            for h in (1, 2, 3, 47, 48, 49):
                t.forecasts(h, h)
                t.forecasts(h, h + 2)
                t.forecasts(h, h - 1)
            for h in (0, 1, 2, 47, 48, 49, 511, 512, 513, 65536, WORD32):
                t.forecast(h)
                t.weight(h)
                t.variance(h, 7)
                if h < 1 or h > 512:
                    t.forecasts(h, 3)
                    t.forecasts(h, 0)
            for h in range(3, 9):
                t.weight(h)
            for sigma2 in (0, 1, 2**31, WORD32):
                t.variance(512, sigma2)
    most = opened(State(model=5, m=2, A=65536, B=65536, G=65536, F=65536, l=V, b=V, s=cells(V, V)))
    least = replace(most, l=-V, b=-V, s=cells(-V, -V))
    for x in (most, least, replace(least, model=6, F=65535)):
        t.use(x)
        t.forecast(512)
        t.weight(512)
        t.variance(512, WORD32)
    t.use(State(model=1, A=32768, B=16384, F=65536, b=65536))
    t.weight(3)
    t.use(State(model=4, m=2, A=16384, G=32768, s=cells(65536, -65536)))
    t.weight(3)


def weights_by_index(t):
    """W-210: the groups of a weight for every model by both rules, seasons that divide the horizon and that do not, longer and
    shorter than it; cells too few, just enough and more; 11 before 12. The largest sums."""
    for model in MODELS + TO_EVEN:
        for m in (2, 7, 48) if model & 4 else (0,):
            t.use(nominal(model, m))
            least = m or 1
            for h in (1, 2, m + 1, m + 2, 100, 512):
                t.weight_groups(h, least)
            for h in (0, 1, 513):
                for room in (0, least - 1, least + 2):
                    t.weight_groups(h, room)
    for model, m, F in ((1, 0, 65536), (2, 0, 65535), (5, 2, 65536), (5, 48, 65536), (6, 3, 65535)):
        t.use(opened(State(model=model, m=m, A=65536, B=65536, G=65536 if m else 0, F=F)))
        t.weight_groups(512, 48)
    t.use(State(model=4, m=2, A=16384, G=32768, s=cells(65536, -65536)))
    t.weight_groups(3, 3)


def relative_variances(t):
    """W-205: the variance of every model with relative errors by both rules; σ² and horizon at their edges, and both refused;
    cells too few, just enough and more; forecasts of 0 and below it; 19, after 12, with the cells as found."""
    for model in RELATIVES:
        for rule, m in (0, 2), (f.EVEN, 7):
            t.use(nominal(model | rule, m))
            for h in (1, 2, 3, 24, 60):
                t.relative_variance(h, SIGMA2S[0], h)
        t.use(nominal(model))
        for room in (0, 2, 3, 5):
            t.relative_variance(3, f.bits(0.25), room)
        for sigma2 in SIGMA2S + BAD_SIGMA2S if model in (8, 14) else (ONE, ONE + 1):
            t.relative_variance(4, sigma2, 4)
        for h in (0, 1, 513, WORD32):
            for sigma2 in (SIGMA2S[0], WORD64):
                t.relative_variance(h, sigma2, 0)
    for x in near_zero():
        t.use(x)
        for sigma2 in (1, 2**52, SIGMA2S[0], ONE):
            t.relative_variance(10, sigma2, 10)
    t.use(nominal(14, 24))
    t.relative_variance(512, SIGMA2S[0], 512)
    *_, (x, sigma2, h) = overflowing()
    t.use(x)
    t.relative_variance(h - 1, sigma2, h - 1)
    for room in (0, h):
        t.relative_variance(h, sigma2, room)


def relative_errors(t):
    """W-205: every call on each model with relative errors, by both commands that open one, switched, read and saved; a call for
    the variance that a model does not have is told after the state's checks, each with all those after it, before 11, 18, 12."""
    for model in RELATIVES:
        for x in (nominal(model), opened(replace(nominal(model, 3), A=100, G=65500 if model & 4 else 0))):
            t.use(x)
            t.everything()
            t.batch([20, f.SENTINEL, 1_000_001], 3)
            for change in (lambda: t.step(21), t.missing, t.switch, lambda: t.step(-3)):
                change()
                t.keep()
            t.save(104)
            t.relative_variance(5, SIGMA2S[0], 5)
            for group in (f.group_bytes(t.state), old(x) + bytes(25)):
                t.read(group)
                t.switch_in_place(group)
    for model in MODELS + RELATIVES:
        t.use(nominal(model))
        for h in (0, 1, 513):
            t.weight(h)
            t.variance(h, 7)
            t.weight_groups(h, 0)
            t.relative_variance(h, WORD64, 0)
        t.weight_groups(3, 3)
        t.relative_variance(3, SIGMA2S[0], 3)
    for k in range(len(FAULTS)):
        for base in (nominal(5), nominal(13)):
            x = base
            for fault in FAULTS[k:]:
                x = replace(x, **fault)
            t.use(replace(x, model=x.model | base.model & f.RELATIVE))
            t.weight(0)
            t.variance(0, 0)
            t.weight_groups(0, 0)
            t.relative_variance(0, WORD64, 0)
            t.coefficients(0, 0)


def coefficients(t):
    """C of every model, by both rules and with relative errors; cells too few, just enough and more; 11 before 12."""
    for model in MODELS + TO_EVEN + RELATIVES:
        t.use(nominal(model, 7))
        for h, room in (1, 1), (2, 2), (3, 5), (24, 23), (60, 60), (0, 0), (0, 2), (1, 0), (513, 0), (WORD32, 2):
            t.coefficients(h, room)
    t.use(opened(State(model=5, m=2, A=65536, B=65536, G=65536, F=65536)))
    t.coefficients(512, 512)


def groups(t):
    """Saves into slices too short, just long enough and longer; groups read from slices, with bytes after them."""
    for model in MODELS:
        for m in (2, 3, 48) if model & 4 else (0,):
            x = nominal(model, m)
            t.use(x)
            saved = f.group_bytes(x)
            for room in (0, 1, len(saved) - 1, len(saved), len(saved) + 3):
                t.save(room)
            for after in (b"", b"\x10", b"\x20\x01", b"\xff", saved[:5]):
                t.read(saved + after)
            t.keep()
            t.save(551)
    t.read(b"")
    for byte in (0x00, 0x10, 0x11, 0x12, 0x13, 0x15, 0x16, 0x18, 0x20, 0x21, 0x30, 0x31, 0x32, 0x33, 0x40, 0x41, 0xFF):
        t.read(bytes([byte]))
    saved = f.group_bytes(nominal(5))
    for end in range(len(saved)):
        t.read(saved[:end])


def outside_region(t):
    """W-201: every call on a state that 18 opened, on the same numbers by 10, and on one by 18 whose gains are inside."""
    for model in (1, 2, 4, 5, 6):
        x = opened(replace(nominal(model), A=100, G=65500 if model & 4 else 0))
        assert x.opener == 0x18
        for y in (x, replace(x, opener=0x10), replace(nominal(model), opener=0x18)):
            t.use(y)
            t.everything()
            t.step(1_000_001)
            t.forecast(0)
            t.save(3)
        t.use(x)
        for y in (20, 25, -3):
            t.step(y)
            t.keep()
            t.missing()
            t.keep()
        t.save(551)
        saved = f.group_bytes(t.state)
        t.read(saved + b"\x18")
        t.read(b"\x10" + saved[1:])
        t.read(b"\x18" + f.group_bytes(nominal(model))[1:])


def rules(t):
    """W-211: every call by ties to even, on states whose shares are ties; the switch of every model, once and twice, on
    states that pass and on those that each check refuses; in place on slices with their group, cut, and with a byte after it."""
    for model in MODELS:
        m = 2 if model & 4 else 0
        half = replace(nominal(model), A=32768, G=32768 if m else 0, B=[0, 32768, 16384][model & 3], F=[0, 65536, 32768][model & 3], l=7, b=[0, 3, 5][model & 3], s=cells(1, -3) if m else cells())
        for x in (nominal(model), half, opened(replace(half, A=16384, G=65536 if m else 0, l=-8))):
            t.use(replace(x, model=model | f.EVEN))
            t.everything()
            t.batch([1, 0, 3, f.SENTINEL, -2, 1, f.SENTINEL, 5], 8)
            t.forecasts(12, 12)
            for h in (2, 5, 9, 48):
                t.weight(h)
            t.use(x)
            for turn in range(6):
                t.step(turn % 4 - 1)
                t.keep()
                if turn in (1, 3):
                    t.switch()
                    t.keep()
                t.missing()
            t.batch([1, 0, f.SENTINEL, -1, 2], 6)
            saved = f.group_bytes(x)
            for data in (saved, f.group_bytes(replace(x, model=model | f.EVEN)), saved[:-1], saved[:1], b"", saved + b"\x21", b"\x11" + saved[1:]):
                t.switch_in_place(data)
    for model in (3, 67, 71, 72, 127, 191, 192):
        t.use(replace(nominal(0), model=model))
        t.check()
        t.switch()
    for fault in FAULTS:
        t.use(replace(nominal(5 | f.EVEN), **fault))
        t.check()
        t.switch()
        if fault.get("m", 0) <= f.CELLS:
            t.switch_in_place(f.group_bytes(replace(nominal(5), **fault)))


def scores(t):
    """W-204: the score after steps and batches, halted ones among them, by both rules; squares that carry into the high word,
    and just not; the largest; groups with a score that 17 refuses; old groups read, and saved in the new form."""
    mark = f.SENTINEL
    for model in MODELS + TO_EVEN:
        # The level stays, so that e of reading 0 is a tie.
        x = State(model=model, m=3 if model & 4 else 0, F=[0, 65536, 1][model & 3], l=-98304, count=9)
        for y in (x, scored(x, 9, 9 * f.SQUARE_LIMIT)):
            t.use(y)
            t.step(0)
            t.missing()
            t.batch([0, mark, 1, mark, mark, 2, -3], 7)
            t.batch([0, mark, 1, 1_000_001, 2], 5)
            t.batch([mark, mark], 2)
            t.batch([0, 1, 2], 2)
    for sign in (1, -1):
        for k in range(4):
            # The trend carries the level out after k readings.
            t.use(scored(State(model=1, F=65536, l=sign * (V - k * 1000), b=sign * 1000, count=8), 7, 6))
            t.step(1_000_000)
            t.batch([sign * 1_000_000, mark, 0, -sign * 1_000_000, 0], 5)
        t.use(State(model=5, m=2, A=36000, F=65536, l=sign * V, b=sign * V, s=cells(sign * V, sign * V)))
        t.step(-sign * 1_000_000)
        t.keep()
        t.save(551)
    for high in (0, 2**36 - 2):
        for y in (3, -1_000_000):
            for beyond in (-1, 0, 1):
                # The level stays 0, so that R(e) is y; the count is full after three more.
                t.use(scored(State(count=C - 3), C - 3, ((high + 1) << 64) + beyond - y * y))
                t.step(y)
                t.batch([y, mark, y, y], 4)
                t.batch([mark, -y, y, y], 4)
    for model in MODELS:
        x = nominal(model)
        for n, high, low in (5001, 1, 5), (4900, 1, WORD64), (4096, 1, 1), (4096, 1, 0):
            for after in (b"", b"\x15"):
                t.read(f.group_bytes(replace(x, readings=n, high=high, low=low)) + after)
        for y in (x, nominal(model | f.EVEN, 48)):
            for after in (b"", b"\x10", b"\xff", f.encode(0x15, 1, 0, 0)):
                t.read(old(y) + after)
            t.keep()
            t.save(551)
    group = old(nominal(5))
    for end in range(36, len(group)):
        t.read(group[:end])


def lent(t):
    """W-204: the switch in place on old groups with too few bytes after them for the new form, just enough, and more, whatever
    they hold; on new groups with bytes after them; and on groups with a refusal of their own, which is told first."""
    longest = old(nominal(6, 48))
    for group in [longest] + [old(nominal(model)) for model in MODELS + TO_EVEN]:
        for after in (0, 1, 24, 25, 26):
            t.switch_in_place(group + b"\xff" * after)
        t.switch_in_place(group + f.encode(0x15, 1, 2, 3))
    for x in (nominal(0), nominal(5)):
        for after in (0, 1, 25, 26):
            t.switch_in_place(f.group_bytes(x) + bytes(after))
            t.switch_in_place(f.group_bytes(replace(x, readings=5001)) + bytes(after))
            for group in (f.group_bytes(x), old(x)):
                for bad in (b"\x11" + group[1:], group[:36], group[:37], group[:-1], group[:-1] + b"\xff"):
                    t.switch_in_place(bad + bytes(after))


def hourly(model=6, p=2, count=5000):
    """A state with 24 places, of which 2 is due."""
    return replace(nominal(model, 24), p=p, count=count)


def calendar(x, changes):
    """The lists by which the steps at which place 2 is due, from x on, take these letters: s is skipped, r used again, - neither."""
    skipped, repeated, p, count = [], [], x.p, x.count
    for change in changes:
        while p != 2:
            p, count = (p + 1) % f.HOURS, count + 1
        {"s": skipped, "r": repeated, "-": []}[change].append(count)
        _, p = f.turn(skipped, repeated, f.HOURS, p, count)
        count += 1
    return skipped, repeated


def clock_changes(t):
    """W-208: each call where place 2 is skipped, is used again, and where the count is listed at another place or a step early or
    late; a run of calls, each with its own lists; lists of nothing beside the plain calls."""
    for model in (4, 5, 6, 0x4E):
        t.use(hourly(model))
        for changes in "sr":
            t.on(*calendar(t.state, changes))
            t.everything_on()
            t.forecasts_on(26, 26)
    for p in (0, 1, 3, 23):
        t.use(hourly(p=p))
        for lists in ([5000], []), ([], [5000]):
            t.on(*lists)
            t.step_on(20)
            t.forecasts_on(27, 27)
    t.use(hourly())
    for count in (0, 4999, 5001, 5000 + 2**32, WORD64):
        t.on([count], [])
        t.step_on(20)
        t.on([], [count])
        t.missing_on()
    for changes in "s", "rs", "rrr-":
        t.use(hourly(5, p=1))
        t.on(*calendar(t.state, changes))
        for y in (20, 25, f.SENTINEL, -7, f.SENTINEL, 21):
            t.missing_on() if y == f.SENTINEL else t.step_on(y)
            t.keep()
    t.use(hourly(p=1))
    # Place 2 is used again at 5001 and skipped at 5002, each by the lists of that call alone.
    for lists in ([], [5001]), ([], [5001]), ([5002], []), ([5003], [5002]):
        t.on(*lists)
        t.step_on(22)
        t.keep()
    t.on([], [])
    for x in (hourly(5), hourly(6, p=23)):
        t.use(x)
        t.everything_on()
        t.step(20)
        t.missing()
        t.batch([20, f.SENTINEL, 21], 4)
        t.forecast(3)
        t.forecasts(3, 4)


EVENS, ODDS = tuple(range(0, 128, 2)), tuple(range(1, 128, 2))
RISING = [
    ((5,), ()), ((), (5,)), ((5, 6), ()), ((), (0, WORD64)), ((0,), (1,)), ((1,), (0,)), ((1, 2, 3), (4, 5, 6)), ((4, 5, 6), (1, 2, 3)),
    ((1, 3, 5), (0, 2, 4, 6)), ((WORD64 - 1,), (WORD64,)), ((2**63 - 1, 2**63), ()), ((), (5, 2**32)), ((5,), (2**32 + 5,)),
    (EVENS, ODDS), (ODDS, EVENS), ((), ODDS), ((*EVENS[:63], WORD64), (*ODDS[:63], WORD64 - 1)),
]  # fmt: skip
NOT_RISING = [
    ((5, 5), ()), ((), (5, 5)), ((6, 5), ()), ((), (6, 5)), ((1, 2, 3, 3), ()), ((), (1, 1, 2, 3)), ((1, 3, 2, 4), ()), ((), (1, 2, 4, 3)),
    ((0, 0), ()), ((), (WORD64, WORD64)), ((WORD64, 0), ()), ((), (2**63, 2**63 - 1)), ((2**32, 5), ()), ((7, 6), (1, 2)), ((1, 2), (7, 6)),
    ((*EVENS[:63], EVENS[62]), ODDS), (EVENS, (ODDS[1], ODDS[0], *ODDS[2:])),
]  # fmt: skip
IN_BOTH = [
    ((5000,), (5000,)), ((0,), (0,)), ((WORD64,), (WORD64,)), ((1, 2, 3), (3,)), ((3,), (1, 2, 3)), ((1, 5, 9), (2, 5, 8)), ((1,), (0, 1)),
    ((0, 1), (0,)), ((1, 2, 3), (3, 4, 5)), ((3, 4, 5), (1, 2, 3)), (EVENS, (*ODDS[:63], EVENS[63])), ((*ODDS[:63], WORD64), (*EVENS[:63], WORD64)),
]  # fmt: skip


def calendar_refusals(t):
    """W-208: 20 of lists on both sides of its edges, most of them without an effect, for a batch of nothing too; of every other
    season and of none; after the state's checks, 11 and 12, and before 13, 14 and 15."""
    t.use(hourly())
    for lists in RISING + NOT_RISING + IN_BOTH:
        t.on(*lists)
        t.step_on(20)
        if lists not in RISING:
            t.batch_on([], 1)
    for lists in NOT_RISING[:4] + IN_BOTH[:1]:
        t.on(*lists)
        t.everything_on()
    t.on([], [])
    for x in (nominal(0), nominal(1), nominal(4), nominal(6, 23), nominal(5, 48)):
        t.use(x)
        t.step_on(20)
    for x in (nominal(2), nominal(5, 3), nominal(6, 25)):
        t.use(x)
        t.everything_on()
        t.batch_on([], 0)
    t.use(replace(nominal(6, 25), p=2))
    for lists in ([5000], []), ([], [5000]):
        t.on(*lists)
        t.step_on(20)
        t.forecasts_on(3, 3)
    for x, lists in (hourly(), ([5000], [])), (hourly(), ([5000], [5000])), (nominal(6, 25), ([], [])):
        t.use(x)
        t.on(*lists)
        for y in (1_000_001, f.SENTINEL):
            t.step_on(y)
        for readings, room in ([1_000_001], 0), ([1_000_001], 1), ([20], 0), ([], 0):
            t.batch_on(readings, room)
        for h in (0, 513, WORD32):
            t.forecast_on(h)
            t.forecasts_on(h, 0)
        for room in (0, 2, 3):
            t.forecasts_on(3, room)
        for y in (replace(x, count=C), replace(x, l=V, b=V)):
            t.use(y)
            t.step_on(0)
            t.missing_on()
            t.batch_on([0], 1)
            t.batch_on([f.SENTINEL], 1)


def calendar_batches(t):
    """W-208: batches that meet changes at several of their readings, missing ones among them; with counts that have passed, that
    are not due and that are beyond them; halted beside a change by 13, 14 and 15."""
    mark = f.SENTINEL
    for x in (hourly(4), hourly(6, p=22), hourly(0x45, p=3)):
        t.use(x)
        for changes in ("s", "r", "sr-rs", "-rrrs", "ssss"):
            skipped, repeated = calendar(x, changes)
            t.on(skipped, repeated)
            t.batch_on([mark if k % 11 == 7 else 15 + (k * k) % 13 for k in range(110)], 110)
            t.on([*range(40), *skipped, 6000, WORD64], [*range(100, 140), *repeated, 6001, WORD64 - 1])
            t.batch_on([mark if k % 5 == 0 else 22 - k % 7 for k in range(50)], 52)
    for changes in ("s", "r", "rr", "rs", "rrs"):
        t.use(hourly())
        t.on(*calendar(t.state, changes))
        for readings in ([20, 25, 21, 22], [mark, 20, mark, 21], [20, mark, mark, 21]):
            t.batch_on(readings, 5)
    for changes in ("s", "r"):
        x = hourly(p=1)
        t.use(x)
        t.on(*calendar(x, changes))
        for at in range(4):
            readings = [20, 25, mark, 23]
            readings[at] = 1_000_001 if at % 2 else -1_000_001
            t.batch_on(readings, 5)
        for left in range(4):
            t.use(replace(x, count=C - left))
            t.on(*calendar(t.state, changes))
            t.batch_on([20, mark, 21], 4)
            t.batch_on([mark, 20, 1_000_001], 3)
        # Half of V + 65536 is added to the half of a season value: at V it leaves its range, and 0 does not.
        for place in (2, 3):
            t.use(State(model=4, m=24, G=32768, l=-V, s=cells(*[V if k == place else 0 for k in range(24)]), p=2))
            t.on(*calendar(t.state, changes))
            t.step_on(1)
            t.batch_on([1, 1, 1], 3)
            t.batch_on([mark, 1, 1], 3)
    for changes in ("s", "r"):
        # The trend carries the level out after some readings, and missing ones.
        t.use(State(model=5, m=24, F=65536, l=V - 2000, b=1000, p=1))
        t.on(*calendar(t.state, changes))
        t.batch_on([mark] * 5, 5)
        t.batch_on([0] * 5, 6)


def calendar_forecasts(t):
    """W-208: forecasts whose walk meets changes up to the last horizon; by lists of 64 counts, of which the first, the last or all
    have an effect; with cells too few, just enough and more; at counts beyond 2^48."""
    for x in (hourly(4), hourly(6, p=5), hourly(0x46, p=1)):
        t.use(x)
        for changes in ("sr-" * 8, "r" * 64, "s" * 23):
            t.on(*calendar(x, changes))
            t.forecasts_on(512, 512)
            for h in (2, 25, 512):
                t.forecast_on(h)
    t.use(hourly())
    for lists in (range(5000, 5064), []), ([], range(5000, 5064)), (range(4937, 5001), range(5001, 5065)), (range(5001, 5065), range(4937, 5001)):
        t.on(*lists)
        for h, room in (1, 1), (70, 70), (60, 62), (60, 59):
            t.forecasts_on(h, room)
    for count, changes in (C - 1, "srs"), (C, "rsr"):
        t.use(hourly(p=1, count=count))
        t.on(*calendar(t.state, changes))
        t.everything_on()
        t.forecasts_on(80, 80)
        t.forecast_on(512)


WINDOWS = [(0, 0), (23, 23), (6, 9), (22, 6), (2, 3), (3, 4), (3, 2), (1, 0), (23, 0), (0, 23), (2, 4)]


def windows(t):
    """W-208: windows of every kind, from places beside the change, with one and without; those that no step is in; bounds at 23 and
    above; the largest first, last and among equals, all below 0, and the largest of all."""
    for p in (0, 2, 23):
        t.use(hourly(p=p))
        for changes in ("", "s", "r"):
            t.on(*calendar(t.state, changes))
            for window in WINDOWS:
                t.window(*window)
    for start, end in (24, 0), (0, 24), (24, 24), (23, 24), (24, 23), (128, 3), (3, 128), (255, 255):
        t.window(start, end)
    for changes in ("ss", "r" * 23, "r" * 24, "rs"):
        t.use(hourly())
        t.on(*calendar(t.state, changes))
        for window in (2, 3), (3, 4), (3, 2), (23, 0), (0, 2):
            t.window(*window)
    t.on([5000], [5000])
    for window in (0, 0), (2, 3), (24, 0):
        t.window(*window)
    flat = State(model=5, m=24, F=65536, p=20, count=5000)
    sloping = [replace(flat, l=l, b=b) for l, b in ((0, 65536), (0, -65536), (0, 0), (-V, 1000), (-V, -1000))]
    # Odd trends damped by a half are ties, by both rules.
    damped = [replace(hourly(model, 17), F=32768, b=-12_345) for model in (6, 0x46, 0x0E)]
    for x in (*sloping, *damped, hourly(4, 17), hourly(0x4D, 17)):
        t.use(x)
        for changes in ("s", "r"):
            t.on(*calendar(x, changes))
            for window in (0, 0), (22, 6):
                t.window(*window)
    for end in (V, -V):
        t.use(State(model=5, m=24, F=65536, l=end, b=end, s=cells(*[end] * 24), p=2, count=C))
        t.on(*calendar(t.state, "r"))
        for window in (0, 0), (2, 3):
            t.window(*window)
        t.forecast_on(512)


NAMES_ROOM = f.NAMES * f.LONGEST_GROUP


def names(t):
    """W-209: states of every kind kept in each name of cells that held nothing; names above 3, cells on both sides of their length
    and states that do not pass, with the order of their refusals. Then the names of cells that hold states, old groups, groups cut
    short or damaged, a group that only the next name's bytes would finish, and nothing; names above 3; cells one byte short."""
    longest = State(model=5, m=48, A=16384, B=8192, G=16384, F=65536, l=V, b=-V, s=tuple(V - k for k in range(48)), p=47, count=C, readings=C, high=2**36 - 1, low=WORD64)
    states = [State(A=32768), nominal(0x4E), longest, opened(replace(nominal(5), A=100, B=200))]
    kept = bytearray(NAMES_ROOM)
    for k, x in enumerate(states):
        t.use(x)
        t.store(k, NAMES_ROOM)
        f.store(x, k, kept)
    for k in range(4):
        t.restore(k, bytes(kept))
        t.restore(k, bytes(kept[:-1]))
        t.restore(k, bytes(NAMES_ROOM))
    t.restore(3, bytes(kept) + bytes(9))
    for k in (4, 5, 128, 255):
        t.restore(k, bytes(kept))
    for x in (State(A=32768), State(model=3), State(l=V + 1), State(count=C + 1), State(readings=1), nominal(0x4E)):
        t.use(x)
        for k, room in (0, NAMES_ROOM - 1), (3, 0), (4, NAMES_ROOM - 1), (255, 40), (1, 700):
            t.store(k, room)
    t.use(nominal(2))
    t.store(1, NAMES_ROOM + 9)
    t.store(4, NAMES_ROOM)
    # What stands in a name is read as any group is, and no further than the name's own bytes.
    whole, plain = f.group_bytes(longest), f.group_bytes(State(A=32768))
    for data in (old(nominal(4)), plain[:-1], plain[:40], plain[:36] + b"\x16" + plain[37:], b"\x11" + plain[1:], whole[:-1] + b"\x00", whole):
        for k in (0, 2, 3):
            cells = bytearray([0x77]) * NAMES_ROOM
            cells[k * f.LONGEST_GROUP : k * f.LONGEST_GROUP + len(data)] = data
            t.restore(k, bytes(cells[:NAMES_ROOM]))
    # A group that begins a byte late would end in the next name.
    cells = bytearray(NAMES_ROOM)
    cells[1 : 1 + len(whole)] = whole
    t.restore(0, bytes(cells))
    t.restore(1, bytes(cells))


def script():
    t = Script()
    for part in (refused_states, first_fault, steps, batches, horizons, weights_by_index, relative_variances, relative_errors, coefficients, groups, outside_region, rules, scores, lent, clock_changes, calendar_refusals, calendar_batches, calendar_forecasts, windows, names):
        part(t)
    return t


def container():
    return b"".join(script().records)


def expected():
    return "".join(line + "\n" for line in script().lines).encode()
