"""Axes of a chart: round numbers for values, and steps, elapsed time or the clock for time."""

import datetime
import math
import re
from typing import NamedTuple

from lib.cli import Mistake, shown

MINUTE, HOUR, DAY = 60, 3600, 86400
SECONDS = {"s": 1, "m": MINUTE, "h": HOUR, "d": DAY}
INTERVALS = (
    [1, 2, 5, 10, 15, 30]
    + [k * MINUTE for k in (1, 2, 5, 10, 15, 30)]
    + [k * HOUR for k in (1, 2, 3, 6, 12)]
    + [k * DAY * 10**n for n in range(8) for k in (1, 2, 5)]
)
MONTHS = "Jan Feb Mar Apr May Jun Jul Aug Sep Oct Nov Dec".split()


class Tick(NamedTuple):
    at: float  # on the axis
    label: str
    below: str = ""  # a second line


def round_interval(span, most):
    """A step of 1, 2 or 5 times a power of ten that cuts the span into `most` parts or fewer, and its decimals."""
    exponent = math.floor(math.log10(span / most)) if span > 0 else 0
    for power in (exponent, exponent + 1):
        for digit in (1, 2, 5):
            interval = digit * 10.0**power
            if span / interval <= most:
                return interval, max(0, -power)
    return 10.0 ** (exponent + 2), max(0, -exponent - 2)


def value_ticks(low, high, most=7):
    interval, decimals = round_interval(high - low, most)
    first, last = math.ceil(low / interval - 1e-9), math.floor(high / interval + 1e-9)
    return [Tick(k * interval, f"{k * interval:.{decimals}f}") for k in range(first, last + 1)]


class Steps:
    """A time axis that counts steps."""

    title = "step"

    def ticks(self, first, last, most=10):
        interval = max(1, round(round_interval(last - first, most)[0]))
        return [Tick(k, str(k)) for k in range(math.ceil(first / interval) * interval, math.floor(last) + 1, interval)]


class Elapsed:
    """A time axis in seconds, minutes, hours or days since the first reading."""

    def __init__(self, seconds):
        self.seconds, self.unit = seconds, ("seconds", 1)

    @property
    def title(self):
        return f"{self.unit[0]} since the first reading"

    def ticks(self, first, last, most=10):
        interval = time_interval((last - first) * self.seconds, most)
        names = (("days", DAY), ("hours", HOUR), ("minutes", MINUTE), ("seconds", 1))
        self.unit = next(unit for unit in names if interval % unit[1] == 0)
        begin, end = math.ceil((first - 1) * self.seconds / interval), math.floor((last - 1) * self.seconds / interval)
        each = interval // self.unit[1]
        return [Tick(1 + k * interval / self.seconds, str(k * each)) for k in range(begin, end + 1)]


class Clock:
    """A time axis with hours and dates."""

    title = ""

    def __init__(self, start, seconds):
        self.start, self.seconds = start, seconds

    def ticks(self, first, last, most=10):
        interval = time_interval((last - first) * self.seconds, most)
        midnight = self.start.replace(hour=0, minute=0, second=0, microsecond=0)
        since = (self.start - midnight).total_seconds()
        begin = math.ceil(((first - 1) * self.seconds + since) / interval)
        end = math.floor(((last - 1) * self.seconds + since) / interval)
        found, before = [], ""
        for k in range(begin, end + 1):
            try:
                time = midnight + datetime.timedelta(seconds=k * interval)
            except OverflowError:
                raise Mistake("the time axis leaves the calendar") from None
            label, below = clock_label(time, interval)
            found.append(Tick(1 + (k * interval - since) / self.seconds, label, below if below != before else ""))
            before = below
        return found


def clock_label(time, interval):
    """A time of day over its date, or a date over its year."""
    date = f"{time.day} {MONTHS[time.month - 1]}"
    if interval >= DAY:
        return date, str(time.year)
    return time.strftime("%H:%M" if interval >= MINUTE else "%H:%M:%S"), date


def time_interval(span, most):
    return next((interval for interval in INTERVALS if span / interval <= most), INTERVALS[-1])


def duration(word):
    """Seconds of a word such as 30s, 5m, 1h or 1d."""
    found = re.fullmatch("([0-9]{1,9})([smhd])", word)
    if not found or int(found[1]) == 0:
        raise Mistake(f"--step {shown(word)} is not a time such as 30s, 5m, 1h or 1d")
    return int(found[1]) * SECONDS[found[2]]


def time_axis(start, step):
    """The axis for the user's --start and --step."""
    if step is None:
        if start is not None:
            raise Mistake("--start takes --step beside it")
        return Steps()
    if start is None:
        return Elapsed(duration(step))
    try:
        return Clock(datetime.datetime.fromisoformat(start), duration(step))
    except ValueError:
        raise Mistake(f"--start {shown(start)} is not a time such as 2024-02-05 06:00") from None
