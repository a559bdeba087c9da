"""tools/changes: dates of clock changes as step counts. The second implementation walks them, and its place is the clock's hour."""

import datetime
import functools
import random

import forecaster as f
from harness import case, holds, same, shell, tool

COUNTED = [
    ("the README's", ["2026-03-01T00", "--forward", "2026-03-29", "2027-03-28", "--back", "2026-10-25"], "forward 674 9410\nback 5713\n"),
    ("dates in any order, and an option twice", ["--back", "2026-10-25", "--forward", "2027-03-28", "--forward", "2026-03-29", "--", "2026-03-01T00"],
     "forward 674 9410\nback 5713\n"),
    ("a state with a count", ["2026-10-01T09", "--count", "5144", "--back", "2026-10-25"], "forward\nback 5713\n"),
    ("forward dates alone", ["2026-03-01T00", "--forward", "2026-03-29"], "forward 674\nback\n"),
    ("the hour before", ["2026-03-29T01", "--forward", "2026-03-29"], "forward 1\nback\n"),
    ("a start at the first of the two hours", ["2026-10-25T02", "--back", "2026-10-25"], "forward\nback 0\n"),
    ("a day after each", ["2026-03-29T00", "--forward", "2026-03-29", "2026-03-31", "--back", "2026-03-30"], "forward 2 50\nback 25\n"),
    ("the south, back first", ["2026-04-04T23", "--back", "2026-04-05", "--forward", "2026-10-04"], "forward 4372\nback 3\n"),
    ("a leap day", ["2028-02-28T02", "--back", "2028-02-29", "--forward", "2028-03-01"], "forward 49\nback 24\n"),
    ("the count's limit", ["2026-01-01T02", "--count", "281474976710656", "--back", "2026-01-01"], "forward\nback 281474976710656\n"),
    ("the calendar's ends", ["0001-01-01T00", "--back", "0001-01-01", "9999-12-31"], "forward\nback 2 87649395\n"),
]  # fmt: skip


def add(name, words, expected):
    @case(f"changes: {name}")
    def check(folder):
        same(tool("changes", folder, *words), (0, expected.encode(), ""))


for row in COUNTED:
    add(*row)

WRONG = [
    ("no date", ["2026-03-01T00"], "no date is given, neither by --forward nor by --back"),
    ("a start without its hour", ["2026-03-01", "--back", "2026-10-25"], "the start 2026-03-01 is not an hour such as 2026-03-01T00"),
    ("a start with minutes", ["2026-03-01T00:30", "--back", "2026-10-25"], "the start 2026-03-01T00:30 is not an hour such as 2026-03-01T00"),
    ("hour 24", ["2026-03-01T24", "--back", "2026-10-25"], "the start 2026-03-01T24 is not an hour such as 2026-03-01T00"),
    ("a day that is not there", ["2026-02-29T00", "--back", "2026-10-25"], "the start 2026-02-29T00 is not an hour such as 2026-03-01T00"),
    ("a date that is not there", ["2026-03-01T00", "--forward", "2026-02-30"], "--forward 2026-02-30 is not a date such as 2026-03-29"),
    ("a date with an hour", ["2026-03-01T00", "--back", "2026-10-25T02"], "--back 2026-10-25T02 is not a date such as 2026-03-29"),
    ("a date in another form", ["2026-03-01T00", "--back", "20261025"], "--back 20261025 is not a date such as 2026-03-29"),
    ("Arabic digits", ["2026-03-01T00", "--back", "2026-10-2\u0665"], "--back '2026-10-2\\u0665' is not a date such as 2026-03-29"),
    ("a date before the start", ["2026-03-30T00", "--forward", "2026-03-29"], "2026-03-29: the clocks change before the start"),
    ("a start after a forward change", ["2026-03-29T03", "--forward", "2026-03-29"], "2026-03-29: the clocks change before the start"),
    ("a start after a back change", ["2026-10-25T03", "--back", "2026-10-25"], "2026-10-25: the clocks change before the start"),
    ("a start in the skipped hour", ["2026-03-29T02", "--forward", "2026-03-29"], "2026-03-29: the start is the hour that is skipped"),
    ("a date twice", ["2026-03-01T00", "--back", "2026-10-25", "--back", "2027-10-31", "2026-10-25"], "--back 2026-10-25 is given a second time"),
    ("a date in both", ["2026-03-01T00", "--back", "2026-10-25", "--forward", "2026-10-25"], "2026-10-25 is given by --forward and by --back"),
    ("a count that is none", ["2026-03-01T00", "--count", "1e3", "--back", "2026-10-25"], "--count 1e3 is not a whole number"),
    ("a count below 0", ["2026-03-01T00", "--count=-1", "--back", "2026-10-25"], "--count -1 is outside 0 to 281474976710656"),
    ("a long count", ["2026-03-01T00", "--count", "281474976710657", "--back", "2026-10-25"], "--count 281474976710657 is outside 0 to 281474976710656"),
]


def add_wrong(name, words, message):
    @case(f"changes: wrong: {name}")
    def check(folder):
        same(tool("changes", folder, *words), (2, b"", f"changes: {message}\n"))


for row in WRONG:
    add_wrong(*row)


@case("changes: wrong: no start, an option without dates")
def usage(folder):
    for words in ([], ["--back", "2026-10-25"], ["2026-03-01T00", "--back"], ["2026-03-01T00", "2026-03-29"]):
        ended = tool("changes", folder, *words)
        same((ended.status, ended.out), (2, b""), "status and output")
        holds("usage: tools/changes START" in ended.err, ended.err)


@case("changes: pipes")
def pipes(folder):
    words = "2026-03-01T00 --back 2026-10-25"
    same(shell(f"tools/changes {words} >&-", folder), (1, b"", "changes: standard output is closed\n"))
    same(shell(f"tools/changes {words} > /dev/full", folder), (1, b"", "changes: standard output: No space left on device\n"))


@functools.lru_cache(maxsize=None)
def last_sunday(year, month):
    days = [datetime.date(year, month, day) for day in range(25, 32)]
    return next(day for day in days if day.weekday() == 6)


def local(utc):
    """The clock in Berlin since 1996: an hour ahead, in summer two, from one last Sunday at 01:00 UTC to another."""
    begin, end = (datetime.datetime.combine(last_sunday(utc.year, month), datetime.time(1)) for month in (3, 10))
    return utc + datetime.timedelta(hours=2 if begin <= utc < end else 1)


def walk(folder, utc, count, years):
    """The clock's hours over the years beside the places of the second implementation, on the calendar that the tool names."""
    start, many = local(utc), years * 366 * 24
    days = {month: [last_sunday(year, month) for year in range(utc.year, utc.year + years)] for month in (3, 10)}
    named = [[str(day) for day in days[month] if datetime.datetime.combine(day, datetime.time(1)) >= utc] for month in (3, 10)]
    words = [word for option, given in zip(("--forward", "--back"), named) for word in ([option, *given] if given else [])]
    ended = tool("changes", folder, f"{start:%Y-%m-%dT%H}", "--count", count, *words)
    same((ended.status, ended.err), (0, ""), "status and message")
    lists = [set(map(int, line.split()[1:])) for line in ended.text.splitlines()]
    p, effects = start.hour, 0
    for k in range(many):
        now = local(utc + datetime.timedelta(hours=k))
        if now.year == utc.year + years:
            break
        effects += p == 2 and any(count + k in counts for counts in lists)
        place, p = f.turn(*lists, 24, p, count + k)
        same(place, now.hour, f"the place of the step at {now}")
    same(effects, sum(map(len, named)), "how many changes had an effect")


@case("changes: hour by hour for years, the place is the clock's")
def hours(folder):
    rng = random.Random(10)
    begin = datetime.datetime(2020, 1, 1)
    starts = [begin + datetime.timedelta(hours=rng.randrange(10 * 8766)) for _ in range(6)]
    # the hour before a change, and the first of the two hours
    starts += [datetime.datetime(2026, 3, 29, 0), datetime.datetime(2026, 10, 25, 0), datetime.datetime(2026, 10, 24, 23)]
    for utc in starts:
        walk(folder, utc, rng.choice([0, rng.randrange(10**6)]), 3)


@case("changes: what it prints are lists that 20 does not refuse")
def accepted(folder):
    dates = [f"{year}-{month}-{day}" for year in range(2026, 2046) for month, day in (("03", "30"), ("04", "05"))]
    ended = tool("changes", folder, "2026-01-01T00", "--forward", *dates[::2], "--back", *dates[1::2])
    lists = [list(map(int, line.split()[1:])) for line in ended.text.splitlines()]
    same([len(counts) for counts in lists], [20, 20], "how many counts")
    f.check_calendar(24, *lists)
