"""A series of readings from a file: one number to a line, or a column of a CSV. A blank field or NA is a missing reading."""

import csv
import io
from fractions import Fraction
from typing import NamedTuple, Optional

from lib import texts
from lib.cli import Mistake, read_text, shown
from lib.numerals import counted, decimal, nearest

MISSING_WORDS = ("", "NA")


class Reading(NamedTuple):
    line: int  # of the file
    word: str  # as the file has it; "" where it is missing
    value: Optional[Fraction]  # in the station's units


def rows(path, separator):
    """Each row's line number and fields; all rows have as many fields as the first."""
    found = csv.reader(io.StringIO(read_text(path), newline=""), delimiter=separator, strict=True)
    width = None
    try:
        for row in found:
            row = [field.strip(" \t") for field in row] or [""]
            width = width or len(row)
            if len(row) != width:
                raise Mistake(f"{path}, line {found.line_num}: {counted(len(row), 'field')}, where the first row has {width}")
            yield found.line_num, row
    except csv.Error as e:
        raise Mistake(f"{path}, line {found.line_num}: {e}") from None


def column_of(path, first, column):
    """Which field of a row is the reading. Digits are a number, never a name: a first reading must not pass for one."""
    names = ", ".join(map(shown, first))
    if column is None:
        if len(first) > 1:
            raise Mistake(f"{path}: rows have {len(first)} fields; choose one with --column: {names}")
        return 0
    if is_number(column):
        if not 1 <= int(column[:9]) <= len(first):
            raise Mistake(f"{path}: no column {shown(column)}; rows have {len(first)} fields")
        return int(column) - 1
    if first.count(column) != 1:
        raise Mistake(f"{path}: {first.count(column) or 'no'} columns are called {shown(column)}; the first row has {names}")
    return first.index(column)


def is_number(column):
    return column.isascii() and column.isdigit()


def read(path, scale, column=None, header=False, separator=","):
    """The file's readings. A first row is skipped only where the user says that it has names: no reading is taken for one."""
    found, at = [], None
    for line, row in rows(path, separator):
        if at is None:
            at = column_of(path, row, column)
            if header or (column is not None and not is_number(column)):
                continue
        word = row[at]
        if word in MISSING_WORDS:
            found.append(Reading(line, "", None))
            continue
        try:
            texts.reading(word, scale)
        except Mistake as e:
            raise Mistake(f"{path}, line {line}: {e}{hint(word, scale, line)}") from None
        found.append(Reading(line, word, decimal("reading", word) * scale))
    return found


def hint(word, scale, line):
    """What a user may do about a reading that is not whole, or a first row of names."""
    try:
        value = decimal("reading", word) * scale
    except Mistake:
        return "; --header skips a first row of names" if line == 1 else ""
    wanted = next((10**k for k in range(1, 10) if (value * 10**k).denominator == 1), None)
    return f"; --scale {scale * wanted} would do" if value.denominator != 1 and wanted else ""


def opening(readings, m, index, level, seasonal):
    """Level and season values to open with, each None where the user gave it. In the station's units.

    Without season the level is the first reading. With one, the first m steps give the level as their mean and each
    place's value as its difference from the level; where the season is given, the first reading less its place's value.
    """
    present = [(k, reading.value) for k, reading in enumerate(readings) if reading.value is not None]
    if not m or seasonal is not None:
        k, first = present[0] if present else (0, Fraction(0))
        known = seasonal[(index + k) % m] if m and seasonal else 0
        return (first - known if level is None else None), None
    early = [(k, value) for k, value in present if k < m]
    centre = level
    if level is None:
        centre = sum(value for _, value in early) / len(early) if early else Fraction(0)
    values = {(index + k) % m: value - centre for k, value in early}
    return (centre if level is None else None), [values.get(k, Fraction(0)) for k in range(m)]


def opening_lines(level, seasonal):
    """Lines of the text, in whole 65,536ths: exact to the nearest, whatever the scale."""
    found = [] if level is None else [f"l {nearest(level)}"]
    return found + [f"s {k} {nearest(value)}" for k, value in enumerate(seasonal or [])]
