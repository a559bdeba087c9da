"""Document 01's commands: their bytes, the line that each prints, and streams taken apart again.

A new command is a row of COMMANDS; one that only a group holds also has its place in `group`.
"""

import struct
from typing import NamedTuple

from lib.cli import Mistake
from lib.numerals import brief

INPUT_LIMIT = 65536  # bytes of the program's input


class Field(NamedTuple):
    name: str
    code: str  # its width, as struct has it: small letters are signed, and d is a double


class Command(NamedTuple):
    byte: int
    word: str  # what the text calls it; "" where a group's description gives it
    letter: str  # of the line that it prints; "" where it prints none of its own
    fields: tuple

    @property
    def silent(self):
        """Outside a group, and without a line."""
        return self.letter == "" and self.word != ""

    @property
    def layout(self):
        return "<" + "".join(field.code for field in self.fields)

    @property
    def length(self):
        return 1 + struct.calcsize(self.layout)


def fields(*pairs):
    return tuple(Field(*pair.split(":")) for pair in pairs)


MODEL, LEVEL, SEASON, POSITION = 0x10, 0x11, 0x12, 0x13
SCORE = 0x15  # the real readings and the sum of their squared residuals; a group saved before there was one has none
OUTSIDE = 0x18  # opens a group as MODEL does, for gains outside the usual region
OPENERS = (MODEL, OUTSIDE)
TO_EVEN = 0x14  # switches the state to rounding with ties to even
EVEN = 0x40  # that rule's bit of the model byte
RELATIVE = 0x08  # the model byte's bit for relative errors, whose variance is RELATIVE_VARIANCE and not VARIANCE
READING, MISSING, FORECAST, VARIANCE, RELATIVE_VARIANCE, SAVE = 0x20, 0x21, 0x30, 0x31, 0x32, 0x40
KEEP, BACK = 0x50, 0x51  # keeps the state under a name, and brings back what the name holds
NAMES = 4
DOUBLE = "d"

MODEL_FIELDS = fields("model:B", "m:B", "A:I", "B:I", "G:I", "F:I")

COMMANDS = {
    command.byte: command
    for command in (
        Command(MODEL, "", "O", MODEL_FIELDS),
        Command(OUTSIDE, "", "O", MODEL_FIELDS),
        Command(LEVEL, "", "", fields("l:q", "b:q")),
        Command(SCORE, "", "", fields("readings:Q", "high:Q", "low:Q")),
        Command(SEASON, "", "", fields("place:B", "s:q")),
        Command(POSITION, "", "", fields("place:B", "count:Q")),
        Command(TO_EVEN, "even", "", ()),
        Command(READING, "reading", "E", fields("reading:i")),
        Command(MISSING, "missing", "M", ()),
        Command(FORECAST, "forecast", "F", fields("horizon:H")),
        Command(VARIANCE, "variance", "V", fields("horizon:H", "sigma2:I")),
        Command(RELATIVE_VARIANCE, "relative", "W", fields("horizon:H", "sigma2:d")),
        Command(SAVE, "save", "S", ()),
        Command(KEEP, "keep", "", fields("name:B")),
        Command(BACK, "back", "", fields("name:B")),
    )
}
ONLY_IN_SNAPSHOT = (LEVEL, SCORE, SEASON, POSITION)
LONGEST_SNAPSHOT = sum(COMMANDS[byte].length for byte in (MODEL, LEVEL, SCORE, POSITION)) + 255 * COMMANDS[SEASON].length
CODES = {field.name: field.code for command in COMMANDS.values() for field in command.fields if field.code != DOUBLE}


def limits(code):
    """The least and the greatest number of a width."""
    bits = 8 * struct.calcsize("<" + code)
    return (-(2 ** (bits - 1)), 2 ** (bits - 1) - 1) if code.islower() else (0, 2**bits - 1)


def fitted(name, value, said):
    """The value, where the field's bytes can hold it. `said` tells the user's word for it."""
    least, greatest = limits(CODES[name])
    if not least <= value <= greatest:
        raise Mistake(f"{said} does not fit: {least} to {greatest}")
    return value


def in_words(field, word, value, what):
    """A field with the user's word, and the number that is written for it where that is another."""
    return f"{field} {word}" if word == str(value) else f"{field} {word}, written as {brief(value)}{what},"


def encode(byte, *operands):
    return bytes([byte]) + struct.pack(COMMANDS[byte].layout, *operands)


class Snapshot(NamedTuple):
    """The numbers of a group, with document 01's letters."""

    model: int
    m: int
    A: int
    B: int
    G: int
    F: int
    l: int
    b: int
    s: tuple
    p: int
    count: int
    opener: int  # MODEL or OUTSIDE
    readings: int  # these three are 0 in an old group
    high: int
    low: int


class Decoded(NamedTuple):
    """A command of a stream, or a whole group, with the offsets of its first byte and after its last."""

    start: int
    end: int
    byte: int
    operands: tuple  # a Snapshot for a group


def operands_at(stream, at, *due):
    """The operands of the command at the offset and the offset after it, or None: not a whole command, or none of those due."""
    command = COMMANDS.get(stream[at]) if at < len(stream) else None
    if command is None or (due and command.byte not in due) or at + command.length > len(stream):
        return None
    return struct.unpack_from(command.layout, stream, at + 1), at + command.length


def decode_snapshot(stream, at=0):
    """The Snapshot of the group at the offset, new or old, whatever its numbers, and the offset after it; None: there is none."""
    head = operands_at(stream, at, *OPENERS)
    level = head and operands_at(stream, head[1], LEVEL)
    score = level and (operands_at(stream, level[1], SCORE) or ((0, 0, 0), level[1]))
    seasonal, last = [], score
    for _ in range(head[0][1] if level else 0):
        last = last and operands_at(stream, last[1], SEASON)
        seasonal.append(last and last[0][1])
    position = last and operands_at(stream, last[1], POSITION)
    if not position:
        return None
    return Snapshot(*head[0], *level[0], tuple(seasonal), *position[0], stream[at], *score[0]), position[1]


def decode(stream):
    """The commands and groups from the stream's start on, and the offset where it is none any more (its length if all are)."""
    found, at = [], 0
    while at < len(stream):
        if stream[at] in ONLY_IN_SNAPSHOT:
            break
        taken = decode_snapshot(stream, at) if stream[at] in OPENERS else operands_at(stream, at)
        if taken is None:
            break
        found.append(Decoded(at, taken[1], stream[at], taken[0]))
        at = taken[1]
    return found, at


def items(stream):
    """The stream cut into its commands and groups; what is none of them comes last.

    Of that no more is kept than the longest group has bytes: the program refuses it before.
    """
    found, at = decode(stream)
    return [stream[command.start : command.end] for command in found] + [stream[at : at + LONGEST_SNAPSHOT]] * (at < len(stream))
