"""The program's lines, beside the text that they answer and in words.

A new line is a row of MEANINGS, a new command without one of SILENT, a new refusal one of REJECTIONS.
"""

import bisect
import collections
import itertools
import math
import re
import struct
from fractions import Fraction
from typing import NamedTuple

from lib.cli import Failure
from lib.commands import BACK, COMMANDS, EVEN, KEEP, RELATIVE, TO_EVEN, decode, decode_snapshot
from lib.numerals import FIXED_POINT, counted, readable

REJECTIONS = {
    1: "the input is longer than 65,536 bytes",
    2: "the command's first byte is unknown",
    3: "the command is out of place, or asks for a variance that the model's errors do not have",
    4: "the bytes end inside a command or before a group is finished",
    5: "the model byte is not valid",
    6: "the season length is not one the model allows",
    7: "a parameter is not one the model allows, or command 18 has gains inside the usual region",
    8: "a season's place is not the one due",
    9: "a level, trend or season value is out of range, or not 0 where the model has none",
    10: "the place is out of range, or the count is above 2^48",
    11: "the horizon is outside 1 to 512",
    12: "a slice to be written is shorter than needed",
    13: "the reading is out of range",
    14: "the count already stands at 2^48",
    15: "a new level, trend or season value would leave its range",
    16: "command 10 has gains outside the usual region: model outside opens them by 18",
    17: "the score has more readings than the count, or a sum above its readings times 2^52",
    18: "the variance of the relative residuals is not a number from 0 to 1",
    19: "the variance, or a number on the way to it, is too large for a double",
    20: "a list of step counts does not rise or shares a count, a window is not valid or has no step, or the season length is not 24",
    21: "the name is above 3, or holds no state to bring back",
}
TOO_LONG = 1  # the refusal that names no command


def units(fixed_point, scale):
    return readable(Fraction(int(fixed_point), FIXED_POINT * scale))


def variance_units(high, low, scale):
    return Fraction(int(high) * 2**64 + int(low), 2**32 * scale**2)


def relative_variance_units(bits, scale):
    """The variance of relative errors, of which a line has the bits of a double."""
    return struct.unpack("<d", struct.pack("<Q", int(bits)))[0] / scale**2


def score(snapshot, scale, unit="", decimals=None):
    """How close the forecasts were: the root mean square of the residuals that the state has scored, in the user's units."""
    if snapshot.readings == 0:
        return "no readings yet"
    root = math.sqrt(Fraction(snapshot.high * 2**64 + snapshot.low, snapshot.readings)) / scale
    root = root if decimals is None else round(root, decimals)
    return f"root mean square {readable(root)}{unit} over {counted(snapshot.readings, 'reading')}"


def saved(digits, scale):
    """A saved group with its score, where it did not arrive cut off."""
    whole = re.fullmatch("([0-9a-f]{2})*", digits) and decode_snapshot(bytes.fromhex(digits))
    return f"saved, {len(digits) // 2} bytes" + (f"; {score(whole[0], scale)}" if whole else "")


def opened(model, m):
    kinds = {RELATIVE: ", relative errors", EVEN: ", ties to even"}
    return f"state opened: model {model}, season length {m}" + "".join(kinds[bit] for bit in kinds if int(model) & bit)


MEANINGS = {
    "O": lambda scale, model, m: opened(model, m),
    "E": lambda scale, residual: f"residual {units(residual, scale)}",
    "M": lambda scale: "missing reading taken",
    "F": lambda scale, horizon, value: f"forecast {units(value, scale)} for horizon {horizon}",
    "V": lambda scale, horizon, high, low: f"variance {readable(variance_units(high, low, scale))} for horizon {horizon}",
    "W": lambda scale, horizon, bits: f"variance {readable(relative_variance_units(bits, scale))} for horizon {horizon}",
    "S": lambda scale, digits: saved(digits, scale),
    "X": lambda scale, code, offset: REJECTIONS.get(int(code), "a refusal this tool does not know"),
    "N": lambda scale, count: f"{counted(count, 'step')} counted",
}


SILENT = {
    TO_EVEN: lambda: "no line; ties go to the even number from here on",
    KEEP: lambda name: f"no line; the state is kept as {name}",
    BACK: lambda name: f"no line; the state kept as {name} stands again",
}


def meaning(line, scale):
    letter, *numbers = line.split()
    return MEANINGS[letter](scale, *numbers) if letter in MEANINGS else ""


def is_complete(lines):
    """Whether the program played the whole input: its last line is N."""
    return bool(lines) and lines[-1].startswith("N ")


class Row(NamedTuple):
    number: str  # of the text's line
    text: str
    line: str
    meaning: str

    def __str__(self):
        return f"{self.number:>5}  {self.text:40}  {self.line:40}  {self.meaning}".rstrip()

    def short(self):
        cut = lambda words: words if len(words) < 40 else words[:37] + "..."
        return self._replace(text=cut(self.text), line=cut(self.line))


class Origins:
    """Which piece of the text a byte of the stream comes from."""

    def __init__(self, pieces):
        self.pieces = pieces
        self.stream = b"".join(piece.data for piece in pieces)
        self.starts = list(itertools.accumulate([0] + [len(piece.data) for piece in pieces]))[:-1]

    def at(self, offset):
        """The number of the piece, or None beyond the stream."""
        return bisect.bisect_right(self.starts, offset) - 1 if offset < len(self.stream) else None

    def row(self, offset, line, silent=""):
        """The row of the command at the offset; `silent` is what to say of one without a line."""
        at = self.at(offset)
        if at is None:
            return Row("", "", line, meaning(line, 1))
        piece = self.pieces[at]
        text = "; ".join(source.text for source in piece.sources)
        return Row(str(piece.sources[0].line), text, line, silent or meaning(line, piece.scale))

    def later(self, offset):
        """The lines of the text whose bytes come after the command at the offset."""
        at = self.at(offset)
        if at is None:
            return []
        named = {source.line for source in self.pieces[at].sources}
        return sorted({s.line for piece in self.pieces[at + 1 :] for s in piece.sources if s.line > min(named)} - named)


def not_played(origins, line):
    """What to say after an X line."""
    code, offset = map(int, line.split()[1:])
    if code == TOO_LONG:
        return [f"{'':7}nothing was played: the stream has {len(origins.stream):,} bytes"]
    later = origins.later(offset)
    if not later:
        return []
    span = f"line {later[0]} was" if len(later) == 1 else f"lines {later[0]} to {later[-1]} were"
    return [f"{'':7}{span} not played"]


def explained(pieces, lines):
    """The program's lines as rows beside the text, and what is to be said after them."""
    origins = Origins(pieces)
    answering = collections.deque(decode(origins.stream)[0])

    def silent(end):
        """The commands without a line that come next and stand before the offset."""
        while answering and COMMANDS[answering[0].byte].silent and answering[0].start < end:
            command = answering.popleft()
            yield origins.row(command.start, "", SILENT[command.byte](*command.operands))

    for line in lines:
        if line[:1] == "X":
            code, offset = map(int, line.split()[1:])
            yield from silent(offset)
            yield Row("", "", line, meaning(line, 1)) if code == TOO_LONG else origins.row(offset, line)
            yield from not_played(origins, line)
            continue
        yield from silent(len(origins.stream))
        if line[:1] == "N":
            yield Row("", "", line, meaning(line, 1))
        else:
            command = answering.popleft() if answering else None
            if command is None or COMMANDS[command.byte].letter != line[:1]:
                raise Failure(f"the line {line[:40]} does not belong to this text")
            yield origins.row(command.start, line)
    if not lines or lines[-1][:1] not in "XN":
        yield f"{'':7}the program's output ends without its last line, N or X"


def table(pieces, lines, full=False):
    rows = explained(pieces, lines)
    return "".join(f"{row if full or isinstance(row, str) else row.short()}\n" for row in rows)
