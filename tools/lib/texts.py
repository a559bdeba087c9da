"""The text of tools/stream: each line read, checked and written as the bytes of its command."""

import itertools
import re
from typing import NamedTuple

from lib import commands
from lib.cli import Mistake, shown
from lib.commands import DOUBLE, EVEN, LEVEL, MODEL, OUTSIDE, POSITION, RELATIVE, SCORE, SEASON, COMMANDS, encode, fitted, in_words
from lib.numerals import decimal, double, nearest, whole

TRENDS = {"none": 0, "straight": 1, "damped": 2}
STRAIGHT, SEASONAL = 1, 4  # the trend's bits and the season's bit of the model byte
BITS = {"even": EVEN, "relative": RELATIVE}  # the others', by the word that stands before the trend
PARAMETERS = {"alpha": "A", "beta": "B", "gamma": "G", "phi": "F"}
LETTERED = {"level": "l", "l": "l", "trend": "b", "b": "b", "season": "s", "s": "s"}
STATE_WORDS = {**LETTERED, "place": "place", "count": "count", "score": "score"}
SCORE_FIELDS = tuple(field.name for field in COMMANDS[SCORE].fields)
IN_UNITS = ("level", "trend", "season")
SINGLE = {command.word: command for command in COMMANDS.values() if command.word}


class Source(NamedTuple):
    """A line of the text."""

    line: int
    text: str


class Piece(NamedTuple):
    """Bytes of the stream, the lines that they come from, and the scale there."""

    data: bytes
    sources: tuple
    scale: int


class Description:
    """A group that is being described: its numbers by document 01's letters, each with the line that gave it."""

    def __init__(self, source, scale, words):
        self.source, self.scale = source, scale
        self.given = {}  # name, or (s, place), to value, line and the user's words
        kinds = list(itertools.takewhile(lambda word: word == "outside" or word in BITS, words))
        words = words[len(kinds) :]
        for k, kind in enumerate(kinds):
            if kind in kinds[:k]:
                raise Mistake(f"{kind} is given a second time")
        self.opener = OUTSIDE if "outside" in kinds else MODEL
        self.byte = self.model_byte(words)
        for kind in kinds:
            self.byte |= BITS.get(kind, 0)
        self.parameters(words[1:])

    def model_byte(self, words):
        if not words or not (words[0] in TRENDS or words[0][0].isdigit()):
            raise Mistake("a model is none, straight or damped, or a model byte")
        if words[0] in TRENDS:
            return TRENDS[words[0]] | (SEASONAL if "m" in words[1::2] else 0)
        value = whole("model", words[0])
        return fitted("model", value, f"model {words[0]}")

    def parameters(self, words):
        for name, word in zip(words[::2], words[1::2]):
            if name in PARAMETERS:
                value = nearest(decimal(name, word))
                said = in_words(name, word, value, " 65,536ths")
            elif name in ("m", *PARAMETERS.values()):
                value = whole(name, word)
                said = f"{name} {word}"
            else:
                raise Mistake(f"a model has no {shown(name)}")
            key = PARAMETERS.get(name, name)
            self.give(key, fitted(key, value, said), f"{name} {word}", self.source)
        if len(words) % 2:
            raise Mistake(f"{shown(words[-1])} takes a number")

    def give(self, key, value, said, source):
        if key in self.given:
            _, before, said_before = self.given[key]
            where = "this line" if before == source else f"line {before.line}"
            raise Mistake(f"{said} is given a second time: {said_before} stands on {where} already")
        self.given[key] = value, source, said

    def describe(self, words, source):
        """Takes a line such as `level 21.5` or `s 3 32768`."""
        name, rest = words[0], words[1:]
        if name == "score":
            self.describe_score(rest, source)
            return
        letter = STATE_WORDS[name]
        if len(rest) != (2 if letter == "s" else 1):
            raise Mistake(f"{name} takes {'a place and a number' if letter == 's' else 'one number'}")
        key, field = letter, name
        if letter == "s":
            key = ("s", self.seasonal_index(name, rest[0]))
            field = f"{name} {key[1]}"
        value = nearest(decimal(field, rest[-1]) * self.scale) if name in IN_UNITS else whole(field, rest[-1])
        said = in_words(field, rest[-1], value, " 65,536ths" if name in IN_UNITS else "")
        self.give(key, fitted(letter, value, said), f"{field} {rest[-1]}", source)

    def describe_score(self, rest, source):
        if len(rest) != len(SCORE_FIELDS):
            raise Mistake("score takes three numbers: the readings, and the sum's high and low word")
        for field, word in zip(SCORE_FIELDS, rest):
            said = f"score's {field}"
            self.give(field, fitted(field, whole(said, word), f"{said} {word}"), f"score {' '.join(rest)}", source)

    def seasonal_index(self, name, word):
        index, m = whole(f"{name}'s place", word), self.value("m")
        if "m" not in self.given:
            raise Mistake(f"{name} {word}: the model has no season, its line gives no m")
        if not 0 <= index < m:
            raise Mistake(f"{name} {word}: the model's m is {m}, so its places are {f'0 to {m - 1}' if m else 'none'}")
        return index

    def value(self, key):
        straight = self.byte & 3 == STRAIGHT
        return self.given[key][0] if key in self.given else 65536 if key == "F" and straight else 0

    def sources(self, *keys):
        """The lines that gave the numbers, or the model's where none did."""
        found = {self.given[key][1] for key in keys if key in self.given}
        return tuple(sorted(found)) or (self.source,)

    def pieces(self):
        value, m = self.value, self.value("m")
        made = [(encode(self.opener, self.byte, m, *map(value, "ABGF")), (self.source,))]
        made.append((encode(LEVEL, value("l"), value("b")), self.sources("l", "b")))
        made.append((encode(SCORE, *map(value, SCORE_FIELDS)), self.sources(*SCORE_FIELDS)))
        made += [(encode(SEASON, k, value(("s", k))), self.sources(("s", k))) for k in range(m)]
        # the score is tested here too, beside the count
        made.append((encode(POSITION, value("place"), value("count")), self.sources("place", "count", *SCORE_FIELDS)))
        return [Piece(data, sources, self.scale) for data, sources in made]


class Reader:
    """Takes a text line by line."""

    def __init__(self):
        self.scale, self.described, self.pieces = 1, None, []

    def take(self, source, words):
        if words[0] in STATE_WORDS:
            if self.described is None:
                raise Mistake(f"{words[0]} belongs after a model line")
            self.described.describe(words, source)
            return
        self.close()
        if words[0] == "scale":
            self.scale = scale(words)
        elif words[0] == "model":
            self.described = Description(source, self.scale, words[1:])
        else:
            self.pieces.append(Piece(command(words, self.scale), (source,), self.scale))

    def close(self):
        if self.described is not None:
            self.pieces += self.described.pieces()
        self.described = None


def scale(words):
    found = whole("scale", words[1]) if len(words) == 2 else 0
    if found < 1:
        raise Mistake("scale takes one whole number above 0")
    return found


def hexadecimal(words):
    name, digits = words[0], "".join(words[1:])
    if not re.fullmatch(r"([0-9a-fA-F]{2})+", digits) or any(len(word) % 2 for word in words[1:]):
        raise Mistake(f"{name} takes hexadecimal digits, two to a byte")
    return bytes.fromhex(digits)


def saved_snapshot(words):
    """A group as an S line has it, or had it before there was a score. One that was cut when it was copied is told here;
    `bytes` takes anything."""
    data = hexadecimal(words)
    found = commands.decode_snapshot(data)
    if found is None or found[1] != len(data):
        raise Mistake(f"the {len(data)} bytes after group are not one whole group (bytes takes any)")
    return data


def command(words, scale):
    """The bytes of a line outside a group's description."""
    name, rest = words[0], words[1:]
    if name == "bytes":
        return hexadecimal(words)
    if name == "group":
        return saved_snapshot(words)
    if name not in SINGLE:
        raise Mistake(f"{shown(name)} is not known")
    fields = SINGLE[name].fields
    if len(rest) != len(fields):
        raise Mistake(f"{name} takes {len(fields) or 'no'} number{'s' * (len(fields) != 1)}")
    return encode(SINGLE[name].byte, *[operand(name, field, word, scale) for field, word in zip(fields, rest)])


def operand(name, field, word, scale):
    if field.name == "reading":
        return reading(word, scale)
    said = f"{name}'s {field.name}"
    return double(said, word) if field.code == DOUBLE else fitted(field.name, whole(said, word), f"{said} {word}")


def reading(word, scale):
    value = decimal("reading", word) * scale
    if value.denominator != 1:
        raise Mistake(f"reading {word} is not whole at scale {scale}")
    return fitted("reading", int(value), in_words("reading", word, int(value), f" at scale {scale}"))


def lines(text):
    """The lines of the text, without comments, as words. They end in LF, CRLF or CR; blanks and tabs part words."""
    for number, line in enumerate(re.split("\r\n|\n|\r", text), 1):
        words = re.findall("[^ \t]+", line.split("#")[0])
        if words:
            yield Source(number, " ".join(words)), words


def pieces(text, name):
    """The whole text as pieces of a stream; a mistake names the file and the line."""
    reader = Reader()
    for source, words in lines(text):
        try:
            reader.take(source, words)
        except Mistake as e:
            raise Mistake(f"{name}, line {source.line}: {e}") from None
    reader.close()
    return reader.pieces
