"""Document 01's small rules for the model: capacities, runs of letters, numbers, a note's figures.

Written from the document alone. A function that reads text takes the text and a place and
gives what it found there together with the place after it.
"""

from fractions import Fraction
from functools import lru_cache
from math import ceil

from f32 import near

# Capacities.
SOURCE_BYTES = 32_768
PARTS = 16
MACROS = 64
INSTRUMENTS = 32
OPERATORS = 32
OPEN_LOOPS = 8
NOTES = 2_048
MACRO_NESTING = 8
STEPS = 100_000
FEEDBACK = 255
DECIMAL_DIGITS = 18
NOTE_SAMPLES = 16_777_216
SHEET_SAMPLES = 2_000_000_000

# Ends of digit runs.
WORD = 2**32 - 1
COUNT = 2**64 - 1

BLANKS = b" \t\n\x0b\x0c\r"
DIGITS = b"0123456789"
KEY_LETTERS = b"abcdefg"
OFFSETS = {"c": 0, "d": 2, "e": 4, "f": 5, "g": 7, "a": 9, "b": 11, "r": 0}
ACCIDENTALS = {b"+": 1, b"-": -1, b"=": 0}

# Field and range of the commands that take a digit run, and of the directives that do.
DIGIT_COMMANDS = {"o": ("octave", 1, 8), "l": ("value", 1, 128), "t": ("tempo", 1, 1000)}
DIGIT_DIRECTIVES = {b"#tempo": ("tempo", 1, 1000), b"#denom": ("denominator", 1, 128)}

RATE = 44_100


class Refused(Exception):
    """A refusal: its number and its line."""

    def __init__(self, number, line):
        super().__init__(number, line)
        self.number = number
        self.line = line


# Text.


def lines_of(source):
    """Lines end at LF; one CR before it is dropped."""
    *ended, last = source.split(b"\n")
    lines = [line[:-1] if line.endswith(b"\r") else line for line in ended]
    return lines + [last] if last else lines


def run_of(letters, text, at):
    """Where the longest run of the letters from a place on ends."""
    while at < len(text) and text[at] in letters:
        at += 1
    return at


def word_at(text, at):
    """A name: from a place to the next blank, and where it ends."""
    end = at
    while end < len(text) and text[end] not in BLANKS:
        end += 1
    return text[at:end], end


def digit_run(text, at, limit):
    """The number of a digit run and where it ends; None if absent or over the limit."""
    end = run_of(DIGITS, text, at)
    # Leading zeros go first: Python refuses to turn some thousand digits into a number.
    digits = text[at:end].lstrip(b"0")
    if end == at or len(digits) > len(str(limit)) or int(digits or b"0") > limit:
        return None, at
    return int(digits or b"0"), end


def decimal(text, at):
    """The digits before and after the point of a decimal and where it ends; None if unreadable."""
    point = run_of(DIGITS, text, at)
    if point == at:
        return None, at
    if text[point : point + 1] != b".":
        return (text[at:point], b""), point
    end = run_of(DIGITS, text, point + 1)
    if end == point + 1:
        return None, at
    return (text[at:point], text[point + 1 : end]), end


@lru_cache(maxsize=None)
def decimal_value(whole, part):
    """The f32 nearest to N / 10^k."""
    return near(Fraction(int(whole + part), 10 ** len(part)))


def checked_decimal(text, at, unreadable, line):
    """A decimal's value and end, or its refusal: unreadable first, then too many digits."""
    found, end = decimal(text, at)
    if found is None:
        raise Refused(unreadable, line)
    if len(found[0]) + len(found[1]) > DECIMAL_DIGITS:
        raise Refused(19, line)
    return decimal_value(*found), end


def read_to_its_end(token, end, strict, line):
    """Request T-05: in strict mode a token whose number or key ended before the token does is refused."""
    if strict and end < len(token):
        raise Refused(32, line)


def key_at(text, at, line):
    """A key's letters and accidental and where it ends."""
    end = run_of(KEY_LETTERS, text, at)
    accidental = ACCIDENTALS.get(text[end : end + 1])
    if accidental is None:
        raise Refused(9, line)
    return (frozenset(text[at:end].decode()), accidental), end + 1


# Numbers of a note.


@lru_cache(maxsize=None)
def power(base, k):
    """The base to the power k, by 01's order of operations."""
    result, square, left = Fraction(1), base, abs(k)
    while left:
        if left % 2:
            result = near(result * square)
        square, left = near(square * square), left // 2
    return near(1 / result) if k < 0 else result


# SEMINOTE_STEP, the number the given Rust writes down, rounded to f32.
STEP = near(Fraction("1.0594630943592952645618253"))


@lru_cache(maxsize=None)
def frequency(semitone):
    return near(440 * power(STEP, semitone - 57))


@lru_cache(maxsize=None)
def duration(tempo, denominator, value, dotted):
    plain = near(near(Fraction(60, tempo)) * near(Fraction(denominator, value)))
    return near(plain * Fraction(3, 2)) if dotted else plain


@lru_cache(maxsize=None)
def samples(seconds, release):
    """ceil((seconds + release) * 44100), sum and product in f32."""
    return ceil(near(near(seconds + release) * RATE))
