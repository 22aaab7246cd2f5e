"""Compares the proved numbers, by the program `ask_numbers`, with the Rust's: decimals, digit runs, sines, frequencies, durations, lengths.

Most are thrown near a limit or a tie: oracle/thrown.rs makes requests of the dice's bytes. crates/ask_numbers/README.md has the form
of a request and of an answer.
"""

import struct

from dice import Dice
from harness import Broken, Case, both_at_once, hold, proved, rust

KINDS = {
    1: "decimal texts",
    2: "digit runs to 2^32 - 1",
    3: "digit runs to 2^64 - 1",
    4: "sines",
    5: "frequencies",
    6: "durations",
    7: "lengths",
    8: "ranges of sines",
}
DECIMAL, DIGITS32, DIGITS64, SINE, FREQUENCY, DURATION, LENGTH, SINES = KINDS
SEMITONES = range(10, 110)
COUNT = 6_400_000
# The proved sines of a range are worked out 32 at a time, another way where these have one exponent; so ranges lie across each change of it.
FIELDS = range(1 << 9)
ACROSS = 16
FLOORS = dict(zip(KINDS.values(), (3_200_000, 320_000, 320_000, 640_000, 1_600, 320_000, 320_000, 560)))
# So many are thrown and asked together, from so many bytes of the dice for each: on the average a request takes 45.
BLOCK = 200_000
ENOUGH = 64
ASK, RUST = proved("ask_numbers"), rust("ruled", "numbers")


def of_text(kind, text, place=0):
    return struct.pack("<3B29s", kind, len(text), place, text.encode("ascii"))


def of_numbers(kind, *numbers):
    return struct.pack(f"<I{len(numbers)}I", kind, *numbers).ljust(32, b"\0")


def across(field, count):
    """The sines of a range that begins before a sign and exponent's first pattern."""
    return of_numbers(SINES, ((field << 23) - ACROSS) % (1 << 32), count)


def in_words(request):
    kind, length, place = request[:3]
    if kind in (DECIMAL, DIGITS32, DIGITS64):
        return f"{KINDS[kind]}, {request[3 : 3 + length]!r} at {place}"
    return f"{KINDS.get(kind, 'no such kind')}, " + " ".join(f"{n:08x}" for n in struct.unpack_from("<4I", request, 4))


def frequencies(name):
    """The bits of the frequency of every semitone that a note can have, as a Rust program has them."""
    answers = rust(name, "numbers")(b"".join(of_numbers(FREQUENCY, s) for s in SEMITONES))
    return [bits for _, bits, _ in struct.iter_unpack("<IQI", answers)]


class Block(Case):
    """Requests that are asked together."""

    def __init__(self, requests):
        kinds = requests[::32]
        super().__init__("", requests, RUST(requests), {what: kinds.count(kind) for kind, what in KINDS.items()})
        if 2 * len(self.wanted) != len(requests):
            raise Broken("the Rust did not answer every request")

    def pieces(self):
        places = range(len(self.request) // 32)
        pairs = [(self.request[32 * k :][:32], self.wanted[16 * k :][:16]) for k in places]
        return [Case(in_words(request), request, wanted) for request, wanted in pairs]


def held(requests):
    return hold("ask_numbers", ASK, [Block(requests)])


def unthrown(dice):
    """Every frequency that a sheet can have, more below and above, some up to what the Rust's i32 holds; and ranges of sines."""
    far = [(dice.word() >> 32) >> dice.between(1, 32) for _ in range(1_000)]
    frequencies = [of_numbers(FREQUENCY, s) for s in (*range(1_000), *far)]
    ranges = [of_numbers(SINES, dice.word() >> 32, 0x1_0000) for _ in range(64)]
    return b"".join(frequencies + ranges + [across(field, 100) for field in FIELDS])


def thrown(seed, count):
    """So many thrown requests, held."""
    tape = Dice(seed).bytes(ENOUGH * (count + 10))
    return held(rust("ruled", "thrown")(tape)[: 32 * count])


def compare(seed, count):
    dice = Dice(seed)
    counts = held(unthrown(dice))
    blocks = [(dice.word(), min(BLOCK, count - at)) for at in range(0, count, BLOCK)]
    return sum(both_at_once(lambda block: thrown(*block), blocks), counts)


# ---- the chosen requests


DECIMALS = (
    *("0,7", "1e3", ".5", "5.", "", "0.7", "00.70", "1.00000001", "1.0000001", "16777217", "16777219"),
    *("16777217.0000000001", "8388608.5", "0.00000000000000001", "999999999999999999", "1234567890123456789"),
    *("0.123456789012345678", "1234567890123456789."),
)
RUNS32 = ("0", "007x", "4294967295", "4294967296", "x", "")
RUNS64 = ("]18446744073709551615", "]18446744073709551616", "]000018446744073709551615")
# 0, -0, 1, -1, 440, 1e9, 2^31, infinity, NaN
ANGLES = (0, 0x80000000, 0x3F800000, 0xBF800000, 0x43DC0000, 0x4E6E6B28, 0x4F000000, 0x7F800000, 0x7FC00000)
DURATIONS = ((100, 4, 4, 0), (100, 4, 4, 1), (1000, 1, 128, 1), (0, 0, 0, 0))
# 0.6, 0.5, 0, -0, -1, 380.43573, 380.4358, NaN
LENGTHS = (0x3F19999A, 0x3F000000, 0, 0x80000000, 0xBF800000, 0x43BE37C6, 0x43BE37C8, 0x7FC00000)


def chosen():
    """A few dozen that show each answer, and each rule that is easy to get wrong."""
    return b"".join((
        *(of_text(DECIMAL, text) for text in DECIMALS),
        of_text(DECIMAL, "v0.50 c", 1),
        of_text(DECIMAL, "12", 9),
        *(of_text(DIGITS32, text) for text in RUNS32),
        *(of_text(DIGITS64, text, 1) for text in RUNS64),
        *(of_numbers(SINE, x) for x in ANGLES),
        *(of_numbers(FREQUENCY, s) for s in (10, 57, 58, 109)),
        *(of_numbers(DURATION, *numbers) for numbers in DURATIONS),
        *(of_numbers(LENGTH, x, 44_100) for x in LENGTHS),
        of_numbers(SINES, 0x3F800000, 256),
        of_numbers(99),
    ))


def kept():
    requests = chosen()
    return {"crates/ask_numbers/stdin": requests, "crates/ask_numbers/stdout": RUST(requests)}
