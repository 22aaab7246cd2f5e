"""Compares the proved WAV bytes, by the program `ask_wave`, with the Rust's: files, windows and headers, every byte of the buffer.

Every place at which a sample's 16-bit number changes is tried with its neighbours, and every small buffer with every place in it. A file
with the old RIFF size is the given Rust's, byte for byte; with the published one it differs in the size's four bytes alone. What the Rust has
no say in is worked out here: which bytes stay as they were, what is refused, and the header at other rates. crates/ask_wave/README.md has the form of a request and of an answer.
"""

import struct
from collections import Counter
from fractions import Fraction
from functools import lru_cache

import f32
from dice import Dice
from f32 import INFINITY, ONE, SIGN, packed
from harness import Broken, Case, hold, proved, rust
from riff import ALSO_PUBLISHED, HEADER_BYTES, OLD, PUBLISHED, header_of, sized

# Files of thrown samples, twice.
COUNT = 64
FLOORS = {"samples": 3_000_000, "files": 2_500, "windows": 8_200, "headers": 650, "of the old size": 1_400, "refused": 2_250}
ASK, RUST = proved("ask_wave"), rust("given", "samples")
FILE, WINDOW, HEADER = 0, 1, 2
RATE = 44_100
TOO_SHORT = 30
# What ask_wave has room for, and what its buffer holds before it is written to.
MOST_SAMPLES = 16_384
MOST_ROOM = 65_536
PATTERN = bytes(i % 251 for i in range(MOST_ROOM))
# A run's answers are held in memory.
MOST_AT_ONCE = 20_000_000

SPECIAL = [
    *(0, 1, 2, 0x007F_FFFF, 0x0080_0000),  # zero, the subnormals' ends, the least normal number
    *range(ONE - 2, ONE + 3),
    *(0x3F00_0000, 0x46FF_FE00, 0x46FF_FF00, 0x4700_0000),  # 0.5, 32767.0, 32767.5, 32768.0
    *(0x4F00_0000, 0x5F00_0000, INFINITY - 1, INFINITY),  # 2^31, 2^63, the largest, infinity
    *(0x7F80_0001, 0x7FA0_0000, 0x7FC0_0000, 0x7FFF_FFFF),  # NaN: two signalling, two quiet
]
SOME = 20
IN_A_FILE = 16_000
LARGER = (1_000, 4_096, MOST_SAMPLES - 1, MOST_SAMPLES)
FAR = 2**32 - 1


# ---- what must be answered


@lru_cache(maxsize=64)
def rust_bytes(samples):
    """The WAV bytes that the given Rust makes of samples. Its header must be the form's with the old size."""
    made, count = RUST(samples), len(samples) // 4
    if made[:HEADER_BYTES] != header_of(OLD, RATE, count):
        raise Broken(f"the Rust's header of {count} samples is not the form's")
    return made


def asked(kind, room, place, rate, samples=b"", count=None, refusal=0, told=0, written=b""):
    """A request with its answer: refusal, count, and the buffer with what was written in it."""
    count = len(samples) // 4 if count is None else count
    words = f"{('file', 'window', 'header')[kind]}, room {room}, place {place}, rate {rate}, count {count}"
    request = struct.pack("<5I", kind, room, place, rate, count) + samples
    at = place if kind == WINDOW else 0
    buffer = PATTERN[:at] + written + PATTERN[at + len(written) :]
    sampled = {FILE: max(told - HEADER_BYTES, 0) // 2, WINDOW: told, HEADER: 0}[kind]
    old = int(kind != WINDOW and place == OLD)
    counts = {("files", "windows", "headers")[kind]: 1, "of the old size": old, "samples": sampled, "refused": int(refusal != 0)}
    return Case(words, request, struct.pack("<2Q", refusal, told) + buffer[:room], counts)


def file(room, samples, number, rate=RATE):
    whole = sized(number, rust_bytes(samples))
    if rate != RATE:
        whole = header_of(number, rate, len(samples) // 4) + whole[HEADER_BYTES:]
    if len(whole) > room:
        return asked(FILE, room, number, rate, samples, refusal=TOO_SHORT)
    return asked(FILE, room, number, rate, samples, told=len(whole), written=whole)


def window(room, place, samples):
    fit = min(len(samples) // 4, max(room - place, 0) // 2)
    written = rust_bytes(samples)[HEADER_BYTES:][: 2 * fit]
    return asked(WINDOW, room, place, 0, samples, told=fit, written=written)


def header(room, number, rate, count):
    if room < HEADER_BYTES:
        return asked(HEADER, room, number, rate, count=count, refusal=TOO_SHORT)
    return asked(HEADER, room, number, rate, count=count, told=HEADER_BYTES, written=header_of(number, rate, count))


# ---- what is asked


@lru_cache(maxsize=None)
def boundaries():
    """The f32 nearest to each (v + 0.5) / 32767.5, with two neighbours on either side."""
    halves = [f32.pattern(f32.near(Fraction(2 * v + 1, 65_535))) for v in range(32_769)]
    places = [SIGN | at for at in reversed(halves)] + halves
    return [near for at in places for near in range(at - 2, at + 3)]


def thrown(dice, count):
    return struct.unpack(f"<{count}I", dice.bytes(4 * count))


def audible(patterns):
    """Signs and digits at a size from 2^-17 to below 2, where they tell in the sample."""
    return [bits & 0x807F_FFFF | (110 + (bits >> 23) % 18) << 23 for bits in patterns]


def signed(patterns):
    return [pattern | sign for pattern in patterns for sign in (0, SIGN)]


def filled(patterns, number):
    """A file of the patterns that is exactly as long as its buffer."""
    return file(HEADER_BYTES + 2 * len(patterns), packed(patterns), number)


def every_sample(dice, files):
    """Special floats, all boundaries, and so many files of thrown floats, twice."""
    yield filled(signed(SPECIAL), OLD)
    near = boundaries()
    for start in range(0, len(near), IN_A_FILE):
        yield filled(near[start : start + IN_A_FILE], OLD)
    for i in range(files):
        yield filled(thrown(dice, IN_A_FILE), (OLD, PUBLISHED)[i % 2])
        yield filled(audible(thrown(dice, IN_A_FILE)), (OLD, PUBLISHED)[i % 2])


def every_length(samples):
    """Each length up to SOME, in each buffer up to a little more than it needs."""
    for n in range(SOME + 1):
        some = samples[: 4 * n]
        for room in range(HEADER_BYTES + 2 * n + 4):
            yield file(room, some, PUBLISHED)
            yield file(room, some, OLD)
        for room in range(2 * n + 5):
            for place in (*range(room + 3), FAR):
                yield window(room, place, some)


def larger(samples):
    for n in LARGER:
        some = samples[: 4 * n]
        whole = HEADER_BYTES + 2 * n
        for room in (0, 43, 44, whole - 2, whole - 1, whole, whole + 1, whole + 500, MOST_ROOM):
            yield file(room, some, PUBLISHED)
            yield file(room, some, OLD)
            for place in (0, 1, 43, 44, room // 2, room - 2, room - 1, room, room + 1, FAR):
                if place >= 0:
                    yield window(room, place, some)


def every_header(samples):
    """Each buffer up to one that is longer than the header, numbers of every size, and each name of the RIFF size."""
    numbers = (0, 1, 255, 256, 44_100, 48_000, 65_536, 2_000_000_000, 2**31 - 1, 2**31, FAR)
    for room in range(HEADER_BYTES + 7):
        yield header(room, PUBLISHED, RATE, room)
        yield header(room, OLD, RATE, room)
    for k, rate in enumerate(numbers):
        some = samples[: 4 * k]
        for number in (PUBLISHED, OLD, *ALSO_PUBLISHED):
            yield file(HEADER_BYTES + len(some) // 2, some, number, rate)
            for count in (*numbers, 2**31 - 18, 2**31 - 16):
                yield header(50, number, rate, count)


def cases(dice, files):
    samples = packed(audible(thrown(dice, MOST_SAMPLES)))
    yield from every_length(samples)
    yield from every_header(samples)
    yield from every_sample(dice, files)
    yield from larger(samples)


def batches(cases):
    """The cases in lists whose answers are not too long together."""
    batch, size = [], 0
    for case in cases:
        if size + len(case.wanted) > MOST_AT_ONCE:
            yield batch
            batch, size = [], 0
        batch.append(case)
        size += len(case.wanted)
    yield batch


def compare(seed, count):
    counts = Counter()
    for batch in batches(cases(Dice(seed), count)):
        counts += hold("ask_wave", ASK, batch)
    return counts


# ---- what is kept, and a file for other readers


def kept():
    """A few small requests of each kind, taken and refused."""
    specials = packed(signed(SPECIAL))
    middle = packed(boundaries()[5 * 32_768 - 50 : 5 * 32_768 + 50])
    chosen = [
        file(44, b"", PUBLISHED),
        file(43, b"", PUBLISHED),
        file(44 + len(specials) // 2 + 9, specials, PUBLISHED),
        file(44 + len(specials) // 2 + 9, specials, OLD),
        file(44 + len(middle) // 2, middle, OLD),
        file(44 + len(middle) // 2 - 1, middle, OLD),
        window(21, 8, middle),
        window(21, 22, middle),
        header(48, PUBLISHED, 48_000, 16),
        header(48, OLD, 48_000, 16),
        header(43, OLD, 48_000, 16),
    ]
    requests, answers = (b"".join(part) for part in zip(*((case.request, case.wanted) for case in chosen)))
    return {"crates/ask_wave/stdin": requests, "crates/ask_wave/stdout": answers}


def proved_file(count, number):
    """A file of samples that lie all over -1 to 1, as the proved program writes it with the RIFF size that a number stands for."""
    samples = packed(audible(thrown(Dice(1), count)))
    return ASK(struct.pack("<5I", FILE, HEADER_BYTES + 2 * count, number, RATE, count) + samples)[16:]
