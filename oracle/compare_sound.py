"""Compares the proved renderer and WAV writers, by the program `ask_engine`, with the Rust, window by window.

Accepted sheets, hand-made and generated, each with windows of samples and of bytes cut at thrown places and sizes, empty and one-sample
ones among them, with headers, and with each field of the sheet put out of range. The Rust has 01's sine, power and order of parts.
"""

from collections import Counter
from itertools import chain

import model
from dice import Dice
from harness import Broken, Case, both_at_once, escape, hold, proved, rust
from riff import ALSO_PUBLISHED, OLD, PUBLISHED
from sheets import sheets
from sound_requests import BYTES, HEADER, SAMPLES, Asked, Sound

COUNT = 300
# Longer sheets take the Rust long and show nothing more.
LONGEST = 120_000
FLOORS = {
    "sheets": 300,
    "sheets of several parts": 110,
    "windows of samples": 2_700,
    "windows of bytes": 4_700,
    "headers": 2_900,
    "samples": 2_000_000,
    "refused 28": 2_300,
    "refused 29": 400,
    "refused 30": 2_450,
    "odd but in range": 1_200,
}
ASK = proved("ask_engine")
STORED_SEED, STORED_SHEETS, STORED_ROOM = 3, 24, 400

HAND_MADE = (
    b"p ;\n",
    b"p a\n",
    b"p r\n",
    b"p v0 a\nq v0 a\n",
    b"p v0 a\nq a2\n",
    b"p t1000 l128 abc\nq t1000 l64 c\np d\n",
    b"@s\n1 1 0.01 0.01 0.5 0.3 3\n p\np @s t1000 l32 cdef\nq t1000 r1 @s a64\n",
    b"@s\n1 1 0 0 1 0.2\n 2 3 0 0 1 0\n 1 2 0 0 1 0\np @s t1000 [c64 d64]9\nq t1000 [e64 :f64]5\n",
)
NAN, INFINITY, BELOW, MINUS_THREE, MINUS_INFINITY, LONG = 0x7FC00000, 0x7F800000, 0x80000001, 0xC0400000, 0xFF800000, 0x43C80000
MINUS_ZERO = 0x80000000
ALL = 0xFFFFFFFF


class Sounding:
    """An accepted sheet: its text, its parts, notes and instruments, those that have commands, and its sound."""

    def __init__(self, text, sheet):
        self.text, self.length = text, sheet.length()
        self.parts = len(sheet.parts)
        self.notes = [note for part in sheet.parts.values() for note in part.notes]
        self.instruments = len(sheet.instruments)
        self.commanded = [k for k, instrument in enumerate(sheet.instruments) if instrument.commands]

    def sounded(self):
        """The same with what the Rust makes of it."""
        self.sound = Sound(*(rust("ruled", mode)(self.text) for mode in ("raw", "wav")))
        if self.sound.length != self.length:
            raise Broken(f"ruled has {self.sound.length} samples, the model {self.length}: {escape(self.text)}")
        return self


def accepted(seed, count):
    """Sheets that are accepted and not too long."""
    made = []
    for text in chain(HAND_MADE, sheets(seed)):
        sheet = model.read(text)
        if isinstance(sheet, model.Sheet) and sheet.length() <= LONGEST:
            made.append(Sounding(text, sheet))
        if len(made) == count:
            return both_at_once(Sounding.sounded, made)


# ---- requests


def windows(dice, length):
    """Windows of samples and of bytes: at the ends, and thrown."""
    edges = [(start, room) for start in (0, length, length + 1) for room in (0, 1, 7)]
    thrown = [(dice.below(length + 2), dice.below(dice.pick((3, 300, 9_000)))) for _ in range(3)]
    for start, room in edges[: 9 if dice.chance(4) else 4] + thrown:
        yield Asked(SAMPLES, start, room)
        place = dice.pick((0, 1, room, dice.below(room + 3)))
        yield Asked(BYTES, start, room, place)
        yield Asked(BYTES, dice.below(length + 1), place + 2 * room + dice.below(2), place)


def headers(dice):
    """The header with each RIFF size, and by a number that stands for none."""
    rooms = (0, 43, 44, 44 + dice.below(99))
    return [Asked(HEADER, number, room) for number in (PUBLISHED, OLD) for room in rooms] + [Asked(HEADER, dice.pick(ALSO_PUBLISHED), 60)]


def out_of_range(dice, sheet):
    """Fields put out of range, each with 28; and what is odd but in range, with None."""
    part, instrument = dice.below(sheet.parts), dice.below(sheet.instruments)
    yield 28, (1, 0, dice.pick((17, ALL)))
    yield 28, (2, 0, dice.pick((33, ALL)))
    yield 28, (3, part, dice.pick((2049, ALL)))
    yield 28, (6, instrument, dice.pick((NAN, BELOW, MINUS_THREE, MINUS_INFINITY)))
    yield 28, (7, instrument, dice.pick((65, ALL)))
    yield 28, (8, dice.pick(sheet.commanded), dice.pick((256, ALL)))
    yield None, (6, instrument, MINUS_ZERO)
    yield None, (11, dice.pick(sheet.commanded), ALL)
    unused = sorted(set(range(sheet.instruments)) - {note[3] for note in sheet.notes})
    if unused:
        yield None, (6, dice.pick(unused), INFINITY)
    if sheet.notes:
        note = dice.below(len(sheet.notes))
        yield 28, (2, 0, 0)
        yield 28, (4, note, dice.pick((sheet.instruments, ALL)))
        yield 28, (5, note, dice.pick((NAN, BELOW, MINUS_THREE, MINUS_INFINITY, INFINITY, LONG)))
        yield 28, (6, sheet.notes[note][3], dice.pick((INFINITY, LONG)))
        yield None, (5, note, MINUS_ZERO)
        for field in (9, 10):
            yield None, (field, note, dice.pick((NAN, INFINITY, MINUS_INFINITY)))


def damaged(dice, sheet):
    for refusal, (field, which, becomes) in out_of_range(dice, sheet):
        kind = dice.pick((SAMPLES, HEADER, BYTES))
        # Past the length and the buffer too, so that 28 is seen to come first.
        start = 0 if refusal is None else dice.pick((0, sheet.sound.length + 1))
        yield refusal, Asked(kind, start, dice.pick((0, 5, 60)), 0, field, which, becomes)


def requests(seed, sheet):
    """Each request with the refusal that it must get: 0 where the Rust's sound decides, None where any sound is right."""
    dice = Dice(seed)
    sounding = [*windows(dice, sheet.sound.length), *headers(dice)]
    return [(0, asked) for asked in sounding] + list(damaged(dice, sheet))


# ---- holding them


def case_of(sheet, refusal, asked):
    wanted = sheet.sound.answer(asked, refusal)
    number, written = (int.from_bytes(wanted[i : i + 4], "little") for i in (0, 4))
    kind = ("windows of samples", "headers", "windows of bytes")[asked.kind]
    counts = {kind: 1, "samples": written if asked.kind != HEADER else 0, f"refused {number}": 1}
    return Case(f"{escape(sheet.text)}, {asked}", asked.request(sheet.text), wanted, counts)


def hold_odd(sheet, asked):
    """What is odd but in range may sound in any way, but is not refused for what it is."""
    answer = ASK(asked.request(sheet.text))
    number = int.from_bytes(answer[:4], "little")
    if len(answer) != asked.size() or number not in (0, 30):
        raise Broken(f"ask_engine refuses with {number}: {escape(sheet.text)}, {asked}")


def all_cases(seed, count):
    """The sheets, the cases whose answers are known, and the requests that are odd but in range, each with its sheet."""
    made = accepted(seed, count)
    asked = [(sheet, *pair) for i, sheet in enumerate(made) for pair in requests(seed + i, sheet)]
    known = [case_of(*triple) for triple in asked if triple[1] is not None]
    return made, known, [(sheet, a) for sheet, refusal, a in asked if refusal is None]


def compare(seed, count):
    made, known, odd = all_cases(seed, count)
    counts = hold("ask_engine", ASK, known)
    both_at_once(lambda pair: hold_odd(*pair), odd)
    several = sum(sheet.parts > 1 for sheet in made)
    return counts + Counter({"sheets": len(made), "sheets of several parts": several, "odd but in range": len(odd)})


def kept():
    """What is kept stays small."""
    _, known, _ = all_cases(STORED_SEED, STORED_SHEETS)
    small = [case for case in known if Asked.room_of(case.request) <= STORED_ROOM]
    return {
        "crates/ask_engine/stdin": b"".join(case.request for case in small),
        "crates/ask_engine/stdout": b"".join(case.wanted for case in small),
    }
