"""The instruments that tools/compare/instrument asks about, most of them thrown by seeded dice, and the questions.

Instruments from every accepted shape of indented lines, from commands in any order, and operators
over a grid of special numbers; each at times around the corners of its envelopes, and some in
stretches of samples. The records are those of crates/ask_instrument/README.md.
"""

import struct
from collections import namedtuple

from f32 import INFINITY, NAN, ONE, SIGN, above, add, below

# A note has at most so many samples.
NOTE_MOST = 1 << 24
RESET, OPERATOR, STACK, SET_COUNT, VALUE, STRETCH, RUN = range(1, 8)
HALF, TWO, EIGHT = 0x3F00_0000, 0x4000_0000, 0x4100_0000
# 1/128, and 512: longer than 2^24 samples at any usual rate.
SMALL, LONG = 0x3C00_0000, 0x4400_0000
SMALLEST, LARGEST = 1, INFINITY - 1
MOST_LINES = 7
# Below 0, 0, above 0 and NaN: most of them no number of a sheet, but all of them numbers of an f32.
SPECIAL = tuple(SIGN | x for x in (INFINITY, LARGEST, ONE, SMALLEST, 0))
SPECIAL += (0, SMALLEST, 0x0080_0000, HALF, ONE, LARGEST, INFINITY, NAN)
# The grid over an operator: these for each of attack, decay, release, duration and time.
GRID = (SIGN | INFINITY, SIGN | ONE, SIGN, 0, SMALLEST, HALF, ONE, EIGHT, LARGEST, INFINITY, NAN)
HUGE = (2**32 - 1, 2**32, 2**63, 2**64 - 1)
RATES = (44100, 44100, 44100, 44100, 44100, 48000, 8000, 1, 0, 3, 2**24 + 1, 2**32 - 1)


# ---- records


def record(kind, *numbers):
    return struct.pack(f"<{1 + len(numbers)}I", kind, *numbers).ljust(32, b"\0")


def long_record(kind, number):
    return record(kind, number % 2**32, number >> 32)


class Operator(namedtuple("Operator", "amplitude freqratio attack decay sustain release feedback")):
    """The bits of six floats, and the feedback."""

    def record(self):
        return record(OPERATOR, *self)


class Stack(namedtuple("Stack", "number")):
    def record(self):
        return long_record(STACK, self.number)


class Instrument(namedtuple("Instrument", "commands count", defaults=(None,))):
    """Commands, and a count where it is not their number."""

    def records(self):
        parts = [record(RESET)] + [command.record() for command in self.commands]
        return b"".join(parts + ([] if self.count is None else [long_record(SET_COUNT, self.count)]))


# A question has a size: how many numbers the answer has, and how many values of the instrument are in it.


class Value(namedtuple("Value", "f d t")):
    """The value at a time."""

    def record(self):
        return record(VALUE, *self)

    def size(self):
        return 1, 1


class Stretch(namedtuple("Stretch", "amplitude f d rate first added length")):
    """A stretch of samples in a slice: added to its first elements, stored in the later ones."""

    def record(self):
        return record(STRETCH, *self)

    def size(self):
        return 1 + self.length, min(self.length, max(NOTE_MOST - self.first, 0))


class Run(namedtuple("Run", "amplitude f d rate first times length")):
    """Stretches one after the other, the last of which is answered; all are within a note."""

    def record(self):
        return record(RUN, *self)

    def size(self):
        return self.length, self.length


# ---- numbers


# Between two floats over 0 each power of two is as likely as the next, since bit patterns are thrown.


def seconds(dice):
    """A length of an envelope stage, or a time: from 1/128 to 2, now and then 0."""
    return 0 if dice.chance(8) else dice.between(SMALL, TWO)


def duration(dice, most):
    """A note's: half of them longer than every time that `seconds` gives, so that it still sounds then."""
    return dice.between(TWO, most) if dice.chance(2) else seconds(dice)


def odd(dice):
    """A number that no sheet gives: a special one, or any bits at all."""
    return dice.pick(SPECIAL) if dice.chance(2) else dice.word() >> 32


def feedback(dice):
    return 0 if dice.chance(2) else dice.below(9)


def frequency(dice, notes):
    return odd(dice) if dice.chance(6) else dice.pick(notes)


# ---- operators and instruments


def plain(dice):
    """An operator as a sheet gives it."""
    amplitude, freqratio = dice.between(SMALL, EIGHT), dice.between(HALF, EIGHT)
    stages = seconds(dice), seconds(dice), dice.between(SMALL, ONE), seconds(dice)
    return Operator(amplitude, freqratio, *stages, feedback(dice))


def bent(dice):
    """A plain operator with one or two odd numbers."""
    fields = list(plain(dice))
    for _ in range(dice.between(1, 2)):
        fields[dice.below(6)] = odd(dice)
    return Operator(*fields)


def wild(dice):
    return Operator(*(odd(dice) for _ in range(6)), feedback(dice))


KINDS = (plain, plain, plain, bent, bent, wild)


def steady(dice):
    """An operator that is never silent: what works on its value, or passes it on, can be told apart."""
    return plain(dice)._replace(attack=SIGN | INFINITY, decay=0, release=INFINITY)


def shapes(most):
    """Every accepted list of indents of up to so many lines: the first is 0, none grows by more than 1."""
    longer = [(0,)]
    for _ in range(most):
        yield from longer
        longer = [shape + (i,) for shape in longer for i in range(shape[-1] + 2)]


def from_lines(shape, operators):
    """01's rule: a line outdented by n puts Stack(n) before itself, and the list is reversed."""
    commands, before = [], 0
    for indent, operator in zip(shape, operators):
        if indent < before:
            commands.append(Stack(before - indent))
        commands.append(operator)
        before = indent
    return Instrument(tuple(reversed(commands)))


def any_stack(dice):
    return Stack(dice.pick(HUGE) if dice.chance(8) else dice.below(6))


def any_commands(dice):
    """Commands in any order, up to 64 of them, and at times a count that is not theirs."""
    length = dice.pick((0, 1, 2, 3, 5, 8, 13, 21, 34, 63, 64))
    throw = dice.pick(KINDS + (steady,) * 4)
    commands = tuple(any_stack(dice) if dice.chance(4) else throw(dice) for _ in range(length))
    count = dice.pick((0, 1, length // 2, length + 1, 63, 64, 65) + HUGE) if dice.chance(4) else None
    return Instrument(commands, count)


# ---- questions


def around(t):
    return below(t), t, above(t)


def corners(operators, d):
    """The times just below, at and just above every corner of the operators' envelopes."""
    times = {d}
    for op in operators:
        times |= {op.attack, add(op.attack, op.decay), add(d, op.release)}
    return [t for corner in sorted(times) for t in around(corner)]


def values(dice, notes, operators, least):
    """Values at every corner, and at further times; those at an odd time are one in four."""
    f, d = frequency(dice, notes), odd(dice) if dice.chance(8) else duration(dice, EIGHT)
    times = corners(operators, d)
    times += [odd(dice) if dice.chance(4) else seconds(dice) for _ in range(least)]
    return [Value(f, d, t) for t in times]


def stretch(dice, notes):
    """A stretch at a note's start, over its end, or past the last sample that a note can have."""
    length = dice.pick((0, 1, 2, 100, 200, 511, 512))
    place = dice.below(4)
    near = (0, dice.below(50_000), NOTE_MOST - dice.below(length + 2), NOTE_MOST + dice.below(9))[place]
    first = 2**32 - 1 if dice.chance(16) else near
    added = dice.pick((0, 1, length // 2, length, length + 1, 2**32 - 1))
    amplitude = odd(dice) if dice.chance(6) else dice.between(SMALL, ONE)
    f, d = frequency(dice, notes), duration(dice, LONG)
    return Stretch(amplitude, f, d, dice.pick(RATES), first, added, length)


# ---- instruments with questions


def shaped(dice, notes, turns):
    """Every accepted shape of up to seven lines, so often with other operators."""
    for shape in shapes(MOST_LINES):
        for turn in range(turns):
            operators = [KINDS[turn % len(KINDS)](dice) for _ in shape]
            yield (from_lines(shape, operators), values(dice, notes, operators, 6))


def disordered(dice, notes, count):
    for _ in range(count):
        instrument = any_commands(dice)
        operators = [c for c in instrument.commands if isinstance(c, Operator)]
        yield (instrument, values(dice, notes, operators[:1], 6))


def gridded(dice, notes):
    """An operator with special numbers for every stage, duration and time, on a steady one's value."""
    for attack in GRID:
        for decay in GRID:
            for release in GRID:
                op = plain(dice)._replace(attack=attack, decay=decay, release=release)
                f = dice.pick(notes)
                instrument = Instrument((steady(dice), op))
                yield (instrument, [Value(f, d, t) for d in GRID for t in GRID])


def fed_back(dice, notes):
    """A single operator with each feedback from 0 to 8, and with the most that a sheet may have."""
    for rounds in list(range(9)) + [255]:
        for _ in range(8):
            op = dice.pick(KINDS + (steady,) * 4)(dice)._replace(feedback=rounds)
            yield (Instrument((op,)), values(dice, notes, [op], 6))


def stretched(dice, notes, count):
    """Stretches of samples. Commands in any order leave a stack that the next sample must not see."""
    small = list(shapes(4))
    for _ in range(count):
        shape = dice.pick(small)
        ordered = from_lines(shape, [plain(dice) for _ in shape])
        instrument = any_commands(dice) if dice.chance(3) else ordered
        questions = [stretch(dice, notes)]
        if dice.chance(8):
            near = questions[0]
            questions.append(Run(*near[:4], dice.below(50_000), dice.between(1, 5), near.length))
        yield (instrument, questions)


def thrown(dice, notes, turns):
    """All instruments of a run with their questions, some 700,000 values at twelve turns."""
    found = list(shaped(dice, notes, turns))
    found += disordered(dice, notes, 3_000)
    found += gridded(dice, notes)
    found += fed_back(dice, notes)
    found += stretched(dice, notes, 800)
    return found


# ---- chosen ones


# The operator `1 1 0 0 1 0`, and 1 Hz for a second, an eighth of a second in: the worked examples of
# the crate's proofs/Examples.antt.
UNIT = Operator(ONE, ONE, 0, 0, ONE, 0, 0)
EIGHTH = Value(ONE, ONE, 0x3E00_0000)
A = 0x43DC_0000  # 440 Hz


def chosen():
    """A few that show each kind of record; crates/ask_instrument keeps them."""
    wave = Operator(HALF, TWO, SMALL, HALF, HALF, ONE, 1)
    tree = from_lines((0, 1, 2, 1), (UNIT, wave, UNIT._replace(feedback=3), wave))
    odd_stages = Operator(SIGN | ONE, NAN, SIGN | HALF, 0, INFINITY, SMALLEST, 2)
    sounding = [Value(A, ONE, t) for t in corners([wave], ONE)]
    part = Stretch(HALF, A, ONE, 44100, 0, 5, 12)
    return [
        (Instrument(()), [EIGHTH, part]),
        (from_lines((0, 1, 1), (UNIT,) * 3), [EIGHTH]),
        (tree, sounding + [part, part._replace(first=NOTE_MOST - 7, d=LONG)]),
        (Instrument((wave,)), sounding + [Run(*part[:5], 3, 12), part._replace(rate=0)]),
        (Instrument((wave._replace(feedback=255),)), sounding[-4:]),
        (Instrument((odd_stages,)), [Value(A, ONE, t) for t in SPECIAL]),
        (Instrument((UNIT, Stack(0), UNIT, UNIT)), [EIGHTH]),
        (Instrument((Stack(2**64 - 1), UNIT, Stack(1), wave, wave, wave)), sounding[3:6]),
        (Instrument((UNIT, wave), 1), [EIGHTH]),
        (Instrument((UNIT, wave), 3), [EIGHTH]),
        (Instrument((wave,) * 64, 2**64 - 1), sounding[3:6] + [part._replace(first=2**32 - 1)]),
    ]
