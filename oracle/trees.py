"""Indented lines as trees, in the words of demand 3 and of request T-13, and the trees' values from single operators.

A tree is a line's number with the trees of its children. Nothing here knows of commands or of a stack, so that the machine's values can be
held against these. The operators are `1 1 0 0 1 0` with an amplitude for each line, a second of 1 Hz, an eighth of a second in.
"""

import struct
from fractions import Fraction
from functools import reduce

from compare_numbers import SINE, of_numbers
from f32 import SIGN, near, pattern
from harness import rust
from instrument_cases import EIGHTH, UNIT

NUMBERS = rust("ruled", "numbers")


# ---- trees


def trees_of(shape):
    """The unindented lines' trees: a line is a child of the last line before it that has one indent less."""
    below = [[]]
    for line, indent in enumerate(shape):
        children = []
        below[indent].append((line, children))
        below[indent + 1 :] = [children]
    return below[0]


def with_chains(shape, trees):
    """A childless line directly followed by one of equal indent is modulated by the sum of that line and all its later siblings, and the sum ends with it."""
    if not trees:
        return []
    (line, children), *later = trees
    if shape[line + 1 : line + 2] == shape[line : line + 1]:
        return [(line, with_chains(shape, later))]
    return [(line, with_chains(shape, children)), *with_chains(shape, later)]


def chained(shape):
    return with_chains(shape, trees_of(shape))


def is_stepped(shape):
    """No two neighbouring lines have equal indent."""
    return all(a != b for a, b in zip(shape, shape[1:]))


def chains_are_last(shape):
    """Each pair of neighbours of equal indent is followed, anywhere later, by no line of smaller indent."""
    pairs = [k for k in range(len(shape) - 1) if shape[k] == shape[k + 1]]
    return all(indent >= shape[k] for k in pairs for indent in shape[k + 2 :])


# ---- values


def rounded(value):
    return near(value) if value >= 0 else -near(-value)


def bits_of(value):
    return pattern(value) if value >= 0 else SIGN | pattern(-value)


def float_of(bits):
    return Fraction(*struct.unpack("<f", struct.pack("<I", bits))[0].as_integer_ratio())


def sines(values):
    """The Rust's sines."""
    answers = NUMBERS(b"".join(of_numbers(SINE, bits_of(value)) for value in values))
    return [float_of(bits) for _, bits, _ in struct.iter_unpack("<IQI", answers)]


# The phase without an input: 2 PI times 1 Hz and the ratio 1, and an eighth of a second.
TURN = near(2 * float_of(0x4049_0FDB) * float_of(EIGHTH.t))


def operators(amplitudes):
    return [UNIT._replace(amplitude=bits_of(amplitude)) for amplitude in amplitudes]


def worked(amplitudes, inputs):
    """An operator's value at each input; its level is 1."""
    phases = [rounded(TURN + x) for x in inputs]
    return [rounded(amplitude * sine) for amplitude, sine in zip(amplitudes, sines(phases))]


def added(values):
    """First plus the sum of the later ones; a sum of one is that value itself, an empty one 0."""
    return reduce(lambda later, first: rounded(first + later), reversed(values)) if values else Fraction(0)


def children_of(trees):
    """Each line's children by their numbers; those of None are the unindented lines."""
    found, waiting = {}, [(None, trees)]
    while waiting:
        line, children = waiting.pop()
        found[line] = [child for child, _ in children]
        waiting += children
    return found


def sums(forests, amplitudes):
    """The bits of every forest's sum. All are worked out together, their last lines first: an operator's input comes from later lines."""
    asked = [(children_of(trees), {}) for trees in forests]
    for line in reversed(range(len(amplitudes))):
        here = [pair for pair in asked if line in pair[0]]
        inputs = [added([values[child] for child in children[line]]) for children, values in here]
        for (_, values), value in zip(here, worked([amplitudes[line]] * len(here), inputs)):
            values[line] = value
    return [bits_of(added([values[line] for line in children[None]])) for children, values in asked]
