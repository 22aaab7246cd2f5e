"""Compares the proved instrument, by the program `ask_instrument`, with the Rust's: values at many times, and stretches of samples.

The Rust has document 01's sine. oracle/instrument_cases.py has what is asked, and oracle/instruments.rs what the Rust answers. The
worked examples of crates/tree/proofs/Examples.antt are held against the Rust too, and both machines' value of every shape of up to
nine lines against that of the tree with chains, which oracle/trees.py works out: inside the hypothesis of demand 3 it is that value, and
outside it is another.
"""

import re
import struct
from fractions import Fraction

import instrument_cases as cases
import trees
from compare_numbers import frequencies
from dice import Dice
from harness import ROOT, Broken, Case, hold, proved, rust
from instrument_cases import EIGHTH, UNIT, Instrument, Stack

# How often each shape of indented lines is thrown.
COUNT = 12
# Of the shapes of up to nine lines all are compared: so many have no two neighbours of equal indent, so many have some and are inside the hypothesis, and
# so many are outside.
STEPPED, CHAINED, OUTSIDE = "shapes without chains", "shapes with chains", "shapes outside"
FLOORS = {"instruments": 10_000, "answers": 510_000, "values": 600_000, STEPPED: 539, CHAINED: 2_753, OUTSIDE: 3_625}
TOLD = ", and five worked examples"
EXAMPLES = ROOT / "crates" / "tree" / "proofs" / "Examples.antt"
ASK, RUST = proved("ask_instrument"), rust("ruled", "instruments")


class Asked(Case):
    """An instrument with its questions, and the Rust's answers to them."""

    def __init__(self, instrument, questions, wanted=b""):
        self.instrument, self.questions = instrument, questions
        request = instrument.records() + b"".join(question.record() for question in questions)
        # A slice of no elements has an empty answer, which agrees though nothing came.
        sizes = [values for numbers, values in (question.size() for question in questions) if numbers]
        counts = {"instruments": int(sizes != []), "answers": len(sizes), "values": sum(sizes)}
        super().__init__("", request, wanted, counts)

    def told(self):
        return f"{self.instrument}, {self.questions}"

    def pieces(self):
        if len(self.questions) == 1:
            return []
        answers = split(self.wanted, [[question] for question in self.questions])
        return [Asked(self.instrument, [question], answer) for question, answer in zip(self.questions, answers)]


def split(answers, asked):
    """The part of the answers that belongs to each list of questions."""
    at, parts = 0, []
    for questions in asked:
        end = at + 4 * sum(question.size()[0] for question in questions)
        parts.append(answers[at:end])
        at = end
    if at != len(answers):
        raise Broken("the Rust did not answer every question")
    return parts


def answered(found):
    """Instruments with questions, each with the Rust's answers."""
    asked = [Asked(*pair) for pair in found]
    answers = RUST(b"".join(case.request for case in asked))
    for case, answer in zip(asked, split(answers, [case.questions for case in asked])):
        case.wanted = answer
    return asked


# ---- the worked examples


def worked_example(name):
    """The bits that a theorem of proofs/Examples.antt gives."""
    found = re.search(rf"^pub {name} : .* ≡ 0x([0-9a-f]+)$", EXAMPLES.read_text(encoding="utf-8"), re.M)
    if not found:
        raise Broken(f"proofs/Examples.antt has no {name}")
    return int(found[1], 16)


def value_of(instrument):
    return int.from_bytes(RUST(instrument.records() + EIGHTH.record()), "little")


def check_examples():
    """01's commands and the tree without chains part at 0,1,1, and the tree with chains at 0,1,2,2,1; every value is the Rust's, or made of its sines."""
    pair, outside = (0, 1, 1), (0, 1, 2, 2, 1)
    summed = Instrument((UNIT, Stack(0), UNIT, UNIT))
    without, chain, chain_outside = trees.sums([trees.trees_of(pair), trees.chained(pair), trees.chained(outside)], [Fraction(1)] * 5)
    for name, found in (
        ("by_commands", value_of(cases.from_lines(pair, (UNIT,) * 3))),
        ("by_the_tree", without),
        ("by_the_tree", value_of(summed)),
        ("by_the_chain", chain),
        ("outside_by_commands", value_of(cases.from_lines(outside, (UNIT,) * 5))),
        ("outside_by_the_chain", chain_outside),
    ):
        wanted = worked_example(name)
        if found != wanted:
            raise Broken(f"{name} of proofs/Examples.antt is {wanted:08x}, the Rust gives {found:08x}")


# ---- every shape of up to nine lines


TREE_LINES = 9
# Each line has an amplitude of its own, so that no two operators can be taken for each other.
AMPLITUDES = [Fraction(8 + line, 8) for line in range(TREE_LINES)]


def kind_of(shape):
    if not trees.chains_are_last(shape):
        return OUTSIDE
    return STEPPED if trees.is_stepped(shape) else CHAINED


class Shape(Case):
    """An instrument of lines, and the bits of its tree's value."""

    def __init__(self, shape, bits):
        request = cases.from_lines(shape, trees.operators(AMPLITUDES)).records() + EIGHTH.record()
        super().__init__(f"the indents {shape}", request, bits.to_bytes(4, "little"), {kind_of(shape): 1})


def hold_inside(shapes):
    """Inside the hypothesis the Rust and the proved machine have the value of the tree with chains."""
    hold("beside the tree with chains the Rust", RUST, shapes)
    return hold("beside the tree with chains ask_instrument", ASK, shapes)


def hold_outside(shapes):
    """Outside it they have another value, the same one: the hypothesis leaves out no shape without need."""
    answers = struct.iter_unpack("4s", RUST(b"".join(shape.request for shape in shapes)))
    for shape, (answer,) in zip(shapes, answers, strict=True):
        if answer == shape.wanted:
            raise Broken(f"outside the hypothesis of demand 3 the Rust has the value of the tree with chains: {shape.told()}")
        shape.wanted = answer
    return hold("ask_instrument", ASK, shapes)


def hold_trees():
    shapes = list(cases.shapes(TREE_LINES))
    made = [Shape(*pair) for pair in zip(shapes, trees.sums(map(trees.chained, shapes), AMPLITUDES))]
    counts = hold_inside([shape for shape in made if OUTSIDE not in shape.counts])
    counts.update(hold_outside([shape for shape in made if OUTSIDE in shape.counts]))
    return counts


# ---- the comparison


def compare(seed, count):
    check_examples()
    counts = hold("ask_instrument", ASK, answered(cases.thrown(Dice(seed), frequencies("ruled"), count)))
    counts.update(hold_trees())
    return counts


def kept():
    asked = answered(cases.chosen())
    return {
        "crates/ask_instrument/stdin": b"".join(case.request for case in asked),
        "crates/ask_instrument/stdout": b"".join(case.wanted for case in asked),
    }
