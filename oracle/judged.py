"""Sheets with the model's answer, and holding that answer against both Rust programs and the answers written down.

Inside the domain a refusal must be the Rust's `err` and an accepted sheet must have the Rust's parts, notes and commands. Refusals
that name a capacity put a sheet outside the domain; the Rust is not asked about those, as it may take all memory or never end.
"""

import re
from collections import Counter
from functools import cached_property, lru_cache
from itertools import islice

import limits
import model
import past_limits
import rules
from compare_numbers import SEMITONES, frequencies
from dice import Dice
from f32 import pattern
from faults import FAULTS, tailed as tailed_sheet
from harness import Broken, Case, escape, hold, rust
from sheets import sheets

NUMBERS = range(1, 28)
# Two verdicts: the second is strict mode's alone.
ACCEPTED, WITH_TAIL = "accepted", "refused 32"
# Refusals for which the Rust has no counterpart, with the reason why a sheet is left out.
OUTSIDE = {
    1: "source over 32,768 bytes",
    2: "a byte of 128 or more",
    19: "a decimal over 18 digits",
    20: "feedback over 255",
    21: "a count capacity passed",
    22: "macros nested 9 deep",
    23: "over 100,000 steps",
    24: "a note over 16,777,216 samples",
    27: "a sheet over 2,000,000,000 samples",
}


def verdict_of(answer):
    """`accepted`, or `refused N`."""
    kind, number, *_ = answer[0].split()
    return kind if kind == ACCEPTED else f"{kind} {number}"


def cost_of(sheet):
    """What rendering takes: how many samples all notes have together, each as often as an operator is worked out for it."""
    rounds = [1 + sum(1 + int(c.split()[-1]) for c in one.commands if c.startswith("op ")) for one in sheet.instruments]
    notes = [note for part in sheet.parts.values() for note in part.notes]
    return sum(rules.samples(seconds, sheet.instruments[i].release) * rounds[i] for _, _, seconds, i in notes)


class Judged:
    """A sheet, where it comes from, the model's answer, and the answer that is known without it, if one is."""

    def __init__(self, label, text, written=None):
        self.label, self.text, self.written = label, text, written
        self.line = escape(text)
        found = model.read(text)
        self.answer = model.answer(found)
        # 0 for an accepted sheet, which has a length in samples, and a cost.
        self.number = getattr(found, "number", 0)
        self.length, self.cost = (0, 0) if self.number else (found.length(), cost_of(found))
        self.in_domain = self.number not in OUTSIDE
        self.verdict = verdict_of(self.answer)

    @cached_property
    def strict(self):
        """The model's answer in strict mode: the plain one, or refusal 32."""
        found = model.answer(model.read(self.text, strict=True))
        if found != self.answer and verdict_of(found) != WITH_TAIL:
            raise Broken(f"{self.label}: the model says {self.answer[0]}, in strict mode {found[0]}\n  {self.line}")
        return found

    @property
    def strict_verdict(self):
        return verdict_of(self.strict)

    def case(self, request, wanted):
        return Case(f"{self.label}: {self.line}", request, wanted)

    def rust_case(self, view):
        """What the Rust must answer, the dump as `view` has it."""
        dump = ["err"] if self.number else view(self.answer[1:])
        return self.case(f"{self.line}\n".encode("ascii"), "\n".join([*dump, ".\n"]).encode("ascii"))


# ---- where they come from


@lru_cache(maxsize=None)
def hand_made():
    return [Judged(*entry) for entry in limits.entries()]


def generated(seed, count, label=None):
    label = label or f"seed {seed}"
    return [Judged(f"{label} sheet {i}", text) for i, text in enumerate(islice(sheets(seed), count), 1)]


def aimed(seed, count):
    """So many for each refusal number, so that none is left to the generator's luck."""
    # Other dice than the generator's.
    dice = Dice(~seed)
    return [
        Judged(f"seed {seed} aimed at {number}, sheet {i}", *one_aimed(Dice(dice.word()), number))
        for number in NUMBERS
        for i in range(1, count + 1)
    ]


def tailed(seed, count):
    """Sheets with tails, and others beside them."""
    dice = Dice(seed ^ 32)
    return [Judged(f"seed {seed} tailed, sheet {i}", tailed_sheet(Dice(dice.word()))) for i in range(1, count + 1)]


def one_aimed(dice, number):
    """A sheet for a refusal number, and its answer where the Rust has none to give."""
    return past_limits.THROWN[number](dice) if number in OUTSIDE else (FAULTS[number](dice), None)


# ---- holding them


def by_name(dump):
    """A dump with its parts sorted by name, as `given` prints it."""
    starts = [i for i, line in enumerate(dump) if line.startswith(("part ", "inst "))]
    blocks = [dump[a:b] for a, b in zip(starts, starts[1:] + [len(dump)])]
    # Parts come first, and the sort leaves the instruments behind them as they are.
    blocks.sort(key=lambda block: block[0].split()[1] if block[0].startswith("part ") else "~")
    return [line for block in blocks for line in block]


def powers_agree():
    """Whether `given` has the frequencies of 01's power rule; `ruled` and the model must have them."""
    model_says = [pattern(rules.frequency(s)) for s in SEMITONES]
    if frequencies("ruled") != model_says:
        raise Broken("ruled and the model differ in the power rule")
    return frequencies("given") == model_says


def without_frequencies(data):
    return re.sub(rb"(?m)^(note \w+) \w+", rb"\1", data)


def hold_given(cases):
    """Where the platform's powi is not 01's power, `given` is compared without frequencies."""
    ask = rust("given", "batch")
    if powers_agree():
        return hold("given", ask, cases)
    for case in cases:
        case.wanted = without_frequencies(case.wanted)
    return hold("given", lambda text, seconds: without_frequencies(ask(text, seconds)), cases)


def hold_model(judged):
    """Holds the model's answers against those written down and, in the domain, against both Rust programs."""
    for sheet in sorted(judged, key=lambda sheet: len(sheet.text)):
        if sheet.written is not None and not limits.agrees(sheet.written, sheet.answer[0]):
            raise Broken(f"{sheet.label}: the answer written down is {sheet.written}, the model's {sheet.answer[0]}\n  {sheet.line}")
    inside = [sheet for sheet in judged if sheet.in_domain]
    hold("ruled", rust("ruled", "batch"), [sheet.rust_case(list) for sheet in inside])
    hold_given([sheet.rust_case(by_name) for sheet in inside])


def tally(groups):
    """Counts the sheets of each group whose answer was held against another, by domain and by verdict."""
    counts = Counter()
    for name, judged in groups.items():
        held = [sheet for sheet in judged if sheet.in_domain or sheet.written is not None]
        counts[f"{name} in the domain"] = sum(sheet.in_domain for sheet in held)
        counts["outside it"] += sum(not sheet.in_domain for sheet in held)
        counts.update(sheet.verdict for sheet in held)
    return counts
