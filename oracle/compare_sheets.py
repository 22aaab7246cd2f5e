"""Compares the model with both Rust programs and the answers written down, and then the proved reader, by `ask_reading`, with the model.

Hand-made sheets, generated ones, some aimed at each refusal number, and every short one of some kinds. For the model a sheet counts
only where its answer was held against another: the Rust's in the domain, one written down outside it. The reader is held against the
model on every sheet: number, line and steps, parts, notes and commands. As the model has the Rust's in the domain, so has the reader.
The same in strict mode, on every sheet too: the model's answer there is the plain one, or 32 where a token has a tail.
"""

from collections import Counter
from itertools import product

import judged
import reading
from harness import VERSION, build, hold, proved
from judged import NUMBERS, Judged

COUNT = 20_000
# For each refusal number one aimed sheet to so many generated ones.
AIMED = 200
# One sheet with tails, or with what looks like one, to so many generated ones.
TAILED = 10
# How often each refusal number must come, from 1 on; the reader is held against the model outside the domain too.
REFUSALS = dict(zip(NUMBERS, (
    *(80, 80, 295, 315, 290, 410, 440, 520, 365),
    *(370, 305, 300, 345, 680, 265, 285, 455, 400),
    *(90, 80, 105, 80, 90, 90, 375, 310, 80),
), strict=True))
READ = {**REFUSALS, 1: 185, 2: 560, 19: 305, 20: 280, 21: 290, 22: 200, 23: 150, 24: 235, 27: 190}
FLOORS = {
    "hand-made in the domain": 340,
    "generated in the domain": 14_300,
    "aimed in the domain": 1_400,
    "short in the domain": 19_500,
    "outside it": 790,
    "accepted": 9_300,
    **{f"refused {number}": least for number, least in REFUSALS.items()},
    "short read": 19_500,
    "read": 18_500,
    "read and accepted": 9_300,
    **{f"read and refused {number}": least for number, least in READ.items()},
    "tailed in the domain": 1_420,
    "tailed read": 1_600,
    "short read strictly": 19_500,
    "read strictly": 20_100,
    "read strictly and accepted": 5_400,
    "read strictly and refused 32": 6_900,
}


# ---- every short sheet of some kinds


# Each character of a body means something.
BODY, BODY_LENGTH = "c+0.[]:2o;v", 4
KEY, KEY_LENGTH = "ag+-=h", 4
# The bounds of `#tempo` and `#denom`, from both sides, and what stands around a number.
VALUES = {"#tempo": range(0, 1_003), "#denom": range(0, 131)}
TOO_LARGE = (4_294_967_295, 4_294_967_296)
WRITTEN = ("{}", "0{}", "{}.5", "{}x", "x{}", "{} 1")


def words(alphabet, longest):
    for length in range(longest + 1):
        yield from map("".join, product(alphabet, repeat=length))


def short():
    """Every body and key of a few characters, and directives with every number near their bounds."""
    texts = [f"p {body}" for body in words(BODY, BODY_LENGTH)]
    texts += [f"#key {key}\np agc" for key in words(KEY, KEY_LENGTH)]
    for name, values in VALUES.items():
        texts += [f"{name} {form.format(n)}\np c" for form in WRITTEN for n in (*values, *TOO_LARGE)]
    return [Judged("short", text.encode("ascii")) for text in texts]


# ---- the comparison


def hold_reader(sheets):
    hold("ask_reading", proved("ask_reading"), [s.case(reading.request(s.text), reading.answer(s.answer)) for s in sheets])
    return Counter({"read": len(sheets)}) + Counter(f"read and {sheet.verdict}" for sheet in sheets)


def hold_strictly(sheets):
    hold("ask_reading", proved("ask_reading"), [s.case(reading.request(s.text, True), reading.answer(s.strict)) for s in sheets])
    return Counter({"read strictly": len(sheets)}) + Counter(f"read strictly and {sheet.strict_verdict}" for sheet in sheets)


def compare(seed, count):
    groups = {
        "hand-made": judged.hand_made(),
        "generated": judged.generated(seed, count),
        "aimed": judged.aimed(seed, 1 + count // AIMED),
    }
    tails = judged.tailed(seed, 1 + count // TAILED)
    sheets = [sheet for group in groups.values() for sheet in group]
    # No part of a run that is shorter than the usual one.
    shorts = short() if count >= COUNT else []
    judged.hold_model(sheets + tails + shorts)
    # The many short ones, and those with tails, would hide how often the others are refused.
    counts = judged.tally(groups) + hold_reader(sheets) + hold_strictly(sheets + tails)
    counts["tailed in the domain"] = judged.tally({"tailed": tails})["tailed in the domain"]
    counts["tailed read"] = hold_reader(tails)["read"]
    counts["short in the domain"] = judged.tally({"short": shorts})["short in the domain"]
    counts["short read"] = hold_reader(shorts)["read"]
    counts["short read strictly"] = hold_strictly(shorts)["read strictly"]
    return counts


# ---- what is kept


STORED_SEED, STORED_COUNT = 20_250_818, 300
STORED = {
    "sheets": "Sheets, one a line: printable ASCII stands for itself, every other byte and the backslash is `\\HH`.",
    "answers": "Answers to sheets.txt: `refused N L`, or `accepted STEPS` and the dump.",
    "domain": "What the Rust said to each sheet of sheets.txt, or why it was not asked; then where the sheet comes from.",
}


def header(what, built):
    """The lines at the top of a file; they end at the first line that does not begin with `# `."""
    return [
        f"# {what}",
        "# Made by oracle/store from the hand-made list oracle/limits.py and, after it, "
        f"{STORED_COUNT} sheets of oracle/sheets.py, seed {STORED_SEED}.",
        "# Number, line and steps are the model's (oracle/model.py); parts, notes and commands "
        "are those of the Rust with document 01's rules put in.",
        "# Inside the domain both Rust programs answered every sheet, `err` or the same dump; "
        "domain.txt says which sheets that are.",
        VERSION.decode() + built,
    ]


def domain_of(sheet):
    if not sheet.in_domain:
        return f"left out, {judged.OUTSIDE[sheet.number]}"
    return "rust err" if sheet.number else "rust ok"


def kept():
    """Every answer inside the domain is what both Rust programs and the model agree on."""
    generated = judged.generated(STORED_SEED, STORED_COUNT, "generated")
    sheets, built = judged.hand_made() + generated, build()
    judged.hold_model(sheets)
    numbered = list(enumerate(sheets, 1))
    plain, strict = [sheet.answer for sheet in sheets], [sheet.strict for sheet in sheets]
    lines = {
        "sheets": [sheet.line for sheet in sheets],
        "answers": [line for number, sheet in numbered for line in (f"sheet {number}", *sheet.answer)],
        "domain": [f"{number} {domain_of(sheet)}; {sheet.label}" for number, sheet in numbered],
    }
    texts = {name: "".join(f"{line}\n" for line in header(what, built) + lines[name]) for name, what in STORED.items()}
    return {f"oracle/stored/{name}.txt": text.encode("ascii") for name, text in texts.items()} | {
        "crates/ask_reading/stdin": b"".join(reading.request(sheet.text, mode) for mode in (False, True) for sheet in sheets),
        "crates/ask_reading/stdout": b"".join(reading.answer(answer) for answer in (*plain, *strict)),
    }
