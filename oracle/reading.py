"""Requests to the proved reader and the answers that lines such as the model's call for, as crates/ask_reading/README.md lays them down.

Parts have no names in an answer, as the proved sheet has none.
"""

import struct

OPERATOR, STACK = 0, 1
PLAIN, STRICT = 0, 1


def request(sheet, strict=False):
    return struct.pack("<II", len(sheet), STRICT if strict else PLAIN) + sheet


def answer(lines):
    """The bytes that `refused N L`, or `accepted STEPS` and the dump, call for."""
    head, *dump = lines
    kinds = [line.partition(" ")[0] for line in dump]
    words = [*head_words(head), kinds.count("part"), kinds.count("inst")]
    for kind, line in zip(kinds, dump):
        words += WORDS[kind](*line.split()[1:])
    return struct.pack(f"<{len(words)}I", *words)


def head_words(head):
    """Refusal, line and steps."""
    kind, *numbers = head.split()
    return [*map(int, numbers), 0] if kind == "refused" else [0, 0, *map(int, numbers)]


def from_bits(patterns):
    return [int(pattern, 16) for pattern in patterns]


WORDS = {
    "part": lambda name, count: [int(count)],
    "note": lambda *words: from_bits(words[:3]) + [int(words[3])],
    "inst": lambda release, count: [int(release, 16), int(count)],
    "op": lambda *words: [OPERATOR] + from_bits(words[:6]) + [int(words[6])],
    "stack": lambda number: [STACK, int(number)],
}
