"""Hand-made sheets at every limit of document 01, from both sides, with the answer 01 gives.

Each entry is a label, a sheet and the answer worked out by hand from the document:
`refused N L`, `accepted`, or `accepted STEPS` where the steps matter. Neither the Rust nor the
model has a say here; both are held against this list.
"""

import limits_of_bodies
import limits_of_lines


def entries():
    """All entries as (label, sheet bytes, answer)."""
    return [
        (label, sheet.encode("latin-1"), answer)
        for section in limits_of_lines.SECTIONS + limits_of_bodies.SECTIONS
        for label, sheet, answer in section()
    ]


def agrees(written, answer):
    """Whether an answer's first line is the one written down; `accepted` alone leaves the steps open."""
    return answer == written or (written == "accepted" and answer.startswith("accepted "))
