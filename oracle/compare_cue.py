"""Compares the program `cue` with the model and the Rust, sheet by sheet: hand-made, generated ones, some aimed at each refusal, one with each byte put in
at three places, and one whose file is longer than 100 MB.

The answer to every sheet is `refused N L` as the model says, or a WAV file. With the old RIFF size, as `cue old-size`, that is byte for byte the
file of the Rust that has document 01's sine, power and order of parts; without a word it is other in the four bytes of the size alone. Each file is
held under one of the two names, the hand-made sheets' under both; where the file would take long its header is. In the domain the Rust's `Err`
comes exactly where the refusal is one of 3 to 18, 25 and 26. In strict mode, as `cue strict`, the answer is the same, or `refused 32 L` as the
model says.
"""

from collections import Counter

import judged
from compare_wave import RATE
from harness import command_of, first_of, hold_each, proved, rust
from judged import ACCEPTED, NUMBERS, WITH_TAIL
from riff import HEADER_BYTES, OLD, PUBLISHED, header_of, sized

COUNT = 6_000
# The words that the program is started with, and the RIFF size that it then writes: read plainly, and strictly.
PLAINLY = (((), PUBLISHED), (("old-size",), OLD))
STRICTLY = ((("strict",), PUBLISHED), (("strict", "old-size"), OLD), (("old-size", "strict"), OLD))
# For each refusal number one aimed sheet to so many generated ones.
AIMED = 200
# Of a file that is longer, or that costs more to render, the header is enough.
LONGEST = 1_000_000
DEAREST = 3_000_000
# Of the generated sheets so many are read strictly too, and one with tails, or with what looks like one, to so many of all.
READ_STRICTLY = 1_000
TAILED = 10
REFUSALS = dict(zip(NUMBERS, (
    *(55, 165, 95, 88, 80, 130, 155, 180, 105),
    *(140, 94, 97, 118, 250, 80, 90, 140, 145),
    *(97, 95, 105, 58, 52, 70, 100, 90, 58),
), strict=True))
# A sheet of two notes, in parts before and behind the places where a byte is put in; and what editors put before a text.
PLACES = (b"", b"p t1000 l64 c", b" e\n", b"")
MARKS = (b"\xef\xbb\xbf", b"\xfe\xff", b"\xff\xfe", b"\xff\xfe\0\0", b"\0\0\xfe\xff", b"\x1a", b"\r")
# A file of over 100 MB that sounds to its end: five whole notes at tempo 1.
LONG = b"p t1 l1 v1 cdefg\n"
FLOORS = {
    "with a byte put in": 775,
    "bytes of long files": 211_000_000,
    "files": 2_400,
    "of the old size": 1_500,
    "samples": 325_000_000,
    "headers of longer files": 640,
    "in the domain": 5_100,
    "refused": 3_000,
    "strictly": 1_600,
    "strictly files": 345,
    "strictly refused 32": 600,
    **{f"refused {number}": least for number, least in REFUSALS.items()},
}


def file_case(sheet, number):
    return sheet.case(sheet.text, sized(number, rust("ruled", "wav")(sheet.text)))


def refusal_case(sheet, number):
    """Whatever the size, a refusal is the same."""
    return sheet.case(sheet.text, f"{sheet.answer[0]}\n".encode("ascii"))


def header_case(sheet, number):
    return sheet.case(sheet.text, header_of(number, RATE, sheet.length))


def strict_case(sheet, number):
    """In strict mode: the line of the refusal, or plain mode's file."""
    if sheet.strict_verdict == ACCEPTED:
        return file_case(sheet, number)
    return sheet.case(sheet.text, f"{sheet.strict[0]}\n".encode("ascii"))


def front_by(*words):
    """Asks the program that is started with these words for the first bytes of a file."""
    return lambda text, seconds: first_of("cue", command_of("cue") + list(words), text, HEADER_BYTES, seconds)


def hold_by(ways, sheets, case_of, asked=lambda *words: proved("cue", *words)):
    """Holds the sheets in turn in one of the ways that the program can be started; how many were to have the old size."""
    for i, (words, number) in enumerate(ways):
        hold_each(" ".join(("cue", *words)), asked(*words), sheets[i :: len(ways)], lambda sheet: case_of(sheet, number))
    return sum(len(sheets[i :: len(ways)]) for i, (_, number) in enumerate(ways) if number == OLD)


def with_bytes():
    """A sheet with each of the 256 bytes at its front, in its middle and at its end, and with what editors put before a text."""
    whole = b"".join(PLACES)
    for b in range(256):
        known = "refused 2 0" if b >= 128 else None
        for i in range(1, len(PLACES)):
            text = b"".join(PLACES[:i]) + bytes([b]) + b"".join(PLACES[i:])
            yield judged.Judged(f"byte {b} at {len(b''.join(PLACES[:i]))}", text, known)
    for mark in MARKS:
        yield judged.Judged(f"{mark!r} before a sheet", mark + whole, "refused 2 0" if max(mark) >= 128 else None)


def hold_long():
    """Holds a file of over 100 MB, byte for byte, under either name of its size; how many bytes there were."""
    sheet = judged.Judged("a long file", LONG)
    for words, number in PLAINLY:
        hold_each(" ".join(("cue", *words)), proved("cue", *words), [sheet], lambda sheet, number=number: file_case(sheet, number))
    return len(PLAINLY) * (HEADER_BYTES + 2 * sheet.length)


def is_short(sheet):
    return sheet.length <= LONGEST and sheet.cost <= DEAREST


def compare(seed, count):
    put_in = list(with_bytes())
    sheets = judged.hand_made() + judged.generated(seed, count) + judged.aimed(seed, 1 + count // AIMED) + put_in
    judged.hold_model(sheets)
    refused, files, longer = [], [], []
    for sheet in sheets:
        (refused if sheet.number else files if is_short(sheet) else longer).append(sheet)
    hold_by(PLAINLY, refused, refusal_case)
    # The hand-made ones stand first among the files, so that each is held under its other name here.
    by_hand = [sheet for sheet in judged.hand_made() if not sheet.number and is_short(sheet)]
    old = hold_by(PLAINLY, files, file_case) + hold_by(PLAINLY[::-1], by_hand, file_case)
    old += hold_by(PLAINLY, longer, header_case, front_by)
    strictly = judged.hand_made() + sheets[len(judged.hand_made()) :][:READ_STRICTLY] + judged.tailed(seed, 1 + count // TAILED)
    strictly = [sheet for sheet in strictly if is_short(sheet) or sheet.strict_verdict != ACCEPTED]
    hold_by(STRICTLY, strictly, strict_case)
    return Counter(sheet.verdict for sheet in refused) + Counter({
        "with a byte put in": len(put_in),
        "bytes of long files": hold_long(),
        "strictly": len(strictly),
        "strictly files": sum(sheet.strict_verdict == ACCEPTED for sheet in strictly),
        "strictly refused 32": sum(sheet.strict_verdict == WITH_TAIL for sheet in strictly),
        "files": len(files) + len(by_hand),
        "of the old size": old,
        "samples": sum(sheet.length for sheet in files),
        "headers of longer files": len(longer),
        "in the domain": sum(sheet.in_domain for sheet in sheets),
        "refused": len(refused),
    })
