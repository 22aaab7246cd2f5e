"""Requests about the sound of sheets, and the answers that the Rust calls for.

A request is one of crates/ask_engine, whose README has its form. The Rust gives all samples of a sheet and
its whole WAV file; what a window, a header or a refusal leaves in a buffer follows from those.
"""

import struct
from dataclasses import dataclass

from riff import HEADER_BYTES, sized

NONE, SAMPLES, HEADER, BYTES = 0, 0, 1, 2
PATTERN = {SAMPLES: struct.pack("<f", 7.5), HEADER: b"\x5a", BYTES: b"\x5a"}
NAN = struct.pack("<I", 0x7FC00000)


@dataclass
class Asked:
    """One request: what is put out of range, if anything, and what is written where. Of a header, `start` says which RIFF size."""

    kind: int
    start: int = 0
    room: int = 0
    place: int = 0
    field: int = NONE
    which: int = 0
    becomes: int = 0

    def request(self, sheet):
        words = (len(sheet), self.field, self.which, self.becomes, self.kind, self.start, self.room, self.place)
        return struct.pack("<8I", *words) + sheet

    def size(self):
        """How many bytes the answer takes."""
        return 8 + self.room * len(PATTERN[self.kind])

    @staticmethod
    def room_of(request):
        return struct.unpack_from("<8I", request)[6]


def one_nan(raw):
    """Samples with one bit pattern for every NaN."""
    if b"\x7f" not in raw[3::4] and b"\xff" not in raw[3::4]:
        return raw
    quads = (raw[i : i + 4] for i in range(0, len(raw), 4))
    return b"".join(NAN if q[3] & 0x7F == 0x7F and q[2] & 0x80 and (q[0], q[1], q[2] & 0x7F) != (0, 0, 0) else q for q in quads)


class Sound:
    """A sheet's samples and its WAV file, as the Rust has them."""

    def __init__(self, raw, wav):
        self.raw, self.wav = one_nan(raw), wav
        self.length = len(raw) // 4

    def answer(self, asked, refusal=0):
        """The answer that a request must get; a sheet that is put out of range names its refusal."""
        number, count, written, at = refusal, 0, b"", 0
        if not refusal:
            number, count, written, at = self.judged(asked)
        unit = PATTERN[asked.kind]
        buffer = bytearray(unit * asked.room)
        buffer[at * len(unit) : at * len(unit) + len(written)] = written
        return struct.pack("<2I", number, count) + bytes(buffer)

    def judged(self, asked):
        """Refusal, count, what is written and where."""
        if asked.kind == HEADER:
            return (0, HEADER_BYTES, sized(asked.start, self.wav)[:HEADER_BYTES], 0) if asked.room >= HEADER_BYTES else (30, 0, b"", 0)
        if asked.start > self.length:
            return 29, 0, b"", 0
        left = self.length - asked.start
        if asked.kind == SAMPLES:
            n = min(asked.room, left)
            return 0, n, self.raw[4 * asked.start : 4 * (asked.start + n)], 0
        room = asked.room - asked.place
        if room < 0 or (left > 0 and room < 2):
            return 30, 0, b"", 0
        n = min(room // 2, left)
        return 0, n, self.wav[44 + 2 * asked.start : 44 + 2 * (asked.start + n)], asked.place
