"""The header of a WAV file, and the two names of its RIFF size: the published one, 36 + 2n, and the old one of the given Rust, 32 + 2n."""

import struct

HEADER_BYTES = 44
# The numbers that stand for the names where a request or a call has a number; every other one is the published size too.
PUBLISHED, OLD = 0, 1
ALSO_PUBLISHED = (2, 2**31, 2**32 - 1)


def form(size, rate, count):
    """A header in the published form, but for its RIFF size; what four bytes cannot hold loses its upper part."""
    low = [v % 2**32 for v in (size, rate, 2 * rate, 2 * count)]
    chunk = struct.pack("<4sIHHIIHH", b"fmt ", 16, 1, 1, low[1], low[2], 2, 16)
    return struct.pack("<4sI4s", b"RIFF", low[0], b"WAVE") + chunk + struct.pack("<4sI", b"data", low[3])


def header_of(number, rate, count):
    """The header of so many samples, with the RIFF size that a number stands for."""
    return form((32 if number == OLD else 36) + 2 * count, rate, count)


def sized(number, wav):
    """A file of the given Rust with that size: under the old name as it is, else other in the four bytes of the size alone."""
    return wav if number == OLD else wav[:4] + struct.pack("<I", len(wav) - 8) + wav[8:]
