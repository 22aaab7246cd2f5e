"""The calls of the library: a request as the asking programs take it, and what document 01 answers to it.

What a sheet sounds like is not known here: a Sound has the bytes that the program `cue` wrote, or the first of them, and the answers
are cut from those.
"""

from collections import namedtuple

from riff import HEADER_BYTES

SAMPLES, WAV, HEADER, WINDOW = range(4)
# Every number but PLAIN is strict.
PLAIN, STRICT, ALSO_STRICT = 0, 1, (2, 2**31, 2**32 - 1)
NAMES = ("cue_samples", "cue_wav", "cue_header", "cue_window")
FILL = 0xA5
MOST = 2**64 - 1

# A text that is refused, with its number and line.
Refused = namedtuple("Refused", "number line")


class Sound(namedtuple("Sound", "samples front")):
    """A file of so many samples, and its first bytes: all of them, or enough for the requests that are made."""

    def is_whole(self):
        return len(self.front) == HEADER_BYTES + 2 * self.samples


class Request(namedtuple("Request", "call text mode riff_size start room place")):
    """One call; what it has no use for is 0."""

    def written(self):
        numbers = (self.call, len(self.text), self.mode, self.riff_size, self.start, self.room, self.place, FILL)
        return b"%d %d %d %d %d %d %d %d\n" % numbers + self.text

    def __str__(self):
        return f"{NAMES[self.call]} in mode {self.mode} with size {self.riff_size}, start {self.start}, {self.room} bytes, place {self.place}"


def window_refusal(request, samples):
    """29 and 30, in this order; 0 for none."""
    if request.start > samples:
        return 29
    if request.place > request.room:
        return 30
    return 30 if request.start < samples and request.room - request.place < 2 else 0


def window_told(request, sound):
    """The count of a window, its refusal, and the bytes that are written."""
    if number := window_refusal(request, sound.samples):
        return 0, number, b""
    count = min((request.room - request.place) // 2, sound.samples - request.start)
    begin = HEADER_BYTES + 2 * request.start
    return count, 0, sound.front[begin : begin + 2 * count]


def told_of(request, sound):
    """The same of any call for a sheet that is not refused."""
    if request.call == SAMPLES:
        return sound.samples, 0, b""
    if request.call == WINDOW:
        return window_told(request, sound)
    size = HEADER_BYTES if request.call == HEADER else HEADER_BYTES + 2 * sound.samples
    if request.room < size:
        return size if request.call == WAV else 0, 30, b""
    return size, 0, sound.front[:size]


def said(request, known):
    """The count, the refusal's number, its line and the bytes that are written, where the text is refused or sounds as known."""
    if isinstance(known, Refused):
        return 0, known.number, known.line, b""
    count, number, written = told_of(request, known)
    return count, number, 0, written


def answer(request, known):
    """The line and the buffer that the library is to answer."""
    count, number, line, written = said(request, known)
    buffer = bytearray([FILL]) * request.room
    buffer[request.place : request.place + len(written)] = written
    return b"%d %d %d\n" % (count, number, line) + bytes(buffer)


# ---- which calls are made

# For a text that is refused: rooms and places that would be refused by themselves too.
REFUSED = (
    (SAMPLES, 0, 0, 0),
    (WAV, 0, 0, 0),
    (WAV, 0, 61, 0),
    (HEADER, 0, 43, 0),
    (HEADER, 0, 61, 0),
    (WINDOW, 0, 9, 0),
    (WINDOW, 0, 9, 10),
    (WINDOW, MOST, 9, 10),
)


def windows(n):
    """Starts, rooms and places: whole, cut at odd places, at each end and past it."""
    starts = ((0, 0, 0), (0, 1, 0), (0, 2, 0), (0, 5, 1), (0, 9, 7), (0, 9, 8), (0, 9, 9), (0, 9, 10), (0, 9, MOST), (0, 64, 3))
    middle = ((n // 2, 31, 3), (n // 3, 8, 0), (max(n, 1) - 1, 9, 1), (max(n, 3) - 3, 64, 44))
    ends = ((n, 0, 0), (n, 3, 3), (n, 3, 0), (n, 3, 4), (n + 1, 9, 0), (n + 1, 9, 10), (MOST, 9, MOST), (MOST, 0, 0))
    return starts + middle + ends


def asked_of(text, mode, riff_size, known, every):
    """The requests for a text in a mode, with a RIFF size. The whole file is asked for once, or, where every one is wanted, in each kind of room."""
    if isinstance(known, Refused):
        return [Request(call, text, mode, riff_size, start, room, place) for call, start, room, place in REFUSED]
    n, whole = known.samples, known.is_whole()
    size = 44 + 2 * n
    # A file that is not known whole is asked for only where it does not fit, and its windows only at its ends.
    rooms = [0, 43, 44, min(size, len(known.front)) - 1]
    if whole:
        rooms += [size, size + 1, size + 77] if every else [size + len(text) % 3]
    return (
        [Request(SAMPLES, text, mode, 0, 0, 0, 0)]
        + [Request(WAV, text, mode, riff_size, 0, room, 0) for room in rooms]
        + [Request(HEADER, text, mode, riff_size, 0, room, 0) for room in (0, 43, 44, 61)]
        + [Request(WINDOW, text, mode, 0, *window) for window in windows(n) if whole or window[0] == 0 or window[0] >= n]
    )
