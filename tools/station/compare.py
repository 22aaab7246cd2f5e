"""Holds the static library against the program `cue`, byte for byte.

    tools/compare/station

A C program and a Rust program that link the library make the calls of include/cue.h for the sheets of examples/, for the stored sheets of
oracle/stored and for texts at the edges; what each call answers, and every byte of the buffer it is lent, is compared with what document 01
says of the bytes that `cue` writes for the same text, in plain mode, and of some texts in strict mode too, beside `cue strict`, and with the old RIFF
size, beside `cue old-size`. Of a sheet whose file is longer than FRONT bytes only the first are looked at. The
program in the header file is built and run too, and its functions are those of the archive. It prints a line with the counts, or one that
says what differs, with status 1. Where the processor is no x86-64, for which alone there
is a library, it says that no call was made.
"""

import subprocess
import sys
from collections import Counter
from concurrent.futures import ThreadPoolExecutor
from contextlib import suppress
from itertools import accumulate, dropwhile

import builds
from builds import ROOT, Broken

sys.path.insert(1, str(ROOT / "oracle"))
from calls import ALSO_STRICT, NAMES, PLAIN, STRICT, Refused, Sound, answer, asked_of, said  # noqa: E402
from harness import escape, unescape  # noqa: E402
from riff import ALSO_PUBLISHED, OLD, PUBLISHED  # noqa: E402

# How much of a file is looked at.
FRONT = 44 + 2 * 250_000
# The least that must be compared, of each kind: about four fifths of what is there, and every refusal number that a call can give.
LEAST = {"calls": 19_500, "accepted": 480, "refused": 575, "numbers": 30, "old": 76}
BATCH = 40
# One stored sheet of so many is read in strict mode too, and one of so many written with the old size.
STRICTLY = 5
OLDER = 5


def stored():
    """The stored sheets, behind the lines that say what they are."""
    lines = (ROOT / "oracle" / "stored" / "sheets.txt").read_text("ascii").split("\n")[:-1]
    return [unescape(line) for line in dropwhile(lambda line: line.startswith("# "), lines)]


def edges():
    """The examples, and texts at the edges of what a text can be."""
    examples = [path.read_bytes() for path in sorted((ROOT / "examples").glob("*.mml"))]
    if not examples:
        raise Broken("no sheets stand in examples/")
    padded = b"p t120 a ;"
    return examples + [
        b"",
        b"\0",
        b"p c\0",
        b"p \x80",
        b"p ;",
        b"p t1000 l128 c",
        b"p t120 a",
        b"a v1 [cdefgab]4\nb v1 r [cdefgab]4",
        b"@i\n1 1 0 0 0,7 0\n\np t1000 l128 @i a",
        b"#tempo 1000bpm\np l128 a",
        b"#key f+x\np t1000 l128 f",
        padded.ljust(32_768, b"x"),
        padded.ljust(32_769, b"x"),
        padded.ljust(32_768, b"x")[:-1] + b"\xff",
    ]


def known(text, mode, riff_size):
    """What the program `cue` says of a text in a mode: a refusal, or the first bytes of the file. It ends by itself where nobody takes more."""
    pipe = subprocess.PIPE
    words = (["strict"] if mode != PLAIN else []) + (["old-size"] if riff_size == OLD else [])
    with subprocess.Popen([ROOT / "tools" / "run", "cue", *words], stdin=pipe, stdout=pipe, stderr=pipe) as program:
        with suppress(BrokenPipeError), program.stdin as asked:
            asked.write(text)
        front = program.stdout.read(FRONT)
        errors = b"" if len(front) == FRONT else program.stderr.read()
    if front.startswith(b"refused "):
        return Refused(*map(int, front.split()[1:]))
    if not front.startswith(b"RIFF"):
        raise Broken(f"cue does not answer the sheet {escape(text)[:300]}: {errors.decode(errors='replace').strip()}")
    return Sound(int.from_bytes(front[40:44], "little") // 2, front)


def first_difference(name, program, requests):
    """In words what a program answers otherwise, nothing where all agrees."""
    found = builds.run(program, b"".join(request.written() for request, _ in requests))
    wanted = [answer(request, what) for request, what in requests]
    ends = accumulate(map(len, wanted))
    for (request, what), want, end in zip(requests, wanted, ends):
        got = found[end - len(want) : end]
        if got != want:
            place = next((i for i, (a, b) in enumerate(zip(got, want)) if a != b), len(got))
            parts = [f"{side[:40]!r} .. {side[place : place + 20]!r}" for side in (got, want)]
            return f"{name}, {request}: from byte {place} on it answers {parts[0]} and not {parts[1]}, at the sheet {escape(request.text)[:300]}"
    return "" if len(found) == sum(map(len, wanted)) else f"{name} answers more than it is asked"


def differing(programs, cases):
    """What a program answers otherwise to any of the texts, in words, and the requests that were made."""
    made = []
    for begin in range(0, len(cases), BATCH):
        batch = [(request, what) for (*asked, every), what in cases[begin : begin + BATCH] for request in asked_of(*asked, what, every)]
        for name, program in programs:
            if wrong := first_difference(name, program, batch):
                return wrong, made
        made += batch
    return "", made


def tally(cases, made):
    """How much was compared, by kind."""
    sounds = [what for _, what in cases if isinstance(what, Sound)]
    numbers = {said(request, what)[1] for request, what in made} - {0}
    long = sum(not sound.is_whole() for sound in sounds)
    old = sum(riff_size == OLD for (_, _, riff_size, _), what in cases if isinstance(what, Sound))
    return Counter(calls=len(made), accepted=len(sounds), refused=len(cases) - len(sounds), long=long, numbers=len(numbers), old=old)


def compare_names():
    """The header file declares what the archive has, and what is asked here."""
    if not builds.header_names() == builds.archive_names() == sorted(NAMES):
        raise Broken(f"the header file declares {builds.header_names()}, the archive has {builds.archive_names()}, asked are {sorted(NAMES)}")


def compare_example():
    """The header file's program writes what `cue` does."""
    wanted = known(b"p t120 a", PLAIN, PUBLISHED)
    if builds.run(builds.build_c(builds.example(), "example"), b"") != wanted.front:
        raise Broken("the program in the header file writes another file than cue")


def asking_programs():
    """The programs that make the calls, each with its language."""
    programs = [("C", builds.build_c("tools/station/ask.c", "ask-c"))]
    if why := builds.rust_absent():
        print(f"station: the Rust program did not run: {why}")
        return programs
    return programs + [("Rust", builds.build_rust())]


def cases_known():
    """Each text with its mode and its RIFF size, whether every kind of room is asked for, and what `cue` says of it."""
    asked = [(text, mode, PUBLISHED, mode in (PLAIN, STRICT)) for text in edges() for mode in (PLAIN, STRICT, *ALSO_STRICT)]
    asked += [(text, mode, OLD, True) for text in edges() for mode in (PLAIN, STRICT)]
    asked += [(text, PLAIN, riff_size, False) for text in edges() for riff_size in ALSO_PUBLISHED]
    asked += [(text, PLAIN, PUBLISHED, False) for text in stored()] + [(text, STRICT, PUBLISHED, False) for text in stored()[::STRICTLY]]
    asked += [(text, PLAIN, OLD, False) for text in stored()[1::OLDER]]
    with ThreadPoolExecutor(2) as pool:
        answers = list(pool.map(lambda one: known(*one[:3]), asked))
    return list(zip(asked, answers))


def compare_calls():
    """Compares what every call answers; a line that says how much that is."""
    programs = asking_programs()
    compare_example()
    cases = cases_known()
    wrong, made = differing(programs, cases)
    if wrong:
        raise Broken(wrong)
    counts = tally(cases, made)
    if few := [f"{kind} {counts[kind]} of {least}" for kind, least in LEAST.items() if counts[kind] < least]:
        raise Broken(f"too little was compared: {', '.join(few)}")
    return (
        f"compared {counts['calls']} calls by {' and by '.join(name for name, _ in programs)}, of {counts['accepted']} sheets, {counts['old']} of "
        f"which have the old size and {counts['long']} are too long to be compared to the end, and of {counts['refused']} refused texts, with {counts['numbers']} refusal numbers"
    )


def compare():
    """Compares all that can be here, and says how much that is."""
    builds.build_archive()
    compare_names()
    why = builds.linker_absent()
    if not why:
        return compare_calls()
    if builds.HERE:
        raise Broken(f"no program can be linked with the library: {why}")
    print(f"station: no call was made, since no program can be linked with the library here: {why}")
    return f"compared {len(NAMES)} names of the header file with those of the archive, and nothing else"


if __name__ == "__main__":
    try:
        print(f"station: {compare()}")
    except Broken as broken:
        print(f"station: {broken}")
        sys.exit(1)
