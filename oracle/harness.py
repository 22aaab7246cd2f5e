"""What every comparison stands on: running programs, holding answers against wanted ones, counts and floors, and what is kept.

A comparison is a module `compare_NAME`, which the script tools/compare/NAME starts. It has

    FLOORS                 the least that its usual run compares, by what is counted
    COUNT                  how much its usual run throws
    compare(seed, count)   a Counter of what was compared; it raises Broken where something differs
    kept()                 where it keeps requests and answers: the files by path, made without the proved program
    TOLD                   more words for its last line, if any

No floor holds for a run with a count of its own.
"""

import subprocess
import sys
from collections import Counter
from concurrent.futures import ThreadPoolExecutor
from functools import lru_cache
from importlib import import_module
from pathlib import Path
from threading import Timer

ROOT = Path(__file__).resolve().parent.parent
SEED = 1
# How long a program may take; while the smallest case is looked for, a hanging one costs less.
SECONDS = 120
SEARCH_SECONDS = 20
# Another compiler that gives the same answers is no difference.
VERSION = b"# built: "
# Of what was compared too little the first few tell enough.
SHOWN = 3


class Broken(Exception):
    """Something differs or does not work."""


# ---- programs


def started(what, command, text, seconds):
    """What a command writes; Broken where it does not end in time and with status 0."""
    try:
        done = subprocess.run(command, input=text, capture_output=True, timeout=seconds)
    except subprocess.TimeoutExpired:
        raise Broken(f"{what} did not finish in {seconds} s") from None
    except OSError as error:
        raise Broken(f"{what} cannot be started: {error.strerror}") from None
    if done.returncode != 0:
        said = done.stderr.decode(errors="replace").strip()
        raise Broken(f"{what} ended with status {done.returncode}" + (f": {said}" if said else ""))
    return done.stdout


def build():
    """Builds both Rust programs; gives the compiler's version and the flags."""
    done = subprocess.run([ROOT / "oracle" / "build"], capture_output=True, text=True)
    if done.returncode != 0:
        raise Broken(f"the Rust is not built: {done.stderr.strip()}")
    return done.stdout.strip().partition(" with ")[2]


def rust(name, mode):
    """Asks one of the Rust programs, `given` or `ruled`."""

    def ask(text, seconds=SECONDS):
        where = f" at the sheet {escape(text)}" if mode in ("wav", "raw") else ""
        return started(f"{name} {mode}{where}", [ROOT / "target" / "oracle" / name, mode], text, seconds)

    return ask


@lru_cache(maxsize=None)
def command_of(name):
    """The words that start a proved program; found out once, as the kit is slow to ask."""
    words = started(name, [ROOT / "tools" / "run", "--words", name], b"", SECONDS)
    return words.decode().splitlines()


def proved(name, *words):
    """Asks a proved program that is started with these words."""
    return lambda text, seconds=SECONDS: started(name, command_of(name) + list(words), text, seconds)


def first_of(what, command, text, count, seconds):
    """The first bytes that a command writes, which is then ended; fewer where it ends itself or takes too long."""
    with subprocess.Popen(command, stdin=subprocess.PIPE, stdout=subprocess.PIPE) as child:
        late = Timer(seconds, child.kill)
        late.start()
        try:
            child.stdin.write(text)
            child.stdin.close()
            return child.stdout.read(count)
        except BrokenPipeError:
            raise Broken(f"{what} does not read its input") from None
        finally:
            late.cancel()
            child.kill()


def both_at_once(work, items):
    """The results of work on items, two at a time; after a failure no more is begun."""
    with ThreadPoolExecutor(2) as pool:
        waiting = [pool.submit(work, item) for item in items]
        try:
            return [one.result() for one in waiting]
        except Broken:
            pool.shutdown(cancel_futures=True)
            raise


# ---- sheets in one line


# Printable ASCII stands for itself, every other byte and the backslash is `\\HH`.
ESCAPED = [chr(b) if 0x20 <= b <= 0x7E and b != 0x5C else f"\\{b:02x}" for b in range(256)]


def escape(sheet):
    return "".join(map(ESCAPED.__getitem__, sheet))


def unescape(line):
    """The sheet of a line."""
    head, *rest = line.split("\\")
    return head.encode("ascii") + b"".join(bytes([int(piece[:2], 16)]) + piece[2:].encode("ascii") for piece in rest)


# ---- holding answers


class Case:
    """A request and the answer that it must get; what it is in words, and what it counts as."""

    def __init__(self, words, request, wanted, counts=()):
        self.words, self.request, self.wanted, self.counts = words, request, wanted, counts

    def told(self):
        return self.words

    def pieces(self):
        """The smaller cases that it is made of, if it is."""
        return []


def hold(what, ask, cases):
    """Asks about all cases at once; gives their counts, or raises Broken with the smallest that is answered otherwise."""
    if differs(ask, cases):
        case = smallest(ask, cases)
        raise Broken(f"{what} answers otherwise; the smallest request that shows it: {case.told()}\n{account(ask, case)}")
    counts = Counter()
    for case in cases:
        counts.update(case.counts)
    return counts


def hold_each(what, ask, items, case_of):
    """The same for a program that answers one request a run. The cases are made one by one, as their answers are long."""

    def wrong(item):
        case = case_of(item)
        return case if differs(ask, [case]) else None

    apart = [case for case in both_at_once(wrong, items) if case]
    if apart:
        case = min(apart, key=lambda case: len(case.request))
        raise Broken(f"{what} answers {len(apart)} of {len(items)} otherwise; the smallest: {case.told()}\n{account(ask, case)}")


def differs(ask, cases, seconds=SECONDS):
    """Whether some of the cases is answered otherwise, or not at all."""
    try:
        return ask(b"".join(case.request for case in cases), seconds) != b"".join(case.wanted for case in cases)
    except Broken:
        return True


def smallest(ask, cases):
    """By halves the smallest case that is answered otherwise, and then the smallest of its pieces."""
    cases = sorted(cases, key=lambda case: (len(case.request), case.request))
    while len(cases) > 1:
        middle = len(cases) // 2
        cases = cases[:middle] if differs(ask, cases[:middle], SEARCH_SECONDS) else cases[middle:]
    pieces = cases[0].pieces()
    return smallest(ask, pieces) if pieces else cases[0]


def account(ask, case):
    """Where the answer to one case parts from the wanted one."""
    try:
        found = ask(case.request, SEARCH_SECONDS)
    except Broken as broken:
        return f"  {broken}"
    if found == case.wanted:
        return "  asked alone it is answered rightly"
    pairs = enumerate(zip(case.wanted, found))
    at = next((i for i, (a, b) in pairs if a != b), min(len(case.wanted), len(found)))
    return f"  byte {at} of the answer, wanted: {excerpt(case.wanted, at)}\n  found: {excerpt(found, at)}"


def excerpt(data, at):
    """The line of a text that a byte is in, or the four bytes of a number."""
    if data[at : at + 1].isascii() and data[:1].isalpha():
        start = data.rfind(b"\n", 0, at) + 1
        return escape(data[start:].partition(b"\n")[0])[:80] + f" ({len(data)} bytes in all)"
    return (data[at - at % 4 :][:4].hex() or "nothing") + f" ({len(data)} bytes in all)"


# ---- counts


def shortfall(counts, floors):
    """What was compared less often than its floor says, in words; nothing where all is well."""
    short = [f"{counts[what]} {what}, at least {least}" for what, least in floors.items() if counts[what] < least]
    rest = [f"{len(short) - SHOWN} more"] if len(short) > SHOWN else []
    return "too few compared: " + "; ".join(short[:SHOWN] + rest) if short else ""


# ---- what is kept


def without_version(text):
    return [line for line in text.split(b"\n") if not line.startswith(VERSION)]


def check_kept(module):
    for path, text in module.kept().items():
        kept = ROOT / path
        if not kept.exists() or without_version(kept.read_bytes()) != without_version(text):
            raise Broken(f"{path} is not what oracle/store writes")


def write_kept(module):
    for path, text in module.kept().items():
        (ROOT / path).write_bytes(text)
        print(f"store: {path} {len(text)} bytes")


# ---- the commands


def compared(name, arguments):
    """Runs a comparison; gives its last line."""
    module = import_module(f"compare_{name}")
    seed = int(arguments[0]) if arguments else SEED
    chosen = len(arguments) > 1
    build()
    if hasattr(module, "kept"):
        check_kept(module)
    counts = module.compare(seed, int(arguments[1]) if chosen else module.COUNT)
    short = shortfall(counts, {} if chosen else module.FLOORS)
    if short:
        raise Broken(short)
    told = ", ".join(f"{counts[what]} {what}" for what in module.FLOORS)
    return f"compared {told}{getattr(module, 'TOLD', '')}: no difference (seed {seed})"


def compare(name, *arguments):
    """tools/compare/NAME [SEED [COUNT]]"""
    return status_of(name, lambda: print(f"{name}: {compared(name, arguments)}"))


def store(*names):
    """oracle/store [NAME..]: writes what the comparisons keep; it asks the Rust and the model, never the proved programs."""

    def write():
        build()
        for name in names or sorted(path.stem.removeprefix("compare_") for path in ROOT.glob("oracle/compare_*.py")):
            module = import_module(f"compare_{name}")
            if hasattr(module, "kept"):
                write_kept(module)

    return status_of("store", write)


def status_of(name, work):
    """0 where the work is done, 1 where it is Broken, with a line that says why."""
    try:
        work()
    except Broken as broken:
        print(f"{name}: {broken}")
        return 1
    return 0


if __name__ == "__main__":
    # Imported anew, so that the modules and this script share one Broken.
    command, *words = sys.argv[1:]
    sys.exit(getattr(import_module("harness"), command)(*words))
