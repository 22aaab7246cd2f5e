"""Builds the archive of the crate `station` and the programs that link it, and starts them. All of it is for an x86-64 alone."""

import platform
import re
import resource
import shutil
import struct
import subprocess
from pathlib import Path

ROOT = Path(__file__).resolve().parent.parent.parent
CRATE = ROOT / "crates" / "station"
ARCHIVE = CRATE / "out" / "libstation.a"
HEADER = ROOT / "include" / "cue.h"
WORK = ROOT / "target" / "station"
HERE = platform.machine() == "x86_64"
COMPILER = "cc"
C_WORDS = ["-std=c99", "-pedantic", "-Wall", "-Wextra", "-Werror", "-O1", "-I", HEADER.parent]


class Broken(Exception):
    """Something cannot be built, or does not run as it should."""


def done(command, cwd=ROOT, **more):
    """What a command writes; Broken where it fails or does not end, with what it says."""
    name = Path(command[0]).name
    try:
        ended = subprocess.run(command, cwd=cwd, capture_output=True, timeout=3600, **more)
    except (OSError, subprocess.TimeoutExpired) as trouble:
        raise Broken(f"{name}: {trouble}") from trouble
    if ended.returncode != 0:
        # What the asking programs write on standard output is no text.
        said = (ended.stderr if "input" in more else ended.stdout + ended.stderr).decode(errors="replace").strip()
        raise Broken(f"{name} ended with status {ended.returncode}: {said[-1500:] or 'it says nothing'}")
    return ended.stdout


def build_archive():
    """Has the library proved and its archive written anew."""
    ARCHIVE.unlink(missing_ok=True)
    done(["rt", "lib"], CRATE)
    if not ARCHIVE.is_file():
        raise Broken(f"rt lib wrote no {ARCHIVE.name}")


def archive_names():
    """The functions that the archive has, by the index at its start: big-endian, a count, places, then names that end in 0."""
    data = ARCHIVE.read_bytes()
    if not data.startswith(b"!<arch>\n/ "):
        raise Broken(f"{ARCHIVE.name} has no index")
    size = int(data[8 + 48 : 8 + 58])
    index = data[68 : 68 + size]
    (count,) = struct.unpack_from(">I", index)
    return sorted(name.decode("ascii") for name in index[4 + 4 * count :].split(b"\0")[:count])


def header_names():
    """The functions that the header file declares."""
    return sorted(re.findall(r"^size_t (\w+)\(", HEADER.read_text("ascii"), re.MULTILINE))


def linker_absent():
    """Why no program can be linked and run, or nothing where it can."""
    if not HERE:
        return "this processor is no x86-64"
    return "" if shutil.which(COMPILER) else f"{COMPILER} is not on the path"


def rust_absent():
    """Why the Rust program cannot be built, or nothing where it can."""
    if not HERE:
        return "rustc builds for this processor alone"
    if shutil.which("rustc") is None:
        return "no rustc: it is not on the path"
    runs = subprocess.run(["rustc", "--version"], capture_output=True, check=False).returncode == 0
    return "" if runs else "no rustc: it does not run"


def build_c(source, name):
    """The program of a C file, linked with the library."""
    WORK.mkdir(parents=True, exist_ok=True)
    done([COMPILER, *C_WORDS, source, ARCHIVE, "-o", WORK / name])
    return WORK / name


def build_rust():
    WORK.mkdir(parents=True, exist_ok=True)
    done(["rustc", "--edition", "2021", "-O", "-L", f"native={ARCHIVE.parent}", "tools/station/ask.rs", "-o", WORK / "ask-rust"])
    return WORK / "ask-rust"


def example():
    """The program that the header file shows, as a file."""
    lines = [line[3:] for line in HEADER.read_text("ascii").split("\n") if line.startswith(" *   ")]
    text = "\n".join(line[2:] for line in lines)
    WORK.mkdir(parents=True, exist_ok=True)
    (WORK / "example.c").write_text(text[text.index("#include") :] + "\n", "ascii")
    return WORK / "example.c"


def stack_bytes():
    """What the header file says of the stack that a call takes."""
    return int(re.search(r"^#define CUE_STACK (\d+)$", HEADER.read_text("ascii"), re.MULTILINE)[1])


def run(program, text):
    """What a linked program answers; with no more stack in all than the header file says a call may take."""
    size = stack_bytes()
    return done([program], input=text, env={}, preexec_fn=lambda: resource.setrlimit(resource.RLIMIT_STACK, (size, size)))
