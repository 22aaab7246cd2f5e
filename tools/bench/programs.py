"""The programs of the benchmark: `cue`, its three rivals built from the given Rust, and what starts and counts them."""

import re
import shutil
import subprocess
import sys
from pathlib import Path

HERE = Path(__file__).resolve().parent
ROOT = HERE.parent.parent
OUT = ROOT / "target" / "bench"
ARCHIVE = ROOT / "crates" / "station" / "out" / "libstation.a"

OURS = "cue"
# Another build of `cue`, where one is named.
BEFORE = "before"
BUILDS = {OURS: ROOT / "crates" / OURS / "out" / OURS}
# Each rival, and the oracle's sources that it is made from.
RIVALS = {"given": "given", "ruled": "ruled", "fast": "ruled"}
# What makes the rivals fastest. There is no -C target-cpu, since `cue` is built for every x86-64.
FLAGS = "--edition 2021 -C opt-level=3 -C codegen-units=1 -C lto=fat -C panic=abort".split()
# The fast sine is held against the oracle's at every so many bit patterns.
SINES_STEP = 257
# In KiB: where the search for the smallest stack begins, and how near it comes.
STACK_MOST, STACK_STEP = 8192, 8


def stop(text):
    sys.exit(f"bench: {text}")


def path_of(name):
    return BUILDS.get(name, OUT / name)


# ---- building


def compile_rust(name, source, *flags):
    words = ["rustc", "--crate-name", name, *FLAGS, "-A", "warnings", *flags, "-o", OUT / name, source]
    if subprocess.run(words).returncode != 0:
        stop(f"{name} was not built")


def lay_out(name, kind, main):
    """A copy of the oracle's sources with our main file."""
    folder = OUT / "src" / name
    shutil.rmtree(folder, ignore_errors=True)
    shutil.copytree(ROOT / "target" / "oracle" / "src" / kind, folder)
    return Path(shutil.copyfile(HERE / main, folder / "main.rs"))


def put_fast_sine(folder):
    shutil.copyfile(HERE / "fast.rs", folder / "fast.rs")
    path = folder / "engine" / "instrument.rs"
    before, *behind = path.read_text(encoding="utf-8").split("crate::ruled::turn_sine(")
    if len(behind) != 1:
        stop("the sine is not where it is to be replaced")
    path.write_text(before + "crate::fast::turn_sine(" + behind[0], encoding="utf-8")


def build():
    """Builds the rivals and the launcher, and answers at how many bit patterns the two sines agree."""
    if not path_of(OURS).is_file():
        stop("cue is not built: rt run builds it")
    if not shutil.which("valgrind"):
        stop("valgrind is not at hand")
    if subprocess.run([ROOT / "oracle" / "build"]).returncode != 0:
        stop("the oracle's sources are not there")
    OUT.mkdir(parents=True, exist_ok=True)
    compile_rust("launch", HERE / "launch.rs")
    for name, kind in RIVALS.items():
        main = lay_out(name, kind, "rival.rs")
        if name == "fast":
            put_fast_sine(main.parent)
        compile_rust(name, main, "--cfg", name)
    return int(answer("fast", b"", "sines", str(SINES_STEP)))


def build_reading(kind):
    """The program that times reading alone: the Rust's parser with the static library."""
    name = f"reading_{kind}"
    main = lay_out(name, kind, "reading.rs")
    compile_rust(name, main, "--cfg", kind, "-L", ARCHIVE.parent, "-l", "static=station")
    return OUT / name


# ---- running


def answer(name, given, *words):
    done = subprocess.run([path_of(name), *words], input=given, stdout=subprocess.PIPE)
    if done.returncode != 0:
        stop(f"{name} ended with status {done.returncode}")
    return done.stdout


def instructions(name, path):
    """The instructions of a whole process."""
    words = ["valgrind", "--tool=cachegrind", "--cache-sim=no", "--cachegrind-out-file=/dev/null", path_of(name)]
    with open(path, "rb") as sheet:
        done = subprocess.run(words, stdin=sheet, stdout=subprocess.DEVNULL, stderr=subprocess.PIPE, text=True)
    found = re.search(r"I +refs: +([\d,]+)", done.stderr)
    if done.returncode != 0 or not found:
        stop(f"valgrind could not count {name}:\n{done.stderr}")
    return int(found[1].replace(",", ""))


class Launcher:
    """Starts programs from a small process, launch.rs."""

    def __init__(self):
        pipes = {"stdin": subprocess.PIPE, "stdout": subprocess.PIPE}
        self.process = subprocess.Popen([OUT / "launch"], text=True, bufsize=1, **pipes)

    def launched(self, name, sheet, stack):
        self.process.stdin.write(f"{stack}\t{sheet}\t{path_of(name)}\n")
        return [int(word) for word in self.process.stdout.readline().split()]

    def took(self, name, sheet):
        """Milliseconds of the processor, and KiB of memory."""
        status, microseconds, memory = self.launched(name, sheet, 0)
        if status != 0:
            stop(f"{name} ended with status {status} at {sheet.name}")
        return microseconds / 1000, memory

    def stack(self, name, sheet):
        """The smallest stack in KiB under which a program was seen to end well."""
        fails, runs = 0, 2 * STACK_MOST
        while runs - fails > STACK_STEP:
            middle = (runs + fails) // 2
            status, *_ = self.launched(name, sheet, middle)
            fails, runs = (fails, middle) if status == 0 else (middle, runs)
        return runs
