"""Copies the given Rust engine to a build folder and makes our few changes in the copy.

Two copies are made: `given`, where modules and one function become public and
nothing else changes, and `ruled`, which also takes document 01's turn sine, power rule and
order of parts. Each change is counted, so that a source which is not the one
we know stops the build instead of giving a program that is wrong in silence.

    python3 oracle/prepare.py RUST_FOLDER TURN_OUTPUT BUILD_FOLDER
"""

import shutil
import sys
from pathlib import Path

# Our own files that both programs are made of; the first is their main file.
FRONT = {"front.rs": "main.rs"} | {name: name for name in ("numbers.rs", "instruments.rs", "thrown.rs")}

# Each change: file, text, what replaces it, how often the text must be there.
OPEN = [
    ("engine.rs", f"\nmod {name};\n", f"\npub mod {name};\n", 1)
    for name in ("instrument", "note", "parser")
] + [
    ("engine.rs", "mod evaluator;\n", "pub mod evaluator;\n", 1),
    ("engine/evaluator.rs", "\nfn sec_to_len(", "\npub fn sec_to_len(", 1),
]

RULES = [
    (
        "engine/instrument.rs",
        "(2.0 * PI * f * self.freqratio * t + res).sin()",
        "crate::ruled::turn_sine(2.0 * PI * f * self.freqratio * t + res)",
        1,
    ),
    (
        "engine/parser/part.rs",
        "SEMINOTE_STEP.powi(frequency - 57)",
        "crate::ruled::power(SEMINOTE_STEP, frequency - 57)",
        1,
    ),
    (
        "engine/parser.rs",
        "pub parts: HashMap<String, Vec<Note>>,",
        "pub parts: crate::ruled::Ordered<Vec<Note>>,",
        1,
    ),
    (
        "engine/parser.rs",
        "let mut parts = HashMap::new();",
        "let mut parts = crate::ruled::Ordered::new();",
        1,
    ),
]

# What must be gone after the rules are in: a second sine or power would be left as it was.
GONE = [".sin()", ".powi("]

TABLE_ENTRIES = 1025


def stop(text):
    sys.exit(f"oracle/prepare.py: {text}")


def change(folder, changes):
    """Makes the listed changes, each exactly as often as it says."""
    for name, old, new, times in changes:
        path = folder / name
        text = path.read_text(encoding="utf-8")
        found = text.count(old)
        if found != times:
            stop(f"{name}: expected {times} of {old.strip()!r}, found {found}")
        path.write_text(text.replace(old, new), encoding="utf-8")


def check_gone(folder):
    """Stops if any engine file still asks the platform for a sine or a power."""
    for path in sorted(folder.rglob("engine/**/*.rs")):
        for text in GONE:
            if text in path.read_text(encoding="utf-8"):
                stop(f"{path.name}: {text!r} is still there")


def fresh_copy(rust, folder):
    """Puts a new copy of the engine, with our front, into the folder."""
    shutil.rmtree(folder, ignore_errors=True)
    folder.mkdir(parents=True)
    shutil.copyfile(rust / "src" / "engine.rs", folder / "engine.rs")
    for path in sorted((rust / "src" / "engine").rglob("*.rs")):
        target = folder / path.relative_to(rust / "src")
        target.parent.mkdir(parents=True, exist_ok=True)
        shutil.copyfile(path, target)
    for name, target in FRONT.items():
        shutil.copyfile(Path(__file__).parent / name, folder / target)


def table_source(lines):
    """The Rust text of C and T from the lines of tools/turn.py."""
    words = [line.split() for line in lines]
    wanted = [["C"]] + [["T", str(i)] for i in range(TABLE_ENTRIES)]
    if [w[:-1] for w in words] != wanted or not all(w[-1].isdigit() for w in words):
        stop("the output of tools/turn.py is not one C line and 1,025 T lines")
    numbers = [w[-1] for w in words]
    entries = "".join(f"    {n},\n" for n in numbers[1:])
    return (
        "// C and T of document 01 as tools/turn.py worked them out; made by the build.\n"
        f"pub const C: u128 = {numbers[0]};\n"
        f"pub const T: [u128; {TABLE_ENTRIES}] = [\n{entries}];\n"
    )


def main(rust, turn_output, build):
    for name, changes in (("given", OPEN), ("ruled", OPEN + RULES)):
        fresh_copy(rust, build / name)
        change(build / name, changes)
    check_gone(build / "ruled")
    shutil.copyfile(Path(__file__).parent / "ruled.rs", build / "ruled" / "ruled.rs")
    lines = turn_output.read_text(encoding="ascii").splitlines()
    (build / "ruled" / "table.rs").write_text(table_source(lines), encoding="ascii")


if __name__ == "__main__":
    main(*map(Path, sys.argv[1:4]))
