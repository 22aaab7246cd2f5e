"""What the prover says of a crate with a must-fail edit put in.

`rt ci` and `rt must-fail` try the edits too, and tell of each its first line alone. So each edit is put into a copy of the repository here, where `rt check`
checks its crate; the crate as it stands is checked first, and must be proved. What was said is kept by the sum of all that it rests on: the kit, the crate's files with
the edit put in, the files of the crates below, and their lines of crates.txt. So it is found again wherever the same would be tried. It is kept in the folder
that CUE_KEPT names, or else among the user's cached files, and is forgotten where nobody asked for it in a month.
"""

import contextlib
import fcntl
import hashlib
import os
import queue
import re
import shutil
import subprocess
import tempfile
import time
from concurrent.futures import ThreadPoolExecutor
from functools import lru_cache
from pathlib import Path

import wrong

ROOT = Path(__file__).resolve().parent.parent
KEPT = Path(os.environ.get("CUE_KEPT") or Path(os.environ.get("XDG_CACHE_HOME") or Path.home() / ".cache") / "cue-edits")
MONTH = 30 * 24 * 3600
# How the lines begin that tell only how far a check is, or what to do next.
PASSED_OVER = ("so far: ", "checked ", "rt: ")
# What is kept of a line: enough to tell what it says.
WIDTH = 600


class NotTried(Exception):
    """An edit that was not tried, or of which no verdict came."""


@lru_cache(maxsize=None)
def below():
    """Each crate of crates.txt with the libraries of the house that it stands on, all the way down, and with its line."""
    lines = [line for line in (ROOT / "crates.txt").read_text(encoding="utf-8").splitlines() if line.strip() and not line.startswith("#")]
    own = {line.split(":")[0].split()[0]: line for line in lines}
    direct = {name: [it for it in line.split(":")[1].split() if it in own] for name, line in own.items()}

    def all_below(name):
        return sorted({it for lower in direct[name] for it in (lower, *all_below(lower))})

    return {name: (all_below(name), line) for name, line in own.items()}


@lru_cache(maxsize=None)
def sum_of_crate(name):
    """The sum of a crate's own files and of its line."""
    return hashlib.sha256(repr((below()[name][1], sorted(wrong.files(ROOT / "crates" / name).items()))).encode()).hexdigest()


@lru_cache(maxsize=None)
def kit():
    """The line that names the kit, and what HANDLES allows."""
    said = subprocess.run(["rt", "version"], capture_output=True, text=True, check=True).stdout
    handles = ROOT / "HANDLES"
    return said, handles.read_text(encoding="utf-8") if handles.exists() else ""


def place(name, texts):
    """Where it is kept what was said of a crate with these files."""
    lower, line = below()[name]
    rests = (1, kit(), name, line, [(it, sum_of_crate(it)) for it in lower], sorted(texts.items()))
    return KEPT / hashlib.sha256(repr(rests).encode()).hexdigest()


def kept(path):
    """What is kept there, or nothing."""
    try:
        said = path.read_text(encoding="utf-8")
        os.utime(path)
    except OSError:
        return None
    # The last line is put there last.
    return said.removesuffix("kept\n") if said.endswith("kept\n") else None


def keep(path, said):
    with tempfile.NamedTemporaryFile("w", dir=path.parent, prefix="new-", delete=False, encoding="utf-8") as file:
        file.write(said + "kept\n")
    os.replace(file.name, path)


def forget():
    """Removes what nobody asked for in a month."""
    for path in KEPT.iterdir():
        if path.is_file() and path.stat().st_mtime < time.time() - MONTH:
            path.unlink(missing_ok=True)


class Copy:
    """A copy of the repository, in which one edit at a time is tried."""

    def __init__(self, folder):
        self.folder, self.proved = folder, set()
        shutil.copy(ROOT / "crates.txt", folder)
        if (ROOT / "HANDLES").exists():
            shutil.copy(ROOT / "HANDLES", folder)
        for name in below():
            for file, text in wrong.files(ROOT / "crates" / name).items():
                path = folder / "crates" / name / file
                path.parent.mkdir(parents=True, exist_ok=True)
                path.write_text(text, encoding="utf-8")

    def check(self, name):
        """The status of `rt check`, and what it said but for how far it was."""
        words = ["rt", "check", "--jobs", "1"]
        ran = subprocess.run(words, cwd=self.folder / "crates" / name, stdin=subprocess.DEVNULL, stdout=subprocess.PIPE, stderr=subprocess.STDOUT, errors="replace", text=True)
        lines = [line[:WIDTH] for line in ran.stdout.splitlines() if line and not line.startswith(PASSED_OVER)]
        return ran.returncode, "".join(f"{line}\n" for line in lines)

    def tried(self, name, was, texts):
        """What the prover says of a crate with these files in place of those that it has."""
        if name not in self.proved:
            status, said = self.check(name)
            if status:
                raise NotTried(f"{name} is not proved as it stands: {last_of(said)}")
            self.proved.add(name)
        changed = [file for file in texts if texts[file] != was[file]]
        for file in changed:
            (self.folder / "crates" / name / file).write_text(texts[file], encoding="utf-8")
        try:
            status, said = self.check(name)
        finally:
            for file in changed:
                (self.folder / "crates" / name / file).write_text(was[file], encoding="utf-8")
        if status not in (0, 1) or not re.search(r"^logic=", said, re.MULTILINE):
            raise NotTried(f"`rt check` came to no verdict: {last_of(said)}")
        return said


def last_of(said):
    return (said.splitlines() or ["it says nothing"])[-1][:200]


def lanes():
    """How many edits are tried side by side: RT_JOBS, or one for each processor."""
    words = os.environ.get("RT_JOBS", "")
    return int(words) if words.isdigit() and int(words) > 0 else len(os.sched_getaffinity(0))


def next_of(waiting):
    try:
        return waiting.get_nowait()
    except queue.Empty:
        return None


@contextlib.contextmanager
def room():
    """An empty folder for the copies, for one run at a time. They take too much for a temporary folder that lies in memory, and `rt` notes each folder in which it
    checked, so it is the same one each time."""
    KEPT.mkdir(parents=True, exist_ok=True, mode=0o700)
    folder = KEPT / "room"
    with open(KEPT / "lock", "w", encoding="utf-8") as lock:
        fcntl.flock(lock, fcntl.LOCK_EX)
        shutil.rmtree(folder, ignore_errors=True)
        folder.mkdir()
        try:
            yield folder
        finally:
            shutil.rmtree(folder, ignore_errors=True)


def try_each(edits, keys, said):
    """Tries these edits, crate by crate, in several copies side by side."""
    order, waiting, by_crate = list(below()), queue.SimpleQueue(), {}
    for key in sorted(keys, key=lambda key: order.index(edits[key][0])):
        by_crate.setdefault(edits[key][0], []).append(key)
    for of_crate in by_crate.values():
        waiting.put(of_crate)

    def lane(folder):
        copy = Copy(folder)
        while of_crate := next_of(waiting):
            for key in of_crate:
                name, was, texts = edits[key]
                try:
                    said[key] = copy.tried(name, was, texts)
                    keep(place(name, texts), said[key])
                except NotTried as why:
                    said[key] = why

    with room() as folder, ThreadPoolExecutor(lanes()) as pool:
        folders = [folder / str(number) for number in range(min(lanes(), len(by_crate)))]
        for it in folders:
            it.mkdir()
        for done in [pool.submit(lane, it) for it in folders]:
            done.result()


def all_tried(edits):
    """What the prover says of each edit, by its key, or why nothing is known; and how many were tried now. `edits` has a crate, its files, and its files
    with the edit put in, by key."""
    said = {key: kept(place(name, texts)) for key, (name, _, texts) in edits.items()}
    keys = [key for key, text in said.items() if text is None]
    if keys:
        try_each(edits, keys, said)
        forget()
    return said, len(keys)
