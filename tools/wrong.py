"""The wrong programs that the prover must refuse, as crates/*/must-fail has them, and what it said of each.

An edit has the form of `rt`: `file:`, and of that file pairs of `old:` and `new:`. A line `wrong: NAME` stands before the lines of each
wrong program. Several may share an edit, and so a check: then each changes the body of one function, and no two of them the same (docs/GATE.md says why).
"""

import re

PARTS = ("src", "specs", "proofs")
ERROR = re.compile(r"^(?:\./)?(\S+):\d+:\d+: error: (.*(?:\n  .*)?)", re.MULTILINE)
# What is said where a fact fails: two sides differ, something does not follow, or what the code tests is not in what is promised. Of a name that is missing, and of what waits for another
# line that is refused, other things are said.
FACT = re.compile(
    r"`[^`]*`: (?:as printed, the two (?:types|sides)|computed as far as they go, the two|expected type|give a proof of that as the last argument|`\w+`: (?:the goal does not follow|no proof of|no occurrence of|no equation of the list has an instance in the goal)|`[^`]*`\n  ≟ )"
)
# What is said of a function that `search` proves, where it proves it no more.
NOT_FOUND = re.compile(r"^fn \S+: no proof: expected answers in (?:\./)?(\S+); `search` did not prove ", re.MULTILINE)
# A goal that nobody answers, where the prover finds values at which it is false; and a function, of which what stands before it was said.
FALSE_GOAL = re.compile(r"^note: src/\S+: it is not proved that .*\(`([^`]+)`\); the facts known there allow values at which this goal is false$")
FUNCTION = re.compile(r"^fn \w+::(\S+): ")
# The answer to a goal.
ANSWER = re.compile(r"^pub (\S+) : goal\.", re.MULTILINE)


class Unclear(Exception):
    """An edit that does not tell what it tries."""


class Wrong:
    """One wrong program: its name, and what it changes: a file, an old text and a new one, each time."""

    def __init__(self, name):
        self.name, self.changes = name, []


def edits(crate):
    return sorted(crate.glob("must-fail/*.edit"))


def wrong_programs(edit):
    """The wrong programs of an edit, in order."""
    found, file, old = [], None, None
    for line in edit.read_text(encoding="utf-8").splitlines():
        if line.startswith("wrong: "):
            found.append(Wrong(line[7:]))
        elif line.startswith("file: "):
            file = line[6:]
        elif line.startswith("old: "):
            old = line[5:]
        elif line.startswith("new:"):
            if not found:
                raise Unclear(f"{edit.parent.parent.name}/{edit.stem}: a change stands before the first `wrong:`")
            found[-1].changes.append((file, old, line[4:].removeprefix(" ")))
    if not found or not all(wrong.changes for wrong in found):
        raise Unclear(f"{edit.parent.parent.name}/{edit.stem}: a wrong program has no name or changes nothing")
    return found


def names(crate):
    """The names of a crate's wrong programs, each as often as it is there."""
    return [wrong.name for edit in edits(crate) for wrong in wrong_programs(edit)]


def files(folder):
    """The files that a check of a crate reads, by their names below it."""
    return {str(path.relative_to(folder)): path.read_text(encoding="utf-8") for part in PARTS for path in sorted(folder.glob(f"{part}/**/*")) if path.is_file()}


def bodies(text):
    """The functions of a source, each with its type before it; whether it is public, and from which line to which its body stands."""
    kind, name, indent, public, start = [], None, "", False, None
    for number, line in enumerate(text.splitlines()):
        if found := re.match(r"impl(?:<[^{]*?>)? (\w+)(?:<(\w+)>)? for (\w+)", line):
            # The prover names an `impl` by the type, the trait and what the trait is at.
            kind = ["".join(word[:1].upper() + word[1:] for word in (found[3], found[1], found[2] or ""))]
        elif found := re.match(r"impl(?:<[^{]*?>)? (\w+)", line):
            kind = [found[1]]
        elif found := re.match(r'( *)(pub )?(?:pub\(crate\) )?(?:extern "C" )?fn (\w+)', line):
            indent, public, name, start = found[1], bool(found[2]), found[3], number + 1 if line.endswith("{") else None
        elif name and line == indent + "}":
            yield (*kind, name), public, start, number
            name = None
        elif line == "}":
            kind = []
        elif name and line.startswith((indent + "{", indent + ")")) and line.endswith("{"):
            start = number + 1


def module_of(file):
    return [] if file in ("src/lib.rt", "src/main.rt") else file.removeprefix("src/").removesuffix(".rt").split("/")


def proof_of(texts, file, *function):
    """The folder of a function's proof, that of a method being with its type, or of the cycle of calls that it is in."""
    for kind in function[:-1]:
        declares = re.compile(rf"^(?:pub )?(?:pub\(crate\) )?(?:struct|enum) {kind}\b", re.MULTILINE)
        file = next((name for name, text in texts.items() if name.startswith("src/") and declares.search(text)), file)
    above = "/".join(["proofs", *module_of(file), *function[:-1]])
    cycle = re.search(rf"#\[cycle\((\w+)\)\]\n(?: *#\[.*\n)* *(?:pub )?(?:pub\(crate\) )?fn {function[-1]}\b", texts.get(file, ""))
    # A function that calls itself is a cycle, too.
    names = ["+" + cycle[1]] if cycle else ["+" + function[-1]]
    return f"{above}/{next((name for name in names if any(it.startswith(f'{above}/{name}/') for it in texts)), function[-1])}/"


def applied(texts, wrong):
    """Puts a wrong program into a crate's files, and says which function it changes, and in which file; nothing where it changes more than one function's body."""
    found = set()
    for file, old, new in wrong.changes:
        if not old or texts.get(file, "").count(old) != 1:
            raise Unclear(f"{wrong.name}: an old text is not in {file} once")
        at = texts[file].index(old)
        line = texts[file].count("\n", 0, at)
        within = [function for function, _, start, end in bodies(texts[file]) if start <= line < end] if file.startswith("src/") else []
        found.add((file, *within[0]) if within else None)
        texts[file] = texts[file][:at] + new + texts[file][at + len(old) :]
    return found.pop() if len(found) == 1 else None


def goals_found_false(said):
    """Of each function, by its path with its module and type, the goals without an answer that the prover finds false."""
    found, goals = {}, []
    for line in said.splitlines():
        if goal := FALSE_GOAL.match(line):
            goals.append(goal[1])
        elif function := FUNCTION.match(line):
            found.setdefault(function[1], []).extend(goals)
            goals = []
    return found


def without_closure(path, joint):
    """The path of a function for that of a closure in it, which the prover puts below `fn`; any other path as it is."""
    before, closure, behind = path.partition(f"{joint}fn{joint}")
    return before + joint + behind.rpartition(joint)[0] if closure else path


def folder_of(texts, path):
    """The folder of the proof of a function by its path. A closure counts as its function, and so does a function that is passed as one."""
    path = path.replace("++", "::").partition("::")[2] if "++" in path else path
    *module, name = without_closure(path.partition("+")[0], "::").split("::")
    kinds = [it for it in module if it[:1].isupper()]
    file = "/".join(["src", *(it for it in module if it not in kinds)]) + ".rt"
    return proof_of(texts, file if module else "src/lib.rt", *kinds, name)


def failed_facts(said, texts):
    """The files below a crate in which a fact failed, from what the prover said of the crate with an edit put in; `texts` are the crate's files without it.
    A goal that is found false counts where it has no answer in that proof, as one that `search` proves, or that is new."""
    answers = {error[1] for error in ERROR.finditer(said) if FACT.match(error[2])} | set(NOT_FOUND.findall(said))
    found = {f"{without_closure(folder, '/')}/{file}" for folder, _, file in (it.rpartition("/") for it in answers)}
    for path, goals in goals_found_false(said).items():
        answers = folder_of(texts, path) + "Answers.antt"
        if not set(goals) <= set(ANSWER.findall(texts.get(answers, ""))):
            found.add(answers)
    return found
