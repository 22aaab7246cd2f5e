"""The sheets of the benchmark: short texts, and texts made by a rule."""

from typing import NamedTuple


class Sheet(NamedTuple):
    name: str
    says: str
    text: str


PIPE = "@pipe\n1 1 0.005 0.05 0.6 0.1\n\t0.5 2 0.005 0.1 0.2 0.1\n\n"
WAVE = "0.5 1 0.01 0.1 0.7 0.1"
# Notes of 83 samples: where they are, reading counts for more than sound.
BRIEF = "t1000 l128"


def tone(indents, wave=WAVE, name="@tone"):
    """An instrument with an operator line for each indent."""
    return "\n".join([name, *("\t" * indent + wave for indent in indents)]) + "\n\n"


def parts(count, body):
    return "".join(f"p{k} {body}\n" for k in range(count))


def figure():
    macros = "!high o5 [e8c8]2 r4\n!low o4 [c8e8]2 r4\n!grade o4 a1\n!all !high !low !grade\n"
    return PIPE + macros + "p @pipe t240 v0.5 !all !all !all\n"


def macros(count):
    defined = "".join(f"!m{k} o{k % 8 + 1} c+ d e- f g16. a b r\n" for k in range(count))
    return defined + f"p {BRIEF} " + " ".join(f"!m{k}" for k in range(count)) + "\n"


def instruments(count):
    names = [f"@i{k}" for k in range(count)]
    defined = "".join(tone([0, 1] * 16, "0.1 1 0.01 0.1 0.7 0", name) for name in names)
    return defined + f"p {BRIEF} " + " ".join(f"{name} c" for name in names) + "\n"


SHEETS = [
    Sheet("empty", "`p ;`, no note: what a process costs", "p ;\n"),
    Sheet("short cue", "two notes that fall, twice; two operators", PIPE + "p @pipe t240 v0.6 o5 [e8c8r4]2\n"),
    Sheet("figure", "three figures by macros in macros, with loops; two operators", figure()),
    Sheet("long note", "one note of 30 s by the instrument that every sheet has", "p t8 a1\n"),
    Sheet("four operators", "one note of 10 s, indents 0 1 2 1", tone([0, 1, 2, 1]) + "p @tone t24 a1\n"),
    Sheet("feedback", "one note of 10 s, one operator with feedback 3", tone([0], WAVE + " 3") + "p @tone t24 a1\n"),
    Sheet("sixteen parts", "16 notes in each; two operators", PIPE + parts(16, "@pipe t240 l8 v0.05 [cdefgab>c<]2")),
    Sheet(
        "long line",
        "one line of 2,048 notes with accidental, value and dot, and two commands before each",
        f"p {BRIEF} " + "o5 v0.5 c+128. " * 2048 + "\n",
    ),
    Sheet("64 macros", "of eight notes and an octave, each called once", macros(64)),
    Sheet("50,000 calls", "of macros, in two levels", f"!a >\n!b {'!a ' * 99}\np {'!b ' * 500} {BRIEF} c\n"),
    Sheet("2,000 lines", "of two parts by turns, a note in each", f"p {BRIEF} c\nq {BRIEF} e\n" + "p c\nq e\n" * 999),
    Sheet("2,048 notes", "by four nested loops", f"p {BRIEF} [[[[c]8]8]8]4\n"),
    Sheet("31 instruments", "of 32 operators, a note for each", instruments(31)),
    Sheet("blanks", "32,000 of them before one note", f"p {BRIEF} {' ' * 32000}c\n"),
    Sheet(
        "large window",
        "eight parts of 256 notes, each of which sounds on through the next two",
        tone([0], "0.1 1 0.01 0.1 0.7 0.06") + parts(8, "@tone t240 l32 [cdefgab>c<]32"),
    ),
]


def longer(factor):
    return tone([0]) + f"p @tone t{24 // factor} a1\n"


def noted(count, tempo, value):
    """So many notes, by one operator without release: the samples stay about the same."""
    return f"p t{tempo} l{value} [[c]{count // 16}]16\n"


def operated(count):
    return tone([k % 2 for k in range(count)]) + "p @tone t80 a1\n"


NOTES = [(256, 120, 32), (512, 120, 64), (1024, 120, 128), (2048, 240, 128)]
# How time grows: what is doubled, how many there are, and the sheet.
GROWTH = (
    [("length", f"x{k}", Sheet(f"length {k}", "", longer(k))) for k in (1, 2, 4)]
    + [("notes", f"{n:,}", Sheet(f"notes {n}", "", noted(n, *brief))) for n, *brief in NOTES]
    + [("operators", n, Sheet(f"operators {n}", "", operated(n))) for n in (1, 2, 4, 8, 16, 32)]
)
EVERY = SHEETS + [sheet for _, _, sheet in GROWTH]
