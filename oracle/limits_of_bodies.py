"""Hand-made sheets at the limits of document 01, second half: bodies, macros, steps and lengths.

Each entry is a label, a sheet and the answer worked out by hand from the document; limits.py
says more.
"""

from limits_of_lines import OP, WORD, alike, instrument

COUNT = 18446744073709551615

# Calls of !a, !b and !c take 100, 1,000 and 10,000 steps and give no note.
HUNDREDS = (
    "!a " + ">" * 99 + "\n"
    "!b " + "!a " * 9 + ">" * 99 + "\n"
    "!c " + "!b " * 9 + "!a " * 9 + ">" * 99 + "\n"
)


def commands():
    """Commands of a body, their ranges and values."""
    entries = []
    for letter, least, most in (("o", 1, 8), ("l", 1, 128), ("t", 1, 1000)):
        entries += alike(
            f"command: {letter}{{}}", f"p {letter}{{}} r",
            ("refused 8 1", least - 1),
            ("accepted 2", least, most),
            ("refused 8 1", most + 1, WORD),
            ("refused 7 1", WORD + 1, "", " 4", "-4"),
            ("accepted 2", "0" * 20 + "4"),
            ("refused 14 1", "4x"),
        )
    entries += alike(
        "command: v{}", "p v{} c",
        ("accepted 2", "0", "1", "0.0", "1.0"),
        ("refused 8 1", "2"),
        ("refused 7 1", "", ".5", "5.", "0.", "0.c", "-0", " 0"),
        ("refused 14 1", "0,7"),
        ("accepted 3", "0.5e"),
        ("refused 14 1", "0.5.5"),
        ("accepted 2", "0." + "1" * 17),
        ("refused 19 1", "0." + "1" * 18),
        ("accepted 2", "0" * 17 + "1"),
        ("refused 19 1", "0" * 18 + "1", "2." + "0" * 18),
        ("refused 7 1", "1" * 19 + ".", "1" * 19 + ".x"),
        ("refused 8 1", "1" * 18),
        ("accepted 2", "1.00000005960464477"),
        ("refused 8 1", "1.00000005960464478"),
        ("accepted 2", "0.00000000000000001"),
    )
    entries += alike(
        "command: k{}", "p k{} c",
        ("accepted 2", "+", "=", "cc-"),
        ("accepted 3", "c+c"),
        ("refused 14 1", "c++"),
        ("refused 9 1", "", "c", "r+", " c+"),
    )
    unknown = "hjpzACR019-=,_#|\\'\x01"
    entries += [(f"command: unknown {c!r}", f"p c4 {c}", "refused 14 1") for c in unknown]
    return entries


def notes():
    """Letters, accidentals, values, dots and the two ends of the semitones."""
    return alike(
        "note: {}", "p {}",
        ("accepted 8", "abcdefgr"),
        ("refused 8 1", "c0"),
        ("accepted 1", "c1", "c128"),
        ("refused 8 1", "c129", f"c{WORD}"),
        ("refused 14 1", f"c{WORD + 1}", f"c{WORD + 1}."),
        ("accepted 1", "c" + "0" * 20 + "4"),
        ("refused 8 1", "c" + "0" * 20),
        ("accepted 1", "c.", "c4.", "c+."),
        ("refused 14 1", "c..", "c4..", "c4 .", "c 4", "c +"),
        ("accepted 1", "c++", "c--"),
        ("refused 14 1", "c+++", "c---", "c+-", "c==", "c=+"),
        ("accepted 3", "c++16.d--8.e=2."),
        ("accepted 4", "r+r--r=r8."),
        ("accepted 2", "o1c--", "o8b++"),
        ("accepted 6", "o8>b++o1<c--"),
        ("accepted 9", "kcf+cdefgabr"),
        ("refused 9 1", "kcr=c"),
        ("accepted 6", "kb- b b= b-- b+ b"),
        ("accepted 2", "kabcdefg+r"),
        ("accepted 4", "kc+kd-cd"),
        ("refused 14 1", "l8c.l1."),
        ("accepted 10", "o4c>c>c<c<c"),
        ("accepted 3", "t1000l128c"),
        ("accepted 6", "t7l3c5.d7e9.f11"),
    ) + [
        ("note: denominator 128", "#denom 128\np t1000 c128 d3. e7", "accepted 4"),
        ("note: environment goes on in the next line", "p o5l8v0.25t90\nq c\np c", "accepted 6"),
    ]


def loops():
    """Loops: counts, cuts, room for open ones, lines and parts."""
    return alike(
        "loop: {}", "p {}",
        ("refused 10 1", "]2", ":", "]", "]0", "[c]2]2", "[c]2:"),
        ("refused 11 1", "[c]", "[c]x", "[c] 2", "[c]-1", f"[c]{COUNT + 1}"),
        ("refused 21 1", f"[c]{COUNT}", f"[:c]{COUNT}"),
        ("accepted 2", f"[]{COUNT}"),
        ("accepted 5", f"[[:]{COUNT}]{COUNT}"),
        ("refused 11 1", f"[]{COUNT + 1}", "[]0"),
        ("refused 21 1", "[cc]9223372036854775809", "[cc]9223372036854775808", "[cccc]4611686018427387905",
         "[c]4294967297"),
        ("accepted 3", "[c]" + "0" * 30 + "2"),
        ("refused 14 1", "[c]2."),
        ("accepted 4", "[:c]1", "[c:]3"),
        ("accepted 8", "[::c:d:]2"),
        ("accepted 11", "[c[d:e]2:f]2g"),
        ("accepted 8", "[[c:]2:d]3"),
        ("accepted 10", "[c:d]2[e:f]3"),
        ("accepted 7", "[ c >: d < ]2"),
        ("accepted 5", "[o5c]2d"),
        ("accepted 17", "[" * 8 + "c" + "]2" * 8),
        ("refused 21 1", "[" * 9),
        ("accepted 18", "[" * 8 + "]1[" + "]1" * 8),
    ) + [
        ("loop: over two lines", "p [c\np d]2", "accepted 4"),
        ("loop: over two lines, another part between", "p [c\nq d\np ]2", "accepted 4"),
        ("loop: cut on the next line", "p [c\np :d]2", "accepted 5"),
        ("loop: another part cannot close it", "p [c\nq ]2", "refused 10 2"),
        ("loop: left open in one of two parts", "p c\nq [c", "refused 26 0"),
        ("loop: left open, `]` behind `;`", "p [c;]2", "refused 26 0"),
        ("loop: 8 open in each of two parts", f"p {'[' * 8}\nq {'[' * 8}\np {']1' * 8}\nq {']1' * 8}", "accepted 32"),
        ("loop: 9th open in the next line", f"p {'[' * 8}\np [", "refused 21 2"),
        ("loop: 14 before 26", "p [\np Z", "refused 14 2"),
    ]


def note_counts():
    """2,048 and 2,049 notes, plain, in open loops and by `]`."""
    c = "c" * 1024
    return [
        ("notes: 2,048 plain", f"p {c}{c}", "accepted 2048"),
        ("notes: 2,049 plain", f"p {c}{c}c", "refused 21 1"),
        ("notes: rests count", f"p {c}{c}r", "refused 21 1"),
        ("notes: 2,048 in an open loop", f"p [{c}{c}]1", "accepted 2050"),
        ("notes: 2,049 in an open loop", f"p [{c}{c}c", "refused 21 1"),
        ("notes: 2,049 in an open loop, past the cut", f"p [c:{c}{c}", "refused 21 1"),
        ("notes: 2,048 by `]`", f"p [[{c}]2]1", "accepted 1028"),
        ("notes: 2,050 by an inner `]`", f"p [[{c}c]2", "refused 21 1"),
        ("notes: a cut gives room back", f"p [{c}:{c}]1{c}", "accepted 3075"),
        ("notes: a cut at 0 gives all room back", f"p [:{c}{c}]1[d]2048", "accepted 2054"),
        ("notes: 2,048 by a cut", "p [:c]2049", "accepted 4"),
        ("notes: 2,049 by a cut", "p [:c]2050", "refused 21 1"),
        ("notes: 2,049 by the last pass", "p [c:d]1025", "refused 21 1"),
        ("notes: 2,047 by the last pass", "p [c:d]1024", "accepted 5"),
        ("notes: two parts, 2,048", "p [c]1024\nq [c]1024", "accepted 6"),
        ("notes: two parts, 2,049", "p [c]1024\nq [c]1025", "refused 21 2"),
        ("notes: another part's open loop counts", f"p [{c}\nq [c]1025", "refused 21 2"),
        ("notes: 2,049th on a later line", "p [c]2048\np ;\np c", "refused 21 3"),
        ("notes: 2,049th in a macro", "!m c\np [c]2048\np !m", "refused 21 1"),
        ("notes: `]` in a macro", "!m ]2049\np [c !m", "refused 21 1"),
        ("notes: empty loops at 2,048", "p [c]2048 []9 [:]9", "accepted 8"),
        ("notes: 8 before 21", "p [c]2048 c0", "refused 8 1"),
        ("notes: 14 at 2,048", "p [c]2048 x", "refused 14 1"),
        ("notes: 10 before 21", "p [c]2048 ]2", "refused 10 1"),
        ("notes: 11 before 21", "p [[c]2048]0", "refused 11 1"),
    ]


def macros():
    """Macro lines, calls and nesting."""
    many = "".join(f"!{i} c\n" for i in range(64))
    chain = "!b !a\n!c !b\n!d !c\n!e !d\n!f !e\n!g !f\n!h !g\n"
    return [
        ("macro: no body", "!m", "refused 5 1"),
        ("macro: blanks for a body", "!m \t\np c", "refused 5 1"),
        ("macro: `!` alone", "!", "refused 5 1"),
        ("macro: name `!`", "! c\np !", "accepted 2"),
        ("macro: defined twice", "!m c\n!m d\np c", "refused 4 2"),
        ("macro: 5 before 4", "!m c\n!m\np c", "refused 5 2"),
        ("macro: 64", many + "p !63", "accepted 2"),
        ("macro: 65", many + "!x c\np c", "refused 21 65"),
        ("macro: 4 before 21", many + "!3 c", "refused 4 65"),
        ("macro: 5 before 21", many + "!x", "refused 5 65"),
        ("macro: unknown", "p !m", "refused 13 1"),
        ("macro: defined after the call", "p !m\n!m c", "refused 13 1"),
        ("macro: `!m;` is one name", "!m c\np !m;", "refused 13 2"),
        ("macro: `!mc` is one name", "!m c\np !mc", "refused 13 2"),
        ("macro: a name with `;`", "!m; c\np !m; d", "accepted 3"),
        ("macro: a name of marks", "!]@#:! c\np !]@#:! d", "accepted 3"),
        ("macro: calls one defined later", "!a !b\n!b c\np !a", "accepted 3"),
        ("macro: `;` ends only its body", "!m c;Z\np !m d", "accepted 3"),
        ("macro: body `;`", "!m ;\np !m d", "accepted 2"),
        ("macro: never called, never read", "!m Z\np c", "accepted 1"),
        ("macro: its own line is named", "\n!m Z\np c\np !m", "refused 14 2"),
        ("macro: the inner macro's line is named", "!a Z\n!b !a\np !b", "refused 14 1"),
        ("macro: after the call the caller's line", "!m c\n\np !mZ", "refused 13 3"),
        ("macro: after the body the caller's line", "!m c\n\np !m Z", "refused 14 3"),
        ("macro: a value does not go over its end", "!m o\np !m 4", "refused 7 1"),
        ("macro: a note does not go over its end", "!m c\np !m +", "refused 14 2"),
        ("macro: opens a loop", "!o [\np !o c]2", "accepted 4"),
        ("macro: closes a loop", "!x :d]2\np [c !x", "accepted 6"),
        ("macro: a call right after a note", "!x :d]2\np [c!x", "accepted 6"),
        ("macro: closes without a loop", "!x ]2\np c !x", "refused 10 1"),
        ("macro: opens and closes in two", "!o [[\n!x ]2]3\np !o c !x", "accepted 7"),
        ("macro: opens the 9th loop", f"!o [\np {'[' * 8} !o", "refused 21 1"),
        ("macro: leaves a loop open", "!o [c\np !o", "refused 26 0"),
        ("macro: uses an instrument defined after it", "!m @i c\n@i\n\np !m", "accepted 3"),
        ("macro: unknown instrument", "!m @i\np !m", "refused 12 1"),
        ("macro: calls itself", "!m !m\np !m", "refused 22 1"),
        ("macro: calls itself after a note", "!m c!m\n!n c !n\np !n", "refused 22 2"),
        ("macro: two call each other", "!a !b\n!b !a\np !a", "refused 22 2"),
        ("macro: 8 deep", "!a c\n" + chain + "p !h", "accepted 9"),
        ("macro: 9 deep", "!a c\n" + chain + "!i !h\np !i", "refused 22 2"),
        ("macro: 8 deep twice", "!a c\n" + chain + "p !h !h", "accepted 18"),
        ("macro: 9 deep, 13 before 22", chain + "!i !h\np !i", "refused 13 1"),
        ("macro: 9 deep only in a body not reached", "!a c;!a\n" + chain + "p !h", "accepted 9"),
        ("macro: 8 deep, an unknown character", "!a Z\n" + chain + "p !h", "refused 14 1"),
        ("macro: environment stays after the call", "!m o6l8v0.1\np !m c", "accepted 5"),
    ]


def steps():
    """100,000 steps and one more."""
    almost = "!c " * 9 + "!b " * 9 + "!a " * 9
    fifteen = "".join(f"q{i} ;\n" for i in range(15))
    return [
        ("steps: 100,000", HUNDREDS + "p " + "!c " * 10, "accepted 100000"),
        ("steps: 100,000, then `;`", HUNDREDS + "p " + "!c " * 10 + " ;Z", "accepted 100000"),
        ("steps: 100,000, then a part without one", HUNDREDS + "p " + "!c " * 10 + "\nq ;", "accepted 100000"),
        ("steps: 100,001 by a note", HUNDREDS + "p " + "!c " * 10 + "c", "refused 23 4"),
        ("steps: 100,001 on the next line", HUNDREDS + "p " + "!c " * 10 + "\np >", "refused 23 5"),
        ("steps: 100,001 in another part", HUNDREDS + "p " + "!c " * 10 + "\nq >", "refused 23 5"),
        ("steps: 100,001 in a macro", HUNDREDS + "!n >\np " + almost + ">" * 99 + " !n", "refused 23 4"),
        ("steps: 99,999 and an empty macro", HUNDREDS + "!n ;\np " + almost + ">" * 99 + " !n", "accepted 100000"),
        ("steps: 23 before 14", HUNDREDS + "p " + "!c " * 10 + "Z", "refused 23 4"),
        ("steps: 23 before 13", HUNDREDS + "p " + "!c " * 10 + "!x", "refused 23 4"),
        ("steps: 23 before 12", HUNDREDS + "p " + "!c " * 10 + "@x", "refused 23 4"),
        ("steps: 23 before 10", HUNDREDS + "p " + "!c " * 10 + "]2", "refused 23 4"),
        ("steps: 23 before 8", HUNDREDS + "p " + "!c " * 10 + "c0", "refused 23 4"),
        ("steps: 23 before 7", HUNDREDS + "p " + "!c " * 10 + "o", "refused 23 4"),
        ("steps: an unknown character is a step", HUNDREDS + "p " + almost + ">" * 99 + "Z", "refused 14 4"),
        ("steps: 23 before 22", HUNDREDS + "!s !s\np " + almost + ">" * 92 + " !s", "refused 23 4"),
        ("steps: 22 at 100,000", HUNDREDS + "!s !s\np " + almost + ">" * 91 + " !s", "refused 22 4"),
        ("steps: 23 before 21", HUNDREDS + "p [c]2048 " + almost + ">" * 97 + "c", "refused 23 4"),
        ("steps: 21 at 100,000", HUNDREDS + "p [c]2048 " + almost + ">" * 96 + "c", "refused 21 4"),
        ("steps: 17th part before 23", HUNDREDS + "p " + "!c " * 10 + "\n" + fifteen + "r c", "refused 21 20"),
    ]


def lengths():
    """Notes of 16,777,216 samples and sheets of 2,000,000,000, and past them.

    A note of 1 s with a release of 379.43573 s: the sum is 380.43572998046875 in f32, times
    44,100 it is 16,777,216 in f32. The next f32 up gives 16,777,218. At tempo 1 a quarter
    lasts 60 s, 2,646,000 samples.
    """
    fits = instrument("1 1 0 0 1 379.43573")
    over = instrument("1 1 0 0 1 379.43576")
    ends = instrument("1 1 0 0 1 51.47392")
    past = instrument("1 1 0 0 1 51.47393")
    return [
        ("length: 16,777,216 samples with release", fits + "p t60 @i c", "accepted 3"),
        ("length: 16,777,218 samples with release", over + "p t60 @i c", "refused 24 4"),
        ("length: the release of an unused instrument", over + "p t60 c", "accepted 2"),
        ("length: a rest too", over + "p t60 @i r", "refused 24 4"),
        ("length: amplitude 0 too", over + "p t60 v0 @i c", "refused 24 4"),
        ("length: 380 s by duration", "#denom 19\np t1 c3", "accepted 2"),
        ("length: 380.45 s by duration and dot", "#denom 93\np t1 c22.", "refused 24 2"),
        ("length: the same without the dot", "#denom 93\np t1 c22", "accepted 2"),
        ("length: longest note there is", "#denom 128\np t1 c1.", "refused 24 2"),
        ("length: largest release", instrument("1 1 0 0 1 " + "9" * 18) + "p @i c", "refused 24 4"),
        ("length: largest release unused", instrument("1 1 0 0 1 " + "9" * 18) + "p c", "accepted 1"),
        ("length: largest release of an inner operator", instrument(OP, "\t1 1 0 0 1 400") + "p @i c", "refused 24 5"),
        ("length: in a macro", over + "!m @i c\np t60 !m", "refused 24 4"),
        ("length: in a loop cut away", over + "p t60 @i [:c]1", "refused 24 4"),
        ("length: 8 before 24", "#denom 128\np t1 c0", "refused 8 2"),
        ("length: 24 before 21", over + "p t60 [c]2048 @i c", "refused 24 4"),
        ("length: 14 after 24", over + "p t60 @i cZ", "refused 24 4"),
        ("length: sheet of 2,000,000,000", ends + "p t1 [c]754 @i c", "accepted 6"),
        ("length: sheet of 2,000,000,001", past + "p t1 [c]754 @i c", "refused 27 0"),
        ("length: an earlier release reaches past the end", past + "p t1 [c]754 @i c t1000 c128", "refused 27 0"),
        ("length: in the second part", "q c\np t1 [c]756", "refused 27 0"),
        ("length: 755 quarters at tempo 1", "p t1 [c]755", "accepted 4"),
        ("length: parts do not add up", "p t1 [c]567\nq t1 [c]567", "accepted 8"),
        ("length: 26 before 27", "p t1 [c]756 [", "refused 26 0"),
        ("length: rests too", "p t1 [r]756", "refused 27 0"),
    ]


SECTIONS = (
    commands,
    notes,
    loops,
    note_counts,
    macros,
    steps,
    lengths,
)
