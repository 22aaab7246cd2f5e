"""Hand-made sheets at the limits of document 01, first half: the source, lines, instruments, directives.

Each entry is a label, a sheet and the answer worked out by hand from the document; limits.py
says more.
"""

OP = "1 1 0 0 1 0"
WORD = 4294967295


def instrument(*lines):
    """The header of `@i`, the lines, and the empty line that ends them."""
    return "\n".join(("@i",) + lines) + "\n\n"


def operators(count):
    return [OP] * count


def alike(label, sheet, *groups):
    """Entries that differ in one text: groups of an answer and the texts that have it."""
    return [(label.format(text), sheet.format(text), answer) for answer, *texts in groups for text in texts]


def examples():
    """The sheets of `Sheets by example`; number 9 is about samples."""
    indents = instrument(OP, "\t1 2 0 0 1 0", "\t\t1 3 0 0 1 0", "\t1 4 0 0 1 0")
    return [
        ("example 1: loop with cut", "p [c:d]3", "accepted 5"),
        ("example 2: the last cut wins", "p [c:d:e]2", "accepted 7"),
        ("example 3: cut at count 1", "p [c:d]1", "accepted 5"),
        ("example 4: count 0", "p [c]0", "refused 11 1"),
        ("example 5: loop left open", "p [", "refused 26 0"),
        ("example 6: empty body", "p ;", "accepted 0"),
        ("example 7: octave stops at 8", "p o8>a", "accepted 3"),
        ("example 7: octave stops at 1", "p o1<a", "accepted 3"),
        ("example 8: amplitude rounds to 1", "p v1.00000001 c", "accepted 2"),
        ("example 8: amplitude rounds past 1", "p v1.0000001 c", "refused 8 1"),
        ("example 10: indents 0,1,2,1", indents + "p @i c", "accepted 2"),
        ("example 11: indents 0,2", instrument(OP, "\t\t" + OP) + "p c", "refused 16 3"),
        ("example 12: tempo 120", "p t120 a", "accepted 2"),
        ("example 13: one note", "p a", "accepted 1"),
        ("example 14: 2,048 notes", "p [c]2048", "accepted 3"),
        ("example 14: 2,049 notes", "p [c]2049", "refused 21 1"),
    ]


def sources():
    """Size and bytes of the source, and what comes before the first line is read."""
    full = "p c\n;" + "x" * 32763
    return [
        ("source: empty", "", "refused 25 0"),
        ("source: 32,768 bytes", full, "accepted 1"),
        ("source: 32,769 bytes", full + "x", "refused 1 0"),
        ("source: 1 before 2", full[:-1] + "\x80x", "refused 1 0"),
        ("source: 1 before a bad line", "p Z\n" + full, "refused 1 0"),
        ("source: byte 127 in a comment", ";\x7f\np c", "accepted 1"),
        ("source: byte 127 in a body", "p \x7f", "refused 14 1"),
        ("source: byte 128 in a comment", "p c\n;\x80", "refused 2 0"),
        ("source: byte 255 alone", "\xff", "refused 2 0"),
        ("source: two bytes of one letter", "p c\n;\xc3\xa9", "refused 2 0"),
        ("source: 2 before a bad line", "p Z\n;\x80", "refused 2 0"),
        ("source: 2 before no part", "\x85", "refused 2 0"),
        ("source: line 32,766", "\n" * 32765 + "p Z", "refused 14 32766"),
        ("source: 32,763 zeros before a digit", "p o" + "0" * 32763 + "4c", "accepted 2"),
        ("source: a digit run of 32,765 nines", "p o" + "9" * 32765, "refused 7 1"),
        ("source: a count of 3,000 nines", "p [c]" + "9" * 3000, "refused 11 1"),
        ("source: a decimal of 3,000 nines", "p v" + "9" * 3000, "refused 19 1"),
    ]


def lines():
    """Line ends, blanks, comments and what makes a part line."""
    sixteen = "".join(f"p{i} c\n" for i in range(16))
    return [
        ("line: CR LF", "p c\r\np d\r\n", "accepted 2"),
        ("line: two CR before LF, one stays as a blank", "p c\r\r\np d", "accepted 2"),
        ("line: CR not before LF is a blank", "p\rc", "accepted 1"),
        ("line: CR at the end of the source", "p c\r", "accepted 1"),
        ("line: CR LF line is empty", "\r\np c", "accepted 1"),
        ("line: a single CR is a line of a blank", "\r", "refused 25 0"),
        ("line: tab, VT and FF are blanks", "p\tc\x0bd\x0ce", "accepted 3"),
        ("line: NUL is no blank", "p c\x00", "refused 14 1"),
        ("line: NUL in a part's name", "p\x00 c", "accepted 1"),
        ("line: 0x1c to 0x1f are no blanks", "p\x1c\x1d\x1e\x1fc", "refused 25 0"),
        ("line: 0x1f in a body", "p \x1f", "refused 14 1"),
        ("line: blanks before the name", " \tp c", "accepted 1"),
        ("line: blanks alone", " \t\x0b \np c", "accepted 1"),
        ("line: no LF at the end", "p c\np d", "accepted 2"),
        ("line: empty lines count", "\n\np Z", "refused 14 3"),
        ("line: one token is skipped", "p\nq c", "accepted 1"),
        ("line: one token makes no part", "p", "refused 25 0"),
        ("line: comment alone", ";p c", "refused 25 0"),
        ("line: comment after blanks is a part line", " ;c d", "accepted 1"),
        ("line: `@` after blanks is a part line", " @x c", "accepted 1"),
        ("line: `!` after blanks is a part line", " !m c", "accepted 1"),
        ("line: `#` after blanks is a part line", " #tempo 3", "refused 14 1"),
        ("line: `;` inside a part's name", "p; c", "accepted 1"),
        ("line: a part named as a mark", "[ c\n] d", "accepted 2"),
        ("line: `;` ends the body", "p c;Z", "accepted 1"),
        ("line: `;` after a blank ends the body", "p c ;Z", "accepted 1"),
        ("line: upper case is another part", "p c\nP d\np e", "accepted 3"),
        ("line: a name of 1,000 bytes", "n" * 1000 + " c", "accepted 1"),
        ("line: first bad line wins", "p Z\n#x 1", "refused 14 1"),
        ("line: a bad line before a part", "#x 1\np Z", "refused 6 1"),
        ("parts: 16", sixteen, "accepted 16"),
        ("parts: 17", sixteen + "p16 c\n", "refused 21 17"),
        ("parts: 17th, 21 before its body", sixteen + "q Z", "refused 21 17"),
        ("parts: 17th name with one token", sixteen + "q", "accepted 16"),
        ("parts: a known one after 16", sixteen + "p3 d", "accepted 17"),
        ("parts: one with an empty body counts", "".join(f"p{i} ;\n" for i in range(17)), "refused 21 17"),
    ]


def headers():
    """Instrument names and the end of the operator lines."""
    many = "".join(f"@{i}\n" for i in range(31))
    return [
        ("header: no operator", "@i\n\np @i c", "accepted 2"),
        ("header: name `@`", "@\n\np @ c", "accepted 2"),
        ("header: the default instrument has no name", "p @", "refused 12 1"),
        ("header: trailing blank is part of the name", "@i \n\np @i c", "refused 12 3"),
        ("header: trailing blank makes another name", "@i\n\n@i \n\np @i c", "accepted 2"),
        ("header: trailing CR is part of the name", "@i\r\r\n\np @i c", "refused 12 3"),
        ("header: CR LF is not", "@i\r\n\r\np @i c", "accepted 2"),
        ("header: inner blank is part of the name", "@i j\n\np @i", "refused 12 3"),
        ("header: `;` is part of the name", "@i;\n\np @i; c", "accepted 2"),
        ("header: `@i;` in a body is one name", "@i\n\np @i; c", "refused 12 3"),
        ("header: defined twice", "@i\n\np c\n@i", "refused 3 4"),
        ("header: defined twice, inner blank", "@i j\n@i j", "refused 3 2"),
        ("header: a header ends the operators before it", f"@i\n{OP}\n@j\n{OP}\n\np @i c @j d", "accepted 4"),
        ("header: used before it is defined", "p @i\n@i", "refused 12 1"),
        ("header: 31 and the default", many + "\np @30 c", "accepted 2"),
        ("header: 32 and the default", many + "@x\n\np c", "refused 21 32"),
        ("header: 3 before 21", many + "@7\n\np c", "refused 3 32"),
        ("header: 21 before its operators", many + "@x\nx", "refused 21 32"),
        ("end: the sheet's end", "p c\n@i\n" + OP, "accepted 1"),
        ("end: a line of blanks", f"@i\n{OP}\n \t\np @i c", "accepted 2"),
        ("end: a directive is then read", f"@i\n{OP}\n#tempo 0", "refused 8 3"),
        ("end: `#` after a tab, then a part line", f"@i\n{OP}\n\t#tempo 120\np c", "refused 14 3"),
        ("end: `;` after a blank, then one token", f"@i\n{OP}\n ;x\np @i c", "accepted 2"),
        ("end: `;` after a blank, then a part line", f"@i\n{OP}\n ;x c\np @i c", "accepted 3"),
        ("end: `@` after a blank, then a part line", f"@i\n{OP}\n @j c\np @i c", "accepted 3"),
        ("end: a macro line is no end", f"@i\n{OP}\n!m c", "refused 17 3"),
        ("end: a macro line read as an operator", "@i\n!m 1 0 0 1 0", "refused 18 2"),
        ("end: a part line is no end", f"@i\n{OP}\np c", "refused 17 3"),
    ]


def operator_lines():
    """Indent, tokens, feedback and the number of operators."""
    entries = [
        ("operator: first one indented", instrument("\t" + OP), "refused 15 2"),
        ("operator: first one indented by 2", instrument("\t\t" + OP), "refused 15 2"),
        ("operator: 15 before 17", instrument("\tx"), "refused 15 2"),
        ("operator: indent grows by 2", instrument(OP, "\t" + OP, "\t\t\t" + OP), "refused 16 4"),
        ("operator: 16 before 17", instrument(OP, "\t\tx"), "refused 16 3"),
        ("operator: indent after an outdent", instrument(OP, "\t" + OP, OP, "\t\t" + OP), "refused 16 5"),
        ("operator: indent falls by 2", instrument(OP, "\t" + OP, "\t\t" + OP, OP) + "p @i c", "accepted 2"),
        ("operator: equal indents", instrument(OP, "\t" + OP, "\t" + OP, OP, OP) + "p @i c", "accepted 2"),
        ("operator: a space before tabs is indent 0", instrument(" \t\t" + OP) + "p @i c", "accepted 2"),
        ("operator: tabs after a tab and a space", instrument(OP, "\t \t" + OP) + "p @i c", "accepted 2"),
        ("operator: VT and FF between numbers", instrument("1\x0b1\x0c0\r0\t1 0") + "p @i c", "accepted 2"),
        ("operator: 1 token", instrument("1"), "refused 17 2"),
        ("operator: 5 tokens", instrument("1 1 0 0 1"), "refused 17 2"),
        ("operator: 7 tokens", instrument(OP + " 0") + "p @i c", "accepted 2"),
        ("operator: 8 tokens", instrument(OP + " 0 0"), "refused 17 2"),
        ("operator: 17 before 18", instrument("x x x x x"), "refused 17 2"),
        ("operator: `;` as the 7th token", instrument(OP + " ;"), "refused 18 2"),
        ("operator: largest release wins", instrument("1 1 0 0 1 0.25", "1 1 0 0 1 0.5", "1 1 0 0 1 0.125") + "p @i c", "accepted 2"),
        ("operator: 32", instrument(*operators(32)) + "p @i c", "accepted 2"),
        ("operator: 33", instrument(*operators(33)), "refused 21 34"),
        ("operator: 18 before 21", instrument(*operators(32), "x" + OP), "refused 18 34"),
        ("operator: 20 before 21", instrument(*operators(32), OP + " 256"), "refused 20 34"),
        ("operator: 32 in a zigzag", instrument(*([OP, "\t" + OP] * 16)) + "p @i c", "accepted 2"),
        ("operator: 32 one deeper each", instrument(*("\t" * i + OP for i in range(32))) + "p @i c", "accepted 2"),
        ("feedback: 255", instrument(OP + " 255") + "p @i r", "accepted 2"),
        ("feedback: 256", instrument(OP + " 256"), "refused 20 2"),
        ("feedback: 2^32 - 1", instrument(f"{OP} {WORD}"), "refused 20 2"),
        ("feedback: 2^32", instrument(f"{OP} {WORD + 1}"), "refused 18 2"),
        ("feedback: 25 digits, leading zeros", instrument(OP + " " + "0" * 22 + "255") + "p @i r", "accepted 2"),
        ("feedback: absent", instrument(OP + " x"), "refused 18 2"),
        ("feedback: below 0", instrument(OP + " -1"), "refused 18 2"),
        ("feedback: a tail is ignored", instrument(OP + " 3.9") + "p @i r", "accepted 2"),
    ]
    for place in range(6):
        tokens = OP.split()
        tokens[place] = "x"
        entries.append((f"operator: number {place + 1} unreadable", instrument(" ".join(tokens)), "refused 18 2"))
    return entries


def decimals():
    """Decimals in an operator line."""
    texts = [
        ("a tail after a comma", "0,7", "accepted 2"),
        ("a tail after e", "1e3", "accepted 2"),
        ("a second point", "1.5.5", "accepted 2"),
        ("a tail of a letter", "1.5x", "accepted 2"),
        ("no digit before the point", ".5", "refused 18 2"),
        ("no digit after the point", "5.", "refused 18 2"),
        ("a letter after the point", "5.x", "refused 18 2"),
        ("a minus", "-1", "refused 18 2"),
        ("a plus", "+1", "refused 18 2"),
        ("18 digits", "1" * 18, "accepted 2"),
        ("19 digits", "1" * 19, "refused 19 2"),
        ("18 digits, leading zeros", "0" * 17 + "1", "accepted 2"),
        ("19 digits, leading zeros", "0" * 18 + "1", "refused 19 2"),
        ("18 digits over the point", "123456789.987654321", "accepted 2"),
        ("19 digits over the point", "123456789.9876543210", "refused 19 2"),
        ("18 digits after the point and one before", "0." + "1" * 18, "refused 19 2"),
        ("17 digits after the point and one before", "0." + "0" * 16 + "1", "accepted 2"),
        ("18 digits and a tail of digits after a second point", "123456789.987654321.123", "accepted 2"),
        ("18 nines", "9" * 18, "accepted 2"),
        ("unreadable with 19 digits", "1" * 19 + ".", "refused 18 2"),
        ("19 digits and a tail", "1" * 19 + "x", "refused 19 2"),
        ("halfway, to even below", "16777217", "accepted 2"),
        ("halfway, to even above", "16777219", "accepted 2"),
        ("just over halfway", "16777217.000000001", "accepted 2"),
    ]
    entries = [(f"decimal: {what}", instrument(f"{text} 1 0 0 1 0") + "p @i c", answer) for what, text, answer in texts]
    long = "1" * 19
    return entries + [
        ("decimal: 19 left of 18", instrument(f"{long} x 0 0 1 0"), "refused 19 2"),
        ("decimal: 18 left of 19", instrument(f"x {long} 0 0 1 0"), "refused 18 2"),
        ("decimal: 19 before a bad feedback", instrument(f"1 1 0 0 1 {long} x"), "refused 19 2"),
        ("decimal: 19 before 20", instrument(f"1 1 0 0 1 {long} 256"), "refused 19 2"),
        ("decimal: 19 before 21", instrument(*operators(32), f"1 1 0 0 1 {long}"), "refused 19 34"),
        ("decimal: 17 before 19", instrument(long), "refused 17 2"),
    ]


def directives():
    """Directives, their values and order."""
    entries = []
    for name, least, most in (("#tempo", 1, 1000), ("#denom", 1, 128)):
        entries += alike(
            f"directive: {name} {{}}", f"{name} {{}}\np r",
            ("refused 8 1", least - 1),
            ("accepted 1", least, most),
            ("refused 8 1", most + 1, WORD),
            ("refused 7 1", WORD + 1, "x", "-1", name[1:], name[1], name),
            ("accepted 1", "0" * 20 + "64", "64x", "64 Z", "64.5"),
            ("refused 7 1", ""),
        )
    entries += alike(
        "directive: #key {}", "#key {}\np c",
        ("accepted 1", "+", "c-", "abcdefg=", "cc+", "c+x", "c++", "e="),
        ("refused 7 1", ""),
        ("refused 9 1", "c", "c +", "e", "ey", "k", "#", "#key", "r+", "h+", "C+"),
    )
    return entries + [
        ("directive: unknown", "#x 1\np c", "refused 6 1"),
        ("directive: unknown with a bad value", "#x Z\np c", "refused 6 1"),
        ("directive: 7 for tokens before 6", "#x\np c", "refused 7 1"),
        ("directive: `#` alone", "#", "refused 7 1"),
        ("directive: `#` and a value", "# 1", "refused 6 1"),
        ("directive: upper case", "#TEMPO 100", "refused 6 1"),
        ("directive: a name that goes on", "#tempo1 100", "refused 6 1"),
        ("directive: blanks of all kinds", "#tempo\x0b\x0c\r\t 120\np c", "accepted 1"),
        ("directive: changes existing parts", "p t50c\n#tempo 200\n#denom 3\n#key c+\np c\nq c", "accepted 4"),
        ("directive: a part's own tempo stays its own", "p t50\nq c\np c", "accepted 3"),
        ("directive: inside an open loop", "p [c\n#tempo 200\np d]2", "accepted 4"),
    ]


SECTIONS = (
    examples,
    sources,
    lines,
    headers,
    operator_lines,
    decimals,
    directives,
)
