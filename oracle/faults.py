"""Sheets with one fault each, a function for every refusal number that a text can reach.

A fault is put into an otherwise good sheet: as a line of its own, as an item inside a part's
line, or as an item inside a macro that a part calls. The number is what the fault aims at;
other faults of the surrounding sheet may come first, and the model says which.
"""

from good_sheet import GoodSheet

OP = "1 1 0 0 1 0"
LONG = "1234567890123456789"


def with_lines(dice, *lines):
    """A good sheet with the lines put in somewhere; the empty line ends any operator lines."""
    sheet = GoodSheet(dice)
    for _ in range(dice.below(4)):
        sheet.any_line()
    sheet.lines.append("")
    sheet.lines.extend(lines)
    sheet.lines.append("")
    return sheet.finished()


def with_item(dice, item):
    """The item among good ones, in a part's line or in a macro."""
    sheet = GoodSheet(dice)
    before, after = sheet.items(1, []), sheet.items(1, [])
    body = before + item + dice.pick((" ", " ", "")) + after
    if dice.chance(3):
        return with_lines(dice, "!fault " + body, "p " + before + " !fault " + after)
    return with_lines(dice, "p " + body)


def items(*choices):
    """A fault that is one of several items."""
    return lambda dice: with_item(dice, dice.pick(choices))


def lines(*choices):
    """A fault that is one of several groups of lines."""
    return lambda dice: with_lines(dice, *dice.pick(choices).split("\n"))


def either(*faults):
    return lambda dice: dice.pick(faults)(dice)


def operators(*choices):
    """A fault in an operator line, after some good ones."""

    def fault(dice):
        good = [OP] + ["\t" * dice.below(2) + OP for _ in range(dice.below(3))]
        return with_lines(dice, "@fault", *good[: dice.between(0, 3)], dice.pick(choices), OP)

    return fault


def too_long(dice):
    sheet = GoodSheet(dice).finished()
    return sheet + b"\n;" + b"x" * (dice.between(32_769, 32_790) - len(sheet) - 2)


def high_byte(dice):
    sheet = GoodSheet(dice).finished()
    at = dice.below(len(sheet) + 1)
    return sheet[:at] + bytes([dice.between(128, 255)]) + sheet[at:]


def number_name(count, form):
    return "\n".join(form.format(i) for i in range(count))


def deep(dice):
    """A chain of macros, 8 to 11 deep, or macros in a ring."""
    size = dice.between(1, 11)
    ring = dice.chance(2)
    first = f"!x{size}" if ring else dice.pick(("c", "o5", ">"))
    chain = [f"!x1 {first}"] + [f"!x{i + 1} {dice.pick(('', 'c ', '>'))} !x{i}" for i in range(1, size)]
    return with_lines(dice, *chain, f"p !x{size} d")


def many_steps(dice):
    """A little under or over 100,000 steps by macros that call macros."""
    tens = [f"!t1 {'>' * 9}"] + [f"!t{i + 1} {f'!t{i} ' * 9}{'<' * 9}" for i in range(1, 4)]
    ones = dice.pick("<>") * dice.below(2_000)
    return with_lines(dice, *tens, f"p {'!t4 ' * dice.between(12, 13)}{ones}c")


def many_notes(dice):
    """Close to 2,048 notes on either side, by loops in loops."""
    first = dice.between(2, 60)
    second = 2048 // first + dice.below(3)
    return with_lines(dice, dice.pick((
        f"p [[c]{first}]{second}",
        f"p [c[d]{first}]{second}",
        f"p [c[d]{first}:e]{second}",
        f"p [{'cd' * first}]{second // 2}",
        f"p [c]{first * second}",
    )))


def no_part(dice):
    sheet = GoodSheet(dice)
    for _ in range(dice.below(5)):
        dice.pick((sheet.macro_line, sheet.instrument_lines, sheet.directive_line))()
    sheet.lines.append(dice.pick(("", ";p c", "p", " ", " p ")))
    return sheet.joined()


def long_note(dice):
    """Notes of about 16,777,216 samples, by tempo or by release."""
    if dice.chance(2):
        return with_lines(dice, f"#denom {dice.between(10, 128)}", f"p t{dice.between(1, 4)} c{dice.between(1, 8)}.")
    return with_lines(dice, "@long", f"1 1 0 0 1 37{dice.below(10)}.{dice.below(100)}", "", "p t60 @long c")


def long_sheet(dice):
    """About 2,000,000,000 samples, by many long notes."""
    return with_lines(dice, "#denom 4", f"p t{dice.between(1, 2)} l4 [c]{dice.between(750, 770)}[r]{dice.between(0, 800)}")


# No byte of a tail is a blank, so that the token stays one; the first is neither a digit nor a point, so that a number
# before it ends there.
INK = [chr(byte) for byte in range(128) if chr(byte) not in "\t\n\v\f\r "]
TAIL_STARTS = [byte for byte in INK if byte not in "0123456789."]
# Where a tail may stand: behind each token of an operator line, and behind the second token of a directive.
TOKENS, DIRECTIVES = "1 0.5 0 0.25 1 0 3".split(), ("#tempo 120", "#denom 96", "#key fc+")


def random_tail(dice):
    """A tail of 1 to 200 bytes in one of these places; behind a directive it may be a later token, which is ignored."""
    tail = dice.pick(TAIL_STARTS) + "".join(dice.pick(INK) for _ in range(dice.below(200)))
    place = dice.below(len(TOKENS) + len(DIRECTIVES))
    if place >= len(TOKENS):
        return with_lines(dice, DIRECTIVES[place - len(TOKENS)] + dice.pick(("", "", "", " ")) + tail)
    tokens = TOKENS[:place] + [TOKENS[place] + tail] + TOKENS[place + 1 :]
    return operators(" ".join(tokens[: max(place + 1, dice.between(6, 7))]))(dice)


# Numbers and keys with a tail, which strict mode refuses, and others beside them: a tail behind another refusal, and none at all.
tailed = either(
    random_tail,
    operators(
        "1 1 0 0 0,7 0", "1e3 1 0 0 1 0", "1 1 0 0 1 0x", "1 0.5.5 0 0 1 0", "1 1 0, 0, 1 0", "0,7 x 0 0 1 0", "x 0,7 0 0 1 0",
        f"{LONG}x 1 0 0 1 0", "1 1 0 5. 1,0 0", "1, 1 0 0 1", OP + " 3x", OP + " 256x", OP + " 255.", OP + " x3", OP + " 3", "0,7 1 0 0 1 0 256",
    ),
    lines(
        "#tempo 120bpm", "#tempo 120 bpm", "#tempo 0x", "#tempo 1001,5", "#tempo 120.5", "#tempo x120", "#denom 96th", "#denom 4/4", "#denom 129x",
        "#key f+x", "#key f+ x", "#key fx+", "#key f++", "#key +-", "#key x", "#keys f+x",
    ),
)


FAULTS = {
    1: too_long,
    2: high_byte,
    3: lines("@x\n\n@x", "@x\n@x", "@x \n" + OP + "\n@x ", "@\n@"),
    4: lines("!x c\n!x d", "!x c\n\n!x\tc", "! c\n! c"),
    5: lines("!x", "!x ", "!", "!\t\x0b"),
    6: lines("#x 1", "# 1", "#Tempo 1", "#tempo1 1", "#tempo= 3", "## key"),
    7: either(
        lines("#tempo", "#key", "#x", "#", "#tempo x", "#denom d", "#tempo 4294967296", "#denom .5"),
        items("o", "ox", "l ", "t-1", "v", "v.5", "v5.", "v0.x", "o4294967296", "l99999999999"),
    ),
    8: either(
        lines("#tempo 0", "#tempo 1001", "#denom 0", "#denom 129", "#tempo 4294967295"),
        items("o0", "o9", "l0", "l129", "t0", "t1001", "c0", "d129", "v1.1", "v2", "v1.0000001", "e+4294967295"),
    ),
    9: either(
        lines("#key c", "#key e", "#key key", "#key c +", "#key r+", "#key h="),
        items("k", "kc", "kcd ", "kr+", "kx", "k:"),
    ),
    10: items("]2", ":", "]", "[c]2]2", "[c:d]2:"),
    11: items("[c]", "[c]0", "[c]x", "[d] 2", "[]00", "[c]18446744073709551616", "[c:]-1"),
    12: items("@nope ", "@ ", "@@ ", "@i;x ", "@nope"),
    13: items("!nope ", "!; ", "!m;x ", "!! ", "!nope"),
    14: items("Z", "h", "0", "+", "c+++", "c..", "c4294967296", "\x00", "\x7f", "\x1f", "c4 .", "v0,7", "r=="),
    15: lines("@x\n\t" + OP, "@x\n\t\t" + OP, "@x\n\tx"),
    16: lines("@x\n" + OP + "\n\t\t" + OP, "@x\n" + OP + "\n\t" + OP + "\n" + OP + "\n\t\t1"),
    17: operators("1", "1 1 0 0 1", OP + " 0 0", "p c", "!m c", "p c d e f"),
    18: operators(
        "x 1 0 0 1 0", "1 .5 0 0 1 0", "1 1 5. 0 1 0", "1 1 0 -1 1 0", "1 1 0 0 +1 0", "1 1 0 0 1 x",
        OP + " x", OP + " 4294967296", LONG + ". 1 0 0 1 0",
    ),
    19: either(
        operators(f"{LONG} 1 0 0 1 0", f"1 0.{LONG} 0 0 1 0", f"1 1 0 0 123456789.{LONG[:10]} 0", f"{LONG} x 0 0 1 0"),
        items(f"v{LONG}", f"v0.{LONG}", "v0.100000000000000000", "v0000000000000000001"),
    ),
    20: operators(OP + " 256", OP + " 4294967295", OP + " 0000000000000256x"),
    21: either(
        many_notes,
        items("[[[[[[[[[", "[c]18446744073709551615", "[cc]9223372036854775809", "[c]2049"),
        lines(number_name(17, "part{} c"), number_name(65, "!macro{} c"), number_name(32, "@inst{}")),
        lines("@x\n" + "\n".join([OP] * 33)),
    ),
    22: deep,
    23: many_steps,
    24: long_note,
    25: no_part,
    26: items("[", "[c:", "[[c]2", "[ ;"),
    27: long_sheet,
}
