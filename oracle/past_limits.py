"""Thrown sheets past each limit that the Rust lacks, with the answer that their making gives.

The Rust cannot judge what the model says of such a sheet. So the fault comes first in it, where
nothing can be refused before: number and line are known, whatever follows.
"""

from faults import OP, high_byte, too_long
from good_sheet import GoodSheet

# Lines that nothing is read from.
IDLE = ("", " \t", ";", "; c4 Z", "p", " ;")


def idle(dice):
    return [dice.pick(IDLE) for _ in range(dice.below(4))]


def joined(lines):
    return "".join(line + "\n" for line in lines).encode("ascii")


def first(dice, number, lines, line):
    """A sheet that is refused at the given one of the fault's lines; a good sheet follows them."""
    before = idle(dice)
    return joined(before + lines) + GoodSheet(dice).finished(), f"refused {number} {len(before) + line}"


def in_operator(dice, number, fault):
    """A fault in an operator line, after some good ones."""
    good = [OP] * dice.below(4)
    return first(dice, number, ["@fault", *good, fault], len(good) + 2)


def long_source(dice):
    return too_long(dice), "refused 1 0"


def high_source(dice):
    return high_byte(dice), "refused 2 0"


def nineteen_digits(dice):
    """19 to 40 digits, with a point behind one of them or none."""
    digits = "".join(str(dice.below(10)) for _ in range(dice.between(19, 40)))
    point = dice.between(1, len(digits))
    return digits if point == len(digits) else digits[:point] + "." + digits[point:]


def long_decimal(dice):
    if dice.chance(2):
        return first(dice, 19, ["p v" + nineteen_digits(dice) + dice.pick(("", " c", "x"))], 1)
    tokens = OP.split()
    tokens[dice.below(6)] = nineteen_digits(dice)
    return in_operator(dice, 19, " ".join(tokens))


def large_feedback(dice):
    return in_operator(dice, 20, f"{OP} {dice.pick((256, dice.between(256, 2**32 - 1), 2**32 - 1))}")


def many(dice):
    """One note, loop, part, macro, instrument or operator too many; an instrument is there already."""
    count = dice.pick((2_049, dice.between(2_049, 5_000), dice.between(2_049, 2**64 - 1)))
    lines = dice.pick((
        [f"p [c]{count}"],
        ["p " + "[" * dice.between(9, 20)],
        [f"part{i} c" for i in range(17)],
        [f"!macro{i} c" for i in range(65)],
        [f"@inst{i}" for i in range(32)],
        ["@x"] + [OP] * 33,
    ))
    return first(dice, 21, lines, len(lines))


def nested(dice):
    """A chain of more than eight macros, or a ring of some: the ninth call is in the eighth body."""
    size = dice.between(1, 12)
    last = f"!x{size}" if size < 9 or dice.chance(2) else "c"
    lines = [f"!x1 {last}"] + [f"!x{i} {dice.pick(('', 'c ', '>'))}!x{i - 1}" for i in range(2, size + 1)]
    return first(dice, 22, lines + [f"p !x{size}"], (size - 8) % size + 1)


def many_steps(dice):
    """Macros in macros take 100,000 steps to the last; any item after that is one too many."""
    lines, costs = [], [1]
    for i in range(3):
        times = dice.between(20, 40)
        lines.append(f"!m{i + 1} " + (f"!m{i} " if i else dice.pick("<>")) * times)
        costs.append(1 + times * costs[i])
    left, body = 100_000, ""
    for i in (3, 2, 1):
        body += f"!m{i} " * (left // costs[i])
        left %= costs[i]
    item = dice.pick(("c", ">", "Z", "o", "]2", "!x", "@x", "c0"))
    return first(dice, 23, [*lines, "p " + body + ">" * left + item], 4)


def long_note(dice):
    """385 seconds or more; at most 380.4 are allowed, so that no rounding matters."""
    if dice.chance(2):
        release = f"{dice.between(385, 99_999)}.{dice.below(100)}"
        return first(dice, 24, ["@long", f"1 1 0 0 1 {release}", "", "p @long c"], 4)
    tempo = dice.between(1, 4)
    value = dice.between(1, 19 // tempo)
    # It lasts 60 / tempo * denominator / value seconds, or half as long again with a dot.
    denominator = dice.between(385 * tempo * value // 60 + 1, 128)
    return first(dice, 24, [f"#denom {denominator}", f"p t{tempo} c{value}{dice.pick(('', '.'))}"], 2)


def long_sheet(dice):
    """Quarters of 2,646,000 samples at tempo 1: 756 of them pass the limit, at tempo 2 twice as many."""
    tempo = dice.between(1, 2)
    count = dice.between(756 * tempo, 2_048)
    rests = dice.between(1, count - 1)
    return joined(idle(dice) + [f"p t{tempo} [c]{count - rests}[r]{rests}"]), "refused 27 0"


THROWN = {
    1: long_source,
    2: high_source,
    19: long_decimal,
    20: large_feedback,
    21: many,
    22: nested,
    23: many_steps,
    24: long_note,
    27: long_sheet,
}
