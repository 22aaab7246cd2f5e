"""Makes short sheets over every rule of document 01 from a seed; the same seed gives the same sheets.

About half are meant to be accepted, a third carry one fault meant for a given refusal number,
and the rest are damaged copies. What a sheet's answer really is, the model says.
"""

from dice import Dice
from faults import FAULTS
from good_sheet import GoodSheet

# Bytes that mean something in a sheet; damage made of these gets further than any byte would.
TELLING = b"abcdefgrklotv<>[]:;@!#+-=.0123456789 \t\n\r\x0b\x0c\x00\x7f\x80,ZQ\\"

# Refusals whose sheets are long or slow get half of the share.
TARGETS = [number for number in FAULTS for _ in range(1 if number in (1, 23) else 2)]


def damage(dice, sheet):
    """A copy with one to three small wounds."""
    for _ in range(1 + dice.below(3)):
        sheet = dice.pick(WOUNDS)(dice, sheet, dice.below(len(sheet) + 1))
    return sheet


def delete(dice, sheet, at):
    return sheet[:at] + sheet[at + 1 + dice.below(3) :]


def insert(dice, sheet, at):
    return sheet[:at] + bytes([dice.pick(TELLING)]) + sheet[at:]


def replace(dice, sheet, at):
    return sheet[:at] + bytes([dice.pick(TELLING)]) + sheet[at + 1 :]


def any_byte(dice, sheet, at):
    return sheet[:at] + bytes([dice.below(256)]) + sheet[at + 1 :]


def swap(dice, sheet, at):
    return sheet[:at] + sheet[at + 1 : at + 2] + sheet[at : at + 1] + sheet[at + 2 :]


def cut(dice, sheet, at):
    return sheet[:at]


def repeat(dice, sheet, at):
    """Says a short piece twice."""
    return sheet[: at + 1 + dice.below(12)] + sheet[at:]


def swap_lines(dice, sheet, at):
    lines = sheet.split(b"\n")
    i, j = dice.below(len(lines)), dice.below(len(lines))
    lines[i], lines[j] = lines[j], lines[i]
    return b"\n".join(lines)


WOUNDS = (delete, insert, replace, any_byte, swap, cut, repeat, swap_lines, insert, replace)


def one_sheet(dice):
    kind = dice.below(12)
    if kind < 6:
        return GoodSheet(dice).finished()
    if kind < 10:
        return FAULTS[dice.pick(TARGETS)](dice)
    return damage(dice, GoodSheet(dice).finished())


def sheets(seed):
    """The sheets of a seed, without end."""
    dice = Dice(seed)
    while True:
        yield one_sheet(Dice(dice.word()))
