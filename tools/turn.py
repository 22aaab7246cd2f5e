#!/usr/bin/env python3
# Recomputes the turn sine's constant C and its quarter-wave table T from their
# definitions in document 01, with whole numbers alone and sharing no code with
# the engine, so that a wrong entry in the engine has a second witness against it.
# The section "Why each value is certain" is the proof that every number printed
# is the nearest one; the program checks at run time what that proof leaves open.
#
#   turn.py         prints `C <value>`, then `T <i> <value>` for i from 0 to 1024
#   turn.py FILE..  holds the C and the table that stand in Rattle sources against them
#
# Exit status: 0 all is well; 1 a value differs, is missing or is not certain;
# 2 a FILE cannot be opened, or the arguments are not understood.

# Why each value is certain
# -------------------------
# A real number is kept as a whole number of units, one unit being 2^-192.
# "Off by less than e" means: the whole number kept and the true value times
# 2^192 differ by less than e.
#
# 1. arctan(1/n) for n >= 5 is off by less than 49.
#    It is the sum of (-1)^k a(k) with a(k) = 1 / ((2k+1) n^(2k+1)). The program
#    adds the floors of the terms, in units, until a floor is 0. Each floor is
#    off by less than 1. The terms alternate and fall, so what is left out is at
#    most the first term left out, which is less than 1 unit as its floor is 0.
#    n^(2k+1) > 4^(2k+1) > 2^192 at k = 48, so at most 48 terms are added:
#    48 floors and the rest are off by less than 48 + 1 = 49.
#
# 2. pi is off by less than 980, so by less than 2^10.
#    (5+i)^4 = 476+480i = (2+2i)(239+i). Taking angles, all of them between 0 and
#    1 so that no whole turn is lost: 4 arctan(1/5) = pi/4 + arctan(1/239).
#    Hence pi = 16 arctan(1/5) - 4 arctan(1/239), off by less than 16*49 + 4*49.
#
# 3. The angle i*pi/2048, for i from 0 to 1024, is off by less than 513.
#    The error of pi shrinks by i/2048, which is at most a half, to less than
#    2^9; the floor adds less than 1.
#
# 4. The sine of the angle kept, call it y, is off by less than 388.
#    By 3, 0 <= y < 1.58, so y^2 < 2.5. The series is the sum of (-1)^k s(k) with
#    s(0) = y and s(k+1) = s(k) * y^2 / ((2k+2)(2k+3)), and that factor is at most
#    2.5 / 6, less than a half. The program's t(0) is s(0) exactly, and t(k+1) is
#    the floor of t(k) times the same factor. So t(k) is never above s(k), and if
#    t(k) is off by less than 2, then t(k+1) is off by less than 2/2 + 1 = 2:
#    every t(k) is off by less than 2. The terms s(k) alternate and fall, and the
#    program stops at the first t(k) that is 0, where s(k) is less than 2 units;
#    so what is left out is less than 2. As s(k) < 1.58 * 2^-k, t(193) is 0, and at
#    most 193 terms are added: off by less than 193*2 + 2 = 388.
#
# 5. sin(i*pi/2048) is off by less than 901, so by less than 2^10.
#    The sine's slope is between -1 and 1, so the error 513 of the angle moves the
#    sine by less than 513; with the 388 of step 4 that is 901.
#    2^24 times the sine is the same whole number read in units of 2^-168.
#
# 6. 2^62 / (2 pi) = 2^61 / pi is off by less than 2^68.
#    With P for pi as kept and p for pi in units, both above 3 * 2^192, the true
#    value is 2^61 * 2^384 / p units and the program takes the floor of
#    2^61 * 2^384 / P. The quotients differ by 2^445 * |P - p| / (P p), less than
#    2^445 * 2^10 / (9 * 2^384) = 2^71 / 9; the floor adds less than 1, and
#    2^71 / 9 + 1 < 2^68.
#
# 7. Rounding. Where the value kept is farther than its error bound from every
#    tie (a whole number and a half), the true value lies on the same side of
#    every tie, so both have the same nearest whole number. The program measures
#    that distance for C and for each entry, and stops if one is too small.
#    The smallest over T is 0.000071 at i = 739, that of C is 0.124060 (both cut
#    after six decimals, and checked below); the error bounds are 2^-158 and 2^-124.

import re
import sys

UNIT_BITS = 192
UNIT = 1 << UNIT_BITS
SINE_ERROR = 1 << 10
C_ERROR = 1 << 68

TABLE_BITS = 24
LAST = 1024

# The distances that step 7 states, in millionths, kept here so that it stays true.
STATED_T_INDEX = 739
STATED_T_DISTANCE = 71
STATED_C_DISTANCE = 124060


# Ends the run with one line on standard output, for a verdict about the file.
def verdict(line):
    print("turn: " + line)
    sys.exit(1)


# Stops the run when the program's own claim does not hold, so that no number leaves it unproved.
def claim(holds, what):
    if not holds:
        sys.exit("turn: FAILED: " + what)


# arctan(1/n) in units, each term floored once from its exact value (step 1).
def arctan_of_inverse(n):
    total = 0
    sign = 1
    odd = 1
    power = n
    term = UNIT // n
    while term > 0:
        total += sign * term
        sign = -sign
        odd += 2
        power *= n * n
        term = UNIT // (odd * power)
    return total


# pi in units by Machin's formula, which needs few terms and two easy series (step 2).
def pi_in_units():
    return 16 * arctan_of_inverse(5) - 4 * arctan_of_inverse(239)


# The sine of an angle from 0 to a quarter turn, both in units, by its series (steps 4 and 5).
def sine_in_units(angle):
    square = angle * angle
    total = 0
    sign = 1
    k = 0
    term = angle
    while term > 0:
        total += sign * term
        sign = -sign
        term = term * square // (((2 * k + 2) * (2 * k + 3)) << (2 * UNIT_BITS))
        k += 1
    return total


# The nearest whole number to value * 2^-bits and the distance from a tie, certain by step 7.
def nearest(value, bits, error, what):
    half = 1 << (bits - 1)
    distance = abs(value % (1 << bits) - half)
    claim(distance > error, what + " is too near a tie to be certain")
    return (value + half) >> bits, distance


# A distance in whole millionths, so that the stated one can be compared without fractions.
def millionths(distance, bits):
    return distance * 1000000 >> bits


# C with its certainty, from pi in units (step 6).
def compute_c(pi):
    quotient = (1 << (61 + 2 * UNIT_BITS)) // pi
    c, distance = nearest(quotient, UNIT_BITS, C_ERROR, "C")
    claim(millionths(distance, UNIT_BITS) == STATED_C_DISTANCE, "the stated distance of C from a tie")
    return c


# T with its certainty, from pi in units (steps 3 to 5).
def compute_table(pi):
    bits = UNIT_BITS - TABLE_BITS
    table = []
    distances = []
    for i in range(LAST + 1):
        sine = sine_in_units(i * pi // (2 * LAST))
        entry, distance = nearest(sine, bits, SINE_ERROR, "T[%d]" % i)
        table.append(entry)
        distances.append(distance)
    smallest = min(distances)
    claim(distances.index(smallest) == STATED_T_INDEX, "the stated entry nearest to a tie")
    claim(millionths(smallest, bits) == STATED_T_DISTANCE, "the stated smallest distance from a tie")
    return table


# The rules that document 01 says are proved over the table, tested here on the recomputed one.
def check_rules(table):
    claim(len(table) == LAST + 1, "T has 1025 entries")
    claim(table[0] == 0, "T[0] = 0")
    claim(table[LAST] == 1 << TABLE_BITS, "T[1024] = 2^24")
    for i in range(LAST):
        claim(table[i] < table[i + 1], "T rises after %d" % i)
    for i in range(1, LAST):
        second = table[i + 1] - 2 * table[i] + table[i - 1]
        claim(-41 <= second <= 2, "the second difference at %d lies from -41 to 2" % i)
    for i in range(LAST + 1):
        squares = table[i] * table[i] + table[LAST - i] * table[LAST - i]
        claim(abs(squares - (1 << 48)) < 1 << 25, "the squares at %d are less than 2^25 from 2^48" % i)


# The source without its comments, so that a number or a constant in a comment is not taken for code.
# It knows no string literals: one that holds a comment mark hides code, and what is hidden is not found.
def without_comments(text):
    kept = []
    depth = 0
    at = 0
    while at < len(text):
        two = text[at:at + 2]
        if depth == 0 and two == "//":
            end = text.find("\n", at)
            at = len(text) if end < 0 else end
        elif two == "/*":
            depth += 1
            at += 2
        elif depth > 0 and two == "*/":
            depth -= 1
            at += 2
            kept.append(" ")
        else:
            if depth == 0:
                kept.append(text[at])
            at += 1
    return "".join(kept)


# The text of FILE; bytes outside ASCII cannot be part of a constant and become a mark that matches nothing.
def read_source(path):
    try:
        with open(path, "rb") as file:
            return file.read().decode("ascii", "replace")
    except OSError as error:
        print("turn: cannot open %s: %s" % (path, error.strerror), file=sys.stderr)
        sys.exit(2)


# The one match of a pattern in all sources, and where it stands, because with two of them it is open which one the engine uses.
def find_one(pattern, sources, what):
    found = [(match, path) for path, text in sources for match in re.findall(pattern, text)]
    paths = " and ".join(path for path, _ in sources)
    if not found:
        verdict("%s not found in %s" % (what, paths))
    if len(found) > 1:
        verdict("%s found %s in %s" % (what, "twice" if len(found) == 2 else "%d times" % len(found), paths))
    return found[0]


# The value of a decimal or hexadecimal literal; other text comes back on one line, and equals no value.
def literal(text):
    text = " ".join(text.split())
    if re.fullmatch(r"[0-9][0-9_]{0,99}", text):
        return int(text.replace("_", ""))
    if re.fullmatch(r"0x_*[0-9A-Fa-f][0-9A-Fa-f_]{0,99}", text):
        return int(text[2:].replace("_", ""), 16)
    return text


# The entries of the sources' table, and where it stands; a comma after the last one adds none.
def source_table(sources):
    pattern = r"\bconst\s+\w+\s*:\s*\[\s*u32\s*;\s*1_?025\s*\]\s*=\s*\[([^\]]*)\]\s*;"
    text, path = find_one(pattern, sources, "table [u32; 1025]")
    entries = text.split(",")
    if not entries[-1].strip():
        entries.pop()
    return [literal(entry) for entry in entries], path


# The sources' C, and where it stands.
def source_c(sources):
    text, path = find_one(r"\bconst\s+C\s*:\s*u64\s*=([^;]*);", sources, "constant C: u64")
    return literal(text), path


# Holds the sources against the computed values and says the first thing that differs.
def compare(paths, c, table):
    sources = [(path, without_comments(read_source(path))) for path in paths]
    found_table, path = source_table(sources)
    found_c, path_of_c = source_c(sources)
    if len(found_table) != len(table):
        verdict("the table in %s has %d entries, expected %d" % (path, len(found_table), len(table)))
    compared = 0
    for found, expected in zip(found_table, table):
        if found != expected:
            verdict("T[%d] differs in %s: found %s, expected %d" % (compared, path, found, expected))
        compared += 1
    if found_c != c:
        verdict("C differs in %s: found %s, expected %d" % (path_of_c, found_c, c))
    if compared < LAST + 1:
        verdict("too few compared: %d entries, at least %d" % (compared, LAST + 1))
    print("turn: compared %d entries of %s and C of %s: no difference" % (compared, path, path_of_c))


# Prints the values in the form that a reader or another program can take apart by spaces.
def show(c, table):
    print("C %d" % c)
    for i in range(len(table)):
        print("T %d %d" % (i, table[i]))


# Computes and checks first in either use, so that nothing is compared with a value that is not certain.
def main(arguments):
    if arguments[:1] in (["-h"], ["--help"]):
        print("usage: turn.py [FILE..]", file=sys.stderr)
        sys.exit(2)
    pi = pi_in_units()
    c = compute_c(pi)
    table = compute_table(pi)
    check_rules(table)
    if arguments:
        compare(arguments, c, table)
    else:
        show(c, table)


if __name__ == "__main__":
    main(sys.argv[1:])
