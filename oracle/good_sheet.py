"""Writes sheets that document 01 accepts, nearly always, with every kind of line and item in them.

A GoodSheet remembers what it has defined and opened, so that names are known when they are
used and every loop is closed by the end. The rare sheet that passes a limit all the same is
welcome; the model says so.
"""

NAMES = ("p", "q", "A", "lead", "p2", "x;y", "[", "c", "p\x00")
BLANKS = (" ", " ", " ", " ", "  ", "\t", "\x0b", "\x0c", " \r", "\t \t")
MARKS = ("", "", "", "+", "-", "=", "++", "--")


class GoodSheet:
    def __init__(self, dice):
        self.dice = dice
        self.lines = []
        self.instruments = []
        self.macros = {}
        self.parts = {}

    def finished(self):
        """The whole sheet as bytes."""
        for _ in range(1 + self.dice.below(6)):
            self.any_line()
        self.part_line()
        self.close_all()
        return self.joined()

    def joined(self):
        """Line ends of one kind, or of both; the last line may go without."""
        ends = self.dice.pick((("\n",), ("\n",), ("\r\n",), ("\n", "\r\n")))
        text = "".join(line + self.dice.pick(ends) for line in self.lines)
        return (text if self.dice.chance(2) else text.rstrip("\r\n")).encode("latin-1")

    # Lines.

    def any_line(self):
        kinds = (
            self.part_line,
            self.part_line,
            self.part_line,
            self.macro_line,
            self.macro_line,
            self.instrument_lines,
            self.directive_line,
            self.directive_line,
            self.idle_line,
        )
        self.dice.pick(kinds)()

    def idle_line(self):
        """A line that is skipped, or one that looks like another kind and is a part's."""
        lines = ("", " \t", ";", "; c4 Z", "p", " ;", "\r", " @q c", " !m d", " ;x e", ";@#!")
        self.lines.append(self.dice.pick(lines))

    def directive_line(self):
        dice = self.dice
        value = dice.pick((
            lambda: ("#tempo", self.digits(dice.between(30, 1000))),
            lambda: ("#tempo", self.digits(dice.pick((1, 2, 1000)))),
            lambda: ("#denom", self.digits(dice.pick((1, 2, 3, 4, 5, 128)))),
            lambda: ("#key", self.key()),
        ))()
        tail = dice.pick(("", "", "", ".5", "x", " Z", "\t;"))
        self.lines.append(value[0] + dice.pick(BLANKS) + value[1] + tail)

    def macro_line(self):
        """A macro that calls others no more than a few deep."""
        name = "!" + self.dice.pick(("m", "n", "a;", "", "[", "x1", "phrase"))
        if name in self.macros:
            return
        depth = 0
        callable_here = [n for n, d in self.macros.items() if d < 4]
        body = self.items(2, callable_here)
        for called in callable_here:
            if called + " " in body + " ":
                depth = max(depth, self.macros[called] + 1)
        self.macros[name] = depth
        self.lines.append(name + self.dice.pick(BLANKS) + (body or ";"))

    def instrument_lines(self):
        name = "@" + self.dice.pick(("i", "j", "k2", "", "i;", "low"))
        if name in self.instruments:
            name += " "
        if name in self.instruments:
            return
        self.instruments.append(name)
        self.lines.append(name)
        indent = 0
        for number in range(self.dice.below(7)):
            indent = self.dice.between(0, indent + 1) if number else 0
            self.lines.append("\t" * indent + self.operator())
        self.lines.append(self.dice.pick(("", "", " ", ";", "#tempo 120")))

    def part_line(self):
        name = self.dice.pick(NAMES)
        if name not in self.parts and len(self.parts) == 3:
            name = self.dice.pick(sorted(self.parts))
        body = self.items(3, sorted(self.macros)) + self.open_or_close(name)
        comment = self.dice.pick(("", "", "", ";", " ; Z", "\t;]"))
        lead = self.dice.pick(("", "", "", " ", "\t")) if name != "[" else ""
        self.lines.append(lead + name + self.dice.pick(BLANKS) + (body or ";") + comment)

    def open_or_close(self, name):
        """Now and then leaves a loop open for a later line, or closes one from an earlier line."""
        left = self.parts.setdefault(name, 0)
        kind = self.dice.below(8)
        if kind == 0 and left < 3:
            self.parts[name] += 1
            return " [" + self.note()
        if kind == 1 and left > 0:
            self.parts[name] -= 1
            return " " + self.note() + "]" + self.count()
        return ""

    def close_all(self):
        """The empty line before ends any operator lines."""
        for name, left in self.parts.items():
            if left:
                self.lines.append("")
                self.lines.append(name + " " + ("]" + self.count() + " ") * left)

    # Items of a body.

    def items(self, depth, macros):
        """A run of items; a name needs a blank after it, other items may have one."""
        text = ""
        for _ in range(1 + self.dice.below(6)):
            item = self.item(depth, macros)
            named = item[:1] in ("@", "!")
            text += item + (self.dice.pick(BLANKS) if named or self.dice.chance(3) else "")
        return text

    def item(self, depth, macros):
        dice = self.dice
        kind = dice.below(20)
        if kind == 0 and depth:
            return self.loop(depth, macros)
        if kind == 1 and macros:
            return dice.pick(macros)
        if kind == 2 and self.instruments:
            # A name with a blank at its end cannot be called.
            return dice.pick(self.instruments).rstrip()
        if kind < 9:
            return self.command()
        return self.note()

    def loop(self, depth, macros):
        text = "[" + self.items(depth - 1, macros)
        for _ in range(self.dice.pick((0, 0, 1, 2))):
            text += ":" + self.items(depth - 1, macros)
        return text + "]" + self.count()

    def count(self):
        return self.digits(self.dice.pick((1, 1, 2, 2, 3, 4)))

    def command(self):
        dice = self.dice
        return dice.pick((
            lambda: "o" + self.digits(dice.between(1, 8)),
            lambda: "l" + self.digits(dice.pick((1, 2, 3, 4, 8, 16, 128, dice.between(1, 128)))),
            lambda: "t" + self.digits(dice.pick((1, 60, 120, 1000, dice.between(20, 1000)))),
            lambda: "v" + self.amplitude(),
            lambda: "k" + self.key(),
            lambda: ">",
            lambda: "<",
        ))()

    def note(self):
        dice = self.dice
        value = "" if dice.chance(2) else self.digits(dice.pick((1, 4, 8, 3, 128, dice.between(1, 128))))
        return dice.pick("abcdefgr") + dice.pick(MARKS) + value + dice.pick(("", "", "", "."))

    def key(self):
        letters = "".join(self.dice.pick("abcdefg") for _ in range(self.dice.below(5)))
        return letters + self.dice.pick("+-=")

    # Numbers.

    def digits(self, number):
        return "0" * self.dice.pick((0, 0, 0, 0, 0, 0, 1, 25)) + str(number)

    def amplitude(self):
        dice = self.dice
        return dice.pick((
            lambda: dice.pick(("0", "1", "0.0", "1.0", "00.5", "1.00000001")),
            lambda: "0." + self.some_digits(dice.between(1, 3)),
            lambda: "0." + self.some_digits(dice.between(1, 17)),
        ))()

    def some_digits(self, count):
        return "".join(str(self.dice.below(10)) for _ in range(count))

    def operator(self):
        dice = self.dice
        tokens = [self.decimal() for _ in range(6)]
        # A long release would make most notes too long.
        tokens[5] = dice.pick(("0", "0.5", "1.25", "0,7", "0." + self.some_digits(5)))
        if dice.chance(3):
            tokens.append(self.digits(dice.pick((0, 1, 2, 255))) + dice.pick(("", "", "x", ".5")))
        return dice.pick(BLANKS).join(tokens) + dice.pick(("", "", " ", "\r"))

    def decimal(self):
        """Up to 18 digits, with or without a tail that is ignored."""
        dice = self.dice
        whole = dice.pick(("0", "1", "2", "3.5", self.some_digits(dice.between(1, 9))))
        part = "" if "." in whole or dice.chance(3) else "." + self.some_digits(dice.between(1, 9))
        return whole + part + dice.pick(("", "", "", "", ",7", "e3", "x", ".5" if "." in whole + part else ""))
