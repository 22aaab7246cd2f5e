"""A plain reading of document 01's rules for sheets, and of request T-05's, written from the documents and not from the Rust.

It gives what the Rust does not: the refusal number and line, and the step count. For an
accepted sheet it also gives parts, notes and commands in the form of the oracle's `notes`, so
that a misreading of the document shows against the Rust.
"""

from fractions import Fraction

import rules
from f32 import bits
from rules import Refused

DEFAULT_OPERATOR = b"1 1 0 0 1 0"


# Instruments.


class Instrument:
    """Operators and Stack counts as read downward; a command is its line of the dump."""

    def __init__(self):
        self.commands = []
        self.operators = 0
        self.indent = 0
        self.release = Fraction(0)

    def read_line(self, text, line, strict=False):
        """One operator line, with its refusals in 01's order; in strict mode 32 comes last for each token."""
        indent = rules.run_of(b"\t", text, 0)
        if self.operators == 0 and indent > 0:
            raise Refused(15, line)
        if indent > self.indent + 1:
            raise Refused(16, line)
        tokens = text.split()
        if len(tokens) not in (6, 7):
            raise Refused(17, line)
        numbers = [self.number(token, line, strict) for token in tokens[:6]]
        feedback = self.feedback(tokens[6], line, strict) if len(tokens) == 7 else 0
        if self.operators == rules.OPERATORS:
            raise Refused(21, line)
        self.add(indent, numbers, feedback)

    @staticmethod
    def number(token, line, strict):
        number, end = rules.checked_decimal(token, 0, 18, line)
        rules.read_to_its_end(token, end, strict, line)
        return number

    @staticmethod
    def feedback(token, line, strict):
        number, end = rules.digit_run(token, 0, rules.WORD)
        if number is None:
            raise Refused(18, line)
        if number > rules.FEEDBACK:
            raise Refused(20, line)
        rules.read_to_its_end(token, end, strict, line)
        return number

    def add(self, indent, numbers, feedback):
        if indent < self.indent:
            self.commands.append(f"stack {self.indent - indent}")
        self.commands.append(f"op {' '.join(map(bits, numbers))} {feedback}")
        self.operators += 1
        self.indent = indent
        self.release = max(self.release, numbers[5])

    def dump(self):
        return [f"inst {bits(self.release)} {len(self.commands)}"] + self.commands[::-1]


def ends_operators(text):
    """Whether a line is blank or its first non-blank is `#`, `@` or `;`."""
    return text.strip(rules.BLANKS)[:1] in (b"", b"#", b"@", b";")


# Parts.


START = {
    "octave": 4,
    "value": 4,
    "tempo": 100,
    "amplitude": Fraction(1, 2),
    "denominator": 4,
    "key": (frozenset(), 0),
    "instrument": 0,
}


class Loop:
    """An open loop: its notes and, if set, the cut."""

    def __init__(self):
        self.notes = []
        self.cut = None

    def length(self, times):
        """How many notes closing with this count gives."""
        last = len(self.notes) if self.cut is None else self.cut
        return (times - 1) * len(self.notes) + last

    def unrolled(self, times):
        return self.notes * (times - 1) + self.notes[: self.cut]


class Part:
    """A part: its environment, finished notes and open loops."""

    def __init__(self, name, environment):
        self.name = name
        self.environment = dict(environment)
        self.notes = []
        self.loops = []

    def put(self, notes):
        (self.loops[-1].notes if self.loops else self.notes).extend(notes)

    def dump(self):
        head = f"part {self.name.hex()} {len(self.notes)}"
        return [head] + [f"note {bits(a)} {bits(f)} {bits(d)} {i}" for a, f, d, i in self.notes]

    def length(self, instruments):
        """The largest end of a sounding note."""
        start, end = 0, 0
        for _, _, seconds, index in self.notes:
            end = max(end, start + rules.samples(seconds, instruments[index].release))
            start += rules.samples(seconds, Fraction(0))
        return end


# The sheet.


class Sheet:
    """Reads a source from its first line to its last; raises Refused at the first refusal."""

    def __init__(self, strict=False):
        self.strict = strict
        self.environment = dict(START)
        self.parts = {}
        self.macros = {}
        self.names = {}
        self.instruments = [Instrument()]
        self.instruments[0].read_line(DEFAULT_OPERATOR, 0)
        self.note_count = 0
        self.steps = 0

    def read(self, source):
        if len(source) > rules.SOURCE_BYTES:
            raise Refused(1, 0)
        if any(byte >= 128 for byte in source):
            raise Refused(2, 0)
        lines = rules.lines_of(source)
        at = 0
        while at < len(lines):
            at = self.read_line(lines, at)
        self.finish()

    def read_line(self, lines, at):
        """Reads the line at an index, an instrument with its operator lines; gives the next index."""
        text, line = lines[at], at + 1
        kind = text[:1]
        if kind == b"@":
            return self.read_instrument(lines, at)
        if kind == b"#":
            self.read_directive(text, line)
        elif kind == b"!":
            self.read_macro(text, line)
        elif kind not in (b"", b";"):
            self.read_part(text, line)
        return at + 1

    def finish(self):
        if not self.parts:
            raise Refused(25, 0)
        if any(part.loops for part in self.parts.values()):
            raise Refused(26, 0)
        if self.length() > rules.SHEET_SAMPLES:
            raise Refused(27, 0)

    def length(self):
        """In samples: the largest end of a sounding note."""
        return max(part.length(self.instruments) for part in self.parts.values())

    def dump(self):
        lines = []
        for part in self.parts.values():
            lines += part.dump()
        for instrument in self.instruments:
            lines += instrument.dump()
        return lines

    # Kinds of lines.

    def read_instrument(self, lines, at):
        name = lines[at]
        if name in self.names:
            raise Refused(3, at + 1)
        if len(self.instruments) == rules.INSTRUMENTS:
            raise Refused(21, at + 1)
        instrument = Instrument()
        at += 1
        while at < len(lines) and not ends_operators(lines[at]):
            instrument.read_line(lines[at], at + 1, self.strict)
            at += 1
        self.names[name] = len(self.instruments)
        self.instruments.append(instrument)
        return at

    def read_directive(self, text, line):
        tokens = text.split()
        if len(tokens) < 2:
            raise Refused(7, line)
        if tokens[0] == b"#key":
            field, (value, end) = "key", rules.key_at(tokens[1], 0, line)
        elif tokens[0] in rules.DIGIT_DIRECTIVES:
            field, least, most = rules.DIGIT_DIRECTIVES[tokens[0]]
            value, end = self.ranged(tokens[1], 0, least, most, line)
        else:
            raise Refused(6, line)
        rules.read_to_its_end(tokens[1], end, self.strict, line)
        self.set_everywhere(field, value)

    def set_everywhere(self, field, value):
        """In the starting environment and in every existing part's."""
        self.environment[field] = value
        for part in self.parts.values():
            part.environment[field] = value

    def read_macro(self, text, line):
        tokens = text.split(None, 1)
        if len(tokens) < 2:
            raise Refused(5, line)
        if tokens[0] in self.macros:
            raise Refused(4, line)
        if len(self.macros) == rules.MACROS:
            raise Refused(21, line)
        self.macros[tokens[0]] = (tokens[1], line)

    def read_part(self, text, line):
        tokens = text.split(None, 1)
        if len(tokens) < 2:
            return
        name, body = tokens
        if name not in self.parts:
            if len(self.parts) == rules.PARTS:
                raise Refused(21, line)
            self.parts[name] = Part(name, self.environment)
        self.read_body(self.parts[name], body, line, 0)

    # Bodies.

    def read_body(self, part, text, line, depth):
        """A body, of a part line or of a macro called `depth` deep."""
        at = 0
        while at < len(text) and text[at] != ord(";"):
            if text[at] in rules.BLANKS:
                at += 1
            else:
                self.count_step(line)
                at = self.read_item(part, text, at, line, depth)

    def count_step(self, line):
        if self.steps == rules.STEPS:
            raise Refused(23, line)
        self.steps += 1

    def read_item(self, part, text, at, line, depth):
        """One note, command, mark or macro call; gives the place after it."""
        letter = chr(text[at])
        if letter in "<>":
            return self.move_octave(part.environment, text, at, line)
        if letter in "[:":
            self.mark_loop(part, letter, line)
            return at + 1
        if letter in rules.OFFSETS:
            return self.read_note(part, text, at, line)
        if letter in "!@":
            name, end = rules.word_at(text, at)
            if letter == "!":
                self.call_macro(part, name, line, depth)
            else:
                self.choose_instrument(part, name, line)
            return end
        return self.read_command(part, letter, text, at + 1, line)

    def read_command(self, part, letter, text, at, line):
        """A command with a value; its value starts at the place."""
        environment = part.environment
        if letter == "]":
            return self.close_loop(part, text, at, line)
        if letter == "k":
            environment["key"], at = rules.key_at(text, at, line)
        elif letter == "v":
            environment["amplitude"], at = self.amplitude(text, at, line)
        elif letter in rules.DIGIT_COMMANDS:
            field, least, most = rules.DIGIT_COMMANDS[letter]
            environment[field], at = self.ranged(text, at, least, most, line)
        else:
            raise Refused(14, line)
        return at

    @staticmethod
    def ranged(text, at, least, most, line):
        number, end = rules.digit_run(text, at, rules.WORD)
        if number is None:
            raise Refused(7, line)
        if not least <= number <= most:
            raise Refused(8, line)
        return number, end

    @staticmethod
    def amplitude(text, at, line):
        value, end = rules.checked_decimal(text, at, 7, line)
        if value > 1:
            raise Refused(8, line)
        return value, end

    def choose_instrument(self, part, name, line):
        if name not in self.names:
            raise Refused(12, line)
        part.environment["instrument"] = self.names[name]

    def call_macro(self, part, name, line, depth):
        if name not in self.macros:
            raise Refused(13, line)
        if depth == rules.MACRO_NESTING:
            raise Refused(22, line)
        body, body_line = self.macros[name]
        self.read_body(part, body, body_line, depth + 1)

    def move_octave(self, environment, text, at, line):
        """`>` or `<`, and those that follow it at once, each a step of its own: the longest sheets are made of them."""
        octave = environment["octave"]
        while True:
            octave = min(octave + 1, 8) if text[at] == ord(">") else max(octave - 1, 1)
            at += 1
            if text[at : at + 1] not in (b"<", b">"):
                break
            self.count_step(line)
        environment["octave"] = octave
        return at

    @staticmethod
    def mark_loop(part, letter, line):
        if letter == "[":
            if len(part.loops) == rules.OPEN_LOOPS:
                raise Refused(21, line)
            part.loops.append(Loop())
        else:
            if not part.loops:
                raise Refused(10, line)
            part.loops[-1].cut = len(part.loops[-1].notes)

    def close_loop(self, part, text, at, line):
        if not part.loops:
            raise Refused(10, line)
        times, end = rules.digit_run(text, at, rules.COUNT)
        if not times:
            raise Refused(11, line)
        loop = part.loops.pop()
        # Counted before it is laid down: the count may be far too large to lay down.
        self.note_count += loop.length(times) - len(loop.notes)
        if self.note_count > rules.NOTES:
            raise Refused(21, line)
        # An empty body stays empty, however often it is said.
        part.put(loop.unrolled(times) if loop.notes else [])
        return end

    # Notes.

    def read_note(self, part, text, at, line):
        environment = part.environment
        letter = chr(text[at])
        accidental, at = self.accidental(environment, letter, text, at + 1)
        value, at = rules.digit_run(text, at, rules.WORD)
        dotted = text[at : at + 1] == b"."
        if value is None:
            value = environment["value"]
        if not 1 <= value <= 128:
            raise Refused(8, line)
        semitone = 12 * environment["octave"] + rules.OFFSETS[letter] + accidental
        seconds = rules.duration(environment["tempo"], environment["denominator"], value, dotted)
        self.add_note(part, letter, semitone, seconds, line)
        return at + 1 if dotted else at

    @staticmethod
    def accidental(environment, letter, text, at):
        """The accidental written, or the key's; and the place after it."""
        sign = text[at : at + 1]
        if text[at : at + 2] in (b"++", b"--"):
            return 2 * rules.ACCIDENTALS[sign], at + 2
        if sign in rules.ACCIDENTALS:
            return rules.ACCIDENTALS[sign], at + 1
        letters, accidental = environment["key"]
        return (accidental if letter in letters else 0), at

    def add_note(self, part, letter, semitone, seconds, line):
        index = part.environment["instrument"]
        if rules.samples(seconds, self.instruments[index].release) > rules.NOTE_SAMPLES:
            raise Refused(24, line)
        self.note_count += 1
        if self.note_count > rules.NOTES:
            raise Refused(21, line)
        amplitude = Fraction(0) if letter == "r" else part.environment["amplitude"]
        part.put([(amplitude, rules.frequency(semitone), seconds, index)])


def read(source, strict=False):
    """The sheet of a source, or its refusal."""
    sheet = Sheet(strict)
    try:
        sheet.read(source)
    except Refused as refusal:
        return refusal
    return sheet


def answer(found):
    """What is read in lines: `refused N L`, or `accepted STEPS` and the dump."""
    if isinstance(found, Refused):
        return [f"refused {found.number} {found.line}"]
    return [f"accepted {found.steps}"] + found.dump()
