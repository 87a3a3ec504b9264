#!/usr/bin/env python3
"""Writes the table that the program `readings` is held to: damaged and random trace files, and how each is to be read.

    python3 tools/trace_table.py            writes crates/readings/stdin and crates/readings/stdout
    python3 tools/trace_table.py --check    writes nothing, and fails where the two files are not what it would write

The expected answers are worked out here, from the rules below, and share no code with the library.
The seed is fixed, so every run writes the same bytes.

The rules of a trace file
-------------------------
A number is one, two or three bytes. Each byte gives seven bits, its group, and the first byte has the lowest one.
A byte of 0x80 or more says that another byte follows. High groups may be empty: 05, 85 00 and 85 80 00 are all five.

A file is a row of numbers, with nothing between them and nothing behind the last:

    kind       1 or 2
    machine    1 to 65535
    count      1 to 4096, how many samples follow
    samples    the fields of each sample, one after another

    kind 1, pulse:   class 0..19                                   its code is the class
    kind 2, stroke:  drive 0..9, recovery 0..5, slack 0..1         its code is 12 * drive + 2 * recovery + slack

A reader is for one kind. It reads front to back, and its answer is the first fault that it meets:

    4   the file ends before the number does
    5   the third byte of a number says that another follows, whether or not one does
    6   the number is outside the range of its field
    7   the kind is known, and is not the reader's
    8   bytes are left over behind the last field

A fault tells its place, the byte where the number at fault begins, and its field: 0 kind, 1 machine, 2 count, 3 sample.
Fault 7 is always at place 0 in field 0. Fault 8 is at the first byte left over, in field 4.

The table
---------
A line of stdin is the reader's kind, a blank and the file in hex, or `-` for the empty file.
Its line of stdout is `ok MACHINE COUNT CODE CODE ..` or `refused FAULT PLACE FIELD`. A line with the totals comes last.
"""

import re
import sys
from collections import Counter
from pathlib import Path

SEED = 20_417
FOLDER = Path(__file__).resolve().parent.parent / "crates" / "readings"

PULSE, STROKE = 1, 2
RANGES = {PULSE: [(0, 19)], STROKE: [(0, 9), (0, 5), (0, 1)]}
KIND, MACHINE, COUNT, SAMPLE, END = range(5)
LOWEST_OUTSIDE = {PULSE: [20], STROKE: [10, 6, 2]}

# ---------------------------------------------------------------------------------------------------------------------
# Reading, by patterns over the bytes.

NUMBER = re.compile(rb"[\x80-\xff]{0,2}[\x00-\x7f]")
ENDLESS = re.compile(rb"[\x80-\xff]{3}")


class Fault(Exception):
    def __init__(self, cause, place, field):
        super().__init__(cause, place, field)
        self.cause, self.place, self.field = cause, place, field


class Cursor:
    """A place in a file, which each number moves on."""

    def __init__(self, data):
        self.data, self.place = data, 0

    def number(self, field, low, high):
        start = self.place
        spelled = NUMBER.match(self.data, start)
        if spelled is None:
            raise Fault(5 if ENDLESS.match(self.data, start) else 4, start, field)
        value = int("".join(f"{byte & 0x7F:07b}" for byte in reversed(spelled.group())), 2)
        if value not in range(low, high + 1):
            raise Fault(6, start, field)
        self.place = spelled.end()
        return value


def code(kind, fields):
    if kind == PULSE:
        return fields[0]
    drive, recovery, slack = fields
    return drive * 12 + recovery * 2 + slack


def expected(kind, data):
    """The line of stdout for a file that a reader of this kind is given."""
    cursor = Cursor(data)
    try:
        if cursor.number(KIND, 1, 2) != kind:
            raise Fault(7, 0, KIND)
        machine = cursor.number(MACHINE, 1, 65_535)
        count = cursor.number(COUNT, 1, 4_096)
        samples = [[cursor.number(SAMPLE, *bounds) for bounds in RANGES[kind]] for _ in range(count)]
        if cursor.place < len(data):
            raise Fault(8, cursor.place, END)
    except Fault as fault:
        return f"refused {fault.cause} {fault.place} {fault.field}"
    return " ".join(map(str, ["ok", machine, count, *(code(kind, fields) for fields in samples)]))


# ---------------------------------------------------------------------------------------------------------------------
# Writing, with numbers as wide as is wanted.


def spell(value, width):
    """The number in this many bytes, or in as few as hold it where that is more."""
    groups = [value & 0x7F]
    while value > 0x7F or len(groups) < width:
        value >>= 7
        groups.append(value & 0x7F)
    return bytes(group | 0x80 for group in groups[:-1]) + bytes(groups[-1:])


class Dice:
    """Numbers that look random and are the same on every machine: the upper bits of Knuth's 64-bit sequence."""

    def __init__(self, seed):
        self.state = seed

    def below(self, sides):
        self.state = (self.state * 6_364_136_223_846_793_005 + 1_442_695_040_888_963_407) % 2**64
        return (self.state >> 32) * sides >> 32

    def between(self, low, high):
        return low + self.below(high - low + 1)

    def choice(self, options):
        return options[self.below(len(options))]

    def bytes(self, size):
        return bytes(self.below(256) for _ in range(size))


NARROW = (1,)
ONE_EMPTY = (2,)
TWO_EMPTY = (3,)
MIXED = (1, 1, 2, 3)
PADDINGS = [NARROW, ONE_EMPTY, TWO_EMPTY, MIXED]


def join(numbers, padding, dice):
    return b"".join(spell(value, dice.choice(padding)) for value in numbers)


def random_samples(kind, count, dice):
    return [[dice.between(low, high) for low, high in RANGES[kind]] for _ in range(count)]


def numbers_of(kind, machine, samples):
    return [kind, machine, len(samples), *(value for fields in samples for value in fields)]


def other(kind):
    return PULSE + STROKE - kind


class Table:
    """The answer to each file, for the kind of its reader; a file that comes again is kept once."""

    def __init__(self):
        self.answers = {}

    def add(self, kind, data, told=""):
        """Adds a file. Where it was built so that its answer begins as `told`, the reader above has to say so too."""
        answer = expected(kind, data)
        assert answer.startswith(told), (kind, data.hex(), told, answer)
        self.answers[kind, data] = answer

    def rows(self):
        return [(kind, data, answer) for (kind, data), answer in self.answers.items()]

    def add_good(self, kind, machine, samples, padding, dice):
        data = join(numbers_of(kind, machine, samples), padding, dice)
        codes = [code(kind, fields) for fields in samples]
        self.add(kind, data, " ".join(map(str, ["ok", machine, len(samples), *codes])))
        return data


def random_machine(dice):
    return dice.choice([dice.between(1, 127), dice.between(1, 400), dice.between(1, 65_535)])


def random_good(dice, longest=8):
    """A kind, a machine and samples."""
    kind = dice.choice([PULSE, STROKE])
    most = longest if kind == PULSE else max(1, longest // 2)
    return kind, random_machine(dice), random_samples(kind, dice.between(1, most), dice)


def random_file(dice, longest=8):
    kind, machine, samples = random_good(dice, longest)
    return kind, join(numbers_of(kind, machine, samples), dice.choice(PADDINGS), dice)


# ---------------------------------------------------------------------------------------------------------------------
# The files.


def add_worked(table, dice):
    """Files whose answers were worked out by hand."""
    for kind, text, told in [
        (PULSE, "01 AC 02 03 05 13 00", "ok 300 3 5 19 0"),
        (PULSE, "01 AC 02 03 85 00 13 00", "ok 300 3 5 19 0"),
        (PULSE, "01 AC 02 03 85 80 00 13 00", "ok 300 3 5 19 0"),
        (PULSE, "01 AC 02 03 85 80 80 00 13 00", "refused 5 4 3"),
        (PULSE, "", "refused 4 0 0"),
        (STROKE, "", "refused 4 0 0"),
        (STROKE, "02 01 01 09 05 01", "ok 1 1 119"),
        (STROKE, "02 01 01 09 06 01", "refused 6 4 3"),
        (PULSE, "02 01 01 09 05 01", "refused 7 0 0"),
        (STROKE, "01 AC 02 03 05 13 00", "refused 7 0 0"),
        (PULSE, "01 01 01 00 00", "refused 8 4 4"),
        (PULSE, "80 80 80", "refused 5 0 0"),
        (PULSE, "80 80", "refused 4 0 0"),
        (PULSE, "81 80 00 FF FF 03 81 80 00 93 80 00", "ok 65535 1 19"),
    ]:
        table.add(kind, bytes.fromhex(text), told)


def add_limits(table, dice):
    """The first and last value of every field, and the first one outside, in every padding."""
    for padding in PADDINGS[:3]:
        for kind in (PULSE, STROKE):
            sample = random_samples(kind, 1, dice)
            width = padding[0]
            for machine in (1, 127, 128, 16_383, 16_384, 65_535):
                table.add_good(kind, machine, sample, padding, dice)
            for wrong in (0, 3, 127, 128, 65_536, 2_097_151):
                table.add(kind, join([wrong, 1, 1, *sample[0]], padding, dice), "refused 6 0 0")
            for machine in (0, 65_536, 65_537, 2_097_151):
                table.add(kind, join([kind, machine, 1, *sample[0]], padding, dice), f"refused 6 {width} 1")
            for count in (0, 4_097, 4_098, 16_384, 2_097_151):
                table.add(kind, join([kind, 1, count, *sample[0]], padding, dice), f"refused 6 {2 * width} 2")
            for at, (low, high) in enumerate(RANGES[kind]):
                for value in range(low, high + 1):
                    fields = list(sample[0])
                    fields[at] = value
                    table.add_good(kind, 7, [fields], padding, dice)
                for value in (LOWEST_OUTSIDE[kind][at], 127, 128, 2_097_151):
                    fields = list(sample[0])
                    fields[at] = value
                    table.add(kind, join([kind, 7, 1, *fields], padding, dice), f"refused 6 {(3 + at) * width} 3")


def add_long(table, dice):
    """The largest traces, and faults at their very end."""
    full = random_samples(PULSE, 4_096, dice)
    data = table.add_good(PULSE, 65_535, full, NARROW, dice)
    table.add(PULSE, data[:-1], f"refused 4 {len(data) - 1} 3")
    table.add(PULSE, data + b"\x00", f"refused 8 {len(data)} 4")
    table.add(PULSE, join(numbers_of(PULSE, 65_535, full + [[0]]), NARROW, dice), "refused 6 4 2")
    table.add_good(STROKE, 40_000, random_samples(STROKE, 4_096, dice), NARROW, dice)
    table.add_good(STROKE, 256, random_samples(STROKE, 200, dice), TWO_EMPTY, dice)
    table.add_good(PULSE, 129, random_samples(PULSE, 129, dice), ONE_EMPTY, dice)
    table.add_good(PULSE, 1_000, random_samples(PULSE, 1_000, dice), MIXED, dice)


def add_good(table, dice, files):
    for i in range(files):
        kind, machine, samples = random_good(dice, 12)
        table.add_good(kind, machine, samples, PADDINGS[i % 4], dice)


def add_wrong_kind(table, dice, files):
    for _ in range(files):
        kind, data = random_file(dice)
        table.add(other(kind), data, "refused 7 0 0")


def add_cut(table, dice, files):
    """Files that end at every place before their end; each is too short for its last number."""
    for i in range(files):
        kind, machine, samples = random_good(dice, 4)
        data = join(numbers_of(kind, machine, samples), PADDINGS[i % 4], dice)
        for end in range(len(data)):
            table.add(kind, data[:end], "refused 4 ")


def add_ends_inside(table, dice, files):
    """Files whose last one or two bytes each say that another follows, at each number of a file."""
    for i in range(files):
        kind, machine, samples = random_good(dice, 4)
        numbers = numbers_of(kind, machine, samples)
        at = i % 4 if i % 4 < SAMPLE else dice.between(SAMPLE, len(numbers) - 1)
        front = join(numbers[:at], dice.choice(PADDINGS), dice)
        begun = bytes(dice.between(0x80, 0xFF) for _ in range(1 + i // 4 % 2))
        table.add(kind, front + begun, f"refused 4 {len(front)} {min(at, SAMPLE)}")


def add_left_over(table, dice, files):
    for _ in range(files):
        kind, data = random_file(dice)
        table.add(kind, data + dice.bytes(dice.between(1, 4)), f"refused 8 {len(data)} 4")


def add_too_long(table, dice, files):
    """A number whose third byte is 0x80 or more, at each number of a file; every other file ends with that byte."""
    for i in range(files):
        kind, machine, samples = random_good(dice, 4)
        numbers = numbers_of(kind, machine, samples)
        at = i % 4 if i % 4 < SAMPLE else dice.between(SAMPLE, len(numbers) - 1)
        front = join(numbers[:at], dice.choice(PADDINGS), dice)
        endless = bytes(dice.between(0x80, 0xFF) for _ in range(3))
        back = b"" if i // 4 % 2 else join([0, *numbers[at + 1 :]], NARROW, dice)
        table.add(kind, front + endless + back, f"refused 5 {len(front)} {min(at, SAMPLE)}")


def add_out_of_range(table, dice, files):
    """One number of a file is replaced by one outside its range."""
    for i in range(files):
        kind, machine, samples = random_good(dice, 4)
        numbers = numbers_of(kind, machine, samples)
        at = i % 4 if i % 4 < SAMPLE else dice.between(SAMPLE, len(numbers) - 1)
        outside = {KIND: [0, 3, 4], MACHINE: [0, 65_536], COUNT: [0, 4_097]}.get(at)
        if outside is None:
            outside = [LOWEST_OUTSIDE[kind][(at - SAMPLE) % len(RANGES[kind])], dice.between(20, 2_097_151)]
        padding = dice.choice(PADDINGS)
        front = join(numbers[:at], padding, dice)
        back = join([dice.choice(outside), *numbers[at + 1 :]], padding, dice)
        table.add(kind, front + back, f"refused 6 {len(front)} {min(at, SAMPLE)}")


def add_one_byte_changed(table, dice, files):
    for _ in range(files):
        kind, data = random_file(dice)
        damaged = bytearray(data)
        at = dice.below(len(data))
        damaged[at] ^= dice.choice([dice.between(1, 255), 1 << dice.below(8)])
        table.add(kind, bytes(damaged))


def add_one_byte_more_or_less(table, dice, files):
    for i in range(files):
        kind, data = random_file(dice)
        at = dice.below(len(data))
        if i % 2:
            table.add(kind, data[:at] + data[at + 1 :])
        else:
            table.add(kind, data[:at] + dice.bytes(1) + data[at:])


def add_random(table, dice, files):
    """Random bytes: at all, or behind the front of a file, where they get further."""
    for i in range(files):
        kind = dice.choice([PULSE, STROKE])
        size = dice.between(1, 16)
        if i % 3 == 0:
            table.add(kind, dice.bytes(size))
        elif i % 3 == 1:
            table.add(kind, spell(kind, 1) + dice.bytes(size))
        else:
            small = bytes(dice.choice([0, 0, 1, 1, 2, 5, 9, 19, 0x80, 0x81, 0x85, 0xFF]) for _ in range(size))
            table.add(kind, spell(kind, 1) + spell(dice.between(1, 300), 1) + spell(dice.between(1, 5), 1) + small)


def make_table():
    dice = Dice(SEED)
    table = Table()
    add_worked(table, dice)
    add_limits(table, dice)
    add_long(table, dice)
    add_good(table, dice, 200)
    add_wrong_kind(table, dice, 80)
    add_cut(table, dice, 24)
    add_ends_inside(table, dice, 120)
    add_left_over(table, dice, 120)
    add_too_long(table, dice, 240)
    add_out_of_range(table, dice, 240)
    add_one_byte_changed(table, dice, 450)
    add_one_byte_more_or_less(table, dice, 300)
    add_random(table, dice, 300)
    return table.rows()


# ---------------------------------------------------------------------------------------------------------------------
# What is written.


def summary(rows):
    read = sum(answer.startswith("ok ") for _, _, answer in rows)
    causes = Counter(answer.split()[1] for _, _, answer in rows if answer.startswith("refused "))
    each = ", ".join(f"{cause}: {causes[cause]}" for cause in "45678")
    assert read + causes.total() == len(rows)
    return f"files {len(rows)}, read {read}, refused {causes.total()} ({each})"


def assert_covered(rows):
    """Every fault comes often, and those of a number in every field."""
    assert len(rows) >= 2_000
    faults = Counter(answer for _, _, answer in rows if answer.startswith("refused "))
    cause, field = Counter(), Counter()
    for answer, times in faults.items():
        _, number, _, part = answer.split()
        cause[number] += times
        field[number, part] += times
    assert all(cause[number] >= 60 for number in "45678"), cause
    assert all(field[number, part] >= 20 for number in "456" for part in "0123"), field


def main():
    rows = make_table()
    assert_covered(rows)
    texts = {
        "stdin": "".join(f"{kind} {data.hex() or '-'}\n" for kind, data, _ in rows),
        "stdout": "".join(f"{answer}\n" for _, _, answer in rows) + summary(rows) + "\n",
    }
    if sys.argv[1:] == ["--check"]:
        for name, text in texts.items():
            if (FOLDER / name).read_text() != text:
                sys.exit(f"{FOLDER / name} is not what this script writes")
    elif sys.argv[1:]:
        sys.exit(__doc__)
    else:
        for name, text in texts.items():
            (FOLDER / name).write_text(text)
    print(summary(rows))


if __name__ == "__main__":
    main()
