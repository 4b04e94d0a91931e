"""Texts: lines, fields and numbers, and the one refusal of a bad text."""

OVERLONG, RAGGED, LETTER, FIELD, NEST, TWICE, FULL, SLIP, LEVEL, LEAK, RECORD, CHANNEL, HALTED, ALLOWANCE = range(1, 15)
LARGEST = 2**32 - 1


class Fault(Exception):
    """A refusal: its number, and the line and field where it was found."""

    def __init__(self, number, line=0, field=0):
        super().__init__(number, line, field)
        self.number, self.line, self.field = number, line, field


def lines(text):
    """The lines of a text with their numbers, each tested for raggedness when its turn comes."""
    if len(text) > 8192:
        raise Fault(OVERLONG)
    number = 0
    while text:
        number += 1
        line, feed, text = text.partition(b"\n")
        if not feed or len(line) > 80 or any(b < 32 or b > 126 for b in line):
            raise Fault(RAGGED, number)
        yield number, line.decode("ascii")


class Fields:
    """The fields of a line, taken from the left."""

    def __init__(self, number, line):
        self.line = number
        self.fields = line.split(",")
        self.taken = 0

    def first(self, wanted):
        """The first field, which is one of the wanted letters or words."""
        self.taken = 1
        if self.fields[0] not in wanted:
            raise Fault(LETTER, self.line, 1)
        return self.fields[0]

    def fault(self):
        return Fault(FIELD, self.line, self.taken)

    def next(self):
        self.taken += 1
        if self.taken > len(self.fields):
            raise self.fault()
        return self.fields[self.taken - 1]

    def number(self, low, high):
        return self.in_range(self.next(), low, high)

    def in_range(self, digits, low, high):
        plain = digits.isascii() and digits.isdigit() and (digits == "0" or digits[0] != "0")
        if not plain or not low <= int(digits) <= high:
            raise self.fault()
        return int(digits)

    def end(self):
        self.taken += 1
        if self.taken <= len(self.fields):
            raise self.fault()
