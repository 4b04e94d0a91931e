"""Schemes of levels, and the level sheet."""
from .texts import LEVEL, TWICE, Fault, Fields, lines


class Chain:
    def __init__(self, count):
        if not 1 <= count <= 16:
            raise Fault(LEVEL)
        self.count = count

    def below(self, a, b):
        return a <= b < self.count


class Parties:
    def __init__(self, number):
        if number > 4:
            raise Fault(LEVEL)
        self.count = 2**number

    def below(self, a, b):
        return b < self.count and a | b == b


def lowest(scheme):
    """The one level that is at or below all."""
    levels = range(scheme.count)
    return next(a for a in levels if all(scheme.below(a, b) for b in levels))


def join(scheme, a, b):
    """The least level above both."""
    above = [c for c in range(scheme.count) if scheme.below(a, c) and scheme.below(b, c)]
    return next(c for c in above if all(scheme.below(c, d) for d in above))


def read_scheme(text):
    """The scheme that one line `chain,n` or `parties,n` names."""
    made = None
    for number, line in lines(text):
        fields = Fields(number, line)
        kind = fields.first(("chain", "parties"))
        size = fields.number(0, 255)
        fields.end()
        try:
            made = (Chain if kind == "chain" else Parties)(size)
        except Fault:
            raise Fault(LEVEL, number, 2) from None
    return made


class Sheet:
    """The levels of 32 channels and 16 variables."""

    def __init__(self, level):
        self.channels = [level] * 32
        self.variables = [level] * 16


def read_sheet(text, scheme):
    sheet = Sheet(lowest(scheme))
    named = set()
    for number, line in lines(text):
        fields = Fields(number, line)
        letter = fields.first(("C", "V"))
        table = sheet.channels if letter == "C" else sheet.variables
        name = fields.number(0, len(table) - 1)
        level = fields.number(0, 255)
        fields.end()
        if (letter, name) in named:
            raise Fault(TWICE, number, 2)
        if level >= scheme.count:
            raise Fault(LEVEL, number, 3)
        named.add((letter, name))
        table[name] = level
    return sheet
