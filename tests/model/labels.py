"""The label check: whether a program can tell a level what it may not see."""
from .levels import join, lowest
from .texts import LEAK, LEVEL, Fault


def level_of(expression, scheme, sheet, channel):
    """The level of an expression in the handler of a channel."""
    kind = expression[0]
    if kind == "x":
        return sheet.channels[channel]
    if kind == "k":
        return lowest(scheme)
    if kind == "v":
        return sheet.variables[expression[1]]
    return join(scheme, level_of(expression[1], scheme, sheet, channel), level_of(expression[2], scheme, sheet, channel))


def failing_rows(block, ground, scheme, sheet, channel):
    """The rows of a block, on the ground of its handler and of the tests open around it, that do not pass."""
    for command in block:
        letter = command["letter"]
        if letter == "S":
            continue
        raised = join(scheme, ground, level_of(command["expression"], scheme, sheet, channel))
        if letter in "AO":
            target = (sheet.variables if letter == "A" else sheet.channels)[command["target"]]
            if not scheme.below(raised, target):
                yield command["row"]
        else:
            yield from failing_rows(command["first"], raised, scheme, sheet, channel)
            yield from failing_rows(command["second"], raised, scheme, sheet, channel)


def check(program, scheme, sheet):
    """Refused by 9 for a level that the scheme lacks, then by 10 with the first failing row."""
    if any(level >= scheme.count for level in sheet.channels + sheet.variables):
        raise Fault(LEVEL)
    rows = [row for channel, block in program.handlers.items() for row in failing_rows(block, sheet.channels[channel], scheme, sheet, channel)]
    if rows:
        raise Fault(LEAK, min(rows))
