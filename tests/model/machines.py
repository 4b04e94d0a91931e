"""Reactive machines: the switch sheet, and the site program run one command at a time."""
from .texts import FIELD, FULL, LARGEST, NEST, TWICE, Fault, Fields, lines

MODULUS = 2**32


class Outcome:
    """The tickets made, the steps taken, whether the run stalled, and the words afterwards."""

    def __init__(self, made, steps, stalled, words):
        self.made, self.steps, self.stalled, self.words = made, steps, stalled, words


# The switch sheet


class Switch:
    def __init__(self, transitions):
        self.transitions = transitions

    def react(self, words, channel, value, allowance):
        words, made = list(words), []
        for state, of, low, high, following, out, sent in self.transitions:
            if state == words[0] and of == channel and low <= value <= high:
                words[0] = following
                if out is not None:
                    made.append((out, sent))
                break
        return Outcome(made, 1, False, words)


def read_switch(text):
    transitions = []
    for number, line in lines(text):
        fields = Fields(number, line)
        fields.first(("T",))
        state = fields.number(0, 255)
        channel = fields.number(0, 15)
        low = fields.number(0, LARGEST)
        high = fields.number(low, LARGEST)
        following = fields.number(0, 255)
        out = fields.next()
        out = None if out == "-" else fields.in_range(out, 16, 31)
        value = fields.number(0, LARGEST if out is not None else 0)
        fields.end()
        if len(transitions) == 64:
            raise Fault(FULL, number, 1)
        transitions.append((state, channel, low, high, following, out, value))
    return Switch(transitions)


# The site program: a tree, read row by row

OPERATORS = "+-*=<r"


def read_expression(fields):
    """An expression, as a nested tuple in prefix order."""
    count = 0

    def part():
        nonlocal count
        term = fields.next()
        count += 1
        if count > 15:
            raise fields.fault()
        if term == "x":
            return ("x",)
        if term[:1] == "k":
            return ("k", fields.in_range(term[1:], 0, LARGEST))
        if term[:1] == "v":
            return ("v", fields.in_range(term[1:], 0, 15))
        if len(term) == 1 and term in OPERATORS:
            left = part()
            return (term, left, part())
        raise fields.fault()

    expression = part()
    return expression, count


class Program:
    """A block for each channel that has a handler. A block is a list of commands."""

    def __init__(self, handlers):
        self.handlers = handlers

    def react(self, words, channel, value, allowance):
        return Run(words, value, allowance).react(self.handlers.get(channel, []))


def read_program(text):
    handlers = {}
    stack = []  # what is open, the handler first: (letter, the list that rows go to, whether an E was seen)
    rows = terms = 0
    for number, line in lines(text):
        fields = Fields(number, line)
        letter = fields.first(tuple("HAOSIWEX"))
        target, expression, count = None, None, 0
        if letter in "HAO":
            target = fields.number(*{"H": (0, 15), "A": (0, 15), "O": (16, 31)}[letter])
        if letter in "AOIW":
            expression, count = read_expression(fields)
        fields.end()
        nest = Fault(NEST, number, 1)
        if letter == "H":
            if stack:
                raise nest
            if target in handlers:
                raise Fault(TWICE, number, 2)
        elif not stack:
            raise nest
        elif letter in "IW" and len(stack) == 9:
            raise nest
        elif letter == "E" and (stack[-1][0] != "I" or stack[-1][2]):
            raise nest
        if rows == 128 or terms + count > 512:
            raise Fault(FULL, number, 1)
        rows, terms = rows + 1, terms + count
        place(letter, target, expression, number, stack, handlers)
    if stack:
        raise Fault(NEST, rows + 1, 0)
    return Program(handlers)


def place(letter, target, expression, row, stack, handlers):
    """Puts a row that is in order into the tree."""
    if letter == "H":
        handlers[target] = []
        stack.append((letter, handlers[target], False))
    elif letter == "X":
        stack.pop()
    elif letter == "E":
        opened = stack.pop()
        command = opened[3]
        stack.append(("I", command["second"], True, command))
    else:
        command = {"letter": letter, "row": row, "target": target, "expression": expression, "first": [], "second": []}
        stack[-1][1].append(command)
        if letter in "IW":
            stack.append((letter, command["first"], False, command))


class Stalled(Exception):
    pass


def rounded(value, unit):
    """The nearest multiple by search among the two candidates, a half upward."""
    if unit == 0:
        return value
    lower = value - value % unit
    upper = lower + unit
    if upper > LARGEST or value - lower < upper - value:
        return lower
    return upper


class Run:
    """One reaction: a list of commands that are still to do is worked off from its front."""

    def __init__(self, words, value, allowance):
        self.words, self.value, self.allowance = list(words), value, allowance
        self.made, self.steps = [], 0

    def react(self, block):
        todo = list(block)
        try:
            while todo:
                todo = self.step(todo[0], todo[1:])
        except Stalled:
            return Outcome(self.made, self.steps, True, self.words)
        return Outcome(self.made, self.steps, False, self.words)

    def step(self, command, rest):
        """Does one command, and gives what is still to do."""
        if self.steps == self.allowance:
            raise Stalled
        letter = command["letter"]
        if letter == "O" and len(self.made) == 16:
            raise Stalled
        self.steps += 1
        if letter == "S":
            return rest
        result = self.evaluate(command["expression"])
        if letter == "A":
            self.words[command["target"]] = result
            return rest
        if letter == "O":
            self.made.append((command["target"], result))
            return rest
        if letter == "I":
            return command["first" if result else "second"] + rest
        return command["first"] + [command] + rest if result else rest

    def evaluate(self, expression):
        kind = expression[0]
        if kind == "x":
            return self.value
        if kind == "k":
            return expression[1]
        if kind == "v":
            return self.words[expression[1]]
        left, right = self.evaluate(expression[1]), self.evaluate(expression[2])
        return {
            "+": lambda: (left + right) % MODULUS,
            "-": lambda: (left - right) % MODULUS,
            "*": lambda: left * right % MODULUS,
            "=": lambda: int(left == right),
            "<": lambda: int(left < right),
            "r": lambda: rounded(left, right),
        }[kind]()
