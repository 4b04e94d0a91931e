"""Seeded random inputs: sheets, programs and tickets, most of them in order and some damaged."""
import random

from model.texts import LARGEST


def number(random, low, high):
    """A number of a range, often one of its ends."""
    near = [n for n in (low, low + 1, high - 1, high) if low <= n <= high]
    return random.choice(near) if random.random() < 0.4 else random.randint(low, min(high, low + 9))


def ticket(random):
    """Eight bytes, mostly an in-ticket on one of the first channels."""
    channel, mark, tail = random.randint(0, 3), 73, bytes(2)
    if random.random() < 0.1:
        channel, mark, tail = random.choice([(15, 73, bytes(2)), (16, 73, bytes(2)), (16, 79, bytes(2)), (255, 73, bytes(2)), (0, 72, bytes(2)), (0, 73, b"\0\1"), (0, 73, b"\1\0")])
    return bytes([channel, mark]) + number(random, 0, LARGEST).to_bytes(4, "big") + tail


def tickets(random):
    batch = b"".join(ticket(random) for _ in range(random.randint(0, 8)))
    return batch if random.random() < 0.95 else batch[: max(0, len(batch) - random.randint(1, 7))]


def switch_sheet(random):
    lines = []
    for _ in range(random.choice([0, 1, 3, 6, 10, 63, 64, 65])):
        low = number(random, 0, LARGEST)
        high = number(random, low, LARGEST)
        out, value = (random.randint(16, 18), number(random, 0, LARGEST)) if random.random() < 0.7 else ("-", 0)
        lines.append(f"T,{random.randint(0, 2)},{random.randint(0, 3)},{low},{high},{random.randint(0, 2)},{out},{value}")
    return "".join(line + "\n" for line in lines).encode()


def expression(random, budget):
    """Terms in prefix order, at most so many."""
    if budget < 3 or random.random() < 0.45:
        kind = random.random()
        if kind < 0.3:
            return ["x"]
        if kind < 0.65:
            return [f"v{random.randint(0, 15) if random.random() < 0.1 else random.randint(0, 3)}"]
        return [f"k{number(random, 0, LARGEST)}"]
    left = expression(random, budget - 2)
    return [random.choice("+-*=<r")] + left + expression(random, budget - 1 - len(left))


def row(*fields):
    return ",".join(map(str, fields))


def block(random, depth, size):
    """The rows of a block, with at most so many more blocks open at once."""
    rows = []
    for _ in range(random.randint(0, max(size, 1))):
        terms = expression(random, random.choice([1, 3, 5, 7, 15]))
        way = random.random()
        if way < 0.15:
            rows.append("S")
        elif way < 0.45:
            rows.append(row("A", random.randint(0, 3), *terms))
        elif way < 0.7:
            rows.append(row("O", random.randint(16, 19), *terms))
        elif depth == 0:
            rows.append("S")
        elif way < 0.88:
            rows += [row("I", *terms)] + block(random, depth - 1, size - 1)
            if random.random() < 0.6:
                rows += ["E"] + block(random, depth - 1, size - 1)
            rows.append("X")
        elif random.random() < 0.7:
            # A loop that counts variable 3 down from a small number.
            rows += [row("A", 3, f"k{random.randint(0, 20)}"), "W,v3"] + block(random, depth - 1, size - 2) + ["A,3,-,v3,k1", "X"]
        else:
            rows += [row("W", *terms)] + block(random, depth - 1, size - 1) + ["X"]
    return rows


def nested(random):
    """Blocks in blocks, up to the most that may be open and one past it."""
    depth = random.choice([7, 8, 8, 9])
    return ["I,k1"] * depth + ["S"] + ["X"] * depth


def program(random):
    rows = []
    for channel in random.sample(range(16), 1) + random.sample(range(4), random.randint(0, 3)):
        rows += [f"H,{channel}"] + (nested(random) if random.random() < 0.05 else block(random, 3, 4)) + ["X"]
    if random.random() < 0.05:
        # The most rows, and one more.
        rows += ["H,14"] + ["S"] * (random.choice([126, 127]) - len(rows)) + ["X"]
    if random.random() < 0.05:
        # Terms up to the most and past it.
        rows += ["H,15"] + ["A,0,+,+,+,+,+,+,+,x,x,x,x,x,x,x,x"] * 34 + [row("A", 0, *["x"])] * random.choice([1, 2, 3]) + ["X"]
    return "".join(line + "\n" for line in rows).encode()


def damaged(random, text):
    """The text with one or two bytes changed, lost or put in, or cut off."""
    text = bytearray(text)
    for _ in range(random.randint(1, 2)):
        at = random.randrange(len(text) + 1)
        way = random.random()
        if way < 0.4 and at < len(text):
            text[at] = random.choice(b",\n-0123456789TCVHAOSIWEXxkv+*=<r \t\x7f~a")
        elif way < 0.7:
            text.insert(at, random.choice(b",\n-0123456789TCVHAOSIWEXxkv+*=<r \t\x7f~a"))
        elif at < len(text):
            del text[at]
    return bytes(text)


def perhaps_damaged(random, text):
    return damaged(random, text) if random.random() < 0.2 else text


def react_input(seed):
    """A whole input of the program `react`: a switch sheet or a site program, and tickets."""
    r = random.Random(seed)
    machine = switch_sheet(r) if r.random() < 0.2 else program(r)
    return perhaps_damaged(r, machine) + b"-\n" + tickets(r)


def scheme(random):
    """A scheme line, and how many levels it has."""
    if random.random() < 0.6:
        count = random.choice([1, 2, 2, 3, 4, 16])
        return f"chain,{count}\n".encode(), count
    number = random.randint(0, 4)
    return f"parties,{number}\n".encode(), 2**number


def level_sheet(random, count):
    names = [f"C,{c}" for c in range(32)] + [f"V,{v}" for v in range(16)]
    chosen = random.sample(names, random.choice([0, 1, 4, 10, 47, 48]))
    if chosen and random.random() < 0.05:
        chosen.append(random.choice(chosen))
    top = count if random.random() < 0.05 else count - 1
    return "".join(f"{name},{random.randint(0, top)}\n" for name in chosen).encode()


def batch(random):
    """Tickets in and out."""
    records = b""
    for _ in range(random.randint(0, 6)):
        channel = random.randint(0, 31)
        record = bytes([channel, 73 if channel < 16 else 79]) + number(random, 0, LARGEST).to_bytes(4, "big") + bytes(2)
        records += damaged(random, record)[:8].ljust(8, b"\0") if random.random() < 0.03 else record
    return records if random.random() < 0.95 else records[: max(0, len(records) - random.randint(1, 7))]


def tickets_input(seed):
    """A whole input of the program `tickets`: a scheme, a level sheet, and a batch."""
    r = random.Random(seed)
    line, count = scheme(r)
    if r.random() < 0.05:
        line = damaged(r, line)
    sheet = level_sheet(r, count)
    return line + b"-\n" + (damaged(r, sheet) if r.random() < 0.1 else sheet) + b"-\n" + batch(r)


def upward_sheet(random, count):
    """A sheet under which many programs pass: what is written to has the top level, but for a few names."""
    levels = {f"C,{c}": count - 1 for c in range(16, 32)} | {f"V,{v}": count - 1 for v in range(16)}
    for name in random.sample([f"C,{c}" for c in range(4)] + [f"V,{v}" for v in range(4)] + ["C,16", "C,17"], random.randint(0, 3)):
        levels[name] = random.randrange(count)
    return "".join(f"{name},{level}\n" for name, level in levels.items()).encode()


def labels_input(seed):
    """A whole input of the program `labels`: a scheme, a level sheet, and a site program."""
    r = random.Random(seed)
    line, count = scheme(r)
    sheet = upward_sheet(r, count) if r.random() < 0.6 else level_sheet(r, count)
    rows = program(r)
    if r.random() < 0.1:
        part = r.randrange(3)
        line, sheet, rows = (damaged(r, text) if part == n else text for n, text in enumerate((line, sheet, rows)))
    return line + b"-\n" + sheet + b"-\n" + rows
