"""What the programs print, from their input's bytes."""
from .labels import check
from .levels import join, lowest, read_scheme, read_sheet
from .machines import read_program, read_switch
from .texts import CHANNEL, FIELD, LEAK, RECORD, Fault


def parts(text):
    """The first part, and what follows the first line that is `-` alone (or None)."""
    at = 0
    while at < len(text):
        if text[at : at + 2] == b"-\n":
            return text[:at], text[at + 2 :]
        feed = text.find(b"\n", at)
        if feed < 0:
            break
        at = feed + 1
    return text, None


def refusal(part, fault):
    return f"R,{part},{fault.number},{fault.line},{fault.field}\n"


def decode_in(record):
    """The channel and value of an in-ticket."""
    if len(record) != 8 or record[1] != 73 or record[6:] != bytes(2):
        raise Fault(RECORD)
    if record[0] > 15:
        raise Fault(CHANNEL)
    return record[0], int.from_bytes(record[2:6], "big")


def decode(record):
    """The channel and value of a ticket, in or out."""
    if len(record) != 8 or record[1] not in (73, 79) or record[6:] != bytes(2):
        raise Fault(RECORD)
    if record[0] > 31 or (record[0] < 16) != (record[1] == 73):
        raise Fault(CHANNEL)
    return record[0], int.from_bytes(record[2:6], "big")


def batch(data):
    """The tickets of a run of bytes."""
    if len(data) % 8:
        raise Fault(RECORD)
    return [decode(data[at : at + 8]) for at in range(0, len(data), 8)]


def report_tickets(data):
    line, rest = parts(data)
    text, records = parts(rest) if rest is not None else (None, None)
    if records is None or line.count(b"\n") != 1:
        return refusal(0, Fault(FIELD))
    part = 1
    try:
        scheme = read_scheme(line)
        part = 2
        sheet = read_sheet(text, scheme)
        part = 3
        tickets = batch(records)
    except Fault as fault:
        return refusal(part, fault)
    level = lowest(scheme)
    for channel, _ in tickets:
        level = join(scheme, level, sheet.channels[channel])
    return "".join(f"{'I' if c < 16 else 'O'},{c},{v}\n" for c, v in tickets) + f"B,{level}\n"


def report_reactions(machine, batch):
    out, words = [], [0] * 16
    for n, at in enumerate(range(0, len(batch), 8), 1):
        try:
            channel, value = decode_in(batch[at : at + 8])
        except Fault as fault:
            out.append(f"T,{n},refused,{fault.number}\n")
            continue
        outcome = machine.react(words, channel, value, 1000)
        words = outcome.words
        out += [f"O,{n},{c},{v}\n" for c, v in outcome.made]
        out.append(f"T,{n},{'stalled' if outcome.stalled else 'ended'},{outcome.steps}\n")
    return "".join(out)


def report_react(data):
    text, batch = parts(data)
    if batch is None:
        return refusal(0, Fault(FIELD))
    read = read_switch if text.startswith(b"T") else read_program
    try:
        machine = read(text)
    except Fault as fault:
        return refusal(1, fault)
    if len(batch) % 8:
        return refusal(2, Fault(RECORD))
    return report_reactions(machine, batch)


def report_labels(data):
    line, rest = parts(data)
    text, rows = parts(rest) if rest is not None else (None, None)
    if rows is None or line.count(b"\n") != 1:
        return refusal(0, Fault(FIELD))
    part = 1
    try:
        scheme = read_scheme(line)
        part = 2
        sheet = read_sheet(text, scheme)
        part = 3
        check(read_program(rows), scheme, sheet)
    except Fault as fault:
        return f"L,leak,{fault.line}\n" if fault.number == LEAK else refusal(part, fault)
    return "L,pass\n"
