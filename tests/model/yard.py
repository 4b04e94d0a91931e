"""What `yard` prints, from its input's bytes."""
from .labels import check
from .levels import read_scheme, read_sheet
from .machines import read_program
from .monitor import Setting, replay
from .reports import refusal
from .texts import FIELD, LARGEST, OVERLONG, Fault, Fields, lines


def parts(data):
    """The input between lines that are `-` and nothing else."""
    found, rest = [b""], data
    while rest:
        line, feed, rest = rest.partition(b"\n")
        if line == b"-" and feed:
            found.append(b"")
        else:
            found[-1] += line + feed
    return found


def read_hand_ins(text):
    """The lines `D,channel,value`, as the bytes of in-tickets."""
    records = []
    for number, line in lines(text):
        fields = Fields(number, line)
        fields.first(("D",))
        channel = fields.number(0, 255)
        value = fields.number(0, LARGEST)
        fields.end()
        records.append(bytes([channel, 73]) + value.to_bytes(4, "big") + bytes(2))
    return records


def turn(n, answer):
    """The lines of the n-th hand-in."""
    if isinstance(answer, int):
        return [f"T,{n},refused,{answer}"]
    released, brought = answer
    told = [f"O,{n},{channel},{value}" for channel, value in released]
    word = brought[0] if brought else "ok"
    told.append(f"T,{n},{word},{len(released)}")
    if word == "alarm":
        told.append("A,{},{},{},{}".format(n, *brought[1:]))
    return told


def report_yard(data):
    if len(data) > 16384:
        return refusal(0, Fault(OVERLONG))
    found = parts(data)
    if len(found) != 4 or found[0].count(b"\n") != 1:
        return refusal(0, Fault(FIELD))
    part = 1
    try:
        scheme = read_scheme(found[0])
        part = 2
        sheet = read_sheet(found[1], scheme)
        part = 3
        program = read_program(found[2])
        part = 4
        records = read_hand_ins(found[3])
    except Fault as fault:
        return refusal(part, fault)
    try:
        check(program, scheme, sheet)
        told = ["L,pass"]
    except Fault as fault:
        told = [f"L,leak,{fault.line}"]
    for n, answer in enumerate(replay(Setting(program, scheme, sheet, 1000), [(record, 16) for record in records]), 1):
        told += turn(n, answer)
    return "".join(line + "\n" for line in told)
