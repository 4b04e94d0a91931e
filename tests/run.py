#!/usr/bin/env python3
"""Runs the built programs on tables of cases and compares every byte that they write.

The last line is 'N passed, M failed'; the status is 0 only where something ran and nothing failed."""
import pathlib
import re
import subprocess
import sys

ROOT = pathlib.Path(__file__).resolve().parent.parent


def read_table(name):
    """The cases of a table: a line each, what is given and what is wanted with ' = ' between them."""
    for number, line in enumerate((ROOT / "tests" / name).read_text().splitlines(), 1):
        if line and not line.startswith("#"):
            given, wanted = re.fullmatch(r"(.*?) ?= (.*)", line).groups()
            yield f"{name}:{number}", given, wanted


def text(given):
    """A text with '/' for a line end and \\xNN for a byte."""
    return re.sub(rb"\\x(..)", lambda m: bytes.fromhex(m[1].decode()), given.replace("/", "\n").encode())


def batches():
    front = b"chain,3\n-\nC,1,1\nC,17,1\nC,2,2\nC,18,2\n-\n"
    for name, given, wanted in read_table("tickets.txt"):
        yield name, "tickets", front + bytes.fromhex(given), wanted.replace("/", "\n").encode()


def level_sheets():
    line, names = b"C,0,0\n", b"".join(b"C,%d,1\n" % c for c in range(32)) + b"".join(b"V,%d,1\n" % v for v in range(16))
    limits = {
        "every name": (names, "ok"),
        "a line of 80 bytes": (b"C,0," + b"0" * 76 + b"\n", "2,4,1,3"),
        "a line of 81 bytes": (b"C,0," + b"0" * 77 + b"\n", "2,2,1,0"),
        "8192 bytes": (line * 1365 + b"\n\n", "2,6,2,2"),
        "8193 bytes": (line * 1365 + b"\n\n\n", "2,1,0,0"),
    }
    for name, (given, wanted) in limits.items():
        yield name, "tickets", b"chain,2\n-\n" + given + b"-\n", verdict(wanted)
    for name, given, wanted in read_table("sheets.txt"):
        scheme, sheet = given.split("|")
        first = text(scheme) + b"\n" if scheme else b""
        yield name, "tickets", first + b"-\n" + text(sheet) + b"-\n", verdict(wanted)


def verdict(wanted):
    """What is printed of a scheme and a sheet with no tickets behind them."""
    return b"B,0\n" if wanted == "ok" else f"R,{wanted}\n".encode()


def answer(part, wanted):
    """What is printed of a text that is this part of the input, with nothing behind it."""
    return b"" if wanted == "ok" else f"R,{part},{wanted}\n".encode()


def switch_sheets():
    line = b"T,0,0,0,0,0,-,0\n"
    limits = {
        "a line of 80 bytes": (b"T,0,0,0,0,0,-," + b"0" * 66 + b"\n", "4,1,8"),
        "a line of 81 bytes": (b"T,0,0,0,0,0,-," + b"0" * 67 + b"\n", "2,1,0"),
        "64 lines": (line * 64, "ok"),
        "65 lines": (line * 65, "7,65,1"),
        "a bad line after 64": (line * 64 + b"T,0\n", "4,65,3"),
        "8192 bytes": (line * 512, "7,65,1"),
        "8193 bytes": (line * 512 + b"\n", "1,0,0"),
        "8193 bad bytes": (b"\xff" * 8192 + b"\n", "1,0,0"),
    }
    for name, (given, wanted) in limits.items():
        yield name, "react", given + b"-\n", answer(1, wanted)
    for name, given, wanted in read_table("switch.txt"):
        # A last line without its line feed cannot stand before the line `-`: the tests in crates/reader_tests have those.
        if given == "" or given.endswith("/"):
            yield name, "react", text(given) + b"-\n", answer(1, wanted)


def site_programs():
    terms = b"A,0,+,+,+,+,+,+,+,x,x,x,x,x,x,x,x\n"
    limits = {
        "128 rows": (b"H,0\n" + b"S\n" * 126 + b"X\n", "ok"),
        "129 rows": (b"H,0\n" + b"S\n" * 127 + b"X\n", "7,129,1"),
        "a bad row after 128": (b"H,0\n" + b"S\n" * 126 + b"X\n" + b"S\n", "5,129,1"),
        "512 terms": (b"H,0\n" + terms * 34 + b"A,0,x\n" * 2 + b"X\n", "ok"),
        "513 terms": (b"H,0\n" + terms * 34 + b"A,0,x\n" * 3 + b"X\n", "7,38,1"),
        "8193 bytes": (b"H,0\n" + b"S\n" * 4094 + b"\n", "1,0,0"),
    }
    for name, (given, wanted) in limits.items():
        yield name, "react", given + b"-\n", answer(1, wanted)
    made = "".join(f"O,1,16,{n}\n" for n in range(16)) + "T,1,stalled,49\n"
    yield "a seventeenth ticket", "react", b"H,0\nW,k1\nO,16,v0\nA,0,+,v0,k1\nX\nX\n-\n\0I\0\0\0\0\0\0", made.encode()
    for name, given, wanted in read_table("programs.txt"):
        program, bar, tickets = given.partition(" | ")
        fed = b"".join(ticket_bytes(*map(int, t.split(":"))) for t in tickets.split())
        yield name, "react", text(program) + b"-\n" + fed, wanted.replace("/", "\n").encode() if bar else answer(1, wanted)


def labels():
    for name, given, wanted in read_table("labels.txt"):
        scheme, sheet, program = (text(part) for part in given.split("|"))
        answer = wanted if wanted.startswith("R") else "L,pass" if wanted == "pass" else f"L,leak,{wanted}"
        yield name, "labels", scheme + b"\n-\n" + sheet + b"-\n" + program, answer.encode() + b"\n"


def ticket_bytes(channel, value):
    return bytes([channel, 73]) + value.to_bytes(4, "big") + bytes(2)


def difference(program, given, wanted):
    """What is wrong with a run, or None."""
    try:
        ran = subprocess.run([ROOT / "crates" / program / "out" / program], input=given, capture_output=True, timeout=10)
    except (OSError, subprocess.TimeoutExpired) as error:
        return str(error)
    if ran.returncode != 0:
        return f"status {ran.returncode}, error output {ran.stderr!r}"
    if ran.stdout != wanted:
        return f"wrote {ran.stdout!r}, wanted {wanted!r}"
    return None


def main():
    passed = failed = 0
    for cases in (batches, level_sheets, switch_sheets, site_programs, labels):
        for name, program, given, wanted in cases():
            wrong = difference(program, given, wanted)
            if wrong:
                failed += 1
                print(f"FAILED {name}: {wrong}")
            else:
                passed += 1
    print(f"{passed} passed, {failed} failed")
    return 0 if passed and not failed else 1


if __name__ == "__main__":
    sys.exit(main())
