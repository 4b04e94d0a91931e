#!/usr/bin/env python3
"""Runs the built programs on seeded random inputs and compares every byte with what the second implementation works out.

Usage: compare.py [CASES [FIRST SEED]]. The first difference is printed whole. The last line is 'N passed, M failed'."""
import pathlib
import subprocess
import sys

import generate
from model import reports

ROOT = pathlib.Path(__file__).resolve().parent.parent

# program: how its inputs are made, and what it should print of one
PROGRAMS = {
    "tickets": (generate.tickets_input, reports.report_tickets),
    "react": (generate.react_input, reports.report_react),
    "labels": (generate.labels_input, reports.report_labels),
}


def run(program, data):
    return subprocess.run([ROOT / "crates" / program / "out" / program], input=data, capture_output=True, timeout=20, check=True).stdout


def main(cases=2000, first=1):
    passed = failed = 0
    for seed in range(first, first + cases):
        for program, (make, report) in PROGRAMS.items():
            data = make(seed)
            wanted = report(data).encode()
            try:
                given = run(program, data)
            except (OSError, subprocess.SubprocessError) as error:
                given = str(error).encode()
            if given == wanted:
                passed += 1
                continue
            failed += 1
            if failed == 1:
                print(f"FAILED {program}, seed {seed}\n-- input\n{data!r}\n-- wanted\n{wanted.decode()}\n-- given\n{given.decode()}")
    print(f"{passed} passed, {failed} failed")
    return 0 if passed and not failed else 1


if __name__ == "__main__":
    sys.exit(main(*map(int, sys.argv[1:])))
