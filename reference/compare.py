#!/usr/bin/env python3
"""Compare the proved program with the second implementation in agree.py.

compare.py [--seed S] [--count N] [--program PATH]

Each of the N random sheets goes to the program through standard input.  The
program must print what agree.report gives, and end with status 0.  Status 1 if
a sheet differs, 2 if the comparison cannot be made, else 0.
"""

import argparse
import subprocess
import sys
from pathlib import Path

from agree import report
from sheets import sheets

PROGRAM = Path(__file__).resolve().parent.parent / "crates" / "agree" / "out" / "agree"
MOST_SHOWN = 5
SECONDS = 60


def run(program, sheet):
    """What the program prints for the sheet, and its status (None: no end)."""
    try:
        done = subprocess.run([program], input=sheet, stdout=subprocess.PIPE, timeout=SECONDS)
    except subprocess.TimeoutExpired as expired:
        return expired.stdout or b"", None
    return done.stdout, done.returncode


def show(at, sheet, expected, printed, status):
    print(f"sheet {at} differs:")
    print(f"  sheet    {sheet!r}")
    print(f"  expected {expected!r} with status 0")
    print(f"  printed  {printed!r} with status {status}")


def compare(program, seed, count):
    """The number of sheets that differ; the first of them are shown."""
    differing = 0
    for at, sheet in enumerate(sheets(seed, count), start=1):
        expected = report(sheet)
        printed, status = run(program, sheet)
        if (printed, status) != (expected, 0):
            differing += 1
            if differing <= MOST_SHOWN:
                show(at, sheet, expected, printed, status)
    return differing


def arguments():
    parser = argparse.ArgumentParser(description="Compare a program with agree.py.")
    parser.add_argument("--seed", type=int, default=1)
    parser.add_argument("--count", type=int, default=3000)
    parser.add_argument("--program", type=Path, default=PROGRAM)
    given = parser.parse_args()
    if given.count < 1:
        parser.error("--count must be 1 or more")
    return given


def main():
    given = arguments()
    try:
        differing = compare(given.program.resolve(), given.seed, given.count)
    except OSError as error:
        print(f"compare.py: {error}", file=sys.stderr)
        return 2
    if differing:
        print(f"{given.count} sheets, {differing} differ")
        return 1
    print(f"{given.count} sheets, no difference")
    return 0


if __name__ == "__main__":
    sys.exit(main())
