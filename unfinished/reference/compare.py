#!/usr/bin/env python3
"""Compare the proved programs with the second implementation.

compare.py [--calls] [--written | --seed S --count N] [--program PATH]

Each of the N random scripts goes to the program `agree` through standard
input; with --calls each of N random lists of calls goes to the program
`calls`.  With --written the inputs are those that are written out in cases.py,
with their answers.  The program must print what agree.py or calls.py gives, nothing on
standard error, and end with status 0.  Status 1 if an input differs, 2 if the
comparison cannot be made, else 0.
"""

import argparse
import subprocess
import sys
from itertools import zip_longest
from pathlib import Path

from agree import report
from call_lists import lists
from calls import answers
from cases import call_cases, encoded, script_cases
from scripts import scripts

CRATES = Path(__file__).resolve().parent.parent / "crates"
MOST_SHOWN = 5
SECONDS = 60


def run(program, given):
    """What the program prints for an input, also on standard error, and its status.

    The status is None if the program does not end in time.
    """
    try:
        done = subprocess.run([program], input=given, capture_output=True, timeout=SECONDS)
    except subprocess.TimeoutExpired as expired:
        return expired.stdout or b"", expired.stderr or b"", None
    return done.stdout, done.stderr, done.returncode


def show(at, given, expected, printed, error, status):
    print(f"input {at} differs:")
    print(f"  input    {given!r}")
    print(f"  expected {expected!r} with status 0")
    print(f"  printed  {printed!r} with status {status}")
    if error:
        print(f"  and on standard error {error!r}")
    show_first_line(expected.split(b"\n"), printed.split(b"\n"))


def show_first_line(expected, printed):
    """The first line that differs, by its number and the line before it."""
    for at, (one, other) in enumerate(zip_longest(expected, printed, fillvalue=b"")):
        if one != other:
            before = expected[at - 1] if at else b""
            print(f"  first in line {at + 1}, after {before!r}: {one!r}, and not {other!r}")
            return


def compare(program, pairs):
    """The number of inputs that differ from what is expected; the first of them are shown."""
    differing = 0
    for at, (given, expected) in enumerate(pairs, start=1):
        printed, error, status = run(program, given)
        if (printed, error, status) != (expected, b"", 0):
            differing += 1
            if differing <= MOST_SHOWN:
                show(at, given, expected, printed, error, status)
    return differing


def arguments():
    parser = argparse.ArgumentParser(description="Compare two implementations.")
    parser.add_argument("--calls", action="store_true", help="lists of calls instead of scripts")
    parser.add_argument("--written", action="store_true", help="those that are written out")
    parser.add_argument("--seed", type=int, default=1)
    parser.add_argument("--count", type=int, default=3000)
    parser.add_argument("--program", type=Path)
    given = parser.parse_args()
    if given.count < 1:
        parser.error("--count must be 1 or more")
    return given


def written(of_calls):
    """The inputs that are written out, with their answers."""
    return encoded(call_cases() if of_calls else script_cases())


def random_pairs(of_calls, seed, count):
    """Random inputs with what the second implementation answers."""
    make, answer = (lists, answers) if of_calls else (scripts, report)
    return ((given, answer(given)) for given in make(seed, count))


def main():
    given = arguments()
    name = "call lists" if given.calls else "scripts"
    built = "calls" if given.calls else "agree"
    program = given.program or CRATES / built / "out" / built
    pairs = written(given.calls) if given.written else random_pairs(given.calls, given.seed, given.count)
    count = len(pairs) if given.written else given.count
    try:
        differing = compare(program.resolve(), pairs)
    except OSError as error:
        print(f"compare.py: {error}", file=sys.stderr)
        return 2
    if differing:
        print(f"{count} {name}, {differing} differ")
        return 1
    print(f"{count} {name}, no difference")
    return 0


if __name__ == "__main__":
    sys.exit(main())
