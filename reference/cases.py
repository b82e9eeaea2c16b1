#!/usr/bin/env python3
"""Sheets and their reports, written out: each refusal alone, and two causes at once.

Run as a script, it tries all of them on the second implementation.
`cases.py --write DIR` also writes DIR/stdin and DIR/stdout, which the program
`cases` of the repository is run on: the sheets, each followed by a form feed,
and the reports one after another.
"""

import sys
from pathlib import Path

import agree

CASES = [
    # accepted
    ('seats 1\ncount 0 0\n', 'seats 1 rounds 0\n'),
    ('seats 1\npair - -\n', 'seats 1 rounds 0\n'),
    ('seats 2\npair - 1\npair - 2\n', 'seats 2 rounds 6\n'),
    ('seats 4\npair 1 2\n', 'seats 4 rounds 24\n'),
    ('seats 4\npair 1 2\ncount 1 1\n', 'seats 4 rounds 24\n'),
    ('seats 8\ncount 3 2\n', 'seats 8 rounds 72\n'),
    ('seats 16\npair 16,1 2\n', 'seats 16 rounds 192\n'),
    ('seats 016\npair 016 015\n', 'seats 16 rounds 192\n'),
    ('seats 3\npair 1,1,1 -\ncount 000 0\npair - 3\n', 'seats 3 rounds 18\n'),
    # each refusal of a rule alone
    ('seats 17\npair 1 -\n', 'refused 1 rule 0 1\n'),
    ('seats 0\ncount 0 0\n', 'refused 1 rule 0 1\n'),
    ('seats 999\ncount 0 0\n', 'refused 1 rule 0 1\n'),
    ('seats 3\npair 1 -\npair 4 -\n', 'refused 3 rule 2 3\n'),
    ('seats 3\npair - 16\n', 'refused 3 rule 1 2\n'),
    ('seats 3\npair - -\npair 1,2 3,2\n', 'refused 4 rule 2 3\n'),
    ('seats 3\npair 1 -\npair 2 -\npair 3 -\n', 'refused 5 rule 1,2,3 0\n'),
    ('seats 2\npair - 1,2\n', 'refused 5 rule 1,1,1 0\n'),
    ('seats 3\npair - 1\npair 1 2,3\npair 2 3\npair 3 -\n', 'refused 5 rule 2,2,2 0\n'),
    ('seats 4\npair 1 2\ncount 1 2\n', 'refused 6 rule 0 3\n'),
    ('seats 8\ncount 4 2\n', 'refused 7 rule 0 2\n'),
    ('seats 1\ncount 1 0\n', 'refused 7 rule 0 2\n'),
    # lines that have not the form of any
    ('seat 4\ncount 0 0\n', 'refused 18 script 0 1\n'),
    ('seats\ncount 0 0\n', 'refused 18 script 0 1\n'),
    ('seats 4 4\ncount 0 0\n', 'refused 18 script 0 1\n'),
    (' seats 4\ncount 0 0\n', 'refused 18 script 0 1\n'),
    ('seats 4 \ncount 0 0\n', 'refused 18 script 0 1\n'),
    ('seats  4\ncount 0 0\n', 'refused 18 script 0 1\n'),
    ('seats 4\r\ncount 0 0\n', 'refused 18 script 0 1\n'),
    ('seats\t4\ncount 0 0\n', 'refused 18 script 0 1\n'),
    ('seats 0004\ncount 0 0\n', 'refused 18 script 0 1\n'),
    ('seats -1\ncount 0 0\n', 'refused 18 script 0 1\n'),
    ('seats +1\ncount 0 0\n', 'refused 18 script 0 1\n'),
    ('seats 4x\ncount 0 0\n', 'refused 18 script 0 1\n'),
    ('seats 4\npair 0 -\n', 'refused 18 script 0 2\n'),
    ('seats 4\npair 17 -\n', 'refused 18 script 0 2\n'),
    # more such lines
    ('seats 4\npair 1, -\n', 'refused 18 script 0 2\n'),
    ('seats 4\npair ,1 -\n', 'refused 18 script 0 2\n'),
    ('seats 4\npair 1,,2 -\n', 'refused 18 script 0 2\n'),
    ('seats 4\npair -,1 -\n', 'refused 18 script 0 2\n'),
    ('seats 4\npair -- -\n', 'refused 18 script 0 2\n'),
    ('seats 4\npair 1\n', 'refused 18 script 0 2\n'),
    ('seats 4\npair 1 2 3\n', 'refused 18 script 0 2\n'),
    ('seats 4\npair 1 2', 'refused 18 script 0 2\n'),
    ('seats 4\n\ncount 0 0\n', 'refused 18 script 0 2\n'),
    ('seats 4\ncount 0 0\n\n', 'refused 18 script 0 3\n'),
    ('\n', 'refused 18 script 0 1\n'),
    ('seats 4\ncount 0\n', 'refused 18 script 0 2\n'),
    ('seats 4\ncount 0 0 0\n', 'refused 18 script 0 2\n'),
    ('seats 4\ncount 1,1 0\n', 'refused 18 script 0 2\n'),
    ('seats 4\nCount 0 0\n', 'refused 18 script 0 2\n'),
    # lines in a wrong place, and what is missing
    ('', 'refused 19 script 0 0\n'),
    ('pair 1 -\nseats 4\n', 'refused 19 script 0 1\n'),
    ('count 0 0\n', 'refused 19 script 0 1\n'),
    ('seats 4\nseats 4\ncount 0 0\n', 'refused 19 script 0 2\n'),
    ('seats 4\ncount 0 0\ncount 0 0\n', 'refused 19 script 0 3\n'),
    ('seats 4\n', 'refused 19 script 0 0\n'),
    ('seats 4\npair 1 -\nseats 5\n', 'refused 19 script 0 3\n'),
    # two causes at once, one in a line: the first in order is told
    ('pair x -\n', 'refused 18 script 0 1\n'),
    ('count 0 0\nx\n', 'refused 19 script 0 1\n'),
    ('seats 4\nx\nseats 4\n', 'refused 18 script 0 2\n'),
    ('seats 4\nseats 4\nx\n', 'refused 19 script 0 2\n'),
    ('seats 4\nseats 4', 'refused 18 script 0 2\n'),
    ('seats 17\n', 'refused 19 script 0 0\n'),
    ('seats 17\nx\n', 'refused 18 script 0 2\n'),
    ('seats 17\nseats 17\n', 'refused 19 script 0 2\n'),
    ('seats 4\ncount 2 1\nx\n', 'refused 18 script 0 3\n'),
    ('seats 4\npair 5 -\nseats 4\n', 'refused 19 script 0 3\n'),
    ('seats 2\npair - 1,2\ncount 0 0\ncount 0 0\n', 'refused 19 script 0 4\n'),
    ('seats 4\ncount 1 2\npair 0 -\n', 'refused 18 script 0 3\n'),
    # two causes at once, both of the rule
    ('seats 0\npair 1 -\n', 'refused 1 rule 0 1\n'),
    ('seats 0\npair 1 1\n', 'refused 1 rule 0 1\n'),
    ('seats 0\npair - -\n', 'refused 1 rule 0 1\n'),
    ('seats 17\ncount 1 2\n', 'refused 1 rule 0 1\n'),
    ('seats 0\ncount 0 0\n', 'refused 1 rule 0 1\n'),
    ('seats 17\npair 1 1\ncount 1 2\n', 'refused 1 rule 0 1\n'),
    ('seats 3\npair 4 4\n', 'refused 3 rule 1 2\n'),
    ('seats 3\npair 1 1\npair 4 -\n', 'refused 4 rule 1 2\n'),
    ('seats 3\npair 4 -\npair 1 1\n', 'refused 3 rule 1 2\n'),
    ('seats 2\npair - 1,2\npair 3 -\n', 'refused 3 rule 2 3\n'),
    ('seats 2\npair - 1,2\npair 1 1\n', 'refused 4 rule 2 3\n'),
    ('seats 3\ncount 1 2\npair 4 -\n', 'refused 3 rule 1 3\n'),
    ('seats 3\ncount 3 0\npair 1 1\n', 'refused 4 rule 1 3\n'),
    ('seats 2\ncount 0 1\npair - 1,2\n', 'refused 5 rule 1,1,1 0\n'),
    ('seats 2\ncount 2 0\npair - 1,2\n', 'refused 5 rule 1,1,1 0\n'),
    ('seats 4\ncount 8 9\n', 'refused 6 rule 0 2\n'),
    ('seats 4\npair 1 -\ncount 1 2\n', 'refused 6 rule 0 3\n'),
    ('seats 4\npair 1 -\ncount 4 0\n', 'refused 7 rule 0 3\n'),
]

# a first part, a line that follows it so many times, and the report
REPEATED = [
    ('seats 16\n', 'pair 1,2 3\n', 64, 'seats 16 rounds 192\n'),
    ('seats 16\n', 'pair 1,2 3\n', 65, 'refused 2 rule 0 0\n'),
    ('seats 17\n', 'pair 1 -\n', 65, 'refused 1 rule 0 1\n'),
    ('seats 4\n', 'pair 5 -\n', 65, 'refused 2 rule 0 0\n'),
    ('seats 4\n', 'pair 1 1\n', 65, 'refused 2 rule 0 0\n'),
    ('seats 2\n', 'pair - 1,2\n', 65, 'refused 2 rule 0 0\n'),
    ('seats 2\ncount 2 2\n', 'pair - 1,2\n', 65, 'refused 2 rule 0 0\n'),
    ('seats 999\n', 'pair 1,2,3,4,5,6,7,8,9,10,11 -\n', 256, 'refused 1 rule 0 1\n'),
    ('seats 999\n', 'pair 1,2,3,4,5,6,7,8,9,10,11 -\n', 264, 'refused 20 script 0 0\n'),
    ('x\n', 'pair 1 -\n', 911, 'refused 20 script 0 0\n'),
    ('seats 4\n', 'seats 4\n', 1024, 'refused 20 script 0 0\n'),
    ('seats 999\n', 'pair 1,2,3,4,5,6,7,8 -\n', 355, 'refused 1 rule 0 1\n'),
]

# the same at the limit of 8,192 bytes: the last pair has so many elements
LIMIT = [
    (8191, "refused 1 rule 0 1\n"),
    (8192, "refused 1 rule 0 1\n"),
    (8193, "refused 20 script 0 0\n"),
]


def long_sheet(size):
    """A sheet of just so many bytes, refused with 1 where it is not too long."""
    head, tail = "seats 17\npair - 1", "\n"
    left = size - len(head) - len(tail)
    return head + ",1" * (left // 2 - 1) + (",01" if left % 2 else ",1") + tail


def all_cases():
    yield from CASES
    for first, line, count, report in REPEATED:
        yield first + line * count, report
    for size, report in LIMIT:
        sheet = long_sheet(size)
        assert len(sheet) == size
        yield sheet, report


def main():
    cases = [(sheet.encode(), report.encode()) for sheet, report in all_cases()]
    wrong = [(s, r) for s, r in cases if agree.report(s) != r]
    for sheet, report in wrong:
        print(f"{sheet[:200]!r}: {agree.report(sheet)!r}, and not {report!r}")
    if sys.argv[1:2] == ["--write"]:
        folder = Path(sys.argv[2])
        folder.joinpath("stdin").write_bytes(b"".join(s + b"\f" for s, _ in cases))
        folder.joinpath("stdout").write_bytes(b"".join(r for _, r in cases))
    print(f"{len(cases)} cases, {len(wrong)} wrong")
    return 1 if wrong else 0


if __name__ == "__main__":
    sys.exit(main())
