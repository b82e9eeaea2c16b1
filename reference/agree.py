#!/usr/bin/env python3
"""The rule-sheet program, a second time.

This is an independent implementation, written from docs/RULES.md and
docs/SCRIPT.md alone, to compare the proved program with.  It shares no code
with that program and is not proved itself; where the two differ, one of them
or the documentation is wrong.

`report(sheet)` gives the bytes that the program prints for a sheet.  Run as a
script, it reads a sheet from standard input and prints the report.
"""

import sys
from itertools import combinations_with_replacement

MOST_BYTES = 8192
MOST_PROCESSES = 16
MOST_PAIRS = 64
MOST_DIGITS = 3
DIGITS = b"0123456789"


class Refused(Exception):
    """A refusal: its number, the places of pairs that it names, and a line."""

    def __init__(self, number, places=(0,), line=0):
        super().__init__(number, places, line)
        self.number = number
        self.places = places
        self.line = line

    def text(self):
        layer = "rule" if self.number <= 7 else "script"
        place = ",".join(str(p) for p in self.places)
        return f"refused {self.number} {layer} {place} {self.line}\n"


class NoForm(Exception):
    """A line, or a field of it, that has none of the forms (refusal 18)."""


# The forms of numbers, sets and lines


def number(field):
    """One to three decimal digits."""
    if not 1 <= len(field) <= MOST_DIGITS or any(c not in DIGITS for c in field):
        raise NoForm
    return int(field)


def process(field):
    """A process number, which is from 1 to 16 whatever the crew is."""
    s = number(field)
    if not 1 <= s <= MOST_PROCESSES:
        raise NoForm
    return s


def process_set(field):
    """Process numbers joined by commas, or a dash: a mask, s worth 2^(s-1)."""
    if field == b"-":
        return 0
    mask = 0
    for element in field.split(b","):
        mask |= 1 << (process(element) - 1)
    return mask


FORMS = {
    b"seats": (number,),
    b"pair": (process_set, process_set),
    b"count": (number, number),
}


def parse(line):
    """The word and the values of a line that is given without its line feed."""
    word, *fields = line.split(b" ")
    form = FORMS.get(word)
    if form is None or len(fields) != len(form):
        raise NoForm
    return word, tuple(read(field) for read, field in zip(form, fields))


# The sheet: its length, its lines one by one, and what is missing


class Sheet:
    """What the lines say: the crew, the pairs and the counts, with line numbers."""

    def __init__(self):
        self.seats = None  # n
        self.pairs = []  # (line, Byzantine, failing)
        self.count = None  # (line, t, b)

    def add(self, line, word, values):
        """Take in one line of good form; refusal 19 if it may not stand here."""
        first = line == 1
        if first != (word == b"seats"):
            raise Refused(19, line=line)
        if word == b"seats":
            (self.seats,) = values
        elif word == b"pair":
            self.pairs.append((line, *values))
        elif self.count is not None:
            raise Refused(19, line=line)
        else:
            self.count = (line, *values)

    def check_nothing_missing(self):
        if self.seats is None or (not self.pairs and self.count is None):
            raise Refused(19)


def read_sheet(text):
    """The sheet that the bytes say, or refusal 20, 18 or 19."""
    if len(text) > MOST_BYTES:
        raise Refused(20)
    *lines, unfinished = text.split(b"\n")
    sheet = Sheet()
    for at, line in enumerate(lines, start=1):
        try:
            word, values = parse(line)
        except NoForm:
            raise Refused(18, line=at) from None
        sheet.add(at, word, values)
    if unfinished:
        raise Refused(18, line=len(lines) + 1)
    sheet.check_nothing_missing()
    return sheet


# The rules


def check_crew(n):
    if not 1 <= n <= MOST_PROCESSES:
        raise Refused(1, line=1)


def check_pair_list(n, pairs):
    """Refusals 1 to 5, for a list that has a pair."""
    check_crew(n)
    if len(pairs) > MOST_PAIRS:
        raise Refused(2)
    for place, (line, byzantine, failing) in enumerate(pairs, start=1):
        if (byzantine | failing) >> n:
            raise Refused(3, (place,), line)
        if byzantine & failing:
            raise Refused(4, (place,), line)
    check_no_cover(n, pairs)


def check_no_cover(n, pairs):
    """Refusal 5, at the first triple i <= j <= k in dictionary order."""
    crew = (1 << n) - 1
    placed = [(place, a, f) for place, (_, a, f) in enumerate(pairs, start=1)]
    for triple in combinations_with_replacement(placed, 3):
        (i, a1, f1), (j, a2, f2), (k, a3, f3) = triple
        if (a1 | a2 | a3 | (f1 & f2 & f3)) == crew:
            raise Refused(5, (i, j, k))


def check_threshold(n, line, t, b):
    """Refusals 1, 6 and 7."""
    check_crew(n)
    if b > t:
        raise Refused(6, line=line)
    if t + 2 * b >= n:
        raise Refused(7, line=line)


def check_rule(sheet):
    """The parts are tested one by one; an intersection adds no test of its own."""
    if sheet.pairs:
        check_pair_list(sheet.seats, sheet.pairs)
    if sheet.count is not None:
        check_threshold(sheet.seats, *sheet.count)


# The answer


def rounds(n):
    """3 * n * m, where m is the least with n <= 2^m."""
    m = 0
    while n > 2**m:
        m += 1
    return 3 * n * m


def report(sheet: bytes) -> bytes:
    """Exactly the bytes that the program prints for a sheet."""
    try:
        accepted = read_sheet(sheet)
        check_rule(accepted)
    except Refused as refusal:
        return refusal.text().encode("ascii")
    n = accepted.seats
    return f"seats {n} rounds {rounds(n)}\n".encode("ascii")


def main():
    try:
        with open(0, "rb", closefd=False) as standard_input:
            answer = report(standard_input.read())
    except (OSError, MemoryError) as error:
        print(f"agree.py: {error}", file=sys.stderr)
        return 1
    sys.stdout.buffer.write(answer)
    sys.stdout.buffer.flush()
    return 0


if __name__ == "__main__":
    sys.exit(main())
