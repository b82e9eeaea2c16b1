#!/usr/bin/env python3
"""The program for lists of calls, a second time.

Written from docs/CALLS.md and docs/PROTOCOL.md alone, with the processes and
the rules of agree.py.

`answers(text)` gives the bytes that the program prints for an input.  Run as a
script, it reads the input from standard input and prints the answers.
"""

import sys

from agree import (NoForm, Process, Refused, answer_standard_input, members, number, read_script,
                   with_line)

MOST_BYTE = 255


class Malformed(Exception):
    """A line that is not a call, by its number in the whole input."""

    def __init__(self, line):
        super().__init__(line)
        self.line = line

    def text(self):
        return f"malformed {self.line}\n"


# The forms of calls


def byte(field):
    value = number(field)
    if value > MOST_BYTE:
        raise NoForm
    return value


FORMS = {
    b"start": (byte, byte),
    b"speak": (),
    b"hear": (byte, number, byte),
    b"shut": (),
    b"verdict": (),
    b"standing": (),
}


def parse(line):
    """The position, the name of the call and its values."""
    position, *call = line.split(b" ")
    name, fields = call[0] if call else b"", call[1:]
    form = FORMS.get(name)
    if form is None or len(fields) != len(form):
        raise NoForm
    values = tuple(read(field) for read, field in zip(form, fields))
    return number(position), name.decode("ascii"), values


# The two parts of the input


def read_rule(first_part):
    """The rule, or the refusal of the first part as a script or as a rule."""
    script = read_script(first_part, needs_bits=False)
    return with_line(script, script.rule)


def read_input(text):
    """The rule and the calls."""
    *lines, unfinished = text.split(b"\n")
    if b"calls" not in lines:
        raise Malformed(len(lines) + 1)
    at = lines.index(b"calls")
    rule = read_rule(b"".join(line + b"\n" for line in lines[:at]))
    calls = []
    for line in range(at + 1, len(lines)):
        try:
            calls.append(parse(lines[line]))
        except NoForm:
            raise Malformed(line + 1) from None
    if unfinished:
        raise Malformed(len(lines) + 1)
    return rule, calls


# Calls and their answers


def or_dash(value):
    return "-" if value is None else str(value)


def standing_text(standing):
    if standing is None:
        return "standing -"
    value, shut, detected, omissions = standing
    numbers = ",".join(map(str, members(detected))) or "-"
    return f"standing {value} {shut} {numbers} {omissions}"


TEXTS = {
    "start": lambda _: "started",
    "speak": lambda word: f"spoke {or_dash(word)}",
    "hear": lambda _: "heard",
    "shut": lambda _: "shut",
    "verdict": lambda value: f"verdict {or_dash(value)}",
    "standing": standing_text,
}


def perform(crew, position, name, values):
    """Make one call; the line that is printed for it, without its line feed."""
    if not 1 <= position <= len(crew):
        return "absent"
    try:
        answer = getattr(crew[position - 1], name)(*values)
    except Refused as refusal:
        return f"refused {refusal.number} {refusal.layer()} {refusal.place}"
    return TEXTS[name](answer)


def resting_crew(rule):
    """One process for each seat; they share the rule, which no call changes."""
    return [Process(rule) for _ in range(rule.n)]


def answers(text: bytes) -> bytes:
    """Exactly the bytes that the program prints for an input."""
    try:
        rule, calls = read_input(text)
    except (Refused, Malformed) as refusal:
        return refusal.text().encode("ascii")
    crew = resting_crew(rule)
    return "".join(perform(crew, *call) + "\n" for call in calls).encode("ascii")


if __name__ == "__main__":
    sys.exit(answer_standard_input("calls.py", answers))
