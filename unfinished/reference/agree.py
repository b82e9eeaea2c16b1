#!/usr/bin/env python3
"""The script program, a second time.

This is an independent implementation, written from docs/RULES.md,
docs/PROTOCOL.md, docs/RUN.md and docs/SCRIPT.md alone, to compare the proved
program with.  It shares no code with that program and is not proved itself;
where the two differ, one of them or the documentation is wrong.

`report(script)` gives the bytes that the program prints for a script.  Run as
a script, it reads a script from standard input and prints the report.

A set of processes is a mask, in which process s is worth 2^(s-1).
"""

import sys
from functools import lru_cache

MOST_BYTES = 8192
MOST_PROCESSES = 16
MOST_PAIRS = 64
MOST_DIGITS = 3
DIGITS = b"0123456789"
LAYERS = [(7, "rule"), (13, "oar"), (17, "crew"), (20, "script")]


class Refused(Exception):
    """A refusal: its number, its place (three of them for 5), and a line."""

    def __init__(self, number, place=0, line=0):
        super().__init__(number, place, line)
        self.number = number
        self.place = place
        self.line = line

    def layer(self):
        return next(layer for greatest, layer in LAYERS if self.number <= greatest)

    def places(self):
        return ",".join(map(str, self.place)) if self.number == 5 else str(self.place)

    def text(self):
        return f"refused {self.number} {self.layer()} {self.places()} {self.line}\n"


class NoForm(Exception):
    """A line, or a field of it, that has none of the forms (refusal 18)."""


# Sets of processes


def mask(s):
    """The set that has process s alone."""
    return 1 << (s - 1)


def everybody(n):
    """The set of the processes 1 to n."""
    return (1 << n) - 1


def size(processes):
    return bin(processes).count("1")


def members(processes):
    """The numbers in the set, in rising order."""
    return [s + 1 for s in range(processes.bit_length()) if processes >> s & 1]


# The rules


class Rule:
    """What every kind of rule has: n, and answers that are kept once given."""

    def __init__(self, n):
        self.n = n
        self.known = {}

    def holds(self, byzantine, failing):
        pair = byzantine, failing
        held = self.known.get(pair)
        if held is None:
            held = self.known[pair] = self.answer(byzantine, failing)
        return held


class PairList(Rule):
    """Holds the pairs that are contained in a listed one; refusals 1 to 5."""

    def __init__(self, n, pairs):
        check_crew(n)
        check_pairs(n, pairs)
        check_no_cover(n, pairs)
        super().__init__(n)
        self.pairs = pairs

    def answer(self, byzantine, failing):
        return any(not byzantine & ~a and not failing & ~(a | f) for a, f in self.pairs)


class Threshold(Rule):
    """Holds the pairs with few enough processes; refusals 1, 6 and 7."""

    def __init__(self, n, t, b):
        check_crew(n)
        if b > t:
            raise Refused(6)
        if t + 2 * b >= n:
            raise Refused(7)
        super().__init__(n)
        self.t = t
        self.b = b

    def answer(self, byzantine, failing):
        faulty = byzantine | failing
        return not faulty >> self.n and size(byzantine) <= self.b and size(faulty) <= self.t


class Intersection(Rule):
    """Holds the pairs that both of its parts hold."""

    def __init__(self, first, second):
        super().__init__(first.n)
        self.first = first
        self.second = second

    def answer(self, byzantine, failing):
        return self.first.holds(byzantine, failing) and self.second.holds(byzantine, failing)


def check_crew(n):
    if not 1 <= n <= MOST_PROCESSES:
        raise Refused(1)


def check_pairs(n, pairs):
    """Refusal 2, then 3 and 4 pair by pair."""
    if not 1 <= len(pairs) <= MOST_PAIRS:
        raise Refused(2)
    for place, (byzantine, failing) in enumerate(pairs, start=1):
        if (byzantine | failing) >> n:
            raise Refused(3, place)
        if byzantine & failing:
            raise Refused(4, place)


def check_no_cover(n, pairs):
    """Refusal 5, at the first three places i <= j <= k in dictionary order."""
    crew = everybody(n)
    for i, (a1, f1) in enumerate(pairs):
        for j, (a2, f2) in enumerate(pairs[i:], start=i):
            missing, silent = crew & ~(a1 | a2), f1 & f2
            for k, (a3, f3) in enumerate(pairs[j:], start=j):
                if not missing & ~(a3 | silent & f3):
                    raise Refused(5, (i + 1, j + 1, k + 1))


# Rounds


@lru_cache(maxsize=None)
def rounds(n):
    """3 * n * m, where m is the least with n <= 2^m."""
    m = 0
    while n > 2**m:
        m += 1
    return 3 * n * m


def is_third(j):
    """Whether round j is the last of the three rounds of its phase."""
    return j % 3 == 0


def king(n, j):
    """The king of the phase that round j belongs to."""
    phase = (j + 2) // 3
    return (phase - 1) % n + 1


# One process

RESTING, DUE, LISTENING, DECIDED = "resting", "due", "listening", "decided"
NO_VALUE = 2
TOO_GREAT = 3  # the index for any word above 2


class Process:
    """The state machine of six calls.

    Its slots are four masks: who said 0, 1, 2, and any word above 2.
    """

    def __init__(self, rule):
        self.rule = rule
        self.total = rounds(rule.n)
        self.stage = RESTING
        self.number = 0
        self.value = 0
        self.detected = 0
        self.follows = False
        self.round = 1
        self.omissions = 0
        self.said = [0, 0, 0, 0]

    # The six calls

    def start(self, number, bit):
        self.need(RESTING)
        self.check_number(number)
        if bit not in (0, 1):
            raise Refused(10, number)
        self.number = number
        self.value = bit
        self.stage = DUE if self.total else DECIDED

    def speak(self):
        """The word that it says, or None for no word."""
        self.need(DUE)
        self.stage = LISTENING
        if is_third(self.round) and self.number != king(self.rule.n, self.round):
            return None
        self.said[self.value] |= mask(self.number)
        return self.value

    def hear(self, number, j, word):
        self.need(LISTENING)
        self.check_number(number)
        if number == self.number:
            raise Refused(9, number)
        if j != self.round:
            raise Refused(11, number)
        if is_third(j) and number != king(self.rule.n, j):
            raise Refused(12, number)
        if self.heard() & mask(number):
            raise Refused(13, number)
        self.said[min(word, TOO_GREAT)] |= mask(number)

    def shut(self):
        self.need(LISTENING)
        self.omissions += size(self.due_from() & ~self.heard())
        steps = {1: self.unify, 2: self.exchange, 0: self.obey}
        steps[self.round % 3]()
        self.round += 1
        self.said = [0, 0, 0, 0]
        self.stage = DECIDED if self.round > self.total else DUE

    def verdict(self):
        """The verdict, or None."""
        return self.value if self.stage == DECIDED else None

    def standing(self):
        """The value, the rounds shut, the detected set and the omissions, or None."""
        if self.stage == RESTING:
            return None
        return self.value, self.round - 1, self.detected, self.omissions

    # What the run uses instead of many calls

    def hear_all(self, said):
        """Hear many processes at once: the masks of those that said 0, 1 and 2.

        None of these words may be one that `hear` would refuse, except that
        the process itself may be among them with the word that it spoke.
        """
        for word in (0, 1, 2):
            self.said[word] |= said[word]

    # Tests of calls

    def need(self, stage):
        if self.stage != stage:
            raise Refused(8)

    def check_number(self, number):
        if not 1 <= number <= self.rule.n:
            raise Refused(9, number)

    # The slots

    def heard(self):
        """The processes whose slot is filled."""
        said = self.said
        return said[0] | said[1] | said[2] | said[TOO_GREAT]

    def due_from(self):
        """The processes from which a word is due in this round."""
        n = self.rule.n
        return mask(king(n, self.round)) if is_third(self.round) else everybody(n)

    # The steps of the three rounds

    def detect_others_than(self, good):
        """All processes join the detected ones, except those that are good."""
        self.detected |= everybody(self.rule.n) & ~good

    def holds(self, liars):
        """Whether the rule holds these, without the detected, with the detected failing."""
        return self.rule.holds(liars & ~self.detected, self.detected)

    def unify(self):
        said_0, said_1, _, _ = self.said
        self.detect_others_than(said_0 | said_1)
        if self.holds(said_1):
            self.value = 0
        elif self.holds(said_0):
            self.value = 1
        else:
            self.value = NO_VALUE

    def exchange(self):
        said_0, said_1, said_2, _ = self.said
        self.detect_others_than(said_0 | said_1 | said_2)
        if not self.holds(said_0):
            self.value = 0
        elif not self.holds(said_1):
            self.value = 1
        else:
            self.value = NO_VALUE
        self.follows = not self.holds(said_2)

    def obey(self):
        """The king's word is 0 where none came or it is above 2."""
        if self.follows:
            said_1_or_2 = self.said[1] | self.said[2]
            self.value = 1 if said_1_or_2 & mask(king(self.rule.n, self.round)) else 0


# The run of a whole crew


def check_run(rule, bits, byzantine, lasts, deliveries):
    """Refusals 14, 10, 15, 16 and 17."""
    n = rule.n
    if len(bits) != n or len(lasts) != n:
        raise Refused(14)
    for s, bit in enumerate(bits, start=1):
        if bit not in (0, 1):
            raise Refused(10, s)
    for s in range(1, MOST_PROCESSES + 1):
        check_faults(n, s, byzantine & mask(s), lasts[s - 1] if s <= n else 0)
    for place, delivery in enumerate(deliveries, start=1):
        if not is_delivery(n, *delivery):
            raise Refused(16, place)
    failing = sum(mask(s) for s, last in enumerate(lasts, start=1) if last)
    if not rule.holds(byzantine, failing):
        raise Refused(17)


def check_faults(n, s, is_byzantine, last):
    """Refusal 15 for process s."""
    if last > rounds(n) or (is_byzantine and (s > n or last)):
        raise Refused(15, s)


def is_delivery(n, j, sender, receiver, word):
    in_crew = 1 <= sender <= n and 1 <= receiver <= n
    return 1 <= j <= rounds(n) and in_crew and word in (0, 1, 2, None)


def first_deliveries(deliveries):
    """For each round, the word of the first delivery from a process to a process."""
    told = {}
    for j, sender, receiver, word in deliveries:
        told.setdefault(j, {}).setdefault((sender, receiver), word)
    return told


class Crew:
    """The processes outside A, with the round until which each works."""

    def __init__(self, rule, bits, byzantine, lasts):
        self.n = rule.n
        self.byzantine = members(byzantine)
        self.lasts = lasts
        self.processes = {}
        self.until = {}
        for s in members(everybody(self.n) & ~byzantine):
            self.processes[s] = Process(rule)
            self.processes[s].start(s, bits[s - 1])
            self.until[s] = lasts[s - 1] or rounds(self.n) + 1

    def play(self, j, told):
        """Round j; told has the words of the first deliveries of this round."""
        said = [0, 0, 0]
        leaving = []  # those that speak in their last round, with their words
        for s, process in self.processes.items():
            if self.until[s] >= j:
                word = process.speak()
                if word is not None and self.until[s] > j:
                    said[word] |= mask(s)
                elif word is not None:
                    leaving.append((s, word))
        liars = [r for r in self.byzantine if not is_third(j) or r == king(self.n, j)]
        for p, process in self.processes.items():
            if self.until[p] > j:
                process.hear_all(said)
                for r, word in leaving:
                    if (r, p) not in told:
                        process.hear(r, j, word)
                self.hear_liars(p, j, liars, told)
                process.shut()

    def hear_liars(self, p, j, liars, told):
        """Process p hears what the Byzantine processes tell it in round j."""
        for r in liars:
            word = told.get((r, p))
            if word is not None:
                self.processes[p].hear(r, j, word)

    def result(self, s):
        """What comes of process s, as the report tells it."""
        if s not in self.processes:
            return ("false",)
        if self.lasts[s - 1]:
            return "down", self.lasts[s - 1]
        process = self.processes[s]
        return "verdict", process.verdict(), "silent", process.omissions


def run(rule, bits, byzantine, lasts, deliveries):
    """The results of the processes 1 to n.

    A delivery is (round, sender, receiver, word), with None for no word.
    """
    check_run(rule, bits, byzantine, lasts, deliveries)
    crew = Crew(rule, bits, byzantine, lasts)
    told = first_deliveries(deliveries)
    for j in range(1, rounds(rule.n) + 1):
        crew.play(j, told.get(j, {}))
    return [crew.result(s) for s in range(1, rule.n + 1)]


# The forms of numbers, sets and lines


def number(field):
    """One to three decimal digits."""
    if len(field) > MOST_DIGITS:
        raise NoForm
    return int(digits(field))


def digits(field):
    """Decimal digits, at least one."""
    if not field or any(c not in DIGITS for c in field):
        raise NoForm
    return field


def process_number(field):
    """A process number, which is from 1 to 16 whatever the crew is."""
    s = number(field)
    if not 1 <= s <= MOST_PROCESSES:
        raise NoForm
    return s


def process_set(field):
    """Process numbers joined by commas, or a dash for the empty set."""
    if field == b"-":
        return 0
    processes = 0
    for element in field.split(b","):
        processes |= mask(process_number(element))
    return processes


def start_bits(field):
    return [int(c) for c in digits(field).decode("ascii")]


def last_round(field):
    j = number(field)
    if j == 0:
        raise NoForm
    return j


def told_word(field):
    words = {b"0": 0, b"1": 1, b"2": 2, b"-": None}
    if field not in words:
        raise NoForm
    return words[field]


FORMS = {
    b"seats": (number,),
    b"pair": (process_set, process_set),
    b"count": (number, number),
    b"bits": (start_bits,),
    b"false": (process_number,),
    b"last": (process_number, last_round),
    b"tell": (number, process_number, process_number, told_word),
}


def parse(line, seats):
    """The word and the values of a line that is given without its line feed.

    seats is the number of processes, or None before the line `seats`.
    """
    word, *fields = line.split(b" ")
    form = FORMS.get(word)
    if form is None or len(fields) != len(form):
        raise NoForm
    values = tuple(read(field) for read, field in zip(form, fields))
    if word == b"last" and seats is not None and values[0] > seats:
        raise NoForm
    return word, values


# The script: its length, its lines one by one, and what is missing


class Script:
    """What the lines say, and the numbers of the lines.

    lines has the number of a line under its word, for the lines that stand
    once, and under (word, place) or (word, process) for the others.
    """

    def __init__(self):
        self.seats = None
        self.pairs = []
        self.count = None
        self.bits = None
        self.byzantine = 0
        self.lasts = {}
        self.deliveries = []
        self.lines = {}

    def add(self, line, word, values):
        """Take in one line of good form; refusal 19 if it may not stand here."""
        first = line == 1
        key = self.key(word, values)
        if first != (word == b"seats") or key in self.lines:
            raise Refused(19, line=line)
        self.lines[key] = line
        self.take(word, values)

    def key(self, word, values):
        if word == b"pair":
            return word, len(self.pairs) + 1
        if word == b"tell":
            return word, len(self.deliveries) + 1
        if word in (b"false", b"last"):
            return word, values[0]
        return word

    def take(self, word, values):
        if word == b"seats":
            (self.seats,) = values
        elif word == b"pair":
            self.pairs.append(values)
        elif word == b"count":
            self.count = values
        elif word == b"bits":
            (self.bits,) = values
        elif word == b"false":
            self.byzantine |= mask(values[0])
        elif word == b"last":
            self.lasts[values[0]] = values[1]
        else:
            self.deliveries.append(values)

    def check_nothing_missing(self, needs_bits):
        no_rule = not self.pairs and self.count is None
        if self.seats is None or no_rule or (needs_bits and self.bits is None):
            raise Refused(19)

    def line_of(self, number, place):
        """The line that a refusal of the rule or of the run names, or 0."""
        if number == 1:
            return self.lines[b"seats"]
        if number in (3, 4):
            return self.lines[b"pair", place]
        if number in (6, 7):
            return self.lines[b"count"]
        if number in (10, 14):
            return self.lines[b"bits"]
        if number == 15:
            return self.lines.get((b"last", place)) or self.lines[b"false", place]
        if number == 16:
            return self.lines[b"tell", place]
        return 0

    def rule(self):
        """The pair list, or the threshold, or the intersection of the two."""
        parts = []
        if self.pairs:
            parts.append(PairList(self.seats, self.pairs))
        if self.count is not None:
            parts.append(Threshold(self.seats, *self.count))
        return parts[0] if len(parts) == 1 else Intersection(*parts)

    def results(self):
        rule = self.rule()
        lasts = [self.lasts.get(s, 0) for s in range(1, rule.n + 1)]
        return run(rule, self.bits, self.byzantine, lasts, self.deliveries)


def read_script(text, needs_bits=True):
    """The script that the bytes say, or refusal 20, 18 or 19."""
    if len(text) > MOST_BYTES:
        raise Refused(20)
    *lines, unfinished = text.split(b"\n")
    script = Script()
    for at, line in enumerate(lines, start=1):
        try:
            word, values = parse(line, script.seats)
        except NoForm:
            raise Refused(18, line=at) from None
        script.add(at, word, values)
    if unfinished:
        raise Refused(18, line=len(lines) + 1)
    script.check_nothing_missing(needs_bits)
    return script


def with_line(script, ask):
    """What ask() gives; a refusal of the rule or of the run gets its line."""
    try:
        return ask()
    except Refused as refusal:
        refusal.line = script.line_of(refusal.number, refusal.place)
        raise


# The report


def accepted_text(n, results):
    lines = [f"seats {n} rounds {rounds(n)}"]
    for s, result in enumerate(results, start=1):
        lines.append(" ".join(map(str, ("seat", s, *result))))
    shown = [result[3] for result in results if result[0] == "verdict"]
    lines.append(f"silent {sum(shown)}")
    return "".join(line + "\n" for line in lines)


def report(script: bytes) -> bytes:
    """Exactly the bytes that the program prints for a script."""
    try:
        read = read_script(script)
        results = with_line(read, read.results)
    except Refused as refusal:
        return refusal.text().encode("ascii")
    return accepted_text(read.seats, results).encode("ascii")


def answer_standard_input(name, answer, most_bytes=-1):
    """Print the answer to standard input; the status with which the program ends."""
    try:
        with open(0, "rb", closefd=False) as standard_input:
            printed = answer(standard_input.read(most_bytes))
        with open(1, "wb", closefd=False) as standard_output:
            standard_output.write(printed)
    except (OSError, MemoryError) as error:
        print(f"{name}: {error}", file=sys.stderr)
        return 1
    return 0


if __name__ == "__main__":
    sys.exit(answer_standard_input("agree.py", report, MOST_BYTES + 1))
