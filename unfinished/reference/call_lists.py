#!/usr/bin/env python3
"""Random inputs for the program that performs lists of calls.

`lists(seed, count)` yields inputs as bytes, the same ones for the same seed.
An input has a rule, made as in scripts.py, and calls, which are made while
they are performed on processes of agree.py, so that they can go on sensibly.

`call_lists.py SEED COUNT` prints how many of the inputs get each kind of
answer as a whole, and how many of the calls get each kind of answer.
"""

import random
import sys
from collections import Counter

import calls
import scripts
from agree import DECIDED, DUE, LISTENING, RESTING, is_third, king, rounds
from calls import MOST_BYTE, answers, perform, resting_crew

MOST_LINES = 1500


# The first part


def rule_size(rng):
    """Mostly so few processes that all rounds can be gone through."""
    return rng.choices([1, 2, 3, 4, rng.randint(5, 7), rng.randint(8, 16)],
                       weights=[2, 6, 6, 6, 3, 2])[0]


def small_rule(rng, least=1):
    """A draft with a good rule and nothing else."""
    n = max(rule_size(rng), least)
    draft = scripts.good_rule(rng, least=n, most=n)
    if n > 1 and rng.random() < 0.3:
        draft.counts, draft.pairs = [], scripts.nearly_covering_pairs(rng, n)
    return draft


def rule_lines(rng, draft):
    """The lines of the rule, seldom with other lines of a script among them."""
    others = scripts.written_rule(rng, draft)
    if rng.random() < 0.15:
        scripts.put_run(rng, draft)
        room = rng.choice([0, 50, 500])
        others += scripts.written_run(rng, draft) + scripts.written_tells(rng, draft, room)
        others = [line for line in others if rng.random() < 0.9 or line.startswith(b"pair")]
        rng.shuffle(others)
        if not any(line.startswith((b"pair", b"count")) for line in others):
            others.append(b"count 0 0")
    return [b"seats " + scripts.written_number(rng, draft.n)] + others


# Calls


class List:
    """The calls so far, each made on the crew as soon as it is put down."""

    def __init__(self, rng, draft):
        self.rng = rng
        self.draft = draft
        self.n = draft.n
        self.first_part = rule_lines(rng, draft)
        rule = calls.read_rule(joined(self.first_part))
        self.crew = resting_crew(rule)
        self.lines = []
        self.spoken = {}  # the words, or None, by position and round

    def call(self, position, name, *values):
        """Put down one call and make it."""
        numbers = [scripts.written_number(self.rng, value) for value in values]
        at = scripts.written_number(self.rng, position)
        self.lines.append(b" ".join([at, name.encode(), *numbers]))
        answer = perform(self.crew, position, name, values)
        if answer.startswith("spoke"):
            word = None if answer == "spoke -" else int(answer[-1])
            self.spoken[position, self.crew[position - 1].round] = word

    def ask(self, position, chance):
        """Now and then the questions that are never refused."""
        if self.rng.random() < chance:
            self.call(position, "standing")
        if self.rng.random() < chance / 4:
            self.call(position, "verdict")

    def text(self):
        return joined(self.first_part + [b"calls"] + self.lines)


def joined(lines):
    return b"".join(line + b"\n" for line in lines)


def any_byte(rng):
    return rng.choice([rng.randint(0, 3), rng.randint(0, MOST_BYTE), MOST_BYTE])


def any_position(rng, n):
    return rng.choice([rng.randint(1, n)] * 12 + [0, n + 1, rng.randint(0, 999)])


def any_number(rng, n):
    """A process number, sometimes just outside or far outside of the crew."""
    return rng.choice([rng.randint(1, n)] * 6 + [0, n + 1, any_byte(rng)])


def any_round(rng, n, j):
    """Mostly the round j, sometimes one beside it or far from it."""
    return rng.choice([j] * 6 + [j - 1 if j else 0, j + 1, rng.randint(0, rounds(n) + 1),
                                 rng.choice([0, 256 + j, 999])])


def any_call(rng, made):
    """Any call with any values, as often right as wrong."""
    n = made.n
    position = any_position(rng, n)
    j = made.crew[position - 1].round if 1 <= position <= n else 1
    name = rng.choice(["start", "speak", "hear", "hear", "hear", "shut", "verdict", "standing"])
    values = {
        "start": (any_number(rng, n), rng.choice([0, 1, 0, 1, 2, any_byte(rng)])),
        "hear": (any_number(rng, n), any_round(rng, n, j) % 1000, any_byte(rng)),
    }
    made.call(position, name, *values.get(name, ()))


def wrong_hear(rng, made, position):
    """A hearing with one thing wrong, or with nothing wrong, of a listening process."""
    process = made.crew[position - 1]
    n, j = made.n, process.round
    others = [r for r in range(1, n + 1) if r != process.number] or [1]
    number = king(n, j) if is_third(j) else rng.choice(others)
    heard = [r for r in others if process.heard() >> (r - 1) & 1]
    wrong = rng.choice(["number", "own", "round", "again", "again", "nothing"])
    if is_third(j) and rng.random() < 0.5:
        wrong = "king"
    if wrong == "number":
        number = rng.choice([0, n + 1, 17, 255])
    elif wrong == "own":
        number = process.number
    elif wrong == "round":
        j = rng.choice([j - 1, j + 1, 0, 999, j + 256])
    elif wrong == "king":
        number = rng.choice(others)
    elif wrong == "again" and heard:
        number = rng.choice(heard)
    made.call(position, "hear", number, j, any_byte(rng))


def wrong_stage(rng, made, position):
    """A call that the stage of the process forbids, with values that fit or not."""
    stage = made.crew[position - 1].stage
    needs = {"start": RESTING, "speak": DUE, "hear": LISTENING, "shut": LISTENING}
    name = rng.choice([name for name, needed in needs.items() if needed != stage])
    j = made.crew[position - 1].round
    values = {
        "start": (any_number(rng, made.n), any_byte(rng)),
        "hear": (any_number(rng, made.n), rng.choice([j, j, j + 1]), any_byte(rng)),
    }
    made.call(position, name, *values.get(name, ()))


def wrong_start(rng, made, position):
    """A start with a wrong number or a wrong bit, or with both."""
    number = rng.choice([0, made.n + 1, 255] + [rng.randint(1, made.n)] * 5)
    made.call(position, "start", number, rng.choice([0, 1, 2, 2, 3, 255]))


def extra_call(rng, made):
    """A call beside those that the crew needs; most of them are refused."""
    position = rng.randint(1, made.n)
    stage = made.crew[position - 1].stage
    if rng.random() < 0.15:
        any_call(rng, made)
    elif stage == LISTENING and rng.random() < 0.7:
        wrong_hear(rng, made, position)
    elif stage == RESTING and rng.random() < 0.6:
        wrong_start(rng, made, position)
    else:
        wrong_stage(rng, made, position)


# Whole crews


class Schedule:
    """Who lies, and who falls silent when."""

    def __init__(self, rng, made):
        draft = made.draft
        pair = scripts.held_faults(rng, draft) if rng.random() < 0.8 else (set(), set())
        if rng.random() < 0.1:
            pair = scripts.split(rng, range(1, made.n + 1))
        scripts.put_faults(rng, draft, pair if rounds(made.n) else (set(), set()))
        self.bits = scripts.start_bits(rng, made.n)
        self.false = draft.false
        self.until = {s: draft.last.get(s, rounds(made.n) + 1) for s in range(1, made.n + 1)}
        self.styles = {r: scripts.any_style(rng, made.n) for r in sorted(draft.false)}
        self.spoken = made.spoken
        self.loss = rng.random()

    def word_of_liar(self, rng, r, j, p):
        """A byte, or None: mostly what a style of scripts.py says."""
        if rng.random() < 0.03:
            return any_byte(rng)
        word = self.styles[r](j, p)
        return None if word in (None, "-") else int(word)

    def word(self, rng, r, j, p):
        """What p hears from r in round j: a word, None, or "wait" if r has not spoken yet."""
        if r in self.false:
            return self.word_of_liar(rng, r, j, p)
        if self.until[r] < j:
            return None
        if (r, j) not in self.spoken:
            return "wait"
        if self.until[r] == j and rng.random() < self.loss:
            return None
        return self.spoken[r, j]


def listen(rng, made, schedule, p):
    """Hear what is there to hear; whether there is nothing left to wait for."""
    process = made.crew[p - 1]
    j = process.round
    due = [king(made.n, j)] if is_third(j) else list(range(1, made.n + 1))
    rng.shuffle(due)
    words = {r: schedule.word(rng, r, j, p) for r in due if r != p}
    if "wait" in words.values():
        return False
    for r, word in words.items():
        if word is not None:
            made.call(p, "hear", r, j, word)
    return True


def advance(rng, made, schedule, p):
    """The next sensible calls of process p, if it can go on; whether it could."""
    process = made.crew[p - 1]
    j = process.round
    if process.stage == RESTING:
        made.call(p, "start", p, schedule.bits[p - 1])
    elif process.stage == DUE and schedule.until[p] >= j:
        made.call(p, "speak")
    elif process.stage == LISTENING and schedule.until[p] > j:
        if not listen(rng, made, schedule, p):
            return False
        made.call(p, "shut")
    else:
        return False
    return True


def crew_list(rng):
    """A whole crew to the end, no process waiting for more than it needs."""
    made = List(rng, small_rule(rng))
    schedule = Schedule(rng, made)
    correct = [p for p in range(1, made.n + 1) if p not in schedule.false]
    chance = rng.choice([0, 0.02, 0.1, 0.3])
    asking = rng.choice([0.02, 0.1, 0.5])
    most = rng.choice([MOST_LINES] * 20 + [50000])
    idle = 0
    while idle < 20 * made.n and len(made.lines) < most and correct:
        p = rng.choice(correct)
        idle = 0 if advance(rng, made, schedule, p) else idle + 1
        made.ask(p, asking / 2)
        if rng.random() < chance:
            extra_call(rng, made)
    for p in range(1, made.n + 1):
        made.call(p, "verdict")
        made.call(p, "standing")
    return made.text()


# One process, or a few, with words that nobody said


def round_words(rng):
    """How likely each kind of word is in one round."""
    return rng.choice([(8, 1, 0, 0), (1, 8, 0, 0), (1, 1, 0, 0), (1, 1, 1, 0), (1, 1, 4, 0),
                       (4, 4, 1, 1), (0, 1, 1, 0), (1, 0, 1, 0), (1, 0, 0, 0), (0, 1, 0, 0)])


def solo_round(rng, made, p, missing):
    """One round of a process that is due: speak, hear some words, shut."""
    process = made.crew[p - 1]
    made.call(p, "speak")
    n, j = made.n, process.round
    due = [king(n, j)] if is_third(j) else list(range(1, n + 1))
    weights = round_words(rng)
    if is_third(j):
        weights = (2, 2, 2, 1)
    rng.shuffle(due)
    for r in due:
        if r != process.number and rng.random() >= missing:
            word = rng.choices([0, 1, 2, rng.choice([3, 4, 128, 254, 255])], weights=weights)[0]
            made.call(p, "hear", r, j, word)
    if rng.random() < 0.1:
        wrong_hear(rng, made, p)
    made.call(p, "shut")
    made.ask(p, 0.7)


def solo_list(rng):
    """Some processes, each under any number, which hear words that nobody said."""
    made = List(rng, small_rule(rng, least=rng.choice([1, 2, 3, 4, 4, 8])))
    missing = rng.choice([0, 0, 0.02, 0.1, 0.4])
    chance = rng.choice([0, 0.05, 0.2])
    most_lines = rng.choice([MOST_LINES] * 9 + [4000])
    for p in rng.sample(range(1, made.n + 1), min(made.n, rng.choice([1, 1, 2, 3]))):
        if rng.random() < 0.2:
            wrong_start(rng, made, p)
        number = rng.choice([p, rng.randint(1, made.n)])
        made.call(p, "start", number, rng.randint(0, 1))
        most = rng.choice([rounds(made.n), rng.randint(0, rounds(made.n)), 12])
        while made.crew[p - 1].stage == DUE and made.crew[p - 1].round <= most:
            if len(made.lines) > most_lines:
                break
            solo_round(rng, made, p, missing)
            if rng.random() < chance:
                wrong_stage(rng, made, p)
        made.call(p, "verdict")
        made.call(p, "standing")
    return made.text()


# Calls in any order


def random_list(rng):
    """Any calls at all."""
    made = List(rng, small_rule(rng))
    for _ in range(rng.choice([5, 20, 60, 200])):
        any_call(rng, made)
    return made.text()


def likely_call(rng, made, p):
    """A call that is carried out, whatever it does to the rest of the crew."""
    process = made.crew[p - 1]
    n, j = made.n, process.round
    if process.stage == RESTING:
        made.call(p, "start", rng.choice([p, p, rng.randint(1, n)]), rng.randint(0, 1))
    elif process.stage == DUE:
        made.call(p, "speak")
    elif process.stage == LISTENING:
        due = [king(n, j)] if is_third(j) else range(1, n + 1)
        free = [r for r in due if r != process.number and not process.heard() >> (r - 1) & 1]
        if free and rng.random() < 0.85:
            word = rng.choice([0, 1, rng.randint(0, 1 if j % 3 == 1 else 2), any_byte(rng)])
            made.call(p, "hear", rng.choice(free), j, word)
        else:
            made.call(p, "shut")
    else:
        made.call(p, rng.choice(["verdict", "standing"]))


def mixed_list(rng):
    """Calls that are carried out, on any process at any time, and others between them."""
    made = List(rng, small_rule(rng))
    chance = rng.choice([0.05, 0.2, 0.5])
    for _ in range(rng.choice([10, 50, 150, 400])):
        p = rng.randint(1, made.n)
        if rng.random() < chance:
            extra_call(rng, made)
        else:
            likely_call(rng, made, p)
        made.ask(p, 0.1)
    return made.text()


def short_list(rng):
    """A few calls, or none."""
    made = List(rng, small_rule(rng))
    for _ in range(rng.randint(0, 5)):
        rng.choice([any_call, extra_call, extra_call])(rng, made)
        likely_call(rng, made, rng.randint(1, made.n))
    if rng.random() < 0.2:
        made.lines = []
    return made.text()


def absent_list(rng):
    """Every call on positions at the limits of the crew."""
    made = List(rng, small_rule(rng))
    for _ in range(rng.randint(1, 12)):
        position = rng.choice([0, made.n + 1, made.n, 1, 16, 17, 255, 256, 257, 999])
        name = rng.choice(list(calls.FORMS)).decode()
        values = {"start": (position % 256, 0), "hear": (1, 1, 0)}
        made.call(position, name, *values.get(name, ()))
    return made.text()


# Malformed inputs


BAD_VALUES = [
    [b"256", b"257", b"999", b"300"],
    [b"1000", b"0001", b"12345", b"0000"],
    [b"-1", b"+1", b"-", b"-0"],
    [b"", b"x", b"1a", b"1,2", b"1.0", b"1\x00", b"1:", b"/1", b"\xb1"],
]
BAD_CALLS = [b"", b" ", b"1", b"1 ", b"speak", b" speak", b"speak 1", b"1 Speak", b"1 SPEAK",
             b"1 speaks", b"1 spea", b"1 speak 1", b"1 shut 1", b"1 start 1", b"1 start 1 0 0",
             b"1 start", b"1 hear", b"1 hear 2 1", b"1 hear 2 1 0 0", b"1 hear 2 1 -",
             b"1 verdict 1", b"1 standing 1", b"1 stand", b"1 say", b"calls", b"calls", b"call",
             b"seats 2", b"pair - 2", b"count 1 0", b"bits 01", b"false 1", b"last 1 1",
             b"tell 1 1 2 0", b"# a remark", b"\x00", b"1 speak\x00", b"1\tspeak", b"1 speak\r",
             b"1  speak", b" 1 speak", b"1 speak ", b"1000 speak", b"-1 speak", b"x speak",
             b"1 start 256 0", b"1 start 1 256", b"1 hear 256 1 0", b"1 hear 2 1000 0",
             b"1 hear 2 1 256", b"1,2 speak", b"1 speak, 2 speak", b"1 absent", b"started"]
# The last three are calls of good form.
BAD_CALLS += [b"999 speak", b"1 hear 255 999 255", b"1 start 000 255"]


def bad_value(rng, line):
    fields = line.split(b" ")
    ats = [0] + list(range(2, len(fields)))
    fields[rng.choice(ats)] = rng.choice(rng.choice(BAD_VALUES))
    return b" ".join(fields)


def bad_call(rng, line):
    """The line spoilt in one way."""
    way = rng.choice([bad_value, bad_value, scripts.bad_blank, scripts.bad_fields, None])
    return way(rng, line) if way else rng.choice(BAD_CALLS)


def some_list(rng):
    return rng.choice([short_list, short_list, random_list, mixed_list])(rng)


def malformed_list(rng):
    """A bad line or two in the second part."""
    lines = some_list(rng).split(b"\n")[:-1]
    first = lines.index(b"calls") + 1
    for _ in range(rng.choice([1, 1, 1, 2])):
        at = rng.randint(first, len(lines))
        if at == len(lines) or rng.random() < 0.4:
            lines.insert(at, rng.choice(BAD_CALLS))
        else:
            lines[at] = bad_call(rng, lines[at])
    return joined(lines)


def spoilt_list(rng):
    """The parts of the input in another way than they should be."""
    text = some_list(rng)
    first, _, second = text.partition(b"calls\n")
    return rng.choice([
        text[:-1],
        text + rng.choice([b"1", b"1 speak", b"calls", b" ", b"\r", b"\x00"]),
        text + b"calls\n",
        text + b"\n",
        text + text,
        first,
        first + second,
        first + b"calls",
        first + b"calls" + second,
        first[:-1] + b"calls\n" + second,
        first + b"calls\r\n" + second,
        first + b"calls \n" + second,
        first + b" calls\n" + second,
        first + b"Calls\n" + second,
        first + b"calls 1\ncalls\n" + second,
        first + b"calls\ncalls\n" + second,
        second + b"calls\n" + first,
        b"calls\n" + second,
        b"calls\n" + text,
        b"calls\n",
        b"calls",
        b"",
        b"\n" + text,
        text.replace(b"\n", b"\r\n"),
        text.replace(b" ", b"  "),
        text.upper(),
    ])


def damaged_list(rng):
    text = some_list(rng)
    for _ in range(rng.choice([1, 1, 1, 2])):
        text = scripts.damaged(rng, text)
    return text


# Refused rules


def few_calls(rng):
    good = [b"1 start 1 0", b"1 speak", b"1 standing", b"1 verdict", b"0 speak", b"2 hear 1 1 0"]
    lines = rng.choices(good, k=rng.randint(0, 4))
    if rng.random() < 0.1:
        lines.append(rng.choice(BAD_CALLS))
    return b"calls\n" + joined(lines)


def refused_rule_list(rng):
    """A first part with a defect of the rule or of a line, and calls."""
    draft = small_rule(rng)
    if rng.random() < 0.3:
        scripts.put_run(rng, draft)
        draft.tells = draft.tells[:3]
    defects = rng.sample(scripts.OF_RULE + scripts.OF_LINES, rng.choice([1, 1, 1, 2]))
    if rng.random() < 0.6:
        defects = [rng.choice(scripts.OF_RULE)]
    return scripts.finished(rng, draft, defects) + few_calls(rng)


def run_defect_list(rng):
    """A first part that a run would refuse, which makes no difference here."""
    draft = scripts.plain_draft(rng, least=1, most=5)
    return scripts.finished(rng, draft, [rng.choice(scripts.OF_RUN)]) + few_calls(rng)


def long_first_part_list(rng):
    """A first part at the limit of its length."""
    draft = small_rule(rng, least=2)
    length = rng.choice([8190, 8191, 8192, 8192, 8193, 8193, 8194, 9000])
    text = scripts.fill_up(rng, joined(rule_lines(rng, draft)), length)
    return text + rng.choice([few_calls(rng), b"\n" + few_calls(rng), b""])


def many_calls_list(rng):
    """A short first part, and more than 8,192 bytes of calls."""
    made = List(rng, small_rule(rng, least=2))
    size = 0
    while size < 8200:
        p = rng.randint(1, made.n)
        likely_call(rng, made, p)
        made.ask(p, 0.5)
        size += len(made.lines[-1])
    return made.text()


KINDS = {
    crew_list: 30,
    solo_list: 22,
    mixed_list: 14,
    random_list: 8,
    short_list: 8,
    absent_list: 2,
    malformed_list: 9,
    spoilt_list: 5,
    damaged_list: 5,
    refused_rule_list: 12,
    run_defect_list: 2,
    long_first_part_list: 4,
    many_calls_list: 1,
}


def lists(seed: int, count: int):
    """Yield `count` inputs, the same ones for the same seed."""
    rng = random.Random(seed)
    kinds, weights = list(KINDS), list(KINDS.values())
    for _ in range(count):
        yield rng.choices(kinds, weights=weights)[0](rng)


# How often each answer comes


def kind_of_line(line):
    """The answer to one call: its word, with the number or a value where it tells most."""
    word, *fields = line.split(" ")
    if word == "refused" or word in ("spoke", "verdict"):
        return f"{word} {fields[0]}"
    if word == "standing":
        return "standing" if len(fields) > 1 else "standing -"
    return word


def kind_of_whole(answer):
    """Whether the calls were performed, or why not."""
    lines = answer.decode().split("\n")[:-1]
    fields = lines[0].split(" ") if len(lines) == 1 else [""]
    if fields[0] == "malformed":
        return "malformed"
    if fields[0] == "refused" and len(fields) == 5:
        return f"refused {fields[1]}"
    return "performed" if lines else "performed, no call"


def main():
    if len(sys.argv) != 3:
        print("usage: call_lists.py SEED COUNT", file=sys.stderr)
        return 2
    seed, count = int(sys.argv[1]), int(sys.argv[2])
    wholes, lines, with_line = Counter(), Counter(), Counter()
    for text in lists(seed, count):
        answer = answers(text)
        whole = kind_of_whole(answer)
        wholes[whole] += 1
        if whole == "performed":
            kinds = [kind_of_line(line) for line in answer.decode().split("\n")[:-1]]
            lines.update(kinds)
            with_line.update(set(kinds))
    print("   inputs")
    for kind in sorted(wholes):
        print(f"{wholes[kind]:9} {kind}")
    print("    calls in inputs")
    for kind in sorted(lines):
        print(f"{lines[kind]:9} {with_line[kind]:9} {kind}")
    return 0


if __name__ == "__main__":
    sys.exit(main())
