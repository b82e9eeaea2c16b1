#!/usr/bin/env python3
"""Random rule sheets, good and bad, to compare two implementations on.

`sheets(seed, count)` yields sheets as bytes, the same ones for the same seed.
A sheet starts as a draft (a crew, pairs and counts that make a good rule), is
written as lines, and is joined to bytes.  A defect spoils it at one of these
three levels.  Most sheets get no defect or one; some get two, so that the
order of the tests shows.

`sheets.py SEED COUNT` prints how many of the sheets get each kind of answer.
"""

import random
import sys
from collections import Counter
from itertools import combinations_with_replacement

import agree

MOST_BYTES = 8192
MOST_PROCESSES = 16
MOST_PAIRS = 64


class Draft:
    """A sheet before it is written: n, the pairs (A, F) and the counts (t, b)."""

    def __init__(self, n, pairs, counts):
        self.n = n
        self.pairs = pairs
        self.counts = counts


# Good drafts


def crew_size(rng, least=1, most=MOST_PROCESSES):
    edge = rng.choice([least, least + 1, most - 1, most])
    small = rng.randint(least, min(least + 5, most))
    return rng.choice([edge, small, rng.randint(least, most)])


def list_length(rng):
    """How many pairs a list gets: mostly few, often just at the limit."""
    few = rng.randint(1, 8)
    many = rng.choice([MOST_PAIRS - 1, MOST_PAIRS, rng.randint(9, MOST_PAIRS)])
    return rng.choices([1, few, many], weights=[2, 8, 1])[0]


def good_counts(rng, n):
    """Counts with b <= t and t + 2b < n, often just below n."""
    b = rng.randint(0, (n - 1) // 3)
    most = n - 1 - 2 * b
    return rng.choice([most, rng.randint(b, most)]), b


def split(rng, processes, weights=(1, 1, 1)):
    """A pair: each of the processes is Byzantine, failing or neither."""
    pair = set(), set(), set()
    for s in sorted(processes):
        rng.choices(pair, weights=weights)[0].add(s)
    return pair[0], pair[1]


def bounded_pair(rng, n, t, b):
    """A pair that the threshold (t, b) holds."""
    faulty = rng.sample(range(1, n + 1), rng.randint(0, t))
    byzantine = rng.randint(0, min(b, len(faulty)))
    return set(faulty[:byzantine]), set(faulty[byzantine:])


def bounded_pairs(rng, n, length):
    """No cover, since a threshold holds all of the pairs."""
    t, b = good_counts(rng, n)
    return [bounded_pair(rng, n, t, b) for _ in range(length)]


def sparing_pairs(rng, n, length):
    """No cover, since one process is in no set at all: many near-covers."""
    others = set(range(1, n + 1)) - {rng.randint(1, n)}
    weights = rng.choice([(1, 1, 1), (4, 4, 1), (1, 4, 1), (1, 1, 4)])
    return [split(rng, others, weights) for _ in range(length)]


def alternating_pairs(rng, n, length):
    """No cover, since two processes never lie and never fall silent together."""
    if n < 2:
        return [(set(), set()) for _ in range(length)]
    p, q = rng.sample(range(1, n + 1), 2)
    pairs = [split(rng, set(range(1, n + 1)) - {p, q}, (2, 2, 1)) for _ in range(length)]
    for _, failing in pairs[1:]:
        failing.add(rng.choice([p, q]))
    pairs[0][1].add(p)
    pairs[-1][1].discard(p)
    pairs[-1][1].add(q)
    return pairs


def good_pairs(rng, n):
    make = rng.choice([bounded_pairs, sparing_pairs, alternating_pairs])
    return make(rng, n, list_length(rng))


def good_draft(rng, least=1, most=MOST_PROCESSES, kinds=("pairs", "counts", "both")):
    n = crew_size(rng, least, most)
    kind = rng.choice(kinds)
    pairs = [] if kind == "counts" else good_pairs(rng, n)
    counts = [] if kind == "pairs" else [good_counts(rng, n)]
    return Draft(n, pairs, counts)


# Covers


def covering_triple(rng, n):
    """Three pairs that cover n processes, with little to spare."""
    triple = [(set(), set()) for _ in range(3)]
    for s in range(1, n + 1):
        liar = rng.randint(0, 3)
        for at, (byzantine, failing) in enumerate(triple):
            if at == liar:
                byzantine.add(s)
            elif liar == 3 or rng.random() < 0.3:
                failing.add(s)
    return triple


def copy_pair(pair):
    return set(pair[0]), set(pair[1])


def weakened(rng, pair):
    """The pair without one of its processes, or with one that fails, not lies."""
    byzantine, failing = copy_pair(pair)
    if byzantine or failing:
        s = rng.choice(sorted(byzantine | failing))
        if s in byzantine and rng.random() < 0.5:
            failing.add(s)
        else:
            failing.discard(s)
        byzantine.discard(s)
    return byzantine, failing


def is_cover(n, triple):
    (a1, f1), (a2, f2), (a3, f3) = triple
    return a1 | a2 | a3 | (f1 & f2 & f3) >= set(range(1, n + 1))


def break_covers(rng, n, pairs):
    """Take one process out of each covering triple, which then just fails to cover."""
    for triple in combinations_with_replacement(pairs, 3):
        if is_cover(n, triple):
            s = rng.randint(1, n)
            rng.choice(triple)[1].discard(s)
            for byzantine, _ in triple:
                byzantine.discard(s)


def around_covers(rng, n):
    """Pairs that nearly cover n processes, and a covering triple of its own."""
    triple = covering_triple(rng, n)
    if rng.random() < 0.15:
        triple = [split(rng, range(1, n + 1), (1, 1, 0))]
    pairs = [weakened(rng, rng.choice(triple)) for _ in range(rng.randint(0, 6))]
    pairs += [split(rng, range(1, n + 1), (1, 2, 3)) for _ in range(rng.randint(0, 3))]
    return pairs, triple


def covering_pairs(rng, n):
    """A list with a covering triple at least, mostly among pairs that nearly do."""
    pairs, triple = around_covers(rng, n)
    if rng.random() < 0.5:
        break_covers(rng, n, pairs)
    pairs += triple
    if rng.random() < 0.3:
        pairs += covering_triple(rng, n)
    if rng.random() < 0.08:
        pairs += sparing_pairs(rng, n, MOST_PAIRS - len(pairs))
    rng.shuffle(pairs)
    return pairs


def nearly_covering_pairs(rng, n):
    """A list in which triples cover all but a process."""
    pairs, triple = around_covers(rng, n)
    pairs += triple
    rng.shuffle(pairs)
    break_covers(rng, n, pairs)
    return pairs


def cover_draft(rng, make):
    draft = good_draft(rng, kinds=("pairs", "both"))
    draft.pairs = make(rng, draft.n)
    return draft


# Defects of a draft: refusals 1 to 7


def wrong_crew(rng, draft):
    far = [18, 31, 32, 33, 64, 99, 100, 255, 256, 257, 272, 512, 999]
    draft.n = rng.choice([0, 17, rng.choice(far)])


def too_many_pairs(rng, draft):
    """65 pairs or more, with sets short enough for the sheet."""
    length = rng.choice([65, 65, 65, 66, rng.randint(67, 150), rng.choice([256, 257, 320, 512])])
    short = [(set(), set()), (set(), {1})]
    if length < 150:
        short.append((set(), set(range(1, draft.n))))
    while len(draft.pairs) < length:
        draft.pairs.insert(rng.randint(0, len(draft.pairs)), copy_pair(rng.choice(short)))


def some_pair(rng, draft):
    """A pair to spoil; where there is none, one is put in."""
    if not draft.pairs:
        draft.pairs = [split(rng, range(1, draft.n + 1), (1, 1, 4))]
    return rng.choice(draft.pairs)


def process_above(rng, draft):
    draft.n = min(draft.n, MOST_PROCESSES - 1)
    above = rng.choice([draft.n + 1, MOST_PROCESSES, rng.randint(draft.n + 1, MOST_PROCESSES)])
    rng.choice(some_pair(rng, draft)).add(above)


def process_in_both(rng, draft):
    byzantine, failing = some_pair(rng, draft)
    s = rng.choice(sorted(byzantine | failing) or [rng.randint(1, draft.n)])
    byzantine.add(s)
    failing.add(s)


def cover(rng, draft):
    draft.pairs = covering_pairs(rng, draft.n)


def byzantine_above(rng, draft):
    """b above t, where the crew allows it with t + 2b still below n."""
    most = (draft.n - 1) // 2
    b = rng.randint(1, max(most, 1))
    t = rng.randint(0, max(0, min(b - 1, draft.n - 1 - 2 * b)))
    draft.counts = [rng.choice([(t, b), (t, b), (b - 1, b), (0, 999), (998, 999)])]


def too_many_faulty(rng, draft):
    """b <= t, and t + 2b is n or more, often just n."""
    b = rng.randint(0, draft.n // 3)
    t = max(b, draft.n - 2 * b)
    more = rng.choice([0, 0, 0, 1, 2, rng.randint(3, 40)])
    draft.counts = [rng.choice([(t + more, b)] * 9 + [(999, 999), (999, 0), (256, 0), (128, 64)])]


# Writing


def written_number(rng, value):
    """Mostly without leading zeros, which may fill it up to three digits."""
    return str(value).zfill(rng.choice([1] * 8 + [2, 3])).encode()


def written_set(rng, processes, plain=False):
    """In any order, with some elements more than once; plain is the shortest."""
    if not processes:
        return b"-"
    elements = sorted(processes)
    if plain:
        return b",".join(b"%d" % s for s in elements)
    if rng.random() < 0.5:
        rng.shuffle(elements)
    if rng.random() < 0.2:
        elements += rng.choices(elements, k=rng.randint(1, 3))
    return b",".join(written_number(rng, s) for s in elements)


def written(rng, draft):
    """The lines, without line feeds; the counts stand anywhere below the first."""
    plain = len(draft.pairs) > 40
    lines = []
    for byzantine, failing in draft.pairs:
        sets = written_set(rng, byzantine, plain), written_set(rng, failing, plain)
        lines.append(b"pair %s %s" % sets)
    for t, b in draft.counts:
        line = b"count %s %s" % (written_number(rng, t), written_number(rng, b))
        lines.insert(rng.randint(0, len(lines)), line)
    return [b"seats " + written_number(rng, draft.n)] + lines


# Defects of the lines: refusals 18 and 19


# Each in groups, which are equally likely.
BAD_NUMBERS = [
    [b"0001", b"0008", b"0000"],
    [b"1000", b"9999", b"12345", b"65537", b"99999999999"],
    [b"+1", b"-1", b"-0"],
    [b"", b"-", b"a", b"1,2"],
    [b"1a", b"a1", b"1.0", b"0x1", b"1_0", b"1:", b"/1", b"1\x00"],
    [b"\xb1", b"\xb2", b"\xd9\xa1"],
]
BAD_PROCESSES = [
    [b"0", b"00", b"000"],
    [b"17", b"017", b"18", b"32", b"33", b"99"],
    [b"256", b"257", b"272", b"999"],
    [b"0001", b"0016", b"1000"],
    [b"+1", b"-1", b"1-2", b"1-"],
    [b"-"],
    [b"--", b"a", b"1.", b"1;2", b"1:", b"/1", b"1a", b"1\x00", b"\xb1", b"\xb9"],
    [b"", b",", b",,"],
]
BAD_LINES = [b"", b" ", b"-", b"seats", b"seats ", b"pair", b"pair 1", b"pair -", b"pair - ",
             b"pair 1 2 3", b"pair - - -", b"pair 1, 2 3", b"count", b"count 1", b"count 1 0 0",
             b"count 1,0", b"seats 4 4", b"Seats 4", b"SEATS 4", b"seat 4", b"seatss 4",
             b"pairs 1 2", b"counts 1 0", b"pai 1 2", b"cnt 1 0", b"4", b"1 2", b"# a remark",
             b"pair:1 2", b"seats=4", b"\xef\xbb\xbfseats 4", b"\x00", b"rounds 4", b"pair - -\x00"]


def bad_field(rng, line):
    """A number or a set of the line gets a bad number or a bad element."""
    word, *fields = line.split(b" ")
    fields = fields or [b""]
    at = rng.randrange(len(fields))
    if word != b"pair":
        fields[at] = rng.choice(rng.choice(BAD_NUMBERS))
    else:
        elements = fields[at].split(b",")
        bad = rng.choice(rng.choice(BAD_PROCESSES))
        if bad != b"-" and rng.random() < 0.3:
            elements = [bad]
        else:
            elements.insert(rng.randint(0, len(elements)), bad)
        fields[at] = b",".join(elements)
    return b" ".join([word, *fields])


def bad_blank(rng, line):
    """Another blank in the line, or another byte where a blank stands or none may."""
    ats = [at for at, c in enumerate(line) if c == 32]
    white = rng.choice([b" ", b"\t", b"\r", rng.choice([b"\x0b", b"\x0c", b"\xa0", b"\x00"])])
    at = rng.choice(ats + [0, len(line), len(line)])
    if at in ats and rng.random() < 0.6:
        return line[:at] + (b"  " if white == b" " else white) + line[at + 1:]
    return line[:at] + white + line[at:]


def bad_fields(rng, line):
    """A field too few or too many, or another word."""
    fields = line.split(b" ")
    change = rng.randint(0, 3)
    if change == 0:
        fields.pop(rng.randrange(len(fields)))
    elif change == 1:
        fields.append(rng.choice([b"1", b"-", b"0", b""]))
    elif change == 2:
        fields[0] = rng.choice([b"Pair", b"COUNT", b"seat", b"pairs", b"counts", b"", b"x"])
    else:
        fields[0] = rng.choice([b"seats", b"pair", b"count"])
    return b" ".join(fields)


def bad_form(rng, lines):
    at = rng.choice([rng.randrange(len(lines)), len(lines) - 1])
    if rng.random() < 0.2:
        lines.insert(rng.randint(0, len(lines)), rng.choice(BAD_LINES))
    elif rng.random() < 0.2:
        lines[at] = rng.choice(BAD_LINES)
    else:
        spoil = rng.choice([bad_field, bad_field, bad_blank, bad_fields])
        lines[at] = spoil(rng, lines[at])


def seats_not_first(rng, lines):
    if len(lines) < 2:
        lines.insert(0, b"pair - -")
    elif rng.random() < 0.5:
        lines.insert(rng.randint(1, len(lines) - 1), lines.pop(0))
    else:
        lines.pop(0)


def second_seats(rng, lines):
    again = rng.choice([lines[0], b"seats %d" % rng.randint(0, 20)])
    lines.insert(rng.randint(1, len(lines)), again)


def second_count(rng, lines):
    counts = [line for line in lines if line.startswith(b"count")]
    for _ in range(1 if counts else 2):
        again = rng.choice(counts + [b"count %d %d" % (rng.randint(0, 3), rng.randint(0, 1))])
        lines.insert(rng.randint(1, len(lines)), again)


def no_rule(rng, lines):
    """Only the first line is left, or none."""
    del lines[rng.choice([0, 1, 1]):]


# Defects of the bytes


def without_last_line_feed(rng, text):
    return text[:-1]


def too_long(rng, text):
    """Longer than a sheet may be, mostly by one byte."""
    length = rng.choice([8193, 8193, 8193, 8194, 8200, 9000, 16384, 20000, 70000])
    filled = fill_up(rng, text, length)
    return filled if len(filled) > MOST_BYTES else filled + b"\n" * (length - len(filled))


def fill_up(rng, text, length):
    """The sheet with one more pair, a long way to write (-, {1}), at exactly this length.

    A text that leaves no room for a pair, and one in ten of the others, is
    filled up with something else, which may be cut off anywhere.
    """
    head, line_feed, rest = text.partition(b"\n")
    if len(text) + 20 > length or not line_feed or rng.random() < 0.1:
        waste = rng.choice([b"pair - -\n", b"\n", b"x", b"\x00", b" ", b"pair 1 -\n"])
        return (text + waste * length)[:max(length, len(text))]
    missing = length - len(text) - len(b"pair - 1\n")
    element = b",01" if missing % 2 else b""
    more = element + b",1" * ((missing - len(element)) // 2)
    pair = b"pair - 1%s\n" % more
    return head + b"\n" + (pair + rest if rng.random() < 0.5 else rest + pair)


def damaged(rng, text):
    """One byte dropped, doubled, swapped, replaced or put in."""
    at = rng.randrange(len(text)) if text else 0
    before, byte, after = text[:at], text[at:at + 1], text[at + 1:]
    any_byte = bytes([rng.randrange(256)])
    likely = bytes([rng.choice(b"0123456789 ,-\n\t\rpaircountse+")])
    return rng.choice([
        before + after,
        before + byte + byte + after,
        before + after[:1] + byte + after[1:],
        before + any_byte + after,
        before + likely + after,
        before + byte + likely + after,
    ])


# Sheets

OF_DRAFT = [wrong_crew, too_many_pairs, process_above, process_in_both, cover, byzantine_above,
            too_many_faulty]
# bad_form is there twice, since it has the most varieties.
OF_LINES = [bad_form, bad_form, seats_not_first, second_seats, second_count, no_rule]
OF_BYTES = [without_last_line_feed, damaged, too_long]
DEFECTS = OF_DRAFT + OF_LINES + OF_BYTES


def finished(rng, draft, defects=()):
    """The bytes of a draft, with the defects put in at their levels, in turn."""
    for defect in sorted((d for d in defects if d in OF_DRAFT), key=lambda d: d is wrong_crew):
        defect(rng, draft)
    lines = written(rng, draft)
    for defect in (d for d in defects if d in OF_LINES):
        if lines:
            defect(rng, lines)
    text = b"".join(line + b"\n" for line in lines)
    for defect in (d for d in defects if d in OF_BYTES):
        text = defect(rng, text)
    return text


def good_sheet(rng):
    return finished(rng, good_draft(rng))


def cover_sheet(rng):
    return finished(rng, cover_draft(rng, covering_pairs))


def near_cover_sheet(rng):
    return finished(rng, cover_draft(rng, nearly_covering_pairs))


def one_defect_sheet(rng):
    return finished(rng, good_draft(rng), [rng.choice(DEFECTS)])


def rule_defect_sheet(rng):
    return finished(rng, good_draft(rng), [rng.choice(OF_DRAFT)])


def pair_defects_sheet(rng):
    """Some pairs of a list with a process above n or in both sets, to see which is first."""
    draft = good_draft(rng, least=2, most=MOST_PROCESSES - 1, kinds=("pairs", "both"))
    return finished(rng, draft, rng.choices([process_above, process_in_both], k=rng.randint(2, 4)))


def two_defects_sheet(rng):
    draft = good_draft(rng, least=2)
    return finished(rng, draft, rng.sample(DEFECTS, 2))


def two_rule_defects_sheet(rng):
    draft = good_draft(rng, least=3, kinds=("pairs", "both"))
    return finished(rng, draft, rng.sample(OF_DRAFT, 2))


def two_line_defects_sheet(rng):
    return finished(rng, good_draft(rng), rng.choices(OF_LINES + OF_BYTES[:2], k=2))


def counts_sheet(rng):
    """Counts just around both of their limits."""
    n = crew_size(rng)
    b = rng.randint(0, n // 3 + 1)
    t = rng.choice([n - 2 * b + rng.randint(-2, 1), b + rng.randint(-1, 1)])
    pairs = rng.choice([[], good_pairs(rng, n)])
    return finished(rng, Draft(n, pairs, [(max(t, 0), b)]))


def crew_limit_sheet(rng):
    """0, 1, 16 or 17 seats with the process numbers 0, 1, 16 and 17."""
    sets = [b"-", b"0", b"1", b"01", b"001", b"0001", b"16", b"016", b"0016", b"17", b"017"]
    weights = [6, 1, 4, 1, 1, 1, 4, 1, 1, 1, 1]
    seats = [b"0", b"1", b"1", b"01", b"0001", b"16", b"16", b"016", b"17"]
    lines = [b"seats " + rng.choice(seats)]
    for _ in range(rng.randint(0, 3)):
        lines.append(b"pair %s %s" % tuple(rng.choices(sets, weights=weights, k=2)))
    if rng.random() < 0.5:
        lines.append(b"count %d %d" % (rng.choice([0, 0, 1, 15, 16]), rng.choice([0, 0, 0, 1])))
    return b"".join(line + b"\n" for line in lines)


def list_limit_sheet(rng):
    """0, 1, 63, 64, 65 or 66 pairs, some of them with another defect as well."""
    draft = good_draft(rng, least=2)
    length = rng.choice([0, 1, 63, 64, 64, 65, 65, 66])
    draft.pairs = sparing_pairs(rng, draft.n, length)
    defects = rng.sample([process_above, process_in_both, bad_form], 1)
    return finished(rng, draft, defects if length and rng.random() < 0.3 else ())


def late_cover_sheet(rng):
    """63 to 65 pairs whose covering triple stands at the end."""
    n = crew_size(rng, least=2)
    triple = covering_triple(rng, n)
    pairs = [(set(), set()) for _ in range(rng.choice([60, 61, 61, 62]))]
    return finished(rng, Draft(n, pairs + triple, []))


def byte_limit_sheet(rng):
    """A sheet at the limit of its length, good in itself or with a defect."""
    defects = [rng.choice(OF_DRAFT + OF_LINES)] if rng.random() < 0.3 else ()
    text = fill_up(rng, finished(rng, good_draft(rng, least=2), defects),
                   rng.choice([8190, 8191, 8191, 8192, 8192, 8192, 8193, 8193]))
    return without_last_line_feed(rng, text) if rng.random() < 0.1 else text


def damaged_sheet(rng):
    text = rng.choice([good_sheet, good_sheet, cover_sheet, near_cover_sheet, counts_sheet])(rng)
    for _ in range(rng.choice([1, 1, 1, 2, 3])):
        text = damaged(rng, text)
    return text


def restyled_sheet(rng):
    """A sheet that another tool or a hasty hand would write, in every line of it."""
    text = rng.choice([good_sheet, counts_sheet, cover_sheet])(rng)
    return rng.choice([
        text.replace(b"\n", b"\r\n"),
        text.replace(b"\n", b"\r"),
        text.replace(b"\n", b" \n"),
        text.replace(b"\n", b"\n\n"),
        text.replace(b"\n", b"\x00"),
        text.replace(b" ", b"\t"),
        text.replace(b" ", b"  "),
        text.replace(b",", b", "),
        text.replace(b",", b";"),
        text.replace(b" -", b" "),
        text.replace(b" -", b" 0"),
        text.replace(b" -", b" --"),
        text.upper(),
        text.title(),
        b"\xef\xbb\xbf" + text,
        b"\n" + text,
        text + b"\n",
        text + b"\x00",
        text + b"\x1a",
        text + text,
        text[:-1],
        text[:-1] + b"\r\n",
    ])


def few_lines_sheet(rng):
    """Very few, very short lines in any order: every small mistake of place."""
    likely = [b"seats 3", b"seats 1", b"pair - -", b"pair 1 2", b"pair 4 -", b"count 0 0",
              b"count 2 1", b"count 0 1", b"", b"pair 1", b"seats 17", b"count 1000 0"]
    weights = [5, 2, 4, 4, 2, 4, 2, 2, 1, 1, 1, 1]
    lines = rng.choices(likely, weights=weights, k=rng.randint(0, 4))
    if rng.random() < 0.7:
        lines.insert(0, b"seats 3")
    return b"\n".join(lines) + rng.choice([b"\n", b"\n", b"\n", b""])


def noise_sheet(rng):
    """Bytes that look like nothing, or like pieces of a sheet."""
    pieces = [b"seats", b"pair", b"count", b" ", b" ", b" ", b"1", b"2", b"16", b",", b"-", b"\n",
              b"\n", b"\r\n", b"\t", b"0"]
    if rng.random() < 0.5:
        return bytes(rng.randrange(256) for _ in range(rng.randint(0, 40)))
    return b"".join(rng.choices(pieces, k=rng.randint(0, 20)))


KINDS = {
    good_sheet: 14,
    cover_sheet: 12,
    near_cover_sheet: 8,
    one_defect_sheet: 12,
    rule_defect_sheet: 8,
    pair_defects_sheet: 4,
    two_defects_sheet: 10,
    two_rule_defects_sheet: 7,
    two_line_defects_sheet: 4,
    counts_sheet: 6,
    crew_limit_sheet: 5,
    list_limit_sheet: 4,
    late_cover_sheet: 1,
    byte_limit_sheet: 5,
    damaged_sheet: 10,
    restyled_sheet: 5,
    few_lines_sheet: 4,
    noise_sheet: 2,
}


def sheets(seed: int, count: int):
    """Yield `count` sheets, the same ones for the same seed."""
    rng = random.Random(seed)
    kinds, weights = list(KINDS), list(KINDS.values())
    for _ in range(count):
        yield rng.choices(kinds, weights=weights)[0](rng)


REFUSALS = [1, 2, 3, 4, 5, 6, 7, 18, 19, 20]


def kind_of_answer(answer):
    """`accepted`, or `refused` with the number."""
    word, number = answer.split()[:2]
    return "accepted" if word == b"seats" else f"refused {int(number)}"


def main():
    if len(sys.argv) != 3:
        print("usage: sheets.py SEED COUNT", file=sys.stderr)
        return 2
    seed, count = int(sys.argv[1]), int(sys.argv[2])
    answers = Counter(kind_of_answer(agree.report(sheet)) for sheet in sheets(seed, count))
    for kind in ["accepted"] + [f"refused {number}" for number in REFUSALS]:
        print(f"{answers[kind]:7} {kind}")
    return 0


if __name__ == "__main__":
    sys.exit(main())
