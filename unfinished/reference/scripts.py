#!/usr/bin/env python3
"""Random scripts, good and bad, to compare two implementations on.

`scripts(seed, count)` yields scripts as bytes, the same ones for the same seed.
A script starts as a draft (a rule, start bits, faults that the rule holds, and
deliveries), is written as lines, and is joined to bytes.  A defect spoils it
at one of these three levels.  About half of the scripts get no defect and run
to the end; most of the others get one defect, and some get two, so that the
order of the tests shows.

`scripts.py SEED COUNT` prints how many of the scripts get each kind of answer.
"""

import random
import sys
from collections import Counter
from copy import copy
from itertools import combinations_with_replacement, product

import agree
from agree import king, rounds

MOST_BYTES = 8192
MOST_PROCESSES = 16
MOST_PAIRS = 64
# A written draft is shorter than the limit, so that a defect may still add lines.
MOST_DRAFT_BYTES = 8000


class Draft:
    """A script before it is written.

    n, the pairs (A, F), the counts (t, b), the start bits, the set of the
    Byzantine processes, the last rounds by process, and the deliveries
    (round, from, to, word).
    """

    def __init__(self, n, pairs, counts):
        self.n = n
        self.pairs = pairs
        self.counts = counts
        self.bits = [0] * n
        self.false = set()
        self.last = {}
        self.tells = []


# Good rules


def crew_size(rng, least=1, most=MOST_PROCESSES):
    edge = rng.choice([least, min(least + 1, most), max(most - 1, least), most])
    small = rng.randint(least, min(least + 5, most))
    return rng.choice([edge, small, small, rng.randint(least, most)])


def list_length(rng):
    """How many pairs a list gets: mostly few, sometimes just at the limit."""
    few = rng.randint(1, 8)
    many = rng.choice([MOST_PAIRS - 1, MOST_PAIRS, rng.randint(9, MOST_PAIRS)])
    return rng.choices([1, few, many], weights=[2, 8, 1])[0]


def good_counts(rng, n):
    """Counts with b <= t and t + 2b < n, often just below n."""
    b = rng.randint(0, (n - 1) // 3)
    most = n - 1 - 2 * b
    return rng.choice([most, rng.randint(b, most)]), b


def split(rng, processes, weights=(1, 1, 1)):
    """A pair: each of the processes is Byzantine, failing or neither."""
    pair = set(), set(), set()
    for s in sorted(processes):
        rng.choices(pair, weights=weights)[0].add(s)
    return pair[0], pair[1]


def bounded_pair(rng, n, t, b):
    """A pair that the threshold (t, b) holds."""
    faulty = rng.sample(range(1, n + 1), rng.randint(0, t))
    byzantine = rng.randint(0, min(b, len(faulty)))
    return set(faulty[:byzantine]), set(faulty[byzantine:])


def bounded_pairs(rng, n, length):
    """No cover, since a threshold holds all of the pairs."""
    t, b = good_counts(rng, n)
    return [bounded_pair(rng, n, t, b) for _ in range(length)]


def sparing_pairs(rng, n, length):
    """No cover, since one process is in no set at all: many near-covers."""
    others = set(range(1, n + 1)) - {rng.randint(1, n)}
    weights = rng.choice([(1, 1, 1), (4, 4, 1), (1, 4, 1), (1, 1, 4)])
    return [split(rng, others, weights) for _ in range(length)]


def alternating_pairs(rng, n, length):
    """No cover, since two processes never lie and never fall silent together."""
    if n < 2:
        return [(set(), set()) for _ in range(length)]
    p, q = rng.sample(range(1, n + 1), 2)
    pairs = [split(rng, set(range(1, n + 1)) - {p, q}, (2, 2, 1)) for _ in range(length)]
    for _, failing in pairs[1:]:
        failing.add(rng.choice([p, q]))
    pairs[0][1].add(p)
    pairs[-1][1].discard(p)
    pairs[-1][1].add(q)
    return pairs


def good_pairs(rng, n):
    make = rng.choice([bounded_pairs, sparing_pairs, alternating_pairs])
    return make(rng, n, list_length(rng))


def good_rule(rng, least=1, most=MOST_PROCESSES, kinds=("pairs", "counts", "both")):
    """A draft with a good rule and nothing else."""
    n = crew_size(rng, least, most)
    kind = rng.choice(kinds)
    pairs = [] if kind == "counts" else good_pairs(rng, n)
    counts = [] if kind == "pairs" else [good_counts(rng, n)]
    return Draft(n, pairs, counts)


# Covers


def covering_triple(rng, n):
    """Three pairs that cover n processes, with little to spare."""
    triple = [(set(), set()) for _ in range(3)]
    for s in range(1, n + 1):
        liar = rng.randint(0, 3)
        for at, (byzantine, failing) in enumerate(triple):
            if at == liar:
                byzantine.add(s)
            elif liar == 3 or rng.random() < 0.3:
                failing.add(s)
    return triple


def copy_pair(pair):
    return set(pair[0]), set(pair[1])


def weakened(rng, pair):
    """The pair without one of its processes, or with one that fails, not lies."""
    byzantine, failing = copy_pair(pair)
    if byzantine or failing:
        s = rng.choice(sorted(byzantine | failing))
        if s in byzantine and rng.random() < 0.5:
            failing.add(s)
        else:
            failing.discard(s)
        byzantine.discard(s)
    return byzantine, failing


def is_cover(n, triple):
    (a1, f1), (a2, f2), (a3, f3) = triple
    return a1 | a2 | a3 | (f1 & f2 & f3) >= set(range(1, n + 1))


def break_covers(rng, n, pairs):
    """Take one process out of each covering triple, which then just fails to cover."""
    for triple in combinations_with_replacement(pairs, 3):
        if is_cover(n, triple):
            s = rng.randint(1, n)
            rng.choice(triple)[1].discard(s)
            for byzantine, _ in triple:
                byzantine.discard(s)


def around_covers(rng, n):
    """Pairs that nearly cover n processes, and a covering triple of its own."""
    triple = covering_triple(rng, n)
    if rng.random() < 0.15:
        triple = [split(rng, range(1, n + 1), (1, 1, 0))]
    pairs = [weakened(rng, rng.choice(triple)) for _ in range(rng.randint(0, 6))]
    pairs += [split(rng, range(1, n + 1), (1, 2, 3)) for _ in range(rng.randint(0, 3))]
    return pairs, triple


def covering_pairs(rng, n):
    """A list with a covering triple at least, mostly among pairs that nearly do."""
    pairs, triple = around_covers(rng, n)
    if rng.random() < 0.5:
        break_covers(rng, n, pairs)
    pairs += triple
    if rng.random() < 0.3:
        pairs += covering_triple(rng, n)
    if rng.random() < 0.08:
        pairs += sparing_pairs(rng, n, MOST_PAIRS - len(pairs))
    rng.shuffle(pairs)
    return pairs


def nearly_covering_pairs(rng, n):
    """A list in which triples cover all but a process."""
    pairs, triple = around_covers(rng, n)
    pairs += triple
    rng.shuffle(pairs)
    break_covers(rng, n, pairs)
    return pairs


def nearly_covering_rule(rng):
    draft = good_rule(rng, least=2, kinds=("pairs", "pairs", "both"))
    draft.pairs = nearly_covering_pairs(rng, draft.n)
    return draft


# Start bits and faults


def start_bits(rng, n):
    """All alike, all but one alike, or mixed."""
    bit = rng.randint(0, 1)
    bits = [bit] * n
    style = rng.choice(["alike", "but one", "but some", "mixed", "mixed", "mixed"])
    if style == "but one":
        bits[rng.randrange(n)] = 1 - bit
    elif style == "but some":
        for at in rng.sample(range(n), rng.randint(0, n // 2)):
            bits[at] = 1 - bit
    elif style == "mixed":
        bits = [rng.randint(0, 1) for _ in range(n)]
    return bits


def is_held(draft, byzantine, failing):
    """Whether the rule of the draft holds the pair."""
    listed = not draft.pairs or any(byzantine <= a and failing <= a | f for a, f in draft.pairs)
    faulty = byzantine | failing
    return listed and all(len(byzantine) <= b and len(faulty) <= t for t, b in draft.counts)


def trimmed(rng, draft, pair):
    """The pair without so many processes that the counts hold it."""
    byzantine, failing = copy_pair(pair)
    for t, b in draft.counts:
        while len(byzantine) > b:
            s = rng.choice(sorted(byzantine))
            byzantine.remove(s)
            if rng.random() < 0.5:
                failing.add(s)
        while len(byzantine | failing) > t:
            s = rng.choice(sorted(byzantine | failing))
            byzantine.discard(s)
            failing.discard(s)
    return byzantine, failing


def weight(pair):
    """How much goes wrong under a pair: a process that lies counts twice."""
    return 2 * len(pair[0]) + len(pair[1])


def great_pair(rng, draft):
    """A pair that the rule holds, one of the greatest."""
    if draft.pairs:
        some = rng.choices(draft.pairs, k=5)
        return max((trimmed(rng, draft, pair) for pair in some), key=weight)
    (t, b), = draft.counts
    faulty = rng.sample(range(1, draft.n + 1), t)
    if rng.random() < 0.4:
        faulty = list(range(1, t + 1))
    return set(faulty[:b]), set(faulty[b:])


def held_faults(rng, draft):
    """A pair that the rule holds: a great one, or one that is a little less."""
    byzantine, failing = great_pair(rng, draft)
    for _ in range(rng.choice([0, 0, 0, 0, 1, 2])):
        if len(byzantine | failing) > 1:
            byzantine, failing = weakened(rng, (byzantine, failing))
    return byzantine, failing - byzantine


def last_round(rng, n, s):
    """Often an early one, one at the end, or one in which the process is king."""
    most = rounds(n)
    crowned = [j for j in range(3, most + 1, 3) if king(n, j) == s]
    return rng.choice([
        rng.randint(1, min(most, 9)),
        rng.randint(1, min(most, 9)),
        rng.choice(crowned),
        rng.randint(1, most),
        rng.randint(most - 2, most),
    ])


def put_faults(rng, draft, pair):
    draft.false = set(pair[0])
    draft.last = {s: last_round(rng, draft.n, s) for s in sorted(pair[1])}


# Deliveries


def good_word(rng, j):
    """A word that a correct process may say in this round."""
    return rng.choice("01") if j % 3 == 1 else rng.choice("012")


def steady(rng, n):
    """The same words to everybody, one for each round of a phase."""
    words = [good_word(rng, j) for j in (3, 1, 2)]
    return lambda j, p: words[j % 3]


def split_words(rng, n):
    """One word to one side and another to the other, in each round of a phase."""
    side = set(rng.sample(range(1, n + 1), rng.randint(1, n)))
    words = [(good_word(rng, j), good_word(rng, j)) for j in (3, 1, 2)]
    words[1] = rng.choice(["01", "10", words[1]])
    return lambda j, p: words[j % 3][p in side]


def any_good(rng, n):
    """A random word that is never detected."""
    return lambda j, p: good_word(rng, j)


def careless(rng, n):
    """Any word, or a dash, or no delivery (None)."""
    return lambda j, p: rng.choice(["0", "1", "2", "0", "1", "2", "-", None])


def seldom_wrong(rng, n):
    """Mostly a good word, seldom none or a 2 where there may be none."""
    wrong = ["2", "-", None]
    return lambda j, p: rng.choice(wrong) if rng.random() < 0.05 else good_word(rng, j)


def picky(rng, n):
    """Only some processes are told anything."""
    side = set(rng.sample(range(1, n + 1), rng.randint(1, n)))
    style = any_style(rng, n)
    return lambda j, p: style(j, p) if p in side else None


def brief(rng, n):
    """Something only up to some round."""
    until = rng.randint(1, min(rounds(n), 12))
    style = any_style(rng, n)
    return lambda j, p: style(j, p) if j <= until else None


def kings_only(rng, n):
    """Something in third rounds alone."""
    style = any_style(rng, n)
    return lambda j, p: style(j, p) if j % 3 == 0 else None


STYLES = {steady: 2, split_words: 4, any_good: 4, careless: 1, seldom_wrong: 2, picky: 1, brief: 1,
          kings_only: 1}


def any_style(rng, n):
    """How a Byzantine process speaks: a word, or None, for a round and a receiver."""
    return rng.choices(list(STYLES), weights=list(STYLES.values()))[0](rng, n)


def lies(rng, draft):
    """Deliveries from the Byzantine processes, from round 1 on, as many as there is room for."""
    n = draft.n
    style = {r: any_style(rng, n) for r in sorted(draft.false)}
    most = rng.choice([20, 100, 600, 600, 600])
    tells = []
    for j in range(1, rounds(n) + 1):
        speaking = [r for r in style if j % 3 or r == king(n, j)]
        hearing = [p for p in range(1, n + 1) if p not in style and draft.last.get(p, j + 1) > j]
        for r in speaking:
            told = [(p, style[r](j, p)) for p in hearing]
            tells += [(j, r, p, word) for p, word in told if word is not None]
        if len(tells) > most:
            break
    return tells


def losses(rng, draft):
    """Deliveries from failing processes in their last rounds, which lose their words there."""
    tells = []
    for r, j in draft.last.items():
        others = [p for p in range(1, draft.n + 1) if p != r]
        for p in rng.sample(others, rng.choice([0, 1, len(others), rng.randint(0, len(others))])):
            tells.append((j, r, p, rng.choice("012-")))
    return tells


class DifferingCrew(agree.Crew):
    """A crew whose Byzantine processes choose their words in each round anew.

    For each process that listens, every outcome of the round that their words
    can bring about is equally likely, and mostly as few of them as possible
    are detected.  So the other processes often have different values.
    """

    def __init__(self, rng, draft):
        lasts = [draft.last.get(s, 0) for s in range(1, draft.n + 1)]
        super().__init__(rule_of(draft), draft.bits, set_mask(draft.false), lasts)
        self.rng = rng
        self.tells = []

    def hear_liars(self, p, j, liars, told):
        words = dict(zip(liars, self.choice(p, j, liars)))
        for r, word in words.items():
            if word is not None or self.rng.random() < 0.2:
                self.tells.append((j, r, p, "-" if word is None else str(word)))
        super().hear_liars(p, j, liars, {(r, p): word for r, word in words.items()})

    def choice(self, p, j, liars):
        """A word, or None, for each of the Byzantine processes."""
        outcomes = {}
        for words in some_words(self.rng, len(liars)):
            after = copy(self.processes[p])
            after.said = list(after.said)
            for r, word in zip(liars, words):
                if word is not None:
                    after.hear(r, j, word)
            after.shut()
            outcome = outcomes.setdefault((after.value, after.follows), [])
            outcome.append((agree.size(after.detected), words))
        chosen = self.rng.choice(sorted(outcomes.items()))[1]
        if self.rng.random() < 0.85:
            fewest = min(detected for detected, _ in chosen)
            chosen = [(detected, words) for detected, words in chosen if detected == fewest]
        return self.rng.choice(chosen)[1]

    def differs(self):
        """Whether two processes have different values."""
        return len({process.value for process in self.processes.values()}) > 1


def some_words(rng, count):
    """All words that so many processes can say, or a part of them if there are many."""
    every = [0, 1, 2, None]
    if count <= 3:
        return list(product(every, repeat=count))
    return [tuple(rng.choices(every, k=count)) for _ in range(60)]


def set_mask(processes):
    return sum(agree.mask(s) for s in processes)


def rule_of(draft):
    """The rule of a good draft."""
    script = agree.Script()
    script.seats = draft.n
    script.pairs = [(set_mask(byzantine), set_mask(failing)) for byzantine, failing in draft.pairs]
    script.count = draft.counts[0] if draft.counts else None
    return script.rule()


def differing_lies(rng, draft, lost):
    """Deliveries of Byzantine processes that make the others differ, for some phases."""
    crew = DifferingCrew(rng, draft)
    told = agree.first_deliveries(lost)
    for j in range(1, min(rounds(draft.n), 30) + 1):
        crew.play(j, told.get(j, {}))
        if j % 3 == 0 and not crew.differs() and rng.random() < 0.7:
            break
    return crew.tells


def near(rng, j, most):
    """This round or one beside it."""
    return min(max(j + rng.randint(-1, 1), 1), most)


def useless(rng, draft):
    """Deliveries that mostly have no effect."""
    n, most = draft.n, rounds(draft.n)
    tells = []
    for _ in range(rng.choice([0, 0, 0, 1, 2, 5])):
        r = rng.randint(1, n)
        p = rng.choice([r, rng.randint(1, n), rng.randint(1, n)])
        j = near(rng, draft.last[r], most) if r in draft.last else rng.randint(1, most)
        tells.append((j, r, p, rng.choice("012-")))
    return tells


def with_repeated(rng, tells):
    """Some deliveries a second time with other words, before or after the first."""
    tells = list(tells)
    for j, r, p, _ in rng.sample(tells, min(len(tells), rng.choice([0, 0, 0, 1, 2, 8]))):
        tells.insert(rng.randint(0, len(tells)), (j, r, p, rng.choice("012-")))
    return tells


def put_tells(rng, draft):
    """Deliveries of all kinds in any order, or first those that make processes differ."""
    lost = losses(rng, draft)
    if draft.false and draft.n <= 9 and rng.random() < 0.5:
        tells = lost + differing_lies(rng, draft, lost)
        draft.tells = tells + [tell for tell in with_repeated(rng, tells) if rng.random() < 0.03]
        return
    tells = lost + useless(rng, draft)
    rng.shuffle(tells)
    tells = with_repeated(rng, tells + lies(rng, draft))
    if rng.random() < 0.3:
        rng.shuffle(tells)
    draft.tells = tells


# Good drafts


def put_run(rng, draft, faulty=True):
    """Start bits, faults and deliveries; without faults a few useless deliveries."""
    draft.bits = start_bits(rng, draft.n)
    if draft.n > 1:
        put_faults(rng, draft, held_faults(rng, draft) if faulty else (set(), set()))
        put_tells(rng, draft)
    return draft


def good_draft(rng, **which):
    return put_run(rng, good_rule(rng, **which), faulty=rng.random() < 0.9)


def faulty_draft(rng, make_rule):
    """A draft with faults, unless the rules that are made hold none several times over.

    Half of the time the first king is wanted among the faulty processes, since
    the correct ones agree in the first phase of a correct king.
    """
    wanted = {1} if rng.random() < 0.5 else set(range(1, MOST_PROCESSES + 1))
    for _ in range(6):
        draft = put_run(rng, make_rule(rng))
        if wanted & (draft.false | set(draft.last)):
            break
    return draft


def plain_draft(rng, **which):
    """A good draft with few deliveries, so that a defect has most of the bytes."""
    draft = good_draft(rng, **which)
    draft.tells = draft.tells[:rng.randint(0, 5)]
    return draft


# Defects of the rule: refusals 1 to 7


def drop_lasts(draft):
    """Without last rounds of processes above n, whose lines have no form."""
    draft.last = {s: j for s, j in draft.last.items() if s <= draft.n}


def wrong_crew(rng, draft):
    far = [18, 31, 32, 33, 64, 99, 100, 255, 256, 257, 272, 512, 999]
    draft.n = rng.choice([0, 17, rng.choice(far)])
    if rng.random() < 0.7:
        drop_lasts(draft)


def too_many_pairs(rng, draft):
    """65 pairs or more, with sets short enough for the script."""
    length = rng.choice([65, 65, 65, 66, rng.randint(67, 150), rng.choice([256, 257, 320, 512])])
    short = [(set(), set()), (set(), {1})]
    if length < 150:
        short.append((set(), set(range(1, draft.n))))
    while len(draft.pairs) < length:
        draft.pairs.insert(rng.randint(0, len(draft.pairs)), copy_pair(rng.choice(short)))


def some_pair(rng, draft):
    """A pair to spoil; where there is none, one is put in."""
    if not draft.pairs:
        draft.pairs = [split(rng, range(1, draft.n + 1), (1, 1, 4))]
    return rng.choice(draft.pairs)


def process_above(rng, draft):
    draft.n = min(draft.n, MOST_PROCESSES - 1)
    drop_lasts(draft)
    above = rng.choice([draft.n + 1, MOST_PROCESSES, rng.randint(draft.n + 1, MOST_PROCESSES)])
    rng.choice(some_pair(rng, draft)).add(above)


def process_in_both(rng, draft):
    byzantine, failing = some_pair(rng, draft)
    s = rng.choice(sorted(byzantine | failing) or [rng.randint(1, draft.n)])
    byzantine.add(s)
    failing.add(s)


def cover(rng, draft):
    draft.pairs = covering_pairs(rng, draft.n)


def byzantine_above(rng, draft):
    """b above t, where the crew allows it with t + 2b still below n."""
    most = (draft.n - 1) // 2
    b = rng.randint(1, max(most, 1))
    t = rng.randint(0, max(0, min(b - 1, draft.n - 1 - 2 * b)))
    draft.counts = [rng.choice([(t, b), (t, b), (b - 1, b), (0, 999), (998, 999)])]


def too_many_faulty(rng, draft):
    """b <= t, and t + 2b is n or more, often just n."""
    b = rng.randint(0, draft.n // 3)
    t = max(b, draft.n - 2 * b)
    more = rng.choice([0, 0, 0, 1, 2, rng.randint(3, 40)])
    draft.counts = [rng.choice([(t + more, b)] * 9 + [(999, 999), (999, 0), (256, 0), (128, 64)])]


# Defects of the run: refusals 10 and 14 to 17


def wrong_bit_count(rng, draft):
    n = draft.n
    wrong = [n - 1, n + 1, 1, n + rng.randint(1, 20), 2 * n, 16, 17, 256 + n, rng.randint(18, 600)]
    length = rng.choice([length for length in wrong if length not in (0, n)])
    draft.bits = (draft.bits * (length // n + 1))[:length]


def wrong_bit(rng, draft):
    """Mostly one bit above 1, often that of a Byzantine process."""
    ats = sorted(s - 1 for s in draft.false if s <= len(draft.bits))
    for _ in range(rng.choice([1, 1, 1, 2, 3])):
        at = rng.choice(ats) if ats and rng.random() < 0.4 else rng.randrange(len(draft.bits))
        draft.bits[at] = rng.choice([2, 2, 3, 9, rng.randint(2, 9)])


def late_last(rng, draft):
    """A last round above T, mostly by one."""
    most = rounds(draft.n)
    for _ in range(rng.choice([1, 1, 2])):
        s = rng.choice(sorted(draft.last) or [rng.randint(1, draft.n)])
        if rng.random() < 0.3:
            s = rng.randint(1, draft.n)
        draft.last[s] = rng.choice([most + 1, most + 1, most + 1, most + rng.randint(1, 9), 999])
        if rng.random() < 0.8:
            draft.false.discard(s)


def false_above(rng, draft):
    """Byzantine processes above n; where there cannot be any, a late last round."""
    if draft.n >= MOST_PROCESSES:
        late_last(rng, draft)
        return
    for _ in range(rng.choice([1, 1, 2])):
        draft.false.add(rng.choice([draft.n + 1, 16, rng.randint(draft.n + 1, 16)]))


def false_and_last(rng, draft):
    """A Byzantine process with a last round."""
    for _ in range(rng.choice([1, 1, 2])):
        likely = sorted((draft.false | set(draft.last)) & set(range(1, draft.n + 1)))
        s = rng.choice(likely or [rng.randint(1, draft.n)])
        draft.false.add(s)
        draft.last.setdefault(s, rng.randint(1, max(rounds(draft.n), 1)))


def wrong_tell(rng, draft):
    """Deliveries with a round or a process that the crew has not."""
    n, most = draft.n, rounds(draft.n)
    for _ in range(rng.choice([1, 1, 1, 2, 3])):
        tell = [rng.randint(1, max(most, 1)), rng.randint(1, n), rng.randint(1, n)]
        at = rng.choice([0, 0, 1, 2]) if n < MOST_PROCESSES else 0
        if at:
            tell[at] = rng.choice([n + 1, 16, rng.randint(n + 1, 16)])
        else:
            tell[0] = rng.choice([0, most + 1, most + 1, most + rng.randint(1, 9), 256, 999])
        draft.tells.insert(rng.randint(0, len(draft.tells)), (*tell, rng.choice("012-")))


def not_held(rng, draft):
    """Just more faults than the rule holds."""
    for _ in range(50):
        s = rng.randint(1, draft.n)
        lies_now = draft.n == 1 or rng.random() < 0.5
        if lies_now:
            draft.false.add(s)
            draft.last.pop(s, None)
        elif s not in draft.false:
            draft.last.setdefault(s, last_round(rng, draft.n, s))
        if not is_held(draft, draft.false, set(draft.last)):
            return


# Writing


def written_number(rng, value):
    """Mostly without leading zeros, which may fill it up to three digits."""
    return str(value).zfill(rng.choice([1] * 8 + [2, 3])).encode()


def written_set(rng, processes, plain=False):
    """In any order, with some elements more than once; plain is the shortest."""
    if not processes:
        return b"-"
    elements = sorted(processes)
    if plain:
        return b",".join(b"%d" % s for s in elements)
    if rng.random() < 0.5:
        rng.shuffle(elements)
    if rng.random() < 0.2:
        elements += rng.choices(elements, k=rng.randint(1, 3))
    return b",".join(written_number(rng, s) for s in elements)


def written_rule(rng, draft):
    """The lines of the rule after `seats`; the counts stand anywhere among the pairs."""
    plain = len(draft.pairs) > 40
    lines = []
    for byzantine, failing in draft.pairs:
        sets = written_set(rng, byzantine, plain), written_set(rng, failing, plain)
        lines.append(b"pair %s %s" % sets)
    for t, b in draft.counts:
        line = b"count %s %s" % (written_number(rng, t), written_number(rng, b))
        lines.insert(rng.randint(0, len(lines)), line)
    return lines


def written_run(rng, draft):
    """The lines of the bits and the faults."""
    lines = [b"bits " + "".join(map(str, draft.bits)).encode()]
    lines += [b"false " + written_number(rng, s) for s in sorted(draft.false)]
    lines += [b"last %s %s" % (written_number(rng, s), written_number(rng, j))
              for s, j in sorted(draft.last.items())]
    if rng.random() < 0.5:
        rng.shuffle(lines)
    return lines


def written_tells(rng, draft, room):
    """As many of the deliveries as there is room for."""
    plain = len(draft.tells) > 300
    lines = []
    for j, r, p, word in draft.tells:
        numbers = [b"%d" % s if plain else written_number(rng, s) for s in (j, r, p)]
        line = b"tell %s %s" % (b" ".join(numbers), word.encode())
        room -= len(line) + 1
        if room < 0:
            break
        lines.append(line)
    return lines


def written(rng, draft):
    """The lines, without line feeds; in some scripts they stand in any order."""
    seats = b"seats " + written_number(rng, draft.n)
    lines = written_rule(rng, draft) + written_run(rng, draft)
    room = MOST_DRAFT_BYTES - sum(len(line) + 1 for line in [seats, *lines])
    lines += written_tells(rng, draft, room)
    if rng.random() < 0.25:
        rng.shuffle(lines)
    return [seats] + lines


# Defects of the lines: refusals 18 and 19


# Each in groups, which are equally likely.
BAD_NUMBERS = [
    [b"0001", b"0008", b"0000"],
    [b"1000", b"9999", b"12345", b"65537", b"99999999999"],
    [b"+1", b"-1", b"-0"],
    [b"", b"-", b"a", b"1,2"],
    [b"1a", b"a1", b"1.0", b"0x1", b"1_0", b"1:", b"/1", b"1\x00"],
    [b"\xb1", b"\xb2", b"\xd9\xa1"],
]
BAD_PROCESSES = [
    [b"0", b"00", b"000"],
    [b"17", b"017", b"18", b"32", b"33", b"99"],
    [b"256", b"257", b"272", b"999"],
    [b"0001", b"0016", b"1000"],
    [b"+1", b"-1", b"1-2", b"1-"],
    [b"-"],
    [b"--", b"a", b"1.", b"1;2", b"1:", b"/1", b"1a", b"1\x00", b"\xb1", b"\xb9"],
    [b"", b",", b",,"],
]
BAD_LASTS = [[b"0", b"00", b"000"]] + BAD_NUMBERS
BAD_BITS = [
    [b"", b"-", b"x"],
    [b"01-", b"-01", b"+1", b"0,1", b"0.1"],
    [b"01:", b"/01", b"0a1", b"01\x00", b"\xb1\xb0", b"0\xb9"],
]
BAD_WORDS = [
    [b"3", b"9", b"4"],
    [b"00", b"01", b"02", b"11", b"--", b"-1", b"10"],
    [b"", b"x", b"+", b"/", b"\x00", b"\xb0", b"\xb1"],
]
# Which of these the fields of each line get; None is a set.
BAD_FIELDS = {
    b"seats": [BAD_NUMBERS],
    b"pair": [None, None],
    b"count": [BAD_NUMBERS, BAD_NUMBERS],
    b"bits": [BAD_BITS],
    b"false": [BAD_PROCESSES],
    b"last": [BAD_PROCESSES, BAD_LASTS],
    b"tell": [BAD_NUMBERS, BAD_PROCESSES, BAD_PROCESSES, BAD_WORDS],
}
BAD_LINES = [b"", b" ", b"-", b"seats", b"seats ", b"pair", b"pair 1", b"pair -", b"pair - ",
             b"pair 1 2 3", b"pair - - -", b"pair 1, 2 3", b"count", b"count 1", b"count 1 0 0",
             b"count 1,0", b"seats 4 4", b"Seats 4", b"SEATS 4", b"seat 4", b"seatss 4",
             b"pairs 1 2", b"counts 1 0", b"pai 1 2", b"cnt 1 0", b"4", b"1 2", b"# a remark",
             b"pair:1 2", b"seats=4", b"\xef\xbb\xbfseats 4", b"\x00", b"rounds 4", b"pair - -\x00",
             b"bits", b"bits ", b"bits 0 0", b"bit 00", b"Bits 00", b"bits 0,0", b"false",
             b"false ", b"false 1 2", b"false 1,2", b"false -", b"true 1", b"last", b"last 1",
             b"last 1 2 3", b"last 1 0", b"last 1 -", b"last 0 1", b"last 17 1", b"tell",
             b"tell 1 1 2", b"tell 1 1 2 0 0", b"tell 1 1 2 3", b"tell 1 0 2 0", b"tell 1 1 17 0",
             b"tell - 1 2 0", b"tell 1 1,2 2 0", b"tell 1 - 2 0", b"tells 1 1 2 0", b"calls",
             b"calls 1", b"1 speak", b"1 start 1 0", b"verdict", b"silent 0", b"refused 20"]


def bad_in_set(rng, field):
    """The set with a bad element, or a bad element alone."""
    bad = rng.choice(rng.choice(BAD_PROCESSES))
    if bad != b"-" and rng.random() < 0.3:
        return bad
    elements = field.split(b",")
    elements.insert(rng.randint(0, len(elements)), bad)
    return b",".join(elements)


def bad_field(rng, line):
    """One of the fields after the word gets a bad value."""
    word, *fields = line.split(b" ")
    kinds = BAD_FIELDS.get(word, [])
    if not kinds or len(kinds) != len(fields):
        return line + b" "
    at = rng.randrange(len(fields))
    if kinds[at] is None:
        fields[at] = bad_in_set(rng, fields[at])
    else:
        fields[at] = rng.choice(rng.choice(kinds[at]))
    return b" ".join([word, *fields])


def bad_blank(rng, line):
    """Another blank in the line, or another byte where a blank stands or none may."""
    ats = [at for at, c in enumerate(line) if c == 32]
    white = rng.choice([b" ", b"\t", b"\r", rng.choice([b"\x0b", b"\x0c", b"\xa0", b"\x00"])])
    at = rng.choice(ats + [0, len(line), len(line)])
    if at in ats and rng.random() < 0.6:
        return line[:at] + (b"  " if white == b" " else white) + line[at + 1:]
    return line[:at] + white + line[at:]


def bad_fields(rng, line):
    """A field too few or too many, or another word."""
    fields = line.split(b" ")
    change = rng.randint(0, 3)
    if change == 0:
        fields.pop(rng.randrange(len(fields)))
    elif change == 1:
        fields.append(rng.choice([b"1", b"-", b"0", b""]))
    elif change == 2:
        fields[0] = rng.choice([b"Pair", b"COUNT", b"seat", b"pairs", b"counts", b"", b"x", b"bit",
                                b"Tell", b"fals", b"lasts", b"tel", b"falsee"])
    else:
        fields[0] = rng.choice(list(BAD_FIELDS))
    return b" ".join(fields)


def one_of_each(rng, lines):
    """The place of a line; every word that stands is equally likely."""
    word = rng.choice(sorted({line.split(b" ")[0] for line in lines}))
    return rng.choice([at for at, line in enumerate(lines) if line.split(b" ")[0] == word])


def bad_form(rng, lines):
    at = rng.choice([one_of_each(rng, lines), one_of_each(rng, lines), len(lines) - 1])
    if rng.random() < 0.2:
        lines.insert(rng.randint(0, len(lines)), rng.choice(BAD_LINES))
    elif rng.random() < 0.2:
        lines[at] = rng.choice(BAD_LINES)
    else:
        spoil = rng.choice([bad_field, bad_field, bad_blank, bad_fields])
        lines[at] = spoil(rng, lines[at])


def last_above(rng, lines):
    """A `last` line with a process above n, or with one that is just not above it."""
    n = next((int(line[6:]) for line in lines if line[:6] == b"seats " and line[6:].isdigit()), 4)
    s = min(n + rng.choice([1, 1, 1, 0, rng.randint(1, 12)]), 16)
    line = b"last %s %d" % (written_number(rng, s), rng.choice([1, 1, 2, 999]))
    lines.insert(rng.choice([0, 1, len(lines), rng.randint(0, len(lines))]), line)


def seats_not_first(rng, lines):
    if len(lines) < 2:
        lines.insert(0, rng.choice([b"pair - -", b"bits 0"]))
    elif rng.random() < 0.5:
        lines.insert(rng.randint(1, len(lines) - 1), lines.pop(0))
    else:
        lines.pop(0)


def second_seats(rng, lines):
    again = rng.choice([lines[0], b"seats %d" % rng.randint(0, 20)])
    lines.insert(rng.randint(1, len(lines)), again)


def put_second(rng, lines, word, new):
    """A second line with this word: one that stands already, or a new one."""
    standing = [line for line in lines if line.startswith(word)]
    for _ in range(1 if standing else 2):
        lines.insert(rng.randint(1, len(lines)), rng.choice(standing + [new]))


def second_count(rng, lines):
    put_second(rng, lines, b"count", b"count %d %d" % (rng.randint(0, 3), rng.randint(0, 1)))


def second_bits(rng, lines):
    put_second(rng, lines, b"bits", rng.choice([b"bits 0", b"bits 1", b"bits 0110", b"bits 9"]))


def second_of_process(rng, lines, word, rest):
    """A second line for the same process, whose number may be written in another way."""
    fields = [line.split(b" ") for line in lines if line.startswith(word)]
    said = [f[1] for f in fields if len(f) > 1 and f[1].isdigit()]
    s = int(rng.choice(said)) if said else 1
    for _ in range(1 if said else 2):
        line = b"%s %s%s" % (word, written_number(rng, s), rest)
        lines.insert(rng.randint(1, len(lines)), line)


def second_false(rng, lines):
    second_of_process(rng, lines, b"false", b"")


def second_last(rng, lines):
    second_of_process(rng, lines, b"last", rng.choice([b" 1", b" 2", b" 18", b" 999"]))


def without(rng, lines, words):
    """No line with any of these words, except the first line of all."""
    lines[1:] = [line for line in lines[1:] if line.split(b" ")[0] not in words]


def no_rule(rng, lines):
    without(rng, lines, [b"pair", b"count"])


def no_bits(rng, lines):
    without(rng, lines, [b"bits"])


def few_lines(rng, lines):
    """Only the first line is left, or none, or a few."""
    del lines[rng.choice([0, 1, rng.randint(0, len(lines))]):]


# Defects of the bytes


def without_last_line_feed(rng, text):
    return text[:-1]


def too_long(rng, text):
    """Longer than a script may be, mostly by one byte."""
    length = rng.choice([8193, 8193, 8193, 8194, 8200, 9000, 16384, 20000, 70000])
    filled = fill_up(rng, text, length)
    return filled if len(filled) > MOST_BYTES else filled + b"\n" * (length - len(filled))


def long_pair(rng, missing):
    """One pair (-, {1}) in just so many bytes."""
    missing -= len(b"pair - 1\n")
    element = b",01" if missing % 2 else b""
    more = element + b",1" * ((missing - len(element)) // 2)
    return b"pair - 1%s\n" % more


def long_bits(rng, missing):
    return b"bits %s\n" % (b"0" * (missing - len(b"bits \n")))


def many_tells(rng, missing):
    """Deliveries from process 1 to itself in just so many bytes, 26 at least."""
    shortest = len(b"tell 1 1 1 -\n")
    count = missing // shortest
    spare = missing - count * shortest
    lines = []
    for _ in range(count):
        widths = [1, 1, 1]
        for at in range(3):
            zeros = min(spare, 2)
            widths[at] += zeros
            spare -= zeros
        numbers = b" ".join(b"1".zfill(width) for width in widths)
        lines.append(b"tell %s %s\n" % (numbers, rng.choice([b"0", b"1", b"2", b"-"])))
    return b"".join(lines)


def fill_up(rng, text, length):
    """The script with more lines at exactly this length: deliveries, a pair, or bits.

    A text that leaves no room for that, and one in ten of the others, is
    filled up with something else, which may be cut off anywhere.
    """
    head, line_feed, rest = text.partition(b"\n")
    if len(text) + 30 > length or not line_feed or rng.random() < 0.1:
        waste = rng.choice([b"pair - -\n", b"\n", b"x", b"\x00", b" ", b"pair 1 -\n", b"tell"])
        return (text + waste * length)[:max(length, len(text))]
    make = rng.choices([many_tells, long_pair, long_bits], weights=[6, 4, 1])[0]
    more = make(rng, length - len(text))
    return head + b"\n" + (more + rest if rng.random() < 0.5 else rest + more)


def damaged(rng, text):
    """One byte dropped, doubled, swapped, replaced or put in."""
    at = rng.randrange(len(text)) if text else 0
    before, byte, after = text[:at], text[at:at + 1], text[at + 1:]
    any_byte = bytes([rng.randrange(256)])
    likely = bytes([rng.choice(b"0123456789012012 ,-\n\t\rpaircountseflb+")])
    return rng.choice([
        before + after,
        before + byte + byte + after,
        before + after[:1] + byte + after[1:],
        before + any_byte + after,
        before + likely + after,
        before + byte + likely + after,
    ])


# Scripts

OF_RULE = [wrong_crew, too_many_pairs, process_above, process_in_both, cover, byzantine_above,
           too_many_faulty]
# in the order of the tests: 14, 10, 15, 16, 17
RUN_ORDER = [[wrong_bit_count], [wrong_bit], [late_last, false_above, false_and_last],
             [wrong_tell], [not_held]]
OF_RUN = [defect for defects in RUN_ORDER for defect in defects]
# bad_form is there three times, since it has the most varieties.
OF_LINES = [bad_form, bad_form, bad_form, last_above, seats_not_first, second_seats, second_count,
            second_bits, second_false, second_last, no_rule, no_bits, few_lines]
OF_BYTES = [without_last_line_feed, damaged, too_long]
DEFECTS = OF_RULE + OF_RUN + OF_LINES + OF_BYTES


def put_in_draft(rng, draft, defects):
    """Those of the run first, which are made for the rule as it is, and a wrong n last."""
    order = OF_RUN + OF_RULE[1:] + [wrong_crew]
    for defect in sorted((d for d in defects if d in order), key=order.index):
        defect(rng, draft)


def finished(rng, draft, defects=()):
    """The bytes of a draft, with the defects put in at their levels, in turn."""
    put_in_draft(rng, draft, defects)
    lines = written(rng, draft)
    for defect in (d for d in defects if d in OF_LINES):
        if lines:
            defect(rng, lines)
    text = b"".join(line + b"\n" for line in lines)
    for defect in (d for d in defects if d in OF_BYTES):
        text = defect(rng, text)
    return text


def run_script(rng):
    """A run to the end, mostly with faults."""
    return finished(rng, good_draft(rng, least=rng.choice([1, 2, 2, 2, 2, 3, 4])))


def small_run_script(rng):
    """A run to the end of a small crew, in which every word can be told."""
    return finished(rng, faulty_draft(rng, lambda rng: good_rule(rng, least=2, most=6)))


def lying_run_script(rng):
    """A run to the end under a threshold with Byzantine processes, just below the limit."""
    def rule(rng):
        n = crew_size(rng, least=4)
        b = rng.randint(1, (n - 1) // 3)
        return Draft(n, [], [(n - 1 - 2 * b, b)])

    return finished(rng, faulty_draft(rng, rule))


def near_cover_script(rng):
    """A run to the end under a rule that holds as much as a rule may."""
    return finished(rng, faulty_draft(rng, nearly_covering_rule))


def not_held_script(rng):
    """A run whose faults are just more than the rule holds."""
    rule = rng.choice([good_rule, nearly_covering_rule])
    return finished(rng, put_run(rng, rule(rng)), [not_held])


def cover_script(rng):
    draft = plain_draft(rng, kinds=("pairs", "both"))
    return finished(rng, draft, [cover])


def one_defect_script(rng):
    return finished(rng, plain_draft(rng), [rng.choice(DEFECTS)])


def rule_defect_script(rng):
    return finished(rng, plain_draft(rng), [rng.choice(OF_RULE)])


def run_defect_script(rng):
    return finished(rng, plain_draft(rng), [rng.choice(OF_RUN)])


def pair_defects_script(rng):
    """Some pairs of a list with a process above n or in both sets, to see which is first."""
    draft = plain_draft(rng, least=2, most=MOST_PROCESSES - 1, kinds=("pairs", "both"))
    for _ in range(rng.randint(2, 4)):
        rng.choice([process_above, process_in_both])(rng, draft)
    return finished(rng, draft)


def two_defects_script(rng):
    return finished(rng, plain_draft(rng, least=2), rng.sample(DEFECTS, 2))


def two_rule_defects_script(rng):
    draft = plain_draft(rng, least=3, kinds=("pairs", "both"))
    return finished(rng, draft, rng.sample(OF_RULE, 2))


def two_run_defects_script(rng):
    """Two defects of the run, mostly ones that are tested one after the other."""
    at = rng.randrange(len(RUN_ORDER) - 1)
    defects = [rng.choice(RUN_ORDER[at]), rng.choice(RUN_ORDER[at + 1])]
    if rng.random() < 0.4:
        defects = rng.sample(OF_RUN, 2)
    return finished(rng, plain_draft(rng), defects)


def two_line_defects_script(rng):
    return finished(rng, plain_draft(rng), rng.choices(OF_LINES + OF_BYTES[:2], k=2))


def counts_script(rng):
    """Counts just around both of their limits."""
    n = crew_size(rng)
    b = rng.randint(0, n // 3 + 1)
    t = rng.choice([n - 2 * b + rng.randint(-2, 1), b + rng.randint(-1, 1)])
    draft = Draft(n, rng.choice([[], good_pairs(rng, n)]), [(max(t, 0), b)])
    draft.bits = start_bits(rng, n)
    return finished(rng, draft)


def crew_limit_script(rng):
    """0, 1, 16 or 17 seats with the process numbers 0, 1, 16 and 17."""
    numbers = [b"0", b"1", b"01", b"001", b"0001", b"16", b"016", b"0016", b"17", b"017"]
    weights = [1, 16, 4, 4, 1, 16, 4, 1, 1, 1]
    seats, n = rng.choice([(b"0", 0), (b"00", 0), (b"1", 1), (b"01", 1), (b"0001", 1), (b"16", 16),
                           (b"16", 16), (b"016", 16), (b"17", 17)])

    def process():
        return rng.choices(numbers, weights=weights)[0]

    lines = []
    for _ in range(rng.randint(0, 2)):
        lines.append(b"pair %s %s" % (rng.choice([b"-", process()]), rng.choice([b"-", process()])))
    if rng.random() < 0.5 or not lines:
        lines.append(b"count %d %d" % (rng.choice([0, 0, 1, 15, 16]), rng.choice([0, 0, 0, 1])))
    lines.append(b"bits " + b"1" * rng.choice([n, n, n, 1, 16, 17]))
    if rng.random() < 0.3:
        lines.append(b"false " + process())
    if rng.random() < 0.4:
        lines.append(b"last %s %d" % (process(), rng.choice([1, 1, 192, 193])))
    if rng.random() < 0.3:
        lines.append(b"tell %d %s %s -" % (rng.choice([0, 1, 1, 192, 193]), process(), process()))
    return b"".join(line + b"\n" for line in [b"seats " + seats, *lines])


def round_limit_script(rng):
    """Last rounds and deliveries at the rounds 0, 1, T and T + 1."""
    draft = put_run(rng, good_rule(rng, least=2))
    most = rounds(draft.n)
    draft.last = {s: rng.choice([most] * 6 + [1, most - 1, most + 1]) for s in draft.last}
    for _ in range(rng.randint(0, 3)):
        j = rng.choice([most] * 8 + [1, 1, 0, most + 1])
        r, p = rng.randint(1, draft.n), rng.randint(1, draft.n)
        draft.tells.insert(rng.randint(0, len(draft.tells)), (j, r, p, rng.choice("012-")))
    return finished(rng, draft)


def list_limit_script(rng):
    """0, 1, 63, 64, 65 or 66 pairs, some of them with another defect as well."""
    draft = plain_draft(rng, least=2)
    length = rng.choice([0, 1, 63, 64, 64, 65, 65, 66])
    draft.pairs = sparing_pairs(rng, draft.n, length)
    if length:
        put_faults(rng, draft, held_faults(rng, draft))
        draft.tells = losses(rng, draft)
    defects = rng.sample([process_above, process_in_both, bad_form], 1)
    return finished(rng, draft, defects if length and rng.random() < 0.3 else ())


def late_cover_script(rng):
    """63 to 65 pairs whose covering triple stands at the end."""
    n = crew_size(rng, least=2)
    triple = covering_triple(rng, n)
    pairs = [(set(), set()) for _ in range(rng.choice([60, 61, 61, 62]))]
    return finished(rng, Draft(n, pairs + triple, []))


def byte_limit_script(rng):
    """A script at the limit of its length, good in itself or with a defect."""
    defects = [rng.choice(OF_RULE + OF_RUN + OF_LINES)] if rng.random() < 0.3 else ()
    text = fill_up(rng, finished(rng, good_draft(rng, least=2), defects),
                   rng.choice([8190, 8191, 8191, 8192, 8192, 8192, 8193, 8193]))
    return without_last_line_feed(rng, text) if rng.random() < 0.1 else text


def damaged_script(rng):
    make = rng.choice([run_script, small_run_script, small_run_script, cover_script, counts_script])
    text = make(rng)
    for _ in range(rng.choice([1, 1, 1, 2, 3])):
        text = damaged(rng, text)
    return text


def restyled_script(rng):
    """A script with the same change in every line, or with a change at either end."""
    text = rng.choice([run_script, counts_script, cover_script])(rng)
    return rng.choice([
        text.replace(b"\n", b"\r\n"),
        text.replace(b"\n", b"\r"),
        text.replace(b"\n", b" \n"),
        text.replace(b"\n", b"\n\n"),
        text.replace(b"\n", b"\x00"),
        text.replace(b" ", b"\t"),
        text.replace(b" ", b"  "),
        text.replace(b",", b", "),
        text.replace(b",", b";"),
        text.replace(b" -", b" "),
        text.replace(b" -", b" 0"),
        text.replace(b" -", b" --"),
        text.upper(),
        text.title(),
        b"\xef\xbb\xbf" + text,
        b"\n" + text,
        text + b"\n",
        text + b"\x00",
        text + b"\x1a",
        text + text,
        text[:-1],
        text[:-1] + b"\r\n",
    ])


def few_lines_script(rng):
    """Very few, very short lines in any order: every small mistake of place."""
    rule = [b"pair - -", b"pair 1 2", b"count 0 0", b"count 1 0", b"pair - 3", b"pair 4 -",
            b"count 2 1", b"count 0 1"]
    run = [b"bits 010", b"bits 111", b"bits 0", b"bits 012", b"false 1", b"false 01", b"last 2 1",
           b"last 02 5", b"last 1 18", b"last 1 19", b"last 4 1", b"last 3 0", b"tell 1 1 2 0",
           b"tell 0 1 2 -", b"tell 19 1 2 1", b"tell 1 4 1 2", b"tell 1 1 17 0"]
    wrong = [b"", b"pair 1", b"seats 17", b"seats 3", b"seats 1", b"count 1000 0", b"bits"]
    lines = [rng.choice(rng.choice([rule, run, run, wrong])) for _ in range(rng.randint(0, 3))]
    if rng.random() < 0.8:
        lines.insert(rng.randint(0, len(lines)), rng.choice(rule))
        lines.insert(rng.randint(0, len(lines)), rng.choice(run[:2]))
    if rng.random() < 0.8:
        lines.insert(0, b"seats 3")
    return b"\n".join(lines) + rng.choice([b"\n", b"\n", b"\n", b""])


def noise_script(rng):
    """Random bytes, or pieces of a script in any order."""
    pieces = [b"seats", b"pair", b"count", b"bits", b"last", b"false", b"tell", b" ", b" ", b" ",
              b" ", b"1", b"2", b"16", b",", b"-", b"\n", b"\n", b"\r\n", b"\t", b"0"]
    if rng.random() < 0.5:
        return bytes(rng.randrange(256) for _ in range(rng.randint(0, 40)))
    return b"".join(rng.choices(pieces, k=rng.randint(0, 20)))


KINDS = {
    run_script: 17,
    small_run_script: 26,
    lying_run_script: 14,
    near_cover_script: 17,
    round_limit_script: 5,
    list_limit_script: 3,
    byte_limit_script: 5,
    not_held_script: 5,
    cover_script: 5,
    late_cover_script: 1,
    counts_script: 4,
    crew_limit_script: 4,
    one_defect_script: 8,
    rule_defect_script: 6,
    run_defect_script: 9,
    pair_defects_script: 3,
    two_defects_script: 8,
    two_rule_defects_script: 5,
    two_run_defects_script: 9,
    two_line_defects_script: 4,
    damaged_script: 7,
    restyled_script: 3,
    few_lines_script: 4,
    noise_script: 1,
}


def scripts(seed: int, count: int):
    """Yield `count` scripts, the same ones for the same seed."""
    rng = random.Random(seed)
    kinds, weights = list(KINDS), list(KINDS.values())
    for _ in range(count):
        yield rng.choices(kinds, weights=weights)[0](rng)


def kind_of_answer(answer):
    """A run with or without faults and its verdict, or `refused` with the number."""
    fields = answer.decode().split()
    if fields[0] == "refused":
        return f"refused {fields[1]}"
    faults = "with" if "false" in fields or "down" in fields else "without"
    return f"run {faults} faults, verdict {fields[fields.index('verdict') + 1]}"


REFUSALS = [1, 2, 3, 4, 5, 6, 7, 10, 14, 15, 16, 17, 18, 19, 20]
ANSWERS = [f"run {faults} faults, verdict {v}" for faults in ("with", "without") for v in (0, 1)]
ANSWERS += [f"refused {number}" for number in REFUSALS]


def main():
    if len(sys.argv) != 3:
        print("usage: scripts.py SEED COUNT", file=sys.stderr)
        return 2
    seed, count = int(sys.argv[1]), int(sys.argv[2])
    answers = Counter(kind_of_answer(agree.report(script)) for script in scripts(seed, count))
    for kind in ANSWERS + sorted(set(answers) - set(ANSWERS)):
        print(f"{answers[kind]:7} {kind}")
    return 0


if __name__ == "__main__":
    sys.exit(main())
