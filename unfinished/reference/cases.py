#!/usr/bin/env python3
"""Scripts with their reports and call lists with their answers, written out.

Each refusal that a script reaches stands alone and together with others, so
that the order of the tests shows; each answer to a call and each refusal of
one stands in a list of calls.  The reports and answers were worked out by hand
from docs/, and the comments tell how.

Run as a script, it tries all of them on the second implementation.
`cases.py --write DIR` also writes DIR/stdin and DIR/stdout, which the program
`cases` of the repository is run on: the scripts, each followed by a form feed,
and the reports one after another.  `cases.py --write-calls DIR` does the same
with the call lists.
"""

import sys
from pathlib import Path

import agree
import calls


def whole_report(n, rounds, results):
    """A report; the omissions are the last fields of the verdicts."""
    lines = [f"seats {n} rounds {rounds}"]
    lines += [f"seat {s} {result}" for s, result in enumerate(results, start=1)]
    omissions = [int(result.split()[-1]) for result in results if result.startswith("verdict")]
    return "\n".join(lines + [f"silent {sum(omissions)}"]) + "\n"


def calm_report(n, rounds, verdict):
    """The report of a run in which every process hears every word."""
    return whole_report(n, rounds, [f"verdict {verdict} silent 0"] * n)


# Without faults every due word is heard, so there is no omission.  If all bits
# are the same, that bit is the verdict.  If everybody says 2 in a second round,
# everybody follows the king, whose 2 is taken as 1.
WITHOUT_FAULTS = [
    # no rounds: the verdict is the start bit
    ('seats 1\ncount 0 0\nbits 0\n', calm_report(1, 0, 0)),
    ('seats 1\npair - -\nbits 1\n', calm_report(1, 0, 1)),
    # nobody may lie, so different bits give 2 in round 1, and king 1 gives 1
    ('seats 2\npair - 1\npair - 2\nbits 00\n', calm_report(2, 6, 0)),
    ('seats 2\npair - 1\npair - 2\nbits 11\n', calm_report(2, 6, 1)),
    ('seats 2\npair - 1\npair - 2\nbits 10\n', calm_report(2, 6, 1)),
    ('seats 2\npair - 1\npair - 2\nbits 01\n', calm_report(2, 6, 1)),
    # process 1 may lie: its bit alone is passed over; any other bit alone gives 2, and so 1
    ('seats 4\npair 1 2\nbits 1000\n', calm_report(4, 24, 0)),
    ('seats 4\npair 1 2\nbits 0111\n', calm_report(4, 24, 1)),
    ('seats 4\npair 1 2\nbits 0100\n', calm_report(4, 24, 1)),
    ('seats 4\npair 1 2\nbits 0110\n', calm_report(4, 24, 1)),
    # a pair may stand twice; processes 2 and 4 never lie
    ('seats 4\npair 1 2\npair 3 4\npair 1 2\nbits 0000\n', calm_report(4, 24, 0)),
    # an intersection: with count 1 1 both hold ({1}, -), with count 0 0 only the list does
    ('seats 4\npair 1 2\ncount 1 1\nbits 1000\n', calm_report(4, 24, 0)),
    ('seats 4\ncount 0 0\npair 1 2\nbits 1000\n', calm_report(4, 24, 1)),
    ('seats 3\npair 1,1,1 -\ncount 000 0\npair - 3\nbits 010\n', calm_report(3, 18, 1)),
    # b = 2: two may lie, three may not
    ('seats 8\ncount 3 2\nbits 11000000\n', calm_report(8, 72, 0)),
    ('seats 8\ncount 3 2\nbits 11100000\n', calm_report(8, 72, 1)),
    ('seats 16\npair 16,1 2\nbits 0000000000000000\n', calm_report(16, 192, 0)),
    ('seats 16\npair 16,1 2\nbits 1000000000000001\n', calm_report(16, 192, 0)),
    ('seats 016\npair 016 015\nbits 1111111111111111\n', calm_report(16, 192, 1)),
    # deliveries of correct processes have no effect, at the last round T neither
    ('seats 2\npair - 2\nbits 00\ntell 1 1 2 1\ntell 2 2 1 -\ntell 3 2 1 1\ntell 1 1 1 2\n'
     'tell 6 2 1 1\ntell 006 01 002 -\n', calm_report(2, 6, 0)),
]

# n = 2 has 6 rounds; process 1 is king in round 3 and process 2 in round 6.
TWO_PROCESSES = [
    # Process 2 speaks in round 1 alone, and is missed in rounds 2, 4, 5 and 6.  Where its word
    # of round 1 is lost (a fifth omission), process 1 is alone with its own bit and keeps it.
    ('seats 2\npair - 2\nbits 10\nlast 2 1\ntell 1 2 1 -\n',
     whole_report(2, 6, ['verdict 1 silent 5', 'down 1'])),
    ('seats 2\npair - 2\nbits 01\nlast 2 1\ntell 1 2 1 -\n',
     whole_report(2, 6, ['verdict 0 silent 5', 'down 1'])),
    # it is lost whatever the delivery's word is, also if it is the word that was said
    ('seats 2\npair - 2\nbits 01\nlast 2 1\ntell 1 2 1 1\n',
     whole_report(2, 6, ['verdict 0 silent 5', 'down 1'])),
    # Heard, it gives 2 in round 1; process 1 is still alone with its 2 in round 2 and follows
    # itself in round 3, which gives 1.
    ('seats 2\npair - 2\nbits 10\nlast 2 1\n',
     whole_report(2, 6, ['verdict 1 silent 4', 'down 1'])),
    ('seats 2\npair - 2\nbits 01\nlast 2 1\n',
     whole_report(2, 6, ['verdict 1 silent 4', 'down 1'])),
    # deliveries in other rounds than the last, to itself, and from process 1 lose nothing
    ('seats 2\npair - 2\nbits 01\nlast 2 1\ntell 2 2 1 0\ntell 1 2 2 -\ntell 1 1 2 -\n',
     whole_report(2, 6, ['verdict 1 silent 4', 'down 1'])),
    # Process 2 speaks in rounds 1 and 2 and is missed in rounds 4, 5 and 6: in round 3 nothing
    # is due from it, so a last round 3 makes no difference.
    ('seats 2\npair - 2\nbits 00\nlast 2 2\n',
     whole_report(2, 6, ['verdict 0 silent 3', 'down 2'])),
    ('seats 2\npair - 2\nbits 00\nlast 2 3\ntell 3 2 1 1\n',
     whole_report(2, 6, ['verdict 0 silent 3', 'down 3'])),
    # round T is a last round that is missed only if its word is lost
    ('seats 2\npair - 2\nbits 00\nlast 2 6\n',
     whole_report(2, 6, ['verdict 0 silent 0', 'down 6'])),
    ('seats 2\npair - 2\nbits 00\nlast 2 6\ntell 6 2 1 2\n',
     whole_report(2, 6, ['verdict 0 silent 1', 'down 6'])),
    # King 1 is down in round 3.  Both have 2 by then, and process 2 follows: the word 2 gives
    # 1, a lost word gives 0.  Process 1 is missed in rounds 4 and 5, and in 3 if lost.
    ('seats 2\npair - 1\nbits 01\nlast 1 3\n',
     whole_report(2, 6, ['down 3', 'verdict 1 silent 2'])),
    ('seats 2\npair - 1\nbits 01\nlast 1 3\ntell 3 1 2 2\n',
     whole_report(2, 6, ['down 3', 'verdict 0 silent 3'])),
    # Process 1 may lie: in round 1 its 0 is passed over, in round 2 its 2 is not enough to
    # follow, so its 0 in round 3 does nothing.  It is missed in rounds 4 and 5.
    ('seats 2\npair 1 -\nbits 01\nfalse 1\ntell 1 1 2 0\ntell 2 1 2 2\ntell 3 1 2 0\n',
     whole_report(2, 6, ['false', 'verdict 1 silent 2'])),
    # The rule holds (-, {1}) as well, since who may lie may fall silent.  Its 0 of round 1 is
    # passed over; it is missed in rounds 2, 3, where it is king, 4 and 5.
    ('seats 2\npair 1 -\nbits 01\nlast 1 1\n',
     whole_report(2, 6, ['down 1', 'verdict 1 silent 4'])),
    # the first of these again, its lines in another order and with leading zeros
    ('seats 2\ntell 1 2 1 -\nlast 2 1\nbits 10\npair - 2\n',
     whole_report(2, 6, ['verdict 1 silent 5', 'down 1'])),
    ('seats 002\npair - 02,2\nbits 10\nlast 02 001\ntell 001 002 01 -\n',
     whole_report(2, 6, ['verdict 1 silent 5', 'down 1'])),
]

# n = 4 has 24 rounds, 16 of them first and second ones; each process is king twice.  So a
# process that says nothing at all is missed 18 times.
FOUR_PROCESSES = [
    # Process 4 is silent.  The bits 0, 0, 1 give 2 in round 1, since with process 4 nobody
    # more may be faulty; all three have 2 in round 2, and king 1 gives 1.
    ('seats 4\ncount 1 1\nbits 0011\nfalse 4\n',
     whole_report(4, 24, ['verdict 1 silent 18'] * 3 + ['false'])),
    # Process 1 is silent, as king too, which gives 0 to all three.
    ('seats 4\ncount 1 1\nbits 0011\nfalse 1\n',
     whole_report(4, 24, ['false'] + ['verdict 0 silent 18'] * 3)),
    # As king it says 2, which gives 1, though all three have detected it: one omission less.
    ('seats 4\ncount 1 1\nbits 0011\nfalse 1\ntell 3 1 2 2\ntell 3 1 3 2\ntell 3 1 4 2\n',
     whole_report(4, 24, ['false'] + ['verdict 1 silent 17'] * 3)),
    # As king it says 0, 1 and 2, so they have 0, 1 and 1; the next phase gives 2, and king 2
    # gives 1.
    ('seats 4\ncount 1 1\nbits 0011\nfalse 1\ntell 3 1 2 0\ntell 3 1 3 1\ntell 3 1 4 2\n',
     whole_report(4, 24, ['false'] + ['verdict 1 silent 17'] * 3)),
    # the first delivery counts: nothing, 0 and 0, which gives 0 to all three
    ('seats 4\ncount 1 1\nbits 0011\nfalse 1\ntell 3 1 2 -\ntell 3 1 2 1\ntell 3 1 3 0\n'
     'tell 3 1 3 2\ntell 3 1 4 0\ntell 3 1 4 -\n',
     whole_report(4, 24, ['false', 'verdict 0 silent 18'] + ['verdict 0 silent 17'] * 2)),
    # A 2 in a first round is heard: process 1 misses one word less.
    ('seats 4\ncount 1 1\nbits 0001\nfalse 4\ntell 1 4 1 2\n',
     whole_report(4, 24, ['verdict 0 silent 17'] + ['verdict 0 silent 18'] * 2 + ['false'])),
    # Process 4 says 1 to process 1, which then passes over its own 0 and has 1; 0 to process 2
    # and nothing to process 3, which have 2.  In round 2 it says 0, 1 and 2, but process 3 has
    # detected it.  All three follow, since two of them say 2; king 1 has 2 then, as nobody else
    # says 1 to it, and gives 1.  Process 3 misses a word more than the others.
    ('seats 4\ncount 1 1\nbits 0110\nfalse 4\ntell 1 4 1 1\ntell 1 4 2 0\ntell 2 4 1 0\n'
     'tell 2 4 2 1\ntell 2 4 3 2\n',
     whole_report(4, 24, ['verdict 1 silent 16'] * 2 + ['verdict 1 silent 17', 'false'])),
    # Process 1 is down in round 1, and nobody may lie.  Processes 3 and 4 hear its 1 and have 2;
    # process 2 does not and has 0.  One 0 is then enough in round 2, but two say 2, so all follow
    # the silent king, which gives 0.
    ('seats 4\ncount 1 0\nbits 1000\nlast 1 1\ntell 1 1 2 -\n',
     whole_report(4, 24, ['down 1', 'verdict 0 silent 18'] + ['verdict 0 silent 17'] * 2)),
    # Process 1 is silent (18 omissions), process 2 speaks in round 1 alone (17).
    ('seats 4\npair 1 2\nbits 0000\nfalse 1\nlast 2 1\n',
     whole_report(4, 24, ['false', 'down 1'] + ['verdict 0 silent 35'] * 2)),
]

# n = 16 has 192 rounds, 128 of them first and second ones; each process is king 4 times.
# Process 2 is heard in round 1 alone: 127 + 4 omissions.
SIXTEEN_PROCESSES = [
    ('seats 16\npair 16,1 2\nbits 0000000000000000\nlast 2 1\n',
     whole_report(16, 192, ['verdict 0 silent 131', 'down 1'] + ['verdict 0 silent 131'] * 14)),
    # process 16 is silent and missed 128 + 4 times; process 2 is heard to the end but by 3
    ('seats 16\npair 16,1 2\nbits 1111111111111110\nfalse 16\nlast 2 191\ntell 191 2 3 1\n',
     whole_report(16, 192, ['verdict 1 silent 132', 'down 191', 'verdict 1 silent 133']
                  + ['verdict 1 silent 132'] * 12 + ['false'])),
]

REFUSED_RULES = [
    # each refusal of a rule alone
    ('seats 17\npair 1 -\nbits 0\n', 'refused 1 rule 0 1\n'),
    ('seats 0\ncount 0 0\nbits 0\n', 'refused 1 rule 0 1\n'),
    ('seats 999\ncount 0 0\nbits 0\n', 'refused 1 rule 0 1\n'),
    ('seats 3\npair 1 -\npair 4 -\nbits 000\n', 'refused 3 rule 2 3\n'),
    ('seats 3\npair - 16\nbits 000\n', 'refused 3 rule 1 2\n'),
    ('seats 3\nbits 000\npair - -\ntell 1 1 2 -\npair 1,2 3,2\n', 'refused 4 rule 2 5\n'),
    ('seats 3\npair 1 -\npair 2 -\npair 3 -\nbits 000\n', 'refused 5 rule 1,2,3 0\n'),
    ('seats 2\npair - 1,2\nbits 00\n', 'refused 5 rule 1,1,1 0\n'),
    ('seats 1\npair 1 -\nbits 0\n', 'refused 5 rule 1,1,1 0\n'),
    ('seats 1\npair - 1\nbits 0\n', 'refused 5 rule 1,1,1 0\n'),
    ('seats 3\npair - 1\npair 1 2,3\npair 2 3\npair 3 -\nbits 000\n', 'refused 5 rule 2,2,2 0\n'),
    ('seats 4\npair 1 2\ncount 1 2\nbits 0000\n', 'refused 6 rule 0 3\n'),
    ('seats 8\ncount 4 2\nbits 00000000\n', 'refused 7 rule 0 2\n'),
    ('seats 1\ncount 1 0\nbits 0\n', 'refused 7 rule 0 2\n'),
    ('seats 3\ncount 1 1\nbits 000\n', 'refused 7 rule 0 2\n'),
    # two causes at once, both of the rule
    ('seats 0\npair 1 -\nbits 0\n', 'refused 1 rule 0 1\n'),
    ('seats 0\npair 1 1\nbits 0\n', 'refused 1 rule 0 1\n'),
    ('seats 0\npair - -\nbits 0\n', 'refused 1 rule 0 1\n'),
    ('seats 17\ncount 1 2\nbits 0\n', 'refused 1 rule 0 1\n'),
    ('seats 17\ncount 999 0\nbits 0\n', 'refused 1 rule 0 1\n'),
    ('seats 17\npair 1 1\ncount 1 2\nbits 0\n', 'refused 1 rule 0 1\n'),
    ('seats 3\npair 4 4\nbits 000\n', 'refused 3 rule 1 2\n'),
    ('seats 3\npair 1 1\npair 4 -\nbits 000\n', 'refused 4 rule 1 2\n'),
    ('seats 3\npair 4 -\npair 1 1\nbits 000\n', 'refused 3 rule 1 2\n'),
    ('seats 2\npair - 1,2\npair 3 -\nbits 00\n', 'refused 3 rule 2 3\n'),
    ('seats 2\npair - 1,2\npair 1 1\nbits 00\n', 'refused 4 rule 2 3\n'),
    ('seats 3\ncount 1 2\npair 4 -\nbits 000\n', 'refused 3 rule 1 3\n'),
    ('seats 3\ncount 3 0\npair 1 1\nbits 000\n', 'refused 4 rule 1 3\n'),
    ('seats 2\ncount 0 1\npair - 1,2\nbits 00\n', 'refused 5 rule 1,1,1 0\n'),
    ('seats 2\ncount 2 0\npair - 1,2\nbits 00\n', 'refused 5 rule 1,1,1 0\n'),
    ('seats 4\ncount 8 9\nbits 0000\n', 'refused 6 rule 0 2\n'),
    ('seats 4\npair 1 -\ncount 1 2\nbits 0000\n', 'refused 6 rule 0 3\n'),
    ('seats 4\npair 1 -\ncount 4 0\nbits 0000\n', 'refused 7 rule 0 3\n'),
    # one of the rule and one of the run
    ('seats 0\ncount 0 0\nbits 2\n', 'refused 1 rule 0 1\n'),
    ('seats 17\ncount 0 0\nbits 0\nlast 16 999\n', 'refused 1 rule 0 1\n'),
    ('seats 3\npair 4 -\nbits 0000\n', 'refused 3 rule 1 2\n'),
    ('seats 3\nbits 002\npair 1 1\n', 'refused 4 rule 1 3\n'),
    ('seats 2\nlast 1 7\npair - 1,2\nbits 00\n', 'refused 5 rule 1,1,1 0\n'),
    ('seats 2\nbits 0\ncount 0 1\n', 'refused 6 rule 0 3\n'),
    ('seats 2\nbits 00\ntell 0 1 2 -\ncount 2 0\n', 'refused 7 rule 0 4\n'),
]

REFUSED_RUNS = [
    # each refusal of a run alone
    ('seats 2\npair - 2\nbits 0\n', 'refused 14 crew 0 3\n'),
    ('seats 2\nbits 000\npair - 2\n', 'refused 14 crew 0 2\n'),
    ('seats 16\ncount 0 0\nbits 00000000000000000\n', 'refused 14 crew 0 3\n'),
    ('seats 2\npair - 2\nbits 02\n', 'refused 10 oar 2 3\n'),
    ('seats 2\npair - 2\nbits 92\n', 'refused 10 oar 1 3\n'),
    ('seats 2\npair 1 -\nbits 20\nfalse 1\n', 'refused 10 oar 1 3\n'),
    ('seats 2\npair - 2\nbits 02\nlast 2 1\n', 'refused 10 oar 2 3\n'),
    ('seats 2\npair - 2\nbits 00\nlast 2 7\n', 'refused 15 crew 2 4\n'),
    ('seats 2\npair - 2\nlast 2 999\nbits 00\n', 'refused 15 crew 2 3\n'),
    ('seats 16\npair - 16\nbits 0000000000000000\nlast 16 193\n', 'refused 15 crew 16 4\n'),
    ('seats 1\npair - -\nbits 0\nlast 1 1\n', 'refused 15 crew 1 4\n'),
    ('seats 2\npair - 2\nbits 00\nfalse 3\n', 'refused 15 crew 3 4\n'),
    ('seats 2\nfalse 16\npair - 2\nbits 00\n', 'refused 15 crew 16 2\n'),
    ('seats 2\npair 1 -\nbits 00\nfalse 1\nlast 1 1\n', 'refused 15 crew 1 5\n'),
    ('seats 2\npair 1 -\nbits 00\nlast 1 1\nfalse 1\n', 'refused 15 crew 1 4\n'),
    ('seats 2\npair - 2\nbits 00\ntell 0 1 2 -\n', 'refused 16 crew 1 4\n'),
    ('seats 2\npair - 2\nbits 00\ntell 6 1 2 -\ntell 7 1 2 0\n', 'refused 16 crew 2 5\n'),
    ('seats 2\ntell 1 3 1 0\npair - 2\nbits 00\n', 'refused 16 crew 1 2\n'),
    ('seats 2\npair - 2\nbits 00\ntell 1 1 3 0\n', 'refused 16 crew 1 4\n'),
    ('seats 2\npair - 2\nbits 00\ntell 999 16 16 2\n', 'refused 16 crew 1 4\n'),
    ('seats 1\npair - -\nbits 0\ntell 1 1 1 0\n', 'refused 16 crew 1 4\n'),
    ('seats 2\npair - 2\nbits 00\nlast 1 1\n', 'refused 17 crew 0 0\n'),
    ('seats 2\npair - 2\nbits 00\nfalse 2\n', 'refused 17 crew 0 0\n'),
    ('seats 2\npair - 1\npair - 2\nbits 00\nlast 1 1\nlast 2 1\n', 'refused 17 crew 0 0\n'),
    ('seats 4\ncount 1 1\nbits 0000\nfalse 1\nlast 2 1\n', 'refused 17 crew 0 0\n'),
    ('seats 4\ncount 2 0\nbits 0000\nfalse 1\n', 'refused 17 crew 0 0\n'),
    ('seats 4\npair 1 2\ncount 1 1\nbits 0000\nfalse 1\nlast 2 1\n', 'refused 17 crew 0 0\n'),
    ('seats 4\npair 1 2\ncount 1 1\nbits 0000\nfalse 3\n', 'refused 17 crew 0 0\n'),
    ('seats 1\ncount 0 0\nbits 0\nfalse 1\n', 'refused 17 crew 0 0\n'),
    # two causes at once
    ('seats 2\npair - 2\nbits 2\n', 'refused 14 crew 0 3\n'),
    ('seats 2\npair - 2\nbits 000\nlast 2 7\n', 'refused 14 crew 0 3\n'),
    ('seats 2\npair - 2\nbits 000\ntell 0 1 2 -\n', 'refused 14 crew 0 3\n'),
    ('seats 2\npair - 2\nfalse 2\nbits 000\n', 'refused 14 crew 0 4\n'),
    ('seats 2\npair - 2\nlast 1 7\nbits 02\n', 'refused 10 oar 2 4\n'),
    ('seats 2\npair - 2\ntell 0 1 2 -\nbits 02\n', 'refused 10 oar 2 4\n'),
    ('seats 2\npair - 2\nfalse 2\nbits 02\n', 'refused 10 oar 2 4\n'),
    ('seats 2\npair - 2\nbits 00\nfalse 3\nlast 2 7\n', 'refused 15 crew 2 5\n'),
    ('seats 2\npair - 2\nbits 00\nlast 2 7\nfalse 1\nlast 1 1\n', 'refused 15 crew 1 6\n'),
    ('seats 2\npair - 2\nbits 00\nfalse 2\nlast 2 7\n', 'refused 15 crew 2 5\n'),
    ('seats 2\npair - 2\nbits 00\nfalse 4\nfalse 3\n', 'refused 15 crew 3 5\n'),
    ('seats 2\npair - 2\nbits 00\ntell 0 1 2 -\nlast 2 7\n', 'refused 15 crew 2 5\n'),
    ('seats 2\npair - 2\nbits 00\nlast 1 1\nlast 2 7\n', 'refused 15 crew 2 5\n'),
    ('seats 2\npair - 2\nbits 00\ntell 1 3 1 0\ntell 0 1 2 -\n', 'refused 16 crew 1 4\n'),
    ('seats 2\npair - 2\nbits 00\nlast 1 1\ntell 1 1 2 -\ntell 0 1 2 -\n',
     'refused 16 crew 2 6\n'),
    ('seats 1\ncount 0 0\nbits 0\nfalse 1\ntell 1 1 1 -\n', 'refused 16 crew 1 5\n'),
    ('seats 1\ncount 0 0\nbits 0\nlast 1 1\ntell 1 1 1 -\n', 'refused 15 crew 1 4\n'),
]

REFUSED_FORMS = [
    # the first line
    ('seat 4\ncount 0 0\n', 'refused 18 script 0 1\n'),
    ('seats\ncount 0 0\n', 'refused 18 script 0 1\n'),
    ('seats 4 4\ncount 0 0\n', 'refused 18 script 0 1\n'),
    (' seats 4\ncount 0 0\n', 'refused 18 script 0 1\n'),
    ('seats 4 \ncount 0 0\n', 'refused 18 script 0 1\n'),
    ('seats  4\ncount 0 0\n', 'refused 18 script 0 1\n'),
    ('seats 4\r\ncount 0 0\n', 'refused 18 script 0 1\n'),
    ('seats\t4\ncount 0 0\n', 'refused 18 script 0 1\n'),
    ('seats 0004\ncount 0 0\n', 'refused 18 script 0 1\n'),
    ('seats -1\ncount 0 0\n', 'refused 18 script 0 1\n'),
    ('seats +1\ncount 0 0\n', 'refused 18 script 0 1\n'),
    ('seats 4x\ncount 0 0\n', 'refused 18 script 0 1\n'),
    ('calls\n', 'refused 18 script 0 1\n'),
    # pairs
    ('seats 4\npair 0 -\n', 'refused 18 script 0 2\n'),
    ('seats 4\npair 17 -\n', 'refused 18 script 0 2\n'),
    ('seats 4\npair 1, -\n', 'refused 18 script 0 2\n'),
    ('seats 4\npair ,1 -\n', 'refused 18 script 0 2\n'),
    ('seats 4\npair 1,,2 -\n', 'refused 18 script 0 2\n'),
    ('seats 4\npair -,1 -\n', 'refused 18 script 0 2\n'),
    ('seats 4\npair -- -\n', 'refused 18 script 0 2\n'),
    ('seats 4\npair 1\n', 'refused 18 script 0 2\n'),
    ('seats 4\npair 1 2 3\n', 'refused 18 script 0 2\n'),
    ('seats 4\npair 1 2', 'refused 18 script 0 2\n'),
    # empty lines
    ('seats 4\n\ncount 0 0\n', 'refused 18 script 0 2\n'),
    ('seats 4\ncount 0 0\n\n', 'refused 18 script 0 3\n'),
    ('seats 4\ncount 0 0\nbits 0000\n\n', 'refused 18 script 0 4\n'),
    ('\n', 'refused 18 script 0 1\n'),
    # counts
    ('seats 4\ncount 0\n', 'refused 18 script 0 2\n'),
    ('seats 4\ncount 0 0 0\n', 'refused 18 script 0 2\n'),
    ('seats 4\ncount 1,1 0\n', 'refused 18 script 0 2\n'),
    ('seats 4\ncount 1000 0\n', 'refused 18 script 0 2\n'),
    ('seats 4\nCount 0 0\n', 'refused 18 script 0 2\n'),
    # bits
    ('seats 2\nbits\n', 'refused 18 script 0 2\n'),
    ('seats 2\nbits \n', 'refused 18 script 0 2\n'),
    ('seats 2\nbits 0 0\n', 'refused 18 script 0 2\n'),
    ('seats 2\nbits 0,0\n', 'refused 18 script 0 2\n'),
    ('seats 2\nbits 0x\n', 'refused 18 script 0 2\n'),
    ('seats 2\nbits -\n', 'refused 18 script 0 2\n'),
    ('seats 2\npair - 2\nbits 00', 'refused 18 script 0 3\n'),
    # false
    ('seats 2\nfalse\n', 'refused 18 script 0 2\n'),
    ('seats 2\nfalse 0\n', 'refused 18 script 0 2\n'),
    ('seats 2\nfalse 17\n', 'refused 18 script 0 2\n'),
    ('seats 2\nfalse 0001\n', 'refused 18 script 0 2\n'),
    ('seats 2\nfalse 1,2\n', 'refused 18 script 0 2\n'),
    ('seats 2\nfalse -\n', 'refused 18 script 0 2\n'),
    ('seats 2\nfalse 1 2\n', 'refused 18 script 0 2\n'),
    # last
    ('seats 2\nlast 1\n', 'refused 18 script 0 2\n'),
    ('seats 2\nlast 1 1 1\n', 'refused 18 script 0 2\n'),
    ('seats 2\nlast 0 1\n', 'refused 18 script 0 2\n'),
    ('seats 2\nlast 3 1\n', 'refused 18 script 0 2\n'),
    ('seats 16\nlast 17 1\n', 'refused 18 script 0 2\n'),
    ('seats 999\nlast 17 1\n', 'refused 18 script 0 2\n'),
    ('seats 0\nlast 1 1\n', 'refused 18 script 0 2\n'),
    ('seats 2\nlast 1 0\n', 'refused 18 script 0 2\n'),
    ('seats 2\nlast 1 000\n', 'refused 18 script 0 2\n'),
    ('seats 2\nlast 1 1000\n', 'refused 18 script 0 2\n'),
    ('seats 2\nlast 1 -\n', 'refused 18 script 0 2\n'),
    # tell
    ('seats 2\ntell 1 1 2\n', 'refused 18 script 0 2\n'),
    ('seats 2\ntell 1 1 2 0 0\n', 'refused 18 script 0 2\n'),
    ('seats 2\ntell 1 1 2 3\n', 'refused 18 script 0 2\n'),
    ('seats 2\ntell 1 1 2 00\n', 'refused 18 script 0 2\n'),
    ('seats 2\ntell 1 1 2 --\n', 'refused 18 script 0 2\n'),
    ('seats 2\ntell 1 1 2 \n', 'refused 18 script 0 2\n'),
    ('seats 2\ntell 1 0 2 0\n', 'refused 18 script 0 2\n'),
    ('seats 2\ntell 1 1 17 0\n', 'refused 18 script 0 2\n'),
    ('seats 2\ntell 1 1,2 2 0\n', 'refused 18 script 0 2\n'),
    ('seats 2\ntell - 1 2 0\n', 'refused 18 script 0 2\n'),
    ('seats 2\ntell 1000 1 2 0\n', 'refused 18 script 0 2\n'),
]

REFUSED_PLACES = [
    # lines in a wrong place
    ('pair 1 -\nseats 4\n', 'refused 19 script 0 1\n'),
    ('count 0 0\n', 'refused 19 script 0 1\n'),
    ('bits 0\nseats 1\n', 'refused 19 script 0 1\n'),
    ('false 16\nseats 1\n', 'refused 19 script 0 1\n'),
    ('last 16 1\nseats 1\n', 'refused 19 script 0 1\n'),
    ('tell 0 16 1 -\nseats 1\n', 'refused 19 script 0 1\n'),
    ('seats 4\nseats 4\ncount 0 0\n', 'refused 19 script 0 2\n'),
    ('seats 4\ncount 0 0\ncount 0 0\n', 'refused 19 script 0 3\n'),
    ('seats 4\npair 1 -\nseats 5\n', 'refused 19 script 0 3\n'),
    ('seats 2\nbits 00\npair - 2\nbits 00\n', 'refused 19 script 0 4\n'),
    ('seats 2\nfalse 1\nfalse 2\nfalse 01\n', 'refused 19 script 0 4\n'),
    ('seats 2\nlast 1 1\nlast 2 1\nlast 001 2\n', 'refused 19 script 0 4\n'),
    ('seats 2\nfalse 16\nfalse 16\n', 'refused 19 script 0 3\n'),
    # what is missing
    ('', 'refused 19 script 0 0\n'),
    ('seats 4\n', 'refused 19 script 0 0\n'),
    ('seats 999\n', 'refused 19 script 0 0\n'),
    ('seats 2\npair - 2\n', 'refused 19 script 0 0\n'),
    ('seats 2\ncount 0 0\nfalse 1\nlast 1 1\n', 'refused 19 script 0 0\n'),
    ('seats 2\nbits 00\n', 'refused 19 script 0 0\n'),
    ('seats 2\nbits 00\nfalse 1\ntell 1 1 2 0\n', 'refused 19 script 0 0\n'),
    # two causes at once, one in a line: the first in order is told
    ('pair x -\n', 'refused 18 script 0 1\n'),
    ('last 17 1\n', 'refused 18 script 0 1\n'),
    ('last 1 0\n', 'refused 18 script 0 1\n'),
    ('count 0 0\nx\n', 'refused 19 script 0 1\n'),
    ('seats 4\nx\nseats 4\n', 'refused 18 script 0 2\n'),
    ('seats 4\nseats 4\nx\n', 'refused 19 script 0 2\n'),
    ('seats 4\nseats 4', 'refused 18 script 0 2\n'),
    ('seats 2\nbits 00\nbits x\n', 'refused 18 script 0 3\n'),
    ('seats 2\nlast 1 1\nlast 1 0\n', 'refused 18 script 0 3\n'),
    ('seats 2\nlast 1 1\nlast 1 1\nlast 3 1\n', 'refused 19 script 0 3\n'),
    ('seats 2\nlast 3 1\nlast 3 1\n', 'refused 18 script 0 2\n'),
    ('seats 2\nfalse 1\nfalse 1\nfalse 0\n', 'refused 19 script 0 3\n'),
    ('seats 17\n', 'refused 19 script 0 0\n'),
    ('seats 17\nx\n', 'refused 18 script 0 2\n'),
    ('seats 17\nseats 17\n', 'refused 19 script 0 2\n'),
    ('seats 17\nlast 16 1\n', 'refused 19 script 0 0\n'),
    ('seats 0\npair 1 1\n', 'refused 19 script 0 0\n'),
    ('seats 4\ncount 2 1\nx\n', 'refused 18 script 0 3\n'),
    ('seats 4\npair 5 -\nseats 4\n', 'refused 19 script 0 3\n'),
    ('seats 2\npair - 1,2\ncount 0 0\ncount 0 0\n', 'refused 19 script 0 4\n'),
    ('seats 4\ncount 1 2\npair 0 -\n', 'refused 18 script 0 3\n'),
    ('seats 2\nbits 2\nfalse 3\ntell 0 1 2 -\n', 'refused 19 script 0 0\n'),
    ('seats 2\ncount 0 0\nbits 2\nx\n', 'refused 18 script 0 4\n'),
    ('seats 2\ncount 0 0\nbits 2\nbits 2\n', 'refused 19 script 0 4\n'),
]

# a first part, a line that follows it so many times, a last part, and the report
REPEATED = [
    ('seats 16\n', 'pair 1,2 3\n', 64, 'bits 1111111111111111\n', calm_report(16, 192, 1)),
    ('seats 16\n', 'pair 1,2 3\n', 65, 'bits 1111111111111111\n', 'refused 2 rule 0 0\n'),
    ('seats 17\n', 'pair 1 -\n', 65, 'bits 0\n', 'refused 1 rule 0 1\n'),
    ('seats 4\n', 'pair 5 -\n', 65, 'bits 0\n', 'refused 2 rule 0 0\n'),
    ('seats 4\n', 'pair 1 1\n', 65, 'bits 0\n', 'refused 2 rule 0 0\n'),
    ('seats 2\n', 'pair - 1,2\n', 65, 'bits 0\n', 'refused 2 rule 0 0\n'),
    ('seats 2\ncount 2 2\n', 'pair - 1,2\n', 65, 'bits 2\n', 'refused 2 rule 0 0\n'),
    ('seats 2\n', 'pair - 2\n', 65, '', 'refused 19 script 0 0\n'),
    # a triple that covers only with the last of 64 pairs
    ('seats 2\n', 'pair - 1\n', 63, 'pair 1 2\nbits 00\n', 'refused 5 rule 64,64,64 0\n'),
    ('seats 2\n', 'pair 1 -\n', 63, 'pair 2 -\nbits 00\n', 'refused 5 rule 1,1,64 0\n'),
    ('seats 999\nbits 0\n', 'pair 1,2,3,4,5,6,7,8,9,10,11 -\n', 256, '', 'refused 1 rule 0 1\n'),
    ('seats 999\nbits 0\n', 'pair 1,2,3,4,5,6,7,8,9,10,11 -\n', 264, '', 'refused 20 script 0 0\n'),
    ('x\n', 'pair 1 -\n', 911, '', 'refused 20 script 0 0\n'),
    ('seats 4\n', 'seats 4\n', 1024, '', 'refused 20 script 0 0\n'),
    ('seats 4\n', 'seats 4\n', 1023, '', 'refused 19 script 0 2\n'),
    # many deliveries, and many bits
    ('seats 2\npair - 2\nbits 00\n', 'tell 1 1 1 -\n', 600, '', calm_report(2, 6, 0)),
    ('seats 2\npair - 2\nbits 00\n', 'tell 1 1 1 -\n', 600, 'tell 0 1 1 -\n',
     'refused 16 crew 601 604\n'),
    ('seats 2\npair - 2\nbits ', '0', 2000, '\n', 'refused 14 crew 0 3\n'),
    ('seats 2\npair - 2\nbits ', '9', 257, '\n', 'refused 14 crew 0 3\n'),
]

# scripts of just so many bytes, which would run to the end with the verdict 1
LIMIT = [
    (8191, calm_report(2, 6, 1)),
    (8192, calm_report(2, 6, 1)),
    (8193, "refused 20 script 0 0\n"),
]


def long_script(length, tail="bits 11\n"):
    """A script of just so many bytes, with one long pair (-, {2})."""
    head = "seats 2\npair - 2"
    left = length - len(head) - len("\n" + tail)
    return head + ",2" * (left // 2 - 1) + (",02" if left % 2 else ",2") + "\n" + tail


def script_cases():
    parts = [WITHOUT_FAULTS, TWO_PROCESSES, FOUR_PROCESSES, SIXTEEN_PROCESSES, REFUSED_RULES,
             REFUSED_RUNS, REFUSED_FORMS, REFUSED_PLACES]
    for part in parts:
        yield from part
    for first, line, count, last, report in REPEATED:
        yield first + line * count + last, report
    for length, report in LIMIT:
        script = long_script(length)
        assert len(script) == length
        yield script, report


# Lists of calls: a first part, and calls with their answers

LISTS = [
    # questions to resting processes, and processes that are not there
    ('seats 2\npair - 2\n', [
        ('1 verdict', 'verdict -'),
        ('2 standing', 'standing -'),
        ('0 verdict', 'absent'),
        ('3 standing', 'absent'),
        ('999 start 1 0', 'absent'),
        ('000 speak', 'absent'),
        ('17 hear 1 1 0', 'absent'),
        ('3 shut', 'absent'),
    ]),
    # no rounds: decided at once
    ('seats 1\ncount 0 0\n', [
        ('1 standing', 'standing -'),
        ('1 start 2 1', 'refused 9 oar 2'),
        ('1 start 1 1', 'started'),
        ('1 standing', 'standing 1 0 - 0'),
        ('1 verdict', 'verdict 1'),
        ('1 speak', 'refused 8 oar 0'),
        ('1 hear 1 1 0', 'refused 8 oar 0'),
        ('1 shut', 'refused 8 oar 0'),
        ('1 start 1 0', 'refused 8 oar 0'),
        ('1 verdict', 'verdict 1'),
    ]),
    # every refusal with its place and in its order, over all six rounds of process 1
    ('seats 2\npair - 2\n', [
        ('1 speak', 'refused 8 oar 0'),
        ('1 hear 2 1 0', 'refused 8 oar 0'),
        ('1 shut', 'refused 8 oar 0'),
        ('1 start 0 0', 'refused 9 oar 0'),
        ('1 start 3 0', 'refused 9 oar 3'),
        ('1 start 255 2', 'refused 9 oar 255'),
        ('1 start 1 2', 'refused 10 oar 1'),
        ('1 start 2 255', 'refused 10 oar 2'),
        ('1 standing', 'standing -'),
        ('1 start 1 0', 'started'),
        ('1 standing', 'standing 0 0 - 0'),
        ('1 start 3 2', 'refused 8 oar 0'),
        ('1 hear 2 1 0', 'refused 8 oar 0'),
        ('1 hear 3 9 0', 'refused 8 oar 0'),
        ('1 shut', 'refused 8 oar 0'),
        ('1 speak', 'spoke 0'),
        ('1 speak', 'refused 8 oar 0'),
        ('1 start 1 0', 'refused 8 oar 0'),
        ('1 hear 1 1 0', 'refused 9 oar 1'),
        ('1 hear 1 2 0', 'refused 9 oar 1'),
        ('1 hear 0 1 0', 'refused 9 oar 0'),
        ('1 hear 3 9 0', 'refused 9 oar 3'),
        ('1 hear 255 1 0', 'refused 9 oar 255'),
        ('1 hear 2 0 0', 'refused 11 oar 2'),
        ('1 hear 2 2 0', 'refused 11 oar 2'),
        ('1 hear 2 257 0', 'refused 11 oar 2'),
        ('1 hear 002 001 000', 'heard'),
        ('1 hear 2 1 1', 'refused 13 oar 2'),
        ('1 hear 2 2 0', 'refused 11 oar 2'),
        ('1 shut', 'shut'),
        # both said 0
        ('1 standing', 'standing 0 1 - 0'),
        ('1 verdict', 'verdict -'),
        ('1 hear 2 2 0', 'refused 8 oar 0'),
        ('1 speak', 'spoke 0'),
        ('1 hear 2 2 3', 'heard'),
        ('1 hear 2 2 0', 'refused 13 oar 2'),
        ('1 shut', 'shut'),
        # 3 is above 2: process 2 is detected, which is no omission
        ('1 standing', 'standing 0 2 2 0'),
        # process 1 is king, so nobody else is heard in round 3
        ('1 speak', 'spoke 0'),
        ('1 hear 2 3 0', 'refused 12 oar 2'),
        ('1 hear 2 2 0', 'refused 11 oar 2'),
        ('1 hear 1 3 0', 'refused 9 oar 1'),
        ('1 shut', 'shut'),
        ('1 standing', 'standing 0 3 2 0'),
        # an omission in round 4, though process 2 is detected already
        ('1 speak', 'spoke 0'),
        ('1 shut', 'shut'),
        ('1 standing', 'standing 0 4 2 1'),
        # a detected process says 1, which does not count
        ('1 speak', 'spoke 0'),
        ('1 hear 2 5 1', 'heard'),
        ('1 shut', 'shut'),
        ('1 standing', 'standing 0 5 2 1'),
        # king 2 is not followed, since nobody said 2 in round 5
        ('1 speak', 'spoke -'),
        ('1 hear 1 6 1', 'refused 9 oar 1'),
        ('1 hear 2 6 1', 'heard'),
        ('1 hear 2 6 1', 'refused 13 oar 2'),
        ('1 verdict', 'verdict -'),
        ('1 shut', 'shut'),
        ('1 verdict', 'verdict 0'),
        ('1 standing', 'standing 0 6 2 1'),
        ('1 speak', 'refused 8 oar 0'),
        ('1 hear 2 7 1', 'refused 8 oar 0'),
        ('1 shut', 'refused 8 oar 0'),
        ('1 start 1 0', 'refused 8 oar 0'),
        ('2 verdict', 'verdict -'),
    ]),
    # A start gives the number: the second process is number 1, and king in round 3.
    ('seats 2\npair - 2\n', [
        ('2 start 1 1', 'started'),
        ('1 standing', 'standing -'),
        ('2 speak', 'spoke 1'),
        ('2 hear 1 1 1', 'refused 9 oar 1'),
        ('2 hear 2 1 1', 'heard'),
        ('2 shut', 'shut'),
        ('2 speak', 'spoke 1'),
        ('2 shut', 'shut'),
        # process 2 is missed in round 2 and detected; process 1 alone says 1 and cannot lie
        ('2 standing', 'standing 1 2 2 1'),
        ('2 speak', 'spoke 1'),
        ('2 shut', 'shut'),
        ('2 standing', 'standing 1 3 2 1'),
    ]),
    # First rounds under count 1 1.  No word from process 4: it may be the one faulty process.
    ('seats 4\ncount 1 1\n', [
        ('1 start 1 0', 'started'),
        ('1 speak', 'spoke 0'),
        ('1 hear 3 1 0', 'heard'),
        ('1 hear 2 1 0', 'heard'),
        ('1 shut', 'shut'),
        ('1 standing', 'standing 0 1 4 1'),
        # a word 2 from process 4: the same, but no omission
        ('2 start 1 0', 'started'),
        ('2 speak', 'spoke 0'),
        ('2 hear 2 1 0', 'heard'),
        ('2 hear 3 1 0', 'heard'),
        ('2 hear 4 1 2', 'heard'),
        ('2 shut', 'shut'),
        ('2 standing', 'standing 0 1 4 0'),
        # process 4 says 1 and may be lying
        ('3 start 1 0', 'started'),
        ('3 speak', 'spoke 0'),
        ('3 hear 2 1 0', 'heard'),
        ('3 hear 3 1 0', 'heard'),
        ('3 hear 4 1 1', 'heard'),
        ('3 shut', 'shut'),
        ('3 standing', 'standing 0 1 - 0'),
        # it is process 1 itself that may be lying
        ('4 start 1 0', 'started'),
        ('4 speak', 'spoke 0'),
        ('4 hear 2 1 1', 'heard'),
        ('4 hear 3 1 1', 'heard'),
        ('4 hear 4 1 1', 'heard'),
        ('4 shut', 'shut'),
        ('4 standing', 'standing 1 1 - 0'),
    ]),
    # More first rounds: two and two; two detected, which is more than the rule holds; one
    # detected and one that differs, which is too much as well; everybody else detected.
    ('seats 4\ncount 1 1\n', [
        ('1 start 1 0', 'started'),
        ('1 speak', 'spoke 0'),
        ('1 hear 2 1 0', 'heard'),
        ('1 hear 3 1 1', 'heard'),
        ('1 hear 4 1 1', 'heard'),
        ('1 shut', 'shut'),
        ('1 standing', 'standing 2 1 - 0'),
        ('2 start 2 0', 'started'),
        ('2 speak', 'spoke 0'),
        ('2 hear 1 1 0', 'heard'),
        ('2 hear 4 1 255', 'heard'),
        ('2 shut', 'shut'),
        ('2 standing', 'standing 2 1 3,4 1'),
        ('3 start 3 0', 'started'),
        ('3 speak', 'spoke 0'),
        ('3 hear 1 1 3', 'heard'),
        ('3 hear 2 1 0', 'heard'),
        ('3 hear 4 1 1', 'heard'),
        ('3 shut', 'shut'),
        ('3 standing', 'standing 2 1 1 0'),
        ('4 start 4 1', 'started'),
        ('4 speak', 'spoke 1'),
        ('4 shut', 'shut'),
        ('4 standing', 'standing 2 1 1,2,3 3'),
        ('4 speak', 'spoke 2'),
    ]),
    # Second rounds under count 1 1: both 0 and 1 from more than may lie give 0, whatever the
    # process itself says.
    ('seats 4\ncount 1 1\n', [
        ('1 start 1 1', 'started'),
        ('1 speak', 'spoke 1'),
        ('1 hear 2 1 1', 'heard'),
        ('1 hear 3 1 1', 'heard'),
        ('1 hear 4 1 1', 'heard'),
        ('1 shut', 'shut'),
        ('1 speak', 'spoke 1'),
        ('1 hear 2 2 1', 'heard'),
        ('1 hear 3 2 0', 'heard'),
        ('1 hear 4 2 0', 'heard'),
        ('1 shut', 'shut'),
        ('1 standing', 'standing 0 2 - 0'),
        # one 0, one 1 and two 2: no value, and king 1 is followed
        ('2 start 2 1', 'started'),
        ('2 speak', 'spoke 1'),
        ('2 hear 1 1 1', 'heard'),
        ('2 hear 3 1 1', 'heard'),
        ('2 hear 4 1 1', 'heard'),
        ('2 shut', 'shut'),
        ('2 speak', 'spoke 1'),
        ('2 hear 1 2 0', 'heard'),
        ('2 hear 3 2 2', 'heard'),
        ('2 hear 4 2 2', 'heard'),
        ('2 shut', 'shut'),
        ('2 standing', 'standing 2 2 - 0'),
        ('2 speak', 'spoke -'),
        ('2 hear 1 3 0', 'heard'),
        ('2 shut', 'shut'),
        ('2 standing', 'standing 0 3 - 0'),
        # two 1 and two 2: the value 1, but the king's 0 is followed
        ('3 start 3 1', 'started'),
        ('3 speak', 'spoke 1'),
        ('3 hear 1 1 1', 'heard'),
        ('3 hear 2 1 1', 'heard'),
        ('3 hear 4 1 1', 'heard'),
        ('3 shut', 'shut'),
        ('3 speak', 'spoke 1'),
        ('3 hear 1 2 1', 'heard'),
        ('3 hear 2 2 2', 'heard'),
        ('3 hear 4 2 2', 'heard'),
        ('3 shut', 'shut'),
        ('3 standing', 'standing 1 2 - 0'),
        ('3 speak', 'spoke -'),
        ('3 hear 1 3 0', 'heard'),
        ('3 shut', 'shut'),
        ('3 standing', 'standing 0 3 - 0'),
        # three 1 and one 2: the value 1, and the king is not followed
        ('4 start 4 1', 'started'),
        ('4 speak', 'spoke 1'),
        ('4 hear 1 1 1', 'heard'),
        ('4 hear 2 1 1', 'heard'),
        ('4 hear 3 1 1', 'heard'),
        ('4 shut', 'shut'),
        ('4 speak', 'spoke 1'),
        ('4 hear 1 2 2', 'heard'),
        ('4 hear 2 2 1', 'heard'),
        ('4 hear 3 2 1', 'heard'),
        ('4 shut', 'shut'),
        ('4 speak', 'spoke -'),
        ('4 hear 2 3 0', 'refused 12 oar 2'),
        ('4 shut', 'shut'),
        ('4 standing', 'standing 1 3 - 1'),
    ]),
    # Other lines of a script have no effect, though no run would have these.
    ('seats 2\nbits 9\nfalse 16\nlast 1 999\npair - 2\ntell 0 16 16 -\n', [
        ('1 start 1 1', 'started'),
        ('1 standing', 'standing 1 0 - 0'),
    ]),
    # An intersection: the list holds ({1}, -) and the threshold does not, so a lone word of
    # process 1 gives 2; the other process hears under the same rule.
    ('seats 3\ncount 0 0\npair 1 -\n', [
        ('2 start 2 0', 'started'),
        ('2 speak', 'spoke 0'),
        ('2 hear 1 1 1', 'heard'),
        ('2 hear 3 1 0', 'heard'),
        ('2 shut', 'shut'),
        ('2 standing', 'standing 2 1 - 0'),
    ]),
    ('seats 3\npair 1 -\n', [
        ('2 start 2 0', 'started'),
        ('2 speak', 'spoke 0'),
        ('2 hear 1 1 1', 'heard'),
        ('2 hear 3 1 0', 'heard'),
        ('2 shut', 'shut'),
        ('2 standing', 'standing 0 1 - 0'),
    ]),
    ('seats 2\npair - 2\n', []),
]

# A process that follows king 1 into round 3: different bits give 2 in round 1, and two 2 in
# round 2.  Then the king's word (None for none), the value that comes of it, and the omissions.
FOLLOWED = [
    (0, 0, 0),
    (1, 1, 0),
    (2, 1, 0),
    (3, 0, 0),
    (128, 0, 0),
    (255, 0, 0),
    (None, 0, 1),
]


def followed_list(word, value, omissions):
    hear = [] if word is None else [(f'2 hear 1 3 {word}', 'heard')]
    return 'seats 2\npair - 2\n', [
        ('2 start 2 1', 'started'),
        ('2 speak', 'spoke 1'),
        ('2 hear 1 1 0', 'heard'),
        ('2 shut', 'shut'),
        ('2 speak', 'spoke 2'),
        ('2 hear 1 2 2', 'heard'),
        ('2 shut', 'shut'),
        ('2 standing', 'standing 2 2 - 0'),
        ('2 speak', 'spoke -'),
        *hear,
        ('2 shut', 'shut'),
        ('2 standing', f'standing {value} 3 - {omissions}'),
    ]


RULE = 'seats 2\npair - 2\n'

# whole inputs that are not performed: no line `calls`, a refused first part, a malformed line
NOT_PERFORMED = [
    ('', 'malformed 1\n'),
    ('calls', 'malformed 1\n'),
    ('\n', 'malformed 2\n'),
    (RULE, 'malformed 3\n'),
    (RULE + 'calls', 'malformed 3\n'),
    (RULE + 'calls\r\n', 'malformed 4\n'),
    (RULE + 'calls \n1 speak\n', 'malformed 5\n'),
    (RULE + '1 speak\n', 'malformed 4\n'),
    ('x\n', 'malformed 2\n'),
    ('seats 17\n', 'malformed 2\n'),
    # the first part
    ('calls\n', 'refused 19 script 0 0\n'),
    ('seats 2\ncalls\n', 'refused 19 script 0 0\n'),
    ('seats 2\nbits 00\ncalls\n', 'refused 19 script 0 0\n'),
    ('pair - 2\ncalls\n', 'refused 19 script 0 1\n'),
    (RULE + 'seats 2\ncalls\n', 'refused 19 script 0 3\n'),
    (RULE + 'bits 00\nbits 00\ncalls\n', 'refused 19 script 0 4\n'),
    (RULE + 'false 1\nfalse 1\ncalls\n', 'refused 19 script 0 4\n'),
    (RULE + 'last 3 1\ncalls\n', 'refused 18 script 0 3\n'),
    ('x\ncalls\n', 'refused 18 script 0 1\n'),
    ('seats 2\n\ncalls\n', 'refused 18 script 0 2\n'),
    (RULE + 'calls \ncalls\n', 'refused 18 script 0 3\n'),
    (RULE + '1 speak\ncalls\n', 'refused 18 script 0 3\n'),
    ('seats 17\npair - 2\ncalls\n', 'refused 1 rule 0 1\n'),
    ('seats 2\n' + 'pair - 2\n' * 65 + 'calls\n', 'refused 2 rule 0 0\n'),
    ('seats 2\npair - 2\npair 3 -\ncalls\n', 'refused 3 rule 2 3\n'),
    ('seats 2\npair 1 1\ncalls\n', 'refused 4 rule 1 2\n'),
    ('seats 2\npair - 1,2\ncalls\n', 'refused 5 rule 1,1,1 0\n'),
    ('seats 2\ncount 0 1\ncalls\n', 'refused 6 rule 0 2\n'),
    ('seats 2\npair - 2\ncount 2 0\ncalls\n', 'refused 7 rule 0 3\n'),
    (long_script(8193, '') + 'calls\n', 'refused 20 script 0 0\n'),
    (long_script(8192, '') + 'calls\n', ''),
    (long_script(8192, '') + 'calls\n1 verdict\n', 'verdict -\n'),
    (RULE + 'calls\n' + '1 verdict\n' * 820, 'verdict -\n' * 820),
    # malformed lines, in which nothing is performed
    (RULE + 'calls\n1 start 1 1\nx\n', 'malformed 5\n'),
    (RULE + 'calls\n\n', 'malformed 4\n'),
    (RULE + 'calls\ncalls\n', 'malformed 4\n'),
    (RULE + 'calls\n1\n', 'malformed 4\n'),
    (RULE + 'calls\n1 \n', 'malformed 4\n'),
    (RULE + 'calls\nspeak\n', 'malformed 4\n'),
    (RULE + 'calls\n 1 speak\n', 'malformed 4\n'),
    (RULE + 'calls\n1 speak \n', 'malformed 4\n'),
    (RULE + 'calls\n1  speak\n', 'malformed 4\n'),
    (RULE + 'calls\n1\tspeak\n', 'malformed 4\n'),
    (RULE + 'calls\n1 speak\r\n', 'malformed 4\n'),
    (RULE + 'calls\n1 Speak\n', 'malformed 4\n'),
    (RULE + 'calls\n1 speak 1\n', 'malformed 4\n'),
    (RULE + 'calls\n1 shut 1\n', 'malformed 4\n'),
    (RULE + 'calls\n1 verdict 1\n', 'malformed 4\n'),
    (RULE + 'calls\n1 standing 1\n', 'malformed 4\n'),
    (RULE + 'calls\n1 start 1\n', 'malformed 4\n'),
    (RULE + 'calls\n1 start 1 0 0\n', 'malformed 4\n'),
    (RULE + 'calls\n1 start 256 0\n', 'malformed 4\n'),
    (RULE + 'calls\n1 start 1 256\n', 'malformed 4\n'),
    (RULE + 'calls\n1 start -1 0\n', 'malformed 4\n'),
    (RULE + 'calls\n1 start 0001 0\n', 'malformed 4\n'),
    (RULE + 'calls\n1 hear 2 1\n', 'malformed 4\n'),
    (RULE + 'calls\n1 hear 2 1 0 0\n', 'malformed 4\n'),
    (RULE + 'calls\n1 hear 256 1 0\n', 'malformed 4\n'),
    (RULE + 'calls\n1 hear 2 1000 0\n', 'malformed 4\n'),
    (RULE + 'calls\n1 hear 2 1 256\n', 'malformed 4\n'),
    (RULE + 'calls\n1 hear 2 1 -\n', 'malformed 4\n'),
    (RULE + 'calls\n1000 speak\n', 'malformed 4\n'),
    (RULE + 'calls\n+1 speak\n', 'malformed 4\n'),
    (RULE + 'calls\npair - 2\n', 'malformed 4\n'),
    (RULE + 'calls\n1 speak', 'malformed 4\n'),
    (RULE + 'calls\n1 speak\n1 shut', 'malformed 5\n'),
    (RULE + 'calls\n1 speak\nx\ny\n', 'malformed 5\n'),
    # two causes at once
    ('seats 17\npair - 2\ncalls\nx\n', 'refused 1 rule 0 1\n'),
    ('seats 17\npair - 2\ncalls\n1 speak', 'refused 1 rule 0 1\n'),
    ('x\ncalls\ncalls\n', 'refused 18 script 0 1\n'),
    ('x', 'malformed 1\n'),
    (long_script(8193, '') + 'calls\nx\n', 'refused 20 script 0 0\n'),
    (long_script(8193, ''), 'malformed 3\n'),
]


def call_cases():
    lists = LISTS + [followed_list(*followed) for followed in FOLLOWED]
    for first, made in lists:
        asked = "".join(call + "\n" for call, _ in made)
        yield first + "calls\n" + asked, "".join(answer + "\n" for _, answer in made)
    yield from NOT_PERFORMED


# Trying and writing


def encoded(cases):
    return [(given.encode(), expected.encode()) for given, expected in cases]


def show_wrong(name, cases, answer):
    """Try all cases; how many of them are wrong."""
    wrong = [(given, expected) for given, expected in cases if answer(given) != expected]
    for given, expected in wrong:
        print(f"{given[:300]!r}: {answer(given)!r}, and not {expected!r}")
    print(f"{len(cases)} {name}, {len(wrong)} wrong")
    return len(wrong)


def write(folder, cases):
    assert not any(b"\f" in given for given, _ in cases)
    Path(folder, "stdin").write_bytes(b"".join(given + b"\f" for given, _ in cases))
    Path(folder, "stdout").write_bytes(b"".join(expected for _, expected in cases))


def main():
    arguments = sys.argv[1:]
    if arguments and (len(arguments) != 2 or arguments[0] not in ("--write", "--write-calls")):
        print("usage: cases.py [--write DIR | --write-calls DIR]", file=sys.stderr)
        return 2
    of_scripts, of_calls = encoded(script_cases()), encoded(call_cases())
    wrong = show_wrong("scripts", of_scripts, agree.report)
    wrong += show_wrong("call lists", of_calls, calls.answers)
    if arguments:
        write(arguments[1], of_scripts if arguments[0] == "--write" else of_calls)
    return 1 if wrong else 0


if __name__ == "__main__":
    sys.exit(main())
