#!/usr/bin/env python3
"""What the program `codes` must write, worked out apart from the crate `code`: sets of words are big integers, every gain is counted
afresh at each step, and volumes come from math.comb. Run it (Python 3.10 or later, under a minute) from the repository's root:

    python3 crates/codes/expect.py > crates/codes/stdout
"""
from functools import reduce
from math import comb
from operator import or_

CELLS, BLANK = 4100, 43981


def balls(t, s):
    """for each word of length t the set of the words within s of it: those within s - 1 of it or of a neighbour"""
    ball = [1 << w for w in range(2 ** t)]
    for _ in range(s):
        ball = [reduce(or_, (ball[w ^ 1 << i] for i in range(t)), ball[w]) for w in range(2 ** t)]
    return ball


def greedy(t, s):
    ball, left, code = balls(t, s), (1 << 2 ** t) - 1, []
    while left:
        gains = [(left & b).bit_count() for b in ball]
        word = gains.index(max(gains))
        code.append(word)
        left &= ~ball[word]
    return code


def checksum(words):
    total = 0
    for w in words:
        total = (total * 31 + w + 1) % 1000003
    return total


def coded(t, s, cells):
    if not 1 <= t <= 12 or s > t:
        return 'refused 8 place 0 blank %d' % cells
    if cells < 2 ** t:
        return 'refused 9 place 0 blank %d' % cells
    words = greedy(t, s)
    return 'words %d sum %d blank %d' % (len(words), checksum(words), cells - len(words))


def volume(t, s):
    return sum(comb(t, i) for i in range(s + 1))


def floor(t, s):
    return -(-2 ** t // volume(t, s))


def measured(operation, t, s):
    return '%d' % operation(t, s) if max(t, s) <= 12 else 'refused 8 place 0'


def main():
    big = 2 ** 32 - 1
    for t, s in [(t, s) for t in range(14) for s in range(14)] + [(big, 0), (12, big), (big, big)]:
        print('code %d %d %s volume %s floor %s' % (t, s, coded(t, s, CELLS), measured(volume, t, s), measured(floor, t, s)))
    for t, s, cells in (1, 0, 0), (1, 1, 1), (1, 1, 2), (3, 1, 7), (3, 1, 8), (3, 4, 7), (12, 12, 4095), (12, 12, 4096):
        print('code %d %d %s' % (t, s, coded(t, s, cells)))
    words = greedy(4, 1)
    for result, number, place in (len(words), 0, 0), (0, 8, 0), (volume(12, 6), 0, 0), (0, 8, 0), (floor(4, 1), 0, 0), (0, 8, 0):
        print('reply', result, number, place)
    print('sum', checksum(words + [BLANK] * (CELLS - len(words))))


main()
