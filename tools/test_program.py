#!/usr/bin/env python3
"""Tests of the built program `clearing`, byte by byte of what it reads and prints: every kind of line, every refusal that it
can print with its place, the order of refusals, variables in every word of an assignment, which clauses and literals are tried
in a ball, and the rounds of a Horn sheet. The lines are worked out by hand from paper 01 and papers 4 to 7 and 9 of 02. Then
`tools/sheet solve` and `run.sh` over the same program, and `tools/sheet split` beside the library's splitting (paper 10 of 02),
by the C host that host/test.sh builds."""
import os
import random
import subprocess
import sys
import tempfile
import time
import unittest

ROOT = os.path.dirname(os.path.dirname(os.path.abspath(__file__)))
PROGRAM = os.path.join(ROOT, 'crates', 'clearing', 'out', 'clearing')
HOST = os.path.join(ROOT, 'target', 'host', 'clear')

# a header of batch 70000 with 3 variables, and the clauses (1 2)(-1 -3)(-3)
HEAD = [0xC0000001, 0xC0001170, 0x80000003]
CLAUSES = [0x40000002, 2, 4, 0x40000002, 3, 7, 0x40000001, 7]
OPPOSITES = [0xC0000000, 0xC0000007, 0x80000001, 0x40000001, 2, 0x40000001, 3]
# (1 2)(1 -2)(-1 2)(-1 -2)
ALL_FOUR = [0xC000FFFF, 0xC000FFFF, 0x80000002] + [0x40000002, 2, 4, 0x40000002, 2, 5, 0x40000002, 3, 4, 0x40000002, 3, 5]
# (1)(2 3)(-1): a flip of 1 would make the last clause dead
LATER_DEAD = [0xC0000000, 0xC0000004, 0x80000003, 0x40000001, 2, 0x40000002, 4, 6, 0x40000001, 3]
# the variables at both ends of each word, and the marks where one of them alone is paid; 127 is the last one of n 127
ENDS = [1, 32, 33, 64, 65, 96, 97, 128]
ALONE = {1: '1 0 0 0', 32: '2147483648 0 0 0', 33: '0 1 0 0', 64: '0 2147483648 0 0', 65: '0 0 1 0', 96: '0 0 2147483648 0',
         97: '0 0 0 1', 127: '0 0 0 1073741824', 128: '0 0 0 2147483648'}
ALL_ENDS = '2147483649 2147483649 2147483649 2147483649'
# Two positive literals, which no Horn sheet has, and true throughout: the centres concerned have 2 and 3 alike, and nothing flips them.
# So a sheet goes to the balls, and they find what they would without it. Rows that use 2, 3 or 4 have such a clause of their own
FOR_BALLS = [-2, 3, 4]
# the plans that the papers allow
PLANS = [(b, s) for b in range(1, 13) for s in range(b + 1)]


def bytes_of(words):
    return b''.join(w.to_bytes(4, 'little') for w in words)


def sheet(n, *clauses):
    """A sheet of batch 5 from clauses of numbers, a negative literal as a minus."""
    words = [0xC0000000, 0xC0000005, 0x80000000 + n]
    for clause in clauses:
        words += [0x40000000 + len(clause)] + [2 * abs(l) + (l < 0) for l in clause]
    return words


def units(n, literals, *more):
    return sheet(n, *([l] for l in literals), *more)


def chain(*variables):
    """The first variable as a fact, and a clause from each variable to the next."""
    return [[variables[0]]] + [[-u, v] for u, v in zip(variables, variables[1:])]


def far_from_most(n, *more):
    """The one assignment that meets these clauses pays, in blocks of 11, the first 5 variables of each but the last, and the whole
    of the last."""
    last = (n - 1) // 11 * 11
    return units(n, [v if v > last or (v - 1) % 11 < 5 else -v for v in range(1, n + 1)], *more)


def paid(*variables):
    """The marks where these variables alone are paid."""
    return ' '.join(str(sum(1 << (v - 1) % 32 for v in variables if (v - 1) // 32 == word)) for word in range(4))


def printed(data):
    ran = subprocess.run([PROGRAM], input=data, capture_output=True)
    return ran.returncode, ran.stdout.decode(), ran.stderr.decode()


class Lines(unittest.TestCase):
    def prints(self, data, line):
        self.assertEqual(printed(data), (0, line + '\n', ''))

    def prints_for(self, plan, words, line):
        self.prints(bytes_of(plan + words), line)


class Program(Lines):
    def test_clear(self):
        self.prints_for([3, 1, 9], HEAD + CLAUSES, 'batch 70000 ball clear calls 2 marks 1 0 0 0')
        self.prints_for([3, 1, 1], [0xC0000000, 0xC0000000, 0x80000000], 'batch 0 horn clear calls 1 marks 0 0 0 0')
        self.prints_for([1, 0, 0xFFFFFFFF], [0xC000FFFF, 0xC000FFFF, 0x80000020], 'batch 4294967295 horn clear calls 1 marks 0 0 0 0')

    def test_none(self):
        self.prints_for([3, 1, 9], [0xC0000000, 0xC0000000, 0x80000000, 0x40000000], 'batch 0 horn none calls 1 marks 0 0 0 0')
        for plan in ([1, 1], [1, 0]):
            self.prints_for(plan + [2], OPPOSITES, 'batch 7 horn none calls 2 marks 0 0 0 0')
        self.prints_for([2, 1, 6], ALL_FOUR, 'batch 4294967295 ball none calls 6 marks 0 0 0 0')
        for budget in (3, 4, 5):
            self.prints_for([2, 2, budget], ALL_FOUR, 'batch 4294967295 ball none calls 3 marks 0 0 0 0')

    def test_spent(self):
        for plan in ([1, 1], [1, 0]):
            self.prints_for(plan + [0], OPPOSITES, 'batch 7 horn spent calls 0 marks 0 0 0 0')
            self.prints_for(plan + [1], OPPOSITES, 'batch 7 horn spent calls 1 marks 0 0 0 0')
        self.prints_for([2, 1, 5], ALL_FOUR, 'batch 4294967295 ball spent calls 5 marks 0 0 0 0')
        self.prints_for([2, 2, 2], ALL_FOUR, 'batch 4294967295 ball spent calls 2 marks 0 0 0 0')
        self.prints_for([3, 1, 0], HEAD + CLAUSES, 'batch 70000 ball spent calls 0 marks 0 0 0 0')

    def test_dead(self):
        # a literal whose flip makes a clause dead has a lone opposite, and is not tried
        self.prints_for([3, 3, 1], LATER_DEAD, 'batch 4 ball none calls 1 marks 0 0 0 0')
        self.prints_for([3, 3, 0], LATER_DEAD, 'batch 4 ball spent calls 0 marks 0 0 0 0')
        # so that a dead clause is an empty one: wherever it stands, nothing is tried from any centre
        for clauses in ([[1], [2, 3], []], [[1], [], [2, 3]], [[], [1], [2, 3]]):
            self.prints_for([3, 3, 9], sheet(3, *clauses), 'batch 5 ball none calls 1 marks 0 0 0 0')
            self.prints_for([3, 1, 9], sheet(3, *clauses), 'batch 5 ball none calls 2 marks 0 0 0 0')

    def test_1_length(self):
        self.prints(bytes_of([3, 1, 9] + HEAD) + b'\0', 'refused 1 place 0')
        self.prints(bytes_of([3, 1, 9]) + b'\0' * 5, 'refused 1 place 0')

    def test_2_header(self):
        self.prints_for([3, 1, 9], [], 'refused 2 place 0')
        self.prints_for([3, 1, 9], HEAD[:2], 'refused 2 place 0')

    def test_3_kind(self):
        for at in range(len(HEAD)):
            self.prints_for([3, 1, 9], HEAD[:at] + [0x40000000] + HEAD[at + 1:], 'refused 3 place %d' % at)
        self.prints_for([3, 1, 9], HEAD + [2], 'refused 3 place 3')
        self.prints_for([3, 1, 9], HEAD + [0x40000002, 2, 0x80000004], 'refused 3 place 5')

    def test_4_end(self):
        self.prints_for([3, 1, 9], HEAD + [0x40000002], 'refused 4 place 4')
        self.prints_for([3, 1, 9], HEAD + [0x40000002, 2], 'refused 4 place 5')

    def test_5_limit(self):
        self.prints_for([3, 1, 9], [0xC0010000] + HEAD[1:], 'refused 5 place 0')
        self.prints_for([3, 1, 9], [0xC0000001, 0xC0010000, 0x80000003], 'refused 5 place 1')
        for n in (129, 160, 256, 0x3FFFFFFF):
            self.prints_for([3, 1, 9], HEAD[:2] + [0x80000000 + n], 'refused 5 place 2')
        for n in (32, 33, 127, 128):
            self.prints_for([3, 1, 9], HEAD[:2] + [0x80000000 + n], 'batch 70000 horn clear calls 1 marks 0 0 0 0')
        self.prints_for([3, 1, 9], HEAD + [0x40000009], 'refused 5 place 3')
        self.prints_for([3, 1, 9], HEAD + [0x40000000] * 1025, 'refused 5 place 1027')

    def test_5_overlong(self):
        # the longest sheet: 1,024 clauses of 8 literals, all of them (1 2 3 4 5 6 7 8)
        longest = [0xC0000000, 0xC0000000, 0x80000008] + [0x40000008, 2, 4, 6, 8, 10, 12, 14, 16] * 1024
        self.assertEqual(4 * len(longest), 36876)
        self.prints_for([8, 1, 9], longest, 'batch 0 ball clear calls 2 marks 1 0 0 0')
        wide = [0xC0000000, 0xC0000000, 0x80000080] + [0x40000008, 2, 64, 66, 128, 130, 192, 194, 256] * 1024
        self.prints_for([8, 1, 9], wide, 'batch 0 ball clear calls 2 marks 1 0 0 0')
        for more in (1, 2, 4, 5, 70000):
            self.prints(bytes_of([8, 1, 9] + longest) + b'\0' * more, 'refused 5 place 9219')

    def test_6_variable(self):
        self.prints_for([3, 1, 9], HEAD + [0x40000001, 0], 'refused 6 place 4')
        self.prints_for([3, 1, 9], HEAD + [0x40000001, 1], 'refused 6 place 4')
        self.prints_for([3, 1, 9], HEAD + [0x40000002, 2, 8], 'refused 6 place 5')
        for n in (31, 32, 33, 64, 96, 127, 128):
            self.prints_for([3, 1, 9], sheet(n, [n + 1]), 'refused 6 place 4')
            self.prints_for([3, 1, 9], sheet(n, [-n - 1]), 'refused 6 place 4')

    def test_7_twice(self):
        self.prints_for([3, 1, 9], HEAD + [0x40000002, 2, 2], 'refused 7 place 5')
        self.prints_for([3, 1, 9], HEAD + [0x40000003, 2, 4, 3], 'refused 7 place 6')
        for v in ALONE:
            self.prints_for([3, 1, 9], sheet(128, [v, v]), 'refused 7 place 5')
            self.prints_for([3, 1, 9], sheet(128, [2, v, -v]), 'refused 7 place 6')

    def test_8_plan(self):
        for plan in ([0, 0, 9], [13, 1, 9], [3, 4, 9], [0xFFFFFFFF, 0, 9], [12, 0xFFFFFFFF, 9]):
            self.prints_for(plan, HEAD + CLAUSES, 'refused 8 place 0')
            # the plan goes before the sheet
            self.prints(bytes_of(plan) + b'\0' * 7, 'refused 8 place 0')
            self.prints(bytes_of(plan) + b'\0' * 40000, 'refused 8 place 0')

    def test_8_short_input(self):
        for length in range(12):
            self.prints(bytes_of([3, 1, 9])[:length], 'refused 8 place 0')

    def test_input_in_pieces(self):
        data = bytes_of([3, 1, 9] + HEAD + CLAUSES)
        with subprocess.Popen([PROGRAM], stdin=subprocess.PIPE, stdout=subprocess.PIPE) as running:
            for piece in (data[:5], data[5:13], data[13:]):
                running.stdin.write(piece)
                running.stdin.flush()
                time.sleep(0.05)
            self.assertEqual(running.communicate()[0], b'batch 70000 ball clear calls 2 marks 1 0 0 0\n')


class FourWords(Lines):
    """Variables up to 128. Plan 1, 1 has one centre, all marks 0, and every variable within its radius."""

    def test_one_variable(self):
        for v, marks in ALONE.items():
            # one literal a clause: a ball's flip, or a round
            self.prints_for([1, 1, 2], sheet(128, [v], FOR_BALLS), 'batch 5 ball clear calls 2 marks ' + marks)
            self.prints_for([1, 1, 1], sheet(128, [v], FOR_BALLS), 'batch 5 ball spent calls 1 marks 0 0 0 0')
            self.prints_for([1, 1, 1], sheet(128, [-v], FOR_BALLS), 'batch 5 ball clear calls 1 marks 0 0 0 0')
            for n in (v, 128):
                self.prints_for([1, 1, 2], sheet(n, [v]), 'batch 5 horn clear calls 2 marks ' + marks)
                self.prints_for([1, 1, 1], sheet(n, [v]), 'batch 5 horn spent calls 1 marks 0 0 0 0')
                self.prints_for([1, 1, 1], sheet(n, [-v]), 'batch 5 horn clear calls 1 marks 0 0 0 0')

    def test_both_ends_of_each_word(self):
        # one literal a clause: each call flips the first false clause's, so that 8 flips need 9 calls. The first word of every code
        # is 0, and R is 16 for blocks of 8 with radius 1 (of 127 variables the last block has 7), 11 for blocks of 12, 128 for 1, 1.
        # Without the clause for balls each round pays one, and 9 are needed too
        for more, method in (([FOR_BALLS], 'ball'), ([], 'horn')):
            for plan in ([8, 1], [12, 1], [1, 1], [12, 12]):
                self.prints_for(plan + [9], units(128, ENDS, *more), 'batch 5 %s clear calls 9 marks %s' % (method, ALL_ENDS))
                self.prints_for(plan + [8], units(128, ENDS, *more), 'batch 5 %s spent calls 8 marks 0 0 0 0' % method)
                self.prints_for(plan + [9], units(127, ENDS[:7] + [127], *more),
                                'batch 5 %s clear calls 9 marks 2147483649 2147483649 2147483649 1073741825' % method)
            self.prints_for([8, 1, 9], units(128, [-v for v in ENDS], *more), 'batch 5 %s clear calls 1 marks 0 0 0 0' % method)
        # with radius 0 each centre has one call, whatever is false there, and variable 128 is not paid before centre 2^127; rounds know
        # no centres
        self.prints_for([12, 0, 1000], units(128, ENDS, FOR_BALLS), 'batch 5 ball spent calls 1000 marks 0 0 0 0')
        self.prints_for([12, 0, 1000], units(128, ENDS), 'batch 5 horn clear calls 9 marks ' + ALL_ENDS)

    def test_every_variable(self):
        # the clause for balls is met by its negative literal until the first flip, which meets it for good
        rising, falling = [-128, 1, 2], [-1, 128, 127]
        every = 'batch 5 ball clear calls %d marks 4294967295 4294967295 4294967295 %d'
        self.prints_for([1, 1, 129], units(128, range(1, 129), rising), every % (129, 4294967295))
        self.prints_for([12, 12, 129], units(128, range(128, 0, -1), falling), every % (129, 4294967295))
        self.prints_for([12, 12, 128], units(127, range(1, 128), [-127, 1, 2]), every % (128, 2147483647))
        self.prints_for([12, 12, 128], units(128, range(1, 129), rising), 'batch 5 ball spent calls 128 marks 0 0 0 0')

    def test_from_word_to_word(self):
        # (1)(-1 32)(-32 33) .. (-97 128): each flip makes the next clause false, of which one variable is left to flip
        links = [FOR_BALLS] + chain(*ENDS)
        self.prints_for([1, 1, 9], sheet(128, *links), 'batch 5 ball clear calls 9 marks ' + ALL_ENDS)
        # 128 has a lone opposite: its flip is not tried
        self.prints_for([1, 1, 8], sheet(128, *links, [-128]), 'batch 5 ball none calls 8 marks 0 0 0 0')
        self.prints_for([1, 1, 7], sheet(128, *links, [-128]), 'batch 5 ball spent calls 7 marks 0 0 0 0')

    def test_one_clause_over_all_words(self):
        self.prints_for([8, 1, 9], sheet(128, ENDS), 'batch 5 ball clear calls 2 marks 1 0 0 0')
        # each variable but 128 has a lone opposite: only 128 is tried, wherever it stands
        negative = [[-v] for v in ENDS]
        self.prints_for([8, 1, 2], sheet(128, ENDS, *negative[:7]), 'batch 5 ball clear calls 2 marks ' + ALONE[128])
        self.prints_for([8, 1, 2], sheet(128, ENDS[::-1], *negative[:7]), 'batch 5 ball clear calls 2 marks ' + ALONE[128])
        # all have one: nothing is tried
        self.prints_for([1, 1, 1], sheet(128, ENDS, *negative), 'batch 5 ball none calls 1 marks 0 0 0 0')
        # the same in a short clause: 128 alone is tried, or nothing
        for v in ENDS[:7]:
            self.prints_for([1, 1, 2], sheet(128, [v, 128], [-v]), 'batch 5 ball clear calls 2 marks ' + ALONE[128])
            self.prints_for([1, 1, 1], sheet(128, [v, 128], [-v], [-128]), 'batch 5 ball none calls 1 marks 0 0 0 0')

    def test_none(self):
        for v in ALONE:
            both = units(128, [v, -v], FOR_BALLS)
            self.prints_for([1, 1, 1], both, 'batch 5 ball none calls 1 marks 0 0 0 0')
            self.prints_for([1, 1, 0], both, 'batch 5 ball spent calls 0 marks 0 0 0 0')
            # blocks of 11 with radius 5 have the words 0 and 2047, and the last one, of 7, has 0 and 7: 4,096 centres. From each,
            # one of the clauses is false, and the other is its literal's lone opposite
            self.prints_for([11, 5, 4096], both, 'batch 5 ball none calls 4096 marks 0 0 0 0')
            self.prints_for([11, 5, 4095], both, 'batch 5 ball spent calls 4095 marks 0 0 0 0')
        # the paper's four clauses under one centre, over two variables that share a bit or stand in two words: u is tried, and v, and
        # after each the other's opposite is alone in (-u -v)
        for u, v in ((1, 33), (32, 33), (64, 65), (96, 97), (32, 128), (127, 128), (128, 1)):
            four = sheet(128, [u, v], [u, -v], [-u, v], [-u, -v])
            self.prints_for([1, 1, 3], four, 'batch 5 ball none calls 3 marks 0 0 0 0')
            self.prints_for([1, 1, 2], four, 'batch 5 ball spent calls 2 marks 0 0 0 0')

    def test_centres_of_every_word(self):
        # true throughout: 6 is held where it begins so, or flipped before 7 and 8
        for_balls = [-6, 7, 8]
        # With radius 5 each block has the words 0 and 2047. The first half of the centres has the last block 0, which is 11 away there
        # and at least 5 in each other block, more than R: R + 1 calls each. The next centre is 0 in all blocks but the last.
        # 3 blocks, R 15: 4 centres of 16 calls, then 10 flips
        self.prints_for([11, 5, 75], far_from_most(33, for_balls), 'batch 5 ball clear calls 75 marks 4290836511 1 0 0')
        # 6 blocks, R 30: 32 centres of 31 calls, then 25 flips
        self.prints_for([11, 5, 1018], far_from_most(66, for_balls), 'batch 5 ball clear calls 1018 marks 130086943 4286705726 3 0')
        # 9 blocks, R 45: 256 centres of 46 calls, then 40 flips
        self.prints_for([11, 5, 11817], far_from_most(99, for_balls),
                        'batch 5 ball clear calls 11817 marks 130086943 260173886 4278444156 7')
        # a last block of 7 with the words 0 and 7, R 60: 2,048 centres at least 62 away, of 61 calls each, then 55 + 4 flips
        self.prints_for([11, 5, 124988], far_from_most(128, for_balls),
                        'batch 5 ball clear calls 124988 marks 130086943 260173886 520347772 4261921016')
        self.prints_for([11, 5, 124987], far_from_most(128, for_balls), 'batch 5 ball spent calls 124987 marks 0 0 0 0')


class ShortAndLone(Lines):
    """Papers 6 and 7 of 02. Under plan 1, 1 there is one centre, all marks 0, and every variable is within its radius."""

    def comes_to(self, words, verdict, calls, marks='0 0 0 0', plan=(1, 1)):
        """The line with just the calls needed, and spent with one less."""
        self.prints_for([*plan, calls], words, 'batch 5 ball %s calls %d marks %s' % (verdict, calls, marks))
        self.prints_for([*plan, calls - 1], words, 'batch 5 ball spent calls %d marks 0 0 0 0' % (calls - 1))

    def test_short(self):
        # (1 2 3) has three variables to flip; (2) has one, goes first, and meets both. From the first it would be 1 and then 2, 3 calls
        self.comes_to(sheet(3, [1, 2, 3], [2]), 'clear', 2, '2 0 0 0')
        # (4) goes first, and leaves (-4 5), whose 5 has a lone opposite in (-4 -5): nothing is left to try
        self.comes_to(sheet(5, [1, 2, 3], [4], [-4, 5], [-4, -5]), 'none', 2)
        # two are short too: so it is for each of 4 and 5
        self.comes_to(sheet(6, [1, 2, 3], [4, 5], [-4, 6], [-4, -6], [-5, 6], [-5, -6]), 'none', 3)
        # three are not: the first clause is taken, and 1 meets both; from the second it would be 5 and then 1, 3 calls
        self.comes_to(sheet(6, [1, 2, 3, 4], [5, 1, 6]), 'clear', 2, '1 0 0 0')
        # the short clause goes first even where that costs a call: 4, then 1.
        self.comes_to(sheet(4, [1, 2, 3], [4, 1]), 'clear', 3, '9 0 0 0')
        # short by what is not flipped, not by length: after 1 the third clause has 5 and 2 left, and goes before the second, where 2
        # would meet both: 5, then 2
        self.comes_to(sheet(5, [1], [2, 3, 4], [-1, 5, 2]), 'clear', 4, '19 0 0 0')
        # a true clause is never taken, however short: (-4) is left alone
        self.comes_to(sheet(4, [1, 2, 3], [-4]), 'clear', 2, '1 0 0 0')

    def test_short_and_lone(self):
        # one literal, and it is not tried; so behind a longer clause
        self.comes_to(sheet(4, [1], [-1], FOR_BALLS), 'none', 1)
        self.comes_to(sheet(4, [1, 2, 3], [4], [-4]), 'none', 1)
        # of two literals the one without a lone opposite is tried, wherever it stands
        self.comes_to(sheet(2, [1, 2], [-1]), 'clear', 2, '2 0 0 0')
        self.comes_to(sheet(2, [1, 2], [-2]), 'clear', 2, '1 0 0 0')
        self.comes_to(sheet(2, [-1], [2, 1]), 'clear', 2, '2 0 0 0')
        # both have one, and nothing is tried
        self.comes_to(sheet(2, [1, 2], [-1], [-2]), 'none', 1)
        self.comes_to(sheet(5, [1, 2, 3], [4, 5], [-4], [-5]), 'none', 1)
        # -1 is not alone in (-1 3), and 2 has a lone opposite: 1, then 3
        self.comes_to(sheet(3, [1, 2], [-1, 3], [-2]), 'clear', 3, '5 0 0 0')

    def test_short_and_lone_after_a_flip(self):
        # after 1 the third clause has 5 and 6 left, and goes before the second: neither is tried, or 6 alone, and then 2
        self.comes_to(sheet(6, [1], [2, 3, 4], [-1, 5, 6], [-5], [-6]), 'none', 2)
        self.comes_to(sheet(6, [1], [2, 3, 4], [-1, 5, 6], [-5]), 'clear', 4, '35 0 0 0')
        # after 1 only 2 is left of the second clause, and is not tried
        self.comes_to(sheet(5, [1], [-1, 2], [-2], [-3, 4, 5]), 'none', 2)
        # after 1 only -2 is left of (-1 -2), whose flipped literal is not met: of 2 and 3 just 3 is tried
        self.comes_to(sheet(3, [1], [2, 3], [-1, -2]), 'clear', 3, '5 0 0 0')
        self.comes_to(sheet(5, [1], [2], [-1, -2], [-3, 4, 5]), 'none', 2)
        # after 1 only -2 is left of (1 -2), but its flipped literal is met: just 2 is tried
        self.comes_to(sheet(3, [1], [2, 3], [1, -2], [-3]), 'clear', 3, '3 0 0 0')
        # after 1 to 7 only -8 is left of a clause of eight: of 8 and 9 just 9 is tried
        seven = [[1], [2], [3], [4], [5], [6], [7]]
        self.comes_to(sheet(9, *seven, [8, 9], [-1, -2, -3, -4, -5, -6, -7, -8]), 'clear', 9, '383 0 0 0')

    def test_flipped_literal(self):
        # after 1 the clause (1) has one literal met and none open, but its variable is flipped: that makes nothing of (-1 2 3 4), which
        # has three left. (3) is short, and 3 meets both; from the second clause it would be 2 and then 3, 4 calls
        self.comes_to(sheet(4, [1], [-1, 2, 3, 4], [3]), 'clear', 3, '5 0 0 0')
        # the same after 5: the fourth clause has 4, 3 and 2 left, and 3 is next
        self.comes_to(sheet(5, [-3, -2, 1], [2, 1, 5, -3, -4], [5], [4, -5, 3, 2], [3]), 'clear', 3, '20 0 0 0', (3, 3))
        # in a short clause: -1 is not flipped back
        self.comes_to(sheet(5, [1], [-1, 2], [-3, 4, 5]), 'clear', 3, '3 0 0 0')

    def test_lone(self):
        # 1 has a lone opposite and is not tried.
        self.comes_to(sheet(3, [1, 2, 3], [-1]), 'clear', 2, '2 0 0 0')
        # nothing is left to try.
        self.comes_to(sheet(3, [1, 2, 3], [-1], [-2], [-3]), 'none', 1)
        # 1 is tried: it makes (-1 4) false, which is short, and 4 is not tried; 2 is not tried; 3 finds
        self.comes_to(sheet(4, [1, 2, 3], [-2], [-1, 4], [-4]), 'clear', 3, '4 0 0 0')
        # after 1 only -2 is left of (-1 -2), whose flipped literal is not met: 2 is not tried.
        self.comes_to(sheet(4, [1], [2, 3, 4], [-1, -2]), 'clear', 3, '5 0 0 0')
        # after 1 only -2 is left of (1 -2), but its flipped literal is met: of 2, 3 and 4 just 2 is tried
        self.comes_to(sheet(4, [1], [2, 3, 4], [1, -2], [-3], [-4]), 'clear', 3, '3 0 0 0')
        # -1 is not alone in (-1 4), nor in (-1 -4): 1 is tried, and is the only one; then 4 of (-1 4), or nothing
        self.comes_to(sheet(4, [1, 2, 3], [-1, 4], [-2], [-3]), 'clear', 3, '9 0 0 0')
        self.comes_to(sheet(4, [1, 2, 3], [-1, -4], [-2], [-3]), 'clear', 2, '1 0 0 0')
        # after 1 the clause (1) has one literal met and none open, but its variable is flipped: that makes nothing of the third
        # clause. The second is taken, and 2 meets both; from the third it would be 5 and then 2, 4 calls
        self.comes_to(sheet(6, [1], [2, 3, 4], [-1, 5, 2, 6]), 'clear', 3, '3 0 0 0')

    def test_long(self):
        # seven of eight literals have lone opposites.
        self.comes_to(sheet(9, [1, 2, 3, 4, 5, 6, 7, 8], [-1], [-2], [-3], [-4], [-5], [-6], [-7]), 'clear', 2, '128 0 0 0')
        # after 1 to 6 only -7 is left of the last clause: 7 is not tried, 8 finds.
        six = [[1], [2], [3], [4], [5], [6]]
        self.comes_to(sheet(9, *six, [7, 8, 9], [-1, -2, -3, -4, -5, -6, -7]), 'clear', 8, '191 0 0 0')
        # after 1 to 6 a clause of eight is short, and goes before (7 8 9): 8 is its first, and meets both
        self.comes_to(sheet(9, *six, [7, 8, 9], [-1, -2, -3, -4, -5, -6, 8, 7]), 'clear', 8, '191 0 0 0')

    def test_order(self):
        # L before a later S: nothing to try in the first clause. The other way round each of 4 and 5 leads to such a call
        self.comes_to(sheet(5, [1, 2, 3], [-1], [-2], [-3], [4, 5]), 'none', 1)
        self.comes_to(sheet(5, [4, 5], [1, 2, 3], [-1], [-2], [-3]), 'none', 3)
        # L behind a first false clause that is neither.
        self.comes_to(sheet(6, [4, 5, 6], [1, 2, 3], [-1], [-2], [-3]), 'none', 1)
        # neither: the first false clause, where 1 meets both; from the last it would be 4 and then 1, 3 calls
        self.comes_to(sheet(5, [1, 2, 3], [4, 1, 5]), 'clear', 2, '1 0 0 0')

    def test_one_flip_left(self):
        # true at both centres, and a call without a flip left looks only for a false clause, of which there is another
        for_balls = [-1, 2, 3]
        # plan 3, 1 has the centres 0 and 7 with one flip each: 1 and 2 are not tried, 3 finds
        self.comes_to(sheet(3, [1, 2, 3], [-1], [-2]), 'clear', 2, '4 0 0 0', (3, 1))
        # from 0 nothing is tried; from 7 (-1) is short, and its flip is the last
        self.comes_to(sheet(3, [1, 2, 3], [-1], [-2], [-3]), 'none', 3, plan=(3, 1))
        # from 0 (1) is short, and its flip is the last; from 7 the opposites 1, 2 and 3 of the negative literals are alone
        self.comes_to(sheet(3, [-1, -2, -3], [1], [2], [3], for_balls), 'none', 3, plan=(3, 1))
        # of (1 2) just 2 is tried; of (1) and (-1) nothing, from either centre
        self.comes_to(sheet(3, [1, 2], [-1]), 'clear', 2, '2 0 0 0', (3, 1))
        self.comes_to(sheet(3, [1], [-1], for_balls), 'none', 2, plan=(3, 1))
        # from 0 the flip of 1 is the last; from 7 the opposite of -1 is alone in (1), and -2 finds
        self.comes_to(sheet(3, [1], [3], [-1, -2], for_balls), 'clear', 4, '5 0 0 0', (3, 1))
        # radius 0: step 2 goes before the choice, and each of 8 centres is one call
        self.comes_to(sheet(3, [1, 2, 3], [-1], [-2], [-3]), 'none', 8, plan=(3, 0))
        self.comes_to(sheet(3, [1], [-1], for_balls), 'none', 8, plan=(3, 0))

    def test_every_word(self):
        # variables at the same place of the words, or at their ends: the opposite of one of them is alone, not of another
        for u, v, w in ((1, 33, 65), (33, 65, 97), (97, 1, 33), (65, 97, 1), (32, 64, 96), (64, 96, 128), (128, 32, 64), (96, 128, 32)):
            self.comes_to(sheet(128, [u, v, w], [-v], [-w]), 'clear', 2, ALONE[u])
            self.comes_to(sheet(128, [v, u, w], [-v]), 'clear', 2, ALONE[u])
            self.comes_to(sheet(128, [v, w, u], [-w], [-v]), 'clear', 2, ALONE[u])
            self.comes_to(sheet(128, [u, v, w], [-u], [-v], [-w]), 'none', 1)
            # u, v and w are three, and w alone goes first
            self.comes_to(sheet(128, [u, v, w], [w]), 'clear', 2, ALONE[w])
        # after 32 only -64 is left of (-32 -64)
        self.comes_to(sheet(128, [32], [64, 96, 128], [-32, -64]), 'clear', 3, '2147483648 0 2147483648 0')
        # after 97 (97 -33) is met by it, and 33 is tried
        self.comes_to(sheet(128, [97], [33, 65, 1], [97, -33], [-65], [-1]), 'clear', 3, '0 1 0 1')

    def test_short_and_lone_in_every_word(self):
        for u, v, w in ((1, 33, 65), (33, 65, 97), (97, 1, 33), (65, 97, 1), (32, 64, 96), (64, 96, 128), (128, 32, 64), (96, 128, 32)):
            self.comes_to(sheet(128, [u, v], [-v]), 'clear', 2, ALONE[u])
            self.comes_to(sheet(128, [-v], [v, u]), 'clear', 2, ALONE[u])
            self.comes_to(sheet(128, [u, v], [-w]), 'clear', 2, ALONE[u])
            self.comes_to(sheet(128, [u, v], [-u], [-v]), 'none', 1)
            # after u only v is left, and is not tried
            self.comes_to(sheet(128, [u], [-u, v], [-v], FOR_BALLS), 'none', 2)
            # after u only -v is left of the last clause. Its flipped literal is not met, and w alone is tried; or it is met, and v is
            # the first
            self.comes_to(sheet(128, [u], [v, w], [-u, -v]), 'clear', 3, paid(u, w))
            self.comes_to(sheet(128, [u], [v, w], [u, -v]), 'clear', 3, paid(u, v))

    def test_many_clauses(self):
        # 64 true clauses are a word of them; wherever they stand the answer is the same
        for more in (1, 60, 61, 62, 63, 64, 65, 127, 128, 1019):
            kept = [[-6]] * more
            opposites = [[-1], [-2], [-3]]
            self.comes_to(sheet(6, [1, 2, 3], *kept, *opposites), 'none', 1)
            self.comes_to(sheet(6, *kept, [1, 2, 3], *opposites), 'none', 1)
            self.comes_to(sheet(6, *opposites, *kept, [1, 2, 3]), 'none', 1)
            self.comes_to(sheet(6, [1, 2, 3], *kept, [4, 5], [-4], [-5]), 'none', 1)
            # the lone opposites of 4, 5 and 6 do not concern (1 2 3), which is passed over
            self.comes_to(sheet(7, [1, 2, 3], *[[-7]] * more, [4, 5, 6], [-4], [-5], [-6]), 'none', 1)

    def test_short_and_lone_among_many_clauses(self):
        for more in (1, 60, 61, 62, 63, 64, 65, 127, 128, 510, 511, 512, 1019, 1020):
            kept = [[-6]] * (more - 1) + [[-6, 4, 5]]
            self.comes_to(sheet(6, [1], *kept, [-1]), 'none', 1)
            self.comes_to(sheet(6, [-1], *kept, [1]), 'none', 1)
            self.comes_to(sheet(6, [1, 2], *kept, [-1]), 'clear', 2, '2 0 0 0')
            self.comes_to(sheet(6, [-1], *kept, [1, 2]), 'clear', 2, '2 0 0 0')
            self.comes_to(sheet(6, *kept, [2, 1], [-1]), 'clear', 2, '2 0 0 0')
            # after 1 only -2 is left of (-1 -2), or of (1 -2), which is met by a flipped literal
            self.comes_to(sheet(6, [1], [2, 3], *kept, [-1, -2]), 'clear', 3, '5 0 0 0')
            self.comes_to(sheet(6, [1, -2], *kept, [1], [2, 3], [-3]), 'clear', 3, '3 0 0 0')


class Horn(Lines):
    """Paper 9 of 02. Every round but the last pays one variable more: a clear answer counts one more than it pays. A sheet is Horn
    where no clause has two positive literals."""

    def comes_to(self, words, verdict, rounds, marks='0 0 0 0', plans=((1, 1), (3, 1), (11, 5), (12, 0))):
        """The line with just the rounds needed, one more, and as many as there can be; spent with one less, and with none."""
        for plan in plans:
            for budget in (rounds, rounds + 1, 0xFFFFFFFF):
                self.prints_for([*plan, budget], words, 'batch 5 horn %s calls %d marks %s' % (verdict, rounds, marks))
            for budget in {0, rounds - 1}:
                self.prints_for([*plan, budget], words, 'batch 5 horn spent calls %d marks 0 0 0 0' % budget)

    def test_every_plan(self):
        for words, verdict, rounds, marks in ((sheet(0), 'clear', 1, '0 0 0 0'), (sheet(0, []), 'none', 1, '0 0 0 0'),
                                              (sheet(1, [1], [-1]), 'none', 2, '0 0 0 0'),
                                              (sheet(13, [-13], [-1, 12], [1]), 'clear', 3, '2049 0 0 0'),
                                              (sheet(128, *chain(*ENDS)), 'clear', 9, ALL_ENDS)):
            self.comes_to(words, verdict, rounds, marks, PLANS)

    def test_plan_and_sheet_first(self):
        for plan in ([0, 0], [13, 1], [3, 4], [0xFFFFFFFF, 0], [12, 0xFFFFFFFF]):
            for words in (sheet(0), sheet(0, []), sheet(1, [1], [-1]), sheet(128, *chain(*ENDS)), HEAD + [2]):
                for budget in (0, 2, 0xFFFFFFFF):
                    self.prints_for(plan + [budget], words, 'refused 8 place 0')
        # an empty clause, or (1)(-1), says none, but what comes after it is read before
        self.prints_for([3, 1, 9], sheet(0, []) + [0x40000009], 'refused 5 place 4')
        self.prints_for([3, 1, 9], sheet(1, [1], [-1]) + [0x40000001, 4], 'refused 6 place 8')
        self.prints_for([3, 1, 0], sheet(1, [1], [-1]) + [0x40000001], 'refused 4 place 8')

    def test_no_clause(self):
        for n in (0, 1, 2, 31, 32, 33, 64, 96, 127, 128):
            self.comes_to(sheet(n), 'clear', 1)

    def test_empty_clause(self):
        for n in (0, 1, 128):
            for count in (1, 2, 64, 65, 1024):
                self.comes_to(sheet(n, *[[]] * count), 'none', 1)
        # it is false from the start, and counts when it is the first
        self.comes_to(sheet(3, [], [1], [2], [3]), 'none', 1)
        self.comes_to(sheet(3, [1], [], [2], [3]), 'none', 2)
        self.comes_to(sheet(3, [1], [2], [], [3]), 'none', 3)
        self.comes_to(sheet(3, [1], [2], [3], []), 'none', 4)
        # (-1 2) is true at first, and false and the first after 1
        self.comes_to(sheet(3, [-1, 2], [1], []), 'none', 3)
        self.comes_to(sheet(3, [-1, 2], [], [1]), 'none', 1)

    def test_only_negative(self):
        self.comes_to(units(128, range(-128, 0)), 'clear', 1)
        self.comes_to(sheet(128, [-v for v in ENDS]), 'clear', 1)
        self.comes_to(sheet(8, *[[-1, -2, -3, -4, -5, -6, -7, -8]] * 1024), 'clear', 1)

    def test_facts(self):
        for v, marks in ALONE.items():
            self.comes_to(sheet(128, [v]), 'clear', 2, marks)
            self.comes_to(sheet(v, [v], [v]), 'clear', 2, marks)
            self.comes_to(sheet(v, [v], [-v]), 'none', 2)
            self.comes_to(sheet(v, [-v], [v]), 'none', 2)
        self.comes_to(units(128, ENDS), 'clear', 9, ALL_ENDS)
        self.comes_to(units(128, [v if v in ENDS else -v for v in range(1, 129)]), 'clear', 9, ALL_ENDS)

    def test_129_rounds(self):
        full = '4294967295 4294967295 4294967295 4294967295'
        rising, falling = range(1, 129), range(128, 0, -1)
        for facts in (units(128, rising), units(128, falling), units(128, [*rising, *falling])):
            self.comes_to(facts, 'clear', 129, full)
        for variables in (rising, falling, [*range(2, 129, 2), *range(127, 0, -2)]):
            links = chain(*variables)
            # one clause is false at a time, so that their order does not matter
            for ordered in (links, links[::-1], links[1::2] + links[::2]):
                self.comes_to(sheet(128, *ordered), 'clear', 129, full)
                # the last variable's opposite is false in the 129th round, wherever it stands
                self.comes_to(sheet(128, *ordered, [-variables[-1]]), 'none', 129)
                self.comes_to(sheet(128, [-variables[-1]], *ordered), 'none', 129)
        self.comes_to(units(128, rising, [-1, -32, -33, -64, -65, -96, -97, -128]), 'none', 129)
        self.comes_to(sheet(127, *chain(*range(1, 128))), 'clear', 128, '4294967295 4294967295 4294967295 2147483647')

    def test_from_word_to_word(self):
        for variables in (ENDS, ENDS[::-1]):
            last = variables[-1]
            for ordered in (chain(*variables), chain(*variables)[::-1]):
                self.comes_to(sheet(128, *ordered), 'clear', 9, ALL_ENDS)
                self.comes_to(sheet(128, *ordered, [-last]), 'none', 9)
                self.comes_to(sheet(128, [-last, -variables[0]], *ordered), 'none', 9)
                # without the fact nothing is asked for
                self.comes_to(sheet(128, *[c for c in ordered if len(c) == 2], [-last]), 'clear', 1)
        # the link out of a word is missing
        links = chain(*range(1, 129))
        for u, marks in ((32, '4294967295 0 0 0'), (64, '4294967295 4294967295 0 0'), (96, '4294967295 4294967295 4294967295 0')):
            self.comes_to(sheet(128, *links[:u], *links[u + 1:]), 'clear', u + 1, marks)
            self.comes_to(sheet(128, *links[:u], *links[u + 1:], [-128]), 'clear', u + 1, marks)

    def test_order_of_clauses(self):
        # (-1) is false after the first round that pays 1, and seen when no clause before it is false
        self.comes_to(sheet(3, [1], [-1], [2], [3]), 'none', 2)
        self.comes_to(sheet(3, [1], [2], [-1], [3]), 'none', 3)
        self.comes_to(sheet(3, [1], [2], [3], [-1]), 'none', 4)
        self.comes_to(sheet(3, [-1], [1], [2], [3]), 'none', 2)
        self.comes_to(sheet(3, [-1], [2], [1], [3]), 'none', 3)
        self.comes_to(sheet(3, [-1], [2], [3], [1]), 'none', 4)
        # each round begins at the first clause: 1, then 2, then (-2). Going on from (1) it would be 1, 3, 2 and then (-2)
        self.comes_to(sheet(3, [-2], [-1, 2], [1], [3]), 'none', 3)
        # the first false clause, not the last: 3 is not paid before 1 and 2
        self.comes_to(sheet(3, [1], [-1, 2], [-1, -2], [3]), 'none', 3)
        self.comes_to(sheet(3, [3], [1], [-1, 2], [-1, -2]), 'none', 4)
        # of two negative clauses the first that is false
        self.comes_to(sheet(3, [1], [-1, -2], [2], [-1], [3]), 'none', 3)
        self.comes_to(sheet(3, [1], [-1], [2], [-1, -2], [3]), 'none', 2)
        # a clear answer is the same in every order
        for clauses in ([[1], [-1, 2], [-2, -4], [3, -4]], [[3, -4], [-2, -4], [-1, 2], [1]], [[-1, 2], [3, -4], [1], [-2, -4]]):
            self.comes_to(sheet(4, *clauses), 'clear', 3, '3 0 0 0')

    def test_least(self):
        # 1 and 2 ask for each other, and nobody for either
        self.comes_to(sheet(3, [-1, 2], [-2, 1], [3]), 'clear', 2, '4 0 0 0')
        self.comes_to(sheet(3, [-1, 2], [-2, 1], [3], [-3, 2]), 'clear', 4, '7 0 0 0')
        # a clause that asks for 1 is met by what is held; what it would ask for is not paid
        self.comes_to(sheet(3, [1, -2], [3]), 'clear', 2, '4 0 0 0')
        self.comes_to(sheet(3, [1, -2], [1, -3], [3]), 'clear', 3, '5 0 0 0')
        # paid once, though three clauses ask for it
        self.comes_to(sheet(3, [1], [2], [3, -1], [3, -2], [3, -1, -2]), 'clear', 4, '7 0 0 0')

    def test_without_the_clause_for_balls(self):
        # sheets of the tests above; those that are far from most centres pay 21, 36, 51 and 62 variables
        self.comes_to(far_from_most(33), 'clear', 22, '4290836511 1 0 0')
        self.comes_to(far_from_most(66), 'clear', 37, '130086943 4286705726 3 0')
        self.comes_to(far_from_most(99), 'clear', 52, '130086943 260173886 4278444156 7')
        self.comes_to(far_from_most(128), 'clear', 63, '130086943 260173886 520347772 4261921016')
        self.comes_to(sheet(2, [1], [-1, 2], [-2]), 'none', 3)
        self.comes_to(sheet(2, [1], [2], [-1, -2]), 'none', 3)
        self.comes_to(sheet(2, [1], [-1, 2]), 'clear', 3, '3 0 0 0')
        self.comes_to(sheet(3, [-1, -2, -3], [1], [2], [3]), 'none', 4)
        self.comes_to(sheet(3, [1], [3], [-1, -2]), 'clear', 3, '5 0 0 0')
        self.comes_to(sheet(3, [1], [-1]), 'none', 2)

    def test_clause_of_eight(self):
        for variables, marks in (([1, 2, 3, 4, 5, 6, 7, 8], '255 0 0 0'), (ENDS, ALL_ENDS)):
            for at, positive in enumerate(variables):
                long = [v if v == positive else -v for v in variables]
                facts = [[v] for v in variables if v != positive]
                # seven facts, then the positive literal, at each place
                self.comes_to(sheet(128, *facts, long), 'clear', 9, marks)
                self.comes_to(sheet(128, long, *facts), 'clear', 9, marks)
                self.comes_to(sheet(128, *facts, long, [-positive]), 'none', 9)
                # one fact less: it stays true
                less = facts[:at % 7] + facts[at % 7 + 1:]
                self.comes_to(sheet(128, long, *less), 'clear', 7, paid(*[v for [v] in less]))
            self.comes_to(units(128, variables, [-v for v in variables]), 'none', 9)

    def test_many_clauses(self):
        # 64 clauses are a word of them; wherever true ones stand the answer is the same
        for more in (1, 60, 61, 62, 63, 64, 65, 127, 128, 510, 511, 512, 1019, 1020):
            kept, one = [[-6]] * more, ((1, 1),)
            self.comes_to(sheet(6, [1], *kept, [-1]), 'none', 2, plans=one)
            self.comes_to(sheet(6, [-1], *kept, [1]), 'none', 2, plans=one)
            self.comes_to(sheet(6, *kept, [-2, 3], [-1, 2], [1]), 'clear', 4, '7 0 0 0', one)
            self.comes_to(sheet(6, [-2, 3], [-1, 2], *kept, [1], [-3]), 'none', 4, plans=one)
            # 4 is paid before (-3) is seen, or not
            self.comes_to(sheet(6, *kept, [3], [4], [-3]), 'none', 3, plans=one)
            self.comes_to(sheet(6, [3], *kept, [-3], [4]), 'none', 2, plans=one)
        # 1,024 clauses: 896 true ones and then the chain from its end, or the chain first
        full, links, kept = '4294967295 4294967295 4294967295 4294967295', chain(*range(1, 129)), [[1, -2, -3]] * 896
        self.comes_to(sheet(128, *kept, *links[::-1]), 'clear', 129, full)
        self.comes_to(sheet(128, *links, *kept), 'clear', 129, full)
        self.comes_to(sheet(128, *kept[1:], *links[::-1], [-128]), 'none', 129)
        # the longest sheet
        longest = sheet(128, *[[-1, -32, -33, 64, -65, -96, -97, -128]] * 1024)
        self.assertEqual(4 * len(longest), 36876)
        self.comes_to(longest, 'clear', 1)
        self.prints_for([1, 1, 9], longest + [0x40000000], 'refused 5 place 9219')


class NotHorn(Lines):
    """Two positive literals in one clause, wherever they stand: balls. Under plan 1, 1 there is one centre, all marks 0."""

    def comes_to(self, words, calls, marks):
        self.prints_for([1, 1, calls], words, 'batch 5 ball clear calls %d marks %s' % (calls, marks))
        self.prints_for([1, 1, calls - 1], words, 'batch 5 ball spent calls %d marks 0 0 0 0' % (calls - 1))

    def test_two_literals(self):
        for u in ALONE:
            for v in ALONE:
                if u != v:
                    self.comes_to(sheet(128, [u, v]), 2, ALONE[u])
                    for literals in ([u, -v], [-u, v], [-u, -v]):
                        self.prints_for([1, 1, 1], sheet(128, literals), 'batch 5 horn clear calls 1 marks 0 0 0 0')
                    self.prints_for([1, 1, 3], sheet(128, [u], [v]), 'batch 5 horn clear calls 3 marks ' + paid(u, v))
        self.comes_to(sheet(2, [1, 2]), 2, '1 0 0 0')

    def test_places_in_a_clause(self):
        # two of eight: each of six facts is flipped, and then the first of the two
        for variables in ([1, 2, 3, 4, 5, 6, 7, 8], ENDS):
            for at in range(8):
                for then in range(at + 1, 8):
                    long = [v if place in (at, then) else -v for place, v in enumerate(variables)]
                    facts = [-l for l in long if l < 0]
                    self.comes_to(units(128, facts, long), 8, paid(*facts, variables[at]))
                    self.comes_to(sheet(128, long), 1, '0 0 0 0')
            self.comes_to(sheet(128, variables), 2, paid(variables[0]))
            self.comes_to(sheet(128, [-variables[0]] + variables[1:]), 1, '0 0 0 0')

    def test_places_in_a_sheet(self):
        for more in (1, 61, 62, 63, 64, 65, 127, 128, 1022, 1023):
            kept = [[-6]] * more
            self.comes_to(sheet(6, *kept, [2, 3]), 2, '2 0 0 0')
            self.comes_to(sheet(6, [2, 3], *kept), 2, '2 0 0 0')
            self.comes_to(sheet(6, *kept, [-6, 2, 3]), 1, '0 0 0 0')
            self.prints_for([1, 1, 2], sheet(6, *kept, [2]), 'batch 5 horn clear calls 2 marks 2 0 0 0')


class Around(unittest.TestCase):
    """The commands that call the program."""

    def ran(self, command, text):
        ran = subprocess.run([os.path.join(ROOT, command[0])] + command[1:], input=text.encode(), capture_output=True)
        return ran.returncode, ran.stdout.decode().split('\n')

    def test_solve(self):
        status, lines = self.ran(['tools/sheet', 'solve', '-'], 'p cnf 3 3\n1 2 0\n-1 -3 0\n-3 0\n')
        self.assertEqual((status, lines[-3:]), (10, ['s SATISFIABLE', 'v 1 -2 -3 0', '']))
        status, lines = self.ran(['tools/sheet', 'solve', '-'], 'p cnf 1 2\n1 0\n-1 0\n')
        self.assertEqual((status, lines[-2:]), (20, ['s UNSATISFIABLE', '']))
        for radius in '10':
            status, lines = self.ran(['tools/sheet', 'solve', '-', '1', radius, '2'], 'n 1 (1) (-1)')
            self.assertEqual((status, lines[-3:]), (20, ['c rounds 2', 's UNSATISFIABLE', '']))
            status, lines = self.ran(['tools/sheet', 'solve', '-', '1', radius, '1'], 'n 1 (1) (-1)')
            self.assertEqual((status, lines[-2:]), (0, ['s UNKNOWN', '']))
        # by balls (1 2)(-1)(-2) has nothing to try
        status, lines = self.ran(['tools/sheet', 'solve', '-', '1', '1', '1'], 'n 2 (1 2) (-1) (-2)')
        self.assertEqual((status, lines[-3:]), (20, ['c calls 1', 's UNSATISFIABLE', '']))
        status, lines = self.ran(['tools/sheet', 'solve', '-', '13', '1', '1'], 'n 1 (1) (-1)')
        self.assertEqual((status, lines[-2:]), (0, ['s UNKNOWN', '']))

    def test_solve_128_variables(self):
        status, lines = self.ran(['tools/sheet', 'solve', '-'], 'p cnf 128 8\n1 0 32 0 33 0 64 0\n65 0 96 0 97 0 128 0\n')
        self.assertEqual(lines[:4], ['c plan 1 1, budget 4294967295', 'c Horn: at most 129 rounds, whatever the plan', 'c rounds 9',
                                     's SATISFIABLE'])
        values = [int(word) for line in lines if line.startswith('v ') for word in line.split()[1:]]
        self.assertEqual((status, values), (10, [v if v in ENDS else -v for v in range(1, 129)] + [0]))
        status, lines = self.ran(['tools/sheet', 'solve', '-'], 'p cnf 128 3\n128 0\n-128 97 0\n-97 0\n')
        self.assertEqual((status, lines[-3:]), (20, ['c rounds 3', 's UNSATISFIABLE', '']))
        # by balls, for the last clause has two positive literals
        status, lines = self.ran(['tools/sheet', 'solve', '-', '1', '1', '9'], 'p cnf 128 3\n128 0\n-128 97 0\n-2 3 4 0\n')
        self.assertEqual(lines[2:4], ['c calls 3', 's SATISFIABLE'])
        values = [int(word) for line in lines if line.startswith('v ') for word in line.split()[1:]]
        self.assertEqual((status, values), (10, [v if v in (97, 128) else -v for v in range(1, 129)] + [0]))

    def test_run(self):
        text = 'batch 7 n 1 (1) (-1)'
        self.assertEqual(self.ran(['run.sh'], '')[1][0], 'batch 70000 ball clear calls 2 marks 1 0 0 0')
        self.assertEqual(self.ran(['run.sh', '-'], text)[1][:2], ['plan 1 0, budget 4294967295', 'batch 7 horn none calls 2 marks 0 0 0 0'])
        self.assertEqual(self.ran(['run.sh', '1', '1', '2', '-'], text)[1][0], 'batch 7 horn none calls 2 marks 0 0 0 0')
        self.assertEqual(self.ran(['run.sh', '1', '0', '1', '-'], text)[1][0], 'batch 7 horn spent calls 1 marks 0 0 0 0')
        lines = self.ran(['run.sh', '1', '1', '9', '-'], 'batch 7 n 2 (1 2) (-1) (-2)')[1]
        self.assertEqual(lines[0], 'batch 7 ball none calls 1 marks 0 0 0 0')
        lines = self.ran(['run.sh', '-'], 'batch 7 n 128 (128) (-64)')[1]
        self.assertEqual(lines[:2], ['plan 1 1, budget 4294967295', 'batch 7 horn clear calls 2 marks 0 0 0 2147483648'])
        self.assertEqual(lines[-4:], ['variable 128: pay', 'clause 1 (128): met by 128', 'clause 2 (-64): met by -64', ''])


class Split(unittest.TestCase):
    """The tree of calls that `tools/sheet split` works out, beside the host's line."""

    def setUp(self):
        if not os.access(HOST, os.X_OK):
            self.fail('target/host/clear is not built; host/test.sh builds it')

    def says(self, budget, file):
        ran = subprocess.run([HOST, 'split', str(budget), file], capture_output=True)
        self.assertEqual((ran.returncode, ran.stderr), (0, b''))
        return ran.stdout.decode()

    def agree(self, n, *clauses):
        """The calls of a sheet, by its tree and by the host, which says spent with one less."""
        text = 'batch 5 n %d %s' % (n, ' '.join('(%s)' % ' '.join(map(str, clause)) for clause in clauses))
        ran = subprocess.run([os.path.join(ROOT, 'tools', 'sheet'), 'split', '-'], input=text.encode(), capture_output=True)
        self.assertEqual((ran.returncode, ran.stderr), (0, b''), text)
        *tree, empty, line = ran.stdout.decode().splitlines()
        self.assertEqual(empty, '')
        with tempfile.NamedTemporaryFile() as file:
            file.write(bytes_of(sheet(n, *clauses)))
            file.flush()
            self.assertEqual(self.says(0xFFFFFFFF, file.name), line + '\n', text)
            self.assertEqual(line.split()[3:5], ['calls', str(len(tree))], text)
            self.assertEqual(self.says(len(tree), file.name), line + '\n', text)
            less = len(tree) - 1
            self.assertEqual(self.says(less, file.name), 'batch 5 spent calls %d marks 0 0 0 0\n' % less, text)
        return len(tree)

    def test_examples(self):
        self.assertEqual(self.agree(3, [1, 2], [-1, -3], [-3]), 5)
        self.assertEqual(self.agree(2, [1, 2], [1, -2], [-1, 2], [-1, -2]), 7)
        self.assertEqual(self.agree(1, [1], [-1]), 3)
        for n in (0, 1, 32, 128):
            self.assertEqual(self.agree(n), 1)
            self.assertEqual(self.agree(n, []), 1)
        self.assertEqual(self.agree(4, [1], [-2, 3], [], [4]), 1)
        self.assertEqual(self.agree(4, [2, 1], [-1], [-1, 4]), 4)
        # clauses that are decided at the last variable only: every call there can be
        self.assertEqual(self.agree(9, [8, 9], [8, -9], [-8, 9], [-8, -9]), 1023)

    def test_every_word(self):
        for v in ALONE:
            self.assertEqual(self.agree(128, [v]), v + 2)
            self.assertEqual(self.agree(v, [-v]), v + 1)
        self.assertEqual(self.agree(128, *chain(*ENDS)), 129 + 8)
        self.assertEqual(self.agree(128, ENDS, ENDS[::-1], [-v for v in ENDS]), 130)
        self.assertEqual(self.agree(128, *([v] for v in range(128, 0, -1))), 257)
        # u and v are both paid: with u held both values of v say no, and what is between them is then tried as paid
        for u, v in ((1, 33), (32, 33), (64, 65), (96, 97), (32, 97), (127, 128)):
            others = ([-w] for w in range(1, 129) if w not in (u, v))
            self.assertEqual(self.agree(128, *others, [u, -v], [-u, v], [u, v]), 131 + 2 * (v - u))

    def test_many_clauses(self):
        for more in (1, 62, 63, 64, 512, 1023):
            kept = [[-4, -1]] * more
            self.assertEqual(self.agree(6, *kept, [1, 2]), 4)
            self.assertEqual(self.agree(6, [1, 2], *kept), 4)
            self.assertEqual(self.agree(6, *[[-6, -5, -4]] * more, []), 1)
            self.assertEqual(self.agree(6, *[[-1, 2, 3, 4, -5, -6]] * more, [1]), 7)

    def test_random(self):
        chance = random.Random(10)
        for n in [1, 2, 3, 4, 5, 6, 7, 8, 9, 9] * 6:
            longest = min(n, chance.choice((2, 3, 3, 8)))
            self.agree(n, *([v * chance.choice((1, -1)) for v in chance.sample(range(1, n + 1), chance.randint(1, longest))]
                            for _ in range(chance.randint(1, 5 * n))))


if __name__ == '__main__':
    if not os.access(PROGRAM, os.X_OK):
        sys.exit("crates/clearing/out/clearing is not built; build it by './run.sh'")
    unittest.main()
