#!/usr/bin/env python3
"""Tests of tools/sheet: the printed example of paper 01 with the method of paper 9 of 02, both formats there and back, an answer
explained, each message, the plans with their bounds, a solver's lines, and the calls of plain splitting (paper 10 of 02)."""
import importlib.machinery
import importlib.util
import itertools
import os
import random
import re
import subprocess
import sys
import tempfile
import unittest

HERE = os.path.dirname(os.path.abspath(__file__))
LOADER = importlib.machinery.SourceFileLoader('sheet', os.path.join(HERE, 'sheet'))
sheet = importlib.util.module_from_spec(importlib.util.spec_from_loader('sheet', LOADER))
LOADER.exec_module(sheet)

TEXT = 'batch 70000\nn 3\n(1 2)\n(-1 -3)\n(-3)'
WORDS = [0xC0000001, 0xC0001170, 0x80000003, 0x40000002, 2, 4, 0x40000002, 3, 7, 0x40000001, 7]
BYTES = b''.join(w.to_bytes(4, 'little') for w in WORDS)
# what the program prints of an assignment in which one variable is paid: both ends of each word, and the last variable of n 127
ENDS = {1: '1 0 0 0', 32: '2147483648 0 0 0', 33: '0 1 0 0', 64: '0 2147483648 0 0', 65: '0 0 1 0', 96: '0 0 2147483648 0',
        97: '0 0 0 1', 127: '0 0 0 1073741824', 128: '0 0 0 2147483648'}


class Sheets(unittest.TestCase):
    def test_printed_example(self):
        self.assertEqual(sheet.sheet_of(*sheet.formula_of(TEXT)), BYTES)
        self.assertEqual(sheet.show(BYTES), TEXT)

    def test_dimacs(self):
        formula = sheet.formula_of('c three clauses\np cnf 3 3\n1 2 0 -1\n-3 0\n-3 0\n')
        self.assertEqual(formula, (0, 3, [[1, 2], [-1, -3], [-3]]))

    def test_empty_clause_and_empty_formula(self):
        self.assertEqual(sheet.formula_of('n 0\n()'), (0, 0, [[]]))
        self.assertEqual(sheet.formula_of('n 128'), (0, 128, []))
        self.assertEqual(sheet.formula_of('p cnf 2 1\n0\n'), (0, 2, [[]]))

    def test_up_to_128_variables(self):
        for n in (31, 32, 33, 127, 128):
            formula = (7, n, [[v, -1] for v in ENDS if 1 < v <= n] + [[-v] for v in ENDS if v <= n] + [[n]])
            self.assertEqual(sheet.formula_of(sheet.show(sheet.sheet_of(*formula))), formula)
            self.assertEqual(sheet.formula_of('p cnf %d 1\n1 -%d 0\n' % (n, n)), (0, n, [[1, -n]]))
        words = [0xC0000000, 0xC0000007, 0x80000080, 0x40000002, 256, 129]
        self.assertEqual(sheet.sheet_of(7, 128, [[128, -64]]), b''.join(w.to_bytes(4, 'little') for w in words))

    def test_clear_is_explained(self):
        rows = sheet.explain(BYTES, 'batch 70000 ball clear calls 2 marks 1 0 0 0').split('\n')
        self.assertEqual(rows[0], 'clear: batch 70000, 2 calls')
        self.assertEqual(rows[1], 'ball: clause 1 (1 2) has more than one positive literal, so balls are searched')
        self.assertEqual(rows[2:5], ['variable 1: pay', 'variable 2: hold', 'variable 3: hold'])
        self.assertEqual(rows[5:], ['clause 1 (1 2): met by 1', 'clause 2 (-1 -3): met by -3', 'clause 3 (-3): met by -3'])
        data = sheet.sheet_of(7, 2, [[1], [-1, -2]])
        rows = sheet.explain(data, 'batch 7 horn clear calls 2 marks 1 0 0 0').split('\n')
        self.assertEqual(rows[0], 'clear: batch 7, 2 rounds')
        self.assertEqual(rows[1], 'horn: no clause has more than one positive literal; what is paid here is paid in every assignment that '
                                  'meets all clauses')
        self.assertEqual(rows[2:], ['variable 1: pay', 'variable 2: hold', 'clause 1 (1): met by 1', 'clause 2 (-1 -2): met by -2'])
        rows = sheet.explain(sheet.sheet_of(7, 0, []), 'batch 7 horn clear calls 1 marks 0 0 0 0').split('\n')
        self.assertEqual((rows[0], len(rows)), ('clear: batch 7, 1 round', 2))

    def test_marks_of_every_word(self):
        for v, marks in ENDS.items():
            for n in (127, 128):
                if v <= n:
                    data, line = sheet.sheet_of(0, n, [[v]]), 'batch 0 horn clear calls 2 marks ' + marks
                    rows = sheet.explain(data, line).split('\n')
                    self.assertEqual(rows[2:n + 2], ['variable %d: %s' % (u, 'pay' if u == v else 'hold') for u in range(1, n + 1)])
                    self.assertEqual(rows[n + 2:], ['clause 1 (%d): met by %d' % (v, v)])
                    self.assertEqual(sheet.marks_text(sheet.answer_of(line)[4]), marks)
        for method in ('horn', 'ball'):
            every = sheet.answer_of('batch 0 %s clear calls 129 marks' % method + 4 * ' 4294967295')
            self.assertEqual(every, ('clear', 0, method, 129, 2 ** 128 - 1))

    def test_marks_are_four_numbers(self):
        for marks in ('', '1', '1 0', '1 0 0', '1 0 0 0 0', '4294967296 0 0 0', '1 0 0 4294967296', '1 0 0 ' + '9' * 5000, '1 0 0 -1',
                      '1 0 0 x', '1,0,0,0', '1  0 0 0', '+1 0 0 0'):
            with self.assertRaises(sheet.Bad) as seen:
                sheet.explain(BYTES, 'batch 70000 ball clear calls 2 marks ' + marks)
            self.assertIn('no answer of the program', str(seen.exception))

    def test_a_method_stands_in_the_line(self):
        for line in ('batch 70000 clear calls 2 marks 1 0 0 0', 'batch 70000 balls clear calls 2 marks 1 0 0 0',
                     'batch 70000 Horn clear calls 2 marks 1 0 0 0', 'batch 70000 clear ball calls 2 marks 1 0 0 0',
                     'ball batch 70000 clear calls 2 marks 1 0 0 0', 'batch 70000 horn ball clear calls 2 marks 1 0 0 0',
                     'batch 70000 ball refused 8 place 0', 'ball refused 8 place 0'):
            with self.assertRaises(sheet.Bad) as seen:
                sheet.explain(BYTES, line)
            self.assertIn('no answer of the program', str(seen.exception))

    def test_other_answers_are_explained(self):
        self.assertEqual(sheet.explain(BYTES, 'batch 70000 ball none calls 2 marks 0 0 0 0').split('\n'),
                         ['none: no assignment meets every clause of batch 70000 (2 calls)',
                          'ball: clause 1 (1 2) has more than one positive literal, so balls are searched'])
        self.assertIn('more than 2 calls;', sheet.explain(BYTES, 'batch 70000 ball spent calls 2 marks 0 0 0 0'))
        data = sheet.sheet_of(7, 1, [[1], [-1]])
        self.assertEqual(sheet.explain(data, 'batch 7 horn none calls 2 marks 0 0 0 0').split('\n'),
                         ['none: no assignment meets every clause of batch 7 (2 rounds)',
                          'horn: no clause has more than one positive literal; each round pays what the first false clause asks for'])
        self.assertIn('more than 1 round;', sheet.explain(data, 'batch 7 horn spent calls 1 marks 0 0 0 0'))

    def test_the_method_is_the_sheets(self):
        for clauses, at in (([], None), ([[]], None), ([[1]], None), ([[-1, -2]], None), ([[1], [2], [3]], None),
                            ([[-1, 2, -3], [3], [-2, -1]], None), ([[1, 2]], 1), ([[1], [-1, -2], [-1, 2, 3]], 3),
                            ([[-1, -2, -3, 4, -5, -6, -7, -8]], None), ([[1, -2, -3, -4, -5, -6, -7, 8]], 1)):
            self.assertEqual(sheet.two_positive(clauses), at)
            right, wrong = ('ball', 'horn') if at else ('horn', 'ball')
            data = sheet.sheet_of(0, 8, clauses)
            for verdict in ('none', 'spent'):
                line = 'batch 0 %%s %s calls 1 marks 0 0 0 0' % verdict
                self.assertIn('\n%s: ' % right, sheet.explain(data, line % right))
                with self.assertRaises(sheet.Bad) as seen:
                    sheet.explain(data, line % wrong)
                self.assertEqual(str(seen.exception), 'the line says %s, and this sheet is decided by %s' % (wrong, right))

    def test_refusals_are_explained(self):
        for number in (3, 4, 5, 6, 7, 13):
            self.assertIn('at word 3:', sheet.explain(BYTES, 'refused %d place 3' % number))
        for number in (1, 2, 8, 9, 11, 12):
            self.assertNotIn('word', sheet.explain(BYTES, 'refused %d place 0' % number))
        for number in range(1, 14):
            told = sheet.explain(BYTES, 'refused %d place 0' % number)
            self.assertNotIn('unknown', told)
            self.assertEqual(sheet.explain(BYTES, 'refused %d place 0 sheet 2' % number), told)
        overlong = sheet.explain(BYTES, 'refused 5 place 9219')
        self.assertIn('too long', overlong)
        self.assertNotIn('word', overlong)
        self.assertIn('at word 9219:', sheet.explain(BYTES, 'refused 4 place 9219'))

    def test_a_wrong_answer_is_seen(self):
        for line in ('batch 70000 ball clear calls 2 marks 4 0 0 0', 'batch 1 ball clear calls 2 marks 1 0 0 0',
                     'batch 70000 horn clear calls 2 marks 1 0 0 0', 'yes'):
            with self.assertRaises(sheet.Bad):
                sheet.explain(BYTES, line)
        for marks in ('9 0 0 0', '1 1 0 0', '1 0 1 0', '1 0 0 2147483648'):
            with self.assertRaises(sheet.Bad) as seen:
                sheet.explain(BYTES, 'batch 70000 ball clear calls 2 marks ' + marks)
            self.assertEqual(str(seen.exception), 'marks %s: a bit above variable 3 is set' % marks)
        with self.assertRaises(sheet.Bad) as seen:
            sheet.explain(sheet.sheet_of(0, 127, []), 'batch 0 horn clear calls 1 marks 0 0 0 2147483648')
        self.assertIn('above variable 127', str(seen.exception))

    def test_messages_name_the_line(self):
        for text, line in (('n 129', 1), ('n 128\n(129)', 2), ('n 127\n(1)\n(-128)', 3), ('n 128\n(128 -128)', 2), ('n 3\n(1 4)', 2),
                           ('n 3\n\n(1 -1)', 3), ('n 3\n(1', 2), ('(1)', 1), ('n 3\n(x)', 2), ('n 3\n1', 2),
                           ('n 9\n(1 2 3 4 5 6 7 8 9)', 2), ('n 3\nn 3', 2), ('', 1), ('batch', 1), ('n 1\n' + '(1)\n' * 1025, 1026),
                           ('p cnf 129 1', 1), ('p cnf 128 1\n129 0', 2), ('p cnf 3 1\n1 4 0', 2), ('p cnf 3 2\n1 0', 2),
                           ('p cnf 3 1\n1 2', 2), ('c x\n1 0', 2), ('p cnf 3 1\np cnf 3 1', 2)):
            with self.assertRaises(sheet.Bad) as seen:
                sheet.formula_of(text)
            self.assertIn('line %d:' % line, str(seen.exception))

    def test_bad_sheets_name_the_word(self):
        for at, word in ((0, 0), (2, 0x80000081), (3, 0x40000009), (4, 0), (4, 8), (5, 3), (5, 0x40000000)):
            bad = BYTES[:4 * at] + word.to_bytes(4, 'little') + BYTES[4 * at + 4:]
            with self.assertRaises(sheet.Bad) as seen:
                sheet.formula_in(bad)
            self.assertIn('word %d:' % at, str(seen.exception))
        for bad in (b'', BYTES[:-1], BYTES[:-4], BYTES + b'\0' * 40000):
            with self.assertRaises(sheet.Bad):
                sheet.formula_in(bad)

    def test_words_of_the_command_line(self):
        for words in (['input', 'x', '1', '9', '-'], ['input', '3', '1', '4294967296', '-'], ['solve', '-', '3', '-1', '9']):
            ran = subprocess.run([sys.executable, os.path.join(HERE, 'sheet')] + words, input=TEXT.encode(), capture_output=True)
            self.assertEqual((ran.returncode, ran.stdout), (1, b''))
            self.assertIn(b'must be a number', ran.stderr)


def sizes_printed():
    """The sizes of all codes, as the program `codes` must print them."""
    sizes = {}
    with open(os.path.join(HERE, '..', 'crates', 'codes', 'stdout'), encoding='ascii') as file:
        for line in file:
            seen = re.match(r'code (\d+) (\d+) words (\d+) ', line)
            if seen:
                sizes[int(seen[1]), int(seen[2])] = int(seen[3])
    return sizes


def sizes_in(table):
    return {(t, s): size for t, row in table.items() for s, size in enumerate(row)}


class Plans(unittest.TestCase):
    def test_sizes_are_those_of_the_program_codes(self):
        self.assertEqual(len(sizes_printed()), 90)
        self.assertEqual(sizes_in(sheet.CODE_SIZES), sizes_printed())

    def test_a_wrong_size_is_seen(self):
        for t, row in sheet.CODE_SIZES.items():
            for s, size in enumerate(row):
                wrong = dict(sheet.CODE_SIZES)
                wrong[t] = row[:s] + (size + 1,) + row[s + 1:]
                self.assertNotEqual(sizes_in(wrong), sizes_printed())

    def test_bounds_by_hand(self):
        # one block of 3, code 0 and 7: 2 centres, each with 1 + 2 calls
        self.assertEqual(sheet.bound_of(3, 2, 3, 1), (2, 1, 6))
        # blocks of 3 and 2, two words each: 4 centres, R 2, each with 1 + 3 + 9 calls
        self.assertEqual(sheet.bound_of(5, 3, 3, 1), (4, 2, 52))
        # the last block has one variable and radius 1, not 2: M 2 x 1, R 2 + 1
        self.assertEqual(sheet.bound_of(4, 2, 3, 2), (2, 3, 30))
        # a block longer than n is one block of n
        self.assertEqual(sheet.bound_of(2, 2, 12, 12), (1, 2, 7))
        # without blocks there is one centre and no radius; k^0 is 1 also for k = 0
        self.assertEqual(sheet.bound_of(0, 0, 3, 1), (1, 0, 1))
        self.assertEqual(sheet.bound_of(1, 0, 1, 1), (1, 1, 1))
        self.assertEqual(sheet.bound_of(1, 0, 1, 0), (2, 0, 2))
        # 128 variables: every assignment a centre; one centre with every variable within its radius
        self.assertEqual(sheet.bound_of(128, 8, 1, 0), (2 ** 128, 0, 2 ** 128))
        self.assertEqual(sheet.bound_of(128, 2, 1, 1), (1, 128, 2 ** 129 - 1))
        self.assertEqual(sheet.bound_of(127, 2, 12, 12), (1, 127, 2 ** 128 - 1))
        # 11 blocks of 11 with two words each, radius 5, and a last one of 7 with two words: R 12 x 5
        self.assertEqual(sheet.bound_of(128, 2, 11, 5), (4096, 60, 4096 * (2 ** 61 - 1)))

    def test_the_least_bound_goes_first(self):
        for n, k in ((0, 0), (3, 2), (20, 3), (32, 3), (32, 8), (127, 3), (128, 3), (128, 8)):
            plans = sheet.plans_of(n, k)
            self.assertEqual(sorted((b, s) for _, b, s, _, _ in plans), [(b, s) for b in range(1, 13) for s in range(b + 1)])
            self.assertEqual(plans[0], min(plans))
        self.assertEqual(sheet.plans_of(3, 2)[0], (6, 3, 1, 2, 1))
        # ties go to the smaller b, then the smaller s
        self.assertEqual(sheet.plans_of(0, 0)[0][1:3], (1, 0))
        self.assertEqual(sheet.plans_of(32, 8)[0][1:3], (1, 0))
        self.assertEqual(sheet.plans_of(128, 8)[0], (2 ** 128, 1, 0, 2 ** 128, 0))
        # one literal a clause: with the whole of every block in its radius there is one centre and one branch, 128 flips long
        self.assertEqual(sheet.plans_of(128, 1)[0], (129, 1, 1, 1, 128))

    def test_the_table(self):
        rows = sheet.show_plans(*sheet.formula_of(TEXT)[1:]).split('\n')
        self.assertEqual(rows[0], '# n 3, longest clause 2; * is the plan with the least bound')
        self.assertEqual(rows[1].split(), ['B', 'S', 'M', 'R', 'bound'])
        self.assertEqual(rows[2].split(), ['*', '3', '1', '2', '1', '6'])
        self.assertEqual(len(rows), 92)
        self.assertEqual([row for row in rows[3:] if '*' in row], [])

    def test_the_table_of_128_variables(self):
        rows = sheet.show_plans(128, [[1, -64, 128]]).split('\n')
        self.assertEqual(rows[0], '# n 128, longest clause 3; * is the plan with the least bound')
        self.assertEqual(len(rows), 92)
        self.assertEqual(len({len(row) for row in rows[1:]}), 1)
        self.assertIn(['12', '12', '1', '128', str((3 ** 129 - 1) // 2)], [row.split() for row in rows])

    def test_the_table_of_a_horn_formula(self):
        for n, bound in ((0, '1 round'), (1, '2 rounds'), (128, '129 rounds')):
            rows = sheet.show_plans(n, [[-v] for v in range(1, n + 1)]).split('\n')
            self.assertEqual(rows[1], '# Horn: at most %s, whatever the plan: these bounds are of balls, and none are searched' % bound)
            self.assertEqual((len(rows), rows[3].split()[0]), (93, '*'))


class Solver(unittest.TestCase):
    """A solver's lines, from a program that prints one line and keeps its input."""

    def solve(self, text, said, plan=None):
        with tempfile.TemporaryDirectory() as folder:
            program, seen = os.path.join(folder, 'program'), os.path.join(folder, 'seen')
            with open(program, 'w', encoding='ascii') as file:
                file.write('#!/bin/sh\ncat >%s\necho "%s"\n' % (seen, said))
            os.chmod(program, 0o700)
            lines, status = sheet.solve(sheet.formula_of(text), plan, program)
            with open(seen, 'rb') as file:
                self.input = file.read()
        return lines, status

    def test_satisfiable(self):
        lines, status = self.solve(TEXT, 'batch 70000 ball clear calls 2 marks 1 0 0 0')
        self.assertEqual(lines, ['c plan 3 1, budget 4294967295', 'c M 2, R 1, longest clause 2: at most 6 calls', 'c calls 2',
                                 's SATISFIABLE', 'v 1 -2 -3 0'])
        self.assertEqual(status, 10)
        self.assertEqual(self.input, b'\3\0\0\0' + b'\1\0\0\0' + b'\xff' * 4 + BYTES)

    def test_128_variables(self):
        text = 'p cnf 128 8\n1 0 32 0 33 0 64 0 65 0 96 0 97 0 128 0\n'
        lines, status = self.solve(text, 'batch 0 horn clear calls 9 marks' + 4 * ' 2147483649')
        self.assertEqual(lines[:4], ['c plan 1 1, budget 4294967295', 'c Horn: at most 129 rounds, whatever the plan', 'c rounds 9',
                                     's SATISFIABLE'])
        paid = (1, 32, 33, 64, 65, 96, 97, 128)
        literals = [int(word) for line in lines[4:] for word in line.split()[1:]]
        self.assertEqual(literals, [v if v in paid else -v for v in range(1, 129)] + [0])
        self.assertEqual(status, 10)
        with self.assertRaises(sheet.Bad) as seen:
            self.solve(text, 'batch 0 horn clear calls 9 marks 2147483649 2147483649 2147483649 1')
        self.assertIn('clause 8, (128)', str(seen.exception))
        lines, status = self.solve('p cnf 128 1\n1 128 0\n', 'batch 0 ball clear calls 2 marks 1 0 0 0', (1, 1, 9))
        self.assertEqual(lines[:4], ['c plan 1 1, budget 9', 'c M 1, R 128, longest clause 2: at most %d calls' % (2 ** 129 - 1),
                                     'c calls 2', 's SATISFIABLE'])

    def test_unsatisfiable(self):
        lines, status = self.solve('p cnf 1 2\n1 0\n-1 0\n', 'batch 0 horn none calls 2 marks 0 0 0 0', (1, 1, 9))
        self.assertEqual(lines, ['c plan 1 1, budget 9', 'c Horn: at most 2 rounds, whatever the plan', 'c rounds 2', 's UNSATISFIABLE'])
        self.assertEqual(status, 20)
        self.assertEqual(self.input[:12], b'\1\0\0\0' + b'\1\0\0\0' + b'\x09\0\0\0')
        lines, status = self.solve('n 2 (1 2) (-1) (-2)', 'batch 0 ball none calls 1 marks 0 0 0 0', (1, 1, 9))
        self.assertEqual((lines[1:], status), (['c M 1, R 2, longest clause 2: at most 7 calls', 'c calls 1', 's UNSATISFIABLE'], 20))

    def test_unknown(self):
        lines, status = self.solve(TEXT, 'batch 70000 ball spent calls 1 marks 0 0 0 0', (3, 1, 1))
        self.assertEqual((lines[-1], status), ('s UNKNOWN', 0))
        self.assertIn('c spent: the search needs more calls than the budget', lines)
        lines, status = self.solve('n 1 (1) (-1)', 'batch 0 horn spent calls 1 marks 0 0 0 0', (1, 1, 1))
        self.assertEqual((lines[-3:], status), (['c rounds 1', 'c spent: the search needs more rounds than the budget', 's UNKNOWN'], 0))
        lines, status = self.solve(TEXT, 'refused 8 place 0', (13, 1, 1))
        self.assertEqual((lines[-1], status), ('s UNKNOWN', 0))
        self.assertIn('c refused: bad plan', lines[-2])

    def test_an_assignment_is_checked_first(self):
        for said in ('batch 70000 ball clear calls 2 marks 4 0 0 0', 'batch 70000 ball clear calls 2 marks 9 0 0 0',
                     'batch 70000 ball clear calls 2 marks 1 0 0 1', 'batch 1 ball clear calls 2 marks 1 0 0 0',
                     'batch 70000 ball clear calls 2 marks 1', 'batch 70000 horn clear calls 2 marks 1 0 0 0',
                     'batch 70000 clear calls 2 marks 1 0 0 0', 'yes'):
            with self.assertRaises(sheet.Bad):
                self.solve(TEXT, said)

    def test_lines_of_an_assignment(self):
        self.assertEqual(sheet.value_lines(0, 0), ['v 0'])
        for n in (32, 33, 127, 128):
            for marks in (0, 2 ** n - 1, (2 ** n - 1) // 3, 1 << n - 1):
                lines = sheet.value_lines(n, marks)
                self.assertTrue(all(line.startswith('v ') and len(line) < 78 for line in lines))
                literals = [int(word) for line in lines for word in line.split()[1:]]
                self.assertEqual(literals, [v if marks >> (v - 1) & 1 else -v for v in range(1, n + 1)] + [0])

    def test_a_program_that_is_not_built(self):
        with self.assertRaises(sheet.Bad) as seen:
            sheet.solve(sheet.formula_of(TEXT), None, os.path.join(HERE, 'no-such-program'))
        self.assertIn('run.sh', str(seen.exception))


class Split(unittest.TestCase):
    """The calls of plain splitting; the trees are worked out by hand."""

    def tree(self, text, *rows):
        self.assertEqual(sheet.split(sheet.formula_of(text), 2000).split('\n'), list(rows))

    def ran(self, text, *words):
        ran = subprocess.run([sys.executable, os.path.join(HERE, 'sheet'), *words], input=text.encode(), capture_output=True)
        return ran.returncode, ran.stdout.decode(), ran.stderr.decode()

    def test_sample(self):
        self.tree(TEXT,
                  'nothing set: open',
                  '  1 hold: open',
                  '    2 hold: no, clause 1 (1 2) is false',
                  '    2 pay: open',
                  '      3 hold: found, clause 1 (1 2) by 2, clause 2 (-1 -3) by -1, clause 3 (-3) by -3',
                  '',
                  'batch 70000 clear calls 5 marks 2 0 0 0')

    def test_no_model(self):
        self.tree('n 2 (1 2) (1 -2) (-1 2) (-1 -2)',
                  'nothing set: open',
                  '  1 hold: open',
                  '    2 hold: no, clause 1 (1 2) is false',
                  '    2 pay: no, clause 2 (1 -2) is false',
                  '  1 pay: open',
                  '    2 hold: no, clause 3 (-1 2) is false',
                  '    2 pay: no, clause 4 (-1 -2) is false',
                  '',
                  'batch 0 none calls 7 marks 0 0 0 0')
        self.tree('batch 7 n 1 (1) (-1)',
                  'nothing set: open', '  1 hold: no, clause 1 (1) is false', '  1 pay: no, clause 2 (-1) is false', '',
                  'batch 7 none calls 3 marks 0 0 0 0')

    def test_back_by_two_variables(self):
        self.tree('n 3 (1 2 3) (1 -2) (2 1 -3) (3 -1)',
                  'nothing set: open',
                  '  1 hold: open',
                  '    2 hold: open',
                  '      3 hold: no, clause 1 (1 2 3) is false',
                  '      3 pay: no, clause 3 (2 1 -3) is false',
                  '    2 pay: no, clause 2 (1 -2) is false',
                  '  1 pay: open',
                  '    2 hold: open',
                  '      3 hold: no, clause 4 (3 -1) is false',
                  '      3 pay: found, clause 1 (1 2 3) by 1, clause 2 (1 -2) by 1, clause 3 (2 1 -3) by 1, clause 4 (3 -1) by 3',
                  '',
                  'batch 0 clear calls 10 marks 5 0 0 0')

    def test_found_before_the_last_variable(self):
        # what is not set is held, and a clause may name it: 4 in the third
        self.tree('n 4 (2 1) (-1) (-1 4)',
                  'nothing set: open',
                  '  1 hold: open',
                  '    2 hold: no, clause 1 (2 1) is false',
                  '    2 pay: found, clause 1 (2 1) by 2, clause 2 (-1) by -1, clause 3 (-1 4) by -1',
                  '',
                  'batch 0 clear calls 4 marks 2 0 0 0')
        # 2 would be held, but is not set: that meets nothing yet
        self.tree('n 2 (-2)', 'nothing set: open', '  1 hold: open', '    2 hold: found, clause 1 (-2) by -2', '',
                  'batch 0 clear calls 3 marks 0 0 0 0')

    def test_the_first_of_several(self):
        # of two false clauses the first, whatever the order of literals; of two literals that are met the first in the clause
        self.tree('n 2 (1 2) (2) (-1 -2) (2 1) (-2)',
                  'nothing set: open',
                  '  1 hold: open',
                  '    2 hold: no, clause 1 (1 2) is false',
                  '    2 pay: no, clause 5 (-2) is false',
                  '  1 pay: open',
                  '    2 hold: no, clause 2 (2) is false',
                  '    2 pay: no, clause 3 (-1 -2) is false',
                  '',
                  'batch 0 none calls 7 marks 0 0 0 0')
        self.tree('n 3 (-3 -1) (-1 -3) (3 -2)',
                  'nothing set: open',
                  '  1 hold: open',
                  '    2 hold: found, clause 1 (-3 -1) by -1, clause 2 (-1 -3) by -1, clause 3 (3 -2) by -2',
                  '',
                  'batch 0 clear calls 3 marks 0 0 0 0')
        self.tree('n 2 (-2 -1) (-1 -2) (-2)',
                  'nothing set: open',
                  '  1 hold: open',
                  '    2 hold: found, clause 1 (-2 -1) by -2, clause 2 (-1 -2) by -1, clause 3 (-2) by -2',
                  '',
                  'batch 0 clear calls 3 marks 0 0 0 0')

    def test_no_clause_and_the_empty_clause(self):
        for n in (0, 1, 128):
            self.tree('batch 4294967295 n %d' % n, 'nothing set: found', '', 'batch 4294967295 clear calls 1 marks 0 0 0 0')
            self.tree('n %d ()' % n, 'nothing set: no, clause 1 () is false', '', 'batch 0 none calls 1 marks 0 0 0 0')
        self.tree('n 3 (1) (-2 3) () ()', 'nothing set: no, clause 3 () is false', '', 'batch 0 none calls 1 marks 0 0 0 0')

    def test_128_variables(self):
        rows = sheet.split(sheet.formula_of('n 128 (128)'), 130).split('\n')
        held = ['%s%d hold: open' % ('  ' * v, v) for v in range(1, 128)]
        self.assertEqual(rows, ['nothing set: open'] + held + [256 * ' ' + '128 hold: no, clause 1 (128) is false',
                                                               256 * ' ' + '128 pay: found, clause 1 (128) by 128', '',
                                                               'batch 0 clear calls 130 marks 0 0 0 2147483648'])
        for v, marks in ENDS.items():
            # v + 1 calls down to hold, and one more
            last = sheet.split((7, 128, [[v]]), 2000).split('\n')[-1]
            self.assertEqual(last, 'batch 7 clear calls %d marks %s' % (v + 2, marks))
        every = sheet.split((0, 128, [[v] for v in range(128, 0, -1)]), 257).split('\n')
        self.assertEqual(every[-1], 'batch 0 clear calls 257 marks' + 4 * ' 4294967295')
        self.assertEqual(len(every), 259)

    def test_the_first_model_in_order(self):
        chance = random.Random(10)
        for n in [0, 1, 2, 3, 4, 5, 6] * 30:
            clauses = [[v * chance.choice((1, -1)) for v in chance.sample(range(1, n + 1), chance.randint(min(n, 1), min(n, 3)))]
                       for _ in range(chance.randint(0, 4 * n))]
            # in this order the first variable weighs most, and hold precedes pay
            models = (values for values in itertools.product((0, 1), repeat=n)
                      if all(any(values[abs(l) - 1] == (l > 0) for l in clause) for clause in clauses))
            first, rows = next(models, None), sheet.split((0, n, clauses), 2000).split('\n')
            verdict, marks = ('none', 0) if first is None else ('clear', sum(1 << at for at, paid in enumerate(first) if paid))
            self.assertEqual(rows[-1], 'batch 0 %s calls %d marks %d 0 0 0' % (verdict, len(rows) - 2, marks))
            self.assertLessEqual(len(rows) - 2, 2 ** (n + 1) - 1)

    def test_too_many_calls(self):
        # the four clauses over the last two variables: every call is needed, and 2^129 - 1 of them are never counted
        for n, bound in ((128, '2^129 - 1 = 680564733841876926926749214863536422911'), (10, '2^11 - 1 = 2047')):
            four = (0, n, [[n - 1, n], [n - 1, -n], [1 - n, n], [1 - n, -n]])
            with self.assertRaises(sheet.Bad) as seen:
                sheet.split(four, 2000)
            told = 'splitting takes more than 2000 calls here, up to %s; --most N allows N of them' % bound
            self.assertEqual(str(seen.exception), told)
        self.assertEqual(sheet.split(four, 2047).split('\n')[-1], 'batch 0 none calls 2047 marks 0 0 0 0')
        with self.assertRaises(sheet.Bad):
            sheet.split(four, 2046)
        text = 'n 10 (9 10) (9 -10) (-9 10) (-9 -10)'
        status, out, told = self.ran(text, 'split', '-')
        self.assertEqual((status, out), (1, ''))
        self.assertIn('sheet: splitting takes more than 2000 calls', told)
        self.assertEqual(self.ran(text, 'split', '-', '--most', '2046')[:2], (1, ''))
        status, out, told = self.ran(text, '--most', '2047', 'split', '-')
        self.assertEqual((status, out.count('\n'), told), (0, 2049, ''))

    def test_command_line(self):
        rows = 'nothing set: open\n  1 hold: no, clause 1 (1) is false\n  1 pay: found, clause 1 (1) by 1\n\n'
        dimacs = 'c one clause\np cnf 33 1\n1 0\n'
        self.assertEqual(self.ran(dimacs, 'split', '-'), (0, rows + 'batch 0 clear calls 3 marks 1 0 0 0\n', ''))
        other = self.ran('batch 9 n 1 (1)', 'split', '-', '--batch', '8')
        self.assertEqual(other, (0, rows + 'batch 8 clear calls 3 marks 1 0 0 0\n', ''))
        self.assertEqual(self.ran(dimacs, 'split', '-', '--most', '3')[0], 0)
        with tempfile.TemporaryDirectory() as folder:
            text, tree = os.path.join(folder, 'text'), os.path.join(folder, 'tree')
            with open(text, 'w', encoding='ascii') as file:
                file.write('n 1 (1)')
            self.assertEqual(self.ran('', 'split', text, '-o', tree), (0, '', ''))
            with open(tree, encoding='ascii') as file:
                self.assertEqual(file.read(), rows + 'batch 0 clear calls 3 marks 1 0 0 0\n')

    def test_bad_arguments(self):
        for words in (['split'], ['split', '-', '-'], ['split', '-', '--most'], ['split', '--most', '9'], ['split', '-', '9'],
                      ['plans', '-', '--most', '9'], ['write', '-', '--most', '9'], ['--most', '9']):
            status, out, told = self.ran(TEXT, *words)
            self.assertEqual((status, out), (1, ''))
            self.assertIn('sheet split FILE [--most N]', told)
        for most in ('0', '-1', 'x', '', '4294967296', '1.0'):
            status, out, told = self.ran(TEXT, 'split', '-', '--most', most)
            self.assertEqual((status, out), (1, ''))
            self.assertIn('--most is %s, and must be a number from 1 to 4294967295' % most, told)
        for text, line in (('n 129', 1), ('n 2\n(1 3)', 2), ('p cnf 1 1\n1', 2)):
            status, out, told = self.ran(text, 'split', '-')
            self.assertEqual((status, out), (1, ''))
            self.assertIn('line %d:' % line, told)
        self.assertEqual(self.ran('', 'split', os.path.join(HERE, 'no-such-file'))[:2], (1, ''))


if __name__ == '__main__':
    unittest.main()
