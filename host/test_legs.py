#!/usr/bin/env python3
"""Tests of host/legs.c, which host/test.sh builds: the lines of progress and the verdict beside those of a run (host/clear.c), under
budgets from the least that goes on to the largest; kills at random moments, between parking and printing and in the middle of
writing; sheets that get further clauses while they are parked, also under kills, and those that do not fit the parked one; parked
files that are damaged, or of another plan; Horn and refused sheets, and bad arguments. The parked file is read and written here by
what the head of host/legs.c says of it. Most files are in memory where there is /dev/shm, since each leg waits for its file to reach
the disk."""
import collections
import importlib.machinery
import importlib.util
import itertools
import os
import random
import re
import resource
import shutil
import signal
import struct
import subprocess
import sys
import tempfile
import time
import unittest

ROOT = os.path.dirname(os.path.dirname(os.path.abspath(__file__)))
LEGS, RUN = (os.path.join(ROOT, 'target', 'host', name) for name in ('legs', 'clear'))
LOADER = importlib.machinery.SourceFileLoader('sheet', os.path.join(ROOT, 'tools', 'sheet'))
sheet = importlib.util.module_from_spec(importlib.util.spec_from_loader('sheet', LOADER))
LOADER.exec_module(sheet)
MEMORY = '/dev/shm' if os.access('/dev/shm', os.W_OK) else None
LARGEST = 2 ** 32 - 1
CLEAR, NONE, SPENT = 1, 2, 3
VERDICTS = {'clear': CLEAR, 'none': NONE, 'spent': SPENT}
PROGRESS = re.compile(r'leg (\d+) balls (\d+) of (\d+) calls (\d+) so far (\d+)')

Parked = collections.namedtuple('Parked', 'batch n block_length radius next legs calls verdict marks sheet')


def fnv(data):
    total = 0xcbf29ce484222325
    for byte in data:
        total = (total ^ byte) * 0x100000001b3 % 2 ** 64
    return total


def written(p, magic=b'PARK', version=1, length=None):
    """The bytes of a parked search."""
    front = struct.pack('<4s5I3QI4II', magic, version, p.batch, p.n, p.block_length, p.radius, p.next, p.legs, p.calls, p.verdict,
                        *p.marks, len(p.sheet) if length is None else length)
    return front + p.sheet + struct.pack('<Q', fnv(front + p.sheet))


def read(data):
    """The parked search that the bytes are; they are whole where written again they are the same."""
    fields = struct.unpack_from('<4s5I3QI4II', data)
    p = Parked(*fields[2:10], fields[10:14], data[72:-8])
    if written(p) != data or p.verdict not in VERDICTS.values():
        raise ValueError('%d bytes are no parked search' % len(data))
    return p


def bytes_at(name):
    """What the file holds, or None where there is none."""
    try:
        with open(name, 'rb') as file:
            return file.read()
    except FileNotFoundError:
        return None


def clauses_of(chance, n, count, length):
    return [[v * chance.choice((1, -1)) for v in chance.sample(range(1, n + 1), length)] for _ in range(count)]


def eights(chance, n, count):
    """All 256 clauses over the variables 1 to 8, which have no model, among others of 8 literals."""
    clauses = [[v * (-1) ** (i >> v - 1 & 1) for v in range(1, 9)] for i in range(256)] + clauses_of(chance, n, count - 256, 8)
    chance.shuffle(clauses)
    return clauses


def far(n):
    """Clauses of one literal, and one that is true throughout with two positive literals, so that the sheet is not Horn. The model has in
    each block of 9 the first 4 variables paid and the last whole block all paid: by plan 9, 4 no ball of the first half has it."""
    last = n // 9 * 9
    return [[v if last - 9 < v <= last or v < last and (v - 1) % 9 < 4 else -v] for v in range(1, n + 1)] + [[-6, 7, 8]]


def arranged(chance, how, clauses, more):
    """The clauses of a longer sheet."""
    clauses = list(clauses)
    if how == 'appended':
        return clauses + more
    if how == 'inserted':
        for clause in more:
            clauses.insert(chance.randint(0, len(clauses)), clause)
        return clauses
    clauses += more
    if how == 'repeated':
        clauses += chance.sample(clauses, min(len(clauses), 9, sheet.MAX_CLAUSES - len(clauses)))
    if how == 'turned':
        return [chance.sample(clause, len(clause)) for clause in clauses]
    chance.shuffle(clauses)
    return clauses


ARRANGEMENTS = 'appended', 'inserted', 'shuffled', 'turned', 'repeated'
FOUR = [[1, 2], [1, -2], [-1, 2], [-1, -2]]
CHANCE = random.Random(11)
# the plan, batch, n and clauses of a sheet that is decided by balls, and a budget that is tried first
SEARCHES = {
    'one ball': ((1, 1), (0, 128, [[1, 128], [-1], [-128]]), 1),
    'the sample': ((3, 1), (70000, 3, [[1, 2], [-1, -3], [-3]]), 1),
    'four clauses': ((2, 1), (4294967295, 2, FOUR), 1),
    'four in one ball': ((2, 2), (65536, 2, FOUR), 1),
    'n below the block length': ((12, 1), (65535, 5, clauses_of(CHANCE, 5, 60, 3)), 1),
    'one call a ball': ((4, 0), (1, 10, clauses_of(CHANCE, 10, 60, 3)), 1),
    'a short last block': ((5, 2), (2, 13, clauses_of(CHANCE, 13, 90, 3)), 1),
    'none of 1024 balls': ((4, 1), (3, 20, clauses_of(CHANCE, 20, 140, 3)), 1),
    'clear': ((6, 1), (4, 24, clauses_of(CHANCE, 24, 90, 3)), 1),
    'short clauses': ((3, 1), (5, 16, clauses_of(CHANCE, 16, 40, 2)), 1),
    'the longest sheet': ((8, 1), (6, 12, eights(CHANCE, 12, 1024)), 1),
    'clear with n 99': ((9, 4), (7, 99, far(99)), 1),
    'none with n 128': ((9, 4), (8, 128, [[128], [-2, 3, 4], [-128]]), 256),
    'clear with n 128': ((9, 4), (9, 128, far(128)), 7000),
}
# what `least` found for them
LEAST = {}


def apart(clauses, *later):
    """The clauses without those that come later, and then these, one at a time."""
    return [[clause for clause in clauses if clause not in later]] + [[clause] for clause in later]


def longest_in_steps(chance):
    """Up to 1,024 clauses. What the clause that comes last would let through, of those over the variables 1 to 8, is not in the first 32
    balls, since 9 to 12 are paid."""
    core, *others = eights(chance, 12, 1020), [9], [10], [11], [12]
    last = next(clause for clause in core if sorted(map(abs, clause)) == list(range(1, 9)))
    core = [clause for clause in core if sorted(clause) != sorted(last)]
    return [others + core[:900], core[900:], [last] * (1020 - len(core))]


GROWTH = random.Random(12)
# the plan, batch and n, a budget that gets each sheet past every ball, the clauses of the first sheet, and those that come later, step by
# step; where a sheet but the last has a model, it is in none of the first balls
GROWTHS = {
    'four clauses': ((2, 1), (4294967295, 2), 3, [FOUR[:3], FOUR[3:]]),
    'one call a ball': ((4, 0), (1, 10), 1, [[[9], [10]] + clauses_of(GROWTH, 10, 20, 3), *(clauses_of(GROWTH, 10, 4, 3) for _ in range(5)),
                                             [], [[-9, -10]]]),
    'a short last block': ((5, 2), (2, 13), 200, [clauses_of(GROWTH, 13, 70, 3), *(clauses_of(GROWTH, 13, 8, 3) for _ in range(3))]),
    'none of 1024 balls': ((4, 1), (3, 20), 364, [clauses_of(GROWTH, 20, 120, 3), *(clauses_of(GROWTH, 20, 6, 3) for _ in range(5))]),
    'the longest sheet': ((8, 1), (6, 12), 73, longest_in_steps(GROWTH)),
    'clear with n 99': ((9, 4), (7, 99), 200, apart(far(99), [1], [11], [-5], [-18], [98])),
    'none with n 99': ((9, 4), (65536, 99), 200, apart(far(99) + [[5, 6, -7], [2, -99]], [5, 6, -7], [3], [2, -99]) + [[[-98]]]),
}


class Host(unittest.TestCase):
    def setUp(self):
        self.place = tempfile.mkdtemp(dir=MEMORY)
        self.addCleanup(shutil.rmtree, self.place)
        self.file, self.parked = self.at('sheet'), self.at('parked')

    def at(self, name):
        return os.path.join(self.place, name)

    def take(self, name):
        """A search of the table: its sheet in a file, its plan, its number of balls, and the line that a run of it prints."""
        self.forget()
        self.name = name
        self.plan, formula, self.first = SEARCHES[name]
        self.bring(*formula)

    def bring(self, batch, n, clauses):
        """A sheet in the file, and what is known of it by the plan."""
        self.data = self.put_sheet(batch, n, clauses)
        b, s = self.plan
        self.total = sheet.CODE_SIZES[b][s] ** (n // b) * (sheet.CODE_SIZES[n % b][min(s, n % b)] if n % b else 1)
        self.line = self.run_line(*self.plan, LARGEST)
        words = self.line.split()
        self.calls, self.verdict = int(words[5]), VERDICTS[words[3]]

    def steps(self, name, chance):
        """A growth of the table: its plan, and the clauses of its sheets in turn, each arranged in some way; the last one is brought, for
        what is known of it."""
        self.forget()
        self.plan, self.head, self.enough, (first, *later) = GROWTHS[name]
        clauses, steps = first, [first]
        for more in later:
            steps.append(arranged(chance, chance.choice(ARRANGEMENTS), clauses, more))
            clauses = clauses + more
        self.bring(*self.head, steps[-1])
        return steps

    def put_sheet(self, batch, n, clauses):
        data = sheet.sheet_of(batch, n, clauses)
        self.put(self.file, data)
        return data

    def put(self, name, data):
        with open(name, 'wb') as file:
            file.write(data)

    def run_line(self, *arguments):
        return subprocess.run([RUN, *map(str, arguments), self.file], stdout=subprocess.PIPE, check=True).stdout.decode().rstrip('\n')

    def ran(self, arguments, **more):
        """The exit status, the lines printed, and what was told."""
        more.setdefault('stdout', subprocess.PIPE)
        ran = subprocess.run([LEGS, *map(str, arguments)], stderr=subprocess.PIPE, timeout=60, **more)
        return ran.returncode, (ran.stdout or b'').decode().splitlines(), ran.stderr.decode()

    def arguments(self, budget, *legs, parked=None):
        return [*self.plan, budget, self.file, parked or self.parked, *legs]

    def legs(self, budget, *legs, **more):
        return self.ran(self.arguments(budget, *legs), **more)

    def declines(self, arguments, **more):
        """Told on standard error alone, exit status 2, and the parked file as it was."""
        before = bytes_at(self.parked)
        status, lines, told = self.ran(arguments, **more)
        self.assertEqual((status, lines), (2, []), arguments)
        self.assertNotEqual(told, '', arguments)
        self.assertEqual(bytes_at(self.parked), before, arguments)
        return told

    def forget(self):
        if os.path.exists(self.parked):
            os.remove(self.parked)

    def check_progress(self, lines, budget, legs=0, balls=0, calls=0):
        """Lines of progress that follow on so many legs, balls and calls; what they come to."""
        last = None
        for line in lines:
            self.assertRegex(line, '^%s$' % PROGRESS.pattern)
            leg, now, total, of_leg, so_far = map(int, PROGRESS.fullmatch(line).groups())
            self.assertEqual((leg, total, so_far), (legs + 1, self.total, calls + of_leg))
            self.assertTrue(balls < now <= total and 0 < of_leg <= budget, line)
            # the leg before had no room for the first ball of this one
            self.assertTrue(last is None or last + of_leg > budget, line)
            legs, balls, calls, last = leg, now, so_far, of_leg
        return legs, balls, calls

    def is_parked(self, legs, balls, calls, verdict=SPENT):
        """The parked file after so many legs; before the first there is none."""
        if legs == 0:
            self.assertIsNone(bytes_at(self.parked))
            return
        p = read(bytes_at(self.parked))
        self.assertEqual((p.legs, p.next, p.calls, p.verdict), (legs, balls, calls, verdict))
        self.assertEqual((p.block_length, p.radius, p.sheet), (*self.plan, self.data))
        batch, n, _ = sheet.formula_in(self.data)
        marks = self.line.split()[7:] if verdict == CLEAR else ['0'] * 4
        self.assertEqual((p.batch, p.n, list(map(str, p.marks))), (batch, n, marks))

    def is_finished(self, lines, budget, *before):
        """The lines up to the verdict, and the parked file after it."""
        self.assertEqual(lines[-1], self.line)
        legs, balls, calls = self.check_progress(lines[:-1], budget, *before)
        self.assertEqual((balls, calls), (self.total, self.calls))
        self.is_parked(legs, balls, calls, self.verdict)
        return legs

    def least(self):
        """The least budget from the first on that goes on: with one call more wherever no leg gets past a ball."""
        came = 0, 0, 0
        for budget in itertools.count(LEAST.get(self.name, self.first)):
            status, lines, told = self.legs(budget)
            if status == 0:
                break
            self.is_stuck(status, told)
            came = self.check_progress(lines, budget, *came)
            self.is_parked(*came)
        self.is_finished(lines, budget, *came)
        self.forget()
        LEAST[self.name] = budget
        return budget

    def is_stuck(self, status, told):
        self.assertEqual(status, 2)
        self.assertIn('BUDGET', told)


class Progress(Host):
    def test_every_budget(self):
        for name in SEARCHES:
            with self.subTest(name):
                self.take(name)
                least = self.least()
                budgets = (least, least + 1, 3 * least, self.calls // 2, self.calls - 1, self.calls, LARGEST)
                budgets = sorted(max(least, budget) for budget in budgets)
                legs = [self.is_finished(self.searched(budget), budget) for budget in budgets]
                self.assertEqual(legs, sorted(legs, reverse=True))
                self.assertEqual([count > 1 for count in legs], [budget < self.calls for budget in budgets])
                if self.first == 1:
                    self.forget()
                    status, _, told = self.legs(least - 1)
                    self.is_stuck(status, told)

    def searched(self, budget):
        """The lines of a search from its start. Called again it prints the verdict alone, whatever the budget, and leaves the file."""
        self.forget()
        status, lines, told = self.legs(budget)
        self.assertEqual((status, told), (0, ''))
        before = os.stat(self.parked)
        self.assertEqual(self.legs(0), (0, lines[-1:], ''))
        self.assertEqual(self.legs(LARGEST, 1), (0, lines[-1:], ''))
        after = os.stat(self.parked)
        self.assertEqual((after.st_ino, after.st_mtime_ns), (before.st_ino, before.st_mtime_ns))
        self.assertFalse(os.path.exists(self.parked + '.new'))
        return lines

    def test_one_call_a_ball(self):
        # every leg but the last uses its whole budget
        self.take('one call a ball')
        for budget in (1, 7, 512, 1023, 1024, 1025):
            self.forget()
            lines = self.legs(budget)[1]
            self.assertEqual(lines[:-1], ['leg %d balls %d of 1024 calls %d so far %d' % (at // budget + 1, end, end - at, end)
                                          for at in range(0, 1024, budget) for end in [min(1024, at + budget)]])

    def test_some_legs(self):
        chance = random.Random(1)
        for name in ('a short last block', 'clear', 'the sample', 'none with n 128', 'clear with n 99'):
            with self.subTest(name):
                self.take(name)
                least, came = self.least(), (0, 0, 0)
                while came[1] < self.total:
                    # budgets may differ from leg to leg, and are large enough for some dozens of calls of the host
                    budget, most = chance.choice((least, 2 * least, 5 * least)) + self.calls // 60, chance.randint(1, 3)
                    status, lines, told = self.legs(budget, most)
                    self.assertEqual((status, told), (0, ''))
                    self.assertLessEqual(len(lines), most + 1)
                    came = self.check_progress(lines[:-1], budget, *came)
                    if came[1] < self.total:
                        self.assertEqual(len(lines), most + 1)
                        self.assertEqual(lines[-1], 'batch %d ball spent calls %d marks 0 0 0 0' % (SEARCHES[name][1][0], came[2]))
                        self.is_parked(*came)
                self.assertEqual((lines[-1], came[2]), (self.line, self.calls))
                self.is_parked(*came, self.verdict)

    def test_long_sums(self):
        # a search that has come a long way: its numbers need more than 32 bits
        self.take('none of 1024 balls')
        self.legs(1000, 1)
        p = read(bytes_at(self.parked))
        more = 2 ** 40 + LARGEST
        self.put(self.parked, written(p._replace(legs=p.legs + more, calls=p.calls + more)))
        lines = self.legs(1000)[1]
        legs, balls, calls = self.check_progress(lines[:-1], 1000, p.legs + more, p.next, p.calls + more)
        self.assertEqual((balls, calls), (self.total, self.calls + more))
        words = self.line.split()
        self.assertEqual(lines[-1], ' '.join(words[:5] + [str(calls)] + words[6:]))
        self.is_parked(legs, balls, calls, self.verdict)

    def test_many_balls(self):
        # 2^62 balls of one call each, and no model
        self.plan, clauses = (1, 0), [[61, 62], [1], [-1]]
        self.put(self.file, sheet.sheet_of(3, 62, clauses))
        of = 'of 4611686018427387904'
        self.assertEqual(self.legs(1000, 2), (0, ['leg 1 balls 1000 %s calls 1000 so far 1000' % of,
                                                  'leg 2 balls 2000 %s calls 1000 so far 2000' % of,
                                                  'batch 3 ball spent calls 2000 marks 0 0 0 0'], ''))
        p = read(bytes_at(self.parked))
        self.put(self.parked, written(p._replace(next=2 ** 62 - 5)))
        self.assertEqual(self.legs(3, 1)[1][0], 'leg 3 balls 4611686018427387902 %s calls 3 so far 2003' % of)
        # 2^63 are refused
        self.forget()
        self.put(self.file, sheet.sheet_of(3, 63, clauses))
        self.assertEqual(self.legs(1000), (0, ['refused 8 place 0'], ''))
        self.assertIsNone(bytes_at(self.parked))

    def test_budget_too_small(self):
        self.take('four clauses')
        for budget in (0, 1, 2):
            self.assertIn('BUDGET', self.declines(self.arguments(budget)))
            self.assertEqual(os.listdir(self.place), ['sheet'])
        # the file is left as the last leg left it
        self.take('a short last block')
        least = self.least()
        status, lines, told = self.legs(least - 1)
        self.is_stuck(status, told)
        came = self.check_progress(lines, least - 1)
        self.is_parked(*came)
        for budget in (0, 1, least - 1):
            self.assertIn('BUDGET', self.declines(self.arguments(budget)))
        self.is_finished(self.legs(least)[1], least, *came)


class Growing(Host):
    """Sheets that get further clauses while their search is parked."""
    # how often no leg got past a ball
    stuck = 0

    def goes_on(self, budget, *legs):
        """A call with the sheet brought. It says and parks what a search of this sheet alone does that had come as far; where no leg gets
        past a ball the file is left."""
        before, other = bytes_at(self.parked), self.at('other')
        if before:
            self.put(other, written(read(before)._replace(sheet=self.data)))
        expected = self.ran(self.arguments(budget, *legs, parked=other))
        self.assertEqual(self.legs(budget, *legs), expected)
        self.assertEqual(bytes_at(self.parked), bytes_at(other) if expected[1] else before)
        if os.path.exists(other):
            os.remove(other)
        self.assertFalse(os.path.exists(self.parked + '.new'))
        return expected

    def step(self, clauses, came, budget, *legs):
        """Some legs with the sheet of these clauses, with the least of budget, 2 x budget + 1, ... that gets past a ball."""
        self.bring(*self.head, clauses)
        while True:
            status, lines, told = self.goes_on(budget, *legs)
            if status == 0:
                break
            self.is_stuck(status, told)
            self.stuck += 1
            came = self.check_progress(lines, budget, *came)
            budget = 2 * budget + 1
        self.assertEqual(told, '')
        came = self.check_progress(lines[:-1], budget, *came)
        if came[1] < self.total:
            self.assertEqual(lines[-1], 'batch %d ball spent calls %d marks 0 0 0 0' % (self.head[0], came[2]))
            self.is_parked(*came)
        else:
            self.is_right(lines[-1], *came)
        return came

    def is_right(self, line, legs, balls, calls):
        """The verdict and the marks are those of a run of the last sheet; the calls are the legs'."""
        words = self.line.split()
        self.assertEqual(line, ' '.join(words[:5] + [str(calls)] + words[6:]))
        _, n, clauses = sheet.formula_in(self.data)
        if self.verdict == CLEAR:
            sheet.literals_met(n, clauses, sheet.answer_of(line)[-1])
        self.is_parked(legs, balls, calls, self.verdict)
        self.assertEqual(self.legs(0), (0, [line], ''))

    def test_in_steps(self):
        for name in GROWTHS:
            self.stuck = 0
            for round_number in range(3):
                with self.subTest(name, round=round_number):
                    chance, came = random.Random('%s %d' % (name, round_number)), (0, 0, 0)
                    steps = self.steps(name, chance)
                    part = self.calls // (4 * len(steps))
                    for clauses in steps[:-1]:
                        came = self.step(clauses, came, chance.choice((0, part // 2, part)), chance.randint(1, 1 + (self.total > 8)))
                        self.assertLess(came[1], self.total)
                    came = self.step(steps[-1], came, chance.choice((part // 2, part, 3 * part, LARGEST)))
                    self.assertEqual(came[1], self.total)
            self.assertGreater(self.stuck, 0, name)

    def test_all_bytes(self):
        # up to the longest sheet that there can be, of which only the last clause is new
        self.plan, self.head, chance = (8, 1), (6, 12), random.Random(9)
        clauses = eights(chance, 12, 1023)
        came = self.step(clauses, (0, 0, 0), 73, 3)
        clauses.insert(chance.randint(0, 1023), [12, -11, 10, -9, 8, -7, 6, -5])
        came = self.step(clauses, came, 73, 1)
        self.assertEqual(len(bytes_at(self.parked)), 80 + 36876)
        self.step(clauses, came, 1000)

    def test_each_arrangement(self):
        # one step of each kind, also with no clause more than there were
        chance = random.Random(4)
        self.plan, self.head, _, (first, *later) = GROWTHS['a short last block']
        for how in ARRANGEMENTS:
            for more in ([], later[0], [first[0]], [first[0][::-1], []]):
                self.forget()
                came = self.step(first, (0, 0, 0), 0, 1)
                came = self.step(arranged(chance, how, first, more), came, 0, 1)
                self.step(arranged(chance, how, first, more), came, LARGEST)

    def test_repeats_left_out(self):
        # clauses are compared as sets: what stands twice need stand only once
        self.plan, self.head = (2, 1), (3, 2)
        came = self.step(FOUR[:3] + [[2, 1], [1, 2], [-2, 1]], (0, 0, 0), 3, 1)
        came = self.step([[-1, -2], [2, 1], [2, -1], [1, -2]], came, 3)
        self.assertEqual(came, (2, 2, 6))

    def test_four_clauses(self):
        # 1 and 2 paid meets the first three, and is not in ball 0; with the fourth there is no model
        self.plan, self.head = (2, 1), (5, 2)
        self.bring(*self.head, FOUR[:3])
        old = self.data
        spent = ['leg 1 balls 1 of 2 calls 3 so far 3', 'batch 5 ball spent calls 3 marks 0 0 0 0']
        for clauses, verdict, end in ((FOUR, NONE, ['leg 2 balls 2 of 2 calls 3 so far 6', 'batch 5 ball none calls 6 marks 0 0 0 0']),
                                      ([[2, -1], [1, 2], [-2, 1]], CLEAR, ['leg 2 balls 2 of 2 calls 2 so far 5',
                                                                           'batch 5 ball clear calls 5 marks 3 0 0 0'])):
            self.forget()
            self.put(self.file, old)
            self.assertEqual(self.legs(3, 1), (0, spent, ''))
            self.assertEqual(read(bytes_at(self.parked)).sheet, old)
            self.bring(*self.head, clauses)
            self.assertEqual(self.legs(3), (0, end, ''))
            self.is_parked(2, 2, int(end[1].split()[5]), verdict)
            self.assertEqual(self.legs(3), (0, end[1:], ''))

    def test_one_call_a_ball(self):
        # whatever the sheet, every ball has one call: the legs' calls add up to the balls, and none is searched again
        for budget in (1, 7, 90, 100):
            steps, lines = self.steps('one call a ball', random.Random(budget)), []
            for clauses in steps:
                self.put_sheet(*self.head, clauses)
                status, said, told = self.legs(budget, *((1,) if clauses is not steps[-1] else ()))
                self.assertEqual((status, told), (0, ''))
                lines += said[:-1]
            self.assertEqual(lines, ['leg %d balls %d of 1024 calls %d so far %d' % (at // budget + 1, end, end - at, end)
                                     for at in range(0, 1024, budget) for end in [min(1024, at + budget)]])
            self.assertEqual(said[-1], 'batch 1 ball none calls 1024 marks 0 0 0 0')

    def test_budget_too_small(self):
        # the file is left with the old sheet, which then goes on, or with a larger budget the new one
        for name in ('a short last block', 'none of 1024 balls', 'four clauses'):
            for onward in (0, -1):
                steps = self.steps(name, random.Random(6))
                came = self.step(steps[0], (0, 0, 0), 0, 1)
                old = bytes_at(self.parked)
                self.bring(*self.head, steps[-1])
                for budget in (0, 1, 2):
                    for legs in ((), (1,), (5,)):
                        self.assertIn('BUDGET', self.declines(self.arguments(budget, *legs)))
                self.assertEqual(bytes_at(self.parked), old)
                self.assertEqual(sorted(os.listdir(self.place)), ['parked', 'sheet'])
                self.assertEqual(self.step(steps[onward], came, LARGEST)[0], 2)

    def test_many_balls(self):
        # a search that has come a long way: its numbers need more than 32 bits, and are kept
        self.plan, clauses = (1, 0), [[61, 62], [1]]
        self.put_sheet(3, 62, clauses)
        self.legs(1000, 1)
        p = read(bytes_at(self.parked))
        self.put(self.parked, written(p._replace(next=2 ** 62 - 5, legs=2 ** 40, calls=2 ** 41)))
        longer = self.put_sheet(3, 62, clauses + [[-1]])
        of = 'of 4611686018427387904'
        self.assertEqual(self.legs(3, 1), (0, ['leg %d balls 4611686018427387902 %s calls 3 so far %d' % (2 ** 40 + 1, of, 2 ** 41 + 3),
                                               'batch 3 ball spent calls %d marks 0 0 0 0' % (2 ** 41 + 3)], ''))
        self.assertEqual(read(bytes_at(self.parked)), p._replace(next=2 ** 62 - 2, legs=2 ** 40 + 1, calls=2 ** 41 + 3, sheet=longer))
        self.assertEqual(self.legs(3), (0, ['leg %d balls 4611686018427387904 %s calls 2 so far %d' % (2 ** 40 + 2, of, 2 ** 41 + 5),
                                            'batch 3 ball none calls %d marks 0 0 0 0' % (2 ** 41 + 5)], ''))


class TwoSheets(Host):
    """Sheets that do not go with the parked one: answered, and the parked file left."""

    def setUp(self):
        super().setUp()
        self.plan, self.head, self.clauses = (5, 2), (70000, 13), clauses_of(random.Random(7), 13, 80, 3)
        self.bring(*self.head, self.clauses)
        self.assertEqual(self.legs(200, 1)[0], 0)
        self.going = bytes_at(self.parked)
        self.assertEqual(self.legs(LARGEST)[0], 0)
        self.ended = bytes_at(self.parked)
        self.assertEqual([read(data).verdict for data in (self.going, self.ended)], [SPENT, NONE])

    def answered(self, parked, line, *told, budgets=(0, 1, LARGEST)):
        """This line alone, these words told, or nothing, and the parked file not touched."""
        self.put(self.parked, parked)
        before = os.stat(self.parked)
        for budget in budgets:
            for legs in ((), (1,), (5,)):
                status, lines, said = self.legs(budget, *legs)
                self.assertEqual((status, lines), (0, [line]))
                self.assertEqual(said == '', told == ())
                for word in told:
                    self.assertIn(word, said)
        after = os.stat(self.parked)
        self.assertEqual((after.st_ino, after.st_mtime_ns, bytes_at(self.parked)), (before.st_ino, before.st_mtime_ns, parked))
        self.assertEqual(sorted(os.listdir(self.place)), ['parked', 'sheet'])

    def lacks(self, clauses, at):
        """Refused for the parked clause at this place, counted from 0."""
        self.put_sheet(*self.head, clauses)
        word, text = 3 + sum(1 + len(clause) for clause in self.clauses[:at]), sheet.text_of(self.clauses[at])
        self.answered(self.going, 'refused 13 place %d sheet 1' % word, self.file, 'lacks', 'word %d there, %s\n' % (word, text),
                      budgets=(0, 500))

    def test_dropped(self):
        chance, all_of = random.Random(8), self.clauses
        for at in range(len(all_of)):
            rest = all_of[:at] + all_of[at + 1:]
            self.lacks(arranged(chance, chance.choice(ARRANGEMENTS), rest, clauses_of(chance, 13, chance.randint(0, 3), 2)), at)
        # the first of several, and all
        for first, second in ((0, 1), (3, 50), (58, 59)):
            self.lacks([clause for at, clause in enumerate(all_of) if at not in (first, second)], first)
        self.lacks([[1, 2]], 0)
        # another sign, a literal less, a literal more
        for at in (0, 31, 59):
            first, *rest = all_of[at]
            for clause in ([-first] + rest, rest, [first] + rest + [min(set(range(1, 14)) - set(map(abs, all_of[at])))], []):
                self.lacks(all_of[:at] + [clause] + all_of[at + 1:], at)

    def test_back_to_the_old_sheet(self):
        # once the longer sheet is parked, the old one lacks a clause of it; clauses of other lengths are told too
        old = self.clauses
        for clause in ([], [13], [-1, 2, -3, 4, -5, 6, -7, 8]):
            self.put(self.parked, self.going)
            self.bring(*self.head, old[:5] + [clause] + old[5:])
            self.assertEqual(self.legs(LARGEST, 1)[0], 0)
            longer = read(bytes_at(self.parked))
            self.assertEqual((longer.sheet, longer.legs, longer.verdict), (self.data, 2, NONE))
            going = written(read(self.going)._replace(sheet=self.data))
            self.put_sheet(*self.head, old)
            self.answered(going, 'refused 13 place 23 sheet 1', 'lacks', 'word 23 there, %s\n' % sheet.text_of(clause))
            self.answered(written(longer), 'refused 12 place 0 sheet 2', 'ended')

    def test_another_batch(self):
        batch, n = self.head
        for parked in (self.going, self.ended):
            for head in ((batch + 1, n), (4464, n), (batch, n + 1), (batch, 128), (0, 14)):
                for clauses in (self.clauses, self.clauses[1:], [[1, 2]]):
                    self.put_sheet(*head, clauses)
                    self.answered(parked, 'refused 11 place 0 sheet 2', self.file, self.parked, 'batch')
            # a record that does not belong to the parked sheet
            for wrong in ({'batch': batch + 1}, {'n': n + 1}):
                for head in (self.head, (batch + 1, n), (batch, n + 1)):
                    self.put_sheet(*head, self.clauses + [[1]])
                    self.answered(written(read(parked)._replace(**wrong)), 'refused 11 place 0 sheet 1')

    def test_ended(self):
        # whether the sheet has further clauses, or lacks some; the verdict is not printed for it
        for clauses in (self.clauses + [[1]], self.clauses[::-1], self.clauses[1:], self.clauses[:-1], [[1, 2]]):
            self.put_sheet(*self.head, clauses)
            self.answered(self.ended, 'refused 12 place 0 sheet 2', self.file, self.parked, 'ended', 'another PARKED')
        # and a clear, whose marks do not meet the further clause
        self.forget()
        self.plan, self.head = (2, 1), (5, 2)
        self.bring(*self.head, FOUR[:3])
        self.assertEqual(self.legs(LARGEST)[1][-1], 'batch 5 ball clear calls 6 marks 3 0 0 0')
        ended = bytes_at(self.parked)
        for clauses in (FOUR, FOUR[:3] + [[1]], FOUR[2::-1], FOUR[:2]):
            self.put_sheet(*self.head, clauses)
            self.answered(ended, 'refused 12 place 0 sheet 2', 'ended', 'another PARKED')
        self.put(self.file, self.data)
        self.answered(ended, 'batch 5 ball clear calls 6 marks 3 0 0 0')

    def test_horn(self):
        for head in (self.head, (9, 3), (0, 128)):
            for clauses in ([[-1, 2], [1], [-2]], [[-3, 2], [1]], []):
                self.put_sheet(*head, clauses)
                for budget in (0, 1, 2, 3, LARGEST):
                    line = self.run_line(*self.plan, budget)
                    self.assertIn(' horn ', line)
                    for parked in (self.going, self.ended):
                        self.answered(parked, line, budgets=(budget,))

    def test_damaged(self):
        good = sheet.sheet_of(*self.head, self.clauses + [[1]])
        longest = sheet.sheet_of(6, 12, eights(random.Random(3), 12, 1024))
        literal = good[16:20]
        for line, data in (('1 place 0', good[:-1]), ('1 place 0', good + b'\0'), ('2 place 0', b''), ('2 place 0', good[:8]),
                           ('4 place 5', good[:20]), ('4 place %d' % (len(good) // 4 - 1), good[:-4]), ('3 place 0', literal + good[4:]),
                           ('3 place %d' % (len(good) // 4), good + literal),
                           ('5 place 2', good[:8] + struct.pack('<I', 0x80000081) + good[12:]),
                           ('6 place 4', good[:16] + struct.pack('<I', 28) + good[20:]), ('7 place 5', good[:20] + literal + good[24:]),
                           ('5 place 9219', longest + literal), ('5 place 9219', longest + b'\0'), ('5 place 9219', good + bytes(99999))):
            self.put(self.file, data)
            for parked in (self.going, self.ended):
                self.answered(parked, 'refused %s sheet 2' % line)
            # the parked sheet is read first; no leg leaves such a one
            self.answered(written(read(self.going)._replace(sheet=good[:24])), 'refused 4 place 6 sheet 1')

    def test_bad_plan(self):
        # a plan that no leg parks, and one that has too many balls for the n that is brought
        self.put_sheet(*self.head, self.clauses + [[1]])
        for self.plan in ((0, 0), (13, 1), (5, 6)):
            wrong = read(self.going)._replace(block_length=self.plan[0], radius=self.plan[1])
            self.answered(written(wrong), 'refused 8 place 0 sheet 2')
        self.plan, clauses = (1, 0), [[61, 62], [1], [-1]]
        self.forget()
        self.put_sheet(3, 62, clauses)
        self.legs(1000, 1)
        parked = bytes_at(self.parked)
        self.put_sheet(3, 63, clauses)
        self.answered(parked, 'refused 8 place 0 sheet 2')
        self.put_sheet(3, 61, clauses[1:] + [[1, 2]])
        self.answered(parked, 'refused 11 place 0 sheet 2', 'batch')

    def test_longest(self):
        # one clause more than a sheet can have
        self.forget()
        self.plan, (first, *later) = (8, 1), GROWTHS['the longest sheet'][-1]
        self.bring(6, 12, first)
        self.legs(2000, 1)
        parked, clauses = bytes_at(self.parked), sum(later, first)
        self.assertEqual(len(clauses), 1024)
        self.put_sheet(6, 12, clauses + [[1, 2]])
        self.answered(parked, 'refused 5 place %d sheet 2' % (3 + sum(1 + len(clause) for clause in clauses)))


class NotParked(Host):
    def answered(self, data, plan=(3, 1), budgets=(0, 1, 2, 3, LARGEST)):
        """The run's line, and nothing parked."""
        self.put(self.file, data)
        self.plan = plan
        for budget in budgets:
            line = self.run_line(*plan, budget)
            for legs in ((), (1,), (5,)):
                self.assertEqual(self.legs(budget, *legs), (0, [line], ''))
        self.assertEqual(os.listdir(self.place), ['sheet'])
        return self.run_line(*plan, LARGEST)

    def test_horn(self):
        self.assertEqual(self.answered(sheet.sheet_of(8, 128, [[-64, -1, 97], [-1, 64], [1]])),
                         'batch 8 horn clear calls 4 marks 1 2147483648 0 1')
        self.assertEqual(self.answered(sheet.sheet_of(9, 3, [[-1, 2], [1], [-2]]), (12, 0)), 'batch 9 horn none calls 3 marks 0 0 0 0')
        self.assertEqual(self.answered(sheet.sheet_of(0, 0, []), (1, 1)), 'batch 0 horn clear calls 1 marks 0 0 0 0')
        # where a plan would have 2^63 balls, and where it would have more
        self.answered(sheet.sheet_of(5, 63, [[1]]), (1, 0))
        self.answered(sheet.sheet_of(5, 128, [[1]]), (12, 0))

    def test_refused(self):
        good = sheet.sheet_of(70000, 3, [[1, 2], [-1, -3], [-3]])
        longest = sheet.sheet_of(6, 12, eights(random.Random(3), 12, 1024))
        words = [good[at:at + 4] for at in range(0, len(good), 4)]
        for line, data in (('1 place 0', good[:-1]), ('2 place 0', b''), ('2 place 0', good[:8]), ('4 place 5', good[:20]),
                           ('3 place 0', words[3] + good[4:]), ('3 place 2', good[:8] + words[3] + good[12:]),
                           ('5 place 2', good[:8] + struct.pack('<I', 0x80000081) + good[12:]),
                           ('5 place 0', struct.pack('<I', 0xC0010000) + good[4:]),
                           ('6 place 4', good[:16] + struct.pack('<I', 8) + good[20:]), ('7 place 5', good[:20] + words[4] + good[24:]),
                           ('5 place 9219', longest + words[3]), ('5 place 9219', longest + b'\0'),
                           ('5 place 9219', longest + bytes(99999))):
            self.assertEqual(self.answered(data, budgets=(0, 9)), 'refused ' + line)
            self.assertEqual(self.answered(data, (0, 0), (9,)), 'refused 8 place 0')
        for plan in ((0, 0), (13, 1), (3, 4), (LARGEST, 0), (12, LARGEST)):
            self.assertEqual(self.answered(good, plan), 'refused 8 place 0')

    def test_bad_arguments(self):
        self.take('a short last block')
        good = [5, 2, 200, self.file, self.parked, 1]
        for bad in ('4294967296', '99999999999999999999999999', '-1', '+1', '', ' 1', '1x', '0x1', '1.0', '1,0'):
            for at in (0, 1, 2, 5):
                self.declines(good[:at] + [bad] + good[at + 1:])
        for arguments in ([], good[:4], good[:5] + [0], good + [1], good[:3] + [self.at('no-such-sheet'), self.parked],
                          good[:3] + [self.place, self.parked]):
            self.declines(arguments)
        # a directory, and a file in none
        for parked in (self.place, self.at('no-such-directory/parked'), self.at('p' * 5000)):
            self.declines(good[:4] + [parked])
        self.assertEqual(os.listdir(self.place), ['sheet'])
        # a name that is no file's: what is written beside it cannot take its place
        self.declines(good[:4] + [''], cwd=self.place)

    def test_long_name(self):
        # a path has at most 4,095 bytes, and the file beside the parked one has 4 more
        self.take('four clauses')
        for length in range(4090, 4100):
            arguments = self.arguments(3, 1, parked=self.place + '/' * (length - len(self.place) - 6) + 'parked')
            if length > 4091:
                self.declines(arguments)
                self.assertEqual(os.listdir(self.place), ['sheet'])
                continue
            for legs in (1, 2):
                self.assertEqual(self.ran(arguments)[0], 0)
                self.is_parked(legs, legs, 3 * legs, (SPENT, NONE)[legs - 1])
            self.forget()


class Damaged(Host):
    def setUp(self):
        super().setUp()
        self.take('four clauses')
        self.whole = []
        for legs in (1, 2):
            self.assertEqual(self.legs(3, 1)[0], 0)
            self.whole.append(bytes_at(self.parked))
            self.is_parked(legs, legs, 3 * legs, (SPENT, NONE)[legs - 1])

    def told(self, data, what='damaged', budget=3):
        self.put(self.parked, data)
        self.assertIn(what, self.declines(self.arguments(budget)))

    def test_each_byte(self):
        chance = random.Random(2)
        for whole in self.whole:
            for at in range(len(whole)):
                self.told(whole[:at] + bytes([whole[at] ^ chance.randint(1, 255)]) + whole[at + 1:])

    def test_length(self):
        for whole in self.whole:
            for length in range(len(whole)):
                self.told(whole[:length])
            for more in (b'\0', whole[-8:], whole, bytes(36876), bytes(99999)):
                self.told(whole + more)
                self.told(more + whole)
        for budget in (0, 1, LARGEST):
            self.told(self.data, budget=budget)

    def test_wrong_fields(self):
        # with the checksum that belongs to them
        p, q = map(read, self.whole)
        size = len(p.sheet)
        for length in (0, size - 4, size + 4, size + 8, size + 80, 36876, 36880, LARGEST):
            self.told(written(p, length=length))
        for data in (written(p, magic=b'park'), written(p, version=0), written(p, version=2), written(p._replace(verdict=0)),
                     written(q._replace(verdict=4)), written(p._replace(verdict=LARGEST)), written(p._replace(sheet=bytes(36877)))):
            self.told(data)
        # and a record that no leg leaves: the leg refuses it, and the file stays
        for wrong, line in ((p._replace(next=2), 'refused 12 place 0'), (p._replace(next=2 ** 64 - 1), 'refused 12 place 0'),
                            (p._replace(batch=1), 'refused 11 place 0'), (p._replace(n=3), 'refused 11 place 0')):
            self.put(self.parked, written(wrong))
            self.assertEqual(self.legs(3), (0, [line], ''))
            self.assertEqual(bytes_at(self.parked), written(wrong))

    def other_sheets(self):
        """Sheets beside that of the search, with the line that leaves the file, or None where there is a leg: while the search goes on, and
        where it has ended."""
        ended = 'refused 12 place 0 sheet 2'
        for clauses in (FOUR[::-1], FOUR + [[1]], [[2, 1]] + FOUR[1:], FOUR + FOUR):
            yield sheet.sheet_of(4294967295, 2, clauses), None, ended
        yield sheet.sheet_of(4294967295, 2, FOUR[:3]), 'refused 13 place 12 sheet 1', ended
        for data, line in ((sheet.sheet_of(4294967294, 2, FOUR), 'refused 11 place 0 sheet 2'),
                           (sheet.sheet_of(4294967295, 3, FOUR), 'refused 11 place 0 sheet 2'),
                           (sheet.sheet_of(4294967295, 2, [[1], [2]]), 'batch 4294967295 horn clear calls 3 marks 3 0 0 0'),
                           (b'', 'refused 2 place 0 sheet 2'), (self.data[:-1], 'refused 1 place 0 sheet 2'),
                           (self.data[:-4], 'refused 4 place 14 sheet 2'), (self.data + b'\0', 'refused 1 place 0 sheet 2'),
                           (self.data + bytes(99999), 'refused 5 place 9219 sheet 2')):
            yield data, line, line

    def test_another_sheet(self):
        for data, *answers in self.other_sheets():
            self.put(self.file, data)
            for whole, answer in zip(self.whole, answers):
                self.told(whole[:-1])
                self.told(whole[:40] + bytes([whole[40] ^ 1]) + whole[41:])
                self.put(self.parked, whole)
                status, lines, _ = self.legs(3)
                if answer:
                    self.assertEqual((status, lines, bytes_at(self.parked)), (0, [answer], whole))
                else:
                    p = read(bytes_at(self.parked))
                    self.assertEqual((p.sheet, p.legs, p.next, p.verdict), (data, 2, 2, NONE))
                    self.assertEqual((status, lines[-1]), (0, 'batch 4294967295 ball none calls %d marks 0 0 0 0' % p.calls))

    def test_another_plan(self):
        for whole in self.whole:
            for self.plan in ((2, 2), (2, 0), (1, 1), (3, 1), (12, 1), (0, 0), (2, 3), (13, 1)):
                # whatever the sheet
                for data in (self.data, sheet.sheet_of(4294967295, 2, FOUR + [[1]]), sheet.sheet_of(1, 1, []), b''):
                    self.put(self.file, data)
                    self.told(whole, 'another plan')
            self.plan = 2, 1
            self.put(self.file, self.data)
            self.put(self.parked, whole)
            self.assertEqual(self.legs(3)[1][-1], self.line)


class Crash(Host):
    """Crashes at known moments."""

    def crashed(self, budget, limit, ignored=False):
        """The exit status and the lines printed where a file may have so many bytes: in the middle of writing more the host is ended
        by a signal, or, where that is ignored, told."""
        def prepare():
            resource.setrlimit(resource.RLIMIT_CORE, (0, 0))
            resource.setrlimit(resource.RLIMIT_FSIZE, (limit, limit))
            signal.signal(signal.SIGXFSZ, signal.SIG_IGN if ignored else signal.SIG_DFL)
        return self.legs(budget, preexec_fn=prepare)

    def test_while_writing(self):
        for name in ('a short last block', 'the longest sheet'):
            self.take(name)
            least = self.least()
            size = 80 + len(self.data)
            for before in (0, 1, 2):
                if before:
                    self.assertEqual(self.legs(least, 1)[0], 0)
                old = bytes_at(self.parked)
                for limit in (0, 1, 40, 71, 72, size // 2, size - 8, size - 1):
                    status, lines, _ = self.crashed(least, limit)
                    self.assertEqual((status, lines, bytes_at(self.parked)), (-signal.SIGXFSZ, [], old))
                    status, lines, told = self.crashed(least, limit, ignored=True)
                    self.assertEqual((status, lines, bytes_at(self.parked)), (2, [], old))
                    self.assertNotEqual(told, '')
            self.assertEqual(self.crashed(least, size)[0], 0)
            self.is_parked(*self.check_progress(self.lines_again(least), least), self.verdict)

    def test_while_writing_a_longer_sheet(self):
        for name in ('a short last block', 'the longest sheet', 'clear with n 99'):
            steps = self.steps(name, random.Random(name))
            line, longer, budget = self.line, self.data, self.enough
            self.bring(*self.head, steps[0])
            self.assertEqual(self.legs(budget, 1)[0], 0)
            old, size = bytes_at(self.parked), 80 + len(longer)
            self.put(self.file, longer)
            for limit in (0, 1, 40, 71, 72, len(old) - 8, len(old), size - 8, size - 1):
                for ignored, status in ((False, -signal.SIGXFSZ), (True, 2)):
                    ended, lines, _ = self.crashed(budget, min(limit, size - 1), ignored)
                    self.assertEqual((ended, lines, bytes_at(self.parked)), (status, [], old))
            # the old sheet goes on, and so does the longer
            self.put(self.file, self.data)
            self.assertEqual(self.legs(budget, 1)[0], 0)
            self.assertEqual(read(bytes_at(self.parked)).sheet, self.data)
            self.put(self.file, longer)
            status, lines, _ = self.crashed(budget, size)
            self.assertEqual((status, lines[-1].split()[:5], lines[-1].split()[6:]), (0, line.split()[:5], line.split()[6:]))
            self.assertEqual(read(bytes_at(self.parked)).sheet, longer)

    def lines_again(self, budget):
        """The lines of progress of the whole search in a file of its own."""
        lines = self.ran(self.arguments(budget, parked=self.at('other')))[1]
        os.remove(self.at('other'))
        return lines[:-1]

    def test_left_beside(self):
        # what a crash in the middle of writing leaves beside the parked file
        self.take('a short last block')
        least = self.least()
        lines = self.legs(least)[1]
        whole = bytes_at(self.parked)
        for left in (b'', whole[:40], whole[:-1], whole, whole + whole, bytes(99999)):
            self.forget()
            for at, line in enumerate(lines[:-1]):
                self.put(self.parked + '.new', left)
                self.assertEqual(self.legs(least, 1)[1][0], line)
                self.is_parked(*self.check_progress(lines[:at + 1], least), self.verdict if at == len(lines) - 2 else SPENT)
                self.assertFalse(os.path.exists(self.parked + '.new'))
            self.put(self.parked + '.new', left)
            self.assertEqual(self.legs(least)[1], lines[-1:])

    def test_nothing_can_be_written(self):
        self.take('a short last block')
        os.mkdir(self.parked + '.new')
        self.declines(self.arguments(200))
        os.rmdir(self.parked + '.new')
        self.legs(200, 1)
        os.mkdir(self.parked + '.new')
        self.declines(self.arguments(200))
        # nor with a longer sheet, where a leg is done that cannot be parked
        batch, n, clauses = SEARCHES['a short last block'][1]
        self.put_sheet(batch, n, clauses + clauses[:1])
        self.declines(self.arguments(200))
        self.put(self.file, self.data)
        os.rmdir(self.parked + '.new')
        self.assertEqual(self.legs(200)[1][-1], self.line)

    def test_between_parking_and_printing(self):
        # nobody reads what is printed, so that the host ends by a signal at its first line
        for name in ('a short last block', 'four clauses', 'the sample', 'clear with n 99'):
            self.take(name)
            least = max(self.least(), self.calls // 20)
            lines = self.lines_again(least)
            for at in range(len(lines)):
                nobody, out = os.pipe()
                os.close(nobody)
                self.assertEqual(self.legs(least, stdout=out)[0], -signal.SIGPIPE)
                os.close(out)
                verdict = self.verdict if at == len(lines) - 1 else SPENT
                self.is_parked(*self.check_progress(lines[:at + 1], least), verdict)
            self.assertEqual(self.legs(least), (0, [self.line], ''))

    def test_longer_sheet_between_parking_and_printing(self):
        # each sheet is parked with its first leg, whose line nobody reads
        for name in ('one call a ball', 'clear with n 99', 'four clauses'):
            steps = self.steps(name, random.Random(name))
            budget, came = max(3, self.calls // (2 * len(steps))), 0
            for clauses in steps:
                self.bring(*self.head, clauses)
                nobody, out = os.pipe()
                os.close(nobody)
                self.assertEqual(self.legs(budget, stdout=out)[0], -signal.SIGPIPE)
                os.close(out)
                p = read(bytes_at(self.parked))
                self.assertEqual((p.sheet, p.legs), (self.data, came + 1))
                came = p.legs
            words = self.legs(budget)[1][-1].split()
            self.assertEqual((words[:5], words[6:]), (self.line.split()[:5], self.line.split()[6:]))

    def test_longer_sheet_in_one_write(self):
        # the file beside the parked one has another name too, under which the first that is written in a call stays
        first = self.at('first')
        for name in ('four clauses', 'the longest sheet', 'clear with n 99'):
            for legs in ((1,), ()):
                steps = self.steps(name, random.Random(name))
                self.bring(*self.head, steps[0])
                self.assertEqual(self.legs(self.enough, 1)[0], 0)
                self.bring(*self.head, steps[-1])
                self.put(first, b'')
                os.link(first, self.parked + '.new')
                lines = self.legs(self.enough, *legs)[1]
                p = read(bytes_at(first))
                leg, balls, _, _, calls = map(int, PROGRESS.fullmatch(lines[0]).groups())
                self.assertEqual((p.sheet, p.legs, p.next, p.calls), (self.data, leg, balls, calls))
                self.assertEqual(os.path.samefile(first, self.parked), len(lines) == 2)
                os.remove(first)

    @unittest.skipUnless(os.path.exists('/dev/full'), 'no /dev/full')
    def test_printing_fails(self):
        self.take('four clauses')
        for legs in (1, 2):
            with open('/dev/full', 'wb') as full:
                self.assertEqual(self.legs(3, stdout=full)[0], 2)
            self.is_parked(legs, legs, 3 * legs, (SPENT, NONE)[legs - 1])
        with open('/dev/full', 'wb') as full:
            self.assertEqual(self.legs(3, stdout=full)[0], 2)
        self.assertEqual(self.legs(3)[1], [self.line])


class Kill(Host):
    """Kills at any moment. With one budget the legs are always the same, so that what is printed and parked stands in the lines of a search
    that nobody killed. Where another sheet is brought, the lines from there on are those of its own search that had come as far, and the
    old sheet stands in the file until there is a leg more."""
    # the legs when the sheet was brought, and the sheet that was parked then
    since, old = 0, None

    def look(self):
        """The legs in the parked file, which is absent or whole and never goes back."""
        data = bytes_at(self.parked)
        if data == self.last:
            return self.seen
        self.assertIsNotNone(data)
        p, self.last = read(data), data
        _, balls, _, _, calls = map(int, PROGRESS.fullmatch(self.lines[p.legs - 1]).groups())
        self.assertEqual((p.next, p.calls, p.verdict), (balls, calls, self.verdict if p.legs == len(self.lines) - 1 else SPENT))
        self.assertEqual((p.block_length, p.radius, p.sheet), (*self.plan, self.data if p.legs > self.since else self.old))
        self.assertGreaterEqual(p.legs, self.seen)
        self.seen = p.legs
        return p.legs

    def killed(self, budget, chance, milliseconds):
        """Starts the host, kills it at a random moment, and looks at what it printed and parked; whether it came to the verdict."""
        begun, out = self.seen, b''
        with subprocess.Popen([LEGS, *map(str, self.arguments(budget))], stdout=subprocess.PIPE, stderr=subprocess.PIPE) as running:
            if chance.random() < 0.5:
                out = b''.join(running.stdout.readline() for _ in range(chance.randint(1, min(20, len(self.lines)))))
            end = time.monotonic() + milliseconds * chance.random() ** 2 / 1000
            while time.monotonic() < end:
                self.look()
            running.kill()
            out += running.stdout.read()
            self.assertEqual(running.stderr.read(), b'')
        self.assertIn(running.returncode, (0, -signal.SIGKILL))
        printed = out.decode().splitlines()
        self.assertEqual(printed, self.lines[begun:begun + len(printed)])
        # a leg that was printed is parked, and at most one that is parked was not printed
        parked = self.look()
        verdict = begun + len(printed) == len(self.lines)
        self.assertIn(parked - begun - (len(printed) - verdict), (0,) if verdict else (0, 1))
        self.kills += running.returncode != 0
        return verdict

    def until(self, name, kills, milliseconds, least=None):
        self.take(name)
        chance, self.kills = random.Random(name), 0
        budget = least or self.least()
        status, self.lines, _ = self.legs(budget)
        self.assertEqual(status, 0)
        self.is_finished(self.lines, budget)
        while self.kills < kills:
            self.forget()
            self.seen, self.last = 0, None
            while self.kills < kills and not self.killed(budget, chance, milliseconds):
                pass
        # and to the end
        self.assertEqual(self.legs(budget)[1], self.lines[self.seen:])
        self.assertEqual(self.look(), len(self.lines) - 1)
        self.assertEqual(self.legs(budget)[1], [self.line])

    def bring_more(self, clauses, budget):
        """Another sheet, from what is parked on."""
        self.bring(*self.head, clauses)
        self.since, self.old, other = self.seen, self.parked_sheet(), self.at('other')
        if self.last:
            self.put(other, written(read(self.last)._replace(sheet=self.data)))
        self.lines[self.seen:] = self.ran(self.arguments(budget, parked=other))[1]
        os.remove(other)
        words, due = self.lines[-1].split(), self.line.split()
        self.assertEqual((words[:5], words[6:]), (due[:5], due[6:]))

    def parked_sheet(self):
        return read(self.last).sheet if self.last else None

    def killed_while_growing(self, steps, kills, budget, chance, milliseconds):
        """A search that is killed while its sheet grows. After a kill it goes on with the same sheet, or a longer one, or the parked one
        where no leg on the sheet is parked yet. Whether it came to a verdict."""
        sheets, at = [sheet.sheet_of(*self.head, clauses) for clauses in steps], 0
        self.forget()
        self.seen, self.last, self.lines = 0, None, []
        self.bring_more(steps[0], budget)
        while self.kills < kills:
            if self.killed(budget, chance, milliseconds):
                return True
            if self.seen == len(self.lines) - 1:
                continue
            parked, before = self.parked_sheet(), at
            if parked and parked != self.data and chance.random() < 0.3:
                at = sheets.index(parked)
            elif chance.random() < 0.6:
                at = min(at + 1, len(steps) - 1)
            if at != before:
                self.bring_more(steps[at], budget)
        return False

    def until_grown(self, name, kills, milliseconds):
        chance, self.kills = random.Random(name), 0
        while self.kills < kills:
            steps = self.steps(name, chance)
            ended = self.killed_while_growing(steps, kills, self.enough, chance, milliseconds)
        # and to the end with the last sheet
        if not ended and self.seen < len(self.lines) - 1:
            self.bring_more(steps[-1], self.enough)
        self.assertEqual(self.legs(self.enough)[1], self.lines[self.seen:])
        self.assertEqual(self.look(), len(self.lines) - 1)
        self.assertEqual(self.legs(self.enough)[1], self.lines[-1:])

    def test_while_growing(self):
        for name, milliseconds in (('none of 1024 balls', 10), ('the longest sheet', 10), ('one call a ball', 5), ('clear with n 99', 20),
                                   ('a short last block', 2), ('four clauses', 2)):
            with self.subTest(name):
                self.until_grown(name, 30, milliseconds)

    def test_in_memory(self):
        for name in ('none of 1024 balls', 'the longest sheet', 'one call a ball', 'clear with n 99'):
            with self.subTest(name):
                self.until(name, 40, 10)

    def test_short_searches(self):
        # so that kills come about the verdict too
        for name in ('four clauses', 'a short last block', 'the sample', 'clear'):
            with self.subTest(name):
                self.until(name, 20, 2)

    def test_on_disk(self):
        place = tempfile.mkdtemp(dir=os.path.join(ROOT, 'target', 'host'))
        self.addCleanup(shutil.rmtree, place)
        self.parked = os.path.join(place, 'parked')
        self.until('none with n 128', 10, 40, least=256)


if __name__ == '__main__':
    for program in (LEGS, RUN):
        if not os.access(program, os.X_OK):
            sys.exit('%s is not built; host/test.sh builds it' % os.path.relpath(program, ROOT))
    unittest.main()
