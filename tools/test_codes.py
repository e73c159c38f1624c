#!/usr/bin/env python3
"""Tests of tools/codes: figures worked out by hand, the rate at every step that is drawn, the page, the picture, and that --check sees
what is changed."""
import importlib.machinery
import importlib.util
import math
import os
import re
import shutil
import subprocess
import sys
import tempfile
import unittest
import xml.etree.ElementTree as ET

HERE = os.path.dirname(os.path.abspath(__file__))
ROOT = os.path.dirname(HERE)
FILES = ('tools/codes', 'docs/CODES.md', 'docs/closing.svg', 'crates/codes/stdout')


def tool(name):
    loader = importlib.machinery.SourceFileLoader(name, os.path.join(HERE, name))
    module = importlib.util.module_from_spec(importlib.util.spec_from_loader(name, loader))
    loader.exec_module(module)
    return module


codes, sheet = tool('codes'), tool('sheet')


def contents(name):
    with open(os.path.join(ROOT, name), encoding='utf-8') as file:
        return file.read()


PRINTED = codes.codes_in(contents('crates/codes/stdout'))
CURVES = {s: codes.closing(codes.LENGTH, s) for s in codes.RADII}


def ball_of(t, s):
    """How many words of length t have at most s bits: the ball of 0."""
    return sum(bin(word).count('1') <= s for word in range(2 ** t))


def plainly(t, s):
    """The greedy code by paper 01's sentence: every gain counted afresh at each step."""
    left, words = set(range(2 ** t)), []
    while left:
        gains = [sum(bin(x ^ word).count('1') <= s for x in left) for word in range(2 ** t)]
        words.append(gains.index(max(gains)))
        left = {x for x in left if bin(x ^ words[-1]).count('1') > s}
    return words


class Figures(unittest.TestCase):
    def test_by_hand(self):
        # V, 2^t / V rounded up, t × one less + 1, t × 2^t / V rounded up, t × the second + 1
        for (t, s), figures in {(1, 0): (1, 2, 2, 2, 3), (1, 1): (2, 1, 1, 1, 2), (3, 1): (4, 2, 4, 6, 7), (4, 1): (5, 4, 13, 13, 17),
                                (5, 1): (6, 6, 26, 27, 31), (7, 1): (8, 16, 106, 112, 113), (8, 2): (37, 7, 49, 56, 57),
                                (12, 0): (1, 4096, 49141, 49152, 49153), (12, 4): (794, 6, 61, 62, 73),
                                (12, 12): (4096, 1, 1, 12, 13)}.items():
            code = PRINTED[t, s]
            self.assertEqual((code.volume, code.floor, code.sharp, code.lemma, code.most), figures)
            self.assertEqual((codes.volume(t, s), codes.floor(t, s), codes.lemma(t, s)), figures[:2] + figures[3:4])

    def test_volume_and_floor_of_all(self):
        self.assertEqual(len(PRINTED), 90)
        for (t, s), code in PRINTED.items():
            self.assertEqual(code.volume, ball_of(t, s))
            self.assertTrue((code.floor - 1) * code.volume < 2 ** t <= code.floor * code.volume)
            self.assertTrue((code.lemma - 1) * code.volume < t * 2 ** t <= code.lemma * code.volume)

    def test_the_rate_alone(self):
        # (4, 1) leaves 11 of 16 at each step, rounded down
        for (t, s), left in {(1, 0): [2, 1, 0], (1, 1): [2, 0], (3, 1): [8, 4, 2, 1, 0], (4, 1): [16, 11, 7, 4, 2, 1, 0]}.items():
            self.assertEqual(codes.guaranteed(t, s), left)
            self.assertEqual(PRINTED[t, s].rate, len(left) - 1)

    def test_no_step_is_above_the_rate(self):
        for s, (_, uncovered) in CURVES.items():
            self.assertTrue(all(a <= b for a, b in zip(uncovered, codes.guaranteed(codes.LENGTH, s))))


class Codes(unittest.TestCase):
    def test_by_hand(self):
        self.assertEqual(codes.closing(3, 1), ([0, 7], [8, 4, 0]))
        self.assertEqual(codes.closing(4, 1), ([0, 7, 8, 15], [16, 11, 6, 3, 0]))
        self.assertEqual(codes.checksum([0, 7, 8, 15]), 37774)

    def test_short_codes_plainly(self):
        for t in range(1, 7):
            for s in range(t + 1):
                self.assertEqual(codes.closing(t, s)[0], plainly(t, s))

    def test_the_codes_drawn_are_the_engine_s(self):
        for s, (words, uncovered) in CURVES.items():
            code = PRINTED[codes.LENGTH, s]
            self.assertEqual((len(words), codes.checksum(words)), (code.words, code.checksum))
            self.assertEqual((uncovered[0], uncovered[-1], len(uncovered)), (2 ** code.t, 0, code.words + 1))
            self.assertEqual(codes.drawn(code), uncovered)

    def test_another_code_is_refused(self):
        code = PRINTED[codes.LENGTH, 4]
        for name in ('words', 'checksum', 'volume'):
            with self.assertRaises(SystemExit):
                codes.drawn(code._replace(**{name: getattr(code, name) + 1}))

    def test_the_rate_at_every_step(self):
        for s, (_, uncovered) in CURVES.items():
            whole, volume = 2 ** codes.LENGTH, ball_of(codes.LENGTH, s)
            for before, after in zip(uncovered, uncovered[1:]):
                self.assertLessEqual(after * whole, before * (whole - volume))
            # the first step takes a whole ball, so that no larger volume would do
            self.assertGreater(uncovered[1] * whole, uncovered[0] * (whole - volume - 1))

    def test_floor_steps_halve(self):
        for s, (_, uncovered) in CURVES.items():
            steps = PRINTED[codes.LENGTH, s].floor
            for at, before in enumerate(uncovered):
                self.assertLessEqual(2 * (uncovered + [0] * steps)[at + steps], before)


class Page(unittest.TestCase):
    def test_the_table(self):
        rows = [row.strip('|').split('|') for row in re.findall(r'^(?:\| [\d,*]+ ){9}\|$', contents('docs/CODES.md'), re.M)]
        self.assertEqual([[int(re.sub('[ ,*]', '', word)) for word in row] for row in rows], [list(code[:9]) for code in PRINTED.values()])
        self.assertEqual(['**' in row[4] for row in rows], [code.words == code.floor for code in PRINTED.values()])

    def test_the_run_worked_out(self):
        centres, radius, bound = sheet.bound_of(32, 3, 11, 3)
        self.assertEqual((centres, radius, bound), (16 * 16 * 13, 9, 3328 * 29524))
        page = contents('docs/CODES.md')
        self.assertIn('| together | 32 | R = 9 | 486 | M = 3,328 | 403,971 | 610,000 |', page)
        for number in ('= 29,524 calls', '98,255,872', '{:,}'.format((11 * 8 + 1) ** 2 * (10 * 5 + 1) * 29524),
                       '610,000 × 29,524', '{:,}'.format((11 * 9 + 1) ** 2 * (10 * 6 + 1) * 29524)):
            self.assertIn(number, page)

    def test_lines(self):
        page = contents('docs/CODES.md')
        self.assertLessEqual(max(map(len, page.split('\n'))), 140)
        self.assertNotIn('{', page)
        for name in re.findall(r'`((?:code|sphere|demand)-[\w-]+)`', page):
            self.assertIn(name, self.statements())

    def statements(self):
        """The names of the public statements in the files that the page names."""
        files = ['crates/code/specs/%sLaws.antt' % name for name in ('Closing', 'Floor')] + ['crates/engine/specs/Demands.antt']
        return [name for file in files for name in re.findall(r'^pub ([\w-]+) :', contents(file), re.M)]

    def test_a_sentence_that_is_no_longer_true(self):
        for at, words in (((12, 6), 3), ((12, 12), 2), ((5, 0), 33), ((6, 2), 2), ((6, 2), 20), ((6, 2), 19)):
            rows = [code._replace(words=words) if code[:2] == at else code for code in PRINTED.values()]
            with self.assertRaises(SystemExit):
                codes.floor_numbers(rows)
                codes.bound_numbers(rows)


class Picture(unittest.TestCase):
    NAME = '{http://www.w3.org/2000/svg}'

    def setUp(self):
        self.root = ET.fromstring(contents('docs/closing.svg'))
        self.panels = {s: self.root.find(".//%sg[@id='radius-%d']" % (self.NAME, s)) for s in codes.RADII}

    def texts(self, panel):
        return {''.join(text.itertext()): text for text in panel.iter(self.NAME + 'text')}

    def line(self, panel, kind, s):
        """The points of a line of the panel."""
        points, x, y = [], 0, 0
        drawn = panel.find("%spath[@id='%s-%d']" % (self.NAME, kind, s)).get('d')
        for letter, numbers in re.findall(r'([MLHV])([^MLHV]+)', drawn):
            numbers = [float(number) for number in numbers.split()]
            x, y = {'H': (numbers[0], y), 'V': (x, numbers[0])}.get(letter) or numbers
            points.append((x, y))
        return points

    def test_well_formed(self):
        self.assertEqual(self.root.tag, self.NAME + 'svg')
        self.assertNotIn(None, self.panels.values())
        ground = self.root.find('.//%srect' % self.NAME)
        self.assertEqual((ground.get('width'), ground.get('height')), (self.root.get('width'), self.root.get('height')))
        self.assertEqual(ground.get('fill'), 'white')
        self.assertLess(len(contents('docs/closing.svg')), 20000)
        self.assertEqual(re.findall(r'\d\.\d\d', contents('docs/closing.svg')), [])

    def test_lines_start_at_all_words_and_end_at_none(self):
        for s, panel in self.panels.items():
            heights = {label: float(text.get('y')) - 4 for label, text in self.texts(panel).items() if re.fullmatch(r'[\d,]+', label)}
            self.assertEqual(list(heights), ['4,096', '512', '64', '8', '1', '0'])
            for kind in ('steps', 'rate', 'halved'):
                points = self.line(panel, kind, s)
                self.assertEqual((points[0], points[-1][1]), ((codes.LEFT, heights['4,096']), heights['0']))
                self.assertTrue(all(a <= c and b <= d for (a, b), (c, d) in zip(points, points[1:])))

    def test_lines_end_at_their_marks(self):
        for s, panel in self.panels.items():
            code, texts = PRINTED[codes.LENGTH, s], self.texts(panel)
            labels = {'steps': '%d words' % code.words, 'rate': 'rate: {:,}'.format(code.rate),
                      'halved': '12 × floor + 1 = {:,}'.format(code.most)}
            self.assertIn('floor %d' % code.floor, texts)
            for (kind, label), step in zip(labels.items(), (code.words, code.rate, code.most)):
                end = self.line(panel, kind, s)[-1][0]
                self.assertAlmostEqual(end, codes.LEFT + codes.WIDE * step / code.floor, delta=0.051)
                self.assertAlmostEqual(end, float(texts[label].get('x')), delta=4.1)

    def test_the_guarantees(self):
        for s, panel in self.panels.items():
            code, rate = PRINTED[codes.LENGTH, s], codes.guaranteed(codes.LENGTH, s)
            self.assertEqual(self.line(panel, 'halved', s)[2:-2:2], [(codes.LEFT + 60 * i, 10 * i) for i in range(1, 13)])
            for x, y in self.line(panel, 'rate', s)[2:-1:2]:
                step = round((x - codes.LEFT) / 60 * code.floor)
                self.assertAlmostEqual(y, 120 - 10 * math.log2(rate[step]), delta=0.051)
            for x, y in self.line(panel, 'steps', s)[2:-1:2]:
                step = round((x - codes.LEFT) / 60 * code.floor)
                self.assertGreaterEqual(y, 120 - 10 * math.log2(rate[step]) - 0.051)
                self.assertGreaterEqual(y, (x - codes.LEFT + 0.1) // 60 * 10)

    def test_every_step_is_within_a_pixel(self):
        for s, panel in self.panels.items():
            code = PRINTED[codes.LENGTH, s]
            for kind, steps in (('steps', code.words), ('rate', code.rate)):
                feet = self.line(panel, kind, s)[2::2]
                at = [codes.LEFT + codes.WIDE * step / code.floor for step in range(1, steps + 1)]
                self.assertLess(max(min(abs(x - foot) for foot, _ in feet) for x in at), 1.2)

    def test_labels_keep_apart(self):
        # 8 pixels are wide for a letter of 12
        for panel in self.panels.values():
            taken = {}
            for words, text in self.texts(panel).items():
                wide = 8 * len(words) * int(text.get('font-size', 12)) / 12
                start = float(text.get('x')) - {'end': wide, 'middle': wide / 2}.get(text.get('text-anchor'), 0)
                taken.setdefault(text.get('y'), []).append((start, start + wide))
            for row in map(sorted, taken.values()):
                self.assertTrue(all(a[1] < b[0] for a, b in zip(row, row[1:])))
                self.assertTrue(0 <= row[0][0] and row[-1][1] <= codes.WIDTH)


class Check(unittest.TestCase):
    """`codes` in a copy of what it reads and writes."""

    def setUp(self):
        self.folder = tempfile.TemporaryDirectory()
        self.addCleanup(self.folder.cleanup)
        for name in FILES:
            os.makedirs(os.path.dirname(self.path(name)), exist_ok=True)
            shutil.copy(os.path.join(ROOT, name), self.path(name))

    def path(self, name):
        return os.path.join(self.folder.name, name)

    def change(self, name, old, new):
        with open(self.path(name), encoding='utf-8') as file:
            text = file.read()
        self.assertIn(old, text)
        with open(self.path(name), 'w', encoding='utf-8') as file:
            file.write(text.replace(old, new, 1))

    def codes(self, *words):
        ran = subprocess.run([sys.executable, self.path('tools/codes')] + list(words), capture_output=True, encoding='utf-8')
        return ran.returncode, ran.stderr

    def test_as_they_are(self):
        self.assertEqual(self.codes('--check'), (0, ''))

    def test_a_number_in_the_page(self):
        self.change('docs/CODES.md', '| 12 | 3 | 299 | 14 | 32 |', '| 12 | 3 | 299 | 14 | 31 |')
        status, said = self.codes('--check')
        self.assertEqual((status, 'docs/CODES.md is out of date' in said), (1, True))
        self.assertEqual(self.codes('--write')[0], 0)
        with open(self.path('docs/CODES.md'), encoding='utf-8') as file:
            self.assertEqual(file.read(), contents('docs/CODES.md'))

    def test_a_number_in_a_sentence(self):
        self.change('docs/CODES.md', 'is met by 67 of', 'is met by 68 of')
        self.assertIn('docs/CODES.md is out of date', self.codes('--check')[1])

    def test_the_picture(self):
        self.change('docs/closing.svg', 'id="steps-3"', 'id="steps-5"')
        status, said = self.codes('--check')
        self.assertEqual((status, 'docs/closing.svg is out of date' in said), (1, True))
        os.remove(self.path('docs/closing.svg'))
        self.assertEqual(self.codes('--check')[0], 1)

    def test_other_codes(self):
        for old, new, told in (('code 5 1 words 8 ', 'code 5 1 words 9 ', 'docs/CODES.md is out of date'),
                               ('code 12 3 words 32 ', 'code 12 3 words 33 ', 'other words for length 12 radius 3'),
                               ('code 12 4 words 16 sum 956160', 'code 12 4 words 16 sum 956161', 'other words for length 12 radius 4'),
                               ('volume 1586 floor 3\n', 'volume 1587 floor 3\n', 'another volume or floor for length 12 radius 5'),
                               ('volume 6 floor 6\n', 'volume 6 floor 5\n', 'another volume or floor for length 5 radius 1'),
                               ('code 2 2 words', 'cod 2 2 words', 'does not have the 90 codes')):
            self.change('crates/codes/stdout', old, new)
            status, said = self.codes('--check')
            self.assertEqual((status, told in said), (1, True), said)
            self.change('crates/codes/stdout', new, old)

    def test_words_of_the_command_line(self):
        for words in (['--mend'], ['--check', '--write']):
            self.assertEqual(self.codes(*words)[0], 1)


if __name__ == '__main__':
    unittest.main()
