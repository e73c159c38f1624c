#!/usr/bin/env python3
"""Makes `stdin` and `stdout` of the test program vectors, both beside this file:

    python3 crates/vectors/expect.py            write them
    python3 crates/vectors/expect.py --check    say whether the files are what this script would write

The input is a run of named sheets: 28 bytes of name, two of length, the sheet. What is expected of each is worked out here from
the papers alone, "The sheet" and "When the engine declines" of 01 with the limit on n of paper 5 of 02: nothing of the Rattle code
is read or run. Each vector that is there for one row of the paper's table also says which answer it is there for, and that is
compared with what `judge` works out.
Needs Python 3 and its standard library."""
import os, random, struct, sys

# ---------------------------------------------------------------- what papers 01 and 5 say of a sheet

LONGEST = 36876
LIMIT_HALF, LIMIT_N, LIMIT_C, LIMIT_CLAUSES = 65535, 128, 8, 1024


def judge(sheet, but=None):
    """('refused', number, place), or ('accepted', batch, n, clauses); a clause is a list of (variable, negative).
    With `but` one row of the table is left out: a refusal's number, or 'long' for the length of the sheet."""
    if len(sheet) > LONGEST and but != 'long':
        return ('refused', 5, 9219)
    if len(sheet) % 4 and but != 1:
        return ('refused', 1, 0)
    if len(sheet) < 12 and but != 2:
        return ('refused', 2, 0)
    words = struct.unpack('<%dI' % (len(sheet) // 4), sheet[:len(sheet) // 4 * 4])
    head, clauses = [], []
    due = 0                                     # literals still due in the last clause
    for place, word in enumerate(words):
        kind, value = word >> 30, word & 0x3fffffff
        if place < 3:                           # the header
            wanted, limit = ((3, LIMIT_HALF), (3, LIMIT_HALF), (2, LIMIT_N))[place]
            if kind != wanted and but != 3:
                return ('refused', 3, place)
            if value > limit and but != 5:
                return ('refused', 5, place)
            head.append(value)
        elif due == 0:                          # a clause's length
            if kind != 1 and but != 3:
                return ('refused', 3, place)
            if (value > LIMIT_C or len(clauses) == LIMIT_CLAUSES) and but != 5:
                return ('refused', 5, place)
            clauses.append([])
            due = value
        else:                                   # a literal
            variable, negative = value >> 1, value & 1
            if kind != 0 and but != 3:
                return ('refused', 3, place)
            if not 1 <= variable <= head[2] and but != 6:
                return ('refused', 6, place)
            if variable in [v for v, _ in clauses[-1]] and but != 7:
                return ('refused', 7, place)
            clauses[-1].append((variable, negative))
            due -= 1
    if due:
        return ('refused', 4, len(words))
    return ('accepted', head[0] << 16 | head[1], head[2], clauses)


def line(answer):
    """The line that the program is to print, without the name."""
    if answer[0] == 'refused':
        return 'refused %d place %d' % answer[1:]
    _, batch, n, clauses = answer
    total = 0
    for clause in clauses:
        for cell in [len(clause)] + [2 * v + s for v, s in clause]:
            total = (31 * total + cell) % 1000003
    shown = ''
    if len(clauses) <= 8:
        shown = ''.join(' (%s)' % ' '.join(('-' if s else '') + str(v) for v, s in c) for c in clauses)
    return 'accepted batch %d n %d clauses %d%s sum %d' % (batch, n, len(clauses), shown, total)


# ---------------------------------------------------------------- how the vectors are written

def w(kind, value):
    return kind << 30 | value


def header(n, batch=70000):
    return [w(3, batch >> 16), w(3, batch & 65535), w(2, n)]


def clause(*literals):
    """A clause from numbers, a negative literal as a minus."""
    return [w(1, len(literals))] + [2 * abs(l) + (l < 0) for l in literals]


def sheet(*parts):
    return b''.join(struct.pack('<I', word) for part in parts for word in part)


# the variables at both ends of each word of an assignment
ENDS = (1, 32, 33, 64, 65, 96, 97, 128)
# the longest sheet, without its header
FULL = 1024 * clause(*ENDS)
VECTORS = []


def vector(name, data, number=None, place=None):
    """A sheet with its name; with a number and a place it is there for that refusal."""
    if isinstance(data, list):
        data = sheet(data)
    answer = judge(data)
    if number is not None:
        assert answer == ('refused', number, place), (name, answer)
    else:
        assert answer[0] == 'accepted', (name, answer)
    assert len(name) < 28 and name not in [v[0] for v in VECTORS], name
    VECTORS.append((name, data, answer))


def lengths():
    """Every length from 0 to 16."""
    whole = sheet(header(5), clause())
    for size in range(17):
        if size % 4:
            vector('length %d' % size, whole[:size], 1, 0)
        elif size < 12:
            vector('length %d' % size, whole[:size], 2, 0)
        else:
            vector('length %d' % size, whole[:size])


def accepted():
    vector('no clause, n 0', header(0, 0))
    vector('an empty clause, n 0', header(0) + clause())
    vector('paper, printed input', header(3) + clause(1, 2) + clause(-1, -3) + clause(-3))
    vector('paper, (1)(-1)', header(1) + clause(1) + clause(-1))
    vector('paper, four clauses', header(2) + clause(1, 2) + clause(1, -2) + clause(-1, 2) + clause(-1, -2))
    vector('order of literals', header(9) + clause(9, -1, 5, -3) + clause(-5, 9))
    vector('repeated clauses', header(4) + 3 * clause(4, -2) + 2 * clause())
    vector('variable in two clauses', header(6) + clause(6, 1) + clause(-6, 1))
    vector('n 32, literals 32 and -32', header(32) + clause(32) + clause(-32))
    vector('n 31', header(31) + clause(31, -30))
    vector('n 33', header(33))
    vector('n 128', header(128))
    for n in (33, 64, 65, 96, 97, 127, 128):
        vector('n %d, %d and -%d' % (n, n, n), header(n) + clause(n) + clause(-n))
    vector('batch 0', header(2, 0) + clause(-2))
    vector('batch 65535', header(2, 65535) + clause(-2))
    vector('batch 65536', header(2, 65536) + clause(-2))
    vector('batch 4294967295', header(2, 2 ** 32 - 1) + clause(-2))
    vector('c 8', header(8) + clause(1, -2, 3, -4, 5, -6, 7, -8))
    vector('c 0 to 7', header(8) + [x for c in range(8) for x in clause(*range(1, c + 1))])
    vector('1024 empty clauses', header(0) + 1024 * clause())
    # 19 apart, so that each clause has variables of all words
    vector('36876 bytes', header(128) + [x for i in range(1024) for x in clause(*[
        (1 + (i + 19 * j) % 128) * (-1) ** (i >> j & 1) for j in range(8)])])
    rng = random.Random(19)
    for i, size in enumerate(2 * (3, 8, 9, 40, 300, 1000)):
        n = rng.randint(1, 32) if i < 6 else rng.randint(33, 128)
        clauses = [[v * rng.choice((1, -1)) for v in rng.sample(range(1, n + 1), rng.randint(0, min(8, n)))] for _ in range(size)]
        vector('random %d' % (i + 1), header(n, rng.getrandbits(32)) + [x for c in clauses for x in clause(*c)])


def word_ends():
    """Literals at both ends of each word of an assignment, and at the same bit of several."""
    vector('word ends', header(128) + clause(*ENDS))
    vector('word ends, negative', header(128) + clause(*[-v for v in ENDS]))
    vector('word ends, backwards', header(128) + clause(*[v * (-1) ** v for v in reversed(ENDS)]))
    vector('word ends, a clause each', header(128) + [x for v in ENDS for x in clause(v)])
    vector('word ends, negative, each', header(128) + [x for v in ENDS for x in clause(-v)])
    vector('word ends, n 127', header(127) + clause(1, -32, 33, -64, 65, -96, 97, -127) + clause(127, -126))
    vector('one bit of all words', header(128) + clause(1, 33, 65, 97) + clause(-32, -64, -96, -128) + clause(97, -65, 33, -1))


def wrong_kinds():
    good = header(3) + clause(1, -2)
    for place in range(6):
        wanted = good[place] >> 30
        for kind in range(4):
            if kind != wanted:
                bad = good[:place] + [w(kind, good[place] & 0x3fffffff)] + good[place + 1:]
                vector('word %d of kind %d' % (place, kind), bad, 3, place)
    vector('second clause, wrong kind', good + [w(0, 2)], 3, 6)
    vector('second clause, literal', good + clause(1, 2)[:2] + [w(1, 4)], 3, 8)


def torn():
    vector('torn after a length', header(3) + [w(1, 1)], 4, 4)
    vector('torn after 1 of 2', header(3) + [w(1, 2), 2], 4, 5)
    vector('torn after 7 of 8', header(8) + [w(1, 8)] + clause(1, 2, 3, 4, 5, 6, 7)[1:], 4, 11)
    vector('torn second clause', header(3) + clause(1, 2) + [w(1, 3), 2, 4], 4, 9)
    vector('torn, 1024th clause', header(1) + 1023 * clause() + [w(1, 1)], 4, 1027)
    vector('torn at 36872 bytes', header(128) + FULL[:-1], 4, 9218)


def limits():
    vector('high half 65536', [w(3, 65536), w(3, 0), w(2, 0)], 5, 0)
    vector('high half, largest value', [w(3, 2 ** 30 - 1), w(3, 0), w(2, 0)], 5, 0)
    vector('low half 65536', [w(3, 0), w(3, 65536), w(2, 0)], 5, 1)
    vector('n 129', header(129), 5, 2)
    vector('n 129, literals', header(129) + clause(129, -128), 5, 2)
    vector('n 256', header(256), 5, 2)
    vector('n 512', header(512), 5, 2)
    vector('n, largest value', header(2 ** 30 - 1), 5, 2)
    vector('c 9', header(9) + clause(1, 2, 3, 4, 5, 6, 7, 8, 9), 5, 3)
    vector('c, largest value', header(9) + [w(1, 2 ** 30 - 1)], 5, 3)
    vector('c 9, second clause', header(9) + clause(1) + [w(1, 9)], 5, 5)
    vector('1025 empty clauses', header(0) + 1025 * clause(), 5, 1027)
    vector('1025th clause of 1', header(2) + 1024 * clause(1) + clause(2), 5, 2051)
    full = sheet(header(128), FULL)
    assert len(full) == LONGEST
    vector('36880 bytes', full + sheet(clause()), 5, 9219)


def variables():
    vector('variable 0', header(3) + [w(1, 1), 0], 6, 4)
    vector('variable 0, negative', header(3) + [w(1, 1), 1], 6, 4)
    vector('variable n + 1', header(3) + clause(4), 6, 4)
    vector('variable n + 1, negative', header(3) + clause(1, -4), 6, 5)
    vector('variable 1, n 0', header(0) + clause(1), 6, 4)
    for n in (32, 64, 96, 127, 128):
        vector('variable %d, n %d' % (n + 1, n), header(n) + clause(n + 1), 6, 4)
        vector('literal -%d, n %d' % (n + 1, n), header(n) + clause(n, -n - 1), 6, 5)
    vector('variable 257, n 128', header(128) + clause(257), 6, 4)
    vector('variable, largest value', header(128) + [w(1, 1), 2 ** 30 - 1], 6, 4)
    vector('variable n + 1, clause 2', header(3) + clause(1, 2) + clause(3, 4), 6, 8)
    vector('twice, same sign', header(3) + clause(2, 2), 7, 5)
    vector('twice, other sign', header(3) + clause(2, -2), 7, 5)
    vector('twice, variable 32', header(32) + clause(32, 1, -32), 7, 6)
    for v in ENDS[2:]:
        vector('twice, variable %d' % v, header(128) + clause(v, 1, -v), 7, 6)
    vector('twice, variable 127, n 127', header(127) + clause(127, -126, 127), 7, 6)
    vector('twice, after all ends', header(128) + clause(*ENDS[1:], -128), 7, 11)
    vector('twice, last of 8', header(8) + clause(1, 2, 3, 4, 5, 6, 7, -1), 7, 11)
    vector('twice, clause 2', header(3) + clause(1, 2) + clause(3, 1, 3), 7, 9)


def pair(name, data, first, place, then):
    """A sheet of which two refusals are true: without the first one's row it gets the other."""
    vector(name, data, first if first != 'long' else 5, place)
    assert judge(VECTORS[-1][1], but=first)[:2] == ('refused', then), name


def order():
    """Each pair of refusals whose order the paper fixes. (No overlong sheet is cut short: a clause too many comes first.)"""
    full = sheet(header(128), FULL)
    pair('overlong before 1', full + b'\0', 'long', 9219, 1)
    pair('overlong before 3', bytes(len(full) + 4), 'long', 9219, 3)
    pair('overlong before 5', sheet(header(129)) + full[12:] + sheet(clause()), 'long', 9219, 5)
    pair('overlong before 6', full[:16] + sheet([0]) + full[20:] + sheet(clause()), 'long', 9219, 6)
    pair('overlong before 7', full[:20] + full[16:20] + full[24:] + sheet(clause()), 'long', 9219, 7)
    pair('1 before 2', b'\1\2\3\4\5', 1, 0, 2)
    pair('1 before 3', sheet([w(2, 0)] + header(3)[1:]) + b'\0', 1, 0, 3)
    pair('1 before 4', sheet(header(3) + [w(1, 1)]) + b'\2\0\0', 1, 0, 4)
    pair('1 before 5', sheet(header(129)) + b'\0', 1, 0, 5)
    pair('1 before 6', sheet(header(3) + clause(4)) + b'\0', 1, 0, 6)
    pair('1 before 7', sheet(header(3) + clause(1, 1)) + b'\0', 1, 0, 7)
    pair('2 before 3', [w(0, 0), w(1, 0)], 2, 0, 3)
    pair('2 before 5', [w(3, 65536)], 2, 0, 5)
    pair('3 before 5, high half', [w(2, 65536), w(3, 0), w(2, 0)], 3, 0, 5)
    pair('3 before 5, low half', [w(3, 0), w(1, 65536), w(2, 0)], 3, 1, 5)
    pair('3 before 5, n', [w(3, 0), w(3, 0), w(3, 129)], 3, 2, 5)
    pair('3 before 5, c', header(3) + [w(2, 9)], 3, 3, 5)
    pair('3 before 5, 1025th', header(0) + 1024 * clause() + [w(0, 0)], 3, 1027, 5)
    vector('5 and 5, 1025th with c 9', header(0) + 1024 * clause() + [w(1, 9)], 5, 1027)
    pair('3 before 6', header(3) + [w(1, 1), w(1, 0)], 3, 4, 6)
    pair('3 before 7', header(3) + [w(1, 2), 2, w(2, 2)], 3, 5, 7)
    pair('3 before 4', header(3) + [w(1, 2), w(1, 2)], 3, 4, 4)
    pair('5 before 4', header(3) + [w(1, 9)], 5, 3, 4)
    pair('6 before 4', header(3) + [w(1, 2), 8], 6, 4, 4)
    pair('7 before 4', header(3) + [w(1, 3), 2, 3], 7, 5, 4)
    pair('5 before a later 3', [w(3, 65536), w(0, 0), w(0, 0)], 5, 0, 3)
    pair('5 before a later 6', header(129) + clause(130), 5, 2, 6)
    pair('6 before a later 3', header(3) + [w(1, 2), 8, w(3, 0)], 6, 4, 3)
    pair('6 before a later 7', header(3) + clause(1, 4, 1), 6, 5, 7)
    pair('7 before a later 5', header(3) + clause(1, -1) + [w(1, 9)], 7, 5, 5)
    pair('7 before a later 6', header(3) + clause(1, -1, 9), 7, 5, 6)


# ---------------------------------------------------------------- the two files

def files():
    for group in (lengths, accepted, word_ends, wrong_kinds, torn, limits, variables, order):
        group()
    given = b''.join(name.ljust(28).encode() + struct.pack('<H', len(data)) + data for name, data, _ in VECTORS)
    wanted = ''.join(name.ljust(28) + line(answer) + '\n' for name, _, answer in VECTORS).encode()
    return {'stdin': given, 'stdout': wanted}


def main():
    here = os.path.dirname(os.path.abspath(__file__))
    made = files()
    if sys.argv[1:] == ['--check']:
        stale = [n for n in made if open(os.path.join(here, n), 'rb').read() != made[n]]
        sys.exit('not as written: ' + ', '.join(stale) if stale else 0)
    for name in made:
        with open(os.path.join(here, name), 'wb') as out:
            out.write(made[name])
    print('%d vectors' % len(VECTORS))


main()
