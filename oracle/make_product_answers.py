#!/usr/bin/env python3
"""make_product_answers.py: the lists that crates/replay_products replays, out of the original's products (README-answers.md, Products). It runs the
built oracle on the hall and on random inputs, draws the work orders, writes `answers` and `flipped`, and counts what they hold; it fails where a
count is too small. It computes no answer: every expected number is copied from the oracle's output."""
import os
import random
import struct
import sys

from block_answers import MARK, ascends, interleaved, pairs
from make_answers import HERE, ORACLE, SPECIALS, UNWRITTEN, finite, number, oracle_cases, run

GEN = ['gen', '--seed', '2611', '--count', '320', '--rows', '12', '--cols', '8', '--small', '--alt', '100', '--special', '30', '--caller', '50',
       '--dof0', '10', '--share', '60']
ORDERS = 2612           # the seed of the random work orders
DRAWN = 2               # random orders of a sweep, beside the ascending one; one that was had before is left out
# the hall's cases; its 8 and its 10 with a longer chunk are refused here
HALL = ['hall.1-5', 'hall.6', 'hall.9', 'hall.9-minus-zero', 'hall.10.L1', 'hall.10.L1048576']
MOST = 128              # crates/replay_products' room for the floats of one list
UNUSED = 3000000000     # what it fills maps and progress with
ENOUGH = 300            # cases of each kind
SHOWN = 32              # differing cases whose numbers it writes
LARGEST = 1048576
NAMES = {1: 'operator', 2: 'damped', 3: 'kept sweep', 4: 'elim. sweep', 5: 'inverse', 6: 'coupling', 7: 'transpose', 8: 'update'}
PLANNED = 4             # kinds 1 to 4 go over a plan, and over a foreign one they are 8 more
FOREIGN = 8


def floats(words):
    """A list of floats as 32-bit words, the low one of each first."""
    return [h for w in words for h in (w & 0xffffffff, w >> 32)]


def in_words(kind, lists):
    body = [w for l in lists for w in [len(l), *l]]
    return [kind, 2 + len(body), *body]


class Case:
    """One call: the floats that it is given beside the problem's, its answers, and its order, if it is a sweep."""

    def __init__(self, kind, lent, answers, order=None):
        self.kind, self.lent, self.answers, self.order = kind, lent, answers, order
        if struct.unpack('<Q', struct.pack('<d', UNWRITTEN))[0] in [w for a in answers for w in a]:
            sys.exit('an answer is what crates/replay_products takes for unwritten')

    def words(self):
        return in_words(self.kind, [floats(l) for l in self.lent + self.answers] + ([] if self.order is None else [self.order]))

    def flipped(self, k, at):
        """The case with the lowest bit of number `at` of answer list k flipped."""
        answers = [list(a) for a in self.answers]
        answers[k][at] ^= 1
        return Case(self.kind, self.lent, answers, self.order)


class Problem:
    """The columns, the sides, the vectors and a plan, and the calls over them. Over a foreign plan only the calls that take one are made."""

    def __init__(self, c, orders, foreign):
        self.c, self.foreign = c, foreign
        if c['out.partition'] != [0] or MARK in c['out.map'] or any(a >= c['in.cols'][0] for a, _ in pairs(c['out.kept'] + c['out.elim'])):
            sys.exit(f'{c["id"]}: document 01 may refuse this partition')
        self.out, self.plan = ('out.alt.', 'in.alt.') if foreign else ('out.', 'out.')
        self.chunks = -(-c['in.rows'][0] // c['in.L'][0])
        self.lists = [c['in.rows'] + c['in.L'], c['in.ptr'], c['in.row'], floats(c['in.val']), c['out.kept'], c['out.elim'], c['out.map'],
                      floats(c['in.inv']), floats(c['in.v']), floats(c['in.u'])]
        self.lists += [c[self.plan + side + name] for side in 'ke' for name in ('start', 'lo', 'hi', 'loc')]
        for l in (c['in.val'], c['in.inv'], c['in.lent'], c['out.map'] + [0, 0], c[self.plan + 'kstart']):
            if len(l) > MOST:
                sys.exit(f'{c["id"]}: a list is longer than crates/replay_products has room for')
        if UNUSED in c['out.map']:
            sys.exit(f'{c["id"]}: an answer is what crates/replay_products takes for unwritten')
        self.cases = list(self.calls(orders))
        if None in [a for k in self.cases for a in k.answers]:
            sys.exit(f'{c["id"]}: the original panicked')

    def calls(self, orders):
        c, more = self.c, FOREIGN if self.foreign else 0
        for kind, name, d in ((1, 'op', []), (2, 'opd', c['in.d'])):
            yield Case(more + kind, [d], [c[f'{self.out}{name}.{part}'] for part in ('rows', 't', 'u', 'out')])
        for kind, side, lent in ((3, 'k', []), (4, 'e', c['in.lent'])):
            ascending = self.ascending(side)
            tried = [ascending]
            for _ in range(DRAWN):
                drawn = list(ascending)
                orders.shuffle(drawn)
                if drawn not in tried:
                    tried.append(drawn)
            for order in tried:
                yield Case(more + kind, [lent], [c[f'{self.out}{side}sweep']], order)
        if not self.foreign:
            yield Case(5, [c['in.rhs']], [c['out.inv']])
            yield Case(6, [], [c['out.ct.rows'], c['out.ct']])
            yield Case(7, [], [c['out.ctt.rows'], c['out.ctt']])
            yield Case(8, [c['in.dk'], c['in.de']], [c['out.update']])

    def ascending(self, side):
        """Each chunk as often as it has spans."""
        starts = self.c[f'{self.plan}{side}start']
        if len(starts) != self.chunks + 1:
            sys.exit(f'{self.c["id"]}: starts of another count than the chunks')
        return [k for k in range(self.chunks) for _ in range(starts[k + 1] - starts[k])]

    def words(self):
        return in_words(0, self.lists)

    def vector(self, case):
        """The floats of the vectors that a call is given: its own, and those of the problem that it reads."""
        read = {1: ['v'], 2: ['v'], 3: ['v'], 4: ['u'], 5: [], 6: ['u'], 7: ['v'], 8: []}[(case.kind - 1) % FOREIGN + 1]
        return [w for l in case.lent for w in l] + [w for name in read for w in self.c['in.' + name]]

    def facts(self):
        """The rows of the first table that a problem belongs to."""
        c = self.c
        (rows,), (length,), kept, elims = c['in.rows'], c['in.L'], c['out.kept'], c['out.elim']
        yield 'cases'
        if length == 1:
            yield 'chunk length 1'
        if length == LARGEST:
            yield 'chunk length 1,048,576'
        if self.chunks > 1:
            yield 'several chunks'
        if interleaved(kept, elims):
            yield 'interleaved sides'
        if not (ascends(kept) and ascends(elims)):
            yield 'blocks not in column order'
        if any(d == 0 for _, d in pairs(kept + elims)):
            yield 'a block of dof 0'
        if any(d > 1 for _, d in pairs(elims)):
            yield 'an eliminated block of several columns'
        if any(a == b for a, b in zip(c['in.ptr'], c['in.ptr'][1:])):
            yield 'an empty column'
        if not c['in.row']:
            yield 'no entries'
        if rows == 0:
            yield 'no rows'
        if c['out.plan'][0] == 10:
            yield 'a row of two eliminated blocks'


FACTS = ['cases', 'chunk length 1', 'chunk length 1,048,576', 'several chunks', 'interleaved sides', 'blocks not in column order', 'a block of dof 0',
         'an eliminated block of several columns', 'an empty column', 'no entries', 'no rows', 'a row of two eliminated blocks', 'an order that does not ascend']
# kinds whose answers are all sums that start at +0.0, and so are never -0.0
FROM_PLUS = (3, 5, 6, 7)


def rows_of(p, k):
    """The rows of the table that a case belongs to."""
    yield from p.facts()
    if k.order is not None and k.order != sorted(k.order):
        yield 'an order that does not ascend'
    base = (k.kind - 1) % FOREIGN + 1
    where = {'values': p.c['in.val'], 'vectors': p.vector(k), 'answers': [w for a in k.answers for w in a]}
    if base in (1, 2, 5):
        where['inverses'] = p.c['in.inv']
    if base in (5, 8):
        del where['values']
    for name, words in where.items():
        for special, test in SPECIALS.items():
            if any(map(test, words)):
                yield f'{special} in the {name}'
    given = [w for name, words in where.items() if name != 'answers' for w in words]
    if finite(given) and any(number(w) in (float('inf'), float('-inf')) for w in where['answers']):
        yield 'finite inputs, infinite answer'


def asked(kind, row):
    """Whether a kind must have a case of a row."""
    base = (kind - 1) % FOREIGN + 1
    if row == 'an order that does not ascend':
        return base in (3, 4)
    if row.endswith('inverses'):
        return base in (1, 2, 5)
    if row.endswith('values'):
        return base not in (5, 8)
    if row == 'finite inputs, infinite answer':
        return base != 8
    return not (row == '-0.0 in the answers' and base in FROM_PLUS)


def count(problems):
    """The table of counts, by kind; no count that is asked for may be 0."""
    table = {}
    for p in problems:
        for k in p.cases:
            for row in set(rows_of(p, k)):
                table[row, k.kind] = table.get((row, k.kind), 0) + 1
    kinds = [*range(1, PLANNED + 1), *range(FOREIGN + 1, FOREIGN + PLANNED + 1), *range(PLANNED + 1, FOREIGN + 1)]
    rows = FACTS + [f'{s} in the {w}' for w in ('values', 'inverses', 'vectors', 'answers') for s in SPECIALS] + ['finite inputs, infinite answer']
    missing = False
    print('| cases with |', ' | '.join(('foreign ' if k > FOREIGN else '') + NAMES[(k - 1) % FOREIGN + 1] for k in kinds), '|')
    for row in rows:
        line = f'| {row} |'
        for kind in kinds:
            n = table.get((row, kind), 0)
            missing |= n < (ENOUGH if row == 'cases' else 1) if asked(kind, row) else n != 0
            line += f' {n if asked(kind, row) else "-"} |'
        print(line)
    if missing:
        sys.exit('a count is too small')


def flip(problems):
    """Of the second half of the problems as many as it takes for every kind and each of its answer lists: in the first case of each kind and list
    with a finite answer that is not 0 or subnormal, the lowest bit of the list's last such number is flipped, one flip a case. The records, the
    numbers of the flipped cases, and how many cases there are."""
    left = {(k.kind, a) for p in problems for k in p.cases for a in range(len(k.answers))}
    records, flipped, cases = [], [], 0
    for p in problems[len(problems) // 2:]:
        if not left:
            return records, flipped, cases
        records.append(p.words())
        for k in p.cases:
            for a, answer in enumerate(k.answers):
                places = [at for at, w in enumerate(answer) if finite([w]) and abs(number(w)) >= sys.float_info.min]
                if (k.kind, a) in left and places:
                    left.remove((k.kind, a))
                    k = k.flipped(a, places[-1])
                    flipped.append(cases)
                    break
            records.append(k.words())
            cases += 1
    sys.exit('no answer to flip')


def write(name, records):
    data = b''.join(struct.pack(f'<{len(r)}I', *r) for r in records)
    if len(data) >= 1_000_000:
        sys.exit(f'{name} has {len(data)} bytes')
    path = os.path.join(HERE, '../crates/replay_products/data', name)
    os.makedirs(os.path.dirname(path), exist_ok=True)
    with open(path, 'wb') as f:
        f.write(data)
    print(f'{name}: {len(data)} bytes, {sum(r[0] == 0 for r in records)} problems, {sum(r[0] > 0 for r in records)} cases')


def main():
    orders = random.Random(ORDERS)
    problems = [Problem(c, orders, False) for c in oracle_cases(run(ORACLE, 'hall')) if c['id'] in HALL]
    for c in oracle_cases(run(ORACLE, *GEN)):
        problems += [Problem(c, orders, foreign) for foreign in (False, True)]
    count(problems)
    write('answers', [r for p in problems for r in [p.words(), *(k.words() for k in p.cases)]])
    records, flipped, cases = flip(problems)
    if len(flipped) > SHOWN:
        sys.exit('more cases are flipped than crates/replay_products writes')
    write('flipped', records)
    print(f'flipped: {len(flipped)} of {cases} cases (cases count from 0):', *flipped)


if __name__ == '__main__':
    main()
