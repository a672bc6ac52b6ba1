#!/usr/bin/env python3
"""make_plan_answers.py: the lists that crates/replay_plan replays, out of the original's plans (README-answers.md, Plans). It runs the built oracle
on hand-made and on random inputs, writes `answers` and `flipped`, and counts what they hold; it fails where a count is too small. It
computes no answer: every expected number is copied from the oracle's output. Only the marks that a refusal leaves in the map and in the
owners are document 01's, since the original then has neither."""
import os
import struct
import sys

from block_answers import MARK, ascends, interleaved, pairs
from make_answers import HERE, ORACLE, oracle_cases, run

GEN = ['gen', '--seed', '2609', '--count', '200', '--rows', '30', '--cols', '12', '--alt', '0', '--caller', '50', '--dof0', '15']
SHARED = ['gen', '--seed', '2610', '--count', '240', '--rows', '30', '--cols', '12', '--alt', '0', '--caller', '50', '--share', '100']
MOST = 512              # crates/replay_plan's room for one buffer
UNUSED = 3000000000     # what it fills them with
LARGEST = 1048576
# what each buffer begins with after a plan, in document 01's order of buffers
BUFFERS = ['map', 'kcols', 'ecols', 'eblock', 'owner', 'rlist', 'rstart', 'vlist', 'vstart', 'kstart', 'klo', 'khi', 'kloc', 'estart', 'elo', 'ehi',
           'eloc']


class Plan:
    """One plan: its lists, and the rows of the table that it belongs to. `spare` numbers the case, and so says how many places more than
    its need each buffer has: 0 to 3, by turns."""

    def __init__(self, c, spare):
        if c['out.partition'] != [0] or c['out.plan'] is None or c['out.plan'][0] not in (0, 10):
            sys.exit(f'{c["id"]}: no plan and no refusal 10')
        (rows,), (n,), (length,) = c['in.rows'], c['in.cols'], c['in.L']
        kept, elims, entries = c['out.kept'], c['out.elim'], len(c['in.row'])
        if MARK in c['out.map'] or any(a >= n for a, _ in pairs(kept + elims)):
            sys.exit(f'{c["id"]}: document 01 may refuse this partition')
        chunks = -(-rows // length)
        needs = [n, rows, len(elims) // 2 + 1, entries, len(kept) // 2 + 1, chunks + 1]
        lent = [need + (spare + k) % 4 for k, need in enumerate(needs)]
        if max(lent) > MOST:
            sys.exit(f'{c["id"]}: a buffer is longer than crates/replay_plan has room for')
        self.refused = c['out.plan'][0] == 10
        if self.refused:
            left = {'map': [MARK] * n, 'owner': [MARK] * rows}
        else:
            left = {b: c['out.' + b] for b in BUFFERS}
        self.lists = [[rows, length], c['in.ptr'], c['in.row'], kept, elims, lent, c['out.plan']] + [left.get(b, []) for b in BUFFERS]
        if UNUSED in [w for l in self.lists for w in l]:
            sys.exit(f'{c["id"]}: an answer is what crates/replay_plan takes for unwritten')
        self.facts = set(facts(c, rows, length, chunks, kept, elims))

    def words(self):
        body = [w for l in self.lists for w in [len(l), *l]]
        return [1 + len(body), *body]


# the rows of the table: of both, of plans that were made, of those that were refused
BOTH = ['chunk length 1', 'chunk length 2', 'chunk length 3', 'chunk length 7', 'chunk length 1,048,576', 'chunks as long as the rows',
        'chunks longer than the rows', 'several chunks', 'interleaved sides', 'blocks not in column order', "the caller's order kept",
        'a block of dof 0', 'an empty column']
MADE = ['all columns empty', 'no rows', 'a row without an owner', 'a row with two columns of its owner', 'an eliminated block without rows',
        'a kept block that sees none', 'a kept block that sees several', 'a column with several spans', 'spans of one chunk not ascending by lo']
REFUSED = ['by a block that is not the second', 'with an earlier block that is not the first']


def facts(c, rows, length, chunks, kept, elims):
    """The rows of the table that a case belongs to."""
    if length in (1, 2, 3, 7):
        yield f'chunk length {length}'
    if length == LARGEST:
        yield 'chunk length 1,048,576'
    if length == rows:
        yield 'chunks as long as the rows'
    if rows < length < LARGEST:
        yield 'chunks longer than the rows'
    if chunks > 1:
        yield 'several chunks'
    if interleaved(kept, elims):
        yield 'interleaved sides'
    if not (ascends(kept) and ascends(elims)):
        yield 'blocks not in column order'
    if c['in.order'] == [1]:
        yield "the caller's order kept"
    if any(d == 0 for _, d in pairs(kept + elims)):
        yield 'a block of dof 0'
    spans = list(zip(c['in.ptr'], c['in.ptr'][1:]))
    if any(a == b for a, b in spans):
        yield 'an empty column'
    if c['out.plan'][0] == 10:
        if c['out.plan'][1] > 1:
            yield 'by a block that is not the second'
        if c['out.plan'][2] > 0:
            yield 'with an earlier block that is not the first'
        return
    if not c['in.row']:
        yield 'all columns empty'
    if rows == 0:
        yield 'no rows'
    if MARK in c['out.owner']:
        yield 'a row without an owner'
    for side in 'ke':
        local, lo, starts = (c[f'out.{side}{name}'] for name in ('loc', 'lo', 'start'))
        if any(local.count(x) > 1 for x in local):
            yield 'a column with several spans'
        if any(lo[a:b] != sorted(lo[a:b]) for a, b in zip(starts, starts[1:])):
            yield 'spans of one chunk not ascending by lo'
    starts = c['out.rstart']
    if any(a == b for a, b in zip(starts, starts[1:])):
        yield 'an eliminated block without rows'
    starts = c['out.vstart']
    if any(a == b for a, b in zip(starts, starts[1:])):
        yield 'a kept block that sees none'
    if any(b - a > 1 for a, b in zip(starts, starts[1:])):
        yield 'a kept block that sees several'
    taken = [r for k in c['out.ecols'] for r in c['in.row'][spans[k][0]:spans[k][1]]]
    if len(taken) > len(set(taken)):
        yield 'a row with two columns of its owner'


def count(plans):
    """The table of counts; no count that is asked for may be 0."""
    made, refused = [p for p in plans if not p.refused], [p for p in plans if p.refused]
    missing = len(plans) < 300 or len(refused) < 40
    print(f'{"cases with":44} {"made":>8} {"refused":>8}')
    print(f'{"cases":44} {len(made):>8} {len(refused):>8}')
    for row in BOTH + MADE + REFUSED:
        line = f'{row:44}'
        for asked, of in ((row not in REFUSED, made), (row not in MADE, refused)):
            n = sum(row in p.facts for p in of)
            missing |= n == 0 if asked else n != 0
            line += f' {n if asked else "-":>8}'
        print(line)
    if missing:
        sys.exit('a count is too small')


def flip(plans):
    """The first plan of the second half that has eliminated spans in several chunks: its number, and its words with the lowest bit of the last
    flipped, which is the last span's local number and the last number that is compared."""
    for k in range(len(plans) // 2, len(plans)):
        if not plans[k].refused and plans[k].lists[-1] and 'several chunks' in plans[k].facts:
            words = plans[k].words()
            words[-1] ^= 1
            return k, words
    sys.exit('no answer to flip')


def write(name, cases):
    data = b''.join(struct.pack(f'<{len(c)}I', *c) for c in cases)
    if len(data) >= 1_000_000:
        sys.exit(f'{name} has {len(data)} bytes')
    path = os.path.join(HERE, '../crates/replay_plan/data', name)
    os.makedirs(os.path.dirname(path), exist_ok=True)
    with open(path, 'wb') as f:
        f.write(data)
    print(f'{name}: {len(cases)} plans, {len(data)} bytes')


def main():
    hand = run(sys.executable, os.path.join(HERE, 'hand_plans.py'))
    cases = [*oracle_cases(run(ORACLE, 'run', stdin=hand)), *oracle_cases(run(ORACLE, *GEN))]
    cases += [c for c in oracle_cases(run(ORACLE, *SHARED)) if c['out.plan'][0] == 10]
    plans = [Plan(c, k) for k, c in enumerate(cases)]
    count(plans)
    print('the largest buffer lent:', max(n for p in plans for n in p.lists[5]))
    at, bad = flip(plans)
    good = [p.words() for p in plans]
    write('answers', good)
    write('flipped', good[:at] + [bad] + good[at + 1:])
    print(f'flipped: case {at} (cases count from 0), lowest bit of its last number, the local number of its last eliminated span')


if __name__ == '__main__':
    main()
