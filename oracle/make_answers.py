#!/usr/bin/env python3
"""make_answers.py: the lists that crates/replay replays, out of the original's answers (README-answers.md). It runs the built oracle on random
and on hand-made inputs, writes `answers` and `flipped`, and counts what they hold; it fails where a special value is missing. It computes
no answer: every expected number is copied from the oracle's output."""
import math
import os
import struct
import subprocess
import sys

import block_answers

HERE = os.path.dirname(os.path.abspath(__file__))
ORACLE = os.path.join(HERE, 'target/release/oracle')
GEN = ['gen', '--seed', '2607', '--count', '120', '--rows', '30', '--cols', '12', '--alt', '0']
BAD = ['gen', '--seed', '2608', '--count', '70', '--rows', '6', '--cols', '10', '--alt', '0', '--bad', '100']
BLOCKS = 60     # the layer `blocks` takes so many random cases; of the hand-made ones all
PAIRS = 2       # column_dot: at most so many pairs of a random case; of a hand-made one all
MOST = 512      # crates/replay's room for one list
ENOUGH = 100    # cases of each function of jacobian_ops.rs
ENOUGH_BLOCKS = 40      # and of each kind of the layer above
NAMES = {1: 'column_dot', 2: 'jt_vec', 3: 'diag_jt_j', 4: 'jt_j_vec_product'}
NAN = 0x7ff8000000000000
UNWRITTEN = -12345.678      # what crates/replay's buffers hold before a call


class Case:
    """One case: its kind and its lists as words."""

    def __init__(self, kind, inputs, answers):
        self.kind, self.lists, self.answers = kind, inputs + answers, [w for a in answers for w in a]
        if max(map(len, self.lists)) > MOST:
            sys.exit('a list is longer than crates/replay has room for')
        if struct.unpack('<Q', struct.pack('<d', UNWRITTEN))[0] in self.answers:
            sys.exit('an answer is what crates/replay takes for unwritten')

    def words(self):
        body = [w for l in self.lists for w in [len(l), *l]]
        return [self.kind, 2 + len(body), *body]


class ColumnCase(Case):
    """One call over columns alone, and what the counts look at."""

    def __init__(self, kind, inputs, answers, values, vector, empty):
        super().__init__(kind, inputs, answers)
        self.values, self.vector, self.empty, self.all_empty, self.no_rows = values, vector, empty, not inputs[2], inputs[0] == [0]


class BlockCase(Case):
    """One case of the layer `blocks`, and the rows of the table that it belongs to."""

    def __init__(self, kind, inputs, answers, facts):
        super().__init__(kind, inputs, answers)
        self.facts = facts


def oracle_cases(text):
    """The cases of the oracle's output, each list as words; None where the original panicked."""
    c = None
    for line in text.splitlines():
        w = line.split()
        if not w or w[0].startswith('#') or w[0] == 'check':
            continue
        if w[0] == 'case':
            c = {'id': w[1]}
        elif w[0] == 'end':
            yield c
        elif w[1] == 'p':
            c[w[0]] = None
        else:
            c[w[0]] = [int(x) for x in w[3:]] if w[1] == 'u' else [NAN if x == 'nan' else int(x, 16) for x in w[3:]]
            if len(c[w[0]]) != int(w[2]):
                sys.exit(f'{c["id"]}: {w[0]} is cut short')


def calls(c, pairs):
    """The calls of one oracle case; a call that panicked is left out."""
    ptr, val = c['in.ptr'], c['in.val']
    columns = [c['in.rows'], ptr, c['in.row'], val]
    spans = list(zip(ptr, ptr[1:]))
    some_empty = any(a == b for a, b in spans)
    if c['out.dot'] is not None:
        for k, dot in enumerate(c['out.dot'][:pairs]):
            pair = c['in.pairs'][2 * k:2 * k + 2]
            named = [spans[j] for j in pair]
            yield ColumnCase(1, columns + [pair], [[dot]], [v for a, b in named for v in val[a:b]], None, any(a == b for a, b in named))
    if c['out.jtv'] is not None:
        yield ColumnCase(2, columns + [c['in.r']], [c['out.jtv']], val, c['in.r'], some_empty)
    if c['out.diag'] is not None:
        yield ColumnCase(3, columns, [c['out.diag']], val, None, some_empty)
    if c['out.jtj'] is not None and c.get('out.jtj.rows') is not None:
        yield ColumnCase(4, columns + [c['in.x']], [c['out.jtj.rows'], c['out.jtj']], val, c['in.x'], some_empty)


def number(w):
    return struct.unpack('<d', struct.pack('<Q', w))[0]


def finite(words):
    return all(math.isfinite(number(w)) for w in words)


SPECIALS = {
    '+0.0': lambda w: w == 0,
    '-0.0': lambda w: w == 1 << 63,
    'NaN': lambda w: math.isnan(number(w)),
    'infinity': lambda w: math.isinf(number(w)),
    'subnormal': lambda w: 0 < abs(number(w)) < sys.float_info.min,
}


def overflowed(c):
    return finite(c.values) and finite(c.vector or []) and any(math.isinf(number(w)) for w in c.answers)


def count(cases):
    """The table of counts, by function; None where there is nothing to count. The rest must not be 0."""
    table = {'answers': lambda c: True, 'an empty column': lambda c: c.empty, 'all columns empty': lambda c: c.all_empty,
             'no rows': lambda c: c.no_rows}
    for where in ('values', 'vector', 'answers'):
        for name, test in SPECIALS.items():
            table[f'{name} in the {where}'] = lambda c, where=where, test=test: any(map(test, getattr(c, where)))
    table['finite inputs, infinite answer'] = overflowed
    missing = False
    print(f'{"cases with":32}', *(f'{n:>16}' for n in NAMES.values()))
    for row, test in table.items():
        line = f'{row:32}'
        for kind in NAMES:
            mine = [c for c in cases if c.kind == kind]
            n = None if row.endswith('vector') and mine[0].vector is None else sum(map(test, mine))
            if kind == 1 and row == '-0.0 in the answers':
                # a sum that starts at +0.0 is never -0.0
                missing |= n != 0
                n = None
            missing |= n is not None and n < (ENOUGH if row == 'answers' else 1)
            line += f' {"-" if n is None else n:>16}'
        print(line)
    if missing:
        sys.exit('a count is too small')


def count_blocks(cases):
    """The same for the layer `blocks`: a row that a kind must have a case of must not be 0 there."""
    names = ['cases']
    for kind in block_answers.NAMES:
        names += [r for r in block_answers.rows(kind) if r not in names]
    missing = False
    print(f'{"cases with":38}', *(f'{n:>17}' for n in block_answers.NAMES.values()))
    for row in names:
        line = f'{row:38}'
        for kind in block_answers.NAMES:
            n = sum(c.kind == kind and (row == 'cases' or row in c.facts) for c in cases)
            missing |= n != 0 and row in block_answers.never(kind)
            asked = row == 'cases' or row in block_answers.rows(kind)
            missing |= asked and n < (ENOUGH_BLOCKS if row == 'cases' else 1)
            line += f' {n if asked else "-":>17}'
        print(line)
    if missing:
        sys.exit('a count is too small')


def flip(cases):
    """The first jt_vec case of the second half with a finite answer that is not 0 or subnormal: its number, the answer's, and its words with the
    lowest bit of that answer flipped."""
    for k in range(len(cases) // 2, len(cases)):
        c = cases[k]
        for at, w in enumerate(c.answers):
            if c.kind == 2 and finite([w]) and abs(number(w)) >= sys.float_info.min:
                words = c.words()
                words[len(words) - len(c.answers) + at] ^= 1
                return k, at, words
    sys.exit('no answer to flip')


def write(name, cases):
    data = b''.join(struct.pack(f'<{len(c)}Q', *c) for c in cases)
    if len(data) >= 1_000_000:
        sys.exit(f'{name} has {len(data)} bytes')
    path = os.path.join(HERE, '../crates/replay/data', name)
    os.makedirs(os.path.dirname(path), exist_ok=True)
    with open(path, 'wb') as f:
        f.write(data)
    print(f'{name}: {len(cases)} cases, {len(data)} bytes')


def run(*words, stdin=''):
    return subprocess.run(words, input=stdin, stdout=subprocess.PIPE, text=True, check=True).stdout


def main():
    hand = run(sys.executable, os.path.join(HERE, 'hand_cases.py'))
    cases = [k for c in oracle_cases(run(ORACLE, 'run', stdin=hand)) for k in calls(c, MOST)]
    random = list(oracle_cases(run(ORACLE, *GEN)))
    cases += [k for c in random for k in calls(c, PAIRS)]
    hand = run(sys.executable, os.path.join(HERE, 'hand_blocks.py'))
    refused = [c for c in oracle_cases(run(ORACLE, *BAD)) if c['out.partition'] != [0]]
    blocks = [BlockCase(*k) for c in [*oracle_cases(run(ORACLE, 'run', stdin=hand)), *random[:BLOCKS]] for k in block_answers.calls(c)]
    blocks += [BlockCase(*k) for c in refused for k in block_answers.refusal(c)]
    count(cases)
    count_blocks(blocks)
    at, place, bad = flip(cases)
    good = [c.words() for c in cases + blocks]
    write('answers', good)
    write('flipped', good[:at] + [bad] + good[at + 1:])
    print(f'flipped: case {at} ({NAMES[cases[at].kind]}, cases count from 0), lowest bit of answer {place}')


if __name__ == '__main__':
    main()
