#!/usr/bin/env python3
"""Hand-made inputs for `oracle run`, on standard output, in the text format of FORMAT.md: what random cases seldom have. They hold inputs
alone; every answer is the oracle's."""
import math
import struct

NAN, INF = math.nan, math.inf
SUB = 5e-324                       # the smallest subnormal
BIG_SUB = 2.225073858507201e-308   # the largest
NORMAL = 2.2250738585072014e-308   # the smallest normal number
MAX = 1.7976931348623157e308
HAIR = 1.0 + 2.0 ** -30            # its square has bits that one rounding loses and a fused one would keep


def bits(x):
    return 'nan' if x != x else struct.pack('>d', x).hex()


def every_pair(n):
    return [(a, b) for a in range(n) for b in range(a, n)]


def full(rows, *columns):
    """Columns with an entry in every row."""
    return rows, [dict(enumerate(c)) for c in columns]


# name: (rows, columns as row -> value, vector over rows, vector over columns, pairs)
CASES = {}


def add(name, shape, r, x, pairs=None):
    rows, columns = shape
    assert name not in CASES and len(r) == rows and len(x) == len(columns)
    CASES[name] = (rows, columns, r, x, every_pair(len(columns)) if pairs is None else pairs)


# ---- shapes
add('nothing', (0, []), [], [])
add('rows-no-columns', (3, []), [1.0, -0.0, NAN], [])
add('no-rows-one-column', (0, [{}]), [], [2.0])
add('no-rows-three-columns', (0, [{}, {}, {}]), [], [1.0, -0.0, NAN])
add('no-rows-zeros', (0, [{}, {}]), [], [0.0, -0.0])
add('all-empty', (4, [{}, {}, {}, {}]), [1.0, -1.0, 0.0, -0.0], [1.0, 2.0, 0.0, -0.0])
add('all-empty-specials', (3, [{}, {}]), [NAN, INF, SUB], [-INF, -SUB])
add('empty-first', (3, [{}, {0: 1.0, 2: 2.0}, {1: 3.0}]), [1.0, 2.0, 3.0], [5.0, 7.0, -1.0])
add('empty-middle', (3, [{0: 1.5, 1: -2.5}, {}, {1: 4.0, 2: 0.5}]), [1.0, -0.0, 3.0], [1.0, NAN, 2.0])
add('empty-last', (3, [{0: 1.0, 1: 2.0, 2: 3.0}, {}]), [-1.0, 0.0, 1.0], [0.5, INF])
add('empty-run', (4, [{}, {}, {3: -7.0}, {}, {0: 2.0}, {}]), [1.0, 1.0, 1.0, 1.0], [1.0, 2.0, 3.0, 4.0, 5.0, 6.0])
add('empty-with-specials', (3, [{0: NAN, 1: -0.0}, {}, {1: INF, 2: SUB}, {2: 0.0}]), [0.0, -0.0, SUB], [-0.0, 1.0, 0.0, NAN])
add('one-entry', (1, [{0: 3.0}]), [-4.0], [0.25])
add('one-row', (1, [{0: float(k)} for k in range(-6, 6)]), [0.1], [1.0 / (k + 0.5) for k in range(12)], [(0, 11), (5, 6), (6, 6), (3, 3)])
add('one-column', (30, [{k: 0.1 * k - 1.0 for k in range(30)}]), [1.0 / (k + 1) for k in range(30)], [0.3])
add('identity', (4, [{k: 1.0} for k in range(4)]), [0.0, -0.0, SUB, -MAX], [SUB, 0.0, -0.0, MAX])
add('hall', (5, [{0: 1.0, 1: 2.0, 3: 3.0, 4: 4.0}, {0: 1.0, 1: 1.0}, {3: 2.0, 4: 1.0}]), [1.0, 2.0, 3.0, 4.0, 5.0], [2.0, 1.0, -1.0])
add('crowded', full(30, *[[((7 * r + 11 * c) % 23 - 11) / 7.0 for r in range(30)] for c in range(12)]),
    [(r % 5 - 2) / 3.0 for r in range(30)], [(c - 5.5) / 9.0 for c in range(12)], [(0, 11), (7, 3), (4, 4)])

# ---- the merge of two columns
add('disjoint', (6, [{0: 1.0, 2: 2.0, 4: 3.0}, {1: 1.0, 3: 2.0, 5: 3.0}]), [1.0] * 6, [1.0, -1.0], [(0, 1), (1, 0)])
add('meets-first', (6, [{0: 2.0, 1: 5.0, 2: 5.0}, {0: 3.0, 4: 7.0, 5: 7.0}]), [1.0] * 6, [1.0, 2.0], [(0, 1), (1, 0)])
add('meets-last', (6, [{0: 5.0, 1: 5.0, 5: 2.0}, {2: 7.0, 4: 7.0, 5: 3.0}]), [-1.0] * 6, [1.0, 2.0], [(0, 1), (1, 0)])
add('meets-inside', (6, [{0: 5.0, 3: 2.0, 5: 9.0}, {2: 7.0, 3: 3.0, 4: 7.0}]), [2.0] * 6, [1.0, 2.0], [(0, 1), (1, 0)])
add('one-above-other', (6, [{0: 1.0, 1: NAN}, {4: INF, 5: 2.0}]), [1.0] * 6, [0.0, 1.0], [(0, 1), (1, 0)])
add('nested', (8, [{0: 1.0, 7: 1.0}, {k: float(k) for k in range(8)}]), [1.0] * 8, [-1.0, 1.0], [(0, 1), (1, 0), (1, 1)])

# ---- zeros of both signs, and where a sum starts
add('plus-zeros', full(2, [0.0, 0.0], [0.0, 0.0]), [1.0, 2.0], [1.0, 2.0])
add('minus-zeros', full(2, [-0.0, -0.0], [-0.0, -0.0]), [1.0, 2.0], [1.0, 2.0])
add('minus-zeros-by-minus', full(2, [-0.0, -0.0], [1.0, 1.0]), [-1.0, -2.0], [-1.0, 0.0])
add('mixed-zeros', full(3, [0.0, -0.0, 0.0], [-0.0, -0.0, 0.0], [1.0, -1.0, 2.0]), [-0.0, 0.0, -0.0], [0.0, -0.0, -0.0])
add('minus-zero-products', (2, [{0: -1.0}, {1: 1.0}, {0: 1.0, 1: -1.0}]), [0.0, -0.0], [1.0, 1.0, 0.0])
add('zero-rows-vector', full(3, [1.0, -2.0, 3.0], [-1.0, 2.0, -3.0]), [0.0, 0.0, 0.0], [0.0, 0.0])
add('minus-zero-rows-vector', full(3, [1.0, 2.0, 3.0], [-1.0, -2.0, -3.0]), [-0.0, -0.0, -0.0], [-0.0, -0.0])
add('cancels', full(2, [1.0, 1.0], [1.0, -1.0]), [1.0, -1.0], [1.0, -1.0])

# ---- what a sweep skips and a gather does not
add('skipped-nan', full(2, [NAN, 1.0], [2.0, 3.0]), [0.0, 0.0], [0.0, 1.0])
add('skipped-nan-by-minus', full(2, [NAN, 1.0], [2.0, 3.0]), [-0.0, -0.0], [-0.0, 1.0])
add('skipped-infinity', full(2, [INF, 1.0], [2.0, -INF]), [0.0, -0.0], [-0.0, 0.0])
add('nan-not-skipped', full(2, [0.0, -0.0], [1.0, 2.0]), [NAN, 1.0], [NAN, 0.0])

# ---- NaN and infinities
add('nan-value', (3, [{0: NAN, 1: 1.0}, {1: 2.0, 2: 3.0}, {0: 1.0}]), [1.0, 2.0, 3.0], [1.0, 2.0, 3.0])
add('nan-vectors', (3, [{0: 1.0, 1: 1.0}, {1: 2.0, 2: 3.0}, {0: 1.0}]), [NAN, 2.0, 3.0], [1.0, NAN, 3.0])
add('infinite-values', full(2, [INF, 1.0], [-INF, 1.0], [1.0, 1.0]), [1.0, -1.0], [1.0, 1.0, 2.0])
add('infinity-by-zero', full(2, [INF, 1.0], [0.0, 1.0]), [0.0, 1.0], [1.0, 1.0])
add('infinity-less-infinity', full(2, [INF, INF], [1.0, -1.0]), [1.0, -1.0], [1.0, 1.0])
add('infinite-vectors', full(2, [1.0, 2.0], [-1.0, 3.0]), [INF, 1.0], [-INF, 1.0])

# ---- subnormals and underflow
add('subnormal-values', full(2, [SUB, -SUB], [BIG_SUB, SUB], [1.0, 1.0]), [1.0, 1.0], [1.0, 1.0, 0.0])
add('subnormal-vectors', full(2, [1.0, 2.0], [-3.0, 1.0]), [SUB, -BIG_SUB], [SUB, BIG_SUB])
add('subnormal-products', full(2, [1e-160, 1e-161], [3e-160, -1e-162]), [1e-160, 1e-158], [1e-160, -1e-155])
add('subnormal-squares', full(2, [1.5e-162, -0.0], [1e-155, 1e-155], [2e-162, -2e-162]), [1e-150, -1e-160], [1.0, 0.0, 1.0])
add('products-vanish', full(2, [1e-200, 1e-200], [-1e-200, -1e-200]), [1e-200, 1e-200], [1e-200, 1e-200])
add('falls-below-normal', full(2, [NORMAL, -SUB], [1.0, 1.0], [-NORMAL, BIG_SUB]), [1.0, 1.0], [1.0, 0.0, -1.0])
add('subnormal-by-large', full(2, [SUB, BIG_SUB], [MAX, 1e300]), [MAX, 1e300], [1e300, SUB])
add('half-of-the-smallest', full(2, [SUB, 3 * SUB], [0.5, 0.5]), [0.5, 0.5], [0.5, SUB])

# ---- overflow
add('product-overflows', full(2, [1e200, 1.0], [1.0, -1e200]), [1e200, 1e200], [1e200, 1e200])
add('sum-overflows', full(2, [MAX, MAX], [1.0, 1.0], [-MAX, -MAX]), [1.0, 1.0], [1.0, 1.0, 0.0])
add('overflows-both-ways', full(3, [1e200, 1e200, 1.0], [1e200, -1e200, 1.0]), [1e200, -1e200, 1.0], [1e200, -1e200])
add('just-fits', full(2, [MAX, SUB], [1.0, 1.0]), [1.0, 1.0], [0.5, 0.5])

# ---- rounding
add('order-matters', full(3, [1e16, 1.0, -1e16], [1.0, 1.0, 1.0]), [1.0, 1.0, 1.0], [1.0, 1.0])
add('not-fused', full(2, [HAIR, 1.0], [HAIR, -(HAIR * HAIR)]), [HAIR, -(HAIR * HAIR)], [HAIR, -1.0])
add('ties', full(2, [1.0, 2.0 ** -53], [1.0, 3 * 2.0 ** -53]), [1.0, 1.0], [1.0, 2.0 ** -53])
add('tenths', full(4, [0.1, 0.2, 0.3, 0.4], [0.7, 0.6, 0.5, 1.1]), [0.1, 0.3, 0.7, 0.9], [0.1, 0.2])


def main():
    for name, (rows, columns, r, x, pairs) in CASES.items():
        ptr, row, val = [0], [], []
        for c in columns:
            row += sorted(c)
            val += [c[k] for k in sorted(c)]
            ptr.append(len(row))
        n = len(columns)
        print('case', 'hand.' + name)
        # one block keeps all columns, and what belongs to blocks repeats r and x: the products over columns alone take no notice
        for key, numbers in (('rows', [rows]), ('cols', [n]), ('L', [3]), ('order', [1]), ('ptr', ptr), ('row', row), ('kept', [0, n]),
                             ('elim', [n, 0]), ('pairs', [k for p in pairs for k in p])):
            print(' '.join(map(str, ['in.' + key, 'u', len(numbers), *numbers])))
        for key, floats in (('val', val), ('r', r), ('x', x), ('lent', r), ('v', x), ('d', x), ('dk', x), ('inv', []), ('u', []), ('rhs', []),
                            ('de', [])):
            print(' '.join(map(str, ['in.' + key, 'f', len(floats), *map(bits, floats)])))
        print('end')


if __name__ == '__main__':
    main()
