#!/usr/bin/env python3
"""Hand-made inputs with blocks for `oracle run`, on standard output, in the text format of FORMAT.md: sides that interleave, blocks out of
column order, dofs to 6, values that random cases seldom have, and partitions that are refused. They hold inputs alone; every answer is
the oracle's."""
from hand_cases import BIG_SUB, HAIR, INF, MAX, NAN, NORMAL, SUB, bits

# name: (columns, kept, eliminated), blocks as (first column, dof), each column in one block
SHAPES = {
    'one-one': (2, [(0, 1)], [(1, 1)]),
    'eliminated-first': (3, [(2, 1)], [(0, 2)]),
    'hall': (3, [(0, 1)], [(1, 1), (2, 1)]),
    'alternating': (6, [(0, 1), (2, 1), (4, 1)], [(1, 1), (3, 1), (5, 1)]),
    'alternating-backwards': (6, [(4, 1), (2, 1), (0, 1)], [(5, 1), (3, 1), (1, 1)]),
    'nested': (7, [(0, 1), (6, 1)], [(1, 2), (3, 3)]),
    'six-eliminated': (7, [(6, 1)], [(0, 6)]),
    'six-kept': (9, [(2, 6)], [(8, 1), (0, 2)]),
    'every-dof': (24, [(20, 1), (0, 6), (9, 2), (14, 3)], [(11, 3), (23, 1), (17, 2), (6, 3), (21, 2), (19, 1)]),
    'every-dof-eliminated': (14, [(6, 1), (12, 1)], [(7, 2), (0, 6), (9, 3), (13, 1)]),
    'falling': (12, [(9, 3), (0, 1)], [(7, 2), (1, 6)]),
    'zigzag': (10, [(3, 2), (0, 1), (8, 1)], [(5, 3), (9, 1), (1, 2)]),
    'empty-block': (5, [(0, 2), (1, 0)], [(4, 1), (2, 0), (2, 2)]),
    'empty-block-first': (4, [(3, 0), (1, 1)], [(0, 0), (2, 2), (0, 1)]),
}


def mixed(*values):
    """The values in turn, over rows and columns, some without an entry."""
    return lambda r, c: None if (r + 2 * c) % 5 == 4 else values[(3 * r + 2 * c) % len(values)]


# name: the value at a row and a column, None where there is no entry
VALUES = {
    'plain': lambda r, c: ((7 * r + 11 * c) % 23 - 11) / 7.0,
    'sparse': lambda r, c: 0.3 * c - r if (r * r + c) % 3 == 0 else None,
    'empty-columns': lambda r, c: None if c % 3 == 1 else 1.0 / (r + c + 1),
    'no-entries': lambda r, c: None,
    'nan': lambda r, c: NAN if (r + c) % 4 == 1 else 0.5 * (r - c),
    'infinities': mixed(1.0, INF, -2.0, -INF, 0.25, 3.0, -1.5),
    'zeros': mixed(0.0, -0.0, -0.0),
    'minus-zeros': lambda r, c: -0.0,
    'subnormals': mixed(SUB, 1.0, -BIG_SUB, 0.5),
    'subnormal-products': mixed(1e-160, -1.5e-162, 3e-161, 2e-162),
    'products-vanish': mixed(1e-200, -1e-200),
    'overflows': mixed(1e200, -1.0, MAX, 2.0, -1e200),
    'just-fits': lambda r, c: 1.3e154 if r == 0 else SUB,
    'not-fused': mixed(HAIR, 1.0, -(HAIR * HAIR), 0.1),
    'all-kinds': mixed(0.0, NAN, -0.0, INF, SUB, NORMAL, -MAX, 1.0),
}

DAMPINGS = [(1e-4, 1e-6, 1e32), (0.7, 1.0, 1.0), (0.5, 0.0, 10.0), (-0.0, 1e-6, 1e32), (INF, 0.0, 1.0), (NAN, 1.0, 2.0), (1.0, -0.0, 0.0),
            (1.0, 0.0, -0.0), (-1.0, 0.0, 0.0), (2.0, -INF, INF), (3.0, SUB, SUB), (MAX, 1.0, 10.0), (0.0, INF, INF), (SUB, 0.25, 0.5),
            (BIG_SUB, -1.0, 1.0), (-INF, -2.0, -1.0), (1e-300, 1e-20, 1e-10)]
DIAGONALS = [0.0, -0.0, NAN, INF, -INF, SUB, -SUB, BIG_SUB, NORMAL, 1.0, -1.0, HAIR, 0.3, 1e-6, 1e32, MAX, -MAX]
# the same shape with these rows, in turn
ROWS = [5, 4, 0, 6, 1]

# name: (columns, kept, eliminated). On each both sides must answer the same: the dofs add up to the columns, each side is in column order,
# and a block of dof 0 starts at a column.
REFUSED = {
    'no-kept': (3, [], [(0, 3)]),
    'no-kept-of-several': (6, [], [(0, 3), (3, 2), (5, 1)]),
    'no-eliminated': (3, [(0, 3)], []),
    'no-eliminated-of-several': (6, [(0, 1), (1, 2), (3, 3)], []),
    'no-side': (0, [], []),
    'no-kept-and-twice': (4, [], [(0, 2), (1, 2)]),
    'no-eliminated-and-past': (4, [(0, 1), (9, 3)], []),
    'kept-past': (3, [(0, 1), (3, 1)], [(1, 1)]),
    'kept-far-past': (3, [(0, 1), (4000000000, 1)], [(1, 1)]),
    'kept-reaches-past': (4, [(2, 3)], [(0, 1)]),
    'kept-six-reaches-past': (8, [(3, 6)], [(0, 2)]),
    'eliminated-past': (3, [(0, 1)], [(1, 1), (3, 1)]),
    'eliminated-far-past': (3, [(0, 1)], [(1, 1), (4294967295, 1)]),
    'eliminated-reaches-past': (4, [(0, 1)], [(2, 3)]),
    'both-past': (2, [(2, 1)], [(5, 1)]),
    'twice-among-kept': (4, [(0, 2), (1, 1)], [(3, 1)]),
    'same-kept-block': (4, [(1, 1), (1, 1)], [(2, 2)]),
    'twice-among-eliminated': (5, [(0, 1)], [(1, 2), (2, 2)]),
    'same-eliminated-block': (7, [(0, 1)], [(1, 3), (1, 3)]),
    'eliminated-takes-kept': (4, [(1, 2)], [(2, 2)]),
    'eliminated-begins-in-kept': (9, [(0, 6)], [(5, 3)]),
    'sides-equal': (6, [(0, 3)], [(0, 3)]),
    'interleaved-twice': (6, [(0, 1), (2, 1), (4, 1)], [(1, 1), (3, 1), (4, 1)]),
    'interleaved-past': (6, [(0, 1), (2, 1), (4, 1)], [(1, 1), (3, 1), (6, 1)]),
    'twice-before-past': (5, [(0, 2), (1, 1)], [(5, 2)]),
    'past-before-twice': (5, [(0, 1), (5, 2)], [(0, 2)]),
    'twice-in-a-block-that-passes': (5, [(3, 1)], [(2, 4)]),
    'empty-block-and-twice': (4, [(0, 2), (3, 0)], [(1, 1), (2, 1)]),
    'last-column-twice': (8, [(0, 3), (7, 1)], [(3, 2), (6, 2)]),
}


def show(name, rows, n, kept, elims, order, value, damping, chunk=3):
    ptr, row, val = [0], [], []
    for c in range(n):
        entries = [(r, value(r, c)) for r in range(rows)]
        row += [r for r, v in entries if v is not None]
        val += [v for _, v in entries if v is not None]
        ptr.append(len(row))
    print('case', name)
    for key, numbers in (('rows', [rows]), ('cols', [n]), ('L', [chunk]), ('order', [order]), ('ptr', ptr), ('row', row),
                         ('kept', [x for b in kept for x in b]), ('elim', [x for b in elims for x in b]), ('pairs', [])):
        print(' '.join(map(str, ['in.' + key, 'u', len(numbers), *numbers])))
    # the vectors of the products, which blocks take no notice of, are all 1.0
    dofs = [sum(d for _, d in side) for side in (kept, elims)]
    lengths = {'inv': sum(d * d for _, d in elims), 'v': dofs[0], 'd': dofs[0], 'dk': dofs[0], 'u': dofs[1], 'rhs': dofs[1], 'de': dofs[1],
               'lent': rows, 'r': rows, 'x': n}
    for key, floats in (('val', val), ('damp', damping), ('h', DIAGONALS + list(damping[1:])), *((k, [1.0] * m) for k, m in lengths.items())):
        print(' '.join(map(str, ['in.' + key, 'f', len(floats), *map(bits, floats)])))
    print('end')


def main():
    k = 0
    for shape, (n, kept, elims) in SHAPES.items():
        for _ in range(4):
            # the kinds of values go round the shapes: four for each
            name, value = list(VALUES.items())[k % len(VALUES)]
            rows = ROWS[k % 7 % len(ROWS)]
            show(f'blocks.{shape}.{name}', rows, n, kept, elims, int(k % 4 > 0), value, DAMPINGS[k % len(DAMPINGS)])
            k += 1
    for k, (name, (n, kept, elims)) in enumerate(REFUSED.items()):
        show('blocks.refused.' + name, ROWS[k % len(ROWS)], n, kept, elims, 0, list(VALUES.values())[k % len(VALUES)], DAMPINGS[0])


if __name__ == '__main__':
    main()
