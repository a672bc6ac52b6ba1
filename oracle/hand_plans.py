#!/usr/bin/env python3
"""Hand-made inputs of plans for `oracle run`, on standard output, in the text format of FORMAT.md: the hall of document 01, sides that interleave,
blocks out of column order and of no columns, rows that no block owns or that two do, columns without entries, no rows, and chunks from one row
to more than all. They hold inputs alone; every answer is the oracle's."""
from hand_blocks import DAMPINGS, SHAPES, show

# rows, and chunk lengths: 1, 2, 3, 7, the rows, one more, the largest, and the smallest again, since those have the most spans
ROWS = [9, 5, 12, 8, 7, 1, 14, 6, 0, 3, 30]
CHUNKS = [1, 2, 3, 7, 'rows', 'more', 1048576, 1, 2, 3]


def chunk(k, rows):
    """Chunk length k."""
    asked = CHUNKS[k % len(CHUNKS)]
    return {'rows': max(rows, 1), 'more': rows + 1}.get(asked, asked)


def block_of(blocks, c):
    """The block that holds column c, or None."""
    return next((b for b, (first, dof) in enumerate(blocks) if first <= c < first + dof), None)


class Place:
    """An entry's place: row, column, the eliminated block of the column (None if it is a kept one) and how many of those there are."""

    def __init__(self, r, c, rows, chunk, elims):
        self.r, self.c, self.rows, self.chunk, self.elims = r, c, rows, chunk, elims
        self.block, self.blocks = block_of(elims, c), len(elims)

    def kept(self):
        return self.block is None

    def first(self):
        """Whether the column is the first of its block."""
        return self.c == self.elims[self.block][0]


# name: whether there is an entry at a place. A row has entries of one eliminated block at most.
PATTERNS = {
    'in-turn': lambda p: p.kept() or p.r % p.blocks == p.block,
    'backwards': lambda p: p.r % 2 == p.c % 2 if p.kept() else p.blocks - 1 - p.r % p.blocks == p.block,
    'runs': lambda p: (p.r + p.c) % 3 > 0 if p.kept() else p.r * p.blocks // p.rows == p.block,
    'rows-left-free': lambda p: p.r % 3 == p.c % 3 if p.kept() else p.r % 4 < 3 and p.r % p.blocks == p.block,
    'chunk-edges': lambda p: p.r % p.chunk in (0, p.chunk - 1) and (p.kept() or p.r // p.chunk % p.blocks == p.block),
    'first-and-last': lambda p: p.r in (0, p.rows - 1) and (p.kept() or p.block == min(p.r, p.blocks - 1)),
    'one-block': lambda p: p.r % 2 == 0 if p.kept() else p.block == p.blocks - 1,
    'one-column-each': lambda p: p.c % 2 == 0 if p.kept() else p.first() and p.r % p.blocks == p.block,
    'empty-columns': lambda p: p.c % 3 != 1 and (p.kept() or p.r % p.blocks == p.block),
    'kept-alone': lambda p: p.kept(),
    'eliminated-alone': lambda p: not p.kept() and (p.r + 1) % p.blocks == p.block,
    'no-entries': lambda p: False,
}

# the same, of rows that two eliminated blocks have entries in, where there are two blocks with columns
CONNECTED = {
    'all-rows': lambda p: True,
    'last-row': lambda p: p.r == p.rows - 1 or p.r % p.blocks == p.block,
    'neighbours': lambda p: not p.kept() and (p.r % p.blocks == p.block or (p.r + 1) % p.blocks == p.block),
    'later-columns': lambda p: p.kept() or p.r % p.blocks == p.block or not p.first(),
    'middle-row': lambda p: p.r == p.rows // 2 or (not p.kept() and p.r * p.blocks // p.rows == p.block),
}


def show_plan(name, rows, n, kept, elims, order, length, has):
    """A stored 0.0 is an entry, so some are."""
    show(name, rows, n, kept, elims, order, lambda r, c: (r + c) % 3 - 1.0 if has(Place(r, c, rows, length, elims)) else None, DAMPINGS[0], length)


def main():
    columns = {0: (0, 1, 3, 4), 1: (0, 1), 2: (3, 4)}
    case_6 = {**columns, 2: (1, 4)}
    n, kept, elims = SHAPES['hall']
    for k in range(7):
        for name, of in (('hall', columns), ('hall-case-6', case_6)):
            show_plan(f'plans.{name}.{k}', 5, n, kept, elims, 0, chunk(k + 1, 5), lambda p: p.r in of[p.c])
    k = 0
    for shape, (n, kept, elims) in SHAPES.items():
        for name, has in PATTERNS.items():
            rows = ROWS[k % len(ROWS)]
            show_plan(f'plans.{shape}.{name}', rows, n, kept, elims, int(k % 4 > 0), chunk(k, rows), has)
            k += 1
        if sum(dof > 0 for _, dof in elims) < 2:
            continue
        for name, has in CONNECTED.items():
            rows = 4 + k % 9
            show_plan(f'plans.{shape}.connected.{name}', rows, n, kept, elims, int(k % 3 > 0), chunk(k, rows), has)
            k += 1


if __name__ == '__main__':
    main()
