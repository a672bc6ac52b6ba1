"""The calls of the layer `blocks` in an oracle case, for make_answers.py: what each takes, what the original answered, and which of the rows
of the table of counts it belongs to. No answer is computed here: numbers are copied out of the oracle's lists. Only what a refusal
leaves in the map, which the original does not have, is document 01's."""
import math
import struct
import sys

NAMES = {5: 'lookups', 6: 'block_place', 7: 'kept_offset', 8: 'eliminated_offset', 9: 'check_blocks', 10: 'refusals', 11: 'gather', 12: 'damp',
         13: 'diagonal_term', 14: 'identity'}
MARK = 4294967295
UNUSED = 3000000000     # what the map that is lent holds, two places past the columns too: no local number, and not the mark
DOFS = (1, 2, 3, 6)
SHAPE = ['interleaved sides', 'blocks not in column order', "the caller's order kept"] + [f'a block of dof {d}' for d in DOFS]
ODD = ['+0.0', '-0.0', 'NaN', 'infinity', 'subnormal']


def number(w):
    return struct.unpack('<d', struct.pack('<Q', w))[0]


def odd(words):
    """Which of the odd floats are among the words."""
    tests = {'+0.0': lambda w: w == 0, '-0.0': lambda w: w == 1 << 63, 'NaN': lambda w: math.isnan(number(w)),
             'infinity': lambda w: math.isinf(number(w)), 'subnormal': lambda w: 0 < abs(number(w)) < sys.float_info.min}
    return {name for name, test in tests.items() if any(map(test, words))}


def pairs(side):
    return list(zip(side[::2], side[1::2]))


def ascends(side):
    firsts = side[::2]
    return firsts == sorted(firsts)


def interleaved(kept, elims):
    """Whether a side's columns stand on both sides of a block of the other's."""
    blocks = sorted([(a, 0) for a, d in pairs(kept) if d] + [(a, 1) for a, d in pairs(elims) if d])
    return sum(x != y for (_, x), (_, y) in zip(blocks, blocks[1:])) > 1


def shape(c, kept, elims, of):
    """The rows of SHAPE that a case belongs to; dofs are those of the sides that the call reads."""
    facts = {f'a block of dof {d}' for _, d in pairs(of)}
    if interleaved(kept, elims):
        facts.add('interleaved sides')
    if not (ascends(kept) and ascends(elims)):
        facts.add('blocks not in column order')
    if c['in.order'] == [1]:
        facts.add("the caller's order kept")
    return facts


def agreed(c):
    """Refusals on which the original and document 01 must agree: the dofs add up to the columns, by which the original counts them (it looks for
    empty sides before), its sort changes nothing, and a block of dof 0, whose place it does not test, starts at a column."""
    n, answer = c['in.cols'][0], c['out.partition']
    blocks = pairs(c['in.kept']) + pairs(c['in.elim'])
    whole = sum(d for _, d in blocks) == n or answer[0] == 4
    return c['in.order'] == [0] and whole and ascends(c['in.kept']) and ascends(c['in.elim']) and all(d or a < n for a, d in blocks)


def refusal(c):
    """The refused partition of a case."""
    answer, n = c['out.partition'], c['in.cols'][0]
    if not agreed(c) or len(answer) != 2 or answer[0] not in (4, 7, 8):
        sys.exit(f'{c["id"]}: refused with {answer}, and document 01 may answer otherwise')
    kept, elims = c['in.kept'], c['in.elim']
    lent = [UNUSED] * (n + 2)
    left = lent if answer[0] == 4 else [MARK] * n + [UNUSED] * 2
    facts = shape(c, kept, elims, kept + elims) | {f'refusal {answer[0]}'}
    if answer[0] == 4:
        facts.add(f'refusal 4 of side {answer[1]}')
    if answer[0] == 7:
        facts.add('refusal 7 at a block\'s first column' if answer[1] in kept[::2] + elims[::2] else 'refusal 7 within a block')
    if answer[0] == 8:
        claims = lambda side: sum(a <= answer[1] < a + d for a, d in pairs(side))
        facts.add('refusal 8 ' + ('among kept' if claims(kept) > 1 else 'among eliminated' if claims(elims) > 1 else 'across the sides'))
    yield 10, columns(c) + [kept, elims, lent], [answer, left], facts


def columns(c):
    return [c['in.rows'], c['in.ptr'], c['in.row'], c['in.val']]


def damping_calls(c):
    """`diagonal_term` and `Damping::identity`; a `clamp` that panicked is left out."""
    damp = c.get('in.damp')
    if not damp:
        return
    if c['out.term'] is not None:
        facts = {f'{x} in the values' for x in odd(c['in.h'])} | {f'{x} in the damping' for x in odd(damp)}
        yield 13, [damp, c['in.h']], [c['out.term']], facts | {f'{x} in the answers' for x in odd(c['out.term'])}
    yield 14, [damp[:1]], [c['out.identity']], {f'{x} in the damping' for x in odd(damp[:1])}


def block_calls(c):
    """The calls on an accepted partition, in the order of blocks that the original had."""
    n, kept, elims, column_map, values = c['in.cols'][0], c['out.kept'], c['out.elim'], c['out.map'], c['out.gather']
    if MARK in column_map or sum(c['out.dofs']) != n or any(a >= n for a, _ in pairs(kept + elims)):
        sys.exit(f'{c["id"]}: document 01 may refuse this partition')
    slot, within, spans = c['out.slot'], c['out.elocal'], c['out.bspan']
    both = shape(c, kept, elims, kept + elims)
    kept_shape, eliminated = shape(c, kept, elims, kept), shape(c, kept, elims, elims)
    yield 5, [kept, elims], [slot[::3], slot[1::3], slot[2::3], c['out.klocal'], within[::2], within[1::2]], both
    yield 6, [kept, elims], [spans[1::2], spans[::2], spans[2::2] + [len(values)], [len(values)]], eliminated
    if all(d for _, d in pairs(kept + elims)):
        # an offset is the local number of a block's first column, so the block must have one
        yield 7, [kept, elims], [[c['out.klocal'][a] for a in kept[::2]]], kept_shape
        yield 8, [kept, elims], [[column_map[a] for a in elims[::2]], c['out.dofs'][:1]], eliminated
    spans = list(zip(c['in.ptr'], c['in.ptr'][1:]))
    named = [spans[a + k] for a, d in pairs(elims) for k in range(d)]
    lent = [UNUSED] * (n + 2)
    call = columns(c) + [kept, elims, lent]
    done = [[0], column_map + [UNUSED] * 2]
    yield 9, call, done, both | ({'an empty column'} if any(a == b for a, b in spans) else set())
    eliminated |= {f'{x} in the values' for a, b in named for x in odd(c['in.val'][a:b])}
    if any(a == b for a, b in named):
        eliminated.add('an empty column')
    yield 11, call, done + [values], eliminated | {f'{x} in the answers' for x in odd(values)}
    damp = c.get('in.damp')
    # where no eliminated block has a column the original clamps nothing, and so does not look at the limits
    if damp and c['out.damped'] is not None and number(damp[1]) <= number(damp[2]):
        eliminated |= {f'{x} in the damping' for x in odd(damp)}
        yield 12, call, done + [c['out.damped'], values, damp], eliminated | {f'{x} in the answers' for x in odd(c['out.damped'])}


def calls(c):
    """The calls of one oracle case."""
    yield from damping_calls(c)
    yield from refusal(c) if c['out.partition'] != [0] else block_calls(c)


def never(kind):
    """What no case of a kind has: a gathered value is a sum that starts at +0.0, so it is never -0.0; nor is it once a term is added."""
    return ['-0.0 in the answers'] if kind in (11, 12) else []


def rows(kind):
    """The rows of the table that a kind must have a case of."""
    if kind == 10:
        return [r for r in SHAPE if r not in ('blocks not in column order', "the caller's order kept")] + [
            'refusal 4 of side 0', 'refusal 4 of side 1', 'refusal 7', "refusal 7 at a block's first column", 'refusal 7 within a block',
            'refusal 8', 'refusal 8 among kept', 'refusal 8 among eliminated', 'refusal 8 across the sides']
    named = list(SHAPE) if kind < 13 else []
    if kind in (5, 6, 9, 11, 12):
        named.append('a block of dof 0')
    if kind in (9, 11, 12):
        named.append('an empty column')
    if kind in (11, 12, 13):
        named += [f'{x} in the {where}' for where in ('values', 'answers') for x in ODD if f'{x} in the {where}' not in never(kind)]
    if kind > 11:
        named += [f'{x} in the damping' for x in ODD]
    return named
