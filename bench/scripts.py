#!/usr/bin/env python3
"""Families of scripts that run.py measures: scripts.py FAMILY SIZE prints one of them, scripts.py alone tells what there is.

A family gives the lines that are measured and, where the model has to be made first, the lines that come before them (None where the
start of the program is measured too, and there is one size). Every measured line is accepted, or every one is refused where the family says so. Families of
the second kind are those of which the cost may grow faster than their size.
"""
import collections
import random
import sys

TOP = 1000000           # the greatest number of a kind

Family = collections.namedtuple('Family', 'what lines before most may_grow is_refused')
FAMILIES = {}


def nothing(n):
    return ()


def family(name, what, before=nothing, most=TOP, may_grow=False, is_refused=False):
    """Puts a family in the table; sizes past `most` don't fit the numbers of a model."""
    def put(lines):
        FAMILIES[name] = Family(what, lines, before, most, may_grow, is_refused)
        return lines
    return put


def may_grow(name, what, before=nothing, most=TOP):
    return family(name, what, before, most, True)


def script(lines):
    return ''.join(line + '\n' for line in lines).encode()


# ---- parts of scripts

def path(points):
    """Solid 1, whose edges k lead from vertex k to k + 1 through these points, of which there are two or more."""
    for k, (x, y) in enumerate(points):
        if k == 0:
            yield 'mvfs 1 1 1 1 %d %d 0' % (x, y)
        elif k == 1:
            yield 'mev @1 @1 1 2 %d %d 0' % (x, y)
        else:
            yield 'mev -%d -%d %d %d %d %d 0' % (k - 1, k - 1, k, k + 1, x, y)


def prism(points):
    """Solid 1 on a polygon through these points, of height 2."""
    n = len(points)
    yield from path(points)
    yield 'mef -%d +1 %d 2 2' % (n - 1, n)
    yield 'sweep 1 0 0 2'


def row(n):
    return ((k, k * k % 1000) for k in range(n))


def saw_polygon(n):
    """So many points: a saw along the x axis, and one above it."""
    return [*((k, k % 2) for k in range(n - 1)), (0, n)]


def comb_polygon(teeth):
    points = [(0, 0), (4 * teeth, 0)]
    for i in reversed(range(teeth)):
        points += [(4 * i + 3, 2), (4 * i + 3, 6), (4 * i + 1, 6), (4 * i + 1, 2)]
    return points


def hub(spokes):
    """Vertex 1 with edges 1, 2, .. in turn around it."""
    yield 'mvfs 1 1 1 1 0 0 0'
    yield 'mev @1 @1 1 2 0 0 0'
    for k in range(2, spokes + 1):
        yield 'mev +1 +1 %d %d %d 1 0' % (k, k + 1, k)


def fan(edges, faces):
    """Triangles cut off a path one by one, with these numbers of faces; the path keeps its loop."""
    last = '+1'
    for k, face in enumerate(faces):
        yield 'mef %s +%d %d %d %d' % (last, k + 3, edges + 1 + k, face, k + 2)
        last = '+%d' % (edges + 1 + k)


def block_made(i):
    """A block by operators, on the numbers after those of i other blocks."""
    f, e, v, x = 6 * i, 12 * i, 8 * i, 10 * i
    yield 'mvfs %d %d %d %d %d 0 0' % (i + 1, f + 1, f + 1, v + 1, x)
    yield 'mev @%d @%d %d %d %d 0 0' % (f + 1, f + 1, e + 1, v + 2, x + 4)
    yield 'mev -%d -%d %d %d %d 4 0' % (e + 1, e + 1, e + 2, v + 3, x + 4)
    yield 'mev -%d -%d %d %d %d 4 0' % (e + 2, e + 2, e + 3, v + 4, x)
    yield 'mef -%d +%d %d %d %d' % (e + 3, e + 1, e + 4, f + 2, f + 2)
    yield 'mev +%d +%d %d %d %d 0 4' % (e + 1, e + 1, e + 5, v + 5, x)
    yield 'mev +%d +%d %d %d %d 0 4' % (e + 2, e + 2, e + 6, v + 6, x + 4)
    yield 'mef -%d -%d %d %d %d' % (e + 5, e + 6, e + 7, f + 3, f + 3)
    yield 'mev +%d +%d %d %d %d 4 4' % (e + 3, e + 3, e + 8, v + 7, x + 4)
    yield 'mef -%d -%d %d %d %d' % (e + 6, e + 8, e + 9, f + 4, f + 4)
    yield 'mev +%d +%d %d %d %d 4 4' % (e + 4, e + 4, e + 10, v + 8, x)
    yield 'mef -%d -%d %d %d %d' % (e + 8, e + 10, e + 11, f + 5, f + 5)
    yield 'mef -%d +%d %d %d %d' % (e + 10, e + 7, e + 12, f + 6, f + 6)


BLOCK_UNMADE = ['kef +12', 'kef +11', 'kev +10', 'kef +9', 'kev +8', 'kef +7', 'kev +6', 'kev +5', 'kef +4', 'kev +3', 'kev +2', 'kev +1', 'kvfs 1']


def edge_alone(n):
    return ['mvfs 1 1 1 1 0 0 0', 'mev @1 @1 1 2 1 0 0']


def block_alone(n):
    return ['block 1 0 0 0 4 4 4']


def in_turn(lines, n):
    """The first n of these lines over and over."""
    return (lines[k % len(lines)] for k in range(n))


# ---- one line after the other

@family('refusals', 'a command that is refused', is_refused=True)
def refusals(n):
    return ('kvfs %d' % (k % TOP + 1) for k in range(n))


@family('chain', '`mev` at the free end of a chain of edges')
def chain(n):
    return path(row(n))


@family('blocks', 'blocks by 13 operators each')
def blocks(n):
    return (line for i in range(n // 13) for line in block_made(i))


@family('unmade', 'a block made by operators and unmade by their inverses, and so on')
def unmade(n):
    return in_turn(list(block_made(0)) + BLOCK_UNMADE, n)


@family('volumes', '`block` and `volume`; after 80,000 of them all are undone')
def volumes(n):
    for k in range(n):
        i = k % 240000
        if i >= 160000:
            yield 'undo'
        elif i % 2:
            yield 'volume %d' % (i // 2 + 1)
        else:
            yield 'block %d %d 0 0 4 4 4' % (i // 2 + 1, 5 * i)


@family('block', '`block` above all numbers in use; after 80,000 of them all are undone')
def block_new(n):
    for k in range(n):
        i = k % 160000
        yield 'undo' if i >= 80000 else 'block %d %d 0 0 4 4 4' % (i + 1, 5 * i)


@family('block_undone', '`block` and `undo` in turn')
def block_undone(n):
    return in_turn(['block 1 0 0 0 4 4 4', 'undo'], n)


@family('fan', 'triangles cut off a path: the first half of the lines makes the path, the other cuts')
def fan_small(n):
    yield from path(row(n // 2))
    yield from fan(n // 2 - 1, range(2, n // 2 - 2))


@family('hub', 'so many spokes; half of them moved to a new vertex and back 64 times')
def hub_moved(n):
    yield from hub(n - 128)
    yield from in_turn(['mev +1 +%d %d %d 0 0 1' % (n // 2, n, n), 'kev +%d' % n], 128)


@family('storms', 'a tenth of the lines makes a chain; it is undone and redone as a whole, and so on')
def storms(n):
    tenth = n // 10
    yield from path(row(tenth))
    yield from ('redo' if k // tenth % 2 else 'undo' for k in range(n - tenth))


@family('undo_redo', 'one command undone and redone in turn', before=lambda n: ['mvfs 1 1 1 1 0 0 0'])
def undo_redo(n):
    return in_turn(['undo', 'redo'], n)


@family('split_redone', 'a `split` of a block undone and redone in turn', before=lambda n: [*block_alone(n), 'split 1 1 0 0 -2 2'])
def split_redone(n):
    return in_turn(['undo', 'redo'], n)


@family('listed', '`list` of one block', before=block_alone)
def listed(n):
    return in_turn(['list'], n)


@family('glued', '`block` two times, `glue`, `undo` three times')
def glued(n):
    return in_turn(['block 1 0 0 0 4 4 4', 'block 2 0 0 4 4 4 4', 'glue 1 8', 'undo', 'undo', 'undo'], n)


@family('halved', '`split` of a block and `undo` in turn', before=block_alone)
def halved(n):
    return in_turn(['split 1 1 0 0 -2 2', 'undo'], n)


@family('sliced', 'a bar cut into 5,000 slices one by one, all undone, and so on')
def sliced(n):
    for k in range(n):
        i = k % 10002
        if i == 0:
            yield 'block 1 0 0 0 5001 4 4'
        else:
            yield 'split %d 1 0 0 -%d %d' % (i, i, i + 1) if i <= 5000 else 'undo'


# ---- one command on a large model

@family('volume', '`volume` of a prism of so many sides', before=lambda n: prism(saw_polygon(n)), most=300000)
def volume_large(n):
    return ['volume 1'] * 8


@family('count', '`count` of a prism of so many sides', before=lambda n: prism(saw_polygon(n)), most=300000)
def count_large(n):
    return ['count 1'] * 8


@family('list', '`list` of a prism of so many sides', before=lambda n: prism(saw_polygon(n)), most=300000)
def list_large(n):
    return ['list'] * 4


@family('prism', 'a prism of so many sides split through all of them, and `undo`', before=lambda n: prism(saw_polygon(n)), most=130000)
def prism_split(n):
    return ['split 1 0 0 1 -1 2', 'undo'] * 4


# ---- what may cost more than its size

@may_grow('top_solid', 'solid 1,000,000 made and killed in turn')
def top_solid(n):
    return in_turn(['mvfs 1000000 1 1 1 0 0 0', 'kvfs 1000000'], n)


@may_grow('top_undone', 'solid 1,000,000 undone and redone in turn', before=lambda n: ['mvfs 1000000 1 1 1 0 0 0'])
def top_undone(n):
    return in_turn(['undo', 'redo'], n)


@may_grow('top_edge', 'edge 1,000,000 made and killed in turn', before=edge_alone)
def top_edge(n):
    return in_turn(['mev +1 +1 1000000 1000000 2 0 0', 'kev +1000000'], n)


@may_grow('rising', 'solids made and killed in turn under rising numbers')
def rising(n):
    for k in range(n):
        i = k // 2 + 1
        yield 'kvfs %d' % i if k % 2 else 'mvfs %d %d %d %d 0 0 0' % (i, i, i, i)


@may_grow('rings', 'rings cut off one by one: `mev` and `kemr` in turn', before=edge_alone)
def rings(n):
    for k in range(n):
        i = k // 2 + 2
        yield 'kemr +%d %d' % (i, i) if k % 2 else 'mev +1 +1 %d %d %d 1 0' % (i, i + 1, i)


def far_numbers(n):
    f = 999900
    return edge_alone(n) + ['mvfs %d %d %d %d 5 0 0' % (f, f, f, f), 'mev @%d @%d %d %d 6 0 0' % (f, f, f, f + 1)]


@may_grow('far_numbers', 'numbers from 1 to 999,900 in one model: `list`, `block`, `undo`, `redo`, `undo` in turn', before=far_numbers)
def far_turns(n):
    return in_turn(['list', 'block 2 0 0 0 4 4 4', 'undo', 'redo', 'undo'], n)


@may_grow('hub_killed', 'a hub of half as many spokes, each of which is killed', before=lambda n: hub(n // 2))
def hub_killed(n):
    return ('kev +%d' % k for k in range(2, n // 2 + 1))


def permuted_fan(n, faces):
    yield from path(row(n // 2))
    yield from fan(n // 2 - 1, faces)


@may_grow('faces_random', 'as fan, with the numbers of the faces in random order')
def faces_random(n):
    faces = list(range(2, n // 2 - 2))
    random.Random(1).shuffle(faces)
    return permuted_fan(n, faces)


@may_grow('faces_outward', 'as fan, with the numbers of the faces from the middle outwards')
def faces_outward(n):
    middle, count = n // 4, n // 2 - 4
    faces = (middle + (-(k // 2) if k % 2 else k // 2 + 1) for k in range(count))
    return permuted_fan(n, faces)


@may_grow('fan_long', 'as fan, where the long part gets the new loop each time')
def fan_long(n):
    edges = n // 2 - 1
    yield from path(row(n // 2))
    last = '+1'
    for k in range(n // 2 - 4):
        yield 'mef +%d %s %d %d %d' % (k + 3, last, edges + 1 + k, k + 2, k + 2)
        last = '-%d' % (edges + 1 + k)


@may_grow('glue_chain', 'blocks one on the other, each glued to those below: `block` and `glue` in turn', before=block_alone)
def glue_chain(n):
    for k in range(n):
        i = k // 2 + 1
        yield 'glue %d %d' % (6 * i - 5, 6 * i + 2) if k % 2 else 'block %d 0 0 %d 4 4 4' % (i + 1, 4 * i)


@may_grow('comb', 'a comb of so many teeth split through all of them, and `undo`', before=lambda n: prism(comb_polygon(n)), most=30000)
def comb_split(n):
    return ['split 1 0 1 0 -4 2', 'undo'] * 4


@may_grow('first_use', 'the first use of number 1,000,000 of each kind: one line, with the start of the program', before=None)
def first_use(n):
    return ['mvfs 1000000 1000000 1000000 1000000 0 0 0']


if __name__ == '__main__':
    if len(sys.argv) == 3:
        chosen = FAMILIES[sys.argv[1]]
        size = int(sys.argv[2])
        sys.stdout.buffer.write(script(chosen.before(size) if chosen.before else []) + script(chosen.lines(size)))
    else:
        for name, row_of in FAMILIES.items():
            print('%-14s %s' % (name, row_of.what))
