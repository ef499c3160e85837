#!/usr/bin/env python3
"""Times loops of the Python session over a library, in tenths, so that growth is seen: 10,000 blocks, 1,000 laminas swept, 200 pockets
and 200 notches in one face, and a pocket, a slot, a copy, a union and the end of each of 1,000 blocks.

    bench/python_session.py [LIBRARY ..]
"""
import argparse
import math
import os
import struct
import sys
from pathlib import Path
from subprocess import DEVNULL, Popen
from tempfile import TemporaryDirectory
from time import perf_counter

COMPANIONS = Path(__file__).resolve().parent.parent / 'companions'
sys.path.insert(0, str(COMPANIONS))
from gwb import Workbench  # noqa: E402


def block(bench, i):
    bench.block((0, 0, i), (1, 1, 1))


def swept(bench, i):
    made = bench.lamina([(0, 0, i), (1, 0, i), (0, 1, i)])
    bench.sweep(made.front, (0, 0, 1))


def pocket(bench, i):
    """A pocket in the top of one plate."""
    if i == 0:
        bench.block((0, 0, 0), (200, 200, 20))
    x, y = 10 * (i % 20), 10 * (i // 20)
    bench.pocket(1, [(x + 2, y + 2, 20), (x + 8, y + 2, 20), (x + 8, y + 8, 20), (x + 2, y + 8, 20)], 5)


def notch(bench, i):
    """A notch within the top of one plate."""
    if i == 0:
        bench.block((0, 0, 0), (200, 200, 20))
    x, y = 10 * (i % 20), 10 * (i // 20)
    bench.notch(1, [(x + 2, y + 2, 20), (x + 8, y + 2, 20), (x + 8, y + 8, 20), (x + 2, y + 8, 20)], 5)


def blocks_first(bench, i):
    """Before the first turn 1,000 blocks are made, each a solid."""
    if i == 0:
        for number in range(1000):
            bench.block((10 * number, 0, 0), (9, 9, 9))


def pocket_in_a_block(bench, i):
    blocks_first(bench, i)
    bench.pocket(6 * i + 1, [(10 * i + 2, 2, 9), (10 * i + 7, 2, 9), (10 * i + 7, 7, 9)], 3)


def slot_in_a_block(bench, i):
    blocks_first(bench, i)
    bench.slot(6 * i + 1, (10 * i + 4, 0, 9), (10 * i + 4, 9, 9), 2, 3)


def copy_of_a_block(bench, i):
    blocks_first(bench, i)
    bench.copy(i + 1, move=(0, 20, 0))


def union_with_a_block(bench, i):
    blocks_first(bench, i)
    bench.union([i + 1, bench.block((10 * i + 2, 2, 9), (3, 3, 3))])


def block_deleted(bench, i):
    blocks_first(bench, i)
    bench.delete(i + 1)


LOOPS = (('blocks', block, 10_000), ('laminas swept', swept, 1_000), ('pockets in one face', pocket, 200), ('notches in one face', notch, 200),
         ('pockets in 1,000 blocks', pocket_in_a_block, 1_000), ('slots in 1,000 blocks', slot_in_a_block, 1_000),
         ('copies of 1,000 blocks', copy_of_a_block, 1_000), ('unions with 1,000 blocks', union_with_a_block, 1_000),
         ('of 1,000 blocks deleted', block_deleted, 1_000))


def tenths(bench, make, count):
    """The seconds that each tenth of the loop takes."""
    times = [perf_counter()]
    for i in range(count):
        make(bench, i)
        if (i + 1) % (count // 10) == 0:
            times.append(perf_counter())
    return [after - before for before, after in zip(times, times[1:])]


def place(i, j):
    """A corner of the torus, by how many parts of 250 it lies round the axis, and of 200 round the tube."""
    around, tube = 2 * math.pi * (i % 250) / 250, 2 * math.pi * (j % 200) / 200
    away = 100_000 + 40_000 * math.cos(tube)
    return round(away * math.cos(around)), round(away * math.sin(around)), round(40_000 * math.sin(tube))


def torus():
    """The torus, as binary STL."""
    squares = ((place(i, j), place(i + 1, j), place(i + 1, j + 1), place(i, j + 1)) for i in range(250) for j in range(200))
    triangles = [corners for a, b, c, d in squares for corners in ((a, b, c), (a, c, d))]
    rows = (struct.pack('<12fH', 0, 0, 0, *a, *b, *c, 0) for a, b, c in triangles)
    return bytes(80) + struct.pack('<I', len(triangles)) + b''.join(rows)


def time_companions():
    """Tells the seconds of processor, and the memory, that companions take for the torus."""
    with TemporaryDirectory() as folder:
        path = Path(folder, 'torus.stl')
        path.write_bytes(torus())
        for companion in ('gwb-import', 'gwb-view'):
            with Popen([sys.executable, COMPANIONS / companion, path], stdout=DEVNULL) as process:
                _, _, used = os.wait4(process.pid, 0)
                process.returncode = 0
            print(f'{companion}: {used.ru_utime + used.ru_stime:.1f} s, {used.ru_maxrss // 1000} MB')


def main():
    parser = argparse.ArgumentParser(description=__doc__, formatter_class=argparse.RawDescriptionHelpFormatter)
    parser.add_argument('libraries', metavar='LIBRARY', nargs='*')
    for library in parser.parse_args().libraries or [None]:
        for name, make, count in LOOPS:
            with Workbench(library, step=1) as bench:
                times = tenths(bench, make, count)
            print(f'{library or "gwb"}: {count} {name}: {sum(times):.2f} s; first tenth {times[0]:.3f} s, last {times[-1]:.3f} s')
    time_companions()


if __name__ == '__main__':
    main()
