#!/usr/bin/env python3
"""A block is made, cut in two and put back, and two operators become one command.

    bindings/examples/block.py bindings/out/libgwb.so
"""
import sys
from pathlib import Path

sys.path.insert(0, str(Path(__file__).resolve().parents[2] / 'companions'))
from gwb import Refused, Workbench  # noqa: E402


def main():
    with Workbench(sys.argv[1]) as bench:
        block = bench.block((0, 0, 0), (4, 4, 4))
        print(block)
        parts = bench.split(block.solid, (0, 0, 1, -2))
        print(parts)
        print(6 * bench.volume(block.solid), 6 * bench.volume(parts.solid))
        try:
            bench.kvfs(parts.solid)
        except Refused as refused:
            print(refused.name, refused.value)
        bench.undo()
        print(6 * bench.volume(block.solid), bench.count(block.solid))
        print(len(bench.listing().faces), 'faces')
        print(bench.half_edges(bench.listing().faces[block.top].outer))
        with bench.draft():
            spur = bench.mev(9, 9, (2, 2, 4))
            bench.kemr(spur.edge)
        print(len(bench.face(block.top).rings), 'ring')
        bench.undo()
        print(len(bench.face(block.top).rings), 'rings')


if __name__ == '__main__':
    main()
