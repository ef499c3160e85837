"""A lattice of 27 nodes and the 54 struts between them, one solid."""
from itertools import product

from gwb import Workbench

bench = Workbench()
solids = []
for place in product(range(3), repeat=3):
    x, y, z = (24 * step for step in place)
    solids.append(bench.block((x, y, z), (8, 8, 8)).solid)
    for axis in range(3):
        if place[axis] < 2:
            corner, sizes = [x + 1, y + 1, z + 1], [6, 6, 6]
            corner[axis] += 7
            sizes[axis] = 16
            solids.append(bench.block(corner, sizes).solid)
part = bench.union(solids)
bench.label(bench.solid(part), 'lattice', '#7090B0')

print(*bench.bounding_box(part).sizes, bench.volume(part))
bench.export('lattice.step')
bench.export('lattice.html')
