"""A plate with bevelled edges and twelve six-sided pockets, each 1 mm deeper than the one before."""
from gwb import Workbench

bench = Workbench()
plate = bench.block((0, 0, 0), (120, 90, 16))
for number in range(12):
    x, y = 15 + 30 * (number % 4), 15 + 30 * (number // 4)
    bench.pocket(plate.top, [(x + 10, y, 16), (x + 5, y + 9, 16), (x - 5, y + 9, 16), (x - 10, y, 16), (x - 5, y - 9, 16), (x + 5, y - 9, 16)], 2 + number)
part = plate.solid
sides = [bench.face(side) for side in plate.sides]
bench.chamfer_edges([bench.edges(between=(plate.top, side)).one() for side in sides], 3)
bench.label(bench.solid(part), 'plate of pockets', '#88A088')

print(*bench.bounding_box(part).sizes, bench.volume(part))
bench.export('pockets.step')
bench.export('pockets.html')
