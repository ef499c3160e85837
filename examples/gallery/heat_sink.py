"""A heat sink of eleven fins on a plate with four holes."""
from gwb import Workbench

bench = Workbench()
plate = bench.block((0, 0, 0), (84, 50, 5))
fin = bench.block((12, 0, 5), (2, 50, 25))
fins = bench.pattern(fin.solid, 11, (6, 0, 0))
part = bench.union([plate.solid, fin.solid, *(copy.solid for copy in fins if copy.solid != fin.solid)])
under = bench.faces(plane=(0, 0, -1, 0)).one()
for x in (6, 79):
    for y in (10, 40):
        bench.hole(under, [(x + 2, y + 1, 0), (x + 1, y + 2, 0), (x - 1, y + 2, 0), (x - 2, y + 1, 0),
                           (x - 2, y - 1, 0), (x - 1, y - 2, 0), (x + 1, y - 2, 0), (x + 2, y - 1, 0)])
bench.label(bench.solid(part), 'heat sink', '#B0B8C0')

print(*bench.bounding_box(part).sizes, bench.volume(part))
bench.export('heat_sink.step')
bench.export('heat_sink.html')
