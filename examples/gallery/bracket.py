"""A bracket with two ribs and four holes."""
from gwb import Workbench

bench = Workbench()
angle = bench.profile([(0, 0, 0), (60, 0, 0), (60, 0, 8), (8, 0, 8), (8, 0, 50), (0, 0, 50)], along=(0, 40, 0))
ribs = [bench.profile([(8, y, 8), (32, y, 8), (8, y, 32)], along=(0, 4, 0)) for y in (0, 36)]
part = bench.union([angle.solid, *(rib.solid for rib in ribs)])
octagon = [(5, 2), (2, 5), (-2, 5), (-5, 2), (-5, -2), (-2, -5), (2, -5), (5, -2)]
base = bench.faces(plane=(0, 0, 1, -8)).one()
wall = bench.faces(plane=(1, 0, 0, -8)).one()
for y in (12, 28):
    bench.hole(base, [(46 + u, y + v, 8) for u, v in octagon])
    bench.hole(wall, [(8, y + u, 40 + v) for u, v in octagon])
bench.label(bench.solid(part), 'bracket', '#8899AA')

print(*bench.bounding_box(part).sizes, bench.volume(part))
bench.export('bracket.step')
bench.export('bracket.html')
