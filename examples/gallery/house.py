"""A house of 10 by 8 metres, scale 1:100: walls, a door, windows on three sides, a gable roof."""
from gwb import Workbench

bench = Workbench()
walls = bench.block((0, 0, 0), (100, 80, 30))
bench.hole(walls.top, [(4, 4, 30), (96, 4, 30), (96, 76, 30), (4, 76, 30)])
front = bench.faces(plane=(0, -1, 0, 0)).one()
bench.notch(front, [(20, 0, 0), (30, 0, 0), (30, 0, 23), (20, 0, 23)], 4)
for x in (44, 68):
    bench.notch(front, [(x, 0, 10), (x + 16, 0, 10), (x + 16, 0, 23), (x, 0, 23)], 4)
for x, way in ((0, -1), (100, 1)):
    gable = bench.faces(plane=(way, 0, 0, -way * x)).one()
    for y in (12, 48):
        bench.notch(gable, [(x, y, 10), (x, y + 20, 10), (x, y + 20, 23), (x, y, 23)], 4)
roof = bench.profile([(-6, -6, 30), (-6, 86, 30), (-6, 40, 60)], along=(112, 0, 0))
part = bench.union([walls.solid, roof.solid])
bench.label(bench.solid(part), 'house', '#C08060')

print(*bench.bounding_box(part).sizes, bench.volume(part))
bench.export('house.step')
bench.export('house.html')
