"""An assembly of four parts: a base, two cheeks that stand in its slots, and a roller between them."""
from gwb import Workbench

bench = Workbench()
base = bench.block((0, 0, 0), (100, 60, 12))
for x in (20, 70):
    bench.slot(base.top, (x + 5, 0, 12), (x + 5, 60, 12), width=10, depth=6)
cheeks = [bench.profile([(x, 0, 6), (x, 60, 6), (x, 40, 60), (x, 20, 60)], along=(10, 0, 0)) for x in (20, 70)]
octagon = [(10, 4), (4, 10), (-4, 10), (-10, 4), (-10, -4), (-4, -10), (4, -10), (10, -4)]
for cheek in cheeks:
    face = bench.face(cheek.base)
    bench.hole(face, [(face.points[0][0], 30 + u, 40 + v) for u, v in octagon])
roller = bench.profile([(20, 30 + u, 40 + v) for u, v in octagon], along=(60, 0, 0))
names = ('base', 'left cheek', 'right cheek', 'roller')
solids = [base.solid, *(cheek.solid for cheek in cheeks), roller.solid]
for solid, name, colour in zip(solids, names, ('#808890', '#A0B0C0', '#A0B0C0', '#D0A040')):
    bench.label(bench.solid(solid), name, colour)

for part in solids:
    print(*bench.bounding_box(part).sizes, bench.volume(part))
bench.export('assembly.step')
bench.export('assembly.html')
