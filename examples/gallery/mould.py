"""Half a mould: a cavity with sloping walls, a raised core, and four holes for dowels."""
from gwb import Workbench

bench = Workbench()
body = bench.block((0, 0, 0), (120, 80, 30))
cavity = bench.pocket(body.top, [(20, 20, 30), (100, 20, 30), (100, 60, 30), (20, 60, 30)], 18)
floor = bench.face(cavity.face)
bench.chamfer_edges([bench.edges(between=(floor, side)).one() for side in cavity.sides], 8)
floor = bench.faces(plane=(0, 0, 1, -12)).one()
core = bench.boss(floor, [(44, 34, 12), (76, 34, 12), (76, 46, 12), (44, 46, 12)], 10)
bench.chamfer_edges([bench.edges(between=(core.face, side)).one() for side in core.sides], 3)
top = bench.faces(plane=(0, 0, 1, -30)).one()
for x in (10, 110):
    for y in (10, 70):
        bench.hole(top, [(x + 4, y + 2, 30), (x + 2, y + 4, 30), (x - 2, y + 4, 30), (x - 4, y + 2, 30),
                         (x - 4, y - 2, 30), (x - 2, y - 4, 30), (x + 2, y - 4, 30), (x + 4, y - 2, 30)])
part = body.solid
bench.label(bench.solid(part), 'mould half', '#9098A8')

print(*bench.bounding_box(part).sizes, bench.volume(part))
bench.export('mould.step')
bench.export('mould.html')
