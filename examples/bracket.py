from gwb import Plane, Workbench

bench = Workbench()
angle = bench.profile([(0, 0, 0), (60, 0, 0), (60, 0, 8), (8, 0, 8), (8, 0, 50), (0, 0, 50)], along=(0, 40, 0))
base = bench.faces(plane=Plane(z=8)).one()      # the only face at z = 8
wall = bench.faces(plane=Plane(x=8)).one()
for y in (10, 30):
    bench.drill(base, (40, y, 8), radius=5, sides=8)
bench.slot(wall, (8, 20, 50), (8, 20, 30), width=8, depth=8)
print(float(bench.volume(angle)))   # 30228.48
bench.export('bracket.html')    # or .step, .3mf, .stl ..
