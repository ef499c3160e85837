"""A roof, and a chimney that goes through its slope."""
from gwb import Workbench

bench = Workbench()
roof = bench.profile([(0, 0, 0), (0, 80, 0), (0, 40, 40)], along=(100, 0, 0))
chimney = bench.block((60, 50, 0), (16, 14, 60))
part = bench.union([roof.solid, chimney.solid])
top = bench.faces(plane=(0, 0, 1, -60)).one()
bench.pocket(top, [(64, 54, 60), (72, 54, 60), (72, 60, 60), (64, 60, 60)], 40)
bench.label(bench.solid(part), 'roof with chimney', '#B06050')

print(*bench.bounding_box(part).sizes, bench.volume(part))
bench.export('chimney.step')
bench.export('chimney.html')
