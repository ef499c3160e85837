"""A frame of four posts, and of beams between them at two heights."""
from gwb import Workbench

bench = Workbench()
corners = [(0, 0), (180, 0), (0, 100), (180, 100)]
posts = [bench.block((x, y, 0), (20, 20, 160)).solid for x, y in corners]
beams = []
for z in (40, 140):
    beams += [bench.block((20, y, z), (160, 20, 20)).solid for y in (0, 100)]
    beams += [bench.block((x, 20, z), (20, 80, 20)).solid for x in (0, 180)]
braces = [bench.profile([(20, y, 100), (20, y, 120), (40, y, 140), (60, y, 140)], along=(0, 20, 0)).solid for y in (0, 100)]
part = bench.union([*posts, *beams, *braces])
bench.label(bench.solid(part), 'frame', '#A08050')

print(*bench.bounding_box(part).sizes, bench.volume(part))
bench.export('frame.step')
bench.export('frame.html')
