"""A dovetail pair: two boards whose ends hold each other, drawn apart."""
from gwb import Workbench

bench = Workbench()
# the line between both, from one edge of the boards to the other
line = [(40, 0), (40, 8), (58, 5), (58, 19), (40, 16), (40, 32), (58, 29), (58, 43), (40, 40), (40, 48)]
tails = bench.profile([(0, 48, 0), (0, 0, 0), *((x, y, 0) for x, y in line)], along=(0, 0, 12))
sockets = bench.profile([(100, 0, 0), (100, 48, 0), *((x, y, 0) for x, y in reversed(line))], along=(0, 0, 12))
bench.move(sockets.solid, (24, 0, 0))
bench.label(bench.solid(tails.solid), 'tails', '#C09060')
bench.label(bench.solid(sockets.solid), 'sockets', '#806040')

for part in (tails.solid, sockets.solid):
    print(*bench.bounding_box(part).sizes, bench.volume(part))
bench.export('dovetail.step')
bench.export('dovetail.html')
