"""A gear of 16 teeth, with a hub, six windows and a bore with a keyway."""
from math import cos, pi, sin

from gwb import Workbench


def at(radius, turns, z=0):
    """The whole point nearest to the one so far from the middle, after so many turns."""
    return (round(radius * cos(2 * pi * turns)), round(radius * sin(2 * pi * turns)), z)


bench = Workbench()
flanks = ((100, -0.3), (120, -0.12), (120, 0.12), (100, 0.3))
wheel = bench.profile([at(radius, (tooth + part) / 16) for tooth in range(16) for radius, part in flanks], along=(0, 0, 20))
face = bench.faces(plane=(0, 0, 1, -20)).one()
for window in range(6):
    bench.hole(face, [at(radius, (window + part) / 6, 20) for radius, part in ((50, -0.3), (85, -0.34), (85, 0.34), (50, 0.3))])
bench.boss(face, [at(36, corner / 16, 20) for corner in range(16)], 10)
top = bench.faces(plane=(0, 0, 1, -30)).one()
bench.hole(top, [at(22, corner / 16, 30) for corner in range(16)])
key = bench.block((0, -4, 0), (27, 8, 30))
part = bench.subtract(wheel.solid, [key.solid])
bench.label(bench.solid(part), 'gear', '#B0A060')

print(*bench.bounding_box(part).sizes, bench.volume(part))
bench.export('gear.step')
bench.export('gear.html')
