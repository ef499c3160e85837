"""A hinge: two leaves with knuckles about a pin."""
from gwb import Workbench


def ring(radius, y):
    """Eight corners about the axis of the pin, in a plane across it."""
    near = round(radius * 0.4)
    corners = [(radius, near), (near, radius), (-near, radius), (-radius, near), (-radius, -near), (-near, -radius), (near, -radius), (radius, -near)]
    return [(x, y, z) for x, z in corners]


def leaf(x, knuckles):
    """A leaf that begins at x, and its knuckles, each from one place along the pin to another."""
    plate = bench.block((x, 0, -2), (40, 60, 4))
    parts = [plate.solid]
    for start, end in knuckles:
        knuckle = bench.profile(ring(5, start), along=(0, end - start, 0))
        bench.hole(bench.face(knuckle.base), ring(3, start))
        parts.append(knuckle.solid)
    return bench.union(parts)


bench = Workbench()
solids = [leaf(5, [(0, 20), (40, 60)]), leaf(-45, [(21, 39)])]
pin = bench.profile(ring(2, -2), along=(0, 64, 0))
for solid, name, colour in zip([*solids, pin.solid], ('right leaf', 'left leaf', 'pin'), ('#A0A8B0', '#8090A0', '#C0A060')):
    bench.label(bench.solid(solid), name, colour)

for part in (*solids, pin.solid):
    print(*bench.bounding_box(part).sizes, bench.volume(part))
bench.export('hinge.step')
bench.export('hinge.html')
