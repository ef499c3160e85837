"""Draws flat models from above, with their half-edges: each is an arrow at the left of its edge, in the colour of its face, dashed in a ring.

tests/documents.py makes the pictures of docs/MODEL.md by it. No two edges may cross in the plane of the model. Then the face of a half-edge lies at its
left, and one face lies all about the others.
"""
import math
import sys
from itertools import cycle
from typing import Dict, Iterator, List, NamedTuple, Optional, Sequence, Tuple

from counts import TOP

sys.path.insert(0, str(TOP / 'companions'))

from gwb.geometry.model import Model

Spot = Tuple[float, float]

SIDE = 230.0        # the longest side of a model
LEAST = 70.0        # and the least width that a panel has for it
MARGIN = 44.0
BETWEEN = 50.0
ASIDE = 6.0         # how far from its edge an arrow runs
SHORT = 14.0        # by how much it is shorter than its edge at either end
COLOURS = ('#1b5fa8', '#c4690a', '#2f8a2c', '#b0304a', '#6a4fb0')
STYLE = """<style>
path { fill: none; stroke-width: 1.6 }
.edge { stroke: #bbb; stroke-width: 1 }
.ring { stroke-dasharray: 9 3 }
text { font: 13px sans-serif; text-anchor: middle }
</style>"""


class Names(NamedTuple):
    """What is written at half-edges and vertices."""

    halves: Dict[int, str]
    vertices: Dict[int, str]


def numbers(model: Model) -> Names:
    """Everything by its number."""
    return Names({half: f'{half:+}' for edge in model.edges for half in (edge, -edge)}, {vertex: str(vertex) for vertex in model.vertices})


def around(model: Model, half: int) -> Names:
    """The half-edge h, its neighbours and its tail, as docs/MODEL.md writes them."""
    after: Dict[int, int] = {}
    for loop in model.loops.values():
        after.update(zip(loop.halves, loop.halves[1:] + loop.halves[:1]))
    before = {following: each for each, following in after.items()}
    halves = {half: 'h', after[half]: 'after(h)', before[half]: 'before(h)', -half: 'mate(h)', after[-half]: 'round(h)'}
    return Names(halves, {model.tail(half): 'tail(h)'})


class Line:
    """The way from one spot to another."""

    def __init__(self, start: Spot, end: Spot) -> None:
        self._start = start
        self.length = math.hypot(end[0] - start[0], end[1] - start[1])
        self.along = ((end[0] - start[0]) / self.length, (end[1] - start[1]) / self.length)

    def at(self, way: float, aside: float) -> Spot:
        """The spot so far along the way, and so far to its left."""
        return (self._start[0] + self.along[0] * way + self.along[1] * aside, self._start[1] + self.along[1] * way - self.along[0] * aside)


def path(*spots: Spot) -> str:
    """A line through the spots, as a path has it."""
    return 'M' + 'L'.join(f'{x:.0f} {y:.0f}' for x, y in spots)


def text(word: str, spot: Spot, more: str = '') -> str:
    """A word with its middle at the spot."""
    return f'<text x="{spot[0]:.0f}" y="{spot[1] + 5:.0f}"{more}>{word}</text>'


class Panel:
    """One model of a picture, and where its vertices lie in it."""

    def __init__(self, model: Model, spots: Dict[int, Spot], names: Names) -> None:
        self._model, self._spots, self._names = model, spots, names

    def lines(self, left: float, low: float) -> Iterator[str]:
        """The drawing; from the place `left` and `low` on it says for each face which loops it has."""
        edges = (path(self._spots[start], self._spots[end]) for start, end in self._model.edges.values())
        yield f'<path class="edge" d="{"".join(edges)}"/>'
        for row, (colour, (number, face)) in enumerate(zip(cycle(COLOURS), self._model.faces.items())):
            for loop in face.loops:
                kind = ' class="ring"' if loop in face.rings else ''
                yield from self._loop(loop, f'{kind} stroke="{colour}"', f' fill="{colour}"')
            said = ', '.join([f'face {number}: loop {face.outer}', *(f'ring {ring}' for ring in face.rings)])
            yield text(said, (left, low + 16 * row), f' fill="{colour}" style="text-anchor: start"')
        for vertex, (x, y) in self._spots.items():
            yield f'<circle cx="{x:.0f}" cy="{y:.0f}" r="3"/>'
            yield from self._vertex(vertex)

    def _loop(self, loop: int, ink: str, fill: str) -> Iterator[str]:
        content = self._model.loops[loop]
        if content.vertex is not None:
            x, y = self._spots[content.vertex]
            yield f'<circle cx="{x:.0f}" cy="{y:.0f}" r="8" fill="none"{ink}/>'
            yield text(f'@{loop}', (x, y + 19), fill)
            return
        lines = {half: Line(self._spots[self._model.tail(half)], self._spots[self._model.tail(-half)]) for half in content.halves}
        yield f'<path{ink} d="{"".join(map(arrow, lines.values()))}"/>'
        for half, line in lines.items():
            name = self._names.halves.get(half, '')
            if name:
                aside = ASIDE + 7 + abs(line.along[1]) * 3.2 * len(name)
                yield text(name, line.at(line.length / 2, aside), fill)

    def _vertex(self, vertex: int) -> Iterator[str]:
        """The vertex's name, in the widest gap between its edges."""
        name = self._names.vertices.get(vertex, '')
        if name:
            (x, y), turned = self._spots[vertex], self._gap(vertex)
            away = 13 + abs(math.cos(turned)) * 3.2 * (len(name) - 1)
            yield text(name, (x + math.cos(turned) * away, y + math.sin(turned) * away))

    def _gap(self, vertex: int) -> float:
        """The direction amid the widest gap between the edges of a vertex, upwards where it has none."""
        lines = [Line(self._spots[vertex], self._spots[self._model.tail(-half)])
                 for edge in self._model.edges for half in (edge, -edge) if self._model.tail(half) == vertex]
        turns = sorted(math.atan2(line.along[1], line.along[0]) for line in lines)
        gaps = [(following - turned, turned) for turned, following in zip(turns, [*turns[1:], *(first + 2 * math.pi for first in turns[:1])])]
        width, first = max(gaps, default=(0.0, -math.pi / 2))
        return first + width / 2


def arrow(line: Line) -> str:
    """A half-edge: a line at the left, shorter at both ends, drawn from half a head on, so that no dashes break the head."""
    tip = line.length - SHORT
    return path(line.at(tip - 8, ASIDE + 5), line.at(tip, ASIDE), line.at(SHORT, ASIDE))


def half_edges_svg(models: Sequence[Model], half: Optional[int] = None) -> str:
    """A picture of models beside each other at one scale, with their numbers; with `half` it has the names of what lies about that half-edge."""
    points = [point for model in models for point in model.vertices.values()]
    (least, low), (most, high) = ([pick(point[axis] for point in points) for axis in (0, 1)] for pick in (min, max))
    scale = SIDE / (max(most - least, high - low) or 1)
    wide, tall = 2 * MARGIN + max(LEAST, (most - least) * scale), 2 * MARGIN + (high - low) * scale
    lines: List[str] = []
    for place, model in enumerate(models):
        left = place * (wide + BETWEEN)
        spots = {vertex: (left + MARGIN + (x - least) * scale, MARGIN + (high - y) * scale) for vertex, (x, y, _) in model.vertices.items()}
        names = numbers(model) if half is None else around(model, half)
        lines += [text('→', (left - BETWEEN / 2, tall / 2), ' style="font-size: 26px"')] * (place > 0)
        lines += Panel(model, spots, names).lines(left + 8, tall + 6)
    width = f'{len(models) * (wide + BETWEEN) - BETWEEN:.0f}'
    height = f'{tall + 16 * max(len(model.faces) for model in models):.0f}'
    head = f'<svg xmlns="http://www.w3.org/2000/svg" width="{width}" height="{height}" viewBox="0 0 {width} {height}">'
    return '\n'.join([head, STYLE, '<rect width="100%" height="100%" fill="#fff"/>', *lines, '</svg>', ''])
