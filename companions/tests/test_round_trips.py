"""Random solids through gwb-step and gwb-mesh, and back through gwb-import: the same solids up to numbers.

RANDOM_SOLIDS of the environment may name how many models are tried.
"""

import os
import unittest
from collections import Counter
from fractions import Fraction
from random import Random

from support import STEP, library

from gwb import Refused, Workbench
from gwb.formats.forms import FORMS, MESHES
from gwb.formats.models_of_parts import model_of_parts
from gwb.formats.polygon_files import read_parts
from gwb.formats.step.write import step_text
from gwb.geometry.nesting import nests
from gwb.joining.soup import soup_of
from gwb.joining.surfaces import surface_of, with_joined_faces
from gwb.programs.names_of_script import Said

OUTLINES = (((0, 0), (2, 0), (2, 2), (0, 2)), ((0, 0), (4, 1), (1, 3)), ((0, 0), (5, 0), (5, 1), (1, 1), (1, 5), (0, 5)),
            ((1, 0), (3, 0), (4, 2), (3, 4), (1, 4), (0, 2)))

BAR = 3


def cyclic(points):
    """The cycle of points from its least one on."""
    turns = [tuple(points[place:] + points[:place]) for place, point in enumerate(points) if point == min(points)]
    return min(turns)


def faces_of(model, faces, joined):
    """The faces as outlines and rings of points; in one plane beside each other as one where they are to be joined."""
    places = {vertex: place for place, vertex in enumerate(model.vertices)}
    polygons = [[[places[vertex] for vertex in model.loop_vertices(loop)] for loop in model.faces[face].loops] for face in faces]
    surface = surface_of(soup_of(list(model.vertices.values()), polygons))
    held = with_joined_faces(surface, [None] * len(polygons)) if joined else surface
    cycles = [[cyclic(held.cycle_points(cycle)) for cycle in face] for face in held.faces]
    return frozenset(Counter((outer, tuple(sorted(rings))) for outer, *rings in cycles).items())


def solids_of(model, joined, by_shells):
    """The solids without their numbers; of a form that doesn't say what is a solid, each shell that holds material with its hollows."""
    for solid in model.solids:
        groups = [model.faces_of(solid)]
        if by_shells:
            groups = [[face for shell in (nest.outer, *nest.voids) for face in shell] for nest in nests(model, solid)]
        yield from (faces_of(model, group, joined) for group in groups)


def is_back(model, form, text):
    """Whether the model is read back from its file as the same solids."""
    back = model_of_parts(read_parts(text.encode() if isinstance(text, str) else text, form), Fraction(1), False, False).model
    by_shells, joined = form in ('off', 'stl'), form != 'step'
    return Counter(solids_of(model, joined, by_shells)) == Counter(solids_of(back, joined, False))


def files(model):
    """The files of a model, each with what it holds: form, model and text. A form that doesn't say what is a solid holds one alone."""
    yield 'step', model, step_text(model)
    for form in MESHES:
        for part in [model.only(solid) for solid in model.solids] if form in ('off', 'stl') else [model]:
            yield form, part, FORMS[form].write(part, Said())


def comb(teeth, width, height):
    """The outline of a bar with teeth so wide, as far from each other, so high with the bar."""
    tips = [(2 * width * tooth + across, height if up else BAR, 0) for tooth in range(teeth) for across, up in
            ((0, False), (0, True), (width, True), (width, False))]
    return [(0, 0, 0), *tips[1:-1], (tips[-1][0], 0, 0)]


class Workshop:
    """Makes random solids: blocks and combs with holes, pockets and bosses, some of them cut. A cut comb is one solid, whose shells are
    its teeth."""

    def __init__(self, bench, random):
        self._bench, self._random = bench, random

    def work(self):
        """A block or a comb, and some tries to change the solids; those that are refused change nothing."""
        width, height, depth = (self._random.randint(6, 16) for _ in range(3))
        if self._random.random() < .7:
            self._bench.block((0, 0, 0), (width, height, depth))
        else:
            made = self._bench.profile(comb(self._random.randint(2, 4), width, height), along=(0, 0, depth))
            self._bench.split(made.solid, (0, 1, 0, -self._random.randint(BAR + 1, height - 1)))
        for _ in range(self._random.randint(1, 7)):
            try:
                self._random.choice((self._feature, self._feature, self._feature, self._cut))()
            except Refused:
                continue

    def _feature(self):
        face = self._random.choice(list(self._bench.faces()))
        across = [axis for axis in range(3) if face.normal[axis]]
        if len(across) > 1:
            return
        corners = list(zip(*face.points))
        start = [self._random.randint(min(along), max(along)) for along in corners]
        first, second = (axis for axis in range(3) if axis != across[0])
        points = []
        for u, v in self._random.choice(OUTLINES):
            point = list(start)
            point[first], point[second] = point[first] + u, point[second] + v
            points.append(tuple(point))
        kind = self._random.choice(('pocket', 'boss', 'hole'))
        words = () if kind == 'hole' else (self._random.randint(1, 6),)
        getattr(self._bench, kind)(face, points, *words)

    def _cut(self):
        solid = self._random.choice([solid.number for solid in self._bench.solids()])
        plane = [self._random.choice((0, 0, 1, -1)) for _ in range(3)]
        self._bench.split(solid, (*plane, -self._random.randint(-4, 16)))


class RandomSolids(unittest.TestCase):
    """Each form that can hold the model."""

    def test_they_come_back(self):
        random, apart = Random(33), 0
        for number in range(int(os.environ.get('RANDOM_SOLIDS', 25))):
            with Workbench(library(), step=STEP) as bench:
                Workshop(bench, random).work()
                model, script = bench.listing(), bench.script()
            for form, part, text in files(model):
                self.assertTrue(is_back(part, form, text), f'model {number} as {form}:\n{script}')
            apart += any(len(nests(model, solid)) > 1 for solid in model.solids)
        self.assertGreater(apart, 0)
