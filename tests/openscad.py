#!/usr/bin/env python3
"""Makes the examples of OpenSCAD's package by the session in Python, and compares what comes of each, made or why not, with openscad.table.

    tests/openscad.py [--all] [--write] [LIBRARY [NEF]]

OpenSCAD writes an example as a tree of primitives. Cubes, cylinders and spheres have the points that it draws; of other primitives (extruded outlines, text,
files) it makes a mesh. All points are rounded to 1/1000 mm, and a face that isn't flat then becomes triangles; Booleans make the step finer where they need it.
Tried are those that are made; --all tries all 48, and --write writes the table anew. NEF, the program library_booleans_nef, is given the same, and has to find
the same volume. The last line counts.
"""
import math
import os
import re
import subprocess
import sys
import tempfile
from fractions import Fraction
from pathlib import Path
from typing import Any, Dict, Iterable, Iterator, List, NamedTuple, Optional, Sequence, Tuple

from counts import TOP, command_line, needs, there, told

sys.path.insert(0, str(TOP / 'companions'))
from gwb import Impossible, Refused, Workbench
from gwb.geometry.vectors import cross, dot, subtract

EXAMPLES = Path('/usr/share/openscad/examples')
TABLE = TOP / 'tests' / 'openscad.table'
UNITS = 1000    # in a millimetre
FLAT = {'square', 'circle', 'polygon', 'text', 'offset', 'projection'}
MESHES = {'linear_extrude', 'rotate_extrude', 'polyhedron', 'import', 'surface', 'hull', 'minkowski'}
OPERATIONS = ('difference', 'intersection')
REASONS = {'OffLattice': 'off the lattice', 'PointRange': 'off the lattice, or in a finer step out of range', 'Meets': 'would touch itself'}

Matrix = Sequence[Sequence[float]]
Point = Tuple[int, int, int]
Corner = Tuple[float, ...]
IDENTITY: Matrix = [[float(row == column) for column in range(4)] for row in range(4)]


class Unmade(Exception):
    """Why an example isn't made."""


class Mesh(NamedTuple):
    """Points, and faces by the places of their corners."""

    points: List[Corner]
    faces: List[List[int]]


# ---- the tree


class Node(NamedTuple):
    """A word of the tree with what stands in its brackets, what lies below it, and its text."""

    word: str
    given: Dict[str, Any]
    children: List['Node']
    text: str


class Reader:
    """Reads the tree that OpenSCAD writes."""

    TOKEN = re.compile(r'\s*("(?:[^"\\]|\\.)*"|[-+]?[0-9.][-+0-9.eE]*|[$\w]+|.)', re.S)

    def __init__(self, text: str) -> None:
        self._text, self._at = text.strip(), 0

    def _next(self) -> str:
        found = self.TOKEN.match(self._text, self._at)
        return found.group(1) if found else ''

    def _take(self) -> str:
        found = self.TOKEN.match(self._text, self._at)
        if found is None:
            raise ValueError('the tree ends early')
        self._at = found.end()
        return found.group(1)

    def nodes(self) -> List[Node]:
        """All up to a closing bracket or the end; those that are only shown are left out."""
        found = []
        while self._next() not in ('', '}'):
            is_shown_alone = False
            while self._next() in ('%', '#', '*', '!'):
                is_shown_alone = self._take() in ('%', '*') or is_shown_alone
            node = self._node()
            if not is_shown_alone:
                found.append(node)
        return found

    def _node(self) -> Node:
        begun = self._at
        word, children = self._take(), []
        given = self._brackets()
        if self._take() == '{':
            children = self.nodes()
            self._take()
        return Node(word, given, children, self._text[begun:self._at].strip())

    def _brackets(self) -> Dict[str, Any]:
        given: Dict[str, Any] = {}
        self._take()
        while self._next() != ')':
            if self._next() == ',':
                self._take()
                continue
            before = self._at
            name = self._take()
            if self._next() == '=':
                self._take()
            else:
                name, self._at = '', before
            given[name] = self._value()
        self._take()
        return given

    def _value(self) -> Any:
        token = self._take()
        if token != '[':
            return {'true': True, 'false': False, 'undef': None}.get(token, token) if token[0].isalpha() or token[0] == '"' else float(token)
        values = []
        while self._next() != ']':
            if self._next() == ',':
                self._take()
            else:
                values.append(self._value())
        self._take()
        return values


# ---- primitives


def openscad(form: str, text: str) -> str:
    """What OpenSCAD writes of a text in this form."""
    with tempfile.TemporaryDirectory() as folder:
        source, made = Path(folder) / 'part.scad', Path(folder) / f'part.{form}'
        source.write_text(text)
        ran = subprocess.run(['openscad', '-o', str(made), str(source)], stdout=subprocess.PIPE, stderr=subprocess.STDOUT, text=True, check=False, timeout=600)
        if not made.is_file():
            raise Unmade('OpenSCAD makes nothing' if 'empty' in ran.stdout else 'OpenSCAD fails')
        return made.read_text()


def circle(radius: float, given: Dict[str, Any], largest: float) -> List[Tuple[float, float]]:
    """The corners that OpenSCAD draws of a circle, as many as of the largest one."""
    of_angle, of_length = 360 / given['$fa'], largest * 2 * math.pi / given['$fs']
    sides = int(max(given['$fn'], 3)) if given['$fn'] > 0 else math.ceil(max(min(of_angle, of_length), 5))
    return [(radius * math.cos(turn), radius * math.sin(turn)) for turn in (2 * math.pi * side / sides for side in range(sides))]


def stacked(rings: Sequence[Sequence[Corner]]) -> Mesh:
    """What is closed by the first ring and the last, of which one may be a point many times."""
    count = len(rings[0])
    faces = [list(range(count))[::-1], [(len(rings) - 1) * count + at for at in range(count)]]
    for ring in range(len(rings) - 1):
        low = ring * count
        faces += [[low + at, low + (at + 1) % count, low + count + (at + 1) % count, low + count + at] for at in range(count)]
    return Mesh([point for ring in rings for point in ring], faces)


def cube(given: Dict[str, Any]) -> Mesh:
    """A block."""
    x, y, z = given['size'] if isinstance(given['size'], list) else [given['size']] * 3
    dx, dy, dz = (-x / 2, -y / 2, -z / 2) if given['center'] else (0.0, 0.0, 0.0)
    return stacked([[(dx, dy, height), (dx + x, dy, height), (dx + x, dy + y, height), (dx, dy + y, height)] for height in (dz, dz + z)])


def cylinder(given: Dict[str, Any]) -> Mesh:
    """A cylinder or a cone."""
    low = -given['h'] / 2 if given['center'] else 0.0
    largest = max(given['r1'], given['r2'])
    return stacked([[(x, y, height) for x, y in circle(radius, given, largest)] for radius, height in ((given['r1'], low), (given['r2'], low + given['h']))])


def sphere(given: Dict[str, Any]) -> Mesh:
    """Rings from pole to pole, half a step from both."""
    radius = given['r']
    count = (len(circle(radius, given, radius)) + 1) // 2
    turns = [math.pi * (count - ring - 0.5) / count for ring in range(count)]
    return stacked([[(x, y, radius * math.cos(turn)) for x, y in circle(radius * math.sin(turn), given, radius)] for turn in turns])


def off(text: str) -> Mesh:
    """The mesh of an OFF file."""
    words = iter(re.sub(r'#.*', '', text).replace('OFF', '', 1).split())
    points, faces, _ = (int(next(words)) for _ in range(3))
    corners = [tuple(float(next(words)) for _ in range(3)) for _ in range(points)]
    return Mesh(corners, [[int(next(words)) for _ in range(int(next(words)))] for _ in range(faces)])


# ---- solids


def product(one: Matrix, other: Matrix) -> Matrix:
    """One motion after the other."""
    return [[sum(one[row][at] * other[at][column] for at in range(4)) for column in range(4)] for row in range(4)]


def across(a: Point, b: Point, c: Point) -> Point:
    """Across a triangle."""
    return cross(subtract(b, a), subtract(c, a))


def rounded(mesh: Mesh, matrix: Matrix) -> Tuple[List[Point], List[List[int]]]:
    """The points in whole units, each once, and faces that are flat."""
    places: Dict[Point, int] = {}
    numbers = []
    for point in mesh.points:
        moved = [sum(row[at] * part for at, part in enumerate((*point, 1))) for row in matrix[:3]]
        x, y, z = (math.floor(UNITS * part + 0.5) for part in moved)
        numbers.append(places.setdefault((x, y, z), len(places)))
    points, faces = list(places), []
    for face in mesh.faces:
        corners = [numbers[at] for at in face]
        corners = [corner for at, corner in enumerate(corners) if corner != corners[at - 1]]
        fan = [[corners[0], corners[at], corners[at + 1]] for at in range(1, len(corners) - 1)]
        normals = [across(*(points[corner] for corner in three)) for three in fan]
        normal = max(normals, key=lambda way: dot(way, way), default=(0, 0, 0))
        is_flat = all(dot(normal, points[corner]) == dot(normal, points[corners[0]]) for corner in corners)
        faces += [corners] if is_flat and any(normal) else [three for three in fan if len(set(three)) == 3]
    used = sorted({corner for face in faces for corner in face})
    new = {corner: at for at, corner in enumerate(used)}
    volume = sum(dot(points[face[0]], across(points[face[0]], points[face[at]], points[face[at + 1]])) for face in faces for at in range(1, len(face) - 1))
    return [points[corner] for corner in used], [[new[corner] for corner in (face if volume > 0 else face[::-1])] for face in faces]


class Maker:
    """Makes a tree by the session, and tells the same to a program that has Nef polyhedra."""

    PRIMITIVES = {'cube': cube, 'cylinder': cylinder, 'sphere': sphere}

    def __init__(self, bench: Workbench, folder: Path) -> None:
        self._bench, self._folder = bench, folder
        self.told: List[str] = []

    def _mesh(self, node: Node) -> Mesh:
        if node.word in self.PRIMITIVES:
            return self.PRIMITIVES[node.word](node.given)
        return off(openscad('off', re.sub(r'file = "', f'file = "{self._folder}/', node.text)))

    def _primitive(self, node: Node, matrix: Matrix) -> Optional[int]:
        points, faces = rounded(self._mesh(node), matrix)
        if not faces:
            return None
        self.told.append(f'solid {len(points)} {len(faces)}')
        self.told += [' '.join(map(str, point)) for point in points] + [' '.join(map(str, (len(face), *face))) for face in faces]
        try:
            return int(self._bench.join_faces(self._bench.polyhedron(points, faces)))
        except (ValueError, Impossible) as error:
            raise Unmade(f'{node.word}: what it is, rounded, touches itself') from error

    def _all(self, nodes: Iterable[Node], matrix: Matrix) -> List[Optional[int]]:
        return [self.made(node, matrix) for node in nodes]

    def made(self, node: Node, matrix: Matrix = IDENTITY) -> Optional[int]:
        """The solid of a node, where there is any."""
        if node.word in self.PRIMITIVES or node.word in MESHES:
            return self._primitive(node, matrix)
        if node.word in FLAT:
            raise Unmade(f'{node.word}: an outline is no solid')
        if node.word == 'multmatrix':
            matrix = product(matrix, node.given[''])
        solids = self._all(node.children, matrix)
        if node.word in OPERATIONS and None in solids[:None if node.word == 'intersection' else 1]:
            raise Unmade(f'{node.word}: of nothing')
        return self._combined(node.word if node.word in OPERATIONS else 'union', [solid for solid in solids if solid is not None])

    def _combined(self, word: str, solids: List[int]) -> Optional[int]:
        if len(solids) < 2:
            return solids[0] if solids else None
        self.told.append(f'{word} {len(solids)}')
        try:
            if word == 'difference':
                return int(self._bench.subtract(solids[0], solids[1:], refine=True))
            return int(self._bench.intersect(solids, refine=True) if word == 'intersection' else self._bench.union(solids, refine=True))
        except (Impossible, Refused) as error:
            raise Unmade(f'{word}: {REASONS.get(error.name, error.name)}') from error


class Outcome(NamedTuple):
    """What came of an example, as the table says it; its volume; and what a program of Nef polyhedra is to do."""

    told: str
    volume: Optional[Fraction] = None
    steps: Sequence[str] = ()


def outcome(path: Path) -> Outcome:
    """Makes an example. The table has no volume of letters, since fonts differ."""
    with tempfile.TemporaryDirectory() as folder, Workbench(step=1) as bench:
        file = Path(folder) / 'tree.csg'
        subprocess.run(['openscad', '-o', str(file), str(path)], stdout=subprocess.DEVNULL, stderr=subprocess.DEVNULL, check=False, timeout=600)
        tree, maker = file.read_text(), Maker(bench, path.parent)
        try:
            solid = maker.made(Node('group', {}, Reader(tree).nodes(), tree))
        except Unmade as why:
            return Outcome(str(why))
        if solid is None:
            return Outcome('nothing is drawn')
        volume = Fraction(bench.volume(solid)) / UNITS ** 3
        return Outcome('made' if 'text(' in tree else f'made {float(volume):.3f}', volume, maker.told)


def volume_by_nef(program: str, steps: Sequence[str]) -> Fraction:
    """The volume that Nef polyhedra have."""
    ran = subprocess.run([program, '--volume'], input='\n'.join(steps) + '\n', stdout=subprocess.PIPE, text=True, check=True)
    return Fraction(ran.stdout.split()[-1]) / 6 / UNITS ** 3


def differences(path: Path, wanted: str, nef: str) -> Iterator[str]:
    """What is wrong with what comes of an example, or nothing."""
    found = outcome(path)
    yield '' if found.told == wanted else f'{path.stem}: {found.told}, in place of {wanted}'
    if nef and found.volume is not None:
        by_nef = volume_by_nef(nef, found.steps)
        yield '' if found.volume == by_nef else f'{path.stem}: the volume {found.volume}, by Nef polyhedra {by_nef}'


def main() -> int:
    """Tries them."""
    given = command_line(__doc__, '--all', '--write', library=TOP / 'bindings' / 'out' / 'libgwb.so', nef='')
    needs('openscad')
    os.environ['GWB'] = str(there(given.library, 'library'))
    paths = sorted(EXAMPLES.glob('*/*.scad'))
    if given.write:
        TABLE.write_text(''.join(f'{path.parent.name}/{path.stem}: {outcome(path).told}\n' for path in paths))
    rows = dict(line.split(': ', 1) for line in TABLE.read_text().splitlines())
    found = ['' if list(rows) == [f'{path.parent.name}/{path.stem}' for path in paths] else 'the table has other examples']
    for path, wanted in zip(paths, rows.values()):
        if given.all or wanted.startswith('made'):
            found += differences(path, wanted, given.nef)
    return told(found)


if __name__ == '__main__':
    sys.exit(main())
