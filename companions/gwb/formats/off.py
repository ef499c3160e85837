"""OFF, the Object File Format: read with its headers OFF, COFF, NOFF, STOFF and their mixtures, or with none; written as triangles."""

import re
from fractions import Fraction
from typing import Iterator, List, Optional, Tuple

from .appearance import Colour, colour_of_parts
from .exact_numbers import InMillimetres, Numbers
from .mesh import Mesh
from .parts import Gathered, NotAMesh, Part
from .text_lines import words_of_lines

HEADER = re.compile(r'(ST)?(C)?(N)?(4)?(n)?OFF')


def off_parts(data: bytes) -> Iterator[Part]:
    """The polygons of a file: one part. Raises NotAMesh where there are fewer than the file says, or they aren't in space."""
    rows = words_of_lines(data)
    vertices, faces = _counts(rows)
    numbers = Numbers()
    points = [numbers.point(words[:3]) for _, words in zip(range(vertices), rows)]
    gathered = Gathered(points)
    for _, words in zip(range(faces), rows):
        count = int(words[0])
        if count < 0 or len(words) <= count:
            raise NotAMesh(f'face {len(gathered.polygons) + 1} has fewer corners than it says')
        gathered.add([int(word) for word in words[1:count + 1]], _colour(words[count + 1:]))
    if len(points) != vertices or len(gathered.polygons) != faces:
        raise NotAMesh(f'{vertices} vertices and {faces} faces are said, and there are {len(points)} and {len(gathered.polygons)}')
    yield Part(points, gathered.polygons, parted=True, face_looks=gathered.looks)


def _counts(rows: Iterator[List[str]]) -> Tuple[int, int]:
    """How many vertices and faces the head says."""
    words = next(rows, [''])
    header = HEADER.fullmatch(words[0])
    if header:
        if header[4] or header[5]:
            raise NotAMesh(f'{words[0]} is not read: its points are not in three dimensions')
        words = words[1:]
        if words[:1] == ['BINARY']:
            raise NotAMesh('OFF BINARY is not read: write OFF as text there, or STL')
    words = words or next(rows, [''])
    if not header and not all(word.isdigit() for word in words):
        raise NotAMesh('it does not begin with OFF')
    vertices, faces = int(words[0]), int(words[1])
    if vertices < 0 or faces < 0:
        raise NotAMesh(f'{vertices} vertices and {faces} faces are said')
    return vertices, faces


def _colour(words: List[str]) -> Optional[Colour]:
    """The colour behind a face: three or four whole numbers up to 255, or as many parts of one; anything else is none."""
    if len(words) not in (3, 4):
        return None
    try:
        red, green, blue = map(float, words[:3])
    except ValueError:
        return None
    if all(word.isdigit() for word in words):
        red, green, blue = red / 255, green / 255, blue / 255
    return colour_of_parts(red, green, blue)


def off_text(mesh: Mesh, unit: Fraction = Fraction(1)) -> str:
    """The mesh in the Object File Format, in millimetres, of which a coordinate is so many."""
    return '\n'.join(_off_lines(mesh, unit)) + '\n'


def _off_lines(mesh: Mesh, unit: Fraction) -> Iterator[str]:
    places, lengths = {vertex: place for place, vertex in enumerate(mesh.vertices)}, InMillimetres(unit)
    yield 'OFF'
    yield f'{len(places)} {len(mesh.triangles)} 0'
    for vertex in mesh.vertices:
        yield lengths.point(mesh.model.vertices[vertex])
    for a, b, c in mesh.triangles:
        yield f'3 {places[a]} {places[b]} {places[c]}'
