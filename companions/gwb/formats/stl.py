"""STL: read as text in letters of either case, or binary; written as text."""

import struct
from fractions import Fraction
from math import sqrt
from typing import Dict, Iterator, List, Optional, Sequence, Tuple

from ..geometry.flat_face import ExactVector
from ..geometry.vectors import Vector, cross, subtract
from .appearance import Appearance
from .exact_numbers import InMillimetres, NotANumber, Numbers, of_float, shortened
from .mesh import Mesh
from .parts import Gathered, NotAMesh, Part, require_few
from .text_lines import numbered_words

_HEAD, _FACET = 84, 50
_LOOKED_AT = 1000


def fits_binary(data: bytes) -> bool:
    """Whether the bytes have the length that a binary file with their count of facets has."""
    return len(data) >= _HEAD and len(data) == _HEAD + _FACET * _said(data)


def is_binary(data: bytes) -> bool:
    """Whether the bytes are a binary file, of whatever length: they have zero bytes, which text has not."""
    return fits_binary(data) or b'\0' in data[:_LOOKED_AT]


def _said(data: bytes) -> int:
    """How many facets the head of a binary file says."""
    count: int = struct.unpack('<I', data[80:_HEAD])[0]
    return count


def stl_parts(data: bytes) -> Iterator[Part]:
    """The parts of a file: each `solid` block of a text, or all facets of a binary one. Raises NotAMesh where it can't be read."""
    if is_binary(data):
        yield _binary(data)
        return
    blocks: List[_Block] = []
    for number, words in numbered_words(data):
        if words[0].lower() == 'solid':
            blocks.append(_Block(' '.join(words[1:])))
        elif not blocks or not _takes(blocks[-1], number, words):
            raise NotAMesh(f'line {number} is none of an STL file: {shortened(" ".join(words))}')
    if not blocks or not blocks[-1].is_ended:
        raise NotAMesh('it does not begin with `solid` and end with `endsolid`')
    for block in blocks:
        gathered = block.gathered
        yield Part(gathered.points, gathered.polygons, parted=len(blocks) == 1, look=Appearance(block.name))


def _takes(block: '_Block', number: int, words: List[str]) -> bool:
    """Whether a line may stand in a block. Raises NotAMesh, with the line, where it can't be read."""
    try:
        return block.read(words)
    except NotANumber as error:
        raise NotAMesh(f'line {number}: {error}') from None


class _Places:
    """Points by their words, or their numbers: each is held once."""

    def __init__(self) -> None:
        self.points: List[ExactVector] = []
        self._places: Dict[Tuple[object, ...], int] = {}

    def known(self, key: Tuple[object, ...]) -> Optional[int]:
        """The place of a point that was put in before."""
        return self._places.get(key)

    def put(self, key: Tuple[object, ...], point: ExactVector) -> int:
        """The place of a new point."""
        self._places[key] = len(self.points)
        self.points.append(point)
        return self._places[key]


class _Block:
    """A `solid` block as it is read."""

    def __init__(self, name: str) -> None:
        self.name, self.is_ended = name, False
        self._places, self._numbers = _Places(), Numbers()
        self._corners: List[int] = []
        self.gathered = Gathered(self._places.points)

    def read(self, words: List[str]) -> bool:
        """One line of the block: whether it may stand there."""
        word = words[0].lower()
        if self.is_ended:
            return False
        if word == 'vertex':
            self._corners.append(self._corner(words[1:]))
        elif word == 'endloop':
            if len(self._corners) != 3:
                raise NotAMesh(f'facet {len(self.gathered.polygons) + 1} is no triangle: it has {len(self._corners)} corners')
            self.gathered.add(self._corners)
            self._corners = []
        elif word == 'endsolid':
            self.is_ended = not self._corners
            return self.is_ended
        return word in ('vertex', 'endloop', 'facet', 'outer', 'endfacet')

    def _corner(self, words: List[str]) -> int:
        key = tuple(words)
        place = self._places.known(key)
        return self._places.put(key, self._numbers.point(words)) if place is None else place


def _binary(data: bytes) -> Part:
    count, behind = _facets(data)
    require_few(count)
    places: Dict[Tuple[float, ...], int] = {}
    name = [places.setdefault(corner, len(places)) for corner in _corners(data[_HEAD:_HEAD + _FACET * count])]
    notes = (f'{behind} bytes behind the last facet were left out',) if behind else ()
    points = [(of_float(x), of_float(y), of_float(z)) for x, y, z in places]
    return Part(points, [[name[at:at + 3]] for at in range(0, len(name), 3)], parted=True, notes=notes)


def _corners(facets: bytes) -> Iterator[Tuple[float, ...]]:
    """The corners of facets, of which each has a normal, three corners and two bytes more."""
    for x, y, z, a, b, c, u, v, w in struct.iter_unpack('<12x9f2x', facets):
        yield x, y, z
        yield a, b, c
        yield u, v, w


def _facets(data: bytes) -> Tuple[int, int]:
    """How many facets a binary file has, and how many bytes stand behind them. Raises NotAMesh where its head says another number."""
    if len(data) < _HEAD:
        raise NotAMesh(f'it is binary STL of {len(data)} bytes: its head is cut short')
    said, room = _said(data), len(data) - _HEAD
    behind = room - _FACET * said
    if behind < 0 or behind and behind % _FACET == 0:
        raise NotAMesh(f'it is binary STL whose head says {said:,} facets, and there are {room // _FACET:,}')
    return said, behind


def stl_text(mesh: Mesh, unit: Fraction = Fraction(1)) -> str:
    """The mesh as STL in its text form: one block, named after its solid or, where there are several, `gwb`. It is in millimetres,
    of which a coordinate is so many."""
    return '\n'.join(_stl_lines(mesh, unit)) + '\n'


def _stl_lines(mesh: Mesh, unit: Fraction) -> Iterator[str]:
    solids, lengths = mesh.model.solids, InMillimetres(unit)
    name = f'solid_{solids[0]}' if len(solids) == 1 else 'gwb'
    yield f'solid {name}'
    for triangle in (triangle for solid in solids for triangle in mesh.triangles_of(solid)):
        yield from _stl_facet([mesh.model.vertices[vertex] for vertex in triangle], lengths)
    yield f'endsolid {name}'


def _stl_facet(points: Sequence[Vector], lengths: InMillimetres) -> Iterator[str]:
    across = cross(subtract(points[1], points[0]), subtract(points[2], points[0]))
    length = sqrt(sum(part * part for part in across))
    yield 'facet normal ' + ' '.join(f'{part / length:.9g}' for part in across)
    yield 'outer loop'
    for point in points:
        yield f'vertex {lengths.point(point)}'
    yield 'endloop'
    yield 'endfacet'
