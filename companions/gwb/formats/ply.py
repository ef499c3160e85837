"""Reads PLY, the polygon file format, as text or binary of either order."""

import io
import struct
from typing import Any, BinaryIO, Dict, Iterator, List, NamedTuple, Optional, Protocol, Sequence, Tuple

from ..geometry.flat_face import ExactVector
from .appearance import Colour
from .exact_numbers import Numbers, of_float, shortened
from .parts import Gathered, NotAMesh, Part

_TYPES = {'char': 'b', 'int8': 'b', 'uchar': 'B', 'uint8': 'B', 'short': 'h', 'int16': 'h', 'ushort': 'H', 'uint16': 'H', 'int': 'i',
          'int32': 'i', 'uint': 'I', 'uint32': 'I', 'float': 'f', 'float32': 'f', 'double': 'd', 'float64': 'd'}
_ORDERS = {'binary_little_endian': '<', 'binary_big_endian': '>', 'ascii': ''}
_CORNERS = ('vertex_indices', 'vertex_index')
_COLOURS = ('red', 'green', 'blue')
_LONGEST_LINE = 10_000


class _Property(NamedTuple):
    """A value of an element, or, where it has a type of counts, a list of values."""

    name: str
    kind: str
    counts: str


class _Element(NamedTuple):
    """How many things of one sort come, and what each says."""

    name: str
    times: int
    properties: List[_Property]


def ply_parts(data: bytes) -> Iterator[Part]:
    """The polygons of a file: one part. Raises NotAMesh where it can't be read."""
    file = io.BytesIO(data)
    order, elements = _head(file)
    rows = _rows(file, order)
    points: List[ExactVector] = []
    gathered = Gathered(points)
    for element, values in ((element, rows.row(element.properties)) for element in elements for _ in range(element.times)):
        if element.name == 'vertex':
            points.append((values['x'], values['y'], values['z']))
        elif element.name == 'face':
            corners: Sequence[float] = next((values[name] for name in _CORNERS if name in values), ())
            gathered.add([int(corner) for corner in corners], _colour(values))
        elif element.name == 'tristrips':
            raise NotAMesh('it has strips of triangles, which are not read')
    yield Part(points, gathered.polygons, parted=True, face_looks=gathered.looks)


def _rows(file: BinaryIO, order: str) -> '_Rows':
    if order:
        return _BinaryRows(file, order)
    return _TextRows(file)


def _colour(values: Dict[str, Any]) -> Optional[Colour]:
    if not all(name in values for name in _COLOURS):
        return None
    red, green, blue = (min(255, max(0, int(values[name]))) for name in _COLOURS)
    return (red, green, blue)


def _head(file: BinaryIO) -> Tuple[str, List[_Element]]:
    """The order of bytes, empty for text, and what the file holds."""
    order: Optional[str] = None
    elements: List[_Element] = []
    for words in iter(lambda: _line(file), ['end_header']):
        try:
            if words[:1] == ['format']:
                order = _ORDERS[words[1]]
            elif words[:1] == ['element']:
                elements.append(_Element(words[1], int(words[2]), []))
            elif words[:1] == ['property']:
                elements[-1].properties.append(_property(words))
        except (LookupError, ValueError):
            raise NotAMesh(f'a line of its head is not understood: {shortened(" ".join(words))}') from None
    if order is None or any(element.times < 0 or not element.properties for element in elements):
        raise NotAMesh('its head does not say what it holds')
    return order, elements


def _property(words: Sequence[str]) -> _Property:
    if words[1] == 'list':
        return _Property(words[4], _TYPES[words[3]], _TYPES[words[2]])
    return _Property(words[2], _TYPES[words[1]], '')


def _line(file: BinaryIO) -> List[str]:
    line = file.readline(_LONGEST_LINE)
    if not line:
        raise NotAMesh('its head has no end')
    return line.decode('ascii', 'replace').split()


class _Rows(Protocol):
    """Things of a file, one after the other."""

    def row(self, properties: Sequence[_Property]) -> Dict[str, Any]:
        """The values of the next thing, by name."""


class _TextRows:
    """Things that stand on lines of their own."""

    def __init__(self, file: BinaryIO) -> None:
        self._file, self._numbers = file, Numbers()

    def row(self, properties: Sequence[_Property]) -> Dict[str, Any]:
        """The values of the next thing, by name."""
        line = self._file.readline()
        if not line:
            raise NotAMesh('it has fewer lines than its head says')
        words = iter(line.decode('ascii', 'replace').split())
        return {held.name: self._value(held, words) for held in properties}

    def _value(self, held: _Property, words: Iterator[str]) -> Any:
        try:
            if not held.counts:
                return self._numbers.number(next(words))
            return [self._numbers.number(next(words)) for _ in range(int(next(words)))]
        except (StopIteration, RuntimeError):
            raise NotAMesh(f'a line has no {held.name}') from None


class _BinaryRows:
    """Things that stand one behind the other as bytes."""

    def __init__(self, file: BinaryIO, order: str) -> None:
        self._file, self._order = file, order

    def row(self, properties: Sequence[_Property]) -> Dict[str, Any]:
        """The values of the next thing, by name."""
        return {held.name: self._value(held) for held in properties}

    def _value(self, held: _Property) -> Any:
        if not held.counts:
            return of_float(self._numbers(held.kind, 1)[0])
        count, = self._numbers(held.counts, 1)
        return self._numbers(held.kind, int(count))

    def _numbers(self, kind: str, count: int) -> Sequence[float]:
        size = struct.calcsize(self._order + kind) * count
        data = self._file.read(max(size, 0))
        if len(data) != size:
            raise NotAMesh('it is shorter than its head says')
        return struct.unpack(f'{self._order}{count}{kind}', data)
