"""Reads AMF (ISO/ASTM 52915), plain or zipped: objects with their volumes, units, names and colours, and constellations."""

import io
import zipfile
from typing import IO, Dict, Iterator, List, Optional

from ..geometry.flat_face import ExactVector
from ..geometry.plane_figures import Exact
from .appearance import Appearance, Colour, colour_of_parts
from .exact_numbers import Numbers
from .packages import MOST_BYTES, opened
from .parts import Gathered, NotAMesh, Part
from .units import millimetres_of, told_scaled
from .xml_parts import Attributes, XmlReader

# What changes the shape, and isn't read.
_CURVED = ('edge', 'normal', 'nx', 'ny', 'nz')
_ANGLES = ('rx', 'ry', 'rz')


class _Volume:
    """A volume of an object as it is read."""

    def __init__(self, points: List[ExactVector]) -> None:
        self.mesh = Gathered(points)
        self.colour: Optional[Colour] = None


class _Object:
    """An object as it is read: points that its volumes have in common."""

    def __init__(self) -> None:
        self.name = ''
        self.colour: Optional[Colour] = None
        self.points: List[ExactVector] = []
        self.volumes: List[_Volume] = []


class _Reader:
    """Takes the elements of a file."""

    def __init__(self) -> None:
        self.unit = 'millimeter'
        self.objects: Dict[str, _Object] = {}
        self.moves: Dict[str, List[ExactVector]] = {}
        self._numbers = Numbers()
        self._open: List[str] = []
        self._held: Dict[str, str] = {}
        self._metadata, self._instance = '', ''
        self._paint_parts: Dict[str, str] = {}
        self._face_colour: Optional[Colour] = None
        self._object = _Object()

    def begin(self, name: str, words: Attributes) -> None:
        """An element begins."""
        self._open.append(name)
        if name == 'amf':
            self.unit = words.get('unit', 'millimeter')
        elif name == 'object':
            self._object = self.objects[words['id']] = _Object()
        elif name == 'volume':
            self._object.volumes.append(_Volume(self._object.points))
        elif name == 'metadata':
            self._metadata = words.get('type', '')
        elif name == 'instance':
            self._instance = words['objectid']
        elif name in _CURVED:
            raise NotAMesh('it has curved triangles, which are not read')
        if name in ('instance', 'vertex', 'triangle'):
            self._held, self._face_colour = {}, None
        elif name == 'color':
            self._paint_parts = {}

    def end(self, name: str, text: str) -> None:
        """An element ends: values are gathered by their names, and used where the element around them ends."""
        self._open.pop()
        around = self._open[-1] if self._open else ''
        if name == 'vertex':
            self._object.points.append(self._numbers.point([self._held.get(axis, '') for axis in 'xyz']))
        elif name == 'triangle':
            corners = [int(self._held[corner]) for corner in ('v1', 'v2', 'v3')]
            self._object.volumes[-1].mesh.add(corners, self._face_colour)
        elif name == 'instance':
            self._place()
        elif name == 'color':
            self._paint(around)
        elif name == 'metadata' and self._metadata == 'name' and around == 'object':
            self._object.name = text.strip()
        elif around == 'color':
            self._paint_parts[name] = text.strip()
        else:
            self._held[name] = text.strip()

    def _place(self) -> None:
        if any(self._numbers.number(self._held.get(angle, '0')) for angle in _ANGLES):
            raise NotAMesh(f'an instance of object {self._instance[:20]} is turned, which is not read')
        move = self._numbers.point([self._held.get(f'delta{axis}', '0') for axis in 'xyz'])
        self.moves.setdefault(self._instance, []).append(move)

    def _paint(self, around: str) -> None:
        parts = [self._paint_parts.get(part, '') for part in 'rgb']
        try:
            colour = colour_of_parts(*map(float, parts))
        except ValueError:
            return
        if around == 'object':
            self._object.colour = colour
        elif around == 'volume':
            self._object.volumes[-1].colour = colour
        elif around == 'triangle':
            self._face_colour = colour


def amf_parts(data: bytes) -> Iterator[Part]:
    """The volumes of a file's objects, each a part, where constellations put them. Raises NotAMesh where it can't be read."""
    reader = _Reader()
    with _unzipped(data) as file:
        XmlReader(reader.begin, reader.end, MOST_BYTES).read(file)
    factor = millimetres_of(reader.unit)
    whole: List[ExactVector] = [] if reader.moves else [(0, 0, 0)]
    for held, move in ((held, move) for number, held in reader.objects.items() for move in reader.moves.get(number, whole)):
        points = _placed(held.points, move, factor)
        yield from (Part(points, volume.mesh.polygons, look=Appearance(held.name, volume.colour or held.colour),
                         face_looks=volume.mesh.looks, scaled=told_scaled(reader.unit, factor)) for volume in held.volumes)


def _placed(points: List[ExactVector], move: ExactVector, factor: Exact) -> List[ExactVector]:
    x, y, z = move
    return [((a + x) * factor, (b + y) * factor, (c + z) * factor) for a, b, c in points]


def _unzipped(data: bytes) -> IO[bytes]:
    if not data.startswith(b'PK'):
        return io.BytesIO(data)
    package = zipfile.ZipFile(io.BytesIO(data))
    return opened(package, package.namelist()[0])
