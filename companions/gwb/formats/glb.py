"""GLB, the binary form of glTF 2.0: one file of JSON and a buffer. Its lengths are metres, and its y axis points upwards."""

import json
import math
import struct
from fractions import Fraction
from itertools import chain
from typing import Any, Dict, Iterator, List, NamedTuple, Optional, Sequence, Tuple

from ..errors import Unfit
from ..geometry.flat_face import ExactVector
from ..geometry.plane_figures import Exact
from .appearance import NO_APPEARANCES, Appearance, Appearances, Colour, look_of, unique_names
from .exact_numbers import exact, of_float
from .mesh import Mesh
from .parts import MOST_POLYGONS, Gathered, NotAMesh, Part, require_few
from .placement import IN_PLACE, Placement
from .units import told_scaled

MAGIC = b'glTF'
_VERSION, _JSON, _BINARY = 2, 0x4E4F534A, 0x004E4942
_FLOAT, _UNSIGNED_INT = 5126, 5125
_TYPES = {5120: 'b', 5121: 'B', 5122: 'h', 5123: 'H', _UNSIGNED_INT: 'I', _FLOAT: 'f'}
_TRIANGLES = 4
_VERTICES, _INDICES = 34962, 34963
# The whole numbers up to this one are numbers of single precision.
_LARGEST = 2 ** 24
_MOST_JSON, _MOST_NODES = 50_000_000, 200_000
# A place in the file's metres, with y upwards, in millimetres with z upwards.
_UPRIGHT = Placement((1000, 0, 0), (0, 0, 1000), (0, -1000, 0), (0, 0, 0))
# A number of single precision lies beside the one that was meant by this part of it at most, with what adding up several of them brings.
_PRECISION = Fraction(1, 2 ** 22)


def glb_bytes(mesh: Mesh, looks: Appearances = NO_APPEARANCES, unit: Fraction = Fraction(1)) -> bytes:
    """The mesh as GLB: a node for each solid, with its name, and a primitive for each colour of its faces. A coordinate has so many millimetres.

    Single precision doesn't hold what is past 16,777,216 exactly: then an axis begins between its least and its greatest coordinate, and is divided by what all
    have in common. Raises Unfit where one is past that still.
    """
    writer = _Writer(mesh, looks)
    nodes = [writer.node(solid, name) for solid, name in unique_names(mesh.model.solids, looks, 'solid ').items()]
    (x, width), (y, depth), (z, height) = ((start and float(unit * start / 1000), float(unit * grain / 1000)) for start, grain in writer.axes)
    whole = {'name': 'gwb', 'matrix': [width, 0, 0, 0, 0, 0, -depth, 0, 0, height, 0, 0, x, z, -y, 1],
             'children': list(range(1, len(nodes) + 1))}
    return _file({'asset': {'version': '2.0', 'generator': 'gwb-mesh'}, 'scene': 0, 'scenes': [{'nodes': [0]}], 'nodes': [whole, *nodes],
                  **writer.lists(), 'buffers': [{'byteLength': len(writer.buffer)}]}, bytes(writer.buffer))


def _file(described: Dict[str, Any], buffer: bytes) -> bytes:
    """A file of two chunks, each filled up to four bytes."""
    text = json.dumps({name: held for name, held in described.items() if held}, separators=(',', ':')).encode()
    chunks = b''.join(struct.pack('<II', len(data) + -len(data) % 4, kind) + data + filling * (-len(data) % 4)
                      for kind, data, filling in ((_JSON, text, b' '), (_BINARY, buffer, b'\0')))
    return MAGIC + struct.pack('<II', _VERSION, 12 + len(chunks)) + chunks


class _Writer:
    """The buffer and the lists of a file as they grow."""

    def __init__(self, mesh: Mesh, looks: Appearances) -> None:
        self.buffer = bytearray()
        self._mesh, self._looks = mesh, looks
        # Where each axis begins, and what its coordinates are divided by from there on.
        self.axes = [_axis(parts) for parts in zip(*mesh.model.vertices.values())] or [(0, 1)] * 3
        self._meshes: List[Any] = []
        self._accessors: List[Any] = []
        self._views: List[Any] = []
        self._materials: Dict[Colour, int] = {}

    def lists(self) -> Dict[str, Any]:
        """The lists, by their names."""
        return {'meshes': self._meshes, 'accessors': self._accessors, 'bufferViews': self._views,
                'materials': [_material(colour) for colour in self._materials]}

    def node(self, solid: int, name: str) -> Dict[str, Any]:
        """The node of a solid, whose mesh is written."""
        coloured: Dict[Optional[Colour], List[Tuple[int, ...]]] = {}
        own = look_of(self._looks, 'solid', solid).colour
        for face in self._mesh.faces_of(solid):
            coloured.setdefault(look_of(self._looks, 'face', face).colour or own, []).extend(self._mesh.faces[face])
        used = sorted(set(chain.from_iterable(chain.from_iterable(coloured.values()))))
        if not used:
            return {'name': name}
        places = {vertex: place for place, vertex in enumerate(used)}
        points = self._points(used)
        self._meshes.append({'name': name, 'primitives': [
            {'attributes': {'POSITION': points}, 'indices': self._corners([places[vertex] for triangle in triangles for vertex in triangle]),
             **self._painted(colour)} for colour, triangles in coloured.items()]})
        return {'name': name, 'mesh': len(self._meshes) - 1}

    def _painted(self, colour: Optional[Colour]) -> Dict[str, int]:
        return {} if colour is None else {'material': self._materials.setdefault(colour, len(self._materials))}

    def _points(self, vertices: Sequence[int]) -> int:
        """The accessor of points."""
        given = [self._mesh.model.vertices[vertex] for vertex in vertices]
        points = [[(part - start) // grain for part, (start, grain) in zip(point, self.axes)] for point in given]
        far = next((there for there, point in zip(given, points) if any(abs(part) > _LARGEST for part in point)), None)
        if far is not None:
            raise Unfit('the point {} {} {} lies past {:,} from the middle, and GLB holds no more exactly'.format(*far, _LARGEST))
        low, high = ([end(parts) for parts in zip(*points)] for end in (min, max))
        return self._accessor('f', list(chain.from_iterable(points)), _VERTICES, {
            'componentType': _FLOAT, 'count': len(points), 'type': 'VEC3', 'min': low, 'max': high})

    def _corners(self, corners: Sequence[int]) -> int:
        """The accessor of the corners of triangles."""
        return self._accessor('I', corners, _INDICES, {'componentType': _UNSIGNED_INT, 'count': len(corners), 'type': 'SCALAR'})

    def _accessor(self, letter: str, numbers: Sequence[int], target: int, described: Dict[str, Any]) -> int:
        data = struct.pack(f'<{len(numbers)}{letter}', *numbers)
        self._views.append({'buffer': 0, 'byteOffset': len(self.buffer), 'byteLength': len(data), 'target': target})
        self._accessors.append({'bufferView': len(self._views) - 1, **described})
        self.buffer += data
        return len(self._accessors) - 1


def _axis(parts: Sequence[int]) -> Tuple[int, int]:
    """Where an axis begins, and what its coordinates are divided by from there on: 0 and 1 where single precision holds them."""
    low, high = min(parts), max(parts)
    if max(-low, high) <= _LARGEST:
        return 0, 1
    grain = math.gcd(*(part - low for part in parts)) or 1
    return low + (high - low) // grain // 2 * grain, grain


def _material(colour: Colour) -> Dict[str, Any]:
    return {'name': '#{:02X}{:02X}{:02X}'.format(*colour),
            'pbrMetallicRoughness': {'baseColorFactor': [*map(_linear, colour), 1], 'metallicFactor': 0, 'roughnessFactor': 0.7}}


def _linear(part: int) -> float:
    """A part of a colour, from 0 to 255 as screens show it, as light from 0 to 1 (IEC 61966-2-1)."""
    shown = part / 255
    return float(shown / 12.92 if shown <= 0.04045 else ((shown + 0.055) / 1.055) ** 2.4)


def _shown(light: float) -> int:
    """A part of a colour, of light from 0 to 1, from 0 to 255 as screens show it."""
    shown = 12.92 * light if light <= 0.0031308 else 1.055 * math.pow(light, 1 / 2.4) - 0.055
    return min(255, max(0, round(255 * shown)))


def glb_parts(data: bytes) -> Iterator[Part]:
    """The meshes of a file's scene, where its nodes put them, in millimetres. Raises NotAMesh where it can't be read."""
    reader, polygons = _Reader(*_chunks(data)), 0
    for use in reader.uses():
        part = reader.part(use)
        polygons += len(part.polygons)
        require_few(polygons)
        yield part


def _chunks(data: bytes) -> Tuple[Dict[str, Any], bytes]:
    """What the JSON of a file says, and its buffer."""
    if not data.startswith(MAGIC) or len(data) < 20:
        raise NotAMesh('it is no GLB, or it is cut short')
    version = struct.unpack('<I', data[4:8])[0]
    if version != _VERSION:
        raise NotAMesh(f'it is GLB of version {version}, which is not read: write version {_VERSION}, as glTF 2.0 has it, or STL')
    length, kind = struct.unpack('<II', data[12:20])
    if kind != _JSON or length > min(len(data) - 20, _MOST_JSON):
        raise NotAMesh(f'its JSON is cut short, or has more than {_MOST_JSON:,} bytes')
    try:
        held = json.loads(data[20:20 + length], parse_float=exact, parse_int=exact, parse_constant=_refused)
    except (ValueError, RecursionError):
        raise NotAMesh('its JSON is damaged or nested too deep') from None
    if not isinstance(held, dict):
        raise NotAMesh('its JSON is no object')
    return held, _buffer(data[20 + length:])


def _buffer(rest: bytes) -> bytes:
    """The buffer in what stands behind the JSON; none where there is nothing. Raises NotAMesh where it is cut short."""
    if len(rest) < 8:
        return b''
    length, kind = struct.unpack('<II', rest[:8])
    if kind != _BINARY or length > len(rest) - 8:
        raise NotAMesh('its buffer is cut short')
    return rest[8:8 + length]


def _refused(word: str) -> Exact:
    raise NotAMesh(f'{word} is no number')


class _Use(NamedTuple):
    """A mesh that a node puts somewhere."""

    mesh: int
    name: str
    placement: Placement


class _Reader:
    """Takes the nodes and meshes of a file."""

    def __init__(self, held: Dict[str, Any], buffer: bytes) -> None:
        self._held, self._buffer, self._points_read = held, buffer, 0
        required = [name for name in held.get('extensionsRequired', []) if not name.startswith('KHR_materials_')]
        if required:
            raise NotAMesh(f'it needs {str(required[0])[:60]}, which is not read')

    def _at(self, kind: str, number: Any) -> Dict[str, Any]:
        """A thing of one of the lists. Raises NotAMesh where it isn't there."""
        held = self._held.get(kind, [])
        if not isinstance(number, int) or not 0 <= number < len(held):
            raise NotAMesh(f'it has no {str(number)[:20]} among its {kind}, which it names')
        found: Dict[str, Any] = held[number]
        return found

    def uses(self) -> Iterator[_Use]:
        """The meshes of the scene, as nodes put them. Raises NotAMesh where a node stands in two others."""
        nodes, scenes = self._held.get('nodes', []), self._held.get('scenes', [])
        if len(nodes) > _MOST_NODES:
            raise NotAMesh(f'it has more than {_MOST_NODES:,} nodes')
        first = self._at('scenes', self._held.get('scene', 0)).get('nodes', []) if scenes else range(len(nodes))
        waiting = [(node, IN_PLACE) for node in reversed(first)]
        seen = set()
        while waiting:
            number, around = waiting.pop()
            if number in seen:
                raise NotAMesh(f'node {number} stands in two places')
            seen.add(number)
            node = self._at('nodes', number)
            placement = around.after(_placement(node))
            if 'mesh' in node:
                yield _Use(node['mesh'], str(node.get('name', '')), placement)
            waiting += [(child, placement) for child in reversed(node.get('children', []))]

    def part(self, use: _Use) -> Part:
        """A mesh where a node puts it."""
        mesh = self._at('meshes', use.mesh)
        points: List[ExactVector] = []
        gathered = Gathered(points)
        for primitive in mesh['primitives']:
            if primitive.get('mode', _TRIANGLES) != _TRIANGLES:
                raise NotAMesh('it has lines, points or strips of triangles, which are not read')
            before = len(points)
            points.extend(self._points(primitive['attributes']['POSITION']))
            corners = self._numbers(primitive['indices'], 1) if 'indices' in primitive else list(range(len(points) - before))
            colour = self._colour(primitive.get('material'))
            for place in range(0, len(corners) - 2, 3):
                gathered.add([before + int(corner) for corner in corners[place:place + 3]], colour)
        return self._placed(use, gathered, str(mesh.get('name', '')))

    def _placed(self, use: _Use, gathered: Gathered, name: str) -> Part:
        colours = {look.colour for look in gathered.looks.values()}
        one = colours.pop() if len(colours) == 1 and len(gathered.looks) == len(gathered.polygons) else None
        placement = _UPRIGHT.after(use.placement)
        placed = [placement.of(point) for point in gathered.points]
        farthest: Exact = max((abs(Fraction(part)) for point in placed for part in point), default=Fraction(0))
        return Part(placed, gathered.polygons, look=Appearance(use.name or name, one), face_looks={} if one else gathered.looks,
                    accuracy=farthest * _PRECISION, scaled=told_scaled('metre', 1000))

    def _points(self, accessor: int) -> List[ExactVector]:
        parts = [of_float(part) for part in self._numbers(accessor, 3)]
        self._points_read += len(parts) // 3
        if self._points_read > 3 * MOST_POLYGONS:
            raise NotAMesh(f'it has more than {3 * MOST_POLYGONS:,} points, each counted as often as it is used')
        return list(zip(parts[::3], parts[1::3], parts[2::3]))

    def _numbers(self, number: int, width: int) -> Sequence[float]:
        """The numbers of an accessor, so many for each thing. Raises NotAMesh where they aren't held as they are."""
        accessor = self._at('accessors', number)
        if 'sparse' in accessor or accessor.get('normalized') or 'bufferView' not in accessor:
            raise NotAMesh(f'accessor {number} is sparse, normalized or without a buffer, which is not read')
        view = self._at('bufferViews', accessor['bufferView'])
        if _whole(view, 'buffer') != 0 or 'uri' in self._at('buffers', 0):
            raise NotAMesh('it has buffers in other files, which are not read')
        kind, count = _whole(accessor, 'componentType'), _whole(accessor, 'count')
        if kind not in _TYPES:
            raise NotAMesh(f'accessor {number} has numbers of the kind {kind}, which is not known')
        letter = _TYPES[kind]
        size = struct.calcsize(f'<{width}{letter}')
        start = _whole(view, 'byteOffset', 0) + _whole(accessor, 'byteOffset', 0)
        step = _whole(view, 'byteStride', size)
        end = start + step * (count - 1) + size
        if start < 0 or step < size or count < 0 or count and end > len(self._buffer):
            raise NotAMesh(f'accessor {number} reaches past the end of the buffer')
        if step == size:
            return struct.unpack_from(f'<{width * count}{letter}', self._buffer, start)
        return [part for place in range(count) for part in struct.unpack_from(f'<{width}{letter}', self._buffer, start + place * step)]

    def _colour(self, material: Optional[int]) -> Optional[Colour]:
        """The colour of a material, None where none is said."""
        held = self._at('materials', material) if material is not None else {}
        factors = held.get('pbrMetallicRoughness', {}).get('baseColorFactor')
        if factors is None:
            return None
        red, green, blue = (_shown(float(factor)) for factor in factors[:3])
        return (red, green, blue)


def _whole(held: Dict[str, Any], name: str, otherwise: Optional[int] = None) -> int:
    """A whole number that something of the file has by a name. Raises NotAMesh where it has none."""
    found = held.get(name, otherwise)
    if not isinstance(found, int) or isinstance(found, bool):
        raise NotAMesh(f'{name} is no whole number in it: {str(found)[:20]}')
    return found


def _placement(node: Dict[str, Any]) -> Placement:
    """Where a node stands in the one around it."""
    if 'matrix' in node:
        m = node['matrix']
        return Placement((m[0], m[1], m[2]), (m[4], m[5], m[6]), (m[8], m[9], m[10]), (m[12], m[13], m[14]))
    a, b, c = node.get('translation', (0, 0, 0))
    u, v, w = node.get('scale', (1, 1, 1))
    turn = _turn(node.get('rotation', (0, 0, 0, 1)))
    return turn.after(Placement((u, 0, 0), (0, v, 0), (0, 0, w), (0, 0, 0)))._replace(origin=(a, b, c))


def _turn(quaternion: Sequence[Exact]) -> Placement:
    """The turn of a quaternion, of whatever length: exact where its parts are."""
    x, y, z, w = quaternion
    length = Fraction(x * x + y * y + z * z + w * w)
    if length == 0:
        raise NotAMesh('a rotation has no length')
    s = 2 / length
    return Placement((1 - s * (y * y + z * z), s * (x * y + z * w), s * (x * z - y * w)),
                     (s * (x * y - z * w), 1 - s * (x * x + z * z), s * (y * z + x * w)),
                     (s * (x * z + y * w), s * (y * z - x * w), 1 - s * (x * x + y * y)), (0, 0, 0))
