"""Reads 3MF (core specification 1.3, the colours of the materials extension, and the files of the production extension)."""

import io
import zipfile
from fractions import Fraction
from graphlib import CycleError, TopologicalSorter
from typing import Callable, Dict, Iterator, List, NamedTuple, Optional

from ...geometry.flat_face import ExactVector
from ..appearance import PLAIN_MATERIAL, Appearance, Colour, colour_of
from ..exact_numbers import Numbers
from ..packages import MOST_BYTES, opened
from ..parts import Gathered, NotAMesh, Part, require_few
from ..placement import IN_PLACE, Placement
from ..units import millimetres_of, told_scaled
from ..xml_parts import Attributes, XmlReader

_MOST_RELATIONS = 4_000_000
_MOST_ITEMS = 200_000
_ROOT_TYPE = '/3dmodel'
# The greatest denominator of a fraction that is told from a rounded number.
_MOST_PARTS = 1_000_000
# How the word of an item or a component ends that names a further file, behind the namespace of the production extension.
_PATH = '/production/2015/06 path'


class _Key(NamedTuple):
    """An object of a package: the model file in which it stands, and its number there."""

    file: str
    number: str


class _Use(NamedTuple):
    """An object that is put somewhere."""

    object: _Key
    placement: Placement


# In the place of an object: what is built.
_BUILT = _Key('', '')


class _Object:
    """An object as it is read: a mesh, or uses of others."""

    def __init__(self, look: Appearance, material: Optional[str]) -> None:
        self.look, self.material = look, material
        self.mesh = Gathered([])
        self.uses: List[_Use] = []


class _Reader:
    """Takes the elements of a model file, and names the further files of the package that it uses."""

    def __init__(self, file: str) -> None:
        self.unit = 'millimeter'
        self.objects: Dict[_Key, _Object] = {}
        self.items: List[_Use] = []
        self.further: List[str] = []
        self._file = file
        self._numbers = Numbers()
        self._colours: Dict[str, List[Optional[Colour]]] = {}
        self._group: List[Optional[Colour]] = []
        self._object = _Object(Appearance(), None)
        self._takes: Dict[str, Callable[[Attributes], None]] = {
            'vertex': self._vertex, 'triangle': self._triangle, 'model': self._model, 'object': self._begin_object, 'item': self._item,
            'component': self._component, 'basematerials': self._colours_begin, 'colorgroup': self._colours_begin, 'base': self._base,
            'color': self._color}

    def begin(self, name: str, words: Attributes) -> None:
        """An element begins."""
        if name in self._takes:
            self._takes[name](words)

    def _model(self, words: Attributes) -> None:
        self.unit = words.get('unit', 'millimeter')

    def _colours_begin(self, words: Attributes) -> None:
        self._group = self._colours.setdefault(words['id'], [])

    def _base(self, words: Attributes) -> None:
        self._group.append(None if words.get('name') == PLAIN_MATERIAL else colour_of(words['displaycolor']))

    def _color(self, words: Attributes) -> None:
        self._group.append(colour_of(words['color']))

    def _begin_object(self, words: Attributes) -> None:
        colour = self._colour(words.get('pid'), words.get('pindex', '0'))
        key = _Key(self._file, words['id'])
        if key in self.objects:
            raise NotAMesh(f'two objects have the number {key.number[:20]}')
        self._object = self.objects[key] = _Object(Appearance(words.get('name', ''), colour), words.get('pid'))

    def _vertex(self, words: Attributes) -> None:
        self._object.mesh.points.append(self._numbers.point([words['x'], words['y'], words['z']]))

    def _triangle(self, words: Attributes) -> None:
        colour = self._colour(words.get('pid', self._object.material), words['p1']) if 'p1' in words else None
        self._object.mesh.add([int(words['v1']), int(words['v2']), int(words['v3'])], colour)

    def _component(self, words: Attributes) -> None:
        self._object.uses.append(self._use(words))

    def _item(self, words: Attributes) -> None:
        if len(self.items) >= _MOST_ITEMS:
            raise NotAMesh(f'it has more than {_MOST_ITEMS:,} items')
        self.items.append(self._use(words))

    def _use(self, words: Attributes) -> _Use:
        path = next((text for name, text in words.items() if name.endswith(_PATH)), '').lstrip('/')
        if path and path not in self.further:
            self.further.append(path)
        return _Use(_Key(path or self._file, words['objectid']), self._placement(words.get('transform')))

    def _placement(self, text: Optional[str]) -> Placement:
        if text is None:
            return IN_PLACE
        words = text.split()
        if len(words) != 12:
            raise NotAMesh(f'a transform has {len(words)} numbers, not 12')
        x, y, z, origin = (self._numbers.point(words[place:place + 3]) for place in (0, 3, 6, 9))
        return Placement(_unrounded(x), _unrounded(y), _unrounded(z), origin)

    def _colour(self, group: Optional[str], place: str) -> Optional[Colour]:
        colours = self._colours.get(group or '', [])
        return colours[int(place)] if 0 <= int(place) < len(colours) else None


def three_mf_parts(data: bytes) -> Iterator[Part]:
    """The objects that a file builds, where they stand, in millimetres. Raises NotAMesh where it can't be read."""
    with zipfile.ZipFile(io.BytesIO(data)) as package:
        model = _read_all(package, _model_name(package))
    factor = millimetres_of(model.unit)
    scaled = Placement((factor, 0, 0), (0, factor, 0), (0, 0, factor), (0, 0, 0))
    _require_few_uses(model)
    for use in _expanded(model):
        yield _part(model.objects[use.object], scaled.after(use.placement))._replace(scaled=told_scaled(model.unit, factor))


class _Model(NamedTuple):
    """What a package holds: its unit, the objects of all its model files, and what the first one builds."""

    unit: str
    objects: Dict[_Key, _Object]
    items: List[_Use]


def _read_all(package: zipfile.ZipFile, first: str) -> _Model:
    """The first model file of a package and those that it names, and these in turn. Raises NotAMesh where one isn't there, they have different
    units, or are too long together."""
    files: Dict[str, _Reader] = {}
    waiting, left = [first], MOST_BYTES
    while waiting:
        name = waiting.pop(0)
        if name not in package.namelist():
            raise NotAMesh(f'the package has no {name[:60]}, which it names')
        reader = files[name] = _Reader(name)
        if package.getinfo(name).file_size > left:
            raise NotAMesh(f'its model files have more than {MOST_BYTES:,} bytes together')
        with opened(package, name) as file:
            XmlReader(reader.begin, None, left).read(file)
        left -= package.getinfo(name).file_size
        if reader.unit != files[first].unit:
            raise NotAMesh(f'{name[:60]} in it has lengths in {reader.unit[:30]}, and the model in {files[first].unit[:30]}')
        waiting += [further for further in reader.further if further not in files and further not in waiting]
    objects = {key: held for reader in files.values() for key, held in reader.objects.items()}
    return _Model(files[first].unit, objects, files[first].items)


def _model_name(package: zipfile.ZipFile) -> str:
    """The part that the package's relations name as its model, else the first model in it."""
    names = [name for name in package.namelist() if name.lower().endswith('.model')]
    found: List[str] = []

    def begin(name: str, words: Attributes) -> None:
        if name == 'Relationship' and words.get('Type', '').endswith(_ROOT_TYPE):
            found.append(words.get('Target', '').lstrip('/'))

    if '_rels/.rels' in package.namelist():
        with opened(package, '_rels/.rels', _MOST_RELATIONS) as file:
            XmlReader(begin, None, _MOST_RELATIONS).read(file)
    wanted = [name for name in found if name in names] or names
    if not wanted:
        raise NotAMesh('there is no model in the package')
    return wanted[0]


def _require_few_uses(model: _Model) -> None:
    """Raises NotAMesh where an object that is used isn't there, components go round, or polygons or uses are too many, all uses counted."""
    within = {key: [use.object for use in held.uses] for key, held in model.objects.items()}
    within[_BUILT] = [use.object for use in model.items]
    uses: Dict[_Key, int] = {}
    polygons: Dict[_Key, int] = {}
    try:
        for key in TopologicalSorter(within).static_order():
            if key not in within:
                raise NotAMesh(f'object {key.number[:20]} is used, and is not there')
            own = len(model.objects[key].mesh.polygons) if key != _BUILT else 0
            uses[key] = 1 + sum(uses[other] for other in within[key])
            polygons[key] = own + sum(polygons[other] for other in within[key])
    except CycleError as error:
        raise NotAMesh(f'the components of object {error.args[1][0].number[:20]} go round in a circle') from None
    require_few(polygons[_BUILT])
    if uses[_BUILT] > _MOST_ITEMS:
        raise NotAMesh(f'objects are used more than {_MOST_ITEMS:,} times')


def _expanded(model: _Model) -> Iterator[_Use]:
    """The objects with meshes that the items and the components below them use, in order."""
    waiting = list(reversed(model.items))
    while waiting:
        use = waiting.pop()
        held = model.objects[use.object]
        if held.mesh.polygons:
            yield use
        waiting += [_Use(part.object, use.placement.after(part.placement)) for part in reversed(held.uses)]


def _unrounded(axis: ExactVector) -> ExactVector:
    """An axis of a transform, in which a number that is written as the float nearest to a fraction, such as 0.16666666666666666, is that."""
    x, y, z = (near if Fraction(repr(float(near))) == part else part
               for part in axis for near in [Fraction(part).limit_denominator(_MOST_PARTS)])
    return (x, y, z)


def _part(held: _Object, placement: Placement) -> Part:
    points = held.mesh.points
    placed: List[ExactVector] = points if placement == IN_PLACE else [placement.of(point) for point in points]
    return Part(placed, held.mesh.polygons, look=held.look, face_looks=held.mesh.looks)
