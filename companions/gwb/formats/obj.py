"""Wavefront OBJ: flat polygons are read, with the colours of the material files that are named; written as triangles."""

from fractions import Fraction
from typing import Callable, Dict, Iterator, List, Optional, Tuple

from ..errors import CompanionError
from ..geometry.flat_face import ExactVector
from .appearance import NO_APPEARANCES, PLAIN_MATERIAL, Appearance, Appearances, Colour, colour_of_parts, hexadecimal, look_of, unique_names
from .exact_numbers import InMillimetres, Numbers, shortened
from .mesh import Mesh
from .parts import Gathered, NotAMesh, Part
from .text_lines import as_utf_8, numbered_words

# Reads a file that lies beside the one that is read; None where it isn't there.
Beside = Callable[[str], Optional[bytes]]
# Words of curved surfaces, which aren't read.
_CURVED = ('cstype', 'curv', 'surf', 'deg')
# The group of what is in no group.
_NO_GROUP = 'default'


class _Object:
    """An object as it is read; one that no word begins is nameless, and its solids have the names of its groups."""

    def __init__(self, name: str, begun: bool, points: List[ExactVector]) -> None:
        self.name, self.begun = name, begun
        self.gathered = Gathered(points)
        self.groups: Dict[int, str] = {}

    def add(self, corners: List[int], colour: Optional[Colour], group: str) -> None:
        """One more polygon."""
        if group and not self.begun:
            self.groups[len(self.gathered.polygons)] = group
        self.gathered.add(corners, colour)


def obj_parts(data: bytes, beside: Beside) -> Iterator[Part]:
    """The objects of a file, each a part. Raises NotAMesh where a line can't be read."""
    reader = _Reader(beside)
    for number, words in _joined(numbered_words(data)):
        try:
            reader.read(words)
        except ValueError:
            raise NotAMesh(f'line {number} can\'t be read: {shortened(" ".join(words))}') from None
        except CompanionError as error:
            raise NotAMesh(f'line {number}: {error}') from None
    for held in reader.objects:
        colour = reader.one_colour(held.gathered)
        looks = {} if colour else held.gathered.looks
        yield Part(held.gathered.points, held.gathered.polygons, parted=not held.begun, look=Appearance(held.name, colour),
                   face_looks=looks, groups=held.groups, notes=tuple(reader.notes))


def _joined(lines: Iterator[Tuple[int, List[str]]]) -> Iterator[Tuple[int, List[str]]]:
    """The lines, those that end with a backslash joined to the next."""
    begun: List[str] = []
    for number, words in lines:
        begun += words
        if begun[-1].endswith('\\'):
            begun[-1:] = [begun[-1][:-1]] if len(begun[-1]) > 1 else []
        else:
            yield number, begun
            begun = []
    if begun:
        yield number, begun


class _Reader:
    """Takes the lines of a file in turn. All objects have the points of the file in common."""

    def __init__(self, beside: Beside) -> None:
        self._beside = beside
        self._numbers = Numbers()
        self._points: List[ExactVector] = []
        self._materials: Dict[str, Colour] = {}
        self._colour: Optional[Colour] = None
        self._group = ''
        self.notes: Dict[str, None] = {}
        self.objects = [_Object('', False, self._points)]

    def read(self, words: List[str]) -> None:
        """One line. Raises ValueError, NotANumber or NotAMesh where it can't be read."""
        word, rest = words[0], words[1:]
        if word == 'v':
            self._points.append(self._numbers.point(rest[:3]))
        elif word == 'f':
            self.objects[-1].add([self._place(int(corner.partition('/')[0])) for corner in rest], self._colour, self._group)
        elif word == 'o':
            self.objects.append(_Object(' '.join(rest), True, self._points))
        elif word == 'g':
            self._group = '' if rest == [_NO_GROUP] else ' '.join(rest)
        elif word == 'usemtl':
            self._colour = self._materials.get(' '.join(rest))
        elif word == 'mtllib':
            self._read_libraries(rest)
        elif word in _CURVED:
            raise NotAMesh('it has curved surfaces: only polygons are read')

    def _place(self, vertex: int) -> int:
        """The place of the point that a face names: from 1 on, or back from the last one. Raises NotAMesh where there is none."""
        count = len(self._points)
        if not vertex or not -count <= vertex <= count:
            raise NotAMesh(f'a face has vertex {vertex}, and there are {count}')
        return vertex - 1 if vertex > 0 else count + vertex

    def one_colour(self, gathered: Gathered) -> Optional[Colour]:
        """The colour of all polygons of an object, None where they have several or some have none."""
        colours = {look.colour for look in gathered.looks.values()}
        return colours.pop() if len(colours) == 1 and len(gathered.looks) == len(gathered.polygons) else None

    def _read_libraries(self, words: List[str]) -> None:
        """The files of materials that a line names: one whose name has blanks, or several."""
        whole = ' '.join(words)
        held = {whole: self._beside(whole)}
        if held[whole] is None and len(words) > 1:
            several = {name: self._beside(name) for name in words}
            held = several if any(data is not None for data in several.values()) else held
        for name, data in held.items():
            if data is None:
                self.notes[f'the material file {shortened(name)} is not beside it: its colours are missing'] = None
            else:
                self._read_materials(data)

    def _read_materials(self, data: bytes) -> None:
        material = ''
        for _, words in numbered_words(as_utf_8(data).data):
            if words[0] == 'newmtl':
                material = ' '.join(words[1:])
            elif words[0] == 'Kd' and len(words) >= 4:
                red, green, blue = map(float, words[1:4])
                self._materials[material] = colour_of_parts(red, green, blue)


def obj_text(mesh: Mesh, looks: Appearances = NO_APPEARANCES, materials: Optional[str] = None, unit: Fraction = Fraction(1),
             groups: bool = False) -> str:
    """The mesh as Wavefront OBJ, with an object for each solid, and the names of solids that are given; with `groups` a group for each face,
    which many programs take for a mesh of its own. It is in millimetres, of which a coordinate is so many.

    With the name of a file of materials, whose text is mtl_text, solids and faces have their colours too.
    """
    return '\n'.join(_obj_lines(mesh, looks, materials, groups, InMillimetres(unit))) + '\n'


def mtl_text(looks: Appearances) -> str:
    """The materials of all colours, for obj_text."""
    colours = dict.fromkeys(look.colour for look in looks.values() if look.colour is not None)
    blocks = ['newmtl {}\nKd {:.4f} {:.4f} {:.4f}\n'.format(_material(colour), *(part / 255 for part in colour)) for colour in colours]
    return ''.join([f'newmtl {PLAIN_MATERIAL}\nKd 0.8 0.8 0.8\n', *blocks])


def _material(colour: Optional[Colour]) -> str:
    return PLAIN_MATERIAL if colour is None else f'colour_{hexadecimal(colour)[1:]}'


def _in_one_word(name: str) -> str:
    """A name without blanks, at which many readers end it, and without the sign of comments."""
    return '_'.join(name.replace('#', ' ').split())


def _obj_lines(mesh: Mesh, looks: Appearances, materials: Optional[str], groups: bool, lengths: InMillimetres) -> Iterator[str]:
    if materials is not None:
        yield f'mtllib {materials}'
    places = {vertex: place for place, vertex in enumerate(mesh.vertices, 1)}
    for vertex in mesh.vertices:
        yield f'v {lengths.point(mesh.model.vertices[vertex])}'
    names = unique_names(mesh.model.solids, looks, 'solid_', _in_one_word)
    for solid in mesh.model.solids:
        yield f'o {names[solid]}'
        used = ''
        for face in mesh.faces_of(solid):
            if groups:
                yield f'g face_{face}'
            material = _material(look_of(looks, 'face', face).colour or look_of(looks, 'solid', solid).colour)
            if materials is not None and material != used:
                yield f'usemtl {material}'
                used = material
            yield from ('f {} {} {}'.format(*(places[vertex] for vertex in triangle)) for triangle in mesh.faces[face])
