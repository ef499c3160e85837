"""Writes a mesh as 3MF, a zip of XML (core specification 1.3): one object for each solid, in millimetres.

The bytes are a function of the mesh, its names and its colours alone: parts are stored as they are, in a fixed order and with a fixed date.
"""

from fractions import Fraction
from html import escape
from io import BytesIO
from typing import Dict, Iterator, List
from zipfile import ZIP_STORED, ZipFile, ZipInfo

from ..appearance import NO_APPEARANCES, PLAIN_MATERIAL, Appearances, Colour, hexadecimal, look_of, unique_names
from ..mesh import Mesh

MODEL_PART = '3D/3dmodel.model'

_HEAD = '<?xml version="1.0" encoding="UTF-8"?>'
_TYPES = f"""{_HEAD}
<Types xmlns="http://schemas.openxmlformats.org/package/2006/content-types">
<Default Extension="rels" ContentType="application/vnd.openxmlformats-package.relationships+xml"/>
<Default Extension="model" ContentType="application/vnd.ms-package.3dmanufacturing-3dmodel+xml"/>
</Types>
"""
_RELATIONS = f"""{_HEAD}
<Relationships xmlns="http://schemas.openxmlformats.org/package/2006/relationships">
<Relationship Target="/{MODEL_PART}" Id="model" Type="http://schemas.microsoft.com/3dmanufacturing/2013/01/3dmodel"/>
</Relationships>
"""
_DATE = (1980, 1, 1, 0, 0, 0)


def three_mf_bytes(mesh: Mesh, looks: Appearances = NO_APPEARANCES, unit: Fraction = Fraction(1)) -> bytes:
    """The mesh as a 3MF file, with the names of solids and the colours of solids and faces that are given; a coordinate has so many
    millimetres."""
    held = BytesIO()
    with ZipFile(held, 'w', ZIP_STORED) as package:
        for name, text in (('[Content_Types].xml', _TYPES), ('_rels/.rels', _RELATIONS),
                           (MODEL_PART, '\n'.join(_model_lines(mesh, looks, unit)) + '\n')):
            part = ZipInfo(name, _DATE)
            part.create_system = 3
            package.writestr(part, text.encode('utf-8'))
    return held.getvalue()


def _model_lines(mesh: Mesh, looks: Appearances, unit: Fraction) -> Iterator[str]:
    """The part that holds the objects, and the list of those to be built."""
    yield _HEAD
    yield '<model unit="millimeter" xml:lang="en-US" xmlns="http://schemas.microsoft.com/3dmanufacturing/core/2015/02">'
    yield '<resources>'
    materials = _Materials(mesh, looks)
    names = unique_names(mesh.model.solids, looks, 'solid ', lambda name: ''.join(letter for letter in name if letter >= ' '))
    yield from materials.lines()
    for place, solid in enumerate(mesh.model.solids, 1):
        yield f'<object id="{place}" type="model" name="{escape(names[solid])}"{materials.of_solid(solid)}><mesh>'
        yield from _mesh_lines(mesh, solid, materials)
        yield '</mesh></object>'
    yield '</resources>'
    yield '<build>'
    for place in range(1, len(mesh.model.solids) + 1):
        yield f'<item objectid="{place}"{_scaling(unit)}/>'
    yield '</build>'
    yield '</model>'


def _scaling(unit: Fraction) -> str:
    """The words of an item whose coordinates have so many millimetres each: 3MF knows no unit but a few."""
    size = repr(float(unit))
    return '' if unit == 1 else f' transform="{size} 0 0 0 {size} 0 0 0 {size} 0 0 0"'


class _Materials:
    """The colours of a model as a group of materials; the last one is for solids without a colour some of whose faces have one."""

    def __init__(self, mesh: Mesh, looks: Appearances) -> None:
        self._mesh, self._looks = mesh, looks
        things = (*(('solid', solid) for solid in mesh.model.solids), *(('face', face) for face in mesh.model.faces))
        colours = dict.fromkeys(filter(None, (look_of(looks, kind, number).colour for kind, number in things)))
        self._places: Dict[Colour, int] = {colour: place for place, colour in enumerate(colours)}
        self._group = len(mesh.model.solids) + 1

    def lines(self) -> Iterator[str]:
        """The group, where there is a colour."""
        if self._places:
            yield f'<basematerials id="{self._group}">'
            for colour in self._places:
                yield f'<base name="{hexadecimal(colour)}" displaycolor="{hexadecimal(colour)}"/>'
            yield f'<base name="{PLAIN_MATERIAL}" displaycolor="#C0C0C0"/>'
            yield '</basematerials>'

    def of_solid(self, solid: int) -> str:
        """The words of an object that give it its colour."""
        colour = look_of(self._looks, 'solid', solid).colour
        if colour is None and not any(look_of(self._looks, 'face', face).colour for face in self._mesh.faces_of(solid)):
            return ''
        return f' pid="{self._group}" pindex="{len(self._places) if colour is None else self._places[colour]}"'

    def of_face(self, face: int) -> str:
        """The words of a triangle that give it its colour."""
        colour = look_of(self._looks, 'face', face).colour
        return '' if colour is None else f' pid="{self._group}" p1="{self._places[colour]}"'


def _mesh_lines(mesh: Mesh, solid: int, materials: _Materials) -> List[str]:
    """The vertices and triangles of one solid."""
    triangles = [(triangle, face) for face in mesh.faces_of(solid) for triangle in mesh.faces[face]]
    used = sorted({vertex for triangle, _ in triangles for vertex in triangle})
    places = {vertex: place for place, vertex in enumerate(used)}
    corners = ('<vertex x="{}" y="{}" z="{}"/>'.format(*mesh.model.vertices[vertex]) for vertex in used)
    sides = ('<triangle v1="{}" v2="{}" v3="{}"{}/>'.format(*(places[vertex] for vertex in triangle), materials.of_face(face))
             for triangle, face in triangles)
    return ['<vertices>', *corners, '</vertices>', '<triangles>', *sides, '</triangles>']
