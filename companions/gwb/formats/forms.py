"""The table of forms of files: the one place that says what each is called, how its files end and begin, who reads and writes it, and what it keeps.

Import and export, in the companions and in Python, their words, usage lines and hints come from FORMS; so can pages that are made.
"""

from typing import Callable, Dict, FrozenSet, Iterator, List, NamedTuple, Optional, Tuple

from ..geometry.model import Model
from .amf import amf_parts
from .appearance import Said
from .glb import MAGIC, glb_bytes, glb_parts
from .mesh import mesh_of
from .obj import Beside, obj_parts, obj_text
from .off import HEADER, off_parts, off_text
from .parts import Part
from .ply import ply_parts
from .step.read import step_parts
from .step.write import step_text
from .stl import fits_binary, is_binary, stl_parts, stl_text
from .text_lines import whole_text
from .three_mf.read import three_mf_parts
from .three_mf.write import three_mf_bytes

# Reads the parts of the bytes of a file, with what reads the files that it names; `flat` leaves what is curved out.
Reader = Callable[[bytes, Beside, bool], Iterator[Part]]
Writer = Callable[[Model, Said], bytes]
_MESH, _STEP = 'write STL or 3MF there', 'write STEP there'
SOLIDS, NAMES, COLOURS, UNIT = 'solids', 'names', 'colours', 'unit'
# What stands first in the lines of an OBJ file.
_OBJ_WORDS = (b'v', b'vn', b'vt', b'f', b'o', b'g', b'mtllib', b'usemtl', b's')


class Beginning(NamedTuple):
    """The first bytes of a file: all of them, those after blanks, and the first word that is in no comment."""

    data: bytes
    text: bytes
    word: bytes


class Form(NamedTuple):
    """A form of files.

    `endings` are those of names, the usual one first. `begins` says whether a file of these bytes is of the form. `is_text` says that of its files.
    `program` is the companion that writes it, `keeps` what a file that is written has beside the shape, and `instead` what to do where it isn't read.
    """

    title: str
    endings: Tuple[str, ...]
    begins: Callable[[Beginning], bool] = lambda begin: False
    is_text: Callable[[bytes], bool] = lambda data: False
    read: Optional[Reader] = None
    write: Optional[Writer] = None
    program: str = ''
    keeps: FrozenSet[str] = frozenset()
    instead: str = ''

    def lacks(self, what: str) -> bool:
        """Whether a file that is written doesn't keep something: solids, names, colours or the unit."""
        return what not in self.keeps


def _text(data: bytes) -> bool:
    return True


def _is_obj(begin: Beginning) -> bool:
    return any(line.split()[:1] and line.split()[0] in _OBJ_WORDS for line in begin.data.splitlines())


def _unread(title: str, instead: str, *endings: str) -> Form:
    return Form(title, endings, instead=instead)


# By the names that `--form` and Python's `form=` take. Where the first bytes would do for several, the first of them is meant.
FORMS: Dict[str, Form] = {
    'step': Form('STEP', ('step', 'stp', 'p21'), lambda begin: begin.text.startswith(b'ISO-10303-21'), _text,
                 read=lambda data, beside, flat: step_parts(whole_text(data), flat), write=lambda model, said: step_text(model, *said).encode('ascii'),
                 program='gwb-step', keeps=frozenset((SOLIDS, NAMES, COLOURS, UNIT))),
    'glb': Form('GLB', ('glb',), lambda begin: begin.data.startswith(MAGIC), read=lambda data, beside, flat: glb_parts(data),
                write=lambda model, said: glb_bytes(mesh_of(model), *said), program='gwb-mesh', keeps=frozenset((SOLIDS, NAMES, COLOURS, UNIT))),
    '3mf': Form('3MF', ('3mf',), lambda begin: begin.text.startswith(b'PK'), read=lambda data, beside, flat: three_mf_parts(data),
                write=lambda model, said: three_mf_bytes(mesh_of(model), *said), program='gwb-mesh', keeps=frozenset((SOLIDS, NAMES, COLOURS, UNIT))),
    'ply': Form('PLY', ('ply',), lambda begin: begin.word == b'ply', read=lambda data, beside, flat: ply_parts(data)),
    'off': Form('OFF', ('off',), lambda begin: HEADER.fullmatch(begin.word.decode('ascii', 'replace')) is not None, _text,
                read=lambda data, beside, flat: off_parts(data), write=lambda model, said: off_text(mesh_of(model), said.unit).encode('ascii'),
                program='gwb-mesh', keeps=frozenset((UNIT,))),
    'stl': Form('STL', ('stl',), lambda begin: begin.word.lower() == b'solid', lambda data: not is_binary(data),
                read=lambda data, beside, flat: stl_parts(data), write=lambda model, said: stl_text(mesh_of(model), said.unit).encode('ascii'),
                program='gwb-mesh', keeps=frozenset((UNIT,))),
    'amf': Form('AMF', ('amf',), lambda begin: begin.text.startswith(b'<') and b'<amf' in begin.text.lower(),
                read=lambda data, beside, flat: amf_parts(data)),
    'obj': Form('OBJ', ('obj',), _is_obj, _text, read=lambda data, beside, flat: obj_parts(data, beside),
                write=lambda model, said: obj_text(mesh_of(model), said.looks, unit=said.unit).encode('utf-8'), program='gwb-mesh',
                keeps=frozenset((SOLIDS, NAMES, COLOURS, UNIT))),
    'html': Form('HTML', ('html',), program='gwb-view', keeps=frozenset((SOLIDS, NAMES, COLOURS, UNIT))),
    'svg': Form('SVG', ('svg',), program='gwb-svg'),
    'dxf': Form('DXF', ('dxf',), program='gwb-dxf', keeps=frozenset((SOLIDS, NAMES, UNIT)), instead=_MESH),
    'gltf': _unread('glTF as text', 'write GLB, its form in one file', 'gltf'),
    'dwg': _unread('DWG', _MESH, 'dwg'),
    'iges': _unread('IGES', _STEP, 'igs', 'iges'),
    'brep': _unread('BREP', _STEP, 'brep', 'brp'),
    'fcstd': _unread('a document of FreeCAD', _STEP, 'fcstd'),
    'blend': _unread('a document of Blender', _MESH, 'blend'),
    'scad': _unread('a script of OpenSCAD', _MESH, 'scad'),
    'dae': _unread('COLLADA', _MESH, 'dae'),
    'fbx': _unread('FBX', _MESH, 'fbx'),
    '3ds': _unread('3DS', _MESH, '3ds'),
    'vrml': _unread('VRML', _MESH, 'wrl'),
    'x3d': _unread('X3D', _MESH, 'x3d'),
}
# The names of those that are read, of those that gwb-mesh writes, and of those that a session exports.
READ: Tuple[str, ...] = tuple(name for name, form in FORMS.items() if form.read)
MESHES: Tuple[str, ...] = tuple(name for name, form in FORMS.items() if form.program == 'gwb-mesh')
EXPORTED: Tuple[str, ...] = tuple(name for name, form in FORMS.items() if form.write or name == 'html')
_READ_AHEAD, _MOST_AHEAD = 1000, 64_000


def titles(names: Tuple[str, ...]) -> str:
    """What forms are called, in a list."""
    return ', '.join(FORMS[name].title for name in names)


def endings(names: Tuple[str, ...]) -> List[str]:
    """The endings of the files of forms, with their dots."""
    return [f'.{ending}' for name in names for ending in FORMS[name].endings]


def by_ending(path: str) -> str:
    """The name of the form that a file has by the end of its name, '' where it has none."""
    last = path.lower().rpartition('.')[2] if '.' in path else path.lower()
    return next((name for name, form in FORMS.items() if last in form.endings), '')


def by_beginning(data: bytes, path: str = '') -> str:
    """The name of the form that a file has by its first bytes, else by the end of its name, '' where neither says one that is read."""
    text, ending = data[:_READ_AHEAD].lstrip(b'\xef\xbb\xbf \t\r\n'), by_ending(path)
    word = next((line.split()[0] for line in text.splitlines() if line.strip() and not line.lstrip().startswith(b'#')), b'')
    begin = Beginning(data[:_MOST_AHEAD], text, word)
    found = [name for name in READ if FORMS[name].begins(begin) or name == 'stl' and fits_binary(data)]
    # A package may be either of two, and words of OBJ begin other texts too: there the ending says it.
    if found[:1] == ['3mf'] and ending == 'amf' or found in ([], ['obj']) and ending in READ:
        return ending
    return found[0] if found else ''
