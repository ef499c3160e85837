"""Forms of files beside those of test_import: PLY, AMF, all headers of OFF, STL in capitals, materials of OBJ, components of 3MF."""

import io
import os
import struct
import unittest
import zipfile
from fractions import Fraction
from pathlib import Path
from unittest import mock

from support import run
from test_import import SIDES, TETRAHEDRON, InFiles, ascii_stl, binary_stl, obj, off, step, volumes

from gwb.formats.appearance import Appearance
from gwb.formats.exact_numbers import told
from gwb.formats.grid import Grid
from gwb.formats.importing import read_file
from gwb.formats.parts import NotAMesh
from gwb.formats.polygon_files import form_of
from gwb.formats.text_lines import READ_AS_LATIN_1

RED, BLUE = (255, 0, 0), (0, 0, 255)


def ply(points, faces, form, colours=(), extra=''):
    """A PLY file in one of its three forms; colours are those of faces."""
    head = (f'ply\nformat {form} 1.0\ncomment by hand\nelement vertex {len(points)}\nproperty float x\nproperty float y\nproperty double z\n'
            f'{extra}element face {len(faces)}\nproperty list uchar int vertex_indices\n'
            + ''.join(f'property uchar {name}\n' for name in (('red', 'green', 'blue') if colours else ())) + 'end_header\n')
    rows = list(zip(faces, colours or [()] * len(faces)))
    if form == 'ascii':
        lines = [' '.join(map(str, point)) for point in points] + [' '.join(map(str, (len(face), *face, *colour))) for face, colour in rows]
        return (head + '\n'.join(lines) + '\n').encode()
    order = '<' if 'little' in form else '>'
    return head.encode() + b''.join(struct.pack(f'{order}ffd', *point) for point in points) + b''.join(
        struct.pack(f'{order}B{len(face)}i{len(colour)}B', len(face), *face, *colour) for face, colour in rows)


def amf(body, unit='millimeter'):
    """An AMF file of objects and constellations."""
    return f'<?xml version="1.0"?><amf unit="{unit}" version="1.1">{body}</amf>'


def amf_object(number, *volumes, name='', points=TETRAHEDRON):
    """An object of AMF; a volume is its faces and what stands beside them."""
    vertices = ''.join('<vertex><coordinates><x>{}</x><y>{}</y><z>{}</z></coordinates></vertex>'.format(*point) for point in points)
    shown = f'<metadata type="name">{name}</metadata>' if name else ''
    held = ''.join('<volume>' + beside + ''.join('<triangle><v1>{}</v1><v2>{}</v2><v3>{}</v3></triangle>'.format(*face) for face in faces)
                   + '</volume>' for faces, beside in volumes)
    return f'<object id="{number}">{shown}<mesh><vertices>{vertices}</vertices>{held}</mesh></object>'


def three_mf(objects, build, unit='millimeter', before=''):
    """A 3MF file of objects and items."""
    text = (f'<model unit="{unit}" xmlns="http://schemas.microsoft.com/3dmanufacturing/core/2015/02" '
            f'xmlns:m="http://schemas.microsoft.com/3dmanufacturing/material/2015/02"><resources>{before}{objects}</resources>'
            f'<build>{build}</build></model>')
    file = io.BytesIO()
    with zipfile.ZipFile(file, 'w') as archive:
        archive.writestr('3D/other.model', '<model/>')
        archive.writestr('3D/part.model', text)
        archive.writestr('_rels/.rels', '<Relationships xmlns="http://schemas.openxmlformats.org/package/2006/relationships"><Relationship '
                         'Target="/3D/part.model" Id="a" Type="http://schemas.microsoft.com/3dmanufacturing/2013/01/3dmodel"/></Relationships>')
    return file.getvalue()


def mesh(number, words='', colours=(), faces=SIDES):
    """An object of 3MF that is a tetrahedron."""
    vertices = ''.join('<vertex x="{}" y="{}" z="{}"/>'.format(*point) for point in TETRAHEDRON)
    triangles = ''.join('<triangle v1="{}" v2="{}" v3="{}" {}/>'.format(*face, colours[place] if colours else '') for place, face in enumerate(faces))
    return f'<object id="{number}" {words}><mesh><vertices>{vertices}</vertices><triangles>{triangles}</triangles></mesh></object>'


class Ply(InFiles):
    """Text and binary."""

    def test_each_order(self):
        for form in ('ascii', 'binary_little_endian', 'binary_big_endian'):
            model = self.read(ply(TETRAHEDRON, SIDES, form))
            self.assertEqual(volumes(model), [216], form)
            self.accepted(model)

    def test_colours_of_faces(self):
        for form in ('ascii', 'binary_little_endian'):
            found = read_file(self.file(ply(TETRAHEDRON, SIDES, form, [RED, RED, BLUE, RED])))
            self.assertEqual({face: look.colour for (_, face), look in found.looks.items()}, {1: RED, 2: RED, 3: BLUE, 4: RED})

    def test_other_elements_are_read_over(self):
        data = ply(TETRAHEDRON, SIDES, 'ascii', extra='element spot 2\nproperty list int float many\n').decode()
        lines = data.splitlines()
        head = lines.index('end_header') + 1
        self.assertEqual(volumes(self.read('\n'.join([*lines[:head + 4], '0', '2 1.5 2.5', *lines[head + 4:]]) + '\n')), [216])

    def test_numbers_stay_exact(self):
        self.refuse('the point 0.1 0 0 is not whole', ply([('0.1', 0, 0), *TETRAHEDRON[1:]], SIDES, 'ascii'))
        self.refuse('the point 0.1000000014901161193847656.. 0 0 is not whole', ply([(0.1, 0, 0), *TETRAHEDRON[1:]], SIDES, 'binary_little_endian'))

    def test_what_is_no_ply(self):
        whole = ply(TETRAHEDRON, SIDES, 'ascii')
        for data, part in ((whole[:-20], 'a line has no vertex_indices'), (whole.replace(b'format', b'formal'), 'does not say what it holds'),
                           (whole.replace(b'end_header', b''), 'its head has no end'), (whole.replace(b'3 0 2 1', b'3 0 2 9'), 'has vertex 9, and there are 4'),
                           (whole.replace(b'float x', b'word x'), 'a line of its head is not understood: property word x'), (ply([(float('nan'), 0, 0)] * 4, SIDES, 'binary_little_endian'), 'no number'),
                           (whole.replace(b'element face', b'element tristrips'), 'strips of triangles')):
            self.refuse(part, data)


class Amf(InFiles):
    """Plain and zipped."""

    def test_volumes_are_solids(self):
        apart = [(x + 9, y, z) for x, y, z in TETRAHEDRON]
        other = [(a + 4, b + 4, c + 4) for a, b, c in SIDES]
        text = amf(amf_object(1, (SIDES, ''), (other, '<color><r>1</r><g>0</g><b>0</b></color>'), name='Pair', points=TETRAHEDRON + apart))
        file = io.BytesIO()
        with zipfile.ZipFile(file, 'w') as archive:
            archive.writestr('part.amf', text)
        for data, name in ((text, 'part'), (file.getvalue(), 'part.amf')):
            found = read_file(self.file(data, name))
            self.assertEqual(volumes(found.model), [216, 216])
            self.assertEqual(found.looks, {('solid', 1): Appearance('Pair'), ('solid', 2): Appearance('Pair', RED)})

    def test_colours_of_triangles(self):
        text = amf(amf_object(1, (SIDES, ''))).replace('</v3></triangle>', '</v3><color><r>1</r><g>0</g><b>0</b></color></triangle>', 1)
        self.assertEqual(read_file(self.file(text)).looks, {('face', 1): Appearance('', RED)})

    def test_units_and_constellations(self):
        body = amf_object(1, (SIDES, '')) + ''.join(
            f'<constellation id="{n}"><instance objectid="1"><deltax>{n}</deltax><deltay>0</deltay><deltaz>0</deltaz></instance></constellation>'
            for n in (10, 20))
        found = read_file(self.file(amf(body, 'inch')), scale=5)
        self.assertEqual(found.said, ['lengths in inch were multiplied by 25.4, to millimetres'])
        self.assertEqual(sorted(min(found.model.vertices[v] for f in found.model.faces_of(s) for v in found.model.face_vertices(f))
                                for s in found.model.solids), [(1270, 0, 0), (2540, 0, 0)])

    def test_what_is_not_read(self):
        self.refuse('is turned, which is not read', amf(amf_object(1, (SIDES, '')) + '<constellation id="2"><instance objectid="1"><rz>45</rz></instance></constellation>'))
        self.refuse('curved triangles', amf(amf_object(1, (SIDES, '<edge><v1>0</v1></edge>'))))
        self.refuse('the unit mile is not known', amf(amf_object(1, (SIDES, '')), 'mile'))
        self.refuse('no XML', amf(amf_object(1, (SIDES, '')))[:-9])


class Off(InFiles):
    """Headers, and colours behind faces."""

    def test_each_header(self):
        for header, more in (('OFF', ''), ('COFF', ' 255 0 0 255'), ('NOFF', ' 0 0 1'), ('CNOFF', ' 0 0 1 .5 .5 .5 1'), ('STOFF', ' 0.5 0.5'),
                             ('STCNOFF', ' 0 0 1 1 1 1 1 0 0'), ('', '')):
            rows = [f'{header}', '4 4 6', *(' '.join(map(str, point)) + more for point in TETRAHEDRON), *(f'3 {a} {b} {c}' for a, b, c in SIDES)]
            data = '\n'.join(rows[1 if not header else 0:]) + '\n'
            self.assertEqual(volumes(self.read(data, form=None if header else 'off')), [216], header)
        together = 'COFF 4 4 0\n' + off(TETRAHEDRON, SIDES).split('\n', 2)[2]
        self.assertEqual(volumes(self.read(together)), [216])

    def test_without_a_header_the_name_says_it(self):
        data = off(TETRAHEDRON, SIDES).partition('\n')[2]
        self.assertEqual(volumes(read_file(self.file(data, 'part.off')).model), [216])

    def test_other_dimensions(self):
        for header in ('4OFF', 'nOFF', 'C4OFF', '4nOFF'):
            self.refuse(f'{header} is not read: its points are not in three dimensions', f'{header}\n4 4 0\n')
        self.refuse('OFF BINARY is not read: write OFF as text there, or STL', 'OFF BINARY\n4 4 0\n')

    def test_colours_behind_faces(self):
        lines = off(TETRAHEDRON, SIDES).splitlines()
        for behind in ('255 0 0', '1.0 0.0 0.0', '1 0. 0 0.5'):
            found = read_file(self.file('\n'.join([*lines[:6], f'{lines[6]} {behind}', f'{lines[7]} 7', *lines[8:]]) + '\n'))
            self.assertEqual(found.looks, {('face', 1): Appearance(colour=RED)}, behind)

    def test_faces_of_two_colours_are_not_joined(self):
        points = [(0, 0, 0), (4, 0, 0), (4, 4, 0), (0, 4, 0), (2, 2, 6)]
        faces = [(0, 3, 2), (0, 2, 1), (0, 1, 4), (1, 2, 4), (2, 3, 4), (3, 0, 4)]
        lines = off(points, faces).splitlines()
        self.assertEqual(len(self.read('\n'.join(lines) + '\n').faces), 5)
        coloured = [*lines[:7], f'{lines[7]} 255 0 0', f'{lines[8]} 0 0 255', *lines[9:]]
        self.assertEqual(len(self.read('\n'.join(coloured) + '\n').faces), 6)
        same = [*lines[:7], f'{lines[7]} 255 0 0', f'{lines[8]} 255 0 0', *lines[9:]]
        self.assertEqual(len(self.read('\n'.join(same) + '\n').faces), 5)


class Stl(InFiles):
    """Letters of either case, and binary files of a wrong length."""

    def test_binary_files_of_a_wrong_length(self):
        data = binary_stl(TETRAHEDRON, SIDES)
        head = data[:80]
        for count, facets in ((4, data[84:-50]), (3, data[84:]), (0, data[84:]), (10 ** 9, data[84:])):
            self.refuse(f'it is binary STL whose head says {count:,} facets, and there are {len(facets) // 50}', head + struct.pack('<I', count) + facets, form='stl')
        self.refuse('it is binary STL of 60 bytes: its head is cut short', data[:60], form='stl')
        found = read_file(self.file(data + b'made by hand', 'part.stl'))
        self.assertEqual((volumes(found.model), found.said), ([216], ['12 bytes behind the last facet were left out']))

    def test_capitals(self):
        text = ascii_stl(TETRAHEDRON, SIDES)
        for data in (text.upper(), text.title(), text.replace('\n', '\r\n'), '\n  ' + text):
            self.assertEqual(volumes(self.read(data)), [216])

    def test_names(self):
        data = ascii_stl(TETRAHEDRON, SIDES).replace('solid x', 'solid the lid')
        self.assertEqual(read_file(self.file(data)).looks, {('solid', 1): Appearance('the lid')})

    def test_what_is_no_number(self):
        self.refuse('line 4: no number: blah', ascii_stl([('blah', 0, 0), *TETRAHEDRON[1:]], [SIDES[0]]))

    def test_what_is_no_triangle(self):
        text = ascii_stl(TETRAHEDRON, SIDES)
        self.refuse('facet 1 is no triangle: it has 4 corners', text.replace('endloop', 'vertex 1 2 3\nendloop', 1))
        self.refuse('line 3 is none of an STL file: outre', text.replace('facet normal 0 0 0\nouter loop\n', 'facet normal 0 0 0\nouter\n', 1).replace('outer', 'outre'))


class Obj(InFiles):
    """Materials, and what isn't polygons."""

    MATERIALS = 'newmtl skin\nKd 1 0 0\nnewmtl sky\nKd 0 0 1\n'

    def test_materials_beside_it(self):
        whole = 'mtllib part.mtl\no lid\nusemtl skin\n' + obj(TETRAHEDRON, SIDES)
        path = self.file(whole, 'part.obj')
        found = read_file(path)
        self.assertEqual((found.said, found.looks), (['the material file part.mtl is not beside it: its colours are missing'], {('solid', 1): Appearance('lid')}))
        Path(path).with_suffix('.mtl').write_text(self.MATERIALS)
        found = read_file(path)
        self.assertEqual((found.said, found.looks), ([], {('solid', 1): Appearance('lid', RED)}))
        lines = whole.splitlines()
        two = '\n'.join([*lines[:-1], 'usemtl sky', lines[-1]]) + '\n'
        looks = read_file(self.file(two, 'part.obj')).looks
        self.assertEqual(looks, {('solid', 1): Appearance('lid'), **{('face', face): Appearance(colour=RED) for face in (1, 2, 3)},
                                 ('face', 4): Appearance(colour=BLUE)})

    def test_only_files_beside_it_are_read(self):
        outside = self.file(self.MATERIALS, 'outside.mtl')
        (self.folder / 'in').mkdir()
        for name in ('../outside.mtl', outside):
            path = self.file(f'mtllib {name}\nusemtl skin\n' + obj(TETRAHEDRON, SIDES), 'in/part.obj')
            self.assertEqual(len(read_file(path).said), 1)

    def test_an_object_is_made_of_the_points_that_it_uses(self):
        """All objects have the points of the file in common: each takes no more time for those of the others."""
        with mock.patch.object(Grid, 'whole', autospec=True, side_effect=Grid.whole) as whole:
            model = self.read(''.join(f'o b{i}\n' + obj([(x + 9 * i, y, z) for x, y, z in TETRAHEDRON],
                                                        [tuple(corner + 4 * i for corner in side) for side in SIDES]) for i in range(20)))
        self.assertEqual((volumes(model), [len(call.args[1]) for call in whole.call_args_list]), ([216] * 20, [4] * 20))

    def test_lines_that_go_on(self):
        self.assertEqual(volumes(self.read(obj(TETRAHEDRON, SIDES).replace('f 1/1 ', 'f \\\n1/1 '))), [216])

    def test_what_is_not_read(self):
        self.refuse('curved surfaces', 'cstype bspline\n' + obj(TETRAHEDRON, SIDES))
        self.refuse("line 3: no number: x", obj(TETRAHEDRON, SIDES).replace('v 0 6 0', 'v 6 x 0'))
        for vertex in (0, 5, -5):
            self.refuse(f'line 5: a face has vertex {vertex}, and there are 4', obj(TETRAHEDRON, SIDES).replace('f 1/1', f'f {vertex}'))

    def test_groups_name_solids_where_nothing_else_does(self):
        apart = obj([(x + 9, y, z) for x, y, z in TETRAHEDRON], [(a + 4, b + 4, c + 4) for a, b, c in SIDES])
        data = 'g default\n' + obj(TETRAHEDRON, SIDES) + 'g the lid\n' + apart
        self.assertEqual(read_file(self.file(data)).looks, {('solid', 2): Appearance('the lid')})
        lines = obj(TETRAHEDRON, SIDES).splitlines()
        of_two = '\n'.join([*lines[:4], 'g left', *lines[4:6], 'g right', *lines[6:]]) + '\n'
        self.assertEqual(read_file(self.file(of_two)).looks, {})
        self.assertEqual(read_file(self.file('o box\n' + of_two)).looks, {('solid', 1): Appearance('box')})

    def test_a_pipe_in_the_place_of_its_materials(self):
        os.mkfifo(self.folder / 'part.mtl')
        path = self.file('mtllib part.mtl\n' + obj(TETRAHEDRON, SIDES), 'part.obj')
        self.assertEqual(read_file(path).said, ['the material file part.mtl is not beside it: its colours are missing'])


class ThreeMf(InFiles):
    """Components, units, materials."""

    def test_components(self):
        move = 'transform="1 0 0 0 1 0 0 0 1 {} 0 0"'
        objects = (mesh(1, 'name="wheel"') + f'<object id="2"><components><component objectid="1"/><component objectid="1" {move.format(10)}/></components></object>'
                   f'<object id="3"><components><component objectid="2"/><component objectid="2" {move.format(100)}/></components></object>')
        found = read_file(self.file(three_mf(objects, f'<item objectid="3" {move.format(1000)}/>')))
        least = [min(found.model.face_points(face)[0] for face in found.model.faces_of(solid)) for solid in found.model.solids]
        self.assertEqual(sorted(min(found.model.vertices[v] for f in found.model.faces_of(s) for v in found.model.face_vertices(f))
                                for s in found.model.solids), [(1000, 0, 0), (1010, 0, 0), (1100, 0, 0), (1110, 0, 0)], least)
        self.assertEqual({look.name for look in found.looks.values()}, {'wheel'})

    def test_units(self):
        for unit, factor, size in (('centimeter', 1, 60), ('meter', 1, 6000), ('inch', 5, 762), ('foot', 5, 9144), ('micron', 1000, 6)):
            found = read_file(self.file(three_mf(mesh(1), '<item objectid="1"/>', unit)), scale=factor)
            self.assertEqual(max(found.model.vertices.values()), (size, 0, 0), unit)
            self.assertTrue(found.said[0].startswith(f'lengths in {unit} were multiplied by '), found.said)

    def test_a_mirrored_object(self):
        found = read_file(self.file(three_mf(mesh(1), '<item objectid="1" transform="-1 0 0 0 1 0 0 0 1 0 0 0"/>')))
        self.assertEqual((volumes(found.model), min(found.model.vertices.values())), ([216], (-6, 0, 0)))

    def test_colours(self):
        before = ('<basematerials id="7"><base name="a" displaycolor="#FF0000"/><base name="b" displaycolor="#0000FF80"/></basematerials>'
                  '<m:colorgroup id="8"><m:color color="#0000FF"/></m:colorgroup>')
        found = read_file(self.file(three_mf(mesh(1, 'name="lid" pid="7" pindex="0"'), '<item objectid="1"/>', before=before)))
        self.assertEqual(found.looks, {('solid', 1): Appearance('lid', RED)})
        found = read_file(self.file(three_mf(mesh(1, 'pid="7"', ['', 'p1="1"', '', 'pid="8" p1="0"']), '<item objectid="1"/>', before=before)))
        self.assertEqual(found.looks, {('solid', 1): Appearance('', RED), ('face', 2): Appearance(colour=BLUE), ('face', 4): Appearance(colour=BLUE)})

    PRODUCTION = 'xmlns:p="http://schemas.microsoft.com/3dmanufacturing/production/2015/06" p:path="/{}"'

    def package(self, further, components, unit='millimeter'):
        """A 3MF file with further files, whose item is an object of components."""
        data = io.BytesIO(three_mf(f'<object id="1"><components>{components}</components></object>', '<item objectid="1"/>', unit))
        with zipfile.ZipFile(data, 'a') as archive:
            for name, objects in further.items():
                archive.writestr(name, '<model unit="millimeter" xmlns="http://schemas.microsoft.com/3dmanufacturing/core/2015/02"><resources>'
                                 f'{objects}</resources><build/></model>')
        return data.getvalue()

    def component(self, number, file, words=''):
        return f'<component objectid="{number}" {self.PRODUCTION.format(file)} {words}/>'

    def test_objects_in_further_files(self):
        move = 'transform="1 0 0 0 1 0 0 0 1 10 0 0"'
        further = {'3D/Objects/a.model': mesh(1, 'name="pan"') + mesh(2), '3D/Objects/b.model': mesh(1, 'name="lid"')}
        components = self.component(1, '3D/Objects/a.model') + self.component(1, '3D/Objects/b.model', move)
        found = read_file(self.file(self.package(further, components)))
        self.assertEqual((volumes(found.model), found.looks),
                         ([216, 216], {('solid', 1): Appearance('pan'), ('solid', 2): Appearance('lid')}))
        self.assertEqual(max(found.model.vertices.values()), (16, 0, 0))
        self.refuse('the package has no 3D/c.model, which it names', self.package(further, self.component(1, '3D/c.model')))
        self.refuse('object 3 is used, and is not there', self.package(further, self.component(3, '3D/Objects/a.model')))
        self.refuse('3D/Objects/a.model in it has lengths in millimeter, and the model in inch', self.package(further, components, 'inch'))
        round_ = {'3D/a.model': f'<object id="1"><components>{self.component(1, "3D/a.model")}</components></object>'}
        self.refuse('the components of object 1 go round in a circle', self.package(round_, self.component(1, '3D/a.model')))


class Letters(InFiles):
    """Names in other letters than those of UTF-8."""

    def test_latin_1(self):
        for write in (ascii_stl, lambda *shape: 'o W\u00fcrfel\n' + obj(*shape)):
            data = write(TETRAHEDRON, SIDES).replace('solid x', 'solid W\u00fcrfel')
            for encoding, said in (('utf-8', []), ('utf-8-sig', []), ('latin-1', [READ_AS_LATIN_1])):
                found = read_file(self.file(data.encode(encoding)))
                self.assertEqual((found.said, found.looks), (said, {('solid', 1): Appearance('W\u00fcrfel')}), encoding)
        gbk = read_file(self.file(('o \u4e2d\n' + obj(TETRAHEDRON, SIDES)).encode('gbk')))
        self.assertEqual((volumes(gbk.model), gbk.said), ([216], [READ_AS_LATIN_1]))

    def test_what_is_no_text(self):
        self.refuse('text in UTF-16', obj(TETRAHEDRON, SIDES).encode('utf-16'), form='obj')
        self.refuse('line 2 has bytes that are no text', obj(TETRAHEDRON, SIDES).encode().replace(b'v 6', b'v \0', 1))

    def test_a_file_without_bytes(self):
        self.refuse('the file is empty', b'', form='stl')


class Slips(InFiles):
    """What goes wrong in a reader isn't told as the file's fault alone."""

    def test_where_it_came_up_is_said(self):
        with mock.patch('gwb.formats.step.read.StepLooks', side_effect=AttributeError):
            self.refuse('this is a damaged STEP file, or its reader has a slip: AttributeError at ', step())


class Numbers(unittest.TestCase):
    """How numbers are told."""

    def test_exactly(self):
        for number, text in ((Fraction(1, 3), '1/3'), (Fraction(-3, 2), '-1.5'), (Fraction('1e-7') + 10, '10.0000001'), (10 ** 6, '1000000'),
                             (Fraction('-1.99999988079071044921875'), '-1.99999988079071044921875'), (Fraction(1, 10 ** 8 + 1), '0.0000000099999999000000009..'),
                             (Fraction(-1, 3 ** 40), '-0.0000000000000000000822526..'), (10 ** 999, 'a number of some 1000 digits'), (0, '0'),
                             (Fraction(5, 1000), '0.005')):
            self.assertEqual(told(number), text)


class Kinds(unittest.TestCase):
    """What form a file is taken for."""

    def test_by_its_beginning_or_its_name(self):
        for data, name, form in ((b'ply\n', '', 'ply'), (b'COFF\n', '', 'off'), (b'SOLID a\n', '', 'stl'), (b'<?xml version="1.0"?><AMF>', '', 'amf'),
                                 (b'PK', 'a.amf', 'amf'), (b'PK', '', '3mf'), (b'# by\nv 0 0 0\n', '', 'obj'), (b'3 1 0\n', 'a.OFF', 'off'),
                                 (b'\xef\xbb\xbfISO-10303-21;', '', 'step'), (b'x', 'a.stp', 'step'), (b'x', 'a.p21', 'step')):
            self.assertEqual(form_of(data, name), form)

    def test_forms_that_are_not_read(self):
        for name, told in (('a.gltf', 'it looks like glTF as text, which is not read: write GLB, its form in one file'), ('a.IGS', 'it looks like IGES, which is not read: write STEP there'),
                           ('a.dxf', 'it looks like DXF, which is not read: write STL or 3MF there')):
            with self.assertRaises(NotAMesh) as caught:
                form_of(b'{"asset":{"version":"2.0"}}', name)
            self.assertEqual(str(caught.exception), told)
        self.assertEqual(form_of(b'OFF\n', 'a.dxf'), 'off')

    def test_no_form(self):
        for words in (['/dev/null'], ):
            outcome = run('import', *words)
            self.assertEqual(outcome.status, 3)
            self.assertIn('it is of no form that is known: STEP, GLB, 3MF, PLY, OFF, STL, AMF, OBJ; --form says which', outcome.err)
