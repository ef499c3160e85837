"""Files of polygons as scripts: round trips, shapes by OpenSCAD, what is no closed surface, damaged files."""

import io
import struct
import subprocess
import zipfile
from fractions import Fraction

from support import STORED, InFolder, box, examples, listing, model_in, program, run, turned

from gwb.checks.check import check
from gwb.errors import CompanionError, Unfit
from gwb.formats.importing import imported
from gwb.formats.mesh import mesh_of
from gwb.formats.forms import FORMS
from gwb.formats.models_of_parts import model_of_parts
from gwb.formats.parts import Part
from gwb.formats.polygon_files import read_parts
from gwb.formats.step.write import step_text
from gwb.geometry.measures import six_volume
from gwb.programs.names_of_script import Said
from gwb.protocol.listing import read_model
from gwb.scripts.inversion import script_of

SHAPES = {'cone': None, 'holed_plate': 6 * 3 * (41 * 41 - 25 * 16), 'nested_boxes': 6 * (1000 - 512 + 64), 'ring': None}
TETRAHEDRON = [(0, 0, 0), (6, 0, 0), (0, 6, 0), (0, 0, 6)]
SIDES = [(0, 2, 1), (0, 1, 3), (1, 2, 3), (0, 3, 2)]


def off(points, faces):
    """An OFF file."""
    rows = [f'OFF\n{len(points)} {len(faces)} 0', *(' '.join(map(str, point)) for point in points),
            *(' '.join(map(str, (len(face), *face))) for face in faces)]
    return '\n'.join(rows) + '\n'


def ascii_stl(points, faces):
    """An STL file as text."""
    facets = ''.join('facet normal 0 0 0\nouter loop\n' + ''.join('vertex {} {} {}\n'.format(*points[v]) for v in face)
                     + 'endloop\nendfacet\n' for face in faces)
    return f'solid x\n{facets}endsolid x\n'


def binary_stl(points, faces):
    """An STL file as bytes."""
    rows = [struct.pack('<12fH', 0, 0, 0, *(part for v in face for part in points[v]), 0) for face in faces]
    return bytes(80) + struct.pack('<I', len(rows)) + b''.join(rows)


def obj(points, faces):
    """An OBJ file."""
    return ''.join('v {} {} {}\n'.format(*p) for p in points) + ''.join(f'f {a + 1}/1 {b + 1}//2 {c + 1}\n' for a, b, c in faces)


def three_mf(points, faces, item='<item objectid="1"/>'):
    """A 3MF file."""
    rows = ''.join('<vertex x="{}" y="{}" z="{}"/>'.format(*p) for p in points)
    sides = ''.join('<triangle v1="{}" v2="{}" v3="{}"/>'.format(*face) for face in faces)
    text = ('<model unit="millimeter" xmlns="http://schemas.microsoft.com/3dmanufacturing/core/2015/02"><resources><object id="1"><mesh>'
            f'<vertices>{rows}</vertices><triangles>{sides}</triangles></mesh></object></resources><build>{item}</build></model>')
    file = io.BytesIO()
    with zipfile.ZipFile(file, 'w') as archive:
        archive.writestr('3D/3dmodel.model', text)
    return file.getvalue()


def step(points=None, faces=None):
    """A STEP file of a block."""
    return step_text(model_in(listing(*box((0, 0, 0), (4, 5, 6)))))


WRITERS = {'off': off, 'obj': obj, 'stl': binary_stl, '3mf': three_mf, 'step': step}


def as_bytes(data):
    return data.encode() if isinstance(data, str) else data


def volumes(model):
    """Six times the volumes of the solids."""
    return sorted(six_volume(model, model.faces_of(solid)) for solid in model.solids)


class InFiles(InFolder):
    """What the tests share."""

    def file(self, data, name='part'):
        return super().file(name, data)

    def read(self, data, **words):
        return imported(self.file(data), **words)

    def accepted(self, model):
        lines = script_of(model)
        wrote = subprocess.run([program()], input='\n'.join([*lines, 'list\n']).encode(), capture_output=True, check=False).stdout
        self.assertEqual(wrote.count(b'ok\n'), len(lines))
        self.assertEqual(read_model(wrote), model)

    def refuse(self, part, data, **words):
        with self.assertRaises(CompanionError) as caught:
            self.read(data, **words)
        self.assertIn(part, str(caught.exception))


class RoundTrips(InFiles):
    """Written by gwb-mesh and gwb-step, and read."""

    def test_the_examples(self):
        seen = 0
        for script in examples():
            model = read_model(script.with_suffix('.expected').read_bytes())
            for form, text in self.forms(model) if model.faces else ():
                with self.subTest(f'{script.stem} {form}'):
                    back = self.read(text)
                    self.accepted(back)
                    self.assertEqual(volumes(back), volumes(model))
                    if form == 'step':
                        self.assertEqual([len(kind) for kind in (back.faces, back.loops, back.edges, back.vertices)],
                                         [len(kind) for kind in (model.faces, model.loops, model.edges, model.vertices)])
                    seen += 1
        self.assertGreaterEqual(seen, 12)

    def forms(self, model):
        try:
            mesh_of(model)
            yield 'step', step_text(model)
        except Unfit:
            return
        for form in ('off', 'obj', 'stl', '3mf'):
            if form in ('obj', '3mf') or len(model.solids) == 1:
                yield form, FORMS[form].write(model, Said())

    def test_voids(self):
        points, faces = box((0, 0, 0), (9, 9, 9))
        more, others = box((2, 2, 2), (5, 5, 5), 9)
        model = model_in(listing(points + more, faces + turned(others)))
        for form, text in self.forms(model):
            back = self.read(text)
            self.assertEqual((volumes(back), len(back.faces), len(back.solids)), ([6 * (729 - 27)], 12, 1), form)

    def test_shells_that_lie_apart(self):
        points, faces = box((0, 0, 0), (9, 9, 9))
        more, others = box((9, 9, 9), (12, 12, 12), 9)
        hollow, walls = box((2, 2, 2), (5, 5, 5), 17)
        text = step_text(model_in(listing(points + more + hollow, faces + others + turned(walls))))
        back = self.read(text)
        self.accepted(back)
        self.assertEqual((volumes(back), len(back.shells(1))), ([6 * (729 + 27 - 27)], 3))
        self.assertEqual(volumes(self.read(text.replace("'gwb-step'", "'elsewhere'"))), [6 * 27, 6 * (729 - 27)])

    def test_shapes_by_openscad(self):
        self.assertEqual({path.stem for path in (STORED / 'openscad').glob('*.scad')}, set(SHAPES))
        for name, volume in SHAPES.items():
            path = STORED / 'openscad' / f'{name}.off'
            with self.subTest(name):
                rounded = name in ('ring',)
                model = imported(str(path), rounded=rounded)
                mesh = model_of_parts(read_parts(path.read_bytes(), 'off'), Fraction(1), rounded, True).model
                self.assertEqual(sum(volumes(model)), sum(volumes(mesh)))
                self.assertLess(len(model.faces), len(mesh.faces))
                self.accepted(model)
                if volume is not None:
                    self.assertEqual(sum(volumes(model)), volume)
                if not rounded:
                    self.assertEqual(check(model).findings, [])


class Forms(InFiles):
    """Each form, and the words."""

    def test_each_form(self):
        for write in (off, obj, ascii_stl, binary_stl, three_mf):
            model = self.read(write(TETRAHEDRON, SIDES))
            self.assertEqual((volumes(model), len(model.edges)), ([216], 6), write.__name__)
            self.accepted(model)

    def test_3mf_transforms(self):
        model = self.read(three_mf(TETRAHEDRON, SIDES, '<item objectid="1" transform="0 1 0 -1 0 0 0 0 1 10 20 30"/>'))
        self.assertEqual(sorted(model.vertices.values()), [(4, 20, 30), (10, 20, 30), (10, 20, 36), (10, 26, 30)])

    def test_scale_and_round(self):
        data = off([(0, 0, 0), (0.5, 0, 0), (0, 0.5, 0), (0, 0, '5e-1')], SIDES)
        self.refuse('not whole', data)
        self.assertEqual(volumes(self.read(data, scale=Fraction(2))), [1])
        outcome = run('import', '--scale', '3', '--round', self.file(data))
        self.assertEqual((outcome.status, outcome.err), (0, 'gwb-import: points were moved by 0.5 at most\n'))
        self.assertEqual(run('import', '--scale', '0', self.file(data)).status, 2)

    def test_noise(self):
        noise = [('-4.44e-16', 0, 0), (6, '1e-6', 0), (0, 6, 0), (0, 0, 6)]
        for points, within, told in ((noise, None, 'is not whole'), (noise, '0.0000009', 'the point 6 0.000001 0 is not whole: --scale'),
                                     (noise, '0.000001', None), ([*noise[:3], ('1e-6', '1e-6', 6)], '0.000001', 'is not whole'),
                                     ([*noise[:3], (0, 0, '5.5')], '0.1', 'is not whole')):
            outcome = run('import', *(['--within', within] if within else []), self.file(off(points, SIDES)))
            self.assertIn(told or 'gwb-import: points were moved by 0.000001 at most', outcome.err)
            self.assertEqual(outcome.status, 3 if told else 0)
        self.assertEqual(volumes(imported(self.file(off(noise, SIDES)), within=Fraction(1, 10 ** 6))), [216])
        for word in ('0', '-1', 'x', '1/0'):
            self.assertEqual(run('import', '--within', word, self.file(off(noise, SIDES))).status, 2, word)

    def test_far_points(self):
        data = off([(0, 0, 0), (0.5, 0, 0), (0, 0.5, 0), (0, 0, '5e-1')], SIDES)
        self.refuse('past 1,000,000,000', data, scale=Fraction(10 ** 10))

    def test_triangles_are_kept(self):
        points, faces = box((0, 0, 0), (4, 4, 4))
        data = FORMS['off'].write(model_in(listing(points, faces)), Said())
        self.assertEqual((len(self.read(data).faces), len(self.read(data, keep_triangles=True).faces)), (6, 12))

    def test_inside_out(self):
        model = self.read(off(TETRAHEDRON, [face[::-1] for face in SIDES]))
        self.assertEqual(volumes(model), [216])
        self.accepted(model)

    def test_objects_are_solids(self):
        apart = [(x + 9, y, z) for x, y, z in TETRAHEDRON]
        text = 'o a\n' + obj(TETRAHEDRON, SIDES) + 'o b\n' + obj(apart, [(a + 4, b + 4, c + 4) for a, b, c in SIDES])
        self.assertEqual(volumes(self.read(text)), [216, 216])


class Touching(InFiles):
    """Shells that touch at a vertex, along an edge or with a face: each is one, whatever the form says of solids."""

    def blocks(self, *corners):
        points, faces = [], []
        for low, high in corners:
            more, others = box(low, high, len(points))
            points += more
            faces += [face[0] for face in others]
        return off(points, faces)

    def both(self, data, *sizes):
        for text in (data, FORMS['stl'].write(self.read(data), Said())):
            back = self.read(text)
            self.assertEqual(volumes(back), sorted(6 * size for size in sizes))
            self.accepted(back)
            self.assertEqual(check(back).findings, [])

    def test_at_a_vertex(self):
        other = [(-x, -y, -z) for x, y, z in TETRAHEDRON]
        sides = [(a + 4, c + 4, b + 4) for a, b, c in SIDES]
        self.both(off(TETRAHEDRON + other, SIDES + sides), 36, 36)

    def test_along_an_edge(self):
        self.both(self.blocks(((0, 0, 0), (2, 2, 2)), ((2, 2, 0), (5, 5, 2))), 8, 18)

    def test_with_a_face(self):
        self.both(self.blocks(((0, 0, 0), (2, 2, 2)), ((2, 0, 0), (5, 2, 2))), 8, 12)

    def test_four_around_an_edge(self):
        self.both(self.blocks(((0, 0, 0), (2, 2, 2)), ((2, 0, 0), (4, 2, 2)), ((0, 2, 0), (2, 4, 2)), ((2, 2, 0), (4, 4, 2))), 8, 8, 8, 8)

    def test_a_solid_that_touches_itself(self):
        """Five cubes that go round an edge, which two of them have in common: one solid, with two edges there."""
        walls = [box((x, y, z), (x + 2, y + 2, z + 2)) for x, y, z in ((0, 0, 0), (0, 0, 2), (2, 0, 2), (2, 2, 2), (2, 2, 0))]
        quads = [tuple(points[vertex - 1] for vertex in face[0]) for points, faces in walls for face in faces]
        outside = [quad for quad in quads if sum(set(other) == set(quad) for other in quads) == 1]
        points = sorted({point for quad in outside for point in quad})
        back = self.read(off(points, [[points.index(point) for point in quad] for quad in outside]))
        self.assertEqual(volumes(back), [6 * 5 * 8])
        self.assertEqual(sum({back.vertices[end] for end in ends} == {(2, 2, 0), (2, 2, 2)} for ends in back.edges.values()), 2)
        self.accepted(back)


class Nothing(InFiles):
    """Parts and faces of which nothing is left: said, and the status is 1."""

    def said(self, status, *lines, data, words=()):
        outcome = run('import', *words, self.file(data))
        self.assertEqual((outcome.status, outcome.err.splitlines()), (status, [f'gwb-import: {line}' for line in lines]))
        return outcome.out

    def test_a_part_that_rounding_takes_away(self):
        small = [(x / 100, y / 100, z / 100) for x, y, z in TETRAHEDRON]
        said = ['points were moved by 0.06 at most', '4 polygons of fewer than three different corners left out']
        gone = 'warning: part {} comes to nothing and is left out: no face of it keeps three corners'
        self.assertEqual(self.said(1, *said, gone.format(1), data=off(small, SIDES), words=['--round']), '')
        both = 'o pan\n' + obj(TETRAHEDRON, SIDES) + 'o lid\n' + obj(small, [(a + 4, b + 4, c + 4) for a, b, c in SIDES])
        out = self.said(1, *said, gone.format('2 (lid)'), data=both, words=['--round'])
        self.assertIn('# solid 1 name "pan"', out)
        self.assertNotIn('"lid"', out)

    def test_a_part_that_rounding_flattens(self):
        self.said(1, 'points were moved by 0.4 at most', '2 polygons of fewer than three different corners left out', 'warning: solid 1 has no volume',
                  data=off([(0, 0, 0), (6, 0, 0), (0, 6, 0), ('0', 0, '0.4')], SIDES), words=['--round'])

    def test_a_transform_of_zeros(self):
        item = '<item objectid="1"/><item objectid="1" transform="0 0 0 0 0 0 0 0 0 0 0 0"/>'
        self.said(1, '4 polygons of fewer than three different corners left out',
                  'warning: part 2 comes to nothing and is left out: no face of it keeps three corners', data=three_mf(TETRAHEDRON, SIDES, item))

    def test_faces_on_a_line(self):
        line = [(0, 0, 0), (1, 0, 0), (2, 0, 0)]
        self.refuse('open edge', off(line, [(0, 1, 2)]))
        self.said(1, 'warning: 2 faces have no area: face 1 has no area (--repair mends what can be mended)', 'warning: solid 1 has no volume',
                  data=off(line, [(0, 1, 2), (2, 1, 0)]))

    def test_bent_faces(self):
        points, faces = box((0, 0, 0), (4, 4, 4), 0)
        points[6] = (4, 4, 5)
        self.said(1, "warning: face 2 isn't flat: vertex 6 lies off its plane (--repair mends what can be mended)",
                  data=off(points, [face[0] for face in faces]))


class Refused(InFiles):
    """What is no closed surface, and damaged files."""

    def test_no_closed_surface(self):
        self.refuse('open edge: the edge from (', off(TETRAHEDRON, SIDES[:3]))
        self.refuse('edge of 3 faces', off(TETRAHEDRON, SIDES + [SIDES[0]]))
        self.refuse('face that turns', off(TETRAHEDRON, SIDES[:3] + [SIDES[3][::-1]]))

    def test_where_and_how_many(self):
        self.refuse('open edge: the edge from (0 0 0) to (0 6 0) has one face, and 2 more, round 1 hole', off(TETRAHEDRON, SIDES[:3]))
        points, faces = box((0, 0, 0), (4, 4, 4))
        open_box = [[vertex - 1 for vertex in face[0]] for face in faces][2:]
        self.refuse('and 7 more, round 2 holes', off(points, open_box))
        self.refuse('face that turns: at the edge from (6 0 0) to (0 6 0) both faces run the same way, and 2 more: --repair turns faces',
                    off(TETRAHEDRON, [SIDES[0][::-1], *SIDES[1:]]))
        both = off(TETRAHEDRON, [SIDES[0], SIDES[1], SIDES[2][::-1]])
        self.refuse('has one face, and 2 more; ', both)
        self.refuse('; face that turns: ', both)
        named = 'o lid\n' + obj(TETRAHEDRON, SIDES) + 'o pan\n' + obj([], SIDES[1:])
        self.refuse('part 2 (pan): open edge', named)

    def damaged(self, form, good):
        middle = len(good) // 2
        yield from (b'', b'\n', b'hello\n', bytes(range(256)), b'\0' * 100, good[::-1], good.decode('latin-1').encode('utf-16'),
                    good[:middle], good[:-20], good[middle:], good[:middle] + b'\xff' * 9 + good[middle + 9:])
        if form == '3mf':
            yield from (three_mf(TETRAHEDRON, [(0, 1, 77)]), three_mf([('nan', 0, 0)] * 4, SIDES), three_mf(TETRAHEDRON, SIDES, ''))
        elif form == 'stl':
            number = struct.pack('<f', 6)
            yield from (good.replace(number, struct.pack('<f', value)) for value in (float('nan'), float('inf'), 0.5))
        elif form == 'text of stl':
            yield from (good.replace(b'6', b'nan'), good.replace(b'vertex', b'corner'), good.replace(b'endloop', b''))
        else:
            yield from (good.replace(b'6', b'nan'), good.replace(b'2', b'77'), good.replace(b'3', b''))

    def test_damaged_files_have_one_line(self):
        for form, write in (*WRITERS.items(), ('text of stl', ascii_stl)):
            kinds = list(self.damaged(form, as_bytes(write(TETRAHEDRON, SIDES))))
            self.assertEqual(len(set(kinds)), 14, form)
            for place, data in enumerate(kinds):
                with self.subTest(f'{form} {place}'):
                    outcome = run('import', '--form', form.split()[-1], self.file(data))
                    self.assertEqual((outcome.status, outcome.out, outcome.err.count('\n')), (3, '', 1), outcome.err)
                    self.assertTrue(outcome.err.startswith('gwb-import: ') and 'Traceback' not in outcome.err)

    def test_numbers_past_those_of_floats(self):
        for places in ((0.5, '1e999', 0), ('1e999', 0, 0)):
            outcome = run('import', '--form', 'off', self.file(off([places, *TETRAHEDRON[1:]], SIDES)))
            self.assertEqual((outcome.status, outcome.out, outcome.err.count('\n')), (3, '', 1), outcome.err)

    def test_files_that_are_not_there(self):
        outcome = run('import', '/nowhere/part.off')
        self.assertEqual((outcome.status, outcome.out), (3, ''))

    def test_parts_without_faces(self):
        self.assertEqual(model_of_parts([Part([], [])], Fraction(1), False, False).model.faces, {})
