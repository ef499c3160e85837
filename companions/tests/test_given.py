"""What a companion is given: a script, replies, a listing and each form that is read, in each companion; names of scripts; comments of any letters."""

import subprocess
from pathlib import Path

from support import InFolder, box, program, run, shells
from test_forms_in import amf, amf_object, ply

from gwb.errors import CompanionError
from gwb.formats.appearance import Appearance, Said, comments
from gwb.formats.mesh import mesh_of
from gwb.formats.forms import FORMS, MESHES, READ
from gwb.formats.step.write import step_text
from gwb.programs.given import REPLIES, SCRIPT, given, kind_of
from gwb.protocol.language import first_answered
from gwb.protocol.listing import read_model

SCRIPT_TEXT = '# Geh\u00e4use\n# solid 1 name "Lid" colour #FF8000\n# solid 2 name "Base"\nblock 1 0 0 0 4 5 6\nblock 2 10 0 0 3 3 3\n'
LOOKS = {('solid', 1): Appearance('Lid', (255, 128, 0)), ('solid', 2): Appearance('Base')}
# The programs that take a file of whatever kind, with words of which each gives another output.
TAKING = {'view': [], 'mesh': ['--form', 'glb'], 'step': [], 'dxf': ['--section', '0', '0', '1', '-1'], 'svg': [], 'check': [], 'script': []}


def listed(script: str) -> bytes:
    """What gwb replies to a script and `list`."""
    ascii_lines = ''.join(line for line in script.splitlines(keepends=True) if line.isascii())
    return subprocess.run([program()], input=(ascii_lines + 'list\n').encode(), capture_output=True, check=True).stdout


def unwritten(model) -> dict:
    """The model's triangles in the forms that no companion writes."""
    mesh = mesh_of(model)
    places, points = {vertex: place for place, vertex in enumerate(mesh.vertices)}, [model.vertices[vertex] for vertex in mesh.vertices]

    def faces(triangles):
        return [[places[vertex] for vertex in triangle] for triangle in triangles]
    objects = (amf_object(solid, (faces(mesh.triangles_of(solid)), ''), points=points) for solid in model.solids)
    return {'ply': ply(points, faces(mesh.triangles), 'ascii'), 'amf': amf(''.join(objects)).encode()}


def files_of(folder: Path) -> dict:
    """The script above, what gwb replies to it, and its model in each form, by what they are."""
    replies = listed(SCRIPT_TEXT)
    model = read_model(replies)
    held = {'script': SCRIPT_TEXT.encode(), 'replies': replies, 'listing': replies.partition(b'ok\nok\n')[2], 'step': step_text(model, LOOKS).encode(),
            **unwritten(model), **{form: FORMS[form].write(model, Said(LOOKS)) for form in MESHES}}
    paths = {}
    for name, data in held.items():
        paths[name] = folder / f'part.{name}'
        paths[name].write_bytes(data)
    return paths


class WithProgram(InFolder):
    """Tests that need gwb too."""

    def setUp(self):
        program()
        super().setUp()


class Pairs(WithProgram):
    """Each file in each companion."""

    def test_all_pairs(self):
        paths = files_of(self.folder)
        self.assertEqual(set(paths), {'script', 'replies', 'listing', *READ})
        for name, path in paths.items():
            found = given(str(path))
            self.assertEqual(found.kind, {'script': SCRIPT}.get(name, name if name in READ else REPLIES))
            beside = self.file('part', listed('\n'.join(run('script', str(path)).out.splitlines()) + '\n'))
            names = self.file('names.gwb', '\n'.join(comments(found.said.looks)) + '\n')
            for companion, words in TAKING.items():
                with self.subTest(f'{companion} {name}'):
                    outcome = run(companion, *words, str(path))
                    self.assertEqual((outcome.status, outcome.err), (0, '' if name != 'glb' else 'gwb-{}: lengths in metre were multiplied by 1000, '
                                                                                                'to millimetres\n'.format(companion)))
                    named = ['--names', names] if companion in ('view', 'mesh', 'step', 'dxf') else []
                    wanted = run(companion, *words, *named, beside).out
                    self.assertEqual(outcome.out, wanted)
                    self.assertTrue(outcome.out)

    def test_the_model_and_the_names_are_those_of_the_script(self):
        for name, path in files_of(self.folder).items():
            found = given(str(path))
            boxes = sorted(tuple((min(axis), max(axis)) for axis in zip(*(found.model.vertices[vertex] for face in found.model.faces_of(solid)
                                                                           for vertex in found.model.face_vertices(face)))) for solid in found.model.solids)
            self.assertEqual(boxes, [((0, 4), (0, 5), (0, 6)), ((10, 13), (0, 3), (0, 3))], name)
            wanted = {'Lid', 'Base'} if name in ('script', 'step', '3mf', 'obj', 'glb') else set()
            self.assertEqual({look.name for look in found.said.looks.values() if look.name}, wanted, name)

    def test_from_standard_input(self):
        """What a file is is said by its bytes: no name is needed."""
        for name, path in files_of(self.folder).items():
            if name != 'script':
                self.assertEqual(kind_of(path.read_bytes(), None), name if name in READ else REPLIES)
        self.assertEqual(kind_of(SCRIPT_TEXT.encode(), '-'), SCRIPT)


class Kinds(WithProgram):
    """What a file is said to be."""

    def test_by_the_first_line(self):
        for data, kind in ((b'block 1 0 0 0 1 1 1', SCRIPT), (b'\n# \xc3\xa4\n  mvfs 1 1 1 1 0 0 0\n', SCRIPT), (b'ok\n', REPLIES),
                           (b'solid 1\nface 1 1 1\n', REPLIES), (b'solid 1\nfacet normal 0 0 1\n', 'stl'), (b'solid 1\nendsolid 1\n', 'stl'),
                           (b'solid lid\n', 'stl'), (b'solid 1\n', REPLIES),
                           (b'# OBJ\nv 0 0 0\n', 'obj'), (b'# made\nOFF\n', 'off'), (b'', REPLIES), (b'# nothing\n', REPLIES)):
            self.assertEqual(kind_of(data, None), kind, data)
        self.assertEqual(kind_of(b'blok 1 0 0 0 1 1 1\n', 'part.gwb'), SCRIPT)

    def test_a_long_comment_is_read_over(self):
        self.assertEqual(first_answered(b'#' + b'x' * 200_000 + b'\nblock 1 0 0 0 1 1 1\n'), b'block 1 0 0 0 1 1 1')

    def test_what_is_none(self):
        for name, data, said in (('part', 'hello\n', '`hello` begins no script, no replies of gwb and no form that is read: STEP, GLB, 3MF'),
                                 ('part.dxf', 'SECTION\n', 'it looks like DXF, which is not read: write STL or 3MF there'),
                                 ('part', bytes(range(256)), 'begins no script'), ('part.step', '', 'the file is empty')):
            path = self.file(name, data)
            for companion in TAKING:
                outcome = run(companion, path)
                self.assertEqual((outcome.status, outcome.out, outcome.err.count('\n')), (3, '', 1), outcome.err)
                self.assertIn(said, outcome.err)


class Units(WithProgram):
    """Files whose points aren't whole millimetres."""

    CUBE = 'OFF\n8 6 0\n' + ''.join(f'{x} {y} {z}\n' for x, y, z in box((0, 0, 0), (1, 1, 1))[0]) + ''.join(
        ' '.join(['4', *(str(vertex - 1) for vertex in face[0])]) + '\n' for face in box((0, 0, 0), (1, 1, 1))[1])

    def test_thousandths(self):
        found = given(self.file('part.off', self.CUBE.replace('1 1 1\n', '1 1 1.0\n').replace('\n1 ', '\n1.25 ').replace('OFF\n1.25', 'OFF\n1')))
        self.assertEqual((found.said.unit.denominator, found.warnings), (1000, ()))
        self.assertEqual({point[0] for point in found.model.vertices.values()}, {0, 1250})

    def test_what_is_rounded_is_said(self):
        path = self.file('part.off', self.CUBE.replace('\n1 ', '\n1.0004 ').replace('\n1.0004 0 1', '\n1.0003 0 1'))
        self.assertEqual(given(path).warnings[0], 'points were moved by 0.0004 mm at most')
        self.assertIn('gwb-step: points were moved', run('step', path).err)

    def test_what_is_wrong_with_it(self):
        path = self.file('part.off', self.CUBE.replace('8 6 0', '8 5 0').rsplit('\n', 2)[0] + '\n')
        for companion in TAKING:
            outcome = run(companion, path)
            self.assertEqual((outcome.status, outcome.err.count('\n')), (3, 1), outcome.err)


class Names(WithProgram):
    """`--names` and `--unit`."""

    def test_a_unit(self):
        path = self.file('part', listed('block 1 0 0 0 3 3 3\n'))
        named = ['--names', self.file('names.gwb', '# unit 1/60\n')]
        for words, size in (([], '3'), (['--unit', '1/1000'], '0.003'), (['--unit', '0.5'], '1.5'), (named, '0.05'), ([*named, '--unit', '2'], '6')):
            self.assertIn(f'\n{size} {size} {size}\n', run('mesh', *words, path).out)
        for companion in ('view', 'step', 'dxf'):
            self.assertNotEqual(*(run(companion, '--unit', unit, path).out for unit in ('1/1000', '1')), companion)
        self.assertEqual([run('mesh', '--unit', unit, path).status for unit in ('0', '-1', '1/0', 'x')], [2] * 4)
        outcome = run('mesh', '--unit', '1', self.file('part.gwb', 'block 1 0 0 0 3 3 3\n'))
        self.assertEqual((outcome.status, outcome.err), (3, 'gwb-mesh: --unit goes with replies of gwb, and this is a script, which says its own\n'))

    def refused(self, script, data=None):
        path = self.file('part', data or listed('block 1 0 0 0 3 3 3\n'))
        for companion in ('view', 'mesh', 'step', 'dxf'):
            outcome = run(companion, '--names', self.file('names.gwb', script), path)
            self.assertEqual((outcome.status, outcome.out, outcome.err.count('\n')), (3, '', 1), outcome.err)
        return outcome.err

    def test_another_script(self):
        self.assertIn('it names solid 7', self.refused('# solid 7 name "Lid"\n'))
        self.assertIn('it names face 9', self.refused('# solid 1 name "Lid"\n# face 9 colour #FF0000\n'))
        self.assertIn('run, it makes another model', self.refused('# solid 1 name "Base plate"\nblock 1 0 0 0 9 9 9\n'))

    def test_its_own_script(self):
        script = '# solid 1 name "Lid"\nblock 1 0 0 0 3 3 3\nlist\nblock 2 9 0 0 1 1 1\n'
        for lines in ('block 1 0 0 0 3 3 3\n', 'block 1 0 0 0 3 3 3\nblock 2 9 0 0 1 1 1\n'):
            outcome = run('step', '--names', self.file('names.gwb', script), self.file('part', listed(lines)))
            self.assertEqual((outcome.status, outcome.err), (0, ''))
            self.assertIn("'Lid'", outcome.out)

    def test_not_with_what_says_its_own(self):
        step = step_text(read_model(shells(((0, 0, 0), (1, 1, 1))).encode()))
        for data, said in (('block 1 0 0 0 3 3 3\n', 'this is a script'), (step, 'this is a file of STEP')):
            self.assertIn(said, self.refused('# solid 1 name "Lid"\n', data))
        self.assertEqual(run('view', '--steps', '--names', 'x', self.file('part', 'block 1 0 0 0 3 3 3\n')).status, 2)


class Letters(WithProgram):
    """Comments that aren't ASCII, which gwb itself answers with a fault."""

    def test_they_are_read_over(self):
        path = self.file('part.gwb', SCRIPT_TEXT)
        for words in ([], ['--steps']):
            outcome = run('view', *words, path)
            self.assertEqual((outcome.status, outcome.err), (0, ''))
        self.assertNotIn('NotAscii', run('view', '--steps', path).out)

    def test_lines_keep_their_numbers(self):
        self.assertIn('line 3: kvfs 9', given(self.file('part.gwb', '# \u00e4\nblock 1 0 0 0 1 1 1\nkvfs 9\n')).warnings[0])

    def test_commands_of_other_letters_are_told(self):
        self.assertIn('NotAscii', given(self.file('part.gwb', 'block 1 0 0 0 1 1 1\nkvfs \u00e4\n')).warnings[0])

    def test_an_empty_script(self):
        with self.assertRaises(CompanionError):
            given(self.file('part.gwb', '# \u00e4\n'))
