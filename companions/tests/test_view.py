"""Pages: what they hold, a script played, and damaged input. What they do in a browser is in test_page.py."""

import json
import re
import subprocess
import tempfile
import unittest
from pathlib import Path

from support import box, examples, lamina, listing, model_in, plate, program, run, scripts, turned

from gwb.drawing.page import page_of, page_of_steps
from gwb.errors import CompanionError
from gwb.geometry.measures import normal, off_plane
from gwb.geometry.vectors import ZERO, cross, dot, subtract, total
from gwb.programs.playing import played
from gwb.protocol.language import is_answered
from gwb.protocol.listing import read_model
from gwb.programs.pipe import Pipe

BLOCK = listing(*box((0, 0, 0), (4, 4, 4)))


def data_of(page):
    """What the page holds of its model."""
    return json.loads(re.search(r'<script id="data" type="application/json">(.*)</script>', page)[1])


def faces_of(page):
    """The rows of the page's faces by number."""
    return {int(number): row for number, row in data_of(page)['frames'][0]['change']['faces'].items()}


def stored_models():
    """The last listings of all scripts with a model, by the scripts' names."""
    models = {}
    for script in scripts():
        try:
            models[script.stem] = read_model(script.with_suffix('.expected').read_bytes())
        except CompanionError:
            continue
    return {name: model for name, model in models.items() if model.solids}


class Pages(unittest.TestCase):
    """What a page holds."""

    def test_it_stands_alone_and_is_small(self):
        for script in (script for script in examples() if script.stem in stored_models()):
            outcome = run('view', str(script.with_suffix('.expected')))
            self.assertEqual((outcome.status, [line for line in outcome.err.splitlines() if 'changed the model after this listing' not in line]), (0, []))
            self.assertLess(len(outcome.out) - len(json.dumps(data_of(outcome.out))), 117_000)
            self.assertNotRegex(outcome.out, r'https?:|src=|@import|fetch\(|<link')
            self.assertTrue(outcome.out.isascii())

    def test_the_triangles_have_the_area_of_their_face(self):
        ringed = {'plate': plate(4), 'lamina': lamina([(0, 0), (9, 0), (9, 9), (0, 9)], [(2, 2), (2, 4), (4, 2)])}
        models = {**stored_models(), **{name: model_in(text) for name, text in ringed.items()}}
        for name, model in models.items():
            for face, (_, _, _, flat, corners) in faces_of(page_of(model)).items():
                if not flat or normal(model, face) == ZERO:
                    continue
                points = [model.vertices[vertex] for vertex in corners]
                areas = [cross(subtract(b, a), subtract(c, a)) for a, b, c in zip(points[::3], points[1::3], points[2::3])]
                with self.subTest(f'{name} {face}'):
                    self.assertEqual(total(areas), normal(model, face))
                    self.assertTrue(all(dot(area, normal(model, face)) > 0 for area in areas))

    def test_things_are_those_of_the_model(self):
        for name, model in stored_models().items():
            with self.subTest(name):
                change = data_of(page_of(model))['frames'][0]['change']
                self.assertEqual({int(edge): tuple(ends) for edge, ends in change['edges'].items()}, model.edges)
                self.assertEqual({int(vertex): tuple(point) for vertex, point in change['vertices'].items()}, model.vertices)
                for face, (solid, loops, plane, flat, _) in faces_of(page_of(model)).items():
                    self.assertEqual((solid, tuple(loop[0] for loop in loops)), (model.faces[face].solid, model.faces[face].loops))
                    self.assertEqual(tuple(map(int, plane[:3])), normal(model, face))
                    self.assertEqual(flat, off_plane(model, face, normal(model, face)) is None)

    def test_a_bent_face_is_cut_too(self):
        points, faces = box((0, 0, 0), (4, 4, 4))
        points[6] = (4, 4, 6)
        row = faces_of(page_of(model_in(listing(points, faces))))[2]
        self.assertEqual((row[3], len(row[4])), (False, 6))

    def test_a_wire_has_no_triangles_and_a_spur_adds_none(self):
        points = 'edge 1 1 2\nedge 2 2 3\nedge 3 3 1\nedge 4 3 4\nvertex 1 0 0 0\nvertex 2 9 0 0\nvertex 3 0 9 0\nvertex 4 30 30 {}\n'
        spurred = 'solid 1\nface 1 1 1\nface 2 1 2\nloop 1 +1 +2 +4 -4 +3\nloop 2 -1 -3 -2\n' + points
        wired = 'solid 1\nface 1 1 1\nloop 1 +1 +2 -2 -1\nedge 1 1 2\nedge 2 2 3\nvertex 1 0 0 0\nvertex 2 9 0 0\nvertex 3 9 9 0\n'
        for text, wanted in ((wired, []), (spurred.format(30), [1, 2, 3])):
            self.assertEqual(faces_of(page_of(model_in(text)))[1][4], wanted)

    def test_a_lone_ring_is_left_out_of_the_triangles(self):
        corner = [(0, 0), (9, 0), (9, 9), (6, 3), (0, 9)]
        text = lamina(corner).replace('face 1 1 1\n', 'face 1 1 1 3\n').replace('edge 1 ', 'loop 3 at 6\nedge 1 ', 1) + 'vertex 6 2 2 0\n'
        model = model_in(text)
        points = [model.vertices[vertex] for vertex in faces_of(page_of(model))[1][4]]
        areas = [cross(subtract(b, a), subtract(c, a)) for a, b, c in zip(points[::3], points[1::3], points[2::3])]
        self.assertEqual((len(areas), total(areas)), (3, normal(model, 1)))
        self.assertTrue(all(area[2] > 0 for area in areas))

    def test_a_title_can_hold_anything(self):
        page = page_of(model_in(BLOCK), '</script>"\u00e9')
        self.assertIn('&lt;/script&gt;&quot;&#233;', page)
        self.assertTrue(page.isascii())

    def test_a_solid_inside_out_is_named(self):
        points, faces = box((0, 0, 0), (4, 4, 4))
        with tempfile.TemporaryDirectory() as folder:
            path = Path(folder, 'part')
            path.write_text(listing(points, turned(faces)))
            self.assertIn('solid 1 is inside out', run('view', str(path)).err)
            path.write_text(BLOCK)
            self.assertEqual(run('view', str(path)).err, '')

    def test_carriage_returns_are_read(self):
        with tempfile.TemporaryDirectory() as folder:
            path = Path(folder, 'part')
            path.write_bytes(BLOCK.encode())
            plain = run('view', str(path)).out
            path.write_bytes(BLOCK.replace('\n', '\r\n').encode())
            self.assertEqual(run('view', str(path)).out, plain)


class Steps(unittest.TestCase):
    """A script played."""

    def setUp(self):
        program()

    def test_the_changes_lead_to_each_model(self):
        for script in scripts():
            steps, held = played(script.read_bytes()).steps, {'faces': {}, 'edges': {}, 'vertices': {}}
            pipe = Pipe(program())
            self.addCleanup(pipe.close)
            for frame, line in zip(data_of(page_of_steps(steps))['frames'][1:], filter(is_answered, script.read_bytes().split(b'\n'))):
                pipe.ask(line.decode('utf-8', 'surrogateescape'))
                for kind, rows in frame['change'].items():
                    held[kind].update(rows)
                    held[kind] = {number: row for number, row in held[kind].items() if row is not None}
                self.assertEqual(held, data_of(page_of(pipe.model()))['frames'][0]['change'], f'{script.stem}: {line}')

    def test_commands_that_a_mark_makes_one_step_are_one_row(self):
        script = (b'# unit 1/60\nblock 1 0 0 0 4 4 4\n# draft of 2 commands: boss\nblock 2 9 0 0 1 1 1\n# \xc3\xa4\nkvfs 9\n# step of 3 commands\n'
                  b'block 3 0 9 0 1 1 1\n# draft of 2 commands\nblock 4 9 9 0 1 1 1\nsplit 4 0 0 2 -1 5\nlist\n')
        self.assertEqual([step.row for step in played(script).steps], ['block 1 0 0 0 4 4 4', 'boss', '', '3 commands: block split', '', '', 'list'])

    def test_refusals_are_in_words(self):
        steps = played(b'# a block\nblock 1 0 0 0 4 4 4\nblock 1 0 0 0 4 4 4\r\nhello\n\nlist\n').steps
        self.assertEqual([(step.line, step.reply) for step in steps], [
            ('block 1 0 0 0 4 4 4', 'ok'),
            ('block 1 0 0 0 4 4 4', 'refused 6 1: SolidTaken: solid 1 is in use'),
            ('hello', 'fault 1: BadWord: no command is called `hello`'),
            ('list', 'a listing of 33 lines')])
        self.assertEqual([step.is_complaint for step in steps], [False, True, True, False])

    def test_the_program(self):
        outcome = run('view', '--steps', str(examples()[0]))
        self.assertEqual((outcome.status, outcome.err), (0, ''))
        self.assertIn('"steps":true', outcome.out)


class Damaged(unittest.TestCase):
    """Input that can't be shown: one clear line and a status."""

    def refused(self, data, *words):
        with tempfile.TemporaryDirectory() as folder:
            path = Path(folder, 'input')
            path.write_bytes(data)
            outcome = run('view', *words, str(path))
        self.assertEqual((outcome.status, outcome.out, outcome.err.count('\n')), (3, '', 1), outcome.err)
        self.assertTrue(outcome.err.startswith('gwb-view: '))
        return outcome.err

    def test_damaged_listings(self):
        whole = BLOCK.encode()
        lines = BLOCK.splitlines(keepends=True)
        for name, data in {
                'nothing': b'', 'no listing': b'ok\nvolume 6\n', 'an empty model': b'empty\n', 'words': b'hello world\n',
                'cut in a line': whole[:-3], 'cut between lines': ''.join(lines[:-1]).encode(), 'bytes': bytes(range(256)),
                'a byte above 127': whole + b'\xff\n', 'a line twice': ''.join(lines[:3] + lines[2:]).encode(),
                'out of order': ''.join([lines[0], lines[2], lines[1], *lines[3:]]).encode(),
                'a number too long': whole.replace(b'vertex 1 0', b'vertex 1 ' + b'9' * 400),
                'letters': whole.replace(b'edge 1 ', b'edge x '),
                'a vertex that is not there': whole.replace(b'edge 1 1', b'edge 1 77'), 'a tail': whole + b'edge\n',
                'zeros': b'\0' * 100, 'a half-edge twice': whole.replace(b'loop 1 +1', b'loop 1 +2')}.items():
            with self.subTest(name):
                self.refused(data)

    def test_replies_in_place_of_a_script(self):
        for data in (BLOCK.encode(), b'ok\nok\n', b'refused 1 0\n', BLOCK.replace('\n', '\r\n').encode()):
            self.assertIn('these are replies', self.refused(data, '--steps'))
        self.assertIn('no command', self.refused(b'# nothing\n\n', '--steps'))

    def test_a_script_without_a_solid(self):
        program()
        self.assertIn('the model is empty', self.refused(b'block 1 0 0 0 1 1 1\nundo\n'))
        self.assertIn('there is no solid 2', self.refused(b'block 1 0 0 0 1 1 1\n', '--solid', '2'))

    def test_words(self):
        for words in (['--solid', 'x'], ['--nonsense'], ['--steps', '--solid', '1']):
            self.assertEqual(run('view', *words).status, 2)
        self.assertEqual(run('view', '/nowhere/at/all').status, 3)


class Scripts(unittest.TestCase):
    """A script in the place of replies is run to its end."""

    SCRIPT = (b'# solid 1 name "Lid" colour #FF8000\n# unit 1/6\nblock 1 0 0 0 4 4 4\nlist\nmev +1 +1 3 2 9 9 9\n'
              b'split 1 0 0 1 -2 2\nblock 3 9 9 9 1 1 1\n')

    def viewed(self, data, *words):
        with tempfile.TemporaryDirectory() as folder:
            path = Path(folder, 'part')
            path.write_bytes(data)
            outcome = run('view', *words, str(path))
        self.assertEqual(outcome.status, 0, outcome.err)
        return outcome

    def test_its_end_is_shown(self):
        program()
        outcome = self.viewed(self.SCRIPT)
        data = data_of(outcome.out)
        self.assertEqual(len(data['frames']), 1)
        self.assertEqual((data['names'], data['colours']), ({'s1': 'Lid'}, {'s1': '#ff8000'}))
        self.assertIn('<title>part</title>', outcome.out)
        self.assertEqual(data['unit'], ['1', '6'])
        self.assertEqual(outcome.err, 'gwb-view: line 5: mev +1 +1 3 2 9 9 9: refused 9 3: EdgeTaken: edge 3 is in use\n')
        listed = subprocess.run([program()], input=self.SCRIPT + b'list\n', capture_output=True, check=False).stdout
        self.assertEqual(data['frames'][0]['change'], data_of(self.viewed(listed).out)['frames'][0]['change'])
        self.assertIn('<title>Lid</title>', self.viewed(self.SCRIPT, '--solid', '1').out)
        self.assertEqual(data_of(self.viewed(self.SCRIPT, '--solid', '2').out)['frames'][0]['change'],
                         data_of(self.viewed(listed, '--solid', '2').out)['frames'][0]['change'])

    def test_many_complaints(self):
        program()
        err = self.viewed(b'block 1 0 0 0 1 1 1\n' + b'kvfs 9\n' * 8).err.splitlines()
        self.assertEqual((len(err), err[-1]), (6, 'gwb-view: 3 more complaints'))

    def test_names_of_a_script(self):
        program()
        listed = subprocess.run([program()], input=b'block 1 0 0 0 4 4 4\nlist\n', capture_output=True, check=True).stdout
        with tempfile.TemporaryDirectory() as folder:
            script = Path(folder, 'names.gwb')
            script.write_bytes(self.SCRIPT)
            for words in (['--names', str(script)], []):
                data = data_of(self.viewed(listed, *words).out)
                self.assertEqual(data['names'], {'s1': 'Lid'} if words else {})


class Later(unittest.TestCase):
    """Commands after the last listing are told."""

    def test_how_many(self):
        for replies, said in ((BLOCK, ''), (BLOCK + 'volume 6\nrefused 1 0\n', ''), ('ok\n' + BLOCK, ''), (BLOCK + 'ok\n' + BLOCK, ''),
                              (BLOCK + 'ok\n', '1 command changed'), (BLOCK + 'ok\n' * 1200 + 'volume 6\n', '1,200 commands changed')):
            with tempfile.TemporaryDirectory() as folder:
                path = Path(folder, 'replies')
                path.write_text(replies)
                for name in ('view', 'check', 'svg', 'mesh', 'step', 'dxf'):
                    told = f'gwb-{name}: warning: {said} the model after this listing: `list` at the end of the script lists what it leaves\n'
                    outcome = run(name, str(path))
                    self.assertEqual((outcome.status, outcome.err), (0, told if said else ''))
