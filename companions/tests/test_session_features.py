"""What Python says of features: what methods return and refuse, selections, and scripts that are saved and loaded."""

import pickle
import tempfile
import unittest
from fractions import Fraction
from pathlib import Path
from unittest import mock

from support import STEP, library, opened, step_of

from gwb import CompanionError, Impossible, NotOne, Refused, Unfit, Workbench
from gwb.programs.playing import played
from gwb.scripts.marks import mark_in


class OnABlock(unittest.TestCase):
    """A block of 10 by 10 by 10."""

    def setUp(self):
        self.bench = opened(self, step_of(self, 'test_a_condition_of_a_command_says_what_it_means', 'test_parts_are_those_of_the_listing'))
        self.block = self.bench.block((0, 0, 0), (10, 10, 10))

    def test_what_was_met(self):
        bench = opened(self, 1)
        block = bench.block((0, 0, 0), (10, 10, 10))
        edge = ('edge', bench.edges(between=(block.top, block.sides[1])).one().number)
        corner = ('vertex', bench.vertices(at=(10, 10, 10)).one().number)
        ring = bench.pocket(block.top, [(3, 3, 10), (5, 3, 10), (5, 5, 10), (3, 5, 10)], 1).loop
        deep = [(6, 6, 10), (8, 6, 10), (8, 8, 10), (6, 8, 10)]
        for points, depth, cause, hit, point in (
                ([(1, 1, 10), (12, 1, 10), (1, 2, 10)], 1, 'EdgeCrossed', edge, None),
                ([(6, 1, 10), (10, 10, 10), (6, 8, 10)], 1, 'VertexTouched', corner, (10, 10, 10)),
                ([(4, 4, 10), (8, 4, 10), (8, 8, 10), (4, 8, 10)], 1, 'RingMet', ('loop', ring), None),
                ([(20, 20, 10), (22, 20, 10), (20, 22, 10)], 1, 'WhollyOutside', None, None),
                (deep, 10, 'TouchesFace', ('face', block.bottom), None)):
            with self.subTest(cause), self.assertRaises(Impossible) as caught:
                bench.pocket(block.top, points, depth)
            error = pickle.loads(pickle.dumps(caught.exception))
            self.assertEqual((error.cause, error.hit, error.point), (cause, hit, point))
            self.assertIn(f'{hit[0]} {hit[1]}' if hit else 'face', str(error))

    def test_what_features_up_to_edges_return(self):
        """And faces that a slot doesn't touch keep their numbers."""
        bench, top = self.bench, self.block.top
        before, edge = bench.listing(), bench.edges(between=(top, self.block.sides[1])).one()
        slot = bench.slot(top, (4, 0, 10), (4, 10, 10), 2, 4)
        after = bench.listing()
        self.assertEqual([after.faces[face] for face in (2, 4, 6)], [before.faces[face] for face in (2, 4, 6)])
        self.assertTrue(set(before.faces) < set(after.faces) and set(before.edges) < set(after.edges))
        self.assertEqual((bench.plane(slot.floor[0]), {bench.face(wall).normal for wall in slot.walls}), ((0, 0, 1, -6, True), {(1, 0, 0), (-1, 0, 0)}))
        groove = bench.groove(self.block.bottom, (4, 0, 0), (4, 10, 0), 2, 1)
        self.assertEqual((groove.floor, {bench.face(wall).normal for wall in groove.walls}), ((), {(1, 0, -1), (-1, 0, -1)}))
        self.assertEqual(bench.face(bench.chamfer(edge, 1)).normal, (1, 0, 1))
        pad = bench.pad(self.block.sides[3], [(0, 2, 2), (0, 4, 2), (0, 4, 4), (0, 2, 4)], 3)
        self.assertEqual((bench.plane(pad.top[0]), len(pad.walls)), ((-1, 0, 0, -3, True), 4))

    def test_a_union_leaves_rings_where_they_are(self):
        plate, commands = self.bench.block((0, 0, 20), (100, 60, 10)), []
        for pockets in (0, 5):
            for x in range(6, 20 * pockets, 20):
                self.bench.pocket(plate.top, [(x, 30, 30), (x + 5, 30, 30), (x + 5, 35, 30), (x, 35, 30)], 4)
            before = self.bench.script().count('\n')
            self.bench.union([plate, self.bench.block((58, -3, 30), (2, 6, 5))])
            commands.append(self.bench.script().count('\n') - before)
            self.bench.undo()
            self.bench.undo()
        self.assertLessEqual(commands[1], commands[0] + 8)

    def test_what_was_met_is_said_by_what_would_do(self):
        bench = opened(self, 1)
        wedge = bench.profile([(0, 0, 0), (16, 0, 0), (0, 0, 12)], along=(0, -10, 0))
        slope = bench.faces(solid=wedge.solid, normal=(3, 0, 4)).one()
        outline = [(12, -2, 3), (8, -2, 6), (8, -5, 6)]
        with self.assertRaises(Impossible) as caught:
            bench.pocket(slope, outline, 2)
        self.assertEqual((caught.exception.cause, caught.exception.advice), ('DepthFraction', ('refine(5) makes the step as fine as that',)))
        self.assertIn('all must be 5 times as large', str(caught.exception))
        bench.refine(5)
        self.assertEqual(len(bench.pocket(slope, outline, 2).sides), 3)

    def test_a_condition_of_a_command_says_what_it_means(self):
        one, other = (self.bench.block((x, 0, 0), (9, 9, 9)) for x in (200, 209))
        start = self.bench.face(one.top).outer.half_edges[0]
        lone = self.bench.kemr(self.bench.mev(start, start, (204, 4, 9)).edge)
        outline, up = [(0, 0, 0), (1, 0, 0), (0, 1, 0)], (0, 0, 1)
        for give, number, value, text in (
                (lambda: self.bench.glue_all([one, other]), 30, lone, f'LoneLoop: loop {lone} is a vertex without an edge'),
                (lambda: self.bench.profile(outline[:2], along=up), 28, 2, 'FewPoints: there are 2 points, and 3 are needed'),
                (lambda: self.bench.ring(one.bottom, [*outline, outline[1]]), 33, 4, 'RepeatedPoint: points[3] is there twice'),
                (lambda: self.bench.pocket(one.bottom, outline[:1], 2), 28, 1, 'FewPoints: there are 1 points, and 3 are needed'),
                (lambda: self.bench.boss(one.top, outline, 1), 32, one.top, f'NotFlat: face {one.top} has the lone loop {lone}'),
                (lambda: self.bench.boss(other.top, [(210, 2, 9), (212, 2, 9), (210, 4, 9)], 10 ** 9), 11, 0,
                 'PointRange: a point would lie past 1,000,000,000'),
                (lambda: self.bench.copy(self.block, mirror=(1, 2, 0, 5 * 10 ** 9)), 11, 1,
                 'PointRange: vertex 1 would lie at -2000000000 -4000000000 0, past 1,000,000,000'),
                (lambda: self.bench.sketch(one.top), 32, one.top, f'NotFlat: face {one.top} has the lone loop {lone}'),
                (lambda: self.bench.profile(outline, along=up, solid=2_000_000), 1, 2_000_000,
                 'NumberRange: the number 2000000 is outside 1 to 1,000,000')):
            with self.subTest(text), self.assertRaises(Refused) as caught:
                give()
            refusal = caught.exception
            self.assertNotIsInstance(refusal, Impossible)
            self.assertEqual((refusal.number, refusal.value, str(refusal)), (number, value, text))

    def test_selection(self):
        bench, block = self.bench, self.block
        self.assertEqual(bench.faces(plane=(1, 0, 0, -10)).one(), bench.face(block.sides[1]))
        self.assertEqual(bench.faces(solid=1, normal=(0, 0, 7)).one().number, block.top)
        self.assertEqual(bench.faces(containing=(10, 10, 10)).numbers, tuple(sorted((block.top, *block.sides[1:3]))))
        self.assertEqual(bench.faces().bottom().one().number, block.bottom)
        self.assertEqual(bench.edges(between=(block.top, block.sides[0])).one().points, ((0, 0, 10), (10, 0, 10)))
        self.assertEqual(bench.vertices(at=(0, 0, 0)).one().number, block.vertices[0])
        self.assertEqual(bench.vertices().farthest((1, 1, 1)).one().point, (10, 10, 10))
        with self.assertRaisesRegex(NotOne, r'^one face was wanted; 6 were found: 1, 2, 3, 4, 5, 6$'):
            bench.faces().one()
        with self.assertRaisesRegex(NotOne, r'none was found$'):
            bench.vertices(at=(5, 5, 5)).one()

    def test_selection_by_measures(self):
        bench = self.bench
        prism = bench.profile([(100, 0, 0), (103, 0, 0), (103, 4, 0)], along=(0, 0, 2))
        made = prism.solid
        self.assertEqual([len(bench.edges(solid=made, length=length)) for length in (2, 3, 4, 5, Fraction(5, 2))], [3, 2, 2, 2, 0])
        self.assertEqual([len(bench.edges(solid=made, along=way)) for way in ((0, 0, -7), (3, 4, 0), (-3, -4, 0), (3, 4, 1))], [3, 2, 2, 0])
        self.assertEqual({edge.points for edge in bench.edges(solid=made, along=(3, 4, 0), length=5)},
                         {((103, 4, level), (100, 0, level)) for level in (0, 2)})
        self.assertEqual([len(bench.faces(solid=made, area=area)) for area in (6, 8, 10, Fraction(13, 2))], [3, 1, 1, 0])
        self.assertEqual(bench.edges(between=(prism.base, prism.sides[0]), length=3).one().points[0][1:], (0, 0))
        self.assertEqual(bench.vertices().nearest((104, 5, -1)).one().point, (103, 4, 0))
        self.assertEqual(bench.solids().nearest((0, 0, 0)).one().number, self.block.solid)
        self.assertEqual({edge.points for edge in bench.edges(solid=made).nearest((99, 0, 1))},
                         {edge.points for edge in bench.edges(solid=made) if any(x == 100 for x, _, _ in edge.points)})
        for large in (2 ** 64, 2 ** 70, Fraction(1, 2 ** 70), Fraction(1, 2 ** 64 - 1)):
            self.assertEqual((len(bench.faces(area=large)), len(bench.edges(solid=made, length=large))), (0, 0))
            for find in (lambda: bench.faces(solid=99, area=large), lambda: bench.edges(solid=99, length=large)):
                self.assertRaisesRegex(Refused, 'NoSolid', find)
        with self.assertRaisesRegex(TypeError, r'^point\b'):
            bench.vertices().nearest(None)
        with self.assertRaisesRegex(NotOne, r'^one edge with solid=.*, length=5 was wanted; 2 were found'):
            bench.edges(solid=made, length=5).one()

    def test_parts_are_those_of_the_listing(self):
        bench, model = self.bench, self.bench.listing()
        solid = bench.solid(1)
        self.assertEqual([face.number for face in solid.faces], list(model.faces))
        self.assertEqual([loop.number for loop in solid.loops], list(model.loops))
        self.assertEqual({edge.number: tuple(int(end.number) for end in edge.vertices) for edge in solid.edges}, model.edges)
        self.assertEqual({vertex.number: vertex.point for vertex in solid.vertices}, model.vertices)
        for face in solid.faces:
            self.assertEqual(list(face.points), model.face_points(face.number))
            self.assertEqual(face.normal, tuple(bench.plane(face)[:3]))
            self.assertEqual((face.solid, face.outer.face, face.rings), (solid, face, ()))
        with self.assertRaises(Refused):
            bench.face(99).points

    def test_measures_of_parts(self):
        """What a part says of itself finds it again, where it is a fraction; else it is near."""
        bench = self.bench
        made = bench.solid(bench.profile([(100, 0, 0), (101, 0, 0), (100, 1, 0)], along=(0, 0, 3)).solid)
        slope = bench.edges(solid=made, along=(1, -1, 0))
        self.assertEqual([edge.length for edge in slope], [2 ** 0.5] * 2)
        self.assertEqual(sorted(face.area for face in made.faces), [Fraction(1, 2), Fraction(1, 2), 3, 3, 18 ** 0.5])
        for edge in made.edges - slope:
            self.assertIn(edge, bench.edges(length=edge.length))
        for face in made.faces - bench.faces(normal=(1, 1, 0)):
            self.assertIn(face, bench.faces(area=face.area))
        for edge in made.edges:
            self.assertEqual(edge.solid, made)
            self.assertIn(edge, bench.edges(between=edge.faces))
            self.assertEqual([edge.number in face.outer.half_edges for face in edge.faces], [True, False])
        spur = bench.mev(*[bench.face(self.block.top).outer.half_edges[0]] * 2, (3, 4, 10)).edge
        self.assertEqual(bench.edge(spur).faces, (bench.face(self.block.top),) * 2)
        bench.kemr(spur)
        for kind, what, name in (('face', 'area', 'NoFace'), ('edge', 'length', 'NoEdge'), ('edge', 'faces', 'NoEdge'), ('edge', 'solid', 'NoEdge')):
            with self.assertRaisesRegex(Refused, f'^No{kind.capitalize()}: there is no {kind} 99$') as caught:
                getattr(getattr(bench, kind)(99), what)
            self.assertEqual((caught.exception.name, caught.exception.value), (name, 99))
        with self.assertRaisesRegex(Unfit, 'lone loop'):
            bench.face(self.block.top).area

    def test_sides_follow_the_points(self):
        bench, top = self.bench, self.block.top
        ways = (lambda points: bench.pocket(top, points, 2), lambda points: bench.boss(top, points, 2), lambda points: bench.hole(top, points),
                lambda points: bench.profile(points, along=(0, 0, 3)), lambda points: bench.profile(points, along=(0, 0, -3)))
        points = [(1, 1, 10), (5, 1, 10), (6, 4, 10), (3, 8, 10)]
        for outline in (points, points[::-1], points[2:] + points[:2]):
            for make in ways:
                made = make(outline)
                for i, side in enumerate(made.sides):
                    self.assertLessEqual({outline[i], outline[(i + 1) % 4]}, set(bench.face(side).points))
                bench.undo()
            ring = bench.ring(top, outline)
            self.assertEqual([bench.vertex(vertex).point for vertex in ring.vertices], outline)
            for i, edge in enumerate(ring.edges):
                self.assertEqual({outline[i], outline[(i + 1) % 4]}, set(bench.edge(edge).points))
            bench.undo()
        drilled = bench.drill(top, (5, 5, 10), 3, 8)
        for i, side in enumerate(drilled.sides):
            self.assertLessEqual({drilled.points[i], drilled.points[(i + 1) % 8]}, set(bench.face(side).points))

    def test_slices_of_selections(self):
        bench = self.bench
        self.assertEqual(bench.faces()[1:4].numbers, (2, 3, 4))
        self.assertEqual(bench.faces()[:3].top().one().number, self.block.top)

    def test_the_parts_of_a_solid_are_a_selection(self):
        solid = self.bench.solid(1)
        self.assertEqual((solid.faces.top().one().number, solid.vertices.top().numbers), (self.block.top, (5, 6, 7, 8)))
        self.assertEqual((solid.edges.bottom().numbers, solid.loops[2:4].numbers), ((1, 2, 3, 4), (3, 4)))
        with self.assertRaisesRegex(NotOne, r'^one face of solid 1 was wanted; 6 were found: 1, 2, 3, 4, 5, 6$'):
            solid.faces.one()


class Scripts(unittest.TestCase):
    """Scripts written and taken up again."""

    def test_steps_are_saved_and_loaded(self):
        with Workbench(library(), step=STEP) as bench, tempfile.TemporaryDirectory() as folder:
            empty, block = bench.script(), bench.block((0, 0, 0), (9, 9, 9))
            bench.pocket(block.top, [(1, 1, 9), (4, 1, 9), (1, 4, 9)], 2)
            with bench.group():
                bench.block((20, 0, 0), (1, 1, 1))
                bench.ring(block.bottom, [(1, 1, 0), (1, 4, 0), (4, 1, 0)])
            bench.ring(block.sides[0], [(1, 0, 1), (4, 0, 1), (1, 0, 4)])
            with bench.draft():
                other = bench.block((40, 0, 0), (9, 9, 9))
                with self.assertRaises(Refused), bench.draft():
                    bench.scale(3)
                    bench.sweep(99, (0, 0, 1))
                bench.ring(other.bottom, [(41, 1, 0), (41, 4, 0), (44, 1, 0)])
            bench.save(f'{folder}/part.gwb')
            saved = Path(f'{folder}/part.gwb').read_text()
            self.assertEqual([line.split(': ')[1] for line in saved.splitlines() if line.startswith(('# step', '# draft'))],
                             ['pocket', 'block, ring', 'ring', 'ring', 'block, ring'])
            with Workbench.load(f'{folder}/part.gwb', library()) as again:
                again.save(f'{folder}/again.gwb')
                self.assertEqual(Path(f'{folder}/again.gwb').read_text(), saved)
                for _ in range(5):
                    self.assertEqual((again.script(), again.listing()), (bench.script(), bench.listing()))
                    again.undo()
                    bench.undo()
                self.assertEqual((again.script(), bench.script()), (empty, empty))

    def test_drafts_and_groups_have_names(self):
        bench = opened(self)
        with bench.draft('Geh\u00e4use, unten'):
            block = bench.block((0, 0, 0), (9, 9, 9))
            with bench.draft('bore'):
                bench.drill(block.top, (4, 4, 9), 2, 4)
        with bench.group('feet'):
            bench.move(block, (0, 0, 1))
            bench.block((20, 0, 0), (1, 1, 1))
        with bench.group('lid'):
            bench.block((40, 0, 0), (1, 1, 1))
        with bench.group():
            with bench.draft('pin'):
                bench.block((60, 0, 0), (1, 1, 1))
            bench.block((80, 0, 0), (1, 1, 1))
        with self.assertRaises(KeyError), bench.draft('nothing'):
            bench.move(block, (0, 0, 1))
            raise KeyError
        with bench.draft('empty'):
            pass
        with tempfile.TemporaryDirectory() as folder:
            bench.save(f'{folder}/part.gwb')
            saved = Path(f'{folder}/part.gwb').read_bytes()
            marks = [mark_in(line) for line in saved.splitlines()]
            self.assertEqual([(mark.is_step, mark.names) for mark in marks if mark], [
                (False, ['Geh\u00e4use', 'unten']), (True, ['feet']), (False, ['feet']), (False, ['lid']), (True, ['pin', 'block']), (False, ['pin'])])
            self.assertIn(b'\n# draft of 1 command: lid\n', saved)
            self.assertIn(rb': Geh\u00e4use, unten', saved)
            with Workbench.load(f'{folder}/part.gwb', library()) as again:
                again.save(f'{folder}/again.gwb')
                self.assertEqual(Path(f'{folder}/again.gwb').read_bytes(), saved)
            rows = [step.row for step in played(saved).steps if step.row]
            self.assertEqual(rows, ['Geh\u00e4use, unten', 'feet', 'lid', 'pin, block'])
        with self.assertRaisesRegex(TypeError, '^name: a str is wanted'):
            bench.draft(1)

    def test_steps_within_steps_of_a_file(self):
        blocks = [f'block {number} {9 * number} 0 0 1 1 1' for number in range(1, 6)]
        for lines, commands in (
                (['# step of 5 commands'] * 3000 + blocks, 5),
                (['# draft of 5 commands'] * 3000 + blocks, 1),
                (['# step of 5 commands', '# draft of 3 commands', *blocks[:2], '# step of 9 commands', *blocks[2:]], 3),
                (['# draft of 3 commands', '# step of 2 commands', *blocks], 3),
                (['# step of 9 commands', *blocks], 5)):
            with tempfile.TemporaryDirectory() as folder:
                path = Path(folder) / 'part.gwb'
                path.write_text(''.join(f'{line}\n' for line in lines))
                with Workbench.load(path, library()) as bench:
                    self.assertEqual(len(bench.solids()), 5)
                    self.assertEqual(repr(bench), f'<Workbench, {commands} command{"" if commands == 1 else "s"} held>')
                    bench.undo()
                    self.assertEqual(len(bench.solids()), 0 if lines[0] != '# draft of 3 commands' else 4)

    def test_what_is_wrong_in_a_file_is_named_with_its_line(self):
        with tempfile.TemporaryDirectory() as folder:
            for name, text, words in (
                    ('part.gwb', 'block 1 0 0 0 1 1 1\n\n# note\nkvfs 1\n', r'part.gwb, line 4: NotBare: solid 1 has more than a vertex$'),
                    ('part.gwb', '# draft of 2 commands\nmvfs 1 1 1 1 0 0 0\nkvfs x\n', r'part.gwb, line 3: BadNumber: '),
                    ('part.gwb', '# draft of 2 commands\nblock 1 0 0 0 1 1 1\nsweep 9 0 0 1\n', r'part.gwb, line 3: NoFace: there is no face 9'),
                    ('part.gwb', '# draft of 1 commands\nundo\n', r'part.gwb, line 2: undo: a draft is open'),
                    ('replies', 'solid 1\nface 1 1 1\n', r'replies: ')):
                Path(folder, name).write_text(text)
                with self.subTest(text), self.assertRaisesRegex(CompanionError, words):
                    Workbench.load(f'{folder}/{name}', library())

    def test_a_file_of_another_form_is_refused_with_what_reads_it(self):
        with tempfile.TemporaryDirectory() as folder:
            for name, text, form in (('cube.obj', '# a cube\nv 0 0 0\n', 'OBJ'), ('cube', 'OFF\n8 6 12\n', 'OFF')):
                Path(folder, name).write_text(text)
                with self.subTest(name), self.assertRaisesRegex(ValueError, rf'{name}: this is a file of {form}, which import_file\(\)'):
                    Workbench.load(f'{folder}/{name}', library())

    def test_save_and_load(self):
        with Workbench(library(), step=STEP) as bench, tempfile.TemporaryDirectory() as folder:
            block = bench.block((0, 0, 0), (9, 9, 9))
            bench.drill(block.top, (4, 4, 9), 2, 8)
            bench.block((20, 0, 0), (1, 1, 1))
            bench.undo()
            bench.save(f'{folder}/part.gwb')
            with Workbench.load(f'{folder}/part.gwb', library()) as again:
                self.assertEqual(again.listing(), bench.listing())
                self.assertEqual(again.script(), bench.script())
                self.assertEqual(again.block((40, 0, 0), (1, 1, 1))[1:], bench.block((40, 0, 0), (1, 1, 1))[1:])

    def test_a_listing_is_taken_up_again(self):
        with Workbench(library(), step=STEP) as bench, tempfile.TemporaryDirectory() as folder:
            block = bench.block((0, 0, 0), (9, 9, 9))
            bench.drill(block.top, (4, 4, 9), 2, 8)
            Path(folder, 'replies').write_text('\n'.join(bench.ask('list').lines) + '\n')
            with Workbench.load(f'{folder}/replies', library()) as again:
                self.assertEqual(again.listing(), bench.listing())

    def test_it_is_shown(self):
        with Workbench(library(), step=STEP) as bench:
            bench.block((0, 0, 0), (1, 1, 1))
            with mock.patch('webbrowser.open') as opened:
                path = bench.show()
            self.addCleanup(path.unlink)
            opened.assert_called_once_with(path.as_uri())
            self.assertEqual(path.read_text(), bench.page())
            self.assertIn('&lt;!DOCTYPE html&gt;', bench._repr_html_())

    def test_it_draws_itself(self):
        with Workbench(library(), step=STEP) as bench:
            self.assertIsNone(bench._repr_svg_())
            bench.block((0, 0, 0), (1, 1, 1))
            self.assertTrue(bench._repr_svg_().startswith('<svg'))
            self.assertEqual(repr(bench), '<Workbench, 1 command held>')
