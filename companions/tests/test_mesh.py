"""Meshes are closed, keep the volume, and are made fast."""

import io
import re
import shutil
import subprocess
import sys
import tempfile
import time
import unittest
import zipfile
from collections import Counter
from pathlib import Path
from xml.etree import ElementTree

from support import COMPANIONS, box, examples, lamina, listing, model_in, plate, run

from gwb.errors import Unfit
from gwb.formats.mesh import mesh_of
from gwb.formats.stl import stl_text
from gwb.formats.three_mf.write import MODEL_PART, three_mf_bytes
from gwb.geometry.measures import six_volume
from gwb.geometry.vectors import cross, dot, subtract
from gwb.protocol.listing import read_model


def two_boxes():
    """A listing of two boxes apart, of volumes 2 and 1."""
    points, faces = box((0, 0, 0), (2, 1, 1))
    more, others = box((5, 0, 0), (6, 1, 1), 9)
    return listing(points + more, faces, others)


def six_object_volume(part):
    """Six times the volume of an object of 3MF."""
    points = [tuple(int(row.get(axis)) for axis in 'xyz') for row in part.findall('.//{*}vertex')]
    triangles = [[points[int(row.get(corner))] for corner in ('v1', 'v2', 'v3')] for row in part.findall('.//{*}triangle')]
    return sum(dot(a, cross(b, c)) for a, b, c in triangles)


def six_mesh_volume(mesh):
    """Six times the volume that the mesh encloses."""
    corners = ([mesh.model.vertices[vertex] for vertex in triangle] for triangle in mesh.triangles)
    return sum(dot(a, cross(b, c)) for a, b, c in corners)


def is_closed(mesh):
    """Whether each side of a triangle is one of another that runs back."""
    sides = Counter((t[i - 1], t[i]) for t in mesh.triangles for i in range(3))
    return all(times == sides[end, start] for (start, end), times in sides.items())


class Meshes(unittest.TestCase):
    """Whole models."""

    def test_the_examples_keep_their_volumes_and_are_closed(self):
        seen = 0
        for script in examples():
            model = read_model(script.with_suffix('.expected').read_bytes())
            try:
                mesh = mesh_of(model)
            except Unfit:
                continue
            with self.subTest(script.stem):
                self.assertTrue(is_closed(mesh))
                self.assertEqual(six_mesh_volume(mesh), six_volume(model, model.faces))
                seen += 1
        self.assertGreaterEqual(seen, 5)

    def test_a_plate_with_256_holes_in_less_than_two_seconds(self):
        model = model_in(plate(16))
        begun = time.process_time()
        mesh = mesh_of(model)
        taken = time.process_time() - begun
        self.assertTrue(is_closed(mesh))
        self.assertEqual(six_mesh_volume(mesh), 6 * 2 * (64 * 64 - 256 * 4))
        self.assertLess(taken, 2)

    def test_the_same_place_in_other_planes(self):
        for axes in ((0, 1, 2), (1, 2, 0), (2, 0, 1)):
            text = plate(2).splitlines()
            for i, line in enumerate(text):
                if line.startswith('vertex'):
                    words = line.split()
                    text[i] = ' '.join(words[:2] + [words[2 + axis] for axis in axes])
            mesh = mesh_of(model_in('\n'.join(text) + '\n'))
            self.assertTrue(is_closed(mesh))
            self.assertEqual(six_mesh_volume(mesh), 6 * 2 * (64 - 16))


class Faces(unittest.TestCase):
    """Single faces."""

    def area(self, text):
        mesh = mesh_of(model_in(text))
        self.assertTrue(is_closed(mesh))
        doubled = []
        for triangle in mesh.faces[1]:
            a, b, c = (mesh.model.vertices[vertex] for vertex in triangle)
            doubled.append(cross(subtract(b, a), subtract(c, a))[2])
        self.assertTrue(all(part > 0 for part in doubled))
        return sum(doubled) / 2

    def test_corners_on_straight_sides(self):
        self.assertEqual(self.area(lamina([(0, 0), (2, 0), (4, 0), (6, 0), (6, 3), (6, 6), (3, 3)])), 18)

    def test_a_spiral(self):
        spiral = [(0, 0), (9, 0), (9, 9), (1, 9), (1, 3), (6, 3), (6, 6), (4, 6), (4, 5), (5, 5), (5, 4), (2, 4), (2, 8), (8, 8),
                  (8, 1), (0, 1)]
        self.assertEqual(self.area(lamina(spiral)), 36)

    def test_rings_side_by_side(self):
        self.assertEqual(self.area(lamina([(0, 0), (9, 0), (9, 9), (0, 9)], [(1, 1), (1, 2), (2, 2)], [(1, 4), (1, 5), (2, 5)],
                                          [(5, 1), (5, 5), (7, 5), (7, 1)])), 81 - 0.5 - 0.5 - 8)

    def test_a_ring_that_touches_a_corner_of_the_outline(self):
        self.assertEqual(self.area(lamina([(0, 0), (9, 0), (9, 9), (0, 9)], [(0, 0), (2, 6), (6, 2)])), 81 - 16)

    def test_rings_that_touch_each_other(self):
        self.assertEqual(self.area(lamina([(0, 0), (9, 0), (9, 9), (0, 9)], [(1, 1), (1, 4), (4, 4), (4, 1)],
                                          [(4, 4), (4, 7), (7, 7), (7, 4)])), 81 - 18)

    def test_a_ring_that_touches_the_outline_amid_an_edge(self):
        square = [(0, 0), (9, 0), (9, 9), (0, 9)]
        self.assertEqual(self.area(lamina(square, [(4, 0), (3, 3), (5, 3)])), 81 - 3)
        self.assertEqual(self.area(lamina(square, [(4, 0), (3, 3), (9, 4)])), 81 - 9.5)

    def test_a_ring_that_touches_another_amid_an_edge(self):
        square = [(0, 0), (9, 0), (9, 9), (0, 9)]
        self.assertEqual(self.area(lamina(square, [(2, 2), (2, 5), (5, 5), (5, 2)], [(5, 3), (7, 4), (7, 1)])), 81 - 9 - 3)

    def test_an_outline_that_touches_itself_amid_an_edge(self):
        self.assertEqual(self.area(lamina([(0, 0), (8, 0), (8, 4), (4, 0), (0, 4)])), 16)

    def test_edges_with_one_face_on_both_sides(self):
        points = [(0, 0, 0), (9, 0, 0), (9, 9, 0), (0, 9, 0), (2, 2, 0), (2, 4, 0), (4, 2, 0)]
        spur = listing(points[:5], [[(1, 2, 3, 4, 1, 5)], [(4, 3, 2, 1)]])
        self.assertEqual(self.area(spur), 81)
        bridge = listing(points, [[(1, 2, 3, 4, 1, 5, 6, 7, 5)], [(4, 3, 2, 1)], [(7, 6, 5)]])
        self.assertEqual(self.area(bridge), 81 - 2)
        star = listing(points[:4] + [(2, 2, 0), (3, 5, 0), (5, 3, 0), (6, 6, 0)],
                       [[(1, 2, 3, 4), (5, 6, 5, 7, 5, 8)], [(4, 3, 2, 1)]])
        self.assertEqual(self.area(star), 81)

    def refuse(self, text, part):
        with self.assertRaises(Unfit) as caught:
            mesh_of(model_in(text))
        self.assertIn(part, str(caught.exception))

    def test_faces_that_are_no_regions(self):
        square = [(0, 0), (9, 0), (9, 9), (0, 9)]
        self.refuse(lamina(square, [(2, 2), (4, 2), (2, 4)]), 'runs the same way')
        self.refuse(lamina(square, [(22, 22), (22, 24), (24, 22)]), 'outside')
        self.refuse(lamina([(0, 0), (9, 0), (0, 6), (9, 9)]), 'face 1')
        self.refuse('solid 1\nface 1 1 1\nloop 1 at 1\nvertex 1 0 0 0\n', 'lone')
        self.refuse('solid 1\nface 1 1 1\nloop 1 +1 -1\nedge 1 1 2\nvertex 1 0 0 0\nvertex 2 5 0 0\n', 'no area')
        points, faces = box((0, 0, 0), (4, 4, 4))
        points[6] = (4, 4, 5)
        self.refuse(listing(points, faces), 'face 2')


class Forms(unittest.TestCase):
    """What is written."""

    def test_words(self):
        script = str(examples()[0].with_suffix('.expected'))
        for form, beginning in (('off', 'OFF\n16 32 0\n0 0 0\n'), ('obj', 'v 0 0 0\n'), ('stl', 'solid solid_1\nfacet normal ')):
            outcome = run('mesh', '--form', form, script)
            self.assertEqual(outcome.status, 0)
            self.assertTrue(outcome.out.startswith(beginning), form)

    def test_several_solids_are_one_block_of_stl(self):
        mesh = mesh_of(model_in(two_boxes()))
        self.assertEqual(len(mesh.triangles), 24)
        lines = stl_text(mesh).splitlines()
        self.assertEqual([line for line in lines if 'solid' in line], ['solid gwb', 'endsolid gwb'])
        self.assertEqual(lines.count('outer loop'), 24)

    def test_admesh_takes_the_stl(self):
        if shutil.which('admesh') is None:
            raise unittest.SkipTest('needs admesh')
        with tempfile.TemporaryDirectory() as folder:
            path = Path(folder, 'two.stl')
            path.write_text(stl_text(mesh_of(model_in(two_boxes()))))
            told = subprocess.run(['admesh', path], capture_output=True, text=True, check=True).stdout
        self.assertRegex(told, r'Number of facets\s*: *24')
        self.assertRegex(told, r'Number of parts *: *2')
        self.assertRegex(told, r'Total disconnected facets\s*: *0 *0')
        self.assertEqual(float(re.search(r'Volume *: *([-\d.]+)', told).group(1)), 2 + 1)

    def test_3mf_has_an_object_for_each_solid(self):
        mesh = mesh_of(model_in(two_boxes()))
        data = three_mf_bytes(mesh)
        self.assertEqual(data, three_mf_bytes(mesh))
        with zipfile.ZipFile(io.BytesIO(data)) as package:
            self.assertIsNone(package.testzip())
            self.assertEqual(package.namelist(), ['[Content_Types].xml', '_rels/.rels', MODEL_PART])
            for name in package.namelist():
                ElementTree.fromstring(package.read(name))
            root = ElementTree.fromstring(package.read(MODEL_PART))
        objects = root.findall('.//{*}object')
        self.assertEqual([(part.get('id'), part.get('name')) for part in objects], [('1', 'solid 1'), ('2', 'solid 2')])
        self.assertEqual([item.get('objectid') for item in root.findall('.//{*}item')], ['1', '2'])
        self.assertEqual([six_object_volume(part) for part in objects], [6 * 2, 6 * 1])

    def test_3mf_is_written_as_bytes(self):
        replies = str(examples()[0].with_suffix('.expected'))
        done = subprocess.run([sys.executable, COMPANIONS / 'gwb-mesh', '--form', '3mf', replies], capture_output=True, check=True)
        self.assertEqual(done.stdout, three_mf_bytes(mesh_of(read_model(Path(replies).read_bytes()))))
