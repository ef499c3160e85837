"""GLB: what is written, read by the description of glTF, and what is read back."""

import json
import struct
import unittest
from fractions import Fraction
from unittest import mock

from support import box, examples, listing, model_in, run
from test_import import SIDES, TETRAHEDRON, InFiles, volumes

from gwb.errors import Unfit
from gwb.formats.appearance import Appearance
from gwb.formats.glb import _linear, _shown, glb_bytes
from gwb.formats.importing import read_file
from gwb.formats.mesh import mesh_of
from gwb.protocol.listing import read_model

RED, BLUE = (255, 0, 0), (0, 0, 255)
POINTS, FACES = box((0, 0, 0), (2, 3, 4))
MORE, OTHERS = box((5, 0, 0), (6, 1, 1), 9)
TWO = model_in(listing(POINTS + MORE, FACES, OTHERS))


def chunks(data):
    """The JSON and the buffer of a file."""
    magic, version, length = struct.unpack('<4sII', data[:12])
    assert (magic, version, length) == (b'glTF', 2, len(data)) and length % 4 == 0
    size, kind = struct.unpack('<I4s', data[12:20])
    assert kind == b'JSON' and size % 4 == 0
    rest = data[20 + size:]
    behind, kind = struct.unpack('<I4s', rest[:8])
    assert kind == b'BIN\0' and behind == len(rest) - 8
    return json.loads(data[20:20 + size]), rest[8:]


def glb(described, buffer=b''):
    """A file of JSON and a buffer."""
    text = described if isinstance(described, bytes) else json.dumps(described).encode()
    parts = [(b'JSON', text + b' ' * (-len(text) % 4)), (b'BIN\0', buffer)]
    body = b''.join(struct.pack('<I4s', len(held), kind) + held for kind, held in parts)
    return b'glTF' + struct.pack('<II', 2, 12 + len(body)) + body


def tetrahedron(**node):
    """A file of a tetrahedron whose places are metres; the words change its node."""
    points = struct.pack('<12f', *(part for point in TETRAHEDRON for part in point))
    corners = struct.pack('<12H', *(corner for side in SIDES for corner in side))
    described = {'asset': {'version': '2.0'}, 'scene': 0, 'scenes': [{'nodes': [0]}], 'nodes': [{'mesh': 0, **node}],
                 'meshes': [{'name': 'lid', 'primitives': [{'attributes': {'POSITION': 0}, 'indices': 1}]}],
                 'accessors': [{'bufferView': 0, 'componentType': 5126, 'count': 4, 'type': 'VEC3'},
                               {'bufferView': 1, 'componentType': 5123, 'count': 12, 'type': 'SCALAR'}],
                 'bufferViews': [{'buffer': 0, 'byteLength': 48}, {'buffer': 0, 'byteOffset': 48, 'byteLength': 24}], 'buffers': [{'byteLength': 72}]}
    return described, points + corners


class Written(unittest.TestCase):
    """The file as glTF describes it."""

    def test_nodes_names_colours_and_places(self):
        looks = {('solid', 1): Appearance('Lid', RED), ('face', 2): Appearance(colour=BLUE)}
        held, buffer = chunks(glb_bytes(mesh_of(TWO), looks, Fraction(1, 2)))
        self.assertEqual([node['name'] for node in held['nodes']], ['gwb', 'Lid', 'solid 2'])
        self.assertEqual(held['nodes'][0]['matrix'], [0.0005, 0, 0, 0, 0, 0, -0.0005, 0, 0, 0.0005, 0, 0, 0, 0, 0, 1])
        self.assertEqual([[primitive.get('material') for primitive in mesh['primitives']] for mesh in held['meshes']], [[0, 1], [None]])
        self.assertEqual([material['pbrMetallicRoughness']['baseColorFactor'] for material in held['materials']], [[1, 0, 0, 1], [0, 0, 1, 1]])
        self.assertEqual(held['buffers'], [{'byteLength': len(buffer)}])
        first = held['accessors'][held['meshes'][0]['primitives'][0]['attributes']['POSITION']]
        self.assertEqual((first['count'], first['min'], first['max']), (8, [0, 0, 0], [2, 3, 4]))
        view = held['bufferViews'][first['bufferView']]
        places = struct.unpack_from('<24f', buffer, view['byteOffset'])
        self.assertEqual(sorted(zip(places[::3], places[1::3], places[2::3])), sorted(POINTS))
        triangles = sum(held['accessors'][primitive['indices']]['count'] for primitive in held['meshes'][0]['primitives'])
        self.assertEqual(triangles, 36)

    def test_what_single_precision_does_not_hold(self):
        points, faces = box((0, 0, 0), (2 ** 24, 1, 1))
        self.assertTrue(glb_bytes(mesh_of(model_in(listing(points, faces)))))
        points, faces = box((0, 0, 0), (2 ** 24 + 1, 1, 1))
        self.assertTrue(glb_bytes(mesh_of(model_in(listing(points, faces)))))
        more, others = box((1, 3, 0), (2 ** 25 + 4, 4, 1), 9)
        with self.assertRaisesRegex(Unfit, 'lies past 16,777,216 from the middle'):
            glb_bytes(mesh_of(model_in(listing(points + more, faces, others))))

    def test_every_part_of_a_colour_comes_back(self):
        self.assertEqual([_shown(_linear(part)) for part in range(256)], list(range(256)))


class Back(InFiles):
    """Written and read."""

    def test_the_examples(self):
        seen = 0
        for script in examples():
            model = read_model(script.with_suffix('.expected').read_bytes())
            try:
                data = glb_bytes(mesh_of(model))
            except Unfit:
                continue
            if not model.faces:
                self.refuse('there is no face in it', data)
                continue
            found = read_file(self.file(data))
            self.assertEqual((volumes(found.model), found.square_moved), (volumes(model), 0), script.stem)
            self.assertEqual(found.wrong, [f'solid {solid} has no volume' for solid, six in enumerate(volumes(model), 1) if six == 0])
            seen += 1
        self.assertGreaterEqual(seen, 4)

    def test_names_colours_and_unit(self):
        looks = {('solid', 1): Appearance('Lid', RED), ('face', 2): Appearance(colour=BLUE)}
        found = read_file(self.file(glb_bytes(mesh_of(TWO), looks, Fraction(1, 2))), scale=2)
        self.assertEqual(found.looks[('solid', 1)].name, 'Lid')
        self.assertEqual(sorted(look.colour for (kind, _), look in found.looks.items() if kind == 'face'), [BLUE, *[RED] * 5])
        self.assertEqual(set(found.model.vertices.values()), set(TWO.vertices.values()))
        self.assertEqual(found.said, ['lengths in metre were multiplied by 1000, to millimetres'])

    def test_the_program(self):
        listed = self.file(listing(POINTS, FACES), 'part.txt')
        outcome = run('mesh', '--form', 'glb', listed)
        self.assertEqual((outcome.status, outcome.out[:4]), (0, 'glTF'))


class Read(InFiles):
    """Files as others write them."""

    def placed(self, **node):
        found = read_file(self.file(glb(*tetrahedron(**node))))
        return sorted(found.model.vertices.values()), found

    def test_places(self):
        """The y axis of the file points upwards, and its lengths are metres."""
        self.assertEqual(self.placed()[0], [(0, -6000, 0), (0, 0, 0), (0, 0, 6000), (6000, 0, 0)])
        self.assertEqual(self.placed(translation=[1, 2, 3])[0][1], (1000, -3000, 2000))
        self.assertEqual(self.placed(scale=[0.5, 1, 1])[0][-1], (3000, 0, 0))
        self.assertEqual(self.placed(rotation=[0, 0, 3, 4], scale=[2.5, 2.5, 2.5])[0], [(-14400, 0, 4200), (0, -15000, 0), (0, 0, 0), (4200, 0, 14400)])
        self.assertEqual(self.placed(matrix=[0, 0, 1, 0, 1, 0, 0, 0, 0, 1, 0, 0, 0, 0, 0, 1])[0], self.placed()[0])

    def test_names(self):
        self.assertEqual(self.placed()[1].looks, {('solid', 1): Appearance('lid')})
        self.assertEqual(self.placed(name='pan')[1].looks, {('solid', 1): Appearance('pan')})

    def test_places_beside_whole_ones_by_what_single_precision_holds(self):
        described, buffer = tetrahedron(scale=[0.001, 0.001, 0.001])
        floats = struct.pack('<12f', *(part / 1000 for point in TETRAHEDRON for part in point))
        found = read_file(self.file(glb({**described, 'nodes': [{'mesh': 0}]}, floats + buffer[48:])))
        self.assertEqual(volumes(found.model), [216])
        self.assertTrue(0 < found.square_moved < Fraction(1, 10 ** 10))
        self.refuse('is not whole', glb(*tetrahedron(translation=[0.0005, 0, 0])))

    def test_what_is_not_read(self):
        described, buffer = tetrahedron()
        for part, change in (('it needs KHR_draco_mesh_compression, which is not read', {'extensionsRequired': ['KHR_draco_mesh_compression']}),
                             ('strips of triangles, which are not read', {'meshes': [{'primitives': [{'attributes': {'POSITION': 0}, 'mode': 5}]}]}),
                             ('it has buffers in other files', {'buffers': [{'uri': 'part.bin', 'byteLength': 72}]}),
                             ('accessor 0 reaches past the end of the buffer', {'bufferViews': [{'buffer': 0, 'byteOffset': 48}, {'buffer': 0}]}),
                             ('node 0 stands in two places', {'nodes': [{'mesh': 0, 'children': [0]}]}),
                             ('it has no 7 among its nodes', {'scenes': [{'nodes': [7]}]}), ('it has no -1 among its nodes', {'scenes': [{'nodes': [-1]}]}),
                             ('there is no face in it', {'scenes': [{'nodes': []}]}), ('a rotation has no length', {'nodes': [{'rotation': [0, 0, 0, 0]}]}),
                             ('no number: 1e9999', b'{"nodes": 1e9999}'), ('NaN is no number', b'{"nodes": NaN}'),
                             ('damaged or nested too deep', b'[' * 100_000), ('its JSON is no object', b'[]')):
            self.refuse(part, glb(change if isinstance(change, bytes) else {**described, **change}, buffer))
        whole = glb(described, buffer)
        self.refuse('its buffer is cut short', whole[:-4])
        self.refuse('its JSON is cut short', whole[:40])
        self.refuse('it is GLB of version 1, which is not read: write version 2, as glTF 2.0 has it, or STL', whole[:4] + struct.pack('<I', 1) + whole[8:])

    def test_many_uses_of_many_points(self):
        """As many as three for each face that a model may have, whose number is made small here."""
        described, buffer = tetrahedron()
        described['nodes'] = [{'mesh': 0}] * 8
        described['scenes'] = [{'nodes': list(range(8))}]
        with mock.patch('gwb.formats.glb.MOST_POLYGONS', 10):
            self.refuse('it has more than 30 points, each counted as often as it is used', glb(described, buffer))
        self.assertEqual(len(self.read(glb(described, buffer)).solids), 8)
