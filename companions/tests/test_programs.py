"""Files that other programs wrote: the volumes and boxes that those programs give them, or why they are refused."""

import subprocess
import unittest
from fractions import Fraction
from typing import NamedTuple, Optional, Sequence, Tuple

from support import OUTPUTS, STORED, program, run

from gwb.formats.importing import read_file
from gwb.geometry.measures import six_volume
from gwb.protocol.listing import read_model
from gwb.scripts.inversion import script_of

PROGRAMS = STORED / 'programs'


class Wanted(NamedTuple):
    """What a file holds: the volume of each solid, or the beginning of the refusal; the words with which it is read."""

    volumes: Sequence[Fraction] = ()
    box: Optional[Tuple[Tuple[int, int, int], Tuple[int, int, int]]] = None
    refusal: str = ''
    words: Tuple[Tuple[str, object], ...] = ()


def holds(*volumes, box=None, **words):
    """A file that is read."""
    return Wanted([Fraction(volume) for volume in volumes], box, '', tuple(words.items()))


def refused(text, **words):
    """A file that isn't."""
    return Wanted((), None, text, tuple(words.items()))


FILES = {
    'assimp_halves.glb': [holds(96 * 10 ** 9, 96 * 10 ** 9, box=((0, -6000, 0), (6000, 0, 6000)))],
    'blender_angle.stl': [holds(2625, box=((0, 0, 0), (40, 40, 7)))],
    'blender_cut.stl': [holds(840, box=((0, 0, 0), (10, 10, 10)))],
    'blender_flipped.obj': [refused('part 1 (flip): face that turns: at the edge from (2 0 0) to (2 0 -3) both faces run the same way, and 3 more'),
                            holds(24, box=((0, 0, -3), (2, 4, 0)), repair=True)],
    'blender_grid.stl': [refused('the point -1.99999988079071044921875 -5 0 is not whole'),
                         refused('open edge: the edge from (-5 -5 0) to (-4 -5 0) has one face, and 39 more, round 1 hole', rounded=True)],
    'freecad_angle.3mf': [holds(2625, box=((0, 0, 0), (40, 40, 7)))],
    'freecad_assembly.step': [holds(6000, 125, box=((0, 0, 0), (50, 305, 30)))],
    'freecad_cylinder.step': [refused('1 face is curved: #17 CYLINDRICAL_SURFACE')],
    'freecad_fractions.step': [refused('the point 0 1.25 2 is not whole: --scale multiplies, --round rounds'),
                               holds(80, box=((0, 0, 0), (2, 5, 8)), scale=4)],
    'freecad_hole.step': [holds(8480, box=((0, 0, 0), (30, 30, 10)))],
    'freecad_hole.stl': [holds(8480, box=((0, 0, 0), (30, 30, 10)))],
    'freecad_two.obj': [holds(1000, 125, box=((0, 0, 0), (25, 10, 10)))],
    'freecad_two.step': [holds(1000, 125, box=((0, 0, 0), (25, 10, 10)))],
    'freecad_union.step': [holds(1875, box=((0, 0, 0), (15, 15, 15)))],
    'gmsh_fragments.step': [holds(1000, 1000, box=((0, 0, 0), (20, 10, 10)))],
    'opencascade_assembly.step': [holds(6000, 6000, 6000, 6000, 125, box=((-5, -55, 0), (100, 100, 520)))],
    'openscad_hole.off': [holds(8480, box=((0, 0, 0), (30, 30, 10)))],
    'openscad_step.3mf': [holds(3000, box=((0, 0, 0), (20, 20, 10)))],
    'openscad_touching.stl': [holds(1000, 1000, box=((0, 0, 0), (20, 20, 10)))],
}
TAKEN = {'scale': '--scale', 'rounded': '--round', 'repair': '--repair'}


def words_of(wanted):
    """The words of the command line that a file is read with."""
    for name, value in wanted.words:
        yield TAKEN[name]
        if value is not True:
            yield str(value)


class FilesOfPrograms(unittest.TestCase):
    """Each file as it was written."""

    def test_all_are_listed(self):
        self.assertEqual({path.name for path in PROGRAMS.iterdir()}, set(FILES))

    def test_the_manifest_names_each_file(self):
        listed, _, _ = (OUTPUTS / 'MANIFEST.md').read_text().partition('## Programs that were tried')
        rows = (line.split('|')[1] for line in listed.splitlines() if line.startswith('| ') and '.' in line.split('|')[1])
        named = sorted(name.strip() for names in rows for name in names.split(','))
        self.assertEqual(named, sorted(path.name for path in STORED.rglob('*') if path.is_file()))

    def test_what_they_hold(self):
        for name, all_wanted in FILES.items():
            for wanted in all_wanted:
                with self.subTest(name, words=wanted.words):
                    (self.refused if wanted.refusal else self.held)(PROGRAMS / name, wanted)

    def held(self, path, wanted):
        found = read_file(str(path), **dict(wanted.words))
        model = found.model
        self.assertEqual(found.wrong, [])
        self.assertEqual([Fraction(six_volume(model, model.faces_of(solid)), 6) for solid in model.solids], list(wanted.volumes))
        low, high = (tuple(map(end, zip(*model.vertices.values()))) for end in (min, max))
        self.assertEqual((low, high), wanted.box)

    def refused(self, path, wanted):
        outcome = run('import', str(path), *words_of(wanted))
        self.assertEqual((outcome.status, outcome.out, outcome.err.count('\n')), (3, '', 1), outcome.err)
        self.assertTrue(outcome.err.startswith(f'gwb-import: {wanted.refusal}'), outcome.err)

    def test_the_program_takes_their_scripts(self):
        for name, all_wanted in FILES.items():
            for wanted in (wanted for wanted in all_wanted if not wanted.refusal):
                with self.subTest(name):
                    lines = script_of(read_file(str(PROGRAMS / name), **dict(wanted.words)).model)
                    wrote = subprocess.run([program()], input='\n'.join([*lines, 'list\n']).encode(), capture_output=True, check=False).stdout
                    self.assertEqual(wrote.count(b'ok\n'), len(lines))
                    self.assertEqual(len(read_model(wrote).solids), len(wanted.volumes))
