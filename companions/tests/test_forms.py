"""The table of forms: what reads and writes each, names in each form's letters, and the lists of C++ and Rust."""

import re
import shutil
import struct
import subprocess
import unittest
import zipfile

from support import COMPANIONS, REPOSITORY, InFolder, box, listing, model_in, run

from gwb.errors import Unfit
from gwb.formats.appearance import Appearance, Said, unique_names
from gwb.formats.exact_numbers import told
from gwb.formats.forms import COLOURS, EXPORTED, FORMS, MESHES, NAMES, READ, SOLIDS, by_beginning, by_ending, endings, titles
from gwb.formats.importing import read_file
from gwb.formats.parts import NotAMesh
from gwb.formats.polygon_files import form_of
from gwb.formats.writing import written

TWO = listing([*box((0, 0, 0), (2, 2, 2))[0], *box((5, 0, 0), (7, 3, 2))[0]], box((0, 0, 0), (2, 2, 2))[1], box((5, 0, 0), (7, 3, 2), 9)[1])
LOOKS = {('solid', 1): Appearance('Base plate', (255, 0, 0)), ('solid', 2): Appearance('Base cover', (0, 0, 255))}


class Table(InFolder):
    """The rows."""

    def test_endings_are_of_one_form(self):
        all_endings = endings(tuple(FORMS))
        self.assertEqual(len(all_endings), len(set(all_endings)))
        for name, form in FORMS.items():
            self.assertEqual({by_ending(f'part.{ending.upper()}') for ending in form.endings}, {name})

    def test_what_is_written_is_known_by_its_first_bytes(self):
        for name in EXPORTED:
            if FORMS[name].write:
                self.assertEqual(by_beginning(FORMS[name].write(model_in(TWO), Said(LOOKS))), name)

    def test_what_is_kept_comes_back(self):
        for name in (name for name in EXPORTED if FORMS[name].write):
            found = read_file(self.file(f'part.{name}', FORMS[name].write(model_in(TWO), Said(LOOKS))))
            with self.subTest(name):
                names = {look.name.replace('_', ' ') for look in found.looks.values() if look.name}
                self.assertEqual(names, set() if FORMS[name].lacks(NAMES) else {'Base plate', 'Base cover'})
                self.assertEqual(FORMS[name].lacks(SOLIDS), name in ('off', 'stl'))
                if name != 'obj':    # (its colours lie in a file of materials)
                    colours = {look.colour for look in found.looks.values() if look.colour}
                    self.assertEqual(colours, set() if FORMS[name].lacks(COLOURS) else {(255, 0, 0), (0, 0, 255)})

    def test_usage_lines_have_all_of_it(self):
        self.assertIn(titles(READ), ' '.join(run('import', '--help').out.split()))
        self.assertIn('{' + ','.join(MESHES) + '}', run('mesh', '--help').out)
        self.assertIn(titles(MESHES), ' '.join(run('mesh', '--help').out.split()))

    def test_the_list_of_the_page(self):
        page = (COMPANIONS / 'README.md').read_text(encoding='utf-8')
        for name in MESHES:
            self.assertIn(f'- `--form {name}`', page)
        for name in READ:
            self.assertRegex(page, rf'\*{FORMS[name].title}\*')

    def test_what_is_not_read_says_what_to_do(self):
        for name, form in FORMS.items():
            if form.instead:
                with self.assertRaisesRegex(NotAMesh, f'which is not read: {form.instead}'):
                    form_of(b'?', f'part.{form.endings[0]}')

    def test_the_lists_of_c_and_rust(self):
        """C++ and Rust hand the listing to the companions: the endings that they know, and the programs and forms of these, are those of the table."""
        written = [(name, FORMS[name]) for name in EXPORTED if FORMS[name].write]
        wanted = {(ending, form.program, name if name in MESHES else '') for name, form in written for ending in form.endings}
        for path in ('bindings/include/gwb_export.hpp', 'bindings/rust/src/exporting.rs'):
            rows = re.findall(r'[{(]"(\w+)", "(gwb-\w+)", "(\w*)"[)}]', (REPOSITORY / path).read_text(encoding='utf-8'))
            self.assertEqual(set(rows), wanted, path)
            self.assertEqual(len(rows), len(wanted), path)


class UniqueNames(InFolder):
    """Names of solids."""

    def test_in_the_letters_of_the_form(self):
        names = {1: 'Base plate', 2: 'Base_plate', 3: 'solid 7', 5: 'Lid'}
        looks = {('solid', solid): Appearance(name) for solid, name in names.items()}
        self.assertEqual(unique_names(range(1, 6), looks, 'solid_', lambda name: '_'.join(name.split())),
                         {1: 'Base_plate_(solid_1)', 2: 'Base_plate_(solid_2)', 3: 'solid_7_(solid_3)', 4: 'solid_4', 5: 'Lid'})

    def test_where_a_name_is_cut(self):
        looks = {('solid', solid): Appearance('x' * 40 + str(solid)) for solid in range(1, 4)}
        self.assertEqual(unique_names(range(1, 4), looks, 'S', lambda name: name[:31]), {1: 'S1', 2: 'S2', 3: 'S3'})

    def test_objects_of_obj_are_one_word(self):
        text = FORMS['obj'].write(model_in(TWO), Said({('solid', solid): Appearance('Elbow  # left') for solid in (1, 2)})).decode()
        self.assertEqual([line for line in text.splitlines() if line.startswith('o ')], ['o Elbow_left_(solid_1)', 'o Elbow_left_(solid_2)'])
        found = read_file(self.file('part.obj', text))
        self.assertEqual([look.name for look in found.looks.values()], ['Elbow_left'] * 2)

    def test_assimp_counts_as_many_parts(self):
        if shutil.which('assimp') is None:
            raise unittest.SkipTest('needs assimp')
        boxes = [box((9 * place, 0, 0), (9 * place + 2, 2, 2), 8 * place + 1) for place in range(16)]
        model = model_in(listing([point for points, _ in boxes for point in points], *(faces for _, faces in boxes)))
        names = ['Base plate', 'Base cover', 'Base', 'Base_plate', *['Elbow'] * 6, *['Elbow left'] * 6]
        said = Said({('solid', solid): Appearance(name) for solid, name in enumerate(names, 1)})
        for ending in ('obj', 'glb', '3mf'):
            path = self.file(f'parts.{ending}', written(model, said, self.folder / f'parts.{ending}'))
            counted = subprocess.run(['assimp', 'info', path], capture_output=True, text=True, check=True).stdout
            self.assertEqual(re.findall(r'^(?:Meshes|Faces): *(\d+)', counted, re.MULTILINE), ['16', '192'], f'{ending}: {counted}')

    def test_all_forms(self):
        """Names that are equal, or come to be, are different in the file."""
        looks = {('solid', 1): Appearance('A b'), ('solid', 2): Appearance('a B')}
        for name in (name for name in EXPORTED if FORMS[name].write and not FORMS[name].lacks(NAMES)):
            for said in (looks, {thing: Appearance('Lid') for thing in looks}):
                parts = read_file(self.file(f'part.{name}', FORMS[name].write(model_in(TWO), Said(said))))
                self.assertEqual(len(parts.model.solids), 2, name)


class Readers(InFolder):
    """Files that are damaged, or that say more than one thing."""

    def glb(self, change):
        data = FORMS['glb'].write(model_in(TWO), Said())
        length, = struct.unpack('<I', data[12:16])
        return self.file('part.glb', data[:20] + change(data[20:20 + length].decode()).ljust(length)[:length].encode() + data[20 + length:])

    def test_numbers_of_glb_that_are_none(self):
        for old, new, said in (('"count":', '"cuont":', 'count is no whole number in it: None'),
                               ('"componentType":5126', '"componentType":9999', 'of the kind 9999'),
                               ('"buffer":0', '"buffer":[', 'its JSON is damaged')):
            outcome = run('import', self.glb(lambda text, old=old, new=new: text.replace(old, new)))
            self.assertEqual((outcome.status, outcome.err.count('\n')), (3, 1))
            self.assertNotIn('slip', outcome.err)
            self.assertIn(said, outcome.err)

    def three_mf(self, change):
        path = self.folder / 'whole.3mf'
        path.write_bytes(FORMS['3mf'].write(model_in(TWO), Said()))
        with zipfile.ZipFile(path) as package, zipfile.ZipFile(self.folder / 'part.3mf', 'w') as changed:
            for name in package.namelist():
                changed.writestr(name, change(package.read(name).decode()))
        return str(self.folder / 'part.3mf')

    def test_two_objects_of_one_number(self):
        self.assertIn('two objects have the number 1', run('import', self.three_mf(lambda text: text.replace('<object id="2"', '<object id="1"'))).err)

    def test_several_files_of_materials(self):
        text = FORMS['obj'].write(model_in(TWO), Said()).decode().replace('o solid_1', 'usemtl red\no solid_1').replace('o solid_2', 'usemtl blue\no solid_2')
        self.file('a.mtl', 'newmtl red\nKd 1 0 0\n')
        self.file('b c.mtl', 'newmtl blue\nKd 0 0 1\n')
        self.file('b.mtl', 'newmtl blue\nKd 0 0 1\n')
        for line in ('mtllib a.mtl b.mtl', 'mtllib a.mtl\nmtllib b c.mtl'):
            found = read_file(self.file('part.obj', f'{line}\n{text}'))
            self.assertEqual(({look.colour for look in found.looks.values()}, found.said), ({(255, 0, 0), (0, 0, 255)}, []))
        self.assertIn('b.mtl is not beside it', read_file(self.file('part.obj', f'mtllib a.mtl x b.mtl\n{text}'.replace('b.mtl', 'no-b.mtl'))).said[-1])

    CUBE = ['4 0 3 2 1', '4 4 5 6 7', '4 0 1 5 4', '4 1 2 6 5', '4 2 3 7 6', '4 3 0 4 7']

    def off(self, faces, unit=1):
        points = [[told(unit * part) for part in point] for point in box((0, 0, 0), (1, 1, 1))[0]]
        return self.file('part.off', '\n'.join([f'OFF\n8 {len(faces)} 0', *map(' '.join, points), *faces]) + '\n')

    def test_repair_is_advised_where_it_helps(self):
        doubled = self.off([*self.CUBE, self.CUBE[0]])
        self.assertIn(': --repair leaves faces out that are there twice', run('import', doubled).err)
        self.assertEqual(run('import', '--repair', doubled).status, 0)
        walled = self.off([*self.CUBE, '3 0 1 2'])
        for words in ([], ['--repair']):
            self.assertNotIn('there twice', run('import', *words, walled).err)
        turned = self.off([*self.CUBE[:5], '4 7 4 0 3'])
        self.assertIn(': --repair turns faces', run('import', turned).err)
        self.assertNotIn('--repair', run('import', '--repair', self.off([*self.CUBE[:5], '4 7 4 0 3', '4 7 4 0 3', '3 0 1 2'])).err)

    def test_not_whole_and_open_are_told_together(self):
        from fractions import Fraction
        err = run('import', self.off(self.CUBE[:5], Fraction(1, 2))).err
        self.assertIn('is not whole', err)
        self.assertIn('and it is open: 4 edges have one face', err)
        self.assertNotIn('open', run('import', self.off(self.CUBE, Fraction(1, 2))).err)
        with self.assertRaises(Unfit):
            read_file(self.off(self.CUBE[:5]))
