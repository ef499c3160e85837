"""Files that are made to take time or memory without end: each is refused in one line, in little of both.

How long each takes isn't asserted: a process that has taken 20 seconds of processor has no end. Memory is that of the process at its largest.
"""

import io
import os
import struct
import subprocess
import sys
import tempfile
import unittest
import zipfile
from pathlib import Path
from typing import NamedTuple

from support import COMPANIONS, REPOSITORY, run

HEAD = '<model unit="millimeter" xmlns="http://schemas.microsoft.com/3dmanufacturing/core/2015/02"><resources>'
MESH = ('<mesh><vertices><vertex x="0" y="0" z="0"/><vertex x="6" y="0" z="0"/><vertex x="0" y="6" z="0"/><vertex x="0" y="0" z="6"/></vertices>'
        '<triangles><triangle v1="0" v2="2" v3="1"/><triangle v1="0" v2="1" v3="3"/><triangle v1="1" v2="2" v3="3"/>'
        '<triangle v1="0" v2="3" v3="2"/></triangles></mesh>')
FLAT = 'OFF\n4 4 0\n0 0 0\n{} 0 0\n0 1 0\n0 0 1\n3 0 2 1\n3 0 1 3\n3 0 3 2\n3 1 2 3\n'
MOST_KILOBYTES = 500_000
ENDLESS = 20


def step(data):
    """A STEP file of a data section alone."""
    return f'ISO-10303-21;\nDATA;\n{data}\nENDSEC;\nEND-ISO-10303-21;\n'.encode()


def package(*pieces):
    """A 3MF file whose model is made of pieces."""
    file = io.BytesIO()
    with zipfile.ZipFile(file, 'w', zipfile.ZIP_DEFLATED, compresslevel=1) as archive:
        with archive.open('3D/3dmodel.model', 'w', force_zip64=True) as model:
            for piece in pieces:
                model.write(piece if isinstance(piece, bytes) else piece.encode())
    return file.getvalue()


def built(objects, items='<item objectid="1"/>'):
    """A 3MF file of objects and items."""
    return package(HEAD, objects, '</resources><build>', *([items] if isinstance(items, str) else items), '</build></model>')


def components(*numbers):
    """An object made of others."""
    return '<components>' + ''.join(f'<component objectid="{number}"/>' for number in numbers) + '</components>'


FILES = {
    'quotes.step': (lambda: step('#1=A(' + "'" * 52), 'there is no solid'),
    'open_quote.step': (lambda: step('#1=A(' + "'" * 53), 'has a string that does not end'),
    'open.step': (lambda: step('#1=A(' * 200_000), 'there is no solid'),
    'strings.step': (lambda: step("#1=A('" * 200_001), 'has a string that does not end'),
    'comments.step': (lambda: step('#1=A(/*' * 200_000), 'has a comment that does not end'),
    'deep.step': (lambda: step("#1=MANIFOLD_SOLID_BREP('',#2);#2=CLOSED_SHELL" + '(' * 500_000 + ')' * 500_000 + ';'), 'this is a damaged STEP file'),
    'entities.step': (lambda: step('#1=A();\n' * 2_100_000), 'more than 2,000,000 entities'),
    'twice.step': (lambda: step('#1=A();\n#1=A();'), 'has two #1'),
    'long_number.step': (lambda: step('#' + '1' * 100_000 + '=A();'), 'there is no solid'),
    'itself.step': (lambda: step("#1=MANIFOLD_SOLID_BREP('',#2);#2=CLOSED_SHELL('',(#3));#3=ADVANCED_FACE('',(#4),#5,.T.);#4=FACE_BOUND('',#6,.T.);"
                                 "#5=PLANE('',#5);#6=EDGE_LOOP('',(#7));#7=ORIENTED_EDGE('',*,*,#8,.T.);#8=EDGE_CURVE('',#9,#9,#8,.T.);"
                                 "#9=VERTEX_POINT('',#9);"), '#9 of the STEP file is no point'),
    'blanks.obj': (lambda: b' ' * 40_000_000, 'or one of 10,000,000 bytes or more'),
    'lines.off': (lambda: b'OFF\n' + b'\n' * 7_000_000, 'more than 6,000,000 lines'),
    'digits.off': (lambda: FLAT.format('9' * 1_000_000).encode(), 'no number: 999'),
    'power.off': (lambda: FLAT.format('1e999').encode(), 'the point a number of some 1000 digits 0 0 would lie past 1,000,000,000'),
    'endless.off': (lambda: FLAT.format('1e999999999').encode(), 'no number: 1e999999999'),
    'counts.off': (lambda: b'OFF\n999999999999 999999999999 0\n', 'are said, and there are 0 and 0'),
    'corners.off': (lambda: b'OFF\n1 1 0\n0 0 0\n999999999999 0 0 0\n', 'has fewer corners than it says'),
    'counts.ply': (lambda: b'ply\nformat ascii 1.0\nelement vertex 999999999999\nproperty float x\nend_header\n', 'fewer lines than its head says'),
    'list.ply': (lambda: b'ply\nformat binary_little_endian 1.0\nelement face 1\nproperty list uint int vertex_indices\nend_header\n'
                 + struct.pack('<I', 4294967295), 'shorter than its head says'),
    'nothing.ply': (lambda: b'ply\nformat ascii 1.0\nelement x 999999999999\nend_header\n', 'does not say what it holds'),
    'items.3mf': (lambda: built(f'<object id="1">{MESH}</object>', ['<item objectid="1"/>' * 1000] * 3000), 'more than 200,000 items'),
    'circle.3mf': (lambda: built(f'<object id="1">{components(2)}</object><object id="2">{components(1)}</object>'), 'go round in a circle'),
    'doubled.3mf': (lambda: built(f'<object id="0">{MESH}</object>' + ''.join(
        f'<object id="{n}">{components(n - 1, n - 1)}</object>' for n in range(1, 60)), '<item objectid="59"/>'), 'more than 700,000 faces'),
    'blanks.3mf': (lambda: package(HEAD, *[b' ' * 10_000_000] * 41, '</resources></model>'), 'more than 400,000,000 bytes'),
    'long_tag.3mf': (lambda: package(HEAD, '<object id="1" name="', b'a' * 40_000_000, '"/></resources></model>'), 'bytes in one tag'),
    'missing.3mf': (lambda: built('', '<item objectid="7"/>'), 'object 7 is used, and is not there'),
    'entities.amf': (lambda: b'<!DOCTYPE a [<!ENTITY a "aaaa"><!ENTITY b "&a;&a;&a;">]><amf>&b;</amf>', 'a document type'),
    'deep.amf': (lambda: b'<amf>' + b'<a>' * 1_000_000, 'nested more than 100 deep'),
}


class Ended(NamedTuple):
    """How a process ended: its status, what it wrote, and the kilobytes that it took at most."""

    status: int
    out: str
    err: str
    kilobytes: int


def ended(folder, *words, module='importing'):
    """Runs a companion in a process of its own, which is stopped after 20 seconds of processor."""
    with open(Path(folder, 'out'), 'w+') as out, open(Path(folder, 'err'), 'w+') as err:
        code = (f'import resource, sys; resource.setrlimit(resource.RLIMIT_CPU, ({ENDLESS}, {ENDLESS})); '
                f'from gwb.programs.{module} import main; status = main(sys.argv[1:]); '
                'print(resource.getrusage(resource.RUSAGE_SELF).ru_maxrss, file=open("kilobytes", "w")); sys.exit(status)')
        done = subprocess.run([sys.executable, '-c', code, *words], stdout=out, stderr=err, cwd=folder, check=False,
                              env={**os.environ, 'PYTHONPATH': str(COMPANIONS)})
        out.seek(0)
        err.seek(0)
        kilobytes = Path(folder, 'kilobytes')
        return Ended(done.returncode, out.read(), err.read(), int(kilobytes.read_text()) if kilobytes.exists() else 0)


class Hostile(unittest.TestCase):
    """One line each."""

    def test_each_file(self):
        for name, (make, part) in FILES.items():
            with self.subTest(name), tempfile.TemporaryDirectory() as folder:
                Path(folder, name).write_bytes(make())
                done = ended(folder, name)
                self.assertEqual((done.status, done.out, done.err.count('\n')), (3, '', 1), done.err)
                self.assertTrue(done.err.startswith('gwb-import: ') and part in done.err and len(done.err) < 400, done.err)
                self.assertTrue(0 < done.kilobytes < MOST_KILOBYTES, done.kilobytes)

    def test_replies_without_end(self):
        listed = (REPOSITORY / 'examples' / 'wire.expected').read_bytes()
        for replies, status in ((b'ok\n' * 20_000_000 + listed, 0), (listed + b'volume 6\n' * 5_000_000 + b'ok', 3), (b'ok\n' * 20_000_000, 3)):
            with tempfile.TemporaryDirectory() as folder:
                Path(folder, 'replies').write_bytes(replies)
                done = ended(folder, 'replies', module='svg')
                self.assertEqual((done.status, done.err.count('\n')), (status, status // 3), done.err)
                self.assertTrue(0 < done.kilobytes < MOST_KILOBYTES, done.kilobytes)

    def test_factors_without_end(self):
        for word in ('1e999999999', '1e9999999', '9' * 100_000, '1/' + '0' * 100_000, '1/0', 'nan', 'inf', '-1', '0', '2/x'):
            outcome = run('import', '--scale', word, '/nowhere')
            self.assertEqual((outcome.status, outcome.out, outcome.err.count('Traceback')), (2, '', 0), word[:20])
            self.assertLess(len(outcome.err), 1200)

    def test_a_file_larger_than_any_model(self):
        with tempfile.TemporaryDirectory() as folder:
            path = Path(folder, 'large.stl')
            with open(path, 'wb') as file:
                file.truncate(2 ** 32)
            outcome = run('import', str(path))
        self.assertEqual((outcome.status, outcome.err), (3, 'gwb-import: the file has more than 300,000,000 bytes\n'))
