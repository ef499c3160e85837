"""The type hints: mypy finds nothing wrong, where it is there, and each hint names what there is."""

import os
import pkgutil
import re
import shutil
import subprocess
import tempfile
import unittest
from importlib import import_module
from inspect import isclass, isfunction, signature, unwrap
from pathlib import Path
from typing import get_type_hints

from support import COMPANIONS, REPOSITORY

import gwb
from gwb.formats.mesh import Mesh

# What modules import for their hints alone.
ONLY_FOR_TYPES = {'Mesh': Mesh}


TAKEN = '''
from fractions import Fraction
from typing import List, Tuple

from gwb import Block, FacePart, Lone, Selection, Workbench


def part(width: int, holes: List[Tuple[int, int]], corner: List[int]) -> Fraction:
    with Workbench() as bench, bench.group():
        plate: Block = bench.block(corner, [width, 20, 5])
        top = bench.face(plate.top)
        for x, y in holes:
            bench.drill(top, (x, y, 5), 2, 8)
        bench.pocket(bench.faces().top().one(), [[1, 1, 5], [2, 1, 5], [2, 2, 5]], 1)
        bench.profile([(0, 0, 0), (1, 0, 0), (0, 1, 0)], along=[0, 0, 1])
        found: FacePart = bench.faces(solid=plate, normal=(0, 0, 1)).one()
        bench.sweep(found, (0, 0, 3))
        bench.split(bench.solid(1), bench.plane(top))
        some: Selection[FacePart] = bench.faces(plane=bench.plane(1))[1:]
        ends = bench.edges(between=(found, plate.bottom)).one().points
        edge = bench.edge(1)
        spur = bench.mev(edge, edge, list(ends[0]))
        bench.kev(bench.edge(spur.edge))
        bench.mev(Lone(bench.loop(1)), Lone(1), (0, 0, len(some)))
        bench.glue_all([plate, bench.solid(2), 3])
        upper: int = bench.split(plate, [2, 3, 0, -11], refine=True).solid
        bench.trim(upper, bench.plane(top), refine=True)
        bench.delete(bench.import_file('part.step', scale=1 / bench.step, rounded=True).one())
        return bench.volume(plate) + 6 * bench.volume(bench.solid(1))
'''
# What is a fault for mypy stands on the lines with a `#`.
NOT_TAKEN = '''
from gwb import Workbench

with Workbench() as bench:
    bench.pocket(bench.edge(1), [(0, 0, 0)], 1)  #
    bench.volume(bench.face(1))  #
    bench.kev(bench.vertex(1))  #
    bench.block((None, 0, 0), (1, 1, 1))  #
    bench.unit  #
'''


def functions_in(module):
    """The functions and methods that are written in the module."""
    for thing in vars(module).values():
        if getattr(thing, '__module__', None) == module.__name__:
            found = vars(thing).values() if isclass(thing) else [thing]
            plain = (unwrap(getattr(one, '__func__', getattr(one, 'fget', None)) or one) for one in found if callable(one) or hasattr(one, '__get__'))
            yield from (one for one in plain if isfunction(one) and one.__code__.co_filename == module.__file__)


class Types(unittest.TestCase):
    """All modules of the package."""

    def mypy(self, *paths):
        """What mypy says of the paths; where CI is set in the environment it has to be there."""
        mypy = shutil.which('mypy')
        if mypy is None:
            self.assertNotIn('CI', os.environ, 'mypy is missing, which CI needs')
            self.skipTest('mypy is missing')
        with tempfile.TemporaryDirectory() as cache:
            told = subprocess.run([mypy, '--strict', '--cache-dir', cache, *paths], cwd=COMPANIONS, capture_output=True, text=True)
        return told.stdout + told.stderr

    def test_mypy(self):
        self.assertIn('no issues found', self.mypy('gwb'))

    def test_documented_code_and_what_methods_take(self):
        blocks = re.findall(r'```python\n(.*?)```', (REPOSITORY / 'docs' / 'PYTHON.md').read_text(), re.S)
        self.assertGreater(len(blocks), 2)
        with tempfile.TemporaryDirectory() as folder:
            paths = [Path(folder, f'code_{number}.py') for number in range(len(blocks) + 1)]
            for path, text in zip(paths, [*blocks, TAKEN]):
                path.write_text(text)
            self.assertIn(f'no issues found in {len(paths)} source files', self.mypy(*map(str, paths)))
            paths[-1].write_text(NOT_TAKEN)
            told = self.mypy(str(paths[-1]))
            self.assertEqual(told.count(': error: '), NOT_TAKEN.count('#'), told)

    def test_each_hint_names_what_there_is(self):
        for found in pkgutil.walk_packages(gwb.__path__, 'gwb.'):
            module = import_module(found.name)
            for function in functions_in(module):
                with self.subTest(module=found.name, function=function.__qualname__):
                    hints = get_type_hints(function, vars(module), ONLY_FOR_TYPES)
                    parameters = list(signature(function).parameters)
                    unnamed = {'self', 'cls'} & set(parameters[:1])
                    if function.__name__ != '<lambda>' and '<locals>' not in function.__qualname__:
                        self.assertEqual(set(parameters) - unnamed - set(hints), set())
                        self.assertIn('return', hints)
