"""What the tests share: where things lie, how a companion is run, and listings made from points and faces."""

import atexit
import io
import os
import sys
import tarfile
import tempfile
import unittest
from contextlib import redirect_stderr, redirect_stdout
from fractions import Fraction
from importlib import import_module
from pathlib import Path
from typing import Dict, List, NamedTuple, Sequence, Set, Tuple

TESTS = Path(__file__).resolve().parent
COMPANIONS = TESTS.parent
REPOSITORY = COMPANIONS.parent
OUTPUTS = TESTS / 'stored'
sys.path.insert(0, str(COMPANIONS))

# The step of sessions in tests that hold in any lattice which has whole millimetres: GWB_TEST_STEP says it, else 1.
STEP = Fraction(os.environ.get('GWB_TEST_STEP', '1'))

Point = Tuple[int, int, int]
Cycle = Sequence[int]


def _unpacked() -> Path:
    """The folder in which the files of other programs are, unpacked once in a process, and removed when it ends."""
    folder = tempfile.TemporaryDirectory()
    atexit.register(folder.cleanup)
    with tarfile.open(OUTPUTS / 'files.tar.xz') as archive:
        archive.extractall(folder.name)
    return Path(folder.name)


# Files of other programs, as stored/MANIFEST.md says.
STORED = _unpacked()


class Outcome(NamedTuple):
    """What a companion wrote, and its status."""

    out: str
    err: str
    status: int


MODULES = {'import': 'importing'}


def run(companion: str, *words: str) -> Outcome:
    """Runs a companion on command line words within this process."""
    written, err = io.BytesIO(), io.StringIO()
    out = io.TextIOWrapper(written, encoding='utf-8', newline='')
    with redirect_stdout(out), redirect_stderr(err):
        try:
            status = import_module(f'gwb.programs.{MODULES.get(companion, companion)}').main(list(words))
        except SystemExit as end:
            status = end.code
    out.flush()
    return Outcome(written.getvalue().decode('utf-8', 'surrogateescape'), err.getvalue(), status)


def examples() -> List[Path]:
    """The example scripts."""
    return sorted((REPOSITORY / 'examples').glob('*.gwb'))


def scripts() -> List[Path]:
    """All scripts that have replies beside them."""
    worked = sorted((REPOSITORY / 'tests' / 'scripts').glob('*.gwb'))
    return [script for script in examples() + worked if script.with_suffix('.expected').exists()]


def program() -> str:
    """The program that the environment names, or the one built in this repository; the test is skipped where none is."""
    named = os.environ.get('GWB', '')
    path = Path(named if named and not named.endswith('.so') else REPOSITORY / 'crates' / 'gwb' / 'out' / 'gwb')
    if not path.is_file():
        raise unittest.SkipTest(f'needs gwb, which is not built at {path}; GWB may name it')
    return str(path)


def library() -> str:
    """The library that the environment names, by LIBRARY or GWB, or the one built in this repository; the test is skipped where none is."""
    named = os.environ.get('LIBRARY') or os.environ.get('GWB', '')
    path = Path(named if named.endswith('.so') else REPOSITORY / 'bindings' / 'out' / 'libgwb.so')
    if not path.is_file():
        raise unittest.SkipTest(f'needs the library, which is not built at {path}; LIBRARY may name it')
    return str(path)


def box(low: Point, high: Point, first: int = 1) -> Tuple[List[Point], List[List[Cycle]]]:
    """The points of a box, numbered from first, and its faces: bottom, top, front, right, back, left."""
    (x, y, z), (u, v, w) = low, high
    points = [(x, y, z), (u, y, z), (u, v, z), (x, v, z), (x, y, w), (u, y, w), (u, v, w), (x, v, w)]
    cycles = [(1, 4, 3, 2), (5, 6, 7, 8), (1, 2, 6, 5), (2, 3, 7, 6), (3, 4, 8, 7), (4, 1, 5, 8)]
    return points, [[tuple(first - 1 + vertex for vertex in cycle)] for cycle in cycles]


def turned(faces: List[List[Cycle]]) -> List[List[Cycle]]:
    """The faces as seen from the other side."""
    return [[tuple(reversed(cycle)) for cycle in face] for face in faces]


def shells(*corners: Tuple[Point, Point], inside_out: Sequence[int] = ()) -> str:
    """A listing of one solid whose shells are boxes, some of them inside out."""
    points: List[Point] = []
    faces: List[List[Cycle]] = []
    for place, (low, high) in enumerate(corners):
        more, others = box(low, high, len(points) + 1)
        points += more
        faces += turned(others) if place in inside_out else others
    return listing(points, faces)


def lamina(*loops: Sequence[Tuple[int, int]]) -> str:
    """A listing of a lamina in the plane z = 0 with an outer loop and rings, which are closed by faces of their own."""
    points = [(x, y, 0) for loop in loops for x, y in loop]
    cycles: List[Cycle] = []
    for loop in loops:
        first = sum(map(len, cycles)) + 1
        cycles.append(tuple(range(first, first + len(loop))))
    return listing(points, [cycles, *turned([[cycle] for cycle in cycles])])


def plate(count: int) -> str:
    """A listing of a plate, two thick, with count times count square holes of two by two."""
    width = 4 * count
    points, faces = box((0, 0, 0), (width, width, 2))
    for x in range(1, width, 4):
        for y in range(1, width, 4):
            more, walls = box((x, y, 0), (x + 2, y + 2, 2), len(points) + 1)
            bottom, top, *sides = turned(walls)
            points += more
            faces[0] += bottom
            faces[1] += top
            faces += sides
    return listing(points, faces)


def listing(points: Sequence[Point], *solids: List[List[Cycle]]) -> str:
    """A listing of solids, each a list of faces, each a list of cycles of vertices: the outer loop, then rings."""
    rows: Dict[str, List[str]] = {kind: [] for kind in ('solid', 'face', 'loop', 'edge', 'vertex')}
    edges: Dict[Tuple[int, int], int] = {}
    for solid, faces in enumerate(solids, 1):
        rows['solid'].append(f'solid {solid}')
        for cycles in faces:
            first = len(rows['loop']) + 1
            loops = ' '.join(str(first + i) for i in range(len(cycles)))
            rows['face'].append(f'face {len(rows["face"]) + 1} {solid} {loops}')
            for cycle in cycles:
                rows['loop'].append(f'loop {len(rows["loop"]) + 1} {_halves(cycle, edges)}')
    rows['edge'] = [f'edge {number} {start} {end}' for (start, end), number in edges.items()]
    rows['vertex'] = [f'vertex {number} {x} {y} {z}' for number, (x, y, z) in enumerate(points, 1)]
    return ''.join(line + '\n' for lines in rows.values() for line in lines)


def boxes(*corners: Tuple[Point, Point]) -> str:
    """A listing of boxes, each a solid."""
    points: List[Point] = []
    solids = []
    for low, high in corners:
        more, faces = box(low, high, len(points) + 1)
        points += more
        solids.append(faces)
    return listing(points, *solids)


def _halves(cycle: Cycle, edges: Dict[Tuple[int, int], int]) -> str:
    """The half-edges of a cycle, from the least on; new edges get the next numbers."""
    halves = []
    for start, end in zip(cycle, (*cycle[1:], cycle[0])):
        if (end, start) in edges:
            halves.append(-edges[end, start])
        else:
            halves.append(edges.setdefault((start, end), len(edges) + 1))
    least = halves.index(min(halves, key=lambda half: (abs(half), half < 0)))
    return ' '.join(f'{half:+d}' for half in halves[least:] + halves[:least])


# The tests that ran in whole millimetres, whatever STEP is.
OF_THE_LATTICE: Set[str] = set()


def step_of(test: unittest.TestCase, *lattice: str) -> Fraction:
    """The step for a test: 1 for those of these names, which compare text or arrays, in which coordinates count steps, or lie at the lattice's end."""
    if test.id().rpartition('.')[2] not in lattice:
        return STEP
    OF_THE_LATTICE.add(test.id())
    return Fraction(1)


def opened(test: unittest.TestCase, step: Fraction = STEP):
    """A workbench for a test, closed when it ends."""
    bench = import_module('gwb').Workbench(library(), step=step)
    test.addCleanup(bench.close)
    return bench


def bench_and_folder(test: unittest.TestCase, step: Fraction = STEP):
    """A workbench and a folder for a test, both gone when it ends."""
    return opened(test, step), folder_of(test)


def folder_of(test: unittest.TestCase) -> Path:
    """A folder for a test, gone when it ends."""
    folder = tempfile.TemporaryDirectory()
    test.addCleanup(folder.cleanup)
    return Path(folder.name)


class InFolder(unittest.TestCase):
    """Tests with a folder of their own."""

    def setUp(self):
        self.folder = folder_of(self)

    def file(self, name, data):
        """The path of a file there that holds this."""
        path = self.folder / name
        path.write_bytes(data.encode() if isinstance(data, str) else data)
        return str(path)


def model_in(text: str):
    """The model of a listing."""
    return import_module('gwb').read_model(text.encode())


def commands_of(bench):
    """The lines of the script of a session that are commands."""
    return [line for line in bench.script().splitlines() if not line.startswith('#')]


def as_listed(bench):
    """The model that the command `list` says of a session."""
    return import_module('gwb.protocol.listing').model_of(bench.ask('list'))
