#!/usr/bin/env python3
"""Runs each part of examples/gallery, and compares its sizes, volumes and picture with those on the gallery's page, and what it exports with its name.

    tests/gallery.py [--write] [LIBRARY]

A part has 40 lines at most. LIBRARY is bindings/out/libgwb.so where none is given; --write first makes the page and the pictures anew: then each new
volume has to be worked out by hand too. The last line counts.
"""
import ast
import io
import os
import re
import sys
import tempfile
import warnings
from contextlib import redirect_stdout
from fractions import Fraction
from pathlib import Path
from typing import Any, Dict, Iterator, List, NamedTuple, Tuple

from counts import TOP, command_line, there, told

sys.path.insert(0, str(TOP / 'companions'))
from gwb import Workbench
from gwb.drawing.svg import svg_text

GALLERY = TOP / 'examples' / 'gallery'
PAGE = GALLERY / 'README.md'
STAND = (2, -3, 2)
FORMS = ('.step', '.3mf', '.glb', '.obj', '.off', '.stl')
MOST_LINES = 40
HEAD = '''# A gallery

Each part is a program in Python of at most 40 lines. It prints the size and the volume of each of its solids. Into the current folder it writes a STEP file
and an HTML page on which you can rotate the part, such as `gear.step` and `gear.html`. In the sources, after `make try`:
`PYTHONPATH=companions python3 examples/gallery/gear.py`. FreeCAD 0.20 reads each STEP file as valid solids of the sizes and volumes below.

Volumes are exact, so one is a fraction; a `;` stands between the solids of a part.

| | Part | Sizes, in mm | Volume, in mm³ |
|---|---|---|---|
'''


class Part(NamedTuple):
    """A part: its file, what it is, the line that it prints for each solid, its picture, and what is wrong with what it leaves, or nothing."""

    path: Path
    told: str
    printed: List[str]
    picture: str
    wrong: str

    @property
    def row(self) -> str:
        """Its row of the page."""
        numbers = [line.split() for line in self.printed]
        name = self.path.stem
        sizes, volumes = ('; '.join(all_) for all_ in ([' x '.join(line[:3]) for line in numbers], [line[3] for line in numbers]))
        return f'| ![{name}]({name}.svg) | [{name}]({name}.py): {self.told} | {sizes} | {volumes} |\n'


def run(path: Path) -> Part:
    """Runs a part in a folder of its own."""
    text, printed, names = path.read_text(), io.StringIO(), {}    # type: str, io.StringIO, Dict[str, Any]
    before = os.getcwd()
    with tempfile.TemporaryDirectory() as folder:
        os.chdir(folder)
        try:
            with redirect_stdout(printed):
                exec(compile(text, str(path), 'exec'), names)
        finally:
            os.chdir(before)
        wanted = {f'{path.stem}.step': b'ISO-10303-21', f'{path.stem}.html': b'<!DOCTYPE html>'}
        there_are = {file.name: file.read_bytes() for file in Path(folder).iterdir()}
    wrong = [f'{path.name} has more than {MOST_LINES} lines'] if text.count('\n') > MOST_LINES else []
    wrong += [f'{path.name} leaves {sorted(there_are)}'] if set(there_are) != set(wanted) else []
    wrong += [f'{name} begins {there_are[name][:40]!r}' for name, begin in wanted.items() if not there_are.get(name, begin).lower().startswith(begin.lower())]
    bench = names['bench']
    wrong += [f'{path.stem}{form} comes back as {found} of {whole}' for form in FORMS for found, whole in [come_back(bench, form)] if found != whole]
    part = Part(path, ast.get_docstring(ast.parse(text)) or '', printed.getvalue().splitlines(), svg_text(bench.listing(), STAND, hidden=False), '; '.join(wrong))
    bench.close()
    return part


def come_back(bench: Workbench, form: str) -> Tuple[Fraction, Fraction]:
    """The volume of all solids of a file of this form, and of those that were written."""
    with tempfile.TemporaryDirectory() as folder, Workbench() as again, warnings.catch_warnings():
        warnings.simplefilter('ignore')    # (of solids that touch)
        bench.export(f'{folder}/part{form}')
        again.import_file(f'{folder}/part{form}')
        found, whole = (sum((one.volume(solid) for solid in one.solids()), Fraction(0)) for one in (again, bench))
        return found, whole


def drawn(picture: str) -> List[List[str]]:
    """The lines of a picture, whichever way and in whichever order they are drawn: that goes by the numbers of edges, which no part promises."""
    ends = re.findall(r'<line x1="(.*?)" y1="(.*?)" x2="(.*?)" y2="(.*?)"', picture)
    return sorted(sorted([f'{x} {y}', f'{other_x} {other_y}']) for x, y, other_x, other_y in ends)


def findings(parts: List[Part]) -> Iterator[str]:
    """For each comparison what is wrong, or nothing."""
    page = PAGE.read_text() if PAGE.exists() else ''
    yield '' if page.startswith(HEAD) and page.count('\n') == HEAD.count('\n') + len(parts) else 'the page is not the one that --write makes'
    for part in parts:
        yield part.wrong
        yield '' if part.row in page else f'{part.path.name} prints {part.printed}, which is not on the page'
        picture = part.path.with_suffix('.svg')
        yield '' if picture.exists() and drawn(picture.read_text()) == drawn(part.picture) else f'{picture.name} is not the picture that is drawn'


def main() -> int:
    given = command_line(__doc__, '--write', library=TOP / 'bindings' / 'out' / 'libgwb.so')
    os.environ['GWB'] = str(there(given.library, 'library'))
    parts = [run(path) for path in sorted(GALLERY.glob('*.py'))]
    if given.write:
        PAGE.write_text(HEAD + ''.join(part.row for part in parts))
        for part in parts:
            part.path.with_suffix('.svg').write_text(part.picture)
    return told(findings(parts))


if __name__ == '__main__':
    sys.exit(main())
