"""gwb-import: reads a mesh, polygons or flat STEP and writes the script that makes its solids."""

import argparse
import sys
from fractions import Fraction
from typing import Optional, Sequence

from ..formats.appearance import comments
from ..formats.exact_numbers import told
from ..formats.forms import READ, titles
from ..formats.importing import read_file
from ..formats.models_of_parts import Imported
from ..geometry.plane_figures import Exact
from ..scripts.inversion import script_of
from .command_line import FOUND, OK, above_zero, add_version, run
from .progress import Progress

PROGRAM = 'gwb-import'


def _parser() -> argparse.ArgumentParser:
    parser = argparse.ArgumentParser(
        prog=PROGRAM, description='Writes the script that makes the solids of a file of polygons.',
        epilog='Status 0: done; 1: done, and something was left out or a face is not flat; 2: the command line is refused; '
               '3: the input is refused, or reading or writing failed.')
    parser.add_argument('file', nargs='?', metavar='FILE',
                        help=f'{titles(READ)}; of STEP flat faces (default: standard input)')
    parser.add_argument('--form', choices=READ, help='the form of the file (default: what it looks like)')
    parser.add_argument('--scale', type=above_zero, default=1, metavar='K', help='multiply coordinates, by 1000 or 1/2 say')
    parser.add_argument('--round', action='store_true', help='round coordinates, and say how far a point was moved at most')
    parser.add_argument('--within', type=above_zero, default=0, metavar='D',
                        help='round a point that lies no farther than D, by 0.000001 say, from whole coordinates')
    parser.add_argument('--keep-triangles', action='store_true', help="don't join faces of one plane")
    parser.add_argument('--repair', action='store_true',
                        help='cut bent faces into triangles, drop faces without an area and doubled ones, turn those that run the wrong way')
    parser.add_argument('--flat', action='store_true', help='of STEP take the flat solids alone, and name what is left out')
    add_version(parser)
    return parser


def work(words: Optional[Sequence[str]]) -> int:
    """Reads a file and writes its script."""
    options = _parser().parse_args(words)
    with Progress(PROGRAM) as progress:
        found = read_file(options.file, form=options.form, scale=options.scale, rounded=options.round,
                          keep_triangles=options.keep_triangles, repair=options.repair, flat=options.flat, stage=progress.stage, within=options.within)
        progress.stage('writing')
        lines = [*comments(found.looks), *script_of(found.model)]
    _say(found, options.round)
    sys.stdout.writelines(map('{}\n'.format, lines))
    return FOUND if found.wrong else OK


def _say(found: Imported, rounded: bool) -> None:
    """What is to be said, on standard error."""
    moved = [f'points were moved by {_distance(found.square_moved)} at most'] if rounded or found.square_moved else []
    for line in (*moved, *found.said, *(f'warning: {wrong}' for wrong in found.wrong)):
        print(f'{PROGRAM}: {line}', file=sys.stderr)


def _distance(square: Exact) -> str:
    """The root of a square in a few digits."""
    return told(Fraction(f'{float(square) ** 0.5:.3g}'))


def main(words: Optional[Sequence[str]] = None) -> int:
    """The program: its status."""
    return run(PROGRAM, work, words)
