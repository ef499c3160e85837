"""The words `--names` and `--unit` of programs that write files: a script whose comments say names, colours and the unit, and the unit itself."""

import argparse
from fractions import Fraction

from ..formats.appearance import Said, appearances_in
from ..scripts.unit_comments import unit_in
from .command_line import above_zero


def add_names(parser: argparse.ArgumentParser) -> None:
    """Adds the words."""
    parser.add_argument('--names', metavar='SCRIPT', dest='script_of_names',
                        help='with replies: take names, colours and the unit from the comments of their script, as gwb-import and Python write them')
    parser.add_argument('--unit', type=above_zero, metavar='U', help='with replies: how many millimetres a coordinate is, 1/1000 say (default: 1)')


def said_in(data: bytes) -> Said:
    """What the comments of a script say."""
    units = [unit for unit in map(unit_in, data.split(b'\n')) if unit is not None]
    return Said(appearances_in(data.decode('utf-8', 'replace').splitlines()), units[-1] if units else Fraction(1))
