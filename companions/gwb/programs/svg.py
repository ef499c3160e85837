"""gwb-svg: draws a model."""

import sys
from argparse import ArgumentTypeError
from typing import Optional, Sequence

from ..drawing.svg import SIZE, picture
from .command_line import OK, listing_parser, run
from .given import filled
from .inside_out import warn_of_inside_out

PROGRAM = 'gwb-svg'
SIZES = range(100, 10_001)


def view_step(word: str) -> int:
    """A whole number of a direction. Raises ArgumentTypeError."""
    try:
        step = int(word)
    except ValueError:
        raise ArgumentTypeError(f'{word!r} is no whole number; three are wanted, as in --view 2 -3 2') from None
    if abs(step) > 1_000_000:
        raise ArgumentTypeError('past 1,000,000')
    return step


def _size(word: str) -> int:
    if not word.isdecimal() or int(word[:9]) not in SIZES:
        raise ArgumentTypeError(f'{word!r} is no whole number from {SIZES[0]} to {SIZES[-1]}')
    return int(word)


def work(words: Optional[Sequence[str]]) -> int:
    """Reads a model and draws it."""
    parser = listing_parser(PROGRAM, 'Draws a model as SVG: visible edges black, or each solid of several in its colour; '
                                     'hidden ones thin and dashed (found exactly), seams between faces of one plane grey.')
    parser.add_argument('--view', nargs=3, type=view_step, default=(2, -3, 2), metavar=('X', 'Y', 'Z'),
                        help='the viewer stands in this direction, z is up (default: 2 -3 2)')
    parser.add_argument('--names', action='store_true',
                        help='with the numbers of faces (green), edges (blue) and vertices (red); pale where they are hidden')
    parser.add_argument('--no-hidden', dest='hidden', action='store_false', help='leave hidden lines out')
    parser.add_argument('--size', type=_size, default=SIZE, metavar='N', help=f'the longest side in pixels (default: {SIZE})')
    options = parser.parse_args(words)
    if not any(options.view):
        parser.error('argument --view: the viewer stands in no direction')
    model = filled(options).model
    x, y, z = options.view
    drawn = picture(model, (x, y, z), options.names, options.hidden, options.size)
    print(drawn.text, end='')
    if drawn.left_out:
        print(f'{PROGRAM}: {drawn.left_out} numbers had no room and are left out (try --size or --solid)', file=sys.stderr)
    warn_of_inside_out(PROGRAM, model)
    return OK


def main(words: Optional[Sequence[str]] = None) -> int:
    """The program: its status."""
    return run(PROGRAM, work, words)
