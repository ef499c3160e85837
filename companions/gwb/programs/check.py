"""gwb-check: looks for slips that gwb doesn't."""

from argparse import ArgumentTypeError
from contextlib import contextmanager
from fractions import Fraction
from typing import Callable, Iterator, Optional, Sequence

from ..checks.check import check
from ..errors import CompanionError
from ..geometry.model import Model
from ..session.kernel import Kernel
from ..session.library import find_path
from .command_line import FOUND, OK, listing_parser, run
from .given import wanted

PROGRAM = 'gwb-check'
# A model of fewer faces is looked at before the library is loaded.
_MANY_FACES = 1000


def _ratio(word: str) -> int:
    if not word.isdecimal() or not 1 <= int(word[:9]) <= 10 ** 8 or len(word) > 9:
        raise ArgumentTypeError(f'{word[:20]!r} is no whole number from 1 to 100,000,000')
    return int(word)


@contextmanager
def _told_apart(model: Model) -> Iterator[Callable[[int], bool]]:
    """What says of solids whether none of their faces cross or touch: of large ones the library, where there is one."""
    kernel = None
    try:
        if len(model.faces) >= _MANY_FACES:
            kernel = Kernel(find_path(), Fraction(1))
            kernel.load(model)
    except CompanionError:
        kernel = None
    yield kernel.are_apart if kernel else lambda solid: False
    if kernel:
        kernel.close()


def work(words: Optional[Sequence[str]]) -> int:
    """Reads a model and says what is wrong with it."""
    parser = listing_parser(PROGRAM, 'Looks in a model for rings that run the wrong way or lie outside their face, '
                                     'loops that cross, faces that meet or are bent, solids that are inside out or touch '
                                     'themselves. Solids are looked at one by one. All arithmetic is exact.')
    parser.epilog = (parser.epilog or '') + ' 1: something was found.'
    parser.add_argument('--between', action='store_true', help='look for solids that share room too')
    parser.add_argument('--slivers', type=_ratio, metavar='N', help='name faces and solids more than N times as long as wide or thick, by 1000 say')
    options = parser.parse_args(words)
    model = wanted(options).model
    with _told_apart(model) as are_apart:
        report = check(model, options.between, options.slivers, are_apart)
    for line in report.lines():
        print(line)
    return FOUND if report.findings else OK


def main(words: Optional[Sequence[str]] = None) -> int:
    """The program: its status."""
    return run(PROGRAM, work, words)
