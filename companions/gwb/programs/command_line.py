"""What the programs share: reading input, writing output, errors of one line and statuses."""

import argparse
import gc
import os
import sys
from typing import Callable, Optional, Sequence, Tuple

from ..errors import CompanionError
from ..formats.exact_numbers import NotANumber, exact_or_ratio
from ..geometry.plane_figures import Exact
from ..protocol.listing import Listed
from ..version import VERSION

OK, FOUND, REFUSED, INTERRUPTED = 0, 1, 3, 130
# A large model is made of millions of things of which none holds itself: the search for those that do is made seldom.
_SELDOM = 1_000_000


def run(program: str, work: Callable[[Optional[Sequence[str]]], int], words: Optional[Sequence[str]] = None) -> int:
    """The status of a program, whose errors become one line on standard error."""
    gc.set_threshold(_SELDOM)
    try:
        status = work(words)
        sys.stdout.flush()
        return status
    except BrokenPipeError:
        os.dup2(os.open(os.devnull, os.O_WRONLY), sys.stdout.fileno())
        return REFUSED
    except CompanionError as error:
        print(f'{program}: {error}', file=sys.stderr)
        return REFUSED
    except OSError as error:
        print(f'{program}: {_told(error)}', file=sys.stderr)
        return REFUSED
    except MemoryError:
        print(f'{program}: out of memory', file=sys.stderr)
        return REFUSED
    except KeyboardInterrupt:
        return INTERRUPTED


def _told(error: OSError) -> str:
    where = f'{error.filename}: ' if error.filename else ''
    return where + (error.strerror or str(error))


def read_bytes(path: Optional[str]) -> bytes:
    """The bytes of the file, or of standard input where no path, or `-`, is given."""
    if path is None or path == '-':
        return sys.stdin.buffer.read()
    with open(path, 'rb') as file:
        return file.read()


def write_bytes(data: bytes) -> None:
    """Writes bytes to standard output, with no change of line ends."""
    sys.stdout.flush()
    sys.stdout.buffer.write(data)


def above_zero(word: str) -> Exact:
    """The number above zero that a word is, 3, 0.5 or 1/2."""
    try:
        number = exact_or_ratio(word)
    except NotANumber as error:
        raise argparse.ArgumentTypeError(str(error)) from None
    if number <= 0:
        raise argparse.ArgumentTypeError(f'{word} is not above zero')
    return number


def add_version(parser: argparse.ArgumentParser) -> None:
    """Adds the word that every program takes."""
    parser.add_argument('--version', action='version', version=f'%(prog)s {VERSION}', help='print the version and end')


def listing_parser(program: str, description: str) -> argparse.ArgumentParser:
    """A parser of the words that all programs which read a listing take."""
    parser = argparse.ArgumentParser(
        prog=program, description=description,
        epilog='FILE says by what it holds what it is. Status 0: done; 2: the command line is refused; 3: the input is refused, or reading or writing failed.')
    parser.add_argument('listing', nargs='?', metavar='FILE', help='a script, which is run to its end, replies of gwb, of which the last listing is '
                                                                   'taken, or a file that gwb-import reads (default: standard input)')
    parser.add_argument('--solid', type=int, metavar='S', help='take solid S alone')
    add_version(parser)
    parser.set_defaults(program=program)
    return parser


def told_later(listed: Listed) -> Tuple[str, ...]:
    """What is said where commands changed the model after it was listed."""
    if not listed.later:
        return ()
    commands = '1 command changed' if listed.later == 1 else f'{listed.later:,} commands changed'
    return (f'warning: {commands} the model after this listing: `list` at the end of the script lists what it leaves',)
