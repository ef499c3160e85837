"""Writes the script that makes a model, or that takes it away."""

import argparse
import re
import sys
from typing import Any, Callable, Dict, List, Optional, Sequence

from ..geometry.crossings import require_part
from ..geometry.free_numbers import renumbered_after
from ..geometry.joined_models import without
from ..geometry.model import Model
from ..geometry.moved import Change, changed, mirroring, moving, scaling, turning
from ..scripts.inversion import script_of, taking_away
from ..scripts.short_script import short_script_of
from ..scripts.unit_comments import unit_lines
from .command_line import OK, listing_parser, run
from .given import given
from .inside_out import warn_of_inside_out

PROGRAM = 'gwb-script'


class _Change(argparse.Action):
    """Adds a change of place to those that were asked for before it."""

    def __call__(self, parser: argparse.ArgumentParser, namespace: argparse.Namespace, values: Any,
                 option: Optional[str] = None) -> None:
        makers: Dict[str, Callable[[Any], Change]] = {'--move': self._move, '--turn': self._turn, '--mirror': self._mirror,
                                                      '--scale': self._scale}
        make = makers[option or '']
        try:
            namespace.changes = [*(namespace.changes or ()), make(values)]
        except ValueError as error:
            parser.error(f'argument {option}: {error}')

    @staticmethod
    def _move(words: List[int]) -> Change:
        return moving((words[0], words[1], words[2]))

    @staticmethod
    def _turn(words: str) -> Change:
        axis, *times = words.split()
        if axis not in ('x', 'y', 'z') or len(times) > 1:
            raise ValueError('one of x, y and z is needed, and then how many times, if more than once')
        return turning(axis, int(times[0]) if times else 1)

    @staticmethod
    def _mirror(words: List[int]) -> Change:
        a, b, c, d = words
        if (a, b, c) == (0, 0, 0):
            raise ValueError('A, B and C are all zero')
        return mirroring((a, b, c, d))

    @staticmethod
    def _scale(factor: int) -> Change:
        if factor < 1:
            raise ValueError(f'{factor} is below 1')
        return scaling(factor)


def _parser() -> argparse.ArgumentParser:
    parser = listing_parser(PROGRAM, 'Writes the script that makes a model, with the same numbers. '
                                     'Changes of place are made in the order in which they are given.')
    parser.add_argument('--move', nargs=3, type=int, metavar=('DX', 'DY', 'DZ'), action=_Change, dest='changes',
                        help='move it by a vector')
    parser.add_argument('--turn', metavar='AXIS [TIMES]', action=_Change, dest='changes',
                        help='turn it by a quarter, or TIMES quarters, about the axis x, y or z through the origin')
    parser.add_argument('--mirror', nargs=4, type=int, metavar=('A', 'B', 'C', 'D'), action=_Change, dest='changes',
                        help='mirror it in the plane A x + B y + C z + D = 0')
    parser.add_argument('--scale', type=int, metavar='K', action=_Change, dest='changes', help='multiply its coordinates')
    parser.add_argument('--without', type=int, metavar='S', action='append', default=[], help='leave solid S out; may be given again')
    beside = parser.add_mutually_exclusive_group()
    beside.add_argument('--after', metavar='FILE', help='renumber it, so that the script can be run where this model is')
    beside.add_argument('--copy', action='store_true', help='renumber it, so that the script can be run where the model that was read is')
    beside.add_argument('--away', action='store_true', help='write the commands that take it away, to be run where the model is')
    parser.add_argument('--short', action='store_true', help='use lamina, block and sweep where they make exactly a solid')
    return parser


def _with_times(words: Sequence[str]) -> List[str]:
    """The words with the number that may follow `--turn AXIS` joined to the axis."""
    joined: List[str] = []
    for word in words:
        if joined[-2:-1] == ['--turn'] and re.fullmatch('[+-]?[0-9]{1,9}', word):
            joined[-1] += f' {word}'
        else:
            joined.append(word)
    return joined


def _chosen(held: Model, options: argparse.Namespace) -> Model:
    """The solids that are wanted of those that were read."""
    for solid in (*options.without, *([] if options.solid is None else [options.solid])):
        require_part(held.solids, 'solid', solid)
    model = held if options.solid is None else held.only(options.solid)
    return without(model, options.without) if options.without else model


def _script(held: Model, model: Model, options: argparse.Namespace) -> List[str]:
    if options.away:
        return taking_away(model, [held])
    for change in options.changes or ():
        model = changed(model, change)
    beside = [held] if options.copy else [] if options.after is None else [given(options.after).model]
    for other in beside:
        model = renumbered_after(model, other)
    return (short_script_of if options.short else script_of)(model, beside)


def work(words: Optional[Sequence[str]]) -> int:
    """Reads a model and writes its script."""
    parser = _parser()
    options = parser.parse_args(_with_times(sys.argv[1:] if words is None else words))
    if options.away and (options.short or options.changes):
        parser.error('argument --away: not allowed with --short or a change of place')
    found = given(options.listing)
    model = _chosen(found.model, options)
    found.tell(PROGRAM)
    lines = _script(found.model, model, options)
    warn_of_inside_out(PROGRAM, model)
    for line in [*unit_lines(found.said.unit), *lines]:
        print(line)
    return OK


def main(words: Optional[Sequence[str]] = None) -> int:
    """The program: its status."""
    return run(PROGRAM, work, words)
