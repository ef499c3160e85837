"""Reads and writes the listing of a model: the one module that knows how listings are written."""

import json
from itertools import accumulate, compress, groupby, repeat
from operator import ge, itemgetter
from typing import Any, Callable, Dict, Iterable, Iterator, NamedTuple, Sequence, Tuple

from ..errors import NotAListing
from ..geometry.free_numbers import KINDS
from ..geometry.model import Face, Loop, Model
from .replies import Reply, last_listing, lines_of
from .soundness import require_sound

_KIND_OF = {kind[0]: kind for kind in KINDS}
# This stands for the word `at`: no half-edge has so great a number.
_AT = 10 ** 10


class Listed(NamedTuple):
    """The model of a listing, and how many commands changed it after that."""

    model: Model
    later: int


def read_model(data: bytes) -> Model:
    """The model of the last listing among the replies that the bytes hold."""
    return read_listed(data).model


def read_listed(data: bytes) -> Listed:
    """As read_model, with how many commands came after it."""
    listing = last_listing(data)
    if listing is None:
        raise NotAListing('there is no listing in it: the script needs the command `list`')
    return Listed(_model(lines_of(listing.pieces)), listing.later)


# What the numbers after that of a thing make.
_THING: Dict[str, Callable[[Tuple[int, ...]], object]] = {
    'solid': tuple, 'face': lambda row: Face(row[0], row[1], row[2:]), 'loop': lambda row: Loop((), row[1]) if row[0] == _AT else Loop(row),
    'edge': tuple, 'vertex': tuple}


def model_of(reply: Reply) -> Model:
    """The model that a listing describes, whose parts are found to fit together."""
    return _model(reply.lines)


def _model(lines: Iterable[str]) -> Model:
    """The model of the lines of a listing, of which those of one kind are held at a time. Kinds come in order, and so do the numbers of a kind."""
    things: Dict[str, Dict[int, Any]] = {kind: {} for kind in KINDS}
    place = 0
    for letter, group in groupby(filter('empty'.__ne__, lines), itemgetter(0)):
        kind = _KIND_OF[letter]
        numbers, rows = _table_of(kind, list(group))
        later = next(compress(numbers, map(ge, (0, *numbers), numbers)), None)
        if KINDS.index(kind) < place or later is not None:
            raise NotAListing(f'`{kind} {numbers[0] if later is None else later}` is out of order')
        things[kind] = dict(zip(numbers, map(_THING[kind], rows)))
        place = KINDS.index(kind)
    model = Model(tuple(things['solid']), *list(things.values())[1:])
    require_sound(model)
    return model


def _table_of(kind: str, lines: Sequence[str]) -> Tuple[Sequence[int], Iterable[Any]]:
    """The numbers of the things of a kind, and for each the numbers that follow. All lines are read as one list of numbers, and where they are equally
    long, the numbers at one place of all lines are taken at once: both take less time."""
    words = ','.join(lines).replace(f'{kind} ', '').replace(' at ', f' {_AT} ').replace(' ', ',').replace('+', '')
    numbers = tuple(json.loads(f'[{words}]'))
    counts = list(map(str.count, lines, repeat(' ')))
    count = counts[0]
    if counts.count(count) == len(counts):
        return numbers[::count], zip(*(numbers[place::count] for place in range(1, count))) if count > 1 else repeat(())
    ends = list(accumulate(counts))
    return [numbers[end - count] for count, end in zip(counts, ends)], [numbers[end - count + 1:end] for count, end in zip(counts, ends)]


def listing_lines(model: Model) -> Iterator[str]:
    """The lines of the listing of a model that isn't empty."""
    yield from (f'solid {solid}' for solid in model.solids)
    for number, face in model.faces.items():
        yield ' '.join(map(str, ('face', number, face.solid, *face.loops)))
    for number, loop in model.loops.items():
        yield f'loop {number} at {loop.vertex}' if loop.is_lone else ' '.join((f'loop {number}', *(f'{half:+d}' for half in loop.halves)))
    yield from ('edge {} {} {}'.format(number, *ends) for number, ends in model.edges.items())
    yield from ('vertex {} {} {} {}'.format(number, *point) for number, point in model.vertices.items())
