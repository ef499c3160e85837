"""Lengths as a person gives and gets them, in millimetres, and the whole steps of the lattice that they are."""

import re
from collections.abc import Iterable as Items
from decimal import Decimal
from fractions import Fraction
from math import gcd
from numbers import Rational
from typing import List, Optional, Sequence, Tuple, Type, Union

from ..formats.exact_numbers import NotANumber, exact_or_ratio, told
from ..geometry.crossings import require_plane, without_common_factor
from ..geometry.plane_figures import Exact
from ..geometry.vectors import ZERO, Vector

# What counts as a number of millimetres, and a point of three: '12.5' and '1/4 in' do, and a float stands for the decimal that Python prints of it.
Length = Union[int, float, Fraction, Decimal, str]
Place = Sequence[Length]
ExactPlace = Tuple[Exact, Exact, Exact]
# How fine lengths are unless a session says otherwise.
DEFAULT_STEP = Fraction(1, 1000)

_INCH = Fraction(127, 5)
_TEXT = re.compile(r'([+-]?)([0-9./eE-]+)\s*(mm|in|")?')
_MOST_FINER, _RANGE = 10_000, 2 ** 63


class OffStep(ValueError):
    """A length is no multiple of the step. `nearest` is one, and in a step `finer` times finer it would be one itself."""

    def __init__(self, name: str, value: Fraction, step: Fraction) -> None:
        self._given = name, value, step
        self.nearest, self.finer = nearest(value, step), (value / step).denominator
        finer = f'; refine({self.finer}) makes the step so fine' if self.finer <= _MOST_FINER else ''
        super().__init__(f'{name}: {told(value)} mm is no multiple of the step, {told(step)} mm: the nearest is {told(self.nearest)}{finer}')

    def __reduce__(self) -> Tuple[Type['OffStep'], Tuple[str, Fraction, Fraction]]:
        return OffStep, self._given


def wrong(name: str, wanted: str, value: object) -> TypeError:
    """The error for a value that is of another kind than what is wanted."""
    kind, number = getattr(value, 'kind', None), getattr(value, 'number', None)
    is_thing = isinstance(kind, str) and isinstance(number, int)
    given = 'None' if value is None else f'the {kind} {number}' if is_thing else f'the {type(value).__name__} {value!r}'
    return TypeError(f'{name}: {wanted} is wanted, not {given}')


def items(name: str, value: object) -> Sequence[object]:
    """The items of what has some, one after another. A str and bytes are refused, and a set and a dict, since they have no such order."""
    if isinstance(value, (str, bytes, bytearray, memoryview, set, frozenset, dict)) or not isinstance(value, Items):
        raise wrong(name, 'a sequence', value)
    return list(value)


def exact(name: str, value: object, wanted: str = 'a length') -> Fraction:
    """The number that was given: a whole number, a Fraction, a Decimal, a text such as '12.5', '1/3' or '1/4 in', or a float, which stands for the
    decimal that Python prints of it. Raises TypeError for all else."""
    if isinstance(value, Rational) and not isinstance(value, bool):
        return Fraction(int(value.numerator), int(value.denominator))
    try:
        if isinstance(value, float):
            return Fraction(float.__repr__(value))
        if isinstance(value, Decimal):
            return Fraction(value)
        if isinstance(value, str):
            return _of_text(value)
    except (ValueError, OverflowError, NotANumber):
        pass
    raise wrong(name, f"{wanted} (12, 12.5, '12.5', Fraction(25, 2))", value)


def _of_text(text: str) -> Fraction:
    """The number in a text. Raises ValueError, NotANumber."""
    found = _TEXT.fullmatch(text.strip())
    if not found:
        raise ValueError(text)
    return Fraction(exact_or_ratio(found[2])) * (-1 if found[1] == '-' else 1) * (_INCH if found[3] in ('in', '"') else 1)


def nearest(value: Fraction, step: Fraction) -> Exact:
    """The multiple of the step that is nearest to a length."""
    return plain(round(value / step) * step)


def plain(value: Fraction) -> Exact:
    """A number as an int where it is whole."""
    return value.numerator if value.denominator == 1 else value


def direction(name: str, value: object) -> Vector:
    """A direction: three numbers of which the ratio counts, as whole ones without a common factor. Raises ValueError where all are zero."""
    parts = _three(name, [exact(f'{name}[{place}]', item, 'a number') for place, item in enumerate(items(name, value))])
    if not any(parts):
        raise ValueError(f'{name}: it is zero')
    x, y, z = _whole_ratio(parts)
    common = gcd(x, y, z)
    return (x // common, y // common, z // common)


def _three(name: str, parts: List[Fraction]) -> List[Fraction]:
    if len(parts) != 3:
        raise ValueError(f'{name}: 3 numbers are wanted, not {len(parts)}')
    return parts


def _whole_ratio(parts: Sequence[Fraction]) -> List[int]:
    """Numbers, multiplied so that all are whole."""
    below = 1
    for part in parts:
        below *= (part * below).denominator
    return [int(part * below) for part in parts]


def place(name: str, value: object) -> ExactPlace:
    """A point anywhere, in millimetres."""
    x, y, z = _three(name, [exact(f'{name}[{at}]', item) for at, item in enumerate(items(name, value))])
    return (plain(x), plain(y), plain(z))


def along_way(way: Sequence[Exact], point: Sequence[Exact]) -> Exact:
    """How far a point lies along a direction, times the length of that."""
    return way[0] * point[0] + way[1] * point[1] + way[2] * point[2]


class Lengths:
    """Lengths in a lattice of this step, in millimetres."""

    __slots__ = ('step', '_above', '_below', '_near')

    def __init__(self, step: Fraction) -> None:
        self.step, self._above, self._below = step, step.denominator, step.numerator
        # Whole millimetres below this are whole steps in range: none where some aren't whole.
        self._near = _RANGE // self._above if self._below == 1 else 0

    def length(self, name: str, value: object) -> int:
        """A length in steps. Raises OffStep; ValueError where it is far out of range."""
        if type(value) is int and self._below == 1:
            steps, rest = value * self._above, 0
        else:
            given = value if type(value) is Fraction else exact(name, value)
            steps, rest = divmod(given.numerator * self._above, given.denominator * self._below)
        if rest:
            raise OffStep(name, given, self.step)
        if not -_RANGE <= steps < _RANGE:
            raise ValueError(f'{name}: {value} mm is out of range')
        return steps

    def point(self, name: str, value: object) -> Vector:
        """The three coordinates of a point or a vector."""
        if type(value) is tuple and len(value) == 3:
            x, y, z = value
            near = self._near
            if type(x) is type(y) is type(z) is int and -near < x < near and -near < y < near and -near < z < near:
                return (x * self._above, y * self._above, z * self._above)
        found = items(name, value)
        if len(found) != 3:
            raise ValueError(f'{name}: 3 lengths are wanted, not {len(found)}')
        x, y, z = (self.length(f'{name}[{at}]', item) for at, item in enumerate(found))
        return (x, y, z)

    def vector(self, name: str, value: object) -> Vector:
        """The same of a vector that isn't zero."""
        found = self.point(name, value)
        if found == ZERO:
            raise ValueError(f'{name}: it is zero')
        return found

    def points(self, name: str, value: object, most: Optional[int] = None) -> List[Vector]:
        """Points, at most so many where a number is given."""
        found = [self.point(f'{name}[{at}]', item) for at, item in enumerate(items(name, value))]
        if most is not None and len(found) > most:
            raise ValueError(f'{name}: {len(found)} points are more than {most}')
        return found

    def positive(self, name: str, value: object) -> int:
        """A length above zero."""
        found = self.length(name, value)
        if found < 1:
            raise ValueError(f'{name}: {told(exact(name, value))} mm is not above zero')
        return found

    def plane(self, name: str, value: object) -> Tuple[int, int, int, int]:
        """The plane a x + b y + c z + d = 0 of points in millimetres, as of points in steps: four whole numbers without a common factor."""
        found = [exact(f'{name}[{at}]', item, 'a number') for at, item in enumerate(items(name, value)[:4 if _is_plane(value) else None])]
        if len(found) != 4:
            raise ValueError(f'{name}: 4 numbers are wanted, not {len(found)}')
        a, b, c, d = _whole_ratio([*found[:3], found[3] / self.step])
        plane = without_common_factor((a, b, c, d))
        if not all(-_RANGE <= part < _RANGE for part in plane):
            raise ValueError(f'{name}: it is out of range')
        return plane

    def plane_across(self, name: str, value: object) -> Tuple[int, int, int, int]:
        """The same of a plane that has a normal."""
        found = self.plane(name, value)
        require_plane(found, name)
        return found

    def out(self, steps: Exact, power: int = 1) -> Exact:
        """So many steps in millimetres, or of a square or a cube of steps in theirs."""
        if type(steps) is int and power == 1:
            whole, rest = divmod(steps * self._below, self._above)
            return Fraction(steps * self._below, self._above) if rest else whole
        return plain(Fraction(steps * self.step ** power))

    def place(self, point: Sequence[Exact]) -> ExactPlace:
        """A point of the lattice, or between, in millimetres."""
        x, y, z = point
        return (x, y, z) if self._above == self._below else (self.out(x), self.out(y), self.out(z))

    def plane_out(self, plane: Sequence[int]) -> Tuple[int, int, int, Exact]:
        """A plane of points in steps as one of points in millimetres, with the shortest whole normal."""
        a, b, c, d = plane
        common = gcd(a, b, c) or 1
        return (a // common, b // common, c // common, self.out(Fraction(d, common)))


def _is_plane(value: object) -> bool:
    """Whether it is what `plane` returns, which says after four numbers whether a face is flat."""
    return hasattr(value, 'flat')
