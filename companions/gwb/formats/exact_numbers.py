"""Numbers in files, read exactly, and told in messages as they are."""

import re
from fractions import Fraction
from typing import Dict, Sequence

from ..errors import CompanionError
from ..geometry.flat_face import ExactVector
from ..geometry.plane_figures import Exact

_NUMBER = re.compile(r'[+-]?(?:[0-9]{1,400}(?:\.[0-9]{0,400})?|\.[0-9]{1,400})(?:[eE][+-]?[0-9]{1,3})?')
_RATIO = re.compile(r'[0-9]{1,400}/[0-9]{1,400}')
_DIGITS, _FEW, _ROUNDED_PLACES = 25, 10 ** 6, 9


class NotANumber(CompanionError):
    """A word isn't a number, or has more digits than any number needs."""


def exact(word: str) -> Exact:
    """The number that a word says in decimal digits, with a power of ten of three digits at most. Raises NotANumber."""
    if not _NUMBER.fullmatch(word):
        raise NotANumber(f'no number: {shortened(word)}')
    value = Fraction(word)
    return value.numerator if value.denominator == 1 else value


def of_float(part: float) -> Exact:
    """The number that a float holds. Raises NotANumber where it is none, or endless."""
    if part != part or part in (float('inf'), float('-inf')):
        raise NotANumber('a coordinate is no number, or endless')
    return int(part) if part == int(part) else Fraction(part)


def exact_or_ratio(word: str) -> Exact:
    """As exact, but the word may be a ratio of two whole numbers too, such as 5/127."""
    if not _RATIO.fullmatch(word):
        return exact(word)
    above, below = map(int, word.split('/'))
    if below == 0:
        raise NotANumber(f'{shortened(word)} divides by zero')
    return Fraction(above, below)


def shortened(text: str, most: int = 60) -> str:
    """The text, cut where it is long."""
    return text if len(text) <= most else text[:most] + '..'


class Numbers:
    """The numbers of one file: each word is read once."""

    def __init__(self) -> None:
        self._read: Dict[str, Exact] = {}

    def number(self, word: str) -> Exact:
        """The number that the word says. Raises NotANumber."""
        if word not in self._read:
            self._read[word] = exact(word)
        return self._read[word]

    def point(self, words: Sequence[str]) -> ExactVector:
        """The point of three words. Raises NotANumber."""
        if len(words) != 3:
            raise NotANumber(f'no point: {shortened(" ".join(words))}')
        return (self.number(words[0]), self.number(words[1]), self.number(words[2]))


def told(number: Exact) -> str:
    """The number in digits: exactly where 25 decimal places or a ratio of small numbers do, else cut, which `..` says."""
    above, below = number.numerator, number.denominator
    if abs(above) >= below * 10 ** _DIGITS:
        return f'a number of some {abs(above // below).bit_length() * 30103 // 100000 + 1} digits'
    if below == 1:
        return str(above)
    places = max(_power_in(below, 2), _power_in(below, 5))
    if (10 ** min(places, _DIGITS)) % below == 0:
        return _decimal(above * 10 ** places // below, places)
    if below < _FEW:
        return f'{above}/{below}'
    return _decimal(int(Fraction(above * 10 ** _DIGITS, below)), _DIGITS) + '..'


def _power_in(number: int, prime: int) -> int:
    """How often the prime divides the number, looked for no further than told needs."""
    return next((power for power in range(_DIGITS + 1) if number % prime ** (power + 1)), _DIGITS + 1)


def _decimal(digits: int, places: int) -> str:
    """A number of so many decimal places, given without its point."""
    text = str(abs(digits)).rjust(places + 1, '0')
    return ('-' if digits < 0 else '') + text[:-places] + '.' + text[-places:]


def told_point(point: Sequence[Exact]) -> str:
    """The point's coordinates in digits."""
    return ' '.join(map(told, point))


class InMillimetres:
    """Coordinates of a unit in digits, as millimetres: exactly where the unit is a decimal fraction, else in nine places."""

    def __init__(self, unit: Fraction) -> None:
        places = max(_power_in(unit.denominator, 2), _power_in(unit.denominator, 5))
        self._places = places if 10 ** places % unit.denominator == 0 else _ROUNDED_PLACES
        self._times = unit * 10 ** self._places

    def told(self, coordinate: int) -> str:
        """One of them."""
        digits = coordinate * self._times.numerator if self._times.denominator == 1 else round(coordinate * self._times)
        return _decimal(digits, self._places).rstrip('0').rstrip('.') if self._places else str(digits)

    def point(self, point: Sequence[int]) -> str:
        """Those of a point."""
        return ' '.join(map(self.told, point))
