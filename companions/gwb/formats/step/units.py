"""The units of a STEP file's representations: what their lengths are in millimetres, and how exact they are."""

from fractions import Fraction
from typing import Dict, List, NamedTuple, Tuple

from ...errors import Unfit
from ...geometry.plane_figures import Exact
from ..exact_numbers import exact
from .lexer import StepFile, text_of

_PREFIXES = {'$': 0, '.EXA.': 18, '.PETA.': 15, '.TERA.': 12, '.GIGA.': 9, '.MEGA.': 6, '.KILO.': 3, '.HECTO.': 2, '.DECA.': 1, '.DECI.': -1,
             '.CENTI.': -2, '.MILLI.': -3, '.MICRO.': -6, '.NANO.': -9, '.PICO.': -12, '.FEMTO.': -15, '.ATTO.': -18}
_MEASURES = ('LENGTH_MEASURE_WITH_UNIT', 'MEASURE_WITH_UNIT')
_DEEPEST = 8


class Unit(NamedTuple):
    """A unit of length: what it is called, and how many millimetres it has; and to how many millimetres places are exact."""

    name: str
    millimetres: Exact
    accuracy: Exact


MILLIMETRE = Unit('MILLIMETRE', 1, 0)


class StepUnits:
    """The units of representations, by their contexts."""

    def __init__(self, file: StepFile) -> None:
        self._file = file
        self._known: Dict[str, Unit] = {}

    def of_context(self, context: str) -> Unit:
        """The unit of a context, millimetres where it says none. Raises Unfit where the unit isn't understood."""
        if context not in self._known:
            self._known[context] = self._read(context)
        return self._known[context]

    def _read(self, context: str) -> Unit:
        entity = self._file.at(context)
        units: List[str] = entity.parts['GLOBAL_UNIT_ASSIGNED_CONTEXT'][0] if entity.is_a('GLOBAL_UNIT_ASSIGNED_CONTEXT') else []
        lengths = [unit for unit in units if self._file.at(unit).is_a('LENGTH_UNIT')]
        name, millimetres = self._length(lengths[0], 0) if lengths else (MILLIMETRE.name, MILLIMETRE.millimetres)
        stated: List[str] = entity.parts.get('GLOBAL_UNCERTAINTY_ASSIGNED_CONTEXT', [[]])[0]
        accuracies = [self._measure(reference, 0) for reference in stated if self._is_of_length(reference)]
        return Unit(name, millimetres, max(accuracies, default=0))

    def _length(self, reference: str, depth: int) -> Tuple[str, Exact]:
        """The name of a unit of length and its millimetres."""
        unit = self._file.at(reference)
        if depth > _DEEPEST:
            raise Unfit(f'the unit {reference} is said by itself')
        if unit.is_a('CONVERSION_BASED_UNIT'):
            name, measure = unit.of('CONVERSION_BASED_UNIT')[:2]
            return text_of(name).upper(), self._measure(measure, depth + 1)
        if not unit.is_a('SI_UNIT') or unit.of('SI_UNIT')[-1] != '.METRE.':
            raise Unfit(f'the unit of length {reference} is not understood')
        prefix = unit.of('SI_UNIT')[-2] if len(unit.of('SI_UNIT')) > 1 else '$'
        power = _PREFIXES[prefix] + 3
        return prefix.strip('.$') + 'METRE', 10 ** power if power >= 0 else Fraction(1, 10 ** -power)

    def _is_of_length(self, reference: str) -> bool:
        entity = self._file.at(reference)
        values = entity.items or next(iter(entity.parts.values()), [])
        return 'LENGTH_MEASURE' in values or 'POSITIVE_LENGTH_MEASURE' in values

    def _measure(self, reference: str, depth: int) -> Exact:
        """The millimetres of a measure with its unit. Its number stands in brackets behind its kind, or bare."""
        entity = self._file.at(reference)
        values = entity.items or next((entity.parts[kind] for kind in _MEASURES if kind in entity.parts), [])
        unit = next((value for value in values if isinstance(value, str) and value.startswith('#')), None)
        number = next((value[0] for value in values if isinstance(value, list)), values[0] if values else None)
        if unit is None or not isinstance(number, str):
            raise Unfit(f'the measure {reference} has no number or no unit')
        return exact(number) * self._length(unit, depth)[1]
