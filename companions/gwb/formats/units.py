"""Units of length in millimetres: those of 3MF and AMF by name, and what is said of any."""

from fractions import Fraction
from typing import Dict

from ..geometry.plane_figures import Exact
from .exact_numbers import told
from .parts import NotAMesh

_MILLIMETRES: Dict[str, Exact] = {'micron': Fraction(1, 1000), 'micrometer': Fraction(1, 1000), 'millimeter': 1, 'centimeter': 10,
                                  'inch': Fraction(254, 10), 'foot': Fraction(3048, 10), 'feet': Fraction(3048, 10), 'meter': 1000}


def millimetres_of(unit: str) -> Exact:
    """The millimetres of a unit. Raises NotAMesh where it isn't known."""
    if unit not in _MILLIMETRES:
        raise NotAMesh(f'the unit {unit[:30]} is not known')
    return _MILLIMETRES[unit]


def told_scaled(unit: str, millimetres: Exact) -> str:
    """What is to be said of lengths in a unit: nothing of millimetres."""
    return '' if millimetres == 1 else f'lengths in {unit} were multiplied by {told(millimetres)}, to millimetres'
