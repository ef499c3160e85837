"""How a script says its unit: `# unit 1/6` is how large a coordinate is after what stands before it, in the unit that its session began with."""

import re
from fractions import Fraction
from typing import List, Optional

_UNIT = re.compile(rb'# unit ([1-9][0-9]{0,99}(?:/[1-9][0-9]{0,99})?)')


def unit_in(line: bytes) -> Optional[Fraction]:
    """The unit that a line says; None where it says none."""
    found = _UNIT.fullmatch(line.rstrip(b'\r'))
    return Fraction(found[1].decode()) if found else None


def unit_line(unit: Fraction) -> str:
    """The line that says a unit."""
    return f'# unit {unit}'


def unit_lines(unit: Fraction) -> List[str]:
    """The line that says a unit, where it isn't one."""
    return [] if unit == 1 else [unit_line(unit)]
