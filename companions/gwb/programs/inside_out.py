"""Says which solids are inside out, where something is made of them."""

import sys
from typing import List

from ..geometry.measures import six_volume
from ..geometry.model import Model


def inside_out(model: Model) -> List[int]:
    """The solids of negative volume, rising: their faces look inwards."""
    return [solid for solid in model.solids if six_volume(model, model.faces_of(solid)) < 0]


def warn_of_inside_out(program: str, model: Model) -> None:
    """One line on standard error for each solid that is inside out; what is made of it is made all the same."""
    for solid in inside_out(model):
        print(f'{program}: warning: solid {solid} is inside out: its volume is negative, its faces look inwards', file=sys.stderr)
