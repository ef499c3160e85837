"""The points and directions of a STEP file, each read once."""

from typing import Dict

from ...geometry.flat_face import ExactVector
from ..exact_numbers import Numbers
from ..parts import NotAMesh
from .lexer import StepFile


class StepPoints:
    """Reads points and directions."""

    def __init__(self, file: StepFile) -> None:
        self._file = file
        self._numbers = Numbers()
        self._points: Dict[str, ExactVector] = {}

    def point(self, reference: str) -> ExactVector:
        """A point. Raises NotAMesh where it is none."""
        if reference not in self._points:
            entity = self._file.at(reference)
            if entity.kind != 'CARTESIAN_POINT' or len(entity.items) != 2:
                raise NotAMesh(f'{reference} of the STEP file is no point')
            self._points[reference] = self._numbers.point(entity.items[1])
        return self._points[reference]

    def direction(self, reference: str) -> ExactVector:
        """A direction of any length. Raises NotANumber where it has none."""
        return self._numbers.point(self._file.at(reference).items[1])
