"""Features that aren't possible."""

from typing import Optional, Tuple

from ..errors import Refused
from .plane_figures import Exact


class Impossible(Refused):
    """A feature isn't possible, by name. Nothing was changed; the value is the face or the place of the point concerned."""

    # Which cause of the name it is, by its own name: '' where there is only one.
    cause: str = ''
    # The thing that was met, as ('edge', 12), and where, in millimetres: None where nothing is known of it.
    hit: Optional[Tuple[str, int]] = None
    point: Optional[Tuple[Exact, Exact, Exact]] = None

    def __init__(self, name: str, value: int, message: str) -> None:
        super().__init__(name, value, 0, f'{name}: {message}')
