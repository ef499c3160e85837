"""Slips of the shells of a solid: those that are inside out, or lie in the material of others."""

from typing import Iterator, Mapping, Sequence

from ..geometry.measures import anchor
from ..geometry.model import Model
from ..geometry.nesting import Enclosures, Shell
from ..geometry.vectors import Vector, dot
from .findings import INSIDE_OUT, MEETING, Finding


def shell_findings(model: Model, solid: int, shells: Sequence[Shell], normals: Mapping[int, Vector]) -> Iterator[Finding]:
    """Shells of a solid that bound material and lie in some, or bound hollows and lie in none. The faces are plain flat ones."""
    volumes = [sum(dot(normals[face], anchor(model, face)) for face in shell) for shell in shells]
    enclosures = Enclosures(model, shells)
    for place, (shell, volume) in enumerate(zip(shells, volumes)):
        layers = sum((volumes[other] > 0) - (volumes[other] < 0) for other in enclosures.entered(place))
        if volume < 0 and layers < 1:
            yield Finding(INSIDE_OUT, f'the shell of face {shell[0]} of solid {solid} is inside out')
        elif volume > 0 and layers > 0:
            yield Finding(MEETING, f'the shell of face {shell[0]} of solid {solid} lies in the material of another')
