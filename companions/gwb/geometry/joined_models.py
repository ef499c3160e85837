"""Models as sets of solids: put together, and with some left out."""

from typing import Collection, Sequence

from .free_numbers import sorted_model
from .model import Model


def joined(models: Sequence[Model]) -> Model:
    """One model of all solids of these, which have no number in common."""
    return sorted_model(
        [solid for model in models for solid in model.solids],
        {number: face for model in models for number, face in model.faces.items()},
        {number: loop for model in models for number, loop in model.loops.items()},
        {number: ends for model in models for number, ends in model.edges.items()},
        {number: point for model in models for number, point in model.vertices.items()})


def without(model: Model, solids: Collection[int]) -> Model:
    """The model without these solids."""
    return joined([model.only(solid) for solid in model.solids if solid not in solids])
