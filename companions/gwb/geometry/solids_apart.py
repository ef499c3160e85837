"""The solids of a model as models of their own, all in one pass."""

from typing import Iterator

from .model import Model


def solids_apart(model: Model) -> Iterator[Model]:
    """The model of each solid alone, rising."""
    return (model.only(solid) for solid in model.solids)
