"""Exact arithmetic on points and vectors in space that may be fractions."""

from ..geometry.flat_face import ExactVector
from ..geometry.plane_figures import Exact


def added(a: ExactVector, b: ExactVector) -> ExactVector:
    """The sum of two vectors."""
    return (a[0] + b[0], a[1] + b[1], a[2] + b[2])


def subtracted(a: ExactVector, b: ExactVector) -> ExactVector:
    """The vector from b to a."""
    return (a[0] - b[0], a[1] - b[1], a[2] - b[2])


def times(a: ExactVector, factor: Exact) -> ExactVector:
    """The vector, longer by a factor."""
    return (a[0] * factor, a[1] * factor, a[2] * factor)


def dot(a: ExactVector, b: ExactVector) -> Exact:
    """The scalar product."""
    return a[0] * b[0] + a[1] * b[1] + a[2] * b[2]


def cross(a: ExactVector, b: ExactVector) -> ExactVector:
    """The vector product."""
    return (a[1] * b[2] - a[2] * b[1], a[2] * b[0] - a[0] * b[2], a[0] * b[1] - a[1] * b[0])
