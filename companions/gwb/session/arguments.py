"""What the methods of a workbench take: each argument is tested before anything is sent, and an error names it."""

from fractions import Fraction
from numbers import Integral
from os import PathLike, fspath
from typing import Iterable, List, NamedTuple, Protocol, Sequence, Union

from .lengths import Length as Length, Place, exact, items as items, wrong as wrong
from .reading import EdgePart, FacePart, LoopPart, SolidPart, VertexPart


class MadeSolid(Protocol):
    """What a method returned that made a solid: a block, a copy, the part above of a split, .."""

    @property
    def solid(self) -> int:
        """The number of the solid."""


class Lone(NamedTuple):
    """The corner of a lone loop, `@L` in scripts."""

    loop: Union[int, LoopPart]


# What may be given: numbers or things of the model, points as any three lengths in order, planes as any four numbers.
Solid = Union[int, SolidPart, MadeSolid]
Face = Union[int, FacePart]
LoopNumber = Union[int, LoopPart]
Edge = Union[int, EdgePart]
Vertex = Union[int, VertexPart]
Corner = Union[int, EdgePart, Lone]
Point = Place
Points = Iterable[Place]
Path = Union[str, PathLike[str]]

GREATEST_WORD = 4_294_967_295
MOST_LAMINA_POINTS = 64
_MOST_SIDES = 1_000_000
_LEAST, _GREATEST = -2 ** 63, 2 ** 63 - 1


def whole(name: str, value: object, least: int = _LEAST, greatest: int = _GREATEST) -> int:
    """A whole number from one to another, by default of 64 bits with sign, as an int or what counts as one. A bool, a float, a str and a thing of the
    model are none."""
    if isinstance(value, bool) or not isinstance(value, (int, Integral)):
        raise wrong(name, 'a whole number', value)
    found = int(value)
    if not least <= found <= greatest:
        raise ValueError(f'{name}: {found} is outside {least} to {greatest}')
    return found


def positive(name: str, value: object) -> int:
    """A whole number of 64 bits above zero."""
    found = whole(name, value)
    if found < 1:
        raise ValueError(f'{name}: {found} is below 1')
    return found


def sides(name: str, value: object) -> int:
    """How many sides a polygon has."""
    return whole(name, positive(name, value), 3, _MOST_SIDES)


def corners(name: str, value: object, count: int) -> List[List[int]]:
    """Faces, at least one, by the places of their corners among so many points, from 0 on."""
    found = [[whole(f'{name}[{place}]', corner) for corner in items(f'{name}[{place}]', face)] for place, face in enumerate(items(name, value))]
    if not found or not all(0 <= corner < count for face in found for corner in face):
        raise ValueError(f'{name}: faces of places from 0 to {count - 1} are wanted')
    return found


def pair(name: str, value: object) -> List[Fraction]:
    """Two numbers."""
    found = [exact(f'{name}[{place}]', item, 'a number') for place, item in enumerate(items(name, value))]
    if len(found) != 2:
        raise ValueError(f'{name}: 2 numbers are wanted, not {len(found)}')
    return found


def gone(name: str, value: object, instead: str) -> None:
    """Raises TypeError where something is given by a name that went."""
    if value is not None:
        raise TypeError(f'{name}: {instead}')


def factor(name: str, value: object, or_zero: bool = False, wanted: str = 'a number') -> Fraction:
    """A number above zero, or from zero on."""
    found = exact(name, value, wanted)
    if found < 0 or found == 0 and not or_zero:
        raise ValueError(f'{name}: {found} is {"below" if or_zero else "not above"} zero')
    return found


def flag(name: str, value: object) -> bool:
    """True or False."""
    if not isinstance(value, bool):
        raise wrong(name, 'True or False', value)
    return value


def text(name: str, value: object, errors: str = 'surrogateescape') -> str:
    """A str that can be written in UTF-8, with what stands for other bytes unless `errors` is 'strict'."""
    if not isinstance(value, str):
        raise wrong(name, 'a str', value)
    try:
        value.encode('utf-8', errors)
    except UnicodeEncodeError:
        raise ValueError(f'{name}: {value!r} has a character that no text in UTF-8 has') from None
    return value


def word(name: str, value: object, words: Sequence[str]) -> str:
    """One of these words."""
    wanted = f'{", ".join(map(repr, words[:-1]))} or {words[-1]!r}'
    if not isinstance(value, str):
        raise wrong(name, wanted, value)
    if value not in words:
        raise ValueError(f'{name}: {wanted} is wanted, not {value!r}')
    return value


def path(name: str, value: object) -> str:
    """The path of a file, as a str or what has one."""
    if not isinstance(value, (str, PathLike)):
        raise wrong(name, 'a path', value)
    found = fspath(value)
    if not isinstance(found, str):
        raise wrong(name, 'a path in characters', found)
    return found
