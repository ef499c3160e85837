"""The calls of gwb.h and gwb_features.h as ctypes has them: kinds of answers, structs, what each call returns and takes, and values for them."""

import ctypes
from fractions import Fraction
from typing import Any, Dict, List, Sequence, Tuple

from ..geometry.vectors import Vector

WORD, SIZE, LENGTH, ADDRESS = ctypes.c_uint32, ctypes.c_size_t, ctypes.c_int64, ctypes.c_void_p
OK, FOUND, REFUSED, MEMORY, PLANE, NO_CALL, IMPOSSIBLE = 1, 1, 2, 4, 5, 10, 13
# The lists of what a feature made, by their numbers.
FLOOR, WALLS, FACES, LOOPS, EDGES, VERTICES, TURNED, LOWER_CAPS, UPPER_CAPS, INTO, SOLIDS = range(11)


def _struct(**fields: Any) -> Any:
    return type('Struct', (ctypes.Structure,), {'_fields_': list(fields.items())})


# The structs of both headers, where it is said what they are for. A Pair stands for each that has two numbers of what is made.
Handle, Refusal = _struct(is_open=ctypes.c_bool, held=ADDRESS, beside=ADDRESS), _struct(number=WORD, value=WORD)
FaceRow, EdgeRow, Point = _struct(solid=WORD, outer_loop=WORD), _struct(start=WORD, end=WORD), _struct(x=LENGTH, y=LENGTH, z=LENGTH)
Wide, Pair = _struct(high=LENGTH, low=ctypes.c_uint64), _struct(first=WORD, second=WORD)
PlaneRow, Motion = _struct(numbers=Wide * 4, flat=WORD), _struct(axes=ctypes.c_int32 * 3, by=Point)
CutPlane, Ratio = _struct(a=LENGTH, b=LENGTH, c=LENGTH, d=LENGTH), _struct(numerator=ctypes.c_uint64, denominator=ctypes.c_uint64)

_WORDS, _ROWS, _POINT, _PLANE, _RATIO, _MOTION, _PAIR = map(ctypes.POINTER, (WORD, LENGTH, Point, CutPlane, Ratio, Motion, Pair))
HitRow = _struct(cause=WORD, kind=WORD, number=WORD, point=Wide * 3, scale=Wide)
EdgeCut, NearPlane = _struct(edge=WORD, numerators=Wide * 3, denominators=Wide * 3), _struct(plane=CutPlane, is_parallel=ctypes.c_bool, moved=ctypes.c_double)
BecameRow = _struct(kind=WORD, old=WORD, made=WORD, old_birth=ctypes.c_uint64, made_birth=ctypes.c_uint64)
CrossingRow = _struct(first=WORD, second=WORD, point=Wide * 3, scale=Wide)
FaceQuery = _struct(solid=WORD, plane=_PLANE, normal=_POINT, containing=_POINT, area=_RATIO)
EdgeQuery = _struct(solid=WORD, between=WORD * 2, along=_POINT, length=_RATIO)
_TEXT, _HANDLE, _REFUSAL, _SIZES = ctypes.c_char_p, *map(ctypes.POINTER, (Handle, Refusal, SIZE))
# What each call returns, and what it takes after the handle. Readers are lent it.
_CALLS: Dict[str, Tuple[Any, List[Any]]] = {
    **dict.fromkeys(('lent_depth', 'lent_ahead', 'lent_mark'), (SIZE, [])), 'lent_reply': (SIZE, [_TEXT, SIZE]), 'lent_fresh': (WORD, [WORD, _PAIR]),
    **dict.fromkeys(('lent_number_after', 'lent_ring_after', 'lent_face_after'), (WORD, [WORD, WORD, _WORDS])),
    **dict.fromkeys(('lent_loop', 'lent_lone_vertex', 'lent_half_edge_loop', 'lent_next_half_edge'), (WORD, [WORD, _WORDS])),
    'lent_face': (WORD, [WORD, ctypes.POINTER(FaceRow)]), 'lent_edge': (WORD, [WORD, ctypes.POINTER(EdgeRow)]), 'lent_vertex': (WORD, [WORD, _POINT]),
    'lent_plane': (WORD, [WORD, ctypes.POINTER(PlaneRow), _REFUSAL]), 'lent_half_edges': (SIZE, [WORD, _WORDS, SIZE]),
    'open': (ctypes.c_bool, []), 'close': (None, []), 'line': (WORD, [_TEXT, SIZE]),
    **dict.fromkeys(('draft', 'commit', 'abandon', 'record'), (WORD, [])), 'back': (WORD, [SIZE]), 'recorded': (SIZE, []),
    'script': (SIZE, [SIZE, SIZE, _TEXT, SIZE]), 'greatest_number': (SIZE, [WORD]), 'stop_by': (None, [ADDRESS, ADDRESS]),
    'read_vertices': (SIZE, [ADDRESS, SIZE]), **dict.fromkeys(('read_half_edges', 'read_triangles'), (SIZE, [WORD, ADDRESS, SIZE])),
    'made': (SIZE, [WORD, _WORDS, SIZE]), 'hit': (ctypes.c_bool, [ctypes.POINTER(HitRow)]),
    'became': (SIZE, [ctypes.POINTER(BecameRow), SIZE])}
# What a command takes after the handle, as its line has it: numbers, then lengths; a half-edge twice its edge's number, and 1 more for its second one.
_COMMANDS: Dict[str, List[Any]] = {
    **{word: [WORD] * words + [LENGTH] * lengths for words, lengths, listed in (
        (0, 0, 'undo redo'), (1, 0, 'kvfs kev kef'), (2, 0, 'kemr kfmrh mfkrh glue'), (3, 0, 'mekr ringmv'), (5, 0, 'mef'), (4, 3, 'mvfs mev'),
        (1, 6, 'block'), (1, 3, 'sweep')) for word in listed.split()},
    'lamina': [WORD, _ROWS, SIZE], 'split': [WORD, *[LENGTH] * 4, WORD]}
# What a feature or a search takes between the handle and the refusal; each returns the kind of its answer.
_OUTLINE, _MADE = [WORD, _ROWS, SIZE], [_PAIR, _WORDS]
_SHAPED: Dict[str, List[Any]] = {'notch': _OUTLINE, 'pad': _OUTLINE, 'shoulder': [WORD, WORD, LENGTH], **dict.fromkeys(('slot', 'groove'), [WORD, _POINT, _POINT, LENGTH])}
_FEATURES: Dict[str, List[Any]] = {
    'kill_solid': [WORD], 'copy_solid': [WORD, _MOTION, _WORDS], 'move_solid': [WORD, _MOTION], 'pattern': [WORD, WORD, _POINT, _WORDS],
    'pattern_around': [WORD] * 4 + [_POINT, _WORDS], 'chamfer_edges': [_WORDS, SIZE, LENGTH, _WORDS], 'load': [_TEXT, SIZE], 'scale': [LENGTH],
    'separate': [WORD], 'join_faces': [WORD], 'subtract': [WORD, _WORDS, SIZE], **dict.fromkeys(('glue_all', 'union', 'intersect'), [_WORDS, SIZE]),
    'renumber': [], 'profile': [*_OUTLINE, _POINT, *_MADE],
    'polyhedron': [*_OUTLINE, _WORDS, _WORDS, SIZE, _PAIR], 'ring': [*_OUTLINE, *_MADE, _WORDS], 'pocket': [*_OUTLINE, LENGTH, *_MADE],
    'boss': [*_OUTLINE, LENGTH, *_MADE], **dict.fromkeys(('pocket_along', 'boss_along'), [*_OUTLINE, _POINT, *_MADE]),
    'hole': [*_OUTLINE, *_MADE],
    **{name: [WORD, _POINT, LENGTH, WORD, reach, *_MADE, _POINT] for name, reach in (('drill', LENGTH), ('drill_along', _POINT))},
    **{name + ending: [*taken, reach] for ending, reach in (('', LENGTH), ('_along', _POINT)) for name, taken in _SHAPED.items()},
    'chamfer': [WORD, LENGTH, LENGTH, _WORDS],
    'cut': [WORD, _PLANE, WORD], 'trim': [WORD, _PLANE], 'off_lattice': [WORD, _PLANE, SIZE, ctypes.POINTER(ADDRESS)],
    'find_crossings': [WORD, WORD, ctypes.POINTER(CrossingRow), SIZE, _SIZES],
    **{name: [ctypes.POINTER(query), _WORDS, SIZE, _SIZES] for name, query in (('find_faces', FaceQuery), ('find_edges', EdgeQuery))}}
# Of each call by its export what it returns, and all that it takes.
PROTOTYPES: Dict[str, Tuple[Any, List[Any]]] = {
    **{f'gwb_{name}': (result, [_HANDLE, *taken]) for name, (result, taken) in _CALLS.items()},
    **{f'gwb_{name}': (WORD, [_HANDLE, *taken]) for name, taken in _COMMANDS.items()},
    **{f'gwb_{name}': (WORD, [_HANDLE, *taken, _REFUSAL]) for name, taken in _FEATURES.items()},
    'gwb_advice_factor': (Wide, [ADDRESS]), 'gwb_advice_fits': (ctypes.c_bool, [ADDRESS]), 'gwb_advice_free': (None, [ADDRESS]),
    **{f'gwb_advice_{name}': (SIZE, [ADDRESS, ctypes.POINTER(row), SIZE]) for name, row in (('cuts', EdgeCut), ('planes', NearPlane))}, 'gwb_misfit_name': (ctypes.c_char_p, [WORD]),
    'gwb_circle': (ctypes.c_bool, [LENGTH, LENGTH, WORD, WORD, _ROWS])}
_MOST_TERM = 2 ** 64 - 1


def rows(points: Sequence[Vector]) -> Any:
    """Points as the library takes them."""
    return (LENGTH * (3 * len(points)))(*[part for point in points for part in point])


def words(numbers: Sequence[int]) -> Any:
    """Numbers alike."""
    return (WORD * len(numbers))(*numbers)


def whole(number: Any) -> int:
    """A number of 128 bits."""
    return int(number.high) << 64 | int(number.low)


def ratio(value: Fraction) -> Any:
    """A fraction above zero. The terms of lengths and areas fit; in the place of one whose terms don't stands one that is none of theirs either."""
    return Ratio(value.numerator, value.denominator) if max(value.numerator, value.denominator) <= _MOST_TERM else Ratio(1, _MOST_TERM)
