"""Arguments of the methods that take solids as things: for each method those that are right, and for each name the wrong ones."""

from fractions import Fraction
from math import nan


def solid_cases(number, given, point, plane, points, length, flag):
    """The cases, from the wrong values of each kind."""
    outline, mirror = [(0, 0, 0), (4, 0, 0), (0, 4, 0)], (*(wrong for wrong in plane if wrong is not None), (0, 0, 0, 1))
    line = {'face': 1, 'start': (0, 0, 0), 'end': (4, 0, 0), 'width': 2, 'depth': 1}
    wrong_line = {'face': number, 'start': point, 'end': point, 'width': length, 'depth': length}
    optional = tuple(wrong for wrong in length if wrong is not None)
    counts = (True, 1.0, '1', None, 0, -1, 2 ** 63)
    turns, ways = (1, '90', True, None, 45, 90.5, nan), (1, 'ab', (1, 0, 0), (nan, 0), (0, 0), (1, 1))
    return {
        'delete': ({'solid': 1}, {'solid': number}),
        'copy': ({'solid': 1}, {'solid': number, 'move': point, 'mirror': mirror}),
        'pattern': ({'solid': 1, 'count': 2, 'step': (1, 0, 0)}, {'solid': number, 'count': (*counts, 1), 'step': (*point, (0, 0, 0))}),
        'pattern_around': ({'solid': 1, 'count': 2, 'axis': 'x'}, {'solid': number, 'count': (*counts, 1, 5), 'axis': (1, None, 'w', 'xy', ['x']),
                           'times': turns[:2], 'degrees': (*turns[2:], 0, 360, 60, 'round'), 'to': ways, 'about': point}),
        'move': ({'solid': 1, 'vector': (1, 0, 0)}, {'solid': number, 'vector': point}),
        'turn': ({'solid': 1, 'axis': 'x'}, {'solid': number, 'axis': (1, None, 'w', 'xy', ['x']), 'times': turns[:2], 'degrees': (*turns[2:], 'round'),
                                             'to': ways, 'about': point}),
        'mirror': ({'solid': 1, 'plane': (1, 0, 0, 0)}, {'solid': number, 'plane': (*mirror, None)}),
        'scale': ({'factor': 2}, {'factor': (True, nan, 'wide', None, 0, -1, Fraction(-1, 2), 2 ** 64)}),
        'refine': ({'times': 2}, {'times': counts}),
        'cut': ({'solid': 1, 'plane': (1, 0, 0, 0)}, {'solid': number, 'plane': plane, 'keep': (1, None, 'none', b'both'), 'above': given,
                                                       'refine': flag, 'scale': (True, False)}),
        'trim': ({'solid': 1, 'plane': (1, 0, 0, 0)}, {'solid': number, 'plane': plane, 'refine': flag, 'scale': (True, False)}),
        **dict.fromkeys(('union', 'intersect'), ({'solids': [1, 2]}, {'solids': (None, 1, '12', [], [1], [1, 1], [1, '2'], [1, 2.0])})),
        'subtract': ({'solid': 1, 'tools': [2]}, {'solid': number, 'tools': (None, 1, '12', [], [1], [2, 2], ['2'], [2.0])}),
        **dict.fromkeys(('separate', 'join_faces'), ({'solid': 1}, {'solid': number})),
        'notch': ({'face': 1, 'points': outline, 'depth': 1}, {'face': number, 'points': points, 'depth': length}),
        'slot': (line, wrong_line),
        'groove': (line, wrong_line),
        'shoulder': ({'face': 1, 'edge': 1, 'width': 1, 'depth': 1}, {'face': number, 'edge': number, 'width': length, 'depth': length}),
        'chamfer': ({'edge': 1, 'width': 1}, {'edge': number, 'width': length, 'other': optional}),
        'chamfer_edges': ({'edges': [1, 2], 'width': 1}, {'edges': (None, 1, '12', [], [1, 1], [1, '2'], [1, 2.0]), 'width': length}),
    }
