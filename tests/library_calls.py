"""Commands given to the library as typed calls, for the tests."""
import ctypes

from library_session import Point, Session

LONE = 1 << 31


def half(word):
    """A half-edge as calls take it: its edge's number times 2, and 1 more for the edge's second."""
    return ctypes.c_uint32(2 * int(word[1:]) + (word[0] == '-'))


def corner(word):
    """The half-edge that starts there, or a lone loop."""
    return ctypes.c_uint32(LONE | int(word[1:])) if word[0] == '@' else half(word)


def number(word):
    return ctypes.c_uint32(int(word))


def whole(word):
    return ctypes.c_int64(int(word))


def way(word):
    return ctypes.c_uint32(('in', 'out').index(word))


def mark(word):
    """How many steps of a draft stay."""
    return ctypes.c_size_t(int(word))


WORDS = {'m': mark, 'n': number, 'w': whole, 'h': half, 'c': corner, 'o': way}

# by command: the kinds of words that it takes, in their order
TAKES = {
    'mvfs': 'nnnnwww', 'kvfs': 'n', 'mev': 'ccnnwww', 'kev': 'h', 'mef': 'hhnnn', 'kef': 'h', 'kemr': 'hn', 'mekr': 'ccn', 'kfmrh': 'nn',
    'mfkrh': 'nn', 'ringmv': 'nno', 'block': 'nwwwwww', 'sweep': 'nwww', 'glue': 'nn', 'split': 'nwwwwn', 'undo': '', 'redo': '',
    # no script has these
    'outer': 'nn', 'merge': 'nn', 'draft': '', 'commit': '', 'abandon': '', 'back': 'm'}


def lamina(solid, *coordinates):
    """The arguments of a lamina."""
    rows = [Point(*map(int, coordinates[i:i + 3])) for i in range(0, len(coordinates), 3)]
    return number(solid), (Point * len(rows))(*rows), ctypes.c_size_t(len(rows))


def part(solid, *faces):
    """The arguments of a part, which no script has: the new solid, and the faces that go to it."""
    return (ctypes.c_uint32 * len(faces))(*map(int, faces)), ctypes.c_size_t(len(faces)), number(solid)


# by command: its arguments, as many as it has words
LISTS = {'lamina': lamina, 'part': part}


class TypedSession(Session):
    """A session that gives a command as a typed call where there is one for it, else as a line."""

    def line(self, line):
        """The kind of the answer."""
        command, *words = line.decode().split()
        if command in LISTS:
            arguments = LISTS[command](*words)
        elif command in TAKES:
            arguments = [WORDS[kind](word) for kind, word in zip(TAKES[command], words)]
        else:
            return super().line(line)
        return getattr(self.library, 'gwb_' + command)(ctypes.byref(self.handle), *arguments)
