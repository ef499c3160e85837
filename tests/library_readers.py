#!/usr/bin/env python3
"""Writes models out by the readers of the library alone, and compares that with their listings; cuts their faces into triangles; and makes
them of their listings.

    tests/library_readers.py LIBRARY [LINES]       LINES is 20000 where it isn't given

The models are those that the lines of random_lines.py leave, every 50th line.
"""
import ctypes
import sys
from itertools import groupby

from counts import command_line, there
from library_session import NO_TEXT, Handle, Refusal, Session, loaded
from random_lines import Lines

ABSENT, FOUND, CLOSED = 0, 1, 9
OK, REFUSED = 1, 2
SOLID, FACE, LOOP, EDGE, VERTEX = range(5)
SEED = 21
U32, I64 = ctypes.c_uint32, ctypes.c_int64
NUMBER, PAIR, POINT = U32 * 1, U32 * 2, I64 * 3
READERS = {
    'number_after': (2, NUMBER), 'face': (1, PAIR), 'ring_after': (2, NUMBER), 'face_after': (2, NUMBER), 'loop': (1, NUMBER),
    'lone_vertex': (1, NUMBER), 'first_half_edge': (1, NUMBER), 'next_half_edge': (1, NUMBER), 'previous_half_edge': (1, NUMBER),
    'half_edge_loop': (1, NUMBER), 'vertex_half_edge': (1, NUMBER), 'edge': (1, PAIR), 'vertex': (1, POINT)}


class HalfEdgeRow(ctypes.Structure):
    """A half-edge among all, and where it stands."""

    _fields_ = [(name, U32) for name in ('half_edge', 'start', 'next', 'loop', 'face')]


class VertexRow(ctypes.Structure):
    """A vertex among all, and where it lies."""

    _fields_ = [('vertex', U32), ('x', I64), ('y', I64), ('z', I64)]


class TriangleRow(ctypes.Structure):
    """A triangle of a face, by its vertices."""

    _fields_ = [('face', U32), ('corners', U32 * 3)]


def from_least(ring):
    """The items of a ring in their order, from the least on."""
    least = ring.index(min(ring)) if ring else 0
    return ring[least:] + ring[:least]


class Readers:
    """The readers of one session: what they write as a tuple, or None where they find nothing."""

    def __init__(self, library, session):
        self.session = session
        self.functions = {}
        for name, (takes, row) in READERS.items():
            function = getattr(library, 'gwb_lent_' + name)
            function.restype, function.argtypes = U32, [ctypes.POINTER(Handle)] + [U32] * takes + [ctypes.POINTER(row)]
            self.functions[name] = function, row
        self.cycle, self.rows, self.points, self.greatest = (
            getattr(library, 'gwb_' + name) for name in ('lent_half_edges', 'read_half_edges', 'read_vertices', 'greatest_number'))
        for function, takes in ((self.cycle, [U32]), (self.rows, [U32]), (self.points, [])):
            function.restype, function.argtypes = ctypes.c_size_t, [ctypes.POINTER(Handle), *takes, ctypes.c_void_p, ctypes.c_size_t]
        self.greatest.restype, self.greatest.argtypes = ctypes.c_size_t, [ctypes.POINTER(Handle), U32]
        self.triangles, self.of_face = library.gwb_read_triangles, library.gwb_face_triangles
        for function in (self.triangles, self.of_face):
            function.restype, function.argtypes = ctypes.c_size_t, [ctypes.POINTER(Handle), U32, ctypes.c_void_p, ctypes.c_size_t]

    def lent(self):
        """A copy of the handle, as the header's readers make it."""
        return Handle.from_buffer_copy(self.session.handle)

    def ask(self, name, *numbers):
        function, row = self.functions[name]
        written = row(*[77] * len(row()))
        found = function(self.lent(), *numbers, written)
        if found != FOUND and (found != ABSENT or set(written) != {77}):
            raise ValueError('%s %r: %d, %r' % (name, numbers, found, list(written)))
        return tuple(written) if found == FOUND else None

    def rising(self, name, *first):
        """All numbers that an `.._after` finds, from 0 on."""
        number = 0
        while (found := self.ask(name, *first, number)) is not None:
            number, = found
            yield number

    def half_edges(self, loop):
        """The half-edges of a loop from the least on; none where it is lone. The reader that writes all of them says the same, from some
        half-edge on, also where there is less room."""
        wanted = self.stepped(loop)
        written = self.written(loop, len(wanted) + 2)[:len(wanted)]
        for room in {len(wanted), len(wanted) // 2, len(wanted) + 2}:
            found = self.written(loop, room)
            if found != (written + [77] * (room + 1))[:room] + [77] or from_least(written) != wanted:
                raise ValueError('loop %d with room for %d: %r, not %r' % (loop, room, found, wanted))
        return wanted

    def written(self, loop, room):
        """What the reader of all half-edges writes where there is room for so many, and the number behind the room."""
        found = (U32 * (room + 1))(*[77] * (room + 1))
        count = self.cycle(self.lent(), loop, found, room)
        if count != len(self.stepped(loop)):
            raise ValueError('loop %d: %d half-edges' % (loop, count))
        return list(found)

    def stepped(self, loop):
        """The same, step by step."""
        found = self.ask('first_half_edge', loop)
        if found is None:
            return []
        cycle = [found[0]]
        while (after := self.ask('next_half_edge', cycle[-1])[0]) != cycle[0]:
            cycle.append(after)
        return from_least(cycle)

    def loop_row(self, loop):
        halves, lone = self.half_edges(loop), self.ask('lone_vertex', loop)
        if (lone is None) != bool(halves):
            raise ValueError('loop %d: %r, %r' % (loop, halves, lone))
        return 'at %d' % lone if lone else ' '.join('%s%d' % ('+-'[half % 2], half // 2) for half in halves)

    def face_row(self, face):
        solid, outer = self.ask('face', face)
        rings = list(self.rising('ring_after', face))
        for loop in [outer, *rings]:
            if self.ask('loop', loop) != (face,):
                raise ValueError('loop %d of face %d: %r' % (loop, face, self.ask('loop', loop)))
        return ' '.join(map(str, [solid, outer, *rings]))

    def listing(self):
        """The listing of the model, made of what the readers say."""
        rows = {SOLID: lambda solid: '', FACE: self.face_row, LOOP: self.loop_row,
                EDGE: lambda edge: '%d %d' % self.ask('edge', edge), VERTEX: lambda vertex: '%d %d %d' % self.ask('vertex', vertex)}
        lines = []
        for entity, name in enumerate(('solid', 'face', 'loop', 'edge', 'vertex')):
            for number in self.rising('number_after', entity):
                lines.append(('%s %d %s' % (name, number, rows[entity](number))).rstrip())
        return ''.join(line + '\n' for line in lines).encode() or b'empty\n'

    def faces_of_solids(self):
        """Whether the faces that `gwb_face_after` finds are those whose row names the solid."""
        faces = list(self.rising('number_after', FACE))
        return all(list(self.rising('face_after', solid)) == [face for face in faces if self.ask('face', face)[0] == solid]
                   for solid in self.rising('number_after', SOLID))


    def wrong_neighbours(self):
        """What is wrong with the loops of half-edges, those before them and those that start at vertices, or None."""
        starts = set()
        for loop in self.rising('number_after', LOOP):
            halves = self.half_edges(loop)
            starts.update(self.ask('edge', half // 2)[half % 2] for half in halves)
            if any(self.ask('half_edge_loop', half) != (loop,) for half in halves):
                return 'another loop than %d of %r' % (loop, halves)
            if [self.ask('previous_half_edge', half) for half in halves] != [(half,) for half in halves[-1:] + halves[:-1]]:
                return 'others before %r' % halves
        return self.wrong_starts(starts)

    def wrong_starts(self, starts):
        """What is wrong with the half-edges that start at vertices, or None."""
        for vertex in self.rising('number_after', VERTEX):
            half = self.ask('vertex_half_edge', vertex)
            if (half is None) != (vertex not in starts) or half is not None and self.ask('edge', half[0] // 2)[half[0] % 2] != vertex:
                return '%r starts at vertex %d' % (half, vertex)
        return None

    def wrong_rows(self):
        """What is wrong with the rows of all half-edges and vertices, and with the greatest numbers, or None."""
        wanted, points = list(self.half_edge_rows()), list(self.all_rows(self.points, VertexRow))
        told = self.told_rows(0)
        if told != wanted:
            return 'rows of half-edges: %r' % told
        for solid in self.rising('number_after', SOLID):
            faces = set(self.rising('face_after', solid))
            if self.told_rows(solid) != [row for row in wanted if row[-1] in faces]:
                return 'rows of solid %d: %r' % (solid, self.told_rows(solid))
        if [(row.vertex, (row.x, row.y, row.z)) for row in points] != [(n, self.ask('vertex', n)) for n in self.rising('number_after', VERTEX)]:
            return 'rows of vertices'
        greatest = [max(self.rising('number_after', entity), default=0) for entity in range(5)]
        found = [self.greatest(self.session.handle, entity) for entity in range(5)]
        return None if found == greatest else 'greatest numbers %r, not %r' % (found, greatest)

    def wrong_triangles(self):
        """What is wrong with the triangles of the faces, or None: those of a face are as many as it has corners, but 2, and 2 more for each
        ring, and what they go round is what the face does."""
        told = []
        for face in self.rising('number_after', FACE):
            rows = list(self.all_rows(self.of_face, TriangleRow, face))
            told += rows
            loops = [loop for loop in (self.half_edges(loop) for loop in [self.ask('face', face)[1], *self.rising('ring_after', face)]) if loop]
            around = [sum(column) for column in zip(*(self.across(row.corners) for row in rows))]
            if rows and (len(rows) != sum(map(len, loops)) + 2 * len(loops) - 4 or around != self.plane(face)):
                return 'triangles of face %d: %r' % (face, [tuple(row.corners) for row in rows])
        found = [(row.face, *row.corners) for row in self.all_rows(self.triangles, TriangleRow, 0)]
        return None if found == [(row.face, *row.corners) for row in told] else 'triangles: %r' % found

    def across(self, corners):
        """The vector across a triangle, as long as twice its area."""
        p, q, r = (self.ask('vertex', corner) for corner in corners)
        u, v = [b - a for a, b in zip(p, q)], [b - a for a, b in zip(p, r)]
        return [u[1] * v[2] - u[2] * v[1], u[2] * v[0] - u[0] * v[2], u[0] * v[1] - u[1] * v[0]]

    def plane(self, face):
        """The vector across a face, where it is flat."""
        self.session.line(b'plane %d' % face)
        *numbers, flat = self.session.text().split()[1:]
        return [int(number) for number in numbers[:3]] if flat == b'flat' else None

    def all_rows(self, function, kind, *first):
        """The rows that a function writes; with too little room the first of them, and nothing behind the room."""
        count = function(self.session.handle, *first, (kind * 1)(), 0)
        rows = (kind * (count + 1))()
        assert function(self.session.handle, *first, rows, count // 2) == count and not any(bytes(rows)[count // 2 * ctypes.sizeof(kind):])
        assert function(self.session.handle, *first, rows, count) == count and not any(bytes(rows)[count * ctypes.sizeof(kind):])
        return rows[:count]

    def told_rows(self, solid):
        """The rows of half-edges as they are written at once, but those of each loop from the least half-edge on."""
        rows = [(row.half_edge, row.start, row.next, row.loop, row.face) for row in self.all_rows(self.rows, HalfEdgeRow, solid)]
        return [row for _, loop in groupby(rows, key=lambda row: row[3]) for row in from_least(list(loop))]

    def half_edge_rows(self):
        """The rows of all half-edges, by the readers, in the order in which they are written at once."""
        for face in self.rising('number_after', FACE):
            for loop in [self.ask('face', face)[1], *self.rising('ring_after', face)]:
                for half in self.half_edges(loop):
                    yield half, self.ask('edge', half // 2)[half % 2], self.ask('next_half_edge', half)[0], loop, face


def wrong_loading(session, listing):
    """What is wrong with a model that is made of a listing, or None: it has that listing, as one command; beside itself it is refused."""
    library, refusal = session.library, Refusal()
    other = Session(library)
    assert other.open()
    library.gwb_load.argtypes = [ctypes.POINTER(Handle), ctypes.c_char_p, ctypes.c_size_t, ctypes.POINTER(Refusal)]
    kind = library.gwb_load(other.handle, listing, len(listing), refusal)
    other.line(b'list')
    text, depths = other.text(), other.depths()
    again = library.gwb_load(other.handle, listing, len(listing), refusal)
    is_well = kind == OK and text == listing and depths == (1, 0)
    is_well = is_well and (again, other.depths()) == ((OK, (2, 0)) if listing == b'empty\n' else (REFUSED, (1, 0)))
    other.close()
    return None if is_well else 'loaded: %d, %r, %r, then %d' % (kind, text[:300], depths, again)


def complaint(session, readers):
    """What is wrong with the readers of the model held, or None."""
    session.line(b'list')
    wanted = session.text()
    got = readers.listing()
    if got != wanted:
        return '%r, not %r' % (got[:300], wanted[:300])
    if not readers.faces_of_solids():
        return 'other faces of a solid: %r' % wanted[:300]
    why = readers.wrong_neighbours() or readers.wrong_rows() or readers.wrong_triangles() or wrong_loading(session, wanted)
    if why:
        return '%s in %r' % (why, wanted[:300])
    absent = [readers.ask(name, *[999999] * takes) for name, (takes, _) in READERS.items()]
    absent += [readers.ask('number_after', 5, 0), readers.half_edges(999999), list(readers.all_rows(readers.of_face, TriangleRow, 999999))]
    return 'found what is not there: %r' % absent if any(absent) else None


def closed(session, readers):
    """What is wrong with the readers of a closed handle, or None."""
    for name, (takes, row) in READERS.items():
        function, _ = readers.functions[name]
        written = row(*[77] * len(row()))
        if function(session.handle, *[1] * takes, written) != CLOSED or set(written) != {77}:
            return 'gwb_lent_%s of a closed handle' % name
    written = NUMBER(77)
    many = [readers.cycle(session.handle, 1, written, 1), readers.rows(session.handle, 0, written, 1), readers.points(session.handle, written, 1),
            readers.greatest(session.handle, FACE), readers.triangles(session.handle, 0, written, 1), readers.of_face(session.handle, 1, written, 1)]
    return 'all at once of a closed handle: %r' % many if many != [NO_TEXT] * 6 or set(written) != {77} else None


def main():
    given = command_line(__doc__, library=str, lines=20_000)
    library = loaded(str(there(given.library, 'library')))
    session = Session(library)
    readers = Readers(library, session)
    if not session.open():
        sys.exit('no session')
    models = 0
    why = None
    for count, line in enumerate(Lines(SEED).take(given.lines)):
        session.line(line)
        if count % 50 == 0:
            models += 1
            why = complaint(session, readers)
        if why:
            break
    session.close()
    why = why or closed(session, readers)
    print(why or '%d models compared' % models)
    return 1 if why else 0


if __name__ == '__main__':
    sys.exit(main())
