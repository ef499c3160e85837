use crate::operators::named;
use crate::ids::sealed::Kind;
use crate::{
    minus, plus, Block, Counts, Edge, EdgeRow, Error, Face, FaceRow, HalfEdge, HalfEdgeRow, Id, Lamina, Loop, Plane, Point, Refusal, Solid,
    Vertex,
};
use gwb_sys::{kind, Gwb, Wide, FOUND};
use std::iter;
use std::ops::{Deref, Range};
use std::ptr::NonNull;

type After = unsafe extern "C" fn(*mut Gwb, u32, u32, *mut u32) -> u32;
type Write = unsafe extern "C" fn(*mut Gwb, *mut u8, usize) -> usize;

/// Readers of what is held of one thing: each by a call, of its number, and what makes a value of what the call writes.
macro_rules! finders {
    ($($(#[$doc:meta])* $name:ident($of:ident: $kind:ty) -> $found:ty = $call:ident($number:expr), $value:expr;)+) => {
        $(
            $(#[$doc])*
            #[must_use]
            pub fn $name(&self, $of: $kind) -> Option<$found> {
                self.found(|g, row| unsafe { gwb_sys::$call(g, $number, row) }).map($value)
            }
        )+
    };
}

/// The readers of a [`Session`](crate::Session), which has them all: they walk the model that it holds, in a draft the draft's.
///
/// Numbers, rising, come as an iterator whose `size_hint` says that there are at most so many as are left of 1,000,000. Where what is asked
/// for is not in use, readers find nothing.
pub struct Readers {
    handle: NonNull<Gwb>,
}

// SAFETY: the session behind the handle is memory of the heap, which all threads may use, and a call of the library reads and writes that
// alone: it has no lock, no thread-local and no global variable. Whoever has the readers alone calls what is no reader.
unsafe impl Send for Readers {}
// SAFETY: while they are shared none but readers is called, of which many may run at once (gwb.h): each works on a copy of the handle.
unsafe impl Sync for Readers {}

// SAFETY, for all calls in this file: the handle is open for as long as there are readers, and none but readers is called while they are
// borrowed. Each call works on a copy of the handle of its own, and what it writes to is a value of its own.
impl Readers {
    pub(crate) fn new(handle: NonNull<Gwb>) -> Self {
        Self { handle }
    }

    pub(crate) fn handle(&self) -> *mut Gwb {
        self.handle.as_ptr()
    }

    /// A copy of the handle, for one call.
    fn lent(&self) -> Gwb {
        unsafe { self.handle.as_ref() }.lend()
    }

    /// What a reader writes, where it finds something.
    pub(crate) fn found<T: Default>(&self, read: impl FnOnce(*mut Gwb, &mut T) -> u32) -> Option<T> {
        let mut value = T::default();
        (read(&mut self.lent(), &mut value) == FOUND).then_some(value)
    }

    /// How many commands can be undone: none while a draft is open.
    #[must_use]
    pub fn depth(&self) -> usize {
        unsafe { gwb_sys::gwb_lent_depth(&mut self.lent()) }
    }

    /// How many commands can be redone: none while a draft is open.
    #[must_use]
    pub fn ahead(&self) -> usize {
        unsafe { gwb_sys::gwb_lent_ahead(&mut self.lent()) }
    }

    /// How many steps the draft that is open has: 0 where there is none.
    #[must_use]
    pub fn steps(&self) -> usize {
        unsafe { gwb_sys::gwb_lent_mark(&mut self.lent()) }
    }

    /// The plane of a face.
    ///
    /// # Errors
    /// [`Error::Refused`].
    pub fn plane(&self, face: Face) -> Result<Plane, Error> {
        self.measured(|g, plane: &mut gwb_sys::Plane, why| unsafe { gwb_sys::gwb_lent_plane(g, face.0, plane, why) }).map(Plane::from)
    }

    /// Six times the volume of a solid.
    ///
    /// # Errors
    /// [`Error::Refused`].
    pub fn six_volumes(&self, solid: Solid) -> Result<i128, Error> {
        self.measured(|g, volumes: &mut Wide, refusal| unsafe { gwb_sys::gwb_lent_volume(g, solid.0, volumes, refusal) }).map(i128::from)
    }

    /// How many vertices, edges, faces and rings a solid has.
    ///
    /// # Errors
    /// [`Error::Refused`].
    pub fn count(&self, solid: Solid) -> Result<Counts, Error> {
        self.measured(|g, counts: &mut Counts, refusal| unsafe { gwb_sys::gwb_lent_counts(g, solid.0, counts, refusal) })
    }

    /// What a measure writes.
    fn measured<T: Default>(&self, read: impl FnOnce(*mut Gwb, &mut T, &mut gwb_sys::Refusal) -> u32) -> Result<T, Error> {
        let (mut value, mut refusal) = (T::default(), gwb_sys::Refusal::default());
        match read(&mut self.lent(), &mut value, &mut refusal) {
            kind::REFUSED => Err(named(refusal)),
            kind::PLANE..=kind::COUNT => Ok(value),
            other => Err(Error::Unknown(other)),
        }
    }

    /// The listing of the model.
    ///
    /// # Errors
    /// [`Error::Memory`].
    pub fn listing(&self) -> Result<String, Error> {
        self.text(gwb_sys::gwb_lent_listing)
    }

    /// The text of the last answer, its newline included.
    ///
    /// # Errors
    /// [`Error::Memory`].
    pub fn reply(&self) -> Result<String, Error> {
        self.text(gwb_sys::gwb_lent_reply)
    }

    /// The whole text that a reader writes.
    fn text(&self, write: Write) -> Result<String, Error> {
        let mut text = vec![0; 256];
        let mut length = self.written(write, &mut text)?;
        if length > text.len() {
            text.resize(length, 0);
            length = self.written(write, &mut text)?;
        }
        text.truncate(length);
        Ok(String::from_utf8_lossy(&text).into_owned())
    }

    /// Writes a text as far as there is room, and returns its whole length.
    fn written(&self, write: Write, room: &mut [u8]) -> Result<usize, Error> {
        match unsafe { write(&mut self.lent(), room.as_mut_ptr(), room.len()) } {
            usize::MAX => Err(Error::Memory),
            length => Ok(length),
        }
    }

    /// The numbers of a kind in use, rising: `numbers::<Edge>()`.
    pub fn numbers<N: Id>(&self) -> Numbers<'_, N> {
        Numbers::new(self, gwb_sys::gwb_lent_number_after, N::KIND)
    }

    /// The faces of a solid, rising.
    pub fn faces(&self, solid: Solid) -> Numbers<'_, Face> {
        Numbers::new(self, gwb_sys::gwb_lent_face_after, solid.0)
    }

    /// The rings of a face, rising.
    pub fn rings(&self, face: Face) -> Numbers<'_, Loop> {
        Numbers::new(self, gwb_sys::gwb_lent_ring_after, face.0)
    }

    /// The outer loop of a face, and then its rings.
    pub fn loops_of(&self, face: Face) -> impl Iterator<Item = Loop> + '_ {
        self.face(face).map(|row| row.outer_loop).into_iter().chain(self.rings(face))
    }

    /// The half-edges of all loops of a face, one loop after another.
    pub fn half_edges_of(&self, face: Face) -> impl Iterator<Item = HalfEdge> + '_ {
        self.loops_of(face).flat_map(move |of_loop| self.around(of_loop))
    }

    /// The edges of a face, each once, also where the face lies on both sides of it.
    pub fn edges_of(&self, face: Face) -> impl Iterator<Item = Edge> + '_ {
        let is_new = move |half_edge: &HalfEdge| !half_edge.is_second() || self.face_of(half_edge.twin()) != Some(face);
        self.half_edges_of(face).filter(is_new).map(HalfEdge::edge)
    }

    /// The half-edges of a loop in their order round it, from any of them on.
    pub fn around(&self, of_loop: Loop) -> impl Iterator<Item = HalfEdge> + '_ {
        let first = self.half_edge(of_loop.0, gwb_sys::gwb_lent_first_half_edge);
        iter::successors(first, move |&at| self.next(at).filter(|next| Some(*next) != first))
    }

    /// The half-edges that start at a vertex, in their order round it, from any of them on. It looks for the first where it is
    /// likely, and then among all; where a half-edge is at hand, [`around_start`](Self::around_start) needs no search.
    pub fn around_vertex(&self, vertex: Vertex) -> impl Iterator<Item = HalfEdge> + '_ {
        self.half_edge(vertex.0, gwb_sys::gwb_lent_vertex_half_edge).into_iter().flat_map(move |first| self.around_start(first))
    }

    /// The half-edges that start where this one does, in their order round that vertex, from it on.
    pub fn around_start(&self, first: HalfEdge) -> impl Iterator<Item = HalfEdge> + '_ {
        let is_there = self.loop_of(first).is_some();
        iter::successors(is_there.then_some(first), move |&at| self.next(at.twin()).filter(|&next| next != first))
    }

    /// The half-edges of a loop, from the least on; none where it has one vertex and no edge.
    #[must_use]
    pub fn half_edges(&self, of_loop: Loop) -> Vec<HalfEdge> {
        let mut found: Vec<_> = self.around(of_loop).collect();
        let least = (0..found.len()).min_by_key(|&at| found[at]).unwrap_or(0);
        found.rotate_left(least);
        found
    }

    finders! {
        /// What is held of a face.
        face(face: Face) -> FaceRow = gwb_lent_face(face.0), FaceRow::from;
        /// What is held of an edge.
        edge(edge: Edge) -> EdgeRow = gwb_lent_edge(edge.0), EdgeRow::from;
        /// Where a vertex lies.
        vertex(vertex: Vertex) -> Point = gwb_lent_vertex(vertex.0), Point::from;
        /// The vertex of a loop that has one and no edge.
        lone_vertex(of_loop: Loop) -> Vertex = gwb_lent_lone_vertex(of_loop.0), Vertex;
        /// The half-edge after another in its loop.
        next(half_edge: HalfEdge) -> HalfEdge = gwb_lent_next_half_edge(half_edge.code()), HalfEdge::from_code;
        /// The half-edge before another in its loop.
        previous(half_edge: HalfEdge) -> HalfEdge = gwb_lent_previous_half_edge(half_edge.code()), HalfEdge::from_code;
        /// The loop in which a half-edge stands.
        loop_of(half_edge: HalfEdge) -> Loop = gwb_lent_half_edge_loop(half_edge.code()), Loop;
        /// The face of a loop.
        face_of_loop(of_loop: Loop) -> Face = gwb_lent_loop(of_loop.0), Face;
    }

    /// The face on whose side a half-edge stands.
    #[must_use]
    pub fn face_of(&self, half_edge: HalfEdge) -> Option<Face> {
        self.face_of_loop(self.loop_of(half_edge)?)
    }

    /// The vertex at which a half-edge starts.
    #[must_use]
    pub fn start_of(&self, half_edge: HalfEdge) -> Option<Vertex> {
        let ends = self.edge(half_edge.edge())?;
        Some(if half_edge.is_second() { ends.to } else { ends.from })
    }

    /// The vertex at which a half-edge ends.
    #[must_use]
    pub fn end_of(&self, half_edge: HalfEdge) -> Option<Vertex> {
        self.start_of(half_edge.twin())
    }

    /// The faces on both sides of an edge, that of its first half-edge first; they may be one.
    #[must_use]
    pub fn faces_of(&self, edge: Edge) -> Option<[Face; 2]> {
        Some([self.face_of(plus(edge))?, self.face_of(minus(edge))?])
    }

    /// The half-edges of a solid, of all where none is given, with their vertices, neighbours, loops and faces: those of one loop one after
    /// another in their order round it, the outer loop of each face before its rings, faces and rings rising.
    #[must_use]
    pub fn half_edge_rows(&self, solid: impl Into<Option<Solid>>) -> Vec<HalfEdgeRow> {
        number_of(solid).map_or_else(Vec::new, |solid| values(|rows, room| unsafe { gwb_sys::gwb_read_half_edges(self.handle(), solid, rows, room) }))
    }

    /// Those of a face, loop by loop.
    #[must_use]
    pub fn face_rows(&self, face: Face) -> Vec<HalfEdgeRow> {
        values(|rows, room| unsafe { gwb_sys::gwb_lent_half_edge_rows(&mut self.lent(), face.0, rows, room) })
    }

    /// All vertices with their points, rising.
    #[must_use]
    pub fn vertex_rows(&self) -> Vec<(Vertex, Point)> {
        let rows = rows(|rows: *mut gwb_sys::VertexRow, room| unsafe { gwb_sys::gwb_read_vertices(self.handle(), rows, room) });
        rows.into_iter().map(|row| (Vertex(row.vertex), row.point)).collect()
    }

    /// The triangles of a flat face, by exact tests: their corners run counterclockwise as seen from outside. None where the face isn't there
    /// or is bent, or where its loops cross or touch. A face of n edges takes time n log n.
    ///
    /// # Errors
    /// [`Error::Memory`].
    pub fn triangles(&self, face: Face) -> Result<Vec<[Vertex; 3]>, Error> {
        let half_edges = unsafe { gwb_sys::gwb_lent_half_edge_rows(&mut self.lent(), face.0, NonNull::dangling().as_ptr(), 0) };
        let most = half_edges + 2 * self.rings(face).count();
        let rows = triangle_rows(most, |rows, room| unsafe { gwb_sys::gwb_face_triangles(self.handle(), face.0, rows, room) })?;
        Ok(rows.into_iter().map(|(_, corners)| corners).collect())
    }

    /// The [`triangles`](Self::triangles) of the faces of a solid, of all where none is given, faces rising.
    ///
    /// # Errors
    /// [`Error::Refused`]: `NoSolid`; [`Error::Memory`].
    pub fn triangle_rows(&self, solid: impl Into<Option<Solid>>) -> Result<Vec<(Face, [Vertex; 3])>, Error> {
        let given: Option<Solid> = solid.into();
        if let Some(Solid(value)) = given.filter(|&solid| self.faces(solid).next().is_none()) {
            return Err(Error::Refused { refusal: Refusal::NoSolid, value });
        }
        let rings = |face| self.rings(face).count();
        let (number, rings): (u32, usize) = given.map_or_else(|| (0, self.numbers().map(rings).sum()), |solid| (solid.0, self.faces(solid).map(rings).sum()));
        let half_edges = unsafe { gwb_sys::gwb_read_half_edges(self.handle(), number, NonNull::dangling().as_ptr(), 0) };
        triangle_rows(half_edges + 2 * rings, |rows, room| unsafe { gwb_sys::gwb_read_triangles(self.handle(), number, rows, room) })
    }

    /// The lines of what is recorded and held, those of an open draft too: none before [`record`](crate::Operators::record).
    #[must_use]
    pub fn script(&self) -> String {
        self.script_of(0..usize::MAX)
    }

    /// The lines of the recorded commands of these places, of which the first is 0 and an open draft the last. A command of a draft has a line for
    /// each step; gwb.h says which lines no script has.
    #[must_use]
    pub fn script_of(&self, commands: Range<usize>) -> String {
        let lines = rows(|buf, room| unsafe { gwb_sys::gwb_script(self.handle(), commands.start, commands.len(), buf, room) });
        String::from_utf8_lossy(&lines).into_owned()
    }

    /// How many recorded commands are held, an open draft counted as one.
    #[must_use]
    pub fn recorded(&self) -> usize {
        unsafe { gwb_sys::gwb_recorded(self.handle()) }
    }

    /// A number that is another one whenever the model may have changed since.
    #[must_use]
    pub fn changes(&self) -> u64 {
        unsafe { gwb_sys::gwb_changes(self.handle()) }
    }

    /// The faces of the block that the last command made. After another command they tell nothing.
    #[must_use]
    pub fn last_block(&self) -> Option<Block> {
        let first = self.first_fresh_face()?;
        Some(Block { top: Face(first), bottom: Face(first + 1), sides: [2, 3, 4, 5].map(|place| Face(first + place)) })
    }

    /// The faces of the lamina that the last command made, alike.
    #[must_use]
    pub fn last_lamina(&self) -> Option<Lamina> {
        let first = self.first_fresh_face()?;
        Some(Lamina { front: Face(first), back: Face(first + 1) })
    }

    fn first_fresh_face(&self) -> Option<u32> {
        let fresh: gwb_sys::Range = self.found(|g, range| unsafe { gwb_sys::gwb_lent_fresh(g, Face::KIND, range) })?;
        Some(fresh.first)
    }

    /// The greatest number of a kind in use, if any is: `greatest::<Edge>()`.
    #[must_use]
    pub fn greatest<N: Id>(&self) -> Option<N> {
        Some(self.greatest_of(N::KIND)).filter(|&number| number != 0).map(N::from_number)
    }

    /// The greatest number in use of a kind of gwb.h: 0 where none is.
    pub(crate) fn greatest_of(&self, kind: u32) -> u32 {
        u32::try_from(unsafe { gwb_sys::gwb_greatest_number(self.handle(), kind) }).unwrap_or_default()
    }

    /// The number above all of a kind in use, which is out of range where no greater one is.
    #[must_use]
    pub fn next_free<N: Id>(&self) -> N {
        N::from_number(self.greatest::<N>().map_or(1, |greatest| greatest.number() + 1))
    }

    /// What a reader of a half-edge finds.
    fn half_edge(&self, of: u32, read: unsafe extern "C" fn(*mut Gwb, u32, *mut u32) -> u32) -> Option<HalfEdge> {
        self.found(|g, found| unsafe { read(g, of, found) }).map(HalfEdge::from_code)
    }
}

/// The number of a solid, 0 for all where none is given; none for the solid 0, which is never there.
pub(crate) fn number_of(solid: impl Into<Option<Solid>>) -> Option<u32> {
    solid.into().map_or(Some(0), |solid| Some(solid.0).filter(|&number| number != 0))
}

/// All triangles that a call writes, of which there are at most so many.
fn triangle_rows(most: usize, write: impl Fn(*mut gwb_sys::TriangleRow, usize) -> usize) -> Result<Vec<(Face, [Vertex; 3])>, Error> {
    let mut rows = vec![gwb_sys::TriangleRow::default(); most];
    let count = write(rows.as_mut_ptr(), most);
    if count == usize::MAX {
        return Err(Error::Memory);
    }
    rows.truncate(count);
    Ok(rows.into_iter().map(|row| (Face(row.face), row.corners.map(Vertex))).collect())
}

/// All rows that a call writes, which is given room for them first.
pub(crate) fn rows<T: Clone + Default>(write: impl Fn(*mut T, usize) -> usize) -> Vec<T> {
    let mut rows = vec![T::default(); write(&mut T::default(), 0)];
    write(rows.as_mut_ptr(), rows.len());
    rows
}

/// Values of all rows that a call writes.
pub(crate) fn values<T: Clone + Default, V: From<T>>(write: impl Fn(*mut T, usize) -> usize) -> Vec<V> {
    rows(write).into_iter().map(V::from).collect()
}

/// Numbers in use, rising: of a kind, the faces of a solid, or the rings of a face.
#[derive(Clone)]
#[must_use = "iterators do nothing unless they are gone through"]
pub struct Numbers<'session, N> {
    readers: &'session Readers,
    after: After,
    owner: u32,
    last: u32,
    kind: std::marker::PhantomData<N>,
}

const GREATEST_NUMBER: u32 = 1_000_000;

impl<'session, N: Id> Numbers<'session, N> {
    fn new(readers: &'session Readers, after: After, owner: u32) -> Self {
        Self { readers, after, owner, last: 0, kind: std::marker::PhantomData }
    }
}

impl<N: Id> Iterator for Numbers<'_, N> {
    type Item = N;

    fn next(&mut self) -> Option<N> {
        // SAFETY: as above.
        self.last = self.readers.found(|g, number| unsafe { (self.after)(g, self.owner, self.last, number) })?;
        Some(N::from_number(self.last))
    }

    fn size_hint(&self) -> (usize, Option<usize>) {
        (0, usize::try_from(GREATEST_NUMBER.saturating_sub(self.last)).ok())
    }
}

impl<N: Id> iter::FusedIterator for Numbers<'_, N> {}

/// The [`Readers`] of a session for many threads at once, as long as it is borrowed: [`Session::shared`](crate::Session::shared).
#[derive(Clone, Copy)]
pub struct Shared<'session> {
    readers: &'session Readers,
}

impl<'session> Shared<'session> {
    pub(crate) fn new(readers: &'session Readers) -> Self {
        Self { readers }
    }
}

impl Deref for Shared<'_> {
    type Target = Readers;

    fn deref(&self) -> &Readers {
        self.readers
    }
}
