use crate::readers::Readers;
use crate::{Corner, Edge, Error, Face, HalfEdge, Id, Loop, NewFace, NewSolid, Point, Refusal, Solid, Vertex};
use gwb_sys::{kind, Gwb, Range};
use std::ffi::c_void;
use std::ops::{Deref, RangeInclusive};
use std::ptr::NonNull;
use std::sync::atomic::{AtomicBool, Ordering};
use std::sync::Arc;

/// What a [`Session`](crate::Session) and a [`Draft`](crate::Draft) both have: the operators and, by [`Readers`], the readers.
///
/// An operator makes what it is given numbers for. In the place of each such number [`None`] may stand: it takes the number above all in
/// use then. What is made is returned. A command that isn't accepted leaves the model as it was; it returns [`Error::Refused`] with the
/// first of its conditions that is false (docs/SCRIPT.md has them by commands), or [`Error::Memory`].
///
/// It has no size that is known, so that no two of them can be swapped: a draft stays that of its session.
///
/// ```compile_fail,E0277
/// # let (mut session, mut other) = (gwb::Session::new().unwrap(), gwb::Session::new().unwrap());
/// let mut draft = session.draft().unwrap();
/// std::mem::swap(&mut *draft, &mut *other);
/// ```
pub struct Operators<Tail: ?Sized = [u8]> {
    readers: Readers,
    fresh: Fresh,
    /// What stops long work, as long as the library may ask it.
    stop: Option<Arc<AtomicBool>>,
    _tail: Tail,
}

/// The fresh numbers of the last command, where a line was given after it or it was a draft, and those of the steps of a draft.
#[derive(Default)]
struct Fresh {
    kept: Option<Ranges>,
    drafted: Option<Ranges>,
}

/// For each kind the first and the last number, or 0 and 0.
pub(crate) type Ranges = [Range; 5];

/// The range from the first of both to the last of both.
fn joined(one: Range, other: Range) -> Range {
    match (one.first, other.first) {
        (0, _) => other,
        (_, 0) => one,
        _ => Range { first: one.first.min(other.first), last: one.last.max(other.last) },
    }
}

// SAFETY, for all calls in this file: the handle is open from `new` on until `drop`, and nobody else has it. What isn't a reader borrows
// this mutably, so no other call runs. What a call writes to is a value of its own.
impl Operators {
    /// A session that holds the empty model.
    pub(crate) fn new() -> Result<Box<Self>, Error> {
        let version = unsafe { gwb_sys::gwb_version() };
        if version / 10_000 != gwb_sys::VERSION / 10_000 {
            return Err(Error::OtherVersion(version));
        }
        let handle = NonNull::from(Box::leak(Box::new(Gwb::CLOSED)));
        let sized: Box<Operators<[u8; 0]>> = Box::new(Operators { readers: Readers::new(handle), fresh: Fresh::default(), stop: None, _tail: [] });
        let operators: Box<Self> = sized;
        unsafe { gwb_sys::gwb_open(operators.handle()) }.then_some(operators).ok_or(Error::Memory)
    }

    /// Whether long work ends is what the flag says from here on, from any thread: features, [`load`](Self::load) and
    /// [`off_lattice`](Readers::off_lattice) then give [`Error::Stopped`], and nothing has changed. None: nothing ends them.
    pub fn stop_when(&mut self, flag: Option<Arc<AtomicBool>>) {
        let user = flag.as_ref().map_or(std::ptr::null_mut(), |flag| Arc::as_ptr(flag) as *mut c_void);
        unsafe { gwb_sys::gwb_stop_by(self.handle(), flag.is_some().then_some(is_set), user) };
        self.stop = flag;
    }

    /// From here on what is accepted is recorded as lines of a script, for [`script`](Readers::script).
    ///
    /// # Errors
    /// [`Error::Memory`]; [`Error::NoCall`] where the session has done something already.
    pub fn record(&mut self) -> Result<(), Error> {
        let answer = unsafe { gwb_sys::gwb_record(self.handle()) };
        self.answered(answer)
    }
}

/// Operators and larger commands. Each may be refused, by [`Error::Refused`] or [`Error::Memory`].
#[allow(clippy::missing_errors_doc)]
impl Operators {
    /// A new solid with one face, whose outer loop stands at one new vertex.
    pub fn mvfs(
        &mut self,
        solid: impl Into<Option<Solid>>,
        face: impl Into<Option<Face>>,
        of_loop: impl Into<Option<Loop>>,
        vertex: impl Into<Option<Vertex>>,
        at: impl Into<Point>,
    ) -> Result<NewSolid, Error> {
        let made = NewSolid { solid: self.named(solid), face: self.named(face), of_loop: self.named(of_loop), vertex: self.named(vertex) };
        let at = at.into();
        self.told(unsafe { gwb_sys::gwb_mvfs(self.handle(), made.solid.0, made.face.0, made.of_loop.0, made.vertex.0, at.x, at.y, at.z) })?;
        Ok(made)
    }

    /// The solid goes, with its one face, loop and vertex.
    pub fn kvfs(&mut self, solid: Solid) -> Result<(), Error> {
        self.told(unsafe { gwb_sys::gwb_kvfs(self.handle(), solid.0) })
    }

    /// A new edge from the vertex of the corners to a new vertex. With one corner given twice it sticks out there; with two corners at one
    /// vertex, the half-edges from the first round to before the second start at the new vertex.
    pub fn mev(
        &mut self,
        corner: impl Into<Corner>,
        other: impl Into<Corner>,
        edge: impl Into<Option<Edge>>,
        vertex: impl Into<Option<Vertex>>,
        at: impl Into<Point>,
    ) -> Result<(Edge, Vertex), Error> {
        let (edge, vertex, at) = (self.named(edge), self.named(vertex), at.into());
        let (corner, other) = (corner.into().code(), other.into().code());
        self.told(unsafe { gwb_sys::gwb_mev(self.handle(), corner, other, edge.0, vertex.0, at.x, at.y, at.z) })?;
        Ok((edge, vertex))
    }

    /// The edge goes, and the vertex at the end of the half-edge; what else starts there starts where the half-edge does.
    pub fn kev(&mut self, half_edge: HalfEdge) -> Result<(), Error> {
        self.told(unsafe { gwb_sys::gwb_kev(self.handle(), half_edge.code()) })
    }

    /// A new edge across a face, between the vertices at which two half-edges of one loop start. The part from the first to before the
    /// second becomes the loop of the new face.
    pub fn mef(
        &mut self,
        half_edge: HalfEdge,
        other: HalfEdge,
        edge: impl Into<Option<Edge>>,
        face: impl Into<Option<Face>>,
        of_loop: impl Into<Option<Loop>>,
    ) -> Result<NewFace, Error> {
        let made = NewFace { edge: self.named(edge), face: self.named(face), of_loop: self.named(of_loop) };
        self.told(unsafe { gwb_sys::gwb_mef(self.handle(), half_edge.code(), other.code(), made.edge.0, made.face.0, made.of_loop.0) })?;
        Ok(made)
    }

    /// The edge goes, and the face on its other side becomes part of the half-edge's own.
    pub fn kef(&mut self, half_edge: HalfEdge) -> Result<(), Error> {
        self.told(unsafe { gwb_sys::gwb_kef(self.handle(), half_edge.code()) })
    }

    /// The edge goes, which has one loop on both sides; the part after the half-edge is a new ring of the face.
    pub fn kemr(&mut self, half_edge: HalfEdge, ring: impl Into<Option<Loop>>) -> Result<Loop, Error> {
        let ring = self.named(ring);
        self.told(unsafe { gwb_sys::gwb_kemr(self.handle(), half_edge.code(), ring.0) })?;
        Ok(ring)
    }

    /// A new edge from the first corner to the second, whose loop is a ring of the same face and becomes part of the first one's.
    pub fn mekr(&mut self, corner: impl Into<Corner>, other: impl Into<Corner>, edge: impl Into<Option<Edge>>) -> Result<Edge, Error> {
        let edge = self.named(edge);
        self.told(unsafe { gwb_sys::gwb_mekr(self.handle(), corner.into().code(), other.into().code(), edge.0) })?;
        Ok(edge)
    }

    /// The second face goes, and its loop becomes a ring of the first.
    pub fn kfmrh(&mut self, face: Face, other: Face) -> Result<(), Error> {
        self.told(unsafe { gwb_sys::gwb_kfmrh(self.handle(), face.0, other.0) })
    }

    /// A ring becomes the outer loop of a new face of the same solid.
    pub fn mfkrh(&mut self, ring: Loop, face: impl Into<Option<Face>>) -> Result<Face, Error> {
        let face = self.named(face);
        self.told(unsafe { gwb_sys::gwb_mfkrh(self.handle(), ring.0, face.0) })?;
        Ok(face)
    }

    /// A ring becomes a ring of another face: `ringmv` with the word `in`.
    pub fn ring_in(&mut self, ring: Loop, face: Face) -> Result<(), Error> {
        self.told(unsafe { gwb_sys::gwb_ringmv(self.handle(), ring.0, face.0, 0) })
    }

    /// A ring becomes the outer loop of a face, whose old one becomes a ring of it: `ringmv` with the word `out`.
    pub fn ring_out(&mut self, ring: Loop, face: Face) -> Result<(), Error> {
        self.told(unsafe { gwb_sys::gwb_ringmv(self.handle(), ring.0, face.0, 1) })
    }

    /// A ring becomes the outer loop of its own face, whose old one becomes a ring of the face given. No script has this operator.
    pub fn outer(&mut self, ring: Loop, face: Face) -> Result<(), Error> {
        self.told(unsafe { gwb_sys::gwb_outer(self.handle(), ring.0, face.0) })
    }

    /// All faces of the second solid are of the first, and the second is gone. No script has this operator.
    pub fn merge(&mut self, solid: Solid, other: Solid) -> Result<(), Error> {
        self.told(unsafe { gwb_sys::gwb_merge(self.handle(), solid.0, other.0) })
    }

    /// A new solid of some faces of one, their numbers rising, which share no edge with its others. No script has this operator.
    /// [`Error::NoCall`] where there are no faces.
    pub fn part(&mut self, faces: &[Face], solid: impl Into<Option<Solid>>) -> Result<Solid, Error> {
        let solid = self.named(solid);
        // `Face` is a transparent u32
        self.told(unsafe { gwb_sys::gwb_part(self.handle(), faces.as_ptr().cast(), faces.len(), solid.0) })?;
        Ok(solid)
    }

    /// A new solid of two faces through 3 to 64 points, one on either side; [`Error::NoCall`] where there are more points.
    pub fn lamina<P: Copy + Into<Point>>(&mut self, solid: impl Into<Option<Solid>>, points: &[P]) -> Result<Solid, Error> {
        let solid = self.named(solid);
        let points: Vec<Point> = points.iter().map(|&point| point.into()).collect();
        self.told(unsafe { gwb_sys::gwb_lamina(self.handle(), solid.0, points.as_ptr(), points.len()) })?;
        Ok(solid)
    }

    /// A new solid, the block that has the point as its lowest corner and edges along the axes, so long as the sizes say.
    pub fn block(&mut self, solid: impl Into<Option<Solid>>, corner: impl Into<Point>, sizes: impl Into<Point>) -> Result<Solid, Error> {
        let (solid, at, by) = (self.named(solid), corner.into(), sizes.into());
        self.told(unsafe { gwb_sys::gwb_block(self.handle(), solid.0, at.x, at.y, at.z, by.x, by.y, by.z) })?;
        Ok(solid)
    }

    /// The face moves by a vector, and a new face rises over each of its half-edges. Sweep a lamina's first face along its normal: against
    /// it the solid is inside out, and its volume negative.
    pub fn sweep(&mut self, face: Face, along: impl Into<Point>) -> Result<(), Error> {
        let by = along.into();
        self.told(unsafe { gwb_sys::gwb_sweep(self.handle(), face.0, by.x, by.y, by.z) })
    }

    /// The two solids of the faces become one along them. The faces go through the same points in opposite directions.
    pub fn glue(&mut self, face: Face, other: Face) -> Result<(), Error> {
        self.told(unsafe { gwb_sys::gwb_glue(self.handle(), face.0, other.0) })
    }

    /// The solid is cut in two by the plane a x + b y + c z + d = 0; what lies where the sum is positive becomes the solid `above`.
    /// Of `NotLattice` [`off_lattice`](crate::Readers::off_lattice) says what would do.
    pub fn split(&mut self, solid: Solid, [a, b, c, d]: [i64; 4], above: impl Into<Option<Solid>>) -> Result<Solid, Error> {
        let above = self.named(above);
        self.told(unsafe { gwb_sys::gwb_split(self.handle(), solid.0, a, b, c, d, above.0) })?;
        Ok(above)
    }
}

impl Operators {
    /// Makes the model of a listing beside what is held, with its numbers: as one command, or as steps of the draft that is open.
    ///
    /// ```
    /// # use gwb::{Error, Session};
    /// # let mut session = Session::new()?;
    /// session.block(None, [0, 0, 0], [4, 4, 4])?;
    /// let mut other = Session::new()?;
    /// other.load(&session.listing()?)?;
    /// assert_eq!((other.listing()?, other.depth()), (session.listing()?, 1));
    /// # Ok::<(), Error>(())
    /// ```
    ///
    /// # Errors
    /// [`Error::Refused`] where a number is in use, or none is free; [`Error::Memory`]; [`Error::NoCall`] where it is no listing of a sound
    /// model.
    pub fn load(&mut self, listing: &str) -> Result<(), Error> {
        self.feature(|g, why| unsafe { gwb_sys::gwb_load(g, listing.as_ptr(), listing.len(), why) })
    }

    /// The numbers of a kind that the last command made above all that were in use before it, up to the greatest in use; not each of them
    /// need be in use. Of a draft they are the first and the last that its steps so made. Measures leave them as they are. None for solids,
    /// which a command names: `fresh::<Face>()`.
    #[must_use]
    pub fn fresh<N: Id>(&self) -> Option<RangeInclusive<u32>> {
        let range = self.fresh.kept.map_or_else(|| self.live(N::KIND), |kept| kept[N::KIND as usize]);
        (range.first != 0).then_some(range.first..=range.last)
    }

    pub(crate) fn handle(&self) -> *mut Gwb {
        self.readers.handle()
    }

    /// The number that is given, or the one above all in use.
    pub(crate) fn named<N: Id>(&self, number: impl Into<Option<N>>) -> N {
        number.into().unwrap_or_else(|| self.next_free())
    }

    /// What the kind of a command's answer says.
    pub(crate) fn told(&mut self, answer: u32) -> Result<(), Error> {
        if answer <= kind::MEMORY {
            self.fresh.kept = None;
        }
        if let (kind::OK, Some(drafted)) = (answer, self.fresh.drafted) {
            let step = self.all_live();
            self.fresh.drafted = Some(std::array::from_fn(|of| joined(drafted[of], step[of])));
        }
        self.answered(answer)
    }

    /// The greatest numbers in use, by kinds.
    pub(crate) fn all_greatest(&self) -> [u32; 5] {
        [0, 1, 2, 3, 4].map(|kind| self.greatest_of(kind))
    }

    /// After many commands that were one, or steps of the draft that is open, where these were the greatest numbers before.
    pub(crate) fn told_all(&mut self, before: [u32; 5]) {
        let mut made = Ranges::default();
        for kind in [1, 2, 3, 4] {
            let first = self.found(|g, number| unsafe { gwb_sys::gwb_lent_number_after(g, kind, before[kind as usize], number) });
            made[kind as usize] = first.map_or_else(Range::default, |first| Range { first, last: self.greatest_of(kind) });
        }
        self.fresh.kept = Some(made);
        if let Some(drafted) = self.fresh.drafted {
            self.fresh.drafted = Some(std::array::from_fn(|of| joined(drafted[of], made[of])));
        }
    }

    /// After a draft was opened.
    pub(crate) fn begin_draft(&mut self) {
        self.fresh = Fresh { kept: None, drafted: Some(Ranges::default()) };
    }

    /// What the steps of the draft that is open have made.
    pub(crate) fn drafted(&self) -> Option<Ranges> {
        self.fresh.drafted
    }

    /// After the steps of the draft were taken back to where they had made this, if there were any.
    pub(crate) fn go_back(&mut self, drafted: Option<Ranges>) {
        self.fresh.kept = None;
        self.fresh.drafted = drafted;
    }

    /// After a draft has ended; where it was committed it has made what its steps made, and else the model is the one before it.
    pub(crate) fn end_draft(&mut self, is_committed: bool) {
        let drafted = self.fresh.drafted.take();
        self.fresh.kept = drafted.filter(|_| is_committed);
    }

    /// Before a line, which may make the kernel forget what the last command made.
    pub(crate) fn keep_fresh(&mut self) {
        let kept = self.fresh.kept.unwrap_or_else(|| self.all_live());
        self.fresh.kept = Some(kept);
    }

    /// What the kind of an answer says.
    pub(crate) fn answered(&self, answer: u32) -> Result<(), Error> {
        match answer {
            kind::REFUSED => Err(self.refusal()),
            kind::FAULT => Err(Error::Fault(self.found(|g, number| unsafe { gwb_sys::gwb_lent_last_fault(g, number) }).unwrap_or_default())),
            kind::MEMORY => Err(Error::Memory),
            kind::NO_CALL => Err(Error::NoCall),
            kind::IN_DRAFT => Err(Error::InDraft),
            kind::NO_DRAFT => Err(Error::NoDraft),
            kind::STOPPED => Err(Error::Stopped),
            0..=kind::LISTING => Ok(()),
            _ => Err(Error::Unknown(answer)),
        }
    }

    fn refusal(&self) -> Error {
        named(self.found(|g, last| unsafe { gwb_sys::gwb_lent_last_refusal(g, last) }).unwrap_or_default())
    }

    fn live(&self, kind: u32) -> Range {
        self.found(|g, range| unsafe { gwb_sys::gwb_lent_fresh(g, kind, range) }).unwrap_or_default()
    }

    fn all_live(&self) -> Ranges {
        [0, 1, 2, 3, 4].map(|kind| self.live(kind))
    }
}

/// A refusal by its name.
pub(crate) fn named(refusal: gwb_sys::Refusal) -> Error {
    let gwb_sys::Refusal { number, value } = refusal;
    Refusal::from_number(number).map_or(Error::Unknown(number), |refusal| Error::Refused { refusal, value })
}

/// Whether the flag is set.
unsafe extern "C" fn is_set(user: *mut c_void) -> bool {
    // SAFETY: the flag is kept by the operators as long as the library has it.
    unsafe { &*user.cast::<AtomicBool>() }.load(Ordering::Relaxed)
}

impl<Tail: ?Sized> Deref for Operators<Tail> {
    type Target = Readers;

    fn deref(&self) -> &Readers {
        &self.readers
    }
}

impl<Tail: ?Sized> Drop for Operators<Tail> {
    fn drop(&mut self) {
        // SAFETY: the handle was leaked from a box in `new`, and is given back once.
        unsafe {
            gwb_sys::gwb_close(self.readers.handle());
            drop(Box::from_raw(self.readers.handle()));
        }
    }
}
