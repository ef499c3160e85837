//! What is to be said of a split that is refused since its points aren't whole: where the plane cuts edges, by how much the model would have to
//! be scaled, and which planes nearby would do.
use crate::features::told;
use crate::readers::{rows, values};
use crate::{Edge, Error, Readers, Solid};
pub use gwb_sys::NearPlane;
use std::fmt;
use std::ptr::{null_mut, NonNull};
use std::sync::Arc;

crate::rows::values! {
    /// A fraction by its least terms, of which the second is above zero.
    Fraction [Copy] { numerator: i128, denominator: i128 }
    /// Where a plane cuts an edge between its ends.
    EdgeCut [Copy] { edge: Edge, point: [Fraction; 3] }
}

impl Fraction {
    /// Whether it is a whole number.
    #[must_use]
    pub fn is_whole(self) -> bool {
        self.denominator == 1
    }
}

impl fmt::Display for Fraction {
    /// As `7/2`, or `7` where it is whole.
    fn fmt(&self, f: &mut fmt::Formatter<'_>) -> fmt::Result {
        if self.is_whole() { self.numerator.fmt(f) } else { write!(f, "{}/{}", self.numerator, self.denominator) }
    }
}

impl EdgeCut {
    /// Whether the point has whole coordinates.
    #[must_use]
    pub fn is_whole(&self) -> bool {
        self.point.iter().all(|part| part.is_whole())
    }
}

impl From<gwb_sys::EdgeCut> for EdgeCut {
    fn from(row: gwb_sys::EdgeCut) -> Self {
        let part = |at: usize| Fraction { numerator: row.numerators[at].into(), denominator: row.denominators[at].into() };
        Self { edge: Edge(row.edge), point: [part(0), part(1), part(2)] }
    }
}

/// What the library says of a cut. It is freed when it is dropped.
#[derive(Debug)]
struct Advice(NonNull<gwb_sys::Advice>);

// SAFETY: the library never changes it, and its memory is of a heap that all threads may use (gwb.h).
unsafe impl Send for Advice {}
unsafe impl Sync for Advice {}

// SAFETY, for all calls in this file: the pointer is one that gwb_off_lattice wrote, until it is dropped.
impl Drop for Advice {
    fn drop(&mut self) {
        unsafe { gwb_sys::gwb_advice_free(self.0.as_ptr()) }
    }
}

/// A cut of a solid by a plane, of which some points may not be whole.
#[derive(Clone, Debug)]
pub struct OffLattice {
    /// The solid.
    pub solid: Solid,
    /// The plane.
    pub plane: [i64; 4],
    /// Where the plane cuts edges, rising.
    pub cuts: Vec<EdgeCut>,
    /// The least by which the model must be multiplied for all points of the cut to be whole: 1 where they are; none where it passes 10^36.
    pub factor: Option<i128>,
    /// Whether the model times the factor stays within 1,000,000,000, and the plane in its range: then the plane a, b, c, d times the factor
    /// cuts it at whole points.
    pub fits: bool,
    /// The nearest parallel plane, where there is one, and then tilted ones, the nearest first.
    pub near: Vec<NearPlane>,
    advice: Arc<Advice>,
}

impl OffLattice {
    /// Lines of a script: comments, and the splits that would do, with the number for the solid above the plane. Empty where memory is refused.
    #[must_use]
    pub fn advice(&self, above: Solid) -> String {
        let write = |text, room| match unsafe { gwb_sys::gwb_advice_text(self.advice.0.as_ptr(), above.0, text, room) } {
            usize::MAX => 0,
            length => length,
        };
        String::from_utf8_lossy(&rows(write)).into_owned()
    }
}

impl Readers {
    /// What is to be said of the cut of a solid by a plane, with at most so many tilted planes nearby; where all points are whole, no near
    /// planes. It takes time by the edges of the solid for each of some 14,000 planes at most, of which nearly all are given up at their
    /// first edge.
    ///
    /// ```
    /// # use gwb::{Error, Refusal, Session, Solid};
    /// # let mut session = Session::new()?;
    /// let block = session.block(None, [0, 0, 0], [4, 4, 4])?;
    /// let plane = [2, 0, 0, -3];
    /// if let Err(Error::Refused { refusal: Refusal::NotLattice, .. }) = session.split(block, plane, None) {
    ///     let said = session.off_lattice(block, plane, 3)?;
    ///     assert_eq!((said.factor, said.near[0].plane), (Some(2), [1, 0, 0, -2]));
    ///     println!("{}", said.advice(Solid(2)));
    /// }
    /// # Ok::<(), Error>(())
    /// ```
    ///
    /// # Errors
    /// [`Error::Refused`]: `NoSolid`, `PlaneRange`; [`Error::Memory`]; [`Error::Stopped`].
    pub fn off_lattice(&self, solid: Solid, plane: [i64; 4], most: usize) -> Result<OffLattice, Error> {
        let (mut found, mut why) = (null_mut(), gwb_sys::Refusal::default());
        // SAFETY: the handle is open, and what is written to is of this function.
        told(unsafe { gwb_sys::gwb_off_lattice(self.handle(), solid.0, &plane, most, &mut found, &mut why) }, why)?;
        let advice = Arc::new(Advice(NonNull::new(found).ok_or(Error::Memory)?));
        Ok(OffLattice {
            solid,
            plane,
            cuts: values(|rows, room| unsafe { gwb_sys::gwb_advice_cuts(found, rows, room) }),
            factor: Some(i128::from(unsafe { gwb_sys::gwb_advice_factor(found) })).filter(|&factor| factor != 0),
            fits: unsafe { gwb_sys::gwb_advice_fits(found) },
            near: rows(|rows, room| unsafe { gwb_sys::gwb_advice_planes(found, rows, room) }),
            advice,
        })
    }
}
