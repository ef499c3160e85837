//! Faces and edges by where they lie, exactly.
use crate::features::told;
use crate::hit::lowest;
use crate::off_lattice::Fraction;
use crate::readers::number_of;
use crate::{Edge, Error, Face, Id, Point, Readers, Solid};
use gwb_sys::{Gwb, Refusal};
use std::ptr::null;

/// Which faces are sought: those for which all holds that is said.
///
/// ```
/// # use gwb::{Error, FaceQuery, Session};
/// # let mut session = Session::new()?;
/// session.block(None, [0, 0, 0], [4, 4, 2])?;
/// let up = FaceQuery { normal: Some([0, 0, 1].into()), ..FaceQuery::default() };
/// let large = FaceQuery { area: Some([16, 1]), ..FaceQuery::default() };
/// assert_eq!((session.find_faces(&up)?.len(), session.find_faces(&large)?.len()), (1, 2));
/// # Ok::<(), Error>(())
/// ```
#[derive(Clone, Copy, Debug, Default, PartialEq, Eq)]
pub struct FaceQuery {
    /// Of the solid.
    pub solid: Option<Solid>,
    /// Wholly in the plane a x + b y + c z + d = 0, whichever way they look.
    pub plane: Option<[i64; 4]>,
    /// Flat, and looking this way.
    pub normal: Option<Point>,
    /// Flat, with the point inside or on an edge.
    pub containing: Option<Point>,
    /// Flat, and as large as the first number divided by the second, exactly.
    pub area: Option<[u64; 2]>,
}

/// Which edges are sought, alike.
#[derive(Clone, Copy, Debug, Default, PartialEq, Eq)]
pub struct EdgeQuery {
    /// Of the solid.
    pub solid: Option<Solid>,
    /// With one half-edge in each of the faces.
    pub between: Option<[Face; 2]>,
    /// Along the vector, one way or the other.
    pub along: Option<Point>,
    /// As long as the first number divided by the second, exactly.
    pub length: Option<[u64; 2]>,
}

/// Two faces that cross or touch.
#[derive(Clone, Copy, Debug, PartialEq, Eq)]
#[non_exhaustive]
pub struct Crossing {
    /// Of one solid the face of the lesser number, of two that of the first one.
    pub first: Face,
    /// The other one.
    pub second: Face,
    /// A point that both have.
    pub point: [Fraction; 3],
}

fn pointer<T>(value: &Option<T>) -> *const T {
    value.as_ref().map_or(null(), |value| value)
}

const NO_SOLID: Error = Error::Refused { refusal: crate::Refusal::NoSolid, value: 0 };

// SAFETY, for all calls in this file: as in readers.rs; what a query points to lives until the call returns.
impl Readers {
    /// The faces that are sought, rising.
    ///
    /// # Errors
    /// [`Error::Refused`] with `NoSolid`; [`Error::NoCall`] where a plane or a direction is zero, or part of a ratio is; [`Error::Memory`];
    /// [`Error::Stopped`].
    pub fn find_faces(&self, query: &FaceQuery) -> Result<Vec<Face>, Error> {
        let row = gwb_sys::FaceQuery {
            solid: number_of(query.solid).ok_or(NO_SOLID)?,
            plane: pointer(&query.plane),
            normal: pointer(&query.normal),
            containing: pointer(&query.containing),
            area: pointer(&query.area),
        };
        self.sought(|g, buf, room, count, why| unsafe { gwb_sys::gwb_find_faces(g, &row, buf, room, count, why) })
    }

    /// The edges that are sought, rising.
    ///
    /// # Errors
    /// As [`find_faces`](Self::find_faces), and `NoFace`.
    pub fn find_edges(&self, query: &EdgeQuery) -> Result<Vec<Edge>, Error> {
        if query.between.map_or(false, |faces| faces.contains(&Face(0))) {
            return Err(Error::NoCall); // (for the call two of them would be any)
        }
        let row = gwb_sys::EdgeQuery {
            solid: number_of(query.solid).ok_or(NO_SOLID)?,
            between: query.between.map_or([0; 2], |faces| faces.map(|face| face.0)),
            along: pointer(&query.along),
            length: pointer(&query.length),
        };
        self.sought(|g, buf, room, count, why| unsafe { gwb_sys::gwb_find_edges(g, &row, buf, room, count, why) })
    }

    /// The pairs of faces of a solid that have a point in common which lies on no edge or vertex of both, rising; or of a face of it and one of another solid
    /// that have any.
    ///
    /// # Errors
    /// [`Error::Refused`] with `NoSolid` or `NotFlat`; [`Error::Memory`]; [`Error::Stopped`].
    pub fn find_crossings(&self, solid: Solid, other: Option<Solid>) -> Result<Vec<Crossing>, Error> {
        let beyond = number_of(other).ok_or(NO_SOLID)?;
        let found: Vec<gwb_sys::Crossing> =
            self.rows(|g, buf, room, count, why| unsafe { gwb_sys::gwb_find_crossings(g, solid.0, beyond, buf, room, count, why) })?;
        let crossing = |row: gwb_sys::Crossing| Crossing {
            first: Face(row.first),
            second: Face(row.second),
            point: row.point.map(|part| lowest(part.into(), row.scale.into())),
        };
        Ok(found.into_iter().map(crossing).collect())
    }

    /// The numbers that a query finds.
    fn sought<N: Id>(&self, call: impl Fn(*mut Gwb, *mut u32, usize, *mut usize, *mut Refusal) -> u32) -> Result<Vec<N>, Error> {
        Ok(self.rows(call)?.into_iter().map(N::from_number).collect())
    }

    /// What a query finds, which is asked for again where there is more than room.
    fn rows<Row: Clone + Default>(&self, call: impl Fn(*mut Gwb, *mut Row, usize, *mut usize, *mut Refusal) -> u32) -> Result<Vec<Row>, Error> {
        let (mut found, mut count, mut why) = (Vec::new(), 64, Refusal::default());
        while count > found.len() {
            found.resize(count, Row::default());
            told(call(self.handle(), found.as_mut_ptr(), found.len(), &mut count, &mut why), why)?;
        }
        found.truncate(count);
        Ok(found)
    }
}
