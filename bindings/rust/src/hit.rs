//! What a feature met that was refused or isn't possible.
use crate::off_lattice::Fraction;
use crate::{Cause, Edge, Face, Loop, Readers, Solid, Vertex};

/// A thing of the model, or another number.
#[derive(Clone, Copy, Debug, PartialEq, Eq, Hash)]
#[non_exhaustive]
pub enum Met {
    /// A solid.
    Solid(Solid),
    /// A face.
    Face(Face),
    /// A loop.
    Loop(Loop),
    /// An edge.
    Edge(Edge),
    /// A vertex.
    Vertex(Vertex),
    /// A place in what was given, from 1 on.
    Place(u32),
    /// How many times as large all must be for what is made to be whole.
    Factor(u32),
}

/// What the last feature met.
#[derive(Clone, Copy, Debug, PartialEq, Eq)]
#[non_exhaustive]
pub struct Hit {
    /// Which cause of the misfit it is, or `None` where the misfit says all.
    pub cause: Option<Cause>,
    /// What was met; its number stands for Y in the text of the cause.
    pub met: Option<Met>,
    /// Where, or `None` where there is no such point.
    pub point: Option<[Fraction; 3]>,
}

/// A fraction in lowest terms; the denominator is above zero.
pub(crate) fn lowest(numerator: i128, denominator: i128) -> Fraction {
    let (mut divisor, mut rest) = (denominator, numerator.unsigned_abs() as i128);
    while rest != 0 {
        (divisor, rest) = (rest, divisor % rest);
    }
    Fraction { numerator: numerator / divisor, denominator: denominator / divisor }
}

impl Readers {
    /// What the last feature of the session met that was refused or isn't possible: `None` where that was made, or there was none.
    ///
    /// ```
    /// # fn main() -> Result<(), gwb::Error> {
    /// use gwb::{Cause, Edge, Face, Met, Session};
    /// let mut session = Session::new()?;
    /// session.block(None, [0, 0, 0], [8, 8, 8])?;
    /// assert!(session.pocket(Face(1), &[[1, 1, 8], [9, 1, 8], [1, 5, 8]], 2).is_err());
    /// let hit = session.hit().unwrap();
    /// assert_eq!(hit.cause, Some(Cause::EdgeCrossed));
    /// assert!(matches!(hit.met, Some(Met::Edge(_))));
    /// # Ok(())
    /// # }
    /// ```
    #[must_use]
    pub fn hit(&self) -> Option<Hit> {
        let mut row = gwb_sys::HitRow::default();
        // SAFETY: the handle is one of a session, and the row is written or left.
        if !unsafe { gwb_sys::gwb_hit(self.handle(), &mut row) } {
            return None;
        }
        let met = match (row.kind, row.number) {
            (_, 0) => None,
            (0, number) => Some(Met::Solid(Solid(number))),
            (1, number) => Some(Met::Face(Face(number))),
            (2, number) => Some(Met::Loop(Loop(number))),
            (3, number) => Some(Met::Edge(Edge(number))),
            (4, number) => Some(Met::Vertex(Vertex(number))),
            (5, number) => Some(Met::Place(number)),
            (6, number) => Some(Met::Factor(number)),
            _ => None,
        };
        let scale = i128::from(row.scale);
        let point = (scale != 0).then(|| row.point.map(|part| lowest(part.into(), scale)));
        Some(Hit { cause: Cause::from_number(row.cause), met, point })
    }
}
