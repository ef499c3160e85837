//! Numbers as types of their own, so that a vertex is not taken for a face.
use std::fmt;

/// What has numbers: [`Solid`], [`Face`], [`Loop`], [`Edge`] and [`Vertex`].
pub trait Id: Copy + Ord + sealed::Kind {
    /// The number.
    fn number(self) -> u32;
    /// What has this number, if anything has.
    fn from_number(number: u32) -> Self;
}

pub(crate) mod sealed {
    /// The kinds of gwb.h.
    pub trait Kind {
        const KIND: u32;
    }
}

macro_rules! ids {
    ($($(#[$doc:meta])* $name:ident = $kind:literal)+) => {
        $(
            $(#[$doc])*
            #[derive(Clone, Copy, Debug, Default, PartialEq, Eq, PartialOrd, Ord, Hash)]
            #[repr(transparent)]
            pub struct $name(
                /// The number: 1 to 1,000,000 where it is in use, and 0 for none.
                pub u32,
            );

            impl Id for $name {
                fn number(self) -> u32 {
                    self.0
                }

                fn from_number(number: u32) -> Self {
                    Self(number)
                }
            }

            impl sealed::Kind for $name {
                const KIND: u32 = $kind;
            }

            impl fmt::Display for $name {
                fn fmt(&self, f: &mut fmt::Formatter<'_>) -> fmt::Result {
                    self.0.fmt(f)
                }
            }
        )+
    };
}

ids! {
    /// The number of a solid.
    Solid = 0
    /// The number of a face.
    Face = 1
    /// The number of a loop: the outer loop of a face, or a ring of it.
    Loop = 2
    /// The number of an edge.
    Edge = 3
    /// The number of a vertex.
    Vertex = 4
}

/// One of the two half-edges of an edge: [`plus`] starts at the vertex that the edge was drawn from, [`minus`] at its other end.
///
/// A number is none, so neither is an edge:
///
/// ```compile_fail,E0308
/// # let mut session = gwb::Session::new().unwrap();
/// session.kev(7);
/// ```
#[derive(Clone, Copy, Debug, Default, PartialEq, Eq, PartialOrd, Ord, Hash)]
#[repr(transparent)]
pub struct HalfEdge(pub(crate) u32);

impl HalfEdge {
    /// As the calls of gwb.h have it: the edge's number times 2, and 1 more for the edge's second.
    #[must_use]
    pub const fn from_code(code: u32) -> Self {
        Self(code)
    }

    /// The same, back.
    #[must_use]
    pub const fn code(self) -> u32 {
        self.0
    }

    /// Its edge.
    #[must_use]
    pub const fn edge(self) -> Edge {
        Edge(self.0 / 2)
    }

    /// Whether it is the second one of its edge.
    #[must_use]
    pub const fn is_second(self) -> bool {
        self.0 % 2 != 0
    }

    /// The other half-edge of its edge.
    #[must_use]
    pub const fn twin(self) -> Self {
        Self(self.0 ^ 1)
    }
}

impl fmt::Display for HalfEdge {
    /// As a script writes it: `+7`, `-7`.
    fn fmt(&self, f: &mut fmt::Formatter<'_>) -> fmt::Result {
        write!(f, "{}{}", if self.is_second() { '-' } else { '+' }, self.edge())
    }
}

/// Where an edge can be drawn from: the start of a [`HalfEdge`], or the one corner of a [`lone`] loop.
#[derive(Clone, Copy, Debug, PartialEq, Eq, Hash)]
pub struct Corner(u32);

impl Corner {
    pub(crate) const fn code(self) -> u32 {
        self.0
    }
}

impl From<HalfEdge> for Corner {
    fn from(half_edge: HalfEdge) -> Self {
        Self(half_edge.0)
    }
}

/// The first half-edge of an edge. Of an edge above 2^30 - 1 it is that edge's, which no command takes.
#[must_use]
pub const fn plus(edge: Edge) -> HalfEdge {
    HalfEdge(2 * if edge.0 < gwb_sys::GREATEST_EDGE { edge.0 } else { gwb_sys::GREATEST_EDGE })
}

/// The second half-edge of an edge, alike.
#[must_use]
pub const fn minus(edge: Edge) -> HalfEdge {
    plus(edge).twin()
}

/// The one corner of a loop that has a vertex and no edge. Of a loop above 2^31 - 1 it is that of 2^31 - 1, which no command takes.
#[must_use]
pub const fn lone(of_loop: Loop) -> Corner {
    Corner(if of_loop.0 < 1 << 31 { 1 << 31 | of_loop.0 } else { u32::MAX })
}
