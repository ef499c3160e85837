//! What is held of each number, and what commands make, as values.
use crate::{Edge, Face, HalfEdge, Loop, Solid, Vertex};

pub use gwb_sys::{Counts, Point};

/// Makes structs whose fields are open to all. Where `Copy` stands in the brackets they have it, and `Hash`.
macro_rules! values {
    ($($(#[$doc:meta])* $name:ident [$($trait:ident)?] { $($(#[$field_doc:meta])* $field:ident: $of:ty),+ $(,)? })+) => {
        $(
            $(#[$doc])*
            #[derive(Clone, Debug, PartialEq, Eq)]
            $(#[derive($trait, Hash)])?
            #[allow(missing_docs)]
            pub struct $name {
                $($(#[$field_doc])* pub $field: $of),+
            }
        )+
    };
}
pub(crate) use values;

values! {
    /// The faces of a block: its top and bottom, where z is greatest and least, and its sides, where y is least, x greatest, y greatest, x least.
    Block [Copy] { top: Face, bottom: Face, sides: [Face; 4] }
    /// The faces of a lamina: round the front its points run counterclockwise as seen from outside.
    Lamina [Copy] { front: Face, back: Face }
    /// What is made by [`mvfs`](crate::Operators::mvfs).
    NewSolid [Copy] { solid: Solid, face: Face, of_loop: Loop, vertex: Vertex }
    /// What is made by [`mef`](crate::Operators::mef).
    NewFace [Copy] { edge: Edge, face: Face, of_loop: Loop }
    /// The plane of a face: a x + b y + c z + d is 0 on it. (a, b, c) is as long as twice the face's area, and points out of a solid that isn't
    /// inside out.
    Plane [Copy] {
        a: i128,
        b: i128,
        c: i128,
        d: i128,
        /// Whether all vertices of the face lie on the plane.
        flat: bool
    }
}

impl From<gwb_sys::Plane> for Plane {
    fn from(wide: gwb_sys::Plane) -> Self {
        Self { a: wide.a.into(), b: wide.b.into(), c: wide.c.into(), d: wide.d.into(), flat: wide.flat != 0 }
    }
}

/// Makes values of rows of the same name and fields that the library writes.
macro_rules! rows {
    ($($(#[$doc:meta])* $name:ident { $($(#[$field_doc:meta])* $field:ident: $of:ident),+ })+) => {
        values! { $($(#[$doc])* #[derive(Default)] $name [Copy] { $($(#[$field_doc])* $field: $of),+ })+ }
        $(
            impl From<gwb_sys::$name> for $name {
                fn from(row: gwb_sys::$name) -> Self {
                    Self { $($field: $of(row.$field)),+ }
                }
            }
        )+
    };
}

rows! {
    /// A face: its solid and its outer loop.
    FaceRow { solid: Solid, outer_loop: Loop }
    /// An edge, by its vertices.
    EdgeRow {
        /// Where its first half-edge starts.
        from: Vertex,
        /// Where its second half-edge starts.
        to: Vertex
    }
    /// A half-edge, and where it stands.
    HalfEdgeRow {
        half_edge: HalfEdge,
        /// The vertex at which it starts.
        start: Vertex,
        /// The half-edge after it in its loop.
        next: HalfEdge,
        of_loop: Loop,
        face: Face
    }
}
