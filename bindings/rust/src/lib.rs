//! The Geometric WorkBench in process: a boundary-representation solid modeller with unlimited undo.
//!
//! A [`Session`] holds one model. Its commands are those of the script language (docs/SCRIPT.md), with the same arguments in the same order
//! and the same conditions; readers walk the model without text.
//!
//! ```
//! use gwb::{Error, Refusal, Session};
//!
//! let mut session = Session::new()?;
//! let block = session.block(None, [0, 0, 0], [4, 4, 4])?;
//! assert_eq!(session.six_volumes(block)?, 6 * 64);
//! assert_eq!(session.kvfs(block), Err(Error::Refused { refusal: Refusal::NotBare, value: 1 }));
//! for face in session.faces(block) {
//!     println!("face {face} has the edges {:?} and the plane {:?}", session.edges_of(face).collect::<Vec<_>>(), session.plane(face)?);
//! }
//! session.undo()?;
//! assert_eq!(session.faces(block).count(), 0);
//! # Ok::<(), Error>(())
//! ```
//!
//! Numbers are types of their own ([`Solid`], [`Face`], [`Loop`], [`Edge`], [`Vertex`]), from 1 to 1,000,000; coordinates are whole numbers
//! within 1,000,000,000 either way; what is outside is refused. What a step is, is the caller's affair: [`mm!`] takes it as 1/1000 mm. A [`HalfEdge`] is one of the two sides of an edge: [`plus`], [`minus`]. A
//! [`Corner`] is where one starts, or [`lone`] for the one corner of a loop that has a vertex and no edge.
//!
//! The crate links `libgwb.a`, by `gwb-sys`: from bindings/out, from the folder that the environment variable `GWB_LIB_DIR` names, or from
//! where pkg-config finds it; with `GWB_DYNAMIC` set it links `libgwb.so`.
#![deny(unsafe_op_in_unsafe_fn)]
#![warn(missing_docs)]
#![allow(clippy::doc_markdown)] // the WorkBench is so called

mod draft;
mod error;
mod exporting;
mod features;
mod history;
mod hit;
mod ids;
#[doc(hidden)]
pub mod lengths;
mod named;
mod off_lattice;
mod operators;
mod readers;
mod refusal;
mod rows;
mod selection;
mod session;

pub use draft::{Draft, Mark};
pub use error::Error;
pub use exporting::{ExportError, Step};
pub use features::{circle, Circle, Copied, Hole, Merger, Motion, Notch, Pad, Parts, Pocket, Polyhedron, Profile, Renumbered, Ring, Split};
pub use gwb_sys::Heap;
pub use history::{Became, Change, Changes, ChangesOf, Heir, Noted, Notes};
pub use hit::{Hit, Met};
pub use ids::{lone, minus, plus, Corner, Edge, Face, HalfEdge, Id, Loop, Solid, Vertex};
pub use off_lattice::{EdgeCut, Fraction, NearPlane, OffLattice};
pub use operators::Operators;
pub use readers::{Numbers, Readers, Shared};
pub use refusal::{Cause, Misfit, Refusal};
pub use rows::{Block, Counts, EdgeRow, FaceRow, HalfEdgeRow, Lamina, NewFace, NewSolid, Plane, Point};
pub use selection::{Crossing, EdgeQuery, FaceQuery};
pub use session::Session;

/// The version of the library that is linked: 3.0.0 is `(3, 0, 0)`.
#[must_use]
pub fn version() -> (u32, u32, u32) {
    // SAFETY: the call takes nothing and touches nothing.
    let version = unsafe { gwb_sys::gwb_version() };
    (version / 10_000, version / 100 % 100, version % 100)
}
