//! Features, by the calls of gwb_features.h. Each is one command of a session, or steps of a draft; what isn't possible is
//! [`Error::Impossible`], or refused as a command would be, and then nothing has changed.
use crate::rows::values;
use crate::{minus, plus, Edge, Error, Face, HalfEdge, Id, Loop, Misfit, Operators, Point, Solid, Vertex};
use gwb_sys::{kind, Gwb, OutlineMade, Refusal};
use std::collections::BTreeMap;
use std::ops::Deref;

/// Where points go: each axis to an axis, either way round, and then by a vector.
#[derive(Clone, Copy, Debug, PartialEq, Eq)]
pub struct Motion(gwb_sys::Motion);

impl Default for Motion {
    /// All points stay.
    fn default() -> Self {
        Self(gwb_sys::Motion { axes: [1, 2, 3], by: Point::default() })
    }
}

impl Motion {
    /// By a vector.
    pub fn by(by: impl Into<Point>) -> Self {
        Self(gwb_sys::Motion { by: by.into(), ..Self::default().0 })
    }

    /// By so many quarters about the axis through the origin (0 x, 1 y, 2 z): counterclockwise as seen from where it points.
    #[must_use]
    pub fn quarter_turns(axis: usize, times: usize) -> Self {
        let (first, second) = ((axis + 1) % 3, (axis + 2) % 3);
        let mut quarter = Self::default();
        quarter.0.axes.swap(first, second);
        quarter.0.axes[first] *= -1;
        (0..times % 4).fold(Self::default(), |turned, _| turned.then(quarter))
    }

    /// At the plane through the origin across an axis.
    #[must_use]
    pub fn mirror(axis: usize) -> Self {
        let mut motion = Self::default();
        motion.0.axes[axis % 3] *= -1;
        motion
    }

    /// This motion, and then another.
    #[must_use]
    pub fn then(self, next: Self) -> Self {
        Self(gwb_sys::Motion { axes: next.0.axes.map(|axis| axis.signum() * self.0.axes[place(axis)]), by: next.moved(self.0.by) })
    }

    /// Where a point goes.
    #[must_use]
    pub fn moved(self, point: Point) -> Point {
        let parts: [i64; 3] = point.into();
        Point::from(self.0.axes.map(|axis| i64::from(axis.signum()) * parts[place(axis)])) + self.0.by
    }

    /// Whether left becomes right.
    #[must_use]
    pub fn is_mirror(self) -> bool {
        let is_even = place(self.0.axes[1]) == (place(self.0.axes[0]) + 1) % 3;
        (self.0.axes.iter().product::<i32>() < 0) == is_even
    }
}

/// What of a polygon lies on its circle.
#[derive(Clone, Copy, Debug, PartialEq, Eq)]
pub enum Circle {
    /// The corners.
    Corners,
    /// The flats, none of which lies inside the circle, so that a bolt passes.
    Flats,
    /// Neither: their areas are equal.
    Area,
}

/// The corners of a polygon for a circle around the origin, x and y of each, counterclockwise from the first axis on: the multiples of `grain` nearest to
/// those of a regular polygon. None where `sides` isn't from 3 to 1,000,000, or the diameter or the grain from 1 to 4,000,000,000.
#[must_use]
pub fn circle(diameter: i64, sides: u32, fit: Circle, grain: i64) -> Option<Vec<[i64; 2]>> {
    let mut corners = room::<[i64; 2]>(sides);
    // SAFETY: there is room for x and y of each corner; where there is none, nothing is written.
    unsafe { gwb_sys::gwb_circle(diameter, grain, sides, fit as u32, corners.as_mut_ptr().cast()) }.then_some(corners)
}

/// The place of an axis among the three.
fn place(axis: i32) -> usize {
    axis.unsigned_abs() as usize - 1
}

values! {
    /// What [`profile`](Operators::profile) makes: the face that was moved, the one that stayed, and for each point the side from it to the next.
    Profile [] { solid: Solid, far: Face, base: Face, sides: Vec<Face> }
    /// What [`polyhedron`](Operators::polyhedron) makes: the first of its vertices and of its faces, which the others follow one by one.
    Polyhedron [Copy] { solid: Solid, first_vertex: Vertex, first_face: Face }
    /// What [`union`](Operators::union), [`subtract`](Operators::subtract), [`intersect`](Operators::intersect) and [`join_faces`](Operators::join_faces)
    /// make: the solid that stays, and faces that became one with others, or several, each with one that it went into.
    Merger [] { solid: Solid, merged: Vec<(Face, Face)> }
    /// What [`ring`](Operators::ring) makes: the face inside, the ring around it, and for each point the edge to the next, and the vertex there.
    Ring [] { face: Face, of_loop: Loop, edges: Vec<Edge>, vertices: Vec<Vertex> }
    /// What [`pocket`](Operators::pocket) and [`boss`](Operators::boss) make: the floor or top, the ring in the face, and for each point the side.
    Pocket [] { face: Face, of_loop: Loop, sides: Vec<Face> }
    /// What [`hole`](Operators::hole) and [`drill`](Operators::drill) make: the face that it ends in, the ring at its start, for each point the side,
    /// and the points.
    Hole [] { other: Face, of_loop: Loop, sides: Vec<Face>, points: Vec<Point> }
    /// What a notch, slot, groove or shoulder leaves: its floor, none where it goes through, and its walls.
    Notch [] { floor: Vec<Face>, walls: Vec<Face> }
    /// What [`pad`](Operators::pad) makes: its top, and its walls.
    Pad [] { top: Vec<Face>, walls: Vec<Face> }
    /// What [`split_solid`](Operators::split_solid) and [`cut`](Operators::cut) make: the solid above the plane, and the faces that close both parts.
    Split [] { above: Solid, lower_caps: Vec<Face>, upper_caps: Vec<Face> }
}

/// A copy of a solid, and its [`Parts`].
#[derive(Clone, Debug, PartialEq, Eq)]
pub struct Copied {
    /// The copy.
    pub solid: Solid,
    parts: Parts,
}

/// What all numbers have become: solids, and [`Parts`].
#[derive(Clone, Debug, PartialEq, Eq)]
pub struct Renumbered(Parts);

impl Renumbered {
    /// What a solid is now: none of what wasn't there.
    #[must_use]
    pub fn solid(&self, of: Solid) -> Option<Solid> {
        self.0.made(of)
    }

    /// The same the other way, for what follows an undo.
    #[must_use]
    pub fn back(&self) -> Self {
        let turned = |pairs: BTreeMap<u32, u32>| pairs.into_iter().map(|(old, new)| (new, old)).collect();
        Self(Parts(self.0 .0.clone().map(turned)))
    }
}

macro_rules! has_parts {
    ($($name:ident.$parts:tt)+) => {
        $(impl Deref for $name {
            type Target = Parts;

            fn deref(&self) -> &Parts {
                &self.$parts
            }
        })+
    };
}
has_parts! { Copied.parts Renumbered.0 }

/// Which of the parts that were made are of which, by the kinds of [`Id`].
#[derive(Clone, Debug, PartialEq, Eq)]
pub struct Parts([BTreeMap<u32, u32>; 5]);

impl Parts {
    fn made<N: Id>(&self, of: N) -> Option<N> {
        self.0[N::KIND as usize].get(&of.number()).map(|&number| N::from_number(number))
    }

    /// The face that is of this one: none of another one.
    #[must_use]
    pub fn face(&self, of: Face) -> Option<Face> {
        self.made(of)
    }

    /// The loop alike.
    #[must_use]
    pub fn of_loop(&self, of: Loop) -> Option<Loop> {
        self.made(of)
    }

    /// The edge alike.
    #[must_use]
    pub fn edge(&self, of: Edge) -> Option<Edge> {
        self.made(of)
    }

    /// The half-edge from the vertex of this one to that of its other end.
    #[must_use]
    pub fn half_edge(&self, of: HalfEdge) -> Option<HalfEdge> {
        self.edge(of.edge()).map(if of.is_second() { minus } else { plus })
    }

    /// The vertex alike.
    #[must_use]
    pub fn vertex(&self, of: Vertex) -> Option<Vertex> {
        self.made(of)
    }
}

/// Lists of enum gwb_list.
#[repr(u32)]
enum List { Floor, Walls, Faces, Loops, Edges, Vertices, LowerCaps = 7, UpperCaps, Into, Solids }

/// More points of a polygon, and more solids of a row, are refused before any is written.
const MOST: u32 = 1_000_000;

fn listed(points: &[impl Copy + Into<Point>]) -> Vec<Point> {
    points.iter().map(|&at| at.into()).collect()
}

/// Room for what a call writes of so many.
fn room<T: Clone + Default>(count: u32) -> Vec<T> {
    vec![T::default(); if count <= MOST { count as usize } else { 0 }]
}

/// What the kind of an answer says that has a refusal of its own.
pub(crate) fn told(answer: u32, why: Refusal) -> Result<(), Error> {
    Err(match answer {
        kind::OK => return Ok(()),
        kind::REFUSED => crate::operators::named(why),
        kind::IMPOSSIBLE => Misfit::from_number(why.number).map_or(Error::Unknown(why.number), |misfit| Error::Impossible { misfit, value: why.value }),
        kind::MEMORY => Error::Memory,
        kind::NO_CALL => Error::NoCall,
        kind::STOPPED => Error::Stopped,
        _ => Error::Unknown(answer),
    })
}

// SAFETY, for all calls in this file: as in operators.rs; lists have as many items as there are points.
impl Operators {
    /// Gives a feature.
    pub(crate) fn feature(&mut self, call: impl FnOnce(*mut Gwb, *mut Refusal) -> u32) -> Result<(), Error> {
        let (before, mut why) = (self.all_greatest(), Refusal::default());
        told(call(self.handle(), &mut why), why).map(|()| self.told_all(before))
    }

    fn made<N>(&self, list: List, id: fn(u32) -> N) -> Vec<N> {
        let list = list as u32;
        crate::readers::rows(|to, room| unsafe { gwb_sys::gwb_made(self.handle(), list, to, room) }).into_iter().map(id).collect()
    }

    /// A list of old and new numbers.
    fn made_pairs<N: Copy, Pairs: FromIterator<(N, N)>>(&self, list: List, id: fn(u32) -> N) -> Pairs {
        self.made(list, id).chunks_exact(2).map(|pair| (pair[0], pair[1])).collect()
    }

    fn made_parts(&self) -> Parts {
        Parts([List::Solids, List::Faces, List::Loops, List::Edges, List::Vertices].map(|list| self.made_pairs(list, |number| number)))
    }

    fn made_notch(&self) -> Notch {
        Notch { floor: self.made(List::Floor, Face), walls: self.made(List::Walls, Face) }
    }

    fn merger(&self, solid: Solid) -> Merger {
        Merger { solid, merged: self.made_pairs(List::Into, Face) }
    }

    fn made_split(&self, above: Solid) -> Split {
        Split { above, lower_caps: self.made(List::LowerCaps, Face), upper_caps: self.made(List::UpperCaps, Face) }
    }
}

/// Makes a method of each row: after its arguments what comes back, what is made ready, what the call of the library is given, and what that gives.
macro_rules! features {
    ($(
        $(#[$doc:meta])*
        $name:ident($this:ident $(, $argument:ident: $of:ty)*) -> $back:ty {
            $(let $ready:pat = $value:expr;)*
            gwb_sys::$call:ident($($given:expr),*) => $made:expr
        }
    )+) => {
        #[allow(clippy::missing_errors_doc)] // (as gwb_features.h says)
        impl Operators {
            $(
                $(#[$doc])*
                pub fn $name(&mut self, $($argument: $of),*) -> Result<$back, Error> {
                    let $this = self;
                    $(let $ready = $value;)*
                    $this.feature(|g, why| unsafe { gwb_sys::$call(g, $($given,)* why) })?;
                    Ok($made)
                }
            )+
        }
    };
}

// (numbers are transparent u32)
features! {
    /// A solid goes, with all its parts.
    kill_solid(this, solid: Solid) -> () { gwb_sys::gwb_kill_solid(solid.0) => () }
    /// A new solid, that is another moved; its numbers are free ones, above all in use as long as there are any.
    copy_solid(this, solid: Solid, motion: Motion) -> Copied {
        let mut made = 0;
        gwb_sys::gwb_copy_solid(solid.0, &motion.0, &mut made) => Copied { solid: Solid(made), parts: this.made_parts() }
    }
    /// A solid lies elsewhere, with the numbers that it has.
    move_solid(this, solid: Solid, motion: Motion) -> () { gwb_sys::gwb_move_solid(solid.0, &motion.0) => () }
    /// A row of so many solids, of which this is the first, each by the step from the one before it: those that are new.
    pattern(this, solid: Solid, count: u32, step: impl Into<Point>) -> Vec<Solid> {
        let mut made = room::<Solid>(count.saturating_sub(1));
        gwb_sys::gwb_pattern(solid.0, count, &step.into(), made.as_mut_ptr().cast()) => made
    }
    /// So many solids around the axis through a point (0 x, 1 y, 2 z), of which this is the first, each so many quarter turns on from the one before it:
    /// those that are new.
    pattern_around(this, solid: Solid, count: u32, axis: u32, quarters: u32, about: impl Into<Point>) -> Vec<Solid> {
        let mut made = room::<Solid>(count.saturating_sub(1));
        gwb_sys::gwb_pattern_around(solid.0, count, axis, quarters, &about.into(), made.as_mut_ptr().cast()) => made
    }
    /// All coordinates times the factor; numbers stay.
    scale(this, factor: i64) -> () { gwb_sys::gwb_scale(factor) => () }
    /// All numbers become as low as they can be, in their order: where none is left for what comes. [`Notes`](crate::Notes) follow by `renumbered`.
    renumber(this) -> Renumbered { gwb_sys::gwb_renumber() => Renumbered(this.made_parts()) }
    /// The solids become the first, glued along the faces that match.
    glue_all(this, solids: &[Solid]) -> () { gwb_sys::gwb_glue_all(solids.as_ptr().cast(), solids.len()) => () }
    /// What [`split`](crate::Operators::split) does, with the faces that close both parts.
    split_solid(this, solid: Solid, plane: [i64; 4], above: impl Into<Option<Solid>>) -> Split {
        let above = this.named(above);
        gwb_sys::gwb_split_solid(solid.0, &plane, above.0) => this.made_split(above)
    }
    /// The same, also where split refuses the plane for what it touches or how it runs through faces and holes.
    cut(this, solid: Solid, plane: [i64; 4], above: impl Into<Option<Solid>>) -> Split {
        let above = this.named(above);
        gwb_sys::gwb_cut(solid.0, &plane, above.0) => this.made_split(above)
    }
    /// What lies above the plane goes: the faces that close what is left.
    trim(this, solid: Solid, plane: [i64; 4]) -> Vec<Face> { gwb_sys::gwb_trim(solid.0, &plane) => this.made(List::LowerCaps, Face) }
    /// The solids, which may cross, touch or lie apart, become the first.
    union(this, solids: &[Solid]) -> Merger {
        gwb_sys::gwb_union(solids.as_ptr().cast(), solids.len()) => this.merger(solids[0])
    }
    /// The solid becomes what is left of it without the tools, which go.
    subtract(this, solid: Solid, tools: &[Solid]) -> Merger {
        gwb_sys::gwb_subtract(solid.0, tools.as_ptr().cast(), tools.len()) => this.merger(solid)
    }
    /// The first of the solids becomes what all have in common.
    intersect(this, solids: &[Solid]) -> Merger {
        gwb_sys::gwb_intersect(solids.as_ptr().cast(), solids.len()) => this.merger(solids[0])
    }
    /// Faces of one plane beside each other in a solid become one, and so do edges that go on straight.
    join_faces(this, solid: Solid) -> Merger { gwb_sys::gwb_join_faces(solid.0) => this.merger(solid) }
    /// Each connected component of a solid becomes a solid: all of them, by their least faces; the first keeps the number.
    separate(this, solid: Solid) -> Vec<Solid> {
        gwb_sys::gwb_separate(solid.0) => this.made_pairs::<_, Vec<_>>(List::Solids, Solid).into_iter().map(|(_, part)| part).collect()
    }
    /// A new solid: the outline through the points, moved along the vector.
    profile(this, solid: impl Into<Option<Solid>>, points: &[impl Copy + Into<Point>], along: impl Into<Point>) -> Profile {
        let (solid, mut made, mut sides) = (this.named(solid), gwb_sys::ProfileMade::default(), vec![Face(0); points.len()]);
        gwb_sys::gwb_profile(solid.0, listed(points).as_ptr(), points.len(), &along.into(), &mut made, sides.as_mut_ptr().cast())
            => Profile { solid, far: Face(made.far), base: Face(made.base), sides }
    }
    /// A new solid: points, and faces of so many corners each, by their places among the points from 0 on, counterclockwise as seen from outside.
    /// [`Error::NoCall`] where these aren't sound as a solid.
    polyhedron(this, solid: impl Into<Option<Solid>>, points: &[impl Copy + Into<Point>], corners: &[u32], sizes: &[u32]) -> Polyhedron {
        let (solid, points, mut made) = (this.named(solid), listed(points), gwb_sys::PolyhedronMade::default());
        let faces = if sizes.iter().map(|&size| size as usize).sum::<usize>() == corners.len() { sizes.len() } else { 0 };
        gwb_sys::gwb_polyhedron(solid.0, points.as_ptr(), points.len(), corners.as_ptr(), sizes.as_ptr(), faces, &mut made)
            => Polyhedron { solid, first_vertex: Vertex(made.first_vertex), first_face: Face(made.first_face) }
    }
    /// A face inside the face, with the outline through the points, and a ring around it.
    ring(this, face: Face, points: &[impl Copy + Into<Point>]) -> Ring {
        let (mut made, mut edges, mut vertices) = (OutlineMade::default(), vec![Edge(0); points.len()], vec![Vertex(0); points.len()]);
        gwb_sys::gwb_ring(face.0, listed(points).as_ptr(), points.len(), &mut made, edges.as_mut_ptr().cast(), vertices.as_mut_ptr().cast())
            => Ring { face: Face(made.face), of_loop: Loop(made.of_loop), edges, vertices }
    }
    /// A pocket so deep behind the outline in the face.
    pocket(this, face: Face, points: &[impl Copy + Into<Point>], depth: i64) -> Pocket {
        let (points, mut made, mut sides) = (listed(points), OutlineMade::default(), vec![Face(0); points.len()]);
        gwb_sys::gwb_pocket(face.0, points.as_ptr(), points.len(), depth, &mut made, sides.as_mut_ptr().cast())
            => Pocket { face: Face(made.face), of_loop: Loop(made.of_loop), sides }
    }
    /// A boss so high on the outline in the face.
    boss(this, face: Face, points: &[impl Copy + Into<Point>], height: i64) -> Pocket {
        let (points, mut made, mut sides) = (listed(points), OutlineMade::default(), vec![Face(0); points.len()]);
        gwb_sys::gwb_boss(face.0, points.as_ptr(), points.len(), height, &mut made, sides.as_mut_ptr().cast())
            => Pocket { face: Face(made.face), of_loop: Loop(made.of_loop), sides }
    }
    /// A pocket by a vector into the solid, which may lean.
    pocket_along(this, face: Face, points: &[impl Copy + Into<Point>], along: impl Into<Point>) -> Pocket {
        let (points, mut made, mut sides) = (listed(points), OutlineMade::default(), vec![Face(0); points.len()]);
        gwb_sys::gwb_pocket_along(face.0, points.as_ptr(), points.len(), &along.into(), &mut made, sides.as_mut_ptr().cast())
            => Pocket { face: Face(made.face), of_loop: Loop(made.of_loop), sides }
    }
    /// A boss by a vector out of the solid, which may lean.
    boss_along(this, face: Face, points: &[impl Copy + Into<Point>], along: impl Into<Point>) -> Pocket {
        let (points, mut made, mut sides) = (listed(points), OutlineMade::default(), vec![Face(0); points.len()]);
        gwb_sys::gwb_boss_along(face.0, points.as_ptr(), points.len(), &along.into(), &mut made, sides.as_mut_ptr().cast())
            => Pocket { face: Face(made.face), of_loop: Loop(made.of_loop), sides }
    }
    /// A hole from the outline in the face through to the opposite face.
    hole(this, face: Face, points: &[impl Copy + Into<Point>]) -> Hole {
        let (points, mut made, mut sides) = (listed(points), OutlineMade::default(), vec![Face(0); points.len()]);
        gwb_sys::gwb_hole(face.0, points.as_ptr(), points.len(), &mut made, sides.as_mut_ptr().cast())
            => Hole { other: Face(made.face), of_loop: Loop(made.of_loop), sides, points }
    }
    /// A hole with a polygon of so many sides around the center, on whole numbers nearest to the circle of the radius: through, where the depth is 0,
    /// or so deep.
    drill(this, face: Face, center: impl Into<Point>, radius: i64, sides: u32, depth: i64) -> Hole {
        let (mut made, mut walls, mut points) = (OutlineMade::default(), room::<Face>(sides), room(sides));
        gwb_sys::gwb_drill(face.0, &center.into(), radius, sides, depth, &mut made, walls.as_mut_ptr().cast(), points.as_mut_ptr())
            => Hole { other: Face(made.face), of_loop: Loop(made.of_loop), sides: walls, points }
    }
    /// The same by a vector into the solid, which may lean.
    drill_along(this, face: Face, center: impl Into<Point>, radius: i64, sides: u32, along: impl Into<Point>) -> Hole {
        let (mut made, mut walls, mut points) = (OutlineMade::default(), room::<Face>(sides), room(sides));
        gwb_sys::gwb_drill_along(face.0, &center.into(), radius, sides, &along.into(), &mut made, walls.as_mut_ptr().cast(), points.as_mut_ptr())
            => Hole { other: Face(made.face), of_loop: Loop(made.of_loop), sides: walls, points }
    }
    /// The prism under an outline in the plane of the face is cut out: the outline may leave the face, and cross edges, holes and other features.
    notch(this, face: Face, points: &[impl Copy + Into<Point>], depth: i64) -> Notch {
        gwb_sys::gwb_notch(face.0, listed(points).as_ptr(), points.len(), depth) => this.made_notch()
    }
    /// The prism above such an outline is put on, also over an edge of the face.
    pad(this, face: Face, points: &[impl Copy + Into<Point>], height: i64) -> Pad {
        gwb_sys::gwb_pad(face.0, listed(points).as_ptr(), points.len(), height)
            => Pad { top: this.made(List::Floor, Face), walls: this.made(List::Walls, Face) }
    }
    /// A slot with a flat floor along a line from one point to another.
    slot(this, face: Face, start: impl Into<Point>, end: impl Into<Point>, width: i64, depth: i64) -> Notch {
        gwb_sys::gwb_slot(face.0, &start.into(), &end.into(), width, depth) => this.made_notch()
    }
    /// A groove like a V.
    groove(this, face: Face, start: impl Into<Point>, end: impl Into<Point>, width: i64, depth: i64) -> Notch {
        gwb_sys::gwb_groove(face.0, &start.into(), &end.into(), width, depth) => this.made_notch()
    }
    /// A step along an edge of the face.
    shoulder(this, face: Face, edge: Edge, width: i64, depth: i64) -> Notch { gwb_sys::gwb_shoulder(face.0, edge.0, width, depth) => this.made_notch() }
    /// A notch by a vector into the solid, which may lean.
    notch_along(this, face: Face, points: &[impl Copy + Into<Point>], along: impl Into<Point>) -> Notch {
        gwb_sys::gwb_notch_along(face.0, listed(points).as_ptr(), points.len(), &along.into()) => this.made_notch()
    }
    /// A pad by a vector out of the solid, which may lean.
    pad_along(this, face: Face, points: &[impl Copy + Into<Point>], along: impl Into<Point>) -> Pad {
        gwb_sys::gwb_pad_along(face.0, listed(points).as_ptr(), points.len(), &along.into())
            => Pad { top: this.made(List::Floor, Face), walls: this.made(List::Walls, Face) }
    }
    /// A slot by a vector into the solid.
    slot_along(this, face: Face, start: impl Into<Point>, end: impl Into<Point>, width: i64, along: impl Into<Point>) -> Notch {
        gwb_sys::gwb_slot_along(face.0, &start.into(), &end.into(), width, &along.into()) => this.made_notch()
    }
    /// A groove by a vector into the solid.
    groove_along(this, face: Face, start: impl Into<Point>, end: impl Into<Point>, width: i64, along: impl Into<Point>) -> Notch {
        gwb_sys::gwb_groove_along(face.0, &start.into(), &end.into(), width, &along.into()) => this.made_notch()
    }
    /// A step along an edge by a vector into the solid.
    shoulder_along(this, face: Face, edge: Edge, width: i64, along: impl Into<Point>) -> Notch {
        gwb_sys::gwb_shoulder_along(face.0, edge.0, width, &along.into()) => this.made_notch()
    }
    /// The edge becomes a sloping face.
    chamfer(this, edge: Edge, width: i64, other: impl Into<Option<i64>>) -> Face {
        let mut face = 0;
        gwb_sys::gwb_chamfer(edge.0, width, other.into().unwrap_or(width), &mut face) => Face(face)
    }
    /// Different edges become slopes at once, as far into the faces on both sides, which meet where the edges do: the slope of each.
    chamfer_edges(this, edges: &[Edge], width: i64) -> Vec<Face> {
        let mut faces = vec![Face(0); edges.len()];
        gwb_sys::gwb_chamfer_edges(edges.as_ptr().cast(), edges.len(), width, faces.as_mut_ptr().cast()) => faces
    }
}
