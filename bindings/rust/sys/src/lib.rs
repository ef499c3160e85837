//! The calls of gwb.h, and the types that they take, as C has them. `gwb` has them for Rust.
//!
//! What a caller owes stands at the head of `bindings/include/gwb.h`; nothing here checks it. The readers are the exports `gwb_lent_*`,
//! which are given a copy of the handle: [`Gwb::lend`] makes it.
#![no_std]
#![warn(missing_docs)]
#![allow(clippy::missing_safety_doc)] // all of it is in gwb.h

use core::ffi::c_void;
use core::ops::{Add, Neg, Sub};

/// The first number of the version times 10,000, the second times 100, and the third: the version of the library that these calls are of.
pub const VERSION: u32 = 30_000;

/// A handle: a session, or closed.
#[repr(C)]
#[derive(Debug)]
pub struct Gwb {
    is_open: bool,
    held: *mut c_void,
    beside: *mut c_void,
}

impl Gwb {
    /// A handle without a session.
    pub const CLOSED: Self = Self { is_open: false, held: core::ptr::null_mut(), beside: core::ptr::null_mut() };

    /// A copy for a reader. It is to be dropped when the reader has answered, and given to no other call.
    #[must_use]
    pub const fn lend(&self) -> Self {
        Self { is_open: self.is_open, held: self.held, beside: self.beside }
    }

    /// Whether there is a session.
    #[must_use]
    pub const fn is_open(&self) -> bool {
        self.is_open
    }
}

/// The kinds of answers.
pub mod kind {
    /// A blank line or a comment.
    pub const SILENT: u32 = 0;
    /// The command was accepted.
    pub const OK: u32 = 1;
    /// A condition is false.
    pub const REFUSED: u32 = 2;
    /// The line is no command.
    pub const FAULT: u32 = 3;
    /// Memory was refused.
    pub const MEMORY: u32 = 4;
    /// The plane of a face.
    pub const PLANE: u32 = 5;
    /// Six times the volume of a solid.
    pub const VOLUME: u32 = 6;
    /// The counts of a solid.
    pub const COUNT: u32 = 7;
    /// The listing of the model.
    pub const LISTING: u32 = 8;
    /// The handle is closed.
    pub const CLOSED: u32 = 9;
    /// The arguments make no command.
    pub const NO_CALL: u32 = 10;
    /// A draft has no such call.
    pub const IN_DRAFT: u32 = 11;
    /// Only a draft has this call.
    pub const NO_DRAFT: u32 = 12;
    /// A feature isn't possible.
    pub const IMPOSSIBLE: u32 = 13;
    /// The caller stopped it.
    pub const STOPPED: u32 = 14;
}

/// A heap: three functions, and what each of them is handed first. gwb.h says what each does.
#[repr(C)]
#[derive(Clone, Copy, Debug)]
#[allow(missing_docs)]
pub struct Heap {
    pub allocate: unsafe extern "C" fn(user: *mut c_void, size: usize) -> *mut c_void,
    pub reallocate: unsafe extern "C" fn(user: *mut c_void, block: *mut c_void, size: usize) -> *mut c_void,
    pub release: unsafe extern "C" fn(user: *mut c_void, block: *mut c_void),
    pub user: *mut c_void,
}

/// Whether work is to end, which is asked often while it is done.
pub type Stop = unsafe extern "C" fn(user: *mut c_void) -> bool;

/// What is to be said of a cut; it is seen by its calls alone.
#[repr(C)]
#[derive(Debug)]
pub struct Advice {
    hidden: [u8; 0],
}

/// The plane a x + b y + c z + d = 0, by its four numbers.
pub type CutPlane = [i64; 4];

/// The first number divided by the second.
pub type Ratio = [u64; 2];

/// A plane that cuts the solid at whole points alone.
#[repr(C)]
#[derive(Clone, Copy, Debug, Default, PartialEq)]
pub struct NearPlane {
    /// a, b, c and d of a x + b y + c z + d = 0.
    pub plane: CutPlane,
    /// Whether it has the same normal; else it is tilted.
    pub is_parallel: bool,
    /// How far it moves the cut along an edge at most, rounded up to hundredths.
    pub moved: f64,
}

/// Which faces are sought. What is null isn't asked for.
#[repr(C)]
#[derive(Clone, Copy, Debug)]
#[allow(missing_docs)]
pub struct FaceQuery {
    pub solid: u32,
    pub plane: *const CutPlane,
    pub normal: *const Point,
    pub containing: *const Point,
    pub area: *const Ratio,
}

/// Which edges are sought.
#[repr(C)]
#[derive(Clone, Copy, Debug)]
#[allow(missing_docs)]
pub struct EdgeQuery {
    pub solid: u32,
    pub between: [u32; 2],
    pub along: *const Point,
    pub length: *const Ratio,
}

/// What a reader says where it has written its value.
pub const FOUND: u32 = 1;

/// The greatest edge that has half-edges as numbers; it is far above all that can be in use.
pub const GREATEST_EDGE: u32 = 0x3FFF_FFFF;

macro_rules! rows {
    ($($(#[$doc:meta])* $name:ident { $($(#[$field_doc:meta])* $field:ident: $of:ty),+ })+) => {
        $(
            $(#[$doc])*
            #[repr(C)]
            #[derive(Clone, Copy, Debug, Default, PartialEq, Eq, Hash)]
            #[allow(missing_docs)]
            pub struct $name {
                $($(#[$field_doc])* pub $field: $of),+
            }
        )+
    };
}

rows! {
    /// Which condition of a command was false.
    Refusal {
        /// Of the condition.
        number: u32,
        /// That goes with it.
        value: u32
    }
    /// high * 2^64 + low
    Wide {
        /// The upper half, with the sign.
        high: i64,
        /// The lower half.
        low: u64
    }
    /// How many parts a solid has.
    Counts {
        vertices: i64,
        edges: i64,
        faces: i64,
        rings: i64,
        /// vertices - edges + faces - rings
        sum: i64
    }
    /// On the plane a x + b y + c z + d is 0.
    Plane {
        a: Wide,
        b: Wide,
        c: Wide,
        d: Wide,
        /// 1 where the face is flat, 0 where it is bent.
        flat: u32
    }
    /// The numbers from the first to the last.
    Range { first: u32, last: u32 }
    /// A face.
    FaceRow { solid: u32, outer_loop: u32 }
    /// An edge, by its vertices.
    EdgeRow {
        /// Where its first half-edge starts.
        from: u32,
        /// Where its second half-edge starts.
        to: u32
    }
    /// A point, or a vector.
    #[derive(PartialOrd, Ord)]
    Point { x: i64, y: i64, z: i64 }
    /// A half-edge, and where it stands.
    HalfEdgeRow {
        half_edge: u32,
        /// The vertex at which it starts.
        start: u32,
        /// The half-edge after it in its loop.
        next: u32,
        /// Its loop.
        of_loop: u32,
        /// Its face.
        face: u32
    }
    /// Where points go.
    Motion { axes: [i32; 3], by: Point }
    /// What gwb_profile makes.
    ProfileMade { far: u32, base: u32 }
    /// What gwb_polyhedron makes.
    PolyhedronMade { first_vertex: u32, first_face: u32 }
    /// An edge that a plane cuts, and where: three fractions.
    EdgeCut { edge: u32, numerators: [Wide; 3], denominators: [Wide; 3] }
    /// What a feature of an outline makes.
    OutlineMade { face: u32, of_loop: u32 }
    /// What a feature met that was refused or isn't possible.
    HitRow { cause: u32, kind: u32, number: u32, point: [Wide; 3], scale: Wide }
    /// Two faces that cross or touch, and a point at which they do.
    Crossing { first: u32, second: u32, point: [Wide; 3], scale: Wide }
    /// A vertex, and where it lies.
    VertexRow { vertex: u32, point: Point }
    /// A face or an edge that is new or gone, and the one that it was split from, or joined to.
    Change { number: u32, other: u32 }
    /// The same with births.
    BornChange { number: u32, other: u32, birth: u64, other_birth: u64 }
    /// Something that is gone or isn't as it was, and another one that came of it.
    BecameRow { kind: u32, old: u32, made: u32, old_birth: u64, made_birth: u64 }
    /// A triangle of a face.
    TriangleRow {
        face: u32,
        /// Vertices, counterclockwise as seen from outside.
        corners: [u32; 3]
    }
}

impl From<[i64; 3]> for Point {
    fn from([x, y, z]: [i64; 3]) -> Self {
        Self { x, y, z }
    }
}

impl From<Point> for [i64; 3] {
    fn from(point: Point) -> Self {
        [point.x, point.y, point.z]
    }
}

impl Add for Point {
    type Output = Self;

    fn add(self, by: Self) -> Self {
        Self { x: self.x + by.x, y: self.y + by.y, z: self.z + by.z }
    }
}

impl Neg for Point {
    type Output = Self;

    fn neg(self) -> Self {
        Self { x: -self.x, y: -self.y, z: -self.z }
    }
}

impl Sub for Point {
    type Output = Self;

    fn sub(self, by: Self) -> Self {
        self + -by
    }
}

impl From<Wide> for i128 {
    fn from(wide: Wide) -> Self {
        Self::from(wide.high) << 64 | Self::from(wide.low)
    }
}

#[allow(missing_docs)] // gwb.h says what each does
extern "C" {
    pub fn gwb_version() -> u32;

    pub fn gwb_use_heap(heap: *const Heap) -> *const Heap;
    pub fn gwb_open(g: *mut Gwb) -> bool;
    pub fn gwb_close(g: *mut Gwb);
    pub fn gwb_line(g: *mut Gwb, line: *const u8, n: usize) -> u32;
    pub fn gwb_lent_reply(copy: *mut Gwb, buf: *mut u8, room: usize) -> usize;
    pub fn gwb_lent_depth(copy: *mut Gwb) -> usize;
    pub fn gwb_lent_ahead(copy: *mut Gwb) -> usize;
    pub fn gwb_lent_mark(copy: *mut Gwb) -> usize;

    pub fn gwb_lent_last_refusal(copy: *mut Gwb, refusal: *mut Refusal) -> u32;
    pub fn gwb_lent_last_fault(copy: *mut Gwb, number: *mut u32) -> u32;
    pub fn gwb_lent_last_volume(copy: *mut Gwb, six_volumes: *mut Wide) -> u32;
    pub fn gwb_lent_last_counts(copy: *mut Gwb, counts: *mut Counts) -> u32;
    pub fn gwb_lent_last_plane(copy: *mut Gwb, plane: *mut Plane) -> u32;
    pub fn gwb_lent_fresh(copy: *mut Gwb, entity: u32, range: *mut Range) -> u32;

    pub fn gwb_lent_number_after(copy: *mut Gwb, entity: u32, n: u32, number: *mut u32) -> u32;
    pub fn gwb_lent_face(copy: *mut Gwb, face: u32, row: *mut FaceRow) -> u32;
    pub fn gwb_lent_ring_after(copy: *mut Gwb, face: u32, n: u32, ring: *mut u32) -> u32;
    pub fn gwb_lent_face_after(copy: *mut Gwb, solid: u32, n: u32, face: *mut u32) -> u32;
    pub fn gwb_lent_loop(copy: *mut Gwb, l: u32, face: *mut u32) -> u32;
    pub fn gwb_lent_lone_vertex(copy: *mut Gwb, l: u32, vertex: *mut u32) -> u32;
    pub fn gwb_lent_half_edges(copy: *mut Gwb, l: u32, buf: *mut u32, room: usize) -> usize;
    pub fn gwb_lent_half_edge_rows(copy: *mut Gwb, face: u32, rows: *mut HalfEdgeRow, room: usize) -> usize;
    pub fn gwb_lent_next_half_edge(copy: *mut Gwb, half_edge: u32, next: *mut u32) -> u32;
    pub fn gwb_lent_previous_half_edge(copy: *mut Gwb, half_edge: u32, previous: *mut u32) -> u32;
    pub fn gwb_lent_half_edge_loop(copy: *mut Gwb, half_edge: u32, l: *mut u32) -> u32;
    pub fn gwb_lent_first_half_edge(copy: *mut Gwb, l: u32, half_edge: *mut u32) -> u32;
    pub fn gwb_lent_vertex_half_edge(copy: *mut Gwb, vertex: u32, half_edge: *mut u32) -> u32;
    pub fn gwb_lent_edge(copy: *mut Gwb, edge: u32, row: *mut EdgeRow) -> u32;
    pub fn gwb_lent_vertex(copy: *mut Gwb, vertex: u32, point: *mut Point) -> u32;

    pub fn gwb_mvfs(g: *mut Gwb, solid: u32, face: u32, l: u32, vertex: u32, x: i64, y: i64, z: i64) -> u32;
    pub fn gwb_kvfs(g: *mut Gwb, solid: u32) -> u32;
    pub fn gwb_mev(g: *mut Gwb, corner: u32, other: u32, edge: u32, vertex: u32, x: i64, y: i64, z: i64) -> u32;
    pub fn gwb_kev(g: *mut Gwb, half_edge: u32) -> u32;
    pub fn gwb_mef(g: *mut Gwb, half_edge: u32, other: u32, edge: u32, face: u32, l: u32) -> u32;
    pub fn gwb_kef(g: *mut Gwb, half_edge: u32) -> u32;
    pub fn gwb_kemr(g: *mut Gwb, half_edge: u32, ring: u32) -> u32;
    pub fn gwb_mekr(g: *mut Gwb, corner: u32, other: u32, edge: u32) -> u32;
    pub fn gwb_kfmrh(g: *mut Gwb, face: u32, other: u32) -> u32;
    pub fn gwb_mfkrh(g: *mut Gwb, ring: u32, face: u32) -> u32;
    pub fn gwb_ringmv(g: *mut Gwb, ring: u32, face: u32, out: u32) -> u32;
    pub fn gwb_outer(g: *mut Gwb, ring: u32, face: u32) -> u32;
    pub fn gwb_merge(g: *mut Gwb, solid: u32, other: u32) -> u32;
    pub fn gwb_part(g: *mut Gwb, faces: *const u32, n: usize, solid: u32) -> u32;
    pub fn gwb_lamina(g: *mut Gwb, solid: u32, points: *const Point, n: usize) -> u32;
    pub fn gwb_block(g: *mut Gwb, solid: u32, x: i64, y: i64, z: i64, dx: i64, dy: i64, dz: i64) -> u32;
    pub fn gwb_sweep(g: *mut Gwb, face: u32, dx: i64, dy: i64, dz: i64) -> u32;
    pub fn gwb_glue(g: *mut Gwb, face: u32, other: u32) -> u32;
    pub fn gwb_split(g: *mut Gwb, solid: u32, a: i64, b: i64, c: i64, d: i64, above: u32) -> u32;
    pub fn gwb_draft(g: *mut Gwb) -> u32;
    pub fn gwb_commit(g: *mut Gwb) -> u32;
    pub fn gwb_abandon(g: *mut Gwb) -> u32;
    pub fn gwb_back(g: *mut Gwb, mark: usize) -> u32;
    pub fn gwb_undo(g: *mut Gwb) -> u32;
    pub fn gwb_redo(g: *mut Gwb) -> u32;

    pub fn gwb_face_plane(g: *mut Gwb, face: u32, plane: *mut Plane) -> u32;
    pub fn gwb_volume(g: *mut Gwb, solid: u32, six_volumes: *mut Wide) -> u32;
    pub fn gwb_count(g: *mut Gwb, solid: u32, counts: *mut Counts) -> u32;
    pub fn gwb_lent_plane(copy: *mut Gwb, face: u32, plane: *mut Plane, refusal: *mut Refusal) -> u32;
    pub fn gwb_lent_volume(copy: *mut Gwb, solid: u32, six_volumes: *mut Wide, refusal: *mut Refusal) -> u32;
    pub fn gwb_lent_counts(copy: *mut Gwb, solid: u32, counts: *mut Counts, refusal: *mut Refusal) -> u32;
    pub fn gwb_lent_listing(copy: *mut Gwb, buf: *mut u8, room: usize) -> usize;

    pub fn gwb_read_half_edges(g: *const Gwb, solid: u32, rows: *mut HalfEdgeRow, room: usize) -> usize;
    pub fn gwb_read_vertices(g: *const Gwb, rows: *mut VertexRow, room: usize) -> usize;
    pub fn gwb_read_triangles(g: *const Gwb, solid: u32, rows: *mut TriangleRow, room: usize) -> usize;
    pub fn gwb_face_triangles(g: *const Gwb, face: u32, rows: *mut TriangleRow, room: usize) -> usize;
    pub fn gwb_load(g: *mut Gwb, listing: *const u8, n: usize, refusal: *mut Refusal) -> u32;
    pub fn gwb_lines(g: *mut Gwb, script: *const u8, n: usize, line: *mut usize) -> u32;
    pub fn gwb_greatest_number(g: *const Gwb, entity: u32) -> usize;

    pub fn gwb_changes(g: *const Gwb) -> u64;
    pub fn gwb_record(g: *mut Gwb) -> u32;
    pub fn gwb_recorded(g: *const Gwb) -> usize;
    pub fn gwb_script(g: *const Gwb, first: usize, n: usize, buf: *mut u8, room: usize) -> usize;
    pub fn gwb_watch(g: *mut Gwb, is_asked: bool) -> u32;
    pub fn gwb_watch_from(g: *mut Gwb, place: *mut usize) -> u32;
    pub fn gwb_watch_to(g: *mut Gwb, place: usize);
    pub fn gwb_compare(g: *mut Gwb) -> u32;
    pub fn gwb_compare_from(g: *mut Gwb, place: usize) -> u32;
    pub fn gwb_compared(g: *const Gwb, entity: u32, is_made: bool, rows: *mut Change, room: usize) -> usize;
    pub fn gwb_compared_births(g: *const Gwb, entity: u32, is_made: bool, rows: *mut BornChange, room: usize) -> usize;
    pub fn gwb_became(g: *mut Gwb, rows: *mut BecameRow, room: usize) -> usize;
    pub fn gwb_birth(g: *const Gwb, entity: u32, number: u32) -> u64;
    pub fn gwb_stop_by(g: *mut Gwb, stop: Option<Stop>, user: *mut c_void);

    pub fn gwb_pattern(g: *mut Gwb, solid: u32, count: u32, step: *const Point, solids: *mut u32, why: *mut Refusal) -> u32;
    pub fn gwb_polyhedron(
        g: *mut Gwb, solid: u32, points: *const Point, n: usize, corners: *const u32, sizes: *const u32, faces: usize, made: *mut PolyhedronMade,
        why: *mut Refusal,
    ) -> u32;
    pub fn gwb_pattern_around(
        g: *mut Gwb, solid: u32, count: u32, axis: u32, quarters: u32, about: *const Point, solids: *mut u32, why: *mut Refusal,
    ) -> u32;
    pub fn gwb_scale(g: *mut Gwb, factor: i64, why: *mut Refusal) -> u32;
    pub fn gwb_glue_all(g: *mut Gwb, solids: *const u32, n: usize, why: *mut Refusal) -> u32;
    pub fn gwb_split_solid(g: *mut Gwb, solid: u32, plane: *const CutPlane, above: u32, why: *mut Refusal) -> u32;
    pub fn gwb_renumber(g: *mut Gwb, why: *mut Refusal) -> u32;
    pub fn gwb_circle(diameter: i64, grain: i64, n: u32, circle: u32, corners: *mut i64) -> bool;
    pub fn gwb_drill(
        g: *mut Gwb, face: u32, center: *const Point, radius: i64, n: u32, depth: i64, made: *mut OutlineMade, sides: *mut u32, points: *mut Point,
        why: *mut Refusal,
    ) -> u32;
    pub fn gwb_drill_along(
        g: *mut Gwb, face: u32, center: *const Point, radius: i64, n: u32, along: *const Point, made: *mut OutlineMade, sides: *mut u32,
        points: *mut Point, why: *mut Refusal,
    ) -> u32;
    pub fn gwb_find_faces(g: *const Gwb, query: *const FaceQuery, buf: *mut u32, room: usize, found: *mut usize, why: *mut Refusal) -> u32;
    pub fn gwb_find_edges(g: *const Gwb, query: *const EdgeQuery, buf: *mut u32, room: usize, found: *mut usize, why: *mut Refusal) -> u32;
    pub fn gwb_find_crossings(
        g: *const Gwb, solid: u32, other: u32, rows: *mut Crossing, room: usize, found: *mut usize, why: *mut Refusal,
    ) -> u32;
    pub fn gwb_cut(g: *mut Gwb, solid: u32, plane: *const CutPlane, above: u32, why: *mut Refusal) -> u32;
    pub fn gwb_trim(g: *mut Gwb, solid: u32, plane: *const CutPlane, why: *mut Refusal) -> u32;
    pub fn gwb_union(g: *mut Gwb, solids: *const u32, n: usize, why: *mut Refusal) -> u32;
    pub fn gwb_subtract(g: *mut Gwb, solid: u32, tools: *const u32, n: usize, why: *mut Refusal) -> u32;
    pub fn gwb_intersect(g: *mut Gwb, solids: *const u32, n: usize, why: *mut Refusal) -> u32;
    pub fn gwb_separate(g: *mut Gwb, solid: u32, why: *mut Refusal) -> u32;
    pub fn gwb_join_faces(g: *mut Gwb, solid: u32, why: *mut Refusal) -> u32;
    pub fn gwb_off_lattice(g: *const Gwb, solid: u32, plane: *const CutPlane, most: usize, advice: *mut *mut Advice, why: *mut Refusal) -> u32;
    pub fn gwb_advice_free(advice: *mut Advice);
    pub fn gwb_advice_factor(advice: *const Advice) -> Wide;
    pub fn gwb_advice_fits(advice: *const Advice) -> bool;
    pub fn gwb_advice_cuts(advice: *const Advice, rows: *mut EdgeCut, room: usize) -> usize;
    pub fn gwb_advice_planes(advice: *const Advice, rows: *mut NearPlane, room: usize) -> usize;
    pub fn gwb_advice_text(advice: *const Advice, above: u32, buf: *mut u8, room: usize) -> usize;

    pub fn gwb_made(g: *const Gwb, list: u32, buf: *mut u32, room: usize) -> usize;
    pub fn gwb_hit(g: *const Gwb, hit: *mut HitRow) -> bool;
    pub fn gwb_kill_solid(g: *mut Gwb, solid: u32, why: *mut Refusal) -> u32;
    pub fn gwb_copy_solid(g: *mut Gwb, solid: u32, motion: *const Motion, made: *mut u32, why: *mut Refusal) -> u32;
    pub fn gwb_move_solid(g: *mut Gwb, solid: u32, motion: *const Motion, why: *mut Refusal) -> u32;
    pub fn gwb_profile(g: *mut Gwb, solid: u32, points: *const Point, n: usize, along: *const Point, made: *mut ProfileMade, sides: *mut u32, why: *mut Refusal) -> u32;
    pub fn gwb_ring(g: *mut Gwb, face: u32, points: *const Point, n: usize, made: *mut OutlineMade, edges: *mut u32, vertices: *mut u32, why: *mut Refusal) -> u32;
    pub fn gwb_pocket(g: *mut Gwb, face: u32, points: *const Point, n: usize, depth: i64, made: *mut OutlineMade, sides: *mut u32, why: *mut Refusal) -> u32;
    pub fn gwb_boss(g: *mut Gwb, face: u32, points: *const Point, n: usize, height: i64, made: *mut OutlineMade, sides: *mut u32, why: *mut Refusal) -> u32;
    pub fn gwb_pocket_along(
        g: *mut Gwb, face: u32, points: *const Point, n: usize, along: *const Point, made: *mut OutlineMade, sides: *mut u32, why: *mut Refusal,
    ) -> u32;
    pub fn gwb_boss_along(
        g: *mut Gwb, face: u32, points: *const Point, n: usize, along: *const Point, made: *mut OutlineMade, sides: *mut u32, why: *mut Refusal,
    ) -> u32;
    pub fn gwb_hole(g: *mut Gwb, face: u32, points: *const Point, n: usize, made: *mut OutlineMade, sides: *mut u32, why: *mut Refusal) -> u32;
    pub fn gwb_notch(g: *mut Gwb, face: u32, points: *const Point, n: usize, depth: i64, why: *mut Refusal) -> u32;
    pub fn gwb_pad(g: *mut Gwb, face: u32, points: *const Point, n: usize, height: i64, why: *mut Refusal) -> u32;
    pub fn gwb_slot(g: *mut Gwb, face: u32, start: *const Point, end: *const Point, width: i64, depth: i64, why: *mut Refusal) -> u32;
    pub fn gwb_groove(g: *mut Gwb, face: u32, start: *const Point, end: *const Point, width: i64, depth: i64, why: *mut Refusal) -> u32;
    pub fn gwb_shoulder(g: *mut Gwb, face: u32, edge: u32, width: i64, depth: i64, why: *mut Refusal) -> u32;
    pub fn gwb_notch_along(g: *mut Gwb, face: u32, points: *const Point, n: usize, along: *const Point, why: *mut Refusal) -> u32;
    pub fn gwb_pad_along(g: *mut Gwb, face: u32, points: *const Point, n: usize, along: *const Point, why: *mut Refusal) -> u32;
    pub fn gwb_slot_along(
        g: *mut Gwb, face: u32, start: *const Point, end: *const Point, width: i64, along: *const Point, why: *mut Refusal,
    ) -> u32;
    pub fn gwb_groove_along(
        g: *mut Gwb, face: u32, start: *const Point, end: *const Point, width: i64, along: *const Point, why: *mut Refusal,
    ) -> u32;
    pub fn gwb_shoulder_along(g: *mut Gwb, face: u32, edge: u32, width: i64, along: *const Point, why: *mut Refusal) -> u32;
    pub fn gwb_chamfer(g: *mut Gwb, edge: u32, width: i64, other: i64, face: *mut u32, why: *mut Refusal) -> u32;
    pub fn gwb_chamfer_edges(g: *mut Gwb, edges: *const u32, n: usize, width: i64, faces: *mut u32, why: *mut Refusal) -> u32;
}
