//! A session from outside: what commands make, what refuses them, and what readers find.
use gwb::{
    lone, minus, plus, version, Became, Change, Draft, Edge, EdgeQuery, EdgeRow, Error, Face, FaceQuery, FaceRow, HalfEdge, Heap, Heir, Loop, Motion, Notes,
    Plane, Point, Refusal, Session, Solid, Vertex,
};
use std::cell::Cell;
use std::ffi::c_void;
use std::ptr::NonNull;
use std::sync::atomic::{AtomicBool, Ordering};
use std::sync::Arc;

const NO_POINTS: [Point; 0] = [];

fn block() -> Session {
    let mut session = Session::new().unwrap();
    session.block(Solid(1), [0, 0, 0], [4, 4, 4]).unwrap();
    session
}

fn refused<T>(refusal: Refusal, value: u32) -> Result<T, Error> {
    Err(Error::Refused { refusal, value })
}

/// What a solid has, as the listing names it.
fn listing(session: &Session) -> String {
    session.listing().unwrap()
}

#[test]
fn a_block_is_measured_and_counted() {
    let session = block();
    assert_eq!(session.six_volumes(Solid(1)), Ok(384));
    let counts = session.count(Solid(1)).unwrap();
    assert_eq!((counts.vertices, counts.edges, counts.faces, counts.rings, counts.sum), (8, 12, 6, 0, 2));
    let top = session.plane(Face(1)).unwrap();
    assert_eq!((top.a, top.b, top.c, top.d, top.flat), (0, 0, 32, -128, true));
}

#[test]
fn an_inside_out_solid_has_a_negative_volume() {
    let mut session = Session::new().unwrap();
    let square = [[0, 0, 0], [2, 0, 0], [2, 2, 0], [0, 2, 0]].map(Point::from);
    session.lamina(Solid(1), &square).unwrap();
    session.sweep(Face(1), [0, 0, -3]).unwrap();
    assert_eq!(session.six_volumes(Solid(1)), Ok(-72));
}

#[test]
fn what_a_command_makes_is_known_without_text() {
    let mut session = block();
    session.split(Solid(1), [0, 0, 1, -2], Solid(2)).unwrap();
    assert_eq!(session.fresh::<Face>(), Some(7..=15));
    assert_eq!(session.fresh::<Solid>(), None);
    session.six_volumes(Solid(1)).unwrap();
    session.plane(Face(99)).unwrap_err();
    session.run("volume 1").unwrap();
    listing(&session);
    assert_eq!(session.fresh::<Face>(), Some(7..=15));
    session.kvfs(Solid(1)).unwrap_err();
    assert_eq!(session.fresh::<Face>(), None);
}

#[test]
fn what_a_draft_makes_is_known_too() {
    let mut session = block();
    let mut draft = session.draft().unwrap();
    assert_eq!(draft.fresh::<Edge>(), None);
    let (edge, _) = draft.mev(plus(Edge(7)), plus(Edge(7)), None, None, [0, 0, 9]).unwrap();
    draft.count(Solid(1)).unwrap();
    draft.mev(minus(edge), minus(edge), Edge(20), None, [0, 0, 11]).unwrap();
    draft.commit().unwrap();
    assert_eq!((session.fresh::<Edge>(), session.fresh::<Vertex>(), session.fresh::<Face>()), (Some(13..=20), Some(9..=10), None));
    session.draft().unwrap().mev(plus(Edge(7)), plus(Edge(7)), Edge(30), None, [0, 0, 9]).unwrap();
    assert_eq!(session.fresh::<Edge>(), None);
}

#[test]
fn what_is_above_all_codes_is_no_other_half_edge() {
    let most = Edge(gwb_most());
    assert_eq!((plus(most).code(), minus(most).code()), (0x7FFF_FFFE, 0x7FFF_FFFF));
    assert_eq!((plus(Edge(most.0 + 1)), minus(Edge(u32::MAX))), (plus(most), minus(most)));
    assert_eq!((lone(Loop(0x8000_0002)), lone(Loop(0x7FFF_FFFE)) == lone(Loop(0x7FFF_FFFF))), (lone(Loop(0x7FFF_FFFF)), false));
    let mut session = Session::new().unwrap();
    session.mvfs(Solid(1), Face(1), Loop(2), Vertex(1), [0, 0, 0]).unwrap();
    let far = |corner: Result<(Edge, Vertex), Error>| matches!(corner, Err(Error::Refused { refusal: Refusal::NumberRange, .. }));
    assert!(far(session.mev(plus(Edge(0x4000_0001)), plus(Edge(0x4000_0001)), None, None, [1, 0, 0])));
    assert!(far(session.mev(lone(Loop(0x8000_0002)), lone(Loop(0x8000_0002)), None, None, [1, 0, 0])));
    session.mev(lone(Loop(2)), lone(Loop(2)), Edge(1), None, [1, 0, 0]).unwrap();
    assert!(matches!(session.kev(plus(Edge(2_147_483_649))), Err(Error::Refused { refusal: Refusal::NumberRange, .. })));
    assert_eq!(session.count(Solid(1)).unwrap().edges, 1);
}

/// The greatest edge that has half-edges.
const fn gwb_most() -> u32 {
    (1 << 30) - 1
}

#[test]
fn numbers_are_chosen_where_none_is_given() {
    let mut session = Session::new().unwrap();
    assert_eq!((session.greatest::<Face>(), session.next_free::<Face>()), (None, Face(1)));
    let block = session.block(None, [0, 0, 0], [4, 4, 4]).unwrap();
    let above = session.split(block, [0, 0, 1, -2], None).unwrap();
    assert_eq!((block, above, session.greatest::<Edge>()), (Solid(1), Solid(2), Some(Edge(24))));
    session.block(Solid(1_000_000), [9, 9, 9], [1, 1, 1]).unwrap();
    assert_eq!(session.block(None, [0, 0, 0], [1, 1, 1]), refused(Refusal::NumberRange, 1_000_001));
    let point = session.mvfs(Solid(7), None, None, None, [1, 2, 3]).unwrap();
    assert_eq!((point.solid, session.face(point.face).unwrap().outer_loop), (Solid(7), point.of_loop));
    assert_eq!(session.lone_vertex(point.of_loop), Some(point.vertex));
}

#[test]
fn refusals_come_by_name_and_change_nothing() {
    let mut session = block();
    let before = listing(&session);
    assert_eq!(session.kvfs(Solid(1)), refused(Refusal::NotBare, 1));
    assert_eq!(session.block(Solid(1), [9, 9, 9], [1, 1, 1]), refused(Refusal::SolidTaken, 1));
    assert_eq!(session.split(Solid(1), [0, 0, 1, 1], Solid(2)), refused(Refusal::PlaneMisses, 1));
    assert_eq!(session.mev(lone(Loop(7)), lone(Loop(7)), Edge(20), Vertex(20), [0, 0, 0]), refused(Refusal::NoLoop, 7));
    assert!(matches!(session.kev(HalfEdge::from_code(u32::MAX)), Err(Error::Refused { refusal: Refusal::NumberRange, .. })));
    assert_eq!(session.lamina(Solid(2), &NO_POINTS), refused(Refusal::FewPoints, 0));
    assert_eq!(session.redo(), refused(Refusal::NothingToRedo, 0));
    assert_eq!(session.six_volumes(Solid(7)), Err(Error::Refused { refusal: Refusal::NoSolid, value: 7 }));
    assert_eq!(listing(&session), before);
    assert_eq!((session.depth(), session.ahead()), (1, 0));
}

#[test]
fn operators_make_a_triangle_and_take_it_back() {
    let mut session = Session::new().unwrap();
    session.mvfs(Solid(1), Face(1), Loop(1), Vertex(1), [0, 0, 0]).unwrap();
    assert_eq!(session.lone_vertex(Loop(1)), Some(Vertex(1)));
    assert!(session.half_edges(Loop(1)).is_empty());
    session.mev(lone(Loop(1)), lone(Loop(1)), Edge(1), Vertex(2), [3, 0, 0]).unwrap();
    session.mev(minus(Edge(1)), minus(Edge(1)), Edge(2), Vertex(3), [0, 3, 0]).unwrap();
    session.mef(plus(Edge(1)), minus(Edge(2)), Edge(3), Face(2), Loop(2)).unwrap();
    assert_eq!(session.lone_vertex(Loop(1)), None);
    assert_eq!(session.edge(Edge(1)), Some(EdgeRow { from: Vertex(1), to: Vertex(2) }));
    assert_eq!(session.vertex(Vertex(3)), Some(Point { x: 0, y: 3, z: 0 }));
    session.kef(plus(Edge(3))).unwrap();
    session.kev(minus(Edge(2))).unwrap_err();
    session.kev(plus(Edge(2))).unwrap();
    session.kev(plus(Edge(1))).unwrap();
    session.kvfs(Solid(1)).unwrap();
    assert_eq!(session.numbers::<Solid>().count(), 0);
    for _ in 0..8 {
        session.undo().unwrap();
    }
    assert_eq!((session.depth(), session.ahead(), session.undo()), (0, 8, refused(Refusal::NothingToUndo, 0)));
}

#[test]
fn rings_move_between_faces() {
    let mut session = block();
    session.mev(plus(Edge(7)), plus(Edge(7)), Edge(20), Vertex(20), [1, 1, 4]).unwrap();
    session.kemr(plus(Edge(20)), Loop(20)).unwrap();
    assert_eq!(session.rings(Face(1)).collect::<Vec<_>>(), [Loop(20)]);
    session.mfkrh(Loop(20), Face(20)).unwrap();
    session.kfmrh(Face(1), Face(20)).unwrap();
    session.ring_in(Loop(20), Face(2)).unwrap();
    assert_eq!((session.face_of_loop(Loop(20)), session.rings(Face(1)).count()), (Some(Face(2)), 0));
    session.ring_out(Loop(20), Face(2)).unwrap();
    assert_eq!(session.face(Face(2)).unwrap().outer_loop, Loop(20));
    session.outer(Loop(2), Face(2)).unwrap();
    assert_eq!(session.face(Face(2)).unwrap().outer_loop, Loop(2));
    session.ring_in(Loop(20), Face(1)).unwrap();
    session.mekr(plus(Edge(7)), lone(Loop(20)), Edge(20)).unwrap();
    session.kev(plus(Edge(20))).unwrap();
    assert_eq!(session.count(Solid(1)).unwrap().vertices, 8);
}

#[test]
fn solids_are_glued_and_merged() {
    let mut session = block();
    session.block(Solid(2), [0, 0, 4], [4, 4, 4]).unwrap();
    session.block(Solid(3), [9, 9, 9], [1, 1, 1]).unwrap();
    session.glue(Face(1), Face(8)).unwrap();
    assert_eq!(session.six_volumes(Solid(1)), Ok(768));
    session.merge(Solid(1), Solid(3)).unwrap();
    assert_eq!((session.six_volumes(Solid(1)), session.faces(Solid(3)).count()), (Ok(774), 0));
}

#[test]
fn a_lamina_has_its_points_in_order() {
    let mut session = Session::new().unwrap();
    let points = [[7, 0, 1], [0, 7, 1], [0, 0, -1]].map(Point::from);
    session.lamina(Solid(3), &points).unwrap();
    let drawn: Vec<_> = session.half_edges(Loop(1)).into_iter().map(|at| session.vertex(session.edge(at.edge()).unwrap().from).unwrap()).collect();
    assert_eq!(drawn, points);
    assert_eq!(session.lamina(Solid(4), &points[..2]), refused(Refusal::FewPoints, 2));
}

#[test]
fn faces_are_parted_from_a_solid() {
    let mut session = block();
    session.block(Solid(2), [9, 9, 9], [1, 1, 1]).unwrap();
    session.merge(Solid(1), Solid(2)).unwrap();
    assert_eq!(session.part(&[], None), Err(Error::NoCall));
    assert_eq!(session.part(&[Face(99)], Solid(3)), refused(Refusal::NoFace, 99));
    assert_eq!(session.part(&[Face(7)], Solid(3)), refused(Refusal::BadPart, 1));
    assert_eq!(session.part(&[Face(7), Face(8), Face(9), Face(10), Face(12), Face(11)], Solid(3)), refused(Refusal::BadPart, 1));
    session.part(&[Face(7), Face(8), Face(9), Face(10), Face(11), Face(12)], Solid(3)).unwrap();
    assert_eq!((session.six_volumes(Solid(1)), session.six_volumes(Solid(3))), (Ok(384), Ok(6)));
}

/// A spoke of the top of a block, cut loose: vertex 9 and ring 7.
fn give_steps(draft: &mut Draft<'_>) {
    draft.mev(plus(Edge(7)), plus(Edge(7)), Edge(13), Vertex(9), [2, 2, 4]).unwrap();
    draft.kemr(plus(Edge(13)), Loop(7)).unwrap();
}

#[test]
fn a_draft_that_is_committed_is_one_command() {
    let mut session = block();
    let mut draft = session.draft().unwrap();
    give_steps(&mut draft);
    assert_eq!((draft.lone_vertex(Loop(7)), draft.count(Solid(1)).unwrap().vertices), (Some(Vertex(9)), 9));
    assert_eq!((draft.depth(), draft.ahead(), draft.six_volumes(Solid(1)), draft.plane(Face(1)).unwrap().flat), (0, 0, Ok(384), true));
    assert_eq!(draft.kvfs(Solid(1)), refused(Refusal::NotBare, 1));
    assert_eq!(draft.rings(Face(1)).collect::<Vec<_>>(), [Loop(7)]);
    draft.commit().unwrap();
    assert_eq!((session.depth(), session.lone_vertex(Loop(7))), (2, Some(Vertex(9))));
    session.undo().unwrap();
    assert_eq!((session.count(Solid(1)).unwrap().vertices, session.ahead()), (8, 1));
    session.draft().unwrap().commit().unwrap();
    assert_eq!((session.depth(), session.ahead()), (2, 0));
}

#[test]
fn larger_commands_are_steps_that_a_mark_takes_back() {
    let mut session = block();
    let mut draft = session.draft().unwrap();
    let second = draft.block(None, [0, 0, 4], [4, 4, 4]).unwrap();
    let mark = draft.mark();
    draft.glue(Face(1), Face(8)).unwrap();
    draft.split(Solid(1), [0, 0, 1, -6], Solid(5)).unwrap();
    draft.lamina(None, &[[0, 0, 9], [3, 0, 9], [0, 3, 9]]).unwrap();
    let front = Face(*draft.fresh::<Face>().unwrap().start());
    draft.sweep(front, [0, 0, 2]).unwrap();
    assert_eq!(draft.kfmrh(Face(2), Face(2)), refused(Refusal::SameFace, 2));
    draft.back(mark).unwrap();
    draft.back(mark).unwrap();
    assert_eq!((draft.numbers::<Solid>().collect::<Vec<_>>(), draft.six_volumes(second)), (vec![Solid(1), Solid(2)], Ok(384)));
    draft.commit().unwrap();
    assert_eq!((session.depth(), session.fresh::<Face>(), session.steps()), (2, Some(7..=12), 0));
    session.undo().unwrap();
    assert_eq!(session.numbers::<Solid>().count(), 1);
}

#[test]
fn a_draft_that_is_dropped_leaves_no_trace() {
    let mut session = block();
    session.block(Solid(2), [9, 9, 9], [1, 1, 1]).unwrap();
    session.undo().unwrap();
    let before = listing(&session);
    give_steps(&mut session.draft().unwrap());
    assert_eq!(listing(&session), before);
    assert_eq!((session.depth(), session.ahead()), (1, 1));
    session.redo().unwrap();
}

#[test]
fn a_draft_that_is_forgotten_stays_open() {
    let mut session = block();
    std::mem::forget(session.draft().unwrap());
    let before = session.numbers::<Face>().count();
    assert_eq!((session.undo(), session.redo(), session.run("undo")), (Err(Error::InDraft), Err(Error::InDraft), Err(Error::InDraft)));
    let mark = session.steps();
    assert_eq!((session.run("block 9 40 40 40 1 1 1"), session.six_volumes(Solid(9)), session.run("list")), (Ok(()), Ok(6), Ok(())));
    assert_eq!((session.reply(), session.steps() > mark), (session.listing(), true));
    assert!(matches!(session.draft(), Err(Error::InDraft)));
    assert_eq!((session.numbers::<Face>().count(), Error::InDraft.to_string().contains("draft")), (before + 6, true));
    session.abandon().unwrap();
    assert_eq!((session.abandon(), session.undo()), (Err(Error::NoDraft), Ok(())));
}

#[test]
fn readers_walk_every_face() {
    let session = block();
    assert_eq!(session.faces(Solid(1)).collect::<Vec<_>>(), [1, 2, 3, 4, 5, 6].map(Face));
    let half_edges = session.faces(Solid(1)).flat_map(|face| session.half_edges(session.face(face).unwrap().outer_loop));
    assert_eq!(half_edges.count(), 24);
    for half_edge in session.numbers::<Edge>().flat_map(|edge| [plus(edge), minus(edge)]) {
        let round = std::iter::successors(Some(half_edge), |&at| session.next(at).filter(|&next| next != half_edge));
        assert_eq!(round.count(), 4);
    }
    assert_eq!(session.face(Face(1)), Some(FaceRow { solid: Solid(1), outer_loop: Loop(1) }));
    assert_eq!((session.face(Face(7)), session.edge(Edge(13)), session.vertex(Vertex(9)), session.next(plus(Edge(13)))), (None, None, None, None));
    assert_eq!(session.faces(Solid(9)).next(), None);
}

#[test]
fn neighbours_are_those_of_the_loops() {
    let mut session = block();
    let (edge, end) = session.mev(plus(Edge(7)), plus(Edge(7)), None, None, [2, 2, 4]).unwrap();
    let (mut sides, mut starts) = (0, 0);
    for face in session.faces(Solid(1)) {
        for at in session.half_edges_of(face) {
            assert_eq!((session.face_of(at), session.faces_of(at.edge()).unwrap()[usize::from(at.is_second())]), (Some(face), face));
            assert_eq!((session.next(session.previous(at).unwrap()), session.end_of(at)), (Some(at), session.start_of(session.next(at).unwrap())));
            sides += 1;
        }
    }
    for vertex in session.numbers::<Vertex>() {
        starts += session.around_vertex(vertex).filter(|&at| session.start_of(at) == Some(vertex)).count();
    }
    assert_eq!((sides, starts), (26, 26));
    assert_eq!(session.faces(Solid(1)).map(|face| session.edges_of(face).count()).sum::<usize>(), 25);
    assert_eq!((session.around_start(minus(edge)).count(), session.around(Loop(1)).count()), (1, 6));
    let ring = session.kemr(plus(edge), None).unwrap();
    assert_eq!((session.loops_of(Face(1)).collect::<Vec<_>>(), session.around_vertex(end).count()), (vec![Loop(1), ring], 0));
    assert_eq!((session.faces_of(Edge(99)), session.loops_of(Face(99)).next(), session.around_start(plus(Edge(99))).next()), (None, None, None));
}

#[test]
fn all_rows_come_at_once() {
    let mut session = block();
    let above = session.split(Solid(1), [0, 0, 1, -2], None).unwrap();
    let rows = session.half_edge_rows(None);
    for row in &rows {
        let at = row.half_edge;
        assert_eq!((session.start_of(at), session.next(at)), (Some(row.start), Some(row.next)));
        assert_eq!((session.loop_of(at), session.face_of(at)), (Some(row.of_loop), Some(row.face)));
    }
    assert_eq!((rows.len(), session.half_edge_rows(above).len(), session.half_edge_rows(Solid(9)).len()), (48, 24, 0));
    assert_eq!(session.face_rows(rows[0].face), rows[..4]);
    assert!(session.vertex_rows().iter().all(|&(vertex, point)| session.vertex(vertex) == Some(point)));
}

/// The plane of a face, whose coefficients have nothing in common.
fn plane_of(session: &Session, face: Face) -> [i128; 4] {
    let Plane { a, b, c, d, .. } = session.plane(face).unwrap();
    let common = [a, b, c, d].into_iter().fold(0, |common: i128, part| {
        let (mut common, mut part) = (common, part.abs());
        while part != 0 {
            (common, part) = (part, common % part);
        }
        common
    });
    [a, b, c, d].map(|part| part / common)
}

#[test]
fn colours_follow_splits() {
    let mut session = Session::new().unwrap();
    let block = session.block(None, [0, 0, 0], [12, 12, 12]).unwrap();
    let mut colours = Notes::new(&mut session).unwrap();
    for face in session.faces(block) {
        colours.insert(&session, face, plane_of(&session, face));
    }
    let mut counts = Vec::new();
    for (solid, plane, above) in [(1, [0, 0, 1, -6], 2), (2, [1, 0, 0, -6], 3), (3, [1, 1, 1, -34], 4)] {
        let (_, changes) = session.followed(|session| session.split(Solid(solid), plane, Solid(above))).unwrap();
        colours.follow(&changes);
        assert!(colours.iter(&session).all(|(face, plane)| *plane == plane_of(&session, face)));
        counts.push((colours.iter(&session).count(), session.numbers::<Face>().count()));
    }
    assert_eq!(counts, [(10, 12), (13, 18), (16, 23)]);
    let whole: Vec<(Face, [i128; 4])> = colours.iter(&session).map(|(face, plane)| (face, *plane)).collect();
    for turn in [Session::undo, Session::undo, Session::redo, Session::redo] {
        turn(&mut session).unwrap();
    }
    assert!(colours.iter(&session).map(|(face, plane)| (face, *plane)).eq(whole));
}

/// A number that comes again has the value that it had when it went by that command, and none of another command.
#[test]
fn numbers_used_again_have_no_colour() {
    let mut session = block();
    let mut colours = Notes::new(&mut session).unwrap();
    colours.insert(&session, Face(1), "red");
    session.kill_solid(Solid(1)).unwrap();
    session.block(Solid(1), [9, 9, 9], [4, 4, 4]).unwrap();
    assert_eq!(colours.iter(&session).count(), 0);
    session.kill_solid(Solid(1)).unwrap();
    session.undo().unwrap();
    assert_eq!(colours.iter(&session).count(), 0);
    session.undo().unwrap();
    session.undo().unwrap();
    assert_eq!((colours.get(&session, Face(1)), colours.iter(&session).count()), (Some(&"red"), 1));
}

/// What came and went where nobody could see it: in a draft that was given up, and in one command that was followed. A renumbered face has its colour.
#[test]
fn what_went_unseen_has_no_colour() {
    let mut session = Session::new().unwrap();
    let mut colours = Notes::new(&mut session).unwrap();
    let given_up = session.followed(|session| {
        let mut draft = session.draft()?;
        let top = draft.block(None, [0, 0, 0], [4, 4, 4]).map(|_| Face(1))?;
        colours.insert(&draft, top, "red");
        Ok(())
    });
    colours.follow(&given_up.unwrap().1);
    let (other, changes) = session.followed(|session| session.block(None, [9, 0, 0], [4, 4, 4])).unwrap();
    colours.follow(&changes);
    assert_eq!((colours.get(&session, Face(1)), session.birth(Face(99))), (None, None));
    colours.insert(&session, Face(1), "blue");
    let replaced = session.followed(|session| {
        let mut draft = session.draft()?;
        draft.kill_solid(other)?;
        draft.block(other, [30, 0, 0], [4, 4, 4])?;
        draft.commit()
    });
    let changes = replaced.unwrap().1;
    colours.follow(&changes);
    assert_eq!((changes.faces.made.len(), changes.faces.removed.len(), colours.iter(&session).count()), (6, 6, 0));
    session.undo().unwrap();
    session.block(Solid(7), [90, 0, 0], [4, 4, 4]).unwrap();
    colours.insert(&session, Face(7), "green");
    session.kill_solid(other).unwrap();
    session.renumber().unwrap();
    assert_eq!(colours.iter(&session).collect::<Vec<_>>(), [(Face(1), &"green")]);
    session.undo().unwrap();
    session.undo().unwrap();
    assert_eq!(colours.iter(&session).collect::<Vec<_>>(), [(Face(1), &"blue"), (Face(7), &"green")]);
    assert_eq!((colours.remove(&session, Face(1)), colours.get(&session, Face(1))), (Some("blue"), None));
}

/// Two blocks become one by a union: of what went the faces and edges that go on are told.
#[test]
fn what_became_of_things_is_known() {
    let mut session = block();
    let other = session.block(None, [4, 0, 0], [4, 4, 4]).unwrap();
    let old_birth = {
        Notes::<Face, ()>::new(&mut session).unwrap();
        session.birth(Face(7)).unwrap()
    };
    let (_, changes) = session.followed(|session| session.union(&[Solid(1), other])).unwrap();
    let made_birth = session.birth(Face(1)).unwrap();
    assert_eq!(changes.became.faces[0], Heir { old: Face(7), made: Face(1), old_birth, made_birth });
    assert_eq!((changes.became.faces.len(), changes.became.vertices.len()), (4, 0));
    assert!(changes.became.edges.iter().all(|heir| session.edge(heir.old).is_none() && session.edge(heir.made).is_some()));
    assert_eq!(session.followed(|session| session.block(None, [90, 0, 0], [1, 1, 1])).unwrap().1.became, Became::default());
}

/// Two blocks beside each other.
fn blocks() -> Session {
    let mut session = block();
    session.block(Solid(2), [4, 0, 0], [4, 4, 4]).unwrap();
    session
}

/// The same of the last command, which nobody followed: a colour goes along.
#[test]
fn what_became_of_things_by_the_last_command() {
    let mut session = blocks();
    let mut colours = Notes::new(&mut session).unwrap();
    colours.insert(&session, Face(7), "red");
    session.union(&[Solid(1), Solid(2)]).unwrap();
    session.block(None, [90, 0, 0], [1, 1, 1]).unwrap();
    assert_eq!(session.became(), Ok(Became::default()));
    session.undo().unwrap();
    let told = session.became().unwrap();
    assert_eq!((told.faces[0].old, told.faces[0].made, told.faces.len(), session.ahead()), (Face(7), Face(1), 4, 1));
    colours.inherit(&told.faces);
    assert_eq!(colours.iter(&session).collect::<Vec<_>>(), [(Face(1), &"red")]);
}

/// What is followed within another is told to both.
#[test]
fn followed_within_another() {
    let mut session = block();
    let mut colours = Notes::new(&mut session).unwrap();
    colours.insert(&session, Face(3), "red");
    let (within, changes) = session
        .followed(|session| {
            session.split(Solid(1), [0, 0, 1, -2], None)?;
            session.followed(|session| session.block(None, [9, 9, 9], [1, 1, 1]).map(drop)).map(|(_, changes)| changes).map_err(|(error, _)| error)
        })
        .unwrap();
    colours.follow(&changes);
    assert_eq!((within.faces.made.len(), changes.faces.made.len(), colours.iter(&session).count()), (6, 12, 2));
}

/// What is accepted before a refusal is followed; walls are no parts of the face that is moved; a copy has the values of what it is of.
#[test]
fn what_notes_follow() {
    let mut session = block();
    let mut colours = Notes::new(&mut session).unwrap();
    colours.insert(&session, Face(1), "red");
    colours.insert(&session, Face(3), "blue");
    let (error, changes) = session
        .followed(|session| session.split(Solid(1), [0, 0, 1, -2], None).and_then(|_| session.split(Solid(1), [0, 0, 1, -9], None)))
        .unwrap_err();
    colours.follow(&changes);
    assert_eq!((Err(error), colours.iter(&session).count()), (refused::<()>(Refusal::PlaneMisses, 1), 3));
    colours.follow(&session.followed(|session| session.sweep(Face(1), [0, 0, 3])).unwrap().1);
    assert_eq!(colours.iter(&session).count(), 3);
    let (copy, changes) = session.followed(|session| session.copy_solid(Solid(1), Motion::by([20, 0, 0]))).unwrap();
    colours.follow(&changes);
    colours.copied(&session, |face| copy.face(face));
    assert_eq!((colours.get(&session, copy.face(Face(3)).unwrap()), colours.iter(&session).count()), (Some(&"blue"), 4));
    assert_eq!(session.followed_redo().map(drop), refused(Refusal::NothingToRedo, 0));
}

#[test]
fn marks_are_of_their_draft() {
    let mut session = block();
    let mut draft = session.draft().unwrap();
    draft.block(None, [9, 0, 0], [4, 4, 4]).unwrap();
    let committed = draft.mark();
    draft.commit().unwrap();
    let mut draft = session.draft().unwrap();
    let first = draft.mark();
    draft.block(None, [18, 0, 0], [4, 4, 4]).unwrap();
    let late = draft.mark();
    assert_eq!((draft.back(committed), draft.numbers::<Solid>().count()), (Err(Error::NoDraft), 3));
    draft.back(first).unwrap();
    draft.block(None, [27, 0, 0], [4, 4, 4]).unwrap();
    draft.block(None, [36, 0, 0], [4, 4, 4]).unwrap();
    assert_eq!((draft.back(late), draft.numbers::<Solid>().count()), (Err(Error::NoDraft), 4));
    draft.back(first).unwrap();
    assert_eq!(draft.numbers::<Solid>().count(), 2);
}

#[test]
fn a_record_and_a_stop() {
    let mut session = Session::new().unwrap();
    assert_eq!((session.script(), session.recorded()), (String::new(), 0));
    session.record().unwrap();
    let block = session.block(None, [0, 0, 0], [4, 4, 4]).unwrap();
    assert_eq!(session.last_block().map(|made| (made.top, made.sides[3])), Some((Face(1), Face(6))));
    let flag = Arc::new(AtomicBool::new(true));
    session.stop_when(Some(flag.clone()));
    let (changes, outline) = (session.changes(), [[1, 1, 4], [3, 1, 4], [3, 3, 4]]);
    assert_eq!(session.pocket(Face(1), &outline, 2).map(drop), Err(Error::Stopped));
    assert_eq!(session.off_lattice(block, [2, 0, 0, -3], 3).map(drop), Err(Error::Stopped));
    assert_eq!(session.find_crossings(block, None), Err(Error::Stopped));
    flag.store(false, Ordering::Relaxed);
    assert!(session.pocket(Face(1), &outline, 2).is_ok() && session.changes() > changes);
    session.stop_when(None);
    assert_eq!((session.recorded(), session.script_of(0..1)), (2, "block 1 0 0 0 4 4 4\n".to_owned()));
    let mut other = Session::new().unwrap();
    other.run_lines(&session.script()).unwrap();
    assert_eq!(other.listing(), session.listing());
    assert_eq!(other.record(), Err(Error::NoCall));
}

#[test]
fn what_is_made_has_names() {
    let mut session = block();
    let cut = session.split_solid(Solid(1), [0, 0, 1, -2], None).unwrap();
    let normal = |session: &Session, face| session.plane(face).unwrap().c.signum();
    assert_eq!((cut.lower_caps.len(), normal(&session, cut.lower_caps[0]), normal(&session, cut.upper_caps[0])), (1, 1, -1));
    let copy = session.copy_solid(cut.above, Motion::mirror(2)).unwrap();
    let cap = copy.face(cut.upper_caps[0]).unwrap();
    assert_eq!((session.face(cap).map(|row| row.solid), normal(&session, cap)), (Some(copy.solid), 1));
    let side = session.around(session.face(cut.upper_caps[0]).unwrap().outer_loop).next().unwrap();
    let made = copy.half_edge(side).unwrap();
    assert_eq!(session.start_of(made), copy.vertex(session.start_of(side).unwrap()));
    assert_eq!((session.end_of(made), copy.edge(side.edge())), (copy.vertex(session.end_of(side).unwrap()), Some(made.edge())));
    assert_eq!((copy.face(Face(999)), session.half_edge_rows(Solid(0)).len()), (None, 0));
    for value in [0, 999, u32::MAX] {
        assert_eq!(session.triangle_rows(Solid(value)), Err(Error::Refused { refusal: Refusal::NoSolid, value }));
    }
    session.lamina(None, &[[20, 0, 0], [24, 0, 0], [20, 4, 0]]).unwrap();
    assert!(session.last_lamina().map_or(false, |sheet| normal(&session, sheet.front) == 1));
}

#[test]
fn zero_is_no_number_to_be_found() {
    let mut session = block();
    let (faces, edges) = (FaceQuery { solid: Some(Solid(0)), ..FaceQuery::default() }, EdgeQuery { solid: Some(Solid(0)), ..EdgeQuery::default() });
    assert_eq!((session.find_faces(&faces), session.find_edges(&edges)), (refused(Refusal::NoSolid, 0), refused(Refusal::NoSolid, 0)));
    let between = EdgeQuery { between: Some([Face(0); 2]), ..EdgeQuery::default() };
    assert_eq!(session.find_edges(&between), Err(Error::NoCall));
    assert_eq!(session.pattern(Solid(1), u32::MAX, [9, 0, 0]), refused(Refusal::NumbersSpent, 1));
}

fn told<N: Copy>(changes: &[Change<N>]) -> Vec<(N, Option<N>)> {
    changes.iter().map(|change| (change.id, change.other)).collect()
}

#[test]
fn what_operators_did_is_known() {
    let mut session = block();
    let (_, changes) = session.followed(|session| session.mef(plus(Edge(7)), plus(Edge(11)), Edge(20), Face(20), Loop(20))).unwrap();
    assert_eq!(told(&changes.faces.made), [(Face(20), Some(Face(1)))]);
    assert_eq!(changes.faces.made[0].other_birth, session.birth(Face(1)));
    assert_eq!((told(&changes.edges.made), changes.edges.removed), (vec![(Edge(20), None)], vec![]));
    let (error, changes) = session.followed(|session| session.kvfs(Solid(1))).unwrap_err();
    assert_eq!((Err(error), changes.faces.made.len()), (refused::<()>(Refusal::NotBare, 1), 0));
    let after = session.next(minus(Edge(7))).unwrap();
    let ends = session.edge(Edge(7)).map(|row| (session.vertex(row.from).unwrap(), session.vertex(row.to).unwrap())).unwrap();
    let middle = [(ends.0.x + ends.1.x) / 2, (ends.0.y + ends.1.y) / 2, (ends.0.z + ends.1.z) / 2];
    let (_, changes) = session.followed(|session| session.mev(plus(Edge(7)), after, Edge(30), None, middle)).unwrap();
    assert_eq!(told(&changes.edges.made), [(Edge(30), Some(Edge(7)))]);
}

#[test]
fn what_is_left_of_numbers_is_known() {
    let session = block();
    let mut faces = session.faces(Solid(1));
    assert_eq!(faces.size_hint(), (0, Some(1_000_000)));
    faces.next();
    assert_eq!((faces.size_hint(), faces.clone().count(), faces.count()), ((0, Some(999_999)), 5, 5));
    assert_eq!((session.around(Loop(1)).size_hint().0, session.around(Loop(99)).size_hint()), (1, (0, Some(0))));
}

#[test]
fn planes_are_asked_for_on_the_way() {
    let session = block();
    let up: Result<Vec<_>, Error> = session.faces(Solid(1)).map(|face| session.plane(face)).collect();
    assert_eq!(up.unwrap().iter().filter(|plane| plane.c > 0).count(), 1);
}

#[test]
fn many_threads_read_one_session() {
    let mut session = block();
    let shared = session.shared();
    let count = || (0..1000).map(|_| shared.faces(Solid(1)).flat_map(|face| shared.edges_of(face)).count()).sum::<usize>();
    let counts = std::thread::scope(|scope| [(); 4].map(|()| scope.spawn(count)).map(|thread| thread.join().unwrap()));
    assert_eq!(counts, [24_000; 4]);
    let moved = std::thread::spawn(move || {
        session.undo().unwrap();
        session
    });
    assert_eq!(moved.join().unwrap().ahead(), 1);
}

#[test]
fn a_long_loop_is_read_whole() {
    let mut session = Session::new().unwrap();
    let points: Vec<Point> = (0..64).map(|at| [at, at * at, 0].into()).collect();
    session.lamina(Solid(1), &points).unwrap();
    assert_eq!(session.half_edges(Loop(1)), (1..=64).map(|edge| plus(Edge(edge))).collect::<Vec<_>>());
    assert_eq!(session.lamina(Solid(2), &[points, vec![Point::default()]].concat()), Err(Error::NoCall));
}

#[test]
fn lines_are_answered_as_text() {
    let mut session = Session::new().unwrap();
    session.run("block 1 0 0 0 4 4 4").unwrap();
    assert_eq!(session.reply().unwrap(), "ok\n");
    assert_eq!(session.run("blok"), Err(Error::Fault(1)));
    assert_eq!(session.run("kvfs 1"), refused(Refusal::NotBare, 1));
    assert_eq!(session.reply().unwrap(), "refused 12 1\n");
    assert_eq!(session.run(""), Ok(()));
    assert!(listing(&session).len() > 256);
}

#[test]
fn errors_say_what_is_wrong() {
    let error: Box<dyn std::error::Error> = Box::new(block().kvfs(Solid(1)).unwrap_err());
    assert_eq!(error.to_string(), "NotBare 1");
    assert_eq!(Refusal::NotBare.text(), "solid X has more than a vertex");
    assert_eq!(format!("{:?}", block()), "Session { depth: 1, ahead: 0, .. }");
}

#[test]
fn the_version_is_the_one_that_is_written() {
    let (major, minor, patch) = version();
    assert_eq!(format!("{major}.{minor}.{patch}"), include_str!("../../../VERSION").trim());
}

#[test]
fn two_sessions_share_nothing() {
    let (mut one, mut other) = (block(), Session::new().unwrap());
    assert_eq!(other.kvfs(Solid(1)), refused(Refusal::NoSolid, 1));
    one.undo().unwrap();
    assert_eq!((one.ahead(), other.ahead()), (1, 0));
}

// ---- heaps

/// How many blocks a heap over that of C has given out, and how many more it gives.
struct Pool {
    held: Cell<i64>,
    left: Cell<i64>,
}

extern "C" {
    fn malloc(size: usize) -> *mut c_void;
    fn realloc(block: *mut c_void, size: usize) -> *mut c_void;
    fn free(block: *mut c_void);
}

impl Pool {
    fn new(left: i64) -> Self {
        Self { held: Cell::new(0), left: Cell::new(left) }
    }

    fn heap(&self) -> Heap {
        Heap { allocate, reallocate, release, user: NonNull::from(self).as_ptr().cast() }
    }

    fn gives(&self) -> bool {
        self.left.set(self.left.get() - 1);
        self.left.get() >= 0
    }
}

unsafe extern "C" fn allocate(user: *mut c_void, size: usize) -> *mut c_void {
    let pool = unsafe { &*user.cast::<Pool>() };
    if !pool.gives() {
        return std::ptr::null_mut();
    }
    pool.held.set(pool.held.get() + 1);
    unsafe { malloc(size) }
}

unsafe extern "C" fn reallocate(user: *mut c_void, block: *mut c_void, size: usize) -> *mut c_void {
    let pool = unsafe { &*user.cast::<Pool>() };
    if pool.gives() {
        unsafe { realloc(block, size) }
    } else {
        std::ptr::null_mut()
    }
}

unsafe extern "C" fn release(user: *mut c_void, block: *mut c_void) {
    let pool = unsafe { &*user.cast::<Pool>() };
    pool.held.set(pool.held.get() - 1);
    unsafe { free(block) }
}

#[test]
fn heaps_of_sessions() {
    let pool = Pool::new(1_000_000);
    let heap = pool.heap();
    let mut session = unsafe { Session::new_in(&heap) }.unwrap();
    let mut plain = block();
    let before = pool.held.get();
    plain.split(Solid(1), [0, 0, 1, -2], None).unwrap();
    assert_eq!(pool.held.get(), before);
    session.block(None, [0, 0, 0], [4, 4, 4]).unwrap();
    assert!(pool.held.get() > before);
    drop(session);
    assert_eq!(pool.held.get(), 0);
    let full = Pool::new(0);
    assert!(matches!(unsafe { Session::new_in(&full.heap()) }, Err(Error::Memory)));
}

/// Memory that is refused in a draft leaves no trace, and what was refused is given again.
#[test]
fn memory_refused_in_a_draft() {
    let pool = Pool::new(1_000_000);
    let heap = pool.heap();
    let mut session = unsafe { Session::new_in(&heap) }.unwrap();
    let mut draft = session.draft().unwrap();
    let mut refusals = 0;
    for place in 0..200 {
        let before = draft.listing().unwrap();
        pool.left.set(0);
        let told = draft.block(None, [9 * place, 0, 0], [4, 4, 4]);
        pool.left.set(1_000_000);
        if told.is_err() {
            assert_eq!((told, draft.listing().unwrap()), (Err(Error::Memory), before));
            draft.block(None, [9 * place, 0, 0], [4, 4, 4]).unwrap();
            refusals += 1;
        }
    }
    assert!(refusals > 0);
    draft.commit().unwrap();
    assert_eq!((session.depth(), session.numbers::<Solid>().count()), (1, 200));
}
