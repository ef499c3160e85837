//! Drafts of features, listings and scripts, triangles, circles, and files of other forms. What features give says tests/library_features.table.
use gwb::{circle, Circle, Error, ExportError, Face, Motion, Point, Refusal, Session, Solid, Step};

#[test]
fn motions() {
    let turned = Motion::quarter_turns(2, 1).then(Motion::mirror(1)).then(Motion::by([20, -3, 5]));
    assert_eq!((turned.moved(Point::from([1, 2, 3])), turned.is_mirror()), (Point::from([18, -4, 8]), true));
    assert_eq!((Motion::default().moved(Point::from([1, 2, 3])), Motion::quarter_turns(1, 2).is_mirror()), (Point::from([1, 2, 3]), false));
}

#[test]
fn in_a_draft_they_are_steps() {
    let mut session = Session::new().unwrap();
    let block = session.block(None, [0, 0, 0], [4, 4, 4]).unwrap();
    let mut draft = session.draft().unwrap();
    let copy = draft.copy_solid(block, Motion::by([9, 0, 0])).unwrap().solid;
    let mark = draft.mark();
    draft.move_solid(copy, Motion::mirror(1)).unwrap();
    draft.kill_solid(block).unwrap();
    draft.back(mark).unwrap();
    let steps = draft.steps();
    assert!(draft.move_solid(copy, Motion::by([1_000_000_000, 0, 0])).is_err());
    assert_eq!((draft.steps(), draft.faces(block).count()), (steps, 6));
    draft.commit().unwrap();
    assert_eq!((session.depth(), session.six_volumes(copy), session.count(copy)), (2, Ok(6 * 64), session.count(block)));
}

#[test]
fn in_a_draft() {
    let mut session = Session::new().unwrap();
    let block = session.block(None, [0, 0, 0], [8, 8, 8]).unwrap();
    let mut draft = session.draft().unwrap();
    draft.pocket(Face(1), &[[2, 2, 8], [4, 2, 8], [4, 4, 8]], 3).unwrap();
    let (mark, pocketed) = (draft.mark(), draft.listing().unwrap());
    draft.slot(Face(1), [6, 0, 8], [6, 8, 8], 2, 1).unwrap();
    assert_eq!(draft.six_volumes(block), Ok(6 * (512 - 16) - 36));
    draft.back(mark).unwrap();
    assert!(draft.slot(Face(1), [9, 0, 8], [9, 8, 8], 2, 4).is_err());
    assert_eq!(draft.listing().unwrap(), pocketed);
    draft.commit().unwrap();
    assert_eq!((session.depth(), session.listing().unwrap()), (2, pocketed));
}

/// A block with a hole.
fn holed() -> Session {
    let mut session = Session::new().unwrap();
    session.block(Solid(1), [0, 0, 0], [8, 8, 8]).unwrap();
    session.hole(Face(1), &[[2, 2, 8], [6, 2, 8], [6, 6, 8], [2, 6, 8]]).unwrap();
    session
}

/// Models are made of their listings, beside others, as one command.
#[test]
fn loaded() {
    let session = holed();
    let listing = session.listing().unwrap();
    let mut other = Session::new().unwrap();
    other.load(&listing).unwrap();
    assert_eq!((other.listing().unwrap(), other.depth()), (listing.clone(), 1));
    assert_eq!(other.fresh::<Face>(), session.greatest::<Face>().map(|last| 1..=last.0));
    assert_eq!(other.load(&listing), Err(Error::Refused { refusal: Refusal::SolidTaken, value: 1 }));
    assert_eq!((other.load("solid 1\n"), other.depth()), (Err(Error::NoCall), 1));
}

#[test]
fn loaded_in_a_draft() {
    let mut session = Session::new().unwrap();
    let mut draft = session.draft().unwrap();
    draft.load("solid 2\nface 2 2 2\nloop 2 at 2\nvertex 2 1 2 3\n").unwrap();
    let mark = draft.mark();
    draft.load("solid 3\nface 3 3 3\nloop 3 at 3\nvertex 3 1 2 3\n").unwrap();
    draft.back(mark).unwrap();
    draft.commit().unwrap();
    assert_eq!((session.depth(), session.numbers::<Solid>().collect::<Vec<_>>()), (1, vec![Solid(2)]));
    assert_eq!(session.fresh::<Face>(), Some(2..=2));
}

#[test]
fn scripts() {
    let mut session = Session::new().unwrap();
    assert_eq!(session.run_lines("block 1 0 0 0 4 4 4\n\n# a comment\ncount 1"), Ok(()));
    let refused = Error::Refused { refusal: Refusal::NotBare, value: 1 };
    assert_eq!(session.run_lines("undo\nredo\nkvfs 1\nundo\n"), Err((2, refused)));
    assert_eq!(session.depth(), 1);
}

/// The triangles of a face go round what it does: their vectors, as long as twice their areas, add up to that of its plane.
#[test]
fn triangles() {
    let (session, solid) = (holed(), Solid(1));
    for face in session.faces(solid) {
        let mut sum = [0; 3];
        for corners in session.triangles(face).unwrap() {
            let [start, one, other] = corners.map(|corner| session.vertex(corner).unwrap());
            let (u, v) = (one - start, other - start);
            sum = [sum[0] + u.y * v.z - u.z * v.y, sum[1] + u.z * v.x - u.x * v.z, sum[2] + u.x * v.y - u.y * v.x];
        }
        let plane = session.plane(face).unwrap();
        assert_eq!(sum.map(i128::from), [plane.a, plane.b, plane.c]);
    }
    let all: Vec<_> = session.faces(solid).flat_map(|face| session.triangles(face).unwrap().into_iter().map(move |corners| (face, corners))).collect();
    assert_eq!(session.triangle_rows(solid), Ok(all.clone()));
    assert_eq!(session.triangle_rows(None), Ok(all));
    assert_eq!(session.triangles(Face(999)), Ok(Vec::new()));
}

/// Corners for circles are those of a drill, alike in all quarters, with their flats outside the circle where that is asked for.
#[test]
fn circles() {
    let mut session = Session::new().unwrap();
    session.block(None, [0, 0, 0], [100, 100, 9]).unwrap();
    let drilled = session.drill(Face(1), [50, 50, 9], 9, 12, 0).unwrap();
    let corners = circle(18, 12, Circle::Corners, 1).unwrap();
    let moved: Vec<Point> = corners.iter().map(|&[x, y]| Point { x: x + 50, y: y + 50, z: 9 }).collect();
    assert_eq!(drilled.points, moved);
    assert!(corners.iter().all(|&[x, y]| corners.contains(&[-y, x]) && corners.contains(&[x, -y])));
    let flats = circle(18, 12, Circle::Flats, 1).unwrap();
    let sides = flats.iter().zip(flats.iter().cycle().skip(1));
    assert!(sides.clone().all(|(a, b)| (a[0] * b[1] - a[1] * b[0]).pow(2) >= 81 * ((b[0] - a[0]).pow(2) + (b[1] - a[1]).pow(2))));
    assert!(circle(1001, 8, Circle::Area, 5).unwrap().iter().flatten().all(|part| part % 5 == 0));
    assert_eq!([circle(0, 8, Circle::Area, 1), circle(9, 2, Circle::Area, 1), circle(9, 8, Circle::Area, 0)], [None, None, None]);
}

/// The companions of this repository, from where tests are run.
fn companions() -> std::path::PathBuf {
    ["companions", "../../companions"].iter().map(std::path::PathBuf::from).find(|path| path.is_dir()).unwrap()
}

#[test]
fn files_of_other_forms() {
    let mut session = Session::new().unwrap();
    let base = std::env::temp_dir().join(format!("gwb-export-{}.none", std::process::id()));
    let file = |ending| base.with_extension(ending);
    std::env::set_var("GWB_COMPANIONS", companions());
    assert!(matches!(session.export(file("step"), None), Err(ExportError::Refused(_))));
    session.block(None, [0, 0, 0], [4, 4, 4]).unwrap();
    let step = "ISO-10303-21;";
    for (ending, first) in [("step", step), ("P21", step), ("3mf", "PK"), ("stl", "solid"), ("obj", "v "), ("off", "OFF"), ("glb", "glTF")] {
        assert_eq!(session.export(file(ending), None).unwrap(), "");
        assert!(std::fs::read(file(ending)).unwrap().starts_with(first.as_bytes()));
        std::fs::remove_file(file(ending)).unwrap();
    }
    let by = |numerator, denominator| session.export_by(file("stl"), None, Some(Step { numerator, denominator }));
    assert_eq!(by(1, 1000).unwrap(), "");
    assert!(std::fs::read_to_string(file("stl")).unwrap().contains("vertex 0.004 0.004 0.004\n"));
    assert!(matches!(by(1, 0), Err(ExportError::Refused(_))));
    std::fs::remove_file(file("stl")).unwrap();
    let no_form = session.export(&base, None).unwrap_err();
    assert!(matches!(no_form, ExportError::NoForm(_)) && no_form.to_string().contains(": the endings are step stp "));
    assert!(matches!(session.export("/none/part.stl", None), Err(ExportError::NoFile(..))));
    std::env::set_var("GWB_COMPANIONS", "/none");
    assert!(matches!(session.export(file("stl"), None), Err(ExportError::NoProgram(..))));
}

/// What faces that become one went into: a part that is there, or nothing.
#[test]
fn merged() {
    let mut session = Session::new().unwrap();
    let outline = [[0, 0, 0], [8, 0, 0], [8, 0, 4], [4, 0, 4], [4, 0, 8], [0, 0, 8]];
    let step = session.profile(None, &outline, [0, 8, 0]).unwrap().solid;
    let parts = session.cut(step, [0, 0, 1, -4], None).unwrap();
    let made = session.union(&[step, parts.above]).unwrap();
    assert!(made.solid == step && !made.merged.is_empty());
    assert!(made.merged.iter().all(|&(face, part)| session.face(part).is_some() || face == part));
}
