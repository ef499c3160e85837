//! A block is made, cut in two and put back, and two operators become one command, from Rust.
use gwb::{plus, Edge, Error, Face, Loop, Refusal, Session, Solid};

/// Prints what each face of a solid has round it.
fn print_faces(session: &Session, solid: Solid) {
    for face in session.faces(solid) {
        let outer_loop = session.face(face).map(|row| row.outer_loop).unwrap_or_default();
        let half_edges: Vec<_> = session.half_edges(outer_loop).iter().map(ToString::to_string).collect();
        println!("face {face} has the half-edges {}", half_edges.join(" "));
    }
}

/// Prints the volume of a solid, if it is there.
fn print_volume(session: &Session, solid: Solid) -> Result<(), Error> {
    match session.six_volumes(solid) {
        Ok(six) => println!("the volume of solid {solid} is {}", six / 6),
        Err(Error::Refused { refusal: Refusal::NoSolid, value }) => println!("there is no solid {value}"),
        Err(other) => return Err(other),
    }
    Ok(())
}

/// Two operators as one command: an edge to the middle of face 1, which is cut off again, so that its end is a ring.
fn add_ring(session: &mut Session) -> Result<(), Error> {
    let mut draft = session.draft()?;
    let (edge, _) = draft.mev(plus(Edge(9)), plus(Edge(9)), None, None, [2, 2, 4])?;
    draft.kemr(plus(edge), Loop(7))?;
    draft.commit()
}

fn main() -> Result<(), Error> {
    let mut session = Session::new()?;
    let block = session.block(None, [0, 0, 0], [4, 4, 4])?;
    let above = session.split(block, [0, 0, 1, -2], None)?;
    print_volume(&session, block)?;
    print_volume(&session, above)?;
    print_faces(&session, above);
    if let Err(error) = session.kvfs(above) {
        println!("kvfs: {error}");
    }
    if let Err(error) = session.run("splitt 2") {
        println!("splitt: {error}");
    }
    session.undo()?;
    println!("depth {}, ahead {}", session.depth(), session.ahead());
    print_volume(&session, above)?;
    println!("face 1: {:?}", session.plane(Face(1))?);
    println!("edge 7 is between {:?}", session.faces_of(Edge(7)).unwrap_or_default());
    // an edge stands up from the corner at which the first half-edge of edge 7 starts
    let (edge, end) = session.mev(plus(Edge(7)), plus(Edge(7)), None, None, [0, 0, 9])?;
    println!("edge {edge}: {:?}, and its end is at {:?}", session.edge(edge), session.vertex(end));
    add_ring(&mut session)?;
    println!("ring 7 is at {:?}; depth {}", session.lone_vertex(Loop(7)), session.depth());
    session.run("count 1")?;
    print!("{}", session.reply()?);
    Ok(())
}
