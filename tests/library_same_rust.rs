//! A program of features, by the crate `gwb`: reads it line by line, and writes what each line gives. tests/library_same.py compares it with the same
//! program in other languages.
use gwb::{Crossing, Edge, EdgeQuery, Error, Face, FaceQuery, Hit, Hole, Id, Met, Motion, Notch, Pocket, Point, Readers, Session, Solid};
use std::collections::BTreeSet;
use std::io::{self, BufRead, Lines, StdinLock};

/// The words of a line after the first one: numbers, taken one after another.
struct Words(std::vec::IntoIter<String>);

impl Words {
    fn number(&mut self) -> i64 {
        self.0.next().unwrap().parse().unwrap()
    }
    fn name<N: Id>(&mut self) -> N {
        N::from_number(self.number() as u32)
    }
    fn point(&mut self) -> Point {
        [0; 3].map(|_: i32| self.number()).into()
    }
    fn plane(&mut self) -> [i64; 4] {
        [0; 4].map(|_: i32| self.number())
    }
    fn ratio(&mut self) -> [u64; 2] {
        [0; 2].map(|_: i32| self.number() as u64)
    }
    /// All that are left.
    fn names<N: Id>(&mut self) -> Vec<N> {
        std::iter::from_fn(|| (self.0.len() > 0).then(|| self.name())).collect()
    }
    fn points(&mut self) -> Vec<Point> {
        let mut found = Vec::new();
        while self.0.len() > 0 {
            found.push(self.point());
        }
        found
    }
    /// 0 and a vector; 1, an axis and how many quarter turns about it; 2 and an axis to mirror across.
    fn motion(&mut self) -> Motion {
        match self.number() {
            0 => Motion::by(self.point()),
            1 => Motion::quarter_turns(self.number() as usize, self.number() as usize),
            _ => Motion::mirror(self.number() as usize),
        }
    }
}

/// Numbers, each after a blank.
fn told<N: Id>(numbers: &[N]) -> String {
    numbers.iter().map(|number| format!(" {}", number.number())).collect()
}

fn counted<N: Id>(numbers: &[N]) -> String {
    format!(" {}{}", numbers.len(), told(numbers))
}

fn notch(made: &Notch) -> String {
    counted(&made.floor) + &counted(&made.walls)
}

fn pocket(made: &Pocket) -> String {
    told(&[made.face]) + &told(&[made.of_loop]) + &told(&made.sides)
}

fn hole(made: &Hole) -> String {
    told(&[made.other]) + &told(&[made.of_loop]) + &told(&made.sides)
}

fn drilled(made: &Hole) -> String {
    hole(made) + &made.points.iter().map(|at| format!(" {} {} {}", at.x, at.y, at.z)).collect::<String>()
}

/// What readers answer to a line: none to another one.
fn read(readers: &Readers, word: &str, words: &mut Words) -> Option<Result<String, Error>> {
    Some(match word {
        "list" => Ok(readers.listing().unwrap()),
        "off_lattice" => {
            let (solid, plane) = (words.name::<Solid>(), words.plane());
            readers.off_lattice(solid, plane, 3).map(|said| format!(" {} {}", said.cuts.len(), said.factor.unwrap_or(0)))
        }
        "advice" => {
            let (solid, plane) = (words.name::<Solid>(), words.plane());
            readers.off_lattice(solid, plane, 3).map(|said| said.advice(Solid(77)))
        }
        "faces" => readers.find_faces(&faces(words)).map(|found| told(&found)),
        "edges" => readers.find_edges(&edges(words)).map(|found| told(&found)),
        "crossings" => {
            let (solid, other) = (words.name(), Some(words.name()).filter(|&other| other != Solid(0)));
            readers.find_crossings(solid, other).map(|found| found.iter().map(crossing).collect())
        }
        _ => return None,
    })
}

fn crossing(of: &Crossing) -> String {
    let [x, y, z] = of.point;
    told(&[of.first, of.second]) + &format!(" {x} {y} {z}")
}

fn faces(words: &mut Words) -> FaceQuery {
    let mut query = FaceQuery { solid: Some(words.name()).filter(|&solid| solid != Solid(0)), ..FaceQuery::default() };
    match words.number() {
        1 => query.plane = Some(words.plane()),
        2 => query.normal = Some(words.point()),
        3 => query.containing = Some(words.point()),
        4 => query.area = Some(words.ratio()),
        _ => {}
    }
    query
}

fn edges(words: &mut Words) -> EdgeQuery {
    let mut query = EdgeQuery { solid: Some(words.name()).filter(|&solid| solid != Solid(0)), ..EdgeQuery::default() };
    match words.number() {
        1 => query.between = Some([words.name(), words.name()]),
        2 => query.along = Some(words.point()),
        3 => query.length = Some(words.ratio()),
        _ => {}
    }
    query
}

/// What a session or a draft answers to a line: features have the same names in both.
macro_rules! made {
    ($bench:expr, $word:expr, $words:expr) => {{
        let (bench, words) = ($bench, $words);
        match $word {
            "block" => {
                let (solid, corner, sizes) = (words.name::<Solid>(), words.point(), words.point());
                bench.block(solid, corner, sizes).map(|_| {
                    let made = bench.last_block().unwrap();
                    told(&[made.top, made.bottom]) + &told(&made.sides)
                })
            }
            "profile" => {
                let (solid, along, points) = (words.name::<Solid>(), words.point(), words.points());
                bench.profile(solid, &points, along).map(|made| told(&[made.far, made.base]) + &told(&made.sides))
            }
            "ring" => bench
                .ring(words.name(), &words.points())
                .map(|made| told(&[made.face]) + &told(&[made.of_loop]) + &told(&made.edges) + &told(&made.vertices)),
            "pocket" | "boss" | "notch" | "pad" => {
                let (face, length, points) = (words.name::<Face>(), words.number(), words.points());
                match $word {
                    "pocket" => bench.pocket(face, &points, length).map(|made| pocket(&made)),
                    "boss" => bench.boss(face, &points, length).map(|made| pocket(&made)),
                    "pad" => bench.pad(face, &points, length).map(|made| counted(&made.top) + &counted(&made.walls)),
                    _ => bench.notch(face, &points, length).map(|made| notch(&made)),
                }
            }
            "pocket_along" | "boss_along" => {
                let (face, along, points) = (words.name::<Face>(), words.point(), words.points());
                match $word {
                    "pocket_along" => bench.pocket_along(face, &points, along).map(|made| pocket(&made)),
                    _ => bench.boss_along(face, &points, along).map(|made| pocket(&made)),
                }
            }
            "hole" => bench.hole(words.name(), &words.points()).map(|made| hole(&made)),
            "drill" => {
                let (face, center, radius, sides) = (words.name::<Face>(), words.point(), words.number(), words.number() as u32);
                bench.drill(face, center, radius, sides, words.number()).map(|made| drilled(&made))
            }
            "drill_along" => {
                let (face, center, radius, sides) = (words.name::<Face>(), words.point(), words.number(), words.number() as u32);
                bench.drill_along(face, center, radius, sides, words.point()).map(|made| drilled(&made))
            }
            "slot" => bench.slot(words.name(), words.point(), words.point(), words.number(), words.number()).map(|made| notch(&made)),
            "groove" => bench.groove(words.name(), words.point(), words.point(), words.number(), words.number()).map(|made| notch(&made)),
            "notch_along" => {
                let (face, along) = (words.name(), words.point());
                bench.notch_along(face, &words.points(), along).map(|made| notch(&made))
            }
            "pad_along" => {
                let (face, along) = (words.name(), words.point());
                bench.pad_along(face, &words.points(), along).map(|made| counted(&made.top) + &counted(&made.walls))
            }
            "slot_along" => bench.slot_along(words.name(), words.point(), words.point(), words.number(), words.point()).map(|made| notch(&made)),
            "groove_along" => bench.groove_along(words.name(), words.point(), words.point(), words.number(), words.point()).map(|made| notch(&made)),
            "shoulder_along" => bench.shoulder_along(words.name(), words.name(), words.number(), words.point()).map(|made| notch(&made)),
            "shoulder" => bench.shoulder(words.name(), words.name(), words.number(), words.number()).map(|made| notch(&made)),
            "chamfer" => bench.chamfer(words.name(), words.number(), words.number()).map(|made| told(&[made])),
            "kill" => bench.kill_solid(words.name()).map(|()| String::new()),
            "copy" => {
                let solid = words.name();
                bench.copy_solid(solid, words.motion()).map(|made| {
                    let faces: Vec<Face> = bench.faces(solid).map(|face| made.face(face).unwrap()).collect();
                    let edges: BTreeSet<Edge> = bench.half_edge_rows(solid).iter().map(|row| row.half_edge.edge()).collect();
                    let halves: String = edges.iter().map(|&edge| format!(" {}", made.half_edge(gwb::plus(edge)).unwrap().code())).collect();
                    told(&[made.solid]) + &told(&faces) + &halves
                })
            }
            "move" => {
                let solid = words.name();
                bench.move_solid(solid, words.motion()).map(|()| String::new())
            }
            "pattern" => bench.pattern(words.name(), words.number() as u32, words.point()).map(|made| told(&made)),
            "pattern_around" => {
                let (solid, count) = (words.name(), words.number() as u32);
                bench.pattern_around(solid, count, words.number() as u32, words.number() as u32, words.point()).map(|made| told(&made))
            }
            "chamfer_edges" => {
                let width = words.number();
                let edges: Vec<Edge> = words.names();
                bench.chamfer_edges(&edges, width).map(|made| told(&made))
            }
            "polyhedron" => {
                let (solid, count, size) = (words.name::<Solid>(), words.number(), words.number() as u32);
                let points: Vec<Point> = (0..count).map(|_| words.point()).collect();
                let corners: Vec<u32> = words.0.by_ref().map(|number| number.parse().unwrap()).collect();
                let sizes = vec![size; corners.len() / size as usize];
                bench.polyhedron(solid, &points, &corners, &sizes).map(|made| format!(" {} {}", made.first_vertex, made.first_face))
            }
            "renumber" => {
                let solids: Vec<Solid> = bench.numbers().collect();
                bench.renumber().map(|all| {
                    let pairs: String = solids.iter().map(|&old| told(&[old, all.solid(old).unwrap()])).collect();
                    format!(" {}{pairs}", 2 * solids.len())
                })
            }
            "scale" => bench.scale(words.number()).map(|()| String::new()),
            "glue_all" => {
                let solids: Vec<Solid> = words.names();
                bench.glue_all(&solids).map(|()| String::new())
            }
            "union" => {
                let solids: Vec<Solid> = words.names();
                bench.union(&solids).map(|_| String::new())
            }
            "intersect" => {
                let solids: Vec<Solid> = words.names();
                bench.intersect(&solids).map(|_| String::new())
            }
            "subtract" => {
                let solid = words.name();
                let tools: Vec<Solid> = words.names();
                bench.subtract(solid, &tools).map(|_| String::new())
            }
            "separate" => {
                let solid: Solid = words.name();
                bench.separate(solid).map(|parts| {
                    let pairs: String = parts.iter().map(|&part| told(&[solid, part])).collect();
                    format!(" {}{pairs}", 2 * parts.len())
                })
            }
            "join_faces" => bench.join_faces(words.name()).map(|_| String::new()),
            "split" | "cut" => {
                let (solid, plane, above) = (words.name(), words.plane(), words.name::<Solid>());
                let made = if $word == "cut" { bench.cut(solid, plane, above) } else { bench.split_solid(solid, plane, above) };
                made.map(|made| counted(&made.lower_caps) + &counted(&made.upper_caps))
            }
            "trim" => bench.trim(words.name(), words.plane()).map(|caps| counted(&caps)),
            word => read(bench, word, words).unwrap(),
        }
    }};
}

/// The cause of a misfit, the thing that was met, and where.
fn met(hit: Hit) -> String {
    let mut told = hit.cause.map_or(String::new(), |cause| format!(" {cause}"));
    told += &match hit.met {
        Some(Met::Solid(solid)) => format!(" solid {solid}"),
        Some(Met::Face(face)) => format!(" face {face}"),
        Some(Met::Loop(of_loop)) => format!(" loop {of_loop}"),
        Some(Met::Edge(edge)) => format!(" edge {edge}"),
        Some(Met::Vertex(vertex)) => format!(" vertex {vertex}"),
        _ => String::new(),
    };
    hit.point.map_or(told.clone(), |[x, y, z]| format!("{told} at {x} {y} {z}"))
}

fn tell(word: &str, given: Result<String, Error>, hit: Option<Hit>) {
    match given {
        Ok(text) if word == "list" || word == "advice" => println!("{text}"),
        Ok(text) => println!("ok{text}"),
        Err(Error::NoCall) => println!("NoCall"),
        Err(error @ Error::Impossible { .. }) => println!("{error}{}", met(hit.unwrap())),
        Err(error) => println!("{error}"),
    }
}

/// The next line: its word and its numbers.
fn next(lines: &mut Lines<StdinLock<'_>>) -> Option<(String, Words)> {
    let line = lines.next()?.unwrap();
    let mut words = line.split(' ').map(str::to_owned);
    let word = words.next().unwrap();
    println!("> {word}");
    Some((word, Words(words.collect::<Vec<_>>().into_iter())))
}

/// The steps of a draft, up to its end.
fn draft(session: &mut Session, lines: &mut Lines<StdinLock<'_>>) {
    let mut draft = session.draft().unwrap();
    tell("draft", Ok(String::new()), None);
    while let Some((word, mut words)) = next(lines) {
        match word.as_str() {
            "commit" => return tell("commit", draft.commit().map(|()| String::new()), None),
            "abandon" => return tell("abandon", Ok(String::new()), None),
            word => tell(word, made!(&mut draft, word, &mut words), draft.hit()),
        }
    }
}

fn main() {
    let (mut lines, mut session) = (io::stdin().lock().lines(), Session::new().unwrap());
    while let Some((word, mut words)) = next(&mut lines) {
        match word.as_str() {
            "part" => {
                session = Session::new().unwrap();
                tell("part", Ok(String::new()), None);
            }
            "load" => {
                let listing = words.0.collect::<Vec<_>>().join(" ").replace(';', "\n") + "\n";
                tell("load", session.load(&listing).map(|()| String::new()), None);
            }
            "draft" => draft(&mut session, &mut lines),
            "undo" => tell("undo", session.undo().map(|()| String::new()), None),
            "redo" => tell("redo", session.redo().map(|()| String::new()), None),
            word => tell(word, made!(&mut session, word, &mut words), session.hit()),
        }
    }
}
