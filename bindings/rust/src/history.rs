//! What commands made, removed and split of a model, and values on faces and edges that follow it.
use crate::readers::{rows, values};
use crate::{Edge, Error, Face, Id, Readers, Session, Vertex};
use std::collections::BTreeMap;
use std::marker::PhantomData;

/// A number that is new or gone.
#[derive(Clone, Copy, Debug, PartialEq, Eq)]
pub struct Change<N> {
    /// The number.
    pub id: N,
    /// What it was split from, or joined to, if from or to anything.
    pub other: Option<N>,
    /// The birth of what was made, or is gone.
    pub birth: u64,
    /// That of the other one, as it was where this was made, or as it is; none also where what is there came back.
    pub other_birth: Option<u64>,
}

/// What commands did to the numbers of a kind.
#[derive(Clone, Debug, Default, PartialEq, Eq)]
pub struct ChangesOf<N> {
    /// Those in use now that were not, rising.
    pub made: Vec<Change<N>>,
    /// Those that were in use and are not, rising.
    pub removed: Vec<Change<N>>,
}

/// Something that is gone or isn't as it was, and another one that came of it, with their births.
#[derive(Clone, Copy, Debug, PartialEq, Eq)]
#[allow(missing_docs)]
pub struct Heir<N> {
    pub old: N,
    pub made: N,
    pub old_birth: u64,
    pub made_birth: u64,
}

/// What came of what isn't as it was, by the old ones: of an edge that hasn't both ends where they were each other one that runs along a part of it, of a
/// vertex that isn't where it was each other one at its point, and of a face whose sides aren't what they were each other one of its plane that looks its
/// way and has a part of a side in common with it.
#[derive(Clone, Debug, Default, PartialEq, Eq)]
#[allow(missing_docs)]
pub struct Became {
    pub faces: Vec<Heir<Face>>,
    pub edges: Vec<Heir<Edge>>,
    pub vertices: Vec<Heir<Vertex>>,
}

/// What commands did to a model.
#[derive(Clone, Debug, Default, PartialEq, Eq)]
#[allow(missing_docs)]
pub struct Changes {
    pub faces: ChangesOf<Face>,
    pub edges: ChangesOf<Edge>,
    pub became: Became,
    /// How many commands could be undone before and after them.
    pub depths: [usize; 2],
}

/// What is told of changes: [`Face`] and [`Edge`].
pub trait Noted: Id {
    /// What became of the numbers of this kind.
    fn of(changes: &Changes) -> &ChangesOf<Self>;
}

impl Noted for Face {
    fn of(changes: &Changes) -> &ChangesOf<Self> {
        &changes.faces
    }
}

impl Noted for Edge {
    fn of(changes: &Changes) -> &ChangesOf<Self> {
        &changes.edges
    }
}

/// What comes is watched for as long as this is there; such may lie one in another.
struct Watching<'session> {
    session: &'session mut Session,
    place: usize,
    depth: usize,
}

// SAFETY, for all calls in this file: as in readers.rs.
impl<'session> Watching<'session> {
    fn new(session: &'session mut Session) -> Result<Self, Error> {
        let mut place = 0;
        let answer = unsafe { gwb_sys::gwb_watch_from(session.handle(), &mut place) };
        session.answered(answer)?;
        let depth = session.depth();
        Ok(Self { session, place, depth })
    }

    fn changes(&mut self) -> Result<Changes, Error> {
        let answer = unsafe { gwb_sys::gwb_compare_from(self.session.handle(), self.place) };
        self.session.answered(answer)?;
        let became = self.session.became()?;
        Ok(Changes { faces: self.changes_of(), edges: self.changes_of(), became, depths: [self.depth, self.session.depth()] })
    }

    fn changes_of<N: Noted>(&self) -> ChangesOf<N> {
        ChangesOf { made: self.listed(true), removed: self.listed(false) }
    }

    fn listed<N: Noted>(&self, are_made: bool) -> Vec<Change<N>> {
        values(|rows, room| unsafe { gwb_sys::gwb_compared_births(self.session.handle(), N::KIND, are_made, rows, room) })
    }
}

impl<N: Id> From<gwb_sys::BornChange> for Change<N> {
    fn from(row: gwb_sys::BornChange) -> Self {
        Self {
            id: N::from_number(row.number),
            other: Some(row.other).filter(|&number| number != 0).map(N::from_number),
            birth: row.birth,
            other_birth: known(row.other_birth),
        }
    }
}

impl<N: Id> From<gwb_sys::BecameRow> for Heir<N> {
    fn from(row: gwb_sys::BecameRow) -> Self {
        Self { old: N::from_number(row.old), made: N::from_number(row.made), old_birth: row.old_birth, made_birth: row.made_birth }
    }
}

/// A birth, where it is known.
fn known(birth: u64) -> Option<u64> {
    Some(birth).filter(|&birth| birth != 0)
}

impl Readers {
    /// The birth of what has a number, which tells it from what has that number later: none where nothing has it, and where no birth is known, as before
    /// the first [`Notes`] of the session.
    #[must_use]
    pub fn birth<N: Id>(&self, id: N) -> Option<u64> {
        known(unsafe { gwb_sys::gwb_birth(self.handle(), N::KIND, id.number()) })
    }
}

impl Drop for Watching<'_> {
    fn drop(&mut self) {
        unsafe { gwb_sys::gwb_watch_to(self.session.handle(), self.place) };
    }
}

/// Those of a kind.
fn heirs<N: Id>(rows: &[gwb_sys::BecameRow]) -> Vec<Heir<N>> {
    rows.iter().filter(|row| row.kind == N::KIND).copied().map(Heir::from).collect()
}

impl Session {
    /// What came of what by the last command that is held, such as a feature, also where nobody followed it. Births are 0 where there were no [`Notes`] when
    /// it was given. It steps back and forth, and so costs as much as reading the model twice, or where there are notes, what the command touched.
    ///
    /// ```
    /// # use gwb::{Error, Face, Notes, Session, Solid};
    /// # let mut session = Session::new()?;
    /// # session.block(None, [0, 0, 0], [4, 4, 4])?;
    /// # session.block(None, [4, 0, 0], [4, 4, 4])?;
    /// let mut colours = Notes::new(&mut session)?;
    /// colours.insert(&session, Face(7), "red");
    /// session.union(&[Solid(1), Solid(2)])?;
    /// let became = session.became()?;
    /// assert_eq!((became.faces[0].old, became.faces[0].made), (Face(7), Face(1)));
    /// colours.inherit(&became.faces);
    /// assert_eq!(colours.get(&session, Face(1)), Some(&"red"));
    /// # Ok::<(), Error>(())
    /// ```
    ///
    /// # Errors
    /// [`Error::Memory`].
    pub fn became(&mut self) -> Result<Became, Error> {
        let write = |rows, room| unsafe { gwb_sys::gwb_became(self.handle(), rows, room) };
        if write(&mut gwb_sys::BecameRow::default(), 0) == usize::MAX {
            return Err(Error::Memory);
        }
        let rows = rows(write);
        Ok(Became { faces: heirs(&rows), edges: heirs(&rows), vertices: heirs(&rows) })
    }

    /// Gives commands, and says what they did.
    ///
    /// ```
    /// # use gwb::{Error, Face, Notes, Session};
    /// # let mut session = Session::new()?;
    /// let block = session.block(None, [0, 0, 0], [4, 4, 4])?;
    /// let mut colours = Notes::new(&mut session)?;
    /// colours.insert(&session, Face(3), "red");
    /// let (_, changes) = session.followed(|session| session.split(block, [0, 0, 1, -2], None))?;
    /// colours.follow(&changes);
    /// assert_eq!(colours.iter(&session).count(), 2); // face 3, and the part of it that is above
    /// session.undo()?;
    /// assert_eq!(colours.iter(&session).count(), 1);
    /// # Ok::<(), Error>(())
    /// ```
    ///
    /// # Errors
    /// That of the commands, with what those before it did; [`Error::Memory`] also where it is refused for what accepted ones did.
    pub fn followed<T>(&mut self, give: impl FnOnce(&mut Self) -> Result<T, Error>) -> Result<(T, Changes), (Error, Box<Changes>)> {
        let mut watching = Watching::new(self).map_err(|error| (error, Box::default()))?;
        let given = give(&mut *watching.session);
        match (given, watching.changes()) {
            (Ok(value), Ok(changes)) => Ok((value, changes)),
            (Err(error), changes) => Err((error, Box::new(changes.unwrap_or_default()))),
            (Ok(_), Err(error)) => Err((error, Box::default())),
        }
    }

    /// Takes the last command back, and says what that did. [`Notes`] need no such call: they follow births.
    ///
    /// # Errors
    /// As [`undo`](Self::undo); [`Error::Memory`] also where it is refused for what that did.
    pub fn followed_undo(&mut self) -> Result<Changes, Error> {
        self.turned(Self::undo)
    }

    /// Does the command again that was taken back last, and says what that did.
    ///
    /// # Errors
    /// As [`redo`](Self::redo); [`Error::Memory`] also where it is refused for what that did.
    pub fn followed_redo(&mut self) -> Result<Changes, Error> {
        self.turned(Self::redo)
    }

    fn turned(&mut self, give: impl FnOnce(&mut Self) -> Result<(), Error>) -> Result<Changes, Error> {
        let mut watching = Watching::new(self)?;
        give(&mut *watching.session)?;
        watching.changes()
    }
}

impl From<(Error, Box<Changes>)> for Error {
    /// Of commands whose changes nobody follows.
    fn from((error, _): (Error, Box<Changes>)) -> Self {
        error
    }
}

/// Values on faces, on edges or on what else has a number. Each is of one thing, told by its [`birth`](Readers::birth): another one that has the number later
/// hasn't it, and where undo, redo or a draft brings the thing back, so does the value come back. Of faces and edges a part that was split off by commands
/// that are [`followed`](Session::followed) has a copy of the value; of a copy of a solid that is what [`copied`](Self::copied) gives. Where memory for births
/// is refused, nothing is found any more.
#[derive(Clone, Debug, PartialEq, Eq)]
pub struct Notes<N, V> {
    values: BTreeMap<u64, V>,
    kind: PhantomData<N>,
}

impl<N: Id, V> Notes<N, V> {
    /// No values: of what the session has from here on. All later ones are of the same session.
    ///
    /// # Errors
    /// [`Error::Memory`].
    pub fn new(session: &mut Session) -> Result<Self, Error> {
        Watching::new(session)?;
        Ok(Self { values: BTreeMap::new(), kind: PhantomData })
    }

    /// Gives what has a number a value; the one that it had is returned. Nothing happens where nothing has the number.
    pub fn insert(&mut self, of: &Readers, id: N, value: V) -> Option<V> {
        self.values.insert(of.birth(id)?, value)
    }

    /// Takes the value of what has a number.
    pub fn remove(&mut self, of: &Readers, id: N) -> Option<V> {
        self.values.remove(&of.birth(id)?)
    }

    /// The value of what has a number, where it has one.
    #[must_use]
    pub fn get(&self, of: &Readers, id: N) -> Option<&V> {
        self.values.get(&of.birth(id)?)
    }

    /// All that have one, rising.
    pub fn iter<'all>(&'all self, of: &'all Readers) -> impl Iterator<Item = (N, &'all V)> {
        of.numbers::<N>().filter_map(move |id| Some((id, self.get(of, id)?)))
    }
}

impl<N: Id, V: Clone> Notes<N, V> {
    /// After commands that changed so much.
    pub fn follow(&mut self, changes: &Changes)
    where
        N: Noted,
    {
        for made in &N::of(changes).made {
            if let Some(value) = made.other_birth.and_then(|birth| self.values.get(&birth)).cloned() {
                self.values.entry(made.birth).or_insert(value);
            }
        }
    }

    /// After what came of things of this kind, of which [`became`](Session::became) tells: what came of one that has a value has a copy of it, unless it has
    /// one; no undo takes that back.
    pub fn inherit(&mut self, heirs: &[Heir<N>]) {
        for heir in heirs {
            if let Some(value) = known(heir.old_birth).and_then(|birth| self.values.get(&birth)).cloned() {
                self.values.entry(heir.made_birth).or_insert(value);
            }
        }
    }

    /// The parts of a copy have the values of those that they are of: `notes.copied(&session, |face| copy.face(face))`.
    pub fn copied(&mut self, of: &Readers, copy: impl Fn(N) -> Option<N>) {
        let made: Vec<(u64, V)> = self.iter(of).filter_map(|(id, value)| Some((of.birth(copy(id)?)?, value.clone()))).collect();
        self.values.extend(made);
    }
}
