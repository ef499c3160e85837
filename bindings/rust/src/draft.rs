use crate::operators::Ranges;
use crate::{Error, Operators, Session};
use std::mem::{take, ManuallyDrop};
use std::ops::{Deref, DerefMut};
use std::sync::atomic::{AtomicU64, Ordering};

/// A draft of the next command of a session, which it borrows: its operators and larger commands are steps, and readers and measures speak
/// of its model.
///
/// [`commit`](Self::commit) makes the steps one command. Where it is dropped, they are taken back: the session is as it was before, what
/// can be redone included. A step that is refused changes nothing and leaves the draft open.
///
/// ```
/// # use gwb::{plus, Edge, Error, Loop, Session};
/// # let mut session = Session::new()?;
/// session.block(None, [0, 0, 0], [4, 4, 4])?;
/// let mut draft = session.draft()?;
/// let (edge, vertex) = draft.mev(plus(Edge(7)), plus(Edge(7)), None, None, [1, 1, 4])?;
/// let ring = draft.kemr(plus(edge), None)?;
/// assert_eq!(draft.lone_vertex(ring), Some(vertex));
/// draft.commit()?;
/// session.undo()?;
/// assert_eq!(session.lone_vertex(ring), None);
/// # Ok::<(), Error>(())
/// ```
///
/// What was given since a mark can be taken back alone:
///
/// ```
/// # use gwb::{Error, Session, Solid};
/// # let mut session = Session::new()?;
/// let mut draft = session.draft()?;
/// let block = draft.block(None, [0, 0, 0], [4, 4, 4])?;
/// let mark = draft.mark();
/// draft.split(block, [0, 0, 1, -2], None)?;
/// draft.back(mark)?;
/// draft.commit()?;
/// assert_eq!((session.six_volumes(block)?, session.depth()), (384, 1));
/// # Ok::<(), Error>(())
/// ```
///
/// It has no undo or redo:
///
/// ```compile_fail,E0599
/// # let mut session = gwb::Session::new().unwrap();
/// let mut draft = session.draft().unwrap();
/// draft.undo();
/// ```
#[derive(Debug)]
#[must_use = "a draft is abandoned where it is dropped"]
pub struct Draft<'session> {
    session: &'session mut Session,
    /// A number that no other draft has.
    number: u64,
    /// How often it went back.
    backs: usize,
    /// The steps to which it went back, as the back of this number; later ones went less far.
    lowest: Vec<(usize, usize)>,
}

static DRAFTS: AtomicU64 = AtomicU64::new(0);

/// How far a draft had come.
#[derive(Clone, Copy, Debug)]
pub struct Mark {
    steps: usize,
    made: Option<Ranges>,
    draft: u64,
    backs: usize,
}

impl<'session> Draft<'session> {
    pub(crate) fn new(session: &'session mut Session) -> Self {
        Self { session, number: DRAFTS.fetch_add(1, Ordering::Relaxed), backs: 0, lowest: Vec::new() }
    }

    /// How far the draft has come, for [`back`](Self::back).
    #[must_use]
    pub fn mark(&self) -> Mark {
        Mark { steps: self.steps(), made: self.drafted(), draft: self.number, backs: self.backs }
    }

    /// Takes the steps since a mark back; where there are none, nothing changes.
    ///
    /// # Errors
    /// [`Error::NoDraft`] where the mark is of another draft, or of steps that were taken back.
    pub fn back(&mut self, mark: Mark) -> Result<(), Error> {
        if !self.has(mark) {
            return Err(Error::NoDraft);
        }
        // SAFETY: the session is borrowed, so its handle is open.
        self.answered(unsafe { gwb_sys::gwb_back(self.handle(), mark.steps) })?;
        self.go_back(mark.made);
        self.lowest.retain(|&(_, steps)| steps < mark.steps);
        self.lowest.push((self.backs, mark.steps));
        self.backs += 1;
        Ok(())
    }

    /// Whether the mark is one of this draft, which hasn't gone back before it since.
    fn has(&self, mark: Mark) -> bool {
        let later = self.lowest.iter().find(|&&(number, _)| number >= mark.backs);
        mark.draft == self.number && later.map_or(true, |&(_, steps)| steps >= mark.steps)
    }

    /// The steps are one command from here on, also where there are none. It takes no memory.
    ///
    /// # Errors
    /// [`Error::NoDraft`] where the draft is not open, which only the calls of `gwb_sys` can bring about.
    pub fn commit(self) -> Result<(), Error> {
        let mut draft = ManuallyDrop::new(self);
        drop(take(&mut draft.lowest));
        // SAFETY: the session is borrowed, so its handle is open.
        let answer = unsafe { gwb_sys::gwb_commit(draft.session.handle()) };
        draft.session.end_draft(answer == gwb_sys::kind::OK);
        draft.session.answered(answer)
    }
}

impl Deref for Draft<'_> {
    type Target = Operators;

    fn deref(&self) -> &Operators {
        self.session
    }
}

impl DerefMut for Draft<'_> {
    fn deref_mut(&mut self) -> &mut Operators {
        self.session
    }
}

impl Drop for Draft<'_> {
    fn drop(&mut self) {
        // A draft that isn't open has nothing to take back.
        let _ = self.session.abandon();
    }
}
