use crate::operators::Operators;
use crate::readers::Shared;
use crate::{Draft, Error};
use gwb_sys::{kind, Heap};
use std::fmt;
use std::ops::{Deref, DerefMut};

/// A session of the kernel: one model, and all commands that can be undone. It is closed when it is dropped.
///
/// Its operators and larger commands are those of [`Operators`], its readers and measures those of [`Readers`](crate::Readers).
///
/// A session may go to another thread; nothing in it is of a thread. Many threads may read and measure one at once: what changes it, or its
/// last answer, borrows it mutably.
///
/// ```
/// let mut session = gwb::Session::new()?;
/// session.block(None, [0, 0, 0], [4, 4, 4])?;
/// std::thread::scope(|scope| {
///     for face in session.faces(gwb::Solid(1)) {
///         let session = &session;
///         scope.spawn(move || assert_eq!(session.plane(face).map(|plane| plane.flat), Ok(true)));
///     }
/// });
/// std::thread::spawn(move || session.undo()).join().unwrap()?;
/// # Ok::<(), gwb::Error>(())
/// ```
pub struct Session {
    operators: Box<Operators>,
}

// SAFETY, for all calls in this file: as in operators.rs.
impl Session {
    /// Opens a session that holds the empty model.
    ///
    /// # Errors
    /// [`Error::Memory`]; [`Error::OtherVersion`].
    pub fn new() -> Result<Self, Error> {
        Operators::new().map(|operators| Self { operators })
    }

    /// Opens a session that lies in a heap of its own, whichever threads it goes to.
    ///
    /// # Errors
    /// [`Error::Memory`].
    ///
    /// # Safety
    /// The functions of the heap do what gwb.h says, from any thread, until the session has been dropped.
    pub unsafe fn new_in(heap: &Heap) -> Result<Self, Error> {
        let before = unsafe { gwb_sys::gwb_use_heap(heap) };
        let session = Self::new();
        unsafe { gwb_sys::gwb_use_heap(before) };
        session
    }

    /// Opens a draft of the next command.
    ///
    /// # Errors
    /// [`Error::Memory`]; [`Error::InDraft`] where a draft was forgotten.
    pub fn draft(&mut self) -> Result<Draft<'_>, Error> {
        let answer = unsafe { gwb_sys::gwb_draft(self.handle()) };
        if answer != kind::OK {
            self.told(answer)?;
        }
        self.begin_draft();
        Ok(Draft::new(self))
    }

    /// Takes back the steps of a draft that was forgotten (`std::mem::forget`) and so is open still.
    ///
    /// # Errors
    /// [`Error::NoDraft`] where none is open.
    pub fn abandon(&mut self) -> Result<(), Error> {
        let answer = unsafe { gwb_sys::gwb_abandon(self.handle()) };
        self.answered(answer)?;
        self.end_draft(false);
        Ok(())
    }

    /// Takes the last command back.
    ///
    /// # Errors
    /// [`Error::Refused`].
    pub fn undo(&mut self) -> Result<(), Error> {
        let answer = unsafe { gwb_sys::gwb_undo(self.handle()) };
        self.told(answer)
    }

    /// Does the command again that was taken back last.
    ///
    /// # Errors
    /// [`Error::Refused`], [`Error::Memory`].
    pub fn redo(&mut self) -> Result<(), Error> {
        let answer = unsafe { gwb_sys::gwb_redo(self.handle()) };
        self.told(answer)
    }

    /// Gives one line of the script language, without its newline. [`reply`](crate::Readers::reply) has the text of its answer.
    ///
    /// # Errors
    /// As the command's own method; [`Error::Fault`] where the line is no command.
    pub fn run(&mut self, line: &str) -> Result<(), Error> {
        self.keep_fresh();
        match unsafe { gwb_sys::gwb_line(self.handle(), line.as_ptr(), line.len()) } {
            changed @ (kind::OK | kind::REFUSED | kind::MEMORY) => self.told(changed),
            other => self.answered(other),
        }
    }

    /// Gives the lines of a script one after another, up to the first that is not accepted.
    ///
    /// # Errors
    /// How many lines were accepted before it, and the error of [`run`](Self::run).
    pub fn run_lines(&mut self, script: &str) -> Result<(), (usize, Error)> {
        script.split_terminator('\n').enumerate().try_for_each(|(at, line)| self.run(line).map_err(|error| (at, error)))
    }

    /// The readers, for many threads at once. While they are borrowed nothing else is called.
    #[must_use]
    pub fn shared(&mut self) -> Shared<'_> {
        Shared::new(&self.operators)
    }
}

impl Deref for Session {
    type Target = Operators;

    fn deref(&self) -> &Operators {
        &self.operators
    }
}

impl DerefMut for Session {
    fn deref_mut(&mut self) -> &mut Operators {
        &mut self.operators
    }
}

impl fmt::Debug for Session {
    fn fmt(&self, f: &mut fmt::Formatter<'_>) -> fmt::Result {
        f.debug_struct("Session").field("depth", &self.depth()).field("ahead", &self.ahead()).finish_non_exhaustive()
    }
}
