use crate::{Misfit, Refusal};
use std::fmt;

/// Why a command was not accepted. The model is as it was.
#[derive(Clone, Copy, Debug, PartialEq, Eq, Hash)]
#[non_exhaustive]
pub enum Error {
    /// A condition of the command is false.
    Refused {
        /// Which one: the first that is false.
        refusal: Refusal,
        /// The number that goes with it; the text of the refusal says which.
        value: u32,
    },
    /// A feature isn't possible.
    Impossible {
        /// Why.
        misfit: Misfit,
        /// The number that goes with it; the text of the misfit says which.
        value: u32,
    },
    /// The line is no command, by the number of the fault.
    Fault(u32),
    /// Memory was refused. The command may be given again.
    Memory,
    /// The arguments make no command: more than 64 points, or a part of no faces.
    NoCall,
    /// A draft is open, which has no undo, redo or second draft. A [`Draft`](crate::Draft) borrows its session, so this comes only
    /// after one was forgotten (`std::mem::forget`).
    InDraft,
    /// No draft is open that could be committed, which a [`Draft`](crate::Draft) is as long as it is there; or a mark is of another draft, or of
    /// steps that were taken back.
    NoDraft,
    /// The caller ended what was under way ([`Operators::stop_when`](crate::Operators::stop_when)).
    Stopped,
    /// The library that is linked is of this version, in the form of [`gwb_sys::VERSION`], and the crate of another one.
    OtherVersion(u32),
    /// The library answers with a kind or a condition of this number, which the crate does not know: they are of different versions.
    Unknown(u32),
}

impl fmt::Display for Error {
    fn fmt(&self, f: &mut fmt::Formatter<'_>) -> fmt::Result {
        match self {
            Self::Refused { refusal, value } => write!(f, "{refusal} {value}"),
            Self::Impossible { misfit, value } => write!(f, "{misfit} {value}"),
            Self::Fault(number) => write!(f, "fault {number}"),
            Self::Memory => f.write_str("memory was refused"),
            Self::NoCall => f.write_str("the arguments make no command"),
            Self::InDraft => f.write_str("a draft is open, which has no such call"),
            Self::NoDraft => f.write_str("there is no draft"),
            Self::Stopped => f.write_str("the caller ended it"),
            Self::OtherVersion(version) => write!(f, "libgwb has version {version}, and the crate is of {}", gwb_sys::VERSION),
            Self::Unknown(number) => write!(f, "the library answers {number}, which this version does not know"),
        }
    }
}

impl std::error::Error for Error {}
