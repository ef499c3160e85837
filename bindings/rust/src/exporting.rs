//! What a session holds as a file of another form: by the companions' programs `gwb-step` and `gwb-mesh`, which are sought in the folder that the
//! environment variable `GWB_COMPANIONS` names, else as any program is.
use crate::Readers;
use std::io::{self, Write};
use std::path::{Path, PathBuf};
use std::process::{Command, Stdio};
use std::{env, fmt, fs};

/// Why nothing was exported. A file that was there is as before, except perhaps with `NoFile`.
#[derive(Debug)]
#[non_exhaustive]
pub enum ExportError {
    /// No program writes files of this ending.
    NoForm(PathBuf),
    /// The program of this name wasn't found, or can't be run.
    NoProgram(PathBuf, io::Error),
    /// The program refuses the model, as where nothing is held or a face isn't flat: what it says.
    Refused(String),
    /// The file can't be written.
    NoFile(PathBuf, io::Error),
}

impl fmt::Display for ExportError {
    fn fmt(&self, f: &mut fmt::Formatter<'_>) -> fmt::Result {
        match self {
            Self::NoForm(path) => write!(f, "NoForm: {}: the endings are {}", path.display(), WRITERS.map(|(ending, ..)| ending).join(" ")),
            Self::NoProgram(path, why) => write!(f, "NoProgram: {}: {why}", path.display()),
            Self::Refused(said) => write!(f, "Refused: {said}"),
            Self::NoFile(path, why) => write!(f, "NoFile: {}: {why}", path.display()),
        }
    }
}

impl std::error::Error for ExportError {}

/// How many millimetres a coordinate is: a fraction above zero. All files are in millimetres.
#[derive(Clone, Copy, Debug, PartialEq, Eq)]
pub struct Step {
    /// What is divided.
    pub numerator: u32,
    /// By what.
    pub denominator: u32,
}

/// The endings of files, of each the program that writes them, and what follows its `--form`, nothing where it writes one form alone.
const WRITERS: [(&str, &str, &str); 8] = [
    ("step", "gwb-step", ""),
    ("stp", "gwb-step", ""),
    ("p21", "gwb-step", ""),
    ("3mf", "gwb-mesh", "3mf"),
    ("stl", "gwb-mesh", "stl"),
    ("obj", "gwb-mesh", "obj"),
    ("off", "gwb-mesh", "off"),
    ("glb", "gwb-mesh", "glb"),
];

/// The command that writes a file of this name, by its ending in letters of either case.
fn command(path: &Path) -> Option<(PathBuf, Command)> {
    let wanted = path.extension()?.to_str()?;
    let (_, name, form) = WRITERS.into_iter().find(|(ending, ..)| wanted.eq_ignore_ascii_case(ending))?;
    let program = env::var_os("GWB_COMPANIONS").map_or_else(|| name.into(), |folder| Path::new(&folder).join(name));
    let mut command = Command::new(&program);
    if !form.is_empty() {
        command.args(["--form", form]);
    }
    Some((program, command))
}

impl Readers {
    /// Writes what is held to a file, by the ending of its name: `.step`, `.stp`, `.p21`, `.3mf`, `.stl`, `.obj`, `.off` or `.glb`. `names` is a script whose
    /// comments say names, colours and the unit; without it a coordinate is a millimetre. What comes back are warnings, as of solids that touch.
    ///
    /// # Errors
    /// As [`ExportError`] says.
    pub fn export(&self, path: impl AsRef<Path>, names: Option<&Path>) -> Result<String, ExportError> {
        self.export_by(path, names, None)
    }

    /// The same, with coordinates that are so large, as `Some(Step { numerator: 1, denominator: 1000 })` where lengths are those of `mm!`.
    ///
    /// # Errors
    /// As [`ExportError`] says.
    pub fn export_by(&self, path: impl AsRef<Path>, names: Option<&Path>, step: Option<Step>) -> Result<String, ExportError> {
        let path = path.as_ref();
        let (program, mut command) = command(path).ok_or_else(|| ExportError::NoForm(path.into()))?;
        let listing = self.listing().map_err(|error| ExportError::Refused(error.to_string()))?;
        command.stdin(Stdio::piped()).stdout(Stdio::piped()).stderr(Stdio::piped());
        if let Some(names) = names {
            command.arg("--names").arg(names);
        }
        if let Some(step) = step {
            command.arg("--unit").arg(format!("{}/{}", step.numerator, step.denominator));
        }
        let no_program = |why| ExportError::NoProgram(program.clone(), why);
        let mut child = command.spawn().map_err(no_program)?;
        if let Some(mut input) = child.stdin.take() {
            let _ = input.write_all(listing.as_bytes()); // a program that ends before says why
        }
        let done = child.wait_with_output().map_err(no_program)?;
        let said = String::from_utf8_lossy(&done.stderr).into_owned();
        if !done.status.success() {
            return Err(ExportError::Refused(said));
        }
        fs::write(path, done.stdout).map_err(|why| ExportError::NoFile(path.into(), why))?;
        Ok(said)
    }
}
