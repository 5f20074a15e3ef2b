// A program's command line, why it stops, the one line that it prints, and its exit status. It rests on the crate's refusals and on its
// version alone.
use klovdrun::{archive_version, Refusal, VERSION};
use std::ffi::{OsStr, OsString};
use std::fmt;
use std::fs::File;
use std::io::{self, Write};
use std::os::unix::ffi::OsStrExt;
use std::os::unix::io::AsFd;
use std::path::Path;
use std::process::ExitCode;

/// Exit statuses. 2 is kept for a recording that is suspect, and never given.
pub mod status {
    pub const COMPLETE: u8 = 0;
    pub const INCOMPLETE: u8 = 1;
    pub const REFUSED: u8 = 3;
    pub const FAILED: u8 = 4;
    pub const WRONG_USE: u8 = 64;
}

/// Why there is no report.
pub enum Stop {
    Refused(Refusal),
    Failed(String),
    Misused(String),
}

impl From<Refusal> for Stop {
    fn from(refusal: Refusal) -> Stop {
        Stop::Refused(refusal)
    }
}

pub type Outcome<T> = Result<T, Stop>;

pub fn failed<T>(name: &str, cause: &str) -> Outcome<T> {
    Err(Stop::Failed(format!("{name}: {cause}")))
}

pub fn misused<T>(what: &str) -> Outcome<T> {
    Err(Stop::Misused(format!("{what}; --help tells more")))
}

/// A failure's cause in the system's words, without its number.
fn cause(error: &io::Error) -> String {
    let told = error.to_string();
    told.split(" (os error").next().unwrap_or_default().to_string()
}

/// An answer of the system; if it is a failure, with the name of what it is about.
pub fn of_system<T>(name: &str, answer: io::Result<T>) -> Outcome<T> {
    answer.or_else(|error| failed(name, &cause(&error)))
}

/// Room for so many bytes more, whose number comes from a file and may be large.
pub fn reserve(bytes: &mut Vec<u8>, more: usize) -> Outcome<()> {
    bytes.try_reserve(more).map_err(|_| Stop::Failed("out of memory".into()))
}

pub fn shown(path: &Path) -> String {
    path.display().to_string()
}

/// A file to read, by its name, and what it is called in a message. The name - is standard input.
pub fn open(name: &OsStr) -> Outcome<(String, File)> {
    let (name, file) = match name.as_bytes() {
        b"-" => ("standard input".into(), io::stdin().as_fd().try_clone_to_owned().map(File::from)),
        _ => (shown(Path::new(name)), File::open(name)),
    };
    let file = of_system(&name, file)?;
    Ok((name, file))
}

/// Asked before any other call is made of the archive.
pub fn check_version() -> Outcome<()> {
    let told = archive_version();
    if told == VERSION {
        return Ok(());
    }
    Err(Stop::Failed(format!("the archive has version {told}, and this program is for version {VERSION}")))
}

/// What the command line asks for.
enum Asked {
    Help,
    Run { names: Vec<OsString>, force: bool },
}

fn command_line(arguments: impl Iterator<Item = OsString>) -> Outcome<Asked> {
    let (mut names, mut force, mut options) = (Vec::new(), false, true);
    for argument in arguments {
        match argument.as_bytes() {
            b"--" if options => options = false,
            b"--help" if options => return Ok(Asked::Help),
            b"--force" if options => force = true,
            [b'-', _, ..] if options => return misused(&format!("there is no option {}", shown(Path::new(&argument)))),
            _ => names.push(argument),
        }
    }
    Ok(Asked::Run { names, force })
}

/// The refusal's number and the number beside it; and of a record that cannot be read its size and the bytes that are absent.
fn numbers(refusal: &Refusal) -> String {
    let Refusal { number, beside, size, absent } = refusal;
    match *number {
        Refusal::NO_RECORD | Refusal::CUT_RECORD => format!("{number} {beside} {size} {absent}"),
        _ => format!("{number} {beside}"),
    }
}

/// A program, by its name in messages, and what --help prints.
pub struct Program {
    pub name: &'static str,
    pub help: &'static str,
}

impl Program {
    /// Runs it as its command line asks. `run` gets the names there and whether --force is among them, and answers what to print and
    /// the exit status.
    pub fn run<R: fmt::Display>(&self, run: impl FnOnce(Vec<OsString>, bool) -> Outcome<(R, u8)>) -> ExitCode {
        let told = match command_line(std::env::args_os().skip(1)) {
            Ok(Asked::Help) => return self.say(&self.help, status::COMPLETE),
            Ok(Asked::Run { names, force }) => run(names, force),
            Err(stop) => Err(stop),
        };
        match told {
            Ok((report, status)) => self.say(&format_args!("{report}\n"), status),
            Err(Stop::Refused(refusal)) => {
                let numbers = numbers(&refusal);
                self.say(&format_args!("refused {numbers}: {refusal}\n"), status::REFUSED)
            }
            Err(Stop::Failed(what)) => self.complain(&what, status::FAILED),
            Err(Stop::Misused(what)) => self.complain(&what, status::WRONG_USE),
        }
    }

    /// Prints what there is to say. If that cannot be done the answer is lost, which is no success.
    fn say(&self, what: &dyn fmt::Display, status: u8) -> ExitCode {
        let mut to = io::stdout();
        match write!(to, "{what}").and_then(|()| to.flush()) {
            Ok(()) => ExitCode::from(status),
            Err(error) => self.complain(&format!("standard output: {}", cause(&error)), status::FAILED),
        }
    }

    fn complain(&self, what: &str, status: u8) -> ExitCode {
        // there is nowhere to say that this cannot be written
        let _ = writeln!(io::stderr(), "{}: {what}", self.name);
        ExitCode::from(status)
    }
}
