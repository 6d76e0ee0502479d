//! What the command line asks for.

use crate::failure::Failure;
use crate::{forms, help};
use std::ffi::{OsStr, OsString};

/// What is asked for.
pub enum Asked {
    /// A text of help.
    Help(&'static str),
    /// The version.
    Version,
    /// A job on an outline.
    Job(Job),
}

/// What to do with an outline.
#[derive(Clone, Copy, PartialEq, Eq)]
pub enum Command {
    /// Band it and print the leaves.
    Band,
    /// Band it and judge the points of a file.
    Inspect,
    /// Foretell its leaves.
    Foretell,
    /// Band it and say what its leaves cost.
    Quote,
    /// Find the least tolerance at which it has so many leaves at most.
    Tightest,
}

/// A command with its files and options.
pub struct Job {
    /// What to do.
    pub command: Command,
    /// The outline file.
    pub outline: OsString,
    /// The file of points, of `inspect`.
    pub points: Option<OsString>,
    /// What else is asked for.
    pub options: Options,
}

/// The options of a command.
pub struct Options {
    /// The tolerance in place of the file's.
    pub tolerance: Option<i32>,
    /// How many straight pieces a leaf has.
    pub pieces: u32,
    /// How many leaves are taken, of `tightest`.
    pub leaves: Option<usize>,
    /// Where a picture goes.
    pub svg: Option<OsString>,
    /// Whether the numbers of curves may have a decimal point, and go to the engine as binary64 numbers.
    pub binary64: bool,
    /// Whether the picture has the boxes at the break points.
    pub boxes: bool,
}

impl Command {
    /// The command of this name, and its help.
    fn named(name: &str) -> Option<(Command, &'static str)> {
        match name {
            "band" => Some((Command::Band, help::BAND)),
            "inspect" => Some((Command::Inspect, help::INSPECT)),
            "foretell" => Some((Command::Foretell, help::FORETELL)),
            "quote" => Some((Command::Quote, help::QUOTE)),
            "tightest" => Some((Command::Tightest, help::TIGHTEST)),
            _ => None,
        }
    }

    /// Whether it bands the outline, which is what takes binary64 numbers.
    fn bands(self) -> bool {
        !matches!(self, Command::Foretell | Command::Tightest)
    }

    /// How many files it takes.
    fn files(self) -> usize {
        if self == Command::Inspect {
            2
        } else {
            1
        }
    }
}

/// What these arguments ask for.
pub fn asked(mut arguments: impl Iterator<Item = OsString>) -> Result<Asked, Failure> {
    let first = arguments.next().unwrap_or_default();
    match first.to_str() {
        Some("--help" | "-h" | "help") => return Ok(Asked::Help(help::WHOLE)),
        Some("--version" | "-V") => return Ok(Asked::Version),
        Some("") => return Err(format!("{}\n\nTry: contour --help", help::USAGE).into()),
        _ => {}
    }
    let Some((command, text)) = first.to_str().and_then(Command::named) else {
        return Err(wrong(&format!("there is no command {}", quoted(&first))));
    };
    job(command, text, arguments)
}

/// The job of a command with the arguments after it.
fn job(
    command: Command,
    help: &'static str,
    mut arguments: impl Iterator<Item = OsString>,
) -> Result<Asked, Failure> {
    let mut options =
        Options { tolerance: None, pieces: 3, leaves: None, svg: None, binary64: false, boxes: false };
    let mut files = Vec::new();
    while let Some(argument) = arguments.next() {
        match parted(&argument) {
            (Some("--help" | "-h"), _) => return Ok(Asked::Help(help)),
            (Some("--version"), _) => return Ok(Asked::Version),
            (Some("--boxes"), None) => options.boxes = true,
            (Some("--binary64"), None) => options.binary64 = true,
            (Some(option), Some(value)) => options.set(option, value)?,
            (Some(option), None) if Options::NAMES.contains(&option) => match arguments.next() {
                Some(value) => options.set(option, value)?,
                None => return Err(wrong(&format!("{option} wants a value after it"))),
            },
            (Some(_), None) => return Err(no_option(&argument)),
            (None, _) => files.push(argument),
        }
    }
    if files.len() != command.files() {
        return Err(wrong_files(command, files.len()));
    }
    if files.iter().filter(|file| *file == "-").count() > 1 {
        return Err(wrong("standard input (-) can be read once"));
    }
    options.check(command)?;
    let mut files = files.into_iter();
    let outline = files.next().expect("there is a file");
    Ok(Asked::Job(Job { command, outline, points: files.next(), options }))
}

impl Options {
    /// The options that have a value.
    const NAMES: [&'static str; 4] = ["--tolerance", "--pieces", "--leaves", "--svg"];

    /// Sets an option to a value.
    fn set(&mut self, option: &str, value: OsString) -> Result<(), Failure> {
        match option {
            "--tolerance" => self.tolerance = Some(whole_number(option, &value)?),
            "--pieces" => self.pieces = whole_number(option, &value)? as u32,
            "--leaves" => self.leaves = Some(count(option, &value)?),
            "--svg" => self.svg = Some(value),
            "--boxes" | "--binary64" => return Err(wrong(&format!("{option} takes no value"))),
            _ => return Err(no_option(OsStr::new(option))),
        }
        Ok(())
    }

    /// Whether the options go together.
    fn check(&self, command: Command) -> Result<(), Failure> {
        match (command, self.leaves, self.tolerance) {
            (Command::Tightest, None, _) => return Err(wrong("tightest wants --leaves R")),
            (Command::Tightest, _, Some(_)) => {
                return Err(wrong("tightest finds the tolerance, so none is given"))
            }
            (Command::Tightest, Some(_), None) | (_, None, _) => {}
            _ => return Err(wrong("--leaves goes with tightest")),
        }
        if self.binary64 && !command.bands() {
            return Err(wrong("--binary64 goes with what bands an outline: band, inspect and quote"));
        }
        if self.boxes && self.svg.is_none() {
            return Err(wrong("--boxes goes with --svg FILE"));
        }
        Ok(())
    }
}

/// An option, and its value where it stands behind `=`. An argument that is `-` or has no dash at its front is none.
fn parted(argument: &OsStr) -> (Option<&str>, Option<OsString>) {
    match argument.to_str() {
        Some(text) if text.starts_with('-') && text != "-" => match text.split_once('=') {
            Some((option, value)) => (Some(option), Some(value.into())),
            None => (Some(text), None),
        },
        _ => (None, None),
    }
}

fn whole_number(option: &str, value: &OsStr) -> Result<i32, Failure> {
    let number = value.to_str().and_then(forms::whole_number);
    number.ok_or_else(|| wrong(&format!("{option} wants a whole number and not {}", quoted(value))))
}

fn count(option: &str, value: &OsStr) -> Result<usize, Failure> {
    let number = whole_number(option, value)?;
    usize::try_from(number).map_err(|_| wrong(&format!("{option} wants a count and not {number}")))
}

fn no_option(option: &OsStr) -> Failure {
    wrong(&format!("there is no option {}", quoted(option)))
}

/// That a command has too few files or too many.
fn wrong_files(command: Command, given: usize) -> Failure {
    let wanted = if command.files() == 2 { "OUTLINE and POINTS are" } else { "OUTLINE is" };
    let given = match given {
        0 => "no file is".to_owned(),
        1 => "1 file is".to_owned(),
        _ => format!("{given} files are"),
    };
    wrong(&format!("{wanted} wanted, and {given} given"))
}

/// That the command line is wrong.
fn wrong(what: &str) -> Failure {
    format!("contour: {what}\nTry: contour --help").into()
}

fn quoted(argument: &OsStr) -> String {
    format!("'{}'", argument.to_string_lossy())
}
