//! Runs of the text program: a text to its standard input, what it prints, and how it ends.

use std::env;
use std::io::{self, Read, Write};
use std::os::fd::OwnedFd;
use std::os::unix::net::UnixStream;
use std::path::{Path, PathBuf};
use std::process::{Child, Command, ExitStatus, Stdio};
use std::sync::mpsc::{channel, RecvTimeoutError};
use std::sync::Mutex;
use std::thread;
use std::time::Duration;

/// Names another program to run.
const NAMED: &str = "CONTOUR_BAND_PROGRAM";

/// A run that takes longer is ended.
const PATIENCE: Duration = Duration::from_secs(20);

/// How a run went.
#[derive(Debug)]
pub struct Run {
    /// How it ended.
    pub status: ExitStatus,
    /// Whether it was ended from here, since it took too long.
    pub hung: bool,
    /// What it printed to standard output.
    pub printed: Vec<u8>,
    /// What it printed to standard error.
    pub complaints: Vec<u8>,
}

/// Where the program is.
///
/// # Panics
///
/// Where there is none. Says how to make it.
pub fn path() -> PathBuf {
    let root = Path::new(env!("CARGO_MANIFEST_DIR")).ancestors().nth(2).expect("the crate stands in rust/");
    let built = root.join("target/bin/contour_band");
    let path = env::var_os(NAMED).map_or(built, PathBuf::from);
    assert!(
        path.is_file(),
        "The text program is not built: there is no {}.\nMake it at the root of the repository by:  \
         bash tools/program\nOr name the program in {NAMED}.",
        path.display()
    );
    path
}

/// Runs the program on a text.
pub fn run(program: &Path, text: &[u8]) -> Run {
    let give = |input: &mut dyn Write| input.write_all(text);
    watch(Command::new(program).stdout(Stdio::piped()), PATIENCE, give)
}

/// Runs the program on a text that comes in pieces, with a pause after each.
pub fn run_on_pieces(program: &Path, pieces: &[&[u8]]) -> Run {
    watch(Command::new(program).stdout(Stdio::piped()), PATIENCE, |input| {
        give_pieces(input, pieces, Duration::from_millis(1))
    })
}

/// The same through a stream at which no read waits: it fails where nothing has come yet.
pub fn run_on_pieces_unready(program: &Path, pieces: &[&[u8]]) -> Run {
    let (mut input, theirs) = UnixStream::pair().expect("two ends of a stream");
    theirs.set_nonblocking(true).expect("a stream need not wait");
    let mut command = Command::new(program);
    command.stdin(OwnedFd::from(theirs)).stdout(Stdio::piped());
    let child = spawn(&mut command);
    // Only the program holds its end from here on.
    drop(command);
    attend(child, PATIENCE, move || give_pieces(&mut input, pieces, Duration::from_millis(15)))
}

/// Runs the program on a text while what it prints goes to a stream that is full and at which no write waits.
/// Somebody reads it only after a while. What was printed is what came after the stuffing.
pub fn run_to_unready(program: &Path, text: &[u8]) -> Run {
    let (mut ours, mut theirs) = UnixStream::pair().expect("two ends of a stream");
    theirs.set_nonblocking(true).expect("a stream need not wait");
    let mut stuffing = 0;
    while let Ok(count) = theirs.write(&[b'.'; 4096]) {
        stuffing += count;
    }
    let reader = thread::spawn(move || {
        thread::sleep(Duration::from_millis(50));
        let mut all = Vec::new();
        ours.read_to_end(&mut all).expect("the stream can be read");
        all.split_off(stuffing)
    });
    // The command is dropped here, and with it the last end that can be written to.
    let run = run_command(Command::new(program).stdout(OwnedFd::from(theirs)), text);
    Run { printed: reader.join().expect("the reader does not panic"), ..run }
}

fn give_pieces(input: &mut dyn Write, pieces: &[&[u8]], pause: Duration) -> io::Result<()> {
    for piece in pieces {
        input.write_all(piece)?;
        thread::sleep(pause);
    }
    Ok(())
}

/// Runs a command on a text. The caller says where its standard output goes.
pub fn run_command(command: &mut Command, text: &[u8]) -> Run {
    watch(command, PATIENCE, |input| input.write_all(text))
}

/// Runs the program on a text while nobody reads what it prints.
pub fn run_unread(command: &mut Command, text: &[u8]) -> Run {
    let mut child = start(command.stdout(Stdio::piped()));
    // It has not read its text yet, so it has printed nothing.
    drop(child.stdout.take());
    attend_fed(child, PATIENCE, |input| input.write_all(text))
}

/// Starts a command, gives it its standard input, and ends it where it takes too long.
fn watch(
    command: &mut Command,
    patience: Duration,
    give: impl FnOnce(&mut dyn Write) -> io::Result<()>,
) -> Run {
    attend_fed(start(command), patience, give)
}

fn start(command: &mut Command) -> Child {
    spawn(command.stdin(Stdio::piped()))
}

fn spawn(command: &mut Command) -> Child {
    let name = format!("{command:?}");
    let spawned = command.stderr(Stdio::piped()).spawn();
    spawned.unwrap_or_else(|error| panic!("{name} does not start: {error}"))
}

/// Attends to a run whose standard input is a pipe.
fn attend_fed(
    mut child: Child,
    patience: Duration,
    give: impl FnOnce(&mut dyn Write) -> io::Result<()>,
) -> Run {
    let mut input = child.stdin.take().expect("standard input is a pipe");
    attend(child, patience, move || give(&mut input))
}

/// Gives a run its input, which ends with the call, and ends the run where it takes too long.
fn attend(mut child: Child, patience: Duration, give: impl FnOnce() -> io::Result<()>) -> Run {
    let output = child.stdout.take();
    let mut errors = child.stderr.take().expect("standard error is a pipe");
    let child = Mutex::new(child);
    thread::scope(|scope| {
        let (done, over) = channel::<()>();
        let child = &child;
        let watcher = scope.spawn(move || {
            let late = over.recv_timeout(patience) == Err(RecvTimeoutError::Timeout);
            if late {
                child.lock().expect("no run panics here").kill().expect("the run can be ended");
            }
            late
        });
        // A program that has ended, or been ended, reads no further.
        let given = give();
        assert!(given.as_ref().is_ok() || given.is_err_and(|e| e.kind() == io::ErrorKind::BrokenPipe));
        let (mut printed, mut complaints) = (Vec::new(), Vec::new());
        if let Some(mut output) = output {
            output.read_to_end(&mut printed).expect("standard output can be read");
        }
        errors.read_to_end(&mut complaints).expect("standard error can be read");
        let status = wait(child);
        drop(done);
        let hung = watcher.join().expect("the watcher does not panic");
        Run { status, hung, printed, complaints }
    })
}

/// Waits for the end of a run, so that it can be ended meanwhile.
fn wait(child: &Mutex<Child>) -> ExitStatus {
    loop {
        let ended = child.lock().expect("no run panics here").try_wait().expect("a run can be waited for");
        if let Some(status) = ended {
            return status;
        }
        thread::sleep(Duration::from_micros(20));
    }
}

#[cfg(test)]
mod tests {
    use super::*;

    #[test]
    fn what_is_printed_and_how_it_ends() {
        let mut command = Command::new("sh");
        command.args(["-c", "cat; echo no >&2; exit 3"]).stdout(Stdio::piped());
        let run = run_command(&mut command, b"a\0b");
        assert_eq!((run.status.code(), run.hung), (Some(3), false));
        assert_eq!((&run.printed[..], &run.complaints[..]), (&b"a\0b"[..], &b"no\n"[..]));
    }

    #[test]
    fn a_run_that_hangs_is_ended() {
        let moment = Duration::from_millis(50);
        let run = watch(Command::new("sleep").arg("60").stdout(Stdio::piped()), moment, |_| Ok(()));
        assert!(run.hung && !run.status.success());
        // Also where it has closed all that it could print to.
        let mut closed = Command::new("sh");
        closed.args(["-c", "exec sleep 60 >&- 2>&-"]).stdout(Stdio::piped());
        let run = watch(&mut closed, moment, |_| Ok(()));
        assert!(run.hung && !run.status.success());
        // Also where it does not read.
        let run = watch(Command::new("sleep").arg("60").stdout(Stdio::piped()), moment, |input| {
            input.write_all(&[0; 1_000_000])
        });
        assert!(run.hung && !run.status.success());
    }
}
