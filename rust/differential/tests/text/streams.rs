//! Where the text comes from and where the answer goes.

use differential::program::{
    path, run_command, run_on_pieces, run_on_pieces_unready, run_to_unready, run_unread, Run,
};
use differential::random::Random;
use differential::text::Comparison;
use differential::texts::{text, LISTING};
use std::fs::{self, File};
use std::path::PathBuf;
use std::process::{Command, Stdio};

/// The exit status where the answer is not whole.
const NOT_WHOLE: Option<i32> = Some(1);

/// What it says where it cannot read, before the system's words for why.
const UNREAD: &str =
    "contour_band: no answer; give it a text that can be read. Reading standard input failed: ";

/// What it says where it cannot write.
const UNWRITTEN: &str =
    "contour_band: no whole answer; give it an output that takes it. Writing standard output failed: ";

/// A shell that does something before it becomes the program.
fn shell(script: &str) -> Command {
    let mut command = Command::new("sh");
    command.arg("-c").arg(script).arg(path());
    command
}

/// A text with a long answer.
fn long() -> Vec<u8> {
    let root = PathBuf::from(env!("CARGO_MANIFEST_DIR")).join("../..");
    fs::read(root.join("examples/text/leaves_910_fit.in")).expect("the example is there")
}

/// Ended by itself, in time, without a word, with this exit status.
fn ends_quietly(run: &Run, status: Option<i32>) {
    let quiet = !run.hung && run.complaints.is_empty();
    assert!(
        quiet && run.status.code() == status,
        "ended with {}, hung: {}, standard error: {}",
        run.status,
        run.hung,
        run.complaints.escape_ascii()
    );
}

/// Ended by itself, in time, after one line on standard error, with the exit status that the answer is not whole.
fn says(run: &Run, what: &str, why: &str) {
    let line = format!("{what}{why}\n");
    assert_eq!(run.complaints.escape_ascii().to_string(), line.escape_default().to_string());
    assert!(!run.hung && run.status.code() == NOT_WHOLE, "ended with {}, hung: {}", run.status, run.hung);
}

#[test]
fn a_text_may_come_in_pieces() {
    let mut comparison = Comparison::new("texts, in pieces");
    let mut random = Random::new(704);
    for _ in 0..20 {
        let text = text(&mut random);
        let mut pieces = Vec::new();
        let mut rest = &text[..];
        while !rest.is_empty() {
            let (piece, after) = rest.split_at(rest.len().min(1 + random.below(1 + text.len() / 5)));
            pieces.push(piece);
            rest = after;
        }
        let run = run_on_pieces(&path(), &pieces);
        comparison.check(&text, &run, &plain::text::answer(&text));
    }
    let bytes: Vec<&[u8]> = LISTING.chunks(1).collect();
    comparison.check(LISTING, &run_on_pieces(&path(), &bytes), &plain::text::answer(LISTING));
    comparison.report();
}

#[test]
fn a_text_may_be_a_file() {
    let example = PathBuf::from(env!("CARGO_MANIFEST_DIR")).join("../../examples/text/listing.in");
    let mut command = shell("exec \"$0\" <\"$1\"");
    let run = run_command(command.arg(example).stdout(Stdio::piped()), b"");
    Comparison::new("texts, from a file").check(LISTING, &run, &plain::text::answer(LISTING));
}

#[test]
fn an_input_without_end_is_too_long() {
    let run = run_command(shell("exec \"$0\" </dev/zero").stdout(Stdio::piped()), b"");
    Comparison::new("texts, without end").check(b"", &run, b"(refused 16 16385)\n");
    let run = run_command(shell("exec \"$0\" </dev/null").stdout(Stdio::piped()), b"");
    Comparison::new("texts, without a beginning").check(b"", &run, b"(refused 15 1)\n");
}

#[test]
fn a_text_may_come_where_no_read_waits() {
    let mut comparison = Comparison::new("texts, in pieces to a stream that is not ready");
    let long = long();
    for text in [LISTING, b"", &long] {
        let (first, second) = text.split_at(text.len() / 2);
        let run = run_on_pieces_unready(&path(), &[b"", first, second]);
        comparison.check(text, &run, &plain::text::answer(text));
    }
    comparison.report();
}

#[test]
fn an_answer_may_go_where_no_write_waits() {
    let mut comparison = Comparison::new("texts, to a stream that is full");
    for text in [LISTING, b"", &long()] {
        comparison.check(text, &run_to_unready(&path(), text), &plain::text::answer(text));
    }
    comparison.report();
}

#[test]
fn what_cannot_be_read_is_said_and_not_answered() {
    for (input, why) in [("</", "Is a directory (os error 21)"), ("<&-", "Bad file descriptor (os error 9)")]
    {
        let run = run_command(shell(&format!("exec \"$0\" {input}")).stdout(Stdio::piped()), b"");
        says(&run, UNREAD, why);
        assert!(run.printed.is_empty(), "{input}: {}", run.printed.escape_ascii());
    }
}

#[test]
fn a_small_stack_is_enough() {
    let mut comparison = Comparison::new("texts, on a stack of 512 KiB");
    for text in [LISTING, &long()] {
        let run = run_command(shell("ulimit -s 512; exec \"$0\"").stdout(Stdio::piped()), text);
        comparison.check(text, &run, &plain::text::answer(text));
    }
    comparison.report();
}

#[test]
fn it_ends_quietly_where_nobody_reads_the_answer() {
    for text in [LISTING, b"", &long()] {
        ends_quietly(&run_unread(&mut Command::new(path()), text), NOT_WHOLE);
        // Where a broken pipe would not end a program either.
        ends_quietly(&run_unread(&mut shell("trap '' PIPE; exec \"$0\""), text), NOT_WHOLE);
    }
}

#[test]
fn what_cannot_be_written_is_said() {
    for text in [LISTING, b"", &long()] {
        let run = run_command(shell("exec \"$0\" >&-").stdout(Stdio::null()), text);
        says(&run, UNWRITTEN, "Bad file descriptor (os error 9)");
        let full = File::options().write(true).open("/dev/full").expect("a full device");
        let run = run_command(Command::new(path()).stdout(full), text);
        says(&run, UNWRITTEN, "No space left on device (os error 28)");
    }
}

#[test]
fn a_reader_may_stop_after_some_lines() {
    let run = run_command(shell("\"$0\" | head -n 3").stdout(Stdio::piped()), &long());
    // The status is that of head.
    ends_quietly(&run, Some(0));
    let answer = plain::text::answer(&long());
    let three: Vec<u8> = answer.split_inclusive(|&byte| byte == b'\n').take(3).flatten().copied().collect();
    assert_eq!(run.printed, three);
}
