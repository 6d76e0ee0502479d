//! What the header says of every call: the archive needs no other library, and calls from several threads
//! do not disturb one another.

use contour_band::{band, judge, record_length, Judgement};
use std::env;
use std::path::{Path, PathBuf};
use std::process::Command;
use std::thread;

#[test]
fn the_archive_calls_no_other_library() {
    let made = PathBuf::from(env!("CARGO_TARGET_TMPDIR")).join("engine_alone");
    // Every function of the archive, and nothing else: a name that is not in it is an error.
    let linked = Command::new(env::var_os("CC").unwrap_or("cc".into()))
        .args(["-r", "-nostdlib", "-Wl,--whole-archive"])
        .arg(Path::new(env!("CONTOUR_BAND_LINKED")).join("libcontour.a"))
        .arg("-o")
        .arg(&made)
        .output()
        .expect("the C compiler runs");
    assert!(linked.status.success(), "{}", String::from_utf8_lossy(&linked.stderr));
    let listed = |option: &str| {
        let names = Command::new("nm").arg(option).arg(&made).output().expect("nm runs");
        assert!(names.status.success());
        String::from_utf8(names.stdout).expect("names are text")
    };
    assert_eq!(listed("--undefined-only"), "");
    // Types D, B and C in either case are memory that can be written to.
    let written = |line: &&str| line.split(' ').nth(1).is_some_and(|kind| "DdBbCc".contains(kind));
    assert_eq!(listed("--defined-only").lines().find(written), None);
}

/// A band of 64 curves that differs with the number of the thread, as its m does, and how many of some points are on it.
fn inspected(thread: i32) -> (Vec<i32>, usize) {
    let outline: Vec<i32> = (0..64)
        .flat_map(|i| [3, 100 * i, thread, 100 * i + 30, 900 + i, 100 * i + 60, -700, 100 * i + 100, thread])
        .collect();
    let m = 2 + thread as u32;
    let mut records = vec![0; 64 * 256 * record_length(m)];
    let report = band(&outline, 10 + thread, m, &mut records).expect("the outline is accepted");
    records.truncate(record_length(m) * report.leaves);
    let is_on = |&i: &i32| matches!(judge(&records, m, 100 * i, 9 * i), Ok(Judgement::On { .. }));
    let on = (0..500).filter(is_on).count();
    (records, on)
}

#[test]
fn calls_from_several_threads_do_not_disturb_one_another() {
    let alone: Vec<_> = (0..4).map(inspected).collect();
    for _ in 0..10 {
        let at_once = thread::scope(|scope| {
            let started = [0, 1, 2, 3].map(|i| scope.spawn(move || inspected(i)));
            started.map(|thread| thread.join().expect("the thread ends"))
        });
        assert!(alone.iter().eq(&at_once));
    }
}
