//! The whole board on a log of 63: 64 tests in one call, beside as many single calls.
use std::hint::black_box;

use wyndhopper::{board_verdict, Job, BOARD_ROOM};

use crate::case::Theory;
use crate::clock::{least, TABLE};
use crate::theories::{cartons, labels, round};

/// The lines of the wall display in docs/COOKBOOK.md, for a label in its turn: is it out, and the one before it, and the one behind; may that one come out next; was it printed with only possible
/// steps since; is it spoiled and not reprinted; is the last one out.
fn display(theory: &Theory) -> Vec<String> {
    let (fluents, actions) = (theory.fluents, theory.actions());
    let test = |k: usize| {
        let i = k / 7 % (fluents - 2) + 1;
        let (before, behind) = (i - 1, i + 1);
        match k % 7 {
            0 => format!("f{before:02}"),
            1 => format!("f{i:02}"),
            2 => format!("f{behind:02}"),
            3 => format!("&!f{behind:02}&f{before:02}f{i:02}"),
            4 => format!("<-;a{i:02}*n1"),
            5 => format!("&!f{i:02}<-;a{:02}*n!<;*na{i:02}1", actions - 1),
            _ => format!("f{:02}", fluents - 1),
        }
    };
    (0..BOARD_ROOM).map(test).collect()
}

/// Four kinds in turn, the longer ones as often as the short: is this label out, is it and the next one not, was it printed with only possible steps since, and was another not after it.
fn four_kinds(theory: &Theory) -> Vec<String> {
    let (fluents, actions) = (theory.fluents, theory.actions());
    let test = |k: usize| {
        let (i, j) = (k % fluents, (k + 1) % fluents);
        let (a, b) = (k % actions, (k + 3) % actions);
        match k % 4 {
            0 => format!("f{i:02}"),
            1 => format!("&f{i:02}!f{j:02}"),
            2 => format!("<-;a{a:02}*n1"),
            _ => format!("<-;a{a:02}*n!<;*na{b:02}1"),
        }
    };
    (0..BOARD_ROOM).map(test).collect()
}

/// The last of these alone, which is the dearest.
fn spoiled(theory: &Theory) -> Vec<String> {
    let actions = theory.actions();
    (0..BOARD_ROOM).map(|k| format!("<-;a{:02}*n!<;*na{:02}1", k % actions, (k + 3) % actions)).collect()
}

/// A line `name, one board, the single calls`, in microseconds.
fn measure(name: &str, theory: &Theory, log: &[u8], tests: &[String]) {
    let job = Job::new(theory.fluents, theory.actions(), &theory.masks).with_start(theory.start).with_log(log);
    let end = log.len();
    let text: String = tests.iter().map(|t| format!("{t}\n")).collect();
    let mut out = [0; BOARD_ROOM];
    assert_eq!(job.board(text.as_bytes(), end, end, &mut out), Ok(BOARD_ROOM));
    for (test, byte) in tests.iter().zip(out) {
        assert_eq!(board_verdict(byte), Some(job.verdict(test.as_bytes(), end, end)), "{test}");
    }
    let times = least(
        &mut [
            Box::new(|| {
                black_box(black_box(&job).board(black_box(text.as_bytes()), end, end, &mut out)).unwrap();
                black_box(&out);
            }),
            Box::new(|| {
                for test in tests {
                    black_box(black_box(&job).verdict(black_box(test.as_bytes()), end, end)).unwrap();
                }
            }),
        ],
        TABLE,
    );
    println!("{name}\t{:.4}\t{:.4}", times[0], times[1]);
}

pub fn run() {
    for (name, theory, log) in [("five cartons, log of 63", cartons(), round(63, 6)), ("64 actions, log of 63", labels(64), round(63, 64))] {
        measure(&format!("{name}, the lines of a display"), &theory, &log, &display(&theory));
        measure(&format!("{name}, four kinds in turn"), &theory, &log, &four_kinds(&theory));
        measure(&format!("{name}, the dearest of the four alone"), &theory, &log, &spoiled(&theory));
    }
}
