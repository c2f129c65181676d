//! The running tally on a log of 63: one append, the quick yes and a record made afresh, beside the verdict of the test that the quick yes stands for.
use std::hint::black_box;

use wyndhopper::{Job, Tally};

use crate::case::Theory;
use crate::clock::{least, TABLE};
use crate::theories::{cartons, labels, round};

/// A line `name, append, quick yes, afresh, verdict`, in microseconds.
fn measure(name: &str, theory: &Theory, log: &[u8], action: usize) {
    let job = Job::new(theory.fluents, theory.actions(), &theory.masks).with_start(theory.start).with_log(log);
    let (end, last) = (log.len(), log[log.len() - 1] as usize);
    let test = format!("<-;a{action:02}*n1");
    let shorter = Tally::of(&job.with_log(&log[..end - 1])).unwrap();
    let whole = Tally::of(&job).unwrap();
    let (mut grown, mut fresh) = (shorter, Tally::EMPTY);
    grown.append(&job, last).unwrap();
    assert_eq!((grown, whole.happened(&job, action)), (whole, job.verdict(test.as_bytes(), end, end)));
    let times = least(
        &mut [
            Box::new(|| {
                grown = black_box(shorter);
                grown.append(black_box(&job), black_box(last)).unwrap();
                black_box(&grown);
            }),
            Box::new(|| {
                black_box(black_box(&whole).happened(black_box(&job), black_box(action))).unwrap();
            }),
            Box::new(|| {
                fresh.reset(black_box(&job)).unwrap();
                black_box(&fresh);
            }),
            Box::new(|| {
                black_box(black_box(&job).verdict(black_box(test.as_bytes()), end, end)).unwrap();
            }),
        ],
        TABLE,
    );
    let columns: Vec<String> = times.iter().map(|t| format!("{t:.4}")).collect();
    println!("{name}\t{}", columns.join("\t"));
}

pub fn run() {
    measure("five cartons, log of 63", &cartons(), &round(63, 6), 0);
    measure("64 actions, log of 63", &labels(64), &round(63, 64), 5);
}
