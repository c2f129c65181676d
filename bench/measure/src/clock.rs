//! The clock: calls timed side by side, in turns, so that whatever else the machine does falls on all of them. It counts the processor's time, not the wall's.
use std::hint::black_box;

use crate::case::{Answer, Case};

pub type Engine = fn(&Case) -> Answer;

/// How long one turn of one engine lasts at least, in seconds, and how many turns each has.
#[derive(Clone, Copy)]
pub struct Effort {
    pub turn: f64,
    pub turns: usize,
}

pub const TABLE: Effort = Effort { turn: 0.004, turns: 40 };
pub const POINT: Effort = Effort { turn: 0.001, turns: 12 };

/// A call that takes longer than this, in seconds, is made once.
const LONG: f64 = 0.1;

#[repr(C)]
struct Time {
    seconds: i64,
    nanoseconds: i64,
}

extern "C" {
    /// The C library's, which every Rust program has.
    fn clock_gettime(clock: i32, time: *mut Time) -> i32;
}

/// The processor's time of this thread, in seconds.
fn spent() -> f64 {
    const THREAD: i32 = 3;
    let mut t = Time { seconds: 0, nanoseconds: 0 };
    assert_eq!(unsafe { clock_gettime(THREAD, &mut t) }, 0);
    t.seconds as f64 + t.nanoseconds as f64 * 1e-9
}

/// Seconds of one call, over so many calls.
fn turn(calls: u64, f: &mut dyn FnMut()) -> f64 {
    let from = spent();
    for _ in 0..calls {
        f();
    }
    (spent() - from) / calls as f64
}

/// Microseconds of one call of each: the least of all turns.
pub fn least(fs: &mut [Box<dyn FnMut() + '_>], effort: Effort) -> Vec<f64> {
    let once: Vec<f64> = fs.iter_mut().map(|f| turn(1, f)).collect();
    let mut best = once.clone();
    if once.iter().all(|&t| t < LONG) {
        let calls: Vec<u64> = fs.iter_mut().map(|f| (effort.turn / turn(10, f).max(1e-8)).ceil() as u64).collect();
        for _ in 0..effort.turns {
            for (k, f) in fs.iter_mut().enumerate() {
                best[k] = best[k].min(turn(calls[k], f));
            }
        }
    }
    best.iter().map(|t| t * 1e6).collect()
}

/// The same for one case and some engines. It stops the run where two of them differ: the time of a wrong answer says nothing.
pub fn side_by_side(c: &Case, engines: &[Engine], effort: Effort) -> Vec<f64> {
    let mut answers: Vec<Option<Answer>> = vec![None; engines.len()];
    let mut calls: Vec<Box<dyn FnMut() + '_>> = Vec::new();
    for (engine, answer) in engines.iter().zip(&mut answers) {
        calls.push(Box::new(move || *answer = Some(black_box(engine(black_box(c))))));
    }
    let times = least(&mut calls, effort);
    drop(calls);
    assert!(answers.iter().all(|a| *a == answers[0]), "{answers:?}\n{c:?}");
    times
}
