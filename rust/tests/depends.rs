//! Effects that depend (request Q-6): worked out by hand, asked of the library. Start; clauses as when, unless, put, drop: states.
use wyndhopper::{plain_row, Job, Refusal, Tally, FINISH_ROOM, ROW_MASKS};

type Clause = [u32; 4];
const NONE: Clause = [0; 4];

/// The states that an action of these clauses leads through, taken so many times.
fn led(start: u32, one: Clause, two: Clause, steps: usize) -> Vec<u32> {
    let row = [&[0, 0], &one[..], &two[..]].concat();
    let log = vec![0; steps];
    let job = Job::new(2, 1, &row).with_start(start).with_log(&log);
    (0..=steps).map(|p| job.state(p).unwrap()).collect()
}

#[test]
fn both_clauses_look_at_the_state_before_the_step() {
    assert_eq!(led(3, [1, 0, 0, 2], NONE, 1), [3, 1]);
    assert_eq!(led(2, [1, 0, 0, 2], NONE, 1), [2, 2]);
    assert_eq!(led(0, [0, 0, 1, 0], [0, 0, 0, 1], 1), [0, 1]);
    assert_eq!(led(1, [0, 0, 1, 0], [0, 0, 0, 1], 1), [1, 1]);
    assert_eq!(led(1, [0, 0, 0, 1], [0, 0, 1, 0], 1), [1, 1]);
    assert_eq!(led(0, [0, 0, 1, 0], [1, 0, 2, 0], 2), [0, 1, 3]);
    assert_eq!(led(1, [1, 1, 0, 1], NONE, 1), [1, 1]);
    assert_eq!(led(3, [0, 1, 0, 3], [1, 0, 0, 1], 1), [3, 2]);
}

/// A row from four masks has the states of put and drop alone.
#[test]
fn four_masks() {
    for n in 0..64 {
        let (put, drop, start) = (n % 4, n / 4 % 4, n / 16);
        let row = plain_row(0, 0, put, drop);
        let job = Job::new(2, 1, &row).with_start(start).with_log(&[0, 0]);
        let next = |state: u32| put | (state & !drop);
        assert_eq!([job.state(1), job.state(2)], [Ok(next(start)), Ok(next(next(start)))]);
    }
}

#[test]
fn refusals_of_a_table() {
    for masks in [&[][..], &[0; 4], &[0; 9], &[0; 11], &[0; 20]] {
        assert_eq!(Job::new(2, 1, masks).state(0), Err(Refusal::BadNumber));
    }
    for k in 0..ROW_MASKS {
        let mut row = [0; ROW_MASKS];
        row[k] = 4;
        assert_eq!([Job::new(2, 1, &row).state(0), Job::new(3, 1, &row).state(0)], [Err(Refusal::LacksFluent), Ok(0)]);
    }
}

/// Tests, possible, next, finish and the tally go by the states that the clauses give.
#[test]
fn every_call_follows() {
    // 00 puts label 01 when the carton, 00, is open; 01 closes it; 02 opens it, and needs it closed; 03 needs label 01
    let masks = [[0, 0, 1, 0, 2, 0, 0, 0, 0, 0], plain_row(0, 0, 0, 1), plain_row(0, 1, 1, 0), plain_row(2, 0, 0, 0)];
    let job = Job::new(2, 4, masks.as_flattened()).with_start(1);
    let (open, shut) = (job.with_log(&[0]), job.with_log(&[1, 0]));
    assert_eq!([open.verdict(b"f01", 1, 1), shut.verdict(b"f01", 2, 2), shut.verdict(b"<-a001", 2, 2)], [Ok(true), Ok(false), Ok(true)]);
    assert_eq!([open.possible(3, 1), shut.possible(3, 2)], [Ok(true), Ok(false)]);
    assert_eq!([open.next(b"*n"), shut.next(b"*n")], [Ok(0b1011), Ok(0b0111)]);
    let finish = |job: &Job| {
        let mut out = [0; FINISH_ROOM];
        job.finish(b";*na03", 6, &mut out).map(|n| out[..n].to_vec())
    };
    assert_eq!([finish(&open), finish(&shut)], [Ok(vec![3]), Ok(vec![2, 0, 3])]);
    let tally = Tally::of(&job.with_log(&[1, 0, 3])).unwrap();
    assert_eq!((tally.state, tally.impossible, tally.counts[3]), (0, 3, 0));
}
