//! `n` and `u` are one of our actions, so that they cross possible steps only: worked out by hand, asked of the library. Three actions: print 1, print 2 (needs
//! label 1), void both. M is 01 00 (01 was not possible), L is 00 01 02 00 (every step was); now is the end unless given.
use wyndhopper::{plain_row, Job, Refusal, FINISH_ROOM, ROW_MASKS};

const MASKS: [[u32; ROW_MASKS]; 3] = [plain_row(0, 0, 1, 0), plain_row(1, 0, 2, 0), plain_row(0, 0, 0, 3)];
const M: &[u8] = &[1, 0];
const L: &[u8] = &[0, 1, 2, 0];

fn job(log: &[u8]) -> Job<'_> {
    Job::new(2, 3, MASKS.as_flattened()).with_log(log)
}

fn reach(log: &[u8], walk: &str, then: usize) -> (u64, usize, usize) {
    let r = job(log).reach(walk.as_bytes(), then, log.len()).unwrap();
    (r.set[0], r.count, r.earliest)
}

fn set(log: &[u8], walk: &str, then: usize) -> u64 {
    reach(log, walk, then).0
}

fn verdict(log: &[u8], test: &str, then: usize) -> bool {
    job(log).verdict(test.as_bytes(), then, log.len()).unwrap()
}

fn finished(log: &[u8], run: &str, more: usize) -> Result<Vec<u8>, Refusal> {
    let mut out = [0; FINISH_ROOM];
    job(log).finish(run.as_bytes(), more, &mut out).map(|count| out[..count].to_vec())
}

#[test]
fn walks_stop_at_a_forced_step() {
    assert_eq!(reach(M, "n", 0), (0, 0, 64));
    assert_eq!(set(M, "n", 1), 4);
    assert_eq!([set(M, "u", 1), set(M, "u", 2)], [0, 2]);
    assert_eq!([set(M, "*n", 0), set(M, "*n", 1)], [1, 6]);
    assert_eq!(reach(M, "*u", 2), (6, 2, 1));
    assert_eq!(set(M, "*|nu", 2), 6);
    assert_eq!(set(M, "-n", 1), 0);
    assert_eq!(set(M, "-;a00*n", 2), 2);
}

#[test]
fn so_do_tests() {
    assert!(verdict(M, "<-;a00*n1", 2));
    assert!(!verdict(M, "<-;a01*n1", 2));
    assert!(!verdict(M, "<n1", 0));
    assert!(verdict(M, "<n1", 1));
}

#[test]
fn no_run_crosses_it() {
    assert_eq!(finished(M, ";nn", 0), Err(Refusal::NoFinish));
    assert_eq!(finished(&[1], "*n", 6), Err(Refusal::NoFinish));
    assert_eq!(finished(&[], "n", 1), Ok(vec![0]));
    assert_eq!(finished(&[], ";nn", 2), Ok(vec![0, 0]));
}

#[test]
fn where_every_step_was_possible_nothing_changed() {
    assert_eq!([set(L, "*n", 2), set(L, "*u", 2)], [28, 7]);
    assert_eq!(set(L, "-;a00*n", 4), 9);
}
