//! Document 02, Q-1: `n` and `u` are one of our actions, so that they cross possible steps only. On document 01's theory; M is 01 00 (01 was not possible), L is
//! 00 01 02 00 (every step was), E is empty; now is the end unless given.
use oracle::ask;
use oracle::finish::finish;
use oracle::rule::Counts;

const COUNTS: Counts = Counts { fluents: 2, actions: 3, domain: 0 };
/// Print 1, print 2 which needs label 1, void both.
const MASKS: [u32; 30] = [0, 0, 0, 0, 1, 0, 0, 0, 0, 0, 1, 0, 0, 0, 2, 0, 0, 0, 0, 0, 0, 0, 0, 0, 0, 3, 0, 0, 0, 0];
const M: &[u8] = &[1, 0];
const L: &[u8] = &[0, 1, 2, 0];

fn reach(log: &[u8], walk: &str, then: usize) -> (u64, u32, u32) {
    let r = ask::reach(COUNTS, 0, 0, &MASKS, log, walk.as_bytes(), then, log.len()).unwrap();
    (r.set, r.count, r.earliest)
}

fn set(log: &[u8], walk: &str, then: usize) -> u64 {
    reach(log, walk, then).0
}

fn verdict(log: &[u8], test: &str, then: usize) -> bool {
    ask::verdict(COUNTS, 0, 0, &MASKS, log, test.as_bytes(), then, log.len()).unwrap()
}

fn finished(log: &[u8], job: &str, more: usize) -> Result<Vec<u8>, u8> {
    finish(COUNTS, 0, 0, &MASKS, log, job.as_bytes(), more, 6)
}

#[test]
fn walks_stop_at_a_forced_step() {
    assert_eq!(reach(M, "n", 0), (0, 0, 64));
    assert_eq!(set(M, "n", 1), 4);
    assert_eq!([set(M, "u", 1), set(M, "u", 2)], [0, 2]);
    assert_eq!([set(M, "*n", 0), set(M, "*n", 1)], [1, 6]);
    assert_eq!(reach(M, "*u", 2), (6, 2, 1));
    assert_eq!(set(M, "*|nu", 2), 6);
    assert_eq!(set(M, "-n", 1), 0);
    assert_eq!(set(M, "-;a00*n", 2), 2);
}

#[test]
fn so_do_tests() {
    assert!(verdict(M, "<-;a00*n1", 2));
    assert!(!verdict(M, "<-;a01*n1", 2));
    assert!(!verdict(M, "<n1", 0));
    assert!(verdict(M, "<n1", 1));
}

#[test]
fn no_job_crosses_it() {
    assert_eq!(finished(M, ";nn", 0), Err(11));
    assert_eq!(finished(&[1], "*n", 6), Err(11));
    assert_eq!(finished(&[], "n", 1), Ok(vec![0]));
    assert_eq!(finished(&[], ";nn", 2), Ok(vec![0, 0]));
}

/// `n` leads where the choice of all `aNN` leads, and `u` where that of all `rNN` does; where every step was possible, over all of them.
#[test]
fn any_is_the_choice_of_all() {
    for log in [M, L, &[], &[1], &[0, 1, 1, 2, 1, 0]] {
        for then in 0..=log.len() {
            assert_eq!(set(log, "n", then), set(log, "|a00|a01a02", then));
            assert_eq!(set(log, "u", then), set(log, "|r00|r01r02", then));
        }
    }
    assert_eq!([set(L, "*n", 2), set(L, "*u", 2)], [28, 7]);
}
