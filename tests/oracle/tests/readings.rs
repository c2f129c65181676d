//! Document 02, Q-7: a test inside a walk that sees its own position alone (`step`), or the outer now (`end`); and Q-13: what follows position now in the log does not matter. On document 01's
//! theory; L is 00 01 02 00, each step possible. Answers as (step, end).
use oracle::ask::{self, Reached};
use oracle::finish::finish;
use oracle::next::next;
use oracle::rule::Counts;
use oracle::sheet::answer;

const COUNTS: Counts = Counts { fluents: 2, actions: 3, domain: 0 };
/// Print 1, print 2 which needs label 1, void both.
const MASKS: [u32; 30] = [0, 0, 0, 0, 1, 0, 0, 0, 0, 0, 1, 0, 0, 0, 2, 0, 0, 0, 0, 0, 0, 0, 0, 0, 0, 3, 0, 0, 0, 0];
const L: &[u8] = &[0, 1, 2, 0];

/// The same question under both readings.
fn both<T>(ask: impl Fn(usize) -> T) -> (T, T) {
    (ask(0), ask(1))
}

fn set(log: &[u8], walk: &str, then: usize, now: usize) -> (u64, u64) {
    both(|reading| ask::reach(COUNTS, 0, reading, &MASKS, log, walk.as_bytes(), then, now).unwrap().set)
}

fn verdict(test: &str, then: usize, now: usize) -> (bool, bool) {
    both(|reading| ask::verdict(COUNTS, 0, reading, &MASKS, L, test.as_bytes(), then, now).unwrap())
}

fn finished(log: &[u8], job: &str) -> (Result<Vec<u8>, u8>, Result<Vec<u8>, u8>) {
    both(|reading| finish(COUNTS, 0, reading, &MASKS, log, job.as_bytes(), 0, 6))
}

#[test]
fn a_walk_question() {
    assert_eq!([4, 2, 1].map(|now| set(L, "?<a011", 1, now)), [(0, 2), (0, 2), (0, 0)]);
    assert_eq!(set(L, "*;n?<a011", 0, 4), (1, 3));
    assert_eq!(set(L, "*;?!<a021n", 0, 4), (31, 7));
    assert_eq!(set(&[0, 1], ";a00;?<a011a01", 0, 2), (0, 4));
}

#[test]
fn a_test_within_a_diamond() {
    assert_eq!([4, 1].map(|now| verdict("<?<a0111", 1, now)), [(false, true), (false, false)]);
}

/// A job's own test keeps its own position, and a test inside its `<` does not.
#[test]
fn a_job() {
    assert_eq!(finished(&[0, 1], ";a00;?<a011a01"), (Err(11), Err(11)));
    assert_eq!(finished(&[0, 1], ";a00;a01?<-;a00;?<a011a011"), (Err(11), Ok(vec![])));
    assert_eq!(finished(&[0, 1], ";a00;?<-;a00?<a0111a01"), (Err(11), Err(11)));
    assert_eq!(both(|reading| next(COUNTS, 0, reading, &MASKS, &[0, 1], b";a00;a01;?<-;a00;?<a011a011a02")), (Ok(0), Ok(4)));
}

#[test]
fn a_reading_that_there_is_not() {
    for reading in [2, 3, usize::MAX] {
        assert_eq!(ask::reach(COUNTS, 0, reading, &MASKS, L, b"n", 0, 4).map(|r| r.set), Err(3));
        assert_eq!(ask::verdict(COUNTS, 0, reading, &MASKS, L, b"1", 0, 4), Err(3));
        assert_eq!(finish(COUNTS, 0, reading, &MASKS, L, b"n", 0, 6), Err(3));
        assert_eq!(next(COUNTS, 0, reading, &MASKS, L, b"n"), Err(3));
    }
}

/// A sheet of three actions, on which the reading's line is line 10.
fn sheet(version: usize, now: &str) -> String {
    let rows = MASKS.chunks(10).map(|row| format!("act={}\n", row.iter().map(|m| format!("{m:08x}")).collect::<Vec<_>>().join(",")));
    let acts: String = rows.collect();
    answer(format!("sheet={version}\nfluents=02\nactions=03\ndomain=01\nstart=00000000\n{acts}log=0001\n{now}ask=<-;a00;?<a011a011\nrun=;a00a01\nmore=0\n").as_bytes())
}

#[test]
fn sheets() {
    assert_eq!(sheet(4, "now=step\n"), "verdict=no\nstate=00000003\nfinish=\n");
    assert_eq!(sheet(4, "now=end\n"), "verdict=yes\nstate=00000003\nfinish=\n");
    assert_eq!(sheet(3, ""), sheet(4, "now=step\n"));
    for value in ["End", "", "Step", "steps", "end ", "step,end", "0", "en"] {
        assert_eq!(sheet(4, &format!("now={value}\n")), "refused=3,line=10\n", "{value}");
    }
    assert_eq!([sheet(4, ""), sheet(4, "now\n"), sheet(4, "Now=end\n")], ["refused=2,line=10\n"; 3]);
    assert_eq!(sheet(3, "now=step\n"), "refused=2,line=10\n");
}

/// an answer at (then, now) is the same whichever actions follow position now.
#[test]
fn what_follows_does_not_matter() {
    let walks = ["*n", "?<a011", "*;n?<a011", "-;a00*n", "*|nu", ";*?!<;*na001n"];
    for walk in walks {
        for now in 0..=4 {
            for tail in [&[][..], &[2], &[0, 1, 1], &[1, 2, 0, 0]] {
                let longer = [&L[..now], tail].concat();
                for then in 0..=now {
                    assert_eq!(set(L, walk, then, now), set(&longer, walk, then, now), "{walk} at ({then}, {now}), then {tail:?}");
                }
            }
        }
    }
    let count = |r: Reached| (r.set, r.count, r.earliest);
    let both_logs = |log: &[u8]| ask::reach(COUNTS, 0, 1, &MASKS, log, b"*;n?<a011", 0, 4).map(count);
    assert_eq!(both_logs(L), both_logs(&[0, 1, 2, 0, 1]));
}
