//! The running tally: worked out by hand, asked of the library. Three actions: print 1, print 2 (needs label 1), void both.
use wyndhopper::{plain_row, Job, Refusal, Tally, ROW_MASKS};

const MASKS: [[u32; ROW_MASKS]; 3] = [plain_row(0, 0, 1, 0), plain_row(1, 0, 2, 0), plain_row(0, 0, 0, 3)];

fn job(log: &[u8]) -> Job<'_> {
    Job::new(2, 3, MASKS.as_flattened()).with_log(log)
}

fn front<T: Copy>(all: &[T]) -> [T; 3] {
    [all[0], all[1], all[2]]
}

/// Counts, last places, the last impossible step, and the quick yes to each action.
fn told(log: &[u8]) -> ([u8; 3], [u8; 3], u8, [bool; 3]) {
    let tally = Tally::of(&job(log)).unwrap();
    assert!(tally.counts[3..].iter().chain(&tally.last[3..]).all(|&n| n == 0));
    assert_eq!((tally.steps as usize, tally.state), (log.len(), job(log).state(log.len()).unwrap()));
    (front(&tally.counts), front(&tally.last), tally.impossible, [0, 1, 2].map(|a| tally.happened(&job(log), a).unwrap()))
}

#[test]
fn the_record_says_what_the_log_says() {
    assert_eq!(told(&[0, 1, 2, 0]), ([2, 1, 1], [4, 2, 3], 0, [true, true, true]));
    assert_eq!(told(&[1, 0]), ([1, 0, 0], [2, 0, 0], 1, [true, false, false]));
    assert_eq!(told(&[1, 0, 1]), ([1, 1, 0], [2, 3, 0], 1, [true, true, false]));
    assert_eq!(told(&[0, 2, 1]), ([1, 0, 1], [1, 0, 2], 3, [false, false, false]));
    assert_eq!(told(&[]), ([0; 3], [0; 3], 0, [false; 3]));
}

/// Every log of up to six steps: appended step by step, the record is the one made afresh, and its quick yes is the test's verdict.
#[test]
fn every_short_log() {
    let mut asked = 0;
    for steps in 0..=6 {
        for n in 0..3usize.pow(steps) {
            let log: Vec<u8> = (0..steps).map(|k| (n / 3usize.pow(k) % 3) as u8).collect();
            let job = job(&log);
            let mut tally = Tally::of(&job.with_log(&[])).unwrap();
            for &a in &log {
                tally.append(&job, a as usize).unwrap();
            }
            assert_eq!(Tally::of(&job), Ok(tally), "{log:?}");
            for (a, test) in ["<-;a00*n1", "<-;a01*n1", "<-;a02*n1"].into_iter().enumerate() {
                assert_eq!(tally.happened(&job, a), job.verdict(test.as_bytes(), log.len(), log.len()), "{log:?} {test}");
                asked += 1;
            }
        }
    }
    assert_eq!(asked, 3 * 1093);
}

#[test]
fn a_full_log_is_refused_and_the_record_stays() {
    let log = [0; 63];
    let mut tally = Tally::of(&job(&log[..62])).unwrap();
    tally.append(&job(&[]), 1).unwrap();
    assert_eq!((tally.steps, tally.counts[0], tally.last[1]), (63, 62, 63));
    for action in [0, 1, 3] {
        let before = tally;
        assert_eq!(tally.append(&job(&[]), action), Err(Refusal::BadLog));
        assert_eq!(tally, before);
    }
}

#[test]
fn refusals_come_in_their_order_and_change_nothing() {
    let before = Tally { counts: [7; 64], last: [9; 64], state: 5, steps: 64, impossible: 200 };
    let wrong_table = Job::new(2, 3, &MASKS.as_flattened()[..29]);
    let lacking = Job::new(1, 3, MASKS.as_flattened());
    let mut tally = before;
    for (job, refusal) in [(wrong_table, Refusal::BadNumber), (lacking, Refusal::LacksFluent), (job(&[3]), Refusal::BadLog), (job(&[0; 64]), Refusal::BadLog)] {
        assert_eq!(tally.reset(&job), Err(refusal));
        assert_eq!(tally, before);
    }
    for (job, action, refusal) in [(wrong_table, 3, Refusal::BadNumber), (lacking, 3, Refusal::LacksFluent), (job(&[]), 3, Refusal::BadLog), (job(&[]), usize::MAX, Refusal::BadLog)] {
        assert_eq!(tally.append(&job, action), Err(refusal));
        assert_eq!(tally, before);
    }
    // The job's own log is not looked at, and the quick yes looks at the count of actions alone.
    let mut short = Tally { steps: 0, ..before };
    assert_eq!(short.append(&job(&[3, 3]), 2), Ok(()));
    assert_eq!(before.happened(&wrong_table, 2), Ok(false));
    for actions in [0, 65] {
        assert_eq!(before.happened(&Job::new(2, actions, MASKS.as_flattened()), 65), Err(Refusal::BadNumber));
    }
    assert_eq!(before.happened(&job(&[]), 3), Err(Refusal::LacksName));
}

/// A record from elsewhere: counts of 63 and more stay, 63 steps and more are a full log, and places beyond the log are compared as they stand.
#[test]
fn any_record_is_taken_as_it_stands() {
    for (count, next) in [(0, 1), (62, 63), (63, 63), (64, 64), (200, 200), (255, 255)] {
        let mut tally = Tally { counts: [count; 64], last: [255; 64], state: 0, steps: 62, impossible: 254 };
        tally.append(&job(&[]), 0).unwrap();
        assert_eq!((tally.counts[0], tally.counts[1]), (next, count));
        assert_eq!((tally.last[0], tally.last[1], tally.state, tally.steps, tally.impossible), (63, 255, 1, 63, 254));
        assert_eq!([tally.happened(&job(&[]), 0), tally.happened(&job(&[]), 1)], [Ok(false), Ok(true)]);
    }
    for steps in [63, 64, 255] {
        let mut tally = Tally { steps, ..Tally::EMPTY };
        assert_eq!(tally.append(&job(&[]), 0), Err(Refusal::BadLog));
        assert_eq!(tally, Tally { steps, ..Tally::EMPTY });
    }
    // Not possible: label 2 needs label 1. Its effects apply all the same.
    let mut tally = Tally { last: [255; 64], steps: 10, impossible: 255, ..Tally::EMPTY };
    tally.append(&job(&[]), 1).unwrap();
    assert_eq!((tally.counts[1], tally.last[1], tally.state, tally.steps, tally.impossible), (0, 255, 2, 11, 11));
    assert_eq!(Tally { impossible: 255, ..tally }.happened(&job(&[]), 1), Ok(false));
}
