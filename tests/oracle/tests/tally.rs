//! Document 02, Q-5, on document 01's theory: what the record of a log says, and that its quick yes is the verdict of `<-;aNN*n1` at the end, on every log of up to six steps.
use oracle::ask::verdict;
use oracle::rule::Counts;
use oracle::tally::{afresh, append, happened};

const COUNTS: Counts = Counts { fluents: 2, actions: 3, domain: 0 };
/// Print 1, print 2 which needs label 1, void both.
const MASKS: [u32; 30] = [0, 0, 0, 0, 1, 0, 0, 0, 0, 0, 1, 0, 0, 0, 2, 0, 0, 0, 0, 0, 0, 0, 0, 0, 0, 3, 0, 0, 0, 0];

fn told(log: &[u8]) -> (Vec<u8>, Vec<u8>, u8, Vec<bool>) {
    let t = afresh(2, 3, 0, &MASKS, log).unwrap();
    (t.counts[..3].to_vec(), t.last[..3].to_vec(), t.impossible, (0..3).map(|a| happened(3, &t, a).unwrap()).collect())
}

#[test]
fn the_record_says_what_the_log_says() {
    assert_eq!(told(&[0, 1, 2, 0]), (vec![2, 1, 1], vec![4, 2, 3], 0, vec![true, true, true]));
    assert_eq!(told(&[1, 0]), (vec![1, 0, 0], vec![2, 0, 0], 1, vec![true, false, false]));
    assert_eq!(told(&[1, 0, 1]), (vec![1, 1, 0], vec![2, 3, 0], 1, vec![true, true, false]));
    assert_eq!(told(&[0, 2, 1]), (vec![1, 0, 1], vec![1, 0, 2], 3, vec![false, false, false]));
}

#[test]
fn every_short_log() {
    for steps in 0..=6 {
        for n in 0..3usize.pow(steps) {
            let log: Vec<u8> = (0..steps).map(|k| (n / 3usize.pow(k) % 3) as u8).collect();
            let empty = afresh(2, 3, 0, &MASKS, &[]).unwrap();
            let grown = log.iter().fold(empty, |t, &a| append(2, 3, 0, &MASKS, &t, a as usize).unwrap());
            assert_eq!(grown, afresh(2, 3, 0, &MASKS, &log).unwrap(), "{log:?}");
            for (a, test) in ["<-;a00*n1", "<-;a01*n1", "<-;a02*n1"].into_iter().enumerate() {
                let end = log.len();
                assert_eq!(happened(3, &grown, a), verdict(COUNTS, 0, 0, &MASKS, &log, test.as_bytes(), end, end), "{log:?} {test}");
            }
        }
    }
}
