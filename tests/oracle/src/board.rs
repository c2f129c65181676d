//! Document 02, Q-3: "One call takes them, each ended by LF, at one then and now, and gives a byte each".
use crate::ask::{times, verdict, Reading};
use crate::rule::Counts;
use crate::theory::check_with;
use crate::Refusal;

/// A byte for each test: "0 no, 1 yes, otherwise 16 plus the refusal number", which "equals what the single question gives".
#[allow(clippy::too_many_arguments)]
pub fn board(c: Counts, start: u32, reading: usize, table: &[u32], log: &[u8], text: &[u8], then: usize, now: usize, room: usize) -> Result<Vec<u8>, Refusal> {
    // "a missing last LF is 2 (empty text is no tests)"
    if text.last().is_some_and(|&b| b != b'\n') {
        return Err(2);
    }
    let tests: Vec<&[u8]> = text.split_inclusive(|&b| b == b'\n').map(|line| &line[..line.len() - 1]).collect();
    // "more than 64 tests 3, theory, log and positions as in 3, 4, 5 and 10, too little output 12"
    if tests.len() > 64 {
        return Err(3);
    }
    Reading::of(reading)?;
    check_with(c, start, table, log)?;
    times(then, now, log)?;
    if room < tests.len() {
        return Err(12);
    }
    let told = |test: &&[u8]| match verdict(c, start, reading, table, log, test, then, now) {
        Ok(yes) => u8::from(yes),
        Err(number) => 16 + number,
    };
    Ok(tests.iter().map(told).collect())
}
