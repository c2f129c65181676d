//! Document 02, Q-5: "Keep, for one job, each action's count of possible occurrences and its last one, and the last impossible step." Each is read off the log anew. A place is kept as the
//! position after the step, 0 for none.
use crate::theory::{after, check, possible, states};
use crate::Refusal;

#[derive(Clone, Debug, PartialEq)]
pub struct Tally {
    pub counts: [u8; 64],
    pub last: [u8; 64],
    pub state: u32,
    pub steps: u8,
    pub impossible: u8,
}

/// "made afresh from the log"
pub fn afresh(fluents: usize, actions: usize, start: u32, table: &[u32], log: &[u8]) -> Result<Tally, Refusal> {
    let theory = check(fluents, actions, start, table, log)?;
    let states = states(&theory, log);
    let able = |p: usize| possible(&theory.masks[log[p] as usize], states[p]);
    let taken = |a: usize| (0..log.len()).filter(move |&p| log[p] as usize == a && able(p));
    let mut tally = Tally { counts: [0; 64], last: [0; 64], state: states[log.len()], steps: log.len() as u8, impossible: 0 };
    for a in 0..64 {
        tally.counts[a] = taken(a).count() as u8;
        tally.last[a] = taken(a).max().map_or(0, |p| p as u8 + 1);
    }
    tally.impossible = (0..log.len()).filter(|&p| !able(p)).max().map_or(0, |p| p as u8 + 1);
    Ok(tally)
}

/// "5 for an append that would make 64, or an unknown action"; "63 steps or more is a full log, a count of 63 or more stays as it is"
pub fn append(fluents: usize, actions: usize, start: u32, table: &[u32], before: &Tally, action: usize) -> Result<Tally, Refusal> {
    let theory = check(fluents, actions, start, table, &[])?;
    if before.steps >= 63 || action >= actions {
        return Err(5);
    }
    let masks = &theory.masks[action];
    let mut tally = before.clone();
    tally.steps += 1;
    tally.state = after(masks, before.state);
    if !possible(masks, before.state) {
        tally.impossible = tally.steps;
        return Ok(tally);
    }
    if tally.counts[action] < 63 {
        tally.counts[action] += 1;
    }
    tally.last[action] = tally.steps;
    Ok(tally)
}

/// "Its quick yes holds exactly when the last possible occurrence comes after the last impossible step"; "7 for asking about one"
pub fn happened(actions: usize, tally: &Tally, action: usize) -> Result<bool, Refusal> {
    if !(1..=64).contains(&actions) {
        return Err(3);
    }
    if action >= actions {
        return Err(7);
    }
    Ok(tally.last[action] > tally.impossible)
}
