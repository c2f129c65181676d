//! Document 01, "Finish": every sequence in the stated order, the first that finishes.
use crate::ask::{Reading, World, NO_VALUES};
use crate::rule::{exactly, Counts, Kind, Rule, Walk};
use crate::theory::{check_with, possible, Theory};
use crate::Refusal;

fn finishes(theory: &Theory, domain: usize, reading: Reading, log: &[u8], job: &Walk) -> bool {
    World::new(theory, domain, reading, log).job(job, log.len(), NO_VALUES)[0][log.len()]
}

/// The sequences of exactly `left` more actions, smaller action numbers first.
fn search(theory: &Theory, domain: usize, reading: Reading, log: &mut Vec<u8>, job: &Walk, left: usize) -> bool {
    if left == 0 {
        return finishes(theory, domain, reading, log, job);
    }
    let state = World::new(theory, domain, reading, log).states[log.len()];
    for a in 0..theory.actions {
        if possible(&theory.masks[a], state) {
            log.push(a as u8);
            if search(theory, domain, reading, log, job, left - 1) {
                return true;
            }
            log.pop();
        }
    }
    false
}

/// The first finishing sequence of a checked job.
pub fn first(theory: &Theory, domain: usize, reading: Reading, log: &[u8], job: &Walk, more: usize) -> Option<Vec<u8>> {
    for length in 0..=more {
        if log.len() + length > 63 {
            return None;
        }
        let mut whole = log.to_vec();
        if search(theory, domain, reading, &mut whole, job, length) {
            return Some(whole[log.len()..].to_vec());
        }
    }
    None
}

#[allow(clippy::too_many_arguments)]
pub fn finish(c: Counts, start: u32, reading: usize, table: &[u32], log: &[u8], text: &[u8], more: usize, room: usize) -> Result<Vec<u8>, Refusal> {
    if more > 6 {
        return Err(3);
    }
    let reading = Reading::of(reading)?;
    let theory = check_with(c, start, table, log)?;
    let Rule::Walk(job) = exactly(text, Kind::Job, c)? else { unreachable!() };
    if room < more {
        return Err(12);
    }
    first(&theory, c.domain, reading, log, &job, more).ok_or(11)
}
