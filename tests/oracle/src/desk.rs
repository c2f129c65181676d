//! Document 02, Q-11, from its sentences alone: no theory, no masks.
use crate::Refusal;

/// "C or k out of range is 3; a log over 63 actions, or an action above C, is 5."
fn check(cartons: usize, log: &[u8], label: usize) -> Result<(), Refusal> {
    if !(1..=16).contains(&cartons) || !(1..=cartons).contains(&label) {
        return Err(3);
    }
    if log.len() > 63 || log.iter().any(|&a| a as usize > cartons) {
        return Err(5);
    }
    Ok(())
}

/// "printed after the last void, or since the start if none"
fn out(cartons: usize, log: &[u8], label: usize) -> bool {
    let from = log.iter().rposition(|&a| a as usize == cartons).map_or(0, |void| void + 1);
    log[from..].iter().any(|&a| a as usize + 1 == label)
}

/// "whether label k may be printed: yes exactly when each lower label was printed after the last void, or since the start if none"
pub fn may_print(cartons: usize, log: &[u8], label: usize) -> Result<bool, Refusal> {
    check(cartons, log, label)?;
    Ok((1..label).all(|lower| out(cartons, log, lower)))
}

/// "the lowest label not yet out, or that all are"
pub fn lowest(cartons: usize, log: &[u8]) -> Result<Option<usize>, Refusal> {
    check(cartons, log, 1)?;
    Ok((1..=cartons).find(|&label| !out(cartons, log, label)))
}
