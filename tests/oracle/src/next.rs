//! What a scheduler asks at a position: may this action be taken, and which actions may come next.
use crate::ask::{bind, number, Reading, Values, World, NO_VALUES};
use crate::rule::{exactly, Counts, Kind, Rule, Walk};
use crate::theory::{check, check_with, possible as able, states};
use crate::Refusal;

/// "may this action be taken at this position (its need bits on, its ban bits off in the state there)?"
#[allow(clippy::too_many_arguments)]
pub fn possible(fluents: usize, actions: usize, start: u32, table: &[u32], log: &[u8], action: usize, position: usize) -> Result<bool, Refusal> {
    let theory = check(fluents, actions, start, table, log)?;
    if action >= actions {
        return Err(7);
    }
    if position > log.len() {
        return Err(10);
    }
    Ok(able(&theory.masks[action], states(&theory, log)[position]))
}

/// Whether the walk, begun at p, can stand at the log's end before a step that is not there yet, and wait for this action.
fn waits(world: &World, walk: &Walk, p: usize, action: usize, values: Values) -> bool {
    let end = world.log.len();
    let of = |w: &Walk, p: usize| waits(world, w, p, action, values);
    let led = |w: &Walk, then: &dyn Fn(usize) -> bool| world.job(w, end, values)[p].iter().enumerate().any(|(m, &b)| b && then(m));
    match walk {
        Walk::Act(a) => p == end && number(a, values) == action,
        Walk::Next => p == end,
        Walk::Seq(v, w) => of(v, p) || led(v, &|m| of(w, m)),
        Walk::Alt(v, w) => of(v, p) || of(w, p),
        Walk::Star(w) => led(walk, &|m| of(w, m)),
        Walk::Pick(v, w) => (0..world.domain).any(|k| waits(world, w, p, action, bind(values, *v, k))),
        Walk::Undo(_) | Walk::Prev | Walk::Check(_) | Walk::Conv(_) => false,
    }
}

/// "those that the job waits for at the log's end and that are possible there, as a 64-bit number"
pub fn next(c: Counts, start: u32, reading: usize, table: &[u32], log: &[u8], text: &[u8]) -> Result<u64, Refusal> {
    let reading = Reading::of(reading)?;
    let theory = check_with(c, start, table, log)?;
    let Rule::Walk(job) = exactly(text, Kind::Job, c)? else { unreachable!() };
    let world = World::new(&theory, c.domain, reading, log);
    let state = world.states[log.len()];
    let may = |a: &usize| able(&theory.masks[*a], state) && waits(&world, &job, 0, *a, NO_VALUES);
    Ok((0..c.actions).filter(may).fold(0, |all, a| all | 1 << a))
}
