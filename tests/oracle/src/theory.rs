//! Document 01, "Facts, actions, log"; document 02, Q-6: effects that depend on the state before the step.
use crate::rule::Counts;
use crate::Refusal;

#[derive(Clone, Copy, Debug)]
pub struct Clause {
    pub when: u32,
    pub unless: u32,
    pub put: u32,
    pub drop: u32,
}

#[derive(Clone, Copy, Debug)]
pub struct Masks {
    pub need: u32,
    pub ban: u32,
    pub clauses: [Clause; 2],
}

impl Masks {
    /// "ten masks: need, ban, then twice when, unless, put, drop."
    pub fn of_ten(m: &[u32]) -> Self {
        let clause = |k: usize| Clause { when: m[k], unless: m[k + 1], put: m[k + 2], drop: m[k + 3] };
        Masks { need: m[0], ban: m[1], clauses: [clause(2), clause(6)] }
    }

    /// "Older sheets read as one unconditional clause and an empty one": from need, ban, put, drop.
    pub fn of_four(m: &[u32]) -> Self {
        Masks::of_ten(&[m[0], m[1], 0, 0, m[2], m[3], 0, 0, 0, 0])
    }

    /// The ten masks again.
    pub fn row(&self) -> [u32; 10] {
        let [one, two] = self.clauses;
        [self.need, self.ban, one.when, one.unless, one.put, one.drop, two.when, two.unless, two.put, two.drop]
    }
}

/// A table of ten masks an action from one of four.
pub fn widened(four: &[u32]) -> Vec<u32> {
    four.chunks(4).flat_map(|m| Masks::of_four(m).row()).collect()
}

#[derive(Clone, Debug)]
pub struct Theory {
    pub fluents: usize,
    pub actions: usize,
    pub start: u32,
    pub masks: Vec<Masks>,
}

/// "It is possible in a state when every need bit is on and every ban bit off."
pub fn possible(m: &Masks, state: u32) -> bool {
    (0..32).all(|i| (m.need >> i & 1 == 0 || state >> i & 1 == 1) && (m.ban >> i & 1 == 0 || state >> i & 1 == 0))
}

/// "A clause acts if its when bits are on and its unless bits off before the step."
fn acts(c: &Clause, before: u32) -> bool {
    (0..32).all(|i| (c.when >> i & 1 == 0 || before >> i & 1 == 1) && (c.unless >> i & 1 == 0 || before >> i & 1 == 0))
}

/// "A fluent is then on if an acting clause puts it, or it was on and no acting clause drops it."
pub fn after(m: &Masks, before: u32) -> u32 {
    let acting = m.clauses.map(|c| acts(&c, before).then_some(c));
    let by = |mask: fn(Clause) -> u32, i: usize| acting.iter().flatten().any(|&c| mask(c) >> i & 1 == 1);
    let mut next = 0;
    for i in 0..32 {
        let was = before >> i & 1 == 1;
        let put = by(|c| c.put, i);
        let dropped = by(|c| c.drop, i);
        if put || (was && !dropped) {
            next |= 1 << i;
        }
    }
    next
}

/// The state at each position, from 0 to the log's length.
pub fn states(t: &Theory, log: &[u8]) -> Vec<u32> {
    let mut all = vec![t.start];
    for &a in log {
        let last = all[all.len() - 1];
        all.push(after(&t.masks[a as usize], last));
    }
    all
}

fn names_lacking(fluents: usize, mask: u32) -> bool {
    (fluents..32).any(|i| mask >> i & 1 == 1)
}

/// Refusals 3, 4 and 5 of a library call, smallest first.
pub fn check(fluents: usize, actions: usize, start: u32, table: &[u32], log: &[u8]) -> Result<Theory, Refusal> {
    if fluents > 32 || actions < 1 || actions > 64 || table.len() != 10 * actions {
        return Err(3);
    }
    if names_lacking(fluents, start) || table.iter().any(|&m| names_lacking(fluents, m)) {
        return Err(4);
    }
    if log.len() > 63 || log.iter().any(|&a| a as usize >= actions) {
        return Err(5);
    }
    let masks = table.chunks(10).map(Masks::of_ten).collect();
    Ok(Theory { fluents, actions, start, masks })
}

/// The same of a call that takes a rule, and so has a domain: "3 for a bad domain".
pub fn check_with(c: Counts, start: u32, table: &[u32], log: &[u8]) -> Result<Theory, Refusal> {
    if c.out_of_range() {
        return Err(3);
    }
    check(c.fluents, c.actions, start, table, log)
}
