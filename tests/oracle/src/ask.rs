//! Document 01, the two tables and "What may be asked": a walk is a table of pairs of positions at most now. Document 02, Q-2: with variables, one such table for each of their values; Q-7: a test
//! inside a walk has its own position for now, or the outer now.
use crate::rule::{exactly, Counts, Kind, Name, Rule, Test, Walk, LETTERS};
use crate::theory::{check, check_with, possible, states, Theory};
use crate::Refusal;

pub type Pairs = Vec<Vec<bool>>;

/// The values that the variables have, in the order of their letters; none of one that no binder has given a value yet.
pub type Values = [Option<usize>; 4];

pub const NO_VALUES: Values = [None; 4];

/// These values, but v has this one: "An inner binding hides an outer one of the same name."
pub fn bind(mut values: Values, v: u8, value: usize) -> Values {
    values[place(v)] = Some(value);
    values
}

fn place(v: u8) -> usize {
    LETTERS.iter().position(|&l| l == v).expect("a variable")
}

/// The action or fluent that is named: "NN plus the value".
pub fn number(name: &Name, values: Values) -> usize {
    name.number + name.plus.map_or(0, |v| values[place(v)].expect("a bound variable"))
}

/// "a line `now=step` or `now=end`", by its number: the now that a test inside a walk has.
#[derive(Clone, Copy, Debug, PartialEq, Eq)]
pub enum Reading {
    Step,
    End,
}

impl Reading {
    /// "any other value is 3"
    pub fn of(number: usize) -> Result<Self, Refusal> {
        match number {
            0 => Ok(Reading::Step),
            1 => Ok(Reading::End),
            _ => Err(3),
        }
    }
}

/// What a question is asked of.
pub struct World<'a> {
    pub theory: &'a Theory,
    pub domain: usize,
    pub reading: Reading,
    pub log: &'a [u8],
    pub states: Vec<u32>,
}

impl<'a> World<'a> {
    pub fn new(theory: &'a Theory, domain: usize, reading: Reading, log: &'a [u8]) -> Self {
        World { theory, domain, reading, log, states: states(theory, log) }
    }

    fn pairs(n: usize, holds: impl Fn(usize, usize) -> bool) -> Pairs {
        (0..=n).map(|p| (0..=n).map(|q| holds(p, q)).collect()).collect()
    }

    fn stepped(&self, a: usize, p: usize) -> bool {
        p < self.log.len() && self.log[p] as usize == a && possible(&self.theory.masks[a], self.states[p])
    }

    /// Document 02, Q-1: "the choice over all actions, so a step counts only if that action was possible".
    fn any_stepped(&self, p: usize) -> bool {
        (0..self.theory.actions).any(|a| self.stepped(a, p))
    }

    /// The pairs that a walk question leads over, with now = n: "Under `end`, a `?T` .. in a walk question, has the outer now."
    pub fn walk(&self, w: &Walk, n: usize, values: Values) -> Pairs {
        self.walk_read(w, n, values, self.reading)
    }

    /// The same of a job: "A job's own `?T`, outside every `<`, keeps its own position."
    pub fn job(&self, w: &Walk, n: usize, values: Values) -> Pairs {
        self.walk_read(w, n, values, Reading::Step)
    }

    fn walk_read(&self, w: &Walk, n: usize, values: Values, own: Reading) -> Pairs {
        let of = |w: &Walk| self.walk_read(w, n, values, own);
        match w {
            Walk::Act(a) => Self::pairs(n, |p, q| q == p + 1 && self.stepped(number(a, values), p)),
            Walk::Undo(a) => Self::pairs(n, |p, q| p == q + 1 && self.stepped(number(a, values), q)),
            Walk::Next => Self::pairs(n, |p, q| q == p + 1 && self.any_stepped(p)),
            Walk::Prev => Self::pairs(n, |p, q| p == q + 1 && self.any_stepped(q)),
            Walk::Seq(v, w) => {
                let (v, w) = (of(v), of(w));
                Self::pairs(n, |p, q| (0..=n).any(|m| v[p][m] && w[m][q]))
            }
            Walk::Alt(v, w) => {
                let (v, w) = (of(v), of(w));
                Self::pairs(n, |p, q| v[p][q] || w[p][q])
            }
            Walk::Star(w) => chains(&of(w), n),
            Walk::Check(t) => {
                let now = |p: usize| if own == Reading::Step { p } else { n };
                Self::pairs(n, |p, q| p == q && self.test(t, now(p), values)[p])
            }
            Walk::Conv(w) => of(&inward(w)),
            Walk::Pick(v, w) => {
                let with: Vec<Pairs> = (0..self.domain).map(|k| self.walk_read(w, n, bind(values, *v, k), own)).collect();
                Self::pairs(n, |p, q| with.iter().any(|w| w[p][q]))
            }
        }
    }

    /// At which positions a test is true, with now = n. The walk of a `<` is read as a walk question is: "a `?T` within a `<` walk".
    pub fn test(&self, t: &Test, n: usize, values: Values) -> Vec<bool> {
        let of = |t: &Test| self.test(t, n, values);
        match t {
            Test::Always => vec![true; n + 1],
            Test::Fluent(i) => (0..=n).map(|p| self.states[p] >> number(i, values) & 1 == 1).collect(),
            Test::Not(t) => of(t).into_iter().map(|b| !b).collect(),
            Test::Both(t, u) => of(t).into_iter().zip(of(u)).map(|(a, b)| a && b).collect(),
            Test::Some(w, t) => {
                let (w, t) = (self.walk(w, n, values), of(t));
                (0..=n).map(|p| (0..=n).any(|q| w[p][q] && t[q])).collect()
            }
            Test::Exists(v, t) => {
                let with: Vec<Vec<bool>> = (0..self.domain).map(|k| self.test(t, n, bind(values, *v, k))).collect();
                (0..=n).map(|p| with.iter().any(|t| t[p])).collect()
            }
        }
    }
}

/// "a finite chain of W steps, perhaps none": chains of at most k steps, for k from 0 until nothing is added
fn chains(step: &Pairs, n: usize) -> Pairs {
    let mut all = World::pairs(n, |p, q| p == q);
    loop {
        let more = World::pairs(n, |p, q| all[p][q] || (0..=n).any(|m| all[p][m] && step[m][q]));
        if more == all {
            return all;
        }
        all = more;
    }
}

/// The converse, one sign inward.
fn inward(w: &Walk) -> Walk {
    let conv = |w: &Walk| Box::new(Walk::Conv(Box::new(w.clone())));
    match w {
        Walk::Act(a) => Walk::Undo(*a),
        Walk::Undo(a) => Walk::Act(*a),
        Walk::Next => Walk::Prev,
        Walk::Prev => Walk::Next,
        Walk::Seq(v, w) => Walk::Seq(conv(w), conv(v)),
        Walk::Alt(v, w) => Walk::Alt(conv(v), conv(w)),
        Walk::Star(w) => Walk::Star(conv(w)),
        Walk::Check(t) => Walk::Check(t.clone()),
        Walk::Conv(w) => (**w).clone(),
        Walk::Pick(v, w) => Walk::Pick(*v, conv(w)),
    }
}

pub struct Reached {
    pub set: u64,
    pub count: u32,
    pub earliest: u32,
}

pub(crate) fn times(then: usize, now: usize, log: &[u8]) -> Result<(), Refusal> {
    if then > now || now > log.len() {
        Err(10)
    } else {
        Ok(())
    }
}

/// "State at a position."
pub fn state(fluents: usize, actions: usize, start: u32, table: &[u32], log: &[u8], position: usize) -> Result<u32, Refusal> {
    let theory = check(fluents, actions, start, table, log)?;
    if position > log.len() {
        return Err(10);
    }
    Ok(states(&theory, log)[position])
}

#[allow(clippy::too_many_arguments)]
pub fn reach(c: Counts, start: u32, reading: usize, table: &[u32], log: &[u8], text: &[u8], then: usize, now: usize) -> Result<Reached, Refusal> {
    let reading = Reading::of(reading)?;
    let theory = check_with(c, start, table, log)?;
    let Rule::Walk(walk) = exactly(text, Kind::Walk, c)? else { unreachable!() };
    times(then, now, log)?;
    let row = World::new(&theory, c.domain, reading, log).walk(&walk, now, NO_VALUES).swap_remove(then);
    let set = row.iter().enumerate().fold(0u64, |s, (q, &b)| if b { s | 1 << q } else { s });
    let count = row.iter().filter(|&&b| b).count() as u32;
    let earliest = row.iter().position(|&b| b).unwrap_or(64) as u32;
    Ok(Reached { set, count, earliest })
}

#[allow(clippy::too_many_arguments)]
pub fn verdict(c: Counts, start: u32, reading: usize, table: &[u32], log: &[u8], text: &[u8], then: usize, now: usize) -> Result<bool, Refusal> {
    let reading = Reading::of(reading)?;
    let theory = check_with(c, start, table, log)?;
    let Rule::Test(test) = exactly(text, Kind::Test, c)? else { unreachable!() };
    times(then, now, log)?;
    Ok(World::new(&theory, c.domain, reading, log).test(&test, now, NO_VALUES)[then])
}
