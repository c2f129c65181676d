//! The search: lengths from 0 up, in each depth first in action order, over one trail that grows and shrinks in place; only actions that are possible and that
//! the job asks for are tried. The tables are made afresh at every turn.
use crate::evaluate::Evaluator;
use crate::rule::{Rule, Values};
use crate::world::{possible, up_to, Tables, World, LOG_LIMIT, ROW};

pub struct Search<'a> {
    world: &'a World<'a>,
    rule: &'a Rule<'a>,
    trail: [u8; 64],
    /// How often the job was asked, and how often it may be: the search gives up where it would be more.
    turns: usize,
    limit: usize,
}

/// The actions of a theory that are possible in a state, bit a for action a.
pub fn doable(world: &World, state: u32) -> u64 {
    world.masks.chunks_exact(ROW).enumerate().fold(0, |all, (a, m)| all | u64::from(possible(m, state)) << a)
}

/// The longest sequence that may be tried.
pub fn longest(world: &World, more: usize) -> usize {
    more.min(LOG_LIMIT - world.log.len())
}

impl Evaluator<'_> {
    /// The actions that the walk at a place asks for at the end, from some position of a set.
    fn asks(&self, at: usize, from: u64, end: usize, values: Values) -> u64 {
        let waits = from >> end & 1 == 1;
        match self.sign(at) {
            b'a' if waits => 1 << self.named(at),
            b'b' if waits => 1 << self.sum(at, values),
            b'n' if waits => !0,
            b';' => {
                let middle = self.walk(at + 1, from, up_to(end), false, values);
                self.asks(at + 1, from, end, values) | self.asks(self.second(at), middle, end, values)
            }
            b'|' => self.asks(at + 1, from, end, values) | self.asks(self.second(at), from, end, values),
            b'*' => self.asks(at + 1, self.walk(at, from, up_to(end), false, values), end, values),
            b'p' => self.joined(at, values, |at, values| self.asks(at, from, end, values)),
            _ => 0,
        }
    }
}

impl Search<'_> {
    fn finished(&self, n: usize) -> bool {
        let tables = Tables::over(self.world, &self.trail[..n]);
        Evaluator::new(self.rule, &tables).walk(0, 1, up_to(n), false, 0) >> n & 1 == 1
    }

    fn tries(&self, n: usize) -> u64 {
        let tables = Tables::over(self.world, &self.trail[..n]);
        doable(self.world, tables.last) & Evaluator::new(self.rule, &tables).asks(0, 1, n, 0)
    }

    /// The first sequence of exactly `left` actions behind the first n of the trail: whether there is one; it then stands there.
    fn complete(&mut self, n: usize, left: usize) -> bool {
        if self.turns == self.limit {
            return false;
        }
        self.turns += 1;
        if left == 0 {
            return self.finished(n);
        }
        let mut asked = self.tries(n);
        while asked != 0 {
            self.trail[n] = asked.trailing_zeros() as u8;
            if self.complete(n + 1, left - 1) {
                return true;
            }
            asked &= asked - 1;
        }
        false
    }
}

/// The first sequence that finishes the job, in the front of `out`; and how often the job was asked on the way, `limit` times at most.
pub fn first(world: &World, rule: &Rule, more: usize, limit: usize, out: &mut [u8]) -> (Option<usize>, usize) {
    let n = world.log.len();
    let mut search = Search { world, rule, trail: [0; 64], turns: 0, limit };
    search.trail[..n].copy_from_slice(world.log);
    let length = (0..=longest(world, more)).find(|&k| search.complete(n, k));
    if let Some(k) = length {
        out[..k].copy_from_slice(&search.trail[n..n + k]);
    }
    (length, search.turns)
}
