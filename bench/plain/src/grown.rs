//! The same search, quicker. The tables grow and shrink with the sequence, what a `?` answered before the cut is kept, and one pass over the job gives where it leads and
//! what it asks for. A step sign asks only where what can follow it is as long as needed; of actions that do the same the smallest is tried.
use crate::evaluate::cross;
use crate::finish::longest;
use crate::lengths::Lengths;
use crate::quick::Quick;
use crate::rule::{Rule, Values};
use crate::standins::worth;
use crate::world::{after, possible, up_to, Tables, World, ROW};

/// The actions asked for, bit a for action a, with so many steps left.
type Asked = [u64; 7];

struct Growing<'a> {
    world: &'a World<'a>,
    rule: &'a Rule<'a>,
    tables: Tables,
    slots: &'a mut [u64],
    lengths: Lengths<'a>,
    worth: u64,
    tail: [u8; 6],
    turns: usize,
}

/// A step sign waits at the end for one of these actions, and this is how long the rest behind it can be.
#[inline]
fn wait(asked: &mut Asked, these: u64, behind: u8) {
    let mut left = behind & 0b11_1111;
    while left != 0 {
        asked[left.trailing_zeros() as usize + 1] |= these;
        left &= left - 1;
    }
}

impl Quick<'_, false> {
    /// Where the walk at a place leads to; what it asks for at the end is joined to `asked`.
    fn onward(&mut self, at: usize, from: u64, end: usize, values: Values, follow: &[u8; 256], asked: &mut Asked) -> u64 {
        let waits = from >> end & 1 == 1;
        match self.sign(at) {
            b'a' => {
                if waits {
                    wait(asked, 1 << self.named(at), follow[at & 255]);
                }
                cross(from, self.over(at), up_to(end), false)
            }
            b'b' => {
                if waits {
                    wait(asked, 1 << self.sum(at, values), follow[at & 255]);
                }
                cross(from, self.over_sum(at, values), up_to(end), false)
            }
            b'n' => {
                if waits {
                    wait(asked, !0, follow[at & 255]);
                }
                cross(from, self.any, up_to(end), false)
            }
            b';' => {
                let middle = self.onward(at + 1, from, end, values, follow, asked);
                self.onward(self.second(at), middle, end, values, follow, asked)
            }
            b'|' => self.onward(at + 1, from, end, values, follow, asked) | self.onward(self.second(at), from, end, values, follow, asked),
            b'*' => self.star(at, from, |quick, body, new| quick.onward(body, new, end, values, follow, asked)),
            b'p' if from == 0 => 0,
            b'p' => self.joined(at, values, |quick, at, values| quick.onward(at, from, end, values, follow, asked)),
            _ => self.here(at, from, values),
        }
    }

    /// A new run over a log whose steps from the last on may be others: what stars have seen is forgotten, and what tests answered at the end or behind it.
    fn renew(&mut self, end: usize) {
        let before = (1 << end) - 1;
        for at in 0..self.text().len().min(self.slots.len()) {
            match self.text()[at] {
                b'*' => self.slots[at] = 0,
                b'?' => {
                    self.slots[at] &= before;
                    self.slots[at + 1] &= before;
                }
                _ => {}
            }
        }
    }
}

impl Growing<'_> {
    /// Whether the job has come to the end of n steps, and what it asks for there.
    fn turn(&mut self, n: usize) -> (bool, Asked) {
        self.turns += 1;
        let mut asked = [0; 7];
        let mut quick = Quick::new(self.rule, &self.tables, self.slots);
        quick.renew(n);
        let reached = quick.onward(0, 1, n, 0, &self.lengths.follow, &mut asked);
        (reached >> n & 1 == 1, asked)
    }

    /// The first sequence of exactly `left` actions, at least one, behind n steps, of which the last k are the tail's, where its first is one of `asked`.
    fn complete(&mut self, n: usize, k: usize, left: usize, asked: u64) -> bool {
        let state = self.tables.last;
        let mut these = asked & self.worth;
        while these != 0 {
            let a = these.trailing_zeros() as usize;
            these &= these - 1;
            let m = self.world.act(a);
            if !possible(m, state) {
                continue;
            }
            self.tail[k] = a as u8;
            self.tables.done[a] |= 1 << n;
            self.tables.any |= 1 << n;
            self.tables.arrive(after(m, state), n + 1);
            let (ended, next) = self.turn(n + 1);
            if if left == 1 { ended } else { self.complete(n + 1, k + 1, left - 1, next[left - 1]) } {
                return true;
            }
            self.tables.done[a] &= !(1 << n);
            self.tables.any &= !(1 << n);
            self.tables.arrive(state, n + 1);
        }
        false
    }

    /// How many actions the first finishing sequence has. Lengths and stand-ins are made only where length 0 does not finish.
    fn first(&mut self, most: usize) -> Option<usize> {
        let n = self.world.log.len();
        if self.turn(n).0 {
            return Some(0);
        }
        self.lengths.fill(self.world, self.tables.last);
        if self.lengths.any_asks(most) {
            self.worth = worth(self.world, self.rule);
        }
        let asked = self.turn(n).1;
        (1..=most).find(|&k| self.complete(n, 0, k, asked[k]))
    }
}

/// The first sequence that finishes the job, in the front of `out`; and how often the job was asked on the way.
pub fn first(world: &World, rule: &Rule, more: usize, out: &mut [u8]) -> (Option<usize>, usize) {
    let seek = |slots: &mut [u64], out: &mut [u8]| {
        let all = u64::MAX >> (64 - world.masks.len() / ROW);
        let tables = Tables::over(world, world.log);
        let mut search = Growing { world, rule, tables, slots, lengths: Lengths::none(rule), worth: all, tail: [0; 6], turns: 0 };
        let length = search.first(longest(world, more));
        if let Some(k) = length {
            out[..k].copy_from_slice(&search.tail[..k]);
        }
        (length, search.turns)
    };
    if rule.text.contains(&b'?') || rule.keeps() {
        seek(&mut [0; 256], out)
    } else {
        seek(&mut [], out)
    }
}
