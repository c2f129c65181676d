//! How many steps a job can still take behind each of its step signs, from the text alone. A set of lengths is a byte, bit l for l steps, 0 to 6.
use crate::rule::Rule;
use crate::world::{World, ROW};

/// No sequence is longer.
const MOST: u8 = 0b111_1111;

/// The fluents that are on, or off, in this state or in some state after it.
#[derive(Clone, Copy)]
struct Turning {
    on: u32,
    off: u32,
}

impl Turning {
    fn from(world: &World, state: u32) -> Self {
        let start = Turning { on: state, off: !state };
        world.masks.chunks_exact(ROW).fold(start, |t, m| Turning { on: t.on | m[4] | m[8], off: t.off | m[5] & !m[4] | m[9] & !m[8] })
    }
}

pub struct Lengths<'a> {
    rule: &'a Rule<'a>,
    turning: Turning,
    /// At a step sign: the lengths that the job can have behind it. At the last of a run of stars: those that it can have before it.
    pub follow: [u8; 256],
}

impl<'a> Lengths<'a> {
    /// None are known before they are asked for.
    pub fn none(rule: &'a Rule<'a>) -> Self {
        Lengths { rule, turning: Turning { on: 0, off: 0 }, follow: [0; 256] }
    }

    /// The table for what follows a log that ends in this state.
    pub fn fill(&mut self, world: &World, state: u32) {
        self.turning = Turning::from(world, state);
        self.before(0, 1);
    }

    /// Whether some `n` of the job can be asked for an action with at most so many steps left.
    pub fn any_asks(&self, most: usize) -> bool {
        let near = (1 << most) - 1;
        self.rule.text.iter().zip(&self.follow).any(|(&sign, &behind)| sign == b'n' && behind & near != 0)
    }

    /// The lengths from before the walk at a place, where these are those from behind it: perhaps only such as were not handed back before.
    fn before(&mut self, at: usize, behind: u8) -> u8 {
        let text = self.rule.text;
        match text[at] {
            b'a' | b'b' | b'n' => {
                self.follow[at & 255] |= behind;
                behind << 1 & MOST
            }
            b';' => {
                let middle = self.before(self.rule.second(at), behind);
                self.before(at + 1, middle)
            }
            b'|' => self.before(at + 1, behind) | self.before(self.rule.second(at), behind),
            b'*' => self.rounds(at, behind),
            b'p' => self.before(at + 2, behind),
            _ if self.may_be(at + 1, true) => behind,
            _ => 0,
        }
    }

    fn rounds(&mut self, mut at: usize, behind: u8) -> u8 {
        while self.rule.text[at + 1] == b'*' {
            at += 1;
        }
        let mut seen = self.follow[at & 255];
        let mut new = behind & !seen;
        while new != 0 {
            seen |= new;
            new = self.before(at + 1, new) & !seen;
        }
        self.follow[at & 255] = seen;
        seen
    }

    /// Whether the test at a place may have this truth at the log's end or behind it, as far as the fluents say; a `<` may have either, and a variable any value.
    fn may_be(&self, at: usize, truth: bool) -> bool {
        match self.rule.text[at] {
            b'1' => truth,
            b'f' => (if truth { self.turning.on } else { self.turning.off }) >> (self.rule.named(at) & 31) & 1 == 1,
            b'g' => {
                let of = if truth { self.turning.on } else { self.turning.off };
                of >> (self.rule.named(at) & 31) & ((1 << self.rule.domain) - 1) != 0
            }
            b'e' => self.may_be(at + 2, truth),
            b'!' => self.may_be(at + 1, !truth),
            b'&' if truth => self.may_be(at + 1, true) && self.may_be(self.rule.second(at), true),
            b'&' => self.may_be(at + 1, false) || self.may_be(self.rule.second(at), false),
            _ => true,
        }
    }
}
