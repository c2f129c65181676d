//! The evaluator: a walk and a test over the rule's text, sets of positions in and out. `all` is the set of the positions up to now.
use crate::rule::{bind, value, Rule, Values};
use crate::world::{up_to, Tables};

pub struct Evaluator<'a> {
    text: &'a [u8],
    ends: &'a [u8; 256],
    done: &'a [u64; 64],
    any: u64,
    lit: &'a [u64; 32],
    domain: usize,
}

/// One step from each position of a set, over the steps that may be crossed; backwards, to each position whose step leads into the set.
#[inline]
pub fn cross(from: u64, over: u64, all: u64, back: bool) -> u64 {
    if back {
        from >> 1 & over
    } else {
        (from & over) << 1 & all
    }
}

impl<'a> Evaluator<'a> {
    pub fn new(rule: &'a Rule, tables: &'a Tables) -> Self {
        Evaluator { text: rule.text, ends: &rule.ends, done: &tables.done, any: tables.any, lit: &tables.lit, domain: rule.domain }
    }

    /// The number behind the sign at a place.
    #[inline]
    pub fn named(&self, at: usize) -> usize {
        usize::from(self.text[at + 1] - b'0') * 10 + usize::from(self.text[at + 2] - b'0')
    }

    #[inline]
    pub fn sign(&self, at: usize) -> u8 {
        self.text[at]
    }

    /// The steps over the action that is named behind the sign at a place; a sum's letter stands behind its number.
    #[inline]
    fn over(&self, at: usize) -> u64 {
        self.done[self.named(at) & 63]
    }

    #[inline]
    pub fn sum(&self, at: usize, values: Values) -> usize {
        self.named(at) + value(values, self.text[at + 3])
    }

    /// Where the second of two parts begins.
    #[inline]
    pub fn second(&self, at: usize) -> usize {
        usize::from(self.ends[(at + 1) & 255])
    }

    /// What a binder's part gives with each value of its variable, joined; with one value where the variable does not stand free there.
    #[inline]
    pub fn joined(&self, at: usize, values: Values, mut part: impl FnMut(usize, Values) -> u64) -> u64 {
        if self.ends[(at + 1) & 255] == 0 {
            return part(at + 2, values);
        }
        let letter = self.text[at + 1];
        (0..self.domain).fold(0, |all, k| all | part(at + 2, bind(values, letter, k)))
    }

    /// The positions that the walk at a place leads to from those of a set; with `back`, its converse.
    pub fn walk(&self, at: usize, from: u64, all: u64, back: bool, values: Values) -> u64 {
        match self.sign(at) {
            b'a' => cross(from, self.over(at), all, back),
            b'r' => cross(from, self.over(at), all, !back),
            b'b' => cross(from, self.done[self.sum(at, values) & 63], all, back),
            b's' => cross(from, self.done[self.sum(at, values) & 63], all, !back),
            b'n' => cross(from, self.any, all, back),
            b'u' => cross(from, self.any, all, !back),
            b';' => {
                let (one, two) = if back { (self.second(at), at + 1) } else { (at + 1, self.second(at)) };
                self.walk(two, self.walk(one, from, all, back, values), all, back, values)
            }
            b'|' => self.walk(at + 1, from, all, back, values) | self.walk(self.second(at), from, all, back, values),
            b'*' => self.star(at + 1, from, all, back, values),
            b'?' => self.here(at + 1, from, values),
            b'p' if from == 0 => 0,
            b'p' => self.joined(at, values, |at, values| self.walk(at, from, all, back, values)),
            _ => self.walk(at + 1, from, all, !back, values),
        }
    }

    /// Chains of the walk at a place. A star of a star is one star.
    fn star(&self, mut at: usize, from: u64, all: u64, back: bool, values: Values) -> u64 {
        while self.sign(at) == b'*' {
            at += 1;
        }
        let mut held = from;
        loop {
            let more = self.walk(at, held, all, back, values);
            if more & !held == 0 {
                return held;
            }
            held |= more;
        }
    }

    /// The positions of a set where the test at a place is true as a test inside a walk: each position is its own now.
    pub fn here(&self, at: usize, among: u64, values: Values) -> u64 {
        let mut kept = 0;
        let mut left = among;
        while left != 0 {
            let own = left.trailing_zeros() as usize;
            kept |= self.test(at, 1 << own, up_to(own), values);
            left &= left - 1;
        }
        kept
    }

    /// The positions of a set where the test at a place is true. A binder asks with the next value only where it was not true with one before.
    pub fn test(&self, at: usize, among: u64, all: u64, values: Values) -> u64 {
        match self.sign(at) {
            b'1' => among,
            b'f' => among & self.lit[self.named(at) & 31],
            b'g' => among & self.lit[self.sum(at, values) & 31],
            b'!' => among & !self.test(at + 1, among, all, values),
            b'&' => self.test(self.second(at), self.test(at + 1, among, all, values), all, values),
            b'e' => {
                let mut left = among;
                self.joined(at, values, |at, values| {
                    let held = if left == 0 { 0 } else { self.test(at, left, all, values) };
                    left &= !held;
                    held
                })
            }
            _ => {
                let there = self.test(self.second(at), all, all, values);
                among & self.walk(at + 1, there, all, true, values)
            }
        }
    }
}
