//! The quick evaluator: ground once walked by a star is not walked again in the same run, and a test inside a walk is asked once at a position.
//!
//! `slots` has a set for each place of the text. A star's slot: the positions that it was given or led to in this run, which is one
//! walk of a `<` at one now. A `?`'s slot:
//! the positions where its test is true, and in the slot behind it those where it was asked (a test opens with neither `*` nor `?`, so the two never meet).
//! A slot that is not there keeps nothing: the answer is the same, only slower, so that a rule with nothing to keep gets no slots.
//!
//! A binder whose variable stands free in its part walks the part anew with each value: its stars forget, and so does each `?` in whose test the variable stands free.
use crate::evaluate::cross;
use crate::rule::{bind, value, Rule, Values};
use crate::world::{up_to, Tables};

pub struct Quick<'a, const COUNT: bool> {
    text: &'a [u8],
    ends: &'a [u8; 256],
    done: &'a [u64; 64],
    pub any: u64,
    lit: &'a [u64; 32],
    domain: usize,
    pub slots: &'a mut [u64],
    /// How many signs were visited, where they are counted.
    pub visits: usize,
}

impl<'a, const COUNT: bool> Quick<'a, COUNT> {
    pub fn new(rule: &'a Rule, tables: &'a Tables, slots: &'a mut [u64]) -> Self {
        Quick { text: rule.text, ends: &rule.ends, done: &tables.done, any: tables.any, lit: &tables.lit, domain: rule.domain, slots, visits: 0 }
    }

    #[inline]
    pub fn text(&self) -> &'a [u8] {
        self.text
    }

    #[inline]
    pub fn named(&self, at: usize) -> usize {
        usize::from(self.text[at + 1] - b'0') * 10 + usize::from(self.text[at + 2] - b'0')
    }

    #[inline]
    pub fn sign(&mut self, at: usize) -> u8 {
        if COUNT {
            self.visits += 1;
        }
        self.text[at]
    }

    /// Where the second of two parts begins.
    #[inline]
    pub fn second(&self, at: usize) -> usize {
        usize::from(self.ends[(at + 1) & 255])
    }

    #[inline]
    pub fn over(&self, at: usize) -> u64 {
        self.done[self.named(at) & 63]
    }

    /// The action or fluent of a sum.
    #[inline]
    pub fn sum(&self, at: usize, values: Values) -> usize {
        self.named(at) + value(values, self.text[at + 3])
    }

    #[inline]
    pub fn over_sum(&self, at: usize, values: Values) -> u64 {
        self.done[self.sum(at, values) & 63]
    }

    #[inline]
    fn kept(&self, slot: usize) -> u64 {
        self.slots.get(slot).copied().unwrap_or(0)
    }

    #[inline]
    fn keep(&mut self, slot: usize, set: u64) {
        if let Some(kept) = self.slots.get_mut(slot) {
            *kept = set;
        }
    }

    /// A new run of the walk at a place: what its stars have seen is forgotten.
    fn clear(&mut self, at: usize) {
        let end = usize::from(self.ends[at & 255]).min(self.slots.len());
        for slot in at..end {
            if self.text[slot] == b'*' {
                self.slots[slot] = 0;
            }
        }
    }

    /// Whether the letter stands free in the rule at a place.
    fn stands_free(&self, mut at: usize, letter: u8) -> bool {
        let end = usize::from(self.ends[at & 255]);
        while at < end {
            match self.text[at] {
                b'b' | b's' | b'g' if self.text[at + 3] == letter => return true,
                b'p' | b'e' if self.text[at + 1] == letter => at = usize::from(self.ends[at & 255]),
                _ => at += 1,
            }
        }
        false
    }

    /// The part of the binder at a place is walked with another value.
    fn forget(&mut self, at: usize) {
        let end = usize::from(self.ends[at & 255]).min(self.slots.len());
        for slot in at + 2..end {
            match self.text[slot] {
                b'*' => self.slots[slot] = 0,
                b'?' if self.stands_free(slot + 1, self.text[at + 1]) => {
                    self.slots[slot] = 0;
                    self.slots[slot + 1] = 0;
                }
                _ => {}
            }
        }
    }

    /// What a binder's part gives with each value of its variable, joined; with one value where the variable does not stand free there.
    #[inline]
    pub fn joined(&mut self, at: usize, values: Values, mut part: impl FnMut(&mut Self, usize, Values) -> u64) -> u64 {
        if self.ends[(at + 1) & 255] == 0 {
            return part(self, at + 2, values);
        }
        let letter = self.text[at + 1];
        let mut all = 0;
        for k in 0..self.domain {
            self.forget(at);
            all |= part(self, at + 2, bind(values, letter, k));
        }
        all
    }

    /// Where the walk at a place leads from the positions of a set and, beyond that, perhaps from those that it was given before in the same run.
    /// Together with what it handed back before it is where the walk leads from all of them.
    pub fn walk(&mut self, at: usize, from: u64, all: u64, back: bool, values: Values) -> u64 {
        match self.sign(at) {
            b'a' => cross(from, self.over(at), all, back),
            b'r' => cross(from, self.over(at), all, !back),
            b'b' => cross(from, self.over_sum(at, values), all, back),
            b's' => cross(from, self.over_sum(at, values), all, !back),
            b'n' => cross(from, self.any, all, back),
            b'u' => cross(from, self.any, all, !back),
            b';' => {
                let (one, two) = if back { (self.second(at), at + 1) } else { (at + 1, self.second(at)) };
                let middle = self.walk(one, from, all, back, values);
                self.walk(two, middle, all, back, values)
            }
            b'|' => self.walk(at + 1, from, all, back, values) | self.walk(self.second(at), from, all, back, values),
            b'*' => self.star(at, from, |quick, body, new| quick.walk(body, new, all, back, values)),
            b'?' => self.here(at, from, values),
            b'p' if from == 0 => 0,
            b'p' => self.joined(at, values, |quick, at, values| quick.walk(at, from, all, back, values)),
            _ => self.walk(at + 1, from, all, !back, values),
        }
    }

    /// Chains of the star's walk, on from ground that it has not seen in this run. A star of a star is one star.
    #[inline]
    pub fn star(&mut self, mut at: usize, from: u64, mut round: impl FnMut(&mut Self, usize, u64) -> u64) -> u64 {
        while self.text[at + 1] == b'*' {
            at += 1;
        }
        let mut seen = self.kept(at);
        let mut new = from & !seen;
        while new != 0 {
            seen |= new;
            new = round(self, at + 1, new) & !seen;
        }
        self.keep(at, seen);
        seen
    }

    /// The positions of a set where the test of the `?` at a place is true; each is its own now, so that it is asked there once.
    pub fn here(&mut self, at: usize, among: u64, values: Values) -> u64 {
        let asked = self.kept(at + 1);
        let mut held = self.kept(at);
        let mut left = among & !asked;
        while left != 0 {
            let own = left.trailing_zeros() as usize;
            held |= self.test(at + 1, 1 << own, up_to(own), values);
            left &= left - 1;
        }
        self.keep(at, held);
        self.keep(at + 1, asked | among);
        among & held
    }

    /// The positions of a set where the test at a place is true. A binder asks with the next value only where it was not true with one before.
    pub fn test(&mut self, at: usize, among: u64, all: u64, values: Values) -> u64 {
        match self.sign(at) {
            b'1' => among,
            b'f' => among & self.lit[self.named(at) & 31],
            b'g' => among & self.lit[self.sum(at, values) & 31],
            b'!' => among & !self.test(at + 1, among, all, values),
            b'&' => {
                let one = self.test(at + 1, among, all, values);
                self.test(self.second(at), one, all, values)
            }
            b'e' => {
                let mut left = among;
                self.joined(at, values, |quick, at, values| {
                    let held = if left == 0 { 0 } else { quick.test(at, left, all, values) };
                    left &= !held;
                    held
                })
            }
            _ => {
                let there = self.test(self.second(at), all, all, values);
                self.clear(at + 1);
                among & self.walk(at + 1, there, all, true, values)
            }
        }
    }
}
