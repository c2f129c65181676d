//! The same algorithm in plain safe Rust, as a good engineer would write it with no proof in mind: what the proved library is measured against.
//!
//! Same calls, same answers, same refusals: the log transposed into words, sets in and sets out over the rule's text, `<WT` by the converse, star as
//! closure, a table of where each rule ends; a binder goes over the values of its variable, once where it does not stand free in the part. Every call clears its own tables (done, lit, ends:
//! 1,024 bytes); nothing is kept between calls.
//!
//! The calls with `quick_` go further than the proved library does: no ground is walked twice by a star and no test is asked twice; a search is told how long the
//! rest of a job may be, tries one of several actions that do the same, and its tables grow and shrink with its log.

mod evaluate;
mod finish;
mod grown;
mod lengths;
mod quick;
mod rule;
mod standins;
mod world;

pub use rule::Kind;

use evaluate::Evaluator;
use quick::Quick;
use rule::{Counts, Rule};
use world::{up_to, Tables, World};

/// A refusal's number.
pub type Refusal = u8;

/// A theory with a job's log and the domain of its rules' variables, 0 for none. The mask table has ten masks an action: need, ban, then
/// twice when, unless, put, drop.
#[derive(Clone, Copy, Debug)]
pub struct Job<'a> {
    pub fluents: usize,
    pub actions: usize,
    pub domain: usize,
    pub start: u32,
    pub masks: &'a [u32],
    pub log: &'a [u8],
}

/// The positions that a walk leads to: bit q of the set for position q, how many they are, and the earliest, 64 when there is none.
#[derive(Clone, Copy, Debug, PartialEq, Eq)]
pub struct Reached {
    pub set: u64,
    pub count: u32,
    pub earliest: u32,
}

impl Reached {
    fn of(set: u64) -> Self {
        Reached { set, count: set.count_ones(), earliest: set.trailing_zeros() }
    }
}

impl<'a> Job<'a> {
    fn world(&self) -> Result<World<'a>, Refusal> {
        World::checked(self.counts(), self.start, self.masks, self.log)
    }

    fn counts(&self) -> Counts {
        Counts { fluents: self.fluents, actions: self.actions, domain: self.domain }
    }

    fn rule<'t>(&self, text: &'t [u8], kind: Kind) -> Result<Rule<'t>, Refusal> {
        Rule::read(text, kind, self.counts())
    }

    fn times(&self, then: usize, now: usize) -> Result<(), Refusal> {
        if then > now || now > self.log.len() {
            return Err(10);
        }
        Ok(())
    }

    fn to_finish<'t>(&self, job: &'t [u8], more: usize, room: usize) -> Result<(World<'a>, Rule<'t>), Refusal> {
        if more > 6 {
            return Err(3);
        }
        let world = self.world()?;
        let rule = self.rule(job, Kind::Job)?;
        if room < more {
            return Err(12);
        }
        Ok((world, rule))
    }

    /// Whether a test is true at (then, now).
    #[inline(never)]
    pub fn verdict(&self, test: &[u8], then: usize, now: usize) -> Result<bool, Refusal> {
        let world = self.world()?;
        let rule = self.rule(test, Kind::Test)?;
        self.times(then, now)?;
        let tables = Tables::over(&world, world.log);
        Ok(Evaluator::new(&rule, &tables).test(0, 1 << then, up_to(now), 0) != 0)
    }

    #[inline(always)]
    fn quick_verdict_by<const COUNT: bool>(&self, test: &[u8], then: usize, now: usize) -> Result<(bool, usize), Refusal> {
        let world = self.world()?;
        let rule = self.rule(test, Kind::Test)?;
        self.times(then, now)?;
        let tables = Tables::over(&world, world.log);
        let ask = |slots: &mut [u64]| {
            let mut quick = Quick::<COUNT>::new(&rule, &tables, slots);
            (quick.test(0, 1 << then, up_to(now), 0) != 0, quick.visits)
        };
        Ok(if rule.keeps() { ask(&mut [0; 256]) } else { ask(&mut []) })
    }

    #[inline(never)]
    pub fn quick_verdict(&self, test: &[u8], then: usize, now: usize) -> Result<bool, Refusal> {
        Ok(self.quick_verdict_by::<false>(test, then, now)?.0)
    }

    /// How many signs `quick_verdict` visits.
    pub fn verdict_visits(&self, test: &[u8], then: usize, now: usize) -> Result<usize, Refusal> {
        Ok(self.quick_verdict_by::<true>(test, then, now)?.1)
    }

    /// The positions that a walk leads to from `then` with `now`.
    #[inline(never)]
    pub fn reach(&self, walk: &[u8], then: usize, now: usize) -> Result<Reached, Refusal> {
        let world = self.world()?;
        let rule = self.rule(walk, Kind::Walk)?;
        self.times(then, now)?;
        let tables = Tables::over(&world, world.log);
        Ok(Reached::of(Evaluator::new(&rule, &tables).walk(0, 1 << then, up_to(now), false, 0)))
    }

    #[inline(always)]
    fn quick_reach_by<const COUNT: bool>(&self, walk: &[u8], then: usize, now: usize) -> Result<(Reached, usize), Refusal> {
        let world = self.world()?;
        let rule = self.rule(walk, Kind::Walk)?;
        self.times(then, now)?;
        let tables = Tables::over(&world, world.log);
        let ask = |slots: &mut [u64]| {
            let mut quick = Quick::<COUNT>::new(&rule, &tables, slots);
            (Reached::of(quick.walk(0, 1 << then, up_to(now), false, 0)), quick.visits)
        };
        Ok(if rule.keeps() { ask(&mut [0; 256]) } else { ask(&mut []) })
    }

    #[inline(never)]
    pub fn quick_reach(&self, walk: &[u8], then: usize, now: usize) -> Result<Reached, Refusal> {
        Ok(self.quick_reach_by::<false>(walk, then, now)?.0)
    }

    /// How many signs `quick_reach` visits.
    pub fn reach_visits(&self, walk: &[u8], then: usize, now: usize) -> Result<usize, Refusal> {
        Ok(self.quick_reach_by::<true>(walk, then, now)?.1)
    }

    /// The first sequence of at most `more` actions that finishes the job: written to the front of `out`, its length returned.
    #[inline(never)]
    pub fn finish(&self, job: &[u8], more: usize, out: &mut [u8]) -> Result<usize, Refusal> {
        let (world, rule) = self.to_finish(job, more, out.len())?;
        finish::first(&world, &rule, more, usize::MAX, out).0.ok_or(11)
    }

    /// How often `finish` asks the job, counted up to a limit.
    pub fn finish_turns(&self, job: &[u8], more: usize, limit: usize) -> Result<usize, Refusal> {
        let mut out = [0; 6];
        let (world, rule) = self.to_finish(job, more, out.len())?;
        Ok(finish::first(&world, &rule, more, limit, &mut out).1)
    }

    #[inline(never)]
    pub fn quick_finish(&self, job: &[u8], more: usize, out: &mut [u8]) -> Result<usize, Refusal> {
        let (world, rule) = self.to_finish(job, more, out.len())?;
        grown::first(&world, &rule, more, out).0.ok_or(11)
    }

    /// How often `quick_finish` asks the job.
    pub fn quick_finish_turns(&self, job: &[u8], more: usize) -> Result<usize, Refusal> {
        let mut out = [0; 6];
        let (world, rule) = self.to_finish(job, more, out.len())?;
        Ok(grown::first(&world, &rule, more, &mut out).1)
    }
}
