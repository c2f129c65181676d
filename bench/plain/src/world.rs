//! The theory and the log: refusals 3 to 5, what an action needs and does, and the log transposed into words.
use crate::rule::Counts;
use crate::Refusal;

pub const LOG_LIMIT: usize = 63;

/// So many masks of a table belong to one action: need, ban, then twice when, unless, put, drop.
pub const ROW: usize = 10;

/// A theory and a log that were checked.
pub struct World<'a> {
    pub start: u32,
    pub masks: &'a [u32],
    pub log: &'a [u8],
}

/// The positions up to now.
pub fn up_to(now: usize) -> u64 {
    u64::MAX >> (63 - now)
}

/// Every need bit is on and every ban bit off.
pub fn possible(m: &[u32], state: u32) -> bool {
    m[0] & state == m[0] && m[1] & state == 0
}

/// What a clause puts and drops in a state: nothing where it does not act.
fn clause(c: &[u32], state: u32) -> (u32, u32) {
    if possible(c, state) {
        (c[2], c[3])
    } else {
        (0, 0)
    }
}

/// What an acting clause puts is on, and of the rest what was on and no acting clause drops.
pub fn after(m: &[u32], state: u32) -> u32 {
    let ((put, drop), (put2, drop2)) = (clause(&m[2..6], state), clause(&m[6..10], state));
    put | put2 | state & !(drop | drop2)
}

impl<'a> World<'a> {
    pub fn checked(c: Counts, start: u32, masks: &'a [u32], log: &'a [u8]) -> Result<Self, Refusal> {
        if c.fluents > 32 || c.actions < 1 || c.actions > 64 || c.domain > 16 || masks.len() != ROW * c.actions {
            return Err(3);
        }
        let named = masks.iter().fold(start, |all, m| all | m);
        if u64::from(named) >> c.fluents != 0 {
            return Err(4);
        }
        if log.len() > LOG_LIMIT || log.iter().any(|&a| usize::from(a) >= c.actions) {
            return Err(5);
        }
        Ok(World { start, masks, log })
    }

    /// The masks of an action.
    pub fn act(&self, a: usize) -> &'a [u32] {
        &self.masks[ROW * a..ROW * a + ROW]
    }
}

/// The log, transposed: bit p of a word is position p.
pub struct Tables {
    /// The positions whose step is this action and was possible.
    pub done: [u64; 64],
    /// The positions whose step was possible, whichever it is: what `n` may cross.
    pub any: u64,
    /// The positions at which this fluent is on.
    pub lit: [u64; 32],
    /// The state at the log's end.
    pub last: u32,
}

impl Tables {
    pub fn over(world: &World, log: &[u8]) -> Self {
        let mut t = Tables { done: [0; 64], any: 0, lit: [0; 32], last: 0 };
        t.arrive(world.start, 0);
        for (p, &a) in log.iter().enumerate() {
            let m = world.act(usize::from(a));
            let step = u64::from(possible(m, t.last)) << p;
            t.done[usize::from(a & 63)] |= step;
            t.any |= step;
            t.arrive(after(m, t.last), p + 1);
        }
        t
    }

    /// The state at position p: each fluent that changed changes from p onwards, and no position past now is asked for.
    #[inline]
    pub fn arrive(&mut self, state: u32, p: usize) {
        let mut left = self.last ^ state;
        while left != 0 {
            self.lit[left.trailing_zeros() as usize] ^= !0 << p;
            left &= left - 1;
        }
        self.last = state;
    }
}
