//! The calls over a job: a theory and its log.
use crate::{raw, Kind, Refusal};

/// How many words of 64 positions a set has, lowest positions first.
pub const SET_WORDS: usize = 1;

/// The earliest position of an empty set.
pub const NO_POSITION: usize = 64;

/// The longest normal form.
pub const RULE_ROOM: usize = 255;

/// The longest finishing sequence.
pub const FINISH_ROOM: usize = 6;

/// How many masks of a table belong to one action: need, ban, then twice when, unless, put, drop.
pub const ROW_MASKS: usize = 10;

/// The row of an action whose effects do not depend on the state: one clause without conditions, and an empty one.
///
/// ```
/// use wyndhopper::{plain_row, Job};
///
/// // 00 puts label 01 when the carton, 00, is open; 01 closes it.
/// let masks = [[0, 0, 1, 0, 2, 0, 0, 0, 0, 0], plain_row(0, 0, 0, 1)];
/// let job = Job::new(2, 2, masks.as_flattened()).with_start(1);
/// assert_eq!(job.with_log(&[0]).state(1), Ok(3));
/// assert_eq!(job.with_log(&[1, 0]).state(2), Ok(0));
/// ```
pub const fn plain_row(need: u32, ban: u32, put: u32, drop: u32) -> [u32; ROW_MASKS] {
    [need, ban, 0, 0, put, drop, 0, 0, 0, 0]
}

/// How many tests a board has at most, and a byte for each.
pub const BOARD_ROOM: usize = 64;

/// A byte of a board that is this or more is so much more than the number of its test's refusal.
const BOARD_REFUSED: u8 = 16;

/// What a byte of a board says of its test: whether it is true, or its own refusal. None for a byte that no board has.
///
/// ```
/// use wyndhopper::{board_verdict, Refusal};
/// assert_eq!([0, 1, 22, 99].map(board_verdict), [Some(Ok(false)), Some(Ok(true)), Some(Err(Refusal::BadRule)), None]);
/// ```
pub fn board_verdict(byte: u8) -> Option<Result<bool, Refusal>> {
    match byte {
        0 => Some(Ok(false)),
        1 => Some(Ok(true)),
        _ => Refusal::from_number(byte.checked_sub(BOARD_REFUSED)?).map(Err),
    }
}

/// How a test inside a walk, `?T`, is read: what its now is. It is asked of what has a `<` around it and of walk questions; a run's own `?T`, outside every `<`, keeps its own position.
#[derive(Clone, Copy, Debug, PartialEq, Eq)]
pub enum Reading {
    /// Its own position: it sees the log up to there.
    Step = 0,
    /// The outer now.
    End = 1,
}

/// A theory with a job's log. It is made by [`Job::new`], so that what later versions add breaks no program.
///
/// The mask table has ten masks an action: need, ban, then twice when, unless, put, drop; [`plain_row`] makes the row of an action whose effects do not depend. A clause acts if its when bits are on
/// and its unless bits off before the step; then a fluent is on if an acting clause puts it, or it was on and no acting clause drops it. The domain is how many values a variable in a rule has, 1 to 16; 0, as [`Job::new`] has it, is a job without variables. The
/// reading is the now of a test inside a walk; [`Job::new`] has [`Reading::Step`]. Calls without a rule look at neither, and [`Job::read_rule`] and [`Job::normal`] do not look at the reading.
#[derive(Clone, Copy, Debug, PartialEq, Eq)]
pub struct Job<'a> {
    fluents: usize,
    actions: usize,
    start: u32,
    masks: &'a [u32],
    log: &'a [u8],
    domain: usize,
    reading: Reading,
}

/// The positions that a walk leads to: the set, how many they are, and the earliest, [`NO_POSITION`] when there is none.
#[derive(Clone, Copy, Debug, PartialEq, Eq)]
#[non_exhaustive]
pub struct Reached {
    pub set: [u64; SET_WORDS],
    pub count: usize,
    pub earliest: usize,
}

impl Reached {
    /// The set has this position.
    pub fn holds(&self, position: usize) -> bool {
        self.set.get(position / 64).is_some_and(|word| word >> (position % 64) & 1 == 1)
    }
}

/// The value, or the refusal with this number.
pub(crate) fn answered<T>(number: u8, value: T) -> Result<T, Refusal> {
    match number {
        0 => Ok(value),
        n => Err(Refusal::from_number(n).expect("a number of the table")),
    }
}

impl<'a> Job<'a> {
    /// A job whose fluents are all off at the start, whose log is empty, whose rules have no variables and whose tests inside a walk see the log up to their own position.
    pub const fn new(fluents: usize, actions: usize, masks: &'a [u32]) -> Self {
        Job { fluents, actions, start: 0, masks, log: &[], domain: 0, reading: Reading::Step }
    }

    /// The same job with this start state.
    pub const fn with_start(self, start: u32) -> Self {
        Job { start, ..self }
    }

    /// The same job with this log.
    pub const fn with_log(self, log: &'a [u8]) -> Self {
        Job { log, ..self }
    }

    /// The same job with so many values for a variable.
    ///
    /// ```
    /// use wyndhopper::{plain_row, Job, Refusal};
    ///
    /// // Two labels; print 2 needs label 1. Is some label out?
    /// let masks = [plain_row(0, 0, 1, 0), plain_row(1, 0, 2, 0)];
    /// let job = Job::new(2, 2, masks.as_flattened()).with_log(&[0]);
    /// assert_eq!(job.with_domain(2).verdict(b"evg00v", 1, 1), Ok(true));
    /// assert_eq!(job.verdict(b"evg00v", 1, 1), Err(Refusal::BadRule));
    /// assert_eq!(job.with_domain(2).verdict(b"g00v", 1, 1), Err(Refusal::Unbound));
    /// ```
    pub const fn with_domain(self, domain: usize) -> Self {
        Job { domain, ..self }
    }

    /// The same job with tests inside a walk read so.
    ///
    /// ```
    /// use wyndhopper::{plain_row, Job, Reading};
    ///
    /// // Two labels, 1 and then 2. Was label 1 out with label 2 still to come?
    /// let masks = [plain_row(0, 0, 1, 0), plain_row(1, 0, 2, 0)];
    /// let job = Job::new(2, 2, masks.as_flattened()).with_log(&[0, 1]);
    /// let test = b"<;a00?<a0111";
    /// assert_eq!(job.verdict(test, 0, 2), Ok(false));
    /// assert_eq!(job.with_reading(Reading::End).verdict(test, 0, 2), Ok(true));
    /// ```
    pub const fn with_reading(self, reading: Reading) -> Self {
        Job { reading, ..self }
    }

    pub const fn fluents(&self) -> usize {
        self.fluents
    }

    pub const fn actions(&self) -> usize {
        self.actions
    }

    pub const fn start(&self) -> u32 {
        self.start
    }

    pub const fn masks(&self) -> &'a [u32] {
        self.masks
    }

    pub const fn log(&self) -> &'a [u8] {
        self.log
    }

    pub const fn domain(&self) -> usize {
        self.domain
    }

    pub const fn reading(&self) -> Reading {
        self.reading
    }

    /// The state at a position of the log.
    pub fn state(&self, position: usize) -> Result<u32, Refusal> {
        let mut state = 0;
        let refused = unsafe {
            raw::wyh_state(
                self.fluents,
                self.actions,
                self.start,
                self.masks.as_ptr(),
                self.masks.len(),
                self.log.as_ptr(),
                self.log.len(),
                position,
                &mut state,
            )
        };
        answered(refused, state)
    }

    /// The positions that a walk leads to from `then` with `now`.
    pub fn reach(&self, walk: &[u8], then: usize, now: usize) -> Result<Reached, Refusal> {
        let (mut set, mut count, mut earliest) = ([0; SET_WORDS], 0, 0);
        let refused = unsafe {
            raw::wyh_reach(
                self.fluents,
                self.actions,
                self.domain,
                self.start,
                self.reading as usize,
                self.masks.as_ptr(),
                self.masks.len(),
                self.log.as_ptr(),
                self.log.len(),
                walk.as_ptr(),
                walk.len(),
                then,
                now,
                set.as_mut_ptr(),
                &mut count,
                &mut earliest,
            )
        };
        answered(refused, Reached { set, count: count as usize, earliest: earliest as usize })
    }

    /// Whether a test is true at (then, now).
    pub fn verdict(&self, test: &[u8], then: usize, now: usize) -> Result<bool, Refusal> {
        let mut yes = 0;
        let refused = unsafe {
            raw::wyh_verdict(
                self.fluents,
                self.actions,
                self.domain,
                self.start,
                self.reading as usize,
                self.masks.as_ptr(),
                self.masks.len(),
                self.log.as_ptr(),
                self.log.len(),
                test.as_ptr(),
                test.len(),
                then,
                now,
                &mut yes,
            )
        };
        answered(refused, yes == 1)
    }

    /// The verdicts of up to [`BOARD_ROOM`] tests at one (then, now), each test ended by one LF: a byte for each at the front of `out` ([`board_verdict`] says what it says), their number returned.
    /// A byte is what [`Job::verdict`] says of its test; no test changes what another is told.
    pub fn board(&self, tests: &[u8], then: usize, now: usize, out: &mut [u8]) -> Result<usize, Refusal> {
        let mut count = 0;
        let refused = unsafe {
            raw::wyh_board(
                self.fluents,
                self.actions,
                self.domain,
                self.start,
                self.reading as usize,
                self.masks.as_ptr(),
                self.masks.len(),
                self.log.as_ptr(),
                self.log.len(),
                tests.as_ptr(),
                tests.len(),
                then,
                now,
                out.as_mut_ptr(),
                out.len(),
                &mut count,
            )
        };
        answered(refused, count)
    }

    /// Whether an action may be taken at a position: its need bits are on and its ban bits off in the state there.
    pub fn possible(&self, action: usize, position: usize) -> Result<bool, Refusal> {
        let mut yes = 0;
        let refused = unsafe {
            raw::wyh_possible(
                self.fluents,
                self.actions,
                self.start,
                self.masks.as_ptr(),
                self.masks.len(),
                self.log.as_ptr(),
                self.log.len(),
                action,
                position,
                &mut yes,
            )
        };
        answered(refused, yes == 1)
    }

    /// The actions that may come next, bit a for action a: those that the run waits for at the log's end and that are possible there.
    pub fn next(&self, run: &[u8]) -> Result<u64, Refusal> {
        let mut next = 0;
        let refused = unsafe {
            raw::wyh_next(
                self.fluents,
                self.actions,
                self.domain,
                self.start,
                self.reading as usize,
                self.masks.as_ptr(),
                self.masks.len(),
                self.log.as_ptr(),
                self.log.len(),
                run.as_ptr(),
                run.len(),
                &mut next,
            )
        };
        answered(refused, next)
    }

    /// The first sequence of at most `more` actions that finishes the run: written to the front of `out`, its length returned.
    pub fn finish(&self, run: &[u8], more: usize, out: &mut [u8]) -> Result<usize, Refusal> {
        let mut count = 0;
        let refused = unsafe {
            raw::wyh_finish(
                self.fluents,
                self.actions,
                self.domain,
                self.start,
                self.reading as usize,
                self.masks.as_ptr(),
                self.masks.len(),
                self.log.as_ptr(),
                self.log.len(),
                run.as_ptr(),
                run.len(),
                more,
                out.as_mut_ptr(),
                out.len(),
                &mut count,
            )
        };
        answered(refused, count)
    }

    /// Reads one rule and hands back the unread rest of the text. Of the job it looks at the counts and the domain alone.
    pub fn read_rule<'t>(&self, kind: Kind, text: &'t [u8]) -> Result<&'t [u8], Refusal> {
        let mut rest = 0;
        let refused = unsafe { raw::wyh_read_rule(text.as_ptr(), text.len(), kind as u8, self.fluents, self.actions, self.domain, &mut rest) };
        answered(refused, &text[rest..])
    }

    /// The normal form of a rule: written to the front of `out`, its length returned. Of the job it looks at the counts and the domain alone.
    pub fn normal(&self, kind: Kind, text: &[u8], out: &mut [u8]) -> Result<usize, Refusal> {
        let mut count = 0;
        let refused = unsafe {
            raw::wyh_normal(
                text.as_ptr(),
                text.len(),
                kind as u8,
                self.fluents,
                self.actions,
                self.domain,
                out.as_mut_ptr(),
                out.len(),
                &mut count,
            )
        };
        answered(refused, count)
    }
}
