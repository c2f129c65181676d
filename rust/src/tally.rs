//! A running tally beside the log of one job.
use crate::job::answered;
use crate::{raw, Job, Refusal};

/// How many actions a tally has room for.
pub const TALLY_ACTIONS: usize = 64;

/// Of each action, how often it was taken where it was possible and the place of the last such step; the place of the last step that was not possible; and what the next append needs. A place is
/// kept as the position after the step, 0 for none. A tally that the library did not make is taken by its fields as they stand.
///
/// ```
/// use wyndhopper::{plain_row, Job, Refusal, Tally};
///
/// // Two labels; print 2 needs label 1. Label 2 is printed by hand first, which was not possible.
/// let masks = [plain_row(0, 0, 1, 0), plain_row(1, 0, 2, 0)];
/// let job = Job::new(2, 2, masks.as_flattened()).with_log(&[1]);
/// let mut tally = Tally::of(&job).unwrap();
/// assert_eq!((tally.counts[1], tally.impossible), (0, 1));
/// tally.append(&job, 0).unwrap();
/// assert_eq!([tally.happened(&job, 0), tally.happened(&job, 1)], [Ok(true), Ok(false)]);
/// assert_eq!(Tally::of(&job.with_log(&[1, 0])), Ok(tally));
/// assert_eq!(tally.append(&job, 2), Err(Refusal::BadLog));
/// assert_eq!(tally.happened(&job, 2), Err(Refusal::LacksName));
/// ```
#[derive(Clone, Copy, Debug, PartialEq, Eq)]
#[repr(C)]
pub struct Tally {
    pub counts: [u8; TALLY_ACTIONS],
    pub last: [u8; TALLY_ACTIONS],
    pub state: u32,
    pub steps: u8,
    pub impossible: u8,
}

impl Tally {
    /// Nothing counted, no step: room for [`Tally::reset`].
    pub const EMPTY: Tally = Tally { counts: [0; TALLY_ACTIONS], last: [0; TALLY_ACTIONS], state: 0, steps: 0, impossible: 0 };

    /// The tally of the job's log.
    pub fn of(job: &Job) -> Result<Tally, Refusal> {
        let mut tally = Tally::EMPTY;
        tally.reset(job).map(|()| tally)
    }

    /// Makes this the tally of the job's log. A refusal leaves it as it was.
    pub fn reset(&mut self, job: &Job) -> Result<(), Refusal> {
        let (masks, log) = (job.masks(), job.log());
        let refused =
            unsafe { raw::wyh_tally(job.fluents(), job.actions(), job.start(), masks.as_ptr(), masks.len(), log.as_ptr(), log.len(), self) };
        answered(refused, ())
    }

    /// Takes one action more in, possible or not; the job's own log is not looked at. A refusal leaves the tally as it was.
    pub fn append(&mut self, job: &Job, action: usize) -> Result<(), Refusal> {
        let masks = job.masks();
        let refused = unsafe { raw::wyh_append(job.fluents(), job.actions(), job.start(), masks.as_ptr(), masks.len(), self, action) };
        answered(refused, ())
    }

    /// Whether an action has happened, with only possible steps since: the verdict of `<-;aNN*n1` at the log's end, for a tally made from that theory and log. Of the job it looks at the count of
    /// actions alone.
    pub fn happened(&self, job: &Job, action: usize) -> Result<bool, Refusal> {
        let mut yes = 0;
        let refused = unsafe { raw::wyh_happened(job.actions(), self.last.as_ptr(), self.impossible, action, &mut yes) };
        answered(refused, yes == 1)
    }
}
