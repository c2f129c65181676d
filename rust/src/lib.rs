//! Safe calls of the proved library: the state at a position, where a walk leads, the verdict of a test or of a whole board of them, what may come next, a rule's normal form, the first finishing
//! sequence, a running tally beside the log, and a whole sheet, read or answered.
//!
//! Every call takes every input; what cannot be answered is refused ([`Refusal`]; docs/REFUSALS.md says what to look for). Nothing is kept between calls.
//! What a call may cost stands in the header, include/wyndhopper.h.
//!
//! ```
//! use wyndhopper::{plain_row, Job, Kind, Refusal};
//!
//! // Two labels; print 2 needs label 1.
//! let masks = [plain_row(0, 0, 1, 0), plain_row(1, 0, 2, 0)];
//! let job = Job::new(2, 2, masks.as_flattened()).with_log(&[0]);
//! assert_eq!(job.state(1), Ok(1));
//! assert_eq!(job.verdict(b"f00", 1, 1), Ok(true));
//! let mut board = [9; 4];
//! assert_eq!(job.board(b"f00\nf01\nf\n", 1, 1, &mut board), Ok(3));
//! assert_eq!(board, [1, 0, 16 + 6, 9]);
//! assert!(job.reach(b"*n", 0, 1).unwrap().holds(1));
//! assert_eq!(job.possible(1, 1), Ok(true));
//! assert_eq!(job.next(b";a00a01"), Ok(0b10));
//! let mut left = [0; wyndhopper::FINISH_ROOM];
//! assert_eq!(job.finish(b";a00a01", 6, &mut left), Ok(1));
//! assert_eq!(left[0], 1);
//! assert_eq!(job.read_rule(Kind::Test, b"f00rest"), Ok(&b"rest"[..]));
//! assert_eq!(job.read_rule(Kind::Run, b"u"), Err(Refusal::Backward));
//! let mut form = [0; wyndhopper::RULE_ROOM];
//! let count = job.normal(Kind::Walk, b"-;a00*n", &mut form).unwrap();
//! assert_eq!(&form[..count], b";*ur00");
//! ```

mod job;
mod raw;
mod refusal;
mod sheet;
mod tally;

pub use job::{board_verdict, plain_row, Job, Reached, Reading, BOARD_ROOM, FINISH_ROOM, NO_POSITION, ROW_MASKS, RULE_ROOM, SET_WORDS};
pub use refusal::Refusal;
pub use sheet::{Fault, Sheet, SheetRoom, LOG_ROOM, MASKS_ROOM};
pub use tally::{Tally, TALLY_ACTIONS};

/// What a rule is used as: a test, a walk (questions only), or a walk to be carried out, as on a sheet's run line.
#[derive(Clone, Copy, Debug, PartialEq, Eq)]
pub enum Kind {
    Test = 0,
    Walk = 1,
    Run = 2,
}

/// The version of the library, as the header has it.
pub const VERSION: &str = env!("CARGO_PKG_VERSION");

/// How many bytes the output of [`answer`] has.
pub const ANSWER_ROOM: usize = 64;

/// What the program jobsheet prints for a sheet: written to the front of `out`, its length returned.
///
/// ```
/// let mut out = [0; wyndhopper::ANSWER_ROOM];
/// let count = wyndhopper::answer(b"sheet=0\n", &mut out);
/// assert_eq!(&out[..count], b"refused=3,line=1\n");
/// ```
pub fn answer(sheet: &[u8], out: &mut [u8; ANSWER_ROOM]) -> usize {
    unsafe { raw::wyh_answer(sheet.as_ptr(), sheet.len(), out.as_mut_ptr()) }
}
