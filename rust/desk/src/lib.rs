//! The carton desk, for packers who write no rules: safe calls of the proved library.
//!
//! A job has 1 to [`CARTON_LIMIT`] cartons. The log has at most [`LOG_LIMIT`] steps, one byte each: with C cartons, 0 to C - 1 print labels 1 to C, and C is a void.
//!
//! ```
//! use carton_desk::{lowest, may_print, Refusal};
//!
//! assert_eq!(lowest(3, &[]), Ok(Some(1)));
//! assert_eq!(may_print(3, &[0, 1], 3), Ok(true));
//! assert_eq!(lowest(3, &[0, 1, 2]), Ok(None)); // all are out
//! assert_eq!(may_print(3, &[0, 1, 3], 2), Ok(false)); // a void
//! assert_eq!(may_print(3, &[], 4), Err(Refusal::BadNumber));
//! ```

mod raw;

use std::fmt;

/// The most cartons.
pub const CARTON_LIMIT: usize = 16;

/// The longest log.
pub const LOG_LIMIT: usize = 63;

/// The version of the library, as the header has it.
pub const VERSION: &str = env!("CARGO_PKG_VERSION");

/// Why a call was refused. Where both hold it is the first.
#[derive(Clone, Copy, Debug, PartialEq, Eq, PartialOrd, Ord, Hash)]
#[repr(u8)]
pub enum Refusal {
    /// the number of cartons or the label is out of its range
    BadNumber = 3,
    /// the log is too long, or has a step above the void
    BadLog = 5,
}

impl Refusal {
    /// The number in the table of docs/REFUSALS.md.
    pub const fn number(self) -> u8 {
        self as u8
    }
}

impl fmt::Display for Refusal {
    fn fmt(&self, f: &mut fmt::Formatter<'_>) -> fmt::Result {
        f.write_str(match self {
            Refusal::BadNumber => "the number of cartons or the label is out of its range",
            Refusal::BadLog => "the log is too long, or has a step above the void",
        })
    }
}

impl std::error::Error for Refusal {}

fn refused(number: u8) -> Result<(), Refusal> {
    match number {
        0 => Ok(()),
        3 => Err(Refusal::BadNumber),
        _ => Err(Refusal::BadLog),
    }
}

/// Whether the label may be printed at the log's end: exactly if each lower label was printed after the last void, or since the start if there is none.
pub fn may_print(cartons: usize, log: &[u8], label: usize) -> Result<bool, Refusal> {
    let mut yes = 0;
    refused(unsafe { raw::desk_may_print(cartons, log.as_ptr(), log.len(), label, &mut yes) })?;
    Ok(yes == 1)
}

/// The lowest label that is not out at the log's end; none where all are.
pub fn lowest(cartons: usize, log: &[u8]) -> Result<Option<usize>, Refusal> {
    let mut label = 0;
    refused(unsafe { raw::desk_lowest(cartons, log.as_ptr(), log.len(), &mut label) })?;
    Ok((label > 0).then_some(label))
}
