//! A whole sheet: read into a job and what the sheet asks of it.
use crate::job::answered;
use crate::{raw, Job, Reading, Refusal, ROW_MASKS};
use std::fmt;

/// How many masks and how much of a log the reading of a sheet is lent, and how many numbers it gives.
pub const MASKS_ROOM: usize = 64 * ROW_MASKS;
pub const LOG_ROOM: usize = 64;
const SHEET_NUMBERS: usize = 12;

/// Room for the masks and the log of a sheet. A refused sheet leaves it as it was.
#[derive(Clone, Debug, PartialEq, Eq)]
pub struct SheetRoom {
    masks: [u32; MASKS_ROOM],
    log: [u8; LOG_ROOM],
}

/// What a sheet says: the job, whose masks and log stand in the room, the rules of its ask and run lines, which stand in the sheet's text, and the bound on actions still to come.
#[derive(Clone, Copy, Debug, PartialEq, Eq)]
#[non_exhaustive]
pub struct Sheet<'a> {
    pub job: Job<'a>,
    pub ask: &'a [u8],
    pub run: &'a [u8],
    pub more: usize,
}

/// Why a sheet was refused, and the line of the fault, from 1; 0 for a sheet that is too long.
#[derive(Clone, Copy, Debug, PartialEq, Eq)]
pub struct Fault {
    pub refusal: Refusal,
    pub line: usize,
}

impl fmt::Display for Fault {
    fn fmt(&self, f: &mut fmt::Formatter<'_>) -> fmt::Result {
        write!(f, "line {}: {}", self.line, self.refusal)
    }
}

impl std::error::Error for Fault {}

impl SheetRoom {
    pub const fn new() -> Self {
        SheetRoom { masks: [0; MASKS_ROOM], log: [0; LOG_ROOM] }
    }
}

impl Default for SheetRoom {
    fn default() -> Self {
        Self::new()
    }
}

impl<'a> Sheet<'a> {
    /// Reads a sheet.
    ///
    /// ```
    /// use wyndhopper::{Refusal, Sheet, SheetRoom};
    ///
    /// let text = b"sheet=1\nfluents=01\nactions=01\nstart=00000000\nact=00000000,00000001,00000001,00000000\nlog=00\nask=f00\nrun=a00\nmore=1\n";
    /// let mut room = SheetRoom::new();
    /// let sheet = Sheet::read(text, &mut room).unwrap();
    /// assert_eq!(sheet.job.verdict(sheet.ask, 1, 1), Ok(true));
    /// assert_eq!(sheet.job.possible(0, 1), Ok(false));
    /// assert_eq!(sheet.job.next(sheet.run), Ok(0));
    /// let fault = Sheet::read(b"sheet=0\n", &mut room).unwrap_err();
    /// assert_eq!((fault.refusal, fault.line), (Refusal::BadNumber, 1));
    /// ```
    pub fn read(text: &'a [u8], room: &'a mut SheetRoom) -> Result<Self, Fault> {
        let mut numbers = [0; SHEET_NUMBERS];
        let refused =
            unsafe { raw::wyh_read_sheet(text.as_ptr(), text.len(), room.masks.as_mut_ptr(), room.log.as_mut_ptr(), numbers.as_mut_ptr()) };
        let [line, fluents, actions, domain, start, steps, reading, ask, ask_end, run, run_end, more] = numbers;
        answered(refused, ()).map_err(|refusal| Fault { refusal, line })?;
        let reading = if reading == 0 { Reading::Step } else { Reading::End };
        let job = Job::new(fluents, actions, &room.masks[..ROW_MASKS * actions]).with_domain(domain).with_start(start as u32).with_log(&room.log[..steps]);
        let job = job.with_reading(reading);
        Ok(Sheet { job, ask: &text[ask..ask_end], run: &text[run..run_end], more })
    }
}
