//! The exported functions with every slot and every lent byte in sight. A slot is filled before the call; lent output stands between two fences, which no call may touch.
use crate::make::Input;
use wyndhopper::Tally;

#[allow(dead_code)]
#[path = "../../../rust/src/raw.rs"]
mod raw;

const FENCE: usize = 8;

/// Output lent to a call: a pattern over the fences and the room, so that a byte written beside its place shows.
pub struct Lent {
    bytes: Vec<u8>,
    room: usize,
}

impl Lent {
    pub fn new(room: usize) -> Self {
        let bytes = (0..room + 2 * FENCE).map(|k| (k as u8).wrapping_mul(37) ^ 0xa5).collect();
        Lent { bytes, room }
    }

    fn out(&mut self) -> *mut u8 {
        self.bytes[FENCE..].as_mut_ptr()
    }

    /// What it holds, fences too, after these bytes were written to its front.
    pub fn with(mut self, front: &[u8]) -> Vec<u8> {
        self.bytes[FENCE..FENCE + front.len()].copy_from_slice(front);
        self.bytes
    }
}

/// What stands in a slot before a call.
const FILLED: u8 = 0x5a;

pub fn state(i: &Input, position: usize) -> (u8, u32) {
    let mut state = u32::from_ne_bytes([FILLED; 4]);
    let refused = unsafe {
        raw::wyh_state(i.fluents, i.actions, i.start, i.masks.as_ptr(), i.masks.len(), i.log.as_ptr(), i.log.len(), position, &mut state)
    };
    (refused, state)
}

pub fn reach(i: &Input, walk: &[u8], then: usize, now: usize) -> (u8, u64, u32, u32) {
    let mut set = u64::from_ne_bytes([FILLED; 8]);
    let (mut count, mut earliest) = (u32::from_ne_bytes([FILLED; 4]), u32::from_ne_bytes([FILLED; 4]));
    let refused = unsafe {
        raw::wyh_reach(
            i.fluents,
            i.actions,
            i.domain,
            i.start,
            i.reading,
            i.masks.as_ptr(),
            i.masks.len(),
            i.log.as_ptr(),
            i.log.len(),
            walk.as_ptr(),
            walk.len(),
            then,
            now,
            &mut set,
            &mut count,
            &mut earliest,
        )
    };
    (refused, set, count, earliest)
}

pub fn verdict(i: &Input, test: &[u8], then: usize, now: usize) -> (u8, u8) {
    let mut yes = FILLED;
    let refused = unsafe {
        raw::wyh_verdict(
            i.fluents,
            i.actions,
            i.domain,
            i.start,
            i.reading,
            i.masks.as_ptr(),
            i.masks.len(),
            i.log.as_ptr(),
            i.log.len(),
            test.as_ptr(),
            test.len(),
            then,
            now,
            &mut yes,
        )
    };
    (refused, yes)
}

pub fn finish(i: &Input, run: &[u8], more: usize, room: usize) -> (u8, usize, Vec<u8>) {
    let mut lent = Lent::new(room);
    let mut count = usize::from_ne_bytes([FILLED; 8]);
    let refused = unsafe {
        raw::wyh_finish(
            i.fluents,
            i.actions,
            i.domain,
            i.start,
            i.reading,
            i.masks.as_ptr(),
            i.masks.len(),
            i.log.as_ptr(),
            i.log.len(),
            run.as_ptr(),
            run.len(),
            more,
            lent.out(),
            lent.room,
            &mut count,
        )
    };
    (refused, count, lent.bytes)
}

pub fn board(i: &Input, tests: &[u8], then: usize, now: usize, room: usize) -> (u8, usize, Vec<u8>) {
    let mut lent = Lent::new(room);
    let mut count = usize::from_ne_bytes([FILLED; 8]);
    let refused = unsafe {
        raw::wyh_board(
            i.fluents,
            i.actions,
            i.domain,
            i.start,
            i.reading,
            i.masks.as_ptr(),
            i.masks.len(),
            i.log.as_ptr(),
            i.log.len(),
            tests.as_ptr(),
            tests.len(),
            then,
            now,
            lent.out(),
            lent.room,
            &mut count,
        )
    };
    (refused, count, lent.bytes)
}

pub fn possible(i: &Input, action: usize, position: usize) -> (u8, u8) {
    let mut yes = FILLED;
    let refused = unsafe {
        raw::wyh_possible(
            i.fluents,
            i.actions,
            i.start,
            i.masks.as_ptr(),
            i.masks.len(),
            i.log.as_ptr(),
            i.log.len(),
            action,
            position,
            &mut yes,
        )
    };
    (refused, yes)
}

pub fn next(i: &Input, run: &[u8]) -> (u8, u64) {
    let mut next = u64::from_ne_bytes([FILLED; 8]);
    let refused = unsafe {
        raw::wyh_next(
            i.fluents,
            i.actions,
            i.domain,
            i.start,
            i.reading,
            i.masks.as_ptr(),
            i.masks.len(),
            i.log.as_ptr(),
            i.log.len(),
            run.as_ptr(),
            run.len(),
            &mut next,
        )
    };
    (refused, next)
}

/// A tally lent to a call, between two fences.
#[derive(Clone, Debug, PartialEq)]
#[repr(C)]
pub struct TallyLent {
    front: [u8; FENCE],
    pub tally: Tally,
    back: [u8; FENCE],
}

impl TallyLent {
    pub fn new(tally: Tally) -> Self {
        TallyLent { front: [FILLED; FENCE], tally, back: [!FILLED; FENCE] }
    }
}

pub fn tally(i: &Input, before: Tally) -> (u8, TallyLent) {
    let mut lent = TallyLent::new(before);
    let refused = unsafe {
        raw::wyh_tally(i.fluents, i.actions, i.start, i.masks.as_ptr(), i.masks.len(), i.log.as_ptr(), i.log.len(), &mut lent.tally)
    };
    (refused, lent)
}

pub fn append(i: &Input, before: Tally, action: usize) -> (u8, TallyLent) {
    let mut lent = TallyLent::new(before);
    let refused = unsafe { raw::wyh_append(i.fluents, i.actions, i.start, i.masks.as_ptr(), i.masks.len(), &mut lent.tally, action) };
    (refused, lent)
}

pub fn happened(i: &Input, tally: &Tally, action: usize) -> (u8, u8) {
    let mut yes = FILLED;
    let refused = unsafe { raw::wyh_happened(i.actions, tally.last.as_ptr(), tally.impossible, action, &mut yes) };
    (refused, yes)
}

/// What the reading of a sheet is lent, fences too.
#[derive(Debug, PartialEq)]
pub struct SheetLent {
    pub masks: Vec<u32>,
    pub log: Vec<u8>,
    pub numbers: Vec<usize>,
}

impl SheetLent {
    fn new() -> Self {
        let masks = (0..(wyndhopper::MASKS_ROOM + 2) as u32).map(|k| k.wrapping_mul(0x9e37_79b9)).collect();
        let log = (0..wyndhopper::LOG_ROOM + 2).map(|k| (k as u8).wrapping_mul(37) ^ 0xa5).collect();
        SheetLent { masks, log, numbers: vec![usize::from_ne_bytes([FILLED; 8]); 14] }
    }

    /// What it holds after these masks, this log and these numbers were written.
    pub fn with(masks: &[u32], log: &[u8], numbers: [usize; 12]) -> Self {
        let mut lent = Self::new();
        lent.masks[1..=masks.len()].copy_from_slice(masks);
        lent.log[1..=log.len()].copy_from_slice(log);
        lent.numbers[1..=12].copy_from_slice(&numbers);
        lent
    }
}

pub fn read_sheet(sheet: &[u8]) -> (u8, SheetLent) {
    let mut lent = SheetLent::new();
    let refused = unsafe {
        raw::wyh_read_sheet(
            sheet.as_ptr(),
            sheet.len(),
            lent.masks[1..].as_mut_ptr(),
            lent.log[1..].as_mut_ptr(),
            lent.numbers[1..].as_mut_ptr(),
        )
    };
    (refused, lent)
}

pub fn read_rule(i: &Input, kind: u8, text: &[u8]) -> (u8, usize) {
    let mut rest = usize::from_ne_bytes([FILLED; 8]);
    let refused = unsafe { raw::wyh_read_rule(text.as_ptr(), text.len(), kind, i.fluents, i.actions, i.domain, &mut rest) };
    (refused, rest)
}

pub fn normal(i: &Input, kind: u8, text: &[u8], room: usize) -> (u8, usize, Vec<u8>) {
    let mut lent = Lent::new(room);
    let mut count = usize::from_ne_bytes([FILLED; 8]);
    let refused = unsafe {
        raw::wyh_normal(text.as_ptr(), text.len(), kind, i.fluents, i.actions, i.domain, lent.out(), lent.room, &mut count)
    };
    (refused, count, lent.bytes)
}

pub fn answer(sheet: &[u8]) -> (usize, Vec<u8>) {
    let mut lent = Lent::new(wyndhopper::ANSWER_ROOM);
    let count = unsafe { raw::wyh_answer(sheet.as_ptr(), sheet.len(), lent.out()) };
    (count, lent.bytes)
}
