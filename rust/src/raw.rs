//! The functions of include/wyndhopper.h. A test holds these lines, the header and the library's exports against one another (tests/declarations.rs).
use super::Tally;

extern "C" {
    pub fn wyh_state(
        fluents: usize,
        actions: usize,
        start: u32,
        masks: *const u32,
        masks_len: usize,
        log: *const u8,
        log_len: usize,
        position: usize,
        state: *mut u32,
    ) -> u8;

    pub fn wyh_reach(
        fluents: usize,
        actions: usize,
        domain: usize,
        start: u32,
        reading: usize,
        masks: *const u32,
        masks_len: usize,
        log: *const u8,
        log_len: usize,
        walk: *const u8,
        walk_len: usize,
        then: usize,
        now: usize,
        set: *mut u64,
        count: *mut u32,
        earliest: *mut u32,
    ) -> u8;

    pub fn wyh_verdict(
        fluents: usize,
        actions: usize,
        domain: usize,
        start: u32,
        reading: usize,
        masks: *const u32,
        masks_len: usize,
        log: *const u8,
        log_len: usize,
        test: *const u8,
        test_len: usize,
        then: usize,
        now: usize,
        yes: *mut u8,
    ) -> u8;

    pub fn wyh_board(
        fluents: usize,
        actions: usize,
        domain: usize,
        start: u32,
        reading: usize,
        masks: *const u32,
        masks_len: usize,
        log: *const u8,
        log_len: usize,
        tests: *const u8,
        tests_len: usize,
        then: usize,
        now: usize,
        out: *mut u8,
        room: usize,
        count: *mut usize,
    ) -> u8;

    pub fn wyh_possible(
        fluents: usize,
        actions: usize,
        start: u32,
        masks: *const u32,
        masks_len: usize,
        log: *const u8,
        log_len: usize,
        action: usize,
        position: usize,
        yes: *mut u8,
    ) -> u8;

    pub fn wyh_next(
        fluents: usize,
        actions: usize,
        domain: usize,
        start: u32,
        reading: usize,
        masks: *const u32,
        masks_len: usize,
        log: *const u8,
        log_len: usize,
        run: *const u8,
        run_len: usize,
        next: *mut u64,
    ) -> u8;

    pub fn wyh_tally(
        fluents: usize,
        actions: usize,
        start: u32,
        masks: *const u32,
        masks_len: usize,
        log: *const u8,
        log_len: usize,
        tally: *mut Tally,
    ) -> u8;

    pub fn wyh_append(
        fluents: usize,
        actions: usize,
        start: u32,
        masks: *const u32,
        masks_len: usize,
        tally: *mut Tally,
        action: usize,
    ) -> u8;

    pub fn wyh_happened(actions: usize, last: *const u8, impossible: u8, action: usize, yes: *mut u8) -> u8;

    pub fn wyh_read_sheet(sheet: *const u8, sheet_len: usize, masks: *mut u32, log: *mut u8, numbers: *mut usize) -> u8;

    pub fn wyh_read_rule(
        text: *const u8,
        text_len: usize,
        kind: u8,
        fluents: usize,
        actions: usize,
        domain: usize,
        rest: *mut usize,
    ) -> u8;

    pub fn wyh_normal(
        text: *const u8,
        text_len: usize,
        kind: u8,
        fluents: usize,
        actions: usize,
        domain: usize,
        out: *mut u8,
        room: usize,
        count: *mut usize,
    ) -> u8;

    pub fn wyh_finish(
        fluents: usize,
        actions: usize,
        domain: usize,
        start: u32,
        reading: usize,
        masks: *const u32,
        masks_len: usize,
        log: *const u8,
        log_len: usize,
        run: *const u8,
        run_len: usize,
        more: usize,
        out: *mut u8,
        room: usize,
        count: *mut usize,
    ) -> u8;

    pub fn wyh_answer(sheet: *const u8, sheet_len: usize, out: *mut u8) -> usize;
}
