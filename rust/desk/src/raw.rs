//! The functions of include/carton_desk.h. A test holds these lines, the header and the library's exports against one another (tests/declarations.rs).

extern "C" {
    pub fn desk_may_print(cartons: usize, log: *const u8, log_len: usize, label: usize, yes: *mut u8) -> u8;

    pub fn desk_lowest(cartons: usize, log: *const u8, log_len: usize, label: *mut usize) -> u8;
}
