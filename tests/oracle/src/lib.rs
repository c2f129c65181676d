//! Documents 01 and 02, implemented a second time, in the plainest way: rules are trees, a walk is a table of pairs, the finishing sequence is found by
//! trying every sequence in order. It shares no code and no idea of speed with the proved library, so that the two can be compared.

pub mod ask;
pub mod board;
pub mod desk;
pub mod finish;
pub mod next;
pub mod normal;
pub mod rule;
pub mod sheet;
pub mod tally;
pub mod theory;
pub mod written;

/// A refusal of a library call, by its number in the table.
pub type Refusal = u8;
