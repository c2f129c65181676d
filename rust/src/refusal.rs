//! The refusals by name, each with its number and its sentence.
use std::fmt;

/// Why a call was refused. Later versions add cases.
#[derive(Clone, Copy, Debug, PartialEq, Eq, PartialOrd, Ord, Hash)]
#[non_exhaustive]
#[repr(u8)]
pub enum Refusal {
    SheetTooLong = 1,
    BadLine = 2,
    BadNumber = 3,
    LacksFluent = 4,
    BadLog = 5,
    BadRule = 6,
    LacksName = 7,
    TooDeep = 8,
    Backward = 9,
    BadPosition = 10,
    NoFinish = 11,
    ShortOutput = 12,
    Unbound = 13,
}

impl Refusal {
    /// All of them, in the order of their numbers.
    pub const ALL: [Refusal; 13] = [
        Refusal::SheetTooLong,
        Refusal::BadLine,
        Refusal::BadNumber,
        Refusal::LacksFluent,
        Refusal::BadLog,
        Refusal::BadRule,
        Refusal::LacksName,
        Refusal::TooDeep,
        Refusal::Backward,
        Refusal::BadPosition,
        Refusal::NoFinish,
        Refusal::ShortOutput,
        Refusal::Unbound,
    ];

    /// The number in the table of docs/REFUSALS.md.
    pub const fn number(self) -> u8 {
        self as u8
    }

    /// The refusal with this number.
    pub fn from_number(number: u8) -> Option<Refusal> {
        Refusal::ALL.into_iter().find(|r| r.number() == number)
    }
}

impl fmt::Display for Refusal {
    fn fmt(&self, f: &mut fmt::Formatter<'_>) -> fmt::Result {
        f.write_str(match self {
            Refusal::SheetTooLong => "the sheet is longer than 6,738 bytes",
            Refusal::BadLine => "the expected key and '=' do not open the line, or its LF is missing, or bytes follow the last line, or a board lacks its last LF",
            Refusal::BadNumber => "a count, the domain, the start state, a mask, the reading, the version or more is not written as it should be or out of its range, or a mask table has the wrong length, or a board has more than 64 tests",
            Refusal::LacksFluent => "start or an action's mask names a fluent the theory lacks",
            Refusal::BadLog => "the log has an odd number of digits, a non-digit, more than 63 actions, or an action the theory lacks",
            Refusal::BadRule => "a rule is empty, over 255 bytes, not exactly one rule of its kind, or has a sign of variables where there is no domain",
            Refusal::LacksName => "a rule, or the call, names an action or fluent the theory lacks",
            Refusal::TooDeep => "a rule is nested more than 24 deep",
            Refusal::Backward => "a backward sign stands in a run outside every '<' walk",
            Refusal::BadPosition => "then is after now, or now or the position asked is past the log's end",
            Refusal::NoFinish => "no sequence of so many actions finishes the run",
            Refusal::ShortOutput => "the lent output is shorter than the normal form, or than more, or than a board has tests",
            Refusal::Unbound => "a variable stands in a rule outside every binder of its name",
        })
    }
}

impl std::error::Error for Refusal {}
