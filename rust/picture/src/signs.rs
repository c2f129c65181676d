//! The table of signs: for each its kind, what stands behind it, its words, and where its parts are asked. A sign that a later version of the language adds is a row more;
//! a sign that is not here is shown as it stands. Where a part ends is not known here: the library is asked (`tree`).
use wyndhopper::Kind;

/// What a sign has of its own, before its parts.
#[derive(Clone, Copy, Debug, PartialEq, Eq)]
pub enum Own {
    Nothing,
    Action,
    Fluent,
    /// A number and a variable; with a value written in it is this sign with the sum.
    ActionPlus(u8),
    FluentPlus(u8),
    /// The variable that it binds in its part.
    Variable,
}

impl Own {
    /// How many bytes it takes.
    pub const fn room(self) -> usize {
        match self {
            Own::Nothing => 0,
            Own::Action | Own::Fluent => 2,
            Own::ActionPlus(_) | Own::FluentPlus(_) => 3,
            Own::Variable => 1,
        }
    }
}

/// Where a part is asked, or walked from.
#[derive(Clone, Copy, Debug, PartialEq, Eq)]
pub enum At {
    /// Where the sign itself is.
    Here,
    /// Where the part before it leads.
    Behind,
    /// Where the sign itself leads: a star's next round begins there.
    Rounds,
    /// Where the sign is, and the log is seen up to there only, unless the sheet says otherwise.
    UpToHere,
    /// Where the sign itself is, with each value of its variable.
    EachValue,
}

/// A part: its kind, the word that leads it in, and where it is asked.
#[derive(Clone, Copy, Debug)]
pub struct Part {
    pub kind: Kind,
    pub lead: &'static str,
    pub at: At,
}

/// What stands behind a sign.
#[derive(Clone, Copy, Debug)]
pub enum Behind {
    Parts(&'static [Part]),
    /// A walk that is shown in the form that the library gives it without this sign.
    Turned,
}

#[derive(Clone, Copy, Debug)]
pub struct Sign {
    pub byte: u8,
    pub kind: Kind,
    pub own: Own,
    /// Its words; `{}` is what it names.
    pub words: &'static str,
    pub behind: Behind,
}

const LEAF: Behind = Behind::Parts(&[]);

const fn walk(lead: &'static str, at: At) -> Part {
    Part { kind: Kind::Walk, lead, at }
}

const fn test(lead: &'static str, at: At) -> Part {
    Part { kind: Kind::Test, lead, at }
}

const fn sign(byte: u8, kind: Kind, own: Own, words: &'static str, behind: Behind) -> Sign {
    Sign { byte, kind, own, words, behind }
}

pub const SIGNS: [Sign; 19] = [
    sign(b'a', Kind::Walk, Own::Action, "one step on: {}", LEAF),
    sign(b'r', Kind::Walk, Own::Action, "one step back: {}", LEAF),
    sign(b'n', Kind::Walk, Own::Nothing, "one step on, any that was possible", LEAF),
    sign(b'u', Kind::Walk, Own::Nothing, "one step back, any that was possible", LEAF),
    sign(b';', Kind::Walk, Own::Nothing, "in turn", Behind::Parts(&[walk("first", At::Here), walk("then", At::Behind)])),
    sign(b'|', Kind::Walk, Own::Nothing, "one of two ways", Behind::Parts(&[walk("either", At::Here), walk("or", At::Here)])),
    sign(b'*', Kind::Walk, Own::Nothing, "any number of times, or none", Behind::Parts(&[walk("", At::Rounds)])),
    sign(b'?', Kind::Walk, Own::Nothing, "stay here, if", Behind::Parts(&[test("", At::UpToHere)])),
    sign(b'-', Kind::Walk, Own::Nothing, "backwards, that is", Behind::Turned),
    sign(b'p', Kind::Walk, Own::Variable, "with some value of {}", Behind::Parts(&[walk("", At::EachValue)])),
    sign(b'b', Kind::Walk, Own::ActionPlus(b'a'), "one step on: {}", LEAF),
    sign(b's', Kind::Walk, Own::ActionPlus(b'r'), "one step back: {}", LEAF),
    sign(b'1', Kind::Test, Own::Nothing, "always", LEAF),
    sign(b'f', Kind::Test, Own::Fluent, "{}", LEAF),
    sign(b'!', Kind::Test, Own::Nothing, "not", Behind::Parts(&[test("", At::Here)])),
    sign(b'&', Kind::Test, Own::Nothing, "both", Behind::Parts(&[test("", At::Here), test("and", At::Here)])),
    sign(b'<', Kind::Test, Own::Nothing, "there is a place", Behind::Parts(&[walk("reached by", At::Here), test("where", At::Behind)])),
    sign(b'e', Kind::Test, Own::Variable, "with some value of {}", Behind::Parts(&[test("", At::EachValue)])),
    sign(b'g', Kind::Test, Own::FluentPlus(b'f'), "{}", LEAF),
];

/// The row of the sign that opens this text.
pub fn opening(text: &[u8]) -> Option<&'static Sign> {
    SIGNS.iter().find(|sign| text.first() == Some(&sign.byte))
}
