//! Document 01, "Normal form of a rule"; document 02, Q-2: "Normal form turns `b` and `s` into each other and passes through `p`."
use crate::rule::{exactly, Counts, Kind, Rule, Test, Walk};
use crate::Refusal;

pub fn walk(w: &Walk) -> Walk {
    match w {
        Walk::Act(_) | Walk::Undo(_) | Walk::Next | Walk::Prev => w.clone(),
        Walk::Seq(v, w) => Walk::Seq(Box::new(walk(v)), Box::new(walk(w))),
        Walk::Alt(v, w) => Walk::Alt(Box::new(walk(v)), Box::new(walk(w))),
        Walk::Star(w) => Walk::Star(Box::new(walk(w))),
        Walk::Check(t) => Walk::Check(Box::new(test(t))),
        Walk::Conv(w) => converse(w),
        Walk::Pick(v, w) => Walk::Pick(*v, Box::new(walk(w))),
    }
}

fn converse(w: &Walk) -> Walk {
    match w {
        Walk::Act(a) => Walk::Undo(*a),
        Walk::Undo(a) => Walk::Act(*a),
        Walk::Next => Walk::Prev,
        Walk::Prev => Walk::Next,
        Walk::Seq(v, w) => Walk::Seq(Box::new(converse(w)), Box::new(converse(v))),
        Walk::Alt(v, w) => Walk::Alt(Box::new(converse(v)), Box::new(converse(w))),
        Walk::Star(w) => Walk::Star(Box::new(converse(w))),
        Walk::Check(t) => Walk::Check(Box::new(test(t))),
        Walk::Conv(w) => walk(w),
        Walk::Pick(v, w) => Walk::Pick(*v, Box::new(converse(w))),
    }
}

pub fn test(t: &Test) -> Test {
    match t {
        Test::Always | Test::Fluent(_) => t.clone(),
        Test::Not(t) => Test::Not(Box::new(test(t))),
        Test::Both(t, u) => Test::Both(Box::new(test(t)), Box::new(test(u))),
        Test::Some(w, t) => Test::Some(Box::new(walk(w)), Box::new(test(t))),
        Test::Exists(v, t) => Test::Exists(*v, Box::new(test(t))),
    }
}

/// The bytes of the normal form, for an output of `room` bytes.
pub fn normal(text: &[u8], kind: Kind, c: Counts, room: usize) -> Result<Vec<u8>, Refusal> {
    if c.out_of_range() {
        return Err(3);
    }
    let bytes = match exactly(text, kind, c)? {
        Rule::Walk(w) => walk(&w).text(),
        Rule::Test(t) => test(&t).text(),
    };
    if room < bytes.len() {
        return Err(12);
    }
    Ok(bytes)
}
