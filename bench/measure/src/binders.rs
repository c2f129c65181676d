//! Binders: what "some carton" costs, beside the same rule written out, each binder a choice of its part with every value written in, where that fits in a text.
use std::hint::black_box;

use oracle::rule::{exactly, Counts, Kind};
use oracle::written::written_out;

use crate::case::{ours, plain, quick, Answer, Ask, Case};
use crate::clock::{least, Engine, POINT};
use crate::theories::{round, sixteen};

/// A family ends behind the first call of ours that takes longer than this, in microseconds.
const LONG: f64 = 10_000.0;

const LETTERS: [char; 4] = ['v', 'w', 'x', 'y'];

/// The same question with its rule written out, where it fits and is not too deep.
fn written(c: &Case) -> Option<Case> {
    let (text, kind) = match &c.ask {
        Ask::Verdict { test, .. } => (test, Kind::Test),
        Ask::Reach { walk, .. } => (walk, Kind::Walk),
        Ask::Finish { job, .. } => (job, Kind::Job),
    };
    let t = &c.theory;
    let rule = exactly(text.as_bytes(), kind, Counts { fluents: t.fluents, actions: t.actions(), domain: t.domain }).expect("a rule that is not refused");
    let out = String::from_utf8(written_out(&rule, t.domain)?).expect("ASCII");
    let ask = match c.ask.clone() {
        Ask::Verdict { then, .. } => Ask::Verdict { test: out, then },
        Ask::Reach { then, .. } => Ask::Reach { walk: out, then },
        Ask::Finish { more, .. } => Ask::Finish { job: out, more },
    };
    let plain = Case { theory: t.clone().with_domain(0), ask, ..c.clone() };
    (ours(&plain) != Err(8)).then_some(plain)
}

/// Microseconds of ours, plain and quick plain, and of ours with the rule written out, taken in turns; it stops the run where two of them differ.
fn times(c: &Case, out: Option<&Case>) -> Vec<f64> {
    let asked: Vec<(Engine, &Case)> = [(ours as Engine, c), (plain, c), (quick, c)].into_iter().chain(out.map(|w| (ours as Engine, w))).collect();
    let mut answers: Vec<Option<Answer>> = vec![None; asked.len()];
    let mut calls: Vec<Box<dyn FnMut() + '_>> = Vec::new();
    for ((engine, c), answer) in asked.iter().zip(&mut answers) {
        calls.push(Box::new(move || *answer = Some(black_box(engine(black_box(c))))));
    }
    let times = least(&mut calls, POINT);
    drop(calls);
    assert!(answers.iter().all(|a| *a == answers[0]), "{answers:?}\n{c:?}\n{out:?}");
    times
}

/// Lines `binders, rule, binders, values, ours, written out, plain, quick`, in microseconds; `none` where the rule written out does not fit.
fn rows(name: &str, values: usize, asks: impl IntoIterator<Item = (usize, Ask)>) {
    for (k, ask) in asks {
        let c = Case { name: name.into(), theory: sixteen().with_domain(values), log: round(63, 32), ask };
        let out = written(&c);
        let times = times(&c, out.as_ref());
        let told = times.get(3).map_or("none".into(), |t| format!("{t:.4}"));
        println!("binders\t{name}\t{k}\t{values}\t{:.4}\t{told}\t{:.4}\t{:.4}", times[0], times[1], times[2]);
        if times[0] > LONG {
            break;
        }
    }
}

fn verdict(test: &str) -> Ask {
    Ask::Verdict { test: test.into(), then: 63 }
}

fn reach(walk: String) -> Ask {
    Ask::Reach { walk, then: 0 }
}

/// What people write: one binder, and two.
fn usual() {
    rows("each carton is out, `!ev!g00v`", 16, [(1, verdict("!ev!g00v"))]);
    rows("some carton voided, `ev<-;b16v*n1`", 16, [(1, verdict("ev<-;b16v*n1"))]);
    rows("some carton voided and not printed again, `ev&!g00v<-;b16v*n1`", 15, [(1, verdict("ev&!g00v<-;b16v*n1"))]);
    rows("prints, and voids with their reprint, `*pv|b00v;b16vb00v`", 16, [(1, reach("*pv|b00v;b16vb00v".into()))]);
    rows("some print, later some void, `;*n;pvb00v;*npwb16w`", 16, [(2, reach(";*n;pvb00v;*npwb16w".into()))]);
    rows("some carton is out and another is not, `evew&g00v!g00w`", 4, [(2, verdict("evew&g00v!g00w"))]);
    rows("some carton is out and another is not, `evew&g00v!g00w`", 16, [(2, verdict("evew&g00v!g00w"))]);
}

/// `;b00v;b00wb00x` for three.
fn steps(k: usize) -> String {
    let last = k - 1;
    LETTERS[..k].iter().enumerate().map(|(i, v)| if i < last { format!(";b00{v}") } else { format!("b00{v}") }).collect()
}

/// All binders in front: `pvpwpx;b00v;b00wb00x`.
fn in_front(k: usize) -> String {
    LETTERS[..k].iter().map(|v| format!("p{v}")).collect::<String>() + &steps(k)
}

/// Each binder before its step: `pv;b00vpw;b00wpxb00x`.
fn before_its_step(k: usize) -> String {
    let last = k - 1;
    LETTERS[..k].iter().enumerate().map(|(i, v)| if i < last { format!("p{v};b00{v}") } else { format!("p{v}b00{v}") }).collect()
}

/// Binders whose variable stands nowhere: `pvpwpx*n`.
fn idle(k: usize) -> String {
    LETTERS[..k].iter().map(|v| format!("p{v}")).collect::<String>() + "*n"
}

/// All binders in front of a test: `evew&g00vg00w`. At the log's end the last value alone makes it true.
fn tests(k: usize) -> String {
    let binders: String = LETTERS[..k].iter().map(|v| format!("e{v}")).collect();
    let last = k - 1;
    let parts: String = LETTERS[..k].iter().enumerate().map(|(i, v)| if i < last { format!("&g00{v}") } else { format!("g00{v}") }).collect();
    binders + &parts
}

/// One to four binders, nested.
fn nested() {
    for values in [2, 4, 16] {
        rows("k binders in front of their steps, `pvpw;b00vb00w`", values, (1..=4).map(|k| (k, reach(in_front(k)))));
    }
    rows("k binders, each before its step, `pv;b00vpwb00w`", 16, (1..=4).map(|k| (k, reach(before_its_step(k)))));
    for values in [2, 16] {
        rows("k binders in front of a test, `evew&g00vg00w`", values, (1..=4).map(|k| (k, verdict(&tests(k)))));
    }
    rows("k binders that bind nothing, `pvpw*n`", 16, (1..=4).map(|k| (k, reach(idle(k)))));
}

pub fn run() {
    usual();
    nested();
}
