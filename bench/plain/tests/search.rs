//! The quick search gives what the second implementation's gives, which tries every sequence: jobs that begin with `*n`, that need all six, theories in which actions
//! stand in for one another or nearly do, tests that cannot come true, and jobs that nothing finishes. JOBS=200000 asks many; some thousand are asked without it.
#[allow(dead_code)]
#[path = "../../../tests/compare/src/make.rs"]
mod make;

use make::{Dice, Names, ROW};
use oracle::rule::Counts;
use plain::Job;

const FLUENTS: usize = 4;

struct Theory {
    start: u32,
    masks: Vec<u32>,
}

fn mask(d: &mut Dice, sparse: usize) -> u32 {
    (0..sparse).fold(15, |m, _| m & d.next() as u32)
}

/// Some actions, many of them like one before them, or like it but for one bit of one mask.
fn theory(d: &mut Dice, actions: usize) -> Theory {
    let mut masks: Vec<u32> = Vec::new();
    for a in 0..actions {
        if a > 0 && d.below(5) < 3 {
            let like = d.below(a);
            masks.extend_from_within(ROW * like..ROW * like + ROW);
            if d.once_in(2) {
                masks[ROW * a + d.below(ROW)] ^= 1 << d.below(FLUENTS);
            }
        } else {
            masks.extend([mask(d, 3), mask(d, 3)]);
            for _ in 0..2 {
                masks.extend([mask(d, 3), mask(d, 3), mask(d, 2), mask(d, 2)]);
            }
        }
    }
    Theory { start: mask(d, 1), masks }
}

fn test(d: &mut Dice, depth: usize, actions: usize) -> String {
    match d.below(if depth <= 1 { 4 } else { 8 }) {
        0 => "1".into(),
        1..=3 => format!("f{:02}", d.below(FLUENTS)),
        4 | 5 => format!("!{}", test(d, depth - 1, actions)),
        6 => format!("&{}{}", test(d, depth - 1, actions), test(d, depth - 1, actions)),
        _ => format!("<{}{}", make::walk(d, depth - 1, &Names::plain(FLUENTS, actions), false), test(d, depth - 1, actions)),
    }
}

/// What was done last or at some time, or was not.
fn history(d: &mut Dice, actions: usize) -> String {
    let a = d.below(actions);
    let not = d.pick(&["", "!"]);
    match d.below(3) {
        0 => format!("{not}<r{a:02}1"),
        1 => format!("{not}<-a{a:02}1"),
        _ => format!("{not}<;*ur{a:02}{}", test(d, 2, actions)),
    }
}

fn job(d: &mut Dice, depth: usize, actions: usize) -> String {
    let part = |d: &mut Dice| job(d, depth - 1, actions);
    match d.below(if depth <= 1 { 4 } else { 12 }) {
        0 | 1 => format!("a{:02}", d.below(actions)),
        2 => "n".into(),
        3 => format!("?{}", test(d, 3, actions)),
        4..=7 => format!(";{}{}", part(d), part(d)),
        8 | 9 => format!("|{}{}", part(d), part(d)),
        _ => format!("*{}", part(d)),
    }
}

/// So many steps one after another, some of them any.
fn steps(d: &mut Dice, count: usize, actions: usize) -> String {
    (0..count).fold(String::from("?1"), |rest, _| match d.below(6) {
        0 => format!(";n{rest}"),
        1 => format!(";a{:02};?{}{rest}", d.below(actions), test(d, 2, actions)),
        _ => format!(";a{:02}{rest}", d.below(actions)),
    })
}

fn text(d: &mut Dice, actions: usize, done: usize, more: usize) -> String {
    let depth = 2 + d.below(4);
    match d.below(7) {
        0 => format!(";*n{}", job(d, depth, actions)),
        1 => format!(";*n{}", steps(d, more, actions)),
        2 => steps(d, done + more, actions),
        3 => format!(";*{};*n?{}", job(d, depth, actions), test(d, 4, actions)),
        4 => format!(";*n;?{}?{}", history(d, actions), test(d, 2, actions)),
        5 => format!(";*;n?{}?&{}{}", history(d, actions), history(d, actions), test(d, 2, actions)),
        _ => job(d, depth, actions),
    }
}

/// A job with binders, and the domain: any walk with them behind some steps, an end that some or each value has, a step and another that hang together by their value.
fn some(d: &mut Dice, actions: usize) -> (String, usize) {
    let domain = 1 + d.below(actions.min(FLUENTS));
    let names = Names::plain(FLUENTS, actions).with(domain, 16);
    let text = match d.below(5) {
        0 => format!(";*n{}", make::walk(d, 4, &names, true)),
        1 => format!(";*n?{}", make::test(d, 4, &names)),
        2 => d.pick(&[";*n?!ev!g00v", ";*n?evg00v", "*pv;b00v?g00v", ";*npv;b00v?!g00v", ";*n?ev&!g00v<-;b00v*n1"]).to_string(),
        3 => d.pick(&[";*npv;b00vb00v", ";*pv;b00v?evg00v?!ev!g00v", "pv*|b00v;n?g00v", ";*npvpw;b00v|b00wn"]).to_string(),
        _ => make::walk(d, 6, &names, true),
    };
    (text, domain)
}

/// The length that was found, 7 for none, 8 for a refused text.
fn ask(d: &mut Dice) -> usize {
    let actions = d.pick(&[1, 2, 2, 3, 3, 4, 6, 9]);
    let most = [6, 6, 6, 5, 4, 3, 3, 2, 2, 2][actions];
    let t = theory(d, actions);
    let log: Vec<u8> = (0..d.below(4)).map(|_| d.below(actions) as u8).collect();
    let more = most - d.below(2) * d.below(2);
    let (text, domain) = if d.once_in(4) { some(d, actions) } else { (text(d, actions, log.len(), more), 0) };
    let job = Job { fluents: FLUENTS, actions, domain, start: t.start, masks: &t.masks, log: &log };
    let other = oracle::finish::finish(Counts { fluents: FLUENTS, actions, domain }, t.start, &t.masks, &log, text.as_bytes(), more, 6);
    let mut expected = [0xa5; 6];
    if let Ok(bytes) = &other {
        expected[..bytes.len()].copy_from_slice(bytes);
    }
    let mut out = [0xa5; 6];
    let count = job.quick_finish(text.as_bytes(), more, &mut out);
    assert_eq!((count, out), (other.map(|b| b.len()), expected), "{job:?} {text} {more}");
    match count {
        Ok(k) => k,
        Err(11) => 7,
        Err(_) => 8,
    }
}

#[test]
fn nothing_left_out_could_finish() {
    let wanted = std::env::var("JOBS").map_or(4_000, |n| n.parse().expect("a number"));
    let mut d = Dice::new(16_000_057);
    let mut found = [0; 9];
    for _ in 0..wanted {
        found[ask(&mut d)] += 1;
    }
    println!("{wanted} jobs, all equal; by length 0 to 6, none, refused: {found:?}");
}

/// At the end of the room: a log of 57 to 63 steps, where log and sequence together have at most 63.
#[test]
fn up_to_a_full_log() {
    for k in 0..200 {
        let mut d = Dice::new(1_000_003 + k);
        let t = theory(&mut d, 2);
        let log: Vec<u8> = (0..57 + d.below(7)).map(|_| d.below(2) as u8).collect();
        let count = 1 + d.below(3);
        let text = format!(";*n{}", steps(&mut d, count, 2));
        let job = Job { fluents: FLUENTS, actions: 2, domain: 0, start: t.start, masks: &t.masks, log: &log };
        let (mut out, mut other) = ([0; 6], [0; 6]);
        assert_eq!(job.quick_finish(text.as_bytes(), 6, &mut out), job.finish(text.as_bytes(), 6, &mut other), "{job:?} {text}");
        assert_eq!(out, other, "{job:?} {text}");
    }
}
