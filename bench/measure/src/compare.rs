//! The tables of ratios: verdict, reach and finish beside the plain implementation, and whole sheets.
use std::hint::black_box;

use crate::case::{ours, plain, quick, sheet, sheet_of, turns, Ask, Case, Theory};
use crate::clock::{least, side_by_side, TABLE};
use crate::texts::{diamonds, held_up, in_order, tests, wide_choice, wide_test};
use crate::theories::{cartons, document, each_once, either, idle, labels, round, sixteen};

const SPOILED: &str = "<-;a05*n!<;*na011";

fn verdict(name: &str, theory: Theory, log: Vec<u8>, test: &str) -> Case {
    let then = log.len();
    Case { name: name.into(), theory, log, ask: Ask::Verdict { test: test.into(), then } }
}

fn reach(name: &str, theory: Theory, log: Vec<u8>, walk: &str, then: usize) -> Case {
    Case { name: name.into(), theory, log, ask: Ask::Reach { walk: walk.into(), then } }
}

fn finish(name: &str, theory: Theory, log: Vec<u8>, job: &str, more: usize) -> Case {
    Case { name: name.into(), theory, log, ask: Ask::Finish { job: job.into(), more } }
}

fn verdicts() -> Vec<Case> {
    vec![
        verdict("always true, empty log, one action", idle(1), vec![], "1"),
        verdict("labels 1 and 2 are out, log of 2", cartons(), vec![0, 1], "&f00f01"),
        verdict("document 01's sheet, log of 4", document(), vec![0, 1, 2, 0], "<-;a00*n!<;*na011"),
        verdict("spoiled label, log of 63", cartons(), round(63, 6), SPOILED),
        verdict("spoiled label, 64 actions, log of 63", labels(64), round(63, 64), SPOILED),
        verdict("`<*n` 20 deep, log of 63", labels(64), round(63, 64), &diamonds(20)),
        verdict("255 bytes of `&`, log of 63", labels(64), round(63, 64), &wide_test(255)),
        verdict("`?` nested 3 deep, log of 63", labels(8), round(63, 8), &tests(3)),
        verdict("a star held up by a test, log of 63", labels(8), round(63, 8), &held_up(1)),
        verdict("such a star in such a star, log of 63", labels(8), round(63, 8), &held_up(2)),
        verdict("each of sixteen cartons is out, log of 63", sixteen(), round(63, 32), "!ev!g00v"),
        verdict("some carton voided and not printed again, log of 63", sixteen(), round(63, 32), "ev&!g00v<-;b16v*n1"),
        verdict("some carton is out and another voided, log of 63", sixteen(), round(63, 32), "evew&g00v&!g00w<-;b16w*n1"),
    ]
}

fn reaches() -> Vec<Case> {
    let stars = "*".repeat(23) + "n";
    let wide = wide_choice(255);
    let star = format!("*{}", wide_choice(254).trim_start_matches('-'));
    vec![
        reach("`*n` from 0, log of 4", document(), vec![0, 1, 2, 0], "*n", 0),
        reach("`-;a00*n` from the end, log of 4", document(), vec![0, 1, 2, 0], "-;a00*n", 4),
        reach("`*n` from 0, 64 actions, log of 63", labels(64), round(63, 64), "*n", 0),
        reach("23 `*` before `n`, log of 63", labels(64), round(63, 64), &stars, 0),
        reach("a choice of 255 bytes, log of 63", labels(64), round(63, 64), &wide, 0),
        reach("its star, 63 rounds, log of 63", labels(64), round(63, 64), &star, 0),
        reach("prints, and voids with their reprint, log of 63", sixteen(), round(63, 32), "*pv|b00v;b16vb00v", 0),
        reach("some print, then some void, log of 63", sixteen(), round(63, 32), ";*n;pvb00v;*npwb16w", 0),
    ]
}

/// Fourteen labels are out but the third, which was voided.
fn voided() -> Vec<u8> {
    (0..14).chain([18]).collect()
}

fn finishes() -> Vec<Case> {
    let any_order = ";*n?&f00&f01&f02&f03&f04f05";
    vec![
        finish("five cartons, three missing", cartons(), vec![0, 1], ";a00;a01;a02;a03a04", 6),
        finish("labels 2 and 3 in either order", either(), vec![0, 2], ";a00;|;a01a02;a02a01a03", 6),
        finish("finished already, log of 63", labels(64), round(63, 64), &in_order(63), 6),
        finish("64 actions, six of 63 labels missing", labels(64), round(57, 64), &in_order(63), 6),
        finish("six labels in any order, from none", each_once(6), vec![], any_order, 6),
        finish("sixteen cartons, three missing after a void", sixteen(), voided(), ";*pv|b00v;b16vb00v?!ev!g00v", 6),
        finish("no way out: 4 actions, more 6", idle(4), vec![], ";*n?f00", 6),
        finish("no way out: 64 actions, more 2", idle(64), vec![], ";*n?f00", 2),
        finish("no way out: 64 actions, more 2, log of 61", idle(64), round(61, 64), ";*n?f00", 2),
    ]
}

/// How often the job was asked, by plain and by quick plain.
fn turned(c: &Case) -> String {
    let (plain, quick) = turns(c, usize::MAX).expect("a finish that is not refused");
    format!("turns {plain}, {quick}")
}

/// The answer in words.
fn told(c: &Case) -> String {
    match (&c.ask, ours(c)) {
        (Ask::Verdict { .. }, Ok(v)) => if v[0] == 1 { "yes" } else { "no" }.into(),
        (Ask::Reach { .. }, Ok(v)) => format!("{} positions", v[1]),
        (Ask::Finish { .. }, Ok(v)) => format!("{} actions, {}", v[0], turned(c)),
        (_, Err(11)) => format!("none, {}", turned(c)),
        (_, Err(n)) => panic!("{}: refused {n}", c.name),
    }
}

/// Lines `table, name, answer, ours, plain, quick`, in microseconds.
fn against_plain(table: &str, cases: &[Case]) {
    for c in cases {
        let times = side_by_side(c, &[ours, plain, quick], TABLE);
        let columns: Vec<String> = times.iter().map(|t| format!("{t:.4}")).collect();
        println!("{table}\t{}\t{}\t{}", c.name, told(c), columns.join("\t"));
    }
}

fn sheets() -> Vec<(&'static str, String)> {
    let many = labels(64);
    vec![
        ("document 01's sheet", sheet(&document(), &[0, 1, 2, 0], "<-;a00*n!<;*na011", ";a00;a01;a02;a00a01", 2)),
        ("spoiled label, three missing", sheet(&cartons(), &[0, 1, 2, 5], SPOILED, ";a00;a01;a02;a05;a01;a03a04", 6)),
        ("sixteen cartons, three missing after a void", sheet(&sixteen(), &voided(), "ev&!g00v<-;b16v*n1", ";*pv|b00v;b16vb00v?!ev!g00v", 6)),
        ("64 actions, log of 57, six missing", sheet(&many, &round(57, 64), SPOILED, &in_order(63), 6)),
        ("the longest sheet of version 1, 3,263 bytes", sheet(&many, &round(63, 64), &wide_test(255), &wide_choice(255), 6)),
        ("the longest sheet, 6,729 bytes", sheet_of(3, &many, &round(63, 64), &wide_test(255), &wide_choice(255), 6)),
    ]
}

fn whole_sheets() {
    for (name, text) in sheets() {
        let mut out = [0; wyndhopper::ANSWER_ROOM];
        let call = Box::new(|| {
            black_box(wyndhopper::answer(black_box(text.as_bytes()), &mut out));
        });
        let time = least(&mut [call], TABLE)[0];
        assert!(out.starts_with(b"verdict="), "{name}: {}", String::from_utf8_lossy(&out));
        println!("sheet\t{name}\t{} bytes\t{time:.4}", text.len());
    }
}

pub fn run() {
    against_plain("verdict", &verdicts());
    against_plain("reach", &reaches());
    against_plain("finish", &finishes());
    whole_sheets();
}
