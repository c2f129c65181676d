//! The cases for the paper's interpreter: our time for each, and a file of Prolog clauses with the same question.
use std::fs;
use std::path::Path;

use crate::case::{ours, Ask, Case, Theory};
use crate::clock::{side_by_side, TABLE};
use crate::prolog;
use crate::theories::{cartons, document, idle, labels, round};

const SINCE: &str = "<-;a00*n!<;*na011";

fn case(name: &str, theory: Theory, log: Vec<u8>, test: &str) -> Case {
    let then = log.len();
    Case { name: name.into(), theory, log, ask: Ask::Verdict { test: test.into(), then } }
}

/// Label 1, then label 2 for the rest of the log.
fn once_then(steps: usize) -> Vec<u8> {
    (0..steps).map(|p| u8::from(p > 0)).collect()
}

fn small() -> Vec<Case> {
    vec![
        case("always true, empty log", idle(1), vec![], "1"),
        case("labels 1 and 2 are out, log of 2", cartons(), vec![0, 1], "&f00f01"),
        case("a forced print, log of 2", cartons(), vec![0, 2], "<-;a02*n1"),
        case("document 01's sheet, log of 4", document(), vec![0, 1, 2, 0], SINCE),
        case("spoiled label, log of 4", cartons(), vec![0, 1, 2, 5], "<-;a05*n!<;*na011"),
    ]
}

fn long() -> Vec<Case> {
    vec![
        case("a fluent, log of 63", labels(8), round(63, 8), "f00"),
        case("label 1 is out and nothing spoiled it, log of 63", cartons(), once_then(63), "<-;a00*n!<;*na051"),
        case("document 01's ask, log of 63", document(), round(63, 3), SINCE),
        case("never label 8, 8 actions, log of 63", labels(8), round(63, 7), "!<-;a07*n1"),
        case("only labels 1 to 3 so far, log of 63", document(), round(63, 3), "<-*|a00|a01a02!<u1"),
        case("label 1 and since then no label 64, 64 actions, log of 63", labels(64), round(63, 64), "<-;a00*n!<;*na631"),
    ]
}

fn nested() -> Vec<Case> {
    let never = |k: usize| "<*u".repeat(k) + "f01";
    let deep = |k: usize| case(&format!("`<*u` {k} deep, then a fluent that is off, log of 63"), document(), vec![0; 63], &never(k));
    (1..=4).map(deep).collect()
}

/// Writes `NN.pl` for each case into a folder, and prints lines `file, name, rule, ours, verdict`.
pub fn run(folder: &Path) {
    let cases = [small(), long(), nested()].concat();
    for (k, c) in cases.iter().enumerate() {
        let Ask::Verdict { test, .. } = &c.ask else { unreachable!() };
        let time = side_by_side(c, &[ours], TABLE)[0];
        let verdict = if ours(c) == Ok([1, 0, 0]) { "yes" } else { "no" };
        let question = format!("question({},{}).\n", prolog::test(test).0, prolog::situation(&c.log));
        let file = format!("{k:02}.pl");
        fs::write(folder.join(&file), prolog::theory(&c.theory) + &question).expect("the folder is there");
        println!("{file}\t{}\t{test}\t{time:.4}\t{verdict}", c.name);
    }
}
