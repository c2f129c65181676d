//! A case as Prolog clauses for the paper's interpreter: the theory of the sheet, and its question as a term in the paper's notation.
use crate::case::Theory;
use wyndhopper::ROW_MASKS;

/// The walk at the front of a text, as a term, and the rest of the text.
fn walk(text: &str) -> (String, &str) {
    let rest = &text[1..];
    match &text[..1] {
        "a" => (format!("a{}", &rest[..2]), &rest[2..]),
        "r" => (format!("conv(a{})", &rest[..2]), &rest[2..]),
        "n" => ("any".into(), rest),
        "u" => ("conv(any)".into(), rest),
        "*" => one("star", walk(rest)),
        "-" => one("conv", walk(rest)),
        "?" => one("?", test(rest)),
        sign => {
            let (v, rest) = walk(rest);
            let (w, rest) = walk(rest);
            (format!("({v} {} {w})", if sign == ";" { ":" } else { "#" }), rest)
        }
    }
}

fn one<'t>(name: &str, (part, rest): (String, &'t str)) -> (String, &'t str) {
    (format!("{name}({part})"), rest)
}

/// The same for a test.
pub fn test(text: &str) -> (String, &str) {
    let rest = &text[1..];
    match &text[..1] {
        "1" => ("true".into(), rest),
        "f" => (format!("f{}", &rest[..2]), &rest[2..]),
        "!" => one("-", test(rest)),
        "&" => {
            let (t, rest) = test(rest);
            let (u, rest) = test(rest);
            (format!("({t} & {u})"), rest)
        }
        _ => {
            let (w, rest) = walk(rest);
            let (t, rest) = test(rest);
            (format!("diamond({w},{t})"), rest)
        }
    }
}

/// The situation after the steps of a log.
pub fn situation(log: &[u8]) -> String {
    log.iter().fold("s0".into(), |s, a| format!("do(a{a:02},{s})"))
}

/// Where the masks of an action stand whose effects do not depend; the interpreter has no others.
const NEED: usize = 0;
const BAN: usize = 1;
const PUT: usize = 4;
const DROP: usize = 5;

/// `A = aNN` for each action whose mask of this place names the fluent, joined by `or`.
fn actions_with(t: &Theory, place: usize, fluent: usize) -> Vec<String> {
    let named = |a: &usize| t.masks[ROW_MASKS * a + place] >> fluent & 1 == 1;
    (0..t.actions()).filter(named).map(|a| format!("A = a{a:02}")).collect()
}

/// Document 001's successor state rule for one fluent: put wins, and of the rest what was on and is not dropped stays.
fn successor(t: &Theory, i: usize) -> String {
    let mut kept = format!("f{i:02}(S)");
    let drops = actions_with(t, DROP, i);
    if !drops.is_empty() {
        kept = format!("\\+ ( {} ), {kept}", drops.join(" ; "));
    }
    let puts = actions_with(t, PUT, i);
    if !puts.is_empty() {
        kept = format!("( ( {} ) -> true ; {kept} )", puts.join(" ; "));
    }
    format!("f{i:02}(do({},S)) :- {kept}.\n", if kept.contains("A =") { "A" } else { "_" })
}

/// What an action needs, as goals: its fluents of one mask, with `not` in front.
fn needs(t: &Theory, a: usize, place: usize, not: &str) -> Vec<String> {
    let named = |i: &usize| t.masks[ROW_MASKS * a + place] >> i & 1 == 1;
    (0..t.fluents).filter(named).map(|i| format!("{not}f{i:02}(S)")).collect()
}

fn possible(t: &Theory, a: usize) -> String {
    let all = [needs(t, a, NEED, ""), needs(t, a, BAN, "\\+ ")].concat();
    if all.is_empty() {
        return format!("poss(a{a:02},_).\n");
    }
    format!("poss(a{a:02},S) :- {}.\n", all.join(", "))
}

/// The clauses of a theory: each predicate's together.
pub fn theory(t: &Theory) -> String {
    let mut s: String = (0..t.actions()).map(|a| format!("primitive_action(a{a:02}).\n")).collect();
    s.extend((0..t.actions()).map(|a| possible(t, a)));
    s.extend((0..t.fluents).map(|i| format!("restoreSitArg(f{i:02},S,f{i:02}(S)).\n")));
    for i in 0..t.fluents {
        if t.start >> i & 1 == 1 {
            s += &format!("f{i:02}(s0).\n");
        }
        s += &successor(t, i);
    }
    s
}
