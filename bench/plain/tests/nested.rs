//! The quick evaluator gives what the second implementation gives where it has most to keep: stars in stars, tests in stars and in tests, converses, a third of the rules with binders, over
//! short logs; and it visits no more signs than it may, where there are no binders. QUESTIONS=1000000 asks a million; a few thousand are asked without it.
#[allow(dead_code)]
#[path = "../../../tests/compare/src/make.rs"]
mod make;

use make::Dice;
use oracle::ask::NO_VALUES;
use plain::Job;

const ACTIONS: usize = 3;
const FLUENTS: usize = 2;
const DOMAIN: usize = 2;

/// What a rule may have: binders or none, and the letters that are bound where it stands.
#[derive(Clone, Copy)]
struct Scope {
    binders: bool,
    v: bool,
    w: bool,
}

impl Scope {
    /// A letter that is bound here.
    fn letter(&self, d: &mut Dice) -> Option<char> {
        match (self.v, self.w) {
            (false, false) => None,
            (true, true) => Some(d.pick(&['v', 'w'])),
            (v, _) => Some(if v { 'v' } else { 'w' }),
        }
    }

    fn bind(&self, letter: char) -> Scope {
        Scope { v: self.v || letter == 'v', w: self.w || letter == 'w', ..*self }
    }
}

fn leaf(d: &mut Dice, s: Scope) -> String {
    if let Some(letter) = s.letter(d).filter(|_| d.once_in(2)) {
        return format!("{}{:02}{letter}", d.pick(&['b', 's']), d.below(ACTIONS + 1 - DOMAIN));
    }
    match d.below(6) {
        0 | 1 => "n".into(),
        2 | 3 => "u".into(),
        4 => format!("a{:02}", d.below(ACTIONS)),
        _ => format!("r{:02}", d.below(ACTIONS)),
    }
}

/// A walk of so many signs or a few less, mostly stars, sequences and choices.
fn walk(d: &mut Dice, signs: usize, s: Scope) -> String {
    if signs <= 1 {
        return leaf(d, s);
    }
    if s.binders && d.once_in(6) {
        let letter = d.pick(&['v', 'w']);
        return format!("p{letter}{}", walk(d, signs - 1, s.bind(letter)));
    }
    let two = |d: &mut Dice, sign: &str| {
        let first = d.below(signs - 1);
        format!("{sign}{}{}", walk(d, first, s), walk(d, signs - 1 - first, s))
    };
    match d.below(12) {
        0..=3 => format!("*{}", walk(d, signs - 1, s)),
        4..=6 => two(d, ";"),
        7 | 8 => two(d, "|"),
        9 => format!("-{}", walk(d, signs - 1, s)),
        _ => format!("?{}", test(d, signs - 1, s)),
    }
}

fn test(d: &mut Dice, signs: usize, s: Scope) -> String {
    if signs <= 1 {
        if let Some(letter) = s.letter(d).filter(|_| d.once_in(2)) {
            return format!("g00{letter}");
        }
        return if d.once_in(2) { "1".into() } else { format!("f{:02}", d.below(FLUENTS)) };
    }
    if s.binders && d.once_in(6) {
        let letter = d.pick(&['v', 'w']);
        return format!("e{letter}{}", test(d, signs - 1, s.bind(letter)));
    }
    match d.below(8) {
        0 | 1 => format!("!{}", test(d, signs - 1, s)),
        2 => {
            let first = d.below(signs - 1);
            format!("&{}{}", test(d, first, s), test(d, signs - 1 - first, s))
        }
        _ => {
            let last = d.below(signs.min(3));
            format!("<{}{}", walk(d, signs - 1 - last, s), test(d, last, s))
        }
    }
}

/// One rule over one log at one now: the walk from every then, and the test at every then.
fn ask(d: &mut Dice) -> usize {
    let few = |d: &mut Dice| d.next() as u32 & d.next() as u32 & 3;
    let masks: Vec<u32> = (0..10 * ACTIONS).map(|_| few(d)).collect();
    let steps = d.below(6);
    let log: Vec<u8> = (0..steps).map(|_| d.below(ACTIONS) as u8).collect();
    let job = Job { fluents: FLUENTS, actions: ACTIONS, domain: DOMAIN, start: few(d), masks: &masks, log: &log };
    let now = steps - d.below(2).min(steps);
    let signs = 2 + d.below(18);
    let scope = Scope { binders: d.once_in(3), v: false, w: false };
    let (walk, test) = (walk(d, signs, scope), test(d, signs, scope));
    let theory = oracle::theory::check(FLUENTS, ACTIONS, job.start, &masks, &log).expect("a theory");
    let world = oracle::ask::World::new(&theory, DOMAIN, &log);
    let pairs = world.walk(&oracle::rule::walk(walk.as_bytes()).expect("a walk").0, now, NO_VALUES);
    let truths = world.test(&oracle::rule::test(test.as_bytes()).expect("a test").0, now, NO_VALUES);
    let bound = (now + 1) * (now + 2) / 2;
    for then in 0..=now {
        let set = pairs[then].iter().rev().fold(0, |set, &led| set << 1 | u64::from(led));
        assert_eq!(job.quick_reach(walk.as_bytes(), then, now).map(|r| r.set), Ok(set), "{job:?} {walk} {then} {now}");
        assert_eq!(job.quick_verdict(test.as_bytes(), then, now), Ok(truths[then]), "{job:?} {test} {then} {now}");
        if !scope.binders {
            assert!(job.reach_visits(walk.as_bytes(), then, now).unwrap() <= walk.len() * bound, "{job:?} {walk} {then} {now}");
            assert!(job.verdict_visits(test.as_bytes(), then, now).unwrap() <= test.len() * bound, "{job:?} {test} {then} {now}");
        }
    }
    2 * (now + 1)
}

#[test]
fn nothing_kept_changes_an_answer() {
    let wanted = std::env::var("QUESTIONS").map_or(20_000, |n| n.parse().expect("a number"));
    let mut d = Dice::new(4_000_037);
    let (mut questions, mut rules) = (0, 0);
    while questions < wanted {
        questions += ask(&mut d);
        rules += 2;
    }
    println!("{questions} questions with {rules} rules, all equal");
}
