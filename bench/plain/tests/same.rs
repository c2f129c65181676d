//! The plain implementation gives what the second implementation gives, refusals and untouched output too, on seeded inputs.
#[allow(dead_code)]
#[path = "../../../tests/compare/src/make.rs"]
mod make;

use make::{Dice, Input};
use oracle::rule::Counts;
use plain::{Job, Reached};

fn job(i: &Input) -> Job<'_> {
    Job { fluents: i.fluents, actions: i.actions, domain: i.domain, start: i.start, masks: &i.masks, log: &i.log }
}

fn counts(i: &Input) -> Counts {
    Counts { fluents: i.fluents, actions: i.actions, domain: i.domain }
}

fn place(d: &mut Dice, log: &[u8]) -> usize {
    if d.once_in(30) {
        usize::MAX
    } else {
        d.below(log.len() + 2)
    }
}

fn questions(d: &mut Dice, i: &Input) {
    let now = place(d, &i.log);
    let then = if now < 64 { d.below(now + 1) + d.below(2) * d.below(2) } else { 0 };
    let walk = make::rule(d, 1, i);
    let other = oracle::ask::reach(counts(i), i.start, &i.masks, &i.log, &walk, then, now);
    let other = other.map(|r| Reached { set: r.set, count: r.count, earliest: r.earliest });
    assert_eq!(job(i).reach(&walk, then, now), other, "{i:?} {walk:?} {then} {now}");
    assert_eq!(job(i).quick_reach(&walk, then, now), other, "{i:?} {walk:?} {then} {now}, quick");
    let test = make::rule(d, 0, i);
    let other = oracle::ask::verdict(counts(i), i.start, &i.masks, &i.log, &test, then, now);
    assert_eq!(job(i).verdict(&test, then, now), other, "{i:?} {test:?} {then} {now}");
    assert_eq!(job(i).quick_verdict(&test, then, now), other, "{i:?} {test:?} {then} {now}, quick");
}

fn finishes(d: &mut Dice, i: &Input) {
    let text = make::rule(d, 2, i);
    let more = if d.once_in(20) { 7 } else { d.below(if i.actions > 6 { 3 } else { 5 }) };
    let room = more + d.below(3) - d.below(2).min(more);
    let other = oracle::finish::finish(counts(i), i.start, &i.masks, &i.log, &text, more, room);
    let mut expected = vec![0xa5; room];
    if let Ok(bytes) = &other {
        expected[..bytes.len()].copy_from_slice(bytes);
    }
    let mut out = vec![0xa5; room];
    let count = job(i).finish(&text, more, &mut out);
    assert_eq!((count, out), (other.clone().map(|b| b.len()), expected.clone()), "{i:?} {text:?} {more}");
    let mut out = vec![0xa5; room];
    let count = job(i).quick_finish(&text, more, &mut out);
    assert_eq!((count, out), (other.map(|b| b.len()), expected), "{i:?} {text:?} {more}, quick");
}

#[test]
fn same_as_the_second_implementation() {
    for k in 0..4_000 {
        let mut d = Dice::new(7_000_021 + k);
        let i = make::input(&mut d);
        questions(&mut d, &i);
        finishes(&mut d, &i);
    }
}
