//! The running tally: made afresh, by appends, and from elsewhere; its quick yes, and the verdict of the test that it stands for.
use crate::calls::{self, TallyLent};
use crate::make::{Dice, Input};
use crate::{job, numbered, same, Tally as Noted};
use oracle::tally::Tally as Plain;
use wyndhopper::Tally;

fn ours(t: &Plain) -> Tally {
    Tally { counts: t.counts, last: t.last, state: t.state, steps: t.steps, impossible: t.impossible }
}

fn plain(t: &Tally) -> Plain {
    Plain { counts: t.counts, last: t.last, state: t.state, steps: t.steps, impossible: t.impossible }
}

/// What is lent after a call: the answer, or, refused, what was there before.
fn left(before: Tally, answer: &Result<Plain, u8>) -> (u8, TallyLent) {
    match answer {
        Ok(t) => (0, TallyLent::new(ours(t))),
        Err(n) => (*n, TallyLent::new(before)),
    }
}

/// A record that no call made: counts, steps and places at the edges and beyond.
fn foreign(d: &mut Dice) -> Tally {
    let any = [0, 1, 2, 30, 62, 63, 64, 65, 127, 200, 254, 255];
    let mut t = Tally { state: d.next() as u32, steps: d.pick(&any), impossible: d.pick(&any), ..Tally::EMPTY };
    t.counts = t.counts.map(|_| d.pick(&any));
    t.last = t.last.map(|_| d.pick(&any));
    t
}

fn action(d: &mut Dice, i: &Input) -> usize {
    if d.once_in(12) {
        d.pick(&[i.actions, 64, 65, 255, 256, usize::MAX])
    } else {
        d.below(i.actions.clamp(1, 64))
    }
}

fn appended(d: &mut Dice, i: &Input, before: Tally, noted: &mut Noted) -> Tally {
    let a = action(d, i);
    let told = oracle::tally::append(i.fluents, i.actions, i.start, &i.masks, &plain(&before), a);
    noted.note("append", &told);
    let (number, lent) = calls::append(i, before, a);
    same("append", &(i, before, a), (number, lent.clone()), left(before, &told));
    let mut safe = before;
    same("append, safe", &(i, before, a), numbered(safe.append(&job(i), a)), told.map(|_| ()));
    same("append, safe, the record", &(i, before, a), safe, lent.tally);
    lent.tally
}

fn asked(d: &mut Dice, i: &Input, t: &Tally, noted: &mut Noted) {
    let a = action(d, i);
    let told = oracle::tally::happened(i.actions, &plain(t), a);
    noted.note("happened", &told);
    same("happened", &(i, t, a), calls::happened(i, t, a), told.map_or_else(|n| (n, 0), |yes| (0, yes as u8)));
    same("happened, safe", &(i, t, a), numbered(t.happened(&job(i), a)), told);
}

/// The record of a log, appended to, is that of the longer log, refusals too; and its quick yes is the test's verdict.
fn made(d: &mut Dice, i: &Input, t: Tally, noted: &mut Noted) {
    let a = action(d, i);
    let test = format!("<-;a{a:02}*n1");
    if a < 100 {
        // The test has no variables, so any domain does; the quick yes looks at none.
        let verdict = job(i).with_domain(i.domain.min(16)).verdict(test.as_bytes(), i.log.len(), i.log.len());
        same("quick yes and verdict", &(i, a), t.happened(&job(i), a), verdict);
    }
    asked(d, i, &t, noted);
    if a > 255 {
        return;
    }
    let longer = Input { log: [&i.log[..], &[a as u8]].concat(), ..i.clone() };
    let afresh = oracle::tally::afresh(i.fluents, i.actions, i.start, &i.masks, &longer.log);
    same("append to the record of a log", &(i, a), calls::append(i, t, a), left(t, &afresh));
}

pub fn tallies(d: &mut Dice, i: &Input, noted: &mut Noted) {
    let before = foreign(d);
    let told = oracle::tally::afresh(i.fluents, i.actions, i.start, &i.masks, &i.log);
    noted.note("tally", &told);
    let (number, lent) = calls::tally(i, before);
    same("tally", &(i, before), (number, lent.clone()), left(before, &told));
    same("tally, safe", &i, numbered(Tally::of(&job(i))), told.as_ref().map(ours).map_err(|n| *n));
    if number == 0 {
        made(d, i, lent.tally, noted);
    }
    asked(d, i, &before, noted);
    let mut t = before;
    for _ in 0..3 {
        t = appended(d, i, t, noted);
        asked(d, i, &t, noted);
    }
}
