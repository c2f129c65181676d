//! A rule with binders and the same rule written out, each binder a choice of its part with every value written in (tests/oracle/src/written.rs): where both are accepted, every question has the
//! same answer, asked of the library with two texts.
use crate::make::{self, Dice, Input};
use crate::{counts, job, same, Tally};
use oracle::rule::Kind as Plain;
use oracle::written::written_out;
use wyndhopper::{Job, FINISH_ROOM};

/// The first sequence that finishes the run, or the refusal.
fn finished(job: Job, run: &[u8], more: usize) -> Result<Vec<u8>, wyndhopper::Refusal> {
    let mut out = [0; FINISH_ROOM];
    job.finish(run, more, &mut out).map(|count| out[..count].to_vec())
}

fn questions(what: &dyn std::fmt::Debug, kind: Plain, some: Job, text: &[u8], plain: Job, out: &[u8]) {
    let now = some.log().len();
    for then in 0..=now {
        match kind {
            Plain::Test => same("a test written out", what, some.verdict(text, then, now), plain.verdict(out, then, now)),
            Plain::Walk | Plain::Job => same("a walk written out", what, some.reach(text, then, now), plain.reach(out, then, now)),
        }
    }
    if kind == Plain::Job {
        same("what comes next, written out", what, some.next(text), plain.next(out));
        for more in [0, 1, 2] {
            same("finish, written out", what, finished(some, text, more), finished(plain, out, more));
        }
    }
}

pub fn written(d: &mut Dice, i: &Input, tally: &mut Tally) {
    let (number, kind) = d.pick(&[(0, Plain::Test), (1, Plain::Walk), (2, Plain::Job)]);
    let (text, i) = make::bound(d, number, i);
    let Ok(rule) = oracle::rule::exactly(&text, kind, counts(&i)) else { return };
    let Some(out) = written_out(&rule, i.domain) else { return };
    // In halves it is rarely too deep.
    let plain = Input { domain: 0, ..i.clone() };
    let read = oracle::rule::exactly(&out, kind, counts(&plain)).map(|_| ());
    tally.note("written out", &read);
    if read.is_ok() {
        questions(&(&i, &text, &out), kind, job(&i), &text, job(&plain), &out);
    }
}
