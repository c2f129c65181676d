//! Yesterday's answer stands (request Q-13): an answer at (then, now) of a log is that of any other log with the same first now steps, refusals too, where neither log has a fault of its own. Asked of
//! the library, on two logs.
use crate::make::{self, Dice, Input};
use crate::{boards, calls, same, Tally};

/// The log up to now with other actions behind it, as many as a log may have.
fn other(d: &mut Dice, i: &Input, now: usize) -> Input {
    let more = d.below(64 - now);
    let tail = (0..more).map(|_| d.below(i.actions) as u8);
    Input { log: i.log[..now].iter().copied().chain(tail).collect(), ..i.clone() }
}

pub fn stands(d: &mut Dice, i: &Input, tally: &mut Tally) {
    let sound = (1..=64).contains(&i.actions) && i.log.len() < 64 && i.log.iter().all(|&a| usize::from(a) < i.actions);
    if !sound {
        return;
    }
    let now = d.below(i.log.len() + 1);
    let today = other(d, i, now);
    let then = d.below(now + 1) + d.below(2) * d.below(2);
    let walk = make::rule(d, 1, i);
    let answer = calls::reach(i, &walk, then, now);
    tally.note("yesterday's answer", &if answer.0 == 0 { Ok(()) } else { Err(answer.0) });
    same("reach, the next day", &(i, &today.log, &walk, then, now), answer, calls::reach(&today, &walk, then, now));
    let test = make::rule(d, 0, i);
    same("verdict, the next day", &(i, &today.log, &test, then, now), calls::verdict(i, &test, then, now), calls::verdict(&today, &test, then, now));
    let tests = boards::text(d, i);
    let room = d.below(70);
    same("board, the next day", &(i, &today.log, &tests, then, now, room), calls::board(i, &tests, then, now, room), calls::board(&today, &tests, then, now, room));
    let p = d.below(now + 1);
    same("state, the next day", &(i, &today.log, p), calls::state(i, p), calls::state(&today, p));
}
