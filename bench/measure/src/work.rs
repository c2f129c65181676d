//! Work: the families of rules in which nesting used to multiply, with the signs that the quick plain implementation visits and the bound on them.
use crate::case::{ours, quick, visits, Ask, Case};
use crate::clock::{side_by_side, Engine, POINT};
use crate::texts::{and_again, held_up, tests, to_and_fro, worst, MIXED};
use crate::theories::{labels, round};

/// Ours is asked no more in a family behind the first call that takes longer than this, in microseconds: the next may take for ever.
const LONG: f64 = 5_000.0;

fn verdict(test: String) -> Ask {
    Ask::Verdict { test, then: 0 }
}

fn reach(walk: String) -> Ask {
    Ask::Reach { walk, then: 0 }
}

/// Lines `work, family, k, ours, quick, visits, bound`; times in microseconds, `over` where ours was not asked any more.
fn family(name: &str, ks: &[usize], ask: impl Fn(usize) -> Ask) {
    let mut asked = true;
    for &k in ks {
        let c = Case { name: name.into(), theory: labels(64), log: round(63, 64), ask: ask(k) };
        let (signs, bound) = visits(&c).expect("a question that is not refused");
        let engines: &[Engine] = if asked { &[quick, ours] } else { &[quick] };
        let times = side_by_side(&c, engines, POINT);
        let told = times.get(1).map_or("over".into(), |t| format!("{t:.4}"));
        println!("work\t{name}\t{k}\t{told}\t{:.4}\t{signs}\t{bound}", times[0]);
        asked = times.get(1).is_some_and(|&t| t < LONG);
    }
}

pub fn run() {
    family("`?` nested k deep", &[3, 5, 11], |k| verdict(tests(k)));
    family("k stars held up by tests", &[1, 2, 3, 5], |k| verdict(held_up(k)));
    family("`*|n;*u;?!<u1;X?!1` k deep, `n` inside", &[2, 3, 4], |k| reach(and_again(k)));
    family("`*;n*;u` k times, then `n`", &[4], |k| reach(to_and_fro(k)));
    family("`|*n*;;n*?1**|;*;n**u?!1u`", &[1], |_| reach(MIXED.into()));
    family("`<?<*`, k `n` under `|`, `!<n11`", &[123], |k| verdict(worst(k)));
}
