//! The search for a finish: families of jobs with the turns that it takes, a turn being one pass over the job.
use crate::case::{ours, quick, turns, Ask, Case, Theory};
use crate::clock::{side_by_side, Effort, Engine, POINT};
use crate::factory;
use crate::texts::{after_any, in_any_order};
use crate::theories::{each_once, idle, labels, round, stations};

/// Ours is asked no more in a family behind the first call that takes longer than this, in microseconds: the next may take for ever.
const LONG: f64 = 5_000.0;
/// The plain implementation's turns are counted up to here.
const MANY: usize = 20_000;
const JOBS: usize = 600;
const ONCE: Effort = Effort { turn: 0.0001, turns: 4 };

fn finish(theory: Theory, log: Vec<u8>, job: String) -> Case {
    Case { name: String::new(), theory, log, ask: Ask::Finish { job, more: 6 } }
}

/// Lines `search, family, k, ours, quick, turns of plain, turns of quick`; times in microseconds, `over` for what was not asked or counted any more.
fn family(name: &str, ks: &[usize], case: impl Fn(usize) -> Case) {
    let mut asked = true;
    for &k in ks {
        let c = case(k);
        let (plain, quicker) = turns(&c, MANY).expect("a job that is not refused");
        let engines: &[Engine] = if asked { &[quick, ours] } else { &[quick] };
        let times = side_by_side(&c, engines, POINT);
        let told = times.get(1).map_or("over".into(), |t| format!("{t:.4}"));
        let counted = if plain == MANY { "over".into() } else { plain.to_string() };
        println!("search\t{name}\t{k}\t{told}\t{:.4}\t{counted}\t{quicker}", times[0]);
        asked = times.get(1).is_some_and(|&t| t < LONG);
    }
}

/// One line `factory, jobs, finished, plain's turns over the limit, the limit, quick's turns (median, most), quick's longest time`.
fn factory_jobs() {
    let mut counts = Vec::new();
    let (mut finished, mut many, mut longest) = (0, 0, 0f64);
    for c in factory::jobs(JOBS) {
        let (plain, quicker) = turns(&c, MANY).expect("a job that is not refused");
        finished += usize::from(quick(&c).is_ok());
        many += usize::from(plain == MANY);
        longest = longest.max(side_by_side(&c, &[quick], ONCE)[0]);
        counts.push(quicker);
    }
    counts.sort_unstable();
    println!("factory\t{JOBS}\t{finished}\t{many}\t{MANY}\t{}\t{}\t{longest:.4}", counts[JOBS / 2], counts[JOBS - 1]);
}

pub fn run() {
    let voided = after_any(&[5, 0, 1, 2, 3, 4]);
    let last: Vec<usize> = (50..56).collect();
    family("no way out, k actions", &[2, 4, 8, 64], |a| finish(idle(a), vec![], ";*n?f00".into()));
    family("`*n` first: void and five labels, k actions", &[6, 8, 16, 24, 64], |a| finish(stations(a), vec![0, 1], voided.clone()));
    family("`*n` first: k labels missing, 64 actions, log of 50", &[1, 2, 3, 6], |k| finish(labels(64), round(50, 64), after_any(&last[..k])));
    family("four labels of k in any order", &[4, 6, 8, 12, 16, 32], |a| finish(each_once(a), vec![], in_any_order(4)));
    family("six labels of k in any order", &[6, 7, 8, 10, 12], |a| finish(each_once(a), vec![], in_any_order(6)));
    factory_jobs();
}
