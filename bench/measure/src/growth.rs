//! Growth: the time of a call as one thing grows and all else stays, ours beside the plain implementation, as it is and quick.
use crate::case::{ours, plain, quick, Ask, Case, Theory};
use crate::clock::{side_by_side, Engine, POINT};
use crate::texts::{diamonds, held_up, in_order, tests, wide_choice, wide_test};
use crate::theories::{each_once, idle, labels, round};

/// A series ends behind the first call that takes longer than this, in microseconds.
const LONG: f64 = 10_000.0;

fn asked(theory: Theory, log: Vec<u8>, ask: Ask) -> Case {
    Case { name: String::new(), theory, log, ask }
}

/// The largest theory with a log of so many steps.
fn full(steps: usize, ask: Ask) -> Case {
    asked(labels(64), round(steps, 64), ask)
}

fn verdict(test: String) -> Ask {
    Ask::Verdict { test, then: 0 }
}

fn reach(walk: String) -> Ask {
    Ask::Reach { walk, then: 0 }
}

fn finish(job: String, more: usize) -> Ask {
    Ask::Finish { job, more }
}

/// Lines `plot, series, x, ours, plain, quick`, in microseconds; `over` for one of the plain two that has taken too long in this series and is not asked any more.
fn series(plot: &str, name: &str, xs: impl Iterator<Item = usize>, case: impl Fn(usize) -> Case) {
    let mut asked: [Option<Engine>; 3] = [Some(ours), Some(plain), Some(quick)];
    for x in xs {
        let engines: Vec<Engine> = asked.iter().flatten().copied().collect();
        let mut times = side_by_side(&case(x), &engines, POINT).into_iter();
        let mut columns = Vec::new();
        for engine in &mut asked {
            let time = engine.and_then(|_| times.next());
            columns.push(time.map_or("over".into(), |t| format!("{t:.4}")));
            engine.take_if(|_| time.is_some_and(|t| t > LONG));
        }
        println!("{plot}\t{name}\t{x}\t{}", columns.join("\t"));
        if asked[0].is_none() {
            break;
        }
    }
}

fn by_log() {
    let since = "<-;a00*n!<;*na011".to_string();
    let star = format!("*{}", wide_choice(253));
    series("log", "verdict of `f00`", 1..=63, |n| full(n, verdict("f00".into())));
    series("log", "verdict of `<-;a00*n!<;*na011`", 1..=63, |n| full(n, verdict(since.clone())));
    series("log", "verdict of `<*n` 20 deep", 1..=63, |n| full(n, verdict(diamonds(20))));
    series("log", "reach, star of a choice of 253 bytes", 1..=63, |n| full(n, reach(star.clone())));
}

fn by_bytes() {
    series("bytes", "verdict, `&` of fluents", 1..=255, |b| full(63, verdict(wide_test(b))));
    series("bytes", "reach, `|` of actions", 1..=255, |b| full(63, reach(wide_choice(b))));
    series("bytes", "reach, star of `|` of actions", (2..=254).step_by(2), |b| full(63, reach(format!("*{}", wide_choice(b - 1)))));
}

fn by_depth() {
    series("depth", "verdict of `!` over `f00`", 1..=24, |d| full(63, verdict("!".repeat(d - 1) + "f00")));
    series("depth", "verdict of `<n` over `1`", 1..=24, |d| full(63, verdict("<n".repeat(d - 1) + "1")));
    series("depth", "reach of `;n` over `n`", 1..=24, |d| full(63, reach(";n".repeat(d - 1) + "n")));
    series("depth", "reach of `-` over `n`", 1..=24, |d| full(63, reach("-".repeat(d - 1) + "n")));
}

fn by_nesting() {
    series("nested", "verdict of `<*n` k deep, then `f00`", 1..=22, |k| full(63, verdict(diamonds(k))));
    series("nested", "reach of k `*` before `n`", 1..=23, |k| full(63, reach("*".repeat(k) + "n")));
    series("tests", "verdict of `?` nested k deep", 1..=11, |k| full(63, verdict(tests(k))));
    series("tests", "verdict of k stars held up by tests", 1..=5, |k| full(63, verdict(held_up(k))));
}

fn by_actions() {
    series("actions", "labels in order, six missing, more 6", 1..=64, |a| {
        let all = a.min(63);
        asked(labels(a), round(all.saturating_sub(6), a), finish(in_order(all), 6))
    });
    series("actions", "each label once, any order, more 3", 1..=32, |a| asked(each_once(a), vec![], finish(";*n?&f00!f00".into(), 3)));
    series("actions", "no way out, more 1", 1..=64, |a| asked(idle(a), vec![], finish(";*n?f00".into(), 1)));
    series("actions", "no way out, more 2", 1..=64, |a| asked(idle(a), vec![], finish(";*n?f00".into(), 2)));
}

fn by_more() {
    let any_order = ";*n?&f00&f01&f02&f03&f04f05";
    series("more", "labels in order, 64 actions, six missing", 0..=6, |m| asked(labels(64), round(57, 64), finish(in_order(63), m)));
    series("more", "six labels in any order", 0..=6, |m| asked(each_once(6), vec![], finish(any_order.into(), m)));
    for a in [2, 4, 8, 64] {
        series("more", &format!("no way out, {a} actions"), 0..=6, |m| asked(idle(a), vec![], finish(";*n?f00".into(), m)));
    }
}

pub fn run() {
    by_log();
    by_bytes();
    by_depth();
    by_nesting();
    by_actions();
    by_more();
}
