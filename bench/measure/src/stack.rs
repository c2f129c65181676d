//! The deepest call's bytes of stack, for each call: accepted rules of depth 24, and texts of 255 bytes that are refused for their depth.
use std::hint::black_box;

use crate::case::{ours, plain, quick, sheet, Ask, Case, Theory};
use crate::painted::stack_of;
use crate::shapes::Way;
use wyndhopper::plain_row;

/// Action 00 is never possible, action 01 always: a search for a finish goes down to the bound and comes back. One value, so that binders nest at no cost of time.
fn theory() -> Theory {
    Theory { fluents: 1, domain: 1, start: 0, masks: [plain_row(1, 0, 0, 0), plain_row(0, 0, 0, 0)].concat() }
}

fn case(ask: Ask) -> Case {
    Case { name: String::new(), theory: theory(), log: vec![1, 1], ask }
}

/// The deepest of all, with its rule.
#[derive(Default)]
struct Deepest(usize, String);

impl Deepest {
    fn try_call(&mut self, rule: &str, call: &mut dyn FnMut()) {
        let bytes = stack_of(call);
        if bytes > self.0 {
            *self = Deepest(bytes, rule.to_string());
        }
    }

    fn try_case(&mut self, engine: fn(&Case) -> crate::case::Answer, rule: &str, ask: Ask) {
        let c = case(ask);
        self.try_call(rule, &mut || {
            black_box(engine(black_box(&c))).ok();
        });
    }
}

/// A job that never finishes, over this walk.
fn job(walk: &str) -> String {
    format!(";*n;{walk}a00")
}

/// The deepest rules of a way, of each kind: of depth 24, or as deep as 255 bytes go.
fn rules(way: &Way, accepted: bool) -> (String, String, String) {
    if accepted {
        return (way.test(24), way.walk(24, false), job(&way.walk(22, true)));
    }
    let test = Way::longest(255, |d| way.test(d));
    let walk = Way::longest(255, |d| way.walk(d, false));
    let job = Way::longest(255, |d| job(&way.walk(d, true)));
    (test, walk, job)
}

fn texts(deepest: &mut [Deepest; 2], text: &str, kind: wyndhopper::Kind) {
    let t = text.as_bytes();
    let job = wyndhopper::Job::new(1, 2, &[]).with_domain(1);
    deepest[0].try_call(text, &mut || {
        black_box(job.read_rule(kind, black_box(t))).ok();
    });
    let mut out = [0; 255];
    deepest[1].try_call(text, &mut || {
        black_box(job.normal(kind, black_box(t), &mut out)).ok();
    });
}

/// A board of one test: if the test is refused, the call is not.
fn board(deepest: &mut Deepest, test: &str) {
    let (theory, text) = (theory(), format!("{test}\n"));
    let job = wyndhopper::Job::new(theory.fluents, theory.actions(), &theory.masks).with_log(&[1, 1]);
    let mut out = [0; 1];
    deepest.try_call(test, &mut || {
        black_box(job.board(black_box(text.as_bytes()), 2, 2, &mut out)).unwrap();
    });
}

fn whole(deepest: &mut Deepest, ask: &str, run: &str) {
    let text = sheet(&theory(), &[1, 1], ask, run, 6);
    let mut out = [0; wyndhopper::ANSWER_ROOM];
    deepest.try_call(&format!("ask={ask} run={run}"), &mut || {
        black_box(wyndhopper::answer(black_box(text.as_bytes()), &mut out));
    });
}

/// Lines `stack, accepted or refused, call, bytes, rule`, and the plain implementation's for the calls that it has.
fn search(accepted: bool) {
    let word = if accepted { "accepted" } else { "refused" };
    let engines: [(&str, fn(&Case) -> crate::case::Answer); 3] = [("", ours), (", plain", plain), (", quick", quick)];
    let mut asked: [[Deepest; 3]; 3] = Default::default();
    let mut read: [Deepest; 2] = Default::default();
    let mut told = Deepest::default();
    let mut answered = Deepest::default();
    for way in Way::all(3) {
        let (test, walk, run) = rules(&way, accepted);
        for (k, (_, engine)) in engines.iter().enumerate() {
            asked[k][0].try_case(*engine, &test, Ask::Verdict { test: test.clone(), then: 2 });
            asked[k][1].try_case(*engine, &walk, Ask::Reach { walk: walk.clone(), then: 2 });
            asked[k][2].try_case(*engine, &run, Ask::Finish { job: run.clone(), more: 6 });
        }
        texts(&mut read, &test, wyndhopper::Kind::Test);
        texts(&mut read, &walk, wyndhopper::Kind::Walk);
        board(&mut told, &test);
        whole(&mut answered, &test, &run);
    }
    for (k, (of, _)) in engines.iter().enumerate() {
        for (call, d) in ["verdict", "reach", "finish"].iter().zip(&asked[k]) {
            println!("stack\t{word}\t{call}{of}\t{}\t{}", d.0, d.1);
        }
    }
    for (call, d) in ["board", "read_rule", "normal", "answer"].iter().zip([&told, &read[0], &read[1], &answered]) {
        println!("stack\t{word}\t{call}\t{}\t{}", d.0, d.1);
    }
}

pub fn run() {
    search(true);
    search(false);
}
