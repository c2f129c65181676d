//! Compares every call of the proved library with the second implementation, on seeded inputs: answers, refusals, every slot, and every lent byte before and after, through the
//! exported functions; and the safe Rust crate's answers; and a rule with variables with the same rule written out, and a log with another that is the same up to now. `compare [SEED [COUNT]]`. It ends with a line 'N inputs compared, 0 differ' or shows the first input that differs.
mod boards;
mod calls;
mod make;
mod stands;
mod tallies;
mod written;

use calls::{Lent, SheetLent};
use make::{Dice, Input};
use oracle::rule::{Counts, Kind as Plain};
use std::collections::BTreeMap;
use wyndhopper::{Job, Kind, Reading, Refusal, Sheet, SheetRoom};

const KINDS: [(Kind, Plain); 3] = [(Kind::Test, Plain::Test), (Kind::Walk, Plain::Walk), (Kind::Run, Plain::Job)];

/// How often each call was answered and how often it gave each refusal.
#[derive(Default)]
struct Tally(BTreeMap<(&'static str, u8), usize>);

impl Tally {
    fn note<T>(&mut self, call: &'static str, answer: &Result<T, u8>) {
        *self.0.entry((call, answer.as_ref().err().copied().unwrap_or(0))).or_default() += 1;
    }

    /// The same, and once more of all calls together where the rule has a sign of variables.
    fn note_rule<T>(&mut self, call: &'static str, rule: &[u8], answer: &Result<T, u8>) {
        self.note(call, answer);
        if rule.iter().any(|b| b"pebsg".contains(b)) {
            self.note("rules with variables", answer);
        }
    }

    fn show(&self) {
        for call in ["state", "reach", "verdict", "board", "first refused test of a board", "possible", "next", "tally", "append", "happened", "finish", "finish with actions", "rules with variables", "written out", "yesterday's answer", "read_rule", "normal", "read_sheet", "answer"] {
            let of = self.0.iter().filter(|((c, _), _)| *c == call);
            let counts: Vec<String> = of.map(|((_, n), k)| if *n == 0 { format!("answered {k}") } else { format!("refused {n}: {k}") }).collect();
            println!("{call}: {}", counts.join(", "));
        }
    }
}

fn same<T: PartialEq + std::fmt::Debug>(what: &str, input: &dyn std::fmt::Debug, ours: T, plain: T) {
    if ours != plain {
        eprintln!("{what} differs\n  input: {input:?}\n  ours:  {ours:?}\n  plain: {plain:?}");
        std::process::exit(1);
    }
}

/// The reading with this number, which the safe crate has for two of them alone.
fn reading(number: usize) -> Option<Reading> {
    [Reading::Step, Reading::End].get(number).copied()
}

fn job(i: &Input) -> Job<'_> {
    let job = Job::new(i.fluents, i.actions, &i.masks).with_start(i.start).with_log(&i.log).with_domain(i.domain);
    job.with_reading(reading(i.reading).unwrap_or(Reading::Step))
}

/// The safe crate's answer is the second implementation's, where it can be asked.
fn same_safe<T: PartialEq + std::fmt::Debug>(what: &str, i: &Input, input: &dyn std::fmt::Debug, safe: Result<T, Refusal>, plain: Result<T, u8>) {
    if reading(i.reading).is_some() {
        same(what, input, numbered(safe), plain);
    }
}

fn counts(i: &Input) -> Counts {
    Counts { fluents: i.fluents, actions: i.actions, domain: i.domain }
}

/// The number of a refusal, as the second implementation has it.
fn numbered<T>(answer: Result<T, Refusal>) -> Result<T, u8> {
    answer.map_err(Refusal::number)
}

/// The refusal's number, a slot's value and the lent output after a call that writes bytes.
fn written(room: usize, answer: &Result<Vec<u8>, u8>) -> (u8, usize, Vec<u8>) {
    match answer {
        Ok(bytes) => (0, bytes.len(), Lent::new(room).with(bytes)),
        Err(n) => (*n, 0, Lent::new(room).with(&[])),
    }
}

fn place(d: &mut Dice, log: &[u8]) -> usize {
    if d.once_in(30) {
        d.pick(&[64, 65, usize::MAX])
    } else {
        d.below(log.len() + 2)
    }
}

fn questions(d: &mut Dice, i: &Input, tally: &mut Tally) {
    let p = place(d, &i.log);
    let plain = oracle::ask::state(i.fluents, i.actions, i.start, &i.masks, &i.log, p);
    tally.note("state", &plain);
    same("state", &(i, p), calls::state(i, p), plain.map_or_else(|n| (n, 0), |s| (0, s)));
    same("state, safe", &(i, p), numbered(job(i).state(p)), plain);

    let now = place(d, &i.log);
    let then = if now < 64 { d.below(now + 1) + d.below(2) * d.below(2) } else { 0 };
    let walk = make::rule(d, 1, i);
    let plain = oracle::ask::reach(counts(i), i.start, i.reading, &i.masks, &i.log, &walk, then, now).map(|r| (r.set, r.count, r.earliest));
    tally.note_rule("reach", &walk, &plain);
    let slots = plain.map_or_else(|n| (n, 0, 0, 64), |(set, count, earliest)| (0, set, count, earliest));
    same("reach", &(i, &walk, then, now), calls::reach(i, &walk, then, now), slots);
    let safe = job(i).reach(&walk, then, now).map(|r| (r.set[0], r.count as u32, r.earliest as u32));
    same_safe("reach, safe", i, &(i, &walk, then, now), safe, plain);

    let test = make::rule(d, 0, i);
    let plain = oracle::ask::verdict(counts(i), i.start, i.reading, &i.masks, &i.log, &test, then, now);
    tally.note_rule("verdict", &test, &plain);
    same("verdict", &(i, &test, then, now), calls::verdict(i, &test, then, now), plain.map_or_else(|n| (n, 0), |yes| (0, u8::from(yes))));
    same_safe("verdict, safe", i, &(i, &test, then, now), job(i).verdict(&test, then, now), plain);
}

/// What a scheduler asks before the next label.
fn onward(d: &mut Dice, i: &Input, tally: &mut Tally) {
    let p = place(d, &i.log);
    let action = if d.once_in(20) { d.pick(&[64, 65, usize::MAX]) } else { d.below(i.actions.clamp(1, 100) + 1) };
    let plain = oracle::next::possible(i.fluents, i.actions, i.start, &i.masks, &i.log, action, p);
    tally.note("possible", &plain);
    same("possible", &(i, action, p), calls::possible(i, action, p), plain.map_or_else(|n| (n, 0), |yes| (0, u8::from(yes))));
    same("possible, safe", &(i, action, p), numbered(job(i).possible(action, p)), plain);

    let (run, i) = make::run(d, i, 4);
    let plain = oracle::next::next(counts(&i), i.start, i.reading, &i.masks, &i.log, &run);
    tally.note_rule("next", &run, &plain);
    same("next", &(&i, &run), calls::next(&i, &run), plain.map_or_else(|n| (n, 0), |set| (0, set)));
    same_safe("next, safe", &i, &(&i, &run), job(&i).next(&run), plain);
}

fn texts(d: &mut Dice, i: &Input, tally: &mut Tally) {
    let k = d.below(3);
    let (kind, plain_kind) = KINDS[k];
    let text = make::rule(d, k as u8, i);
    let plain = oracle::rule::read(&text, plain_kind, counts(i));
    tally.note_rule("read_rule", &text, &plain);
    same("read_rule", &(i, &text, kind), calls::read_rule(i, k as u8, &text), plain.map_or_else(|n| (n, text.len()), |rest| (0, rest)));
    let safe = job(i).read_rule(kind, &text).map(|rest| text.len() - rest.len());
    same("read_rule, safe", &(i, &text, kind), numbered(safe), plain);

    let room = d.pick(&[0, 1, 5, 20, 255, 256]);
    let plain = oracle::normal::normal(&text, plain_kind, counts(i), room);
    tally.note_rule("normal", &text, &plain);
    same("normal", &(i, &text, kind, room), calls::normal(i, k as u8, &text, room), written(room, &plain));
    let mut out = vec![0; room];
    let safe = job(i).normal(kind, &text, &mut out).map(|count| out[..count].to_vec());
    same("normal, safe", &(i, &text, kind, room), numbered(safe), plain);

    let no_kind = d.pick(&[3, 4, 255]);
    let number = if counts(i).out_of_range() { 3 } else { 6 };
    same("read_rule, no kind", &(i, &text, no_kind), calls::read_rule(i, no_kind, &text), (number, text.len()));
    same("normal, no kind", &(i, &text, no_kind, room), calls::normal(i, no_kind, &text, room), written(room, &Err(number)));
}

fn finishes(d: &mut Dice, i: &Input, tally: &mut Tally) {
    let more = if d.once_in(20) { 7 } else if i.actions > 6 { d.below(3) } else { d.below(5) };
    let (run, i) = make::run(d, i, more);
    finish(d, &i, &run, more, tally);
    let (run, i, more) = make::searched(d);
    finish(d, &i, &run, more, tally);
}

fn finish(d: &mut Dice, i: &Input, run: &[u8], more: usize, tally: &mut Tally) {
    let room = more + d.below(3) - d.below(2).min(more);
    let plain = oracle::finish::finish(counts(i), i.start, i.reading, &i.masks, &i.log, run, more, room);
    let call = if plain.as_ref().is_ok_and(|w| !w.is_empty()) { "finish with actions" } else { "finish" };
    tally.note_rule(call, run, &plain);
    same("finish", &(i, run, more, room), calls::finish(i, run, more, room), written(room, &plain));
    let mut out = vec![0; room];
    let safe = job(i).finish(run, more, &mut out).map(|count| out[..count].to_vec());
    same_safe("finish, safe", i, &(i, run, more, room), safe, plain);
}

fn sheets(d: &mut Dice, tally: &mut Tally) {
    let sheet = make::sheet(d);
    let plain = oracle::sheet::answer(&sheet).into_bytes();
    let refused = plain.strip_prefix(b"refused=").map(|rest| rest.iter().take_while(|b| b.is_ascii_digit()).fold(0, |n, b| 10 * n + (b - b'0')));
    tally.note("answer", &refused.map_or(Ok(()), Err));
    let text = String::from_utf8_lossy(&sheet).into_owned();
    same("answer", &text, calls::answer(&sheet), (plain.len(), Lent::new(wyndhopper::ANSWER_ROOM).with(&plain)));
    let mut out = [0; wyndhopper::ANSWER_ROOM];
    let count = wyndhopper::answer(&sheet, &mut out);
    same("answer, safe", &text, out[..count].to_vec(), plain);
    read_sheets(&sheet, &text, tally);
}

fn read_sheets(sheet: &[u8], text: &str, tally: &mut Tally) {
    let plain = oracle::sheet::read(sheet);
    tally.note("read_sheet", &plain.as_ref().map_err(|fault| fault.0));
    let mut room = SheetRoom::new();
    let safe = Sheet::read(sheet, &mut room);
    match plain {
        Err((number, line)) => {
            same("read_sheet", &text, calls::read_sheet(sheet), (number, SheetLent::with(&[], &[], [line, 0, 0, 0, 0, 0, 0, 0, 0, 0, 0, 0])));
            same("read_sheet, safe", &text, safe.map(|_| ()).map_err(|f| (f.refusal.number(), f.line)), Err((number, line)));
            same("room of a refused sheet", &text, room, SheetRoom::new());
        }
        Ok(r) => {
            let masks: Vec<u32> = r.theory.masks.iter().flat_map(|m| m.row()).collect();
            let (t, steps) = (&r.theory, r.log.len());
            let numbers = [0, t.fluents, t.actions, r.domain, t.start as usize, steps, r.reading as usize, r.ask.0, r.ask.1, r.run.0, r.run.1, r.more];
            same("read_sheet", &text, calls::read_sheet(sheet), (0, SheetLent::with(&masks, &r.log, numbers)));
            let s = safe.expect("a sheet that is not refused");
            let ours = (s.job, s.ask, s.run, s.more);
            let plain_job = Job::new(t.fluents, t.actions, &masks).with_domain(r.domain).with_start(t.start).with_log(&r.log);
            let plain_job = plain_job.with_reading(reading(r.reading as usize).expect("one of two"));
            same("read_sheet, safe", &text, ours, (plain_job, &sheet[r.ask.0..r.ask.1], &sheet[r.run.0..r.run.1], r.more));
        }
    }
}

/// Three laws, from outside: the converse's pairs, the normal form's pairs, and that its form is its own normal form.
fn laws(d: &mut Dice, i: &Input) {
    let mut walk = make::rule(d, 1, i);
    walk.truncate(250);
    let n = i.log.len();
    let turned: Vec<u8> = [b"-".to_vec(), walk.clone()].concat();
    let mut out = vec![0; wyndhopper::RULE_ROOM];
    let normal = job(i).normal(Kind::Walk, &walk, &mut out).map(|count| out[..count].to_vec());
    let back: Vec<_> = (0..=n).map(|q| job(i).reach(&turned, q, n)).collect();
    for p in 0..=n.min(63) {
        let Ok(forward) = job(i).reach(&walk, p, n) else { return };
        for (q, back) in back.iter().enumerate() {
            if let Ok(back) = back {
                same("converse", &(i, &walk, p, q), forward.holds(q), back.holds(p));
            }
        }
        let form = normal.clone().expect("an accepted walk has a normal form");
        same("normal form's pairs", &(i, &walk, p), Ok(forward), job(i).reach(&form, p, n));
    }
    if let Ok(form) = normal {
        let mut again = vec![0; wyndhopper::RULE_ROOM];
        let count = job(i).normal(Kind::Walk, &form, &mut again);
        same("normal form twice", &(i, &walk), count.map(|c| again[..c].to_vec()), Ok(form));
    }
}

fn main() {
    let mut args = std::env::args().skip(1).map(|a| a.parse::<u64>().expect("a number"));
    let seed = args.next().unwrap_or(1);
    let count = args.next().unwrap_or(20_000);
    let mut tally = Tally::default();
    for k in 0..count {
        let mut d = Dice::new(seed.wrapping_mul(1_000_003).wrapping_add(k));
        let i = make::input(&mut d);
        questions(&mut d, &i, &mut tally);
        boards::boards(&mut d, &i, &mut tally);
        onward(&mut d, &i, &mut tally);
        tallies::tallies(&mut d, &i, &mut tally);
        texts(&mut d, &i, &mut tally);
        finishes(&mut d, &i, &mut tally);
        written::written(&mut d, &i, &mut tally);
        stands::stands(&mut d, &i, &mut tally);
        sheets(&mut d, &mut tally);
        if k % 16 == 0 {
            laws(&mut d, &i);
        }
    }
    tally.show();
    println!("{count} inputs compared, 0 differ (seed {seed})");
}
