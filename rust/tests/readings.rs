//! Tests that see the whole log (request Q-7), and yesterday's verdict (request Q-13): worked out by hand, asked of the library. On document 01's theory; L is 00 01 02 00, each step possible. Answers as
//! (step, end).
use wyndhopper::{plain_row, Job, Reading, Refusal, Sheet, SheetRoom, FINISH_ROOM, ROW_MASKS};

/// Print 1, print 2 which needs label 1, void both.
const MASKS: [[u32; ROW_MASKS]; 3] = [plain_row(0, 0, 1, 0), plain_row(1, 0, 2, 0), plain_row(0, 0, 0, 3)];
const L: &[u8] = &[0, 1, 2, 0];

/// The same question under both readings.
fn both<T>(log: &[u8], ask: impl Fn(Job) -> T) -> (T, T) {
    let job = Job::new(2, 3, MASKS.as_flattened()).with_log(log);
    (ask(job), ask(job.with_reading(Reading::End)))
}

fn set(log: &[u8], walk: &str, then: usize, now: usize) -> (u64, u64) {
    both(log, |job| job.reach(walk.as_bytes(), then, now).unwrap().set[0])
}

fn verdict(test: &str, then: usize, now: usize) -> (bool, bool) {
    both(L, |job| job.verdict(test.as_bytes(), then, now).unwrap())
}

type Finished = Result<Vec<u8>, Refusal>;

fn finished(log: &[u8], run: &str) -> (Finished, Finished) {
    both(log, |job| {
        let mut out = [0; FINISH_ROOM];
        job.finish(run.as_bytes(), 0, &mut out).map(|count| out[..count].to_vec())
    })
}

#[test]
fn a_walk_question() {
    assert_eq!([4, 2, 1].map(|now| set(L, "?<a011", 1, now)), [(0, 2), (0, 2), (0, 0)]);
    assert_eq!(set(L, "*;n?<a011", 0, 4), (1, 3));
    assert_eq!(set(L, "*;?!<a021n", 0, 4), (31, 7));
    assert_eq!(set(&[0, 1], ";a00;?<a011a01", 0, 2), (0, 4));
}

#[test]
fn a_test_within_a_diamond() {
    assert_eq!([4, 1].map(|now| verdict("<?<a0111", 1, now)), [(false, true), (false, false)]);
}

/// A run's own test keeps its own position, and a test inside its `<` does not.
#[test]
fn a_run() {
    let none = Err(Refusal::NoFinish);
    assert_eq!(finished(&[0, 1], ";a00;?<a011a01"), (none.clone(), none.clone()));
    assert_eq!(finished(&[0, 1], ";a00;a01?<-;a00;?<a011a011"), (none.clone(), Ok(vec![])));
    assert_eq!(finished(&[0, 1], ";a00;?<-;a00?<a0111a01"), (none.clone(), none));
    assert_eq!(both(&[0, 1], |job| job.next(b";a00;a01;?<-;a00;?<a011a011a02")), (Ok(0), Ok(4)));
}

/// Reading a rule and its normal form do not look at the reading.
#[test]
fn a_rule_alone() {
    let normal = |job: Job| {
        let mut out = [0; wyndhopper::RULE_ROOM];
        job.normal(wyndhopper::Kind::Walk, b"-;a00?<a011", &mut out).map(|count| out[..count].to_vec())
    };
    assert_eq!(both(L, normal), (Ok(b";?<a011r00".to_vec()), Ok(b";?<a011r00".to_vec())));
}

/// A sheet of three actions, on which the reading's line is line 10.
fn sheet(version: usize, now: &str) -> String {
    let rows = MASKS.map(|row| format!("act={}\n", row.map(|m| format!("{m:08x}")).join(",")));
    let acts = rows.concat();
    format!("sheet={version}\nfluents=02\nactions=03\ndomain=01\nstart=00000000\n{acts}log=0001\n{now}ask=<-;a00;?<a011a011\nrun=;a00a01\nmore=0\n")
}

fn answer(sheet: &str) -> String {
    let mut out = [0; wyndhopper::ANSWER_ROOM];
    let count = wyndhopper::answer(sheet.as_bytes(), &mut out);
    String::from_utf8(out[..count].to_vec()).unwrap()
}

#[test]
fn sheets() {
    assert_eq!(answer(&sheet(4, "now=step\n")), "verdict=no\nstate=00000003\nfinish=\n");
    assert_eq!(answer(&sheet(4, "now=end\n")), "verdict=yes\nstate=00000003\nfinish=\n");
    assert_eq!(answer(&sheet(3, "")), answer(&sheet(4, "now=step\n")));
    for value in ["End", "", "Step", "steps", "end ", "step,end", "0", "en"] {
        assert_eq!(answer(&sheet(4, &format!("now={value}\n"))), "refused=3,line=10\n", "{value}");
    }
    assert_eq!([sheet(4, ""), sheet(4, "now\n"), sheet(4, "Now=end\n")].map(|s| answer(&s)), ["refused=2,line=10\n"; 3]);
    assert_eq!(answer(&sheet(3, "now=step\n")), "refused=2,line=10\n");
    for (now, reading) in [("now=step\n", Reading::Step), ("now=end\n", Reading::End)] {
        let text = sheet(4, now);
        let mut room = SheetRoom::new();
        assert_eq!(Sheet::read(text.as_bytes(), &mut room).unwrap().job.reading(), reading);
    }
}

/// The verdict of yesterday's log with its now, asked of today's longer log.
#[test]
fn yesterdays_verdict() {
    let test = b"<-;a00;?!<;*na021*n1";
    let asked = |log: &'static [u8], now: usize| both(log, |job| job.verdict(test, now, now));
    assert_eq!(asked(&[0], 1), (Ok(true), Ok(true)));
    assert_eq!(asked(&[0, 2], 1), (Ok(true), Ok(true)));
    assert_eq!(asked(&[0, 2], 2), (Ok(true), Ok(false)));
}
