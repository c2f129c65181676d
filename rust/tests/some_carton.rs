//! Variables (request Q-2): worked out by hand, asked of the library. Three actions: print 1, print 2 (needs label 1), void both. L is 00 01 02 00, E is empty; now is the end unless given.
use wyndhopper::{plain_row, Job, Kind, Refusal, Tally, FINISH_ROOM, ROW_MASKS, RULE_ROOM};

const MASKS: [[u32; ROW_MASKS]; 3] = [plain_row(0, 0, 1, 0), plain_row(1, 0, 2, 0), plain_row(0, 0, 0, 3)];
const L: &[u8] = &[0, 1, 2, 0];
const E: &[u8] = &[];

fn job(log: &[u8], domain: usize) -> Job<'_> {
    Job::new(2, 3, MASKS.as_flattened()).with_log(log).with_domain(domain)
}

fn set(domain: usize, walk: &str, then: usize) -> Result<u64, Refusal> {
    job(L, domain).reach(walk.as_bytes(), then, L.len()).map(|r| r.set[0])
}

fn verdict(domain: usize, test: &str, at: usize) -> Result<bool, Refusal> {
    job(L, domain).verdict(test.as_bytes(), at, at)
}

fn finished(log: &[u8], domain: usize, run: &str, more: usize) -> Result<Vec<u8>, Refusal> {
    let mut out = [0; FINISH_ROOM];
    job(log, domain).finish(run.as_bytes(), more, &mut out).map(|count| out[..count].to_vec())
}

fn form(domain: usize, walk: &str) -> Result<String, Refusal> {
    let mut out = [0; RULE_ROOM];
    let count = job(E, domain).normal(Kind::Walk, walk.as_bytes(), &mut out)?;
    Ok(String::from_utf8(out[..count].to_vec()).unwrap())
}

#[test]
fn walks_for_some_value() {
    assert_eq!([set(3, "pvb00v", 0), set(3, "pvb00v", 1)], [Ok(2), Ok(4)]);
    assert_eq!([set(3, "*pvb00v", 0), set(3, "pv*b00v", 0)], [Ok(31), Ok(3)]);
    assert_eq!([set(2, "pvb01v", 1), set(3, "pvb01v", 1)], [Ok(4), Err(Refusal::LacksName)]);
    assert_eq!([set(2, "pv;b00vb00v", 0), set(2, ";pvb00vpvb00v", 0), set(2, "pvpw;b00vb00w", 0)], [Ok(0), Ok(4), Ok(4)]);
    assert_eq!(set(3, "pvpv;b00vb00v", 0), Ok(0));
}

#[test]
fn tests_for_some_value() {
    assert_eq!([0, 1, 3].map(|at| verdict(2, "evg00v", at)), [Ok(false), Ok(true), Ok(false)]);
    assert_eq!(verdict(3, "evg00v", 0), Err(Refusal::LacksName));
    let deep = |signs: usize| verdict(2, &("!".repeat(signs) + "evg00v"), 0);
    assert_eq!([deep(22), deep(23)], [Ok(false), Err(Refusal::TooDeep)]);
}

#[test]
fn refusals() {
    assert_eq!([set(2, "b00v", 0), set(0, "b00v", 0), set(2, "b02v", 0)], [Err(Refusal::Unbound), Err(Refusal::BadRule), Err(Refusal::LacksName)]);
    assert_eq!([set(2, "pvb00w", 0), set(2, ";pvb00vb00v", 0)], [Err(Refusal::Unbound); 2]);
    assert_eq!([set(16, "a00", 0), set(17, "a00", 0), set(usize::MAX, "a00", 0)], [Ok(2), Err(Refusal::BadNumber), Err(Refusal::BadNumber)]);
    assert_eq!(["pza00", "b0v", "b00"].map(|text| set(2, text, 0)), [Err(Refusal::BadRule); 3]);
    // 13 stands between 9 and 10.
    assert_eq!(finished(E, 2, ";ub00v", 1), Err(Refusal::Backward));
    assert_eq!(job(L, 2).reach(b"b00v", 0, 5).map(|r| r.count), Err(Refusal::Unbound));
    assert_eq!(job(E, 2).finish(b"b00v", 1, &mut []), Err(Refusal::Unbound));
    assert_eq!(job(E, 2).normal(Kind::Walk, b"b00v", &mut []), Err(Refusal::Unbound));
    assert_eq!(job(E, 2).read_rule(Kind::Walk, b"b00vrest"), Err(Refusal::Unbound));
    assert_eq!(job(E, 2).read_rule(Kind::Walk, b"pvb00vrest"), Ok(&b"rest"[..]));
}

#[test]
fn runs_and_what_comes_next() {
    assert_eq!([finished(E, 2, "s00v", 1), finished(E, 2, "pvs00v", 1)], [Err(Refusal::Backward), Err(Refusal::Backward)]);
    assert_eq!(finished(E, 3, "pv?<s00v1", 1), Err(Refusal::NoFinish));
    assert_eq!([finished(E, 3, "pvb00v", 1), finished(E, 2, "pvb01v", 6)], [Ok(vec![0]), Ok(vec![2])]);
    assert_eq!([job(E, 2).next(b"pvb00v"), job(&[0], 2).next(b"*pvb00v"), job(&[0], 2).next(b"pv;b00vb01v")], [Ok(1), Ok(3), Ok(2)]);
}

#[test]
fn normal_forms() {
    let forms = [("-pvb00v", "pvs00v"), ("-pv;b00va01", "pv;r01s00v"), ("-pvpw;b00vb00w", "pvpw;s00ws00v"), ("-pv?<-b00v1", "pv?<s00v1")];
    for (walk, normal) in forms {
        assert_eq!(form(3, walk).as_deref(), Ok(normal));
    }
    assert_eq!(form(1, "-s00v"), Err(Refusal::Unbound));
}

/// A call without a rule does not look at the domain.
#[test]
fn calls_without_a_rule() {
    let odd = job(L, usize::MAX);
    assert_eq!((odd.state(2), odd.possible(1, 1)), (Ok(3), Ok(true)));
    let mut tally = Tally::of(&odd).unwrap();
    assert_eq!(Tally::of(&job(L, 0)), Ok(tally));
    assert_eq!((tally.append(&odd, 1), tally.happened(&odd, 1)), (Ok(()), Ok(true)));
}
