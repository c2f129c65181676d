//! Document 02, Q-2: variables. The run cases, on document 01's theory (print 1, print 2 which needs label 1, void both); L is 00 01 02 00, E is empty, now is the end unless given.
use oracle::ask;
use oracle::finish;
use oracle::next;
use oracle::normal;
use oracle::rule::{exactly, read, Counts, Kind};
use oracle::sheet::answer;
use oracle::written::written_out;

/// Print 1, print 2 which needs label 1, void both.
const MASKS: [u32; 30] = [0, 0, 0, 0, 1, 0, 0, 0, 0, 0, 1, 0, 0, 0, 2, 0, 0, 0, 0, 0, 0, 0, 0, 0, 0, 3, 0, 0, 0, 0];
const L: &[u8] = &[0, 1, 2, 0];
const E: &[u8] = &[];

fn counts(domain: usize) -> Counts {
    Counts { fluents: 2, actions: 3, domain }
}

/// The set that a walk leads to, or the refusal.
fn set(domain: usize, walk: &str, then: usize) -> Result<u64, u8> {
    ask::reach(counts(domain), 0, 0, &MASKS, L, walk.as_bytes(), then, L.len()).map(|r| r.set)
}

fn verdict(domain: usize, test: &str, at: usize) -> Result<bool, u8> {
    ask::verdict(counts(domain), 0, 0, &MASKS, L, test.as_bytes(), at, at)
}

fn finished(log: &[u8], domain: usize, job: &str, more: usize) -> Result<Vec<u8>, u8> {
    finish::finish(counts(domain), 0, 0, &MASKS, log, job.as_bytes(), more, 6)
}

fn form(domain: usize, walk: &str) -> Result<String, u8> {
    normal::normal(walk.as_bytes(), Kind::Walk, counts(domain), 255).map(|bytes| String::from_utf8(bytes).unwrap())
}

#[test]
fn walks() {
    assert_eq!([set(3, "pvb00v", 0), set(3, "pvb00v", 1)], [Ok(2), Ok(4)]);
    assert_eq!([set(3, "*pvb00v", 0), set(3, "pv*b00v", 0)], [Ok(31), Ok(3)]);
    assert_eq!([set(2, "pvb01v", 1), set(3, "pvb01v", 1)], [Ok(4), Err(7)]);
    assert_eq!([set(2, "pv;b00vb00v", 0), set(2, ";pvb00vpvb00v", 0), set(2, "pvpw;b00vb00w", 0)], [Ok(0), Ok(4), Ok(4)]);
    assert_eq!(set(3, "pvpv;b00vb00v", 0), Ok(0));
}

#[test]
fn refusals_of_a_rule() {
    assert_eq!([set(2, "b00v", 0), set(0, "b00v", 0), set(2, "b02v", 0)], [Err(13), Err(6), Err(7)]);
    assert_eq!([set(2, "pvb00w", 0), set(2, ";pvb00vb00v", 0)], [Err(13), Err(13)]);
    assert_eq!([set(16, "a00", 0), set(17, "a00", 0), set(usize::MAX, "a00", 0)], [Ok(2), Err(3), Err(3)]);
    for text in ["pza00", "b0v", "b00", "pa00", "p", "pv", "b00z", "bv00", "pvb00v "] {
        assert_eq!(set(2, text, 0), Err(6), "{text}");
    }
    for text in ["e", "ev", "eza", "ez1", "g00", "g0v", "g00v1", "pv1"] {
        assert_eq!(verdict(2, text, 0), Err(6), "{text}");
    }
    // Every new sign is 6 where there are no variables, bound or not.
    for text in ["pva00", "b00v", "s00v", "pvb00v", "?ev1", "?g00v"] {
        assert_eq!(set(0, text, 0), Err(6), "{text}");
    }
    // 13 comes after 9 and before 10, 11 and 12.
    assert_eq!(finished(E, 2, ";ub00v", 1), Err(9));
    let late = |text: &[u8], now| ask::reach(counts(2), 0, 0, &MASKS, L, text, 0, now).map(|r| r.set);
    assert_eq!([late(b"b00v", 5), late(b"a00", 5)], [Err(13), Err(10)]);
    assert_eq!(finish::finish(counts(2), 0, 0, &MASKS, E, b"b00v", 1, 0), Err(13));
    assert_eq!(finish::finish(counts(2), 0, 0, &MASKS, E, b"a00", 1, 0), Err(12));
    assert_eq!(normal::normal(b"b00v", Kind::Walk, counts(2), 0), Err(13));
    assert_eq!(read(b"b00vrest", Kind::Walk, counts(2)), Err(13));
    assert_eq!(read(b"pvb00vrest", Kind::Walk, counts(2)), Ok(6));
    assert_eq!([read(b"a00pv", Kind::Walk, counts(0)), read(b"pva00", Kind::Walk, counts(0))], [Ok(3), Err(6)]);
}

#[test]
fn tests_and_depth() {
    assert_eq!([0, 1, 3].map(|at| verdict(2, "evg00v", at)), [Ok(false), Ok(true), Ok(false)]);
    assert_eq!(verdict(3, "evg00v", 0), Err(7));
    let deep = |signs: usize| verdict(2, &("!".repeat(signs) + "evg00v"), 0);
    assert_eq!([deep(22), deep(23)], [Ok(false), Err(8)]);
}

#[test]
fn jobs() {
    assert_eq!([finished(E, 2, "s00v", 1), finished(E, 2, "pvs00v", 1)], [Err(9), Err(9)]);
    assert_eq!(finished(E, 3, "pv?<s00v1", 1), Err(11));
    assert_eq!(finished(E, 3, "pvb00v", 1), Ok(vec![0]));
    assert_eq!(finished(E, 2, "pvb01v", 6), Ok(vec![2]));
    let next = |domain, log: &[u8], job: &str| next::next(counts(domain), 0, 0, &MASKS, log, job.as_bytes());
    assert_eq!([next(2, E, "pvb00v"), next(2, &[0], "*pvb00v"), next(2, E, "pvb01v")], [Ok(1), Ok(3), Ok(4)]);
    assert_eq!(next(2, &[0], "pv;b00vb01v"), Ok(2));
    assert_eq!(next(17, E, "a00"), Err(3));
}

#[test]
fn normal_forms() {
    assert_eq!(form(3, "-pvb00v").unwrap(), "pvs00v");
    assert_eq!(form(3, "-pv;b00va01").unwrap(), "pv;r01s00v");
    assert_eq!(form(3, "-pvpw;b00vb00w").unwrap(), "pvpw;s00ws00v");
    assert_eq!(form(3, "-pv?<-b00v1").unwrap(), "pv?<s00v1");
    assert_eq!(form(3, "-pv?ew<-;b00vs00w1").unwrap(), "pv?ew<;b00ws00v1");
    assert_eq!(form(1, "-s00v"), Err(13));
}

/// Document 01's sheet with these lines from the top.
fn sheet(top: &str, ask: &str) -> String {
    let act = "act=00000000,00000000,00000001,00000000\nact=00000001,00000000,00000002,00000000\nact=00000000,00000000,00000000,00000003\n";
    answer(format!("{top}start=00000000\n{act}log=00010200\nask={ask}\nrun=;a00;a01;a02;a00a01\nmore=2\n").as_bytes())
}

#[test]
fn sheets() {
    let top = |version: &str, domain: &str| format!("sheet={version}\nfluents=02\nactions=03\n{domain}");
    assert_eq!(sheet(&top("2", "domain=02\n"), "evg00v"), "verdict=yes\nstate=00000001\nfinish=01\n");
    assert_eq!(sheet(&top("2", "domain=02\n"), "g00v"), "refused=13,line=10\n");
    assert_eq!(sheet(&top("2", "domain=03\n"), "evg00v"), "refused=7,line=10\n");
    assert_eq!(sheet(&top("1", ""), "evg00v"), "refused=6,line=9\n");
    assert_eq!(sheet(&top("2", ""), "1"), "refused=2,line=4\n");
    assert_eq!(sheet(&top("1", "domain=02\n"), "1"), "refused=2,line=4\n");
    for domain in ["1", "00", "17", "", "016", "0x", "02 "] {
        assert_eq!(sheet(&top("2", &format!("domain={domain}\n")), "1"), "refused=3,line=4\n", "{domain}");
    }
    for domain in ["01", "16"] {
        assert_eq!(sheet(&top("2", &format!("domain={domain}\n")), "1"), "verdict=yes\nstate=00000001\nfinish=01\n", "{domain}");
    }
    assert_eq!(sheet("sheet=9\n", "1"), "refused=3,line=1\n");
}

/// The longest sheets of version 1 and 2 have 3,263 and 3,273 bytes, and are accepted.
#[test]
fn the_longest_sheets() {
    let act = "act=00000000,00000000,00000000,00000000\n".repeat(64);
    // 255 bytes of a sign with two parts, in eights
    let rule = |sign: &str, leaf: &str| {
        let two = format!("{sign}{leaf}{leaf}");
        format!("{sign}{sign}{two}{two}").repeat(15) + &format!("{sign}{two}{two}")
    };
    let longest = |top: &str| {
        let (log, ask, run) = ("00".repeat(63), rule("&", "f00"), rule("|", "a00"));
        format!("{top}start=00000000\n{act}log={log}\nask={ask}\nrun={run}\nmore=6\n").into_bytes()
    };
    let (one, two) = ("sheet=1\nfluents=32\nactions=64\n", "sheet=2\nfluents=32\nactions=64\ndomain=16\n");
    let right = "verdict=no\nstate=00000000\nfinish=none\n";
    assert_eq!((longest(one).len(), longest(two).len()), (3263, 3273));
    assert_eq!((answer(&longest(one)), answer(&longest(two))), (right.to_string(), right.to_string()));
}

/// Every walk and test here leads where the rule written out leads, over every log of up to five steps, from every position.
#[test]
fn a_binder_is_the_choice_of_its_values() {
    let walks = ["pvb00v", "*pvb00v", "pv*b00v", "pv;b00vb00v", "pvpw;b00vb00w", "pvpv;b00vb00v", "-pv;b00v*n", "pva00", "pv|s00v?evg00v", "pv;b00vpv?!g00v"];
    let tests = ["evg00v", "!ev!g00v", "evew&g00v!g00w", "ev<-b00vg00v", "ev<pvb00vg00v", "ev1", "<pv;b00v*nevg00v"];
    let all = walks.map(|w| (Kind::Walk, w)).into_iter().chain(tests.map(|t| (Kind::Test, t)));
    for (kind, text) in all {
        for domain in 1..=2 {
            let out = written_out(&exactly(text.as_bytes(), kind, counts(domain)).unwrap(), domain).unwrap();
            assert_eq!(exactly(&out, kind, counts(0)).map(|r| r.text()), Ok(out.clone()), "{text}");
            for steps in 0..=5 {
                for n in 0..3usize.pow(steps) {
                    let log: Vec<u8> = (0..steps).map(|k| (n / 3usize.pow(k) % 3) as u8).collect();
                    let now = log.len();
                    for then in 0..=now {
                        if kind == Kind::Walk {
                            let of = |c, text: &[u8]| ask::reach(c, 0, 0, &MASKS, &log, text, then, now).unwrap().set;
                            assert_eq!(of(counts(domain), text.as_bytes()), of(counts(0), &out), "{text} {domain} {log:?} {then}");
                        } else {
                            let of = |c, text: &[u8]| ask::verdict(c, 0, 0, &MASKS, &log, text, then, now).unwrap();
                            assert_eq!(of(counts(domain), text.as_bytes()), of(counts(0), &out), "{text} {domain} {log:?} {then}");
                        }
                    }
                }
            }
        }
    }
}
