//! Document 02, Q-6: effects that depend on the state before the step. The run cases: start; clauses as when, unless, put, drop: states.
use oracle::ask;
use oracle::rule::Counts;
use oracle::sheet::answer;
use oracle::theory::{check, states, widened, Masks};

type Clause = [u32; 4];
const NONE: Clause = [0; 4];

/// The states that an action of these clauses leads through, taken so many times.
fn led(start: u32, one: Clause, two: Clause, steps: usize) -> Vec<u32> {
    let row = [&[0, 0], &one[..], &two[..]].concat();
    let log = vec![0; steps];
    states(&check(2, 1, start, &row, &log).unwrap(), &log)
}

#[test]
fn the_requests_cases() {
    assert_eq!(led(3, [1, 0, 0, 2], NONE, 1), [3, 1]);
    assert_eq!(led(2, [1, 0, 0, 2], NONE, 1), [2, 2]);
    assert_eq!(led(0, [0, 0, 1, 0], [0, 0, 0, 1], 1), [0, 1]);
    assert_eq!(led(1, [0, 0, 1, 0], [0, 0, 0, 1], 1), [1, 1]);
    assert_eq!(led(1, [0, 0, 0, 1], [0, 0, 1, 0], 1), [1, 1]);
    assert_eq!(led(0, [0, 0, 1, 0], [1, 0, 2, 0], 2), [0, 1, 3]);
    assert_eq!(led(1, [1, 1, 0, 1], NONE, 1), [1, 1]);
    assert_eq!(led(3, [0, 1, 0, 3], [1, 0, 0, 1], 1), [3, 2]);
}

/// With the two clauses exchanged every state is the same.
#[test]
fn the_order_of_clauses_does_not_matter() {
    let masks = [0, 1, 3];
    for n in 0..3usize.pow(8) {
        let m: Vec<u32> = (0..8).map(|k| masks[n / 3usize.pow(k) % 3]).collect();
        let (one, two) = ([m[0], m[1], m[2], m[3]], [m[4], m[5], m[6], m[7]]);
        assert_eq!(led((n % 4) as u32, one, two, 2), led((n % 4) as u32, two, one, 2));
    }
}

/// Four masks are one unconditional clause and an empty one: the states of document 01's sentence.
#[test]
fn four_masks() {
    for n in 0..4usize.pow(3) {
        let (put, drop, start) = ((n % 4) as u32, (n / 4 % 4) as u32, (n / 16) as u32);
        let log = [0; 3];
        let all = states(&check(2, 1, start, &widened(&[0, 0, put, drop]), &log).unwrap(), &log);
        for pair in all.windows(2) {
            assert_eq!(pair[1], put | (pair[0] & !drop));
        }
    }
    assert_eq!(Masks::of_four(&[1, 2, 4, 8]).row(), [1, 2, 0, 0, 4, 8, 0, 0, 0, 0]);
}

#[test]
fn refusals_of_a_table() {
    for masks in [&[][..], &[0; 4], &[0; 9], &[0; 11], &[0; 20]] {
        assert_eq!(check(2, 1, 0, masks, &[]).map(|_| ()), Err(3));
    }
    for k in 0..10 {
        let mut row = [0; 10];
        row[k] = 4;
        assert_eq!((check(2, 1, 0, &row, &[]).map(|_| ()), check(3, 1, 0, &row, &[]).map(|_| ())), (Err(4), Ok(())));
    }
}

/// What is possible goes by need and ban alone; walks, tests and jobs by the states.
#[test]
fn a_label_only_while_the_carton_is_open() {
    // 00 puts label 01 when the carton, 00, is open; 01 closes it, 02 opens it
    let masks = [[0, 0, 1, 0, 2, 0, 0, 0, 0, 0], [0, 0, 0, 0, 0, 1, 0, 0, 0, 0], [0, 0, 0, 0, 1, 0, 0, 0, 0, 0]].concat();
    let c = Counts { fluents: 2, actions: 3, domain: 0 };
    let verdict = |log: &[u8], test: &str| ask::verdict(c, 1, 0, &masks, log, test.as_bytes(), log.len(), log.len());
    assert_eq!((verdict(&[0], "f01"), verdict(&[1, 0], "f01"), verdict(&[1, 0], "<-a001")), (Ok(true), Ok(false), Ok(true)));
    let finish = |log: &[u8]| oracle::finish::finish(c, 1, 0, &masks, log, b";*n?f01", 6, 6);
    assert_eq!((finish(&[]), finish(&[1]), finish(&[1, 0])), (Ok(vec![0]), Ok(vec![2, 0]), Ok(vec![2, 0])));
}

fn hex(row: &[u32]) -> String {
    row.iter().map(|m| format!("{m:08x}")).collect::<Vec<_>>().join(",")
}

/// Document 01's sheet with these first lines and rows.
fn sheet(top: &str, rows: &[Vec<u32>]) -> String {
    let acts: String = rows.iter().map(|r| format!("act={}\n", hex(r))).collect();
    answer(format!("{top}start=00000000\n{acts}log=00010200\nask=<-;a00*n!<;*na011\nrun=;a00;a01;a02;a00a01\nmore=2\n").as_bytes())
}

#[test]
fn sheets() {
    let four = [vec![0, 0, 1, 0], vec![1, 0, 2, 0], vec![0, 0, 0, 3]];
    let ten = four.each_ref().map(|m| Masks::of_four(m).row().to_vec());
    let top = |version: usize, domain: &str| format!("sheet={version}\nfluents=02\nactions=03\n{domain}");
    let right = "verdict=yes\nstate=00000001\nfinish=01\n";
    assert_eq!(sheet(&top(1, ""), &four), right);
    assert_eq!(sheet(&top(2, "domain=02\n"), &four), right);
    assert_eq!(sheet(&top(3, "domain=02\n"), &ten), right);
    assert_eq!(sheet(&top(1, ""), &ten), "refused=3,line=5\n");
    assert_eq!(sheet(&top(2, "domain=02\n"), &ten), "refused=3,line=6\n");
    assert_eq!(sheet(&top(3, "domain=02\n"), &four), "refused=3,line=6\n");
    assert_eq!(sheet(&top(3, ""), &ten), "refused=2,line=4\n");
    assert_eq!(sheet(&top(5, "domain=02\n"), &ten), "refused=3,line=1\n");
    let mut lacking = ten;
    lacking[2][6] = 4;
    assert_eq!(sheet(&top(3, "domain=02\n"), &lacking), "refused=4,line=8\n");
}

/// The longest sheet has 6,729 bytes; with the reading's line 6,738, and that limit is the same for every version.
#[test]
fn the_limit_of_a_sheet() {
    let act = |masks: usize| format!("act={}\n", hex(&vec![0; masks])).repeat(64);
    let rule = |sign: &str, leaf: &str| {
        let two = format!("{sign}{leaf}{leaf}");
        format!("{sign}{sign}{two}{two}").repeat(15) + &format!("{sign}{two}{two}")
    };
    let longest = |top: &str, masks: usize, now: &str, tail: &str| {
        let (log, ask, run) = ("00".repeat(63), rule("&", "f00"), rule("|", "a00"));
        format!("{top}start=00000000\n{}log={log}\n{now}ask={ask}\nrun={run}\nmore=6\n{tail}", act(masks)).into_bytes()
    };
    let top = |version: usize, domain: &str| format!("sheet={version}\nfluents=32\nactions=64\n{domain}");
    let (one, three, four) = (top(1, ""), top(3, "domain=16\n"), top(4, "domain=16\n"));
    let answered = |sheet: &[u8]| (sheet.len(), answer(sheet));
    assert_eq!(answered(&longest(&three, 10, "", "")), (6729, "verdict=no\nstate=00000000\nfinish=none\n".into()));
    assert_eq!(answered(&longest(&three, 10, "", "\n")), (6730, "refused=2,line=74\n".into()));
    assert_eq!(answered(&longest(&four, 10, "now=step\n", "")), (6738, "verdict=no\nstate=00000000\nfinish=none\n".into()));
    assert_eq!(answered(&longest(&four, 10, "now=step\n", "\n")), (6739, "refused=1,line=0\n".into()));
    let padded = |n: usize| answer(&longest(&one, 4, "", &"x".repeat(n - 3263)));
    assert_eq!([padded(3300), padded(6738), padded(6739)], ["refused=2,line=73\n", "refused=2,line=73\n", "refused=1,line=0\n"]);
}
