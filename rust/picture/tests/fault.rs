//! The place of a refusal, found by asking about pieces of the sheet.
mod common;
use common::{example, sheets, with_lines};
use picture::fault::{Refused, Spot};
use wyndhopper::{Sheet, SheetRoom};

/// The number of the refusal and its place, with columns from 1.
fn place(sheet: &[u8]) -> (u8, usize, Option<(usize, usize, String)>) {
    let fault = Sheet::read(sheet, &mut SheetRoom::new()).expect_err("it is refused");
    let spot = Refused::of(sheet, fault).spot;
    (fault.refusal.number(), fault.line, spot.map(|Spot { from, to, said }| (from + 1, to, said)))
}

/// A line of the five cartons, the refusal it gets, the columns of the place, and what is said of it.
const LINES: [(&str, u8, usize, usize, &str); 31] = [
    ("ask=&f00", 6, 9, 8, "the rule ends too early: a test is missing, wanted by & at column 5"),
    ("ask=", 6, 5, 4, "the rule is empty"),
    ("ask=f00f00", 6, 8, 10, "a whole rule ends before this"),
    ("ask=a00", 6, 5, 5, "reading stops here: a test should stand here, not a"),
    ("run=f00", 6, 5, 5, "reading stops here: a walk should stand here, not f"),
    ("ask=<f001", 6, 6, 6, "reading stops here: a walk should stand here, not f"),
    ("ask=f0", 6, 7, 6, "the rule ends too early: a digit is missing, wanted by f at column 5"),
    ("ask=&f0x1", 6, 8, 8, "reading stops here: a digit should stand here, not x"),
    ("ask=&f00 f00", 6, 9, 9, "reading stops here: a test should stand here, not  "),
    ("ask=F00", 6, 5, 5, "reading stops here: a test should stand here, not F"),
    ("run=a00\r", 6, 8, 8, "a whole rule ends before this"),
    ("run=;;a00a01", 6, 13, 12, "the rule ends too early: a walk is missing, wanted by ; at column 5"),
    ("ask=&f00<a07f01", 7, 10, 12, "the sign at fault is a07"),
    ("ask=&f04f05", 7, 9, 11, "the sign at fault is f05"),
    ("ask=&f00!f99", 7, 10, 12, "the sign at fault is f99"),
    ("run=u", 9, 5, 5, "the sign at fault is u"),
    ("run=;a00r00", 9, 9, 11, "the sign at fault is r00"),
    ("run=;a00;?<r001-a00", 9, 16, 16, "the sign at fault is -"),
    ("log=000", 5, 8, 7, "the last step lacks a digit"),
    ("log=00,00", 5, 7, 8, "it is step 2 of the log"),
    ("log=000900", 5, 7, 8, "it is step 2 of the log"),
    ("fluents=33", 3, 10, 10, "from here it is not as it should be"),
    ("fluents=1", 3, 10, 9, "the line ends too early"),
    ("fluents=005", 3, 11, 11, "the line should end before this"),
    ("actions=65", 3, 10, 10, "from here it is not as it should be"),
    ("start=0000000A", 3, 14, 14, "from here it is not as it should be"),
    ("start=00000020", 4, 13, 13, "from here it is not as it should be"),
    ("sheet=9", 3, 7, 7, "from here it is not as it should be"),
    ("more=7", 3, 6, 6, "from here it is not as it should be"),
    ("more=6\r", 3, 7, 7, "the line should end before this"),
    ("more=", 3, 6, 5, "the line ends too early"),
];

#[test]
fn the_place_in_a_line() {
    for (line, number, from, to, said) in LINES {
        let (refusal, _, spot) = place(&with_lines(&example("five-cartons.sheet"), &[line]));
        assert_eq!((refusal, spot), (number, Some((from, to, said.to_string()))), "{line}");
    }
}

#[test]
fn too_deep_and_too_long() {
    let deep = format!("ask={}1", "!".repeat(30));
    assert_eq!(place(&with_lines(&example("one-carton.sheet"), &[&deep])), (8, 7, Some((28, 28, "the sign at fault is !".to_string()))));
    let long = format!("ask={}1", "!".repeat(255));
    assert_eq!(
        place(&with_lines(&example("one-carton.sheet"), &[&long])),
        (6, 7, Some((260, 260, "the rule has 256 bytes, and 255 are the most".to_string())))
    );
    let wide = format!("ask={}", "&".repeat(200));
    assert_eq!(
        place(&with_lines(&example("one-carton.sheet"), &[&wide])),
        (6, 7, Some((132, 132, "no rule of at most 255 bytes begins so".to_string())))
    );
    let steps = format!("log={}", "00".repeat(64));
    assert_eq!(place(&with_lines(&example("one-carton.sheet"), &[&steps])), (5, 6, Some((131, 132, "it is step 64 of the log".to_string()))));
}

#[test]
fn masks() {
    let spaced = with_lines(&example("one-carton.sheet"), &["act=00000000, 00000000,00000001,00000000"]);
    assert_eq!(place(&spaced), (3, 5, Some((14, 14, "from here it is not as it should be".to_string()))));
    let short = with_lines(&example("one-carton.sheet"), &["act=00000000,00000000,00000001"]);
    assert_eq!(place(&short), (3, 5, Some((31, 30, "the line ends too early".to_string()))));
    let lacking = with_lines(&example("one-carton.sheet"), &["act=00000000,00000000,00000003,00000000"]);
    assert_eq!(place(&lacking), (4, 5, Some((30, 30, "from here it is not as it should be".to_string()))));
}

#[test]
fn the_line_that_should_stand_there() {
    for (name, said) in [
        ("blank-line-at-the-end", "nothing may stand here: the sheet has ended"),
        ("blank-line", "the line should open with log="),
        ("byte-order-mark", "the line should open with sheet="),
        ("capital-key", "the line should open with log="),
        ("cr-alone", "the line is not ended by an LF"),
        ("cr-lf", "the line should end before this"),
        ("empty", "the line should open with sheet="),
        ("line-left-out", "the line should open with start="),
        ("no-last-lf", "the line is not ended by an LF"),
        ("out-of-order", "the line should open with ask="),
        ("space-before-key", "the line should open with log="),
        ("two-sheets", "nothing may stand here: the sheet has ended"),
    ] {
        let (_, _, spot) = place(&example(&format!("refused/{name}.sheet")));
        assert_eq!(spot.map(|(_, _, said)| said).as_deref(), Some(said), "{name}");
    }
    assert_eq!(place(&example("refused/one-byte-too-long.sheet")), (1, 0, None));
}

/// Of every rule of the examples: each beginning of it ends too early, at its end; with a byte that is no sign in the place of one of its own, reading stops there; with a rule behind it, there.
#[test]
fn every_spoiled_rule_is_found() {
    for path in sheets("examples") {
        let sheet = std::fs::read(&path).unwrap();
        for key in ["ask=", "run="] {
            let text = String::from_utf8(sheet.clone()).unwrap();
            let rule = text.lines().find_map(|line| line.strip_prefix(key)).unwrap();
            if Sheet::read(&sheet, &mut SheetRoom::new()).is_err() || rule.len() > 60 {
                continue;
            }
            let found = |rule: &str| place(&with_lines(&sheet, &[&format!("{key}{rule}")])).2.unwrap().0 - 1 - key.len();
            for at in 0..rule.len() {
                assert_eq!(found(&rule[..at]), at, "{} of {rule}", &rule[..at]);
                assert_eq!(found(&format!("{}X{}", &rule[..at], &rule[at + 1..])), at, "{rule} at {at}");
            }
            assert_eq!(found(&format!("{rule}1")), rule.len());
        }
    }
}
