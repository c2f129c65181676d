//! What a picture shows is what jobsheet answers; and its parts fit together as the language has it, so that they are the right parts.
mod common;
use common::{answer, example, facts, sheets, with_lines, Seeded};
use picture::asked::Now;
use picture::facts::Facts;
use picture::fault::Refused;
use picture::places::Places;
use picture::tree::{Node, Values};
use wyndhopper::{Kind, Sheet, SheetRoom};

/// The sheet's log cut behind so many steps. Nothing is looked for: a job that was finished may be far from it there.
fn cut(sheet: &[u8], steps: usize) -> Vec<u8> {
    let text = String::from_utf8(sheet.to_vec()).unwrap();
    let log = text.lines().find_map(|line| line.strip_prefix("log=")).unwrap();
    with_lines(sheet, &[&format!("log={}", &log[..2 * steps]), "more=0"])
}

fn same_as_jobsheet(sheet: &[u8]) {
    let facts = facts(sheet);
    assert_eq!(facts.answer(), answer(sheet));
    for place in 0..=facts.end {
        let told = answer(&cut(sheet, place));
        assert!(
            told.starts_with(&format!("verdict={}\nstate={:08x}\n", if facts.verdicts[place] { "yes" } else { "no" }, facts.states[place])),
            "position {place}: {told}"
        );
    }
}

#[test]
fn the_examples_are_answered_as_jobsheet_answers_them() {
    for path in sheets("examples") {
        let sheet = std::fs::read(&path).unwrap();
        match answer(&sheet).starts_with("refused=") {
            true => assert_eq!(refused(&sheet), answer(&sheet), "{}", path.display()),
            false => same_as_jobsheet(&sheet),
        }
    }
    for path in sheets("examples/refused") {
        let sheet = std::fs::read(&path).unwrap();
        assert_eq!(refused(&sheet), answer(&sheet), "{}", path.display());
    }
}

fn refused(sheet: &[u8]) -> String {
    let fault = Sheet::read(sheet, &mut SheetRoom::new()).expect_err("it is refused");
    Refused::of(sheet, fault).answer()
}

/// What a part's own parts say adds up to what it says, for each choice of values. A row that is left out, since nothing leads to it, has found nothing.
fn adds_up(node: &Node, facts: &Facts) {
    let all: Places = (0..=facts.end).collect();
    if !node.parts.is_empty() && node.turned().is_none() {
        let own = 1 + node.sign.unwrap().own.room();
        assert_eq!(node.text[own..], node.parts.iter().flat_map(|part| part.text.clone()).collect::<Vec<u8>>());
    }
    for row in node.rows.iter().filter(|row| row.now == Now::At(facts.end)) {
        let behind = |k: usize, now: Now, values: &Values| {
            let found = node.parts[k].rows.iter().find(|row| row.now == now && row.values == *values);
            found.map_or(Places::new(), |row| row.found.clone())
        };
        let part = |k: usize| behind(k, row.now, &row.values);
        let with = |value: usize| {
            let mut values: Values = row.values.iter().filter(|(variable, _)| Some(*variable) != node.variable()).copied().collect();
            values.push((node.variable().unwrap(), value));
            behind(0, row.now, &values)
        };
        match node.sign.unwrap().byte {
            b'1' => assert_eq!(row.found, all),
            b'!' => assert_eq!(row.found, &all - &part(0)),
            b'&' => assert_eq!(row.found, &part(0) & &part(1)),
            b'<' => {
                let walk = node.parts[0].rows.iter().find(|walk| walk.now == row.now && walk.values == row.values);
                let leads = |place: &usize| walk.is_some_and(|walk| walk.ways.iter().any(|(from, to)| from == place && !to.is_disjoint(&part(1))));
                assert!(row.at.iter().all(|place| row.found.contains(place) == leads(place)));
            }
            b';' => assert_eq!(row.found, part(1)),
            b'|' => assert_eq!(row.found, &part(0) | &part(1)),
            b'*' => assert_eq!(row.found, &row.at | &part(0)),
            b'?' => {
                let own = node.parts[0].rows.iter().any(|row| row.now == Now::Own);
                assert_eq!(row.found, &row.at & &behind(0, if own { Now::Own } else { row.now }, &row.values));
            }
            b'-' => assert_eq!(row.found, part(0)),
            b'e' | b'p' => assert_eq!(row.found, (0..facts.domain).flat_map(with).collect::<Places>()),
            _ => assert!(node.parts.is_empty()),
        }
    }
    node.parts.iter().for_each(|part| adds_up(part, facts));
}

/// The actions that may come next are those of the waiting steps that are possible.
fn waits_as_next(facts: &Facts, sheet: &[u8]) {
    let mut room = SheetRoom::new();
    let job = Sheet::read(sheet, &mut room).unwrap().job;
    let waited = |action: usize| facts.standing.waits.iter().any(|waited| waited.is_none_or(|waited| waited == action));
    let next: Vec<usize> = (0..facts.actions).filter(|&action| waited(action) && job.possible(action, facts.standing.follows) == Ok(true)).collect();
    assert_eq!(next, facts.standing.next);
}

#[test]
fn parts_add_up_on_the_examples() {
    for path in sheets("examples") {
        let sheet = std::fs::read(&path).unwrap();
        if !answer(&sheet).starts_with("refused=") {
            let facts = facts(&sheet);
            adds_up(&facts.ask, &facts);
            adds_up(&facts.run, &facts);
            waits_as_next(&facts, &sheet);
        }
    }
}

#[test]
fn parts_add_up_on_seeded_sheets() {
    let mut seeded = Seeded { state: 29, variables: false };
    for k in 0..600 {
        seeded.variables = k % 2 == 1;
        let sheet = seeded.sheet();
        if answer(&sheet).starts_with("refused=") {
            continue; // a rule grew too long
        }
        let facts = facts(&sheet);
        assert_eq!(facts.answer(), answer(&sheet));
        adds_up(&facts.ask, &facts);
        adds_up(&facts.run, &facts);
        waits_as_next(&facts, &sheet);
    }
}

#[test]
fn forced_steps_and_why_nothing_finishes() {
    let facts = facts(&example("forced-print.sheet"));
    assert_eq!(facts.steps.iter().map(|step| step.possible).collect::<Vec<_>>(), [true, false]);
    assert_eq!((facts.standing.follows, facts.end, facts.standing.finish.clone()), (1, 2, None));
    let short = with_lines(&example("five-cartons.sheet"), &["more=2"]);
    let facts = common::facts(&short);
    assert_eq!((facts.standing.finish.clone(), facts.standing.asked, facts.standing.longer.clone()), (None, 3, Some(vec![2, 3, 4])));
}

#[test]
fn a_test_of_a_stay_sees_up_to_its_own_place() {
    let facts = facts(&with_lines(&example("two-cartons.sheet"), &["log=000102", "ask=<;*u?<a0111"]));
    let stay = &facts.ask.parts[0].parts[1];
    assert_eq!((stay.text.as_slice(), stay.parts[0].rows[0].now), (&b"?<a011"[..], Now::Own));
    assert!(stay.parts[0].rows[0].found.is_empty());
    assert_eq!(stay.parts[0].parts[0].kind, Kind::Walk);
}

/// On a sheet that says so it sees the whole log, but for a job's own; and a part of a job with both is not asked about by itself.
#[test]
fn a_test_of_a_stay_sees_the_whole_log_where_the_sheet_says_so() {
    let lines = ["log=0001", "ask=<;*u?<a0111", "run=;a00;?<a011a01"];
    let facts_of = |more: &[&str]| facts(&with_lines(&example("returns.sheet"), &[&lines[..], more].concat()));
    let shown = facts_of(&[]);
    let stay = &shown.ask.parts[0].parts[1];
    assert_eq!((stay.text.as_slice(), stay.parts[0].rows[0].now), (&b"?<a011"[..], Now::At(2)));
    assert_eq!(stay.parts[0].rows[0].found, Places::from([1]));
    assert!(shown.verdict() && !facts_of(&["now=step"]).verdict());
    let own = &shown.run.parts[1].parts[0];
    assert_eq!((own.text.as_slice(), own.parts[0].rows[0].now), (&b"?<a011"[..], Now::Own));
    assert!(!shown.standing.ended);
    let both = facts_of(&["run=;a00;a01?<-;a00;?<a011a011"]);
    assert!(both.standing.ended && both.run.rows.is_empty() && both.run.left_out == 1);
    assert_eq!(both.standing.follows, 2);
}
