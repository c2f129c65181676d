//! Pages of logs that no sheet of this version can have, laid out from facts that are put together here: hundreds of steps wrap, and nothing is lost.
mod common;
use common::{example, facts};
use picture::asked::Now;
use picture::facts::{Facts, Step};
use picture::names::Names;
use picture::places::Places;
use picture::tree::Node;
use picture::{page, text};

/// The facts of the five cartons with so many steps, as if a later version had given them.
fn long(steps: usize) -> Facts {
    let mut facts = facts(&example("five-cartons.sheet"));
    facts.end = steps;
    facts.steps = (0..steps).map(|k| Step { action: k % 5, possible: k % 7 != 3 }).collect();
    facts.states = (0..=steps + 3).map(|k| k as u32 % 32).collect();
    facts.verdicts = (0..=steps).map(|k| k % 50 < 20).collect();
    stretch(&mut facts.ask, steps);
    stretch(&mut facts.run, steps);
    facts
}

fn stretch(node: &mut Node, end: usize) {
    for row in &mut node.rows {
        row.now = Now::At(end);
        row.at = Places::from([end]);
        row.found = (0..=end).filter(|k| k % 20 < 9).collect();
        row.ways.clear();
    }
    node.parts.iter_mut().for_each(|part| stretch(part, end));
}

#[test]
fn a_log_of_hundreds_of_steps_wraps() {
    for steps in [64, 300, 1023] {
        let facts = long(steps);
        let drawn = page::accepted("long.sheet", &facts, &Names::default());
        assert_eq!(drawn.matches("<text class=\"state\"").count(), facts.states.len());
        assert_eq!(drawn.matches("data-action=").count(), steps + 3);
        assert_eq!(drawn.matches("<g class=\"verdict").count() - drawn.matches(" again\"><rect").count(), steps + 1);
        assert!(drawn.len() < 3_000_000);
        let told = text::accepted("long.sheet", &facts, &Names::default());
        assert_eq!(told.lines().filter(|line| line.split_whitespace().nth(1).is_some_and(|word| word.len() == 8)).count(), facts.states.len());
    }
}

#[test]
fn words_with_marks_in_them_stand_as_they_are() {
    let names = Names::read("action 00 <print> & \"more\"\nfluent 00 a < b\n").unwrap();
    let drawn = page::accepted("a&b.sheet", &facts(&example("five-cartons.sheet")), &names);
    assert!(
        drawn.contains("a &lt; b") && drawn.contains("&lt;print&gt; &amp; &quot;more&quot;") && drawn.contains("<p class=\"file\">a&amp;b.sheet</p>")
    );
    assert!(!drawn.contains("<print>"));
}
