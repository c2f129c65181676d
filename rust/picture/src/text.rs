//! The picture as text for a terminal: one line for each position, then the rules part by part.
use crate::facts::{yes_no, Facts};
use crate::fault::{shown, Refused};
use crate::names::Names;
use crate::tree::Node;
use crate::words;

/// How much of a faulty line is shown, and how many lines of a refused sheet.
const LINE: usize = 300;
const LINES: usize = 200;

/// How wide the words and the signs of a part stand.
const WORDS: usize = 60;
const SIGNS: usize = 24;

/// The text of an accepted sheet.
pub fn accepted(name: &str, facts: &Facts, names: &Names) -> String {
    let mut out = format!("{name}\n\n{}", facts.answer());
    section(&mut out, "The log", &log(facts, names));
    section(&mut out, "The verdict", &words::verdicts(facts, names));
    section(&mut out, &format!("The question: {}", words::signs(&facts.ask)), &rule(&facts.ask, facts, names));
    section(&mut out, "The job", &[words::standing(facts, names), words::finish(facts, names)].concat());
    section(&mut out, &format!("Its parts: {}", words::signs(&facts.run)), &rule(&facts.run, facts, names));
    out
}

/// The text of a refused sheet.
pub fn refused(name: &str, refused: &Refused) -> String {
    let mut out = format!("{name}\n\n{}", refused.answer());
    section(&mut out, "Why", &words::refusal(refused));
    if refused.fault.line > 0 {
        section(&mut out, "The sheet", &sheet(refused));
    }
    out
}

fn section(out: &mut String, head: &str, lines: &[String]) {
    out.push_str(&format!("\n{head}\n"));
    for line in lines {
        out.push_str(format!("  {line}").trim_end());
        out.push('\n');
    }
}

/// A line for each position: its state, the verdict there, the fluents that are on, and the step that follows.
fn log(facts: &Facts, names: &Names) -> Vec<String> {
    let digits = |one: fn(usize) -> usize| (0..facts.fluents).map(|fluent| one(fluent).to_string()).collect::<String>();
    let head =
        |position: &str, state: &str, verdict: &str, fluents: &str, step: &str| format!("{position:>8}  {state:8}  {verdict:7}  {fluents:7}  {step}");
    let mut lines =
        vec![head("", "", "", &digits(|fluent| fluent / 10), ""), head("position", "state", "verdict", &digits(|fluent| fluent % 10), "step")];
    for (place, state) in facts.states.iter().enumerate() {
        let verdict = facts.verdicts.get(place).map_or("", |&yes| yes_no(yes));
        let on: String = (0..facts.fluents).map(|fluent| if facts.on(fluent, place) { '#' } else { '.' }).collect();
        lines.push(head(&place.to_string(), &format!("{state:08x}"), verdict, &on, &step(facts, names, place)));
    }
    lines.extend(words::forced(facts, names));
    let named = |&fluent: &usize| names.lane(fluent) != format!("fluent {fluent:02}");
    lines.extend((0..facts.fluents).filter(named).map(|fluent| format!("fluent {fluent:02}: {}", names.lane(fluent))));
    lines
}

/// The step that follows a position: one of the log, one that is missing, or none.
fn step(facts: &Facts, names: &Names, place: usize) -> String {
    let missing = facts.standing.finish.as_deref().unwrap_or(&[]);
    match (facts.steps.get(place), place.checked_sub(facts.end).and_then(|k| missing.get(k))) {
        (Some(step), _) if step.possible => names.numbered(step.action),
        (Some(step), _) => format!("{}  FORCED", names.numbered(step.action)),
        (None, Some(&action)) => format!("({})  missing", names.numbered(action as usize)),
        (None, None) => String::new(),
    }
}

/// A line for each part of a rule, and a line more for each further row of answers.
fn rule(rule: &Node, facts: &Facts, names: &Names) -> Vec<String> {
    let mut parts = Vec::new();
    rule.each(0, &mut |node, depth| parts.push((node, format!("{}{}", "  ".repeat(depth), words::led(node, names)))));
    let wide = parts.iter().map(|(_, words)| words.chars().count()).max().unwrap_or(0).min(WORDS);
    let mut lines = Vec::new();
    for (node, words) in &parts {
        let mut left = format!("{words:wide$}  {:SIGNS$}", words::cut(&words::signs(node), SIGNS));
        for told in told(node, facts.end) {
            lines.push(format!("{left}  {told}"));
            left = " ".repeat(wide + 2 + SIGNS);
        }
    }
    lines
}

/// All that is told of a part.
fn told(node: &Node, end: usize) -> Vec<String> {
    let mut all: Vec<String> = node.groups().iter().map(|group| words::group(node, group, end)).collect();
    if all.is_empty() {
        all.push("not asked".to_string());
    }
    if node.waits {
        all[0].push_str("; waits here");
    }
    all.extend(words::from_end(node, end));
    all.extend(words::left_out(node));
    all
}

/// The lines of a refused sheet up to a little behind the fault, with a mark below the place.
fn sheet(refused: &Refused) -> Vec<String> {
    let at = refused.fault.line - 1;
    let mut lines = Vec::new();
    for (k, line) in refused.lines.iter().enumerate().take((at + 3).min(LINES.max(at + 1))) {
        let mark = if k == at { ">" } else { " " };
        lines.push(format!("{mark}{:>4}  {}", k + 1, shown(&line[..line.len().min(LINE)])));
        if let (true, Some(spot)) = (k == at, &refused.spot) {
            let (from, to) = (spot.from.min(LINE).min(line.len()), spot.to.min(LINE).min(line.len()));
            let wide = shown(&line[from..to]).len().max(1);
            lines.push(format!("       {}{}", " ".repeat(shown(&line[..from]).len()), "^".repeat(wide)));
        }
    }
    lines
}
