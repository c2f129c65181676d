//! The answers about one part of a rule as a strip below its words: where a test is true, where a walk leads, and above it where it is asked or walked from.
use crate::asked::{Group, Row};
use crate::columns::{Columns, BESIDE, LABEL};
use crate::places::Places;
use crate::svg::{bars, drawing, marks, path, squares, text};
use crate::tree::Node;
use crate::words;
use wyndhopper::Kind;

/// At most so many ways of a walk are drawn as arcs, and a strip with arcs is so much higher.
const ARCS: usize = 12;
const RISE: usize = 14;

const HEIGHT: usize = 20;
const LANE: usize = 14;

/// The strips of a part, one for each row of answers and each line of positions.
pub fn strips(node: &Node, columns: Columns) -> String {
    node.groups().iter().map(|group| group_strips(node, group, columns)).collect()
}

fn group_strips(node: &Node, group: &Group, columns: Columns) -> String {
    let row = group.row;
    let beside = match words::sees(node, group, columns.last) {
        Some(sees) => words::cut(&sees, BESIDE),
        None if node.kind == Kind::Test => "true".to_string(),
        None => "leads to".to_string(),
    };
    let told = words::group(node, group, columns.last);
    let lines = columns.lines();
    let one = |&line: &(usize, usize)| {
        let label = if lines.len() > 1 { format!("{beside}, {}-{}", line.0, line.1) } else { beside.clone() };
        let arcs = if node.from_end.is_some() { arcs(row, columns, line) } else { String::new() };
        let rise = if arcs.is_empty() { 0 } else { RISE };
        let (found, mark) = match node.kind {
            Kind::Test => (bars("true", columns, line, LANE + rise, &row.found), "asked"),
            _ => (squares("to", columns, line, LANE + rise, &row.found), "from"),
        };
        let inside =
            [text("beside", 0, LANE + rise + 4, &label), ground(columns, line, LANE + rise), arcs, found, marks(mark, columns, line, rise, &row.at)];
        drawing("strip", HEIGHT + rise, &told, &inside.concat())
    };
    lines.iter().map(one).collect()
}

/// The lane of a strip, with a tick at each position; where they are close, at each fifth.
fn ground(columns: Columns, line: (usize, usize), y: usize) -> String {
    let every = columns.numbered();
    let ticks: String =
        (line.0..=line.1).filter(|place| place % every == 0).map(|place| format!("M{} {}v6", columns.x(line.0, place), y - 3)).collect();
    path("off", &format!("M{LABEL} {y}H{}{ticks}", columns.x(line.0, line.1) + columns.pitch / 2))
}

/// The ways of a walk from place to place as arcs, if they are few.
fn arcs(row: &Row, columns: Columns, line: (usize, usize)) -> String {
    let ways: Vec<(usize, usize)> =
        row.ways.iter().flat_map(|(from, to)| to.iter().map(move |to| (*from, *to))).filter(|(from, to)| from != to).collect();
    let here = |place: usize| (line.0..=line.1).contains(&place);
    if ways.len() > ARCS || columns.numbered() > 1 || !ways.iter().all(|&(from, to)| here(from) && here(to)) {
        return String::new();
    }
    let arc = |&(from, to): &(usize, usize)| {
        let (x, end, foot) = (columns.x(line.0, from), columns.x(line.0, to), LANE + RISE - 5);
        let (out, back) = if from < to { (x + 14, end - 14) } else { (x - 14, end + 14) };
        path("way", &format!("M{x} {foot}C{out} 2 {back} 2 {end} {foot}"))
    };
    ways.iter().map(arc).collect()
}

/// The numbers of the positions, above the strips of a rule.
pub fn ruler(columns: Columns) -> String {
    let every = columns.numbered();
    let one = |&line: &(usize, usize)| {
        let numbers: String = (line.0..=line.1)
            .filter(|place| place % every == 0)
            .map(|place| text("number", columns.x(line.0, place), 12, &place.to_string()))
            .collect();
        drawing("ruler", 16, "positions", &(text("beside", 0, 12, "position") + &numbers))
    };
    columns.lines().first().map(one).unwrap_or_default()
}

/// A strip that shows a mark by itself, for the legend.
pub fn sample(class: &str) -> String {
    let columns = Columns { pitch: 24, last: 0 };
    let (line, one) = ((0, 0), Places::from([0]));
    let drawn = match class {
        "true" => bars(class, columns, line, HEIGHT / 2, &one),
        "to" => squares(class, columns, line, HEIGHT / 2, &one),
        _ => marks(class, columns, line, 6, &one),
    };
    format!("<svg class=\"sample\" viewBox=\"{LABEL} 0 24 {HEIGHT}\" aria-hidden=\"true\">{drawn}</svg>")
}
