//! The sentences of a picture, the same on a page and on a terminal.
use crate::asked::{Group, Now, Row};
use crate::facts::{yes_no, Facts};
use crate::fault::Refused;
use crate::names::Names;
use crate::places::{at, written, Places};
use crate::signs::Own;
use crate::tree::{Node, Values};
use wyndhopper::{Kind, FINISH_ROOM};

/// If the verdict turned more often, its positions are counted and not named.
const MANY: usize = 8;

/// If more actions are waited for that are not possible, they are counted and not named.
const FEW: usize = 4;

/// Of several variables at most so many choices of values are named.
const CHOICES: usize = 6;

/// What a part of a rule says, without its own parts.
pub fn part(node: &Node, names: &Names) -> String {
    let Some(sign) = node.sign else { return "a sign that this program has no words for".to_string() };
    let variable = node.variable().map_or(' ', char::from);
    let named = match (sign.own, node.named()) {
        (Own::Action, Some(action)) => names.action(action),
        (Own::Fluent, Some(fluent)) => names.fluent(fluent),
        (Own::ActionPlus(_), Some(action)) => format!("{} + {variable}", names.action(action)),
        (Own::FluentPlus(_), Some(fluent)) => names.fluent_plus(fluent, variable),
        (Own::Variable, _) => variable.to_string(),
        _ => String::new(),
    };
    let words = sign.words.replace("{}", &named);
    match node.turned() {
        Some(turned) => format!("{words}: {}", part(turned, names)),
        None => words,
    }
}

/// The word that leads a part in, and what the part says.
pub fn led(node: &Node, names: &Names) -> String {
    match node.lead {
        "" => part(node, names),
        lead => format!("{lead}: {}", part(node, names)),
    }
}

/// A part's signs; of a walk that is turned, its other form too.
pub fn signs(node: &Node) -> String {
    let text = String::from_utf8_lossy(&node.text);
    match node.turned() {
        Some(turned) => format!("{text} = {}", String::from_utf8_lossy(&turned.text)),
        None => text.into_owned(),
    }
}

/// At most so many characters of a text.
pub fn cut(text: &str, most: usize) -> String {
    match text.chars().count() {
        count if count > most => text.chars().take(most - 1).chain(['…']).collect(),
        _ => text.to_string(),
    }
}

/// With which values a group of rows is asked, and how far it sees, where that is not the log's end and matters.
pub fn sees(node: &Node, group: &Group, end: usize) -> Option<String> {
    let same = node.rows.iter().all(|row| row.now == Now::At(end));
    let now = match group.row.now {
        Now::At(_) if same => None,
        Now::At(now) => Some(format!("seen from {now}")),
        Now::Own => node.looks().then(|| "each seen from itself".to_string()),
    };
    let told: Vec<String> = [values(&group.values), now].into_iter().flatten().collect();
    (!told.is_empty()).then(|| told.join(", "))
}

/// Values in writing: `v = 0-2`, of several variables `v w = 0 1, 2 2`.
fn values(all: &[&Values]) -> Option<String> {
    let variables = all.first().filter(|values| !values.is_empty())?.iter().map(|(variable, _)| char::from(*variable).to_string());
    let told = match all[0].len() {
        1 => written(&all.iter().map(|values| values[0].1).collect()),
        _ => {
            let one = |values: &&Values| values.iter().map(|(_, value)| value.to_string()).collect::<Vec<_>>().join(" ");
            let some: Vec<String> = all.iter().take(CHOICES).map(one).collect();
            some.join(", ") + if all.len() > CHOICES { " .." } else { "" }
        }
    };
    Some(format!("{} = {told}", variables.collect::<Vec<_>>().join(" ")))
}

/// What is answered where it is asked: yes and no with the places, or where a walk leads.
pub fn answered(node: &Node, row: &Row, end: usize) -> String {
    if node.kind != Kind::Test {
        return match row.at.is_empty() {
            true => "not walked".to_string(),
            false => format!("from {} to {}", written(&row.at), written(&row.found)),
        };
    }
    let yes: Places = row.at.intersection(&row.found).copied().collect();
    let no: Places = row.at.difference(&row.found).copied().collect();
    match (yes.is_empty(), no.is_empty()) {
        (true, true) => "not asked".to_string(),
        (_, true) if yes.len() == 1 && yes.contains(&end) => "yes".to_string(),
        (true, _) if no.len() == 1 && no.contains(&end) => "no".to_string(),
        (_, true) => format!("yes {}", at(&yes)),
        (true, _) => format!("no {}", at(&no)),
        _ => format!("yes {}; no {}", at(&yes), at(&no)),
    }
}

/// All that a group of rows says.
pub fn group(node: &Node, group: &Group, end: usize) -> String {
    let answered = answered(node, group.row, end);
    let all = if node.kind == Kind::Test { format!("{answered}; true {}", at(&group.row.found)) } else { answered };
    match sees(node, group, end) {
        Some(sees) => format!("{all} ({sees})"),
        None => all,
    }
}

/// Where the walk of a `<` leads from the log's end, if it is not walked from there.
pub fn from_end(node: &Node, end: usize) -> Option<String> {
    let walked = node.rows.iter().any(|row| row.at.contains(&end) && row.now == Now::At(end));
    node.from_end.as_ref().filter(|_| !walked).map(|reached| format!("from the log's end to {}", written(reached)))
}

/// How many earlier places a part is asked from, or values it is asked with, that are not shown.
pub fn left_out(node: &Node) -> Option<String> {
    (node.left_out > 0).then(|| format!("{} more places or values are not shown", node.left_out))
}

/// Where the verdict was what, and where it turned.
pub fn verdicts(facts: &Facts, names: &Names) -> Vec<String> {
    let places = |verdict: bool| (0..=facts.end).filter(|&place| facts.verdicts[place] == verdict).collect::<Places>();
    let verdict = yes_no(facts.verdict());
    let turns = facts.turns();
    let Some(&last) = turns.last() else { return vec![format!("It is {verdict} at every position of the log.")] };
    let (same, other) = (places(facts.verdict()), places(!facts.verdict()));
    let mut said = vec![match turns.len() {
        0..=MANY => format!("It is {verdict} at {}, {} at {}.", written(&same), yes_no(!facts.verdict()), written(&other)),
        _ => format!("It is {verdict} at {} positions of the log, {} at {}.", same.len(), yes_no(!facts.verdict()), other.len()),
    }];
    let times = if turns.len() > 1 { format!(" {} times, the last time", turns.len()) } else { String::new() };
    said.push(format!("It turned{times} at position {last}, after {}.", names.action(facts.steps[last - 1].action)));
    said
}

/// The fluents that are on, in words.
pub fn state(facts: &Facts, names: &Names, place: usize) -> String {
    let on: Vec<String> = (0..facts.fluents).filter(|&fluent| facts.on(fluent, place)).map(|fluent| names.lane(fluent)).collect();
    match on.is_empty() {
        true => "nothing is on".to_string(),
        false => on.join(", "),
    }
}

/// Why an action is not possible at a position, in brackets: what it needs that is off there, and what it bans that is on.
pub fn not_possible(facts: &Facts, names: &Names, action: usize, place: usize) -> String {
    let (need, ban) = facts.needs[action];
    let these = |mask: u32, on: bool| {
        (0..facts.fluents).filter(|&f| mask >> f & 1 == 1 && facts.on(f, place) == on).map(|f| names.lane(f)).collect::<Vec<_>>().join(", ")
    };
    let (off, on) = (these(need, false), these(ban, true));
    let told = [("needed and off: ", off), ("banned and on: ", on)];
    let told: Vec<String> = told.iter().filter(|(_, which)| !which.is_empty()).map(|(what, which)| format!("{what}{which}")).collect();
    if told.is_empty() {
        String::new()
    } else {
        format!(" ({})", told.join("; "))
    }
}

/// The forced steps, each with what was amiss.
pub fn forced(facts: &Facts, names: &Names) -> Vec<String> {
    let steps = facts.steps.iter().enumerate().filter(|(_, step)| !step.possible);
    steps
        .map(|(place, step)| format!("Forced at position {place}: {}{}.", names.action(step.action), not_possible(facts, names, step.action, place)))
        .collect()
}

/// A sequence of actions, each with its number.
pub fn sequence(actions: impl IntoIterator<Item = usize>, names: &Names) -> String {
    actions.into_iter().map(|action| names.numbered(action)).collect::<Vec<_>>().join(", ")
}

/// Where the job stands, and what it waits for.
pub fn standing(facts: &Facts, names: &Names) -> Vec<String> {
    let job = &facts.standing;
    let follows = job.follows;
    let mut said = vec![match facts.steps.get(follows) {
        None if job.ended => format!("The job has come to its end, at position {follows}, the log's end."),
        None => format!("The job follows the log to its end, position {follows}."),
        Some(step) => {
            let why = if step.possible { "has no place in the job there" } else { "was forced, and no walk crosses a forced step" };
            format!("The job follows the log up to position {follows} and no further: the next step, {}, {why}.", names.action(step.action))
        }
    }];
    if !job.waits.is_empty() {
        let waits = waited(facts, names, &job.waits);
        let waits_for = if job.ended && follows == facts.end { "It could go on with" } else { "It waits there for" };
        said.push(format!("{waits_for} {}.", waits.join("; or ")));
    }
    let come = if follows == facts.end { "may come next" } else { "might have come next" };
    said.push(match &job.next[..] {
        [] => format!("No action {come}."),
        next => format!("What {come}: {}.", sequence(next.iter().copied(), names)),
    });
    said
}

/// The steps that the job waits for; of those that are not possible what is amiss, if they are few.
fn waited(facts: &Facts, names: &Names, actions: &[Option<usize>]) -> Vec<String> {
    let next = &facts.standing.next;
    let named = |action: &Option<usize>| action.map_or("any possible step".to_string(), |action| names.action(action));
    let mut told: Vec<String> = actions.iter().filter(|action| action.is_none_or(|action| next.contains(&action))).map(named).collect();
    let not: Vec<usize> = actions.iter().flatten().copied().filter(|action| !next.contains(action)).collect();
    match not.len() {
        0..=FEW => told.extend(not.iter().map(|&action| {
            let amiss = not_possible(facts, names, action, facts.standing.follows);
            format!("{}, which is not possible{amiss}", names.action(action))
        })),
        many => told.push(format!("{many} others that are not possible")),
    }
    told
}

/// What is missing, or why there is nothing that finishes the job.
pub fn finish(facts: &Facts, names: &Names) -> Vec<String> {
    let job = &facts.standing;
    let list = |actions: &[u8]| sequence(actions.iter().map(|&action| action as usize), names);
    match &job.finish {
        Some(missing) if missing.is_empty() => return vec!["Nothing is missing.".to_string()],
        Some(missing) => return vec![format!("Missing, the first way to finish it: {}.", list(missing))],
        None => {}
    }
    let mut said = vec![match facts.more {
        0 => "It is not finished, and more=0 leaves room for no action.".to_string(),
        1 => "No single action finishes it.".to_string(),
        more => format!("No sequence of at most {more} actions finishes it."),
    }];
    if job.follows < facts.end {
        said.push("The log has left the ways of the job: it does not come to the log's end.".to_string());
    }
    if let Some(longer) = &job.longer {
        said.push(format!("With more={} it would be: {}.", job.asked, list(longer)));
    } else if job.asked == FINISH_ROOM && facts.more < FINISH_ROOM {
        said.push(format!("Nor does one of up to {FINISH_ROOM}, the most that a sheet can ask for."));
    } else if job.asked < FINISH_ROOM {
        said.push(format!("Longer sequences than of {} were not looked for: there are too many.", job.asked));
    }
    if job.follows == facts.end && job.room < FINISH_ROOM {
        said.push(format!("The log has room for {} steps more.", job.room));
    }
    said
}

/// The refusal in one sentence, and its place.
pub fn refusal(refused: &Refused) -> Vec<String> {
    let fault = refused.fault;
    let place = match &refused.spot {
        _ if fault.line == 0 => format!("It has {} bytes or more.", refused.bytes),
        Some(spot) => format!("Line {}, column {}: {}.", fault.line, spot.from + 1, spot.said),
        None => format!("It is line {}.", fault.line),
    };
    vec![format!("Refusal {}: {}.", fault.refusal.number(), fault.refusal), place]
}
