//! The picture as one page: drawings and style stand in it, it has no script, and it prints in black and white.
use crate::chart::Chart;
use crate::columns::Columns;
use crate::facts::{yes_no, Facts};
use crate::fault::{shown, Refused};
use crate::names::Names;
use crate::strip::{ruler, sample, strips};
use crate::svg::escaped;
use crate::tree::Node;
use crate::words;

const STYLE: &str = include_str!("style.css");

/// The hatch and the arrow's head that drawings refer to.
const HATCHES: &str = "<svg class=\"hatches\" aria-hidden=\"true\"><defs>\
<pattern id=\"forced\" width=\"5\" height=\"5\" patternUnits=\"userSpaceOnUse\" patternTransform=\"rotate(45)\"><rect width=\"5\" height=\"5\" fill=\"#fff\"/><path d=\"M0 0V5\" stroke=\"#77797c\" stroke-width=\"1.4\"/></pattern>\
<marker id=\"head\" viewBox=\"0 0 8 8\" refX=\"6.5\" refY=\"4\" markerWidth=\"7\" markerHeight=\"7\" orient=\"auto\"><path d=\"M0 1L7 4L0 7z\" fill=\"#686d72\"/></marker>\
</defs></svg>\n";

/// How much of a part's signs stands beside its words, how much of a line of a refused sheet is shown, and how many lines of it.
const SIGNS: usize = 60;
const LINE: usize = 400;
const LINES: usize = 200;

/// The page of an accepted sheet.
pub fn accepted(name: &str, facts: &Facts, names: &Names) -> String {
    let chart = Chart::of(facts, names);
    let columns = chart.columns().for_rules(facts.end);
    let verdict = yes_no(facts.verdict());
    let head = format!("The verdict is <b class=\"told {verdict}\">{verdict}</b>");
    let body = [
        header(name, &head, &words::verdicts(facts, names), &facts.answer()),
        section("log", "The log", &[chart.drawn(), said(&words::forced(facts, names)), log_legend(facts, names)].concat()),
        section("question", "The question", &[rule(&facts.ask), part_legend(), tree(&facts.ask, facts, names, columns)].concat()),
        section(
            "job",
            "The job",
            &[
                rule(&facts.run),
                said(&[words::standing(facts, names), words::finish(facts, names)].concat()),
                tree(&facts.run, facts, names, columns),
            ]
            .concat(),
        ),
    ];
    whole(&format!("{name}: {verdict}"), &body.concat())
}

/// The page of a refused sheet.
pub fn refused(name: &str, refused: &Refused) -> String {
    let number = refused.fault.refusal.number();
    let head = format!("Refused: <b class=\"told no\">{number}</b>");
    let mut body = header(name, &head, &words::refusal(refused), &refused.answer());
    if refused.fault.line > 0 {
        body.push_str(&section("sheet", "The sheet", &sheet(refused)));
    }
    whole(&format!("{name}: refused"), &body)
}

fn whole(title: &str, body: &str) -> String {
    format!(
        "<!DOCTYPE html>\n<html lang=\"en\">\n<head>\n<meta charset=\"utf-8\"/>\n<meta name=\"viewport\" content=\"width=device-width, initial-scale=1\"/>\n\
         <title>{}</title>\n<style>\n{STYLE}</style>\n</head>\n<body>\n{HATCHES}<main>\n{body}</main>\n</body>\n</html>\n",
        escaped(title)
    )
}

fn header(name: &str, head: &str, sentences: &[String], answer: &str) -> String {
    format!(
        "<header>\n<p class=\"file\">{}</p>\n<h1>{head}</h1>\n<p class=\"lede\">{}</p>\n<pre id=\"answer\">{}</pre>\n</header>\n",
        escaped(name),
        escaped(&sentences.join(" ")),
        escaped(answer.trim_end())
    )
}

fn section(id: &str, head: &str, inside: &str) -> String {
    format!("<section id=\"{id}\">\n<h2>{head}</h2>\n{inside}</section>\n")
}

fn said(sentences: &[String]) -> String {
    match sentences {
        [] => String::new(),
        _ => format!(
            "<ul class=\"said\">\n{}</ul>\n",
            sentences.iter().map(|sentence| format!("<li>{}</li>\n", escaped(sentence))).collect::<String>()
        ),
    }
}

fn rule(node: &Node) -> String {
    format!("<p class=\"rule\"><code>{}</code></p>\n", escaped(&words::signs(node)))
}

/// A rule part by part: its words beside its signs, what is answered, and the strips.
fn tree(rule: &Node, facts: &Facts, names: &Names, columns: Columns) -> String {
    let mut parts = ruler(columns);
    parts.push_str("<ol class=\"tree\">\n");
    rule.each(0, &mut |node, depth| {
        let told = match &node.groups()[..] {
            [] => "not asked".to_string(),
            [group] => words::answered(node, group.row, facts.end),
            _ => String::new(),
        };
        let more: Vec<String> = [words::from_end(node, facts.end), words::left_out(node)].into_iter().flatten().collect();
        parts.push_str(&format!(
            "<li style=\"--depth:{depth}\"><p><span class=\"words\">{}</span> <code title=\"{}\">{}</code>{}{}</p>{}{}</li>\n",
            escaped(&words::led(node, names)),
            escaped(&words::signs(node)),
            escaped(&words::cut(&words::signs(node), SIGNS)),
            badge(&told),
            if node.waits { " <b class=\"waits\">waits here</b>" } else { "" },
            strips(node, columns),
            if more.is_empty() { String::new() } else { format!("<p class=\"more\">{}</p>", escaped(&more.join("; "))) },
        ));
    });
    parts.push_str("</ol>\n");
    parts
}

/// What is answered beside a part: a plain yes or no stands out.
fn badge(told: &str) -> String {
    match told {
        "" => String::new(),
        "yes" | "no" => format!(" <b class=\"told {told}\">{told}</b>"),
        _ => format!(" <span class=\"told\">{}</span>", escaped(told)),
    }
}

fn log_legend(facts: &Facts, names: &Names) -> String {
    let state = words::state(facts, names, facts.end);
    let one =
        |inside: &str, words: &str| format!("<span><svg class=\"sample\" viewBox=\"0 0 24 20\" aria-hidden=\"true\">{inside}</svg> {words}</span>\n");
    let mut marks = one("<g class=\"position end\"><circle cx=\"12\" cy=\"10\" r=\"8\"/></g>", "the log's end");
    marks.push_str(&one("<path class=\"off\" d=\"M0 10h24\"/><path class=\"on\" d=\"M8 10h8\"/>", "the fluent is on"));
    if facts.steps.iter().any(|step| !step.possible) {
        marks.push_str(&one(
            "<g class=\"step forced\"><rect x=\"2\" y=\"2\" width=\"20\" height=\"16\" rx=\"3\"/></g>",
            "a step that was not possible where it stands",
        ));
    }
    if facts.standing.finish.as_ref().is_some_and(|missing| !missing.is_empty()) {
        marks.push_str(&one("<g class=\"step missing\"><rect x=\"2\" y=\"2\" width=\"20\" height=\"16\" rx=\"3\"/></g>", "a step that is missing"));
    }
    format!("<p class=\"legend\">\n{marks}</p>\n<p class=\"state\">On at the log's end: {}.</p>\n", escaped(&state))
}

fn part_legend() -> String {
    let marks = [("asked", "a test is asked here"), ("true", "it is true here"), ("from", "a walk begins here"), ("to", "it leads here")];
    let one = |(class, words): &(&str, &str)| format!("<span>{} {words}</span>\n", sample(class));
    format!("<p class=\"legend\">\n{}</p>\n", marks.iter().map(one).collect::<String>())
}

/// The lines of a refused sheet up to a little behind the fault; the place of the fault stands out.
fn sheet(refused: &Refused) -> String {
    let at = refused.fault.line - 1;
    let one = |(k, line): (usize, &&[u8])| {
        let line = &line[..line.len().min(LINE)];
        let class = if k == at { " class=\"fault\"" } else { "" };
        let inside = match &refused.spot {
            Some(spot) if k == at => {
                let (from, to) = (spot.from.min(line.len()), spot.to.min(line.len()));
                let here = if from < to { shown(&line[from..to]) } else { " ".to_string() };
                format!("{}<mark>{}</mark>{}", escaped(&shown(&line[..from])), escaped(&here), escaped(&shown(&line[to..])))
            }
            _ => escaped(&shown(line)),
        };
        format!("<li{class} value=\"{}\"><code>{inside}</code></li>\n", k + 1)
    };
    let upto = (at + 3).min(LINES.max(at + 1));
    format!("<ol class=\"sheet\">\n{}</ol>\n", refused.lines.iter().enumerate().take(upto).map(one).collect::<String>())
}
