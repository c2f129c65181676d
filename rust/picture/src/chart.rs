//! The log as a drawing: its positions and steps in a row, and below it the state, the verdict and each fluent's lane. Missing steps follow behind the log's end, dashed.
use crate::columns::{Columns, BESIDE, LABEL};
use crate::facts::{yes_no, Facts};
use crate::names::Names;
use crate::places::Places;
use crate::svg::{bars, drawing, escaped, path, text};
use crate::words::cut;

/// Columns as wide as a state in hex digits needs, and as the words of a step may make them.
const LEAST: usize = 58;
const COMFORT: usize = 86;
const MOST: usize = 106;
/// What a step's box leaves free on its sides, how wide a letter is, how high a line, and how many lines a box has at most.
const FREE: usize = 26;
const LETTER: usize = 6;
const LINE: usize = 13;
const LINES: usize = 3;
/// How much is kept above the boxes, and how high a lane is, where there are few and where there are many.
const ABOVE: usize = 16;
const LANE: usize = 18;
const CLOSE_LANE: usize = 13;
/// The drawing of the log, with the columns that it stands in.
pub struct Chart<'a> {
    facts: &'a Facts,
    names: &'a Names,
    columns: Columns,
    /// The steps, those that are missing among them, with the lines of their words.
    steps: Vec<Shown>,
}

struct Shown {
    action: usize,
    class: &'static str,
    words: Vec<String>,
}

impl<'a> Chart<'a> {
    pub fn of(facts: &'a Facts, names: &'a Names) -> Chart<'a> {
        let missing = facts.standing.finish.as_deref().unwrap_or(&[]).iter().map(|&action| (action as usize, "step missing"));
        let logged = facts.steps.iter().map(|step| (step.action, if step.possible { "step" } else { "step forced" }));
        let all: Vec<(usize, &str)> = logged.chain(missing).collect();
        let words: Vec<String> = all.iter().map(|(action, _)| names.step(*action)).collect();
        let pitch = pitch(&words);
        let shown = |((action, class), words): ((usize, &'static str), &String)| Shown { action, class, words: boxed(words, letters(pitch)) };
        let steps: Vec<Shown> = all.into_iter().zip(&words).map(shown).collect();
        Chart { facts, names, columns: Columns::new(pitch, steps.len()), steps }
    }

    pub fn columns(&self) -> Columns {
        self.columns
    }

    /// One drawing for each line.
    pub fn drawn(&self) -> String {
        self.columns.lines().into_iter().map(|line| self.line(line)).collect()
    }

    fn line(&self, line: (usize, usize)) -> String {
        let most = self.steps.iter().map(|step| step.words.len()).max().unwrap_or(1);
        let high = LINE * most + 12;
        let (below, lanes) = (ABOVE + high, ABOVE + high + 52);
        let (class, lane) = if self.facts.fluents > 12 { ("log close", CLOSE_LANE) } else { ("log", LANE) };
        let height = lanes + lane * self.facts.fluents + 4;
        let inside = [
            self.grid(line, ABOVE + high / 2, height),
            (line.0..line.1).map(|place| self.step(line, place, high)).collect(),
            (line.0..=line.1).map(|place| self.position(line, place, ABOVE + high / 2)).collect(),
            self.states(line, below + 16),
            self.verdicts(line, below + 36),
            (0..self.facts.fluents).map(|fluent| self.lane(line, fluent, lanes + lane * fluent + lane / 2)).collect::<String>(),
        ];
        drawing(class, height, &format!("positions {} to {} of the log", line.0, line.1), &inside.concat())
    }

    /// A fine line through each position, and the line on which the steps stand.
    fn grid(&self, line: (usize, usize), y: usize, height: usize) -> String {
        let through = |place| format!("M{} {y}V{height}", self.columns.x(line.0, place));
        let row = format!("M{} {y}H{}", self.columns.x(line.0, line.0), self.columns.x(line.0, line.1));
        [path("grid", &(line.0..=line.1).map(through).collect::<String>()), path("row", &row)].concat()
    }

    fn position(&self, line: (usize, usize), place: usize, y: usize) -> String {
        let x = self.columns.x(line.0, place);
        let class = match place {
            place if place == self.facts.end => "position end",
            place if place > self.facts.end => "position missing",
            _ => "position",
        };
        let number = place.to_string();
        format!("<g class=\"{class}\"><circle cx=\"{x}\" cy=\"{y}\" r=\"9\"/>{}</g>", text(&format!("digits{}", number.len()), x, y + 4, &number))
    }

    fn step(&self, line: (usize, usize), place: usize, high: usize) -> String {
        let step = &self.steps[place];
        let (x, wide) = (self.columns.x(line.0, place) + FREE / 2, self.columns.pitch - FREE);
        let (middle, top) = (x + wide / 2, ABOVE + (high - LINE * step.words.len()) / 2 + LINE - 3);
        let words: String = step.words.iter().enumerate().map(|(k, words)| text("", middle, top + LINE * k, words)).collect();
        let first_missing = step.class == "step missing" && place == self.facts.end;
        let flag = match step.class {
            "step forced" => text("flag", middle, ABOVE - 5, "forced"),
            _ if first_missing => text("flag", middle, ABOVE - 5, "missing"),
            _ => String::new(),
        };
        let title = escaped(&self.names.numbered(step.action));
        format!(
            "<g class=\"{}\" data-action=\"{:02}\"><title>{title}</title><rect x=\"{x}\" y=\"{ABOVE}\" width=\"{wide}\" height=\"{high}\" rx=\"3\"/>{words}{flag}</g>",
            step.class, step.action
        )
    }

    fn states(&self, line: (usize, usize), y: usize) -> String {
        let one = |place: usize| {
            let class = if place == line.0 && place > 0 { "state again" } else { "state" };
            text(class, self.columns.x(line.0, place), y, &format!("{:08x}", self.facts.states[place]))
        };
        text("beside", 0, y, "state") + &(line.0..=line.1).map(one).collect::<String>()
    }

    fn verdicts(&self, line: (usize, usize), y: usize) -> String {
        let one = |place: usize| {
            let (x, verdict) = (self.columns.x(line.0, place), yes_no(self.facts.verdicts[place]));
            let again = if place == line.0 && place > 0 { " again" } else { "" };
            format!(
                "<g class=\"verdict {verdict}{again}\"><rect x=\"{}\" y=\"{}\" width=\"32\" height=\"15\" rx=\"7\"/>{}</g>",
                x - 16,
                y - 11,
                text("", x, y, verdict)
            )
        };
        text("beside", 0, y, "verdict") + &(line.0..=line.1.min(self.facts.end)).map(one).collect::<String>()
    }

    fn lane(&self, line: (usize, usize), fluent: usize, y: usize) -> String {
        let (logged, mut missing): (Places, Places) = self.facts.lane(fluent).into_iter().partition(|place| *place <= self.facts.end);
        if missing.contains(&(self.facts.end + 1)) && logged.contains(&self.facts.end) {
            missing.insert(self.facts.end); // the lane goes on without a gap
        }
        let name = self.names.lane(fluent);
        let off = format!("M{} {y}H{}", LABEL, self.columns.x(line.0, line.1) + self.columns.pitch / 2);
        let beside = format!("<g><title>{}</title>{}</g>", escaped(&name), text("beside", 0, y + 4, &cut(&name, BESIDE)));
        let later = [bars("on", self.columns, line, y, &missing), bars("hollow", self.columns, line, y, &missing)].concat();
        let lanes = [path("off", &off), later, bars("on", self.columns, line, y, &logged)];
        format!("<g class=\"lane\" data-fluent=\"{fluent:02}\">{beside}{}</g>", lanes.concat())
    }
}

/// The narrowest columns in which all words fit in two lines; if that is too wide, in as many as a box has.
fn pitch(words: &[String]) -> usize {
    let fit = |pitch: usize, lines: usize| {
        words
            .iter()
            .map(|words| broken(words, letters(pitch)))
            .all(|broken| broken.len() <= lines && broken.iter().all(|line| line.chars().count() <= letters(pitch)))
    };
    let widths = || (LEAST..=MOST).step_by(4);
    widths().take_while(|pitch| *pitch <= COMFORT).find(|pitch| fit(*pitch, 2)).or_else(|| widths().find(|pitch| fit(*pitch, LINES))).unwrap_or(MOST)
}

/// How many letters a line of a step's box has room for.
fn letters(pitch: usize) -> usize {
    (pitch - FREE - 2) / LETTER
}

/// The words in lines of at most so many letters; a longer word has a line of its own.
fn broken(words: &str, most: usize) -> Vec<String> {
    let mut lines: Vec<String> = Vec::new();
    for word in words.split_whitespace() {
        match lines.last_mut() {
            Some(line) if line.chars().count() + 1 + word.chars().count() <= most => {
                line.push(' ');
                line.push_str(word);
            }
            _ => lines.push(word.to_string()),
        }
    }
    lines
}

/// The same, cut to what a box has room for.
fn boxed(words: &str, most: usize) -> Vec<String> {
    let mut lines = broken(words, most);
    if lines.len() > LINES {
        lines.truncate(LINES);
        lines[LINES - 1].push_str(" …");
    }
    lines.iter().map(|line| cut(line, most)).collect()
}
