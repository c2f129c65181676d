//! Everything that a picture shows of an accepted sheet, asked of the library.
use crate::asked::Asker;
use crate::places::Places;
use crate::progress::Progress;
use crate::standing::Standing;
use crate::tree::Node;
use wyndhopper::{Job, Kind, Refusal, Sheet};

/// A step of the log: its action, and whether it was possible where it stands. If it was not, it was forced.
#[derive(Clone, Copy, Debug, PartialEq, Eq)]
pub struct Step {
    pub action: usize,
    pub possible: bool,
}

/// The facts of one sheet.
#[derive(Clone, Debug)]
pub struct Facts {
    pub fluents: usize,
    pub actions: usize,
    /// How many values a variable has; 0 in a sheet without variables.
    pub domain: usize,
    /// The log's end: its length.
    pub end: usize,
    pub steps: Vec<Step>,
    /// The state at each position of the log, and behind its end at those of the finishing sequence.
    pub states: Vec<u32>,
    /// The verdict of the ask line at each position, with now there too; the last is the sheet's own.
    pub verdicts: Vec<bool>,
    pub ask: Node,
    pub run: Node,
    pub more: usize,
    pub standing: Standing,
    /// What each action needs on, and needs off, as masks.
    pub needs: Vec<(u32, u32)>,
}

impl Facts {
    /// Asks the library for all of it.
    pub fn of(sheet: &Sheet, progress: &Progress) -> Result<Facts, Refusal> {
        let job = &sheet.job;
        let end = job.log().len();
        let mut steps = Vec::new();
        for (place, &action) in job.log().iter().enumerate() {
            steps.push(Step { action: action as usize, possible: job.possible(action as usize, place)? });
        }
        let mut verdicts = Vec::new();
        for place in 0..=end {
            progress.at(format!("asking for the verdict at position {place} of {end}"));
            verdicts.push(job.verdict(sheet.ask, place, place)?);
        }
        let (mut ask, mut run) = (Node::of(job, Kind::Test, sheet.ask), Node::of(job, Kind::Walk, sheet.run));
        Asker { job, progress, rule: "question" }.ask_all(&mut ask)?;
        Asker { job, progress, rule: "job" }.ask_all(&mut run)?;
        let standing = Standing::of(sheet, &mut run, progress)?;
        let states = states(job, standing.finish.as_deref().unwrap_or(&[]))?;
        Ok(Facts {
            fluents: job.fluents(),
            actions: job.actions(),
            domain: job.domain(),
            end,
            steps,
            states,
            verdicts,
            ask,
            run,
            more: sheet.more,
            standing,
            needs: needs(job),
        })
    }

    /// The verdict at the log's end.
    pub fn verdict(&self) -> bool {
        self.verdicts[self.end]
    }

    /// The state at the log's end.
    pub fn state(&self) -> u32 {
        self.states[self.end]
    }

    /// What the program jobsheet prints for this sheet.
    pub fn answer(&self) -> String {
        let finish = match &self.standing.finish {
            Some(sequence) => sequence.iter().map(|action| format!("{action:02}")).collect(),
            None => "none".to_string(),
        };
        format!("verdict={}\nstate={:08x}\nfinish={finish}\n", yes_no(self.verdict()), self.state())
    }

    /// A fluent is on at a position.
    pub fn on(&self, fluent: usize, place: usize) -> bool {
        self.states[place] >> fluent & 1 == 1
    }

    /// The positions, behind the log's end too, where a fluent is on.
    pub fn lane(&self, fluent: usize) -> Places {
        (0..self.states.len()).filter(|&place| self.on(fluent, place)).collect()
    }

    /// The positions at which the verdict is another than just before.
    pub fn turns(&self) -> Vec<usize> {
        (1..=self.end).filter(|&place| self.verdicts[place] != self.verdicts[place - 1]).collect()
    }
}

pub fn yes_no(yes: bool) -> &'static str {
    if yes {
        "yes"
    } else {
        "no"
    }
}

/// The state at each position of the log followed by these actions.
fn states(job: &Job, more: &[u8]) -> Result<Vec<u32>, Refusal> {
    let log = [job.log(), more].concat();
    (0..=log.len()).map(|place| job.with_log(&log).state(place)).collect()
}

/// The first two masks of each action's row, in every version of the sheet: need and ban.
fn needs(job: &Job) -> Vec<(u32, u32)> {
    let row = job.masks().len() / job.actions();
    job.masks().chunks(row).map(|masks| (masks[0], masks[1])).collect()
}
