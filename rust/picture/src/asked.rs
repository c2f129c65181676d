//! What the library answers about each part of a rule: where a test is true and where a walk leads. From the table of signs comes only what is asked next.
use crate::places::Places;
use crate::progress::Progress;
use crate::signs::{At, Behind, Part};
use crate::tree::{Node, Values};
use wyndhopper::{Job, Kind, Reading, Refusal};

/// From how many places, the latest, a part is seen that is asked behind a walk of a test that sees up to its own place.
const SEEN: usize = 8;
/// How many rows a part has at most, with all values of its variables.
const ROWS: usize = 256;

/// How far a question sees.
#[derive(Clone, Copy, Debug, PartialEq, Eq)]
pub enum Now {
    /// Up to this position.
    At(usize),
    /// Up to the place where it is asked, wherever that is.
    Own,
}

impl Now {
    /// The now of a question that is asked at a place.
    fn at(self, place: usize) -> usize {
        match self {
            Now::At(now) => now,
            Now::Own => place,
        }
    }
}

/// What the library says of a part with one now and one value for each variable. Of a test: where it is asked, and at which positions it is true. Of a walk: from where it is walked, where it leads
/// from each of those, and all of these together.
#[derive(Clone, Debug)]
pub struct Row {
    pub now: Now,
    pub values: Values,
    pub at: Places,
    pub found: Places,
    pub ways: Vec<(usize, Places)>,
}

/// How, and where, a part is asked.
struct Asked {
    now: Now,
    values: Values,
    at: Places,
}

/// What a tree is asked of.
pub struct Asker<'a> {
    pub job: &'a Job<'a>,
    pub progress: &'a Progress,
    /// Which rule it is, for telling how far the work has come.
    pub rule: &'static str,
}

impl Asker<'_> {
    /// Asks about every part of a rule: a test at the log's end, a job from the start of the log to its end. A job's own tests keep their own place, whatever the sheet says of others.
    pub fn ask_all(&self, node: &mut Node) -> Result<(), Refusal> {
        let end = self.job.log().len();
        let (from, own) = if node.kind == Kind::Test { (end, self.job.reading()) } else { (0, Reading::Step) };
        let mut told = (0, node.count());
        self.ask(node, vec![Asked { now: Now::At(end), values: Values::new(), at: Places::from([from]) }], own, 0, &mut told)
    }

    /// Asks about a part in each way, and then about its own parts. `own`: how its own `?` are read. `left_out`: how many were left out on the way here.
    fn ask(&self, node: &mut Node, asked: Vec<Asked>, own: Reading, left_out: usize, told: &mut (usize, usize)) -> Result<(), Refusal> {
        told.0 += 1;
        self.progress.at(format!("asking about the {}, part {} of {}", self.rule, told.0, told.1));
        let most = if self.asker(node, own).is_some() { ROWS } else { 0 };
        node.left_out = left_out + asked.len().saturating_sub(most);
        node.rows = asked.into_iter().take(most).map(|asked| self.row(node, asked, own)).collect::<Result<_, _>>()?;
        let behind: &[Part] = match node.sign.map(|sign| sign.behind) {
            Some(Behind::Parts(parts)) => parts,
            Some(Behind::Turned) => &[Part { kind: Kind::Walk, lead: "", at: At::Here }],
            None => &[],
        };
        for (k, part) in behind.iter().enumerate() {
            let (next, early) = match part.at {
                At::Here => (node.rows.iter().map(here).collect(), 0),
                At::Behind => led_to(&node.parts[k - 1].rows),
                At::Rounds => led_to(&node.rows),
                At::UpToHere if own == Reading::Step => (up_to_here(&node.rows), 0),
                At::UpToHere => (node.rows.iter().map(here).collect(), 0),
                At::EachValue => (self.each_value(node), 0),
            };
            let within = node.kind == Kind::Test && part.kind == Kind::Walk;
            let own = if within { self.job.reading() } else { own };
            self.ask(&mut node.parts[k], next, own, node.left_out + early, told)?;
        }
        self.ask_from_end(node)
    }

    /// The walk of a `<`, from the log's end.
    fn ask_from_end(&self, node: &mut Node) -> Result<(), Refusal> {
        if node.kind == Kind::Test {
            let end = self.job.log().len();
            for walk in node.parts.iter_mut().filter(|part| part.kind == Kind::Walk) {
                walk.from_end = Some(reached(self.job, &walk.closed(), end, end)?);
            }
        }
        Ok(())
    }

    /// The job that is asked about a part whose own `?` are read so: the library reads all those of a question alike. A part of a job that has some of its own and others inside a `<`, on a sheet
    /// that reads these otherwise, cannot be asked about by itself.
    fn asker(&self, node: &Node, own: Reading) -> Option<Job<'_>> {
        match node.checks() {
            _ if node.kind == Kind::Test || own == self.job.reading() => Some(*self.job),
            (false, _) => Some(*self.job),
            (true, false) => Some(self.job.with_reading(own)),
            (true, true) => None,
        }
    }

    fn row(&self, node: &Node, asked: Asked, own: Reading) -> Result<Row, Refusal> {
        let job = self.asker(node, own).expect("a part that can be asked about");
        let Asked { now, values, at } = asked;
        let text = node.spelled(&values);
        let mut ways = Vec::new();
        let mut found = Places::new();
        if node.kind == Kind::Test {
            for place in 0..=now.at(self.job.log().len()) {
                if job.verdict(&text, place, now.at(place))? {
                    found.insert(place);
                }
            }
        } else {
            for &from in &at {
                ways.push((from, reached(&job, &text, from, now.at(from))?));
            }
            found.extend(ways.iter().flat_map(|(_, to)| to));
        }
        Ok(Row { now, values, at, found, ways })
    }

    /// Each row once with each value of the variable that the part binds; an outer one of the same name is hidden.
    fn each_value(&self, node: &Node) -> Vec<Asked> {
        let Some(own) = node.variable() else { return Vec::new() };
        let with = |row: &Row, value: usize| {
            let outer = row.values.iter().filter(|(variable, _)| *variable != own).copied();
            Asked { now: row.now, values: outer.chain([(own, value)]).collect(), at: row.at.clone() }
        };
        node.rows.iter().flat_map(|row| (0..self.job.domain()).map(move |value| with(row, value))).collect()
    }
}

fn reached(job: &Job, walk: &[u8], from: usize, now: usize) -> Result<Places, Refusal> {
    let reached = job.reach(walk, from, now)?;
    Ok((0..=now).filter(|&place| reached.holds(place)).collect())
}

fn here(row: &Row) -> Asked {
    Asked { now: row.now, values: row.values.clone(), at: row.at.clone() }
}

/// All places where it is asked, each with now there: once for each choice of values.
fn up_to_here(rows: &[Row]) -> Vec<Asked> {
    let mut next: Vec<Asked> = Vec::new();
    for row in rows {
        match next.iter_mut().find(|asked| asked.values == row.values) {
            Some(asked) => asked.at.extend(&row.at),
            None => next.push(Asked { now: Now::Own, ..here(row) }),
        }
    }
    next
}

/// Where what follows a walk is asked, and how many places were left out. A now that is the walk's own place stays where it is while the walk goes on. Of several, those that lead nowhere have nothing
/// to say.
fn led_to(rows: &[Row]) -> (Vec<Asked>, usize) {
    let mut next = Vec::new();
    let mut early = 0;
    for row in rows {
        let one = |now: Now, at: &Places| Asked { now, values: row.values.clone(), at: at.clone() };
        match row.now {
            Now::At(_) => next.push(one(row.now, &row.found)),
            Now::Own => {
                let ways: Vec<_> = row.ways.iter().filter(|(_, to)| !to.is_empty()).collect();
                early += ways.len().saturating_sub(SEEN);
                next.extend(ways.iter().rev().take(SEEN).rev().map(|(from, to)| one(Now::At(*from), to)));
            }
        }
    }
    if next.len() > 1 {
        next.retain(|asked| !asked.at.is_empty());
    }
    (next, early)
}

/// Rows that differ in their values alone, shown as one.
pub struct Group<'n> {
    pub row: &'n Row,
    pub values: Vec<&'n Values>,
}

impl Node {
    /// The rows as they are shown: those that are not asked anywhere only if none is.
    pub fn groups(&self) -> Vec<Group<'_>> {
        let asked = self.rows.iter().any(|row| !row.at.is_empty());
        let mut groups: Vec<Group> = Vec::new();
        for row in self.rows.iter().filter(|row| !asked || !row.at.is_empty()) {
            let same =
                |group: &&mut Group| group.row.now == row.now && group.row.at == row.at && group.row.found == row.found && group.row.ways == row.ways;
            match groups.iter_mut().find(same) {
                Some(group) => group.values.push(&row.values),
                None => groups.push(Group { row, values: vec![&row.values] }),
            }
        }
        groups
    }
}
