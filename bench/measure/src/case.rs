//! A case: a theory, a log and one question, and its answer by each of the implementations.
use wyndhopper::ROW_MASKS;

#[derive(Clone, Debug)]
pub struct Theory {
    pub fluents: usize,
    /// How many values a variable has, 0 where no rule has one.
    pub domain: usize,
    pub start: u32,
    /// Ten masks an action; the effects of most theories here do not depend.
    pub masks: Vec<u32>,
}

#[derive(Clone, Debug)]
pub enum Ask {
    /// A test at (then, the log's end).
    Verdict { test: String, then: usize },
    /// A walk from `then`, now at the log's end.
    Reach { walk: String, then: usize },
    Finish { job: String, more: usize },
}

#[derive(Clone, Debug)]
pub struct Case {
    pub name: String,
    pub theory: Theory,
    pub log: Vec<u8>,
    pub ask: Ask,
}

/// What a call says, folded into words: a verdict, a set with its count and earliest, or a length with the sequence.
pub type Answer = Result<[u64; 3], u8>;

impl Theory {
    pub fn actions(&self) -> usize {
        self.masks.len() / ROW_MASKS
    }

    pub fn with_domain(self, domain: usize) -> Self {
        Theory { domain, ..self }
    }
}

fn told(count: usize, out: &[u8; 6]) -> [u64; 3] {
    [count as u64, out.iter().fold(0, |all, &a| all << 8 | u64::from(a)), 0]
}

/// The proved library, through its safe Rust crate.
pub fn ours(c: &Case) -> Answer {
    let t = &c.theory;
    let job = wyndhopper::Job::new(t.fluents, t.actions(), &t.masks).with_domain(t.domain).with_start(t.start).with_log(&c.log);
    let now = c.log.len();
    let answer = match &c.ask {
        Ask::Verdict { test, then } => job.verdict(test.as_bytes(), *then, now).map(|yes| [u64::from(yes), 0, 0]),
        Ask::Reach { walk, then } => job.reach(walk.as_bytes(), *then, now).map(|r| [r.set[0], r.count as u64, r.earliest as u64]),
        Ask::Finish { job: run, more } => {
            let mut out = [0; 6];
            job.finish(run.as_bytes(), *more, &mut out).map(|count| told(count, &out))
        }
    };
    answer.map_err(wyndhopper::Refusal::number)
}

/// The plain crate has each call a second time, quicker.
macro_rules! engine {
    ($name:ident, $verdict:ident, $reach:ident, $finish:ident) => {
        pub fn $name(c: &Case) -> Answer {
            let t = &c.theory;
            let job = plain::Job { fluents: t.fluents, actions: t.actions(), domain: t.domain, start: t.start, masks: &t.masks, log: &c.log };
            let now = c.log.len();
            match &c.ask {
                Ask::Verdict { test, then } => job.$verdict(test.as_bytes(), *then, now).map(|yes| [u64::from(yes), 0, 0]),
                Ask::Reach { walk, then } => {
                    job.$reach(walk.as_bytes(), *then, now).map(|r| [r.set, u64::from(r.count), u64::from(r.earliest)])
                }
                Ask::Finish { job: text, more } => {
                    let mut out = [0; 6];
                    job.$finish(text.as_bytes(), *more, &mut out).map(|count| told(count, &out))
                }
            }
        }
    };
}

engine!(plain, verdict, reach, finish);
engine!(quick, quick_verdict, quick_reach, quick_finish);

impl Case {
    fn plain(&self) -> plain::Job<'_> {
        let t = &self.theory;
        plain::Job { fluents: t.fluents, actions: t.actions(), domain: t.domain, start: t.start, masks: &t.masks, log: &self.log }
    }
}

/// How often the search asks the job: in the plain implementation, counted up to a limit, and in the quick one.
pub fn turns(c: &Case, limit: usize) -> Option<(usize, usize)> {
    let Ask::Finish { job, more } = &c.ask else { return None };
    let job = job.as_bytes();
    Some((c.plain().finish_turns(job, *more, limit).ok()?, c.plain().quick_finish_turns(job, *more).ok()?))
}

/// How many signs the quick plain implementation visits for a verdict or a reach, and how many a rule of this length may take it at most.
pub fn visits(c: &Case) -> Option<(usize, usize)> {
    let job = c.plain();
    let now = c.log.len();
    let (text, visits) = match &c.ask {
        Ask::Verdict { test, then } => (test, job.verdict_visits(test.as_bytes(), *then, now)),
        Ask::Reach { walk, then } => (walk, job.reach_visits(walk.as_bytes(), *then, now)),
        Ask::Finish { .. } => return None,
    };
    Some((visits.ok()?, text.len() * (now + 1) * (now + 2) / 2))
}

/// A sheet's text, of version 2 where there are variables.
pub fn sheet(t: &Theory, log: &[u8], ask: &str, run: &str, more: usize) -> String {
    let version = if t.domain == 0 { 1 } else { 2 };
    sheet_of(version, t, log, ask, run, more)
}

/// The same of this version; one before 3 has the masks of effects that do not depend.
pub fn sheet_of(version: usize, t: &Theory, log: &[u8], ask: &str, run: &str, more: usize) -> String {
    let domain = if version == 1 { String::new() } else { format!("domain={:02}\n", t.domain.max(1)) };
    let mut s = format!("sheet={version}\nfluents={:02}\nactions={:02}\n{domain}start={:08x}\n", t.fluents, t.actions(), t.start);
    for m in t.masks.chunks(ROW_MASKS) {
        let line = if version < 3 { vec![m[0], m[1], m[4], m[5]] } else { m.to_vec() };
        let hex: Vec<String> = line.iter().map(|m| format!("{m:08x}")).collect();
        s += &format!("act={}\n", hex.join(","));
    }
    let steps: String = log.iter().map(|a| format!("{a:02}")).collect();
    s + &format!("log={steps}\nask={ask}\nrun={run}\nmore={more}\n")
}
