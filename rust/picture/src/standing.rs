//! Where the job stands: how far it follows the log, what it waits for, what may come next, what is missing, or why nothing finishes it. Each of these is an answer of the library.
use crate::progress::Progress;
use crate::tree::Node;
use wyndhopper::{Job, Kind, Refusal, Sheet, FINISH_ROOM};

/// Longer sequences than the sheet asks for are looked for only while there are at most so many.
const SEQUENCES: u64 = 2_000_000;

#[derive(Clone, Debug)]
pub struct Standing {
    /// The last position of the log that the job comes to.
    pub follows: usize,
    /// The job has come to its end at the log's end.
    pub ended: bool,
    /// The actions that the job waits for at `follows`, each once; none is any action.
    pub waits: Vec<Option<usize>>,
    /// The actions that may come next at `follows`.
    pub next: Vec<usize>,
    /// What is missing, if at most *more* actions finish the job.
    pub finish: Option<Vec<u8>>,
    /// If not: what a larger *more* would give, and the largest that was asked for.
    pub longer: Option<Vec<u8>>,
    pub asked: usize,
    /// How many steps the log has room for, up to the longest finish.
    pub room: usize,
}

impl Standing {
    /// Asks about the job, whose tree has been asked about; the steps that it waits with are marked in the tree.
    pub fn of(sheet: &Sheet, run: &mut Node, progress: &Progress) -> Result<Standing, Refusal> {
        let job = &sheet.job;
        let mut follows = if run.rows.is_empty() { followed(sheet) } else { 0 };
        own_walk(run, &mut |node| {
            follows = follows.max(node.rows.iter().filter_map(|row| row.at.last().max(row.found.last())).max().copied().unwrap_or(0))
        });
        let mut waits: Vec<Option<usize>> = Vec::new();
        own_walk(run, &mut |node| {
            let here = node.rows.iter().filter(|row| row.at.contains(&follows));
            let actions: Vec<Option<usize>> = here.filter(|_| node.steps()).map(|row| node.named_with(&row.values)).collect();
            node.waits = !actions.is_empty();
            let new = actions.into_iter().filter(|action| !waits.contains(action)).collect::<std::collections::BTreeSet<_>>();
            waits.extend(new);
        });
        let next = job.with_log(&job.log()[..follows]).next(sheet.run)?;
        let next = (0..job.actions()).filter(|action| next >> action & 1 == 1).collect();
        let finish = sought(sheet, 0..=sheet.more, progress)?;
        let mut asked = sheet.more;
        let mut longer = None;
        if finish.is_none() {
            while longer.is_none() && asked < FINISH_ROOM && (job.actions() as u64).pow(asked as u32 + 1) <= SEQUENCES {
                asked += 1;
                longer = sought(sheet, asked..=asked, progress)?;
            }
        }
        let ended = sought(sheet, 0..=0, progress)?.is_some();
        Ok(Standing { follows, ended, waits, next, finish, longer, asked, room: room(job) })
    }
}

/// The last position at which something may come next, or the job is at its end: of a job that is not asked about part by part.
fn followed(sheet: &Sheet) -> usize {
    let comes_to = |place: &usize| {
        let cut = sheet.job.with_log(&sheet.job.log()[..*place]);
        cut.next(sheet.run).is_ok_and(|next| next != 0) || cut.finish(sheet.run, 0, &mut []).is_ok()
    };
    (0..=sheet.job.log().len()).rev().find(comes_to).unwrap_or(0)
}

/// The first finishing sequence, for each bound in turn, so that long work can tell how far it is.
fn sought(sheet: &Sheet, bounds: std::ops::RangeInclusive<usize>, progress: &Progress) -> Result<Option<Vec<u8>>, Refusal> {
    for more in bounds {
        progress.at(format!("looking for a finishing sequence of up to {more} actions"));
        let mut out = [0; FINISH_ROOM];
        match sheet.job.finish(sheet.run, more, &mut out) {
            Ok(count) => return Ok(Some(out[..count].to_vec())),
            Err(Refusal::NoFinish) => {}
            Err(refusal) => return Err(refusal),
        }
    }
    Ok(None)
}

/// How many steps more the log may have: the library is asked about longer logs.
fn room(job: &Job) -> usize {
    let longer = |more: usize| job.with_log(&[job.log(), &vec![0; more]].concat()).state(0).is_ok();
    (0..=FINISH_ROOM).rev().find(|&more| longer(more)).unwrap_or(0)
}

/// The parts of a job that are carried out: all but its tests.
fn own_walk(node: &mut Node, see: &mut impl FnMut(&mut Node)) {
    if node.kind == Kind::Walk {
        see(node);
        node.parts.iter_mut().for_each(|part| own_walk(part, see));
    }
}
