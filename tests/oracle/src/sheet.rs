//! Document 01, "The sheet" and "The answering program"; document 02, Q-2: "Sheet=2 has a line `domain=NN` (01 to 16) after `actions`"; Q-6: "Sheet=3 keeps the domain line and
//! gives each action line ten masks"; Q-7: "Sheet=4 is sheet=3 with a line `now=step` or `now=end` between log and ask."
use crate::ask::{Reading, World, NO_VALUES};
use crate::finish::first;
use crate::rule::{exactly, Counts, Kind, Rule, Test, Walk};
use crate::theory::{Masks, Theory};

/// A refusal with its place.
pub type Fault = (u8, usize);

struct Lines<'a> {
    rest: &'a [u8],
    line: usize,
}

impl<'a> Lines<'a> {
    /// The value of the next line, or refusal 2 at it.
    fn next(&mut self, key: &str) -> Result<&'a [u8], Fault> {
        self.line += 1;
        let value = self.rest.strip_prefix(key.as_bytes()).ok_or((2, self.line))?;
        let end = value.iter().position(|&b| b == b'\n').ok_or((2, self.line))?;
        self.rest = &value[end + 1..];
        Ok(&value[..end])
    }

    fn fault<T>(&self, number: u8) -> Result<T, Fault> {
        Err((number, self.line))
    }
}

fn two(value: &[u8]) -> Option<usize> {
    if value.len() == 2 && value.iter().all(u8::is_ascii_digit) {
        Some((value[0] - b'0') as usize * 10 + (value[1] - b'0') as usize)
    } else {
        None
    }
}

fn hex(value: &[u8]) -> Option<u32> {
    let lower = |b: &u8| b.is_ascii_digit() || (b'a'..=b'f').contains(b);
    if value.len() == 8 && value.iter().all(lower) {
        u32::from_str_radix(std::str::from_utf8(value).unwrap(), 16).ok()
    } else {
        None
    }
}

fn lacking(fluents: usize, mask: u32) -> bool {
    (fluents..32).any(|i| mask >> i & 1 == 1)
}

fn steps(value: &[u8], actions: usize) -> Option<Vec<u8>> {
    if value.len() % 2 != 0 || value.len() > 126 {
        return None;
    }
    value.chunks(2).map(|c| two(c).filter(|&a| a < actions).map(|a| a as u8)).collect()
}

fn rule(value: &[u8], kind: Kind, theory: &Theory, domain: usize, lines: &Lines) -> Result<Rule, Fault> {
    let counts = Counts { fluents: theory.fluents, actions: theory.actions, domain };
    exactly(value, kind, counts).or_else(|n| lines.fault(n))
}

/// The domain's line, which version 1 has not: it has no variables.
fn domain(lines: &mut Lines, version: u8) -> Result<usize, Fault> {
    if version == 1 {
        return Ok(0);
    }
    match two(lines.next("domain=")?) {
        Some(n) if (1..=16).contains(&n) => Ok(n),
        _ => lines.fault(3),
    }
}

/// The reading's line, which versions 1 to 3 have not: they "mean `step`".
fn reading(lines: &mut Lines, version: u8) -> Result<Reading, Fault> {
    if version < 4 {
        return Ok(Reading::Step);
    }
    match lines.next("now=")? {
        b"step" => Ok(Reading::Step),
        b"end" => Ok(Reading::End),
        _ => lines.fault(3),
    }
}

fn version(lines: &mut Lines) -> Result<u8, Fault> {
    match lines.next("sheet=")? {
        [d @ b'1'..=b'4'] => Ok(d - b'0'),
        _ => lines.fault(3),
    }
}

/// The theory and the domain.
fn theory(lines: &mut Lines, version: u8) -> Result<(Theory, usize), Fault> {
    let fluents = match two(lines.next("fluents=")?) {
        Some(n) if n <= 32 => n,
        _ => return lines.fault(3),
    };
    let actions = match two(lines.next("actions=")?) {
        Some(n) if (1..=64).contains(&n) => n,
        _ => return lines.fault(3),
    };
    let domain = domain(lines, version)?;
    let Some(start) = hex(lines.next("start=")?) else { return lines.fault(3) };
    if lacking(fluents, start) {
        return lines.fault(4);
    }
    let mut masks = Vec::new();
    for _ in 0..actions {
        let value = lines.next("act=")?;
        let parts: Vec<Option<u32>> = value.split(|&b| b == b',').map(hex).collect();
        if parts.len() != if version >= 3 { 10 } else { 4 } || parts.iter().any(Option::is_none) {
            return lines.fault(3);
        }
        let m: Vec<u32> = parts.into_iter().flatten().collect();
        if m.iter().any(|&m| lacking(fluents, m)) {
            return lines.fault(4);
        }
        masks.push(if version >= 3 { Masks::of_ten(&m) } else { Masks::of_four(&m) });
    }
    Ok((Theory { fluents, actions, start, masks }, domain))
}

/// What a sheet says; where its rules stand, as places of the sheet.
pub struct Read {
    pub theory: Theory,
    pub domain: usize,
    pub log: Vec<u8>,
    pub reading: Reading,
    pub ask: (usize, usize),
    pub run: (usize, usize),
    pub more: usize,
    test: Test,
    job: Walk,
}

/// Where a stretch of the sheet begins and ends.
fn stretch(sheet: &[u8], value: &[u8]) -> (usize, usize) {
    let begin = value.as_ptr() as usize - sheet.as_ptr() as usize;
    (begin, begin + value.len())
}

/// Reads a sheet: what it says, or the refusal's number with its line. "Sheet limit 6,738", and "refusal 1 uses the largest limit of
/// all versions".
pub fn read(sheet: &[u8]) -> Result<Read, Fault> {
    if sheet.len() > 6738 {
        return Err((1, 0));
    }
    let mut lines = Lines { rest: sheet, line: 0 };
    let version = version(&mut lines)?;
    let (theory, domain) = theory(&mut lines, version)?;
    let Some(log) = steps(lines.next("log=")?, theory.actions) else { return lines.fault(5) };
    let reading = reading(&mut lines, version)?;
    let ask = lines.next("ask=")?;
    let test = rule(ask, Kind::Test, &theory, domain, &lines)?;
    let run = lines.next("run=")?;
    let job = rule(run, Kind::Job, &theory, domain, &lines)?;
    let more = match lines.next("more=")? {
        [d @ b'0'..=b'6'] => (d - b'0') as usize,
        _ => return lines.fault(3),
    };
    if !lines.rest.is_empty() {
        return Err((2, lines.line + 1));
    }
    let (Rule::Test(test), Rule::Walk(job)) = (test, job) else { unreachable!() };
    Ok(Read { theory, domain, log, reading, ask: stretch(sheet, ask), run: stretch(sheet, run), more, test, job })
}

fn answered(sheet: &[u8]) -> Result<String, Fault> {
    let Read { theory, domain, log, reading, more, test, job, .. } = read(sheet)?;
    let world = World::new(&theory, domain, reading, &log);
    let verdict = if world.test(&test, log.len(), NO_VALUES)[log.len()] { "yes" } else { "no" };
    let state = world.states[log.len()];
    let finish = match first(&theory, domain, reading, &log, &job, more) {
        Some(w) => w.iter().map(|a| format!("{a:02}")).collect(),
        None => "none".to_string(),
    };
    Ok(format!("verdict={verdict}\nstate={state:08x}\nfinish={finish}\n"))
}

/// What `jobsheet` prints for a sheet.
pub fn answer(sheet: &[u8]) -> String {
    answered(sheet).unwrap_or_else(|(n, line)| format!("refused={n},line={line}\n"))
}

#[cfg(test)]
mod tests {
    const SHEET: &str = "sheet=1\nfluents=02\nactions=03\nstart=00000000\nact=00000000,00000000,00000001,00000000\n\
        act=00000001,00000000,00000002,00000000\nact=00000000,00000000,00000000,00000003\nlog=00010200\nask=<-;a00*n!<;*na011\n\
        run=;a00;a01;a02;a00a01\nmore=2\n";

    #[test]
    fn the_sheet_of_document_01() {
        assert_eq!(super::answer(SHEET.as_bytes()), "verdict=yes\nstate=00000001\nfinish=01\n");
    }

    #[test]
    fn its_examples() {
        use crate::ask::{reach, verdict};
        use crate::rule::Counts;
        let c = Counts { fluents: 2, actions: 3, domain: 0 };
        let t = crate::theory::widened(&[0, 0, 1, 0, 1, 0, 2, 0, 0, 0, 0, 3]);
        let (l, m): (&[u8], &[u8]) = (&[0, 1, 2, 0], &[1, 0]);
        let set = |log, text: &str, then, now| reach(c, 0, 0, &t, log, text.as_bytes(), then, now).unwrap().set;
        assert_eq!(set(l, "a00", 0, 4), 2);
        assert_eq!(set(l, "a00", 1, 4), 0);
        assert_eq!(set(l, "r00", 4, 4), 8);
        assert_eq!(set(l, "*n", 2, 4), 28);
        assert_eq!(set(l, "*u", 2, 4), 7);
        assert_eq!(set(l, "-;a00*n", 4, 4), 9);
        assert_eq!(set(l, "?<a011", 1, 4), 0);
        assert_eq!(set(m, "a01", 0, 2), 0);
        assert_eq!(set(m, "n", 0, 2), 0);
        assert_eq!(set(m, "a00", 1, 2), 4);
        let ask = |then, now| verdict(c, 0, 0, &t, l, b"<-;a00*n!<;*na011", then, now).unwrap();
        assert_eq!([ask(4, 4), ask(2, 2), ask(1, 1), ask(1, 4)], [true, false, true, false]);
    }
}
