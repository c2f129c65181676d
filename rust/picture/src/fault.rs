//! Where a refused sheet is at fault. The library names the line and the number; the place in the line is found by asking it about the same sheet with a piece of that line: its beginning,
//! filled up with the least that makes a whole line of it. The place is where filling up does not help any more. Nothing is read here, and no sign is known.
use wyndhopper::{Fault, Refusal, Sheet, SheetRoom, RULE_ROOM};

/// The lines of all versions, each with the least that it may say.
const LINES: [(&str, &str); 12] = [
    ("sheet", "1"),
    ("fluents", "00"),
    ("actions", "01"),
    ("domain", "01"),
    ("start", "00000000"),
    ("act", "00000000,00000000,00000000,00000000"),
    ("act", "00000000,00000000,00000000,00000000,00000000,00000000,00000000,00000000,00000000,00000000"),
    ("log", ""),
    ("now", "step"),
    ("ask", "1"),
    ("run", "n"),
    ("more", "0"),
];

/// What a sign may want behind it: nothing; its digits, then a variable; walks, tests. Each byte fills up for one of them. Digits come first, as `1` would do for a digit too.
const WANTED: [&str; 10] = ["", "00", "00v", "n", "nn", "n1", "vn", "1", "11", "v1"];
const LONGEST: usize = 3;

/// A stretch of the faulty line, by bytes from 0, and what is the matter with it.
#[derive(Clone, Debug, PartialEq, Eq)]
pub struct Spot {
    pub from: usize,
    pub to: usize,
    pub said: String,
}

/// A refused sheet: how long it is, its lines, without their LF, and what is known of the fault.
pub struct Refused<'a> {
    pub bytes: usize,
    pub lines: Vec<&'a [u8]>,
    pub fault: Fault,
    pub spot: Option<Spot>,
}

impl<'a> Refused<'a> {
    pub fn of(text: &'a [u8], fault: Fault) -> Refused<'a> {
        let mut lines: Vec<&[u8]> = text.split(|&byte| byte == b'\n').collect();
        if lines.last().is_some_and(|last| last.is_empty()) && fault.line < lines.len() {
            lines.pop();
        }
        let spot = (fault.line > 0).then(|| Asked::of(text, &lines, fault).spot()).flatten();
        Refused { bytes: text.len(), lines, fault, spot }
    }

    /// What the program jobsheet prints for this sheet.
    pub fn answer(&self) -> String {
        format!("refused={},line={}\n", self.fault.refusal.number(), self.fault.line)
    }

    /// The faulty line, if the sheet has it.
    pub fn line(&self) -> Option<&'a [u8]> {
        self.lines.get(self.fault.line.checked_sub(1)?).copied()
    }
}

/// A sheet that is asked about with another line in the place of the faulty one.
struct Asked<'a> {
    fault: Fault,
    before: &'a [u8],
    line: &'a [u8],
    behind: &'a [u8],
}

impl<'a> Asked<'a> {
    fn of(text: &'a [u8], lines: &[&'a [u8]], fault: Fault) -> Asked<'a> {
        let line = lines.get(fault.line - 1).copied().unwrap_or(b"");
        let at: usize = lines.iter().take(fault.line - 1).map(|line| line.len() + 1).sum();
        Asked { fault, before: &text[..at], line, behind: text.get(at + line.len() + 1..).unwrap_or(b"") }
    }

    /// How the library refuses the sheet with this line, if it is this line that it refuses.
    fn refusal(&self, line: &[u8]) -> Option<Refusal> {
        let sheet = [self.before, line, b"\n", self.behind].concat();
        let fault = Sheet::read(&sheet, &mut SheetRoom::new()).err()?;
        (fault.line == self.fault.line).then_some(fault.refusal)
    }

    fn spot(&self) -> Option<Spot> {
        let equals = self.line.iter().position(|&byte| byte == b'=');
        let (key, value) = self.line.split_at(equals.map_or(0, |equals| equals + 1));
        let spot = match (self.fault.refusal, key) {
            (Refusal::BadLine, _) => return Some(self.key()),
            (_, b"ask=" | b"run=") => self.rule(key, value),
            (_, b"log=") => self.log(value),
            _ => self.fixed(key, value)?,
        };
        Some(Spot { from: spot.from + key.len(), to: spot.to + key.len(), ..spot })
    }

    /// Which line should stand here: the one that the library takes.
    fn key(&self) -> Spot {
        let taken = LINES.iter().find(|(key, least)| self.refusal(format!("{key}={least}").as_bytes()) != Some(Refusal::BadLine));
        let all = |said| Spot { from: 0, to: self.line.len(), said };
        match taken {
            Some((key, _)) if !self.line.starts_with(format!("{key}=").as_bytes()) => all(format!("the line should open with {key}=")),
            Some(_) => Spot { from: self.line.len(), to: self.line.len(), said: "the line is not ended by an LF".to_string() },
            None => all("nothing may stand here: the sheet has ended".to_string()),
        }
    }

    /// A line of fixed width: its beginning, filled up from the least that the line may say.
    fn fixed(&self, key: &[u8], value: &[u8]) -> Option<Spot> {
        let name = std::str::from_utf8(key).ok()?.strip_suffix('=')?;
        let taken = |least: &&str| self.refusal(&[key, least.as_bytes()].concat()).is_none();
        let least = LINES.iter().filter(|(key, _)| *key == name).map(|(_, least)| *least).find(taken)?.as_bytes();
        let wrong = |end: &usize| self.refusal(&[key, &value[..*end], &least[*end..]].concat()).is_some();
        let both = value.len().min(least.len());
        Some(match (1..=both).find(wrong) {
            Some(end) => Spot { from: end - 1, to: end, said: "from here it is not as it should be".to_string() },
            None if value.len() > both => Spot { from: both, to: value.len(), said: "the line should end before this".to_string() },
            None => Spot { from: both, to: both, said: "the line ends too early".to_string() },
        })
    }

    /// The log: its beginning, with a digit more where a step lacks one.
    fn log(&self, value: &[u8]) -> Spot {
        let wrong = |end: &usize| self.refusal(&[b"log=", &value[..*end], &b"0"[..*end % 2]].concat()).is_some();
        match (1..=value.len()).find(wrong).map(|end| (end - 1) / 2) {
            Some(step) => Spot { from: 2 * step, to: (2 * step + 2).min(value.len()), said: format!("it is step {} of the log", step + 1) },
            None => Spot { from: value.len(), to: value.len(), said: "the last step lacks a digit".to_string() },
        }
    }

    /// A rule: its beginning, filled up with the least that makes a whole rule of it.
    fn rule(&self, key: &[u8], value: &[u8]) -> Spot {
        if value.len() > RULE_ROOM {
            return Spot { from: RULE_ROOM, to: value.len(), said: format!("the rule has {} bytes, and {RULE_ROOM} are the most", value.len()) };
        }
        let mut missing = vec![Missing { filler: if key == b"ask=" { b'1' } else { b'n' }, sign: 0 }];
        for at in 0..value.len() {
            if missing.is_empty() {
                return Spot { from: at, to: value.len(), said: "a whole rule ends before this".to_string() };
            }
            let first = missing.remove(0);
            let sign = if first.in_sign() { first.sign } else { at };
            let Some((wanted, refusal)) = self.wanted(key, &value[..=at], &missing) else { return first.not_there(value, at, missing.len()) };
            missing.splice(0..0, wanted.bytes().map(|filler| Missing { filler, sign }));
            if refusal == Some(self.fault.refusal) {
                let own = missing.iter().take_while(|part| part.in_sign() && part.sign == sign).count();
                let to = (at + 1 + own).min(value.len());
                return Spot { from: sign, to, said: format!("the sign at fault is {}", shown(&value[sign..to])) };
            }
        }
        Spot { from: value.len(), to: value.len(), said: ends_early(value, &missing, key.len()) }
    }

    /// What the last sign of this beginning wants behind it, so that with all that is missing it is a rule; and how the library refuses that rule, if it does.
    fn wanted(&self, key: &[u8], beginning: &[u8], missing: &[Missing]) -> Option<(&'static str, Option<Refusal>)> {
        let after: Vec<u8> = missing.iter().map(|part| part.filler).collect();
        let tried = WANTED.iter().map(|wanted| (*wanted, self.refusal(&[key, beginning, wanted.as_bytes(), &after].concat())));
        tried.into_iter().find(|(_, refusal)| *refusal != Some(Refusal::BadRule))
    }
}

/// What a beginning of a rule still lacks: the byte that fills up for it, and the place of the sign that wants it.
struct Missing {
    filler: u8,
    sign: usize,
}

impl Missing {
    /// It belongs to the sign itself: a digit or a variable.
    fn in_sign(&self) -> bool {
        matches!(self.filler, b'0' | b'v')
    }

    fn words(&self) -> &'static str {
        match self.filler {
            b'n' => "a walk",
            b'1' => "a test",
            b'0' => "a digit",
            _ => "a variable",
        }
    }

    /// Nothing makes a rule of the text up to this byte and with it.
    fn not_there(&self, value: &[u8], at: usize, left: usize) -> Spot {
        let said = if at + 1 + LONGEST + left > RULE_ROOM {
            format!("no rule of at most {RULE_ROOM} bytes begins so")
        } else {
            format!("reading stops here: {} should stand here, not {}", self.words(), shown(&value[at..=at]))
        };
        Spot { from: at, to: at + 1, said }
    }
}

/// What a rule lacks at its end; `key` is how much of the line stands before it.
fn ends_early(value: &[u8], missing: &[Missing], key: usize) -> String {
    match missing.first() {
        None => "the rule ends here".to_string(),
        Some(_) if value.is_empty() => "the rule is empty".to_string(),
        Some(part) => format!(
            "the rule ends too early: {} is missing, wanted by {} at column {}",
            part.words(),
            shown(&value[part.sign..=part.sign]),
            key + part.sign + 1
        ),
    }
}

/// Bytes as they can be shown: what is no plain sign is written `\r`, `\x00`.
pub fn shown(bytes: &[u8]) -> String {
    let shown = |&byte: &u8| match byte {
        b'\r' => "\\r".to_string(),
        b'\t' => "\\t".to_string(),
        b' '..=b'~' => (byte as char).to_string(),
        _ => format!("\\x{byte:02x}"),
    };
    bytes.iter().map(shown).collect()
}
