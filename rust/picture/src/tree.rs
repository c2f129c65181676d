//! A rule as a tree. Where a part ends the library says, which reads the part and hands back the rest; from the table of signs comes only which kinds of parts there are.
use crate::asked::Row;
use crate::places::Places;
use crate::signs::{opening, At, Behind, Own, Sign};
use wyndhopper::{Job, Kind, RULE_ROOM};

/// Values for variables, each variable once.
pub type Values = Vec<(u8, usize)>;

/// A rule or a part of one.
#[derive(Clone, Debug)]
pub struct Node {
    pub text: Vec<u8>,
    pub kind: Kind,
    pub lead: &'static str,
    pub sign: Option<&'static Sign>,
    pub parts: Vec<Node>,
    /// The variables that are bound around it.
    pub scope: Vec<u8>,
    pub rows: Vec<Row>,
    /// How many places or values it is asked with that have no row.
    pub left_out: usize,
    /// Where it leads from the log's end: of the walk of a `<`.
    pub from_end: Option<Places>,
    /// Of a job's own step: the job waits here.
    pub waits: bool,
}

impl Node {
    /// The tree of a rule that the library has accepted.
    pub fn of(job: &Job, kind: Kind, text: &[u8]) -> Node {
        Node::led(job, kind, text, "", &[])
    }

    fn led(job: &Job, kind: Kind, text: &[u8], lead: &'static str, scope: &[u8]) -> Node {
        let known = opening(text).and_then(|sign| Some((sign, parts_of(job, sign, text, scope)?)));
        let (sign, parts) = known.map_or((None, Vec::new()), |(sign, parts)| (Some(sign), parts));
        Node { text: text.to_vec(), kind, lead, sign, parts, scope: scope.to_vec(), rows: Vec::new(), left_out: 0, from_end: None, waits: false }
    }

    /// The part and all parts of it, each with its depth, in the order of the text. A walk that is turned and its other form are one part.
    pub fn each<'n>(&'n self, depth: usize, see: &mut impl FnMut(&'n Node, usize)) {
        see(self, depth);
        for part in &self.turned().unwrap_or(self).parts {
            part.each(depth + 1, see);
        }
    }

    /// The other form of a walk that is turned: as it is walked.
    pub fn turned(&self) -> Option<&Node> {
        self.sign.filter(|sign| matches!(sign.behind, Behind::Turned)).and(self.parts.first())
    }

    /// It looks away from the place where it is asked, so that it matters how far it sees.
    pub fn looks(&self) -> bool {
        self.kind == Kind::Walk || self.parts.iter().any(Node::looks)
    }

    /// Whether it has a test as a step outside every `<` walk, and whether inside one.
    pub fn checks(&self) -> (bool, bool) {
        let mut found = (false, false);
        self.find_checks(false, &mut found);
        found
    }

    fn find_checks(&self, inside: bool, found: &mut (bool, bool)) {
        if let Some(Behind::Parts(parts)) = self.sign.map(|sign| sign.behind) {
            if parts.iter().any(|part| part.at == At::UpToHere) {
                *(if inside { &mut found.1 } else { &mut found.0 }) = true;
            }
        }
        for part in &self.parts {
            part.find_checks(inside || (self.kind == Kind::Test && part.kind == Kind::Walk), found);
        }
    }

    /// How many parts there are, this one among them.
    pub fn count(&self) -> usize {
        1 + self.parts.iter().map(Node::count).sum::<usize>()
    }

    /// The number of the action or fluent that the sign names; a variable counts as 0.
    pub fn named(&self) -> Option<usize> {
        match self.sign?.own {
            Own::Nothing | Own::Variable => None,
            _ => std::str::from_utf8(self.text.get(1..3)?).ok()?.parse().ok(),
        }
    }

    /// The variable that the sign names or binds.
    pub fn variable(&self) -> Option<u8> {
        match self.sign?.own {
            Own::ActionPlus(_) | Own::FluentPlus(_) | Own::Variable => self.text.get(self.sign?.own.room()).copied(),
            _ => None,
        }
    }

    /// The number that the sign names with these values.
    pub fn named_with(&self, values: &Values) -> Option<usize> {
        let value = self.variable().and_then(|own| values.iter().find(|(variable, _)| *variable == own));
        Some(self.named()? + value.map_or(0, |(_, value)| *value))
    }

    /// The sign is one step on, or one step back.
    pub fn steps(&self) -> bool {
        self.kind == Kind::Walk && self.parts.is_empty()
    }

    /// The part with these values written in for the variables that are bound around it.
    pub fn spelled(&self, values: &Values) -> Vec<u8> {
        let (Some(sign), false) = (self.sign, values.is_empty()) else { return self.text.clone() };
        let parts = |values: &Values| self.parts.iter().flat_map(|part| part.spelled(values)).collect::<Vec<u8>>();
        match (sign.own, self.turned()) {
            (_, Some(turned)) => turned.spelled(values),
            (Own::ActionPlus(plain) | Own::FluentPlus(plain), _) if values.iter().any(|(variable, _)| Some(*variable) == self.variable()) => {
                [&[plain], format!("{:02}", self.named_with(values).unwrap_or(0)).as_bytes()].concat()
            }
            (Own::Variable, _) => {
                let outer = values.iter().filter(|(variable, _)| Some(*variable) != self.variable()).copied().collect();
                [&self.text[..2], &parts(&outer)].concat()
            }
            _ => [&self.text[..1 + sign.own.room()], &parts(values)].concat(),
        }
    }

    /// The part with every variable that is bound around it bound in front: with some value of each.
    pub fn closed(&self) -> Vec<u8> {
        [&binders(self.kind, &self.scope), &self.text[..]].concat()
    }
}

/// Binders of these variables for a rule of this kind.
fn binders(kind: Kind, scope: &[u8]) -> Vec<u8> {
    let binder = if kind == Kind::Test { b'e' } else { b'p' };
    scope.iter().flat_map(|&variable| [binder, variable]).collect()
}

/// The parts that follow a sign: the library reads each and hands back what is left. None where the text is not as the table has it. What is bound around a part is bound in front of it when the library
/// is asked; that is never longer or deeper than the whole rule.
fn parts_of(job: &Job, sign: &Sign, text: &[u8], scope: &[u8]) -> Option<Vec<Node>> {
    let own = text.get(..1 + sign.own.room())?;
    let mut inner = scope.to_vec();
    if sign.own == Own::Variable && !inner.contains(&own[1]) {
        inner.push(own[1]);
    }
    let behind = match sign.behind {
        Behind::Parts(behind) => behind,
        Behind::Turned => {
            let front = binders(Kind::Walk, scope);
            let mut form = [0; RULE_ROOM];
            let count = job.normal(Kind::Walk, &[&front, text].concat(), &mut form).ok()?;
            return Some(vec![Node::led(job, Kind::Walk, &form[front.len()..count], "", scope)]);
        }
    };
    let mut rest = &text[own.len()..];
    let mut parts = Vec::new();
    for part in behind {
        let left = job.read_rule(part.kind, &[&binders(part.kind, &inner), rest].concat()).ok()?.len();
        let (own, after) = rest.split_at(rest.len() - left);
        parts.push(Node::led(job, part.kind, own, part.lead, &inner));
        rest = after;
    }
    rest.is_empty().then_some(parts)
}
