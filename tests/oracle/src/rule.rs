//! Document 01, "Rule text": the two grammars, depth, names, and what a job may not have; document 02, Q-2: variables.
use crate::Refusal;

/// "Variables are `v`, `w`, `x`, `y`." One is known by its letter.
pub const LETTERS: &[u8] = b"vwxy";

/// The signs that Q-2 adds.
const NEW_SIGNS: &[u8] = b"pebsg";

/// An action or a fluent as a rule names it: by its number, or by "NN plus the value" of a variable.
#[derive(Clone, Copy, Debug, PartialEq)]
pub struct Name {
    pub number: usize,
    pub plus: Option<u8>,
}

#[derive(Clone, Debug, PartialEq)]
pub enum Walk {
    Act(Name),
    Undo(Name),
    Next,
    Prev,
    Seq(Box<Walk>, Box<Walk>),
    Alt(Box<Walk>, Box<Walk>),
    Star(Box<Walk>),
    Check(Box<Test>),
    Conv(Box<Walk>),
    /// `pvW`: "W for some value of v"
    Pick(u8, Box<Walk>),
}

#[derive(Clone, Debug, PartialEq)]
pub enum Test {
    Always,
    Fluent(Name),
    Not(Box<Test>),
    Both(Box<Test>, Box<Test>),
    Some(Box<Walk>, Box<Test>),
    /// `evT`: "T for some value"
    Exists(u8, Box<Test>),
}

#[derive(Clone, Debug, PartialEq)]
pub enum Rule {
    Walk(Walk),
    Test(Test),
}

#[derive(Clone, Copy, Debug, PartialEq)]
pub enum Kind {
    Test,
    Walk,
    Job,
}

fn number(text: &[u8]) -> Option<(usize, &[u8])> {
    if text.len() >= 2 && text[0].is_ascii_digit() && text[1].is_ascii_digit() {
        Some(((text[0] - b'0') as usize * 10 + (text[1] - b'0') as usize, &text[2..]))
    } else {
        None
    }
}

/// A variable's letter.
fn letter(text: &[u8]) -> Option<(u8, &[u8])> {
    let (&v, rest) = text.split_first()?;
    LETTERS.contains(&v).then_some((v, rest))
}

/// `NN`
fn plain(text: &[u8]) -> Option<(Name, &[u8])> {
    number(text).map(|(number, r)| (Name { number, plus: None }, r))
}

/// `NNv`
fn sum(text: &[u8]) -> Option<(Name, &[u8])> {
    let (number, r) = number(text)?;
    letter(r).map(|(v, r)| (Name { number, plus: Some(v) }, r))
}

pub fn walk(text: &[u8]) -> Option<(Walk, &[u8])> {
    let (&sign, rest) = text.split_first()?;
    match sign {
        b'a' => plain(rest).map(|(n, r)| (Walk::Act(n), r)),
        b'b' => sum(rest).map(|(n, r)| (Walk::Act(n), r)),
        b'r' => plain(rest).map(|(n, r)| (Walk::Undo(n), r)),
        b's' => sum(rest).map(|(n, r)| (Walk::Undo(n), r)),
        b'n' => Some((Walk::Next, rest)),
        b'u' => Some((Walk::Prev, rest)),
        b';' | b'|' => {
            let (v, r) = walk(rest)?;
            let (w, r) = walk(r)?;
            let parts = (Box::new(v), Box::new(w));
            Some((if sign == b';' { Walk::Seq(parts.0, parts.1) } else { Walk::Alt(parts.0, parts.1) }, r))
        }
        b'*' => walk(rest).map(|(w, r)| (Walk::Star(Box::new(w)), r)),
        b'?' => test(rest).map(|(t, r)| (Walk::Check(Box::new(t)), r)),
        b'-' => walk(rest).map(|(w, r)| (Walk::Conv(Box::new(w)), r)),
        b'p' => {
            let (v, r) = letter(rest)?;
            walk(r).map(|(w, r)| (Walk::Pick(v, Box::new(w)), r))
        }
        _ => None,
    }
}

pub fn test(text: &[u8]) -> Option<(Test, &[u8])> {
    let (&sign, rest) = text.split_first()?;
    match sign {
        b'1' => Some((Test::Always, rest)),
        b'f' => plain(rest).map(|(n, r)| (Test::Fluent(n), r)),
        b'g' => sum(rest).map(|(n, r)| (Test::Fluent(n), r)),
        b'!' => test(rest).map(|(t, r)| (Test::Not(Box::new(t)), r)),
        b'&' => {
            let (t, r) = test(rest)?;
            let (u, r) = test(r)?;
            Some((Test::Both(Box::new(t), Box::new(u)), r))
        }
        b'<' => {
            let (w, r) = walk(rest)?;
            let (t, r) = test(r)?;
            Some((Test::Some(Box::new(w), Box::new(t)), r))
        }
        b'e' => {
            let (v, r) = letter(rest)?;
            test(r).map(|(t, r)| (Test::Exists(v, Box::new(t)), r))
        }
        _ => None,
    }
}

impl Name {
    /// "7 if a number plus the largest value is too big": values are 0 to domain-1.
    fn lacking(&self, count: usize, domain: usize) -> bool {
        self.number + self.plus.map_or(0, |_| domain - 1) >= count
    }

    fn unbound(&self, bound: &[u8]) -> bool {
        self.plus.is_some_and(|v| !bound.contains(&v))
    }

    /// The name behind its sign: one sign for a number, another for a sum.
    fn text(&self, plain: char, sum: char) -> Vec<u8> {
        match self.plus {
            None => format!("{plain}{:02}", self.number).into_bytes(),
            Some(v) => format!("{sum}{:02}{}", self.number, v as char).into_bytes(),
        }
    }
}

/// How much there is of what a rule may name, and how many values a variable has, 0 where there are no variables.
#[derive(Clone, Copy, Debug)]
pub struct Counts {
    pub fluents: usize,
    pub actions: usize,
    pub domain: usize,
}

impl Counts {
    /// "in a library call, a count .. out of range"; "3 for a bad domain"
    pub fn out_of_range(&self) -> bool {
        self.fluents > 32 || self.actions < 1 || self.actions > 64 || self.domain > 16
    }
}

/// These letters, and this one.
fn and(bound: &[u8], v: u8) -> Vec<u8> {
    [bound, &[v]].concat()
}

impl Walk {
    pub fn depth(&self) -> usize {
        match self {
            Walk::Act(_) | Walk::Undo(_) | Walk::Next | Walk::Prev => 1,
            Walk::Seq(v, w) | Walk::Alt(v, w) => 1 + v.depth().max(w.depth()),
            Walk::Star(w) | Walk::Conv(w) | Walk::Pick(_, w) => 1 + w.depth(),
            Walk::Check(t) => 1 + t.depth(),
        }
    }

    fn lacks(&self, c: Counts) -> bool {
        match self {
            Walk::Act(n) | Walk::Undo(n) => n.lacking(c.actions, c.domain),
            Walk::Next | Walk::Prev => false,
            Walk::Seq(v, w) | Walk::Alt(v, w) => v.lacks(c) || w.lacks(c),
            Walk::Star(w) | Walk::Conv(w) | Walk::Pick(_, w) => w.lacks(c),
            Walk::Check(t) => t.lacks(c),
        }
    }

    /// A variable that none of these letters, nor a binder of the walk's own, binds.
    fn unbound(&self, bound: &[u8]) -> bool {
        match self {
            Walk::Act(n) | Walk::Undo(n) => n.unbound(bound),
            Walk::Next | Walk::Prev => false,
            Walk::Seq(v, w) | Walk::Alt(v, w) => v.unbound(bound) || w.unbound(bound),
            Walk::Star(w) | Walk::Conv(w) => w.unbound(bound),
            Walk::Check(t) => t.unbound(bound),
            Walk::Pick(v, w) => w.unbound(&and(bound, *v)),
        }
    }

    /// A backward sign outside every `<` walk.
    fn backward(&self) -> bool {
        match self {
            Walk::Undo(_) | Walk::Prev | Walk::Conv(_) => true,
            Walk::Act(_) | Walk::Next | Walk::Check(_) => false,
            Walk::Seq(v, w) | Walk::Alt(v, w) => v.backward() || w.backward(),
            Walk::Star(w) | Walk::Pick(_, w) => w.backward(),
        }
    }

    pub fn text(&self) -> Vec<u8> {
        match self {
            Walk::Act(n) => n.text('a', 'b'),
            Walk::Undo(n) => n.text('r', 's'),
            Walk::Next => b"n".to_vec(),
            Walk::Prev => b"u".to_vec(),
            Walk::Seq(v, w) => [b";".to_vec(), v.text(), w.text()].concat(),
            Walk::Alt(v, w) => [b"|".to_vec(), v.text(), w.text()].concat(),
            Walk::Star(w) => [b"*".to_vec(), w.text()].concat(),
            Walk::Check(t) => [b"?".to_vec(), t.text()].concat(),
            Walk::Conv(w) => [b"-".to_vec(), w.text()].concat(),
            Walk::Pick(v, w) => [vec![b'p', *v], w.text()].concat(),
        }
    }
}

impl Test {
    pub fn depth(&self) -> usize {
        match self {
            Test::Always | Test::Fluent(_) => 1,
            Test::Not(t) | Test::Exists(_, t) => 1 + t.depth(),
            Test::Both(t, u) => 1 + t.depth().max(u.depth()),
            Test::Some(w, t) => 1 + w.depth().max(t.depth()),
        }
    }

    fn lacks(&self, c: Counts) -> bool {
        match self {
            Test::Always => false,
            Test::Fluent(n) => n.lacking(c.fluents, c.domain),
            Test::Not(t) | Test::Exists(_, t) => t.lacks(c),
            Test::Both(t, u) => t.lacks(c) || u.lacks(c),
            Test::Some(w, t) => w.lacks(c) || t.lacks(c),
        }
    }

    fn unbound(&self, bound: &[u8]) -> bool {
        match self {
            Test::Always => false,
            Test::Fluent(n) => n.unbound(bound),
            Test::Not(t) => t.unbound(bound),
            Test::Both(t, u) => t.unbound(bound) || u.unbound(bound),
            Test::Some(w, t) => w.unbound(bound) || t.unbound(bound),
            Test::Exists(v, t) => t.unbound(&and(bound, *v)),
        }
    }

    pub fn text(&self) -> Vec<u8> {
        match self {
            Test::Always => b"1".to_vec(),
            Test::Fluent(n) => n.text('f', 'g'),
            Test::Not(t) => [b"!".to_vec(), t.text()].concat(),
            Test::Both(t, u) => [b"&".to_vec(), t.text(), u.text()].concat(),
            Test::Some(w, t) => [b"<".to_vec(), w.text(), t.text()].concat(),
            Test::Exists(v, t) => [vec![b'e', *v], t.text()].concat(),
        }
    }
}

impl Rule {
    pub fn text(&self) -> Vec<u8> {
        match self {
            Rule::Walk(w) => w.text(),
            Rule::Test(t) => t.text(),
        }
    }
}

/// Refusals 7, 8, 9 and 13 of a rule that was read, in this order.
fn judged(rule: &Rule, kind: Kind, c: Counts) -> Result<(), Refusal> {
    let (lacks, depth, backward, unbound) = match rule {
        Rule::Walk(w) => (w.lacks(c), w.depth(), w.backward(), w.unbound(&[])),
        Rule::Test(t) => (t.lacks(c), t.depth(), false, t.unbound(&[])),
    };
    if lacks {
        Err(7)
    } else if depth > 24 {
        Err(8)
    } else if kind == Kind::Job && backward {
        Err(9)
    } else if unbound {
        Err(13)
    } else {
        Ok(())
    }
}

/// The rule that opens the text, and the rest behind it. "6 for the new signs in sheet=1, or domain 0 in a call"
fn opens(text: &[u8], kind: Kind, domain: usize) -> Result<(Rule, &[u8]), Refusal> {
    if text.is_empty() || text.len() > 255 {
        return Err(6);
    }
    let read = match kind {
        Kind::Test => test(text).map(|(t, r)| (Rule::Test(t), r)),
        Kind::Walk | Kind::Job => walk(text).map(|(w, r)| (Rule::Walk(w), r)),
    };
    let (rule, rest) = read.ok_or(6)?;
    let own = &text[..text.len() - rest.len()];
    if domain == 0 && own.iter().any(|b| NEW_SIGNS.contains(b)) {
        return Err(6);
    }
    Ok((rule, rest))
}

/// Reading one rule: "hands back the unread rest"; its place in the text is what is handed back here.
pub fn read(text: &[u8], kind: Kind, c: Counts) -> Result<usize, Refusal> {
    if c.out_of_range() {
        return Err(3);
    }
    let (rule, rest) = opens(text, kind, c.domain)?;
    judged(&rule, kind, c)?;
    Ok(text.len() - rest.len())
}

/// Exactly one rule of its kind; refusals 6 to 9 and 13.
pub fn exactly(text: &[u8], kind: Kind, c: Counts) -> Result<Rule, Refusal> {
    let (rule, rest) = opens(text, kind, c.domain)?;
    if !rest.is_empty() {
        return Err(6);
    }
    judged(&rule, kind, c)?;
    Ok(rule)
}
