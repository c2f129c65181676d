//! The reader of a rule's text: refusals 6 to 9 and 13, and where each rule of it ends, in one pass.
use crate::Refusal;

#[derive(Clone, Copy, Debug, PartialEq, Eq)]
pub enum Kind {
    Test,
    Walk,
    Job,
}

/// A rule that was checked.
pub struct Rule<'t> {
    pub text: &'t [u8],
    /// Where the rule at a place ends; at a binder's letter, whether its variable stands free in the part.
    pub ends: [u8; 256],
    pub domain: usize,
}

/// The values of the four variables, a byte each.
pub type Values = u32;

/// These values, but the variable with this letter has this one.
#[inline]
pub fn bind(values: Values, letter: u8, value: usize) -> Values {
    let place = 8 * u32::from(letter - b'v');
    values & !(255 << place) | (value as u32) << place
}

/// The value of the variable with this letter.
#[inline]
pub fn value(values: Values, letter: u8) -> usize {
    (values >> (8 * u32::from(letter - b'v')) & 255) as usize
}

/// How much there is of what a rule may name, and how many values a variable has.
#[derive(Clone, Copy)]
pub struct Counts {
    pub fluents: usize,
    pub actions: usize,
    pub domain: usize,
}

/// What is known of the text read so far.
struct Reader<'t> {
    text: &'t [u8],
    ends: [u8; 256],
    actions: usize,
    fluents: usize,
    domain: usize,
    depth: usize,
    backward: bool,
    /// The variables that stand free in what was read since the last binder began, a bit each.
    free: u8,
}

/// No rule of its kind stands there.
struct NoRule;

impl<'t> Rule<'t> {
    pub fn read(text: &'t [u8], kind: Kind, c: Counts) -> Result<Self, Refusal> {
        if text.len() > 255 {
            return Err(6);
        }
        let mut r = Reader { text, ends: [0; 256], actions: 0, fluents: 0, domain: c.domain, depth: 0, backward: false, free: 0 };
        let end = if kind == Kind::Test { r.test(0, 1) } else { r.walk(0, 1, true) };
        if end.map_err(|NoRule| 6)? != text.len() {
            return Err(6);
        }
        if r.actions > c.actions || r.fluents > c.fluents {
            return Err(7);
        }
        if r.depth > 24 {
            return Err(8);
        }
        if kind == Kind::Job && r.backward {
            return Err(9);
        }
        if r.free != 0 {
            return Err(13);
        }
        Ok(Rule { text, ends: r.ends, domain: c.domain })
    }

    /// The number behind the sign at a place.
    #[inline]
    pub fn named(&self, at: usize) -> usize {
        usize::from(self.text[at + 1] - b'0') * 10 + usize::from(self.text[at + 2] - b'0')
    }

    /// Where the second of two parts begins.
    #[inline]
    pub fn second(&self, at: usize) -> usize {
        usize::from(self.ends[(at + 1) & 255])
    }

    /// Whether the quick evaluator has anything to keep: a star in a star, or a `?` in a star, in a binder or in the test of another. It decides costs, no answer.
    pub fn keeps(&self) -> bool {
        if self.text.iter().filter(|sign| b"*?pe".contains(sign)).count() < 2 {
            return false;
        }
        let mut starred = 0;
        let mut within = 0;
        for (at, &sign) in self.text.iter().enumerate() {
            let end = usize::from(self.ends[at & 255]);
            match sign {
                b'*' if at < starred && self.text[at - 1] != b'*' => return true,
                b'?' if at < within => return true,
                b'*' => starred = end,
                b'?' | b'p' | b'e' => {}
                _ => continue,
            }
            within = within.max(end);
        }
        false
    }
}

impl Reader<'_> {
    fn number(&self, at: usize) -> Result<usize, NoRule> {
        match self.text.get(at..at + 2) {
            Some(&[tens @ b'0'..=b'9', ones @ b'0'..=b'9']) => Ok(usize::from(tens - b'0') * 10 + usize::from(ones - b'0')),
            _ => Err(NoRule),
        }
    }

    /// A variable's letter; there is none where a variable has no value.
    fn letter(&self, at: usize) -> Result<u8, NoRule> {
        match self.text.get(at) {
            Some(&v @ b'v'..=b'y') if self.domain > 0 => Ok(v),
            _ => Err(NoRule),
        }
    }

    /// The number and the letter of a sum: how many there must be, with every value.
    fn sum(&mut self, at: usize) -> Result<usize, NoRule> {
        let number = self.number(at)?;
        self.free |= 1 << (self.letter(at + 2)? - b'v');
        Ok(number + self.domain)
    }

    /// A binder over the part that `read` reads.
    fn bound(&mut self, at: usize, read: impl FnOnce(&mut Self) -> Result<usize, NoRule>) -> Result<usize, NoRule> {
        let own = 1 << (self.letter(at + 1)? - b'v');
        let outside = std::mem::take(&mut self.free);
        let end = read(self)?;
        self.ends[(at + 1) & 255] = u8::from(self.free & own != 0);
        self.free = outside | self.free & !own;
        Ok(end)
    }

    fn ended(&mut self, at: usize, end: usize) -> Result<usize, NoRule> {
        self.ends[at & 255] = end as u8;
        Ok(end)
    }

    fn leaf(&mut self, at: usize, end: usize, depth: usize) -> Result<usize, NoRule> {
        self.depth = self.depth.max(depth);
        self.ended(at, end)
    }

    /// The walk at a place; `out` where no `<` stands around it.
    fn walk(&mut self, at: usize, depth: usize, out: bool) -> Result<usize, NoRule> {
        let sign = *self.text.get(at).ok_or(NoRule)?;
        self.backward |= out && matches!(sign, b'-' | b'r' | b's' | b'u');
        let end = match sign {
            b'a' | b'r' => {
                self.actions = self.actions.max(self.number(at + 1)? + 1);
                return self.leaf(at, at + 3, depth);
            }
            b'b' | b's' => {
                self.actions = self.actions.max(self.sum(at + 1)?);
                return self.leaf(at, at + 4, depth);
            }
            b'n' | b'u' => return self.leaf(at, at + 1, depth),
            b';' | b'|' => {
                let second = self.walk(at + 1, depth + 1, out)?;
                self.walk(second, depth + 1, out)?
            }
            b'*' | b'-' => self.walk(at + 1, depth + 1, out)?,
            b'?' => self.test(at + 1, depth + 1)?,
            b'p' => self.bound(at, |r| r.walk(at + 2, depth + 1, out))?,
            _ => return Err(NoRule),
        };
        self.ended(at, end)
    }

    fn test(&mut self, at: usize, depth: usize) -> Result<usize, NoRule> {
        let end = match *self.text.get(at).ok_or(NoRule)? {
            b'1' => return self.leaf(at, at + 1, depth),
            b'f' => {
                self.fluents = self.fluents.max(self.number(at + 1)? + 1);
                return self.leaf(at, at + 3, depth);
            }
            b'g' => {
                self.fluents = self.fluents.max(self.sum(at + 1)?);
                return self.leaf(at, at + 4, depth);
            }
            b'!' => self.test(at + 1, depth + 1)?,
            b'e' => self.bound(at, |r| r.test(at + 2, depth + 1))?,
            b'&' => {
                let second = self.test(at + 1, depth + 1)?;
                self.test(second, depth + 1)?
            }
            b'<' => {
                let second = self.walk(at + 1, depth + 1, false)?;
                self.test(second, depth + 1)?
            }
            _ => return Err(NoRule),
        };
        self.ended(at, end)
    }
}
