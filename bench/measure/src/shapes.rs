//! Rules that go down to a wanted depth by a way that repeats, for the search of the deepest stack.

/// A way down: which sign is taken at each depth, over and over.
#[derive(Clone, Debug)]
pub struct Way(pub Vec<usize>);

/// The sign of a binder, of walks or of tests.
const BINDER: usize = 7;

impl Way {
    /// Every way that repeats after at most `period` signs.
    pub fn all(period: u32) -> Vec<Way> {
        let mut ways = Vec::new();
        for p in 1..=period {
            for code in 0..8usize.pow(p) {
                ways.push(Way((0..p).map(|k| code / 8usize.pow(k) % 8).collect()));
            }
        }
        ways
    }

    fn sign(&self, left: usize) -> usize {
        self.0[left % self.0.len()]
    }

    /// Down to the end of a way with binders a variable is bound.
    fn leaf(&self, sum: &str, plain: &str) -> String {
        if self.0.contains(&BINDER) { sum } else { plain }.into()
    }

    /// A walk of this depth. With `job` no backward sign is taken outside a `<`.
    pub fn walk(&self, depth: usize, job: bool) -> String {
        if depth <= 1 {
            return self.leaf("b00v", "a00");
        }
        let part = || self.walk(depth - 1, job);
        match self.sign(depth) {
            0 => format!("*{}", part()),
            1 if !job => format!("-{}", part()),
            1 | 2 => format!("?{}", self.test(depth - 1)),
            3 => format!(";{}n", part()),
            4 => format!(";n{}", part()),
            5 => format!("|{}n", part()),
            BINDER => format!("pv{}", part()),
            _ => format!("|n{}", part()),
        }
    }

    /// A test of this depth.
    pub fn test(&self, depth: usize) -> String {
        if depth <= 1 {
            return self.leaf("g00v", "f00");
        }
        let part = || self.test(depth - 1);
        match self.sign(depth) {
            0 => format!("!{}", part()),
            1 => format!("&{}1", part()),
            2 => format!("&1{}", part()),
            3 => format!("<n{}", part()),
            BINDER => format!("ev{}", part()),
            _ => format!("<{}1", self.walk(depth - 1, false)),
        }
    }

    /// The deepest rule of at most so many bytes, by either of the makers above.
    pub fn longest(bytes: usize, make: impl Fn(usize) -> String) -> String {
        let depth = (1..=bytes).take_while(|&d| make(d).len() <= bytes).last().unwrap_or(1);
        make(depth)
    }
}
