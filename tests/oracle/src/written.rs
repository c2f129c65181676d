//! Document 02, Q-2: "The meaning is the choice over all values, proved equal to the rule with values written in where that fits." What the line leads wrote before: a rule with every
//! binder as a choice of its part with each value written in for the variable, `|` for walks and, as tests have no sign for a choice, not-and-not: `!&!T!U`.
use crate::rule::{Name, Rule, Test, Walk};

impl Name {
    fn with(&self, v: u8, value: usize) -> Name {
        if self.plus == Some(v) {
            Name { number: self.number + value, plus: None }
        } else {
            *self
        }
    }
}

impl Walk {
    /// The walk with the value written in wherever v stands free; "An inner binding hides an outer one of the same name."
    fn with(&self, v: u8, value: usize) -> Walk {
        let of = |w: &Walk| Box::new(w.with(v, value));
        match self {
            Walk::Act(a) => Walk::Act(a.with(v, value)),
            Walk::Undo(a) => Walk::Undo(a.with(v, value)),
            Walk::Next | Walk::Prev => self.clone(),
            Walk::Seq(u, w) => Walk::Seq(of(u), of(w)),
            Walk::Alt(u, w) => Walk::Alt(of(u), of(w)),
            Walk::Star(w) => Walk::Star(of(w)),
            Walk::Check(t) => Walk::Check(Box::new(t.with(v, value))),
            Walk::Conv(w) => Walk::Conv(of(w)),
            Walk::Pick(u, _) if *u == v => self.clone(),
            Walk::Pick(u, w) => Walk::Pick(*u, of(w)),
        }
    }

    fn out(&self, domain: usize) -> Walk {
        let of = |w: &Walk| Box::new(w.out(domain));
        match self {
            Walk::Act(_) | Walk::Undo(_) | Walk::Next | Walk::Prev => self.clone(),
            Walk::Seq(v, w) => Walk::Seq(of(v), of(w)),
            Walk::Alt(v, w) => Walk::Alt(of(v), of(w)),
            Walk::Star(w) => Walk::Star(of(w)),
            Walk::Check(t) => Walk::Check(Box::new(t.out(domain))),
            Walk::Conv(w) => Walk::Conv(of(w)),
            Walk::Pick(v, w) => halved(&|k| w.with(*v, k).out(domain), 0, domain, &|a, b| Walk::Alt(Box::new(a), Box::new(b))),
        }
    }

    /// The bytes of the walk written out, without writing it.
    fn length(&self, domain: usize) -> usize {
        match self {
            Walk::Act(_) | Walk::Undo(_) => 3,
            Walk::Next | Walk::Prev => 1,
            Walk::Seq(v, w) | Walk::Alt(v, w) => 1 + v.length(domain) + w.length(domain),
            Walk::Star(w) | Walk::Conv(w) => 1 + w.length(domain),
            Walk::Check(t) => 1 + t.length(domain),
            Walk::Pick(_, w) => domain * w.length(domain) + domain - 1,
        }
    }
}

impl Test {
    fn with(&self, v: u8, value: usize) -> Test {
        let of = |t: &Test| Box::new(t.with(v, value));
        match self {
            Test::Always => Test::Always,
            Test::Fluent(i) => Test::Fluent(i.with(v, value)),
            Test::Not(t) => Test::Not(of(t)),
            Test::Both(t, u) => Test::Both(of(t), of(u)),
            Test::Some(w, t) => Test::Some(Box::new(w.with(v, value)), of(t)),
            Test::Exists(u, _) if *u == v => self.clone(),
            Test::Exists(u, t) => Test::Exists(*u, of(t)),
        }
    }

    fn out(&self, domain: usize) -> Test {
        let of = |t: &Test| Box::new(t.out(domain));
        match self {
            Test::Always | Test::Fluent(_) => self.clone(),
            Test::Not(t) => Test::Not(of(t)),
            Test::Both(t, u) => Test::Both(of(t), of(u)),
            Test::Some(w, t) => Test::Some(Box::new(w.out(domain)), of(t)),
            Test::Exists(v, t) => {
                let not = |k| Test::Not(Box::new(t.with(*v, k).out(domain)));
                Test::Not(Box::new(halved(&not, 0, domain, &|a, b| Test::Both(Box::new(a), Box::new(b)))))
            }
        }
    }

    fn length(&self, domain: usize) -> usize {
        match self {
            Test::Always => 1,
            Test::Fluent(_) => 3,
            Test::Not(t) => 1 + t.length(domain),
            Test::Both(t, u) => 1 + t.length(domain) + u.length(domain),
            Test::Some(w, t) => 1 + w.length(domain) + t.length(domain),
            Test::Exists(_, t) => 1 + domain * (1 + t.length(domain)) + domain - 1,
        }
    }
}

/// The parts of the values from `from` to before `to`, joined in halves, so that the depth grows by little.
fn halved<T>(part: &dyn Fn(usize) -> T, from: usize, to: usize, join: &dyn Fn(T, T) -> T) -> T {
    if to - from == 1 {
        return part(from);
    }
    let middle = (from + to) / 2;
    join(halved(part, from, middle, join), halved(part, middle, to, join))
}

/// The text of the rule written out, where it fits in 255 bytes. The domain is not 0.
pub fn written_out(rule: &Rule, domain: usize) -> Option<Vec<u8>> {
    let (length, out): (usize, &dyn Fn() -> Vec<u8>) = match rule {
        Rule::Walk(w) => (w.length(domain), &|| w.out(domain).text()),
        Rule::Test(t) => (t.length(domain), &|| t.out(domain).text()),
    };
    (length <= 255).then(|| {
        let text = out();
        assert_eq!(text.len(), length);
        text
    })
}
