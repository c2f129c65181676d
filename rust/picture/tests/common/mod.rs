//! Sheets for the tests: those of examples/, with lines put in the place of their own, and seeded ones.
#![allow(dead_code)]
use picture::facts::Facts;
use picture::progress::Progress;
use std::path::{Path, PathBuf};
use wyndhopper::{Sheet, SheetRoom};

/// The sheets of a folder below the project, in order.
pub fn sheets(folder: &str) -> Vec<PathBuf> {
    let folder = Path::new(env!("CARGO_MANIFEST_DIR")).join("../..").join(folder);
    let mut found: Vec<PathBuf> =
        std::fs::read_dir(folder).unwrap().map(|entry| entry.unwrap().path()).filter(|path| path.extension().is_some_and(|e| e == "sheet")).collect();
    found.sort();
    assert!(!found.is_empty());
    found
}

pub fn example(name: &str) -> Vec<u8> {
    std::fs::read(Path::new(env!("CARGO_MANIFEST_DIR")).join("../../examples").join(name)).unwrap()
}

/// The sheet with these lines in the place of those with the same key.
pub fn with_lines(sheet: &[u8], lines: &[&str]) -> Vec<u8> {
    let mut text = sheet.to_vec();
    for line in lines {
        let key = &line[..=line.find('=').unwrap()];
        let old: Vec<&[u8]> = text.split(|&byte| byte == b'\n').collect();
        let new: Vec<&[u8]> = old.iter().map(|own| if own.starts_with(key.as_bytes()) { line.as_bytes() } else { own }).collect();
        assert_eq!(old.iter().filter(|own| own.starts_with(key.as_bytes())).count(), 1, "{line}");
        text = new.join(&b'\n');
    }
    text
}

/// What the program jobsheet prints.
pub fn answer(sheet: &[u8]) -> String {
    let mut out = [0; wyndhopper::ANSWER_ROOM];
    let count = wyndhopper::answer(sheet, &mut out);
    String::from_utf8(out[..count].to_vec()).unwrap()
}

pub fn facts(sheet: &[u8]) -> Facts {
    let mut room = SheetRoom::new();
    Facts::of(&Sheet::read(sheet, &mut room).unwrap(), &Progress::quiet()).unwrap()
}

/// Seeded numbers, the same on every machine, and rules made of them, with variables or without.
pub struct Seeded {
    pub state: u64,
    pub variables: bool,
}

impl Seeded {
    pub fn below(&mut self, bound: usize) -> usize {
        self.state = self.state.wrapping_mul(6364136223846793005).wrapping_add(1442695040888963407);
        ((self.state >> 33) % bound as u64) as usize
    }

    /// A test or a walk over two fluents and three actions; a forward one has no sign that goes back outside a `<`. `scope`: the variables that are bound around it.
    pub fn rule(&mut self, test: bool, forward: bool, deep: usize, scope: &str) -> String {
        if self.variables && deep > 0 && self.below(4) == 0 {
            let own = ["v", "w"][self.below(2)];
            return format!("{}{own}{}", if test { "e" } else { "p" }, self.rule(test, forward, deep - 1, &format!("{scope}{own}")));
        }
        match (test, self.below(if deep == 0 { 3 } else { 8 })) {
            (true, 0) => "1".to_string(),
            (true, 1 | 2) => self.leaf("f", "g", 2, scope),
            (true, 3) => format!("!{}", self.rule(true, false, deep - 1, scope)),
            (true, 4 | 5) => format!("&{}{}", self.rule(true, false, deep - 1, scope), self.rule(true, false, deep - 1, scope)),
            (true, _) => format!("<{}{}", self.rule(false, false, deep - 1, scope), self.rule(true, false, deep - 1, scope)),
            (false, 0) if self.way(forward) => self.leaf("r", "s", 3, scope),
            (false, 0 | 1) => self.leaf("a", "b", 3, scope),
            (false, 2) => if self.way(forward) { "u" } else { "n" }.to_string(),
            (false, 3 | 4) => format!(";{}{}", self.rule(false, forward, deep - 1, scope), self.rule(false, forward, deep - 1, scope)),
            (false, 5) => format!("|{}{}", self.rule(false, forward, deep - 1, scope), self.rule(false, forward, deep - 1, scope)),
            (false, 6) => format!("{}{}", if self.way(forward) { "-" } else { "*" }, self.rule(false, forward, deep - 1, scope)),
            (false, _) => format!("?{}", self.rule(true, false, deep - 1, scope)),
        }
    }

    /// A leaf that names one of so many, or, where a variable is bound, one behind another.
    fn leaf(&mut self, plain: &str, plus: &str, many: usize, scope: &str) -> String {
        match scope.is_empty() || self.below(3) == 0 {
            true => format!("{plain}0{}", self.below(many)),
            false => format!("{plus}0{}{}", self.below(many - 1), scope.chars().nth(self.below(scope.len())).unwrap()),
        }
    }

    fn way(&mut self, forward: bool) -> bool {
        !forward && self.below(2) == 0
    }

    /// A sheet over the theory of two cartons; with variables, over two values.
    pub fn sheet(&mut self) -> Vec<u8> {
        let log: String = (0..self.below(8)).map(|_| format!("0{}", self.below(3))).collect();
        let (ask, run) = (self.rule(true, false, 4, ""), self.rule(false, true, 4, ""));
        let sheet = with_lines(
            &example("two-cartons.sheet"),
            &[&format!("log={log}"), &format!("ask={ask}"), &format!("run={run}"), &format!("more={}", self.below(4))],
        );
        match self.variables {
            false => sheet,
            true => String::from_utf8(sheet).unwrap().replace("sheet=1", "sheet=2").replace("actions=03\n", "actions=03\ndomain=02\n").into_bytes(),
        }
    }
}
