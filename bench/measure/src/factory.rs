//! Jobs as line leads write them, with an `n` in each: some steps of any kind before, between or behind the labels that they name. Seeded, so that a run is repeated.
use crate::case::{Ask, Case, Theory};
use wyndhopper::{plain_row, ROW_MASKS};

/// A small generator of numbers (xorshift).
struct Dice(u64);

impl Dice {
    fn below(&mut self, n: usize) -> usize {
        self.0 ^= self.0 << 13;
        self.0 ^= self.0 >> 7;
        self.0 ^= self.0 << 17;
        (self.0.wrapping_mul(0x2545_f491_4f6c_dd1d) >> 16) as usize % n
    }
}

/// Labels of five to eight actions that put their fluent on, some of them once; some need the one before, some spoil another; the last actions put marks that nothing
/// depends on.
fn line(d: &mut Dice, actions: usize) -> Theory {
    let fluents = actions;
    let mut masks = Vec::new();
    for a in 0..actions {
        let own = 1 << (a % fluents);
        if 4 * a >= 3 * actions {
            masks.extend(plain_row(0, 0, 1 << (24 + a % 8), 1 << (24 + d.below(8))));
            continue;
        }
        let need = if d.below(2) == 0 && a > 0 { 1 << ((a - 1) % fluents) } else { 0 };
        let spoiled = if d.below(5) == 0 { 1 << d.below(fluents) & !own } else { 0 };
        masks.extend(plain_row(need, if d.below(3) > 0 { 0 } else { own & !need }, own, spoiled));
    }
    Theory { fluents: 32, domain: 0, start: 0, masks }
}

/// Steps that were possible, one after another; fewer where none is left.
fn log(d: &mut Dice, t: &Theory, steps: usize) -> Vec<u8> {
    let (mut state, mut log) = (t.start, Vec::new());
    for _ in 0..steps {
        let rows: Vec<&[u32]> = t.masks.chunks(ROW_MASKS).collect();
        let able: Vec<usize> = (0..rows.len()).filter(|&a| state & rows[a][0] == rows[a][0] && state & rows[a][1] == 0).collect();
        if able.is_empty() {
            break;
        }
        let a = able[d.below(able.len())];
        state = rows[a][4] | state & !rows[a][5];
        log.push(a as u8);
    }
    log
}

/// Labels one behind the other.
fn run_of(d: &mut Dice, actions: usize, count: usize) -> String {
    let first = d.below(actions);
    let signs: Vec<String> = (first..first + count).map(|a| format!("a{:02}", a % actions)).collect();
    ";".repeat(count - 1) + &signs.concat()
}

fn on(d: &mut Dice, actions: usize, count: usize) -> String {
    "&".repeat(count - 1) + &(0..count).map(|_| format!("f{:02}", d.below(actions))).collect::<String>()
}

fn job(d: &mut Dice, actions: usize) -> String {
    let (few, more) = (1 + d.below(3), 2 + d.below(5));
    match d.below(6) {
        0 => format!(";*n{}", run_of(d, actions, more)),
        1 => format!(";{};*n{}", run_of(d, actions, few), run_of(d, actions, few)),
        2 => format!(";*n;{};?{}*n", run_of(d, actions, more), on(d, actions, 1)),
        3 => format!(";*n?{}", on(d, actions, few)),
        4 => format!(";*|n{};n;?{}{}", run_of(d, actions, few), on(d, actions, 1), run_of(d, actions, few)),
        _ => format!(";*n;?!<;*u{}1;{}?{}", run_of(d, actions, 1).replace('a', "r"), run_of(d, actions, few), on(d, actions, few)),
    }
}

pub fn jobs(count: usize) -> Vec<Case> {
    let mut d = Dice(0x9e37_79b9_7f4a_7c15);
    let made = |_| {
        let actions = 5 + d.below(4);
        let theory = line(&mut d, actions);
        let steps = d.below(8);
        let log = log(&mut d, &theory, steps);
        Case { name: String::new(), theory, log, ask: Ask::Finish { job: job(&mut d, actions), more: 6 } }
    };
    (0..count).map(made).collect()
}
