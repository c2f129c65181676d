//! Compares the carton desk with the second implementation, number and slot: every log of up to five steps with three cartons, then seeded inputs. And with the
//! library: wherever the desk gives a verdict, the library's `possible`, asked about a theory whose print needs all lower labels, gives the same.
//! `compare_desk [SEED [COUNT]]`. It ends with a line 'N questions compared, 0 differ' or shows the first that differs.
#[allow(dead_code)]
#[path = "../../../rust/desk/src/raw.rs"]
mod raw;

use wyndhopper::{plain_row, Job};

/// What stands in a slot before a call.
const FILLED: u8 = 0x5a;

fn may_print(cartons: usize, log: &[u8], label: usize) -> (u8, u8) {
    let mut yes = FILLED;
    let number = unsafe { raw::desk_may_print(cartons, log.as_ptr(), log.len(), label, &mut yes) };
    (number, yes)
}

fn lowest(cartons: usize, log: &[u8]) -> (u8, usize) {
    let mut label = usize::from_ne_bytes([FILLED; size_of::<usize>()]);
    let number = unsafe { raw::desk_lowest(cartons, log.as_ptr(), log.len(), &mut label) };
    (number, label)
}

fn same<T: PartialEq + std::fmt::Debug>(what: &str, input: &dyn std::fmt::Debug, ours: T, plain: T) {
    if ours != plain {
        eprintln!("{what} differs\n  input: {input:?}\n  ours:  {ours:?}\n  plain: {plain:?}");
        std::process::exit(1);
    }
}

/// The theory whose print k needs all lower labels, the void last.
fn masks(cartons: usize) -> Vec<u32> {
    let print = |k: usize| plain_row((1 << k) - 1, 0, 1 << k, 0);
    let void = plain_row(0, 0, 0, (1 << cartons) - 1);
    (0..cartons).map(print).chain([void]).flatten().collect()
}

fn ask(cartons: usize, log: &[u8], label: usize) {
    let before = log.to_vec();
    let input = (cartons, log, label);
    let plain = oracle::desk::may_print(cartons, log, label);
    same("may_print", &input, may_print(cartons, log, label), plain.map_or_else(|n| (n, 0), |yes| (0, u8::from(yes))));
    same("may_print, safe", &input, carton_desk::may_print(cartons, log, label).map_err(carton_desk::Refusal::number), plain);
    let plain = oracle::desk::lowest(cartons, log);
    same("lowest", &input, lowest(cartons, log), plain.map_or_else(|n| (n, 0), |label| (0, label.unwrap_or(0))));
    same("lowest, safe", &input, carton_desk::lowest(cartons, log).map_err(carton_desk::Refusal::number), plain);
    if let (0, yes) = may_print(cartons, log, label) {
        let masks = masks(cartons);
        let job = Job::new(cartons, cartons + 1, &masks).with_log(log);
        same("the library's possible", &input, Ok(yes == 1), job.possible(label - 1, log.len()));
    }
    same("the log", &input, log, &before);
}

/// Every log of up to so many steps, each with every label and one beyond at either end; the steps go one above the void.
fn short_logs(cartons: usize, steps: usize) -> usize {
    let mut logs: Vec<Vec<u8>> = vec![vec![]];
    let mut asked = 0;
    for _ in 0..=steps {
        for log in &logs {
            for label in 0..=cartons + 1 {
                ask(cartons, log, label);
                asked += 1;
            }
        }
        let longer = |log: &Vec<u8>| (0..=cartons as u8 + 1).map(|a| [&log[..], &[a]].concat()).collect::<Vec<_>>();
        logs = logs.iter().flat_map(longer).collect();
    }
    asked
}

/// Numbers from a seed (splitmix64).
struct Dice(u64);

impl Dice {
    fn below(&mut self, n: usize) -> usize {
        self.0 = self.0.wrapping_add(0x9e37_79b9_7f4a_7c15);
        let z = (self.0 ^ (self.0 >> 30)).wrapping_mul(0xbf58_476d_1ce4_e5b9);
        let z = (z ^ (z >> 27)).wrapping_mul(0x94d0_49bb_1331_11eb);
        ((z ^ (z >> 31)) % n as u64) as usize
    }
}

/// A log that prints more than it voids, so that many labels are out; now and then too long, or with a step above the void.
fn seeded(d: &mut Dice) {
    let cartons = if d.below(20) == 0 { [0, 17, 255, usize::MAX][d.below(4)] } else { 1 + d.below(16) };
    let steps = if d.below(12) == 0 { 62 + d.below(4) } else { d.below(50) };
    let most = cartons.min(20);
    let step = |d: &mut Dice| match d.below(40) {
        0 => most as u8,
        1 if d.below(10) == 0 => [most + 1, 64, 255][d.below(3)] as u8,
        _ => d.below(most.max(1)) as u8,
    };
    let log: Vec<u8> = (0..steps).map(|_| step(d)).collect();
    let label = if d.below(20) == 0 { [0, most + 1, usize::MAX][d.below(3)] } else { 1 + d.below(most.max(1)) };
    ask(cartons, &log, label);
}

fn main() {
    let mut args = std::env::args().skip(1).map(|a| a.parse::<u64>().expect("a number"));
    let seed = args.next().unwrap_or(1);
    let count = args.next().unwrap_or(20_000);
    let short = short_logs(3, 5);
    let mut d = Dice(seed);
    (0..count).for_each(|_| seeded(&mut d));
    println!("the desk: {} questions compared, 0 differ (seed {seed})", short as u64 + count);
}
