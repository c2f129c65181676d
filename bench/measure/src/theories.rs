//! The theories and logs that the cases stand on.
use crate::case::Theory;
use wyndhopper::{plain_row, ROW_MASKS};

/// Labels of a job: action a puts fluent a mod 32 on, every odd one needs the label before it and takes the one after it back. Every step of `round` is possible.
pub fn labels(actions: usize) -> Theory {
    let fluents = actions.clamp(1, 32);
    let mut masks = Vec::new();
    for a in 0..actions {
        let odd = a % 2 == 1;
        let need = if odd { 1 << ((a - 1) % fluents) } else { 0 };
        let drop = if odd { 1 << ((a + 1) % fluents) & !need } else { 0 };
        masks.extend(plain_row(need, 0, 1 << (a % fluents), drop));
    }
    Theory { fluents, domain: 0, start: 0, masks }
}

/// The labels of a theory in order, over and over.
pub fn round(steps: usize, actions: usize) -> Vec<u8> {
    (0..steps).map(|p| (p % actions) as u8).collect()
}

/// Labels in any order, each once: action a needs nothing, is banned by its own fluent and puts it on.
pub fn each_once(actions: usize) -> Theory {
    let masks = (0..actions).flat_map(|a| plain_row(0, 1 << a, 1 << a, 0)).collect();
    Theory { fluents: actions, domain: 0, start: 0, masks }
}

/// Actions that are always possible and do nothing; the one fluent stays off.
pub fn idle(actions: usize) -> Theory {
    Theory { fluents: 1, domain: 0, start: 0, masks: vec![0; ROW_MASKS * actions] }
}

/// The theory of document 01's sheet.
pub fn document() -> Theory {
    Theory { fluents: 2, domain: 0, start: 0, masks: [plain_row(0, 0, 1, 0), plain_row(1, 0, 2, 0), plain_row(0, 0, 0, 3)].concat() }
}

/// Five cartons in order; action 05 reports label 2 spoiled.
pub fn cartons() -> Theory {
    let mut masks: Vec<u32> = (0..5).flat_map(|a| plain_row((1 << a) - 1, 0, 1 << a, 0)).collect();
    masks.extend(plain_row(2, 0, 0, 2));
    Theory { fluents: 5, domain: 0, start: 0, masks }
}

/// Sixteen cartons: actions 00 to 15 print their labels in order, none while it is out, 16 to 31 void them.
pub fn sixteen() -> Theory {
    let prints = (0..16).flat_map(|a| plain_row((1 << a) - 1, 1 << a, 1 << a, 0));
    let voids = (0..16).flat_map(|a| plain_row(1 << a, 0, 0, 1 << a));
    Theory { fluents: 16, domain: 16, start: 0, masks: prints.chain(voids).collect() }
}

/// Label 1, then labels 2 and 3 in either order, then label 4.
pub fn either() -> Theory {
    Theory { fluents: 4, domain: 0, start: 0, masks: [plain_row(0, 0, 1, 0), plain_row(1, 0, 2, 0), plain_row(1, 0, 4, 0), plain_row(7, 0, 8, 0)].concat() }
}

/// The cartons, then stations beside the line that put marks of their own on and off: nothing of theirs is needed by a carton. Action 05 voids all labels.
pub fn stations(actions: usize) -> Theory {
    let mut masks = cartons().masks;
    masks[5 * ROW_MASKS..].copy_from_slice(&plain_row(0, 0, 0, 31));
    masks.extend((6..actions).flat_map(|a| plain_row(0, 0, 1 << (5 + a % 20), 1 << (5 + a * 7 % 20))));
    Theory { fluents: 32, domain: 0, start: 0, masks }
}
