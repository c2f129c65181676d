//! Actions that a smaller one stands in for: the job names neither, both are possible in the same states, their clauses act in the same states, and both do the same to every fluent that matters
//! (named in the job or in any need, ban, when or unless). Of the sequences that finish, the first has none of them: with the smaller action in its place it would come earlier.
use crate::rule::Rule;
use crate::world::{World, ROW};

/// The actions and the fluents that a rule names, anywhere in its text, bit i for number i; a sum with every value.
fn named(rule: &Rule) -> (u64, u32) {
    let mut names: (u64, u32) = (0, 0);
    let values = (1 << rule.domain) - 1;
    for (at, sign) in rule.text.iter().enumerate() {
        match sign {
            b'a' | b'r' => names.0 |= 1 << rule.named(at),
            b'b' | b's' => names.0 |= values << rule.named(at),
            b'f' => names.1 |= 1 << rule.named(at),
            b'g' => names.1 |= (values as u32) << rule.named(at),
            _ => {}
        }
    }
    names
}

/// What an action needs, when its clauses act, and what they do to the fluents that matter.
fn felt(m: &[u32], matter: u32) -> [u32; ROW] {
    [m[0], m[1], m[2], m[3], m[4] & matter, m[5] & !m[4] & matter, m[6], m[7], m[8] & matter, m[9] & !m[8] & matter]
}

/// The actions that are worth trying: all but those that a smaller one stands in for.
pub fn worth(world: &World, rule: &Rule) -> u64 {
    let (named, fluents) = named(rule);
    let matter = world.masks.chunks_exact(ROW).fold(fluents, |all, m| all | m[0] | m[1] | m[2] | m[3] | m[6] | m[7]);
    let mut kinds = [[0; ROW]; 64];
    let mut found = 0;
    let mut worth = named;
    for (a, m) in world.masks.chunks_exact(ROW).enumerate() {
        let own = felt(m, matter);
        if named >> a & 1 == 0 && !kinds[..found].contains(&own) {
            kinds[found] = own;
            found += 1;
            worth |= 1 << a;
        }
    }
    worth
}
