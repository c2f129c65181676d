//! Sets of positions, and how people write them.
use std::collections::BTreeSet;

pub type Places = BTreeSet<usize>;

/// The set's stretches of neighbours, each as its first and its last position.
pub fn stretches(places: &Places) -> Vec<(usize, usize)> {
    let mut found: Vec<(usize, usize)> = Vec::new();
    for &place in places {
        match found.last_mut() {
            Some((_, last)) if *last + 1 == place => *last = place,
            _ => found.push((place, place)),
        }
    }
    found
}

/// The set in writing: `0-2, 4`, or `nowhere`.
pub fn written(places: &Places) -> String {
    let stretch = |&(first, last): &(usize, usize)| match last - first {
        0 => first.to_string(),
        1 => format!("{first}, {last}"),
        _ => format!("{first}-{last}"),
    };
    match &stretches(places)[..] {
        [] => "nowhere".to_string(),
        found => found.iter().map(stretch).collect::<Vec<_>>().join(", "),
    }
}

/// Where something is so: `at 0-2, 4`, or `nowhere`.
pub fn at(places: &Places) -> String {
    match places.is_empty() {
        true => "nowhere".to_string(),
        false => format!("at {}", written(places)),
    }
}

#[cfg(test)]
mod tests {
    use super::*;

    #[test]
    fn sets_in_writing() {
        let of = |all: &[usize]| written(&all.iter().copied().collect());
        assert_eq!(of(&[]), "nowhere");
        assert_eq!(of(&[3]), "3");
        assert_eq!(of(&[3, 4]), "3, 4");
        assert_eq!(of(&[0, 1, 2, 4, 6, 7, 8]), "0-2, 4, 6-8");
    }
}
