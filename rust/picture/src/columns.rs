//! Where positions stand on a page: in columns, as many to a line as there is room for. Drawings that share columns stand below one another.

/// How wide a drawing is, and how much of it is kept for what stands beside its lanes.
pub const WIDTH: usize = 960;
pub const LABEL: usize = 150;
/// How many letters fit there.
pub const BESIDE: usize = 24;

/// The least pitch of the columns of a rule's answers, and the least in which every position is numbered.
const NARROW: usize = 12;
const ROOMY: usize = 24;

#[derive(Clone, Copy, Debug, PartialEq, Eq)]
pub struct Columns {
    pub pitch: usize,
    /// The last position of all.
    pub last: usize,
}

impl Columns {
    /// Columns for positions 0 to `last`.
    pub fn new(pitch: usize, last: usize) -> Columns {
        Columns { pitch, last }
    }

    /// Columns for a rule's answers: those of the log where it stands in one line, else such as bring them into one line, if that is not too narrow.
    pub fn for_rules(self, end: usize) -> Columns {
        match self.lines().len() {
            1 => Columns { last: end, ..self },
            _ => Columns { pitch: ((WIDTH - LABEL) / (end + 1)).clamp(NARROW, self.pitch), last: end },
        }
    }

    /// Every position is numbered, or every fifth.
    pub fn numbered(self) -> usize {
        if self.pitch < ROOMY {
            5
        } else {
            1
        }
    }

    /// The lines, each as its first and last position; where one ends the next begins with the same position.
    pub fn lines(self) -> Vec<(usize, usize)> {
        let steps = (WIDTH - LABEL) / self.pitch - 1;
        let mut lines = vec![(0, self.last.min(steps))];
        while let Some(&(_, end)) = lines.last().filter(|(_, end)| *end < self.last) {
            lines.push((end, self.last.min(end + steps)));
        }
        lines
    }

    /// The middle of a position's column, in the line that begins with `first`.
    pub fn x(self, first: usize, place: usize) -> usize {
        LABEL + self.pitch / 2 + (place - first) * self.pitch
    }
}

#[cfg(test)]
mod tests {
    use super::*;

    #[test]
    fn every_position_has_a_line_and_fits() {
        for pitch in [12, 56, 80, 104] {
            for last in [0, 1, 7, 63, 64, 500, 1023] {
                let columns = Columns::new(pitch, last);
                let lines = columns.lines();
                assert_eq!((lines[0].0, lines[lines.len() - 1].1), (0, last));
                assert!(lines.windows(2).all(|two| two[0].1 == two[1].0));
                assert!(lines.iter().all(|&(first, end)| columns.x(first, end) + pitch / 2 <= WIDTH));
            }
        }
    }

    #[test]
    fn a_log_of_63_steps_is_one_line_of_a_rule() {
        assert_eq!(Columns::new(56, 69).for_rules(63).lines(), [(0, 63)]);
        assert_eq!(Columns::new(56, 7).for_rules(4), Columns::new(56, 4));
        assert_eq!(Columns::new(56, 18).for_rules(15).lines(), [(0, 15)]);
    }
}
