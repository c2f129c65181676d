//! People's words for actions and fluents, from a file with lines such as `action 05 void` and `fluent 00 label 1 is out`.
use crate::words::cut;
use std::collections::BTreeMap;

/// What is called how; whatever has no name is called by its number.
#[derive(Clone, Debug, Default)]
pub struct Names {
    actions: BTreeMap<usize, String>,
    fluents: BTreeMap<usize, String>,
}

impl Names {
    /// Reads the lines; a blank one, or one that opens with `#`, says nothing. What is wrong is told with its line's number.
    pub fn read(text: &str) -> Result<Names, String> {
        let mut names = Names::default();
        for (line, told) in text.lines().enumerate().map(|(k, line)| (k + 1, line.trim())) {
            if !told.is_empty() && !told.starts_with('#') {
                names.take(told).map_err(|what| format!("line {line}: {what}"))?;
            }
        }
        Ok(names)
    }

    fn take(&mut self, told: &str) -> Result<(), String> {
        let wanted = || format!("'{}' is neither 'action NN WORDS' nor 'fluent NN WORDS'", cut(&told.escape_debug().to_string(), 60));
        let (kind, rest) = told.split_once(' ').ok_or_else(wanted)?;
        let (number, words) = rest.trim_start().split_once(' ').ok_or_else(wanted)?;
        let two_digits = number.len() == 2 && number.bytes().all(|b| b.is_ascii_digit());
        let named = match kind {
            "action" if two_digits => &mut self.actions,
            "fluent" if two_digits => &mut self.fluents,
            _ => return Err(wanted()),
        };
        if words.chars().any(char::is_control) {
            return Err(format!("the words for {kind} {number} have a character that cannot be shown"));
        }
        let number_read = number.parse().map_err(|_| wanted())?;
        match named.insert(number_read, words.trim().to_string()) {
            None => Ok(()),
            Some(_) => Err(format!("{kind} {number} has a name already")),
        }
    }

    /// An action in a sentence.
    pub fn action(&self, number: usize) -> String {
        self.actions.get(&number).cloned().unwrap_or_else(|| format!("action {number:02}"))
    }

    /// That a fluent is on, as a sentence.
    pub fn fluent(&self, number: usize) -> String {
        self.fluents.get(&number).cloned().unwrap_or_else(|| format!("fluent {number:02} is on"))
    }

    /// That the fluent a variable's value behind this one is on.
    pub fn fluent_plus(&self, number: usize, variable: char) -> String {
        match self.fluents.get(&number) {
            Some(words) => format!("{words} + {variable}"),
            None => format!("fluent {number:02} + {variable} is on"),
        }
    }

    /// An action on its step: its words, or its number alone.
    pub fn step(&self, number: usize) -> String {
        self.actions.get(&number).cloned().unwrap_or_else(|| format!("{number:02}"))
    }

    /// A fluent beside its lane: its words, or its number.
    pub fn lane(&self, number: usize) -> String {
        self.fluents.get(&number).cloned().unwrap_or_else(|| format!("fluent {number:02}"))
    }

    /// An action with its number, where it has words beside it.
    pub fn numbered(&self, number: usize) -> String {
        match self.actions.get(&number) {
            Some(words) => format!("{number:02} {words}"),
            None => format!("{number:02}"),
        }
    }
}

#[cfg(test)]
mod tests {
    use super::*;

    #[test]
    fn words_stand_for_numbers() {
        let names = Names::read("# the desk\n\naction 05 void\nfluent 00   label 1 is out \r\n").unwrap();
        assert_eq!(names.action(5), "void");
        assert_eq!(names.action(4), "action 04");
        assert_eq!(names.step(4), "04");
        assert_eq!(names.numbered(5), "05 void");
        assert_eq!(names.fluent(0), "label 1 is out");
        assert_eq!(names.lane(1), "fluent 01");
    }

    #[test]
    fn a_faulty_line_is_told_by_its_number() {
        for (text, line) in [
            ("action 5 void", 1),
            ("action 05", 1),
            ("\nlabel 05 void", 2),
            ("action 05 a\nfluent 05 b\naction 05 c", 3),
            ("action 05 a\u{7}b", 1),
            ("action +5 void", 1),
        ] {
            let told = Names::read(text).unwrap_err();
            assert!(told.starts_with(&format!("line {line}: ")), "{told}");
        }
    }
}
