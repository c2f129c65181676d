//! What drawings are made of.
use crate::columns::{Columns, WIDTH};
use crate::places::{stretches, Places};

/// A text as it stands in a page.
pub fn escaped(text: &str) -> String {
    text.replace('&', "&amp;").replace('<', "&lt;").replace('>', "&gt;").replace('"', "&quot;")
}

/// A drawing of a height, told in words to whoever does not see it.
pub fn drawing(class: &str, height: usize, told: &str, inside: &str) -> String {
    format!("<svg class=\"{class}\" viewBox=\"0 0 {WIDTH} {height}\" role=\"img\" aria-label=\"{}\">{inside}</svg>\n", escaped(told))
}

/// The part of a set that stands in a line.
pub fn in_line(places: &Places, line: (usize, usize)) -> Places {
    places.range(line.0..=line.1).copied().collect()
}

/// A bar along each stretch of the set. Its ends are rounded, so that a single position is a dot; a stretch that goes on in the line before or behind runs to the edge.
pub fn bars(class: &str, columns: Columns, line: (usize, usize), y: usize, places: &Places) -> String {
    let edge = columns.pitch / 2;
    let bar = |&(first, last): &(usize, usize)| {
        let before = first == line.0 && first > 0 && places.contains(&(first - 1));
        let behind = last == line.1 && places.contains(&(last + 1));
        let (from, to) = (columns.x(line.0, first) - if before { edge } else { 0 }, columns.x(line.0, last) + if behind { edge } else { 0 });
        format!("M{from} {y}h{}", to - from)
    };
    path(class, &stretches(&in_line(places, line)).iter().map(bar).collect::<String>())
}

/// A square at each position of the set: a line whose dashes fall on the positions.
pub fn squares(class: &str, columns: Columns, line: (usize, usize), y: usize, places: &Places) -> String {
    let size = 7;
    let row = |&(first, last): &(usize, usize)| format!("M{} {y}h{}", columns.x(line.0, first) - size / 2, (last - first) * columns.pitch + size);
    let drawn: String = stretches(&in_line(places, line)).iter().map(row).collect();
    if drawn.is_empty() {
        return drawn;
    }
    format!("<path class=\"{class}\" stroke-dasharray=\"{size} {}\" d=\"{drawn}\"/>", columns.pitch - size)
}

/// A mark above each position of the set; above a long stretch one bracket.
pub fn marks(class: &str, columns: Columns, line: (usize, usize), y: usize, places: &Places) -> String {
    let y = y + 1;
    let mark = |&(first, last): &(usize, usize)| match last - first {
        0..=3 => (first..=last).map(|place| format!("M{} {y}h8l-4 6z", columns.x(line.0, place) - 4)).collect::<String>(),
        _ => {
            let (from, to) = (columns.x(line.0, first) - 4, columns.x(line.0, last) + 4);
            format!("M{from} {y}h{}l-4 6h-{}z", to - from, to - from - 8)
        }
    };
    path(class, &stretches(&in_line(places, line)).iter().map(mark).collect::<String>())
}

/// A path, if there is anything of it.
pub fn path(class: &str, drawn: &str) -> String {
    match drawn {
        "" => String::new(),
        _ => format!("<path class=\"{class}\" d=\"{drawn}\"/>"),
    }
}

/// A text at a place.
pub fn text(class: &str, x: usize, y: usize, text: &str) -> String {
    format!("<text class=\"{class}\" x=\"{x}\" y=\"{y}\">{}</text>", escaped(text))
}
