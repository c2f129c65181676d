//! The header, the crate's raw declarations and the library's exports say the same functions, parameter by parameter; the header and the crate the same constants,
//! numbers and version, and the page of changes has that version.
use carton_desk::{Refusal, CARTON_LIMIT, LOG_LIMIT, VERSION};

fn file(path: &str) -> String {
    let root = concat!(env!("CARGO_MANIFEST_DIR"), "/../..");
    std::fs::read_to_string(format!("{root}/{path}")).expect(path)
}

/// The parameters of a function as its text has them, white space run together.
fn parameters(text: &str, function: &str) -> Vec<String> {
    let (_, rest) = text.split_once(&format!(" {function}(")).unwrap_or_else(|| panic!("{function} is missing"));
    let inside = rest.split_once(')').expect("its end").0;
    inside.split(',').map(|p| p.split_whitespace().collect::<Vec<_>>().join(" ")).filter(|p| !p.is_empty()).collect()
}

/// A parameter in C's words, from Rust's.
fn in_c(parameter: &str) -> String {
    let (name, kind) = parameter.split_once(": ").expect("a name and a type");
    let (pointer, of) = kind.rsplit_once(' ').unwrap_or(("", kind));
    let of = match of {
        "u8" => "uint8_t",
        "usize" => "size_t",
        other => panic!("a type that is not expected: {other}"),
    };
    match pointer {
        "" => format!("{of} {name}"),
        "*const" => format!("const {of} *{name}"),
        "*mut" => format!("{of} *{name}"),
        other => panic!("a type that is not expected: {other}"),
    }
}

/// A parameter in raw Rust's words, from Rattle's: a slice is a pointer and a length.
fn passed(parameter: &str) -> Vec<String> {
    let (name, kind) = parameter.split_once(": ").expect("a name and a type");
    match kind.strip_prefix('&') {
        None => vec![parameter.to_string()],
        Some("[u8]") => vec![format!("{name}: *const u8"), format!("{name}_len: usize")],
        Some(lent) => vec![format!("{name}: *mut {}", lent.strip_prefix("mut ").expect("a lent slot"))],
    }
}

#[test]
fn the_functions_are_the_same() {
    let (header, raw, exports) = (file("include/carton_desk.h"), file("rust/desk/src/raw.rs"), file("crates/desk_c/src/lib.rt"));
    for function in ["desk_may_print", "desk_lowest"] {
        let ours = parameters(&raw, function);
        assert_eq!(parameters(&header, function), ours.iter().map(|p| in_c(p)).collect::<Vec<_>>());
        assert_eq!(parameters(&exports, function).iter().flat_map(|p| passed(p)).collect::<Vec<_>>(), ours);
    }
    for (text, mark) in [(&header, "uint8_t desk_"), (&raw, "pub fn desk_"), (&exports, "pub extern \"C\" fn desk_")] {
        assert_eq!(text.matches(mark).count(), 2, "{mark}");
    }
}

#[test]
fn the_numbers_are_the_same() {
    let header = file("include/carton_desk.h");
    let exports = file("crates/desk/src/lib.rt");
    assert!(header.contains(&format!("DESK_CARTON_LIMIT = {CARTON_LIMIT}, DESK_LOG_LIMIT = {LOG_LIMIT} ")));
    assert!(exports.contains(&format!("CARTON_LIMIT: usize = {CARTON_LIMIT};")) && exports.contains(&format!("LOG_LIMIT: usize = {LOG_LIMIT};")));
    let named = [("BAD_NUMBER", Refusal::BadNumber), ("BAD_LOG", Refusal::BadLog)];
    for (name, refusal) in named {
        assert!(header.contains(&format!("DESK_REFUSED_{name} = {}", refusal.number())));
    }
    assert!(header.contains(&format!("#define DESK_VERSION \"{VERSION}\"")));
    assert!(file("CHANGELOG.md").contains(&format!("The carton desk {VERSION}")));
}
