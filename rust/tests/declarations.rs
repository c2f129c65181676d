//! The header, the crate's raw declarations and the library's exports say the same functions: names, and order, names and types of parameters. The header and the
//! crate say the same refusals, constants and version.
use std::collections::BTreeMap;
use wyndhopper::Refusal;

/// A function's parameters as (name, type), then its result, in Rust's words for types.
#[derive(Debug, PartialEq)]
struct Function {
    parameters: Vec<(String, String)>,
    result: String,
}

fn file(path: &str) -> String {
    let root = concat!(env!("CARGO_MANIFEST_DIR"), "/..");
    std::fs::read_to_string(format!("{root}/{path}")).expect(path)
}

/// The text without comments, white space run together.
fn plain(text: &str) -> String {
    let mut left = String::new();
    let mut rest = text;
    while let Some(at) = rest.find("/*") {
        left += &rest[..at];
        rest = rest[at..].split_once("*/").expect("a comment's end").1;
    }
    left += rest;
    let lines = left.lines().map(|l| l.split("//").next().unwrap_or(""));
    lines.flat_map(str::split_whitespace).collect::<Vec<_>>().join(" ")
}

fn rust_type(c: &str) -> &'static str {
    match c {
        "uint8_t" => "u8",
        "uint32_t" => "u32",
        "uint64_t" => "u64",
        "size_t" => "usize",
        "struct wyh_tally" => "Tally",
        other => panic!("a type that is not expected: {other}"),
    }
}

/// `const uint8_t *log`, `uint32_t start`, `uint8_t log[64]`
fn c_parameter(text: &str) -> (String, String) {
    let (kind, name) = text.trim().rsplit_once(' ').expect("a type and a name");
    let name = name.split('[').next().unwrap();
    let pointer = name.starts_with('*') || text.contains('[');
    let of = rust_type(kind.trim_start_matches("const ").trim());
    let whole = match (pointer, kind.starts_with("const ")) {
        (true, true) => format!("*const {of}"),
        (true, false) => format!("*mut {of}"),
        (false, _) => of.to_string(),
    };
    (name.trim_start_matches('*').to_string(), whole)
}

/// The functions that the header declares and does not define.
fn of_header(text: &str) -> BTreeMap<String, Function> {
    let text = plain(&text.lines().filter(|l| !l.starts_with('#')).collect::<Vec<_>>().join("\n"));
    let mut found = BTreeMap::new();
    for piece in text.split([';', '{', '}']).map(str::trim).filter(|p| p.contains(" wyh_") && p.ends_with(')') && !p.starts_with("static ")) {
        let (head, parameters) = piece.trim_end_matches(')').split_once('(').unwrap();
        let Some((result, name)) = head.rsplit_once(' ') else { continue };
        if result.starts_with("return") || result.contains('=') {
            continue;
        }
        let parameters = parameters.split(',').map(c_parameter).collect();
        found.insert(name.to_string(), Function { parameters, result: rust_type(result).to_string() });
    }
    found
}

/// The functions after each `mark`, each parameter made into one or more by `expand`.
fn of_rust(text: &str, mark: &str, expand: fn(&str, &str) -> Vec<(String, String)>) -> BTreeMap<String, Function> {
    let text = plain(text);
    let mut found = BTreeMap::new();
    for piece in text.split(mark).skip(1) {
        let (name, rest) = piece.split_once('(').unwrap();
        let (parameters, rest) = rest.split_once(')').unwrap();
        let result = rest.trim().trim_start_matches("->").trim().split([' ', ';']).next().unwrap();
        let pairs = parameters.split(", ").map(|p| p.trim().trim_end_matches(',')).filter(|p| !p.is_empty());
        let parameters = pairs.flat_map(|p| p.split_once(": ").map(|(n, t)| expand(n, t)).expect("a name and a type")).collect();
        found.insert(name.trim().to_string(), Function { parameters, result: result.to_string() });
    }
    found
}

fn as_it_is(name: &str, kind: &str) -> Vec<(String, String)> {
    vec![(name.to_string(), kind.to_string())]
}

/// A slice of Rattle's is a pointer and a length in C, a lent array or number a pointer. Output's length is its room; the walk that is carried out is a job's run here, where a job is more than that.
fn as_passed(name: &str, kind: &str) -> Vec<(String, String)> {
    let name = if name == "job" { "run" } else { name };
    let Some(lent) = kind.strip_prefix('&') else { return as_it_is(name, kind) };
    let (pointer, inner) = match lent.strip_prefix("mut ") {
        Some(inner) => ("*mut", inner),
        None => ("*const", lent),
    };
    let of = inner.trim_start_matches('[').split([';', ']']).next().unwrap();
    let mut passed = vec![(name.to_string(), format!("{pointer} {of}"))];
    if inner.starts_with('[') && !inner.contains(';') {
        let length = if name == "out" { "room".to_string() } else { format!("{name}_len") };
        passed.push((length, "usize".to_string()));
    }
    passed
}

#[test]
fn the_header_and_the_raw_declarations_are_the_same() {
    let header = of_header(&file("include/wyndhopper.h"));
    let raw = of_rust(&file("rust/src/raw.rs"), "pub fn ", as_it_is);
    assert!(header.len() >= 10, "{header:?}");
    assert_eq!(header, raw);
}

#[test]
fn the_library_exports_these_functions() {
    let header = of_header(&file("include/wyndhopper.h"));
    let crates = std::fs::read_dir(concat!(env!("CARGO_MANIFEST_DIR"), "/../crates")).unwrap().map(|c| c.unwrap().file_name().into_string().unwrap());
    let sources: String = crates.filter(|c| c.ends_with("_calls")).map(|c| file(&format!("crates/{c}/src/lib.rt"))).collect();
    assert_eq!(header, of_rust(&sources, "pub extern \"C\" fn ", as_passed));
}

/// What stands in a text between two others.
fn between<'a>(text: &'a str, before: &str, after: &str) -> &'a str {
    let (_, rest) = text.split_once(before).unwrap_or_else(|| panic!("{before} is missing"));
    rest.split_once(after).unwrap().0
}

#[test]
fn a_tally_has_the_same_fields_everywhere() {
    let header = plain(&file("include/wyndhopper.h"));
    let of_c = |field: &str| {
        let (kind, name) = field.trim().rsplit_once(' ').unwrap();
        let (name, array) = (name.split('[').next().unwrap(), name.contains('['));
        (name.to_string(), rust_type(kind).to_string(), array)
    };
    let of_rust = |field: &str| {
        let (name, kind) = field.trim().trim_start_matches("pub ").split_once(": ").unwrap();
        (name.to_string(), kind.trim_start_matches('[').split(';').next().unwrap().to_string(), kind.starts_with('['))
    };
    let ours: Vec<_> = between(&header, "struct wyh_tally { ", "}").split(';').filter(|f| !f.trim().is_empty()).map(of_c).collect();
    assert_eq!(ours.len(), 5);
    for path in ["rust/src/tally.rs", "crates/tally/src/lib.rt"] {
        let text = plain(&file(path));
        let fields: Vec<_> = between(&text, "#[repr(C)] pub struct Tally { ", "}").split(',').filter(|f| !f.trim().is_empty()).map(of_rust).collect();
        assert_eq!(fields, ours, "{path}");
    }
    assert_eq!((std::mem::size_of::<wyndhopper::Tally>(), std::mem::align_of::<wyndhopper::Tally>()), (136, 4));
}

#[test]
fn refusals_have_the_same_names_numbers_and_sentences() {
    let header = file("include/wyndhopper.h");
    let named = header.lines().filter_map(|l| l.trim().strip_prefix("WYH_REFUSED_")?.trim_end_matches(',').split_once(" = "));
    let named: Vec<(String, String)> = named.map(|(n, k)| (n.replace('_', "").to_lowercase(), k.to_string())).collect();
    let ours: Vec<(String, String)> = Refusal::ALL.iter().map(|r| (format!("{r:?}").to_lowercase(), r.number().to_string())).collect();
    assert_eq!(named, ours);
    for refusal in Refusal::ALL {
        let sentence = header.lines().find(|l| {
            let name = l.trim().strip_prefix("case WYH_REFUSED_").and_then(|l| l.split_once(':'));
            name.is_some_and(|(n, _)| n.replace('_', "").to_lowercase() == format!("{refusal:?}").to_lowercase())
        });
        assert_eq!(between(sentence.expect("a sentence"), "return \"", "\";"), refusal.to_string());
        assert_eq!(Refusal::from_number(refusal.number()), Some(refusal));
    }
    assert_eq!(Refusal::from_number(0), None);
}

#[test]
fn constants_and_version_are_the_same() {
    let header = plain(&file("include/wyndhopper.h"));
    let number = |name: &str| between(&header, &format!("{name} = "), " ").trim_end_matches([',', ';']).parse::<usize>().expect(name);
    assert_eq!(number("WYH_ANSWER_ROOM"), wyndhopper::ANSWER_ROOM);
    assert_eq!(number("WYH_SET_WORDS"), wyndhopper::SET_WORDS);
    assert_eq!(number("WYH_NO_POSITION"), wyndhopper::NO_POSITION);
    assert_eq!(number("WYH_RULE_ROOM"), wyndhopper::RULE_ROOM);
    assert_eq!(number("WYH_FINISH_ROOM"), wyndhopper::FINISH_ROOM);
    assert_eq!(number("WYH_ROW_MASKS"), wyndhopper::ROW_MASKS);
    assert_eq!(number("WYH_BOARD_ROOM"), wyndhopper::BOARD_ROOM);
    assert_eq!(between(&file("rust/src/job.rs"), "BOARD_REFUSED: u8 = ", ";"), number("WYH_BOARD_REFUSED").to_string());
    for (name, yes) in [("WYH_BOARD_NO", false), ("WYH_BOARD_YES", true)] {
        assert_eq!(wyndhopper::board_verdict(number(name) as u8), Some(Ok(yes)));
    }
    assert_eq!(number("WYH_MASKS_ROOM"), wyndhopper::MASKS_ROOM);
    assert_eq!(number("WYH_LOG_ROOM"), wyndhopper::LOG_ROOM);
    assert_eq!(number("WYH_TALLY_ACTIONS"), wyndhopper::TALLY_ACTIONS);
    assert_eq!(between(&file("rust/src/sheet.rs"), "SHEET_NUMBERS: usize = ", ";"), number("WYH_SHEET_NUMBERS").to_string());
    for (name, kind) in [("WYH_TEST", wyndhopper::Kind::Test), ("WYH_WALK", wyndhopper::Kind::Walk), ("WYH_RUN", wyndhopper::Kind::Run)] {
        assert_eq!(number(name), kind as usize);
    }
    assert_eq!(between(&header, "#define WYH_VERSION \"", "\""), wyndhopper::VERSION);
}

#[test]
fn the_newest_changes_are_of_this_version() {
    let changes = file("CHANGELOG.md");
    let newest = changes.lines().find_map(|l| l.strip_prefix("## ")).expect("a version");
    assert_eq!(newest, wyndhopper::VERSION);
}
