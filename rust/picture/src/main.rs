//! `picture [--text] [--names FILE] SHEET`: writes the picture of a sheet to standard output. Exit status 0 for an answer, 1 for a refused sheet, which has a picture too, 2 where the arguments are
//! not right or something could not be read or written.
use picture::facts::Facts;
use picture::fault::Refused;
use picture::names::Names;
use picture::progress::Progress;
use picture::{page, text};
use std::io::{Read, Write};
use std::process::ExitCode;
use wyndhopper::{Sheet, SheetRoom};

const USAGE: &str = "usage: picture [--text] [--names FILE] SHEET
Writes a page that shows why SHEET, a file or '-' for standard input, has the verdict that it has: the log, the question and the job, part by part. A refused sheet has a page
too, with the place of the fault. The page is one file, for a browser or for paper.
  --text        the same as text for a terminal
  --names FILE  words in the place of numbers, from lines such as 'action 05 void' and 'fluent 00 label 1 is out'
Exit status: 0 an answer, 1 a refused sheet, 2 the arguments are not right, or something could not be read or written.
";

/// No sheet of any version is nearly as long: what comes behind is not read, and the library refuses what has been read.
const MOST: u64 = 1 << 20;

struct Arguments {
    text: bool,
    names: Option<String>,
    sheet: String,
}

/// What is asked for; None is a question for help.
fn arguments(words: impl Iterator<Item = String>) -> Result<Option<Arguments>, String> {
    let (mut text, mut names, mut sheet) = (false, None, None);
    let mut words = words.peekable();
    while let Some(word) = words.next() {
        match &word[..] {
            "--help" => return Ok(None),
            "--text" => text = true,
            "--names" if names.is_some() => return Err("one file of names at a time".to_string()),
            "--names" => names = Some(words.next().ok_or("--names wants a file")?),
            "-" => sheet = once(sheet, word)?,
            option if option.starts_with('-') => return Err(format!("there is no option {option}")),
            _ => sheet = once(sheet, word)?,
        }
    }
    let sheet = sheet.ok_or("give a sheet")?;
    Ok(Some(Arguments { text, names, sheet }))
}

fn once(before: Option<String>, word: String) -> Result<Option<String>, String> {
    match before {
        None => Ok(Some(word)),
        Some(_) => Err("one sheet at a time".to_string()),
    }
}

fn read(file: &str) -> Result<Vec<u8>, String> {
    let mut bytes = Vec::new();
    let done = match file {
        "-" => std::io::stdin().take(MOST).read_to_end(&mut bytes),
        _ => std::fs::File::open(file).and_then(|file| file.take(MOST).read_to_end(&mut bytes)),
    };
    let name = if file == "-" { "standard input" } else { file };
    done.map(|_| bytes).map_err(|fault| format!("{name} could not be read: {fault}"))
}

fn names(file: Option<&str>) -> Result<Names, String> {
    let Some(file) = file else { return Ok(Names::default()) };
    let text = String::from_utf8(read(file)?).map_err(|_| format!("{file} is no text in UTF-8"))?;
    Names::read(&text).map_err(|what| format!("{file}, {what}"))
}

/// The picture, and whether the sheet was accepted.
fn drawn(arguments: &Arguments) -> Result<(String, bool), String> {
    let names = names(arguments.names.as_deref())?;
    let sheet = read(&arguments.sheet)?;
    let name = match &arguments.sheet[..] {
        "-" => "standard input".to_string(),
        file => std::path::Path::new(file).file_name().map_or(file.to_string(), |name| name.to_string_lossy().into_owned()),
    };
    let mut room = SheetRoom::new();
    match Sheet::read(&sheet, &mut room) {
        Ok(read) => {
            let facts =
                Facts::of(&read, &Progress::told()).map_err(|refusal| format!("the library does not answer a question about {name}: {refusal}"))?;
            let accepted = if arguments.text { text::accepted } else { page::accepted };
            Ok((accepted(&name, &facts, &names), true))
        }
        Err(fault) => {
            let refused = Refused::of(&sheet, fault);
            Ok((if arguments.text { text::refused(&name, &refused) } else { page::refused(&name, &refused) }, false))
        }
    }
}

fn written(what: &str) -> Result<(), String> {
    let mut out = std::io::stdout().lock();
    out.write_all(what.as_bytes()).and_then(|()| out.flush()).map_err(|fault| format!("the picture could not be written: {fault}"))
}

fn told() -> Result<bool, String> {
    let words = std::env::args_os().skip(1).map(|word| word.to_string_lossy().into_owned());
    match arguments(words).map_err(|what| format!("{what}; picture --help says how"))? {
        None => written(USAGE).map(|()| true),
        Some(arguments) => {
            let (picture, accepted) = drawn(&arguments)?;
            written(&picture).map(|()| accepted)
        }
    }
}

fn main() -> ExitCode {
    match told() {
        Ok(true) => ExitCode::SUCCESS,
        Ok(false) => ExitCode::from(1),
        Err(what) => {
            let _ = writeln!(std::io::stderr(), "picture: {what}");
            ExitCode::from(2)
        }
    }
}
