//! Measures the proved library: `measure compare`, `measure growth`, `measure work`, `measure search`, `measure binders`, `measure stack`, `measure tally`, `measure board`, `measure interpreter FOLDER`. Each prints lines of columns with tabs
//! between, for the scripts beside it.
mod binders;
mod board;
mod case;
mod clock;
mod compare;
mod factory;
mod growth;
mod interpreter;
mod painted;
mod prolog;
mod shapes;
mod sought;
mod stack;
mod tally;
mod texts;
mod theories;
mod work;

fn main() {
    let args: Vec<String> = std::env::args().skip(1).collect();
    let words: Vec<&str> = args.iter().map(String::as_str).collect();
    match words[..] {
        ["compare"] => compare::run(),
        ["growth"] => growth::run(),
        ["work"] => work::run(),
        ["search"] => sought::run(),
        ["binders"] => binders::run(),
        ["stack"] => stack::run(),
        ["tally"] => tally::run(),
        ["board"] => board::run(),
        ["interpreter", folder] => interpreter::run(folder.as_ref()),
        _ => {
            eprintln!("measure compare | growth | work | search | binders | stack | tally | board | interpreter FOLDER");
            std::process::exit(2);
        }
    }
}
