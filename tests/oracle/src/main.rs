//! Answers one sheet on standard input, by the second implementation.
use std::io::Read;

fn main() {
    let mut sheet = Vec::new();
    std::io::stdin().read_to_end(&mut sheet).expect("standard input");
    print!("{}", oracle::sheet::answer(&sheet));
}
