//! The wall display of a job: after every step of its log, all of its lines in one call. Three actions: print 1, print 2 (needs label 1), void both. It prints what
//! c/wall_display.c prints.
use wyndhopper::{board_verdict, plain_row, Job};

const LINES: [(&str, &str); 6] = [
    ("label 1 is out", "f00"),
    ("label 2 is out", "f01"),
    ("label 2 comes next", "&f00!f01"),
    ("label 1 was printed, and nothing was forced since", "<-;a00*n1"),
    ("the last step was a void", "<r021"),
    // a slip of the pen: there are two labels, so that this line alone is refused
    ("label 3 is out", "f02"),
];

fn refresh(job: &Job, tests: &str) {
    let mut out = [0; LINES.len()];
    let end = job.log().len();
    println!("after {end} steps");
    match job.board(tests.as_bytes(), end, end, &mut out) {
        Err(refusal) => println!("  no display: {refusal}"),
        Ok(count) => {
            for ((says, _), byte) in LINES.iter().zip(&out[..count]) {
                match board_verdict(*byte).expect("a byte of a board") {
                    Ok(yes) => println!("  {says}: {}", if yes { "yes" } else { "no" }),
                    Err(refusal) => println!("  {says}: ? ({refusal})"),
                }
            }
        }
    }
}

fn main() {
    let masks = [plain_row(0, 0, 1, 0), plain_row(1, 0, 2, 0), plain_row(0, 0, 0, 3)];
    let log = [0, 1, 2, 1];
    // The tests stay the same from refresh to refresh: each line's, and an LF behind it.
    let tests: String = LINES.iter().map(|(_, test)| format!("{test}\n")).collect();
    for steps in 0..=log.len() {
        refresh(&Job::new(2, 3, masks.as_flattened()).with_log(&log[..steps]), &tests);
    }
}
