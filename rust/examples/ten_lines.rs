//! A scheduler's question in ten lines: is label 1 out, and what is left to print?
use wyndhopper::{plain_row, Job};

fn main() {
    let masks = [plain_row(0, 0, 1, 0), plain_row(1, 0, 2, 0)];
    let job = Job::new(2, 2, masks.as_flattened()).with_log(&[0]);
    let mut left = [0; wyndhopper::FINISH_ROOM];
    println!("label 1 is out: {:?}", job.verdict(b"f00", 1, 1));
    println!("left to print: {:?} -> {:?}", job.finish(b";a00a01", 6, &mut left), left[0]);
}
