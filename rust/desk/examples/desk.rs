//! A desk's morning: three cartons, two labels printed, the third may be; then a void, and the first comes again.
use carton_desk::{lowest, may_print};

fn main() {
    let log = [0, 1, 2, 3];
    for steps in [0, 2, 3, 4] {
        let may: Vec<bool> = (1..=3).map(|k| may_print(3, &log[..steps], k).unwrap()).collect();
        println!("{steps} steps: lowest {:?}, may print {may:?}", lowest(3, &log[..steps]).unwrap());
    }
    println!("no carton: {:?}", may_print(0, &log, 1));
}
