//! Document 02, Q-3, on document 01's theory and its log L: a byte for each test, and the refusals of the whole call in their order.
use oracle::board::board;
use oracle::rule::Counts;

const MASKS: [u32; 30] = [0, 0, 0, 0, 1, 0, 0, 0, 0, 0, 1, 0, 0, 0, 2, 0, 0, 0, 0, 0, 0, 0, 0, 0, 0, 3, 0, 0, 0, 0];
const L: &[u8] = &[0, 1, 2, 0];

fn counts(domain: usize) -> Counts {
    Counts { fluents: 2, actions: 3, domain }
}

fn asked(text: &[u8], then: usize, now: usize, room: usize) -> Result<Vec<u8>, u8> {
    board(counts(0), 0, 0, &MASKS, L, text, then, now, room)
}

fn at_the_end(text: &str) -> Result<Vec<u8>, u8> {
    asked(text.as_bytes(), 4, 4, 64)
}

#[test]
fn a_byte_each() {
    let deep = "!".repeat(24) + "1";
    assert_eq!(at_the_end(&format!("1\n!1\n\nf02\n{deep}\n<-;a00*n!<;*na011\n")), Ok(vec![1, 0, 22, 23, 24, 1]));
    assert_eq!(at_the_end(""), Ok(vec![]));
    assert_eq!(at_the_end("\n"), Ok(vec![22]));
    assert_eq!(at_the_end("1\n\n"), Ok(vec![1, 22]));
    // A CR is a part of the test; 256 bytes are too many for one; with no domain `b00v` is no rule.
    let wide = (0..7).fold("1".to_string(), |t, _| format!("&{t}{t}"));
    assert_eq!((wide.len(), at_the_end(&format!("{wide}\n1\r\n{wide}1\nb00v\n"))), (255, Ok(vec![1, 22, 22, 22])));
    assert_eq!((asked(b"f00\n", 2, 4, 1), asked(b"f00\n", 3, 4, 1)), (Ok(vec![1]), Ok(vec![0])));
}

#[test]
fn variables() {
    let asked = |domain, text: &str| board(counts(domain), 0, 0, &MASKS, L, text.as_bytes(), 4, 4, 64);
    assert_eq!(asked(2, "g00v\nevg00v\n!ev!g00v\ng01v\n"), Ok(vec![29, 1, 0, 23]));
    assert_eq!((asked(0, "g00v\nevg00v\n"), asked(16, "1\n"), asked(17, "1\n"), asked(17, "1")), (Ok(vec![22, 22]), Ok(vec![1]), Err(3), Err(2)));
}

#[test]
fn refusals_of_the_whole_call() {
    let lines = |n: usize| "\n".repeat(n);
    assert_eq!((at_the_end("1"), at_the_end("1\n1")), (Err(2), Err(2)));
    assert_eq!((at_the_end(&lines(64)), at_the_end(&lines(65))), (Ok(vec![22; 64]), Err(3)));
    assert_eq!(at_the_end(&(lines(64) + "1")), Err(2));
    assert_eq!((asked(lines(65).as_bytes(), 4, 3, 0), asked(lines(64).as_bytes(), 4, 3, 0)), (Err(3), Err(10)));
    assert_eq!((asked(b"\n1\n", 4, 4, 1), asked(b"\n1\n", 4, 4, 2)), (Err(12), Ok(vec![22, 1])));
    assert_eq!((asked(b"1\n", 5, 4, 0), asked(b"1\n", 0, 5, 0), asked(b"", 5, 4, 0)), (Err(10), Err(10), Err(10)));
    assert_eq!(board(counts(0), 0, 0, &MASKS[..29], &[3], b"1\n", 5, 4, 0), Err(3));
    assert_eq!(board(Counts { fluents: 1, ..counts(0) }, 0, 0, &MASKS, &[3], b"1\n", 5, 4, 0), Err(4));
    assert_eq!(board(counts(0), 0, 0, &MASKS, &[3], b"1\n", 5, 4, 0), Err(5));
}
