//! The whole board at once: worked out by hand, asked of the library. Three actions: print 1, print 2 (needs label 1), void both. L is 00 01 02 00.
use wyndhopper::{board_verdict, Job, Refusal, BOARD_ROOM};

const MASKS: [u32; 30] = [0, 0, 0, 0, 1, 0, 0, 0, 0, 0, 1, 0, 0, 0, 2, 0, 0, 0, 0, 0, 0, 0, 0, 0, 0, 3, 0, 0, 0, 0];
const L: &[u8] = &[0, 1, 2, 0];

/// What stands in the output before a call.
const BEFORE: u8 = 99;

/// The answer, with the bytes that were told; every other byte is as it was, on a refusal too.
fn board(job: &Job, text: &[u8], then: usize, now: usize, room: usize) -> Result<Vec<u8>, Refusal> {
    let mut out = [BEFORE; BOARD_ROOM + 2];
    let answer = job.board(text, then, now, &mut out[..room]);
    let count = answer.unwrap_or(0);
    assert!(out[count..].iter().all(|&b| b == BEFORE));
    answer.map(|count| out[..count].to_vec())
}

fn asked(text: &[u8], then: usize, now: usize, room: usize) -> Result<Vec<u8>, Refusal> {
    board(&Job::new(2, 3, &MASKS).with_log(L), text, then, now, room)
}

fn at_the_end(text: &str) -> Result<Vec<u8>, Refusal> {
    asked(text.as_bytes(), 4, 4, BOARD_ROOM + 2)
}

#[test]
fn a_byte_each() {
    let deep = "!".repeat(24) + "1";
    assert_eq!(at_the_end(&format!("1\n!1\n\nf02\n{deep}\n<-;a00*n!<;*na011\n")), Ok(vec![1, 0, 22, 23, 24, 1]));
    assert_eq!(at_the_end(""), Ok(vec![]));
    assert_eq!(at_the_end("\n"), Ok(vec![22]));
    assert_eq!(at_the_end("1\n\n"), Ok(vec![1, 22]));
    // A CR is a part of the test; 256 bytes are too many for one; with no domain `b00v` is no rule.
    let wide = (0..7).fold("1".to_string(), |t, _| format!("&{t}{t}"));
    assert_eq!((wide.len(), at_the_end(&format!("{wide}\n1\r\n{wide}1\nb00v\n"))), (255, Ok(vec![1, 22, 22, 22])));
    assert_eq!((asked(b"f00\n", 2, 4, 1), asked(b"f00\n", 3, 4, 1)), (Ok(vec![1]), Ok(vec![0])));
}

/// An unbound variable is a test's own refusal, a bad domain that of the whole call.
#[test]
fn variables() {
    let asked = |domain, text: &str| board(&Job::new(2, 3, &MASKS).with_log(L).with_domain(domain), text.as_bytes(), 4, 4, BOARD_ROOM);
    assert_eq!(asked(2, "g00v\nevg00v\n!ev!g00v\ng01v\n"), Ok(vec![29, 1, 0, 23]));
    assert_eq!((asked(0, "g00v\nevg00v\n"), asked(16, "1\n")), (Ok(vec![22, 22]), Ok(vec![1])));
    assert_eq!((asked(17, "1\n"), asked(17, "1")), (Err(Refusal::BadNumber), Err(Refusal::BadLine)));
}

#[test]
fn refusals_of_the_whole_call() {
    use Refusal::*;
    let lines = |n: usize| "\n".repeat(n);
    assert_eq!((at_the_end("1"), at_the_end("1\n1")), (Err(BadLine), Err(BadLine)));
    assert_eq!((at_the_end(&lines(64)), at_the_end(&lines(65))), (Ok(vec![22; 64]), Err(BadNumber)));
    assert_eq!(at_the_end(&(lines(64) + "1")), Err(BadLine));
    assert_eq!((asked(lines(65).as_bytes(), 4, 3, 0), asked(lines(64).as_bytes(), 4, 3, 0)), (Err(BadNumber), Err(BadPosition)));
    assert_eq!((asked(b"\n1\n", 4, 4, 1), asked(b"\n1\n", 4, 4, 2)), (Err(ShortOutput), Ok(vec![22, 1])));
    assert_eq!((asked(b"1\n", 5, 4, 0), asked(b"1\n", 0, 5, 0), asked(b"", 5, 4, 0)), (Err(BadPosition), Err(BadPosition), Err(BadPosition)));
    for (job, refusal) in [(Job::new(2, 3, &MASKS[..29]), BadNumber), (Job::new(1, 3, &MASKS), LacksFluent), (Job::new(2, 3, &MASKS), BadLog)] {
        assert_eq!(board(&job.with_log(&[3]), b"1\n", 5, 4, 0), Err(refusal));
    }
}

/// Each byte is what the single question says of its test, at every then and now, whatever stands beside it.
#[test]
fn each_byte_is_the_single_answer() {
    let tests = ["f00", "", "<-;a00*n1", "f02", "!f01", "<a011", "nonsense", "<-;a01*n!f00", "evg00v", "g00v", "ev<-;b00v*n1"];
    let text: String = tests.iter().map(|t| format!("{t}\n")).collect();
    let job = Job::new(2, 3, &MASKS).with_log(L).with_domain(2);
    for now in 0..=4 {
        for then in 0..=now {
            let bytes = board(&job, text.as_bytes(), then, now, tests.len()).unwrap();
            for (test, byte) in tests.iter().zip(bytes) {
                assert_eq!(board_verdict(byte), Some(job.verdict(test.as_bytes(), then, now)), "{test} at {then}, {now}");
            }
        }
    }
}
