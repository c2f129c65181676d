//! The whole board: its bytes, its refusals, and that each byte is what the library itself says of that test alone.
use crate::calls;
use crate::make::{self, Dice, Input};
use crate::{counts, job, place, same, same_safe, written, Tally};
use wyndhopper::{board_verdict, Job};

/// Tests with an LF behind each, mostly a few; now and then as many as a board may have, or more; now and then with the last LF missing, or bytes where no test is.
pub fn text(d: &mut Dice, i: &Input) -> Vec<u8> {
    let many = if d.once_in(8) { d.pick(&[63, 64, 65, 66]) } else { d.below(6) };
    let mut text = Vec::new();
    for _ in 0..many {
        if many < 60 || d.once_in(16) {
            text.extend(make::rule(d, 0, i));
        } else {
            text.extend_from_slice(d.pick(&["", "1", "!1", "f00", "f99", "g00v", "evg00v", "1\r", "<*u!f00", "<-;a00*n1"]).as_bytes());
        }
        text.push(b'\n');
    }
    match d.below(20) {
        0 => {
            text.pop();
        }
        1 => text.push(d.next() as u8),
        2 if !text.is_empty() => {
            let k = d.below(text.len());
            text[k] = d.pick(b"\n\r1!");
        }
        _ => {}
    }
    text
}

/// Where the whole board is answered, each of its bytes is that of the single question.
fn singly(job: &Job, text: &[u8], then: usize, now: usize, bytes: &[u8]) {
    for (line, &byte) in text.split_inclusive(|&b| b == b'\n').zip(bytes) {
        let test = &line[..line.len() - 1];
        same("a byte of a board", &(job, test, then, now), board_verdict(byte), Some(job.verdict(test, then, now)));
    }
}

pub fn boards(d: &mut Dice, i: &Input, tally: &mut Tally) {
    let now = place(d, &i.log);
    let then = if now < 64 { d.below(now + 1) + d.below(2) * d.below(2) } else { 0 };
    let text = text(d, i);
    let lines = text.iter().filter(|&&b| b == b'\n').count();
    let room = if d.once_in(6) { d.below(lines + 1) } else { lines + d.below(3) };
    let plain = oracle::board::board(counts(i), i.start, i.reading, &i.masks, &i.log, &text, then, now, room);
    tally.note("board", &plain);
    same("board", &(i, &text, then, now, room), calls::board(i, &text, then, now, room), written(room, &plain));
    let mut out = vec![0; room];
    let safe = job(i).board(&text, then, now, &mut out).map(|count| out[..count].to_vec());
    same_safe("board, safe", i, &(i, &text, then, now, room), safe, plain.clone());
    if let Ok(bytes) = plain {
        singly(&job(i), &text, then, now, &bytes);
        let refused = bytes.iter().find(|&&b| b > 1).map_or(Ok(()), |b| Err(b - 16));
        tally.note("first refused test of a board", &refused);
    }
}
