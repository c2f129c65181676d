//! Every call once with an answer and once with a refusal, over three actions: print 1, print 2 (needs label 1), void both. It prints what
//! c/every_call.c prints.
use wyndhopper::{plain_row, Job, Kind, Reading, Refusal, Sheet, SheetRoom, Tally};

fn told<T>(call: &str, answer: &Result<T, Refusal>) {
    match answer {
        Ok(_) => println!("{call}: not refused"),
        Err(refusal) => println!("{call}: {refusal}"),
    }
}

fn states(job: &Job) {
    for position in [2, 5] {
        let answer = job.state(position);
        told(&format!("state at {position}"), &answer);
        println!("  {:08x}", answer.unwrap_or(0));
    }
}

fn reach(job: &Job, walk: &str, then: usize) {
    let answer = job.reach(walk.as_bytes(), then, job.log().len());
    told("reach", &answer);
    let (set, count, earliest) = answer.map_or((0, 0, wyndhopper::NO_POSITION), |r| (r.set[0], r.count, r.earliest));
    println!("  set {set:x}, count {count}, earliest {earliest}");
}

fn verdict(job: &Job, test: &str) {
    let end = job.log().len();
    let answer = job.verdict(test.as_bytes(), end, end);
    told("verdict", &answer);
    println!("  {}", if answer == Ok(true) { "yes" } else { "no" });
}

/// The bytes that are told, and one behind them that is not touched.
fn board(job: &Job, tests: &str, room: usize) {
    let mut out = [99; wyndhopper::BOARD_ROOM + 1];
    let end = job.log().len();
    let answer = job.board(tests.as_bytes(), end, end, &mut out[..room]);
    told("board", &answer);
    let count = answer.unwrap_or(0);
    let bytes: String = out[..=count].iter().map(|b| format!(" {b}")).collect();
    println!("  {count} tests:{bytes}");
}

fn possible(job: &Job, action: usize, position: usize) {
    let answer = job.possible(action, position);
    told("possible", &answer);
    println!("  {}", if answer == Ok(true) { "yes" } else { "no" });
}

fn next(job: &Job, run: &str) {
    let answer = job.next(run.as_bytes());
    told("next", &answer);
    println!("  {:x}", answer.unwrap_or(0));
}

fn finish(job: &Job, run: &str, more: usize) {
    let mut left = [0; wyndhopper::FINISH_ROOM];
    let answer = job.finish(run.as_bytes(), more, &mut left);
    told("finish", &answer);
    let count = answer.unwrap_or(0);
    let actions: String = left[..count].iter().map(|a| format!(" {a:02}")).collect();
    println!("  {count} left:{actions}");
}

fn read_rule(job: &Job, kind: Kind, text: &str) {
    let answer = job.read_rule(kind, text.as_bytes());
    told("read_rule", &answer);
    println!("  unread: \"{}\"", String::from_utf8_lossy(answer.unwrap_or(b"")));
}

fn normal(job: &Job, walk: &str, room: usize) {
    let mut form = [0; wyndhopper::RULE_ROOM];
    let answer = job.normal(Kind::Walk, walk.as_bytes(), &mut form[..room]);
    told("normal", &answer);
    println!("  \"{}\"", String::from_utf8_lossy(&form[..answer.unwrap_or(0)]));
}

/// The tally of the log; one action appended; one that the theory lacks. Each time: counts and places of the three actions, the rest, and which have happened.
fn show_tally(job: &Job, tally: &Tally) {
    let three = |all: &[u8]| format!("{} {} {}", all[0], all[1], all[2]);
    let happened: String = (0..3).map(|a| if tally.happened(job, a) == Ok(true) { " yes" } else { " no" }).collect();
    print!("  counts {}, last {}, ", three(&tally.counts), three(&tally.last));
    println!("impossible {}, {} steps, state {:08x}, happened:{happened}", tally.impossible, tally.steps, tally.state);
}

fn tallies(job: &Job) {
    let mut tally = Tally::EMPTY;
    told("tally", &tally.reset(job));
    show_tally(job, &tally);
    told("append 2", &tally.append(job, 2));
    told("append 1", &tally.append(job, 1));
    show_tally(job, &tally);
    told("append 3", &tally.append(job, 3));
    show_tally(job, &tally);
    told("happened 3", &tally.happened(job, 3));
}

/// Variables: three actions, and as many values. Some action, twice; the same one twice; what may come next; the converse.
fn variables(job: &Job) {
    let some = job.with_domain(3);
    reach(&some, "pvpw;b00vb00w", 0);
    reach(&some, "pv;b00vb00v", 0);
    next(&some, ";*npvb00v");
    finish(&some, ";*npv;b00vb00v", 2);
    normal(&some, "-pv;b00va01", wyndhopper::RULE_ROOM);
    reach(&some, "pvb00w", 0);
    reach(&some, "pvb01v", 0);
    reach(job, "pvb00v", 0);
    verdict(&some.with_domain(2), "evg00v");
    board(&some.with_domain(2), "evg00v\ng00v\nevg01v\n", wyndhopper::BOARD_ROOM);
    verdict(&some.with_domain(17), "1");
    board(&some.with_domain(17), "1\n", wyndhopper::BOARD_ROOM);
}

/// Tests that see the whole log: the same questions with tests inside a walk that see up to their own place, and up to the outer now.
fn readings(job: &Job) {
    let end = job.with_reading(Reading::End);
    reach(job, "*;n?<a011", 0);
    reach(&end, "*;n?<a011", 0);
    verdict(job, "<-;a00;?<;*na021*n1");
    verdict(&end, "<-;a00;?<;*na021*n1");
    finish(job, ";*n?<-;a00;?<a021*n1", 2);
    finish(&end, ";*n?<-;a00;?<a021*n1", 2);
    next(job, ";a00;a01;a02;a00;?<-;a00;?<a011*n1a01");
    next(&end, ";a00;a01;a02;a00;?<-;a00;?<a011*n1a01");
}

/// Effects that depend: 00 puts label 01 when the carton, 00, is open; 01 closes it; 02 opens it. The states, what is left to do, and a table of the wrong length.
fn depends() {
    let masks = [[0, 0, 1, 0, 2, 0, 0, 0, 0, 0], plain_row(0, 0, 0, 1), plain_row(0, 0, 1, 0)];
    let open = Job::new(2, 3, masks.as_flattened()).with_start(1).with_log(&[0, 1, 0]);
    for position in 0..=3 {
        let answer = open.state(position);
        told("state", &answer);
        println!("  {:08x}", answer.unwrap_or(0));
    }
    finish(&open.with_log(&[1, 0]), ";*n?f01", 2);
    told("four masks an action", &Job::new(2, 3, &[0; 12]).state(0));
}

fn read_sheet(text: &str) {
    let mut room = SheetRoom::new();
    let answer = Sheet::read(text.as_bytes(), &mut room);
    told("read_sheet", &answer.map_err(|fault| fault.refusal));
    let Ok(sheet) = answer else {
        println!("  line {}, 0 fluents, 0 actions, domain 0, 0 masks, 0 steps, reading 0", answer.unwrap_err().line);
        println!("  ask \"\", run \"\", more 0");
        return;
    };
    let job = sheet.job;
    print!("  line 0, {} fluents, {} actions, domain {}, ", job.fluents(), job.actions(), job.domain());
    println!("{} masks, {} steps, reading {}", job.masks().len(), job.log().len(), job.reading() as usize);
    println!("  ask \"{}\", run \"{}\", more {}", String::from_utf8_lossy(sheet.ask), String::from_utf8_lossy(sheet.run), sheet.more);
    let asked = job.verdict(sheet.ask, job.log().len(), job.log().len());
    told("its ask", &asked);
    println!("  {}", if asked == Ok(true) { "yes" } else { "no" });
    finish(&job, ";a00;a01;a02;a00a01", sheet.more);
}

fn answer(sheet: &str) {
    let mut out = [0; wyndhopper::ANSWER_ROOM];
    let count = wyndhopper::answer(sheet.as_bytes(), &mut out);
    print!("answer\n{}", String::from_utf8_lossy(&out[..count]));
}

/// Nothing given, nothing lent.
fn nothing(job: &Job) {
    told("no theory", &Job::new(0, 0, &[]).state(0));
    told("no walk", &job.reach(b"", 0, 0));
    told("no test", &job.verdict(b"", 0, 0));
    told("no tests and no output", &job.board(b"", 0, 0, &mut []));
    told("no run", &job.next(b""));
    told("no tally", &Tally::of(&Job::new(0, 0, &[])));
    told("no sheet", &Sheet::read(b"", &mut SheetRoom::new()).map(|s| s.more).map_err(|fault| fault.refusal));
    told("no output for no action", &job.finish(b"*n", 0, &mut []));
    told("no output for one action", &job.finish(b"*n", 1, &mut []));
    told("no rule to read", &job.read_rule(Kind::Test, b""));
    told("no output for a normal form", &job.normal(Kind::Walk, b"n", &mut []));
}

const SHEET: &str = "sheet=1\nfluents=02\nactions=03\nstart=00000000\nact=00000000,00000000,00000001,00000000\nact=00000001,00000000,00000002,00000000\n\
    act=00000000,00000000,00000000,00000003\nlog=00010200\nask=<-;a00*n!<;*na011\nrun=;a00;a01;a02;a00a01\nmore=2\n";

const SHEET_2: &str = "sheet=2\nfluents=02\nactions=03\ndomain=02\nstart=00000000\nact=00000000,00000000,00000001,00000000\n\
    act=00000001,00000000,00000002,00000000\nact=00000000,00000000,00000000,00000003\nlog=00010200\nask=evg00v\nrun=;*n?!ev!g00v\nmore=2\n";

const SHEET_3: &str = "sheet=3\nfluents=02\nactions=03\ndomain=01\nstart=00000001\n\
    act=00000000,00000000,00000001,00000000,00000002,00000000,00000000,00000000,00000000,00000000\n\
    act=00000000,00000000,00000000,00000000,00000000,00000001,00000000,00000000,00000000,00000000\n\
    act=00000000,00000000,00000000,00000000,00000001,00000000,00000000,00000000,00000000,00000000\nlog=0100\nask=f01\nrun=;*n?f01\nmore=2\n";

const SHEET_4: &str = "sheet=4\nfluents=02\nactions=03\ndomain=01\nstart=00000000\n\
    act=00000000,00000000,00000000,00000000,00000001,00000000,00000000,00000000,00000000,00000000\n\
    act=00000001,00000000,00000000,00000000,00000002,00000000,00000000,00000000,00000000,00000000\n\
    act=00000000,00000000,00000000,00000000,00000000,00000003,00000000,00000000,00000000,00000000\nlog=00020001\nnow=end\nask=<-;a00;?<;*na021*n1\nrun=;a00;a02;a00a01\nmore=0\n";

fn main() {
    let masks = [plain_row(0, 0, 1, 0), plain_row(1, 0, 2, 0), plain_row(0, 0, 0, 3)];
    println!("version {}", wyndhopper::VERSION);
    let empty = Job::new(2, 3, masks.as_flattened());
    verdict(&empty, "f00");
    let job = empty.with_log(&[0, 1, 2, 0]);
    states(&job);
    reach(&job, "*n", 2);
    reach(&job, "a01", 0);
    reach(&job, "a03", 0);
    verdict(&job, "<-;a00*n!<;*na011");
    verdict(&job, "");
    board(&job, "1\n!1\n\nf02\n!!!!!!!!!!!!!!!!!!!!!!!!1\n<-;a00*n!<;*na011\n", wyndhopper::BOARD_ROOM);
    board(&job, "1\nf00", wyndhopper::BOARD_ROOM);
    board(&job, "1\nf00\n", 1);
    possible(&job, 1, 4);
    possible(&job, 1, 0);
    possible(&job, 3, 0);
    next(&job, ";a00;a01;a02;a00|a01a02");
    next(&job, "*n");
    next(&job, "r00");
    finish(&job, ";a00;a01;a02;a00a01", 2);
    finish(&job, ";a00;a01;a02;a00a01", 0);
    finish(&job, "-a00", 2);
    read_rule(&job, Kind::Test, "f00rest");
    read_rule(&job, Kind::Run, "u");
    normal(&job, "-;a00*n", wyndhopper::RULE_ROOM);
    normal(&job, "-;a00*n", 5);
    variables(&job);
    tallies(&job);
    depends();
    readings(&job);
    nothing(&job);
    read_sheet(SHEET);
    read_sheet(SHEET_2);
    read_sheet(SHEET_3);
    read_sheet(SHEET_4);
    read_sheet("sheet=0\n");
    answer(SHEET);
    answer(SHEET_2);
    answer(SHEET_3);
    answer(SHEET_4);
    answer("sheet=0\n");
}
