//! Seeded makers of inputs: valid ones, damaged ones and those at the edges of their ranges.

/// A small generator of numbers (xorshift), so that a run is repeated by its seed.
pub struct Dice(u64);

impl Dice {
    pub fn new(seed: u64) -> Self {
        Dice(seed.wrapping_mul(0x9e37_79b9_7f4a_7c15) | 1)
    }

    pub fn next(&mut self) -> u64 {
        self.0 ^= self.0 << 13;
        self.0 ^= self.0 >> 7;
        self.0 ^= self.0 << 17;
        self.0.wrapping_mul(0x2545_f491_4f6c_dd1d) >> 16
    }

    pub fn below(&mut self, n: usize) -> usize {
        (self.next() % n as u64) as usize
    }

    /// True once in n times.
    pub fn once_in(&mut self, n: usize) -> bool {
        self.below(n) == 0
    }

    pub fn pick<T: Copy>(&mut self, from: &[T]) -> T {
        from[self.below(from.len())]
    }
}

/// A theory, a log, a domain and a reading as a call has them, right or wrong.
#[derive(Clone, Debug)]
pub struct Input {
    pub fluents: usize,
    pub actions: usize,
    pub domain: usize,
    pub reading: usize,
    pub start: u32,
    pub masks: Vec<u32>,
    pub log: Vec<u8>,
}

fn mask(d: &mut Dice, fluents: usize) -> u32 {
    let all = if fluents >= 32 { u32::MAX } else { (1 << fluents) - 1 };
    let m = match d.below(4) {
        0 => 0,
        1 => 1u32 << d.below(32),
        2 => d.next() as u32 & d.next() as u32,
        _ => d.next() as u32 & d.next() as u32 & d.next() as u32,
    };
    m & all
}

/// So many masks of a table belong to one action.
pub const ROW: usize = 10;

/// A mask that is mostly empty: a condition that rarely holds would leave nothing possible, and no clause acting.
fn rarely(d: &mut Dice, fluents: usize) -> u32 {
    if d.once_in(3) {
        mask(d, fluents)
    } else {
        0
    }
}

/// The row of an action; a plain one has one clause without conditions, and an empty one.
fn row(d: &mut Dice, fluents: usize, plain: bool) -> [u32; ROW] {
    let (need, ban) = (rarely(d, fluents), rarely(d, fluents));
    let mut clause = |nothing: bool| match nothing {
        true => [0; 4],
        false => [if plain { 0 } else { rarely(d, fluents) }, if plain { 0 } else { rarely(d, fluents) }, mask(d, fluents), mask(d, fluents)],
    };
    let ([a, b, c, e], [f, g, h, i]) = (clause(false), clause(plain));
    [need, ban, a, b, c, e, f, g, h, i]
}

pub fn input(d: &mut Dice) -> Input {
    let fluents = d.pick(&[0, 1, 2, 3, 5, 31, 32]);
    let actions = d.pick(&[1, 2, 3, 4, 6, 63, 64]);
    let plain = d.once_in(3);
    let mut masks: Vec<u32> = (0..actions).flat_map(|_| row(d, fluents, plain)).collect();
    let start = mask(d, fluents);
    // Actions that do what a smaller one does, or nearly: the search tries the smaller one alone.
    if d.once_in(3) {
        for a in 1..actions {
            if d.once_in(2) {
                let like = ROW * d.below(a);
                masks.copy_within(like..like + ROW, ROW * a);
                if d.once_in(3) {
                    masks[ROW * a + d.below(ROW)] = mask(d, fluents);
                }
            }
        }
    }
    let steps = d.pick(&[0, 1, 2, 3, 4, 5, 8, 13, 30, 62, 63]);
    let log = (0..steps).map(|_| d.below(actions) as u8).collect();
    let domain = domain(d, fluents, actions);
    let reading = d.below(2);
    let mut made = Input { fluents, actions, domain, reading, start, masks, log };
    if d.once_in(8) {
        damage(d, &mut made);
    }
    made
}

/// No variables, few values, as many as there are fluents or actions, or any number of them.
fn domain(d: &mut Dice, fluents: usize, actions: usize) -> usize {
    match d.below(8) {
        0 | 1 => 0,
        2 | 3 => d.pick(&[1, 2, 3]),
        4 => fluents.clamp(1, 16),
        5 => actions.min(16),
        _ => 1 + d.below(16),
    }
}

fn damage(d: &mut Dice, i: &mut Input) {
    match d.below(11) {
        0 => i.fluents = d.pick(&[33, 64, 65, usize::MAX]),
        1 => i.actions = d.pick(&[0, 65, 100, usize::MAX]),
        2 => i.masks.push(0),
        3 => {
            i.masks.pop();
        }
        4 => i.start |= 1 << d.below(32),
        5 => {
            let k = d.below(i.masks.len());
            i.masks[k] |= 1 << d.below(32);
        }
        6 => i.log = vec![0; 63 + d.below(3)],
        7 => i.log.push(d.next() as u8),
        8 => i.domain = d.pick(&[17, 18, 64, 255, 256, usize::MAX]),
        9 => i.reading = d.pick(&[2, 3, 255, 256, usize::MAX]),
        _ => i.masks.clear(),
    }
}

fn number(d: &mut Dice, limit: usize) -> String {
    let n = if d.once_in(40) { d.below(100) } else { d.below(limit.clamp(1, 100)) };
    format!("{n:02}")
}

/// What a made rule may name: so many fluents and actions, and sums with the letters that are bound where it stands. The second implementation goes over each value of each binder, so the
/// values of all the binders around a place come to so many at most.
#[derive(Clone)]
pub struct Names {
    fluents: usize,
    actions: usize,
    domain: usize,
    bound: Vec<u8>,
    values: usize,
}

impl Names {
    pub fn of(i: &Input) -> Self {
        Names { domain: i.domain.min(100), values: if i.log.len() > 13 { 16 } else { 64 }, ..Names::plain(i.fluents.min(100), i.actions.clamp(1, 100)) }
    }

    /// No variables.
    pub fn plain(fluents: usize, actions: usize) -> Self {
        Names { fluents, actions, domain: 0, bound: vec![], values: 0 }
    }

    /// So many values for each, and for all binders around a place together.
    pub fn with(self, domain: usize, values: usize) -> Self {
        Names { domain, values, ..self }
    }

    /// Whether a sign of variables comes: where there are none, it would be refused.
    fn varies(&self, d: &mut Dice) -> bool {
        d.once_in(if self.domain == 0 { 400 } else { 2 + usize::from(self.bound.is_empty()) })
    }

    /// A binder and what stands in its part: `v` and `w` mostly, so that one hides another at times.
    fn binder(&self, d: &mut Dice, sign: char) -> Option<(String, Names)> {
        let v = if d.once_in(4) { d.pick(b"vwxy") } else { d.pick(b"vw") };
        let values = self.values / self.domain.max(1);
        let bound = [&self.bound[..], &[v]].concat();
        (values > 0).then(|| (format!("{sign}{}", v as char), Names { bound, values, ..self.clone() }))
    }

    /// A sum: a letter that is bound there, or, rarely, any.
    fn sum(&self, d: &mut Dice, sign: char, count: usize) -> Option<String> {
        let v = match &self.bound[..] {
            _ if d.once_in(60) => d.pick(b"vwxyz"),
            [] => return None,
            bound => d.pick(bound),
        };
        // a number that is right with every value, where there is one
        let limit = (count + 1).saturating_sub(self.domain);
        (limit > 0 || d.once_in(40)).then(|| format!("{sign}{}{}", number(d, limit), v as char))
    }
}

pub fn walk(d: &mut Dice, depth: usize, names: &Names, job: bool) -> String {
    if names.varies(d) {
        if let Some(made) = varied_walk(d, depth, names, job) {
            return made;
        }
    }
    let sign = if depth <= 1 { d.below(4) } else { d.below(9) };
    let part = |d: &mut Dice| walk(d, depth - 1, names, job);
    match sign {
        1 if !job || d.once_in(50) => format!("r{}", number(d, names.actions)),
        2 => "n".to_string(),
        3 if !job || d.once_in(50) => "u".to_string(),
        4 => format!(";{}{}", part(d), part(d)),
        5 => format!("|{}{}", part(d), part(d)),
        6 => format!("*{}", part(d)),
        7 => format!("?{}", test(d, depth - 1, names)),
        8 if !job || d.once_in(50) => format!("-{}", part(d)),
        _ => format!("a{}", number(d, names.actions)),
    }
}

fn varied_walk(d: &mut Dice, depth: usize, names: &Names, job: bool) -> Option<String> {
    if depth > 1 && (names.bound.is_empty() || d.once_in(2)) {
        let (binder, within) = names.binder(d, 'p')?;
        return Some(binder + &walk(d, depth - 1, &within, job));
    }
    let sign = if d.once_in(if job { 50 } else { 3 }) { 's' } else { 'b' };
    names.sum(d, sign, names.actions)
}

pub fn test(d: &mut Dice, depth: usize, names: &Names) -> String {
    if names.varies(d) {
        if let Some(made) = varied_test(d, depth, names) {
            return made;
        }
    }
    let sign = if depth <= 1 { d.below(2) } else { d.below(6) };
    let part = |d: &mut Dice| test(d, depth - 1, names);
    match sign {
        0 => "1".to_string(),
        1 if names.fluents > 0 || d.once_in(20) => format!("f{}", number(d, names.fluents)),
        1 => "1".to_string(),
        2 => format!("!{}", part(d)),
        3 => format!("&{}{}", part(d), part(d)),
        _ => format!("<{}{}", walk(d, depth - 1, names, false), part(d)),
    }
}

fn varied_test(d: &mut Dice, depth: usize, names: &Names) -> Option<String> {
    if depth > 1 && (names.bound.is_empty() || d.once_in(2)) {
        let (binder, within) = names.binder(d, 'e')?;
        return Some(binder + &test(d, depth - 1, &within));
    }
    names.sum(d, 'g', names.fluents)
}

/// A rule's text, mostly right; `kind` 0 test, 1 walk, 2 run.
pub fn rule(d: &mut Dice, kind: u8, i: &Input) -> Vec<u8> {
    let names = Names::of(i);
    let depth = 1 + d.below(6);
    let text = loop {
        let t = if kind == 0 { test(d, depth, &names) } else { walk(d, depth, &names, kind == 2) };
        if t.len() <= 300 {
            break t;
        }
    };
    damaged(d, text)
}

fn damaged(d: &mut Dice, text: String) -> Vec<u8> {
    let mut text = text.into_bytes();
    if d.once_in(12) {
        damage_text(d, &mut text);
    }
    text
}

/// A run over a job: any walk; one that begins with `*n` and so asks for every action; one that goes by the log's own steps and then some more; one that nothing finishes. The second
/// implementation tries every sequence, so a run that asks for every action has a short log.
pub fn run(d: &mut Dice, i: &Input, more: usize) -> (Vec<u8>, Input) {
    let mut i = i.clone();
    let actions = i.actions.clamp(1, 100);
    let shape = d.below(10);
    if !(4..=7).contains(&shape) {
        i.log.truncate(5);
    }
    let names = Names::of(&i);
    let text = match shape {
        0 => format!(";*n{}", walk(d, 3, &names, true)),
        1 => "*n".to_string(),
        2 => format!(";*n{}", steps(d, actions, 2)),
        3 => format!(";*n?{}", d.pick(&["!1", "!<u1", "f00", "<-a001", "!<-;a00*n1"])),
        4 | 5 => {
            let log: String = i.log.iter().map(|&a| format!(";a{:02}", a.min(99))).collect();
            format!("{log}{}", steps(d, actions, more.min(4)))
        }
        6 => format!(";{}?!1", walk(d, 4, &names, true)),
        8 if (1..=3).contains(&i.domain) => d.pick(&["pv;*n;b00vpw;b00w*b00v", "pvpw;*n;b00v|b00w?g00v"]).to_string(),
        8 if i.domain > 3 => d.pick(&["*pvb00v", ";*npv;b00v?!g00v", ";*n?!ev!g00v", "pv*b00v", ";*npv|b00v?evg00v"]).to_string(),
        _ => return (rule(d, 2, &i), i),
    };
    (damaged(d, text), i)
}

/// At most so many named steps more, one after the other.
fn steps(d: &mut Dice, actions: usize, most: usize) -> String {
    let more: String = (0..d.below(most + 1)).map(|_| format!(";a{}", number(d, actions))).collect();
    more + d.pick(&["?1", "*?1", "?!f00"])
}

/// A theory in which some action does the same as a smaller one, or nearly the same: one bit of one mask is another.
fn alike(d: &mut Dice) -> Input {
    let fluents = 1 + d.below(4);
    let actions = 2 + d.below(4);
    let plain = d.once_in(3);
    let mut masks: Vec<u32> = (0..actions).flat_map(|_| row(d, fluents, plain)).collect();
    for a in 1..actions {
        if !d.once_in(3) {
            let model = ROW * d.below(a);
            masks.copy_within(model..model + ROW, ROW * a);
            if d.once_in(3) {
                masks[ROW * a + d.below(ROW)] ^= 1 << d.below(fluents);
            }
        }
    }
    let log = (0..d.below(4)).map(|_| d.below(actions) as u8).collect();
    let domain = if d.once_in(2) { 0 } else { 1 + d.below(fluents.min(actions)) };
    Input { fluents, actions, domain, reading: d.below(2), start: mask(d, fluents), masks, log }
}

/// A job that is looked for long: it begins with `*n` or waits for any action further on, takes up to all six steps, has actions that stand in for one another, or cannot be finished.
pub fn searched(d: &mut Dice) -> (Vec<u8>, Input, usize) {
    let i = alike(d);
    let names = Names::of(&i).with(i.domain, 4);
    let most = if i.actions < 4 { 6 } else { 4 };
    let any = |k: usize| ";n".repeat(k);
    let there = test(d, 3, &names);
    let text = match d.below(6) {
        0 => format!(";*n{}", steps(d, i.actions, most)),
        1 => format!(";*n{}?{there}", any(d.below(most + 1))),
        2 => format!(";*n;?{there}{}?1", any(d.below(3))),
        3 => format!(";*n*|{}?{there}", walk(d, 2, &names, true)),
        4 => format!("{}{}", any(i.log.len()), steps(d, i.actions, most)),
        _ => format!(";*n;*;{}n?{there}", walk(d, 2, &names, true)),
    };
    (text.into_bytes(), i, most)
}

fn damage_text(d: &mut Dice, text: &mut Vec<u8>) {
    match d.below(7) {
        0 => text.clear(),
        1 => {
            text.pop();
        }
        2 => text.push(d.pick(b"1n;a0vp")),
        3 if !text.is_empty() => {
            let k = d.below(text.len());
            text[k] = d.next() as u8;
        }
        4 => {
            let sign = d.pick(b"!*-?");
            let more = d.pick(&[1, 20, 23, 24, 25, 254, 255]);
            let mut deep = vec![sign; more];
            deep.append(text);
            *text = deep;
        }
        5 => *text = vec![b'!'; d.pick(&[22, 23, 24, 253, 254, 255, 256])].into_iter().chain(*b"1").collect(),
        _ => text.insert(0, d.pick(b";|&<pe")),
    }
}

/// A test, a walk or a run with a binder, that may well fit in a text when it is written out, and the domain.
pub fn bound(d: &mut Dice, kind: u8, i: &Input) -> (Vec<u8>, Input) {
    let most = i.fluents.max(i.actions).max(1);
    let i = Input { domain: d.pick(&[1, 2, 2, 3, 3, 4, 5, 8, 16]).min(most), ..i.clone() };
    let depth = 1 + d.below(if i.domain > 4 { 3 } else { 5 });
    let (binder, within) = Names::of(&i).binder(d, if kind == 0 { 'e' } else { 'p' }).expect("one binder is always allowed");
    let part = |d: &mut Dice| if kind == 0 { test(d, depth, &within) } else { walk(d, depth, &within, kind == 2) };
    let (before, joined) = if kind == 0 {
        (d.pick(&["", "", "!", "<*u", "<-;a00*n"]), d.pick(&["&", "&!", ""]))
    } else {
        (d.pick(&["", "", "*", ";*n", "|a00"]), d.pick(&[";", "|", ""]))
    };
    let second = if joined.is_empty() { String::new() } else { part(d) };
    (format!("{before}{binder}{joined}{}{second}", part(d)).into_bytes(), i)
}

/// A sheet, mostly right.
pub fn sheet(d: &mut Dice) -> Vec<u8> {
    let i = loop {
        let i = input(d);
        if i.fluents < 100 && i.actions < 100 && i.domain < 100 && i.masks.len() % ROW == 0 {
            break i;
        }
    };
    let more = if i.actions > 4 { d.below(3) } else { d.below(5) };
    let (run, i) = run(d, &i, more);
    let hex = |m: &u32| format!("{m:08x}");
    // Version 1 has no domain, only versions 3 and 4 have conditions, and only version 4 has a reading; now and then it is otherwise.
    let depends = i.masks.chunks(ROW).any(|m| m[2..4] != [0; 2] || m[6..] != [0; 4]);
    let right = match i.domain {
        0 => 1,
        _ if i.reading == 1 || d.once_in(4) => 4,
        _ if depends || d.once_in(4) => 3,
        _ => 2,
    };
    let version = if d.once_in(30) { d.pick(&[0, 1, 2, 3, 4, 5]) } else { right };
    let ten = (version >= 3) != d.once_in(60);
    let mut s = format!("sheet={version}\nfluents={:02}\nactions={:02}\n", i.fluents, i.actions);
    if (version > 1) != d.once_in(30) {
        s += &format!("domain={:02}\n", i.domain);
    }
    s += &format!("start={}\n", hex(&i.start));
    for m in i.masks.chunks(ROW) {
        let m = if ten { m.to_vec() } else { [&m[..2], &m[4..6]].concat() };
        s += &format!("act={}\n", m.iter().map(hex).collect::<Vec<_>>().join(","));
    }
    s += &format!("log={}\n", i.log.iter().map(|a| format!("{a:02}")).collect::<String>());
    if (version > 3) != d.once_in(60) {
        let other = d.pick(&["End", "Step", "", "steps", "en", "end ", "0", "1"]);
        s += &format!("now={}\n", if d.once_in(30) { other } else { ["step", "end"][i.reading.min(1)] });
    }
    let mut bytes = s.into_bytes();
    bytes.extend([b"ask=".to_vec(), rule(d, 0, &i), b"\nrun=".to_vec(), run, b"\n".to_vec()].concat());
    bytes.extend_from_slice(format!("more={more}\n").as_bytes());
    for _ in 0..d.pick(&[0, 0, 0, 1, 1, 2]) {
        damage_sheet(d, &mut bytes);
    }
    bytes
}

fn damage_sheet(d: &mut Dice, s: &mut Vec<u8>) {
    if s.is_empty() {
        return;
    }
    let k = d.below(s.len());
    match d.below(6) {
        0 => s[k] = d.next() as u8,
        1 => {
            s.remove(k);
        }
        2 => s.insert(k, d.pick(b"\n0f=,")),
        3 => s.truncate(k),
        4 => s.extend_from_slice(b"more=1\n"),
        _ => s.resize(d.pick(&[3263, 3273, 5000, 6729, 6730, 6737, 6738, 6739, 9000]), b'0'),
    }
}
