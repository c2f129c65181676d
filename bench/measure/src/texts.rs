//! Rules of a wanted size or shape, as text.

/// One sign over all leaves, as a balanced tree.
pub fn balanced(sign: &str, leaves: &[String]) -> String {
    match leaves {
        [] => String::new(),
        [leaf] => leaf.clone(),
        _ => {
            let (v, w) = leaves.split_at(leaves.len() / 2);
            format!("{sign}{}{}", balanced(sign, v), balanced(sign, w))
        }
    }
}

/// A rule of exactly so many bytes: a balanced tree over long leaves, one short leaf and one sign in front where they are needed.
fn wide(bytes: usize, sign: &str, long: &dyn Fn(usize) -> String, short: &str, front: &str) -> String {
    if bytes % 2 == 0 {
        return format!("{front}{}", wide(bytes - 1, sign, long, short, front));
    }
    let mut leaves: Vec<String> = (0..(bytes + 1) / 4).map(long).collect();
    if (bytes + 1) % 4 == 2 {
        leaves.push(short.to_string());
    }
    balanced(sign, &leaves)
}

/// A choice among actions 00, 01 and so on, of exactly so many bytes.
pub fn wide_choice(bytes: usize) -> String {
    wide(bytes, "|", &|a| format!("a{:02}", a % 64), "n", "-")
}

/// All of fluents 00, 01 and so on, of exactly so many bytes.
pub fn wide_test(bytes: usize) -> String {
    wide(bytes, "&", &|i| format!("f{:02}", i % 32), "1", "!")
}

/// The labels of a job in order, one after another.
pub fn in_order(labels: usize) -> String {
    balanced(";", &(0..labels).map(|a| format!("a{a:02}")).collect::<Vec<_>>())
}

/// `<*n` k deep, ending in a fluent.
pub fn diamonds(k: usize) -> String {
    "<*n".repeat(k) + "f00"
}

/// `?` nested k deep: each test changes now to the position itself and asks of every position up to there.
pub fn tests(k: usize) -> String {
    "<?".repeat(k) + "f00" + &"1".repeat(k)
}

/// Stars whose rounds are held up by tests, k deep: from the end back, one position more in each round, each with the inner test.
pub fn held_up(k: usize) -> String {
    "<*;n?".repeat(k) + "1" + &"!<n1".repeat(k)
}

/// A star that goes one step on or back to the start, and there walks the same again, k deep, to no end.
pub fn and_again(k: usize) -> String {
    (0..k).fold("n".into(), |inner, _| format!("*|n;*u;?!<u1;{inner}?!1"))
}

/// Stars in stars that go to and fro, k times.
pub fn to_and_fro(k: usize) -> String {
    "*;n*;u".repeat(k) + "n"
}

/// Stars behind and inside one another, with tests between.
pub const MIXED: &str = "|*n*;;n*?1**|;*;n**u?!1u";

/// A star over so many `n`, one position a round, asked anew at each position: the most signs that are known of.
pub fn worst(leaves: usize) -> String {
    format!("<?<*{}!<n11", balanced("|", &vec!["n".to_string(); leaves]))
}

/// Some steps that are not named, then these labels in order.
pub fn after_any(labels: &[usize]) -> String {
    let last = labels.len() - 1;
    let named = |(k, a): (usize, &usize)| if k < last { format!(";a{a:02}") } else { format!("a{a:02}") };
    format!(";*n{}", labels.iter().enumerate().map(named).collect::<String>())
}

/// Some steps that are not named, after which these first fluents are on: labels in any order.
pub fn in_any_order(labels: usize) -> String {
    format!(";*n?{}", balanced("&", &(0..labels).map(|i| format!("f{i:02}")).collect::<Vec<_>>()))
}
