//! The numbers of include/lughtsavi.h are those that this test uses.

use crate::library::{ANSWER, CLOCKS, MARKS, RECORDS, WORDS};
use crate::Tally;

const HEADER: &str = include_str!("../../include/lughtsavi.h");

pub fn check(tally: &mut Tally) {
    let lengths = [
        ("LUGHTSAVI_CLOCKS", CLOCKS),
        ("LUGHTSAVI_WORDS", WORDS),
        ("LUGHTSAVI_RECORDS", RECORDS),
        ("LUGHTSAVI_MARKS", MARKS),
        ("LUGHTSAVI_OPENING", 8),
        ("LUGHTSAVI_ANSWER", ANSWER),
        ("LUGHTSAVI_PAGE", 32),
        ("LUGHTSAVI_DIFF", 131),
        ("LUGHTSAVI_REFUSED", 256),
    ];
    for (name, length) in lengths {
        tally.check(&format!("header: {name}"), defined(name) == Some(length));
    }
    let kinds: Vec<usize> = (1..=6).chain(8..=11).collect();
    tally.check("header: the kinds", numbers_of("lughtsavi_kind") == kinds);
    let refusals: Vec<usize> = (0..=14).chain(17..=20).collect();
    tally.check(
        "header: the refusals",
        numbers_of("lughtsavi_refusal") == refusals,
    );
}

/// The numbers of an enumeration, sorted.
fn numbers_of(enumeration: &str) -> Vec<usize> {
    let head = format!("enum {enumeration} {{");
    let behind = HEADER.split(head.as_str()).nth(1);
    let inside = behind.and_then(|rest| rest.split('}').next());
    let lines = inside.unwrap_or_default().lines();
    let number = |line: &str| {
        let (name, rest) = line.trim().split_once(" = ")?;
        let digits = rest.split(|c: char| !c.is_ascii_digit()).next()?;
        digits
            .parse()
            .ok()
            .filter(|_| name.starts_with("LUGHTSAVI_"))
    };
    let mut numbers: Vec<usize> = lines.filter_map(number).collect();
    numbers.sort();
    numbers
}

/// The number that the header defines a name as.
fn defined(name: &str) -> Option<usize> {
    HEADER
        .lines()
        .filter_map(|line| line.strip_prefix("#define "))
        .map(|rest| rest.split_whitespace().collect::<Vec<_>>())
        .find(|parts| parts[0] == name)
        .and_then(|parts| parts.get(1)?.parse().ok())
}
