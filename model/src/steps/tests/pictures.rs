//! Pictures are well-formed, and have a row for each record.

use super::corpus::{self, Tried};
use crate::steps::input::Range;
use crate::steps::picture::{picture, window, MOST_SHOWN};
use crate::steps::progress::Progress;
use crate::steps::scene::Scene;
use crate::steps::walk::Walk;

fn drawn(tried: &Tried, from: usize) -> (Range, String) {
    let last = tried.run.last();
    let (shown, note) = window(Range { from, to: last }, last);
    let scene = Scene::of(
        Walk::new(&tried.file, &tried.run, &mut Progress::new()),
        shown,
    );
    (shown, picture(&scene, "a <b> & \"c\"", note.as_deref()))
}

#[test]
fn pictures_are_well_formed() {
    let files: Vec<&Tried> = corpus::short(2501).collect();
    corpus::each(&files, |tried| {
        well_drawn(tried, 0);
        if tried.run.last() >= MOST_SHOWN {
            well_drawn(tried, tried.run.last() - MOST_SHOWN / 2);
        }
    });
}

fn well_drawn(tried: &Tried, from: usize) {
    let (shown, svg) = drawn(tried, from);
    let name = &tried.name;
    let elements = well_formed(&svg).unwrap_or_else(|wrong| panic!("{name}: {wrong}"));
    assert!(elements > 0 && svg.starts_with("<svg "), "{name}");
    let numbers = svg.matches("<text class=\"number\"").count();
    assert_eq!(numbers, shown.to - shown.from + 1, "{name}");
    assert!(!svg.contains("NaN") && !svg.contains("inf\""), "{name}");
}

#[test]
fn a_long_run_is_shown_as_a_window() {
    let all = |last| window(Range { from: 0, to: last }, last);
    let (shown, note) = all(MOST_SHOWN - 1);
    assert_eq!((shown.to, note), (MOST_SHOWN - 1, None));
    let (shown, note) = all(MOST_SHOWN);
    assert_eq!(
        shown,
        Range {
            from: 0,
            to: MOST_SHOWN - 1
        }
    );
    assert!(note.is_some_and(|note| note.contains("records 0 to 399 of 0 to 400")));
    let (shown, note) = window(Range { from: 10, to: 20 }, 30);
    assert!(shown == Range { from: 10, to: 20 } && note.is_some());
}

/// Every tag is closed by its own, attributes are quoted, and `&` begins one of
/// the three names that are used. Answers how many elements there are.
fn well_formed(text: &str) -> Result<usize, String> {
    let mut open: Vec<&str> = Vec::new();
    let mut elements = 0;
    let mut rest = text;
    while let Some(at) = rest.find('<') {
        plain(&rest[..at])?;
        let end = rest.find('>').ok_or("a tag does not end")?;
        let tag = &rest[at + 1..end];
        match tag.strip_prefix('/') {
            Some(name) if open.pop() == Some(name) => {}
            Some(name) => return Err(format!("{name} is closed and was not open")),
            None => {
                elements += 1;
                let name = tag.split([' ', '/']).next().unwrap_or("");
                attributes(&tag[name.len()..])?;
                if !tag.ends_with('/') {
                    open.push(name);
                }
            }
        }
        rest = &rest[end + 1..];
    }
    if rest.trim().is_empty() && open.is_empty() {
        return Ok(elements);
    }
    Err(format!("at the end {open:?} is open and {rest:?} is left"))
}

fn plain(text: &str) -> Result<(), String> {
    let known = |rest: &str| {
        ["amp;", "lt;", "gt;"]
            .iter()
            .any(|name| rest.starts_with(name))
    };
    let good = text.split('&').skip(1).all(known) && !text.contains('>');
    good.then_some(())
        .ok_or(format!("{text:?} is no plain text"))
}

/// `name="value"`, each behind a space.
fn attributes(text: &str) -> Result<(), String> {
    let mut rest = text.trim_end_matches('/').trim();
    while !rest.is_empty() {
        let (name, behind) = rest
            .split_once("=\"")
            .ok_or(format!("{rest:?} is no attribute"))?;
        let letters = name.chars().all(|letter| letter.is_ascii_alphanumeric());
        let (value, after) = behind
            .split_once('"')
            .ok_or(format!("{name} does not end"))?;
        if !letters || value.contains(['<', '&']) {
            return Err(format!("{name} is wrong"));
        }
        rest = after.trim();
    }
    Ok(())
}
