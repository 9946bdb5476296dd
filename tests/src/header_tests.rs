//! The names of include/bay.h: every reason of the crate `refusal` has its number there under its own name.

use std::collections::BTreeMap;
use std::fs;
use std::path::{Path, PathBuf};

/// A file of the repository.
pub fn path(name: &str) -> PathBuf {
    Path::new(env!("CARGO_MANIFEST_DIR")).join("..").join(name)
}

pub fn file(name: &str) -> String {
    let path = path(name);
    fs::read_to_string(&path).unwrap_or_else(|error| panic!("{}: {error}", path.display()))
}

/// `TableCut` as `BAY_TABLE_CUT`.
fn header_name(variant: &str) -> String {
    let mut name = "BAY".to_string();
    for letter in variant.chars() {
        if letter.is_uppercase() {
            name.push('_');
        }
        name.extend(letter.to_uppercase());
    }
    name
}

/// Lines `NAME SEPARATOR NUMBER,`, by number.
fn numbered(text: &str, separator: &str, name_of: impl Fn(&str) -> Option<String>) -> BTreeMap<u64, String> {
    let mut names = BTreeMap::new();
    for line in text.lines() {
        let Some((name, rest)) = line.trim().split_once(separator) else { continue };
        let digits: String = rest.chars().take_while(char::is_ascii_digit).collect();
        if let (Some(name), Ok(number)) = (name_of(name), digits.parse()) {
            let older = names.insert(number, name);
            assert_eq!(older, None, "{number} has two names");
        }
    }
    names
}

/// The refusals that the header names, without those that are the interface's own.
pub fn refusals() -> BTreeMap<u64, String> {
    let header = file("include/bay.h");
    let (_, after) = header.split_once("enum bay_refusal {").expect("the header has the enum");
    let (list, _) = after.split_once("};").expect("the enum ends");
    let mut names = numbered(list, " = ", |name| Some(name.to_string()));
    assert_eq!(names.remove(&0).as_deref(), Some("BAY_OK"));
    assert_eq!(names.remove(&100).as_deref(), Some("BAY_TOO_SHORT"));
    assert_eq!(names.remove(&101).as_deref(), Some("BAY_UNEVEN"));
    assert_eq!(names.remove(&102).as_deref(), Some("BAY_SECONDS_OUT_OF_RANGE"));
    assert_eq!(names.remove(&103).as_deref(), Some("BAY_UNWRITABLE"));
    names
}

#[test]
fn every_refusal_has_its_name_in_the_header() {
    let source = file("crates/refusal/src/lib.rt");
    let (_, after) = source.split_once("pub enum Reason {").expect("the source has the enum");
    let (list, _) = after.split_once("\n}").expect("the enum ends");
    let reasons = numbered(list, " = ", |name| Some(header_name(name)));
    assert_eq!(refusals(), reasons);
    assert!(reasons.len() >= 20);
}
