//! The names, numbers and texts of this crate are those of the C header.

use gishwarem::Refusal;

const HEADER: &str = include_str!("../../../include/gishwarem.h");

/// The number that the header defines under a name.
fn defined(name: &str) -> u32 {
    let line = HEADER
        .lines()
        .find_map(|line| line.strip_prefix(&format!("#define {name} ")))
        .unwrap_or_else(|| panic!("the header has no {name}"));
    let (number, _) = line.split_once('u').expect("an unsigned number");
    number.parse().expect("a number")
}

/// The name that the header has for a refusal, with its underscores left out.
fn plain_name(refusal: Refusal) -> String {
    format!("GW{refusal:?}").to_uppercase()
}

/// The names and numbers that the header defines between two of its comments.
fn definitions(from: &str, to: &str) -> Vec<(String, u32)> {
    let (_, after) = HEADER.split_once(from).expect("the first comment");
    let (between, _) = after.split_once(to).expect("the second comment");
    between
        .lines()
        .filter_map(|line| line.strip_prefix("#define ")?.split_once(' '))
        .map(|(name, _)| (name.replace('_', ""), defined(name)))
        .collect()
}

/// The names and texts of `gw_refusal_text`, in their order.
fn texts() -> Vec<(String, &'static str)> {
    HEADER
        .lines()
        .filter_map(|line| line.trim().strip_prefix("case ")?.split_once(": return \""))
        .map(|(name, text)| {
            let text = text.strip_suffix("\";").expect("the end of a text");
            (name.replace('_', ""), text)
        })
        .collect()
}

#[test]
fn refusals_have_the_headers_names_and_numbers() {
    let mut expected = vec![("GWACCEPTED".to_string(), 0)];
    expected.extend(Refusal::ALL.map(|refusal| (plain_name(refusal), refusal.number())));
    let found = definitions("/* Refusal numbers. */", "/* Algorithms");
    assert_eq!(found, expected);
}

#[test]
fn refusals_have_the_headers_texts() {
    let refusals = Refusal::ALL.map(|refusal| (plain_name(refusal), refusal.to_string()));
    let mut expected = vec![("GWACCEPTED".to_string(), "accepted".to_string())];
    expected.extend(refusals);
    let found: Vec<(String, String)> = texts()
        .into_iter()
        .map(|(name, text)| (name, text.to_string()))
        .collect();
    assert_eq!(found, expected);
}

/// Every code of the header, and no other, is a constant of the same name and number in `raw::codes`.
#[test]
fn codes_have_the_headers_names_and_numbers() {
    let constants: Vec<(String, u32)> = include_str!("../src/raw/codes.rs")
        .lines()
        .filter_map(|line| line.strip_prefix("pub const ")?.split_once(": u32 = "))
        .map(|(name, number)| {
            let number = number.trim_end_matches(';').parse().expect("a number");
            (format!("GW{}", name.replace('_', "")), number)
        })
        .collect();
    assert_eq!(definitions("/* Algorithms", "/* A part of"), constants);
}

#[test]
fn lengths_are_the_headers() {
    assert_eq!(
        gishwarem::Recorded::LEN,
        defined("GW_TRACE_RECORD") as usize
    );
    assert_eq!(gishwarem::Replay::LINE, defined("GW_REPLAY_LINE") as usize);
}

/// The header, these declarations and the built library have one version.
#[test]
fn the_version_is_the_headers() {
    assert_eq!(gishwarem::raw::VERSION, defined("GW_VERSION"));
    assert_eq!(gishwarem::version(), defined("GW_VERSION"));
}

/// The header says of each version from 2 on what it changed.
#[test]
fn each_version_has_its_line() {
    let told: Vec<u32> = HEADER
        .lines()
        .filter_map(|line| line.strip_prefix(" * ")?.split_once(": ")?.0.parse().ok())
        .collect();
    let expected: Vec<u32> = (2..=gishwarem::raw::VERSION).collect();
    assert_eq!(told, expected);
}
