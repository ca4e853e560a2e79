//! Document 02, No. 6: the texts of an envelope against UTF-16 as Rust's own library has it. An accepted text is a `String`, which
//! gives its units again; and of the texts that are refused, 24 is the number of the first whose units are none.

use crate::ask;
use crate::hex::Hex;
use crate::make::envelope::Envelope;
use crate::rng::Rng;
use crate::subject::Subject;
use crate::tally::Tally;

/// An envelope's texts.
pub const TEXTS: Subject = Subject {
    name: "texts are strings",
    run: texts,
    refusals: &[1, 5, 10, 11, 24],
    events: &[
        PAIR,
        BROKEN[0],
        BROKEN[1],
        BROKEN[2],
        BROKEN[3],
        "24 before 10",
        "10 before 24",
    ],
};

/// An accepted text with a character of two units.
const PAIR: &str = "a pair";

/// A text that is refused 24, by its place.
const BROKEN: [&str; 4] = [
    "24 by the KDF algorithm",
    "24 by the agreement algorithm",
    "24 by the domain",
    "24 by the forest",
];

fn texts(rng: &mut Rng, tally: &mut Tally) {
    let kind = tally.kind(rng);
    let envelope = Envelope::of(rng, kind);
    let bytes = envelope.bytes();
    let told = Hex(&bytes);
    let refusal = ask::envelope_read(rng, &bytes).refusal;
    tally.answer(refusal);

    let [kdf, _, agreement, _, domain, forest, ..] = envelope.lent();
    let given = [kdf, agreement, domain, forest];
    let judged = given.map(judged);
    let first = judged.iter().position(|&number| number != 0);
    match refusal {
        // 1 and 5 come before the texts, and 11 after them.
        1 | 5 => {}
        0 | 11 => assert_eq!(first, None, "{told:?}"),
        refused => {
            let first = first.unwrap_or_else(|| panic!("{told:?}: every text is one"));
            assert_eq!(judged[first], refused, "{told:?}");
            if refused == 24 {
                tally.event(BROKEN[first]);
            }
            match (refused, &judged[first + 1..]) {
                (24, behind) if behind.contains(&10) => tally.event("24 before 10"),
                (10, behind) if behind.contains(&24) => tally.event("10 before 24"),
                _ => {}
            }
        }
    }

    if let Ok(read) = gishwarem::Envelope::read(&bytes) {
        let texts = read.texts;
        let shown = [texts.kdf, texts.agreement, texts.domain, texts.forest];
        for (text, given) in shown.into_iter().zip(given) {
            let string = text.to_string();
            assert!(string.encode_utf16().eq(text.units()), "{told:?}");
            assert!(text.units().chain([0]).eq(units(given)), "{told:?}");
            if string.chars().count() < text.units().count() {
                tally.event(PAIR);
            }
        }
    }
}

/// The whole units of a text.
fn units(text: &[u8]) -> impl Iterator<Item = u16> + '_ {
    text.chunks_exact(2)
        .map(|unit| u16::from_le_bytes([unit[0], unit[1]]))
}

/// 10 unless these are units before one that is the only zero; then 24 unless they are a string; else 0.
fn judged(text: &[u8]) -> u32 {
    let units: Vec<u16> = units(text).collect();
    match &units[..] {
        [before @ .., 0] if 2 * units.len() == text.len() && !before.contains(&0) => {
            match String::from_utf16(before) {
                Ok(_) => 0,
                Err(_) => 24,
            }
        }
        _ => 10,
    }
}
