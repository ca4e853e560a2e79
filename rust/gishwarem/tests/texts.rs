//! Document 02, No. 6: surrogates at every place of a text, in each of the four; and what the reader, the writer, the reach and
//! the choice answer to an envelope with half a pair.

use gishwarem::{serving_key, Bodies, Envelope, Gkid, Head, Reach, Refusal, RootId, Source};

/// So many units before the terminator that every place in a run of sixteen comes several times.
const UNITS: usize = 70;

const HIGH: u16 = 0xD83D;

const LOW: u16 = 0xDD11;

const AT: Gkid = Gkid {
    l0: 5,
    l1: 3,
    l2: 7,
};

const ROOT: RootId = RootId([9; 16]);

/// These units and the terminator, as bytes.
fn text(units: &[u16]) -> Vec<u8> {
    units
        .iter()
        .chain(&[0])
        .flat_map(|unit| unit.to_le_bytes())
        .collect()
}

/// A text of letters with these units from a place on.
fn with(at: usize, units: &[u16]) -> Vec<u8> {
    let mut all = [u16::from(b'a'); UNITS];
    all[at..at + units.len()].copy_from_slice(units);
    text(&all)
}

/// An envelope at (5, 3, 7) with an L2 key, and this for its text with this number, in body order.
fn written(number: usize, text: &[u8]) -> Result<Vec<u8>, Refusal> {
    let mut texts: [&[u8]; 4] = [&[0, 0]; 4];
    texts[number] = text;
    let [kdf, agreement, domain, forest] = texts;
    let bodies = Bodies {
        kdf,
        agreement,
        domain,
        forest,
        l2_key: &[6; 64],
        ..Bodies::default()
    };
    let head = Head {
        at: AT,
        root: ROOT,
        ..Head::default()
    };
    let mut out = vec![0; 80 + 8 + text.len() - 2 + 64];
    Envelope::write(&mut out, &head, &bodies)?;
    Ok(out)
}

/// The envelope of that text, and with those units in its place, read. The writer refuses what the reader refuses.
fn read(number: usize, at: usize, units: &[u16]) -> Result<String, Refusal> {
    let sound = written(number, &with(0, &[])).expect("an envelope");
    let start = 80 + 2 * number;
    let mut bytes = sound;
    let text = with(at, units);
    bytes[start..start + text.len()].copy_from_slice(&text);
    let read = Envelope::read(&bytes);
    assert_eq!(written(number, &text).err(), read.err());
    let texts = read?.texts;
    let shown = [texts.kdf, texts.agreement, texts.domain, texts.forest][number];
    Ok(shown.to_string())
}

#[test]
fn a_pair_at_each_place_is_a_character() {
    for number in 0..4 {
        for at in 0..UNITS - 1 {
            let expected = format!("{}\u{1F511}{}", "a".repeat(at), "a".repeat(UNITS - 2 - at));
            assert_eq!(read(number, at, &[HIGH, LOW]), Ok(expected));
        }
    }
}

#[test]
fn half_a_pair_at_each_place_is_24() {
    let refused = Err(Refusal::UnpairedSurrogate);
    for number in 0..4 {
        for at in 0..UNITS {
            assert_eq!(read(number, at, &[HIGH]), refused);
            assert_eq!(read(number, at, &[LOW]), refused);
        }
        for at in 0..UNITS - 1 {
            assert_eq!(read(number, at, &[LOW, HIGH]), refused);
            assert_eq!(read(number, at, &[HIGH, HIGH]), refused);
            assert_eq!(read(number, at, &[LOW, LOW]), refused);
        }
        for at in 0..UNITS - 2 {
            assert_eq!(read(number, at, &[HIGH, HIGH, LOW]), refused);
            assert_eq!(read(number, at, &[HIGH, LOW, LOW]), refused);
        }
    }
}

#[test]
fn a_zero_unit_at_each_place_is_10() {
    for number in 0..4 {
        for at in 0..UNITS {
            assert_eq!(read(number, at, &[0]), Err(Refusal::MalformedText));
        }
        for at in 0..UNITS - 1 {
            assert_eq!(read(number, at, &[HIGH, 0]), Err(Refusal::MalformedText));
            assert_eq!(read(number, at, &[0, LOW]), Err(Refusal::MalformedText));
        }
    }
}

#[test]
fn every_unit_alone_is_a_character_or_24() {
    for unit in 1..=0xFFFF {
        let expected = match unit {
            0xD800..=0xDFFF => Err(Refusal::UnpairedSurrogate),
            _ => Ok(char::from_u32(unit).expect("a character").to_string()),
        };
        let bytes = written(2, &text(&[unit as u16]));
        let read = bytes.and_then(|bytes| {
            let envelope = Envelope::read(&bytes)?;
            Ok(envelope.texts.domain.to_string())
        });
        assert_eq!(read, expected, "{unit:04X}");
    }
}

#[test]
fn half_a_pair_reaches_and_serves_nothing() {
    let sound = written(2, &text(&[HIGH, LOW])).expect("an envelope");
    let mut broken = sound.clone();
    // The low one is a letter.
    broken[86..88].copy_from_slice(&[b'a', 0]);
    assert_eq!(
        Envelope::read(&broken).err(),
        Some(Refusal::UnpairedSurrogate)
    );
    assert_eq!(
        Reach::of_envelope(&broken).err(),
        Some(Refusal::UnpairedSurrogate)
    );

    let served = serving_key(ROOT, AT, &broken, &sound).expect("the fetched one serves");
    assert_eq!(served.from, Source::Fetched);
    let served = serving_key(ROOT, AT, &sound, &broken).expect("the cached one serves");
    assert_eq!(served.from, Source::Cached);
    assert_eq!(
        serving_key(ROOT, AT, &broken, &broken).err(),
        Some(Refusal::NeitherServes)
    );
}
