//! The GetKey decision (MS-GKDI 3.1.4.1; document 01, "The GetKey decision").

use std::cmp::Reverse;

use crate::descriptor;
use crate::reach::Form;
use crate::time::{self, Gkid, MAX_INDEX};

/// The length of a row of the root table.
const ROW: usize = 32;

/// The most rows of a root table.
const MAX_ROWS: usize = 64;

/// The rights that the host's access checks found.
#[derive(Debug, Clone, Copy, PartialEq, Eq)]
pub enum Rights {
    /// No rights.
    None,
    /// Rights to public keys only.
    Public,
    /// Rights to seed keys.
    Seed,
}

/// What is asked for: a root identifier or none, and three signed indices.
#[derive(Debug, Clone, Copy, PartialEq, Eq)]
pub struct Request {
    /// The root key identifier, if one is given.
    pub root: Option<[u8; 16]>,
    /// The L0 index, -1 for the latest.
    pub l0: i32,
    /// The L1 index, -1 for the latest.
    pub l1: i32,
    /// The L2 index, -1 for the latest.
    pub l2: i32,
}

/// What is granted.
#[derive(Debug, Clone, Copy, PartialEq, Eq)]
pub struct Answer {
    /// The identifier granted.
    pub at: Gkid,
    /// The form granted.
    pub form: Form,
    /// The root key to use.
    pub row: Row,
}

/// The root key to use.
#[derive(Debug, Clone, Copy, PartialEq, Eq)]
pub enum Row {
    /// The row at this place in the table, counted from 0.
    Place(usize),
    /// A root key that is to be created.
    Create,
}

/// Decides on a request, with the security descriptor, the caller's rights, the
/// clock and the root table.
pub fn decide(
    descriptor: &[u8],
    rights: Rights,
    request: &Request,
    clock: u64,
    table: &[u8],
) -> Result<Answer, u32> {
    let verdict = descriptor::check(descriptor).is_ok();
    decide_by_verdict(verdict, rights, request, clock, table)
}

/// Decides on a request, with a verdict in place of the descriptor.
pub fn decide_by_verdict(
    verdict: bool,
    rights: Rights,
    request: &Request,
    clock: u64,
    table: &[u8],
) -> Result<Answer, u32> {
    if !verdict {
        return Err(16);
    }
    check_range(request)?;
    let named = named(request)?;
    let now = time::at(clock);
    if is_later(request, now) {
        return Err(17);
    }
    if rights == Rights::None || (rights == Rights::Public && named.is_some()) {
        return Err(18);
    }
    if !table.chunks_exact(ROW).remainder().is_empty() || table.len() > MAX_ROWS * ROW {
        return Err(20);
    }

    let at = grant(request.root.is_some(), named, now);
    let row = match (request.root, named) {
        (Some(root), _) => Row::Place(row_of(table, &root)?),
        (None, None) => latest_row(table),
        (None, Some(_)) => Row::Place(row_for(table, time::start(at)?)?),
    };
    let form = if rights == Rights::Public {
        Form::Public
    } else {
        seed_form(at)
    };
    Ok(Answer { at, form, row })
}

/// Refuses 14 if L0 < -1 or L1 or L2 is outside -1..31.
fn check_range(request: &Request) -> Result<(), u32> {
    let indices = -1..=MAX_INDEX as i32;
    if request.l0 < -1 || !indices.contains(&request.l1) || !indices.contains(&request.l2) {
        return Err(14);
    }
    Ok(())
}

/// The identifier that a request with indices in range names, or none if all
/// are -1; 15 if -1 is mixed with others.
fn named(request: &Request) -> Result<Option<Gkid>, u32> {
    match (request.l0, request.l1, request.l2) {
        (-1, -1, -1) => Ok(None),
        (l0 @ 0.., l1 @ 0.., l2 @ 0..) => Ok(Some(Gkid {
            l0: l0 as u32,
            l1: l1 as u32,
            l2: l2 as u32,
        })),
        _ => Err(15),
    }
}

/// Whether the triple is lexically later than now, compared signed.
fn is_later(request: &Request, now: Gkid) -> bool {
    (request.l0, request.l1, request.l2) > (now.l0 as i32, now.l1 as i32, now.l2 as i32)
}

/// The identifier granted (MS-GKDI 3.1.4.1, step 4).
fn grant(root_given: bool, named: Option<Gkid>, now: Gkid) -> Gkid {
    match named {
        Some(named) if !root_given => named,
        Some(named) if named.l0 < now.l0 => Gkid {
            l0: named.l0,
            l1: MAX_INDEX,
            l2: MAX_INDEX,
        },
        _ => now,
    }
}

/// The form for seed rights.
fn seed_form(at: Gkid) -> Form {
    if at.l2 == MAX_INDEX {
        Form::L1Only
    } else if at.l1 == 0 {
        Form::L2Only
    } else {
        Form::Both
    }
}

/// The table's rows, each with its place.
fn rows(table: &[u8]) -> impl Iterator<Item = (usize, &[u8])> {
    table.chunks_exact(ROW).enumerate()
}

fn identifier(row: &[u8]) -> &[u8] {
    &row[..16]
}

fn use_start(row: &[u8]) -> u64 {
    time_at(row, 16)
}

fn create_time(row: &[u8]) -> u64 {
    time_at(row, 24)
}

/// The time at `at` in a row, most significant byte first.
fn time_at(row: &[u8], at: usize) -> u64 {
    let mut time = [0; 8];
    time.copy_from_slice(&row[at..at + 8]);
    u64::from_be_bytes(time)
}

/// Root given: the first row with that identifier, or 19.
fn row_of(table: &[u8], root: &[u8; 16]) -> Result<usize, u32> {
    rows(table)
        .find(|(_, row)| identifier(row) == root)
        .map(|(place, _)| place)
        .ok_or(19)
}

/// No root and nothing named: the highest use-start, first row on a tie; an
/// empty table answers CREATE.
fn latest_row(table: &[u8]) -> Row {
    // The least of the reversed numbers is the first of the highest.
    match rows(table).min_by_key(|(_, row)| Reverse(use_start(row))) {
        Some((place, _)) => Row::Place(place),
        None => Row::Create,
    }
}

/// No root and an identifier named: among the rows with use-start at or before
/// the start time, the highest create time, first row on a tie; or 19.
fn row_for(table: &[u8], start: u64) -> Result<usize, u32> {
    rows(table)
        .filter(|(_, row)| use_start(row) <= start)
        .min_by_key(|(_, row)| Reverse(create_time(row)))
        .map(|(place, _)| place)
        .ok_or(19)
}

#[cfg(test)]
mod tests {
    use super::*;
    use crate::reach;

    /// The bench's now, (5,3,7).
    const NOW: u64 = 1_880_280_000_000_000;

    /// The least sound descriptor.
    const SOUND: [u8; 20] = {
        let mut head = [0; 20];
        head[0] = 1;
        head[3] = 0x80;
        head
    };

    const ROOT: [u8; 16] = [0xA1; 16];
    const OTHER: [u8; 16] = [0xB2; 16];

    fn id(l0: u32, l1: u32, l2: u32) -> Gkid {
        Gkid { l0, l1, l2 }
    }

    fn table(rows: &[([u8; 16], u64, u64)]) -> Vec<u8> {
        let mut bytes = Vec::new();
        for (root, use_start, create_time) in rows {
            bytes.extend_from_slice(root);
            bytes.extend_from_slice(&use_start.to_be_bytes());
            bytes.extend_from_slice(&create_time.to_be_bytes());
        }
        bytes
    }

    fn request(root: Option<[u8; 16]>, l0: i32, l1: i32, l2: i32) -> Request {
        Request { root, l0, l1, l2 }
    }

    fn latest(root: Option<[u8; 16]>) -> Request {
        request(root, -1, -1, -1)
    }

    /// Seed rights at NOW.
    fn seed(request: Request, table: &[u8]) -> Result<Answer, u32> {
        decide(&SOUND, Rights::Seed, &request, NOW, table)
    }

    fn answer(at: Gkid, form: Form, row: Row) -> Result<Answer, u32> {
        Ok(Answer { at, form, row })
    }

    #[test]
    fn bench_cases() {
        let table = table(&[(ROOT, 0, 0)]);
        for (asked, at, form, total) in [
            (request(Some(ROOT), 5, 0, 0), id(5, 3, 7), Form::Both, 104),
            (
                request(Some(ROOT), 4, 2, 2),
                id(4, 31, 31),
                Form::L1Only,
                1_024,
            ),
            (request(None, 4, 0, 2), id(4, 0, 2), Form::L2Only, 3),
        ] {
            assert_eq!(seed(asked, &table), answer(at, form, Row::Place(0)));
            assert_eq!(reach::of_form(form, at).unwrap().total, total);
        }
        for root in [None, Some(ROOT)] {
            assert_eq!(seed(request(root, 5, 3, 8), &table), Err(17));
            assert_eq!(seed(request(root, 0, -1, 0), &table), Err(15));
            assert_eq!(seed(request(root, 0, 0, 32), &table), Err(14));
        }
    }

    #[test]
    fn ranges() {
        for (l0, l1, l2) in [
            (-2, -1, -1),
            (i32::MIN, 0, 0),
            (-1, -2, -1),
            (-1, -1, -2),
            (0, 32, 0),
            (0, 0, 32),
            (0, i32::MAX, 0),
            (0, i32::MIN, 0),
            // Before 15.
            (0, -1, 32),
            (-2, -1, 0),
            (-1, 0, 32),
            // Before 17.
            (i32::MAX, 32, 0),
        ] {
            assert_eq!(seed(request(None, l0, l1, l2), &[]), Err(14));
        }
    }

    #[test]
    fn mixes() {
        for (l0, l1, l2) in [
            (-1, 0, 0),
            (0, -1, 0),
            (0, 0, -1),
            (-1, -1, 0),
            (-1, 31, -1),
            (31, -1, -1),
            // Before 17.
            (i32::MAX, -1, 0),
        ] {
            assert_eq!(seed(request(None, l0, l1, l2), &[]), Err(15));
        }
    }

    #[test]
    fn later_than_now() {
        let table = table(&[(ROOT, 0, 0)]);
        for (l0, l1, l2) in [
            (5, 3, 8),
            (5, 4, 0),
            (6, 0, 0),
            (i32::MAX, 0, 0),
            (5, 31, 31),
        ] {
            assert_eq!(seed(request(None, l0, l1, l2), &table), Err(17));
            assert_eq!(seed(request(Some(ROOT), l0, l1, l2), &table), Err(17));
        }
        for (l0, l1, l2) in [(5, 3, 7), (5, 2, 31), (4, 31, 31), (0, 0, 0)] {
            assert!(seed(request(None, l0, l1, l2), &table).is_ok());
        }
        // The latest is never later, even at the first reading.
        let first = decide(&SOUND, Rights::Seed, &latest(None), 0, &table);
        assert_eq!(first, answer(id(0, 0, 0), Form::L2Only, Row::Place(0)));
    }

    #[test]
    fn rights() {
        let table = table(&[(ROOT, 0, 0)]);
        for root in [None, Some(ROOT)] {
            let latest = latest(root);
            let named = request(root, 5, 3, 7);
            for asked in [latest, named] {
                assert_eq!(decide(&SOUND, Rights::None, &asked, NOW, &table), Err(18));
            }
            assert_eq!(decide(&SOUND, Rights::Public, &named, NOW, &table), Err(18));
            assert_eq!(
                decide(&SOUND, Rights::Public, &latest, NOW, &table),
                answer(id(5, 3, 7), Form::Public, Row::Place(0))
            );
        }
    }

    #[test]
    fn order_of_refusals() {
        let broken = [0; 1];
        let named = |l0, l1, l2| request(Some(ROOT), l0, l1, l2);
        let no = Rights::None;
        assert_eq!(decide(&[], no, &named(0, -1, 32), NOW, &broken), Err(16));
        assert_eq!(decide(&SOUND, no, &named(0, -1, 32), NOW, &broken), Err(14));
        assert_eq!(decide(&SOUND, no, &named(9, -1, 0), NOW, &broken), Err(15));
        assert_eq!(decide(&SOUND, no, &named(9, 0, 0), NOW, &broken), Err(17));
        assert_eq!(decide(&SOUND, no, &named(5, 0, 0), NOW, &broken), Err(18));
        assert_eq!(seed(named(5, 0, 0), &broken), Err(20));
        assert_eq!(seed(named(5, 0, 0), &[]), Err(19));
        // The descriptor alone.
        let table = table(&[(ROOT, 0, 0)]);
        assert_eq!(
            decide(&[], Rights::Seed, &latest(None), NOW, &table),
            Err(16)
        );
    }

    #[test]
    fn a_verdict_in_place_of_the_descriptor() {
        let table = table(&[(ROOT, 0, 0)]);
        for asked in [latest(None), request(None, 4, 0, 2), request(None, 9, 0, 0)] {
            let by_verdict =
                |verdict| decide_by_verdict(verdict, Rights::Seed, &asked, NOW, &table);
            assert_eq!(by_verdict(true), seed(asked, &table));
            assert_eq!(by_verdict(false), Err(16));
        }
    }

    #[test]
    fn table_length() {
        let rows = vec![0; 65 * 32];
        for length in [1, 31, 33, 63, 65, 64 * 32 - 1, 64 * 32 + 1, 65 * 32] {
            assert_eq!(seed(latest(None), &rows[..length]), Err(20));
        }
        for length in [32, 64, 64 * 32] {
            assert_eq!(
                seed(latest(None), &rows[..length]),
                answer(id(5, 3, 7), Form::Both, Row::Place(0))
            );
        }
    }

    #[test]
    fn identifiers_granted() {
        let table = table(&[(ROOT, 0, 0)]);
        let place = Row::Place(0);
        for (asked, at, form) in [
            (latest(None), id(5, 3, 7), Form::Both),
            (latest(Some(ROOT)), id(5, 3, 7), Form::Both),
            (request(None, 5, 2, 31), id(5, 2, 31), Form::L1Only),
            (request(None, 5, 0, 31), id(5, 0, 31), Form::L1Only),
            (request(None, 5, 0, 30), id(5, 0, 30), Form::L2Only),
            (request(None, 5, 1, 0), id(5, 1, 0), Form::Both),
            (request(None, 0, 0, 0), id(0, 0, 0), Form::L2Only),
            (request(Some(ROOT), 5, 2, 31), id(5, 3, 7), Form::Both),
            (request(Some(ROOT), 4, 31, 31), id(4, 31, 31), Form::L1Only),
            (request(Some(ROOT), 0, 0, 0), id(0, 31, 31), Form::L1Only),
        ] {
            assert_eq!(seed(asked, &table), answer(at, form, place));
        }
        // The last reading.
        assert_eq!(
            decide(&SOUND, Rights::Seed, &latest(None), u64::MAX, &table),
            answer(id(50_039, 31, 27), Form::Both, place)
        );
    }

    #[test]
    fn create() {
        let at = id(5, 3, 7);
        assert_eq!(seed(latest(None), &[]), answer(at, Form::Both, Row::Create));
        assert_eq!(
            decide(&SOUND, Rights::Public, &latest(None), NOW, &[]),
            answer(at, Form::Public, Row::Create)
        );
        assert_eq!(seed(latest(Some(ROOT)), &[]), Err(19));
        assert_eq!(seed(request(None, 5, 3, 7), &[]), Err(19));
        assert_eq!(seed(request(Some(ROOT), 5, 3, 7), &[]), Err(19));
    }

    fn place(asked: Request, table: &[u8]) -> Result<Row, u32> {
        seed(asked, table).map(|answer| answer.row)
    }

    #[test]
    fn rows_by_identifier() {
        // The first one counts, and no time is asked for.
        let table = table(&[(OTHER, 0, 9), (ROOT, u64::MAX, 0), (ROOT, 0, 9)]);
        assert_eq!(place(latest(Some(ROOT)), &table), Ok(Row::Place(1)));
        assert_eq!(
            place(request(Some(ROOT), 0, 0, 0), &table),
            Ok(Row::Place(1))
        );
        assert_eq!(place(latest(Some(OTHER)), &table), Ok(Row::Place(0)));
        let mut unknown = ROOT;
        unknown[15] ^= 1;
        assert_eq!(place(latest(Some(unknown)), &table), Err(19));
        assert_eq!(place(latest(Some([0; 16])), &table), Err(19));
    }

    #[test]
    fn rows_of_the_latest() {
        // The highest use-start, also in the future; first row on a tie.
        let table = table(&[
            (ROOT, 255, 9),
            (ROOT, 0x8000_0000_0000_0000, 1),
            (ROOT, 0x8000_0000_0000_0000, 2),
            (ROOT, 256, 3),
        ]);
        assert_eq!(place(latest(None), &table), Ok(Row::Place(1)));
        assert_eq!(place(latest(None), &table[..32]), Ok(Row::Place(0)));
        assert_eq!(place(latest(None), &table[64..]), Ok(Row::Place(0)));
    }

    #[test]
    fn rows_of_a_named_one() {
        // The start time of (5,3,6) is one step before now.
        let start = NOW - 360_000_000_000;
        let asked = request(None, 5, 3, 6);
        let table = table(&[
            (ROOT, start + 1, 9),
            (ROOT, start, 7),
            (OTHER, 0, 8),
            (ROOT, 5, 8),
            (ROOT, NOW, u64::MAX),
        ]);
        assert_eq!(place(asked, &table), Ok(Row::Place(2)));
        assert_eq!(place(asked, &table[..64]), Ok(Row::Place(1)));
        assert_eq!(place(asked, &table[..32]), Err(19));
        assert_eq!(place(request(None, 5, 3, 7), &table), Ok(Row::Place(4)));
        // Only rows at time 0 serve the first identifier.
        assert_eq!(place(request(None, 0, 0, 0), &table), Ok(Row::Place(2)));
    }
}
