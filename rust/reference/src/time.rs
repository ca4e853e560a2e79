//! Group key identifiers and the clock (MS-GKDI 3.1.4.1; document 01, "Time and
//! identifiers"). Time is FILETIME, 64-bit.

/// The highest L1 or L2 index.
pub(crate) const MAX_INDEX: u32 = 31;

/// An L2 step in ticks.
const L2_STEP: u64 = 360_000_000_000;

/// An L1 step in ticks.
const L1_STEP: u64 = 32 * L2_STEP;

/// An L0 step in ticks.
const L0_STEP: u64 = 1_024 * L2_STEP;

/// A group key identifier. Identifiers compare by L0, then L1, then L2.
#[derive(Debug, Clone, Copy, PartialEq, Eq, PartialOrd, Ord)]
pub struct Gkid {
    /// The L0 index.
    pub l0: u32,
    /// The L1 index, at most 31 in a sound identifier.
    pub l1: u32,
    /// The L2 index, at most 31 in a sound identifier.
    pub l2: u32,
}

impl Gkid {
    /// Refuses 5 if L1 or L2 is above 31.
    pub(crate) fn check_indices(self) -> Result<(), u32> {
        if self.l1 > MAX_INDEX || self.l2 > MAX_INDEX {
            return Err(5);
        }
        Ok(())
    }
}

/// The identifier of a clock reading.
pub fn at(filetime: u64) -> Gkid {
    Gkid {
        l0: (filetime / L0_STEP) as u32,
        l1: (filetime % L0_STEP / L1_STEP) as u32,
        l2: (filetime % L1_STEP / L2_STEP) as u32,
    }
}

/// The start time of an identifier: 5 if an index is above 31, 21 if the time
/// exceeds 64 bits.
pub fn start(id: Gkid) -> Result<u64, u32> {
    id.check_indices()?;
    let steps = u64::from(id.l0) * 1_024 + u64::from(id.l1) * 32 + u64::from(id.l2);
    steps.checked_mul(L2_STEP).ok_or(21)
}

/// The next older identifier in the same L0 group, or none for (L0, 0, 0): 5 if
/// an index is above 31.
pub fn older(id: Gkid) -> Result<Option<Gkid>, u32> {
    id.check_indices()?;
    let Gkid { l0, l1, l2 } = id;
    if l2 > 0 {
        return Ok(Some(Gkid { l0, l1, l2: l2 - 1 }));
    }
    if l1 > 0 {
        return Ok(Some(Gkid {
            l0,
            l1: l1 - 1,
            l2: MAX_INDEX,
        }));
    }
    Ok(None)
}

#[cfg(test)]
mod tests {
    use super::*;

    fn id(l0: u32, l1: u32, l2: u32) -> Gkid {
        Gkid { l0, l1, l2 }
    }

    #[test]
    fn bench_times() {
        for (filetime, expected) in [
            (0, id(0, 0, 0)),
            (359_999_999_999, id(0, 0, 0)),
            (360_000_000_000, id(0, 0, 1)),
            (11_519_999_999_999, id(0, 0, 31)),
            (368_640_000_000_000, id(1, 0, 0)),
            (18_446_744_073_709_551_615, id(50_039, 31, 27)),
            (1_880_280_000_000_000, id(5, 3, 7)),
        ] {
            assert_eq!(at(filetime), expected);
        }
    }

    #[test]
    fn more_times() {
        // On a boundary the later step begins.
        assert_eq!(at(11_520_000_000_000), id(0, 1, 0));
        assert_eq!(at(368_639_999_999_999), id(0, 31, 31));
        assert_eq!(at(18_446_743_800_000_000_000), id(50_039, 31, 27));
        assert_eq!(at(18_446_743_799_999_999_999), id(50_039, 31, 26));
    }

    #[test]
    fn starts() {
        assert_eq!(start(id(0, 0, 0)), Ok(0));
        assert_eq!(start(id(0, 0, 1)), Ok(360_000_000_000));
        assert_eq!(start(id(0, 1, 0)), Ok(11_520_000_000_000));
        assert_eq!(start(id(1, 0, 0)), Ok(368_640_000_000_000));
        assert_eq!(start(id(5, 3, 7)), Ok(1_880_280_000_000_000));
        assert_eq!(start(id(50_039, 31, 27)), Ok(18_446_743_800_000_000_000));
        assert_eq!(start(id(50_039, 31, 28)), Err(21));
        assert_eq!(start(id(50_040, 0, 0)), Err(21));
        assert_eq!(start(id(u32::MAX, 31, 31)), Err(21));
    }

    #[test]
    fn start_refuses_indices_first() {
        assert_eq!(start(id(0, 32, 0)), Err(5));
        assert_eq!(start(id(0, 0, 32)), Err(5));
        assert_eq!(start(id(50_040, 32, 0)), Err(5));
        assert_eq!(start(id(u32::MAX, 0, u32::MAX)), Err(5));
    }

    #[test]
    fn start_and_reading() {
        for filetime in [
            0,
            1,
            359_999_999_999,
            360_000_000_000,
            1 << 40,
            1 << 50,
            1 << 63,
            u64::MAX,
        ] {
            let start = start(at(filetime)).unwrap();
            assert!(start <= filetime && filetime - start < 360_000_000_000);
            assert_eq!(at(start), at(filetime));
        }
    }

    #[test]
    fn older_ones() {
        assert_eq!(older(id(5, 3, 7)), Ok(Some(id(5, 3, 6))));
        assert_eq!(older(id(5, 3, 0)), Ok(Some(id(5, 2, 31))));
        assert_eq!(older(id(5, 0, 1)), Ok(Some(id(5, 0, 0))));
        assert_eq!(older(id(5, 0, 0)), Ok(None));
        assert_eq!(older(id(0, 0, 0)), Ok(None));
        // No start time is asked for.
        assert_eq!(older(id(u32::MAX, 31, 31)), Ok(Some(id(u32::MAX, 31, 30))));
        assert_eq!(older(id(5, 0, 32)), Err(5));
        assert_eq!(older(id(5, 32, 0)), Err(5));
        assert_eq!(older(id(5, u32::MAX, u32::MAX)), Err(5));
    }

    #[test]
    fn order() {
        assert!(id(1, 0, 0) > id(0, 31, 31));
        assert!(id(1, 1, 0) > id(1, 0, 31));
        assert!(id(1, 1, 1) > id(1, 1, 0));
    }
}
