//! The blocks of a segment, asked for one by one: as many as its reader shows, of the sizes in the part that its reader shows,
//! and as many of them larger than the data unit as its reader counts.

use super::part_of;
use crate::ask;
use crate::hex::Hex;
use crate::make::{number_at, segment};
use crate::rng::Rng;
use crate::subject::Subject;
use crate::tally::Tally;

/// The blocks against the reader.
pub const BLOCKS: Subject = Subject {
    name: "segment blocks, one by one",
    run: blocks,
    refusals: &[1, 2, 3, 4, 25],
    events: &["larger", "none larger"],
};

fn blocks(rng: &mut Rng, tally: &mut Tally) {
    let kind = tally.kind(rng);
    let bytes = segment::record(rng, kind);
    let read = ask::segment_read(rng, &bytes);
    tally.answer(read.refusal);

    // What the reader refuses has no block, and is refused alike.
    let sizes = ask::segment_sizes(rng, &bytes);
    let end = ask::segment_size(rng, &bytes, sizes.len());
    let told = (read, end, Hex(&bytes));
    assert_eq!(sizes.len(), read.blocks as usize, "{told:?}");
    assert_eq!(end.refusal, read.refusal, "{told:?}");
    if read.refusal != 0 {
        return;
    }

    let shown: Vec<u32> = part_of(&bytes, read.sizes)
        .chunks(4)
        .map(|size| number_at(size, 0))
        .collect();
    assert_eq!(sizes, shown, "{told:?}");
    let unit = 1 << read.unit_shift;
    let larger = sizes.iter().filter(|&&size| size > unit).count();
    assert_eq!(larger, read.larger as usize, "{told:?}");
    match larger {
        0 => tally.event("none larger"),
        _ => tally.event("larger"),
    }
}
