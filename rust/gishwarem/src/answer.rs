//! What the library's answers share: the refusal's number comes first, and a part is a place.

use crate::raw;
use crate::Refusal;

/// Number 0 is accepted; any other is that refusal.
pub(crate) fn accepted(number: u32) -> Result<(), Refusal> {
    if number == 0 {
        return Ok(());
    }
    Err(Refusal::from_number(number).expect("the library answers 0 or a refusal's number"))
}

/// The length of the record that was written, or the refusal.
pub(crate) fn written(answer: raw::WrittenAnswer) -> Result<usize, Refusal> {
    accepted(answer.refusal)?;
    Ok(answer.len)
}

/// The bytes of a part, cut from the very slice that was handed in.
pub(crate) fn cut(record: &[u8], part: raw::Part) -> &[u8] {
    record
        .get(part.at..)
        .and_then(|rest| rest.get(..part.len))
        .expect("the library shows parts inside the record")
}
