//! The two calls of the scoring daemon: Kreyvium enciphering and the check of a
//! netlist file. Their answer is one number.

#![forbid(unsafe_code)]

use crate::cipher;
use crate::file;
use crate::netlist::{refusal, Answer};

/// The largest place that a packed answer holds; a larger one becomes this.
pub const MOST_PLACE: u64 = (1 << 48) - 1;

/// The answer's number in bits 0 to 7, its list in bits 8 to 15, its place in
/// bits 16 to 63.
pub fn packed(answer: Answer) -> u64 {
    let place = (answer.place as u64).min(MOST_PLACE);
    u64::from(answer.number) | u64::from(answer.list) << 8 | place << 16
}

/// The answer that a packed one holds.
pub fn unpacked(answer: u64) -> Answer {
    let [number, list, place @ ..] = answer.to_le_bytes();
    let place = place
        .iter()
        .rev()
        .fold(0, |place, &byte| place << 8 | usize::from(byte));
    refusal(number.into(), list.into(), place)
}

/// Writes the `m` bits of `record`, enciphered, to the front of `result`. The
/// lists: key 1, record 2, IV 3, result 4.
pub fn kreyvium_encipher(m: u32, key: &[u8], record: &[u8], iv: &[u8], result: &mut [u8]) -> u64 {
    let mut answer = cipher::encipher(6, m, key, record, &[], iv, result);
    // There the indices are list 3.
    if answer.list > 3 {
        answer.list -= 1;
    }
    packed(answer)
}

/// Whether `source` (list 1) is the file of a netlist.
pub fn check_file(source: &[u8]) -> u64 {
    packed(file::check_file(source))
}
