//! The frames of port records, the judging of calls on them, and the fields of a
//! record.

use super::cipher::keystream;
use super::{not_bits, Condition};
use crate::key::key_length;
use std::collections::BTreeSet;
use std::ops::Range;

// ---- bits and bytes ----

/// Bits eight to a byte, the first of eight the highest.
pub fn bytes_of(bits: &[u8]) -> Vec<u8> {
    bits.chunks(8)
        .map(|eight| eight.iter().fold(0, |byte, &bit| 2 * byte + bit))
        .collect()
}

/// And back.
pub fn bits_of(bytes: &[u8]) -> Vec<u8> {
    let bits = |&byte: &u8| [128, 64, 32, 16, 8, 4, 2, 1].map(|place| byte / place % 2);
    bytes.iter().flat_map(bits).collect()
}

// ---- frames ----

/// The frame of a record.
pub fn frame(key: &[u8], record: &[u8], iv: &[u8]) -> Vec<u8> {
    let mut enciphered = keystream(6, 64, key, &[], iv);
    for (bit, of_record) in enciphered.iter_mut().zip(record) {
        *bit = (*bit + of_record) % 2;
    }
    [&b"PT"[..], &bytes_of(iv), &bytes_of(&enciphered)].concat()
}

/// The records in a file against which nothing speaks, end to end.
pub fn records(key: &[u8], file: &[u8]) -> Vec<u8> {
    let mut records = Vec::new();
    for frame in file.chunks(26) {
        let stream = keystream(6, 64, key, &[], &bits_of(&frame[2..18]));
        let enciphered = bits_of(&frame[18..]);
        records.extend((0..64).map(|i| (enciphered[i] + stream[i]) % 2));
    }
    records
}

// ---- judging ----

/// Whether one number is above another, the high byte of each first.
fn above(one: &[u8], other: &[u8]) -> bool {
    assert_eq!(one.len(), other.len());
    let differ = (0..one.len()).find(|&i| one[i] != other[i]);
    differ.is_some_and(|i| one[i] > other[i])
}

/// What is judged of a call on frames, in this order.
#[derive(Clone, Copy, Debug, PartialEq, Eq, PartialOrd, Ord)]
pub enum FrameStage {
    Lengths,
    Bits,
    /// The frame of the file that is so numbered: its mark and length, then its
    /// IV.
    Frame(usize),
    NewFrame,
    Room,
}

/// All that holds against a call on frames; the least is given.
pub type FrameConditions = BTreeSet<(FrameStage, Condition)>;

/// All that holds against the frames of a file, which is that list.
pub fn check_conditions(list: u32, file: &[u8]) -> FrameConditions {
    let mut held = BTreeSet::new();
    for start in (0..file.len()).step_by(26) {
        let stage = FrameStage::Frame(start / 26);
        let cut = file.len() < start + 26;
        if cut || file[start] != b'P' || file[start + 1] != b'T' {
            held.insert((stage, (15, list, start)));
        }
        let iv = |start: usize| &file[start + 2..start + 18];
        if !cut && start > 0 && !above(iv(start), iv(start - 26)) {
            held.insert((stage, (16, list, start)));
        }
    }
    held
}

/// What holds against lists of bits of which each has to be so long.
fn bit_conditions(lists: &[(u32, &[u8], usize)]) -> FrameConditions {
    let mut held = BTreeSet::new();
    for &(list, bytes, exact) in lists {
        if bytes.len() != exact {
            held.insert((FrameStage::Lengths, (3, list, bytes.len())));
        }
        held.extend(not_bits(list, bytes).map(|held| (FrameStage::Bits, held)));
    }
    held
}

/// All that holds against an appending to `file`, or to one of which `file` is
/// the last frame alone.
pub fn append_conditions(
    key: &[u8],
    record: &[u8],
    iv: &[u8],
    file: &[u8],
    last_alone: bool,
    room: usize,
) -> FrameConditions {
    let mut held = bit_conditions(&[(1, key, key_length(128)), (2, record, 64), (3, iv, 128)]);
    let sound_iv = held.iter().all(|&(_, (_, list, _))| list != 3);
    if last_alone && ![0, 26].contains(&file.len()) {
        held.insert((FrameStage::Lengths, (3, 4, file.len())));
    }
    held.extend(check_conditions(4, file));
    let last = file.chunks_exact(26).last();
    if sound_iv && last.is_some_and(|last| !above(&bytes_of(iv), &last[2..18])) {
        held.insert((FrameStage::NewFrame, (16, 4, file.len())));
    }
    if room < 26 {
        held.insert((FrameStage::Room, (8, 5, room)));
    }
    held
}

/// All that holds against a reading.
pub fn read_conditions(key: &[u8], file: &[u8], room: usize) -> FrameConditions {
    let mut held = bit_conditions(&[(1, key, key_length(128))]);
    held.extend(check_conditions(2, file));
    if room < 64 * (file.len() / 26) {
        held.insert((FrameStage::Room, (8, 3, room)));
    }
    held
}

// ---- the fields of a record ----

/// The bits of port, admin up, link up, errors and load.
const PORT: [Range<usize>; 5] = [0..16, 16..17, 17..18, 18..40, 40..64];

/// The values of the five fields in the bits of a record.
pub fn port_fields(bits: &[u8]) -> [u32; 5] {
    PORT.map(|field| {
        bits[field]
            .iter()
            .fold(0, |value, &bit| 2 * value + u32::from(bit))
    })
}

/// The bits of a record with these fields, or the number of the first that is
/// too large.
pub fn port_bits(fields: [u32; 5]) -> Result<Vec<u8>, u32> {
    let mut bits = Vec::new();
    for (number, (field, value)) in PORT.into_iter().zip(fields).enumerate() {
        let width = field.len() as u32;
        if value >= 2_u32.pow(width) {
            return Err(number as u32 + 1);
        }
        bits.extend((0..width).map(|i| (value / 2_u32.pow(width - 1 - i) % 2) as u8));
    }
    Ok(bits)
}
