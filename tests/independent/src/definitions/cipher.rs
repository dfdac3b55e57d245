//! Keystream, and the judging of a cipher call.

use super::{filter, not_bits, Condition};
use crate::key::{key_bit, key_bits, key_length};
use crate::kreyvium;
use std::collections::{BTreeSet, HashSet};

/// Key bits and row length of an instance.
pub fn sizes(instance: u32) -> Option<(usize, usize)> {
    match instance {
        1 => Some((530, 530)),
        2 => Some((1_394, 1_394)),
        3 => Some((16_384, 1_216)),
        4 => Some((4_096, 1_280)),
        5 => Some((16_384, 144)),
        6 => Some((128, 0)),
        _ => None,
    }
}

/// Those of a number that is an instance's.
pub fn sizes_of(instance: u32) -> (usize, usize) {
    sizes(instance).expect("an instance")
}

// ---- keystream ----

/// The sum of key[p(j)] and w(j) for each j of a row.
pub fn variables(key: &[u8], indices: &[u32], whitening: &[u8]) -> Vec<u8> {
    (0..indices.len())
        .map(|j| (key_bit(key, indices[j] as usize) + whitening[j]) % 2)
        .collect()
}

/// `m` bits of keystream, of lists against which nothing speaks.
pub fn keystream(
    instance: u32,
    m: usize,
    key: &[u8],
    indices: &[u32],
    whitening: &[u8],
) -> Vec<u8> {
    let (_, row) = sizes_of(instance);
    if instance == 6 {
        let mut bits = vec![0; m];
        let iv = whitening.try_into().expect("128 IV bits");
        kreyvium::by_rounds(&key_bits(key), iv, &mut bits);
        return bits;
    }
    (0..m)
        .map(|bit| {
            let range = bit * row..(bit + 1) * row;
            let x = variables(key, &indices[range.clone()], &whitening[range]);
            filter::value(instance, &x)
        })
        .collect()
}

// ---- judging ----

/// All that holds against a cipher call with `room` for its result. Without an
/// instance or a number of bits there is nothing to measure the lists by.
pub fn conditions(
    instance: u32,
    m: u32,
    key: &[u8],
    record: Option<&[u8]>,
    indices: &[u32],
    whitening: &[u8],
    room: usize,
) -> BTreeSet<Condition> {
    let mut held = BTreeSet::new();
    if !(1..=64).contains(&m) {
        held.insert((2, 0, 0));
    }
    let Some((key_bits, row)) = sizes(instance) else {
        held.insert((1, 0, 0));
        return held;
    };
    if !held.is_empty() {
        return held;
    }
    let m = m as usize;
    let shift = u32::from(record.is_some());
    let (indices_list, whitening_list, result_list) = (2 + shift, 3 + shift, 4 + shift);
    let whitening_bits = if instance == 6 { 128 } else { m * row };

    let mut lengths = vec![(1, key.len(), key_length(key_bits))];
    lengths.extend(record.map(|record| (2, record.len(), m)));
    lengths.push((indices_list, indices.len(), m * row));
    lengths.push((whitening_list, whitening.len(), whitening_bits));
    for (list, length, exact) in lengths {
        if length != exact {
            held.insert((3, list, length));
        }
    }
    for (list, bytes) in [
        (1, key),
        (2, record.unwrap_or(&[])),
        (whitening_list, whitening),
    ] {
        held.extend(not_bits(list, bytes));
    }
    for (place, &index) in indices.iter().enumerate() {
        if index as usize >= key_bits {
            held.insert((5, indices_list, place));
        }
    }
    for begin in (0..indices.len()).step_by(row.max(1)) {
        let mut seen = HashSet::new();
        for (j, &index) in indices[begin..].iter().take(row).enumerate() {
            if !seen.insert(index) {
                held.insert((6, indices_list, begin + j));
            }
        }
    }
    if instance <= 2 {
        for (place, &byte) in whitening.iter().enumerate() {
            if byte == 1 {
                held.insert((7, whitening_list, place));
            }
        }
    }
    if room < m {
        held.insert((8, result_list, room));
    }
    held
}
