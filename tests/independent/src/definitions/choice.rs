//! The ordered choice of a row from draws.

use super::cipher::sizes;
use super::Condition;
use std::collections::BTreeSet;

/// All that holds against a choice.
pub fn conditions(instance: u32, draws: &[u32], room: usize) -> BTreeSet<Condition> {
    let mut held = BTreeSet::new();
    let (key_bits, row) = match sizes(instance) {
        Some(sizes) if instance != 6 => sizes,
        _ => return BTreeSet::from([(1, 0, 0)]),
    };
    if draws.len() != row {
        held.insert((3, 1, draws.len()));
    }
    if room < row {
        held.insert((8, 2, room));
    }
    for (i, &draw) in draws.iter().enumerate() {
        if draw as usize + i >= key_bits {
            held.insert((14, 1, i));
        }
    }
    held
}

/// The row that the draws choose from that many key bits.
pub fn row(key_bits: usize, draws: &[u32]) -> Vec<u32> {
    let mut places: Vec<u32> = (0..key_bits as u32).collect();
    for (i, &draw) in draws.iter().enumerate() {
        places.swap(i, i + draw as usize);
    }
    places.truncate(draws.len());
    places
}
