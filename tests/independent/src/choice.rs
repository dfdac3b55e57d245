//! The ordered choice of a row from draws, for instances 1 to 5.

#![forbid(unsafe_code)]

use crate::cipher::{Cipher, Instance};
use crate::netlist::{refusal, Answer};
use std::array;

impl Answer {
    pub const fn no_draw(place: usize) -> Self {
        refusal(14, 1, place)
    }
}

/// Writes to the front of `row` (list 2) the key indices that `draws` (1)
/// choose.
pub fn choose(instance: u32, draws: &[u32], row: &mut [u32]) -> Answer {
    try_choose(instance, draws, row).into()
}

fn try_choose(instance: u32, draws: &[u32], row: &mut [u32]) -> Result<(), Answer> {
    let instance = match Instance::numbered(instance) {
        Some(instance) if !matches!(instance.cipher, Cipher::Kreyvium) => instance,
        _ => return Err(Answer::NO_INSTANCE),
    };
    if draws.len() != instance.row {
        return Err(Answer::wrong_length(1, draws.len()));
    }
    let room = row.len();
    let row = row
        .get_mut(..instance.row)
        .ok_or(Answer::too_short(2, room))?;
    if let Some(place) = first_beyond(draws, instance.key) {
        return Err(Answer::no_draw(place));
    }
    match instance.key {
        530 => pick::<530>(draws, row),
        1_394 => pick::<1_394>(draws, row),
        4_096 => pick::<4_096>(draws, row),
        _ => pick::<16_384>(draws, row),
    }
    Ok(())
}

/// The first draw that leads beyond the last key bit. The first look goes over
/// the whole list, which is faster where there is no such draw.
fn first_beyond(draws: &[u32], key: usize) -> Option<usize> {
    let beyond = |(i, &draw): (usize, &u32)| draw >= key as u32 - i as u32;
    let all = draws.iter().enumerate();
    if !all.clone().fold(false, |any, draw| any | beyond(draw)) {
        return None;
    }
    all.clone().position(beyond)
}

/// The first places of 0..`KEY` after each was swapped with the one that its
/// draw names; one draw for each place of the row.
#[inline]
pub fn pick<const KEY: usize>(draws: &[u32], row: &mut [u32]) {
    let mut places: [u16; KEY] = array::from_fn(|place| place as u16);
    for (i, (&draw, chosen)) in draws.iter().zip(row).enumerate() {
        // Place i is not read again.
        let other = i + draw as usize;
        *chosen = u32::from(places[other]);
        places[other] = places[i];
    }
}
