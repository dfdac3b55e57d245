//! The whole path of a record: it is enciphered, and one netlist deciphers and
//! scores it.

#![forbid(unsafe_code)]

use crate::cipher::{self, by_marks, Lists};
use crate::emission;
use crate::key::deciphering_inputs;
use crate::netlist::{self, length, words_for, Answer, Netlist, MAX_GATES};

/// What the call reads: lists 1 to 5.
#[derive(Clone, Copy)]
pub struct Read<'a> {
    pub key: &'a [u8],
    pub record: &'a [u8],
    pub indices: &'a [u32],
    pub whitening: &'a [u8],
    pub scoring: &'a [u32],
}

/// What it fills: lists 6 to 11.
pub struct Rooms<'a> {
    pub enciphered: &'a mut [u8],
    pub deciphering: &'a mut [u32],
    pub glued: &'a mut [u32],
    pub inputs: &'a mut [u8],
    pub wires: &'a mut [u8],
    pub scores: &'a mut [u8],
}

/// Scores a record by way of its enciphered form. All is judged before anything
/// is written.
pub fn score(instance: u32, m: u32, read: &Read, rooms: Rooms) -> Answer {
    let answer = judge(instance, m, read, &rooms).into();
    if answer == Answer::DONE {
        write(instance, m, read, rooms);
    }
    answer
}

/// What enciphering refuses; the scoring netlist; then each room, and whether
/// the two netlists fit.
fn judge(number: u32, m: u32, read: &Read, rooms: &Rooms) -> Result<(), Answer> {
    let lists = Lists {
        key: Some(read.key),
        record: Some(read.record),
        indices: read.indices,
        whitening: read.whitening,
    };
    let instance = cipher::judge(number, m, &lists, by_marks)?;
    let scoring = Netlist::lent(read.scoring, 5)?;

    let m = m as usize;
    let inputs = instance.key + m;
    let outputs = scoring.outputs.len();
    let deciphering = emission::deciphering_gates(number, m, read.whitening);
    let gates = deciphering + scoring.gates.len();
    let needs = [
        (rooms.enciphered.len(), m),
        (rooms.deciphering.len(), words_for(deciphering, m)),
        (rooms.glued.len(), words_for(gates, outputs)),
        (rooms.inputs.len(), inputs),
        (rooms.wires.len(), inputs + gates),
        (rooms.scores.len(), outputs),
    ];
    for (list, (lent, needed)) in (6..).zip(needs) {
        if lent < needed {
            return Err(Answer::too_short(list, lent));
        }
    }
    if scoring.inputs != m {
        return Err(Answer::COUNTS_DIFFER);
    }
    if gates > MAX_GATES {
        return Err(Answer::TOO_MANY_GATES);
    }
    Ok(())
}

/// Takes the steps, against which nothing speaks.
fn write(instance: u32, m: u32, read: &Read, rooms: Rooms) {
    let Read {
        key,
        record,
        indices,
        whitening,
        scoring,
    } = *read;
    let Rooms {
        enciphered,
        deciphering,
        glued,
        inputs,
        wires,
        scores,
    } = rooms;
    let step = |answer| assert_eq!(answer, Answer::DONE, "all is judged");

    step(cipher::encipher(
        instance, m, key, record, indices, whitening, enciphered,
    ));
    step(emission::decipher(
        instance,
        m,
        indices,
        whitening,
        deciphering,
    ));
    let deciphering = &deciphering[..length(deciphering)];
    step(netlist::glue(deciphering, scoring, glued));
    let glued = &glued[..length(glued)];

    let both = deciphering_inputs(key, &enciphered[..m as usize]);
    let inputs = &mut inputs[..both.len()];
    inputs.copy_from_slice(&both);
    step(netlist::evaluate(glued, inputs, wires, scores));
}
