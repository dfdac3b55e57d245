//! The whole path of a record.

use super::hand;
use crate::lent::{show, Lent};
use crate::netlist::Answer;
use crate::path::{self, Read, Rooms};
use crate::path_cases::Path;
use crate::probe;

/// What a path left behind.
pub struct Scored {
    pub answer: Answer,
    pub enciphered: Vec<u8>,
    pub deciphering: Vec<u32>,
    pub glued: Vec<u32>,
    pub inputs: Vec<u8>,
    pub wires: Vec<u8>,
    pub scores: Vec<u8>,
}

pub fn score(path: &Path) -> Scored {
    let call = &path.emission.call;
    let (instance, m) = (call.instance, call.m);
    let case = || {
        let rooms = [
            call.result.len(),
            path.emission.result.len(),
            path.glued.len(),
            path.inputs.len(),
            path.wires.len(),
            path.scores.len(),
        ];
        format!(
            "path for instance {instance}, m {m}: record {}, scoring {}, rooms {rooms:?}",
            show(path.emission.record()),
            show(&path.scoring),
        )
    };
    let read = path.read();
    let (mut key, mut record) = (Lent::new(read.key), Lent::new(read.record));
    let (mut indices, mut whitening) = (Lent::new(read.indices), Lent::new(read.whitening));
    let mut scoring = Lent::new(read.scoring);
    let mut enciphered = Lent::new(&call.result);
    let mut deciphering = Lent::new(&path.emission.result);
    let (mut glued, mut inputs) = (Lent::new(&path.glued), Lent::new(&path.inputs));
    let (mut wires, mut scores) = (Lent::new(&path.wires), Lent::new(&path.scores));
    let answer = hand(&case, [probe::score, path::score], |score, program| {
        let read = Read {
            key: key.of(program),
            record: record.of(program),
            indices: indices.of(program),
            whitening: whitening.of(program),
            scoring: scoring.of(program),
        };
        let rooms = Rooms {
            enciphered: enciphered.of(program),
            deciphering: deciphering.of(program),
            glued: glued.of(program),
            inputs: inputs.of(program),
            wires: wires.of(program),
            scores: scores.of(program),
        };
        score(instance, m, &read, rooms)
    });
    key.settle(0, "key", &case);
    record.settle(0, "record", &case);
    indices.settle(0, "indices", &case);
    whitening.settle(0, "whitening bits", &case);
    scoring.settle(0, "scoring netlist", &case);
    // A refusal changes nothing.
    let written = |room| match answer {
        Answer::DONE => path.need(room),
        _ => 0,
    };
    Scored {
        answer,
        enciphered: enciphered.settle(written(6), "enciphered record", &case),
        deciphering: deciphering.settle(written(7), "deciphering netlist", &case),
        glued: glued.settle(written(8), "glued netlist", &case),
        inputs: inputs.settle(written(9), "inputs", &case),
        wires: wires.settle(written(10), "wires", &case),
        scores: scores.settle(written(11), "scores", &case),
    }
}
