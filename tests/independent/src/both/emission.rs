//! The emission of one-hot, threshold and deciphering netlists.

use super::hand;
use crate::emission::{self, Size};
use crate::emission_cases::Emission;
use crate::lent::{show, Lent, Program};
use crate::netlist::{length, Answer, Counts};
use crate::probe;

/// An answer, and what the result list then holds.
pub type Emitted = (Answer, Vec<u32>);

/// Hands over the room; `call` emits into it.
fn emit<Call>(
    room: &[u32],
    case: &dyn Fn() -> String,
    calls: [Call; 2],
    mut call: impl FnMut(Call, Program, &mut [u32]) -> Answer,
) -> Emitted {
    let mut result = Lent::new(room);
    let answer = hand(case, calls, |emit, program| {
        call(emit, program, result.of(program))
    });
    let written = match answer {
        Answer::DONE => length(result.of(Program::Rust)),
        _ => 0,
    };
    (answer, result.settle(written, "result", case))
}

pub fn one_hot(n: u32, room: &[u32]) -> Emitted {
    let case = || format!("one-hot of {n}, {} words of room", room.len());
    let calls = [probe::emit_one_hot, emission::one_hot];
    emit(room, &case, calls, |one_hot, _, result| one_hot(n, result))
}

pub fn threshold(d: u32, n: u32, room: &[u32]) -> Emitted {
    let case = || format!("threshold {d} of {n}, {} words of room", room.len());
    let calls = [probe::emit_threshold, emission::threshold];
    emit(room, &case, calls, |threshold, _, result| {
        threshold(d, n, result)
    })
}

/// The size that is asked for is that of what is emitted.
pub fn decipher(emission: &Emission) -> Emitted {
    let call = &emission.call;
    let (instance, m) = (call.instance, call.m);
    let case = || {
        format!(
            "emission for instance {instance}, m {m}: indices {}, whitening {}, {} words of room",
            show(&call.indices),
            show(&call.whitening),
            emission.result.len()
        )
    };
    let mut indices = Lent::new(&call.indices);
    let mut whitening = Lent::new(&call.whitening);
    let calls = [probe::emit_decipher, emission::decipher];
    let emitted = emit(
        &emission.result,
        &case,
        calls,
        |decipher, program, result| {
            let (indices, whitening) = (indices.of(program), whitening.of(program));
            decipher(instance, m, indices, whitening, result)
        },
    );
    let calls = [probe::decipher_size, emission::decipher_size];
    let size = hand(&case, calls, |decipher_size, program| {
        decipher_size(instance, m, indices.of(program), whitening.of(program))
    });
    assert_size(&emitted, size, emission.result.len());
    indices.settle(0, "indices", &case);
    whitening.settle(0, "whitening bits", &case);
    emitted
}

/// The size is that of the netlist that was written. A refusal is the same, but
/// for one for want of room.
fn assert_size((answer, result): &Emitted, size: Size, room: usize) {
    match answer.number {
        0 => {
            assert_eq!(size.answer, Answer::DONE);
            assert_eq!(size.gates, Counts::of(result).gates);
            assert_eq!(size.words, length(result));
        }
        8 => {
            assert_eq!(size.answer, Answer::DONE);
            assert!(size.words > room);
        }
        _ => assert_eq!(size, Size::refused(*answer)),
    }
}
