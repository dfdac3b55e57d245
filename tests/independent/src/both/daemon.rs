//! The two calls of the scoring daemon, whose answers are packed.

use super::hand;
use crate::cipher_cases::Call;
use crate::daemon::{self, unpacked};
use crate::lent::{show, Lent};
use crate::netlist::Answer;
use crate::sallowknot;

/// Kreyvium's enciphering. The answer, and what the result then holds.
pub fn encipher(call: &Call) -> (Answer, Vec<u8>) {
    let m = call.m;
    let record = call.record();
    let case = || {
        format!(
            "enciphering of {m} bits: key {}, record {}, IV {}, room for {}",
            show(&call.key),
            show(record),
            show(&call.whitening),
            call.result.len()
        )
    };
    let (mut key, mut record) = (Lent::new(&call.key), Lent::new(record));
    let (mut iv, mut result) = (Lent::new(&call.whitening), Lent::new(&call.result));
    let calls = [sallowknot::kreyvium_encipher, daemon::kreyvium_encipher];
    let answer = hand(&case, calls, |encipher, program| {
        unpacked(encipher(
            m,
            key.of(program),
            record.of(program),
            iv.of(program),
            result.of(program),
        ))
    });
    key.settle(0, "key bits", &case);
    record.settle(0, "record bits", &case);
    iv.settle(0, "IV bits", &case);
    let written = match answer {
        Answer::DONE => m as usize,
        _ => 0,
    };
    (answer, result.settle(written, "result", &case))
}

pub fn check_file(source: &[u8]) -> Answer {
    let case = || format!("check of the file {}", show(source));
    let mut source = Lent::new(source);
    let calls = [sallowknot::check_file, daemon::check_file];
    let answer = hand(&case, calls, |check, program| {
        unpacked(check(source.of(program)))
    });
    source.settle(0, "bytes", &case);
    answer
}
