//! The calls on the file of port records, and on the fields of a record.

use super::{hand, Written};
use crate::frame_cases::{Appending, Reading};
use crate::frames::{self, Fields, Put, Taken, FRAME, RECORD};
use crate::lent::{show, Lent};
use crate::netlist::Answer;
use crate::probe;
use std::fmt::Debug;

/// What the frame then holds; of a reading, what the records do.
pub fn append(appending: &Appending) -> Written {
    let calls = [probe::append, frames::append];
    hand_appending(appending, "a file", calls, Answer::DONE)
}

pub fn append_after(appending: &Appending) -> Written {
    let calls = [probe::append_after, frames::append_after];
    hand_appending(appending, "a last frame", calls, Answer::DONE)
}

pub fn read_frames(reading: &Reading) -> Written {
    hand_reading(reading, [probe::read_frames, frames::read], Answer::DONE)
}

pub fn check_frames(file: &[u8]) -> Answer {
    hand_frames(file, [probe::check_frames, frames::check])
}

/// Calls on frames, for answers of any form.
type Append<A> = fn(&[u8], &[u8], &[u8], &[u8], &mut [u8]) -> A;
type ReadFrames<A> = fn(&[u8], &[u8], &mut [u8]) -> A;
type CheckFrames<A> = fn(&[u8]) -> A;

/// Hands an appending to a call of the library and one of the Rust program. A
/// frame is written where the answer is `done`.
pub fn hand_appending<A: Debug + PartialEq>(
    appending: &Appending,
    to: &str,
    calls: [Append<A>; 2],
    done: A,
) -> Written<A> {
    let case = || {
        format!(
            "appending to {to}, {}: key {}, record {}, IV {}, room for {}",
            show(&appending.file),
            show(&appending.key),
            show(&appending.record),
            show(&appending.iv),
            appending.frame.len()
        )
    };
    let (mut key, mut record) = (Lent::new(&appending.key), Lent::new(&appending.record));
    let (mut iv, mut file) = (Lent::new(&appending.iv), Lent::new(&appending.file));
    let mut frame = Lent::new(&appending.frame);
    let answer = hand(&case, calls, |append, program| {
        append(
            key.of(program),
            record.of(program),
            iv.of(program),
            file.of(program),
            frame.of(program),
        )
    });
    key.settle(0, "key bits", &case);
    record.settle(0, "record bits", &case);
    iv.settle(0, "IV bits", &case);
    file.settle(0, "file", &case);
    let written = if answer == done { FRAME } else { 0 };
    Written {
        answer,
        bytes: frame.settle(written, "frame", &case),
    }
}

/// The same for a reading.
pub fn hand_reading<A: Debug + PartialEq>(
    reading: &Reading,
    calls: [ReadFrames<A>; 2],
    done: A,
) -> Written<A> {
    let case = || {
        format!(
            "reading of the frames {}: key {}, room for {}",
            show(&reading.file),
            show(&reading.key),
            reading.records.len()
        )
    };
    let (mut key, mut file) = (Lent::new(&reading.key), Lent::new(&reading.file));
    let mut records = Lent::new(&reading.records);
    let answer = hand(&case, calls, |read, program| {
        read(key.of(program), file.of(program), records.of(program))
    });
    key.settle(0, "key bits", &case);
    file.settle(0, "file", &case);
    let frames = reading.file.len() / FRAME;
    let written = if answer == done { RECORD * frames } else { 0 };
    Written {
        answer,
        bytes: records.settle(written, "records", &case),
    }
}

/// And for a check.
pub fn hand_frames<A: Debug + PartialEq>(file: &[u8], calls: [CheckFrames<A>; 2]) -> A {
    let case = || format!("check of the frames {}", show(file));
    let mut file = Lent::new(file);
    let answer = hand(&case, calls, |check, program| check(file.of(program)));
    file.settle(0, "file", &case);
    answer
}

pub fn fields(bits: &[u8]) -> Taken {
    let case = || format!("fields of {}", show(bits));
    let mut bits = Lent::new(bits);
    let calls = [probe::fields, frames::fields];
    let taken = hand(&case, calls, |fields, program| fields(bits.of(program)));
    bits.settle(0, "bits", &case);
    taken
}

/// The answer, and what the result then holds.
pub fn bits(fields: &Fields, result: &[u8]) -> (Put, Vec<u8>) {
    let case = || format!("bits of {fields:?}, room for {}", result.len());
    let mut result = Lent::new(result);
    let put = hand(&case, [probe::bits, frames::bits], |bits, program| {
        bits(fields, result.of(program))
    });
    let done = put.answer == Answer::DONE && put.too_large == 0;
    let written = if done { RECORD } else { 0 };
    (put, result.settle(written, "result", &case))
}
