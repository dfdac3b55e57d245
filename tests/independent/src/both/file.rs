//! The three calls on the netlist file.

use super::{hand, Written};
use crate::file::{self, GATE_BYTES, HEADER_BYTES, OUTPUT_BYTES};
use crate::lent::{show, Lent, Program};
use crate::netlist::{length, Answer, Counts};
use crate::probe;

/// What a reading left behind.
pub struct Read {
    pub answer: Answer,
    pub words: Vec<u32>,
}

pub fn check_file(source: &[u8]) -> Answer {
    let case = || format!("check of the file {}", show(source));
    let mut source = Lent::new(source);
    let calls = [probe::check_file, file::check_file];
    let answer = hand(&case, calls, |check, program| check(source.of(program)));
    source.settle(0, "bytes", &case);
    answer
}

pub fn read_file(source: &[u8], result: &[u32]) -> Read {
    let case = || {
        format!(
            "reading of the file {}, {} words of room",
            show(source),
            result.len()
        )
    };
    let (mut source, mut result) = (Lent::new(source), Lent::new(result));
    let calls = [probe::read_file, file::read_file];
    let answer = hand(&case, calls, |read, program| {
        read(source.of(program), result.of(program))
    });
    let written = match answer {
        Answer::DONE => length(result.of(Program::Rust)),
        _ => 0,
    };
    source.settle(0, "bytes", &case);
    Read {
        answer,
        words: result.settle(written, "result", &case),
    }
}

pub fn write_file(net: &[u32], result: &[u8]) -> Written {
    let case = || format!("writing of {}, {} bytes of room", show(net), result.len());
    let (mut words, mut result) = (Lent::new(net), Lent::new(result));
    let calls = [probe::write_file, file::write_file];
    let answer = hand(&case, calls, |write, program| {
        write(words.of(program), result.of(program))
    });
    let written = match answer {
        Answer::DONE => file_length(net),
        _ => 0,
    };
    words.settle(0, "words", &case);
    Written {
        answer,
        bytes: result.settle(written, "result", &case),
    }
}

/// The length of the file of a sound netlist.
pub fn file_length(net: &[u32]) -> usize {
    let Counts { gates, outputs, .. } = Counts::of(net);
    HEADER_BYTES + GATE_BYTES * gates + OUTPUT_BYTES * outputs
}

/// The words in a file, where it is sound.
pub fn words_of(source: &[u8]) -> Vec<u32> {
    assert_eq!(check_file(source), Answer::DONE);
    // No gate has fewer bytes than words, and no output.
    let room = vec![7; source.len()];
    let Read { answer, mut words } = read_file(source, &room);
    assert_eq!(answer, Answer::DONE);
    words.truncate(length(&words));
    words
}

/// The file of a netlist, where it is sound.
pub fn file_of(net: &[u32]) -> Vec<u8> {
    let written = write_file(net, &vec![7; file_length(net)]);
    assert_eq!(written.answer, Answer::DONE);
    written.bytes
}
