//! Netlist files to test with: sound ones, and damaged ones.

use crate::cases::{self, Shape};
use crate::definitions::file::{self, Stage};
use crate::definitions::Condition;
use crate::faults;
use crate::file::{GATE_BYTES, HEADER_BYTES, OUTPUT_BYTES};
use crate::netlist::{
    gate_place, Counts, GATE_WORDS, HEADER_WORDS, MAX_GATES, MAX_INPUTS, MAX_OUTPUTS,
};
use crate::random::{fill, Random};

/// The reading of a file.
#[derive(Clone, Debug)]
pub struct Reading {
    /// The netlist whose file it is, while it is sound.
    pub words: Vec<u32>,
    pub source: Vec<u8>,
    /// The result list as it is lent.
    pub result: Vec<u32>,
}

impl Reading {
    /// What holds against it, in the order in which it is judged.
    pub fn conditions(&self) -> Vec<(Stage, Condition)> {
        file::conditions(&self.source, self.result.len())
    }

    /// Where the record of gate `g` begins.
    fn gate_record(&self, g: usize) -> usize {
        HEADER_BYTES + GATE_BYTES * g
    }

    /// And that of output `o`.
    fn output_record(&self, o: usize) -> usize {
        self.gate_record(Counts::of(&self.words).gates) + OUTPUT_BYTES * o
    }

    /// Where the record begins to which the byte belongs, were it there.
    fn record_of(&self, byte: usize) -> usize {
        let outputs = self.output_record(0);
        if byte < HEADER_BYTES {
            0
        } else if byte < outputs {
            byte - (byte - HEADER_BYTES) % GATE_BYTES
        } else {
            byte - (byte - outputs) % OUTPUT_BYTES
        }
    }

    fn put(&mut self, at: usize, word: u32) {
        self.source[at..at + 4].copy_from_slice(&word.to_le_bytes());
    }
}

/// A sound reading.
pub fn sound(random: &mut Random, shape: &Shape) -> Reading {
    let words = cases::sound(random, shape);
    let spare = random.spare();
    Reading {
        source: file::bytes(&words),
        result: fill(random, words.len() + spare),
        words,
    }
}

/// What can be wrong with a reading, in the order in which it is judged.
#[derive(Clone, Copy, Debug, PartialEq, Eq, PartialOrd, Ord)]
pub enum Fault {
    /// The header is cut, or its mark is wrong.
    CutHeader,
    HeaderMark,
    /// The count so numbered is above its limit.
    Count(usize),
    /// Too short a result.
    Room,
    /// A later record is cut, or its mark is wrong.
    Cut,
    GateMark,
    OutputMark,
    LeftOver,
    /// No kind.
    Kind,
    /// An operand that is no earlier wire, or unused and not 0.
    Used(usize),
    Unused(usize),
    /// An output that is no wire.
    Output,
}

pub const FAULTS: [Fault; 18] = [
    Fault::CutHeader,
    Fault::HeaderMark,
    Fault::Count(0),
    Fault::Count(1),
    Fault::Count(2),
    Fault::Room,
    Fault::Cut,
    Fault::GateMark,
    Fault::OutputMark,
    Fault::LeftOver,
    Fault::Kind,
    Fault::Used(1),
    Fault::Used(2),
    Fault::Used(3),
    Fault::Unused(1),
    Fault::Unused(2),
    Fault::Unused(3),
    Fault::Output,
];

/// Spoils the mark at that place: one byte or both, or another record's mark.
fn spoil_mark(random: &mut Random, source: &mut [u8], at: usize) {
    let before = [source[at], source[at + 1]];
    while source[at..at + 2] == before {
        match random.below(4) {
            0 => source[at + 1] = random.pick(b"HGO"),
            1 => source[at] ^= 1 << random.below(8),
            2 => source[at + 1] ^= 1 << random.below(8),
            _ => source[at..at + 2].copy_from_slice(&fill::<u8>(random, 2)),
        }
    }
}

/// Puts one fault into a reading and says what holds then, if nothing else did;
/// `None` where the file has no place for the fault. The reading is sound, but
/// for faults that are judged later.
pub fn inflict(random: &mut Random, reading: &mut Reading, fault: Fault) -> Option<Condition> {
    let Counts { gates, outputs, .. } = Counts::of(&reading.words);
    match fault {
        Fault::CutHeader => {
            reading.source.truncate(random.below(HEADER_BYTES));
            Some((12, 1, 0))
        }
        Fault::HeaderMark => {
            spoil_mark(random, &mut reading.source, 0);
            Some((12, 1, 0))
        }
        Fault::Count(place) => {
            let limit = [MAX_INPUTS, MAX_GATES, MAX_OUTPUTS][place] as u32;
            let good = reading.words[place];
            let count = match random.below(5) {
                0 | 1 => limit + 1,
                2 => limit + random.between(1, 1_000) as u32,
                3 => u32::MAX - random.below(3) as u32,
                // The good one in its low bits.
                _ => good | 1 << random.between(19, 31),
            };
            reading.put(2 + 4 * place, count);
            Some((9, 1, place))
        }
        Fault::Room => {
            let room = random.fewer(reading.words.len());
            reading.result.truncate(room);
            Some((8, 2, room))
        }
        Fault::Cut => {
            let length = reading.output_record(outputs);
            if length == HEADER_BYTES {
                return None;
            }
            let left = match random.below(4) {
                0 => length - 1,
                // At a record's end, or after its first byte.
                1 if gates > 0 => reading.gate_record(random.below(gates)) + random.below(2),
                2 if outputs > 0 => reading.output_record(random.below(outputs)) + random.below(2),
                _ => random.between(HEADER_BYTES, length - 1),
            };
            reading.source.truncate(left);
            Some((12, 1, reading.record_of(left)))
        }
        Fault::GateMark | Fault::OutputMark => {
            let at = match fault {
                Fault::GateMark if gates > 0 => reading.gate_record(random.below(gates)),
                Fault::OutputMark if outputs > 0 => reading.output_record(random.below(outputs)),
                _ => return None,
            };
            spoil_mark(random, &mut reading.source, at);
            Some((12, 1, at))
        }
        Fault::LeftOver => {
            let at = reading.source.len();
            let more: Vec<u8> = match random.below(4) {
                0 => vec![random.pick(&[0, b'N', b'\n', 255])],
                1 => b"NG\0\0\0\0\0\0\0\0\0\0\0\0\0".to_vec(),
                2 => b"NO\0\0\0\0".to_vec(),
                _ => {
                    let length = random.between(1, 40);
                    fill(random, length)
                }
            };
            reading.source.extend(more);
            Some((12, 1, at))
        }
        Fault::Kind => {
            if gates == 0 {
                return None;
            }
            let g = random.below(gates);
            let at = reading.gate_record(g) + 2;
            let good = reading.source[at];
            reading.source[at] = match random.below(4) {
                0 => 6,
                1 => 255,
                2 => good | 1 << random.between(3, 7),
                _ => random.between(6, 255) as u8,
            };
            Some((9, 1, gate_place(g)))
        }
        Fault::Used(_) | Fault::Unused(_) | Fault::Output => {
            let mut words = reading.words.clone();
            let of_words = match fault {
                Fault::Used(operand) => cases::Fault::Used(operand),
                Fault::Unused(operand) => cases::Fault::Unused(operand),
                _ => cases::Fault::Output,
            };
            let place = cases::inflict(random, &mut words, of_words)?;
            let at = match fault {
                Fault::Output => reading.output_record(place - gate_place(gates)) + 2,
                _ => {
                    let in_gates = place - HEADER_WORDS;
                    let (g, operand) = (in_gates / GATE_WORDS, in_gates % GATE_WORDS);
                    reading.gate_record(g) + 3 + 4 * (operand - 1)
                }
            };
            reading.put(at, words[place]);
            Some((9, 1, place))
        }
    }
}

/// Puts up to `count` different faults into a sound reading.
pub fn inflict_several(random: &mut Random, reading: &mut Reading, count: usize) {
    let mut several = faults::several(count, || random.pick(&FAULTS));
    if several.contains(&Fault::Cut) {
        // One might undo the other.
        several.retain(|&fault| fault != Fault::LeftOver);
    }
    for fault in several {
        inflict(random, reading, fault);
    }
}

/// Spoils a file with no regard to what the fault will be, or whether there
/// will be one: meant to be done several times over.
pub fn wreck(random: &mut Random, source: &mut Vec<u8>) {
    if source.is_empty() {
        source.push(random.pick(b"NHGO\0"));
        return;
    }
    let place = match random.below(10) {
        0 | 1 => random.below(source.len().min(HEADER_BYTES)),
        2 => source.len() - 1,
        _ => random.below(source.len()),
    };
    match random.below(10) {
        0 => source[place] = source[place].wrapping_add(1),
        1 => source[place] = source[place].wrapping_sub(1),
        2 => source[place] ^= 1 << random.below(8),
        3 => source[place] = random.below(7) as u8,
        4 => source[place] = 255,
        5 => source[place] = random.pick(b"NHGO"),
        6 => {
            source.remove(place);
        }
        7 => source.insert(place, random.pick(b"NHGO\0\x01\x05")),
        8 => source.truncate(place),
        _ => {
            let end = random.between(place, source.len().min(place + 40));
            let more = source[place..end].to_vec();
            source.extend(more);
        }
    }
}
