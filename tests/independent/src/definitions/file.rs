//! The netlist file: its bytes, and the judging of a reading.

use super::Condition;
use crate::netlist::{self, gate_place, words_for, ARITY, GATE_WORDS, HEADER_WORDS};

/// The file of a netlist that is as long as its counts say, and whose kinds are
/// bytes.
pub fn bytes(words: &[u32]) -> Vec<u8> {
    let little = |word: u32| (0..4).map(move |i| (word >> (8 * i)) as u8);
    let mut bytes = b"NH".to_vec();
    bytes.extend(
        words[..HEADER_WORDS]
            .iter()
            .flat_map(|&count| little(count)),
    );
    for gate in netlist::gates(words) {
        bytes.extend(b"NG");
        bytes.push(u8::try_from(gate[0]).expect("the kind is a byte"));
        bytes.extend(gate[1..].iter().flat_map(|&operand| little(operand)));
    }
    for &wire in netlist::outputs(words) {
        bytes.extend(b"NO");
        bytes.extend(little(wire));
    }
    bytes
}

/// What is judged of a file, in this order.
#[derive(Clone, Copy, Debug, PartialEq, Eq, PartialOrd, Ord)]
pub enum Stage {
    Header,
    Counts,
    Room,
    /// The records after the header, and that nothing comes after them.
    Records,
    Wires,
}

/// What holds against reading a file into that many words: the first fault of
/// each stage. Later stages are judged too, as far as there are bytes; of a cut
/// header nothing more can be said.
pub fn conditions(source: &[u8], room: usize) -> Vec<(Stage, Condition)> {
    let word = |at: usize| -> usize { (0..4).map(|i| (source[at + i] as usize) << (8 * i)).sum() };
    let marked = |at: usize, mark: &[u8], size: usize| {
        source.len() >= at + size && source[at..at + 2] == *mark
    };
    let mut held = Vec::new();
    if !marked(0, b"NH", 14) {
        held.push((Stage::Header, (12, 1, 0)));
    }
    if source.len() < 14 {
        return held;
    }
    let counts = [word(2), word(6), word(10)];
    let [inputs, gates, outputs] = counts;
    let above = (0..HEADER_WORDS).find(|&i| counts[i] > [32_768, 262_144, 4_096][i]);
    held.extend(above.map(|place| (Stage::Counts, (9, 1, place))));
    if room < words_for(gates, outputs) {
        held.push((Stage::Room, (8, 2, room)));
    }

    let mut at = 14;
    let mut wires = None;
    let mut records = None;
    for g in 0..gates {
        if !marked(at, b"NG", 15) {
            records = records.or(Some(at));
        }
        if source.len() < at + 15 {
            break;
        }
        let wire = inputs + g;
        let kind = source[at + 2] as usize;
        let operands = [word(at + 3), word(at + 7), word(at + 11)];
        let wrong = |j: &usize| match j {
            0 => kind > 5,
            _ if *j <= ARITY[kind] => operands[j - 1] >= wire,
            _ => operands[j - 1] != 0,
        };
        wires = wires.or((0..GATE_WORDS).find(wrong).map(|j| gate_place(g) + j));
        at += 15;
    }
    for o in 0..outputs {
        if at != 14 + 15 * gates + 6 * o {
            break;
        }
        if !marked(at, b"NO", 6) {
            records = records.or(Some(at));
        }
        if source.len() < at + 6 {
            break;
        }
        if word(at + 2) >= inputs + gates {
            wires = wires.or(Some(gate_place(gates) + o));
        }
        at += 6;
    }
    if at < source.len() {
        records = records.or(Some(at));
    }
    held.extend(records.map(|place| (Stage::Records, (12, 1, place))));
    held.extend(wires.map(|place| (Stage::Wires, (9, 1, place))));
    held
}
