//! Emissions of deciphering netlists to test and time with: sound ones for
//! every instance, and damaged ones.

use crate::cases::{self, Shape};
use crate::cipher_cases::{self, Call, Fault, List};
use crate::definitions::filter::weight;
use crate::definitions::{deciphering, Condition};
use crate::faults::{inflict_each, several};
use crate::key::deciphering_inputs;
use crate::netlist::HEADER_WORDS;
use crate::random::{fill, Random};
use std::collections::BTreeSet;

/// The emission of a deciphering netlist.
#[derive(Clone, Debug)]
pub struct Emission {
    /// A cipher call with the same numbers, rows and whitening. Its key and its
    /// record are what the netlist is then evaluated on.
    pub call: Call,
    /// The result list as it is lent.
    pub result: Vec<u32>,
}

impl Emission {
    /// All that holds against it.
    pub fn conditions(&self) -> BTreeSet<Condition> {
        deciphering::conditions(
            self.call.instance,
            self.call.m,
            &self.call.indices,
            &self.call.whitening,
            self.result.len(),
        )
    }

    /// The netlist of an emission against which nothing holds.
    pub fn expected(&self) -> Vec<u32> {
        deciphering::netlist(
            self.call.instance,
            self.call.m as usize,
            &self.call.indices,
            &self.call.whitening,
        )
    }

    /// How many words that netlist has.
    pub fn words(&self) -> usize {
        let whitened = match self.call.instance {
            6 => 0,
            _ => weight(&self.call.whitening),
        };
        deciphering::words(self.call.instance, self.call.m as usize, whitened)
    }

    /// The key, and the record as it was enciphered: the netlist's inputs.
    pub fn inputs(&self) -> Vec<u8> {
        deciphering_inputs(&self.call.key, &self.call.expected())
    }

    /// The record: the netlist's outputs.
    pub fn record(&self) -> &[u8] {
        self.call.record()
    }
}

/// A sound emission.
pub fn sound(random: &mut Random, instance: u32, m: usize) -> Emission {
    let mut emission = Emission {
        call: cipher_cases::sound(random, instance, m, true),
        result: vec![],
    };
    let spare = random.pick(&[0, 0, 1, 3, 100]);
    emission.result = fill(random, emission.words() + spare);
    emission
}

/// What can be wrong with an emission, in the order in which it is judged.
pub const FAULTS: [Fault; 9] = [
    Fault::Instance,
    Fault::Bits,
    Fault::Length(List::Indices),
    Fault::Length(List::Whitening),
    Fault::NotBit(List::Whitening),
    Fault::Index,
    Fault::Repeat,
    Fault::Whitened,
    Fault::Room,
];

/// Puts one fault that suits into a sound emission and says what then holds.
pub fn inflict(random: &mut Random, emission: &mut Emission, fault: Fault) -> Condition {
    if fault == Fault::Room {
        let words = emission.words();
        let room = match random.below(8) {
            0 => 0,
            1 => HEADER_WORDS,
            2 => words - emission.call.m as usize,
            3 => random.below(words),
            _ => words - 1,
        };
        emission.result.truncate(room);
        return (8, 3, room);
    }
    // The cipher call counts a key and a record before the other lists.
    let (number, list, place) = cipher_cases::inflict(random, &mut emission.call, fault);
    (number, list.saturating_sub(2), place)
}

/// Puts up to `count` different faults into a sound emission, and some of them
/// more than once. Says all that then holds; also what would, were there such
/// an instance and such a number of bits.
pub fn inflict_several(
    random: &mut Random,
    emission: &mut Emission,
    count: usize,
) -> BTreeSet<Condition> {
    let weights =
        FAULTS.map(|fault| u32::from(fault.suits(emission.call.instance, true)) * fault.weight());
    let faults = several(count, || FAULTS[random.weighted(&weights)]);
    let hides = |fault| fault <= Fault::Bits;
    inflict_each(
        emission,
        faults,
        hides,
        Emission::conditions,
        |emission, fault| {
            let times = match fault {
                // A length changes once: a second change might undo the first.
                Fault::Instance | Fault::Bits | Fault::Length(_) | Fault::Room => 1,
                _ => random.pick(&[1, 1, 1, 2, 5]),
            };
            for _ in 1..times {
                inflict(random, emission, fault);
            }
            inflict(random, emission, fault)
        },
    )
}

/// Spoils some list with no regard to what the fault will be, or whether there
/// will be one: meant to be done several times over.
pub fn wreck(random: &mut Random, emission: &mut Emission) {
    match random.below(8) {
        0 if !emission.result.is_empty() => {
            let room = random.below(emission.result.len());
            emission.result.truncate(room);
        }
        1 => {
            let more: Vec<u32> = fill(random, 2_000);
            emission.result.extend(more);
        }
        _ => cipher_cases::wreck(random, &mut emission.call),
    }
}

/// A netlist that scores records of that many bits: sound, of any shape.
pub fn scoring(random: &mut Random, bits: usize) -> Vec<u32> {
    let shape = Shape {
        inputs: bits,
        gates: random.pick(&[0, 1, 5, 50, 500, 3_000]),
        outputs: random.pick(&[0, 1, 1, 2, 8, 64]),
        weights: random.pick(&[cases::MIXED, cases::ARITHMETIC, cases::MULTIPLYING]),
        reach: random.pick(&[cases::ANYWHERE, 64, 8]),
    };
    cases::sound(random, &shape)
}
