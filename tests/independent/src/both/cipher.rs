//! The three cipher calls, and the choice of a row.

use super::hand;
use crate::cipher_cases::{self, Call, Choice};
use crate::lent::{show, Lent};
use crate::netlist::Answer;
use crate::random::Random;
use crate::{choice, cipher, probe};

/// Which of the three calls.
#[derive(Clone, Copy, Debug, PartialEq, Eq)]
pub enum Kind {
    Keystream,
    Encipher,
    Decipher,
}

pub const KINDS: [Kind; 3] = [Kind::Keystream, Kind::Encipher, Kind::Decipher];

/// Enciphering and deciphering take the same lists.
type WithRecord = fn(u32, u32, &[u8], &[u8], &[u32], &[u8], &mut [u8]) -> Answer;

impl Kind {
    pub fn has_record(self) -> bool {
        self != Kind::Keystream
    }

    pub fn sound(self, random: &mut Random, instance: u32, m: usize) -> Call {
        cipher_cases::sound(random, instance, m, self.has_record())
    }

    /// The answer, and what the result list then holds.
    pub fn hand(self, call: &Call) -> (Answer, Vec<u8>) {
        let Call { instance, m, .. } = *call;
        let record = call.record.as_deref().unwrap_or(&[]);
        let case = || {
            format!(
                "{self:?} of instance {instance}, m {m}: key {}, record {}, indices {}, \
                 whitening {}, room for {}",
                show(&call.key),
                show(record),
                show(&call.indices),
                show(&call.whitening),
                call.result.len()
            )
        };
        let (mut key, mut record) = (Lent::new(&call.key), Lent::new(record));
        let mut indices = Lent::new(&call.indices);
        let mut whitening = Lent::new(&call.whitening);
        let mut result = Lent::new(&call.result);
        let with_record: [WithRecord; 2] = match self {
            Kind::Encipher => [probe::encipher, cipher::encipher],
            _ => [probe::decipher, cipher::decipher],
        };
        let answer = match self {
            Kind::Keystream => {
                let calls = [probe::keystream, cipher::keystream];
                hand(&case, calls, |keystream, program| {
                    keystream(
                        instance,
                        m,
                        key.of(program),
                        indices.of(program),
                        whitening.of(program),
                        result.of(program),
                    )
                })
            }
            _ => hand(&case, with_record, |call, program| {
                call(
                    instance,
                    m,
                    key.of(program),
                    record.of(program),
                    indices.of(program),
                    whitening.of(program),
                    result.of(program),
                )
            }),
        };
        let written = match answer {
            Answer::DONE => m as usize,
            _ => 0,
        };
        key.settle(0, "key bits", &case);
        record.settle(0, "record bits", &case);
        indices.settle(0, "indices", &case);
        whitening.settle(0, "whitening bits", &case);
        (answer, result.settle(written, "result", &case))
    }

    /// The bits that a sound call gives, which are the definitions'.
    pub fn bits(self, call: &Call) -> Vec<u8> {
        let (answer, mut result) = self.hand(call);
        assert_eq!(answer, Answer::DONE);
        result.truncate(call.m as usize);
        assert_eq!(result, call.expected());
        result
    }
}

/// The answer, and what the row then holds.
pub fn choose(choice: &Choice) -> (Answer, Vec<u32>) {
    let instance = choice.instance;
    let case = || {
        format!(
            "choice for instance {instance} from {}, room for {}",
            show(&choice.draws),
            choice.row.len()
        )
    };
    let (mut draws, mut row) = (Lent::new(&choice.draws), Lent::new(&choice.row));
    let calls = [probe::choose, choice::choose];
    let answer = hand(&case, calls, |choose, program| {
        choose(instance, draws.of(program), row.of(program))
    });
    let written = match answer {
        Answer::DONE => choice.draws.len(),
        _ => 0,
    };
    draws.settle(0, "draws", &case);
    (answer, row.settle(written, "row", &case))
}
