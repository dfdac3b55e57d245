//! Whole paths of records to test with: sound ones for every instance, and
//! damaged ones.

use crate::cases;
use crate::cipher_cases::{self, sized};
use crate::definitions::Condition;
use crate::emission_cases::{self, Emission};
use crate::netlist::{words_for, Counts, GATE_WORDS, MAX_GATES};
use crate::path::Read;
use crate::random::{fill, Random};

/// A call of the whole path.
#[derive(Clone, Debug)]
pub struct Path {
    /// The emission of the deciphering netlist. Its cipher call enciphers the
    /// record.
    pub emission: Emission,
    pub scoring: Vec<u32>,
    /// The other rooms as they are lent.
    pub glued: Vec<u32>,
    pub inputs: Vec<u8>,
    pub wires: Vec<u8>,
    pub scores: Vec<u8>,
}

/// The lists that are rooms.
pub const ROOMS: [u32; 6] = [6, 7, 8, 9, 10, 11];

impl Path {
    pub fn read(&self) -> Read<'_> {
        let call = &self.emission.call;
        Read {
            key: &call.key,
            record: self.emission.record(),
            indices: &call.indices,
            whitening: &call.whitening,
            scoring: &self.scoring,
        }
    }

    /// How many gates the deciphering netlist has.
    pub fn deciphering_gates(&self) -> usize {
        (self.emission.words() - words_for(0, self.emission.call.m as usize)) / GATE_WORDS
    }

    /// How much is written to that room.
    pub fn need(&self, room: u32) -> usize {
        let m = self.emission.call.m as usize;
        let inputs = sized(self.emission.call.instance).key + m;
        let gates = || self.deciphering_gates() + Counts::of(&self.scoring).gates;
        let outputs = || Counts::of(&self.scoring).outputs;
        match room {
            6 => m,
            7 => self.emission.words(),
            8 => words_for(gates(), outputs()),
            9 => inputs,
            10 => inputs + gates(),
            11 => outputs(),
            _ => panic!("list {room} is no room"),
        }
    }

    /// Leaves that many places of a room, or fewer.
    pub fn shorten(&mut self, room: u32, places: usize) {
        match room {
            6 => self.emission.call.result.truncate(places),
            7 => self.emission.result.truncate(places),
            8 => self.glued.truncate(places),
            9 => self.inputs.truncate(places),
            10 => self.wires.truncate(places),
            11 => self.scores.truncate(places),
            _ => panic!("list {room} is no room"),
        }
    }

    /// Gives it that scoring netlist, and the rooms from gluing on what they need.
    pub fn lend(&mut self, random: &mut Random, scoring: Vec<u32>) {
        self.scoring = scoring;
        let spare = random.pick(&[0, 0, 1, 5, 60]);
        self.glued = fill(random, self.need(8) + spare);
        self.inputs = fill(random, self.need(9) + spare);
        self.wires = fill(random, self.need(10) + spare);
        self.scores = fill(random, self.need(11) + spare);
    }
}

/// A sound path that ends in that scoring netlist.
pub fn ending(random: &mut Random, instance: u32, m: usize, scoring: Vec<u32>) -> Path {
    let mut path = Path {
        emission: emission_cases::sound(random, instance, m),
        scoring: vec![],
        glued: vec![],
        inputs: vec![],
        wires: vec![],
        scores: vec![],
    };
    path.lend(random, scoring);
    path
}

/// A sound path.
pub fn sound(random: &mut Random, instance: u32, m: usize) -> Path {
    let scoring = emission_cases::scoring(random, m);
    ending(random, instance, m, scoring)
}

/// What can be wrong with a path.
#[derive(Clone, Copy, Debug, PartialEq, Eq)]
pub enum Fault {
    /// The record cannot be enciphered.
    Cipher(cipher_cases::Fault),
    /// The scoring netlist breaks a rule.
    Scoring,
    /// The scoring netlist takes another number of bits.
    Counts,
    /// The glued netlist would have too many gates.
    Gates,
    /// A room is too short.
    Room(u32),
}

/// All of them, in the order in which they are judged.
pub fn faults() -> Vec<Fault> {
    // The room for the enciphered record is judged with the other rooms.
    let of_cipher = cipher_cases::FAULTS.into_iter();
    let of_cipher = of_cipher.filter(|&fault| fault != cipher_cases::Fault::Room);
    let mut faults: Vec<Fault> = of_cipher.map(Fault::Cipher).collect();
    faults.push(Fault::Scoring);
    faults.extend(ROOMS.map(Fault::Room));
    faults.extend([Fault::Counts, Fault::Gates]);
    faults
}

impl Fault {
    /// Whether that path can have it.
    pub fn suits(self, path: &Path) -> bool {
        match self {
            Fault::Cipher(fault) => fault.suits(path.emission.call.instance, true),
            Fault::Room(room) => path.need(room) > 0,
            _ => true,
        }
    }
}

/// Puts one fault that suits into a path, where nothing that is judged before it
/// is wrong, and says what then holds.
pub fn inflict(random: &mut Random, path: &mut Path, fault: Fault) -> Condition {
    let m = path.emission.call.m as usize;
    match fault {
        Fault::Cipher(fault) => cipher_cases::inflict(random, &mut path.emission.call, fault),
        Fault::Scoring => loop {
            let fault = random.pick(&cases::FAULTS);
            if let Some(place) = cases::inflict(random, &mut path.scoring, fault) {
                return (9, 5, place);
            }
        },
        Fault::Counts => {
            let inputs = (m + random.pick(&[1, 2, 63, 64])) % 66 + 1;
            let gates = Counts::of(&path.scoring).gates;
            path.lend(random, cases::nots(inputs, gates));
            (10, 0, 0)
        }
        Fault::Gates => {
            let gates = MAX_GATES - path.deciphering_gates() + random.pick(&[1, 1, 2, 50]);
            path.lend(random, cases::nots(m, gates));
            (11, 0, 0)
        }
        Fault::Room(room) => {
            let places = random.fewer(path.need(room));
            path.shorten(room, places);
            (8, room, places)
        }
    }
}

/// Spoils some list with no regard to what the fault will be, or whether there
/// will be one.
pub fn wreck(random: &mut Random, path: &mut Path) {
    match random.below(4) {
        0 => emission_cases::wreck(random, &mut path.emission),
        1 => cases::wreck(random, &mut path.scoring),
        _ => {
            let room = random.pick(&ROOMS);
            let places = random.pick(&[0, 0, 0, 1, 8, 64, 400, 17_000]);
            path.shorten(room, places);
        }
    }
}
