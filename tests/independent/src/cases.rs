//! Netlists to test and time with: sound ones of any shape, and damaged ones.

use crate::faults;
use crate::netlist::{
    gate_place, words_for, Counts, Gate, AND, ARITY, GATES_PLACE, GATE_WORDS, HEADER_WORDS,
    INPUTS_PLACE, MAX_GATES, MAX_INPUTS, MAX_OUTPUTS, MUX, NOT, ONE, OUTPUTS_PLACE, ZERO,
};
use crate::random::Random;

/// What a sound netlist shall look like.
#[derive(Clone, Copy, Debug)]
pub struct Shape {
    pub inputs: usize,
    pub gates: usize,
    pub outputs: usize,
    /// How likely each kind is, by its code.
    pub weights: [u32; 6],
    /// How many wires back an operand may lie.
    pub reach: usize,
}

/// All six kinds alike.
pub const MIXED: [u32; 6] = [1, 1, 1, 1, 1, 1];
/// Like an emitted deciphering netlist: XOR and AND, few others.
pub const ARITHMETIC: [u32; 6] = [1, 1, 6, 60, 30, 2];
/// Depth grows fast.
pub const MULTIPLYING: [u32; 6] = [0, 0, 1, 1, 10, 10];
/// Depth 0 throughout.
pub const LINEAR: [u32; 6] = [2, 2, 5, 10, 0, 0];

pub const ANYWHERE: usize = usize::MAX;

/// As large as a netlist can be.
pub const LARGEST: Shape = Shape {
    inputs: MAX_INPUTS,
    gates: MAX_GATES,
    outputs: MAX_OUTPUTS,
    weights: MIXED,
    reach: ANYWHERE,
};

/// A sound netlist of that shape. Without a wire to name there are no
/// outputs, and the first gate of a netlist without inputs is a constant.
pub fn sound(random: &mut Random, shape: &Shape) -> Vec<u32> {
    let Shape {
        inputs,
        gates,
        weights,
        reach,
        ..
    } = *shape;
    let outputs = if inputs + gates == 0 {
        0
    } else {
        shape.outputs
    };
    let mut words = Vec::with_capacity(words_for(gates, outputs));
    let counts = Counts {
        inputs,
        gates,
        outputs,
    };
    words.extend(counts.header());
    for wire in inputs..inputs + gates {
        let kind = if wire == 0 {
            random.pick(&[ZERO, ONE])
        } else {
            random.weighted(&weights) as u32
        };
        let used = ARITY[kind as usize];
        words.push(kind);
        for operand in 1..=3 {
            words.push(if operand <= used {
                (wire - 1 - random.below(wire.min(reach))) as u32
            } else {
                0
            });
        }
    }
    for _ in 0..outputs {
        words.push(random.below(inputs + gates) as u32);
    }
    words
}

/// A shape small enough for hundreds of thousands of cases; mostly tiny, so
/// that every edge comes up often.
pub fn small_shape(random: &mut Random) -> Shape {
    let (inputs, gates, outputs) = match random.below(100) {
        0..=59 => (6, 8, 4),
        60..=89 => (40, 60, 20),
        90..=98 => (100, 400, 60),
        _ => (2_000, 3_000, 500),
    };
    Shape {
        inputs: random.between(0, inputs),
        gates: random.between(0, gates),
        outputs: random.between(0, outputs),
        weights: random.pick(&[MIXED, MIXED, ARITHMETIC, MULTIPLYING, LINEAR]),
        reach: random.pick(&[ANYWHERE, ANYWHERE, 8, 1]),
    }
}

/// The ways a netlist can break its rules, by where the fault lies; up to the
/// length in the order in which they are judged.
#[derive(Clone, Copy, Debug, PartialEq, Eq, PartialOrd, Ord)]
pub enum Fault {
    /// Fewer than three words.
    Few,
    /// The count of inputs, gates or outputs is above its limit.
    Inputs,
    Gates,
    Outputs,
    /// Fewer or more words than the counts ask for.
    Short,
    Long,
    /// No kind.
    Kind,
    /// A used operand (1, 2, 3) that is no earlier wire.
    Used(usize),
    /// An unused operand that is not 0.
    Unused(usize),
    /// An output that is no wire.
    Output,
}

pub const FAULTS: [Fault; 14] = [
    Fault::Few,
    Fault::Inputs,
    Fault::Gates,
    Fault::Outputs,
    Fault::Short,
    Fault::Long,
    Fault::Kind,
    Fault::Used(1),
    Fault::Used(2),
    Fault::Used(3),
    Fault::Unused(1),
    Fault::Unused(2),
    Fault::Unused(3),
    Fault::Output,
];

impl Fault {
    /// The fault for which rule 9 names `place` in `words`.
    pub fn at(words: &[u32], place: usize) -> Fault {
        if words.len() < HEADER_WORDS {
            return Fault::Few;
        }
        let counts = Counts::of(words);
        if place == words.len() {
            return if words.len() < counts.words() {
                Fault::Short
            } else {
                Fault::Long
            };
        }
        match place {
            INPUTS_PLACE => Fault::Inputs,
            GATES_PLACE => Fault::Gates,
            OUTPUTS_PLACE => Fault::Outputs,
            _ if place >= gate_place(counts.gates) => Fault::Output,
            _ => {
                let operand = (place - HEADER_WORDS) % GATE_WORDS;
                match words[place - operand] as usize {
                    _ if operand == 0 => Fault::Kind,
                    kind if operand <= ARITY[kind] => Fault::Used(operand),
                    _ => Fault::Unused(operand),
                }
            }
        }
    }
}

/// A word that is `least` or above: just so, a little more, or far more.
fn at_least(random: &mut Random, least: u32) -> u32 {
    let far = u32::MAX - least;
    match random.below(6) {
        0 | 1 => least,
        2 => least + random.below(far.min(4) as usize + 1) as u32,
        3 => u32::MAX - random.below(far.min(4) as usize + 1) as u32,
        4 => least.max(1 << random.between(8, 31)),
        _ => least + random.below(far as usize + 1) as u32,
    }
}

/// Puts one fault into a sound netlist and says the place that rule 9 then
/// names; `None` where the netlist has no word that could carry the fault.
pub fn inflict(random: &mut Random, words: &mut Vec<u32>, fault: Fault) -> Option<usize> {
    let counts = Counts::of(words);
    let Counts { inputs, gates, .. } = counts;
    match fault {
        Fault::Few => {
            words.truncate(random.below(HEADER_WORDS));
            Some(words.len())
        }
        Fault::Inputs => {
            words[INPUTS_PLACE] = at_least(random, MAX_INPUTS as u32 + 1);
            Some(INPUTS_PLACE)
        }
        Fault::Gates => {
            words[GATES_PLACE] = at_least(random, MAX_GATES as u32 + 1);
            Some(GATES_PLACE)
        }
        Fault::Outputs => {
            words[OUTPUTS_PLACE] = at_least(random, MAX_OUTPUTS as u32 + 1);
            Some(OUTPUTS_PLACE)
        }
        Fault::Short => {
            let spare = words.len() - HEADER_WORDS;
            if spare == 0 {
                return None;
            }
            let cut = if random.chance(50) {
                1
            } else {
                random.between(1, spare)
            };
            words.truncate(words.len() - cut);
            Some(words.len())
        }
        Fault::Long => {
            let more = if random.chance(50) {
                1
            } else {
                random.between(1, 40)
            };
            for _ in 0..more {
                words.push(if random.chance(50) { 0 } else { random.word() });
            }
            Some(words.len())
        }
        Fault::Kind => {
            let place = gate_place(pick_gate(random, gates, |_| true)?);
            words[place] = if random.chance(30) {
                // The right kind in its low bits.
                words[place] | 1 << random.between(3, 31)
            } else {
                at_least(random, 6)
            };
            Some(place)
        }
        Fault::Used(operand) => {
            let g = pick_gate(random, gates, |g| {
                ARITY[words[gate_place(g)] as usize] >= operand
            })?;
            let place = gate_place(g) + operand;
            words[place] = at_least(random, (inputs + g) as u32);
            Some(place)
        }
        Fault::Unused(operand) => {
            let g = pick_gate(random, gates, |g| {
                ARITY[words[gate_place(g)] as usize] < operand
            })?;
            let place = gate_place(g) + operand;
            words[place] = at_least(random, 1);
            Some(place)
        }
        Fault::Output => {
            if counts.outputs == 0 {
                return None;
            }
            let place = gate_place(gates) + random.below(counts.outputs);
            words[place] = at_least(random, counts.wires() as u32);
            Some(place)
        }
    }
}

/// Puts up to `count` different faults into a sound netlist and says the place
/// that rule 9 then names; `None` where the netlist could carry none of them.
pub fn inflict_several(random: &mut Random, words: &mut Vec<u32>, count: usize) -> Option<usize> {
    let mut several = faults::several(count, || random.pick(&FAULTS));
    if several.contains(&Fault::Short) {
        // One might undo the other.
        several.retain(|&fault| fault != Fault::Long);
    }
    let mut expected = None;
    for fault in several {
        if let Some(place) = inflict(random, words, fault) {
            expected = match expected {
                Some(earlier) if fault >= Fault::Kind && earlier < place => Some(earlier),
                _ => Some(place),
            };
        }
    }
    expected
}

/// A gate that suits: the first from a random one on, around the end.
fn pick_gate(random: &mut Random, gates: usize, suits: impl Fn(usize) -> bool) -> Option<usize> {
    if gates == 0 {
        return None;
    }
    let start = random.below(gates);
    (start..gates).chain(0..start).find(|&g| suits(g))
}

/// Spoils a word list with no regard to what the fault will be, or whether
/// there will be one: meant to be done several times over.
pub fn wreck(random: &mut Random, words: &mut Vec<u32>) {
    if words.is_empty() {
        words.push(random.word());
        return;
    }
    let place = match random.below(10) {
        0 => random.below(words.len().min(HEADER_WORDS)),
        1 => words.len() - 1,
        _ => random.below(words.len()),
    };
    match random.below(12) {
        0 => words[place] = words[place].wrapping_add(1),
        1 => words[place] = words[place].wrapping_sub(1),
        2 => words[place] = u32::MAX,
        3 => words[place] ^= 1 << random.below(32),
        4 => words[place] = random.below(8) as u32,
        5 => words[place] = random.word(),
        6 => words[place] = random.below(words.len()) as u32,
        7 => {
            words[place] = random.pick(&[
                MAX_INPUTS as u32,
                MAX_INPUTS as u32 + 1,
                MAX_GATES as u32,
                MAX_GATES as u32 + 1,
                MAX_OUTPUTS as u32,
                MAX_OUTPUTS as u32 + 1,
                // Four times these is small again in 32 bits.
                0x4000_0000,
                0x8000_0001,
            ]);
        }
        8 => words.swap(place, 0),
        9 => {
            words.remove(place);
        }
        10 => words.insert(place, random.below(6) as u32),
        _ => words.truncate(place),
    }
}

/// A few words of small numbers: now and then a netlist by chance.
pub fn soup(random: &mut Random) -> Vec<u32> {
    let length = random.between(0, 20);
    let bound = random.pick(&[2, 3, 6, 9]);
    let mut words: Vec<u32> = (0..length).map(|_| random.below(bound) as u32).collect();
    if length >= 7 && random.chance(70) {
        // Counts that fit the length.
        let gates = random.between(0, (length - HEADER_WORDS) / GATE_WORDS);
        words[GATES_PLACE] = gates as u32;
        words[OUTPUTS_PLACE] = (length - gate_place(gates)) as u32;
    }
    words
}

/// Gates in a row, each made from the number of its wire. One output, the last
/// wire.
fn row(inputs: usize, gates: usize, gate: impl Fn(u32) -> Gate) -> Vec<u32> {
    assert!(inputs > 0, "the first gate needs a wire");
    let counts = Counts {
        inputs,
        gates,
        outputs: 1,
    };
    let mut words = counts.header().to_vec();
    for wire in inputs..counts.wires() {
        words.extend(gate(wire as u32));
    }
    words.push(counts.wires() as u32 - 1);
    words
}

/// A chain in which every gate is one deeper than the one before: AND and MUX
/// by turns, both of the last wire.
pub fn chain(inputs: usize, gates: usize) -> Vec<u32> {
    row(inputs, gates, |wire| match wire % 2 {
        0 => [AND, wire - 1, wire - 1, 0],
        _ => [MUX, 0, wire - 1, wire - 1],
    })
}

/// As many NOT gates as asked, in a row after the last input.
pub fn nots(inputs: usize, gates: usize) -> Vec<u32> {
    row(inputs, gates, |wire| [NOT, wire - 1, 0, 0])
}

/// No gates; every input is an output.
pub fn pass_through(wires: usize) -> Vec<u32> {
    let counts = Counts {
        inputs: wires,
        gates: 0,
        outputs: wires,
    };
    let mut words = counts.header().to_vec();
    words.extend(0..wires as u32);
    words
}
