//! Check, evaluation, metering and gluing of netlists.
//!
//! A netlist is a list of words: inputs I, gates G, outputs O, then four words
//! a gate (kind, a, b, c), then the O output wires. Wires 0..I-1 are inputs,
//! the gates follow in order.

#![forbid(unsafe_code)]

pub const MAX_INPUTS: usize = 32_768;
pub const MAX_GATES: usize = 262_144;
pub const MAX_OUTPUTS: usize = 4_096;

// ---- kinds ----

pub const ZERO: u32 = 0;
pub const ONE: u32 = 1;
pub const NOT: u32 = 2;
pub const XOR: u32 = 3;
pub const AND: u32 = 4;
pub const MUX: u32 = 5;

/// How many operands each kind uses, by its code.
pub const ARITY: [usize; 6] = [0, 0, 1, 2, 2, 3];

/// The value of each kind, by its code: bit a + 2b + 4c of it is the value on
/// a, b, c.
const TRUTH: [u8; 6] = [
    0b0000_0000, // ZERO
    0b1111_1111, // ONE
    0b0101_0101, // NOT a
    0b0110_0110, // XOR a b
    0b1000_1000, // AND a b
    0b1110_0100, // MUX a b c: b if a is 0, c if a is 1
];

// ---- the layout of the words ----

/// The three counts stand before the gates.
pub const HEADER_WORDS: usize = 3;
/// Where each of them stands.
pub const INPUTS_PLACE: usize = 0;
pub const GATES_PLACE: usize = 1;
pub const OUTPUTS_PLACE: usize = 2;

/// A gate has its kind and three operands.
pub const GATE_WORDS: usize = 4;
pub type Gate = [u32; GATE_WORDS];

/// Where gate `g` begins; after the last gate, where the outputs do.
pub const fn gate_place(g: usize) -> usize {
    HEADER_WORDS + GATE_WORDS * g
}

/// How many words a netlist has.
pub const fn words_for(gates: usize, outputs: usize) -> usize {
    gate_place(gates) + outputs
}

/// How many inputs, gates and outputs a netlist has.
#[derive(Clone, Copy, Debug, PartialEq, Eq)]
pub struct Counts {
    pub inputs: usize,
    pub gates: usize,
    pub outputs: usize,
}

impl Counts {
    /// The counts that these words begin with.
    pub fn of(words: &[u32]) -> Self {
        Counts {
            inputs: words[INPUTS_PLACE] as usize,
            gates: words[GATES_PLACE] as usize,
            outputs: words[OUTPUTS_PLACE] as usize,
        }
    }

    /// The words that such a netlist begins with.
    pub fn header(&self) -> [u32; HEADER_WORDS] {
        [self.inputs, self.gates, self.outputs].map(|count| count as u32)
    }

    pub const fn wires(&self) -> usize {
        self.inputs + self.gates
    }

    pub const fn words(&self) -> usize {
        words_for(self.gates, self.outputs)
    }

    /// Writes the header of such a netlist, which `words` has room for; the
    /// places of its gates and of its outputs.
    #[inline]
    pub fn lay_out<'a>(&self, words: &'a mut [u32]) -> (&'a mut [Gate], &'a mut [u32]) {
        let (header, body) = words.split_at_mut(HEADER_WORDS);
        let (gates, outputs) = body.split_at_mut(GATE_WORDS * self.gates);
        let (gates, _) = gates.as_chunks_mut();
        header.copy_from_slice(&self.header());
        (gates, outputs)
    }
}

/// The gates of a netlist.
pub fn gates(words: &[u32]) -> &[Gate] {
    let (gates, _) = words[HEADER_WORDS..gate_place(Counts::of(words).gates)].as_chunks();
    gates
}

/// And its outputs.
pub fn outputs(words: &[u32]) -> &[u32] {
    let counts = Counts::of(words);
    &words[gate_place(counts.gates)..counts.words()]
}

/// The length of the netlist that these words begin with.
pub fn length(words: &[u32]) -> usize {
    Counts::of(words).words()
}

// ---- answers ----

/// What a call answers; all 0 means done. Its fields, and those of the answers
/// that have one in them, are in the order in which the library gives them.
#[repr(C)]
#[derive(Clone, Copy, Debug, PartialEq, Eq)]
pub struct Answer {
    pub number: u32,
    pub list: u32,
    pub place: usize,
}

/// The refusal with that number, for that place of a list; lists are counted
/// from 1.
pub const fn refusal(number: u32, list: u32, place: usize) -> Answer {
    Answer {
        number,
        list,
        place,
    }
}

impl Answer {
    pub const DONE: Answer = Answer {
        number: 0,
        list: 0,
        place: 0,
    };
    pub const COUNTS_DIFFER: Answer = refusal(10, 0, 0);
    pub const TOO_MANY_GATES: Answer = refusal(11, 0, 0);

    pub const fn wrong_length(list: u32, length: usize) -> Self {
        refusal(3, list, length)
    }

    pub const fn not_a_bit(list: u32, place: usize) -> Self {
        refusal(4, list, place)
    }

    pub const fn too_short(list: u32, length: usize) -> Self {
        refusal(8, list, length)
    }

    pub const fn broken_netlist(list: u32, place: usize) -> Self {
        refusal(9, list, place)
    }
}

impl From<Result<(), Answer>> for Answer {
    fn from(result: Result<(), Answer>) -> Self {
        result.err().unwrap_or(Answer::DONE)
    }
}

/// What the meter answers.
#[repr(C)]
#[derive(Clone, Copy, Debug, PartialEq, Eq)]
pub struct Metering {
    pub answer: Answer,
    pub depth: u32,
    pub multiplications: u32,
}

/// How many AND gates and MUX gates have one depth.
#[repr(C)]
#[derive(Clone, Copy, Debug, PartialEq, Eq)]
pub struct Level {
    pub ands: u32,
    pub muxes: u32,
}

impl Level {
    pub const EMPTY: Level = Level { ands: 0, muxes: 0 };
}

// ---- the netlist in its words ----

/// A sound netlist, seen in its words.
pub(crate) struct Netlist<'a> {
    pub(crate) inputs: usize,
    pub(crate) gates: &'a [Gate],
    pub(crate) outputs: &'a [u32],
}

impl<'a> Netlist<'a> {
    /// The netlist in `words`, or the place of the first broken rule.
    fn parse(words: &'a [u32]) -> Result<Self, usize> {
        let &[inputs, gates, outputs, ref body @ ..] = words else {
            return Err(words.len());
        };
        let (inputs, gates, outputs) = (inputs as usize, gates as usize, outputs as usize);
        if inputs > MAX_INPUTS {
            return Err(INPUTS_PLACE);
        }
        if gates > MAX_GATES {
            return Err(GATES_PLACE);
        }
        if outputs > MAX_OUTPUTS {
            return Err(OUTPUTS_PLACE);
        }
        if body.len() != GATE_WORDS * gates + outputs {
            return Err(words.len());
        }
        let (gate_words, outputs) = body.split_at(GATE_WORDS * gates);
        let (gates, _) = gate_words.as_chunks::<GATE_WORDS>();

        for (g, gate) in gates.iter().enumerate() {
            if let Some(fault) = gate_fault(gate, inputs + g) {
                return Err(gate_place(g) + fault);
            }
        }
        let netlist = Netlist {
            inputs,
            gates,
            outputs,
        };
        match outputs.iter().position(|&w| w as usize >= netlist.wires()) {
            Some(o) => Err(gate_place(gates.len()) + o),
            None => Ok(netlist),
        }
    }

    /// The netlist lent as `list` of a call.
    pub(crate) fn lent(words: &'a [u32], list: u32) -> Result<Self, Answer> {
        Self::parse(words).map_err(|place| Answer::broken_netlist(list, place))
    }

    fn wires(&self) -> usize {
        self.inputs + self.gates.len()
    }
}

/// The first word at fault in the gate that gives `wire`.
#[inline]
pub(crate) fn gate_fault(&[kind, a, b, c]: &Gate, wire: usize) -> Option<usize> {
    let Some(&used) = ARITY.get(kind as usize) else {
        return Some(0);
    };
    // A used operand is an earlier wire; an unused one is 0, that is below 1.
    let bound = |operand| if operand <= used { wire } else { 1 };
    if a as usize >= bound(1) {
        Some(1)
    } else if b as usize >= bound(2) {
        Some(2)
    } else if c as usize >= bound(3) {
        Some(3)
    } else {
        None
    }
}

// ---- the calls ----

/// Whether `net` (list 1) keeps the netlist rules.
pub fn check(net: &[u32]) -> Answer {
    Netlist::lent(net, 1).map(|_| ()).into()
}

/// Runs `net` (list 1) on `inputs` (2): a value for every wire goes to the
/// front of `values` (3), the outputs to the front of `outputs` (4).
pub fn evaluate(net: &[u32], inputs: &[u8], values: &mut [u8], outputs: &mut [u8]) -> Answer {
    try_evaluate(net, inputs, values, outputs).into()
}

fn try_evaluate(
    net: &[u32],
    inputs: &[u8],
    values: &mut [u8],
    outputs: &mut [u8],
) -> Result<(), Answer> {
    let net = Netlist::lent(net, 1)?;
    if inputs.len() != net.inputs {
        return Err(Answer::wrong_length(2, inputs.len()));
    }
    if let Some(place) = inputs.iter().position(|&bit| bit > 1) {
        return Err(Answer::not_a_bit(2, place));
    }
    let room = values.len();
    let values = values
        .get_mut(..net.wires())
        .ok_or(Answer::too_short(3, room))?;
    let room = outputs.len();
    let outputs = outputs
        .get_mut(..net.outputs.len())
        .ok_or(Answer::too_short(4, room))?;

    values[..net.inputs].copy_from_slice(inputs);
    for (g, &[kind, a, b, c]) in net.gates.iter().enumerate() {
        // An unused operand reads wire 0. Where that is not yet set, it may
        // hold any byte, hence the mask.
        let value = |wire| values[wire as usize];
        let row = (value(a) | value(b) << 1 | value(c) << 2) & 7;
        values[net.inputs + g] = TRUTH[kind as usize] >> row & 1;
    }
    for (output, &wire) in outputs.iter_mut().zip(net.outputs) {
        *output = values[wire as usize];
    }
    Ok(())
}

/// Measures `net` (list 1): the depth of every wire goes to the front of
/// `depths` (2); how many AND and MUX gates have each depth goes to the front
/// of `levels` (3).
///
/// The depths are filled even where the list of levels is too short.
pub fn meter(net: &[u32], depths: &mut [u32], levels: &mut [Level]) -> Metering {
    try_meter(net, depths, levels).unwrap_or_else(|answer| Metering {
        answer,
        depth: 0,
        multiplications: 0,
    })
}

fn try_meter(net: &[u32], depths: &mut [u32], levels: &mut [Level]) -> Result<Metering, Answer> {
    let net = Netlist::lent(net, 1)?;
    let room = depths.len();
    let depths = depths
        .get_mut(..net.wires())
        .ok_or(Answer::too_short(2, room))?;

    // An unused operand names wire 0, an input or a constant: its depth is 0,
    // and it never is the larger one.
    depths[..net.wires().min(net.inputs.max(1))].fill(0);
    let mut deepest = 0;
    let mut multiplications = 0;
    for (g, &[kind, a, b, c]) in net.gates.iter().enumerate() {
        let operand = |wire| depths[wire as usize];
        let multiplies = u32::from(matches!(kind, AND | MUX));
        let depth = operand(a).max(operand(b)).max(operand(c)) + multiplies;
        depths[net.inputs + g] = depth;
        deepest = deepest.max(depth);
        multiplications += multiplies;
    }

    let room = levels.len();
    let levels = levels
        .get_mut(..=deepest as usize)
        .ok_or(Answer::too_short(3, room))?;

    levels.fill(Level::EMPTY);
    for (gate, &depth) in net.gates.iter().zip(&depths[net.inputs..]) {
        let level = &mut levels[depth as usize];
        level.ands += u32::from(gate[0] == AND);
        level.muxes += u32::from(gate[0] == MUX);
    }
    let depth = net.outputs.iter().map(|&wire| depths[wire as usize]).max();
    Ok(Metering {
        answer: Answer::DONE,
        depth: depth.unwrap_or(0),
        multiplications,
    })
}

/// The same with room for whatever depth; the depth of every wire too.
pub fn measure(net: &[u32]) -> (Metering, Vec<u32>) {
    let counts = Counts::of(net);
    let mut depths = vec![0; counts.wires()];
    let mut levels = vec![Level::EMPTY; counts.gates + 1];
    let metering = meter(net, &mut depths, &mut levels);
    assert_eq!(metering.answer, Answer::DONE, "the netlist is sound");
    (metering, depths)
}

/// Writes to the front of `out` (list 3) the netlist that runs `first` (1) and
/// then `second` (2) on its outputs.
pub fn glue(first: &[u32], second: &[u32], out: &mut [u32]) -> Answer {
    try_glue(first, second, out).into()
}

fn try_glue(first: &[u32], second: &[u32], out: &mut [u32]) -> Result<(), Answer> {
    let first = Netlist::lent(first, 1)?;
    let second = Netlist::lent(second, 2)?;
    let counts = Counts {
        inputs: first.inputs,
        gates: first.gates.len() + second.gates.len(),
        outputs: second.outputs.len(),
    };
    let room = out.len();
    let out = out
        .get_mut(..counts.words())
        .ok_or(Answer::too_short(3, room))?;
    if first.outputs.len() != second.inputs {
        return Err(Answer::COUNTS_DIFFER);
    }
    if counts.gates > MAX_GATES {
        return Err(Answer::TOO_MANY_GATES);
    }

    let (to_gates, outputs) = counts.lay_out(out);
    let (front, back) = to_gates.split_at_mut(first.gates.len());
    // What a wire of the second is called in the result.
    let rename = |wire: u32| match first.outputs.get(wire as usize) {
        Some(&output) => output,
        None => wire - second.inputs as u32 + first.wires() as u32,
    };

    front.copy_from_slice(first.gates);
    for (to, &[kind, a, b, c]) in back.iter_mut().zip(second.gates) {
        let used = ARITY[kind as usize];
        let operand = |number, wire| if number <= used { rename(wire) } else { 0 };
        *to = [kind, operand(1, a), operand(2, b), operand(3, c)];
    }
    for (to, &wire) in outputs.iter_mut().zip(second.outputs) {
        *to = rename(wire);
    }
    Ok(())
}
