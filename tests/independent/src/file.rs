//! The netlist file: reading, writing and checking it.
//!
//! A record begins with a two-byte mark; words are little-endian. The header,
//! "NH", has the three counts; a record for each gate, "NG", a byte for the
//! kind and then a, b, c; one for each output, "NO", its wire.

#![forbid(unsafe_code)]

use crate::netlist::{
    gate_fault, gate_place, refusal, words_for, Answer, Counts, Gate, Netlist, GATES_PLACE,
    INPUTS_PLACE, MAX_GATES, MAX_INPUTS, MAX_OUTPUTS, OUTPUTS_PLACE,
};

pub const HEADER_MARK: [u8; 2] = *b"NH";
pub const GATE_MARK: [u8; 2] = *b"NG";
pub const OUTPUT_MARK: [u8; 2] = *b"NO";

/// The bytes of each record, with its mark.
pub const HEADER_BYTES: usize = 14;
pub const GATE_BYTES: usize = 15;
pub const OUTPUT_BYTES: usize = 6;

impl Answer {
    /// A mark is wrong, a record cut, or bytes are left over.
    pub const fn broken_file(place: usize) -> Self {
        refusal(12, 1, place)
    }
}

type GateRecord = [u8; GATE_BYTES];
type OutputRecord = [u8; OUTPUT_BYTES];

/// The header of a file, its counts within their limits.
struct Header<'a> {
    inputs: usize,
    gates: usize,
    outputs: usize,
    rest: &'a [u8],
}

/// A sound file, seen in its bytes.
struct File<'a> {
    inputs: usize,
    gates: &'a [GateRecord],
    outputs: &'a [OutputRecord],
}

#[inline]
fn word(bytes: &[u8], at: usize) -> u32 {
    u32::from_le_bytes([bytes[at], bytes[at + 1], bytes[at + 2], bytes[at + 3]])
}

/// The four words of a gate.
#[inline]
fn gate(record: &GateRecord) -> Gate {
    [
        u32::from(record[2]),
        word(record, 3),
        word(record, 7),
        word(record, 11),
    ]
}

/// The wire of an output.
#[inline]
fn output(record: &OutputRecord) -> u32 {
    word(record, 2)
}

/// The first `count` records with that mark and what follows them, or where the
/// first stands that is cut or marked otherwise. They begin at byte `at`.
fn records<const SIZE: usize>(
    bytes: &[u8],
    at: usize,
    count: usize,
    mark: [u8; 2],
) -> Result<(&[[u8; SIZE]], &[u8]), Answer> {
    let (bytes, rest) = bytes.split_at(bytes.len().min(SIZE * count));
    let (whole, _) = bytes.as_chunks::<SIZE>();
    let wrong = whole.iter().position(|record| record[..2] != mark);
    let marked = wrong.unwrap_or(whole.len());
    if marked < count {
        return Err(Answer::broken_file(at + SIZE * marked));
    }
    Ok((whole, rest))
}

impl<'a> Header<'a> {
    fn parse(source: &'a [u8]) -> Result<Self, Answer> {
        let (records, rest) = records::<HEADER_BYTES>(source, 0, 1, HEADER_MARK)?;
        let [inputs, gates, outputs] = [2, 6, 10].map(|at| word(&records[0], at) as usize);
        for (place, count, most) in [
            (INPUTS_PLACE, inputs, MAX_INPUTS),
            (GATES_PLACE, gates, MAX_GATES),
            (OUTPUTS_PLACE, outputs, MAX_OUTPUTS),
        ] {
            if count > most {
                return Err(Answer::broken_netlist(1, place));
            }
        }
        Ok(Header {
            inputs,
            gates,
            outputs,
            rest,
        })
    }

    /// How many words the netlist has.
    fn words(&self) -> usize {
        words_for(self.gates, self.outputs)
    }

    /// The records after the header, which keep the netlist rules.
    fn file(self) -> Result<File<'a>, Answer> {
        let at = HEADER_BYTES;
        let (gates, rest) = records(self.rest, at, self.gates, GATE_MARK)?;
        let at = at + GATE_BYTES * self.gates;
        let (outputs, rest) = records(rest, at, self.outputs, OUTPUT_MARK)?;
        let at = at + OUTPUT_BYTES * self.outputs;
        if !rest.is_empty() {
            return Err(Answer::broken_file(at));
        }
        for (g, record) in gates.iter().enumerate() {
            if let Some(fault) = gate_fault(&gate(record), self.inputs + g) {
                return Err(Answer::broken_netlist(1, gate_place(g) + fault));
            }
        }
        let wires = self.inputs + self.gates;
        let fault = outputs
            .iter()
            .position(|record| output(record) as usize >= wires);
        if let Some(o) = fault {
            return Err(Answer::broken_netlist(1, gate_place(self.gates) + o));
        }
        Ok(File {
            inputs: self.inputs,
            gates,
            outputs,
        })
    }
}

/// Whether `source` (list 1) is the file of a netlist.
pub fn check_file(source: &[u8]) -> Answer {
    Header::parse(source)
        .and_then(Header::file)
        .map(|_| ())
        .into()
}

/// Writes the words of the netlist whose file `source` (list 1) is to the front
/// of `result` (2).
pub fn read_file(source: &[u8], result: &mut [u32]) -> Answer {
    try_read_file(source, result).into()
}

fn try_read_file(source: &[u8], result: &mut [u32]) -> Result<(), Answer> {
    let header = Header::parse(source)?;
    let room = result.len();
    let result = result
        .get_mut(..header.words())
        .ok_or(Answer::too_short(2, room))?;
    let file = header.file()?;

    let counts = Counts {
        inputs: file.inputs,
        gates: file.gates.len(),
        outputs: file.outputs.len(),
    };
    let (gates, outputs) = counts.lay_out(result);
    for (to, record) in gates.iter_mut().zip(file.gates) {
        *to = gate(record);
    }
    for (to, record) in outputs.iter_mut().zip(file.outputs) {
        *to = output(record);
    }
    Ok(())
}

/// Writes the file of `net` (list 1) to the front of `result` (2).
pub fn write_file(net: &[u32], result: &mut [u8]) -> Answer {
    try_write_file(net, result).into()
}

fn try_write_file(net: &[u32], result: &mut [u8]) -> Result<(), Answer> {
    let net = Netlist::lent(net, 1)?;
    let (gates, outputs) = (net.gates.len(), net.outputs.len());
    let room = result.len();
    let result = result
        .get_mut(..HEADER_BYTES + GATE_BYTES * gates + OUTPUT_BYTES * outputs)
        .ok_or(Answer::too_short(2, room))?;

    let (header, body) = result.split_at_mut(HEADER_BYTES);
    let (gate_records, output_records) = body.split_at_mut(GATE_BYTES * gates);
    let (gate_records, _) = gate_records.as_chunks_mut::<GATE_BYTES>();
    let (output_records, _) = output_records.as_chunks_mut::<OUTPUT_BYTES>();
    header[..2].copy_from_slice(&HEADER_MARK);
    for (to, count) in header[2..]
        .chunks_exact_mut(4)
        .zip([net.inputs, gates, outputs])
    {
        to.copy_from_slice(&(count as u32).to_le_bytes());
    }
    for (to, &[kind, a, b, c]) in gate_records.iter_mut().zip(net.gates) {
        to[..2].copy_from_slice(&GATE_MARK);
        to[2] = kind as u8;
        to[3..7].copy_from_slice(&a.to_le_bytes());
        to[7..11].copy_from_slice(&b.to_le_bytes());
        to[11..].copy_from_slice(&c.to_le_bytes());
    }
    for (to, wire) in output_records.iter_mut().zip(net.outputs) {
        to[..2].copy_from_slice(&OUTPUT_MARK);
        to[2..].copy_from_slice(&wire.to_le_bytes());
    }
    Ok(())
}
