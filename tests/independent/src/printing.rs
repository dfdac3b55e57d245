//! The printing program: for a line "d n" the netlist of threshold d of n.

#![forbid(unsafe_code)]

use crate::emission;
use crate::netlist::{self, Answer, Counts, Metering, ARITY};
use std::fmt::Write;

/// The kinds' names, by their codes.
pub const NAMES: [&str; 6] = ["ZERO", "ONE", "NOT", "XOR", "AND", "MUX"];

pub const REFUSED: &str = "refused 13\n";

/// What a call answers, with the text's length, 0 on a refusal.
#[repr(C)]
#[derive(Clone, Copy, Debug, PartialEq, Eq)]
pub struct Printing {
    pub answer: Answer,
    pub size: usize,
}

/// Prints for that input at the front of the result.
pub fn print(input: &[u8], result: &mut [u8]) -> Printing {
    let text = printed(input);
    let (room, size) = (result.len(), text.len());
    match result.get_mut(..size) {
        Some(front) => {
            front.copy_from_slice(&text);
            let answer = Answer::DONE;
            Printing { answer, size }
        }
        None => {
            let answer = Answer::too_short(2, room);
            Printing { answer, size: 0 }
        }
    }
}

/// What is printed for that input, which has to be one line.
pub fn printed(input: &[u8]) -> Vec<u8> {
    let text = asked(input).and_then(|(d, n)| threshold(d, n));
    text.unwrap_or_else(|| REFUSED.to_string()).into_bytes()
}

/// The two numbers of the line.
fn asked(input: &[u8]) -> Option<(u32, u32)> {
    let line = input.strip_suffix(b"\n")?;
    let space = line.iter().position(|&byte| byte == b' ')?;
    let (d, n) = (&line[..space], &line[space + 1..]);
    Some((decimal(d)?, decimal(n)?))
}

/// A number of one to three digits, none of them a needless zero.
fn decimal(digits: &[u8]) -> Option<u32> {
    let plain = match digits {
        [b'0'] => true,
        [b'1'..=b'9', rest @ ..] => rest.len() <= 2 && rest.iter().all(u8::is_ascii_digit),
        _ => false,
    };
    plain.then(|| {
        let value = |value, digit| 10 * value + u32::from(digit - b'0');
        digits.iter().fold(0, value)
    })
}

/// The text for threshold `d` of `n`, if there is such a netlist.
fn threshold(d: u32, n: u32) -> Option<String> {
    let mut words = vec![0; emission::MAX_THRESHOLD];
    if emission::threshold(d, n, &mut words) != Answer::DONE {
        return None;
    }
    let counts = Counts::of(&words);
    words.truncate(counts.words());
    let (metering, _) = netlist::measure(&words);
    let Counts {
        inputs,
        gates,
        outputs,
    } = counts;
    let Metering {
        depth,
        multiplications,
        ..
    } = metering;

    let mut text = format!("T {d} {n}\n");
    let mut line = |line: std::fmt::Arguments| writeln!(text, "{line}").expect("there is room");
    line(format_args!(
        "in {inputs} gates {gates} out {outputs} depth {depth} mult {multiplications}"
    ));
    for (wire, gate) in (inputs..).zip(netlist::gates(&words)) {
        let kind = gate[0] as usize;
        let used = gate[1..=ARITY[kind]].iter();
        let operands: String = used.map(|operand| format!(" {operand}")).collect();
        line(format_args!("{wire} {}{operands}", NAMES[kind]));
    }
    for wire in netlist::outputs(&words) {
        line(format_args!("out {wire}"));
    }
    Some(text)
}
