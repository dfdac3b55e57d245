//! The printing program.

use super::hand;
use crate::lent::{show, Lent};
use crate::printing::{self, Printing};
use crate::probe;

/// The answer, and what the result then holds.
pub fn print(input: &[u8], result: &[u8]) -> (Printing, Vec<u8>) {
    let case = || {
        format!(
            "printing for {}, {} bytes of room",
            show(input),
            result.len()
        )
    };
    let (mut input, mut result) = (Lent::new(input), Lent::new(result));
    let printing = hand(&case, [probe::print, printing::print], |print, program| {
        print(input.of(program), result.of(program))
    });
    input.settle(0, "input", &case);
    (printing, result.settle(printing.size, "text", &case))
}
