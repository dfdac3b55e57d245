//! Worked examples: values from outside, which nothing here has made.

use crate::frames;
use crate::netlist::{AND, MUX, NOT, XOR};

/// At least 2 of 3: NOT 0, MUX 1 0 3, AND 0 1, AND 4 2, XOR 6 5; output 7.
#[rustfmt::skip]
pub const THRESHOLD: [u32; 24] = [
    3, 5, 1,
    NOT, 0, 0, 0,
    MUX, 1, 0, 3,
    AND, 0, 1, 0,
    AND, 4, 2, 0,
    XOR, 6, 5, 0,
    7,
];

/// That netlist as the printing program prints it for "2 3".
pub const PRINTED: &str = "\
T 2 3
in 3 gates 5 out 1 depth 2 mult 3
3 NOT 0
4 MUX 1 0 3
5 AND 0 1
6 AND 4 2
7 XOR 6 5
out 7
";

/// How many of two inputs are 1: none, one or both.
#[rustfmt::skip]
pub const ONE_HOT: [u32; 26] = [
    2, 5, 3,
    NOT, 0, 0, 0,
    NOT, 1, 0, 0,
    AND, 2, 3, 0,
    MUX, 1, 0, 2,
    AND, 0, 1, 0,
    4, 5, 6,
];

/// Inputs, a threshold, and whether they reach it.
pub const THRESHOLDS: [(&[u8], usize, u8); 7] = [
    (&[0, 1, 1], 2, 1),
    (&[1, 0, 0], 2, 0),
    (&[1, 1, 1], 3, 1),
    (&[1, 1, 0], 3, 0),
    (&[1], 1, 1),
    (&[0], 1, 0),
    (&[1, 1, 1], 4, 0),
];

/// The keystream that is published for Kreyvium with a key and an IV of zeros,
/// the lowest bit of each byte first.
pub const KEYSTREAM: [u8; 8] = [0x26, 0xDC, 0xF1, 0xF4, 0xBC, 0x0F, 0x19, 0x22];

/// Its bits.
pub fn keystream() -> [u8; 64] {
    std::array::from_fn(|bit| KEYSTREAM[bit / 8] >> (bit % 8) & 1)
}

/// The frame for key, IV and record all 0: in its bytes the highest bit is the
/// first.
pub const FRAME: [u8; frames::FRAME] =
    *b"PT\0\0\0\0\0\0\0\0\0\0\0\0\0\0\0\0\x64\x3B\x8F\x2F\x3D\xF0\x98\x44";

/// Input for which the printing program prints no netlist.
pub const REFUSED_INPUT: [&str; 70] = [
    // No newline, or not one alone at the end.
    "",
    "2 3",
    "\n",
    "\n2 3\n",
    "2 3\n\n",
    "2 3\r\n",
    "2 3\r",
    "2 3\n ",
    "2\n3\n",
    "2 3\0",
    "2 3\0\n",
    "2 3\n\0",
    // A second line.
    "2 3\n2 3\n",
    "2 3\n2 3",
    "1 1\nrefused 13\n",
    // Spaces.
    "2\n",
    "2  3\n",
    " 2 3\n",
    "2 3 \n",
    "2 \n",
    " 3\n",
    " \n",
    "  \n",
    "23\n",
    "2\t3\n",
    "2,3\n",
    "2\u{a0}3\n",
    "2 3 4\n",
    // Needless zeros.
    "02 3\n",
    "2 03\n",
    "00 3\n",
    "2 00\n",
    "002 3\n",
    "2 003\n",
    "000 000\n",
    "01 01\n",
    // Four digits and more.
    "1000 3\n",
    "2 1000\n",
    "0002 3\n",
    "2 0003\n",
    "4294967298 3\n",
    "2 4294967299\n",
    "18446744073709551618 3\n",
    "2 18446744073709551619\n",
    // Signs, and other bytes.
    "+2 3\n",
    "2 +3\n",
    "-2 3\n",
    "2 -3\n",
    "2. 3\n",
    "2 3.\n",
    "0x2 3\n",
    "a b\n",
    "2 3x\n",
    "x2 3\n",
    "２ ３\n",
    "/ 3\n",
    ": 3\n",
    "2 /\n",
    "2 :\n",
    // No such netlist.
    "0 0\n",
    "0 3\n",
    "2 0\n",
    "5 3\n",
    "66 64\n",
    "1 65\n",
    "2 65\n",
    "65 65\n",
    "999 999\n",
    "258 3\n",
    "2 259\n",
];
