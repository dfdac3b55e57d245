//! A key as it is lent: a list of bits, each a byte.
//!
//! All that reads a key or makes one asks here how that is done.

#![forbid(unsafe_code)]

use crate::kreyvium;
use std::array;

/// How long the list is in which a key of that many bits is lent.
pub const fn key_length(bits: usize) -> usize {
    bits
}

/// Bit `i` of a key.
#[inline]
pub fn key_bit(key: &[u8], i: usize) -> u8 {
    key[i]
}

/// The first bits of a key.
pub fn key_bits<const BITS: usize>(key: &[u8]) -> [u8; BITS] {
    array::from_fn(|i| key_bit(key, i))
}

/// How long the list of Kreyvium's key is.
pub const KREYVIUM: usize = key_length(kreyvium::BITS);

/// Kreyvium's key in a word, the first bit in the highest place.
#[inline(always)]
pub fn key_word(key: &[u8; KREYVIUM]) -> u128 {
    kreyvium::pack(key)
}

/// What a deciphering netlist takes: the bits of the key, then the record.
#[inline]
pub fn deciphering_inputs(key: &[u8], record: &[u8]) -> Vec<u8> {
    [key, record].concat()
}

/// The key of these bits, to be lent.
pub fn lent_key(bits: &[u8]) -> Vec<u8> {
    bits.to_vec()
}
