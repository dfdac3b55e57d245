//! Kreyvium, three times over.
//!
//! [`Rounds`] runs 64 rounds at once and is what the cipher calls use.
//! [`by_rounds`] moves every register by one place each round, and
//! [`by_recurrences`] writes down the sequences of bits that enter the
//! registers. The three share nothing, and have to agree.

#![forbid(unsafe_code)]

use crate::key::{self, key_word};

/// Bits of a key, and of an IV.
pub const BITS: usize = 128;

/// Rounds before the first output.
pub const SILENT: usize = 1_152;

/// The registers between two blocks of 64 rounds.
///
/// Of each register it holds the last 128 bits that entered, the newest
/// highest: places 1 up to 93, 84 and 111 are its places from the top down,
/// and what lies below has left it.
pub struct Rounds {
    /// s1 to s93.
    first: u128,
    /// s94 to s177.
    second: u128,
    /// s178 to s288.
    third: u128,
    /// K* and IV*: bit 0 is the next to leave.
    key: u128,
    iv: u128,
}

impl Rounds {
    pub fn new(key: &[u8; BITS], iv: &[u8; BITS]) -> Self {
        Self::packed(pack(key), pack(iv))
    }

    /// Of a key and an IV that are words, the first bit in the highest place.
    pub fn packed(key: u128, iv: u128) -> Self {
        Rounds {
            first: key,
            second: iv,
            // 44 bits of the IV, 66 ones, a zero.
            third: iv << 84 | ((1 << 66) - 1) << 18,
            key,
            iv,
        }
    }

    /// The outputs of the next 64 rounds, the first in the lowest bit. No
    /// round reads a bit that entered fewer than 66 rounds before.
    #[inline]
    pub fn block(&mut self) -> u64 {
        let Rounds {
            first,
            second,
            third,
            ..
        } = *self;
        let t1 = ago(first, 66) ^ ago(first, 93);
        let t2 = ago(second, 69) ^ ago(second, 84);
        let t3 = ago(third, 66) ^ ago(third, 111) ^ self.key as u64;
        let into_second = ago(first, 91) & ago(first, 92) ^ ago(second, 78) ^ self.iv as u64;
        let into_third = ago(second, 82) & ago(second, 83) ^ ago(third, 87);
        let into_first = ago(third, 109) & ago(third, 110) ^ ago(first, 69);
        self.first = enter(first, t3 ^ into_first);
        self.second = enter(second, t1 ^ into_second);
        self.third = enter(third, t2 ^ into_third);
        self.key = self.key.rotate_right(64);
        self.iv = self.iv.rotate_right(64);
        t1 ^ t2 ^ t3
    }
}

/// For each of the next 64 rounds the bit that entered `rounds` before it; the
/// first in the lowest bit.
#[inline]
const fn ago(register: u128, rounds: u32) -> u64 {
    (register >> (128 - rounds)) as u64
}

/// The register after the bits of 64 rounds have entered.
#[inline]
const fn enter(register: u128, bits: u64) -> u128 {
    register >> 64 | (bits as u128) << 64
}

/// 128 bits in a word, the first in the highest place.
pub fn pack(bits: &[u8; BITS]) -> u128 {
    let (halves, _) = bits.as_chunks::<64>();
    u128::from(pack_half(&halves[0])) << 64 | u128::from(pack_half(&halves[1]))
}

/// 64 bits alike.
pub fn pack_half(bits: &[u8; 64]) -> u64 {
    let (eights, _) = bits.as_chunks::<8>();
    let mut bytes = [0; 8];
    for (byte, eight) in bytes.iter_mut().zip(eights) {
        // Bit 8i of the factor goes to bit 56 + i of the product, and nothing
        // else goes there.
        let spread = u64::from_be_bytes(*eight);
        *byte = (spread.wrapping_mul(0x0102_0408_1020_4080) >> 56) as u8;
    }
    u64::from_be_bytes(bytes)
}

/// The 64 bits of a word, the lowest first.
pub fn unpack(word: u64) -> [u8; 64] {
    const EACH: u64 = 0x0101_0101_0101_0101;
    let mut bits = [0; 64];
    let (eights, _) = bits.as_chunks_mut::<8>();
    for (eight, byte) in eights.iter_mut().zip(word.to_le_bytes()) {
        // Byte i keeps bit i alone; what is then not 0 carries into bit 7.
        let kept = (u64::from(byte) * EACH) & 0x8040_2010_0804_0201;
        *eight = (((kept + 0x7F * EACH) >> 7) & EACH).to_le_bytes();
    }
    bits
}

/// The first 64 bits of keystream, of a key as it is lent.
pub fn first_bits(key: &[u8; key::KREYVIUM], iv: &[u8; BITS]) -> [u8; 64] {
    unpack(first_word(key_word(key), pack(iv)))
}

/// The same in a word, the first in the lowest place, of a key and an IV as in
/// [`Rounds::packed`].
pub fn first_word(key: u128, iv: u128) -> u64 {
    let mut rounds = Rounds::packed(key, iv);
    for _ in 0..SILENT / 64 {
        rounds.block();
    }
    rounds.block()
}

/// Fills `keystream`, a round at a time and every register as it stands in
/// the rules.
pub fn by_rounds(key: &[u8; BITS], iv: &[u8; BITS], keystream: &mut [u8]) {
    // s[0] is not used.
    let mut s = [0; 289];
    s[1..=93].copy_from_slice(&key[..93]);
    s[94..=177].copy_from_slice(&iv[..84]);
    s[178..=221].copy_from_slice(&iv[84..]);
    s[222..=287].fill(1);
    s[288] = 0;
    let (mut key, mut iv) = (*key, *iv);
    key.reverse();
    iv.reverse();

    for round in 1..=SILENT + keystream.len() {
        let mut t1 = s[66] ^ s[93];
        let mut t2 = s[162] ^ s[177];
        let mut t3 = s[243] ^ s[288] ^ key[0];
        if round > SILENT {
            keystream[round - SILENT - 1] = t1 ^ t2 ^ t3;
        }
        t1 ^= s[91] & s[92] ^ s[171] ^ iv[0];
        t2 ^= s[175] & s[176] ^ s[264];
        t3 ^= s[286] & s[287] ^ s[69];
        s[..].copy_within(1..288, 2);
        s[1] = t3;
        s[94] = t1;
        s[178] = t2;
        key.rotate_left(1);
        iv.rotate_left(1);
    }
}

/// The most that [`by_recurrences`] can give.
pub const MOST: usize = 2_048;

/// Fills `keystream` from the sequences a, b and c of bits that enter at s1,
/// s94 and s178: before round t, s(j) is a(t-j), s(93+j) is b(t-j) and
/// s(177+j) is c(t-j), and the registers' first contents have times below 0.
pub fn by_recurrences(key: &[u8; BITS], iv: &[u8; BITS], keystream: &mut [u8]) {
    const BEFORE: usize = 111;
    let mut a = [0; BEFORE + SILENT + MOST];
    let mut b = a;
    let mut c = a;
    for j in 1..=93 {
        a[BEFORE - j] = key[j - 1];
    }
    for j in 1..=84 {
        b[BEFORE - j] = iv[j - 1];
    }
    for j in 1..=111 {
        c[BEFORE - j] = match j {
            1..=44 => iv[83 + j],
            45..=110 => 1,
            _ => 0,
        };
    }
    for round in 0..SILENT + keystream.len() {
        let t = BEFORE + round;
        let turned = BITS - 1 - round % BITS;
        let from_a = a[t - 66] ^ a[t - 93];
        let from_b = b[t - 69] ^ b[t - 84];
        let from_c = c[t - 66] ^ c[t - 111] ^ key[turned];
        a[t] = from_c ^ c[t - 109] & c[t - 110] ^ a[t - 69];
        b[t] = from_a ^ a[t - 91] & a[t - 92] ^ b[t - 78] ^ iv[turned];
        c[t] = from_b ^ b[t - 82] & b[t - 83] ^ c[t - 87];
        if let Some(at) = round.checked_sub(SILENT) {
            keystream[at] = from_a ^ from_b ^ from_c;
        }
    }
}
