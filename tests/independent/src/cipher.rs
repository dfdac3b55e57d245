//! Keystream, enciphering and deciphering for the six instances.
//!
//! A bit is a byte, 0 or 1. For instances 1 to 5 each bit of a record has a
//! row of key indices and one of whitening bits, rows end to end; Kreyvium, 6,
//! takes no indices, and its IV in place of whitening.

#![forbid(unsafe_code)]

use crate::filter;
use crate::key::{key_bit, key_length};
use crate::kreyvium;
use crate::netlist::{refusal, Answer};

/// The most bits a record can have.
pub const MAX_BITS: usize = 64;
/// The largest key and the longest row of all instances.
pub const MAX_KEY: usize = 16_384;
pub const MAX_ROW: usize = 1_394;

pub struct Instance {
    pub name: &'static str,
    /// Key bits.
    pub key: usize,
    /// Variables of the filter, and so the length of a row.
    pub row: usize,
    pub cipher: Cipher,
}

#[derive(Clone, Copy)]
pub enum Cipher {
    /// A filter whose whitening is all 0.
    Flip(fn(&[u8]) -> u8),
    Filip(fn(&[u8]) -> u8),
    Kreyvium,
}

/// The instances 1 to 6.
pub const INSTANCES: [Instance; 6] = [
    Instance {
        name: "FLIP-530",
        key: 530,
        row: 530,
        cipher: Cipher::Flip(filter::flip_530),
    },
    Instance {
        name: "FLIP-1394",
        key: 1_394,
        row: 1_394,
        cipher: Cipher::Flip(filter::flip_1394),
    },
    Instance {
        name: "FiLIP-1216",
        key: 16_384,
        row: 1_216,
        cipher: Cipher::Filip(filter::filip_1216),
    },
    Instance {
        name: "FiLIP-1280",
        key: 4_096,
        row: 1_280,
        cipher: Cipher::Filip(filter::filip_1280),
    },
    Instance {
        name: "FiLIP-144",
        key: 16_384,
        row: 144,
        cipher: Cipher::Filip(filter::filip_144),
    },
    Instance {
        name: "Kreyvium",
        key: kreyvium::BITS,
        row: 0,
        cipher: Cipher::Kreyvium,
    },
];

impl Instance {
    pub fn numbered(number: u32) -> Option<&'static Instance> {
        INSTANCES.get((number as usize).checked_sub(1)?)
    }

    /// How long the list of indices is for a record of that many bits.
    pub fn indices(&self, bits: usize) -> usize {
        bits * self.row
    }

    /// And the list of whitening, or the IV.
    pub fn whitening(&self, bits: usize) -> usize {
        match self.cipher {
            Cipher::Kreyvium => kreyvium::BITS,
            _ => bits * self.row,
        }
    }
}

impl Answer {
    pub const NO_INSTANCE: Answer = refusal(1, 0, 0);
    /// No record has that many bits.
    pub const NO_RECORD: Answer = refusal(2, 0, 0);

    pub const fn no_index(list: u32, place: usize) -> Self {
        refusal(5, list, place)
    }

    pub const fn repeated(list: u32, place: usize) -> Self {
        refusal(6, list, place)
    }

    pub const fn whitened(list: u32, place: usize) -> Self {
        refusal(7, list, place)
    }
}

/// The lists that a call reads; a key and a record if it takes them.
#[derive(Clone, Copy)]
pub struct Lists<'a> {
    pub key: Option<&'a [u8]>,
    pub record: Option<&'a [u8]>,
    pub indices: &'a [u32],
    pub whitening: &'a [u8],
}

impl Lists<'_> {
    /// The lists are counted from 1, and only those that the call takes.
    const KEY: u32 = 1;
    const RECORD: u32 = 2;

    fn indices_list(&self) -> u32 {
        1 + u32::from(self.key.is_some()) + u32::from(self.record.is_some())
    }

    fn whitening_list(&self) -> u32 {
        self.indices_list() + 1
    }

    pub fn result_list(&self) -> u32 {
        self.indices_list() + 2
    }
}

/// Finds the first place whose index stands earlier in its row, the rows being
/// of that length.
pub type Search = fn(indices: &[u32], row: usize) -> Option<usize>;

/// Writes `m` bits of keystream to the front of `result`. The lists: key 1,
/// indices 2, whitening or IV 3, result 4.
pub fn keystream(
    instance: u32,
    m: u32,
    key: &[u8],
    indices: &[u32],
    whitening: &[u8],
    result: &mut [u8],
) -> Answer {
    let lists = Lists {
        key: Some(key),
        record: None,
        indices,
        whitening,
    };
    run(instance, m, &lists, result, by_marks)
}

/// Writes the `m` bits of `record`, enciphered, to the front of `result`. The
/// lists: key 1, record 2, indices 3, whitening or IV 4, result 5.
pub fn encipher(
    instance: u32,
    m: u32,
    key: &[u8],
    record: &[u8],
    indices: &[u32],
    whitening: &[u8],
    result: &mut [u8],
) -> Answer {
    let lists = Lists {
        key: Some(key),
        record: Some(record),
        indices,
        whitening,
    };
    run(instance, m, &lists, result, by_marks)
}

/// Undoes [`encipher`], by adding the same bits once more.
pub use self::encipher as decipher;

/// Any of the three calls, with the search for repeated indices to use.
pub fn run(instance: u32, m: u32, lists: &Lists, result: &mut [u8], search: Search) -> Answer {
    try_run(instance, m, lists, result, search).into()
}

fn try_run(
    instance: u32,
    m: u32,
    lists: &Lists,
    result: &mut [u8],
    search: Search,
) -> Result<(), Answer> {
    let instance = judge(instance, m, lists, search)?;
    let room = result.len();
    let result = result
        .get_mut(..m as usize)
        .ok_or(Answer::too_short(lists.result_list(), room))?;
    fill(instance, lists, result);
    Ok(())
}

/// The instance, if nothing but the room for the result can speak against the
/// call.
pub fn judge(
    instance: u32,
    m: u32,
    lists: &Lists,
    search: Search,
) -> Result<&'static Instance, Answer> {
    let instance = Instance::numbered(instance).ok_or(Answer::NO_INSTANCE)?;
    let m = m as usize;
    if m == 0 || m > MAX_BITS {
        return Err(Answer::NO_RECORD);
    }

    let exactly = |list, length, needed| {
        if length == needed {
            Ok(())
        } else {
            Err(Answer::wrong_length(list, length))
        }
    };
    let (indices, whitening) = (lists.indices_list(), lists.whitening_list());
    if let Some(key) = lists.key {
        exactly(Lists::KEY, key.len(), key_length(instance.key))?;
    }
    if let Some(record) = lists.record {
        exactly(Lists::RECORD, record.len(), m)?;
    }
    exactly(indices, lists.indices.len(), instance.indices(m))?;
    exactly(whitening, lists.whitening.len(), instance.whitening(m))?;

    let bits = |list, bytes| match first_above(bytes, 1) {
        Some(place) => Err(Answer::not_a_bit(list, place)),
        None => Ok(()),
    };
    if let Some(key) = lists.key {
        bits(Lists::KEY, key)?;
    }
    if let Some(record) = lists.record {
        bits(Lists::RECORD, record)?;
    }
    bits(whitening, lists.whitening)?;

    if instance.row > 0 {
        if let Some(place) = first_at_least(lists.indices, instance.key) {
            return Err(Answer::no_index(indices, place));
        }
        if let Some(place) = search(lists.indices, instance.row) {
            return Err(Answer::repeated(indices, place));
        }
    }
    if let Cipher::Flip(_) = instance.cipher {
        if let Some(place) = first_above(lists.whitening, 0) {
            return Err(Answer::whitened(whitening, place));
        }
    }
    Ok(instance)
}

/// The first byte above `most`, which is 0 or 1. The first look goes over the
/// whole list, which is faster where there is no such byte.
fn first_above(bytes: &[u8], most: u8) -> Option<usize> {
    let all = bytes.iter().fold(0, |all, byte| all | byte);
    if all <= most {
        return None;
    }
    bytes.iter().position(|&byte| byte > most)
}

/// The first index that is no key bit's; looks as above.
fn first_at_least(indices: &[u32], key: usize) -> Option<usize> {
    let beyond = |&index: &u32| index >= key as u32;
    if !indices.iter().fold(false, |any, index| any | beyond(index)) {
        return None;
    }
    indices.iter().position(beyond)
}

/// Marks each key bit with the row that used it last. The indices are below
/// [`MAX_KEY`], the rows not more than 64.
pub fn by_marks(indices: &[u32], row: usize) -> Option<usize> {
    let mut marks = [0u8; MAX_KEY];
    for (number, indices) in indices.chunks_exact(row).enumerate() {
        let mark = number as u8 + 1;
        for (j, &index) in indices.iter().enumerate() {
            let used = &mut marks[index as usize % MAX_KEY];
            if *used == mark {
                return Some(number * row + j);
            }
            *used = mark;
        }
    }
    None
}

/// Compares each index with all the earlier ones of its row.
pub fn by_nested_loops(indices: &[u32], row: usize) -> Option<usize> {
    for (number, indices) in indices.chunks_exact(row).enumerate() {
        for (j, later) in indices.iter().enumerate() {
            for earlier in &indices[..j] {
                if earlier == later {
                    return Some(number * row + j);
                }
            }
        }
    }
    None
}

/// Writes the bits; the result is as long as the record.
fn fill(instance: &Instance, lists: &Lists, result: &mut [u8]) {
    let key = lists.key.expect("a cipher call takes one");
    match instance.cipher {
        Cipher::Flip(filter) | Cipher::Filip(filter) => {
            let mut buffer = [0; MAX_ROW];
            let x = &mut buffer[..instance.row];
            let indices = lists.indices.chunks_exact(instance.row);
            let whitening = lists.whitening.chunks_exact(instance.row);
            for ((bit, indices), whitening) in result.iter_mut().zip(indices).zip(whitening) {
                variables(key, indices, whitening, x);
                *bit = filter(x);
            }
        }
        Cipher::Kreyvium => {
            let key = key.try_into().expect("its length is judged");
            let iv = lists.whitening.try_into().expect("its length is judged");
            let bits = kreyvium::first_bits(key, iv);
            result.copy_from_slice(&bits[..result.len()]);
        }
    }
    if let Some(record) = lists.record {
        for (bit, of_record) in result.iter_mut().zip(record) {
            *bit ^= of_record;
        }
    }
}

/// Writes a row's variables to `x`: the key bits that the indices name, each
/// with the whitening bit at the index's place in the row.
pub fn variables(key: &[u8], indices: &[u32], whitening: &[u8], x: &mut [u8]) {
    let bit = |index: u32| key_bit(key, index as usize);
    // Eight at a time, which is faster, and then the rest.
    let (eights, rest) = indices.as_chunks::<8>();
    let (x_eights, x_rest) = x.as_chunks_mut::<8>();
    for (x, &indices) in x_eights.iter_mut().zip(eights) {
        *x = indices.map(bit);
    }
    for (x, &index) in x_rest.iter_mut().zip(rest) {
        *x = bit(index);
    }
    for (x, white) in x.iter_mut().zip(whitening) {
        *x ^= white;
    }
}
