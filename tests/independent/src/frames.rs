//! The file of port records: appending to it, reading it and checking it; and
//! the fields of a record.
//!
//! A frame is the mark "PT", 16 bytes of IV and 8 bytes of record, enciphered
//! with Kreyvium; bits are packed, the first in the highest place of the first
//! byte. In one file the IVs, as numbers, rise strictly.

#![forbid(unsafe_code)]

use crate::key::{self, key_word};
use crate::kreyvium::{self, first_word, pack, pack_half, unpack};
use crate::netlist::{refusal, Answer};

pub const MARK: [u8; 2] = *b"PT";

/// The bytes of a frame.
pub const FRAME: usize = 26;

/// The bits of a record.
pub const RECORD: usize = 64;

impl Answer {
    /// A frame is cut, or its mark is wrong.
    pub const fn broken_frame(list: u32, place: usize) -> Self {
        refusal(15, list, place)
    }

    /// An IV is not above the one before.
    pub const fn not_above(list: u32, place: usize) -> Self {
        refusal(16, list, place)
    }
}

type Frame = [u8; FRAME];

#[inline]
fn iv(frame: &Frame) -> u128 {
    let (_, from_iv) = frame.split_at(MARK.len());
    u128::from_be_bytes(*from_iv.first_chunk().expect("a frame has 16 bytes of it"))
}

/// The record as it stands in the frame.
#[inline]
fn enciphered(frame: &Frame) -> u64 {
    u64::from_be_bytes(*frame.last_chunk().expect("a frame has 8 bytes of it"))
}

/// Enciphers a record, or deciphers it; in words the first bit is the highest.
#[inline]
fn add_keystream(key: u128, iv: u128, record: u64) -> u64 {
    record ^ first_word(key, iv).reverse_bits()
}

/// The frames of `file`, which is that list.
fn judge(file: &[u8], list: u32) -> Result<&[Frame], Answer> {
    let (frames, cut) = file.as_chunks::<FRAME>();
    let mut before = None;
    for (number, frame) in frames.iter().enumerate() {
        if !frame.starts_with(&MARK) {
            return Err(Answer::broken_frame(list, FRAME * number));
        }
        let iv = iv(frame);
        if before.is_some_and(|before| iv <= before) {
            return Err(Answer::not_above(list, FRAME * number));
        }
        before = Some(iv);
    }
    if !cut.is_empty() {
        return Err(Answer::broken_frame(list, FRAME * frames.len()));
    }
    Ok(frames)
}

/// A list of exactly that many places.
fn exactly<const LENGTH: usize>(list: u32, bytes: &[u8]) -> Result<&[u8; LENGTH], Answer> {
    let length = bytes.len();
    bytes
        .try_into()
        .map_err(|_| Answer::wrong_length(list, length))
}

/// All bytes of a list are bits. The first look goes over the whole list, which
/// is faster where they are.
fn judge_bits(list: u32, bytes: &[u8]) -> Result<(), Answer> {
    if bytes.iter().fold(0, |all, byte| all | byte) <= 1 {
        return Ok(());
    }
    match bytes.iter().position(|&byte| byte > 1) {
        Some(place) => Err(Answer::not_a_bit(list, place)),
        None => Ok(()),
    }
}

/// Writes the frame of `record` to the front of `frame`; it is to stand at the
/// end of `file`. The lists: key 1, record 2, IV 3, file 4, frame 5.
pub fn append(key: &[u8], record: &[u8], iv: &[u8], file: &[u8], frame: &mut [u8]) -> Answer {
    try_append(key, record, iv, file, |_| Ok(()), frame).into()
}

/// The same, with the last frame of the file alone; without one the file is
/// empty.
pub fn append_after(key: &[u8], record: &[u8], iv: &[u8], last: &[u8], frame: &mut [u8]) -> Answer {
    let one_at_most = |length| match length {
        0 | FRAME => Ok(()),
        _ => Err(Answer::wrong_length(4, length)),
    };
    try_append(key, record, iv, last, one_at_most, frame).into()
}

fn try_append(
    key: &[u8],
    record: &[u8],
    iv_bits: &[u8],
    file: &[u8],
    judge_length: impl FnOnce(usize) -> Result<(), Answer>,
    frame: &mut [u8],
) -> Result<(), Answer> {
    let key = exactly::<{ key::KREYVIUM }>(1, key)?;
    let record = exactly::<RECORD>(2, record)?;
    let iv_bits = exactly::<{ kreyvium::BITS }>(3, iv_bits)?;
    judge_length(file.len())?;
    judge_bits(1, key)?;
    judge_bits(2, record)?;
    judge_bits(3, iv_bits)?;

    let new = pack(iv_bits);
    let last = judge(file, 4)?.last();
    if last.is_some_and(|last| new <= iv(last)) {
        return Err(Answer::not_above(4, file.len()));
    }
    let room = frame.len();
    let frame: &mut Frame = frame.first_chunk_mut().ok_or(Answer::too_short(5, room))?;

    let record = add_keystream(key_word(key), new, pack_half(record));
    let (mark, rest) = frame.split_at_mut(MARK.len());
    let (of_iv, of_record) = rest.split_at_mut(16);
    mark.copy_from_slice(&MARK);
    of_iv.copy_from_slice(&new.to_be_bytes());
    of_record.copy_from_slice(&record.to_be_bytes());
    Ok(())
}

/// Writes the bits of all records, end to end, to the front of `records`. The
/// lists: key 1, file 2, records 3.
pub fn read(key: &[u8], file: &[u8], records: &mut [u8]) -> Answer {
    try_read(key, file, records).into()
}

fn try_read(key: &[u8], file: &[u8], records: &mut [u8]) -> Result<(), Answer> {
    let key = exactly::<{ key::KREYVIUM }>(1, key)?;
    judge_bits(1, key)?;
    let frames = judge(file, 2)?;
    let room = records.len();
    let (records, _) = records.as_chunks_mut::<RECORD>();
    let records = records
        .get_mut(..frames.len())
        .ok_or(Answer::too_short(3, room))?;

    let key = key_word(key);
    for (record, frame) in records.iter_mut().zip(frames) {
        let word = add_keystream(key, iv(frame), enciphered(frame));
        *record = unpack(word.reverse_bits());
    }
    Ok(())
}

/// Whether `file` (list 1) is one.
pub fn check(file: &[u8]) -> Answer {
    judge(file, 1).map(|_| ()).into()
}

// ---- the fields of a record ----

/// The values of port, admin up, link up, errors and load.
pub type Fields = [u32; 5];

/// How many bits each has.
pub const WIDTHS: [u32; 5] = [16, 1, 1, 22, 24];

/// What [`fields`] answers; with a refusal all fields are 0.
#[repr(C)]
#[derive(Clone, Copy, Debug, PartialEq, Eq)]
pub struct Taken {
    pub answer: Answer,
    pub fields: Fields,
}

/// What [`bits`] answers. `too_large` is the number of the first field whose
/// value is too large for it, or 0; nothing else is then judged.
#[repr(C)]
#[derive(Clone, Copy, Debug, PartialEq, Eq)]
pub struct Put {
    pub answer: Answer,
    pub too_large: u32,
}

/// The fields of a record, whose 64 bits are list 1.
pub fn fields(bits: &[u8]) -> Taken {
    match try_fields(bits) {
        Ok(fields) => Taken {
            answer: Answer::DONE,
            fields,
        },
        Err(answer) => Taken {
            answer,
            fields: [0; 5],
        },
    }
}

fn try_fields(bits: &[u8]) -> Result<Fields, Answer> {
    let bits = exactly::<RECORD>(1, bits)?;
    judge_bits(1, bits)?;
    let mut word = pack_half(bits);
    Ok(WIDTHS.map(|width| {
        word = word.rotate_left(width);
        (word & ((1 << width) - 1)) as u32
    }))
}

/// Writes the 64 bits of a record with these fields to the front of `result`,
/// list 1.
pub fn bits(fields: &Fields, result: &mut [u8]) -> Put {
    let mut word = 0;
    for (number, (&value, width)) in (1..).zip(fields.iter().zip(WIDTHS)) {
        if value >> width != 0 {
            return Put {
                answer: Answer::DONE,
                too_large: number,
            };
        }
        word = word << width | u64::from(value);
    }
    let room = result.len();
    let answer = match result.first_chunk_mut() {
        Some(record) => {
            *record = unpack(word.reverse_bits());
            Answer::DONE
        }
        None => Answer::too_short(1, room),
    };
    Put {
        answer,
        too_large: 0,
    }
}
