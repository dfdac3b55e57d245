//! Calls on the file of port records to test and time with: sound ones, and
//! damaged ones.

use crate::definitions::frames::{self, FrameConditions};
use crate::frames::{FRAME, MARK, RECORD};
use crate::key::lent_key;
use crate::kreyvium;
use crate::random::{bits, fill, Random};

/// An appending to a file, or after its last frame.
#[derive(Clone, Debug)]
pub struct Appending {
    pub key: Vec<u8>,
    pub record: Vec<u8>,
    pub iv: Vec<u8>,
    /// The file, or its last frame.
    pub file: Vec<u8>,
    /// The frame as it is lent.
    pub frame: Vec<u8>,
}

impl Appending {
    /// What holds against it, in the order in which it is judged: as an
    /// appending to a file, or after a last frame.
    pub fn conditions(&self, last_alone: bool) -> FrameConditions {
        frames::append_conditions(
            &self.key,
            &self.record,
            &self.iv,
            &self.file,
            last_alone,
            self.frame.len(),
        )
    }

    /// The frame, where nothing holds against it.
    pub fn expected(&self) -> Vec<u8> {
        frames::frame(&self.key, &self.record, &self.iv)
    }

    /// The same with the last 26 bytes of the file.
    pub fn after_last(&self) -> Self {
        let first = self.file.len().saturating_sub(FRAME);
        Appending {
            file: self.file[first..].to_vec(),
            ..self.clone()
        }
    }
}

/// The reading of a file.
#[derive(Clone, Debug)]
pub struct Reading {
    pub key: Vec<u8>,
    pub file: Vec<u8>,
    /// The records as they are lent.
    pub records: Vec<u8>,
}

impl Reading {
    /// With room for the records that are whole, and no more.
    pub fn exact(key: &[u8], file: &[u8]) -> Self {
        Reading {
            key: key.to_vec(),
            file: file.to_vec(),
            records: vec![9; RECORD * (file.len() / FRAME)],
        }
    }

    pub fn conditions(&self) -> FrameConditions {
        frames::read_conditions(&self.key, &self.file, self.records.len())
    }

    /// The records, where nothing holds against it.
    pub fn expected(&self) -> Vec<u8> {
        frames::records(&self.key, &self.file)
    }
}

/// A number as the bits of an IV.
pub fn iv_bits(number: u128) -> Vec<u8> {
    frames::bits_of(&number.to_be_bytes())
}

pub fn number(random: &mut Random) -> u128 {
    u128::from(random.draw()) << 64 | u128::from(random.draw())
}

/// Numbers that rise strictly: by one, over the border of a byte, or by
/// anything.
pub fn rising(random: &mut Random, count: usize) -> Vec<u128> {
    // Neither a start nor all the steps can go over what an IV holds.
    let most = (u128::MAX / 2) / (count.max(1) as u128);
    let mut next = match random.below(4) {
        0 => 0,
        1 => u128::MAX / 2,
        2 => (1 << (8 * random.between(1, 15))) - 1,
        _ => number(random) / 2,
    };
    let mut numbers = Vec::with_capacity(count);
    for _ in 0..count {
        numbers.push(next);
        let step = match random.below(5) {
            0 | 1 => 1,
            2 => 1 << (8 * random.below(16)),
            3 => random.between(1, 300) as u128,
            _ => number(random) >> random.below(128),
        };
        next += step.clamp(1, most);
    }
    numbers
}

/// A file with these IVs. Any 8 bytes are a record enciphered.
pub fn file(random: &mut Random, ivs: &[u128]) -> Vec<u8> {
    let mut file = Vec::with_capacity(FRAME * ivs.len());
    for iv in ivs {
        file.extend(MARK);
        file.extend(iv.to_be_bytes());
        file.extend(random.draw().to_be_bytes());
    }
    file
}

/// A sound appending to a file of that many frames.
pub fn sound_appending(random: &mut Random, frames: usize) -> Appending {
    let mut ivs = rising(random, frames + 1);
    let new = ivs.pop().expect("one for the new frame");
    let spare = random.spare();
    Appending {
        key: lent_key(&bits(random, kreyvium::BITS)),
        record: bits(random, RECORD),
        iv: iv_bits(new),
        file: file(random, &ivs),
        frame: fill(random, FRAME + spare),
    }
}

/// A sound reading of a file of that many frames.
pub fn sound_reading(random: &mut Random, frames: usize) -> Reading {
    let ivs = rising(random, frames);
    let spare = random.spare();
    Reading {
        key: lent_key(&bits(random, kreyvium::BITS)),
        file: file(random, &ivs),
        records: fill(random, RECORD * frames + spare),
    }
}

/// How many frames: mostly few.
pub fn size(random: &mut Random) -> usize {
    match random.below(20) {
        0 | 1 => 0,
        2..=16 => random.between(1, 6),
        17 | 18 => random.between(7, 20),
        _ => random.between(21, 60),
    }
}

/// A list of bits that an appending reads, or a reading.
#[derive(Clone, Copy, Debug, PartialEq, Eq, PartialOrd, Ord)]
pub enum List {
    Key,
    Record,
    Iv,
}

impl List {
    pub fn number(self) -> u32 {
        match self {
            List::Key => 1,
            List::Record => 2,
            List::Iv => 3,
        }
    }

    pub fn of(self, appending: &mut Appending) -> &mut Vec<u8> {
        match self {
            List::Key => &mut appending.key,
            List::Record => &mut appending.record,
            List::Iv => &mut appending.iv,
        }
    }
}

pub const LISTS: [List; 3] = [List::Key, List::Record, List::Iv];

/// Another length, most often by one.
pub fn resize(random: &mut Random, list: &mut Vec<u8>) -> usize {
    let before = list.len();
    let length = match random.below(6) {
        0 => 0,
        1 => before / 2,
        2 => before - 1,
        3 | 4 => before + 1,
        _ => before + random.between(2, 200),
    };
    while list.len() < length {
        list.push(random.pick(&[0, 1, 0, 1, 2]));
    }
    list.truncate(length);
    length
}

/// Puts a byte that is no bit into a list; its place.
pub fn spoil_bit(random: &mut Random, list: &mut [u8]) -> usize {
    let place = match random.below(6) {
        0 => 0,
        1 => list.len() - 1,
        _ => random.below(list.len()),
    };
    list[place] = random.no_bit();
    place
}

/// What can be wrong with a file.
#[derive(Clone, Copy, Debug, PartialEq, Eq)]
pub enum FileFault {
    Mark,
    Cut,
    /// An IV that is not above the one before.
    Fall,
}

pub const FILE_FAULTS: [FileFault; 3] = [FileFault::Mark, FileFault::Cut, FileFault::Fall];

/// A number that is not above that one.
pub fn not_above(random: &mut Random, number: u128) -> u128 {
    match random.below(6) {
        0 | 1 => number,
        2 => number.saturating_sub(1),
        3 => number.saturating_sub(1 << random.below(128)),
        // A byte of it lower.
        4 => {
            let byte = 0xFF << (8 * random.below(16));
            number & !byte | (number & byte) >> 1 & byte
        }
        _ => number >> random.below(128),
    }
}

/// The IV of a whole frame.
pub fn iv_at(file: &[u8], frame: usize) -> u128 {
    let at = FRAME * frame + MARK.len();
    let bytes = file[at..at + 16].try_into().expect("16 bytes");
    u128::from_be_bytes(bytes)
}

pub fn put_iv(file: &mut [u8], frame: usize, iv: u128) {
    let at = FRAME * frame + MARK.len();
    file[at..at + 16].copy_from_slice(&iv.to_be_bytes());
}

/// Puts one fault into a sound file: the number and the place that then hold,
/// or `None` where the file has no place for the fault.
pub fn inflict(random: &mut Random, file: &mut Vec<u8>, fault: FileFault) -> Option<(u32, usize)> {
    let frames = file.len() / FRAME;
    match fault {
        FileFault::Mark => {
            if frames == 0 {
                return None;
            }
            let at = FRAME * random.below(frames);
            match random.below(5) {
                0 => file[at] ^= 1 << random.below(8),
                1 => file[at + 1] ^= 1 << random.below(8),
                2 => file.swap(at, at + 1),
                3 => file[at..at + 2].copy_from_slice(b"NH"),
                _ => file[at..at + 2].fill(0),
            }
            Some((15, at))
        }
        FileFault::Cut => {
            let by = random.pick(&[1, 2, 8, 24, 25]);
            if frames > 0 && random.chance(50) {
                file.truncate(FRAME * frames - by);
                return Some((15, FRAME * (frames - 1)));
            }
            let more = match random.below(3) {
                0 => fill(random, by),
                1 if frames > 0 => file[..by].to_vec(),
                _ => [&MARK[..], &[0xFF; FRAME]].concat()[..by].to_vec(),
            };
            file.extend(more);
            Some((15, FRAME * frames))
        }
        FileFault::Fall => {
            if frames < 2 {
                return None;
            }
            let frame = random.between(1, frames - 1);
            let before = iv_at(file, frame - 1);
            let iv = not_above(random, before);
            put_iv(file, frame, iv);
            Some((16, FRAME * frame))
        }
    }
}

/// Spoils a file with no regard to what the fault will be, or whether there
/// will be one: meant to be done several times over.
pub fn wreck(random: &mut Random, file: &mut Vec<u8>) {
    if file.is_empty() {
        file.extend(random.pick(&[&b"P"[..], b"PT", b"\0"]));
        return;
    }
    let place = random.below(file.len());
    let start = place - place % FRAME;
    let end = file.len().min(start + FRAME);
    match random.below(12) {
        0 => file[place] = file[place].wrapping_add(1),
        1 => file[place] = file[place].wrapping_sub(1),
        2 => file[place] ^= 1 << random.below(8),
        3 => file[place] = random.pick(b"PT\0\xFF"),
        4 => {
            file.remove(place);
        }
        5 => file.insert(place, random.pick(b"PT\0\xFF")),
        6 => file.truncate(place),
        // A frame away, twice, at the end, at the front.
        7 => {
            file.drain(start..end);
        }
        8 => {
            let frame = file[start..end].to_vec();
            file.splice(start..start, frame);
        }
        9 => file.extend_from_within(start..end),
        10 => {
            let frame = file[start..end].to_vec();
            file.splice(..0, frame);
        }
        _ => file[start..].reverse(),
    }
}
