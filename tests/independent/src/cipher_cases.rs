//! Cipher calls and choices to test and time with: sound ones for every
//! instance, and damaged ones.

use crate::cipher::{Cipher, Instance, Lists, INSTANCES};
use crate::definitions::{self, Condition};
use crate::faults::{inflict_each, several};
use crate::key::lent_key;
use crate::random::{self, bits, fill, Random};
use crate::tally::Tally;
use std::collections::BTreeSet;

/// A cipher call; without a record it asks for keystream.
#[derive(Clone, Debug)]
pub struct Call {
    pub instance: u32,
    pub m: u32,
    pub key: Vec<u8>,
    pub record: Option<Vec<u8>>,
    pub indices: Vec<u32>,
    pub whitening: Vec<u8>,
    /// The result list as it is lent.
    pub result: Vec<u8>,
}

impl Call {
    /// A call of Kreyvium on these bits.
    pub fn kreyvium(m: usize, key: &[u8], record: Option<Vec<u8>>, iv: &[u8]) -> Self {
        Call {
            instance: 6,
            m: m as u32,
            key: lent_key(key),
            record,
            indices: vec![],
            whitening: iv.to_vec(),
            result: vec![9; 70],
        }
    }

    /// What the call reads.
    pub fn lists(&self) -> Lists<'_> {
        Lists {
            key: Some(&self.key),
            record: self.record.as_deref(),
            indices: &self.indices,
            whitening: &self.whitening,
        }
    }

    /// All that holds against it.
    pub fn conditions(&self) -> BTreeSet<Condition> {
        definitions::cipher::conditions(
            self.instance,
            self.m,
            &self.key,
            self.record.as_deref(),
            &self.indices,
            &self.whitening,
            self.result.len(),
        )
    }

    /// The keystream of a call against which nothing holds.
    pub fn keystream(&self) -> Vec<u8> {
        definitions::cipher::keystream(
            self.instance,
            self.m as usize,
            &self.key,
            &self.indices,
            &self.whitening,
        )
    }

    /// The record, where it takes one.
    pub fn record(&self) -> &[u8] {
        self.record.as_deref().expect("a call with a record")
    }

    /// The keystream, with the record if there is one.
    pub fn expected(&self) -> Vec<u8> {
        let mut expected = self.keystream();
        for (bit, of_record) in expected.iter_mut().zip(self.record.iter().flatten()) {
            *bit ^= of_record;
        }
        expected
    }

    /// Makes the lists as long as m asks for, also where no record has so many
    /// bits.
    pub fn suit(&mut self, random: &mut Random) {
        let m = self.m as usize;
        self.indices = rows(random, self.instance, m);
        if self.instance != 6 {
            self.whitening = vec![0; m * sized(self.instance).row];
        }
        if let Some(record) = &mut self.record {
            *record = vec![0; m];
        }
        self.result = vec![9; m + 4];
    }
}

pub fn sized(instance: u32) -> &'static Instance {
    Instance::numbered(instance).expect("an instance")
}

/// Bits of which that many in a hundred are 1.
fn biased(random: &mut Random, length: usize, percent: usize) -> Vec<u8> {
    match percent {
        50 => bits(random, length),
        _ => random::biased(random, length, percent),
    }
}

/// That many rows of different indices, end to end.
pub fn rows(random: &mut Random, instance: u32, count: usize) -> Vec<u32> {
    let Instance { key, row, .. } = *sized(instance);
    let mut places: Vec<u32> = (0..key as u32).collect();
    let mut rows = Vec::with_capacity(count * row);
    for _ in 0..count {
        for place in 0..row {
            places.swap(place, random.between(place, key - 1));
        }
        rows.extend_from_slice(&places[..row]);
    }
    rows
}

/// A sound call. Long products of random bits are nearly always 0, so that the
/// bits are not always evenly 0 and 1.
pub fn sound(random: &mut Random, instance: u32, m: usize, with_record: bool) -> Call {
    let sizes = sized(instance);
    let ones = random.pick(&[50, 50, 75, 90, 97, 100]);
    let whitened = match sizes.cipher {
        Cipher::Flip(_) => 0,
        Cipher::Filip(_) if ones > 50 => random.pick(&[0, 2, 10, 50]),
        _ => random.pick(&[50, 50, 10, 90]),
    };
    let spare = random.spare();
    Call {
        instance,
        m: m as u32,
        key: lent_key(&biased(random, sizes.key, ones)),
        record: with_record.then(|| bits(random, m)),
        indices: rows(random, instance, m),
        whitening: biased(random, sizes.whitening(m), whitened),
        result: fill(random, m + spare),
    }
}

/// An instance and a number of bits; for long rows mostly few, since these are
/// slow to judge.
pub fn size(random: &mut Random) -> (u32, usize) {
    let instance = 1 + random.weighted(&[18, 10, 10, 10, 26, 26]) as u32;
    let most = match (instance, random.below(100)) {
        (1, 0..=49) => 2,
        (1, 50..=89) => 8,
        (2..=4, 0..=74) => 1,
        (2..=4, 75..=91) => 3,
        (2..=4, 92..=98) => 10,
        _ => 64,
    };
    (instance, random.between(1, most))
}

// ---- by hand ----

/// Lists for one bit of FLIP-530, sound and with faults at known places.
pub struct ByHand {
    pub row: Vec<u32>,
    /// With an index repeated at 7 and one beyond the key at 9.
    pub beyond: Vec<u32>,
    /// With indices repeated at 7, 8 and 529.
    pub repeating: Vec<u32>,
    pub zeros: Vec<u8>,
    /// With a 1 at 500.
    pub whitened: Vec<u8>,
    /// And a 2 at 501.
    pub spoiled: Vec<u8>,
}

pub fn by_hand() -> ByHand {
    fn with<T: Copy>(list: &[T], changes: &[(usize, T)]) -> Vec<T> {
        let mut list = list.to_vec();
        for &(place, word) in changes {
            list[place] = word;
        }
        list
    }
    let row: Vec<u32> = (0..530).collect();
    let zeros = vec![0; 530];
    ByHand {
        beyond: with(&row, &[(7, 3), (9, 530)]),
        repeating: with(&row, &[(8, 5), (7, 6), (529, 0)]),
        row,
        whitened: with(&zeros, &[(500, 1)]),
        spoiled: with(&zeros, &[(500, 1), (501, 2)]),
        zeros,
    }
}

const FAR: [u32; 7] = [255, 256, 65_536, 65_537, 1 << 31, u32::MAX - 1, u32::MAX];

/// Numbers that are no instance's.
pub fn no_instances() -> Vec<u32> {
    [&[0, 7, 8], &FAR[..]].concat()
}

/// Numbers of bits that no record has.
pub fn no_records() -> Vec<u32> {
    [&[0, 65, 66], &FAR[..]].concat()
}

/// Lengths near the exact one, and some that suit another list.
pub fn lengths_near(exact: usize) -> impl Iterator<Item = usize> {
    let around = exact.saturating_sub(2)..=exact + 2;
    around.chain([0, 1, 64, 128, 144, 530, 1_394, 4_096, 16_384, 65_536])
}

/// Indices that are no key bit's: the first ones, a huge one, and some with a
/// good one in their low bits.
pub fn no_indices(instance: u32, good: u32) -> [u32; 6] {
    let key = sized(instance).key as u32;
    let above = |bit: u32| 1 << bit | good;
    [key, key + 1, above(14), above(16), above(31), u32::MAX]
}

// ---- faults ----

/// A list that a cipher call reads.
#[derive(Clone, Copy, Debug, PartialEq, Eq, PartialOrd, Ord)]
pub enum List {
    Key,
    Record,
    Indices,
    Whitening,
}

impl List {
    /// What it is counted as in that call.
    pub fn number(self, call: &Call) -> u32 {
        match (self, call.record.is_some()) {
            (List::Key, _) => 1,
            (List::Record, _) => 2,
            (List::Indices, false) => 2,
            (List::Indices, true) => 3,
            (List::Whitening, false) => 3,
            (List::Whitening, true) => 4,
        }
    }

    /// How long it is there.
    pub fn length(self, call: &Call) -> usize {
        match self {
            List::Key => call.key.len(),
            List::Record => call.record().len(),
            List::Indices => call.indices.len(),
            List::Whitening => call.whitening.len(),
        }
    }

    /// The list itself, where it is one of bits.
    pub fn bits(self, call: &mut Call) -> &mut Vec<u8> {
        match self {
            List::Key => &mut call.key,
            List::Record => call.record.as_mut().expect("a call with a record"),
            List::Whitening => &mut call.whitening,
            List::Indices => panic!("indices are no bits"),
        }
    }
}

/// What can be wrong with a cipher call, in the order in which it is judged.
#[derive(Clone, Copy, Debug, PartialEq, Eq, PartialOrd, Ord)]
pub enum Fault {
    /// No instance.
    Instance,
    /// A number of bits that no record has.
    Bits,
    /// A list too short or too long.
    Length(List),
    /// A byte above 1.
    NotBit(List),
    /// An index that is no key bit's.
    Index,
    /// An index twice in a row.
    Repeat,
    /// A whitening bit where all are 0.
    Whitened,
    /// Too short a result.
    Room,
}

pub const FAULTS: [Fault; 13] = [
    Fault::Instance,
    Fault::Bits,
    Fault::Length(List::Key),
    Fault::Length(List::Record),
    Fault::Length(List::Indices),
    Fault::Length(List::Whitening),
    Fault::NotBit(List::Key),
    Fault::NotBit(List::Record),
    Fault::NotBit(List::Whitening),
    Fault::Index,
    Fault::Repeat,
    Fault::Whitened,
    Fault::Room,
];

impl Fault {
    /// Whether a call with that instance can have it, and one that takes a
    /// record or does not.
    pub fn suits(self, instance: u32, with_record: bool) -> bool {
        match self {
            Fault::Length(List::Record) | Fault::NotBit(List::Record) => with_record,
            Fault::Index | Fault::Repeat => instance != 6,
            Fault::Whitened => instance <= 2,
            _ => true,
        }
    }

    /// How likely it is among several: what is judged later is more often
    /// passed over for another.
    pub fn weight(self) -> u32 {
        match self {
            Fault::Instance | Fault::Bits => 2,
            Fault::Length(_) => 3,
            Fault::NotBit(_) => 4,
            Fault::Index => 6,
            Fault::Repeat => 8,
            Fault::Whitened | Fault::Room => 16,
        }
    }
}

/// A place of a list: often an end of it.
fn place(random: &mut Random, length: usize) -> usize {
    match random.below(8) {
        0 => 0,
        1 => length - 1,
        2 => length - 1 - random.below(length.min(10)),
        _ => random.below(length),
    }
}

/// A word that is not 1 to `most`: 0, one more, much more, or a good one in its
/// low bits.
fn outside(random: &mut Random, good: u32, most: u32) -> u32 {
    match random.below(6) {
        0 => 0,
        1 => most + 1,
        2 => most + 2 + random.below(200) as u32,
        3 => u32::MAX - random.below(3) as u32,
        _ => good | 1 << random.between(8, 31),
    }
}

/// An index that is no key bit's.
fn no_index(random: &mut Random, good: u32, key: u32) -> u32 {
    match random.below(6) {
        0 | 1 => key,
        2 => key + random.below(5) as u32,
        3 => u32::MAX - random.below(5) as u32,
        // A good one in its low bits.
        4 => good | 1 << random.between(14, 31),
        _ => key + random.below((u32::MAX - key) as usize) as u32,
    }
}

/// Another length than that of the list, most often by one; `unit` is how much
/// of it belongs to one bit.
fn other_length(random: &mut Random, length: usize, unit: usize) -> usize {
    let shorter = length > 0 && random.chance(50);
    let by = match random.below(10) {
        0..=5 => 1,
        6 => unit.max(1),
        7 if shorter => length,
        _ => random.between(1, 200),
    };
    if shorter {
        length - by.min(length)
    } else {
        length + by
    }
}

fn resize(random: &mut Random, bits: &mut Vec<u8>, unit: usize) -> usize {
    let length = other_length(random, bits.len(), unit);
    while bits.len() < length {
        bits.push(random.pick(&[0, 1, 0, 1, 2]));
    }
    bits.truncate(length);
    length
}

/// Puts one fault that suits into a sound call and says what then holds.
pub fn inflict(random: &mut Random, call: &mut Call, fault: Fault) -> Condition {
    let sizes = sized(call.instance);
    match fault {
        Fault::Instance => {
            call.instance = outside(random, call.instance, 6);
            (1, 0, 0)
        }
        Fault::Bits => {
            call.m = outside(random, call.m, 64);
            (2, 0, 0)
        }
        Fault::Length(list) => {
            let length = match list {
                List::Key | List::Record => resize(random, list.bits(call), 1),
                List::Whitening => resize(random, list.bits(call), sizes.row),
                List::Indices => {
                    let length = other_length(random, call.indices.len(), sizes.row);
                    while call.indices.len() < length {
                        let index = random.pick(&[0, sizes.key as u32 - 1, u32::MAX]);
                        call.indices.push(index);
                    }
                    call.indices.truncate(length);
                    length
                }
            };
            (3, list.number(call), length)
        }
        Fault::NotBit(list) => {
            let place = place(random, list.length(call));
            list.bits(call)[place] = random.no_bit();
            (4, list.number(call), place)
        }
        Fault::Index => {
            let place = place(random, call.indices.len());
            let good = call.indices[place];
            call.indices[place] = no_index(random, good, sizes.key as u32);
            (5, List::Indices.number(call), place)
        }
        Fault::Repeat => {
            let place = place(random, call.indices.len());
            let begin = place - place % sizes.row;
            let later = place.max(begin + 1);
            let earlier = match random.below(6) {
                0 => begin,
                1 => later - 1,
                _ => random.between(begin, later - 1),
            };
            call.indices[later] = call.indices[earlier];
            (6, List::Indices.number(call), later)
        }
        Fault::Whitened => {
            let place = place(random, call.whitening.len());
            call.whitening[place] = 1;
            (7, List::Whitening.number(call), place)
        }
        Fault::Room => {
            let room = random.fewer(call.m as usize);
            call.result.truncate(room);
            (8, List::Whitening.number(call) + 1, room)
        }
    }
}

/// Puts up to `count` different faults into a sound call, and some of them more
/// than once. Says all that then holds; also what would, were there such an
/// instance and such a number of bits.
pub fn inflict_several(random: &mut Random, call: &mut Call, count: usize) -> BTreeSet<Condition> {
    let weights = FAULTS.map(|fault| {
        let suits = fault.suits(call.instance, call.record.is_some());
        u32::from(suits) * fault.weight()
    });
    let faults = several(count, || FAULTS[random.weighted(&weights)]);
    let hides = |fault| fault <= Fault::Bits;
    inflict_each(call, faults, hides, Call::conditions, |call, fault| {
        let times = match fault {
            // A length changes once: a second change might undo the first.
            Fault::Instance | Fault::Bits | Fault::Length(_) => 1,
            _ => random.pick(&[1, 1, 1, 2, 5]),
        };
        for _ in 1..times {
            inflict(random, call, fault);
        }
        inflict(random, call, fault)
    })
}

/// Spoils some list with no regard to what the fault will be, or whether there
/// will be one: meant to be done several times over.
pub fn wreck(random: &mut Random, call: &mut Call) {
    let byte = random.pick(&[0, 1, 1, 2, 255]);
    match random.below(16) {
        0 => call.instance = random.pick(&[0, 1, 2, 3, 4, 5, 6, 7, u32::MAX]),
        1 => call.m = random.pick(&[0, 1, 2, 31, 63, 64, 65, u32::MAX]),
        2 => call.m ^= 1 << random.below(8),
        3 | 4 => spoil(random, &mut call.key, byte),
        5 => {
            if let Some(record) = &mut call.record {
                spoil(random, record, byte);
            }
        }
        6..=8 => {
            let index = match random.below(4) {
                0 => random.below(16_385) as u32,
                1 => random.below(600) as u32,
                2 => random.word(),
                _ if call.indices.is_empty() => 0,
                _ => call.indices[random.below(call.indices.len())],
            };
            spoil(random, &mut call.indices, index);
        }
        9 | 10 => spoil(random, &mut call.whitening, byte),
        11 | 12 => {
            // The same indices in another order.
            if !call.indices.is_empty() {
                let (one, other) = (
                    random.below(call.indices.len()),
                    random.below(call.indices.len()),
                );
                call.indices.swap(one, other);
            }
        }
        13 => spoil(random, &mut call.result, byte),
        14 => call.whitening.fill(0),
        _ => call.indices.reverse(),
    }
}

/// Replaces a word; seldom takes one away or puts one in.
fn spoil<T: Copy>(random: &mut Random, list: &mut Vec<T>, word: T) {
    if list.is_empty() {
        if random.chance(20) {
            list.push(word);
        }
        return;
    }
    let place = place(random, list.len());
    match random.below(20) {
        0 => {
            list.remove(place);
        }
        1 => list.insert(place, word),
        _ => list[place] = word,
    }
}

/// Each instance was given each answer that there is for it so often; they are
/// counted by instance and number.
pub fn assert_every_answer(answers: &Tally<(u32, u32)>, least: usize) {
    for instance in instances() {
        let can = |&number: &u32| match number {
            5 | 6 => instance != 6,
            7 => instance <= 2,
            _ => true,
        };
        let numbers = (0..=8).filter(can);
        answers.assert_each(numbers.map(|number| (instance, number)), least);
    }
}

// ---- the choice ----

/// A choice from draws.
#[derive(Clone, Debug)]
pub struct Choice {
    pub instance: u32,
    pub draws: Vec<u32>,
    /// The row as it is lent.
    pub row: Vec<u32>,
}

impl Choice {
    pub fn conditions(&self) -> BTreeSet<Condition> {
        definitions::choice::conditions(self.instance, &self.draws, self.row.len())
    }

    /// The row of a choice against which nothing holds.
    pub fn expected(&self) -> Vec<u32> {
        definitions::choice::row(sized(self.instance).key, &self.draws)
    }
}

/// A sound choice: draws of any size, or only small, or only large ones.
pub fn sound_choice(random: &mut Random, instance: u32) -> Choice {
    let Instance { key, row, .. } = *sized(instance);
    let spare = random.spare();
    let reach = random.pick(&[key, key, key, 1, 2, 20]);
    let from_the_end = random.chance(20);
    let draws = (0..row)
        .map(|i| {
            let left = key - i;
            let draw = random.below(left.min(reach));
            (if from_the_end { left - 1 - draw } else { draw }) as u32
        })
        .collect();
    Choice {
        instance,
        draws,
        row: fill(random, row + spare),
    }
}

/// What can be wrong with a choice, in the order in which it is judged.
#[derive(Clone, Copy, Debug, PartialEq, Eq, PartialOrd, Ord)]
pub enum ChoiceFault {
    Instance,
    Length,
    Room,
    Draw,
}

pub const CHOICE_FAULTS: [ChoiceFault; 4] = [
    ChoiceFault::Instance,
    ChoiceFault::Length,
    ChoiceFault::Room,
    ChoiceFault::Draw,
];

/// Puts one fault into a sound choice and says what then holds.
pub fn inflict_choice(random: &mut Random, choice: &mut Choice, fault: ChoiceFault) -> Condition {
    let Instance { key, row, .. } = *sized(choice.instance);
    match fault {
        ChoiceFault::Instance => {
            choice.instance = match random.below(3) {
                0 => 6,
                _ => outside(random, choice.instance, 6),
            };
            (1, 0, 0)
        }
        ChoiceFault::Length => {
            let length = match random.below(8) {
                0 if key != row => key,
                _ => other_length(random, row, row),
            };
            choice.draws.resize(length, 0);
            (3, 1, length)
        }
        ChoiceFault::Room => {
            let room = random.fewer(row);
            choice.row.truncate(room);
            (8, 2, room)
        }
        ChoiceFault::Draw => {
            let place = place(random, row);
            let left = (key - place) as u32;
            let good = choice.draws[place];
            choice.draws[place] = match random.below(5) {
                0 | 1 => left,
                2 => left + random.below(5) as u32,
                3 => u32::MAX - random.below(20_000) as u32,
                _ => good | 1 << random.between(14, 31),
            };
            (14, 1, place)
        }
    }
}

/// Puts up to `count` different faults into a sound choice, and says all that
/// then holds; also what would, were there such an instance.
pub fn inflict_several_on_choice(
    random: &mut Random,
    choice: &mut Choice,
    count: usize,
) -> BTreeSet<Condition> {
    let faults = several(count, || random.pick(&CHOICE_FAULTS));
    let hides = |fault| fault == ChoiceFault::Instance;
    inflict_each(
        choice,
        faults,
        hides,
        Choice::conditions,
        |choice, fault| {
            let times = match fault {
                ChoiceFault::Draw => random.pick(&[1, 1, 2, 9]),
                _ => 1,
            };
            for _ in 1..times {
                inflict_choice(random, choice, fault);
            }
            inflict_choice(random, choice, fault)
        },
    )
}

/// The numbers of the instances.
pub fn instances() -> std::ops::RangeInclusive<u32> {
    1..=INSTANCES.len() as u32
}
