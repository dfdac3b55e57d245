//! Hands the library and the Rust ciphers the same lists, sound and damaged,
//! and compares the whole answer and every lent list. Cases whose answer is
//! known beforehand, by hand or from the way they were made, are held to that
//! too, and every result to the filters' definitions.

use independent::both::cipher::{choose, Kind, KINDS};
use independent::cipher_cases::{
    self, lengths_near, no_indices, no_instances, no_records, Call, Choice, Fault, List,
    CHOICE_FAULTS, FAULTS,
};
use independent::definitions::cipher::sizes_of;
use independent::definitions::filter::degrees;
use independent::definitions::least;
use independent::key::lent_key;
use independent::netlist::{refusal, Answer};
use independent::probe;
use independent::random::{fill, seeded};
use independent::stack::on_stack;
use independent::tally::{self, without_places, Tally};
use independent::worked;
use std::collections::{BTreeMap, BTreeSet};

/// Random cases of each of the three cipher calls, and of the choice.
const CASES: usize = 8_000;
const CHOICES: usize = 20_000;

// ---- known values ----

/// A call with these key bits in order, nothing whitened, and no record.
fn in_order(instance: u32, key: &[u8]) -> Call {
    let (_, row) = sizes_of(instance);
    Call {
        instance,
        m: 1,
        key: lent_key(key),
        record: None,
        indices: (0..row as u32).collect(),
        whitening: vec![0; row],
        result: vec![9; 2],
    }
}

/// Kreyvium with a key and an IV of zeros.
#[test]
fn published_vector() {
    let (zeros, expected) = ([0; 128], worked::keystream());
    for m in 1..=64 {
        for (kind, record) in [
            (Kind::Keystream, None),
            (Kind::Encipher, Some(vec![0; m])),
            (Kind::Decipher, Some(vec![1; m])),
        ] {
            let call = Call::kreyvium(m, &zeros, record.clone(), &zeros);
            let of_record = record.map_or(0, |record| record[0]);
            for (bit, expected) in kind.bits(&call).into_iter().zip(&expected) {
                assert_eq!(bit, expected ^ of_record);
            }
        }
    }
}

/// Each key bit and each IV bit alone.
#[test]
fn kreyvium_single_bits() {
    let mut streams = BTreeSet::new();
    for place in 0..=256 {
        let mut both = vec![0; 257];
        both[place] = 1;
        let call = Call::kreyvium(64, &both[..128], None, &both[128..256]);
        streams.insert(Kind::Keystream.bits(&call));
    }
    assert_eq!(streams.len(), 257);
}

/// The variables of one monomial alone make the filter 1; with the first or
/// the last of them cleared it is 0.
#[test]
fn each_monomial_alone() {
    for instance in 1..=4 {
        let (key_bits, row) = sizes_of(instance);
        let mut begin = 0;
        for degree in degrees(instance) {
            let mut key = vec![0; key_bits];
            key[begin..begin + degree].fill(1);
            let bit = |key: &[u8]| Kind::Keystream.bits(&in_order(instance, key));
            assert_eq!(bit(&key), [1]);
            for place in [begin, begin + degree - 1] {
                key[place] = 0;
                assert_eq!(bit(&key), [0]);
                key[place] = 1;
            }
            begin += degree;
        }
        assert_eq!(begin, row);
    }
}

/// Every weight of the 63 counted variables, a row each: whitening makes them,
/// with the key all 0 and then all 1.
#[test]
fn threshold_at_every_weight() {
    let mut random = seeded(201);
    for key_bit in [0, 1] {
        let mut call = Kind::Keystream.sound(&mut random, 5, 64);
        call.key = lent_key(&[key_bit; 16_384]);
        call.whitening.fill(key_bit);
        for weight in 0..64 {
            let row = &mut call.whitening[weight * 144..(weight + 1) * 144];
            let first = random.between(81, 144 - weight.max(1));
            for white in &mut row[first..first + weight] {
                *white = 1 - key_bit;
            }
        }
        let expected: Vec<u8> = (0..64).map(|weight| u8::from(weight >= 32)).collect();
        assert_eq!(Kind::Keystream.bits(&call), expected);
        // One of the 81 others turns it round.
        call.whitening[80] ^= 1;
        assert_eq!(Kind::Keystream.bits(&call)[0], 1);
    }
}

/// Each bit has its own row of indices and of whitening, and whitening goes by
/// the place in the row.
#[test]
fn each_bit_has_its_row() {
    let mut random = seeded(202);
    for instance in 3..=5 {
        let mut call = Kind::Keystream.sound(&mut random, instance, 3);
        let (key_bits, row) = sizes_of(instance);
        let mut key = vec![0; key_bits];
        call.key = lent_key(&key);
        call.whitening.fill(0);
        for (bit, place) in [(0, 0), (2, 80)] {
            call.whitening[bit * row + place] = 1;
        }
        assert_eq!(Kind::Keystream.bits(&call), [1, 0, 1]);
        call.whitening.fill(0);
        for (bit, place) in [(1, 3), (2, 7)] {
            key[call.indices[bit * row + place] as usize] = 1;
        }
        call.key = lent_key(&key);
        Kind::Keystream.bits(&call);
    }
}

#[test]
fn every_number_of_bits() {
    let mut random = seeded(203);
    for instance in cipher_cases::instances() {
        let lengths: Vec<usize> = match instance {
            2..=4 => vec![1, 2, 3, 8, 31, 32, 33, 63, 64],
            _ => (1..=64).collect(),
        };
        for m in lengths {
            for kind in KINDS {
                if kind == Kind::Encipher || m < 4 || instance >= 5 {
                    let call = kind.sound(&mut random, instance, m);
                    kind.bits(&call);
                }
            }
        }
    }
}

#[test]
fn deciphering_undoes_enciphering() {
    let mut random = seeded(204);
    let mut changed = BTreeMap::new();
    for round in 0..300 {
        let (mut instance, mut m) = cipher_cases::size(&mut random);
        if round < 36 {
            (instance, m) = (1 + round % 6, [1, 1, 2, 3, 5, 9][round as usize / 6]);
        }
        let mut call = Kind::Encipher.sound(&mut random, instance, m);
        let record = call.record().to_vec();
        let there = Kind::Encipher.bits(&call);
        let stream = Call {
            record: None,
            ..call.clone()
        };
        let stream = Kind::Keystream.bits(&stream);
        assert!((0..m).all(|at| there[at] == record[at] ^ stream[at]));
        *changed.entry(instance).or_insert(0) += usize::from(there != record);
        call.record = Some(there);
        assert_eq!(Kind::Decipher.bits(&call), record);
    }
    for instance in cipher_cases::instances() {
        assert!(changed[&instance] >= 4, "instance {instance}");
    }
}

// ---- each rule ----

/// Starts from a sound call and puts in one fault of every kind, the ones
/// judged first going in last: each is given in its turn.
#[test]
fn each_fault_in_its_turn() {
    let mut random = seeded(205);
    for instance in cipher_cases::instances() {
        for kind in KINDS {
            for _ in 0..6 {
                let m = random.between(1, 3);
                let mut call = kind.sound(&mut random, instance, m);
                kind.bits(&call);
                for fault in FAULTS.into_iter().rev() {
                    if fault.suits(instance, kind.has_record()) {
                        let held = cipher_cases::inflict(&mut random, &mut call, fault);
                        let (answer, result) = kind.hand(&call);
                        assert_eq!(answer, held.into(), "{fault:?}");
                        assert_eq!(result, call.result);
                    }
                }
            }
        }
    }
}

/// Every kind of fault alone, with its place known from how it was made.
#[test]
fn single_faults_at_known_places() {
    let mut random = seeded(206);
    for fault in FAULTS {
        let mut made = 0;
        for instance in cipher_cases::instances() {
            for kind in KINDS {
                if !fault.suits(instance, kind.has_record()) {
                    continue;
                }
                for _ in 0..10 {
                    let m = random.between(1, 4);
                    let mut call = kind.sound(&mut random, instance, m);
                    let held = cipher_cases::inflict(&mut random, &mut call, fault);
                    let (answer, _) = kind.hand(&call);
                    assert_eq!(answer, held.into(), "{fault:?}");
                    made += 1;
                }
            }
        }
        assert!(made >= 60, "{fault:?} was made only {made} times");
    }
}

/// No instance, whatever else; and no number of bits, though the lists suit it.
#[test]
fn numbers_out_of_range() {
    let mut random = seeded(207);
    for kind in KINDS {
        for instance in no_instances() {
            for sound in cipher_cases::instances() {
                let mut call = kind.sound(&mut random, sound, 1);
                call.instance = instance;
                for m in [1, 0, 64, 65, u32::MAX] {
                    call.m = m;
                    assert_eq!(kind.hand(&call).0, refusal(1, 0, 0));
                }
            }
        }
        for instance in cipher_cases::instances() {
            for m in no_records() {
                let mut call = kind.sound(&mut random, instance, 1);
                call.m = m;
                assert_eq!(kind.hand(&call).0, refusal(2, 0, 0));
                if m <= 66 {
                    call.suit(&mut random);
                    assert_eq!(kind.hand(&call).0, refusal(2, 0, 0));
                }
            }
        }
    }
}

/// Each list with a length near the exact one, or one that suits another.
#[test]
fn every_list_length() {
    let mut random = seeded(208);
    for instance in cipher_cases::instances() {
        for kind in KINDS {
            let sound = kind.sound(&mut random, instance, 2);
            for list in [List::Key, List::Record, List::Indices, List::Whitening] {
                if list == List::Record && !kind.has_record() {
                    continue;
                }
                let exact = list.length(&sound);
                for length in lengths_near(exact) {
                    let mut call = sound.clone();
                    match list {
                        List::Indices => call.indices.resize(length, 0),
                        _ => list.bits(&mut call).resize(length, 0),
                    }
                    let expected = if length == exact {
                        Answer::DONE
                    } else {
                        refusal(3, list.number(&call), length)
                    };
                    assert_eq!(kind.hand(&call).0, expected);
                }
            }
            for room in 0..=5 {
                let call = Call {
                    result: vec![9; room],
                    ..sound.clone()
                };
                let expected = if room >= 2 {
                    Answer::DONE
                } else {
                    refusal(8, List::Whitening.number(&call) + 1, room)
                };
                assert_eq!(kind.hand(&call).0, expected);
            }
        }
    }
}

/// Each byte of each list in turn is no bit, and each whitening bit is 1.
#[test]
fn every_place_of_a_bit() {
    let mut random = seeded(209);
    for instance in [1, 5, 6] {
        let sound = Kind::Encipher.sound(&mut random, instance, 2);
        for list in [List::Key, List::Record, List::Whitening] {
            let length = list.length(&sound);
            // Most places of the longest keys are passed over.
            let step = 1 + length / 2_000;
            let places = (0..length).step_by(step).chain([length - 1]);
            for place in places {
                let byte = random.pick(&[2, 3, 16, 127, 128, 254, 255]);
                for byte in [byte, 1] {
                    let mut call = sound.clone();
                    list.bits(&mut call)[place] = byte;
                    let expected = match (byte, list, instance) {
                        (1, List::Whitening, 1) => refusal(7, 4, place),
                        (1, ..) => continue,
                        _ => refusal(4, list.number(&call), place),
                    };
                    assert_eq!(Kind::Encipher.hand(&call).0, expected);
                }
            }
        }
    }
}

/// Each index in turn is the first beyond the key, or a huge one, or repeats
/// an earlier one of its row.
#[test]
fn every_place_of_an_index() {
    let mut random = seeded(210);
    for (instance, m) in [(1, 2), (5, 3)] {
        let (_, row) = sizes_of(instance);
        let sound = Kind::Keystream.sound(&mut random, instance, m);
        for place in 0..sound.indices.len() {
            for index in no_indices(instance, sound.indices[place]) {
                let mut call = sound.clone();
                call.indices[place] = index;
                assert_eq!(Kind::Keystream.hand(&call).0, refusal(5, 2, place));
            }
            let begin = place - place % row;
            if place > begin {
                for earlier in [begin, place - 1, random.between(begin, place - 1)] {
                    let mut call = sound.clone();
                    call.indices[place] = call.indices[earlier];
                    assert_eq!(Kind::Keystream.hand(&call).0, refusal(6, 2, place));
                }
            }
        }
    }
}

/// The earliest place that holds an index seen before it in its row.
#[test]
fn repeats_by_hand() {
    for instance in 1..=5 {
        let (key_bits, row) = sizes_of(instance);
        let n = row as u32;
        let mut call = in_order(instance, &vec![0; key_bits]);
        call.m = 3;
        call.result = vec![9; 3];
        call.whitening = vec![0; 3 * row];
        // Three rows of the same indices, the middle one turned round: each
        // index stands beside itself where two rows meet.
        let forth: Vec<u32> = (0..n).collect();
        let back: Vec<u32> = (0..n).rev().collect();
        let sound = [&forth[..], &back, &forth].concat();
        for (changes, expected) in [
            (&[][..], Answer::DONE),
            // a b b a: the second b comes first.
            (&[(2, 1), (3, 0)], refusal(6, 2, 2)),
            // a b a b.
            (&[(2, 0), (3, 1)], refusal(6, 2, 2)),
            // a .. a a.
            (&[(row - 1, 0), (row - 2, 0)], refusal(6, 2, row - 2)),
            // The first index and the last.
            (&[(row - 1, 0)], refusal(6, 2, row - 1)),
            (&[(2 * row - 1, n - 1)], refusal(6, 2, 2 * row - 1)),
            (&[(3 * row - 1, 0)], refusal(6, 2, 3 * row - 1)),
            // A nearer pair later in the list.
            (&[(40, 5), (30, 29)], refusal(6, 2, 30)),
            (&[(40, 5), (50, 49)], refusal(6, 2, 40)),
            // The last row's pair is nearer to its row's front.
            (
                &[(row + 100, n - 1), (2 * row + 1, 0)],
                refusal(6, 2, row + 100),
            ),
            // An index beyond the key in a later row is judged before.
            (
                &[(1, 0), (3 * row - 1, u32::MAX)],
                refusal(5, 2, 3 * row - 1),
            ),
            // Beyond the key twice: not a repeat.
            (&[(7, u32::MAX), (9, u32::MAX)], refusal(5, 2, 7)),
        ] {
            call.indices = sound.clone();
            for &(place, index) in changes {
                call.indices[place] = index;
            }
            assert_eq!(Kind::Keystream.hand(&call).0, expected);
        }
        // One index throughout.
        call.indices.fill(3);
        assert_eq!(Kind::Keystream.hand(&call).0, refusal(6, 2, 1));
        // Rows of different indices, though all three are alike.
        call.indices = [&forth[..], &forth, &forth].concat();
        assert_eq!(Kind::Keystream.hand(&call).0, Answer::DONE);
    }
}

// ---- at random ----

/// What came up in the random calls of one kind.
#[derive(Default)]
struct Seen {
    tally: Tally,
    /// Answer numbers by instance.
    numbers: Tally<(u32, u32)>,
    /// Numbers of bits of calls that were done.
    lengths: BTreeSet<u32>,
    /// Places of single words beyond the first thousand, and last in the list.
    far: usize,
    last: usize,
    /// Repeats after which there were others in the row, or in other rows.
    several: usize,
}

fn random_calls(kind: Kind, seed: u64) -> Seen {
    let mut random = seeded(seed);
    let mut seen = Seen::default();
    for _ in 0..CASES {
        let (instance, m) = cipher_cases::size(&mut random);
        let mut call = kind.sound(&mut random, instance, m);
        let held = match random.below(100) {
            0..=24 => BTreeSet::new(),
            25..=84 => {
                let count = random.pick(&[1, 1, 2, 2, 2, 3, 4, 7]);
                cipher_cases::inflict_several(&mut random, &mut call, count)
            }
            _ => {
                for _ in 0..random.between(1, 4) {
                    cipher_cases::wreck(&mut random, &mut call);
                }
                call.conditions()
            }
        };
        let (answer, result) = kind.hand(&call);
        assert_eq!(answer, least(&held));
        seen.tally.judge(&without_places(&held), answer);
        seen.numbers.see((instance, answer.number));
        match answer.number {
            0 => {
                let m = call.m as usize;
                assert_eq!(result[..m], call.expected());
                seen.lengths.insert(call.m);
            }
            4..=7 => {
                let list = answer.list + u32::from(!kind.has_record() && answer.list > 1);
                let length = match list {
                    1 => call.key.len(),
                    2 => call.record.as_ref().map_or(0, Vec::len),
                    3 => call.indices.len(),
                    _ => call.whitening.len(),
                };
                seen.far += usize::from(answer.place > 1_000);
                seen.last += usize::from(answer.place + 1 == length);
                let repeats = held.iter().filter(|held| held.0 == 6).count();
                seen.several += usize::from(answer.number == 6 && repeats > 1);
            }
            _ => {}
        }
    }
    seen
}

fn assert_all_seen(seen: &Seen, order: &[tally::Condition]) {
    seen.tally.assert_each(order.iter().copied(), CASES / 100);
    seen.tally.assert_seen(0, 0, CASES / 5);
    seen.tally.assert_order(order, CASES / 1_000);
    cipher_cases::assert_every_answer(&seen.numbers, CASES / 1_000);
    assert!(seen.lengths.iter().copied().eq(1..=64));
    assert!(seen.far > CASES / 50, "only {} far places", seen.far);
    assert!(seen.last > CASES / 100, "only {} last places", seen.last);
    assert!(seen.several > 20, "only {} with others", seen.several);
}

const ORDER: [tally::Condition; 11] = [
    (1, 0),
    (2, 0),
    (3, 1),
    (3, 2),
    (3, 3),
    (4, 1),
    (4, 3),
    (5, 2),
    (6, 2),
    (7, 3),
    (8, 4),
];

const ORDER_WITH_RECORD: [tally::Condition; 13] = [
    (1, 0),
    (2, 0),
    (3, 1),
    (3, 2),
    (3, 3),
    (3, 4),
    (4, 1),
    (4, 2),
    (4, 4),
    (5, 3),
    (6, 3),
    (7, 4),
    (8, 5),
];

#[test]
fn random_keystreams() {
    assert_all_seen(&random_calls(Kind::Keystream, 211), &ORDER);
}

#[test]
fn random_encipherings() {
    assert_all_seen(&random_calls(Kind::Encipher, 212), &ORDER_WITH_RECORD);
}

#[test]
fn random_decipherings() {
    assert_all_seen(&random_calls(Kind::Decipher, 213), &ORDER_WITH_RECORD);
}

/// Lists made for one instance, handed in with the number of each.
#[test]
fn lists_of_another_instance() {
    let mut random = seeded(214);
    for instance in cipher_cases::instances() {
        for other in cipher_cases::instances() {
            for kind in KINDS {
                let mut call = kind.sound(&mut random, instance, 1);
                call.instance = other;
                assert_eq!(kind.hand(&call).0, least(&call.conditions()));
                call.m = 2;
                assert_eq!(kind.hand(&call).0, least(&call.conditions()));
            }
        }
    }
}

// ---- choice ----

#[test]
fn choice_at_its_ends() {
    for instance in 1..=5 {
        let (key_bits, row) = sizes_of(instance);
        let mut case = Choice {
            instance,
            draws: vec![0; row],
            row: vec![9; row + 3],
        };
        let (answer, chosen) = choose(&case);
        assert_eq!(answer, Answer::DONE);
        assert!(chosen[..row].iter().copied().eq(0..row as u32));
        // Always the last place.
        case.draws = (0..row).map(|i| (key_bits - 1 - i) as u32).collect();
        let (answer, chosen) = choose(&case);
        assert_eq!(answer, Answer::DONE);
        assert_eq!(chosen[0], key_bits as u32 - 1);
        assert!(chosen[1..row].iter().copied().eq(0..row as u32 - 1));
        // One too far, at every place.
        for place in 0..row {
            case.draws[place] += 1;
            assert_eq!(choose(&case).0, refusal(14, 1, place));
            case.draws[place] -= 1;
        }
        // Everywhere, and with too little room as well.
        for draw in &mut case.draws {
            *draw = u32::MAX;
        }
        assert_eq!(choose(&case).0, refusal(14, 1, 0));
        case.row.truncate(row - 1);
        assert_eq!(choose(&case).0, refusal(8, 2, row - 1));
        case.draws.push(0);
        assert_eq!(choose(&case).0, refusal(3, 1, row + 1));
        for none in [0, 6, 7, 256 + instance, u32::MAX] {
            case.instance = none;
            assert_eq!(choose(&case).0, refusal(1, 0, 0));
        }
    }
}

#[test]
fn random_choices() {
    let mut random = seeded(215);
    let mut tally = Tally::default();
    let mut far = 0;
    for _ in 0..CHOICES {
        let instance = random.between(1, 5) as u32;
        let mut case = cipher_cases::sound_choice(&mut random, instance);
        let mut held = BTreeSet::new();
        if random.chance(60) {
            let count = random.pick(&[1, 1, 2, 2, 4]);
            held = cipher_cases::inflict_several_on_choice(&mut random, &mut case, count);
        }
        let (answer, row) = choose(&case);
        assert_eq!(answer, least(&held));
        tally.judge(&without_places(&held), answer);
        far += usize::from(answer.number == 14 && answer.place > 500);
        if answer == Answer::DONE {
            let expected = case.expected();
            assert_eq!(row[..expected.len()], expected);
        }
    }
    let order = [(1, 0), (3, 1), (8, 2), (14, 1)];
    tally.assert_each(order, CHOICES / 20);
    tally.assert_seen(0, 0, CHOICES / 5);
    tally.assert_order(&order, CHOICES / 100);
    assert!(far > CHOICES / 100, "only {far} draws far from the front");
}

/// Every kind of fault alone, with its place known from how it was made.
#[test]
fn single_faults_of_a_choice() {
    let mut random = seeded(216);
    for fault in CHOICE_FAULTS {
        for instance in 1..=5 {
            for _ in 0..40 {
                let mut case = cipher_cases::sound_choice(&mut random, instance);
                let held = cipher_cases::inflict_choice(&mut random, &mut case, fault);
                assert_eq!(choose(&case).0, held.into(), "{fault:?}");
            }
        }
    }
}

/// A chosen row is one that the cipher calls take; one index changed to
/// another of the row is not.
#[test]
fn chosen_rows_encipher() {
    let mut random = seeded(217);
    for instance in 1..=5 {
        for _ in 0..4 {
            let mut call = Kind::Encipher.sound(&mut random, instance, 2);
            call.indices.clear();
            for _ in 0..2 {
                let case = cipher_cases::sound_choice(&mut random, instance);
                let (answer, row) = choose(&case);
                assert_eq!(answer, Answer::DONE);
                call.indices.extend(&row[..case.draws.len()]);
            }
            Kind::Encipher.bits(&call);
            let (_, _, place) = cipher_cases::inflict(&mut random, &mut call, Fault::Repeat);
            assert_eq!(Kind::Encipher.hand(&call).0, refusal(6, 3, place));
        }
    }
}

// ---- at the limits ----

/// The library's calls on the longest lists, all buffers outside, on a small
/// stack.
#[test]
fn small_stack() {
    const STACK: usize = 512 * 1024;
    let mut random = seeded(218);
    for instance in cipher_cases::instances() {
        let call = Kind::Encipher.sound(&mut random, instance, 64);
        let record = call.record();
        let mut case = (instance <= 5).then(|| cipher_cases::sound_choice(&mut random, instance));
        let mut there = vec![9; 64];
        let mut back = vec![9; 64];
        on_stack(STACK, || {
            let (key, indices, whitening) = (&call.key, &call.indices, &call.whitening);
            let answer = probe::encipher(instance, 64, key, record, indices, whitening, &mut there);
            assert_eq!(answer, Answer::DONE);
            let answer = probe::decipher(instance, 64, key, &there, indices, whitening, &mut back);
            assert_eq!(answer, Answer::DONE);
            if let Some(case) = &mut case {
                let answer = probe::choose(instance, &case.draws, &mut case.row);
                assert_eq!(answer, Answer::DONE);
            }
        });
        assert_eq!(there, call.expected());
        assert_eq!(back, record);
        if let Some(case) = case {
            let expected = case.expected();
            assert_eq!(case.row[..expected.len()], expected);
        }
    }
}

/// Result lists far longer than needed keep what they held.
#[test]
fn long_results() {
    let mut random = seeded(219);
    for instance in cipher_cases::instances() {
        for kind in KINDS {
            let mut call = kind.sound(&mut random, instance, 1);
            call.result = fill(&mut random, 5_000);
            kind.bits(&call);
        }
    }
    for instance in 1..=5 {
        let mut case = cipher_cases::sound_choice(&mut random, instance);
        case.row = fill(&mut random, 20_000);
        assert_eq!(choose(&case).0, Answer::DONE);
    }
}
