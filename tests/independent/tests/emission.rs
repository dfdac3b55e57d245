//! Hands the library and the Rust emission the same numbers and lists, sound
//! and damaged, and compares the whole answer and every lent list. The netlists
//! are then checked, metered, evaluated and glued by both programs, and held to
//! their definitions and to what they have to compute.

use independent::both::emission::{decipher, one_hot, threshold, Emitted};
use independent::both::netlist::{check, glue, glued, glued_length, metered, run};
use independent::cases;
use independent::cipher_cases::{
    self, lengths_near, no_indices, no_instances, no_records, sized, Fault, List,
};
use independent::definitions::cipher::sizes_of;
use independent::definitions::filter::weight;
use independent::definitions::{self, least};
use independent::emission_cases::{self, Emission, FAULTS};
use independent::key::{deciphering_inputs, lent_key};
use independent::netlist::{
    length, refusal, words_for, Answer, Counts, Metering, HEADER_WORDS, MAX_GATES,
};
use independent::probe;
use independent::random::{all_bits, biased, bits, fill, of_weight, seeded, Random};
use independent::stack::on_stack;
use independent::tally::{self, without_places, Tally};
use independent::worked;
use std::collections::BTreeSet;

/// Random emissions of deciphering netlists.
const CASES: usize = 6_000;

/// Lends rooms of every kind to an emission that has to write `expected`: too
/// short ones, the exact one and longer ones.
fn in_every_room(
    random: &mut Random,
    list: u32,
    expected: &[u32],
    emit: &dyn Fn(&[u32]) -> Emitted,
) {
    let exact = expected.len();
    for room in [0, 1, HEADER_WORDS, exact / 2, exact - 1] {
        let (answer, result) = emit(&fill(random, room));
        assert_eq!(answer, refusal(8, list, room));
        assert_eq!(result.len(), room);
    }
    for spare in [0, 1, 3, 60] {
        let (answer, result) = emit(&fill(random, exact + spare));
        assert_eq!(answer, Answer::DONE);
        assert!(result[..exact] == *expected);
    }
}

/// The same for a deciphering netlist.
fn deciphers_in_every_room(random: &mut Random, emission: &Emission) {
    let expected = emission.expected();
    assert_eq!(expected.len(), emission.words());
    in_every_room(random, 3, &expected, &|room| {
        decipher(&Emission {
            call: emission.call.clone(),
            result: room.to_vec(),
        })
    });
}

/// Rooms of any kind for an emission that has to answer 13.
fn in_no_room(random: &mut Random, emit: &dyn Fn(&[u32]) -> Emitted) {
    for room in [0, 1, 100, 9_000] {
        let (answer, _) = emit(&fill(random, room));
        assert_eq!(answer, refusal(13, 0, 0));
    }
}

/// The words of the netlist of threshold `d` of `n`.
fn threshold_words(d: usize, n: usize) -> Vec<u32> {
    let expected = definitions::netlist::threshold(d, n);
    let (answer, words) = threshold(d as u32, n as u32, &vec![7; expected.len()]);
    assert_eq!(answer, Answer::DONE);
    assert_eq!(words, expected);
    words
}

fn one_hot_words(n: usize) -> Vec<u32> {
    let expected = definitions::netlist::one_hot(n);
    let (answer, words) = one_hot(n as u32, &vec![7; expected.len()]);
    assert_eq!(answer, Answer::DONE);
    assert_eq!(words, expected);
    words
}

/// The words of a sound emission, which are the definitions'.
fn decipher_words(emission: &Emission) -> Vec<u32> {
    let (answer, mut words) = decipher(emission);
    assert_eq!(answer, Answer::DONE);
    words.truncate(length(&words));
    assert!(words == emission.expected());
    words
}

fn costs(net: &[u32]) -> (usize, usize) {
    let Metering {
        depth,
        multiplications,
        ..
    } = metered(net);
    (multiplications as usize, depth as usize)
}

// ---- by hand ----

/// The netlist that the printing program prints for "2 3".
#[test]
fn printed_netlist() {
    let (answer, words) = threshold(2, 3, &[9; 26]);
    assert_eq!(answer, Answer::DONE);
    assert_eq!(words[..24], worked::THRESHOLD);
    assert_eq!(words[24..], [9, 9]);
    assert_eq!(costs(&worked::THRESHOLD), (3, 2));
}

#[test]
fn values_by_hand() {
    for (x, d, value) in worked::THRESHOLDS {
        assert_eq!(run(&threshold_words(d, x.len()), x), [value]);
    }
    assert_eq!(run(&one_hot_words(2), &[1, 0]), [0, 1, 0]);
    assert_eq!(run(&one_hot_words(0), &[]), [1]);
}

// ---- one-hot and threshold ----

/// Numbers above 64 in every place of a word.
const FAR: [u32; 14] = [
    65,
    66,
    67,
    68,
    69,
    70,
    128,
    256,
    256 + 64,
    1 << 16,
    (1 << 16) + 3,
    1 << 31,
    u32::MAX - 1,
    u32::MAX,
];

#[test]
fn every_one_hot() {
    let mut random = seeded(401);
    for n in 0..=64 {
        let expected = definitions::netlist::one_hot(n);
        in_every_room(&mut random, 1, &expected, &|room| one_hot(n as u32, room));
    }
    for n in FAR {
        in_no_room(&mut random, &|room| one_hot(n, room));
    }
}

#[test]
fn every_threshold() {
    let mut random = seeded(402);
    for n in 0..=70 {
        let beyond = [n + 2, n + 3, 256 + n, 1 << 31, u32::MAX - 1, u32::MAX];
        for d in (0..=n + 1).chain(beyond) {
            if n <= 64 && (1..=n + 1).contains(&d) {
                let expected = definitions::netlist::threshold(d as usize, n as usize);
                in_every_room(&mut random, 1, &expected, &|room| threshold(d, n, room));
            } else {
                in_no_room(&mut random, &|room| threshold(d, n, room));
            }
        }
    }
    for n in FAR {
        for d in [0, 1, 2, 64, n - 1, n, n.wrapping_add(1), u32::MAX] {
            in_no_room(&mut random, &|room| threshold(d, n, room));
        }
    }
}

/// All inputs of up to eight bits; of more, one of each of these weights.
fn inputs(random: &mut Random, n: usize, weights: &[usize]) -> Vec<Vec<u8>> {
    if n <= 8 {
        return all_bits(n);
    }
    let of_weight = |&weight: &usize| of_weight(random, n, weight.min(n));
    weights.iter().map(of_weight).collect()
}

/// Only the cell at the weight is 1.
#[test]
fn one_hot_values() {
    let mut random = seeded(403);
    for n in 0..=64 {
        let net = one_hot_words(n);
        assert_eq!(check(&net), Answer::DONE);
        metered(&net);
        let weights: Vec<usize> = (0..=n).collect();
        for x in inputs(&mut random, n, &weights) {
            let expected: Vec<u8> = (0..=n).map(|j| u8::from(j == weight(&x))).collect();
            assert_eq!(run(&net, &x), expected);
        }
    }
}

/// 1 exactly if the weight is d or more, with multiplications and depth as the
/// formulas have them.
#[test]
fn threshold_values() {
    let mut random = seeded(404);
    for n in 0..=64 {
        for d in 1..=n + 1 {
            let net = threshold_words(d, n);
            assert_eq!(check(&net), Answer::DONE);
            assert_eq!(costs(&net), definitions::netlist::threshold_costs(d, n));
            let weights = [d - 1, d, d + 1, random.between(0, n)];
            for x in inputs(&mut random, n, &weights) {
                assert_eq!(run(&net, &x), [definitions::filter::threshold(&x, d)]);
            }
        }
    }
}

// ---- deciphering ----

/// Numbers of bits to try: all, but for the longest rows few.
fn lengths(instance: u32) -> Vec<usize> {
    match instance {
        1 => (1..=64).step_by(3).chain([63]).collect(),
        2..=4 => vec![1, 2, 3, 17, 33, 64],
        _ => (1..=64).collect(),
    }
}

/// The netlist gives the record back from the key and the enciphered record, as
/// deciphering does; its multiplications and depth are those of the table.
#[test]
fn netlists_decipher() {
    let mut random = seeded(405);
    for instance in cipher_cases::instances() {
        for m in lengths(instance) {
            let emission = emission_cases::sound(&mut random, instance, m);
            let net = decipher_words(&emission);
            assert_eq!(net.len(), emission.words());
            assert_eq!(check(&net), Answer::DONE);
            let (multiplications, depth) = costs(&net);
            let (expected, bound) = definitions::deciphering::costs(instance, m);
            assert_eq!(multiplications, expected);
            match instance {
                6 => assert!(depth <= bound),
                _ => assert_eq!(depth, bound),
            }
            assert_eq!(run(&net, &emission.inputs()), emission.record());
            let call = &emission.call;
            let mut deciphered = vec![9; m];
            let answer = probe::decipher(
                instance,
                call.m,
                &call.key,
                &call.expected(),
                &call.indices,
                &call.whitening,
                &mut deciphered,
            );
            assert_eq!(answer, Answer::DONE);
            assert_eq!(deciphered, emission.record());
        }
    }
}

/// One netlist under many keys, for any record.
#[test]
fn any_key_and_record() {
    let mut random = seeded(406);
    for instance in cipher_cases::instances() {
        let m = random.between(2, 5);
        let mut emission = emission_cases::sound(&mut random, instance, m);
        let net = decipher_words(&emission);
        for percent in [0, 50, 50, 80, 95, 99, 100] {
            let key = biased(&mut random, sized(instance).key, percent);
            emission.call.key = lent_key(&key);
            let record = bits(&mut random, m);
            let inputs = deciphering_inputs(&emission.call.key, &record);
            emission.call.record = Some(record);
            assert_eq!(run(&net, &inputs), emission.call.expected());
        }
    }
}

/// Each bit of the IV alone, and all but it.
#[test]
fn kreyvium_single_bits() {
    let mut random = seeded(407);
    let mut emission = emission_cases::sound(&mut random, 6, 1);
    for base in [0, 1] {
        for place in 0..=128 {
            emission.call.whitening.fill(base);
            if let Some(bit) = emission.call.whitening.get_mut(place) {
                *bit = 1 - base;
            }
            let net = decipher_words(&emission);
            assert_eq!(net[..HEADER_WORDS], [129, 16_147, 1]);
            if place % 8 == 0 {
                assert_eq!(run(&net, &emission.inputs()), emission.record());
            }
        }
    }
}

/// Whitening by the place in the row, none at all and all of it.
#[test]
fn whitening_by_place() {
    let mut random = seeded(408);
    for instance in 3..=5 {
        let (_, row) = sizes_of(instance);
        let m = 3;
        for whitened in 0..4 {
            let mut emission = emission_cases::sound(&mut random, instance, m);
            for (place, white) in emission.call.whitening.iter_mut().enumerate() {
                *white = match whitened {
                    0 => 0,
                    1 => 1,
                    2 => u8::from(place % row == place / row),
                    _ => u8::from(place % row != row - 1),
                };
            }
            emission.result = fill(&mut random, emission.words());
            let net = decipher_words(&emission);
            assert_eq!(run(&net, &emission.inputs()), emission.record());
            deciphers_in_every_room(&mut random, &emission);
        }
    }
}

#[test]
fn every_room() {
    let mut random = seeded(409);
    for instance in cipher_cases::instances() {
        for m in [1, 2, 9] {
            let emission = emission_cases::sound(&mut random, instance, m);
            deciphers_in_every_room(&mut random, &emission);
        }
    }
}

// ---- each rule ----

/// Starts from a sound emission and puts in one fault of every kind, the ones
/// judged first going in last: each is given in its turn.
#[test]
fn each_fault_in_its_turn() {
    let mut random = seeded(410);
    for instance in cipher_cases::instances() {
        for _ in 0..10 {
            let m = random.between(1, 3);
            let mut emission = emission_cases::sound(&mut random, instance, m);
            decipher_words(&emission);
            for fault in FAULTS.into_iter().rev() {
                if fault.suits(instance, true) {
                    let held = emission_cases::inflict(&mut random, &mut emission, fault);
                    let (answer, result) = decipher(&emission);
                    assert_eq!(answer, held.into(), "{fault:?}");
                    assert!(result == emission.result);
                }
            }
        }
    }
}

/// Every kind of fault alone, with its place known from how it was made.
#[test]
fn single_faults_at_known_places() {
    let mut random = seeded(411);
    for fault in FAULTS {
        let mut made = 0;
        for instance in cipher_cases::instances() {
            if !fault.suits(instance, true) {
                continue;
            }
            for _ in 0..30 {
                let m = random.between(1, 4);
                let mut emission = emission_cases::sound(&mut random, instance, m);
                let held = emission_cases::inflict(&mut random, &mut emission, fault);
                let (answer, _) = decipher(&emission);
                assert_eq!(answer, held.into(), "{fault:?}");
                made += 1;
            }
        }
        assert!(made >= 60, "{fault:?} was made only {made} times");
    }
}

/// No instance, whatever else; and no number of bits, though the lists suit it.
#[test]
fn numbers_out_of_range() {
    let mut random = seeded(412);
    for instance in no_instances() {
        for sound in cipher_cases::instances() {
            let mut emission = emission_cases::sound(&mut random, sound, 1);
            emission.call.instance = instance;
            for m in [1, 0, 64, 65, u32::MAX] {
                emission.call.m = m;
                assert_eq!(decipher(&emission).0, refusal(1, 0, 0));
            }
        }
    }
    for instance in cipher_cases::instances() {
        for m in no_records() {
            let mut emission = emission_cases::sound(&mut random, instance, 1);
            emission.call.m = m;
            assert_eq!(decipher(&emission).0, refusal(2, 0, 0));
            if m <= 66 {
                emission.call.suit(&mut random);
                emission.result = vec![9; words_for(MAX_GATES, 70)];
                assert_eq!(decipher(&emission).0, refusal(2, 0, 0));
            }
        }
    }
}

/// Each list with a length near the exact one, or one that suits another.
#[test]
fn every_list_length() {
    let mut random = seeded(413);
    for instance in cipher_cases::instances() {
        let sound = emission_cases::sound(&mut random, instance, 2);
        for list in [List::Indices, List::Whitening] {
            let (number, exact) = match list {
                List::Indices => (1, sound.call.indices.len()),
                _ => (2, sound.call.whitening.len()),
            };
            for length in lengths_near(exact) {
                let mut emission = sound.clone();
                match list {
                    List::Indices => emission.call.indices.resize(length, 0),
                    _ => emission.call.whitening.resize(length, 0),
                }
                let expected = if length == exact {
                    Answer::DONE
                } else {
                    refusal(3, number, length)
                };
                assert_eq!(decipher(&emission).0, expected);
            }
        }
    }
}

/// Each byte of the whitening or of the IV in turn is no bit, and each
/// whitening bit is 1.
#[test]
fn every_place_of_a_bit() {
    let mut random = seeded(414);
    for instance in cipher_cases::instances() {
        let mut sound = emission_cases::sound(&mut random, instance, 2);
        if instance != 1 {
            // Judged last: no need for room.
            sound.result.truncate(5);
        }
        let length = sound.call.whitening.len();
        let step = if instance <= 1 { 1 } else { 1 + length / 300 };
        for place in (0..length).step_by(step).chain([length - 1]) {
            let byte = random.pick(&[2, 3, 16, 127, 128, 254, 255]);
            for byte in [byte, 1] {
                let mut emission = sound.clone();
                emission.call.whitening[place] = byte;
                let expected = match (byte, instance) {
                    (1, 1 | 2) => refusal(7, 2, place),
                    (1, _) => refusal(8, 3, 5),
                    _ => refusal(4, 2, place),
                };
                assert_eq!(decipher(&emission).0, expected);
            }
        }
    }
}

/// Each index in turn is the first beyond the key, or a huge one, or repeats
/// an earlier one of its row.
#[test]
fn every_place_of_an_index() {
    let mut random = seeded(415);
    for (instance, m) in [(1, 2), (5, 3)] {
        let (_, row) = sizes_of(instance);
        let mut sound = emission_cases::sound(&mut random, instance, m);
        sound.result.truncate(1_000);
        for place in 0..sound.call.indices.len() {
            for index in no_indices(instance, sound.call.indices[place]) {
                let mut emission = sound.clone();
                emission.call.indices[place] = index;
                assert_eq!(decipher(&emission).0, refusal(5, 1, place));
            }
            let begin = place - place % row;
            if place > begin {
                for earlier in [begin, place - 1, random.between(begin, place - 1)] {
                    let mut emission = sound.clone();
                    emission.call.indices[place] = emission.call.indices[earlier];
                    assert_eq!(decipher(&emission).0, refusal(6, 1, place));
                }
            }
        }
    }
}

/// Lists made for one instance, handed in with the number of each.
#[test]
fn lists_of_another_instance() {
    let mut random = seeded(416);
    for instance in cipher_cases::instances() {
        for other in cipher_cases::instances() {
            let mut emission = emission_cases::sound(&mut random, instance, 1);
            emission.call.instance = other;
            assert_eq!(decipher(&emission).0, least(&emission.conditions()));
            emission.call.m = 2;
            assert_eq!(decipher(&emission).0, least(&emission.conditions()));
        }
    }
}

// ---- at random ----

const ORDER: [tally::Condition; 9] = [
    (1, 0),
    (2, 0),
    (3, 1),
    (3, 2),
    (4, 2),
    (5, 1),
    (6, 1),
    (7, 2),
    (8, 3),
];

#[test]
fn random_emissions() {
    let mut random = seeded(417);
    let mut tally = Tally::default();
    // Answer numbers by instance, and numbers of bits of emissions that were
    // done.
    let mut numbers = Tally::default();
    let mut lengths = BTreeSet::new();
    for _ in 0..CASES {
        let (instance, m) = cipher_cases::size(&mut random);
        let mut emission = emission_cases::sound(&mut random, instance, m);
        let held = match random.below(100) {
            0..=24 => BTreeSet::new(),
            25..=84 => {
                let count = random.pick(&[1, 1, 2, 2, 2, 3, 4, 7]);
                emission_cases::inflict_several(&mut random, &mut emission, count)
            }
            _ => {
                for _ in 0..random.between(1, 4) {
                    emission_cases::wreck(&mut random, &mut emission);
                }
                emission.conditions()
            }
        };
        let (answer, result) = decipher(&emission);
        assert_eq!(answer, least(&held));
        tally.judge(&without_places(&held), answer);
        numbers.see((instance, answer.number));
        if answer == Answer::DONE {
            let expected = emission.expected();
            assert!(result[..expected.len()] == expected);
            lengths.insert(emission.call.m);
        }
    }
    tally.assert_each(ORDER, CASES / 100);
    tally.assert_seen(0, 0, CASES / 5);
    tally.assert_order(&ORDER, CASES / 1_000);
    cipher_cases::assert_every_answer(&numbers, CASES / 1_000);
    assert!(lengths.iter().copied().eq(1..=64));
}

// ---- scoring ----

/// A scoring netlist glued behind a deciphering one, on the key and the
/// enciphered record, gives what it gives on the record.
fn assert_scores(emission: &Emission, deciphering: &[u32], scoring: &[u32]) {
    let both = glued(deciphering, scoring);
    assert_eq!(check(&both), Answer::DONE);
    let score = run(scoring, emission.record());
    assert_eq!(run(&both, &emission.inputs()), score);
    let (first, second, whole) = (costs(deciphering), costs(scoring), costs(&both));
    assert_eq!(whole.0, first.0 + second.0);
    assert!(whole.1 <= first.1 + second.1);
}

#[test]
fn random_scores() {
    let mut random = seeded(418);
    for instance in cipher_cases::instances() {
        let lengths = match instance {
            2..=4 => vec![1, 7, 24],
            _ => vec![1, 2, 5, 17, 40, 64],
        };
        for m in lengths {
            let mut emission = emission_cases::sound(&mut random, instance, m);
            let net = decipher_words(&emission);
            for _ in 0..4 {
                let scoring = emission_cases::scoring(&mut random, m);
                assert_scores(&emission, &net, &scoring);
                emission.call.record = Some(bits(&mut random, m));
            }
            // Emitted netlists score too.
            assert_scores(&emission, &net, &one_hot_words(m));
            let d = random.between(1, m + 1);
            assert_scores(&emission, &net, &threshold_words(d, m));
            let weight = weight(emission.record());
            for d in [weight, weight + 1] {
                if (1..=m + 1).contains(&d) {
                    let both = glued(&net, &threshold_words(d, m));
                    let score = run(&both, &emission.inputs());
                    assert_eq!(score, [u8::from(d == weight)]);
                }
            }
        }
    }
}

/// The largest deciphering netlist, FiLIP-1280's with every bit whitened, and
/// as many gates behind it as there can be, and one more.
#[test]
fn largest_netlist() {
    let mut random = seeded(419);
    let mut emission = emission_cases::sound(&mut random, 4, 64);
    emission.call.whitening.fill(1);
    emission.result = fill(&mut random, emission.words());
    let net = decipher_words(&emission);
    let gates = Counts::of(&net).gates;
    assert_eq!(gates, 64 * 2 * 1_280);
    let left = MAX_GATES - gates;
    for gates in [left, left + 1] {
        let scoring = cases::nots(64, gates);
        let room = vec![7; glued_length(&net, &scoring)];
        let result = glue(&net, &scoring, &room);
        if gates == left {
            assert_eq!(result.answer, Answer::DONE);
            let expected = emission.record()[63] ^ (gates % 2) as u8;
            assert_eq!(run(&result.out, &emission.inputs()), [expected]);
        } else {
            assert_eq!(result.answer, Answer::TOO_MANY_GATES);
        }
    }
}

// ---- at the limits ----

/// The library's calls on the longest lists, all buffers outside, on a small
/// stack.
#[test]
fn small_stack() {
    const STACK: usize = 512 * 1024;
    let mut random = seeded(420);
    for instance in cipher_cases::instances() {
        let mut emission = emission_cases::sound(&mut random, instance, 64);
        let (mut cells, mut sum) = (vec![9; 10_000], vec![9; 10_000]);
        let Emission { call, result } = &mut emission;
        on_stack(STACK, || {
            let answer = probe::emit_decipher(instance, 64, &call.indices, &call.whitening, result);
            assert_eq!(answer, Answer::DONE);
            assert_eq!(probe::emit_one_hot(64, &mut cells), Answer::DONE);
            assert_eq!(probe::emit_threshold(32, 64, &mut sum), Answer::DONE);
        });
        let expected = emission.expected();
        assert!(emission.result[..expected.len()] == expected);
        let expected = definitions::netlist::one_hot(64);
        assert!(cells[..expected.len()] == expected);
        let expected = definitions::netlist::threshold(32, 64);
        assert!(sum[..expected.len()] == expected);
    }
}

/// Result lists far longer than needed keep what they held.
#[test]
fn long_results() {
    let mut random = seeded(421);
    let room: Vec<u32> = fill(&mut random, words_for(MAX_GATES, 4_096));
    assert_eq!(one_hot(64, &room).0, Answer::DONE);
    assert_eq!(threshold(32, 64, &room).0, Answer::DONE);
    for instance in cipher_cases::instances() {
        for m in [1, 64] {
            let mut emission = emission_cases::sound(&mut random, instance, m);
            emission.result.clone_from(&room);
            decipher_words(&emission);
        }
    }
}

/// A chosen row is one that emission takes; one index changed to another of the
/// row is not.
#[test]
fn chosen_rows_emit() {
    let mut random = seeded(422);
    for instance in 1..=5 {
        let mut emission = emission_cases::sound(&mut random, instance, 2);
        emission.call.indices.clear();
        for _ in 0..2 {
            let mut case = cipher_cases::sound_choice(&mut random, instance);
            let answer = probe::choose(instance, &case.draws, &mut case.row);
            assert_eq!(answer, Answer::DONE);
            let row = &case.row[..case.draws.len()];
            emission.call.indices.extend(row);
        }
        let net = decipher_words(&emission);
        assert_eq!(run(&net, &emission.inputs()), emission.record());
        let (_, _, place) = emission_cases::inflict(&mut random, &mut emission, Fault::Repeat);
        assert_eq!(decipher(&emission).0, refusal(6, 1, place));
    }
}
