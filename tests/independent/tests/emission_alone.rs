//! Holds the Rust emission to the printed netlist, to counts and depths of the
//! rules, to what the netlists compute, and to its definitions: it is written
//! twice. The library is not called.

use independent::cipher::{by_nested_loops, INSTANCES};
use independent::cipher_cases::{self, by_hand, sized, ByHand};
use independent::definitions::filter::weight;
use independent::definitions::{self, least};
use independent::emission::{decipher, decipher_with, one_hot, threshold, MAX_COUNTED};
use independent::emission_cases::{self, Emission, FAULTS};
use independent::key::{deciphering_inputs, lent_key};
use independent::netlist::{
    self, gates, length, refusal, words_for, Answer, Counts, AND, HEADER_WORDS, MAX_GATES,
    MAX_INPUTS, MUX, NOT, ONE, XOR, ZERO,
};
use independent::random::{all_bits, biased, bits, of_weight, seeded, Random};
use independent::tally::Tally;
use independent::worked;

/// Words to lend where the length is not known; none of them is written here.
const ROOM: usize = words_for(MAX_GATES, 64);

/// What an accepted emission wrote. One word less would have been too little
/// room, and no other word is touched.
fn words(list: u32, emit: impl Fn(&mut [u32]) -> Answer) -> Vec<u32> {
    let mut result = vec![7; ROOM];
    assert_eq!(emit(&mut result), Answer::DONE);
    let length = length(&result);
    assert!(result[length..].iter().all(|&word| word == 7));
    result.truncate(length);
    assert_eq!(netlist::check(&result), Answer::DONE);
    for room in [0, HEADER_WORDS, length - 1] {
        let mut short = vec![7; room];
        assert_eq!(emit(&mut short), refusal(8, list, room));
        assert_eq!(short, vec![7; room]);
    }
    let mut exact = vec![7; length];
    assert_eq!(emit(&mut exact), Answer::DONE);
    assert_eq!(exact, result);
    result
}

fn one_hot_words(n: usize) -> Vec<u32> {
    words(1, |result| one_hot(n as u32, result))
}

fn threshold_words(d: usize, n: usize) -> Vec<u32> {
    words(1, |result| threshold(d as u32, n as u32, result))
}

fn emit(emission: &Emission, result: &mut [u32]) -> Answer {
    let call = &emission.call;
    decipher(
        call.instance,
        call.m,
        &call.indices,
        &call.whitening,
        result,
    )
}

fn decipher_words(emission: &Emission) -> Vec<u32> {
    words(3, |result| emit(emission, result))
}

fn evaluate(net: &[u32], inputs: &[u8]) -> Vec<u8> {
    let counts = Counts::of(net);
    let mut values = vec![9; counts.wires()];
    let mut outputs = vec![9; counts.outputs];
    let answer = netlist::evaluate(net, inputs, &mut values, &mut outputs);
    assert_eq!(answer, Answer::DONE);
    outputs
}

/// Multiplications, and the depth of each output.
fn meter(net: &[u32]) -> (usize, Vec<usize>) {
    let (metering, depths) = netlist::measure(net);
    let of_outputs: Vec<usize> = netlist::outputs(net)
        .iter()
        .map(|&wire| depths[wire as usize] as usize)
        .collect();
    assert_eq!(of_outputs.iter().max(), Some(&(metering.depth as usize)));
    (metering.multiplications as usize, of_outputs)
}

/// All inputs of up to ten bits, and some of more.
fn inputs(random: &mut Random, n: usize) -> Vec<Vec<u8>> {
    if n <= 10 {
        return all_bits(n);
    }
    let mut inputs = Vec::new();
    for weight in 0..=n {
        inputs.push(of_weight(random, n, weight));
        inputs.push(bits(random, n));
    }
    inputs
}

// ---- one-hot and threshold ----

/// The netlist that the printing program prints for "2 3".
#[test]
fn printed_netlist() {
    assert_eq!(threshold_words(2, 3), worked::THRESHOLD);
    assert_eq!(meter(&worked::THRESHOLD), (3, vec![2]));
}

#[test]
#[rustfmt::skip]
fn netlists_by_hand() {
    assert_eq!(one_hot_words(0), [0, 1, 1, ONE, 0, 0, 0, 0]);
    assert_eq!(one_hot_words(1), [1, 1, 2, NOT, 0, 0, 0, 1, 0]);
    assert_eq!(one_hot_words(2), worked::ONE_HOT);
    assert_eq!(one_hot_words(3), [
        3, 10, 4,
        NOT, 0, 0, 0,
        NOT, 1, 0, 0,
        AND, 3, 4, 0,
        MUX, 1, 0, 3,
        AND, 0, 1, 0,
        NOT, 2, 0, 0,
        AND, 5, 8, 0,
        MUX, 2, 6, 5,
        MUX, 2, 7, 6,
        AND, 7, 2, 0,
        9, 10, 11, 12,
    ]);
    assert_eq!(threshold_words(1, 0), [0, 1, 1, ZERO, 0, 0, 0, 0]);
    assert_eq!(threshold_words(2, 1), [1, 1, 1, ZERO, 0, 0, 0, 1]);
    assert_eq!(threshold_words(4, 3), [3, 1, 1, ZERO, 0, 0, 0, 3]);
    assert_eq!(threshold_words(1, 1), [1, 0, 1, 0]);
    assert_eq!(threshold_words(2, 2), [2, 1, 1, AND, 0, 1, 0, 2]);
    assert_eq!(threshold_words(1, 3), [
        3, 7, 1,
        NOT, 0, 0, 0,
        NOT, 1, 0, 0,
        AND, 3, 4, 0,
        AND, 3, 1, 0,
        XOR, 6, 0, 0,
        AND, 5, 2, 0,
        XOR, 8, 7, 0,
        9,
    ]);
    assert_eq!(threshold_words(3, 3), [
        3, 2, 1,
        AND, 0, 1, 0,
        AND, 3, 2, 0,
        4,
    ]);
    for (x, d, value) in worked::THRESHOLDS {
        assert_eq!(evaluate(&threshold_words(d, x.len()), x), [value]);
    }
    assert_eq!(evaluate(&one_hot_words(2), &[1, 0]), [0, 1, 0]);
    assert_eq!(evaluate(&one_hot_words(0), &[]), [1]);
}

/// Only the cell at the weight is 1.
#[test]
fn every_one_hot() {
    let mut random = seeded(301);
    for n in 0..=MAX_COUNTED {
        let net = one_hot_words(n);
        assert_eq!(net, definitions::netlist::one_hot(n));
        for x in inputs(&mut random, n) {
            let expected: Vec<u8> = (0..=n).map(|j| u8::from(j == weight(&x))).collect();
            assert_eq!(evaluate(&net, &x), expected);
        }
    }
}

/// 1 exactly if the weight is d or more, with multiplications and depth as the
/// formulas have them.
#[test]
fn every_threshold() {
    let mut random = seeded(302);
    for n in 0..=MAX_COUNTED {
        for d in 1..=n + 1 {
            let net = threshold_words(d, n);
            assert_eq!(net, definitions::netlist::threshold(d, n));
            let (multiplications, depth) = definitions::netlist::threshold_costs(d, n);
            assert_eq!(meter(&net), (multiplications, vec![depth]), "{d} of {n}");
            for x in inputs(&mut random, n) {
                assert_eq!(evaluate(&net, &x), [definitions::filter::threshold(&x, d)]);
            }
        }
    }
}

/// 13 for every other d and n, whatever the room.
#[test]
fn no_such_netlist() {
    let far = [65, 66, 70, 255, 256, 320, 1 << 16, 1 << 31, u32::MAX];
    for room in [0, 1, 100, 50_000] {
        let refused = |emit: &dyn Fn(&mut [u32]) -> Answer| {
            let mut result = vec![7; room];
            assert_eq!(emit(&mut result), refusal(13, 0, 0));
            assert_eq!(result, vec![7; room]);
        };
        for n in far {
            refused(&|result| one_hot(n, result));
            for d in [0, 1, 2, 64, n - 1, n, n.wrapping_add(1)] {
                refused(&|result| threshold(d, n, result));
            }
        }
        for n in 0..=64 {
            refused(&|result| threshold(0, n, result));
            for d in [n + 2, n + 3, 256, 256 + n, 1 << 31, u32::MAX] {
                refused(&|result| threshold(d, n, result));
            }
        }
    }
}

// ---- deciphering ----

/// Every instance at every length: the words are the definitions', and the
/// netlist gives the record back from the key and the enciphered record.
#[test]
fn every_instance_at_every_length() {
    let mut random = seeded(303);
    for instance in cipher_cases::instances() {
        for m in 1..=64 {
            if instance <= 4 && !(m <= 4 || m >= 63 || m % 9 == 0) {
                continue;
            }
            let emission = emission_cases::sound(&mut random, instance, m);
            let net = decipher_words(&emission);
            assert_eq!(net.len(), emission.words());
            assert!(net == emission.expected(), "instance {instance}, m {m}");
            assert_eq!(evaluate(&net, &emission.inputs()), emission.record());
            let (multiplications, depths) = meter(&net);
            let (expected, depth) = definitions::deciphering::costs(instance, m);
            assert_eq!(multiplications, expected);
            assert_eq!(depths.len(), m);
            if instance != 6 {
                assert!(depths.iter().all(|&of_bit| of_bit == depth));
            }
        }
    }
}

/// Random keys and records on one netlist: deciphered as the cipher does it.
#[test]
fn netlists_decipher() {
    let mut random = seeded(304);
    for instance in cipher_cases::instances() {
        for _ in 0..4 {
            let m = random.between(1, 6);
            let mut emission = emission_cases::sound(&mut random, instance, m);
            let net = decipher_words(&emission);
            for percent in [50, 50, 80, 95, 99, 100] {
                let key = biased(&mut random, sized(instance).key, percent);
                emission.call.key = lent_key(&key);
                let record = bits(&mut random, m);
                let inputs = deciphering_inputs(&emission.call.key, &record);
                emission.call.record = Some(record);
                assert_eq!(evaluate(&net, &inputs), emission.call.expected());
            }
        }
    }
}

/// The order of the gates of a bit, for a row of key bits in order with the
/// first and the last whitened.
#[test]
fn gates_of_a_bit() {
    let mut random = seeded(305);
    for instance in 3..=5 {
        let mut emission = emission_cases::sound(&mut random, instance, 1);
        let row = emission.call.indices.len();
        emission.call.indices = (0..row as u32).collect();
        emission.call.whitening.fill(0);
        emission.call.whitening[0] = 1;
        emission.call.whitening[row - 1] = 1;
        let net = decipher_words(&emission);
        let gates = gates(&net);
        let counts = Counts::of(&net);
        let (first, last) = (counts.inputs as u32, counts.wires() as u32 - 1);
        assert_eq!(gates[0], [NOT, 0, 0, 0]);
        assert_eq!(gates[1], [NOT, row as u32 - 1, 0, 0]);
        assert_eq!(gates[2], [XOR, first, 1, 0]);
        assert_eq!(gates[3], [XOR, first + 2, 2, 0]);
        assert_eq!(gates[gates.len() - 1], [XOR, last - 1, first - 1, 0]);
        assert_eq!(net[net.len() - 1], last);
        let sum = gates[gates.len() - 2];
        match instance {
            // The running sum, then the last product: its ANDs come between.
            3 => assert_eq!(sum, [XOR, last - 9, last - 2, 0]),
            4 => assert_eq!(sum, [XOR, last - 17, last - 2, 0]),
            // The sum of 81, then the threshold.
            _ => assert_eq!(sum, [XOR, first + 81, last - 2, 0]),
        }
        if instance != 5 {
            assert_eq!(gates[gates.len() - 3], [AND, last - 3, first + 1, 0]);
        }
    }
    // FLIP: nothing whitened. The pairs come after the linear ones.
    let mut emission = emission_cases::sound(&mut random, 1, 1);
    emission.call.indices = (0..530).collect();
    let net = decipher_words(&emission);
    let gates = gates(&net);
    assert_eq!(gates[0], [XOR, 0, 1, 0]);
    assert_eq!(gates[40], [XOR, 531 + 39, 41, 0]);
    assert_eq!(gates[41], [AND, 42, 43, 0]);
    assert_eq!(gates[42], [XOR, 531 + 40, 531 + 41, 0]);
    assert_eq!(gates[43], [AND, 44, 45, 0]);
    assert_eq!(gates[529], [XOR, 531 + 528, 530, 0]);
}

/// Kreyvium's gates are those of each round in order; 16,147 for one bit.
#[test]
fn gates_of_kreyvium() {
    let mut iv = vec![0; 128];
    iv[127] = 1;
    let net = words(3, |result| decipher(6, 1, &[], &iv, result));
    assert_eq!(net[..HEADER_WORDS], [129, 16_147, 1]);
    let gates = gates(&net);
    let (zero, one) = (129, 130);
    #[rustfmt::skip]
    let first_round = [
        [ZERO, 0, 0, 0],
        [ONE, 0, 0, 0],
        [XOR, 65, 92, 0],       // t1 = s66 + s93
        [XOR, zero, zero, 0],   // t2 = s162 + s177
        [XOR, one, zero, 0],    // s243 + s288
        [XOR, 133, 127, 0],     // t3, with K*0 = K127
        [AND, 90, 91, 0],       // s91 s92
        [XOR, 131, 135, 0],
        [XOR, 136, zero, 0],    // s171
        [XOR, 137, one, 0],     // IV*0 = IV127
        [AND, zero, zero, 0],   // s175 s176
        [XOR, 132, 139, 0],
        [XOR, 140, one, 0],     // s264
        [AND, one, one, 0],     // s286 s287
        [XOR, 134, 142, 0],
        [XOR, 143, 68, 0],      // s69
        [XOR, 64, 91, 0],       // the second round's t1
        [XOR, zero, zero, 0],
        [XOR, one, one, 0],
        [XOR, 147, 126, 0],     // K*0 = K126
    ];
    assert_eq!(gates[..first_round.len()], first_round);
    // The output comes after t3 of the last round, and before its products.
    let last = 131 + 14 * 1_152;
    let at = last as usize - 129;
    assert_eq!(gates[at + 4], [XOR, last, last + 1, 0]);
    assert_eq!(gates[at + 5], [XOR, last + 4, last + 3, 0]);
    assert_eq!(gates[at + 6], [XOR, last + 5, 128, 0]);
    assert_eq!(gates[at + 7][0], AND);
    assert_eq!(net[net.len() - 1], last + 6);
    assert_eq!(net.len(), words_for(16_147, 1));
}

/// Output bit t has depth at most (1,087 + t) / 82, rounded up; 12 up to bit
/// 41 and 13 beyond, whatever the IV.
#[test]
fn depths_of_kreyvium() {
    let mut random = seeded(306);
    for iv in [vec![0; 128], vec![1; 128], bits(&mut random, 128)] {
        let net = words(3, |result| decipher(6, 64, &[], &iv, result));
        let (multiplications, depths) = meter(&net);
        assert_eq!(multiplications, 3 * (1_152 + 64));
        for (t, depth) in depths.into_iter().enumerate() {
            assert!(depth <= (1_087 + t).div_ceil(82));
            assert_eq!(depth, if t <= 41 { 12 } else { 13 });
        }
    }
}

/// No deciphering netlist is too large to be one.
#[test]
fn largest_netlists() {
    for (instance, number) in INSTANCES.iter().zip(1..) {
        assert!(instance.key + 64 <= MAX_INPUTS);
        let words = definitions::deciphering::words(number, 64, 64 * instance.row);
        assert!(words <= words_for(MAX_GATES, 64));
    }
}

// ---- judging ----

/// With every condition holding, each is given in its turn.
#[test]
fn order_by_hand() {
    let ByHand {
        row,
        beyond,
        repeating,
        zeros,
        whitened,
        spoiled,
    } = by_hand();
    let answer = |instance, m, row: &[u32], white: &[u8], room| {
        decipher(instance, m, row, white, &mut vec![9; room])
    };
    let exact = words_for(530, 1);
    assert_eq!(answer(0, 0, &[530], &[2], 0), refusal(1, 0, 0));
    assert_eq!(answer(7, 65, &[530], &[2], 0), refusal(1, 0, 0));
    assert_eq!(answer(1, 0, &[530], &[2], 0), refusal(2, 0, 0));
    assert_eq!(answer(1, 65, &[530], &[2], 0), refusal(2, 0, 0));
    assert_eq!(answer(1, 1, &[530], &[2], 0), refusal(3, 1, 1));
    assert_eq!(answer(1, 1, &beyond, &[2], 0), refusal(3, 2, 1));
    assert_eq!(answer(1, 1, &beyond, &spoiled, 0), refusal(4, 2, 501));
    assert_eq!(answer(1, 1, &beyond, &whitened, 0), refusal(5, 1, 9));
    assert_eq!(answer(1, 1, &repeating, &whitened, 0), refusal(6, 1, 7));
    assert_eq!(answer(1, 1, &row, &whitened, 0), refusal(7, 2, 500));
    assert_eq!(answer(1, 1, &row, &zeros, 0), refusal(8, 3, 0));
    assert_eq!(
        answer(1, 1, &row, &zeros, exact - 1),
        refusal(8, 3, exact - 1)
    );
    assert_eq!(answer(1, 1, &row, &zeros, exact), Answer::DONE);
    // Kreyvium takes no indices, and its IV in place of whitening.
    let iv = [1; 128];
    let exact = words_for(16_147, 1);
    assert_eq!(answer(6, 1, &[0], &[2; 127], 0), refusal(3, 1, 1));
    assert_eq!(answer(6, 1, &[], &[2; 127], 0), refusal(3, 2, 127));
    assert_eq!(answer(6, 1, &[], &[2; 128], 0), refusal(4, 2, 0));
    assert_eq!(answer(6, 1, &[], &iv, exact - 1), refusal(8, 3, exact - 1));
    assert_eq!(answer(6, 1, &[], &iv, exact), Answer::DONE);
}

/// Hands it over, and again with nested loops; the answer, with the result
/// list as it has to be then.
fn judged(emission: &Emission) -> Answer {
    let mut result = emission.result.clone();
    let answer = emit(emission, &mut result);
    let call = &emission.call;
    let mut again = emission.result.clone();
    let nested = decipher_with(
        call.instance,
        call.m,
        &call.indices,
        &call.whitening,
        &mut again,
        by_nested_loops,
    );
    assert_eq!(nested, answer);
    assert!(again == result);
    if answer == Answer::DONE {
        let expected = emission.expected();
        let (front, rest) = result.split_at(expected.len());
        assert!(front == expected && rest == &emission.result[expected.len()..]);
    } else {
        assert!(result == emission.result);
    }
    answer
}

#[test]
fn single_faults_at_known_places() {
    let mut random = seeded(307);
    for fault in FAULTS {
        for instance in cipher_cases::instances() {
            if !fault.suits(instance, true) {
                continue;
            }
            for _ in 0..8 {
                let m = random.between(1, 3);
                let mut emission = emission_cases::sound(&mut random, instance, m);
                let held = emission_cases::inflict(&mut random, &mut emission, fault);
                assert_eq!(judged(&emission), held.into(), "{fault:?}");
                assert_eq!(emission.conditions().first(), Some(&held), "{fault:?}");
            }
        }
    }
}

/// The judging agrees with the least of all that holds.
#[test]
fn damaged_emissions() {
    let mut random = seeded(308);
    let mut tally = Tally::default();
    for _ in 0..3_000 {
        let (instance, m) = cipher_cases::size(&mut random);
        let mut emission = emission_cases::sound(&mut random, instance, m.min(4));
        if random.chance(70) {
            let count = random.pick(&[1, 2, 2, 3, 5]);
            emission_cases::inflict_several(&mut random, &mut emission, count);
        } else {
            for _ in 0..random.between(1, 4) {
                emission_cases::wreck(&mut random, &mut emission);
            }
        }
        let answer = judged(&emission);
        let expected = least(&emission.conditions());
        assert_eq!(answer, expected, "{:?}", emission.call);
        tally.count(answer);
    }
    tally.assert_each([(0, 0), (1, 0), (2, 0), (3, 1), (3, 2)], 50);
    tally.assert_each([(4, 2), (5, 1), (6, 1), (7, 2), (8, 3)], 50);
}
