//! Holds the Rust ciphers and the choice to published values, to values found
//! by hand, and to themselves: each is written at least twice. The library is
//! not called.

use independent::choice::{self, choose};
use independent::cipher::{
    self, by_marks, by_nested_loops, decipher, encipher, keystream, Instance, INSTANCES,
};
use independent::cipher_cases::{self, by_hand, ByHand, Call, CHOICE_FAULTS, FAULTS};
use independent::definitions::cipher::{sizes, sizes_of};
use independent::definitions::filter::degrees;
use independent::definitions::{self, least};
use independent::filter;
use independent::key::lent_key;
use independent::kreyvium::{self, by_recurrences, by_rounds, first_word, pack, unpack, Rounds};
use independent::netlist::{refusal, Answer};
use independent::random::{biased, bits, of_weight, seeded, Random};
use independent::tally::Tally;
use independent::worked;

/// Evenly or mostly ones: long products of even bits are nearly always 0.
fn variables(random: &mut Random, length: usize) -> Vec<u8> {
    let percent = random.pick(&[50, 80, 95, 99]);
    biased(random, length, percent)
}

// ---- Kreyvium ----

#[test]
fn published_vector() {
    let zeros = [0; 128];
    let published = worked::keystream();
    let word = first_word(pack(&zeros), pack(&zeros));
    assert_eq!(unpack(word), published);
    let mut stream = [9; 64];
    by_rounds(&zeros, &zeros, &mut stream);
    assert_eq!(stream, published);
    let mut stream = [9; 64];
    by_recurrences(&zeros, &zeros, &mut stream);
    assert_eq!(stream, published);
    let mut stream = [9; 64];
    let answer = keystream(6, 64, &lent_key(&zeros), &[], &zeros, &mut stream);
    assert_eq!(answer, Answer::DONE);
    assert_eq!(stream, published);
}

fn all_three_ways(key: &[u8; 128], iv: &[u8; 128], blocks: usize) -> Vec<u8> {
    let mut rounds = Rounds::new(key, iv);
    for _ in 0..kreyvium::SILENT / 64 {
        rounds.block();
    }
    let mut stream = Vec::new();
    for _ in 0..blocks {
        let word = rounds.block();
        stream.extend((0..64).map(|bit| (word >> bit & 1) as u8));
    }
    let mut other = vec![9; 64 * blocks];
    by_rounds(key, iv, &mut other);
    assert_eq!(stream, other);
    other.fill(9);
    by_recurrences(key, iv, &mut other);
    assert_eq!(stream, other);
    let mut first = [9; 64];
    let answer = keystream(6, 64, &lent_key(key), &[], iv, &mut first);
    assert_eq!(answer, Answer::DONE);
    assert_eq!(stream[..64], first);
    stream
}

#[test]
fn kreyvium_three_ways() {
    let mut random = seeded(101);
    for _ in 0..100 {
        let key = bits(&mut random, 128).try_into().expect("128");
        let iv = bits(&mut random, 128).try_into().expect("128");
        let stream = all_three_ways(&key, &iv, 16);
        let ones = stream.iter().filter(|&&bit| bit == 1).count();
        assert!((300..=724).contains(&ones), "{ones} ones of 1,024");
    }
}

/// Each key bit and each IV bit alone; every one of them counts.
#[test]
fn kreyvium_single_bits() {
    let zeros = [0; 128];
    let mut streams = vec![all_three_ways(&zeros, &zeros, 1)];
    for place in 0..128 {
        let mut one = zeros;
        one[place] = 1;
        streams.push(all_three_ways(&one, &zeros, 1));
        streams.push(all_three_ways(&zeros, &one, 1));
    }
    streams.sort();
    streams.dedup();
    assert_eq!(streams.len(), 257);
}

// ---- filters ----

#[test]
fn thresholds_by_hand() {
    for (x, d, value) in worked::THRESHOLDS {
        assert_eq!(definitions::filter::threshold(x, d), value);
        assert_eq!(filter::threshold(x, d), value);
    }
    // 2 is a power of 2, and 3 is 2 * 2 - 1.
    assert_eq!(definitions::filter::symmetric(&[0, 1, 1], 2), 1);
    assert_eq!(definitions::filter::symmetric(&[1, 0, 0], 2), 0);
    // Two variables and a threshold of 2 on three.
    assert_eq!(
        definitions::filter::xor_threshold(&[1, 0, 0, 1, 1], 2, 2),
        0
    );
}

#[test]
fn monomials_by_hand() {
    // One of degree 1 and one of degree 2.
    assert_eq!(definitions::filter::direct_sum(&[1, 1, 1], &[1, 1]), 0);
    assert_eq!(definitions::filter::by_degrees(&[1, 1, 1], &[1, 2]), 0);
    assert_eq!(
        filter::monomials::<1>(&[1]) ^ filter::monomials::<2>(&[1, 1]),
        0
    );
    for (x, value) in [
        ([0, 1, 1], 1),
        ([1, 0, 1], 1),
        ([1, 1, 0], 1),
        ([1, 1, 1], 0),
        ([0, 0, 1], 0),
    ] {
        assert_eq!(definitions::filter::triangular(&x, 2), value);
        assert_eq!(definitions::filter::by_degrees(&x, &[1, 2]), value);
        let rest = &mut &x[..];
        assert_eq!(filter::take::<1>(rest) ^ filter::take::<2>(rest), value);
        assert!(rest.is_empty());
    }
}

/// T4 is x0 + x1x2 + x3x4x5 + x6x7x8x9.
#[test]
fn triangle_of_degree_four() {
    for number in 0..1 << 10 {
        let x: [u8; 10] = std::array::from_fn(|j| (number >> j & 1) as u8);
        let value = x[0] ^ x[1] & x[2] ^ x[3] & x[4] & x[5] ^ x[6] & x[7] & x[8] & x[9];
        assert_eq!(definitions::filter::triangular(&x, 4), value);
        assert_eq!(definitions::filter::by_degrees(&x, &[1, 2, 3, 4]), value);
        let rest = &mut &x[..];
        let taken = filter::take::<1>(rest) ^ filter::take::<2>(rest);
        let taken = taken ^ filter::take::<3>(rest) ^ filter::take::<4>(rest);
        assert_eq!(taken, value);
    }
}

/// The whitening bit is taken by the place in the row, not by the key index.
#[test]
fn variables_by_hand() {
    let (key, row, whitening) = (lent_key(&[0, 1, 1]), [2, 0, 1], [1, 0, 0]);
    let variables = definitions::cipher::variables(&key, &row, &whitening);
    assert_eq!(variables, [0, 0, 1]);
    let mut x = [9; 3];
    cipher::variables(&key, &row, &whitening, &mut x);
    assert_eq!(x, [0, 0, 1]);
}

#[test]
fn triangles_of_the_filters() {
    let mut random = seeded(110);
    for _ in 0..2_000 {
        let x = variables(&mut random, 200);
        let mut rest = &x[..];
        let value = definitions::filter::triangular(&x, 9);
        assert_eq!(filter::take_triangle_9(&mut rest), value);
        assert_eq!(rest, &x[45..]);
        let value = definitions::filter::triangular(&x[45..], 16);
        assert_eq!(filter::take_triangle_16(&mut rest), value);
        assert_eq!(rest, &x[45 + 136..]);
    }
}

/// The degrees use up the row, and need as many multiplications, and as deep,
/// as the table of filters has.
#[test]
fn degrees_of_the_filters() {
    for (instance, multiplications, depth) in
        [(1, 352, 8), (2, 1_072, 15), (3, 864, 7), (4, 1_024, 15)]
    {
        let degrees = degrees(instance);
        let (_, row) = sizes_of(instance);
        assert_eq!(degrees.iter().sum::<usize>(), row);
        let products: usize = degrees.iter().map(|degree| degree - 1).sum();
        assert_eq!(products, multiplications);
        assert_eq!(degrees.into_iter().max(), Some(depth + 1));
    }
}

fn fast_filter(instance: u32, x: &[u8]) -> u8 {
    match instance {
        1 => filter::flip_530(x),
        2 => filter::flip_1394(x),
        3 => filter::filip_1216(x),
        4 => filter::filip_1280(x),
        _ => filter::filip_144(x),
    }
}

#[test]
fn filters_three_ways() {
    let mut random = seeded(102);
    for instance in 1..=4 {
        let degrees = degrees(instance);
        let (_, row) = sizes_of(instance);
        let mut ones = 0;
        for _ in 0..2_000 {
            let x = variables(&mut random, row);
            let value = definitions::filter::value(instance, &x);
            assert_eq!(definitions::filter::by_degrees(&x, &degrees), value);
            assert_eq!(fast_filter(instance, &x), value);
            ones += usize::from(value);
        }
        assert!((600..=1_400).contains(&ones), "{ones} ones of 2,000");
    }
}

/// The variables of one monomial alone make the filter 1; with one of them
/// cleared it is 0, and with any other set it is not that monomial's.
#[test]
fn each_monomial_alone() {
    for instance in 1..=4 {
        let (_, row) = sizes_of(instance);
        let mut begin = 0;
        for degree in degrees(instance) {
            let mut x = vec![0; row];
            x[begin..begin + degree].fill(1);
            assert_eq!(fast_filter(instance, &x), 1);
            assert_eq!(definitions::filter::value(instance, &x), 1);
            for place in begin..begin + degree {
                x[place] = 0;
                assert_eq!(fast_filter(instance, &x), 0);
                assert_eq!(definitions::filter::value(instance, &x), 0);
                x[place] = 1;
            }
            begin += degree;
        }
        assert_eq!(begin, row);
    }
}

#[test]
fn threshold_at_every_weight() {
    let mut random = seeded(103);
    for weight in 0..=63 {
        for _ in 0..20 {
            let counted = of_weight(&mut random, 63, weight);
            let reached = u8::from(weight >= 32);
            assert_eq!(definitions::filter::threshold(&counted, 32), reached);
            assert_eq!(definitions::filter::symmetric(&counted, 32), reached);
            let summed = bits(&mut random, 81);
            let sum = summed.iter().sum::<u8>() % 2;
            let x = [&summed[..], &counted].concat();
            assert_eq!(fast_filter(5, &x), sum ^ reached);
            assert_eq!(definitions::filter::value(5, &x), sum ^ reached);
        }
    }
}

// ---- calls ----

#[test]
fn both_tables_of_instances() {
    for (instance, number) in INSTANCES.iter().zip(1..) {
        assert_eq!(sizes(number), Some((instance.key, instance.row)));
        assert!(instance.key <= cipher::MAX_KEY && instance.row <= cipher::MAX_ROW);
    }
    for number in [0, 7, u32::MAX] {
        assert!(Instance::numbered(number).is_none());
        assert_eq!(sizes(number), None);
    }
}

/// Runs a call and returns what it left of the result.
fn run(call: &Call) -> (Answer, Vec<u8>) {
    let mut result = call.result.clone();
    let answer = cipher::run(
        call.instance,
        call.m,
        &call.lists(),
        &mut result,
        cipher::by_marks,
    );
    (answer, result)
}

#[test]
fn every_instance_at_every_length() {
    let mut random = seeded(104);
    for instance in cipher_cases::instances() {
        for m in 1..=64 {
            for with_record in [false, true] {
                let call = cipher_cases::sound(&mut random, instance, m, with_record);
                let (answer, result) = run(&call);
                assert_eq!(answer, Answer::DONE);
                assert_eq!(result[..m], call.expected());
                assert_eq!(result[m..], call.result[m..]);
            }
        }
    }
}

#[test]
fn deciphering_undoes_enciphering() {
    let mut random = seeded(105);
    for _ in 0..300 {
        let (instance, m) = cipher_cases::size(&mut random);
        let call = cipher_cases::sound(&mut random, instance, m, true);
        let record = call.record();
        let (key, indices, whitening) = (&call.key, &call.indices, &call.whitening);
        let bits = m as u32;
        let mut stream = vec![9; m];
        let answer = keystream(instance, bits, key, indices, whitening, &mut stream);
        assert_eq!(answer, Answer::DONE);
        let mut there = vec![9; m];
        let answer = encipher(instance, bits, key, record, indices, whitening, &mut there);
        assert_eq!(answer, Answer::DONE);
        for at in 0..m {
            assert_eq!(there[at], record[at] ^ stream[at]);
        }
        let mut back = vec![9; m];
        let answer = decipher(instance, bits, key, &there, indices, whitening, &mut back);
        assert_eq!(answer, Answer::DONE);
        assert_eq!(back, record);
    }
}

/// With every condition holding, each is given in its turn.
#[test]
fn order_by_hand() {
    let ByHand {
        row,
        beyond,
        repeating,
        zeros,
        whitened,
        spoiled,
    } = by_hand();
    let key = lent_key(&zeros);
    let call = |instance, m, key: &[u8], record: &[u8], row: &[u32], white: &[u8], room| {
        encipher(instance, m, key, record, row, white, &mut vec![9; room])
    };
    let bad = |instance, m| call(instance, m, &[2], &[2; 2], &[530], &[2], 0);
    assert_eq!(bad(0, 0), refusal(1, 0, 0));
    assert_eq!(bad(7, 65), refusal(1, 0, 0));
    assert_eq!(bad(1, 0), refusal(2, 0, 0));
    assert_eq!(bad(1, 65), refusal(2, 0, 0));
    assert_eq!(bad(1, 1), refusal(3, 1, 1));
    let long = vec![2; 530];
    assert_eq!(
        call(1, 1, &long, &[2; 2], &[530], &[2], 0),
        refusal(3, 2, 2)
    );
    assert_eq!(call(1, 1, &long, &[2], &[530], &[2], 0), refusal(3, 3, 1));
    assert_eq!(call(1, 1, &long, &[2], &beyond, &[2], 0), refusal(3, 4, 1));
    assert_eq!(
        call(1, 1, &long, &[2], &beyond, &spoiled, 0),
        refusal(4, 1, 0)
    );
    assert_eq!(
        call(1, 1, &key, &[2], &beyond, &spoiled, 0),
        refusal(4, 2, 0)
    );
    assert_eq!(
        call(1, 1, &key, &[1], &beyond, &spoiled, 0),
        refusal(4, 4, 501)
    );
    assert_eq!(
        call(1, 1, &key, &[1], &beyond, &whitened, 0),
        refusal(5, 3, 9)
    );
    assert_eq!(
        call(1, 1, &key, &[1], &repeating, &whitened, 0),
        refusal(6, 3, 7)
    );
    assert_eq!(
        call(1, 1, &key, &[1], &row, &whitened, 0),
        refusal(7, 4, 500)
    );
    assert_eq!(call(1, 1, &key, &[1], &row, &zeros, 0), refusal(8, 5, 0));
    assert_eq!(call(1, 1, &key, &[1], &row, &zeros, 1), Answer::DONE);
    // Without a record the later lists are counted one lower.
    let stream = |key: &[u8], row: &[u32], white: &[u8], room| {
        keystream(1, 1, key, row, white, &mut vec![9; room])
    };
    assert_eq!(stream(&key, &[530], &[2], 0), refusal(3, 2, 1));
    assert_eq!(stream(&key, &beyond, &[2], 0), refusal(3, 3, 1));
    assert_eq!(stream(&key, &beyond, &spoiled, 0), refusal(4, 3, 501));
    assert_eq!(stream(&key, &beyond, &whitened, 0), refusal(5, 2, 9));
    assert_eq!(stream(&key, &repeating, &whitened, 0), refusal(6, 2, 7));
    assert_eq!(stream(&key, &row, &whitened, 0), refusal(7, 3, 500));
    assert_eq!(stream(&key, &row, &zeros, 0), refusal(8, 4, 0));
    assert_eq!(stream(&key, &row, &zeros, 1), Answer::DONE);
}

/// The earliest place that holds an index seen before in its row, and none
/// across rows.
#[test]
fn repeats_by_hand() {
    for (indices, place) in [
        (&[0, 1, 2, 3][..], None),
        (&[0, 1, 0, 1], None),
        (&[5, 5, 1, 2], Some(1)),
        (&[5, 6, 1, 1], Some(3)),
        (&[7, 8, 8, 7], None),
        (&[1, 1, 1, 1], Some(1)),
    ] {
        assert_eq!(by_marks(indices, 2), place);
        assert_eq!(by_nested_loops(indices, 2), place);
    }
    for (indices, place) in [
        (&[7, 8, 8, 7][..], Some(2)),
        (&[7, 8, 9, 7], Some(3)),
        (&[7, 7, 7, 7], Some(1)),
        (&[1, 2, 3, 4, 4, 3, 2, 1], None),
        (&[1, 2, 3, 4, 4, 3, 2, 4], Some(7)),
        (&[1, 2, 3, 4, 4, 3, 3, 4], Some(6)),
    ] {
        assert_eq!(by_marks(indices, 4), place);
        assert_eq!(by_nested_loops(indices, 4), place);
    }
}

/// Every kind of fault alone, with its place known from how it was made.
#[test]
fn single_faults_at_known_places() {
    let mut random = seeded(106);
    for fault in FAULTS {
        for instance in cipher_cases::instances() {
            for with_record in [false, true] {
                if !fault.suits(instance, with_record) {
                    continue;
                }
                for _ in 0..12 {
                    let m = random.between(1, 3);
                    let mut call = cipher_cases::sound(&mut random, instance, m, with_record);
                    let held = cipher_cases::inflict(&mut random, &mut call, fault);
                    let (answer, result) = run(&call);
                    assert_eq!(answer, held.into(), "{fault:?}");
                    assert_eq!(call.conditions().first(), Some(&held));
                    assert_eq!(result, call.result);
                }
            }
        }
    }
}

/// The judging agrees with the least of all that holds, whichever way repeated
/// indices are found.
#[test]
fn damaged_calls() {
    let mut random = seeded(107);
    let mut tally = Tally::default();
    for _ in 0..6_000 {
        let (instance, m) = cipher_cases::size(&mut random);
        let with_record = random.chance(60);
        let mut call = cipher_cases::sound(&mut random, instance, m.min(12), with_record);
        if random.chance(70) {
            let count = random.pick(&[1, 2, 2, 3, 5]);
            cipher_cases::inflict_several(&mut random, &mut call, count);
        } else {
            for _ in 0..random.between(1, 4) {
                cipher_cases::wreck(&mut random, &mut call);
            }
        }
        let (answer, result) = run(&call);
        assert_eq!(answer, least(&call.conditions()), "{call:?}");
        if answer == Answer::DONE {
            let bits = call.expected();
            assert_eq!(result[..bits.len()], bits);
            assert_eq!(result[bits.len()..], call.result[bits.len()..]);
        } else {
            assert_eq!(result, call.result);
        }
        let mut again = call.result.clone();
        let lists = call.lists();
        let by_loops = cipher::run(call.instance, call.m, &lists, &mut again, by_nested_loops);
        assert_eq!((by_loops, again), (answer, result));
        tally.count(answer);
    }
    let often = [(0, 0), (1, 0), (2, 0), (3, 1), (4, 1), (6, 2), (6, 3)];
    tally.assert_each(often, 50);
    let less_often = [(3, 4), (4, 2), (4, 4), (5, 3), (7, 4), (8, 4), (8, 5)];
    tally.assert_each(less_often, 20);
}

// ---- choice ----

#[test]
fn choice_by_hand() {
    assert_eq!(definitions::choice::row(4, &[2, 2, 0]), [2, 3, 0]);
    let mut row = [9; 3];
    choice::pick::<4>(&[2, 2, 0], &mut row);
    assert_eq!(row, [2, 3, 0]);
    // Nothing moves, or the last always comes to the front.
    let mut row = vec![9; 531];
    assert_eq!(choose(1, &[0; 530], &mut row), Answer::DONE);
    assert!(row[..530].iter().copied().eq(0..530));
    assert_eq!(row[530], 9);
    let draws: Vec<u32> = (0..530).map(|i| 529 - i).collect();
    assert_eq!(choose(1, &draws, &mut row), Answer::DONE);
    assert!(row[1..530].iter().copied().eq(0..529));
    assert_eq!((row[0], row[530]), (529, 9));
}

#[test]
fn choice_order_by_hand() {
    let answer = |instance, draws: &[u32], room| choose(instance, draws, &mut vec![9; room]);
    let mut draws = vec![0; 144];
    draws[143] = 16_241;
    draws[2] = 16_382;
    for instance in [0, 6, 7, u32::MAX] {
        assert_eq!(answer(instance, &draws[1..], 143), refusal(1, 0, 0));
    }
    assert_eq!(answer(5, &draws[1..], 143), refusal(3, 1, 143));
    assert_eq!(answer(5, &draws, 143), refusal(8, 2, 143));
    assert_eq!(answer(5, &draws, 144), refusal(14, 1, 2));
    draws[2] = 16_381;
    assert_eq!(answer(5, &draws, 144), refusal(14, 1, 143));
    draws[143] = 16_240;
    assert_eq!(answer(5, &draws, 144), Answer::DONE);
}

#[test]
fn choices_two_ways() {
    let mut random = seeded(108);
    let mut tally = Tally::default();
    for _ in 0..4_000 {
        let instance = random.between(1, 5) as u32;
        let mut case = cipher_cases::sound_choice(&mut random, instance);
        if random.chance(60) {
            let count = random.pick(&[1, 2, 4]);
            cipher_cases::inflict_several_on_choice(&mut random, &mut case, count);
        }
        let mut row = case.row.clone();
        let answer = choose(case.instance, &case.draws, &mut row);
        assert_eq!(answer, least(&case.conditions()));
        tally.count(answer);
        if answer != Answer::DONE {
            assert_eq!(row, case.row);
            continue;
        }
        let chosen = case.expected();
        assert_eq!(row[..chosen.len()], chosen);
        assert_eq!(row[chosen.len()..], case.row[chosen.len()..]);
        assert_eq!(by_marks(&chosen, chosen.len()), None);
    }
    tally.assert_each([(0, 0), (1, 0), (3, 1), (8, 2), (14, 1)], 200);
    for fault in CHOICE_FAULTS {
        for instance in 1..=5 {
            let mut case = cipher_cases::sound_choice(&mut random, instance);
            let held = cipher_cases::inflict_choice(&mut random, &mut case, fault);
            let answer = choose(case.instance, &case.draws, &mut case.row);
            assert_eq!(answer, held.into(), "{fault:?}");
        }
    }
}

/// A chosen row is one that the cipher calls take.
#[test]
fn chosen_rows_encipher() {
    let mut random = seeded(109);
    for instance in 1..=5 {
        let mut call = cipher_cases::sound(&mut random, instance, 2, true);
        call.indices.clear();
        for _ in 0..2 {
            let mut case = cipher_cases::sound_choice(&mut random, instance);
            let answer = choose(instance, &case.draws, &mut case.row);
            assert_eq!(answer, Answer::DONE);
            call.indices.extend(&case.row[..case.draws.len()]);
        }
        let (answer, result) = run(&call);
        assert_eq!(answer, Answer::DONE);
        assert_eq!(result[..2], call.expected());
    }
}
