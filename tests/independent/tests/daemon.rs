//! Hands the daemon's library and the Rust program the same lists, sound and
//! damaged, and compares the packed answer and the lent lists. Both are held to
//! the definitions.

use independent::both::daemon::{check_file, encipher};
use independent::cases::{self, LARGEST};
use independent::cipher_cases::{self, Call, Fault, List};
use independent::daemon::{packed, unpacked, MOST_PLACE};
use independent::definitions::file::{bytes, conditions as file_conditions, Stage};
use independent::definitions::{least, netlist, Condition};
use independent::faults::{inflict_each, several};
use independent::file_cases::{self, FAULTS as FILE_FAULTS};
use independent::key::lent_key;
use independent::lent::show;
use independent::netlist::{refusal, Answer};
use independent::random::{bits, fill, seeded, Random};
use independent::stack::on_stacks;
use independent::tally::{self, without_places, Tally};
use independent::worked;
use independent::{daemon, sallowknot};
use std::collections::BTreeSet;

/// Random encipherings, and random checks of files.
const CASES: usize = 40_000;

#[test]
fn packing() {
    assert_eq!(packed(Answer::DONE), 0);
    assert_eq!(packed(refusal(2, 0, 0)), 2);
    assert_eq!(packed(refusal(8, 4, 63)), 0x003F_0408);
    assert_eq!(packed(refusal(12, 1, 0x12_3456)), 0x12_3456_010C);
    let most = MOST_PLACE as usize;
    assert_eq!(packed(refusal(3, 1, most - 1)), 0xFFFF_FFFF_FFFE_0103);
    for place in [most, most + 1, most + 2, 2 * most, usize::MAX] {
        assert_eq!(packed(refusal(3, 1, place)), 0xFFFF_FFFF_FFFF_0103);
    }
    for answer in [
        Answer::DONE,
        refusal(4, 3, 127),
        refusal(9, 1, 1_052_674),
        refusal(12, 1, 3_956_749),
    ] {
        assert_eq!(unpacked(packed(answer)), answer);
    }
}

// ---- enciphering ----

/// Kreyvium's lists, of which the daemon's call has no indices.
fn sound(random: &mut Random, m: usize) -> Call {
    cipher_cases::sound(random, 6, m, true)
}

/// A condition as the daemon's call counts the lists.
fn counted((number, list, place): Condition) -> Condition {
    (number, if list > 3 { list - 1 } else { list }, place)
}

/// All that holds against the call.
fn conditions(call: &Call) -> BTreeSet<Condition> {
    call.conditions().into_iter().map(counted).collect()
}

/// The bits of a sound call, which are the definitions'.
fn enciphered(call: &Call) -> Vec<u8> {
    let (answer, mut result) = encipher(call);
    assert_eq!(answer, Answer::DONE);
    result.truncate(call.m as usize);
    assert_eq!(result, call.expected());
    result
}

/// Key and IV all zero.
#[test]
fn published_vector() {
    let zeros = [0; 128];
    let call = Call::kreyvium(64, &zeros, Some(vec![0; 64]), &zeros);
    assert_eq!(enciphered(&call), worked::keystream());
}

#[test]
fn every_number_of_bits() {
    let mut random = seeded(501);
    for m in 1..=64 {
        for _ in 0..20 {
            let mut call = sound(&mut random, m);
            let record = call.record.clone();
            let result = enciphered(&call);
            // Enciphered once more, it is the record.
            call.record = Some(result);
            assert_eq!(Some(enciphered(&call)), record);
        }
    }
    for m in [
        0,
        65,
        66,
        128,
        255,
        256,
        257,
        65_537,
        1 << 31,
        u32::MAX - 1,
        u32::MAX,
    ] {
        let mut call = sound(&mut random, 1);
        call.m = m;
        for length in [0, 1, 65, 66] {
            call.record = Some(vec![1; length]);
            for room in [0, 1, 100] {
                call.result = vec![9; room];
                assert_eq!(encipher(&call).0, refusal(2, 0, 0));
            }
        }
    }
}

/// The lists that the call reads, and how it counts them.
const LISTS: [(List, u32); 3] = [(List::Key, 1), (List::Record, 2), (List::Whitening, 3)];

#[test]
fn every_list_length() {
    let mut random = seeded(502);
    for m in [1, 2, 63, 64] {
        let sound = sound(&mut random, m);
        for (list, number) in LISTS {
            let exact = list.length(&sound);
            for length in (0..=140).chain([255, 256, 257, 65_535, 65_536, 65_537, 70_000]) {
                let mut call = sound.clone();
                list.bits(&mut call).resize(length, 0);
                let expected = match length == exact {
                    true => Answer::DONE,
                    false => refusal(3, number, length),
                };
                assert_eq!(encipher(&call).0, expected);
            }
        }
        for room in (0..=70).chain([256, 70_000]) {
            let call = Call {
                result: fill(&mut random, room),
                ..sound.clone()
            };
            let (answer, result) = encipher(&call);
            if room < m {
                assert_eq!(answer, refusal(8, 4, room));
                assert_eq!(result, call.result);
            } else {
                assert_eq!(answer, Answer::DONE);
                assert_eq!(result[..m], call.expected());
                assert_eq!(result[m..], call.result[m..]);
            }
        }
    }
}

#[test]
fn every_place_of_a_bit() {
    let mut random = seeded(503);
    let sound = sound(&mut random, 64);
    for (list, number) in LISTS {
        for place in 0..list.length(&sound) {
            for byte in [2, 3, 4, 127, 128, 129, 254, 255] {
                let mut call = sound.clone();
                list.bits(&mut call)[place] = byte;
                assert_eq!(encipher(&call).0, refusal(4, number, place));
            }
            // Either bit is one.
            let mut call = sound.clone();
            list.bits(&mut call)[place] ^= 1;
            enciphered(&call);
        }
    }
}

/// The faults that the call can have, in the order in which they are judged.
const FAULTS: [Fault; 8] = [
    Fault::Bits,
    Fault::Length(List::Key),
    Fault::Length(List::Record),
    Fault::Length(List::Whitening),
    Fault::NotBit(List::Key),
    Fault::NotBit(List::Record),
    Fault::NotBit(List::Whitening),
    Fault::Room,
];

const ORDER: [tally::Condition; 8] = [
    (2, 0),
    (3, 1),
    (3, 2),
    (3, 3),
    (4, 1),
    (4, 2),
    (4, 3),
    (8, 4),
];

/// Every kind of fault alone, then one after the other, the ones judged first
/// going in last.
#[test]
fn each_fault_in_its_turn() {
    let mut random = seeded(504);
    for _ in 0..300 {
        let m = random.between(1, 64);
        for fault in FAULTS {
            let mut call = sound(&mut random, m);
            let held = counted(cipher_cases::inflict(&mut random, &mut call, fault));
            let (answer, result) = encipher(&call);
            assert_eq!(answer, held.into(), "{fault:?}");
            assert_eq!(result, call.result);
        }
        let mut call = sound(&mut random, m);
        for fault in FAULTS.into_iter().rev() {
            let held = counted(cipher_cases::inflict(&mut random, &mut call, fault));
            assert_eq!(encipher(&call).0, held.into(), "{fault:?}");
        }
    }
}

/// Several faults in a sound call; all that then holds, also what would, were
/// there such a number of bits.
fn inflict_several(random: &mut Random, call: &mut Call, count: usize) -> BTreeSet<Condition> {
    let faults = several(count, || random.pick(&FAULTS));
    let hides = |fault| fault == Fault::Bits;
    inflict_each(call, faults, hides, conditions, |call, fault| {
        counted(cipher_cases::inflict(random, call, fault))
    })
}

#[test]
fn random_encipherings() {
    let mut random = seeded(505);
    let mut tally = Tally::default();
    for _ in 0..CASES {
        let m = random.between(1, 64);
        let mut call = sound(&mut random, m);
        let held = match random.below(10) {
            0..=2 => BTreeSet::new(),
            3..=7 => {
                let count = random.pick(&[1, 1, 2, 2, 3, 5]);
                inflict_several(&mut random, &mut call, count)
            }
            _ => {
                for _ in 0..random.between(1, 4) {
                    cipher_cases::wreck(&mut random, &mut call);
                }
                // What is not handed in does not count.
                call.instance = 6;
                call.indices.clear();
                conditions(&call)
            }
        };
        let (answer, result) = encipher(&call);
        assert_eq!(answer, least(&held));
        if answer == Answer::DONE {
            assert_eq!(result[..call.m as usize], call.expected());
        }
        tally.judge(&without_places(&held), answer);
    }
    tally.assert_seen(0, 0, CASES / 5);
    tally.assert_each(ORDER, CASES / 100);
    tally.assert_order(&ORDER, CASES / 1_000);
}

// ---- checking a file ----

/// Has both programs check the file: the answer is the definitions', and never
/// that of too little room.
fn check(source: &[u8]) -> Answer {
    let held = file_conditions(source, usize::MAX);
    assert!(held.iter().all(|held| held.0 != Stage::Room));
    let answer = check_file(source);
    assert_eq!(answer, least(&held), "check of {}", show(source));
    answer
}

#[test]
fn small_files() {
    let mut done = 0;
    let threshold = netlist::threshold(2, 3);
    for net in [cases::pass_through(1), threshold, vec![0, 0, 0]] {
        let source = bytes(&net);
        assert_eq!(check(&source), Answer::DONE);
        for length in 0..source.len() {
            assert_eq!(check(&source[..length]).number, 12);
        }
        for place in 0..source.len() {
            for byte in 0..=255 {
                let mut source = source.clone();
                source[place] = byte;
                done += usize::from(check(&source) == Answer::DONE);
            }
        }
        for byte in 0..=255 {
            let longer = [&source[..], &[byte]].concat();
            assert_eq!(check(&longer), refusal(12, 1, source.len()));
        }
    }
    assert!(done > 500, "only {done} sound ones");
}

#[test]
fn random_files() {
    let mut random = seeded(506);
    let mut tally = Tally::default();
    for _ in 0..CASES {
        let shape = cases::small_shape(&mut random);
        let mut reading = file_cases::sound(&mut random, &shape);
        match random.below(10) {
            0 | 1 => {}
            2..=7 => {
                let count = random.pick(&[1, 1, 2, 3, 5]);
                file_cases::inflict_several(&mut random, &mut reading, count);
            }
            _ => {
                for _ in 0..random.between(1, 4) {
                    file_cases::wreck(&mut random, &mut reading.source);
                }
            }
        }
        tally.count(check(&reading.source));
    }
    tally.assert_seen(0, 0, CASES / 10);
    tally.assert_seen(9, 1, CASES / 20);
    tally.assert_seen(12, 1, CASES / 10);
}

/// Places far beyond 16 bits.
#[test]
fn largest_file() {
    let mut random = seeded(507);
    let sound = file_cases::sound(&mut random, &LARGEST);
    assert_eq!(check(&sound.source), Answer::DONE);
    let length = sound.source.len();
    let mut longer = sound.source.clone();
    longer.push(0);
    assert_eq!(check(&longer), refusal(12, 1, length));
    assert_eq!(
        check(&sound.source[..length - 1]),
        refusal(12, 1, length - 6)
    );
    for fault in FILE_FAULTS {
        let mut reading = sound.clone();
        let held = file_cases::inflict(&mut random, &mut reading, fault);
        let expected = match held.expect("a place for every fault") {
            // There is no room to lack.
            (8, ..) => Answer::DONE,
            held => held.into(),
        };
        assert_eq!(check(&reading.source), expected, "{fault:?}");
    }
}

// ---- as the daemon calls ----

/// Many at once, on small stacks.
#[test]
fn from_many_threads() {
    const STACK: usize = 256 * 1024;
    let mut random = seeded(508);
    let calls: Vec<Call> = (0..64).map(|_| sound(&mut random, 64)).collect();
    let source = bytes(&netlist::threshold(32, 64));
    let parts = calls.chunks(8).map(|part| {
        let source = &source;
        move || {
            for call in part.iter().cycle().take(2_000) {
                let (key, record, iv) = (&call.key, call.record(), &call.whitening);
                let mut result = [9; 64];
                let answer = sallowknot::kreyvium_encipher(64, key, record, iv, &mut result);
                assert_eq!(answer, 0);
                let mut expected = [9; 64];
                daemon::kreyvium_encipher(64, key, record, iv, &mut expected);
                assert_eq!(result, expected);
            }
            assert_eq!(sallowknot::check_file(source), 0);
        }
    });
    on_stacks(STACK, parts);
}

/// All lists empty: the number of bits is judged, then the key's length.
#[test]
fn empty_lists() {
    let call = Call {
        instance: 6,
        m: 0,
        key: vec![],
        record: Some(vec![]),
        indices: vec![],
        whitening: vec![],
        result: vec![],
    };
    assert_eq!(encipher(&call).0, refusal(2, 0, 0));
    for m in [1, 64] {
        let mut call = Call { m, ..call.clone() };
        assert_eq!(encipher(&call).0, refusal(3, 1, 0));
        call.key = lent_key(&bits(&mut seeded(509), 128));
        assert_eq!(encipher(&call).0, refusal(3, 2, 0));
        call.record = Some(vec![0; m as usize]);
        assert_eq!(encipher(&call).0, refusal(3, 3, 0));
        call.whitening = vec![0; 128];
        assert_eq!(encipher(&call).0, refusal(8, 4, 0));
    }
    assert_eq!(check(&[]), refusal(12, 1, 0));
}
