//! Hands the library and the Rust program the same files and netlists, sound
//! and damaged, and compares the whole answer and every lent list. Both are
//! held to the definition of the file, and to answers known by hand or from the
//! way a case was made.

use independent::both::file::{check_file, file_length, file_of, read_file, words_of, write_file};
use independent::cases::{self, LARGEST};
use independent::definitions::file::{bytes, conditions, Stage};
use independent::definitions::least;
use independent::file;
use independent::file_cases::{self, Fault, Reading, FAULTS};
use independent::lent::show;
use independent::netlist::{
    self, gate_place, length, refusal, words_for, Answer, GATE_WORDS, HEADER_WORDS, MAX_GATES,
    MAX_OUTPUTS, MUX,
};
use independent::probe;
use independent::random::{fill, seeded, Random};
use independent::stack::on_stack;
use independent::tally::Tally;
use independent::worked::THRESHOLD;

/// Random cases of reading and of writing.
const CASES: usize = 60_000;

/// The file that the rules print: one wire passed through.
const PASS_THROUGH: [u8; 20] = [
    0x4E, 0x48, 0x01, 0x00, 0x00, 0x00, 0x00, 0x00, 0x00, 0x00, 0x01, 0x00, 0x00, 0x00, //
    0x4E, 0x4F, 0x00, 0x00, 0x00, 0x00,
];

const THRESHOLD_FILE: &[u8] = b"NH\x03\0\0\0\x05\0\0\0\x01\0\0\0\
    NG\x02\0\0\0\0\0\0\0\0\0\0\0\0\
    NG\x05\x01\0\0\0\0\0\0\0\x03\0\0\0\
    NG\x04\0\0\0\0\x01\0\0\0\0\0\0\0\
    NG\x04\x04\0\0\0\x02\0\0\0\0\0\0\0\
    NG\x03\x06\0\0\0\x05\0\0\0\0\0\0\0\
    NO\x07\0\0\0";

/// Has both programs read the file and check it. Answer and words are as the
/// definitions have them, and what is done can be undone.
fn read(source: &[u8], room: &[u32]) -> Answer {
    let held = conditions(source, room.len());
    let to_check = least(held.iter().filter(|held| held.0 != Stage::Room));
    assert_eq!(check_file(source), to_check, "check of {}", show(source));
    let result = read_file(source, room);
    assert_eq!(result.answer, least(&held), "reading of {}", show(source));
    if result.answer == Answer::DONE {
        let words = &result.words[..length(&result.words)];
        assert_eq!(netlist::check(words), Answer::DONE);
        assert!(bytes(words) == source);
        assert!(file_of(words) == source);
    } else {
        assert_eq!(result.words, room);
    }
    result.answer
}

/// The same without the margins, and without what the definitions say.
fn alike(source: &[u8], room: &mut [u32]) -> Answer {
    assert_eq!(
        probe::check_file(source),
        file::check_file(source),
        "check of {source:?}"
    );
    let library = probe::read_file(source, room);
    assert_eq!(
        library,
        file::read_file(source, room),
        "reading of {source:?}"
    );
    library
}

// ---- by hand ----

#[test]
fn printed_file() {
    let words = [1, 0, 1, 0];
    assert_eq!(cases::pass_through(1), words);
    assert_eq!(check_file(&PASS_THROUGH), Answer::DONE);
    let result = read_file(&PASS_THROUGH, &[9; 6]);
    assert_eq!(result.answer, Answer::DONE);
    assert_eq!(result.words, [1, 0, 1, 0, 9, 9]);
    let result = write_file(&words, &[9; 22]);
    assert_eq!(result.answer, Answer::DONE);
    assert_eq!(result.bytes[..20], PASS_THROUGH);
    assert_eq!(result.bytes[20..], [9, 9]);
}

#[test]
fn threshold_two_of_three() {
    assert_eq!(THRESHOLD_FILE.len(), 14 + 5 * 15 + 6);
    assert_eq!(bytes(&THRESHOLD), THRESHOLD_FILE);
    assert_eq!(file_of(&THRESHOLD), THRESHOLD_FILE);
    assert_eq!(words_of(THRESHOLD_FILE), THRESHOLD);
}

#[test]
fn no_wires_at_all() {
    let source = b"NH\0\0\0\0\0\0\0\0\0\0\0\0";
    assert_eq!(words_of(source), [0, 0, 0]);
    assert_eq!(file_of(&[0, 0, 0]), source);
    assert_eq!(read(b"", &[9; 9]), refusal(12, 1, 0));
    assert_eq!(read(&source[..13], &[9; 9]), refusal(12, 1, 0));
    assert_eq!(read(source, &[9; 2]), refusal(8, 2, 2));
    assert_eq!(
        read(&[source, &b"N"[..]].concat(), &[9; 3]),
        refusal(12, 1, 14)
    );
}

/// Words of four different bytes, in the order of the file.
#[test]
fn words_have_their_low_byte_first() {
    let (inputs, gates) = (0x0000_7FFE, 0x0002_0304);
    let mut net = cases::nots(inputs, gates);
    let wire = 0x0001_0203;
    let last = net.len() - 1;
    net[last] = wire;
    let gate = gate_place(0x0002_0302);
    net[gate..gate + GATE_WORDS].copy_from_slice(&[MUX, 0x0002_1122, 0x0001_5544, 0x0000_7788]);
    let source = file_of(&net);
    assert_eq!(source[..14], *b"NH\xFE\x7F\0\0\x04\x03\x02\0\x01\0\0\0");
    let at = 14 + 15 * 0x0002_0302;
    assert_eq!(
        source[at..at + 15],
        *b"NG\x05\x22\x11\x02\0\x44\x55\x01\0\x88\x77\0\0"
    );
    assert_eq!(source[source.len() - 6..], *b"NO\x03\x02\x01\0");
    assert!(words_of(&source) == net);
    for (from_the_end, place) in [(1, last), (2, last), (3, last)] {
        let mut source = source.clone();
        let at = source.len() - from_the_end;
        source[at] = 0x30;
        let expected = if from_the_end == 3 {
            Answer::DONE
        } else {
            refusal(9, 1, place)
        };
        assert_eq!(check_file(&source), expected);
    }
}

/// With everything at fault each is given in its turn: header (12), counts (9),
/// room (8), records and rest (12), wires (9).
#[test]
fn order_by_hand() {
    let sound = THRESHOLD_FILE;
    let mut source = sound.to_vec();
    let long = [9; 40];
    let asked = |source: &[u8], expected: Answer| {
        assert_eq!(read(source, &long[..24]), expected, "{source:?}");
        assert_eq!(read(source, &long), expected, "{source:?}");
        assert_eq!(check_file(source), expected, "{source:?}");
        // Too little room comes before what is judged after the counts.
        for room in [0, 3, 23] {
            let judged_first = match expected.number {
                12 => expected.place == 0,
                9 => expected.place < HEADER_WORDS,
                _ => false,
            };
            let expected = match judged_first {
                true => expected,
                false => refusal(8, 2, room),
            };
            assert_eq!(read(source, &long[..room]), expected, "{source:?}");
        }
    };
    asked(&source, Answer::DONE);
    // Wires, the last of them first.
    let outputs = 14 + 5 * 15;
    source[outputs + 2] = 8;
    asked(&source, refusal(9, 1, 23));
    source[14 + 4 * 15 + 11] = 1;
    asked(&source, refusal(9, 1, 22));
    source[14 + 4 * 15 + 3] = 7;
    asked(&source, refusal(9, 1, 20));
    source[14 + 4 * 15 + 2] = 6;
    asked(&source, refusal(9, 1, 19));
    source[14 + 2] = 255;
    asked(&source, refusal(9, 1, 3));
    // Bytes left over, then marks, the last of them first.
    source.push(b'N');
    asked(&source, refusal(12, 1, 95));
    source[outputs + 1] = b'G';
    asked(&source, refusal(12, 1, 89));
    source[14 + 3 * 15] = b'n';
    asked(&source, refusal(12, 1, 59));
    source[14 + 1] = b'O';
    asked(&source, refusal(12, 1, 14));
    // Counts, then the header.
    for (place, limit) in [(2, 4_096_u32), (1, 262_144), (0, 32_768)] {
        let at = 2 + 4 * place;
        source[at..at + 4].copy_from_slice(&(limit + 1).to_le_bytes());
        asked(&source, refusal(9, 1, place));
    }
    source[1] = b'G';
    asked(&source, refusal(12, 1, 0));
    source[..2].copy_from_slice(b"NH");
    source.truncate(13);
    asked(&source, refusal(12, 1, 0));
}

/// A file whose records are those of other counts.
#[test]
fn counts_of_another_netlist() {
    let with = |place: usize, count: u32| {
        let mut source = THRESHOLD_FILE.to_vec();
        source[2 + 4 * place..6 + 4 * place].copy_from_slice(&count.to_le_bytes());
        source
    };
    let room = vec![9; words_for(MAX_GATES, MAX_OUTPUTS)];
    for (source, expected) in [
        // Fewer gates: a gate's record stands where an output's is due.
        (with(1, 4), refusal(12, 1, 74)),
        (with(1, 0), refusal(12, 1, 14)),
        // More: an output's record where a gate's is due, or too few bytes.
        (with(1, 6), refusal(12, 1, 89)),
        (with(1, 7), refusal(12, 1, 89)),
        (with(1, 262_144), refusal(12, 1, 89)),
        // Outputs left over, or missing.
        (with(2, 0), refusal(12, 1, 89)),
        (with(2, 2), refusal(12, 1, 95)),
        (with(2, 4_096), refusal(12, 1, 95)),
        // Other inputs: no record is at fault, but wires are.
        (with(0, 4), Answer::DONE),
        (with(0, 32_768), Answer::DONE),
        (with(0, 2), refusal(9, 1, 10)),
        (with(0, 0), refusal(9, 1, 4)),
        // Counts whose records would be few again in 32 bits.
        (with(1, 0x4000_0005), refusal(9, 1, 1)),
        (with(1, 0x8000_0005), refusal(9, 1, 1)),
        (with(2, 0x8000_0001), refusal(9, 1, 2)),
        (with(2, u32::MAX), refusal(9, 1, 2)),
    ] {
        assert_eq!(read(&source, &room), expected);
        assert_eq!(check_file(&source), expected);
    }
    // Room is judged by the counts, whatever records there are.
    for (source, words) in [
        (with(1, 6), words_for(6, 1)),
        (with(1, 4), words_for(4, 1)),
        (with(1, 262_144), words_for(262_144, 1)),
        (with(2, 4_096), words_for(5, 4_096)),
    ] {
        assert_eq!(read(&source, &room[..words - 1]), refusal(8, 2, words - 1));
        assert_eq!(read(&source, &room[..words]).number, 12);
    }
}

// ---- every small damage ----

#[test]
fn every_byte_with_every_value() {
    let mut done = 0;
    for sound in [&PASS_THROUGH[..], THRESHOLD_FILE] {
        let words = words_of(sound).len();
        for place in 0..sound.len() {
            for value in 0..=255 {
                let mut source = sound.to_vec();
                source[place] = value;
                for room in [words, words - 1, words + 300, 0] {
                    let answer = read(&source, &vec![9; room]);
                    done += usize::from(answer == Answer::DONE);
                }
            }
        }
    }
    assert!(done > 1_000, "only {done} sound ones");
}

/// Two damaged bytes at once.
#[test]
fn every_pair_of_damaged_bytes() {
    const VALUES: [u8; 9] = [0, 1, 2, 5, 6, 71, 78, 79, 255];
    let mut numbers = Tally::default();
    let mut room = [9; 24];
    for first in 0..THRESHOLD_FILE.len() {
        for second in first + 1..THRESHOLD_FILE.len() {
            let mut source = THRESHOLD_FILE.to_vec();
            for one in VALUES {
                for other in VALUES {
                    source[first] = one;
                    source[second] = other;
                    numbers.see(alike(&source, &mut room).number);
                }
            }
        }
    }
    numbers.assert_each([0, 8, 9, 12], 1_001);
}

#[test]
fn every_length() {
    for sound in [&PASS_THROUGH[..], THRESHOLD_FILE] {
        let words = words_of(sound).len();
        for length in 0..=sound.len() + 40 {
            for extra in [b"N", b"\0", b"\xFF"] {
                let mut source = sound.to_vec();
                source.resize(length, extra[0]);
                for room in 0..words + 3 {
                    read(&source, &vec![9; room]);
                }
            }
        }
    }
    // A record cut, at its start.
    for length in 0..THRESHOLD_FILE.len() {
        let place = match length {
            0..14 => 0,
            14..89 => 14 + (length - 14) / 15 * 15,
            _ => 89,
        };
        assert_eq!(check_file(&THRESHOLD_FILE[..length]), refusal(12, 1, place));
    }
    // The same file twice over, and a record too many.
    let twice = [THRESHOLD_FILE, THRESHOLD_FILE].concat();
    assert_eq!(read(&twice, &[9; 24]), refusal(12, 1, 95));
    let longer = [THRESHOLD_FILE, &THRESHOLD_FILE[89..]].concat();
    assert_eq!(read(&longer, &[9; 24]), refusal(12, 1, 95));
}

/// Too little room, the exact room and more, for both calls: what lies beyond
/// the result stays.
#[test]
fn every_room() {
    let mut random = seeded(301);
    for room in 0..=30 {
        let expected = match room < 24 {
            true => refusal(8, 2, room),
            false => Answer::DONE,
        };
        let stale = fill(&mut random, room);
        let result = read_file(THRESHOLD_FILE, &stale);
        assert_eq!(result.answer, expected);
        if room >= 24 {
            assert_eq!(result.words[..24], THRESHOLD);
            assert_eq!(result.words[24..], stale[24..]);
        } else {
            assert_eq!(result.words, stale);
        }
    }
    for room in 0..=110 {
        let expected = match room < 95 {
            true => refusal(8, 2, room),
            false => Answer::DONE,
        };
        let stale = fill(&mut random, room);
        let result = write_file(&THRESHOLD, &stale);
        assert_eq!(result.answer, expected);
        if room >= 95 {
            assert_eq!(result.bytes[..95], *THRESHOLD_FILE);
            assert_eq!(result.bytes[95..], stale[95..]);
        } else {
            assert_eq!(result.bytes, stale);
        }
        let mut broken = THRESHOLD;
        broken[23] = 8;
        assert_eq!(write_file(&broken, &stale).answer, refusal(9, 1, 23));
    }
}

// ---- at random ----

/// Every kind of fault alone, with what then holds known from how it was made.
#[test]
fn single_faults_at_known_places() {
    let mut random = seeded(302);
    for fault in FAULTS {
        let mut made = 0;
        for _ in 0..600 {
            let shape = cases::small_shape(&mut random);
            let mut reading = file_cases::sound(&mut random, &shape);
            assert_eq!(check_file(&reading.source), Answer::DONE);
            let Some(held) = file_cases::inflict(&mut random, &mut reading, fault) else {
                continue;
            };
            let answer = read(&reading.source, &reading.result);
            assert_eq!(answer, held.into(), "{fault:?}");
            made += 1;
        }
        assert!(made > 200, "{fault:?} was made only {made} times");
    }
}

/// Starts from a sound reading and puts in one fault of every kind, the ones
/// judged first going in last.
#[test]
fn each_fault_in_its_turn() {
    let mut random = seeded(303);
    for _ in 0..300 {
        let mut shape = cases::small_shape(&mut random);
        (shape.inputs, shape.gates, shape.outputs) =
            (shape.inputs + 1, shape.gates + 20, shape.outputs + 1);
        shape.weights = cases::MIXED;
        let mut reading = file_cases::sound(&mut random, &shape);
        let mut last = None;
        for fault in FAULTS.into_iter().rev() {
            // What has been cut off or is cut short has no more to damage.
            if fault == Fault::Cut || fault == Fault::CutHeader {
                continue;
            }
            let Some(held) = file_cases::inflict(&mut random, &mut reading, fault) else {
                continue;
            };
            // Of wires, and of records, the first is given.
            let expected = match (last, stage(fault)) {
                (Some((of, before)), now) if of == now => held.min(before),
                _ => held,
            };
            last = Some((stage(fault), expected));
            let answer = read(&reading.source, &reading.result);
            assert_eq!(answer, expected.into(), "{fault:?}");
        }
    }
}

fn stage(fault: Fault) -> Stage {
    match fault {
        Fault::CutHeader | Fault::HeaderMark => Stage::Header,
        Fault::Count(_) => Stage::Counts,
        Fault::Room => Stage::Room,
        Fault::Cut | Fault::GateMark | Fault::OutputMark | Fault::LeftOver => Stage::Records,
        _ => Stage::Wires,
    }
}

const STAGES: [Stage; 5] = [
    Stage::Header,
    Stage::Counts,
    Stage::Room,
    Stage::Records,
    Stage::Wires,
];

#[test]
fn random_readings() {
    let mut random = seeded(304);
    let mut done = 0;
    // The stages that gave the answer, with each later one that had a fault.
    let mut stages = Tally::default();
    let mut far = 0;
    for _ in 0..CASES {
        let shape = cases::small_shape(&mut random);
        let mut reading = file_cases::sound(&mut random, &shape);
        match random.below(100) {
            0..=14 => {}
            15..=74 => {
                let count = random.pick(&[1, 2, 2, 3, 3, 5, 8]);
                file_cases::inflict_several(&mut random, &mut reading, count);
            }
            _ => {
                for _ in 0..random.between(1, 4) {
                    file_cases::wreck(&mut random, &mut reading.source);
                }
                let room = random.near(reading.words.len());
                reading.result = fill(&mut random, room);
            }
        }
        let held = reading.conditions();
        let answer = read(&reading.source, &reading.result);
        far += usize::from(answer.place > 1_000);
        let Some(&(first, _)) = held.first() else {
            done += 1;
            continue;
        };
        stages.see(first);
        stages.prefer(first, held[1..].iter().map(|later| later.0));
    }
    assert!(done > CASES / 10, "only {done} sound ones");
    assert!(far > CASES / 100, "only {far} faults far from the front");
    stages.assert_each(STAGES, CASES / 50 + 1);
    stages.assert_order(&STAGES, CASES / 1_000 + 1);
}

#[test]
fn random_writings() {
    let mut random = seeded(305);
    // Numbers, with whether the netlist was broken and the room short.
    let mut seen = Tally::default();
    for _ in 0..CASES {
        let shape = cases::small_shape(&mut random);
        let mut net = cases::sound(&mut random, &shape);
        let sound = net.clone();
        match random.below(100) {
            0..=54 => {}
            55..=84 => {
                let count = random.pick(&[1, 1, 2, 3, 5]);
                cases::inflict_several(&mut random, &mut net, count);
            }
            _ => {
                for _ in 0..random.between(1, 4) {
                    cases::wreck(&mut random, &mut net);
                }
            }
        }
        // A netlist that cannot be written has the room of the one it was.
        let broken = netlist::check(&net);
        let needed = file_length(if broken == Answer::DONE { &net } else { &sound });
        let room = random.near(needed);
        let stale = fill(&mut random, room);
        let result = write_file(&net, &stale);
        let expected = match (broken, room < needed) {
            (Answer::DONE, true) => refusal(8, 2, room),
            _ => broken,
        };
        assert_eq!(result.answer, expected);
        if expected == Answer::DONE {
            assert!(result.bytes[..needed] == bytes(&net));
            assert!(words_of(&result.bytes[..needed]) == net);
        }
        seen.see((expected.number, broken != Answer::DONE, room < needed));
    }
    let each = [
        (0, false, false),
        (8, false, true),
        (9, true, false),
        (9, true, true),
    ];
    seen.assert_each(each, CASES / 20 + 1);
}

/// Reading what was written returns the words; writing what was read returns
/// the bytes.
#[test]
fn round_trips() {
    let mut random = seeded(306);
    for _ in 0..6_000 {
        let shape = cases::small_shape(&mut random);
        let net = cases::sound(&mut random, &shape);
        let source = file_of(&net);
        assert_eq!(source.len(), file_length(&net));
        let words = words_of(&source);
        assert!(words == net);
        assert!(file_of(&words) == source);
    }
}

// ---- at the limits ----

fn largest(random: &mut Random) -> Reading {
    file_cases::sound(random, &LARGEST)
}

#[test]
fn largest_file() {
    let mut random = seeded(307);
    let reading = largest(&mut random);
    let (words, bytes) = (reading.words.len(), reading.source.len());
    assert_eq!(bytes, 14 + 15 * 262_144 + 6 * 4_096);
    assert!(file_of(&reading.words) == reading.source);
    assert!(words_of(&reading.source) == reading.words);
    let stale: Vec<u32> = fill(&mut random, words + 1);
    assert_eq!(read(&reading.source, &stale), Answer::DONE);
    assert_eq!(
        read(&reading.source, &stale[..words - 1]),
        refusal(8, 2, words - 1)
    );
    let stale: Vec<u8> = fill(&mut random, bytes + 1);
    assert_eq!(write_file(&reading.words, &stale).answer, Answer::DONE);
    assert_eq!(
        write_file(&reading.words, &stale[..bytes - 1]).answer,
        refusal(8, 2, bytes - 1)
    );
}

/// Each kind of fault in the largest file, then all of them together.
#[test]
fn faults_in_the_largest_file() {
    let mut random = seeded(308);
    let sound = largest(&mut random);
    for fault in FAULTS {
        let mut reading = sound.clone();
        let held = file_cases::inflict(&mut random, &mut reading, fault);
        let held = held.expect("the largest file has a place for every fault");
        let answer = read(&reading.source, &reading.result);
        assert_eq!(answer, held.into(), "{fault:?}");
    }
    let mut reading = sound;
    let last = reading.source.len();
    let last_gate = 14 + 15 * (MAX_GATES - 1);
    for (at, value, expected) in [
        (
            last - 1,
            255,
            refusal(9, 1, words_for(MAX_GATES, MAX_OUTPUTS) - 1),
        ),
        (last_gate + 2, 6, refusal(9, 1, gate_place(MAX_GATES - 1))),
        (14 + 2, 6, refusal(9, 1, gate_place(0))),
        (last - 6, 0, refusal(12, 1, last - 6)),
        (last_gate + 15 + 1, 0, refusal(12, 1, last_gate + 15)),
        (last_gate + 1, 0, refusal(12, 1, last_gate)),
        (14, 0, refusal(12, 1, 14)),
    ] {
        reading.source[at] = value;
        assert_eq!(read(&reading.source, &reading.result), expected);
    }
}

/// The library's calls at the limits, all buffers outside, on a small stack.
#[test]
fn small_stack() {
    const STACK: usize = 512 * 1024;
    let mut random = seeded(309);
    let reading = largest(&mut random);
    let mut words = vec![9; reading.words.len()];
    let mut bytes = vec![9; reading.source.len()];
    on_stack(STACK, || {
        assert_eq!(probe::check_file(&reading.source), Answer::DONE);
        let answer = probe::read_file(&reading.source, &mut words);
        assert_eq!(answer, Answer::DONE);
        let answer = probe::write_file(&reading.words, &mut bytes);
        assert_eq!(answer, Answer::DONE);
    });
    assert!(words == reading.words);
    assert!(bytes == reading.source);
}
