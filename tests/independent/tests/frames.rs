//! Hands the library and the Rust program the same files of port records, sound
//! and damaged, and compares the whole answer and every lent list. Both are
//! held to the definitions, and to answers known by hand or from the way a case
//! was made.

use independent::both::frames::{append, append_after, bits, check_frames, fields, read_frames};
use independent::definitions::frames::{
    check_conditions, port_bits, port_fields, FrameConditions, FrameStage,
};
use independent::definitions::{self, least, Condition};
use independent::frame_cases::{
    self, iv_at, iv_bits, not_above, number, put_iv, sound_appending, sound_reading, Appending,
    FileFault, List, Reading, FILE_FAULTS, LISTS,
};
use independent::frames::{self, FRAME, RECORD, WIDTHS};
use independent::key::{key_length, lent_key};
use independent::lent::show;
use independent::netlist::{refusal, Answer};
use independent::probe;
use independent::random::{self, fill, seeded, Random};
use independent::stack::on_stack;
use independent::tally::Tally;
use independent::worked;

/// Random appendings of either kind, and random readings.
const CASES: usize = 20_000;

/// Has both programs append to a file. The answer is the definitions'.
fn appended(case: &Appending) -> Answer {
    let written = append(case);
    assert_eq!(written.answer, least(&case.conditions(false)), "{case:?}");
    written.answer
}

/// And after a last frame.
fn appended_after(case: &Appending) -> Answer {
    let written = append_after(case);
    assert_eq!(written.answer, least(&case.conditions(true)), "{case:?}");
    written.answer
}

/// The frame of a sound appending, which is the definitions'; also after the
/// last frame alone.
fn frame_of(case: &Appending) -> Vec<u8> {
    let mut written = append(case);
    assert_eq!(written.answer, Answer::DONE);
    assert_eq!(append_after(&case.after_last()).bytes, written.bytes);
    written.bytes.truncate(FRAME);
    assert_eq!(written.bytes, case.expected());
    written.bytes
}

/// An appending to the file with room for the frame.
fn appending(key: &[u8], record: &[u8], iv: u128, file: &[u8]) -> Appending {
    Appending {
        key: key.to_vec(),
        record: record.to_vec(),
        iv: iv_bits(iv),
        file: file.to_vec(),
        frame: vec![9; FRAME + 2],
    }
}

/// Has both programs read the file and check it. The answers are the
/// definitions', and the check's is the reading's but for what the check does
/// not judge.
fn read(case: &Reading) -> Answer {
    let answer = read_frames(case).answer;
    assert_eq!(answer, least(&case.conditions()), "{case:?}");
    let held = check_conditions(1, &case.file);
    let checked = check_frames(&case.file);
    assert_eq!(checked, least(&held), "check of {}", show(&case.file));
    match answer.number {
        0 | 8 => assert_eq!(checked, Answer::DONE),
        15 | 16 => assert_eq!(checked, Answer { list: 1, ..answer }),
        _ => {}
    }
    answer
}

/// The records of a sound file, with room for exactly those.
fn records_of(key: &[u8], file: &[u8]) -> Vec<u8> {
    let read = read_frames(&Reading::exact(key, file));
    assert_eq!(read.answer, Answer::DONE);
    read.bytes
}

/// Checks the file, reads it and appends to it and to its last frame, all by
/// both programs, and holds each answer to the definitions.
fn every_call(file: &[u8], new: u128) -> Answer {
    let key = lent_key(&[1; 128]);
    let case = appending(&key, &[0; 64], new, file);
    appended(&case);
    appended_after(&case);
    appended_after(&case.after_last());
    read(&Reading::exact(&key, file))
}

// ---- by hand ----

/// Key, IV and record all 0.
#[test]
fn worked_frame() {
    let worked = worked::FRAME;
    let (key, record) = (lent_key(&[0; 128]), [0; 64]);
    let case = appending(&key, &record, 0, &[]);
    assert_eq!(frame_of(&case), worked);
    assert_eq!(append(&case).bytes[FRAME..], [9, 9]);
    assert_eq!(records_of(&key, &worked), record);
    assert_eq!(check_frames(&worked), Answer::DONE);
    // A second one with the same IV.
    let again = appending(&key, &record, 0, &worked);
    assert_eq!(appended(&again), refusal(16, 4, 26));
    assert_eq!(appended_after(&again), refusal(16, 4, 26));
    let twice = [worked, worked].concat();
    assert_eq!(every_call(&twice, 1), refusal(16, 2, 26));
}

/// With everything at fault each is given in its turn.
#[test]
fn order_by_hand() {
    let mut random = seeded(611);
    let sound = sound_reading(&mut random, 4);
    let ivs: Vec<u128> = (0..4).map(|frame| iv_at(&sound.file, frame)).collect();
    let mut case = appending(&sound.key, &[0; 64], ivs[3] + 1, &sound.file);
    assert_eq!(appended(&case), Answer::DONE);
    // What is judged last goes in first.
    case.frame.truncate(25);
    assert_eq!(appended(&case), refusal(8, 5, 25));
    case.iv = iv_bits(ivs[3]);
    assert_eq!(appended(&case), refusal(16, 4, 104));
    case.file.extend(b"PT\0");
    assert_eq!(appended(&case), refusal(15, 4, 104));
    put_iv(&mut case.file, 3, ivs[2]);
    assert_eq!(appended(&case), refusal(16, 4, 78));
    case.file[78] = b'T';
    assert_eq!(appended(&case), refusal(15, 4, 78));
    put_iv(&mut case.file, 2, ivs[1]);
    assert_eq!(appended(&case), refusal(16, 4, 52));
    case.file[53] = b'P';
    assert_eq!(appended(&case), refusal(15, 4, 52));
    put_iv(&mut case.file, 1, ivs[0]);
    assert_eq!(appended(&case), refusal(16, 4, 26));
    case.file[0] = 0;
    assert_eq!(appended(&case), refusal(15, 4, 0));

    // So far the same of reading, where the room is one short for what is whole.
    let mut reading = Reading {
        file: case.file.clone(),
        records: vec![9; 255],
        ..sound.clone()
    };
    assert_eq!(read(&reading), refusal(15, 2, 0));
    reading.file[0] = b'P';
    assert_eq!(read(&reading), refusal(16, 2, 26));
    put_iv(&mut reading.file, 1, ivs[1]);
    assert_eq!(read(&reading), refusal(15, 2, 52));
    reading.file[53] = b'T';
    assert_eq!(read(&reading), refusal(16, 2, 52));
    put_iv(&mut reading.file, 2, ivs[2]);
    assert_eq!(read(&reading), refusal(15, 2, 78));
    reading.file[78] = b'P';
    assert_eq!(read(&reading), refusal(16, 2, 78));
    put_iv(&mut reading.file, 3, ivs[3]);
    assert_eq!(read(&reading), refusal(15, 2, 104));
    reading.file.truncate(104);
    assert_eq!(read(&reading), refusal(8, 3, 255));
    reading.records.push(9);
    assert_eq!(read(&reading), Answer::DONE);
    reading.file[0] = 0;
    reading.key[127] = 2;
    assert_eq!(read(&reading), refusal(4, 1, 127));
    reading.key[3] = 255;
    assert_eq!(read(&reading), refusal(4, 1, 3));
    reading.key.truncate(127);
    assert_eq!(read(&reading), refusal(3, 1, 127));

    // The last frame has its mark wrong, and the new IV is not above its own.
    let mut last = Appending {
        file: sound.file[78..].to_vec(),
        ..case.clone()
    };
    assert_eq!(appended_after(&last), refusal(16, 4, 26));
    last.file[1] = b'P';
    assert_eq!(appended_after(&last), refusal(15, 4, 0));

    for case in [&mut case, &mut last] {
        for (list, place) in [(List::Iv, 127), (List::Record, 63), (List::Key, 127)] {
            list.of(case)[place] = 2;
            let both = [append(case).answer, append_after(case).answer];
            let expected = refusal(4, list.number(), place);
            assert_eq!(both[0], expected);
            let too_long = case.file.len() > FRAME;
            let expected = match too_long {
                true => refusal(3, 4, case.file.len()),
                false => expected,
            };
            assert_eq!(both[1], expected);
        }
        // Lengths, of which the last frame's is judged before any bit.
        case.file.pop();
        let length = case.file.len();
        assert_eq!(appended_after(case), refusal(3, 4, length));
        for (list, length) in [(List::Iv, 127), (List::Record, 65), (List::Key, 0)] {
            list.of(case).resize(length, 2);
            let expected = refusal(3, list.number(), length);
            assert_eq!(appended(case), expected);
            assert_eq!(appended_after(case), expected);
        }
    }
}

#[test]
fn empty_lists() {
    let nothing = Appending {
        key: vec![],
        record: vec![],
        iv: vec![],
        file: vec![],
        frame: vec![],
    };
    let mut case = nothing.clone();
    for (list, length) in LISTS.into_iter().zip([key_length(128), 64, 128]) {
        let expected = refusal(3, list.number(), 0);
        assert_eq!(appended(&case), expected);
        assert_eq!(appended_after(&case), expected);
        list.of(&mut case).resize(length, 0);
    }
    assert_eq!(appended(&case), refusal(8, 5, 0));
    assert_eq!(appended_after(&case), refusal(8, 5, 0));
    let mut case = Reading {
        key: vec![],
        file: vec![],
        records: vec![],
    };
    assert_eq!(read(&case), refusal(3, 1, 0));
    case.key = lent_key(&[1; 128]);
    assert_eq!(read(&case), Answer::DONE);
    case.records = vec![9; 70];
    assert_eq!(read(&case), Answer::DONE);
}

// ---- sizes ----

/// From nothing, one record after another: at every size the file is sound, and
/// what is read is what was appended.
#[test]
fn files_of_every_size() {
    let mut random = seeded(612);
    for _ in 0..2 {
        let key = lent_key(&random::bits(&mut random, 128));
        let ivs = frame_cases::rising(&mut random, 201);
        let (mut file, mut records) = (vec![], vec![]);
        for &iv in &ivs {
            assert_eq!(check_frames(&file), Answer::DONE);
            assert!(records_of(&key, &file) == records);
            let record = random::bits(&mut random, 64);
            let case = appending(&key, &record, iv, &file);
            file.extend(frame_of(&case));
            records.extend(record);
        }
        assert_eq!(file.len(), 201 * FRAME);
        assert!(definitions::frames::records(&key, &file) == records);
        // No IV serves twice, nor does any below the last.
        for &iv in &ivs {
            let case = appending(&key, &records[..64], iv, &file);
            assert_eq!(appended(&case), refusal(16, 4, 5_226));
        }
        // A fault at every frame.
        for frame in 0..201 {
            let mut marked = file.clone();
            marked[FRAME * frame + 1] = b'N';
            assert_eq!(
                every_call(&marked, u128::MAX),
                refusal(15, 2, FRAME * frame)
            );
            if frame > 0 {
                let mut fallen = file.clone();
                put_iv(&mut fallen, frame, ivs[frame - 1]);
                assert_eq!(
                    every_call(&fallen, u128::MAX),
                    refusal(16, 2, FRAME * frame)
                );
            }
        }
    }
}

#[test]
fn every_length_of_a_file() {
    let mut random = seeded(613);
    let ivs = frame_cases::rising(&mut random, 6);
    let file = frame_cases::file(&mut random, &ivs);
    for length in 0..=file.len() {
        let expected = match length % FRAME {
            0 => Answer::DONE,
            cut => refusal(15, 2, length - cut),
        };
        assert_eq!(every_call(&file[..length], u128::MAX), expected);
        // Cut at the front, and longer by other bytes.
        every_call(&file[length..], u128::MAX);
        for byte in [b'P', b'T', 0, 255] {
            let mut longer = file[..length].to_vec();
            longer.resize(length + 30, byte);
            every_call(&longer, u128::MAX);
        }
    }
}

/// Too little room, the exact room and more: what lies beyond stays.
#[test]
fn every_room() {
    let mut random = seeded(614);
    for frames in 0..=3 {
        let mut case = sound_appending(&mut random, frames);
        for room in (0..=60).chain([256, 65_536]) {
            case.frame = fill(&mut random, room);
            for (case, call) in [
                (&case, append as fn(&Appending) -> _),
                (&case.after_last(), append_after),
            ] {
                let written = call(case);
                if room < FRAME {
                    assert_eq!(written.answer, refusal(8, 5, room));
                    assert_eq!(written.bytes, case.frame);
                } else {
                    assert_eq!(written.answer, Answer::DONE);
                    assert_eq!(written.bytes[..FRAME], case.expected());
                    assert_eq!(written.bytes[FRAME..], case.frame[FRAME..]);
                }
            }
        }
        let mut case = sound_reading(&mut random, frames);
        let (needed, expected) = (RECORD * frames, case.expected());
        for room in (0..=needed + 70).chain([65_536]) {
            case.records = fill(&mut random, room);
            let read = read_frames(&case);
            if room < needed {
                assert_eq!(read.answer, refusal(8, 3, room));
                assert_eq!(read.bytes, case.records);
            } else {
                assert_eq!(read.answer, Answer::DONE);
                assert_eq!(read.bytes[..needed], expected);
                assert_eq!(read.bytes[needed..], case.records[needed..]);
            }
        }
    }
}

#[test]
fn every_list_length() {
    let mut random = seeded(615);
    let sound = sound_appending(&mut random, 1);
    let lengths = || (0..=140).chain([255, 256, 257, 65_664, 70_000]);
    for list in LISTS {
        for length in lengths() {
            let mut case = sound.clone();
            let exact = list.of(&mut case).len();
            list.of(&mut case).resize(length, 0);
            let expected = match length == exact {
                true => Answer::DONE,
                false => refusal(3, list.number(), length),
            };
            assert_eq!(appended(&case), expected);
            assert_eq!(appended_after(&case), expected);
            if list == List::Key {
                assert_eq!(read(&Reading::exact(&case.key, &case.file)), expected);
            }
        }
    }
    // The last frame is one, or none.
    for length in lengths() {
        let mut case = sound.clone();
        case.file.resize(length, 0);
        let expected = match length {
            0 | FRAME => Answer::DONE,
            _ => refusal(3, 4, length),
        };
        assert_eq!(appended_after(&case), expected);
    }
    // Nor are several frames one.
    for frames in 2..=11 {
        let case = sound_appending(&mut random, frames);
        assert_eq!(appended_after(&case), refusal(3, 4, FRAME * frames));
    }
}

#[test]
fn every_place_of_a_bit() {
    let mut random = seeded(616);
    let mut sound = sound_appending(&mut random, 1);
    // An IV that stays above the one before, whichever bit of it changes.
    put_iv(&mut sound.file, 0, 0);
    sound.iv = iv_bits(u128::MAX / 3);
    for list in LISTS {
        let length = list.of(&mut sound).len();
        for place in 0..length {
            for byte in [2, 3, 4, 127, 128, 129, 254, 255] {
                let mut case = sound.clone();
                list.of(&mut case)[place] = byte;
                let expected = refusal(4, list.number(), place);
                assert_eq!(appended(&case), expected);
                assert_eq!(appended_after(&case), expected);
                if list == List::Key {
                    assert_eq!(read(&Reading::exact(&case.key, &case.file)), expected);
                }
            }
            // Either bit is one.
            let mut case = sound.clone();
            list.of(&mut case)[place] ^= 1;
            frame_of(&case);
        }
    }
}

// ---- IVs ----

/// Both orders of two IVs, of which the second is above the first: in a file,
/// and as the new one.
fn in_both_orders(low: u128, high: u128) {
    assert!(low < high);
    let mut random = seeded(617);
    for (ivs, rises) in [
        ([low, high], true),
        ([high, low], false),
        ([low, low], false),
        ([high, high], false),
    ] {
        let file = frame_cases::file(&mut random, &ivs);
        let expected = match rises {
            true => Answer::DONE,
            false => refusal(16, 2, FRAME),
        };
        assert_eq!(every_call(&file, u128::MAX), expected, "{ivs:x?}");
        let case = appending(&lent_key(&[1; 128]), &[0; 64], ivs[1], &file[..FRAME]);
        let expected = match rises {
            true => Answer::DONE,
            false => refusal(16, 4, FRAME),
        };
        assert_eq!(appended(&case), expected, "{ivs:x?}");
        assert_eq!(appended_after(&case), expected, "{ivs:x?}");
    }
}

/// ..00FF and ..0100, for every border between two bytes.
#[test]
fn borders_of_bytes() {
    let mut random = seeded(618);
    for byte in 1..16 {
        let unit = 1_u128 << (8 * byte);
        in_both_orders(unit - 1, unit);
        in_both_orders(unit, unit + 1);
        in_both_orders(unit - 2, unit - 1);
        for _ in 0..20 {
            // With other bytes above the border.
            let high = (number(&mut random) & !(unit - 1)).max(unit);
            in_both_orders(high - 1, high);
            in_both_orders(high - unit, high);
        }
    }
    in_both_orders(0, 1);
    in_both_orders(0, u128::MAX);
    in_both_orders(u128::MAX - 1, u128::MAX);
    in_both_orders(u128::MAX / 2, u128::MAX / 2 + 1);
}

/// IVs that differ in one byte, in one bit, or in one byte upwards and in all
/// those after it downwards.
#[test]
fn single_bytes_of_ivs() {
    let mut random = seeded(619);
    for byte in 0..16 {
        let unit = 1_u128 << (8 * byte);
        for (low, high) in [
            (0, 1),
            (1, 2),
            (0x7F, 0x80),
            (0xFE, 0xFF),
            (0, 0xFF),
            (1, 0xFF),
        ] {
            let other = number(&mut random) & !(0xFF * unit);
            in_both_orders(other + low * unit, other + high * unit);
            let lower = unit - 1;
            let above = other & !lower;
            in_both_orders(above + low * unit + lower, above + high * unit);
        }
    }
    for bit in 0..128 {
        let other = number(&mut random);
        in_both_orders(other & !(1 << bit), other | 1 << bit);
    }
}

// ---- every small damage ----

#[test]
fn every_byte_with_every_value() {
    let mut random = seeded(620);
    let mut seen = Tally::default();
    // IVs by one over a border, and any.
    for ivs in [vec![0xFE, 0xFF, 0x100], frame_cases::rising(&mut random, 3)] {
        let sound = frame_cases::file(&mut random, &ivs);
        for place in 0..sound.len() {
            for value in 0..=255 {
                let mut file = sound.clone();
                file[place] = value;
                let answer = every_call(&file, ivs[2] + 1);
                seen.see(answer.number);
            }
        }
    }
    seen.assert_each([0, 15, 16], 2_001);
}

/// Two damaged bytes at once, without margins.
#[test]
fn every_pair_of_damaged_bytes() {
    const VALUES: [u8; 6] = [0, 1, b'P', b'T', 128, 255];
    let mut random = seeded(621);
    let sound = frame_cases::file(&mut random, &[0x0100, 0x01_0101, 0x01_0102]);
    // The bytes of a record are judged by none.
    let judged: Vec<usize> = (0..sound.len())
        .filter(|place| place % FRAME < 18)
        .collect();
    let mut numbers = Tally::default();
    for (at, &first) in judged.iter().enumerate() {
        for &second in &judged[at + 1..] {
            let mut file = sound.clone();
            for one in VALUES {
                for other in VALUES {
                    file[first] = one;
                    file[second] = other;
                    let answer = probe::check_frames(&file);
                    assert_eq!(answer, frames::check(&file), "check of {file:?}");
                    numbers.see(answer.number);
                }
            }
        }
    }
    numbers.assert_each([0, 15, 16], 1_001);
}

/// Two faults in a file: 15 and 16 in either order, and in one frame.
#[test]
fn two_faults_in_a_file() {
    let mut random = seeded(622);
    let ivs = frame_cases::rising(&mut random, 7);
    let sound = frame_cases::file(&mut random, &ivs);
    for marked in 0..7 {
        for fallen in 1..7 {
            let mut file = sound.clone();
            file[FRAME * marked] ^= 0x20;
            put_iv(&mut file, fallen, ivs[fallen - 1]);
            let expected = match marked <= fallen {
                true => refusal(15, 2, FRAME * marked),
                false => refusal(16, 2, FRAME * fallen),
            };
            assert_eq!(every_call(&file, u128::MAX), expected);
            // With the last frame cut: it has no IV to judge.
            file.pop();
            assert_eq!(every_call(&file, u128::MAX), expected);
        }
    }
}

// ---- at random ----

/// Every kind of fault in a file alone, with what then holds known from how it
/// was made.
#[test]
fn single_faults_at_known_places() {
    let mut random = seeded(623);
    for fault in FILE_FAULTS {
        let mut made = 0;
        for _ in 0..1_500 {
            let frames = frame_cases::size(&mut random);
            let mut case = sound_appending(&mut random, frames);
            let Some((number, place)) = frame_cases::inflict(&mut random, &mut case.file, fault)
            else {
                continue;
            };
            assert_eq!(appended(&case), refusal(number, 4, place), "{fault:?}");
            let room = 64 * frames;
            let case = Reading {
                key: case.key,
                file: case.file,
                records: fill(&mut random, room),
            };
            assert_eq!(read(&case), refusal(number, 2, place), "{fault:?}");
            made += 1;
        }
        assert!(made > 1_000, "{fault:?} was made only {made} times");
    }
}

/// What holds, by number and list, with all frames of a file alike.
type Kind = (FrameStage, u32, u32);

fn kind(&(stage, (number, list, _)): &(FrameStage, Condition)) -> Kind {
    let stage = match stage {
        FrameStage::Frame(_) => FrameStage::Frame(0),
        _ => stage,
    };
    (stage, number, list)
}

/// How often each has to be given where another one held too.
const LEAST: usize = CASES / 2_000 + 1;

/// How often each was given, and where each other one held too.
#[derive(Default)]
struct Given {
    done: usize,
    kinds: Tally<Kind>,
}

impl Given {
    fn count(&mut self, held: &FrameConditions) {
        let Some(first) = held.first().map(kind) else {
            self.done += 1;
            return;
        };
        let mut later: Vec<Kind> = held.iter().skip(1).map(kind).collect();
        later.sort();
        later.dedup();
        self.kinds.see(first);
        self.kinds.prefer(first, later);
    }

    /// All of them were given, each where each of those after it held.
    fn assert_order(&self, order: &[Kind]) {
        assert!(self.done > CASES / 10, "only {} sound ones", self.done);
        self.kinds.assert_each(order.iter().copied(), 4 * LEAST);
        for (at, &earlier) in order.iter().enumerate() {
            for &later in &order[at + 1..] {
                // Without a sound IV there is none to compare.
                let compared = earlier.2 != 3 || later.0 != FrameStage::NewFrame;
                if compared {
                    self.kinds.assert_preferred(earlier, later, LEAST);
                }
            }
        }
    }
}

const LENGTHS: [Kind; 4] = [
    (FrameStage::Lengths, 3, 1),
    (FrameStage::Lengths, 3, 2),
    (FrameStage::Lengths, 3, 3),
    (FrameStage::Lengths, 3, 4),
];

const BITS: [Kind; 3] = [
    (FrameStage::Bits, 4, 1),
    (FrameStage::Bits, 4, 2),
    (FrameStage::Bits, 4, 3),
];

/// A broken frame and a fallen IV, in the file that is so numbered.
fn in_file(list: u32) -> [Kind; 2] {
    let stage = FrameStage::Frame(0);
    [(stage, 15, list), (stage, 16, list)]
}

const AT_THE_END: [Kind; 2] = [(FrameStage::NewFrame, 16, 4), (FrameStage::Room, 8, 5)];

/// Damages a file: several faults, or anything.
fn damage(random: &mut Random, file: &mut Vec<u8>) {
    if random.chance(30) {
        for _ in 0..random.between(1, 3) {
            frame_cases::wreck(random, file);
        }
        return;
    }
    let count = random.pick(&[1, 1, 2, 3]);
    for _ in 0..count {
        let fault = random.pick(&[FileFault::Mark, FileFault::Fall]);
        frame_cases::inflict(random, file, fault);
    }
    if random.chance(25) {
        frame_cases::inflict(random, file, FileFault::Cut);
    }
}

/// Damages an appending, in its file, its lists, its IV and its room.
fn damage_appending(random: &mut Random, case: &mut Appending) {
    // Not above the last frame, whatever that will be.
    if random.chance(45) && !case.file.is_empty() {
        let last = iv_at(&case.file, case.file.len() / FRAME - 1);
        case.iv = iv_bits(not_above(random, last));
    }
    if random.chance(40) {
        damage(random, &mut case.file);
    }
    for list in LISTS {
        if random.chance(15) {
            for _ in 0..random.pick(&[1, 1, 2, 5]) {
                frame_cases::spoil_bit(random, list.of(case));
            }
        }
        if random.chance(12) {
            frame_cases::resize(random, list.of(case));
        }
    }
    if random.chance(35) {
        let room = random.pick(&[25, 25, 24, 1, 0]);
        case.frame.truncate(room);
    }
}

#[test]
fn random_appendings() {
    let mut random = seeded(624);
    let mut given = Given::default();
    for _ in 0..CASES {
        let frames = frame_cases::size(&mut random);
        let mut case = sound_appending(&mut random, frames);
        if random.chance(80) {
            damage_appending(&mut random, &mut case);
        }
        given.count(&case.conditions(false));
        if appended(&case) == Answer::DONE {
            frame_of(&case);
        }
    }
    let order = [&LENGTHS[..3], &BITS, &in_file(4), &AT_THE_END].concat();
    given.assert_order(&order);
    let [broken, fallen] = in_file(4);
    given.kinds.assert_preferred(fallen, broken, LEAST);
}

#[test]
fn random_appendings_after() {
    let mut random = seeded(625);
    let mut given = Given::default();
    for _ in 0..CASES {
        let frames = random.pick(&[0, 1, 1, 1]);
        let mut case = sound_appending(&mut random, frames);
        if random.chance(80) {
            damage_appending(&mut random, &mut case);
        }
        given.count(&case.conditions(true));
        if appended_after(&case) == Answer::DONE {
            frame_of(&case);
        }
    }
    let order = [&LENGTHS[..], &BITS, &in_file(4)[..1], &AT_THE_END].concat();
    given.assert_order(&order);
}

#[test]
fn random_readings() {
    let mut random = seeded(626);
    let mut given = Given::default();
    for _ in 0..CASES {
        let frames = frame_cases::size(&mut random);
        let mut case = sound_reading(&mut random, frames);
        if random.chance(75) {
            if random.chance(60) {
                damage(&mut random, &mut case.file);
            }
            if random.chance(20) {
                frame_cases::spoil_bit(&mut random, &mut case.key);
            }
            if random.chance(15) {
                frame_cases::resize(&mut random, &mut case.key);
            }
            if random.chance(40) {
                let needed = RECORD * (case.file.len() / FRAME);
                let short = random.pick(&[1, 1, 2, 64, 1_000]);
                case.records.truncate(needed.saturating_sub(short));
            }
        }
        given.count(&case.conditions());
        read(&case);
    }
    let room = (FrameStage::Room, 8, 3);
    let order = [&LENGTHS[..1], &BITS[..1], &in_file(2), &[room]].concat();
    given.assert_order(&order);
    let [broken, fallen] = in_file(2);
    given.kinds.assert_preferred(fallen, broken, LEAST);
}

/// What is appended to a sound file can be read: the old records and the new.
#[test]
fn appended_and_read() {
    let mut random = seeded(627);
    for _ in 0..4_000 {
        let frames = frame_cases::size(&mut random);
        let case = sound_appending(&mut random, frames);
        let old = records_of(&case.key, &case.file);
        let file = [&case.file[..], &frame_of(&case)].concat();
        assert_eq!(check_frames(&file), Answer::DONE);
        let both = records_of(&case.key, &file);
        assert!(both == [&old[..], &case.record].concat());
        // A file in two parts has the records of both.
        let at = FRAME * random.between(0, frames + 1);
        let parts = [&file[..at], &file[at..]].map(|part| records_of(&case.key, part));
        assert!(parts.concat() == both);
    }
}

/// Appending after the last frame answers as appending to the file, but for the
/// place of a new IV that is not above.
#[test]
fn after_the_last_frame() {
    let mut random = seeded(628);
    let mut seen = Tally::default();
    for _ in 0..10_000 {
        let frames = frame_cases::size(&mut random);
        let mut case = sound_appending(&mut random, frames);
        if random.chance(70) {
            damage_appending(&mut random, &mut case);
        }
        if check_frames(&case.file) != Answer::DONE {
            continue;
        }
        let whole = append(&case);
        let last = append_after(&case.after_last());
        let expected = match whole.answer.number {
            16 => refusal(16, 4, FRAME),
            _ => whole.answer,
        };
        assert_eq!(last.answer, expected);
        assert_eq!(last.bytes, whole.bytes);
        seen.see(expected.number);
    }
    seen.assert_each([0, 3, 4, 8, 16], 301);
}

// ---- far places ----

const MANY: usize = 100_000;

#[test]
fn many_frames() {
    let mut random = seeded(629);
    let mut case = sound_reading(&mut random, MANY);
    assert_eq!(read(&case), Answer::DONE);
    let last = iv_at(&case.file, MANY - 1);
    let room = case.records.len();
    case.records.truncate(RECORD * MANY - 1);
    assert_eq!(read(&case), refusal(8, 3, RECORD * MANY - 1));
    case.records.resize(room, 9);
    for (frame, number) in [(MANY - 1, 16), (MANY / 2, 15), (3_000, 16), (2_521, 15)] {
        match number {
            15 => case.file[FRAME * frame + 1] = b'P',
            _ => {
                let before = iv_at(&case.file, frame - 1);
                put_iv(&mut case.file, frame, before);
            }
        }
        assert_eq!(read(&case), refusal(number, 2, FRAME * frame));
        let case = appending(&case.key, &[0; 64], last, &case.file);
        assert_eq!(appended(&case), refusal(number, 4, FRAME * frame));
    }
    let sound = sound_appending(&mut random, MANY);
    frame_of(&sound);
    let last = iv_at(&sound.file, MANY - 1);
    let case = appending(&sound.key, &sound.record, last, &sound.file);
    assert_eq!(appended(&case), refusal(16, 4, FRAME * MANY));
}

/// The library's calls on a small stack, all lists outside.
#[test]
fn small_stack() {
    const STACK: usize = 256 * 1024;
    let mut random = seeded(630);
    let reading = sound_reading(&mut random, MANY);
    let appending = sound_appending(&mut random, MANY);
    let mut records = reading.records.clone();
    let mut frame = appending.frame.clone();
    on_stack(STACK, || {
        assert_eq!(probe::check_frames(&reading.file), Answer::DONE);
        let answer = probe::read_frames(&reading.key, &reading.file, &mut records);
        assert_eq!(answer, Answer::DONE);
        let Appending {
            key,
            record,
            iv,
            file,
            ..
        } = &appending;
        let answer = probe::append(key, record, iv, file, &mut frame);
        assert_eq!(answer, Answer::DONE);
    });
    assert!(records[..RECORD * MANY] == records_of(&reading.key, &reading.file));
    assert_eq!(frame[..FRAME], appending.expected());
}

// ---- fields ----

/// Both ways: the fields of the bits, and their bits again.
fn there_and_back(record: &[u8]) {
    let taken = fields(record);
    assert_eq!(taken.answer, Answer::DONE);
    assert_eq!(taken.fields, port_fields(record));
    let (put, result) = bits(&taken.fields, &[9; 66]);
    assert_eq!((put.answer, put.too_large), (Answer::DONE, 0));
    assert_eq!(result[..64], *record);
    assert_eq!(result[64..], [9, 9]);
}

#[test]
fn fields_of_records() {
    let mut random = seeded(631);
    there_and_back(&[0; 64]);
    there_and_back(&[1; 64]);
    for place in 0..64 {
        for rest in [0, 1] {
            let mut record = [rest; 64];
            record[place] ^= 1;
            there_and_back(&record);
        }
    }
    for _ in 0..5_000 {
        there_and_back(&random::bits(&mut random, 64));
    }
    for length in (0..=140).chain([320, 65_600]) {
        let expected = match length {
            64 => Answer::DONE,
            _ => refusal(3, 1, length),
        };
        assert_eq!(fields(&vec![1; length]).answer, expected);
        if length != 64 {
            assert_eq!(fields(&vec![2; length]).answer, expected);
        }
    }
    for place in 0..64 {
        for byte in [2, 3, 128, 129, 255] {
            let mut record = [1; 64];
            record[place] = byte;
            assert_eq!(fields(&record).answer, refusal(4, 1, place));
            record[63] = 2;
            assert_eq!(fields(&record).answer, refusal(4, 1, place));
        }
    }
}

/// Values around each power of 2 in each field, the others small or also too
/// large.
#[test]
fn values_of_fields() {
    let mut random = seeded(632);
    let most = WIDTHS.map(|width| (1_u32 << width) - 1);
    for room in [0, 63, 64, 65] {
        for field in 0..5 {
            for power in 0..32 {
                for value in [(1_u32 << power) - 1, 1 << power, u32::MAX] {
                    for others in [[0; 5], most, [u32::MAX; 5]] {
                        let mut values = others;
                        values[field] = value;
                        put(&values, room);
                    }
                }
            }
        }
        for _ in 0..2_000 {
            let values = most.map(|most| match random.below(8) {
                0 => most + 1,
                1 => random.word(),
                _ => random.word() & most,
            });
            put(&values, room);
        }
    }
}

fn put(values: &frames::Fields, room: usize) {
    let (put, result) = bits(values, &vec![9; room]);
    let answer = match (port_bits(*values), room < 64) {
        (Err(number), _) => (Answer::DONE, number),
        (_, true) => (refusal(8, 1, room), 0),
        (Ok(record), _) => {
            assert_eq!(result[..64], record);
            (Answer::DONE, 0)
        }
    };
    assert_eq!((put.answer, put.too_large), answer, "{values:?}");
}
