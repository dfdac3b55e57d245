//! Hands the collector's library and the Rust program the same lists, sound and
//! damaged, and compares the packed answer and the lent lists. Both are held to
//! the definitions.

use independent::both::frames::{hand_appending, hand_frames, hand_reading};
use independent::definitions::frames::{check_conditions, frame, FrameConditions};
use independent::definitions::least;
use independent::frame_cases::{
    self, iv_at, iv_bits, not_above, put_iv, sound_appending, sound_reading, Appending, Reading,
    FILE_FAULTS, LISTS,
};
use independent::frames::{FRAME, RECORD};
use independent::key::{key_length, lent_key};
use independent::netlist::{refusal, Answer};
use independent::random::{fill, seeded, Random};
use independent::stack::on_stacks;
use independent::tally::Tally;
use independent::worked;
use independent::{collector, daemon, sallowknot};
use std::fmt::Debug;

/// Random appendings, and random readings.
const CASES: usize = 20_000;

/// The answer that is due, which is the packed one.
fn due(packed: u64, held: &FrameConditions, case: &dyn Debug) -> Answer {
    let due = least(held);
    assert_eq!(packed, daemon::packed(due), "{due:?} is due; {case:?}");
    due
}

/// Hands an appending to both programs, to the file or after its last frame. The
/// answer, and what the frame then holds.
fn append(case: &Appending, last_alone: bool) -> (Answer, Vec<u8>) {
    let written = if last_alone {
        let calls = [sallowknot::frames_append_after, collector::append_after];
        hand_appending(case, "a last frame", calls, 0)
    } else {
        let calls = [sallowknot::frames_append, collector::append];
        hand_appending(case, "a file", calls, 0)
    };
    let answer = due(written.answer, &case.conditions(last_alone), case);
    (answer, written.bytes)
}

/// Has both programs read the file and check it. The answer to the reading, and
/// what the records then hold.
fn read(case: &Reading) -> (Answer, Vec<u8>) {
    let checked = hand_frames(&case.file, [sallowknot::frames_check, collector::check]);
    due(checked, &check_conditions(1, &case.file), case);
    let written = hand_reading(case, [sallowknot::frames_read, collector::read], 0);
    (due(written.answer, &case.conditions(), case), written.bytes)
}

#[test]
fn packed_answers() {
    let (key, record) = (lent_key(&[0; 128]), [0; 64]);
    let mut frame = [9; FRAME];
    let append = |iv: u128, file: &[u8], frame: &mut [u8]| {
        sallowknot::frames_append(&key, &record, &iv_bits(iv), file, frame)
    };
    assert_eq!(append(0, &[], &mut frame), 0);
    let worked = worked::FRAME;
    assert_eq!(frame, worked);
    assert_eq!(append(0, &worked, &mut frame), 0x001A_0410);
    assert_eq!(append(1, &worked[..25], &mut frame), 0x0000_040F);
    assert_eq!(append(1, &worked, &mut frame[..25]), 0x0019_0508);
    let after = |iv: u128, last: &[u8], frame: &mut [u8]| {
        sallowknot::frames_append_after(&key, &record, &iv_bits(iv), last, frame)
    };
    assert_eq!(after(1, &worked, &mut frame), 0);
    assert_eq!(after(0, &worked, &mut frame), 0x001A_0410);
    assert_eq!(after(1, &worked[..25], &mut frame), 0x0019_0403);
    let mut records = [9; 64];
    assert_eq!(sallowknot::frames_read(&key, &worked, &mut records), 0);
    assert_eq!(records, record);
    let short = sallowknot::frames_read(&key, &worked, &mut records[..63]);
    assert_eq!(short, 0x003F_0308);
    let twice = [worked, worked].concat();
    assert_eq!(sallowknot::frames_check(&twice), 0x001A_0110);
    assert_eq!(sallowknot::frames_check(&twice[..51]), 0x001A_010F);
    let twice_read = sallowknot::frames_read(&key, &twice, &mut records);
    assert_eq!(twice_read, 0x001A_0210);
    assert_eq!(sallowknot::frames_check(&[]), 0);
    assert_eq!(sallowknot::frames_check(b"PT"), 0x0000_010F);
}

/// All lists empty, then one after the other not.
#[test]
fn empty_lists() {
    let mut case = Appending {
        key: vec![],
        record: vec![],
        iv: vec![],
        file: vec![],
        frame: vec![],
    };
    for (list, length) in LISTS.into_iter().zip([key_length(128), 64, 128]) {
        for last_alone in [false, true] {
            assert_eq!(append(&case, last_alone).0, refusal(3, list.number(), 0));
        }
        list.of(&mut case).resize(length, 1);
    }
    for last_alone in [false, true] {
        assert_eq!(append(&case, last_alone).0, refusal(8, 5, 0));
    }
    let mut case = Reading {
        key: vec![],
        file: vec![],
        records: vec![],
    };
    assert_eq!(read(&case).0, refusal(3, 1, 0));
    case.key = lent_key(&[0; 128]);
    assert_eq!(read(&case).0, Answer::DONE);
    case.file = frame(&case.key, &[1; 64], &[1; 128]);
    assert_eq!(read(&case).0, refusal(8, 3, 0));
}

/// As a collector does: the file grows, and is read whole.
#[test]
fn growing_file() {
    let mut random = seeded(641);
    let key: Vec<u8> = sound_reading(&mut random, 0).key;
    let (mut file, mut records) = (vec![], vec![]);
    for iv in frame_cases::rising(&mut random, 200) {
        let mut case = sound_appending(&mut random, 0);
        case.key.clone_from(&key);
        case.iv = iv_bits(iv);
        case.file.clone_from(&file);
        let (answer, frame) = append(&case, false);
        assert_eq!(answer, Answer::DONE);
        let after_last = append(&case.after_last(), true);
        assert_eq!(after_last, (Answer::DONE, frame.clone()));
        file.extend(&frame[..FRAME]);
        records.extend(case.record);
        let (answer, read) = read(&Reading::exact(&key, &file));
        assert_eq!(answer, Answer::DONE);
        assert!(read == records);
    }
}

#[test]
fn small_files() {
    let mut random = seeded(642);
    let key = lent_key(&[1; 128]);
    let sound = frame_cases::file(&mut random, &[0xFE, 0xFF, 0x100]);
    for length in 0..=sound.len() {
        read(&Reading::exact(&key, &sound[..length]));
    }
    let mut tally = Tally::default();
    for place in 0..sound.len() {
        for byte in 0..=255 {
            let mut file = sound.clone();
            file[place] = byte;
            tally.count(read(&Reading::exact(&key, &file)).0);
        }
    }
    tally.assert_seen(0, 0, 6_000);
    tally.assert_seen(15, 2, 1_000);
    tally.assert_seen(16, 2, 1_000);
}

/// Damages a file: several faults, or anything.
fn damage(random: &mut Random, file: &mut Vec<u8>) {
    for _ in 0..random.pick(&[1, 1, 2, 3]) {
        if random.chance(30) {
            frame_cases::wreck(random, file);
        } else {
            let fault = random.pick(&FILE_FAULTS);
            frame_cases::inflict(random, file, fault);
        }
    }
}

#[test]
fn random_appendings() {
    let mut random = seeded(643);
    let mut tallies = [Tally::default(), Tally::default()];
    for _ in 0..CASES {
        let last_alone = random.chance(50);
        let frames = match last_alone {
            true => random.below(2),
            false => frame_cases::size(&mut random),
        };
        let mut case = sound_appending(&mut random, frames);
        if frames > 0 && random.chance(20) {
            let last = iv_at(&case.file, frames - 1);
            case.iv = iv_bits(not_above(&mut random, last));
        }
        if random.chance(30) {
            damage(&mut random, &mut case.file);
        }
        for list in LISTS {
            let list = list.of(&mut case);
            if random.chance(8) {
                frame_cases::spoil_bit(&mut random, list);
            }
            if random.chance(5) {
                frame_cases::resize(&mut random, list);
            }
        }
        if random.chance(20) {
            case.frame.truncate(random.below(FRAME));
        }
        let (answer, frame) = append(&case, last_alone);
        if answer == Answer::DONE {
            assert_eq!(frame[..FRAME], case.expected());
        }
        tallies[usize::from(last_alone)].count(answer);
    }
    for tally in &tallies {
        tally.assert_seen(0, 0, CASES / 20);
        let of_lists = [(3, 1), (3, 2), (3, 3), (4, 1), (4, 2), (4, 3)];
        tally.assert_each(of_lists, CASES / 200);
        tally.assert_each([(15, 4), (16, 4), (8, 5)], CASES / 100);
    }
    tallies[1].assert_seen(3, 4, CASES / 200);
}

#[test]
fn random_readings() {
    let mut random = seeded(644);
    let mut tally = Tally::default();
    for _ in 0..CASES {
        let frames = frame_cases::size(&mut random);
        let mut case = sound_reading(&mut random, frames);
        if random.chance(60) {
            damage(&mut random, &mut case.file);
        }
        if random.chance(10) {
            frame_cases::spoil_bit(&mut random, &mut case.key);
        }
        if random.chance(10) {
            frame_cases::resize(&mut random, &mut case.key);
        }
        if random.chance(30) {
            let short = random.pick(&[1, 64]);
            let needed = RECORD * (case.file.len() / FRAME);
            case.records.truncate(needed.saturating_sub(short));
        }
        tally.count(read(&case).0);
    }
    tally.assert_seen(0, 0, CASES / 10);
    tally.assert_each([(3, 1), (4, 1), (8, 3), (15, 2), (16, 2)], CASES / 100);
}

/// Places far beyond 16 bits.
#[test]
fn many_frames() {
    const MANY: usize = 20_000;
    let mut random = seeded(645);
    let mut case = sound_reading(&mut random, MANY);
    assert_eq!(read(&case).0, Answer::DONE);
    let mut appending = sound_appending(&mut random, 0);
    appending.file.clone_from(&case.file);
    let last = iv_at(&case.file, MANY - 1);
    appending.iv = iv_bits(last);
    assert_eq!(append(&appending, false).0, refusal(16, 4, FRAME * MANY));
    assert_eq!(append(&appending, true).0, refusal(3, 4, FRAME * MANY));
    case.records.truncate(RECORD * MANY - 1);
    assert_eq!(read(&case).0, refusal(8, 3, RECORD * MANY - 1));
    put_iv(&mut case.file, MANY - 1, 0);
    assert_eq!(read(&case).0, refusal(16, 2, FRAME * (MANY - 1)));
    case.file[FRAME * (MANY - 2)] = b'N';
    assert_eq!(read(&case).0, refusal(15, 2, FRAME * (MANY - 2)));
}

/// Many at once, on small stacks.
#[test]
fn from_many_threads() {
    const STACK: usize = 256 * 1024;
    let mut random = seeded(646);
    let readings: Vec<Reading> = (0..8).map(|_| sound_reading(&mut random, 200)).collect();
    let appending = sound_appending(&mut random, 200);
    let frame = appending.expected();
    let parts = readings.iter().map(|reading| {
        let (appending, frame) = (&appending, &frame);
        let stale: Vec<u8> = fill(&mut random, 200 * RECORD);
        move || {
            let mut expected = stale.clone();
            collector::read(&reading.key, &reading.file, &mut expected);
            for _ in 0..20 {
                let mut records = stale.clone();
                let answer = sallowknot::frames_read(&reading.key, &reading.file, &mut records);
                assert_eq!(answer, 0);
                assert!(records == expected);
                let mut written = [9; FRAME];
                let answer = sallowknot::frames_append(
                    &appending.key,
                    &appending.record,
                    &appending.iv,
                    &appending.file,
                    &mut written,
                );
                assert_eq!(answer, 0);
                assert_eq!(written[..], frame[..]);
                assert_eq!(sallowknot::frames_check(&reading.file), 0);
            }
        }
    });
    on_stacks(STACK, parts);
}
