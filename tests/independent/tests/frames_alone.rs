//! Holds the Rust program for the file of port records to a worked frame, to
//! values found by hand and to the definitions. The library is not called.

use independent::definitions::cipher::keystream;
use independent::definitions::frames::{bytes_of, check_conditions, frame, port_bits, port_fields};
use independent::definitions::least;
use independent::frame_cases::{self, iv_bits, Appending, FileFault, Reading, FILE_FAULTS, LISTS};
use independent::frames::{self, append, append_after, check, read, Put, FRAME, RECORD};
use independent::key::lent_key;
use independent::kreyvium::{self, first_word, pack, pack_half, unpack, Rounds};
use independent::netlist::{refusal, Answer};
use independent::random::{bits, fill, seeded, Random};
use independent::tally::Tally;
use independent::worked;

/// Random appendings, and random readings.
const CASES: usize = 10_000;

// ---- words ----

#[test]
fn words_of_bits() {
    let mut random = seeded(601);
    for _ in 0..1_000 {
        let key: [u8; 128] = bits(&mut random, 128).try_into().expect("128");
        let iv: [u8; 128] = bits(&mut random, 128).try_into().expect("128");
        let bytes: [u8; 16] = bytes_of(&iv).try_into().expect("16");
        assert_eq!(pack(&iv), u128::from_be_bytes(bytes));
        assert_eq!(iv_bits(pack(&iv)), iv);
        let half: [u8; 64] = *iv.first_chunk().expect("64");
        assert_eq!(u128::from(pack_half(&half)), pack(&iv) >> 64);
        assert_eq!(unpack(pack_half(&half).reverse_bits()), half);
        let word = first_word(pack(&key), pack(&iv));
        let stream = keystream(6, 64, &lent_key(&key), &[], &iv);
        assert_eq!(unpack(word)[..], stream);
        let mut rounds = Rounds::packed(pack(&key), pack(&iv));
        let mut others = Rounds::new(&key, &iv);
        for _ in 0..=kreyvium::SILENT / 64 {
            assert_eq!(rounds.block(), others.block());
        }
    }
    let mut first = [0; 128];
    first[0] = 1;
    assert_eq!(pack(&first), 1 << 127);
    let mut last = [0; 128];
    last[127] = 1;
    assert_eq!(pack(&last), 1);
}

// ---- frames ----

/// Key, IV and record all 0: the bits of the published keystream.
#[test]
fn worked_frame() {
    let published = worked::KEYSTREAM.map(u8::reverse_bits);
    assert_eq!(published, worked::FRAME[18..]);
    let (key, record, iv) = (lent_key(&[0; 128]), [0; 64], [0; 128]);
    assert_eq!(frame(&key, &record, &iv), worked::FRAME);
    for call in [append, append_after] {
        let mut frame = [9; FRAME + 1];
        let answer = call(&key, &record, &iv, &[], &mut frame);
        assert_eq!(answer, Answer::DONE);
        assert_eq!(frame[..FRAME], worked::FRAME);
        assert_eq!(frame[FRAME], 9);
    }
    assert_eq!(check(&worked::FRAME), Answer::DONE);
    let mut records = [9; RECORD + 1];
    assert_eq!(read(&key, &worked::FRAME, &mut records), Answer::DONE);
    assert_eq!(records[..RECORD], record);
    assert_eq!(records[RECORD], 9);
}

/// Where the bits of IV and record go.
#[test]
fn single_bits() {
    let (key, record, zeros) = (lent_key(&[0; 128]), [0; 64], [0; 128]);
    for place in 0..128 {
        let mut iv = zeros;
        iv[place] = 1;
        let mut written = [9; FRAME];
        append(&key, &record, &iv, &[], &mut written);
        let mut expected = [0; 16];
        expected[place / 8] = 0x80 >> (place % 8);
        assert_eq!(written[2..18], expected);
        assert_eq!(written[..], frame(&key, &record, &iv));
    }
    for place in 0..64 {
        let mut record = record;
        record[place] = 1;
        let mut frame = [9; FRAME];
        append(&key, &record, &zeros, &[], &mut frame);
        let mut expected = worked::FRAME;
        expected[18 + place / 8] ^= 0x80 >> (place % 8);
        assert_eq!(frame, expected);
        let mut records = [9; RECORD];
        assert_eq!(read(&key, &frame, &mut records), Answer::DONE);
        assert_eq!(records, record);
    }
}

#[test]
fn answers_by_hand() {
    let (key, record) = (lent_key(&[0; 128]), [0; 64]);
    let framed = |iv: u128| frame(&key, &record, &iv_bits(iv));
    let file = [framed(3), framed(4), framed(4), framed(9)].concat();
    assert_eq!(check(&file), refusal(16, 1, 52));
    assert_eq!(check(&file[..52]), Answer::DONE);
    assert_eq!(check(&file[..51]), refusal(15, 1, 26));
    assert_eq!(check(&file[..53]), refusal(15, 1, 52));
    assert_eq!(check(&file[1..]), refusal(15, 1, 0));
    assert_eq!(check(&[]), Answer::DONE);
    let mut records = [9; 200];
    assert_eq!(read(&key, &file, &mut records), refusal(16, 2, 52));
    assert_eq!(
        read(&key, &file[..52], &mut records[..127]),
        refusal(8, 3, 127)
    );
    assert_eq!(read(&key, &[], &mut []), Answer::DONE);
    assert_eq!(records, [9; 200]);

    let mut frame = [9; FRAME];
    let sound = &file[..52];
    for (iv, expected) in [
        (0, refusal(16, 4, 52)),
        (3, refusal(16, 4, 52)),
        (4, refusal(16, 4, 52)),
        (5, Answer::DONE),
        (u128::MAX, Answer::DONE),
    ] {
        let iv = iv_bits(iv);
        assert_eq!(append(&key, &record, &iv, sound, &mut frame), expected);
        let answer = append(&key, &record, &iv, &file, &mut frame);
        assert_eq!(answer, refusal(16, 4, 52));
        let last = &sound[FRAME..];
        let expected = match expected {
            Answer::DONE => expected,
            _ => refusal(16, 4, 26),
        };
        let answer = append_after(&key, &record, &iv, last, &mut frame);
        assert_eq!(answer, expected);
        let answer = append_after(&key, &record, &iv, sound, &mut frame);
        assert_eq!(answer, refusal(3, 4, 52));
    }
}

/// Sound ones, damaged ones, and what then holds.
fn damage(random: &mut Random, appending: &mut Appending) {
    if random.chance(25) {
        return;
    }
    for _ in 0..random.pick(&[0, 1, 1, 2]) {
        match random.below(5) {
            0..=2 => {
                let fault = random.pick(&FILE_FAULTS);
                frame_cases::inflict(random, &mut appending.file, fault);
                if fault == FileFault::Cut {
                    break;
                }
            }
            _ => frame_cases::wreck(random, &mut appending.file),
        }
    }
    for _ in 0..random.pick(&[0, 0, 1, 2]) {
        let list = random.pick(&LISTS).of(appending);
        match random.below(3) {
            0 if !list.is_empty() => {
                frame_cases::resize(random, list);
            }
            _ if !list.is_empty() => {
                frame_cases::spoil_bit(random, list);
            }
            _ => {}
        }
    }
    if random.chance(15) && appending.file.len() >= FRAME {
        let last = appending.file.len() / FRAME - 1;
        let before = frame_cases::iv_at(&appending.file, last);
        appending.iv = iv_bits(frame_cases::not_above(random, before));
    }
    if random.chance(15) {
        appending.frame.truncate(random.below(FRAME));
    }
}

/// What such a call can answer.
const NUMBERS: [u32; 6] = [0, 3, 4, 8, 15, 16];

#[test]
fn random_appendings() {
    let mut random = seeded(602);
    let mut numbers = Tally::default();
    for _ in 0..CASES {
        let frames = frame_cases::size(&mut random);
        let mut case = frame_cases::sound_appending(&mut random, frames);
        damage(&mut random, &mut case);
        let last = match random.chance(90) {
            true => case.after_last(),
            false => case.clone(),
        };
        for (case, last_alone) in [(&case, false), (&last, true)] {
            let call = if last_alone { append_after } else { append };
            let expected = least(&case.conditions(last_alone));
            let mut frame = case.frame.clone();
            let answer = call(&case.key, &case.record, &case.iv, &case.file, &mut frame);
            assert_eq!(answer, expected, "{case:?}");
            if answer == Answer::DONE {
                assert_eq!(frame[..FRAME], case.expected());
                assert_eq!(frame[FRAME..], case.frame[FRAME..]);
            } else {
                assert_eq!(frame, case.frame);
            }
            numbers.see((last_alone, answer.number));
        }
    }
    for last_alone in [false, true] {
        let each = NUMBERS.map(|number| (last_alone, number));
        numbers.assert_each(each, CASES / 100 + 1);
    }
}

#[test]
fn random_readings() {
    let mut random = seeded(603);
    let mut numbers = Tally::default();
    for _ in 0..CASES {
        let frames = frame_cases::size(&mut random);
        let mut appending = frame_cases::sound_appending(&mut random, frames);
        damage(&mut random, &mut appending);
        let Appending { key, file, .. } = appending;
        let room = 64 * (file.len() / FRAME) + random.pick(&[0, 0, 1, 64]);
        let room = room.saturating_sub(random.pick(&[0, 0, 0, 1, 64]));
        let records = fill(&mut random, room);
        let case = Reading { key, file, records };
        let expected = least(&case.conditions());
        let mut records = case.records.clone();
        let answer = read(&case.key, &case.file, &mut records);
        assert_eq!(answer, expected, "{case:?}");
        assert_eq!(check(&case.file), least(&check_conditions(1, &case.file)));
        if answer == Answer::DONE {
            let expected = case.expected();
            assert!(records[..expected.len()] == expected);
            assert!(records[expected.len()..] == case.records[expected.len()..]);
        } else {
            assert!(records == case.records);
        }
        numbers.see(answer.number);
    }
    numbers.assert_each(NUMBERS, CASES / 100 + 1);
}

/// Each IV compared with each: numbers that differ in one bit or one byte, and
/// across every border of a byte.
#[test]
fn pairs_of_ivs() {
    let mut random = seeded(604);
    let mut numbers = vec![0, 1, u128::MAX, u128::MAX - 1, u128::MAX / 2];
    for byte in 0..16 {
        let unit = 1_u128 << (8 * byte);
        numbers.extend([unit, unit - 1, 0x7F * unit, 0x80 * unit, 0xFF * unit]);
    }
    numbers.extend((0..128).map(|bit| 1 << bit));
    for &one in &numbers {
        for &other in &numbers {
            let file = frame_cases::file(&mut random, &[one, other]);
            let expected = match one < other {
                true => Answer::DONE,
                false => refusal(16, 1, FRAME),
            };
            assert_eq!(check(&file), expected, "{one} and {other}");
            assert_eq!(least(&check_conditions(1, &file)), expected);
        }
    }
}

// ---- fields ----

#[test]
fn fields_by_hand() {
    let record: Vec<u8> = "0001001001100111100000010001000101110000000000000000000000000000"
        .bytes()
        .map(|bit| bit - b'0')
        .collect();
    let values = [4_711, 1, 0, 70_000, 0];
    assert_eq!(port_fields(&record), values);
    let taken = frames::fields(&record);
    assert_eq!((taken.answer, taken.fields), (Answer::DONE, values));
    let mut result = [9; 65];
    let done = Put {
        answer: Answer::DONE,
        too_large: 0,
    };
    assert_eq!(frames::bits(&values, &mut result), done);
    assert_eq!(result[..64], record);
    assert_eq!(result[64], 9);
    let largest = [65_535, 1, 1, 4_194_303, 16_777_215];
    assert_eq!(frames::bits(&largest, &mut result), done);
    assert_eq!(result[..64], [1; 64]);
    assert_eq!(frames::fields(&[1; 64]).fields, largest);
    for number in (1..=5).rev() {
        let mut values = largest;
        for value in &mut values[number - 1..] {
            *value += 1;
        }
        let put = frames::bits(&values, &mut []);
        assert_eq!((put.answer, put.too_large), (Answer::DONE, number as u32));
        assert_eq!(port_bits(values), Err(number as u32));
    }
    let short = frames::bits(&values, &mut [9; 63]);
    assert_eq!((short.answer, short.too_large), (refusal(8, 1, 63), 0));
    assert_eq!(frames::fields(&record[..63]).answer, refusal(3, 1, 63));
    assert_eq!(frames::fields(&[2; 65]).answer, refusal(3, 1, 65));
    assert_eq!(frames::fields(&[2; 64]).answer, refusal(4, 1, 0));
}

#[test]
fn fields_both_ways() {
    let mut random = seeded(605);
    for _ in 0..20_000 {
        let record = bits(&mut random, 64);
        let taken = frames::fields(&record);
        assert_eq!(taken.answer, Answer::DONE);
        assert_eq!(taken.fields, port_fields(&record));
        assert_eq!(port_bits(taken.fields), Ok(record.clone()));
        let mut result = [9; 64];
        frames::bits(&taken.fields, &mut result);
        assert_eq!(result[..], record);
        // One bit above the field, or any.
        let mut values = taken.fields;
        let field = random.below(5);
        values[field] ^= 1 << random.below(32);
        let due = port_bits(values).err().unwrap_or(0);
        assert_eq!(frames::bits(&values, &mut result).too_large, due);
    }
}
