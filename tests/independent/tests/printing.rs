//! Hands the library and the Rust program the same input and compares answers
//! and printed text: every netlist that can be asked for, and input that is no
//! such line.

use independent::both;
use independent::lent::show;
use independent::netlist::{refusal, Answer};
use independent::printing::{printed, Printing, REFUSED};
use independent::probe;
use independent::random::{fill, seeded};
use independent::stack::on_stack;
use independent::worked::{PRINTED, REFUSED_INPUT};

/// Has both programs print into that room. Where there is none for the text,
/// that is answered, and nothing is written.
fn print(input: &[u8], text: &[u8], room: usize) {
    let stale = fill(&mut seeded(400), room);
    let (printing, _) = both::printing::print(input, &stale);
    let expected = if text.len() <= room {
        done(text.len())
    } else {
        short(room)
    };
    assert_eq!(printing, expected, "printing for {}", show(input));
}

/// A text of that length.
fn done(size: usize) -> Printing {
    let answer = Answer::DONE;
    Printing { answer, size }
}

/// That there is no room for the text.
fn short(room: usize) -> Printing {
    let answer = refusal(8, 2, room);
    Printing { answer, size: 0 }
}

/// Rooms of every kind: none, too little, the exact one, and more.
fn in_every_room(input: &[u8]) -> Vec<u8> {
    let text = printed(input);
    let exact = text.len();
    for room in [0, 1, exact / 2, exact - 1, exact, exact + 1, exact + 60] {
        print(input, &text, room);
    }
    text
}

/// Whether it is refused, with room to spare.
fn refused(input: &[u8]) -> bool {
    let text = printed(input);
    print(input, &text, text.len() + 40);
    text == REFUSED.as_bytes()
}

#[test]
fn printed_example() {
    let length = PRINTED.len();
    let mut result = [9; 100];
    let room = &mut result[..length - 1];
    assert_eq!(probe::print(b"2 3\n", room), short(length - 1));
    assert_eq!(result, [9; 100]);
    assert_eq!(probe::print(b"2 3\n", &mut result), done(length));
    assert_eq!(result[..length], *PRINTED.as_bytes());
    assert_eq!(result[length..], [9; 100][length..]);
    let refused = done(REFUSED.len());
    assert_eq!(probe::print(b"3 2\n2\n", &mut result), refused);
    assert_eq!(result[..REFUSED.len()], *REFUSED.as_bytes());
    // The text before is still there after that.
    assert_eq!(
        result[REFUSED.len()..length],
        PRINTED.as_bytes()[REFUSED.len()..]
    );
}

#[test]
fn every_netlist() {
    let mut accepted = 0;
    for n in 0..=66 {
        for d in 0..=n + 3 {
            let text = in_every_room(format!("{d} {n}\n").as_bytes());
            let good = n <= 64 && 1 <= d && d <= n + 1;
            assert_eq!(text != REFUSED.as_bytes(), good);
            accepted += usize::from(good);
        }
    }
    assert_eq!(accepted, (1..=65).sum());
}

/// All numbers of up to three digits, against those near the limits.
#[test]
fn every_number() {
    for one in 0..1_000 {
        for other in [0, 1, 2, 63, 64, 65, 66, 100, 256, 640, 999] {
            for (d, n) in [(one, other), (other, one)] {
                let good = n <= 64 && 1 <= d && d <= n + 1;
                let line = format!("{d} {n}\n");
                assert_eq!(refused(line.as_bytes()), !good, "{line}");
            }
        }
    }
}

#[test]
fn every_room() {
    for line in [&b"2 3\n"[..], b"1 0\n", b"0 0\n", b"x", b""] {
        let text = printed(line);
        for room in 0..=text.len() + 3 {
            print(line, &text, room);
        }
    }
    for line in [&b"32 64\n"[..], b"1 64\n", b"64 64\n"] {
        let text = printed(line);
        let exact = text.len();
        for room in (0..exact).step_by(97).chain([exact - 1, exact]) {
            print(line, &text, room);
        }
    }
}

#[test]
fn lines_that_are_refused() {
    for input in REFUSED_INPUT {
        assert!(refused(input.as_bytes()), "{input:?}");
        in_every_room(input.as_bytes());
    }
}

/// Good lines with each byte replaced by each other, with each byte put in
/// anywhere, and with each taken out.
#[test]
fn every_changed_byte() {
    let mut good = 0;
    for line in [&b"2 3\n"[..], b"12 34\n", b"64 64\n", b"100 64\n", b"1 0\n"] {
        for place in 0..line.len() {
            for byte in 0..=255 {
                let mut input = line.to_vec();
                input[place] = byte;
                good += usize::from(!refused(&input));
                let mut input = line.to_vec();
                input.insert(place, byte);
                good += usize::from(!refused(&input));
            }
            let mut input = line.to_vec();
            input.remove(place);
            good += usize::from(!refused(&input));
        }
        for byte in 0..=255 {
            let input = [line, &[byte]].concat();
            assert!(refused(&input));
        }
    }
    assert!(good > 100, "only {good} good lines");
}

/// All input of up to six of these bytes.
#[test]
fn every_short_input() {
    const BYTES: [u8; 6] = *b"013 \n9";
    let mut good = 0;
    for length in 0..=6_u32 {
        for number in 0..BYTES.len().pow(length) {
            let input: Vec<u8> = (0..length)
                .map(|place| BYTES[number / BYTES.len().pow(place) % BYTES.len()])
                .collect();
            let text = printed(&input);
            let mut result = vec![7; text.len()];
            let printing = probe::print(&input, &mut result);
            assert_eq!(printing, done(text.len()), "{input:?}");
            assert!(result == text, "{input:?}");
            good += usize::from(text != REFUSED.as_bytes());
        }
    }
    assert!(good > 50, "only {good} good lines");
}

/// Much input: digits, spaces, newlines, and a good line before or after it.
#[test]
fn long_input() {
    const LENGTH: usize = 64 * 1024;
    for byte in *b"029 \n\0\xFF" {
        let long = vec![byte; LENGTH];
        for input in [
            long.clone(),
            [&long[..], b"\n"].concat(),
            [&long[..], b" 3\n"].concat(),
            [b"2 ", &long[..], b"\n"].concat(),
            [b"2 3", &long[..], b"\n"].concat(),
            [b"2 3\n", &long[..]].concat(),
            [&long[..], b"2 3\n"].concat(),
        ] {
            assert!(refused(&input));
        }
    }
    let lines = b"2 3\n".repeat(LENGTH / 4);
    assert!(refused(&lines));
    assert!(refused(&lines[..lines.len() - 1]));
}

#[test]
fn random_input() {
    let mut random = seeded(401);
    let mut good = 0;
    for _ in 0..20_000 {
        let mut input: Vec<u8> = match random.below(4) {
            0 => {
                let length = random.between(0, 12);
                fill(&mut random, length)
            }
            _ => {
                let (d, n) = (random.below(70), random.below(70));
                format!("{d} {n}\n").into_bytes()
            }
        };
        for _ in 0..random.pick(&[0, 0, 1, 2]) {
            let place = random.below(input.len() + 1);
            match random.below(3) {
                0 => input.insert(place, random.pick(b"0123456789 \n+-\r\t")),
                1 if place < input.len() => {
                    input.remove(place);
                }
                _ if place < input.len() => input[place] = random.pick(b"0123456789 \n"),
                _ => {}
            }
        }
        good += usize::from(!refused(&input));
    }
    assert!(good > 1_000, "only {good} good lines");
}

/// The library's call on a small stack.
#[test]
fn small_stack() {
    const STACK: usize = 512 * 1024;
    let text = printed(b"32 64\n");
    let mut result = vec![9; text.len()];
    on_stack(STACK, || {
        assert_eq!(probe::print(b"32 64\n", &mut result), done(text.len()));
    });
    assert!(result == text);
}
