//! Holds the printing program in Rust to the printed example and, read back,
//! to the definition of the netlists. The library is not called.

use independent::definitions::netlist::{threshold, threshold_costs};
use independent::netlist::{Counts, ARITY, HEADER_WORDS};
use independent::printing::{printed, NAMES, REFUSED};
use independent::worked::{PRINTED, REFUSED_INPUT};

fn text(input: &str) -> String {
    String::from_utf8(printed(input.as_bytes())).expect("the text is plain")
}

#[test]
fn printed_example() {
    assert_eq!(text("2 3\n"), PRINTED);
}

#[test]
fn small_ones() {
    for (line, expected) in [
        // d = n + 1: ZERO alone.
        (
            "1 0\n",
            "T 1 0\nin 0 gates 1 out 1 depth 0 mult 0\n0 ZERO\nout 0\n",
        ),
        (
            "4 3\n",
            "T 4 3\nin 3 gates 1 out 1 depth 0 mult 0\n3 ZERO\nout 3\n",
        ),
        (
            "65 64\n",
            "T 65 64\nin 64 gates 1 out 1 depth 0 mult 0\n64 ZERO\nout 64\n",
        ),
        // No gates.
        ("1 1\n", "T 1 1\nin 1 gates 0 out 1 depth 0 mult 0\nout 0\n"),
        (
            "2 2\n",
            "T 2 2\nin 2 gates 1 out 1 depth 1 mult 1\n2 AND 0 1\nout 2\n",
        ),
        (
            "1 2\n",
            "T 1 2\nin 2 gates 3 out 1 depth 1 mult 1\n2 NOT 0\n3 AND 2 1\n4 XOR 3 0\nout 4\n",
        ),
    ] {
        assert_eq!(text(line), expected);
    }
}

/// The lines after the counts as a netlist's gates and outputs.
fn read_back(lines: &[&str], inputs: usize) -> Vec<u32> {
    let mut words = Vec::new();
    let mut wire = inputs;
    for line in lines {
        let mut parts = line.split(' ');
        let first = parts.next().expect("a line has a part");
        let rest: Vec<&str> = parts.collect();
        if first == "out" {
            let [output] = rest[..] else {
                panic!("one wire: {line}")
            };
            words.push(output.parse().expect("a wire"));
            continue;
        }
        assert_eq!(first, wire.to_string(), "{line}");
        let kind = NAMES.iter().position(|&name| name == rest[0]);
        let kind = kind.expect("a kind");
        assert_eq!(rest.len() - 1, ARITY[kind], "{line}");
        let mut gate = [kind as u32, 0, 0, 0];
        for (to, operand) in gate[1..].iter_mut().zip(&rest[1..]) {
            *to = operand.parse().expect("a wire");
        }
        words.extend(gate);
        wire += 1;
    }
    words
}

#[test]
fn every_netlist() {
    for n in 0..=66 {
        for d in 0..=n + 3 {
            let text = text(&format!("{d} {n}\n"));
            if n > 64 || d == 0 || d > n + 1 {
                assert_eq!(text, REFUSED);
                continue;
            }
            let net = threshold(d, n);
            let Counts {
                inputs,
                gates,
                outputs,
            } = Counts::of(&net);
            let (multiplications, depth) = threshold_costs(d, n);
            assert!(text.ends_with('\n'));
            let lines: Vec<&str> = text.lines().collect();
            assert_eq!(lines[0], format!("T {d} {n}"));
            assert_eq!(
                lines[1],
                format!(
                    "in {inputs} gates {gates} out {outputs} depth {depth} mult {multiplications}"
                )
            );
            assert_eq!(read_back(&lines[2..], n), net[HEADER_WORDS..]);
        }
    }
}

#[test]
fn lines_that_are_refused() {
    for input in REFUSED_INPUT {
        assert_eq!(text(input), REFUSED, "{input:?}");
    }
}
