//! Hands the library and the Rust program the same lists, sound and damaged,
//! and compares the whole answer and every lent list. Cases whose answer is
//! known beforehand, by hand or from the way they were made, are held to that
//! too.

use independent::both::netlist::{check, evaluate, glue, glued, glued_length, meter, metered, run};
use independent::cases::{self, Fault, Shape, FAULTS, LARGEST};
use independent::lent::show;
use independent::netlist::{
    self, gate_place, refusal, words_for, Answer, Counts, Level, Metering, AND, GATES_PLACE,
    GATE_WORDS, HEADER_WORDS, INPUTS_PLACE, MAX_GATES, MAX_INPUTS, MAX_OUTPUTS, MUX, NOT, ONE,
    OUTPUTS_PLACE, XOR, ZERO,
};
use independent::probe;
use independent::random::{bits, fill, seeded, Random};
use independent::stack::on_stack;
use independent::tally::{holding, Tally};
use independent::worked::{ONE_HOT, THRESHOLD};

/// Random cases of each of the four calls.
const CASES: usize = 250_000;

/// A record of no account, as it may stand in a lent list.
const STALE: Level = level(9, 8);

const fn level(ands: u32, muxes: u32) -> Level {
    Level { ands, muxes }
}

// ---- by hand ----

/// Inverts its only input.
const INVERTER: [u32; 8] = [1, 1, 1, NOT, 0, 0, 0, 1];

#[test]
fn threshold_two_of_three() {
    assert_eq!(check(&THRESHOLD), Answer::DONE);

    let result = evaluate(&THRESHOLD, &[0, 1, 1], &[9; 10], &[9; 3]);
    assert_eq!(result.answer, Answer::DONE);
    assert_eq!(result.values, [0, 1, 1, 1, 1, 0, 1, 1, 9, 9]);
    assert_eq!(result.outputs, [1, 9, 9]);

    let result = evaluate(&THRESHOLD, &[1, 0, 0], &[9; 8], &[9; 1]);
    assert_eq!(result.answer, Answer::DONE);
    assert_eq!(result.values, [1, 0, 0, 0, 1, 0, 0, 0]);
    assert_eq!(result.outputs, [0]);

    for (inputs, output) in [
        ([0, 0, 0], 0),
        ([0, 0, 1], 0),
        ([0, 1, 0], 0),
        ([0, 1, 1], 1),
        ([1, 0, 0], 0),
        ([1, 0, 1], 1),
        ([1, 1, 0], 1),
        ([1, 1, 1], 1),
    ] {
        assert_eq!(run(&THRESHOLD, &inputs), [output]);
    }

    let result = meter(&THRESHOLD, &[9; 9], &[STALE; 4]);
    assert_eq!(
        result.metering,
        Metering {
            answer: Answer::DONE,
            depth: 2,
            multiplications: 3,
        }
    );
    assert_eq!(result.depths, [0, 0, 0, 0, 1, 1, 2, 2, 9]);
    assert_eq!(
        result.levels,
        [level(0, 0), level(1, 1), level(1, 0), STALE]
    );
}

/// The first data wire of a MUX is taken at 0, the second at 1: exchanged,
/// this fails on 1, 0.
#[test]
fn one_hot_of_two() {
    assert_eq!(run(&ONE_HOT, &[0, 0]), [1, 0, 0]);
    assert_eq!(run(&ONE_HOT, &[1, 0]), [0, 1, 0]);
    assert_eq!(run(&ONE_HOT, &[0, 1]), [0, 1, 0]);
    assert_eq!(run(&ONE_HOT, &[1, 1]), [0, 0, 1]);
}

#[test]
fn every_kind_on_every_value() {
    let net = [
        3, 6, 6, //
        ZERO, 0, 0, 0, //
        ONE, 0, 0, 0, //
        NOT, 2, 0, 0, //
        XOR, 2, 1, 0, //
        AND, 2, 1, 0, //
        MUX, 2, 1, 0, //
        3, 4, 5, 6, 7, 8,
    ];
    // On wires 0, 1, 2: 0, 1, NOT 2, 2 XOR 1, 2 AND 1, and 1 or 0 as 2 says.
    for (inputs, outputs) in [
        ([0, 0, 0], [0, 1, 1, 0, 0, 0]),
        ([0, 0, 1], [0, 1, 0, 1, 0, 0]),
        ([0, 1, 0], [0, 1, 1, 1, 0, 1]),
        ([0, 1, 1], [0, 1, 0, 0, 1, 0]),
        ([1, 0, 0], [0, 1, 1, 0, 0, 0]),
        ([1, 0, 1], [0, 1, 0, 1, 0, 1]),
        ([1, 1, 0], [0, 1, 1, 1, 0, 1]),
        ([1, 1, 1], [0, 1, 0, 0, 1, 1]),
    ] {
        assert_eq!(run(&net, &inputs), outputs);
    }
    let result = meter(&net, &[9; 9], &[STALE; 2]);
    assert_eq!(result.metering.depth, 1);
    assert_eq!(result.metering.multiplications, 2);
    assert_eq!(result.depths, [0, 0, 0, 0, 0, 0, 0, 1, 1]);
    assert_eq!(result.levels, [level(0, 0), level(1, 1)]);
}

#[test]
fn one_wire_pass_through() {
    let net = [1, 0, 1, 0];
    assert_eq!(cases::pass_through(1), net);
    assert_eq!(check(&net), Answer::DONE);
    for bit in [0, 1] {
        let result = evaluate(&net, &[bit], &[9; 2], &[9; 2]);
        assert_eq!(result.answer, Answer::DONE);
        assert_eq!(
            (result.values, result.outputs),
            (vec![bit, 9], vec![bit, 9])
        );
    }
    let result = meter(&net, &[9; 2], &[STALE; 2]);
    assert_eq!(result.metering.answer, Answer::DONE);
    assert_eq!(result.metering.depth, 0);
    assert_eq!(result.metering.multiplications, 0);
    assert_eq!(result.depths, [0, 9]);
    assert_eq!(result.levels, [level(0, 0), STALE]);
}

/// Three words, no wire at all; one level is counted all the same.
#[test]
fn empty_netlist() {
    let net = [0, 0, 0];
    assert_eq!(check(&net), Answer::DONE);
    let result = evaluate(&net, &[], &[], &[]);
    assert_eq!(result.answer, Answer::DONE);
    let result = evaluate(&net, &[0], &[], &[]);
    assert_eq!(result.answer, refusal(3, 2, 1));
    let result = meter(&net, &[], &[STALE]);
    assert_eq!(result.metering.answer, Answer::DONE);
    assert_eq!(result.levels, [level(0, 0)]);
    let result = meter(&net, &[], &[]);
    assert_eq!(result.metering.answer, refusal(8, 3, 0));
    let result = glue(&net, &net, &[9; 4]);
    assert_eq!(result.answer, Answer::DONE);
    assert_eq!(result.out, [0, 0, 0, 9]);
}

/// Without inputs the first gate is a constant, and what stood in the lists
/// before is of no account.
#[test]
fn constants_alone() {
    let net = [0, 3, 1, ONE, 0, 0, 0, ZERO, 0, 0, 0, MUX, 0, 0, 1, 2];
    for stale in [0, 1, 2, 255] {
        let result = evaluate(&net, &[], &[stale; 4], &[stale; 2]);
        assert_eq!(result.answer, Answer::DONE);
        assert_eq!(result.values, [1, 0, 0, stale]);
        assert_eq!(result.outputs, [0, stale]);
    }
    for stale in [0, 1, 77, u32::MAX] {
        let result = meter(&net, &[stale; 4], &[level(stale, stale); 2]);
        assert_eq!(result.metering.answer, Answer::DONE);
        assert_eq!(result.metering.depth, 1);
        assert_eq!(result.depths, [0, 0, 1, stale]);
        assert_eq!(result.levels, [level(0, 0), level(0, 1)]);
    }
}

/// The depth is that of the outputs; multiplications and levels count every
/// gate.
#[test]
fn unused_deep_wire() {
    for (output, depth) in [(0, 0), (1, 1), (2, 2), (3, 0)] {
        let net = [
            1, 3, 1, //
            AND, 0, 0, 0, //
            AND, 1, 1, 0, //
            NOT, 0, 0, 0, //
            output,
        ];
        let result = meter(&net, &[9; 4], &[STALE; 4]);
        assert_eq!(result.metering.answer, Answer::DONE);
        assert_eq!(result.metering.depth, depth);
        assert_eq!(result.metering.multiplications, 2);
        assert_eq!(result.depths, [0, 1, 2, 0]);
        assert_eq!(
            result.levels,
            [level(0, 0), level(1, 0), level(1, 0), STALE]
        );
    }
    let no_outputs = [1, 1, 0, AND, 0, 0, 0];
    let result = meter(&no_outputs, &[9; 2], &[STALE; 2]);
    assert_eq!(result.metering.depth, 0);
    assert_eq!(result.metering.multiplications, 1);
    assert_eq!(result.levels, [level(0, 0), level(1, 0)]);
}

/// Too few levels: the depths are filled, and nothing else is.
#[test]
fn meter_fills_depths_where_only_levels_lack() {
    for levels in 0..3 {
        let result = meter(&THRESHOLD, &[9; 10], &vec![STALE; levels]);
        assert_eq!(
            result.metering,
            Metering {
                answer: refusal(8, 3, levels),
                depth: 0,
                multiplications: 0,
            }
        );
        assert_eq!(result.depths, [0, 0, 0, 0, 1, 1, 2, 2, 9, 9]);
        assert_eq!(result.levels, vec![STALE; levels]);
    }
    // Too few depths as well: that is judged first, and nothing is filled.
    let result = meter(&THRESHOLD, &[9; 7], &[STALE; 2]);
    assert_eq!(result.metering.answer, refusal(8, 2, 7));
    assert_eq!(result.depths, [9; 7]);
}

#[test]
fn rule_nine_by_hand() {
    let with = |place: usize, word: u32| {
        let mut words = THRESHOLD.to_vec();
        words[place] = word;
        words
    };
    let most = u32::MAX;
    for words in [
        with(4, 2),
        with(3, ZERO),
        with(3, ONE),
        with(3, XOR),
        with(3, AND),
        with(3, MUX),
        with(8, 3),
        with(9, 3),
        with(10, 0),
        with(23, 0),
        with(0, 4),
        with(0, 32_768),
    ] {
        assert_eq!(check(&words), Answer::DONE, "{words:?}");
    }
    for (words, place) in [
        // Fewer than three words.
        (vec![], 0),
        (vec![most], 1),
        (vec![1, most], 2),
        // The counts.
        (vec![most, most, most], 0),
        (vec![32_768, most, most], 1),
        (vec![32_768, 262_144, most], 2),
        (vec![32_769, 0, 0], 0),
        (vec![0, 262_145, 0], 1),
        (vec![0, 0, 4_097], 2),
        // 4G + O is 1 modulo 2^32: the count is judged, not the length.
        (vec![0, 0x4000_0000, 1, 0], 1),
        // The length.
        (vec![32_768, 262_144, 4_096], 3),
        (vec![0, 0, 1], 3),
        (vec![0, 0, 0, 0], 4),
        (vec![0, 1, 0, 9, 9, 9], 6),
        (THRESHOLD[..23].to_vec(), 23),
        ([&THRESHOLD[..], &[0]].concat(), 25),
        (with(1, 4), 24),
        (with(1, 6), 24),
        (with(2, 0), 24),
        (with(2, 2), 24),
        // NOT 0 at words 3 to 6 gives wire 3.
        (with(3, 6), 3),
        (with(3, most), 3),
        (with(4, 3), 4),
        (with(4, most), 4),
        (with(5, 1), 5),
        (with(6, 1), 6),
        // MUX 1 0 3 at words 7 to 10 gives wire 4.
        (with(7, 256 + MUX), 7),
        (with(7, ONE), 8),
        (with(7, NOT), 10),
        (with(7, AND), 10),
        (with(8, 4), 8),
        (with(9, 4), 9),
        (with(10, 4), 10),
        (with(10, 5), 10),
        // AND 0 1 at words 11 to 14 gives wire 5.
        (with(11, NOT), 13),
        (with(12, 5), 12),
        (with(13, 5), 13),
        (with(14, most), 14),
        // The output is below 8.
        (with(23, 8), 23),
        (with(23, most), 23),
        // No wire at all.
        (vec![0, 0, 1, 0], 3),
        // With fewer inputs each gate gives an earlier wire.
        (with(0, 0), 4),
        (with(0, 1), 10),
        (with(0, 2), 10),
    ] {
        assert_eq!(check(&words), refusal(9, 1, place), "{words:?}");
    }
}

/// With every condition holding, each is given in its turn.
#[test]
fn evaluation_order_by_hand() {
    let mut broken = THRESHOLD;
    broken[23] = 8;
    let answer = |net: &[u32], inputs: &[u8], values, outputs| {
        evaluate(net, inputs, &vec![9; values], &vec![9; outputs]).answer
    };
    assert_eq!(answer(&broken, &[2, 2], 7, 0), refusal(9, 1, 23));
    assert_eq!(answer(&THRESHOLD, &[2, 2], 7, 0), refusal(3, 2, 2));
    assert_eq!(answer(&THRESHOLD, &[2; 4], 7, 0), refusal(3, 2, 4));
    assert_eq!(answer(&THRESHOLD, &[1, 2, 255], 7, 0), refusal(4, 2, 1));
    assert_eq!(answer(&THRESHOLD, &[1, 1, 255], 7, 0), refusal(4, 2, 2));
    assert_eq!(answer(&THRESHOLD, &[1, 1, 0], 7, 0), refusal(8, 3, 7));
    assert_eq!(answer(&THRESHOLD, &[1, 1, 0], 8, 0), refusal(8, 4, 0));
    assert_eq!(answer(&THRESHOLD, &[1, 1, 0], 8, 1), Answer::DONE);
}

/// The first has as many inputs as the second, and its outputs are other
/// wires: the second's inputs must be renamed, its unused operands not.
#[test]
fn glue_renames_the_second_inputs() {
    let first = [2, 1, 2, XOR, 0, 1, 0, 2, 1];
    let second = [
        2, 3, 4, //
        AND, 0, 1, 0, //
        NOT, 0, 0, 0, //
        MUX, 1, 2, 3, //
        4, 0, 1, 2,
    ];
    let result = glue(&first, &second, &[9; 25]);
    assert_eq!(result.answer, Answer::DONE);
    assert_eq!(
        result.out,
        [
            2, 4, 4, //
            XOR, 0, 1, 0, //
            AND, 2, 1, 0, //
            NOT, 2, 0, 0, //
            MUX, 1, 3, 4, //
            5, 2, 1, 3, //
            9, 9,
        ]
    );
    // The constants keep their zeros too, even before a first that has no
    // wire 0 among its outputs.
    let constants = [2, 2, 2, ZERO, 0, 0, 0, ONE, 0, 0, 0, 2, 3];
    assert_eq!(
        glued(&first, &constants),
        [2, 3, 2, XOR, 0, 1, 0, ZERO, 0, 0, 0, ONE, 0, 0, 0, 3, 4]
    );
    // The second has no inputs: its wires come after all of the first.
    let source = [0, 1, 1, ONE, 0, 0, 0, 0];
    let sink = [3, 0, 0];
    assert_eq!(glued(&sink, &source), [3, 1, 1, ONE, 0, 0, 0, 3]);
    // A threshold, inverted.
    let inverted = glued(&THRESHOLD, &INVERTER);
    let gates = HEADER_WORDS..gate_place(5);
    assert_eq!(inverted[..HEADER_WORDS], [3, 6, 1]);
    assert_eq!(inverted[gates.clone()], THRESHOLD[gates.clone()]);
    assert_eq!(inverted[gates.end..], [NOT, 7, 0, 0, 8]);
    assert_eq!(run(&inverted, &[0, 1, 1]), [0]);
    assert_eq!(run(&inverted, &[1, 0, 0]), [1]);
}

#[test]
fn glue_order_by_hand() {
    let mut broken = THRESHOLD;
    broken[23] = 8;
    let answer = |first: &[u32], second: &[u32], room| glue(first, second, &vec![9; room]).answer;
    assert_eq!(answer(&broken, &broken, 0), refusal(9, 1, 23));
    assert_eq!(answer(&THRESHOLD, &broken, 0), refusal(9, 2, 23));
    assert_eq!(answer(&broken, &[], 0), refusal(9, 1, 23));
    assert_eq!(answer(&[], &broken, 0), refusal(9, 1, 0));
    assert_eq!(answer(&THRESHOLD, &[3, 0], 0), refusal(9, 2, 2));
    // 3 + 4 * 10 + 1 words are needed, though one output is not three inputs.
    assert_eq!(answer(&THRESHOLD, &THRESHOLD, 43), refusal(8, 3, 43));
    assert_eq!(answer(&THRESHOLD, &THRESHOLD, 44), refusal(10, 0, 0));
    assert_eq!(answer(&THRESHOLD, &THRESHOLD, 99), refusal(10, 0, 0));
    assert_eq!(answer(&THRESHOLD, &INVERTER, 27), refusal(8, 3, 27));
    assert_eq!(answer(&THRESHOLD, &INVERTER, 28), Answer::DONE);

    // Too many gates: 262,144 and one more; room and the counts come first.
    let full = cases::nots(1, MAX_GATES);
    let needed = words_for(262_145, 1);
    assert_eq!(
        answer(&full, &INVERTER, needed - 1),
        refusal(8, 3, needed - 1)
    );
    assert_eq!(answer(&full, &INVERTER, needed), refusal(11, 0, 0));
    assert_eq!(answer(&INVERTER, &full, needed), refusal(11, 0, 0));
    let needed = words_for(262_149, 1);
    assert_eq!(
        answer(&full, &THRESHOLD, needed - 1),
        refusal(8, 3, needed - 1)
    );
    assert_eq!(answer(&full, &THRESHOLD, needed), refusal(10, 0, 0));
    assert_eq!(answer(&THRESHOLD, &full, needed), refusal(11, 0, 0));
    let pass = cases::pass_through(1);
    assert_eq!(answer(&full, &pass, words_for(262_144, 1)), Answer::DONE);
    assert_eq!(glued(&pass, &full), full);
    assert_eq!(glued(&full, &pass), full);
}

// ---- every small damage ----

/// What a word may be replaced by.
const WORDS: [u32; 22] = [
    0,
    1,
    2,
    3,
    4,
    5,
    6,
    7,
    8,
    9,
    255,
    256,
    4_096,
    4_097,
    32_768,
    32_769,
    262_144,
    262_145,
    0x4000_0005,
    0x8000_0000,
    u32::MAX - 1,
    u32::MAX,
];

/// The threshold netlist with each word replaced, and each length up to two
/// words more.
fn damaged_thresholds() -> Vec<Vec<u32>> {
    let mut all = Vec::new();
    for place in 0..THRESHOLD.len() {
        for word in WORDS {
            let mut words = THRESHOLD.to_vec();
            words[place] = word;
            all.push(words);
        }
    }
    for length in 0..THRESHOLD.len() + 3 {
        for extra in [0, 1, u32::MAX] {
            let mut words = THRESHOLD.to_vec();
            words.resize(length, extra);
            all.push(words);
        }
    }
    all
}

#[test]
fn every_damaged_word() {
    let mut random = seeded(1);
    let (mut answers, mut faults) = (Tally::default(), Faults::default());
    let inputs: [&[u8]; 4] = [&[1, 0, 1], &[1, 2, 1], &[1, 0], &[1, 0, 1, 0]];
    for net in damaged_thresholds() {
        let broken = check(&net);
        answers.count(broken);
        faults.count(&[&net], broken);
        for inputs in inputs {
            for values in [0, 7, 8, 9] {
                for outputs in [0, 1, 2] {
                    let values = fill(&mut random, values);
                    let outputs = fill(&mut random, outputs);
                    let result = evaluate(&net, inputs, &values, &outputs);
                    if broken != Answer::DONE {
                        assert_eq!(result.answer, broken);
                    }
                }
            }
        }
        for depths in [0, 7, 8, 9] {
            for levels in [0, 2, 3, 4] {
                let depths = fill(&mut random, depths);
                let levels = fill(&mut random, levels);
                let result = meter(&net, &depths, &levels);
                if broken != Answer::DONE {
                    assert_eq!(result.metering.answer, broken);
                }
            }
        }
        let fitting = cases::pass_through(3);
        for room in [0, 23, 24, 27, 28, 29, 50] {
            let out = fill(&mut random, room);
            let result = glue(&net, &INVERTER, &out);
            if broken != Answer::DONE {
                assert_eq!(result.answer, broken);
            }
            let result = glue(&fitting, &net, &out);
            if broken != Answer::DONE {
                assert_eq!(result.answer, refusal(9, 2, broken.place));
            }
        }
    }
    answers.assert_seen(0, 0, 30);
    faults.assert_all(1, 5);
}

/// Two damaged words at once: the earlier one is named.
#[test]
fn every_pair_of_damaged_words() {
    let mut done = 0;
    for first in 0..THRESHOLD.len() {
        for second in first + 1..THRESHOLD.len() {
            for one in WORDS {
                for other in WORDS {
                    let mut words = THRESHOLD;
                    words[first] = one;
                    words[second] = other;
                    let library = probe::check(&words);
                    assert_eq!(library, netlist::check(&words), "check of {words:?}");
                    done += usize::from(library == Answer::DONE);
                }
            }
        }
    }
    assert!(done > 500, "only {done} sound ones");
}

#[test]
fn every_list_length() {
    let mut random = seeded(2);
    for inputs in 0..=5 {
        for values in 0..=10 {
            for outputs in 0..=3 {
                let expected = if inputs != 3 {
                    refusal(3, 2, inputs)
                } else if values < 8 {
                    refusal(8, 3, values)
                } else if outputs < 1 {
                    refusal(8, 4, outputs)
                } else {
                    Answer::DONE
                };
                let inputs = bits(&mut random, inputs);
                let values = fill(&mut random, values);
                let outputs = fill(&mut random, outputs);
                let result = evaluate(&THRESHOLD, &inputs, &values, &outputs);
                assert_eq!(result.answer, expected);
            }
        }
    }
    for depths in 0..=10 {
        for levels in 0..=5 {
            let expected = if depths < 8 {
                refusal(8, 2, depths)
            } else if levels < 3 {
                refusal(8, 3, levels)
            } else {
                Answer::DONE
            };
            let depths = fill(&mut random, depths);
            let levels = fill(&mut random, levels);
            let result = meter(&THRESHOLD, &depths, &levels);
            assert_eq!(result.metering.answer, expected);
        }
    }
    for (second, needed, enough) in [
        (&INVERTER[..], 28, Answer::DONE),
        (&THRESHOLD[..], 44, refusal(10, 0, 0)),
    ] {
        for room in 0..=needed + 2 {
            let expected = if room < needed {
                refusal(8, 3, room)
            } else {
                enough
            };
            let out = fill(&mut random, room);
            assert_eq!(glue(&THRESHOLD, second, &out).answer, expected);
        }
    }
}

// ---- at random ----

/// How often each fault came up, by list.
#[derive(Default)]
struct Faults(Tally<(u32, Fault)>);

impl Faults {
    fn count(&mut self, netlists: &[&[u32]], answer: Answer) {
        if answer.number == 9 {
            let words = netlists[answer.list as usize - 1];
            self.0.see((answer.list, Fault::at(words, answer.place)));
        }
    }

    fn assert_all(&self, list: u32, least: usize) {
        self.0.assert_each(FAULTS.map(|fault| (list, fault)), least);
    }
}

/// A netlist, perhaps damaged, with what it needed while it was sound.
struct Subject {
    words: Vec<u32>,
    counts: Counts,
    broken: bool,
}

fn subject(random: &mut Random, shape: &Shape, damage: usize) -> Subject {
    let mut words = cases::sound(random, shape);
    let mut counts = Counts::of(&words);
    if random.chance(damage) {
        if random.chance(75) {
            let count = random.pick(&[1, 1, 1, 2, 3, 5]);
            let place = cases::inflict_several(random, &mut words, count);
            let expected = place.map_or(Answer::DONE, |place| refusal(9, 1, place));
            assert_eq!(probe::check(&words), expected, "check of {}", show(&words));
            assert_eq!(netlist::check(&words), expected);
        } else {
            for _ in 0..random.between(1, 4) {
                cases::wreck(random, &mut words);
            }
        }
    }
    let broken = netlist::check(&words) != Answer::DONE;
    if !broken {
        // Wrecking may have made another sound netlist.
        counts = Counts::of(&words);
    }
    Subject {
        words,
        counts,
        broken,
    }
}

#[test]
fn random_checks() {
    let mut random = seeded(3);
    let (mut tally, mut faults) = (Tally::default(), Faults::default());
    let mut far = 0;
    for _ in 0..CASES {
        let words = if random.chance(10) {
            cases::soup(&mut random)
        } else {
            let shape = cases::small_shape(&mut random);
            subject(&mut random, &shape, 75).words
        };
        let answer = check(&words);
        tally.count(answer);
        faults.count(&[&words], answer);
        far += usize::from(answer.place > 500);
    }
    tally.assert_seen(0, 0, CASES / 10);
    tally.assert_seen(9, 1, CASES / 2);
    faults.assert_all(1, CASES / 400);
    assert!(far > CASES / 100, "only {far} faults far from the front");
}

#[test]
fn random_evaluations() {
    let mut random = seeded(4);
    let (mut tally, mut faults) = (Tally::default(), Faults::default());
    for _ in 0..CASES {
        let shape = cases::small_shape(&mut random);
        let net = subject(&mut random, &shape, 35);
        let counts = net.counts;
        let mut length = counts.inputs;
        if random.chance(20) {
            length = random.near(counts.inputs);
        }
        let mut inputs = bits(&mut random, length);
        let mut not_bits = false;
        if random.chance(20) {
            for _ in 0..random.between(1, 3) {
                if length > 0 {
                    let above = random.pick(&[2, 2, 3, 128, 254, 255]);
                    let place = random.below(length);
                    inputs[place] = above;
                    not_bits = true;
                }
            }
        }
        let values = random.near(counts.wires());
        let outputs = random.near(counts.outputs);
        let held = holding([
            ((9, 1), net.broken),
            ((3, 2), length != counts.inputs),
            ((4, 2), not_bits),
            ((8, 3), values < counts.wires()),
            ((8, 4), outputs < counts.outputs),
        ]);
        let values = fill(&mut random, values);
        let outputs = fill(&mut random, outputs);
        let result = evaluate(&net.words, &inputs, &values, &outputs);
        if result.answer.number == 4 {
            let place = inputs.iter().position(|&byte| byte > 1);
            assert_eq!(Some(result.answer.place), place);
        }
        faults.count(&[&net.words], result.answer);
        tally.judge(&held, result.answer);
    }
    let order = [(9, 1), (3, 2), (4, 2), (8, 3), (8, 4)];
    tally.assert_each(order, CASES / 100);
    tally.assert_seen(0, 0, CASES / 20);
    faults.assert_all(1, CASES / 1_000);
    tally.assert_order(&order, CASES / 1_000);
}

#[test]
fn random_meterings() {
    let mut random = seeded(5);
    let (mut tally, mut faults) = (Tally::default(), Faults::default());
    let mut levels_seen = Tally::default();
    for _ in 0..CASES {
        let shape = cases::small_shape(&mut random);
        let net = subject(&mut random, &shape, 30);
        let needed = if net.broken {
            random.between(0, 9)
        } else {
            levels_needed(&net.words)
        };
        let depths = random.near(net.counts.wires());
        let levels = random.near(needed);
        let held = holding([
            ((9, 1), net.broken),
            ((8, 2), depths < net.counts.wires()),
            ((8, 3), levels < needed),
        ]);
        let depths = fill(&mut random, depths);
        let levels: Vec<Level> = fill(&mut random, levels);
        let result = meter(&net.words, &depths, &levels);
        let answer = result.metering.answer;
        if answer.list == 3 {
            assert_eq!(answer.place, levels.len());
        }
        if answer == Answer::DONE {
            let counted = result.levels[..needed].iter();
            let counted = counted.map(|level| level.ands + level.muxes);
            assert_eq!(counted.sum::<u32>(), result.metering.multiplications);
            levels_seen.see(needed.min(20));
        }
        faults.count(&[&net.words], answer);
        tally.judge(&held, answer);
    }
    let order = [(9, 1), (8, 2), (8, 3)];
    tally.assert_each(order, CASES / 100);
    tally.assert_seen(0, 0, CASES / 20);
    faults.assert_all(1, CASES / 1_000);
    tally.assert_order(&order, CASES / 1_000);
    levels_seen.assert_each(1..=20, 10);
}

/// Levels of a sound netlist, from a list of depths made here.
fn levels_needed(words: &[u32]) -> usize {
    let inputs = Counts::of(words).inputs;
    let mut depths = vec![0; inputs];
    for gate in netlist::gates(words) {
        let at = |operand: usize| depths[gate[operand] as usize];
        let depth = match gate[0] {
            ZERO | ONE => 0,
            NOT => at(1),
            XOR => at(1).max(at(2)),
            AND => 1 + at(1).max(at(2)),
            _ => 1 + at(1).max(at(2)).max(at(3)),
        };
        depths.push(depth);
    }
    1 + depths[inputs..].iter().max().copied().unwrap_or(0)
}

#[test]
fn random_gluings() {
    let mut random = seeded(6);
    let (mut tally, mut faults) = (Tally::default(), Faults::default());
    for _ in 0..CASES {
        let shape = cases::small_shape(&mut random);
        let first = subject(&mut random, &shape, 20);
        let mut shape = cases::small_shape(&mut random);
        let outputs = first.counts.outputs;
        shape.inputs = match random.below(10) {
            0 => outputs + 1,
            1 => outputs.saturating_sub(1),
            2 => shape.inputs,
            _ => outputs,
        };
        let second = subject(&mut random, &shape, 25);
        let gates = first.counts.gates + second.counts.gates;
        let needed = words_for(gates, second.counts.outputs);
        let room = random.near(needed);
        let held = holding([
            ((9, 1), first.broken),
            ((9, 2), second.broken),
            ((8, 3), room < needed),
            ((10, 0), outputs != second.counts.inputs),
        ]);
        let out = fill(&mut random, room);
        let result = glue(&first.words, &second.words, &out);
        faults.count(&[&first.words, &second.words], result.answer);
        tally.judge(&held, result.answer);
        if result.answer == Answer::DONE {
            assert_eq!(netlist::check(&result.out[..needed]), Answer::DONE);
        }
    }
    let order = [(9, 1), (9, 2), (8, 3), (10, 0)];
    tally.assert_each(order, CASES / 100);
    tally.assert_seen(0, 0, CASES / 20);
    faults.assert_all(1, CASES / 2_000);
    faults.assert_all(2, CASES / 2_000);
    tally.assert_order(&order, CASES / 1_000);
}

/// Every kind of fault alone, with its place known from how it was made.
#[test]
fn single_faults_at_known_places() {
    let mut random = seeded(7);
    for fault in FAULTS {
        let mut made = 0;
        for _ in 0..4_000 {
            let shape = cases::small_shape(&mut random);
            let mut words = cases::sound(&mut random, &shape);
            assert_eq!(probe::check(&words), Answer::DONE);
            let Some(place) = cases::inflict(&mut random, &mut words, fault) else {
                continue;
            };
            assert_eq!(check(&words), refusal(9, 1, place), "{fault:?}");
            assert_eq!(Fault::at(&words, place), fault);
            made += 1;
        }
        assert!(made > 1_500, "{fault:?} was made only {made} times");
    }
}

// ---- what gluing is for ----

fn fitting(random: &mut Random, inputs: usize) -> Vec<u32> {
    let mut shape = cases::small_shape(random);
    shape.inputs = inputs;
    shape.gates = shape.gates.min(300).max(usize::from(inputs == 0));
    cases::sound(random, &shape)
}

#[test]
fn glued_netlists_answer_as_one_after_the_other() {
    let mut random = seeded(8);
    let mut inputs_alike = 0;
    for _ in 0..4_000 {
        let inputs = random.between(0, 12);
        let a = fitting(&mut random, inputs);
        let b = fitting(&mut random, Counts::of(&a).outputs);
        let both = glued(&a, &b);
        inputs_alike += usize::from(Counts::of(&b).inputs == inputs && inputs > 0);

        let input = bits(&mut random, inputs);
        assert_eq!(run(&both, &input), run(&b, &run(&a, &input)));

        let (of_a, of_b, of_both) = (metered(&a), metered(&b), metered(&both));
        assert!(of_both.depth <= of_a.depth + of_b.depth);
        assert_eq!(
            of_both.multiplications,
            of_a.multiplications + of_b.multiplications
        );
    }
    assert!(inputs_alike > 100, "only {inputs_alike}");
}

#[test]
fn gluing_three_in_either_grouping() {
    let mut random = seeded(9);
    for _ in 0..4_000 {
        let inputs = random.between(0, 12);
        let a = fitting(&mut random, inputs);
        let outputs = Counts::of(&a).outputs;
        let b = fitting(&mut random, outputs);
        let c = fitting(&mut random, Counts::of(&b).outputs);
        assert_eq!(glued(&glued(&a, &b), &c), glued(&a, &glued(&b, &c)));
        assert_eq!(glued(&cases::pass_through(inputs), &a), a);
        assert_eq!(glued(&a, &cases::pass_through(outputs)), a);
    }
}

// ---- at the limits ----

#[test]
fn largest_netlists() {
    let mut random = seeded(10);
    let wires = MAX_INPUTS + MAX_GATES;
    let stale_bytes = fill(&mut random, wires + 1);
    let stale_words: Vec<u32> = fill(&mut random, wires + 1);
    for weights in [cases::MIXED, cases::ARITHMETIC, cases::MULTIPLYING] {
        let net = cases::sound(&mut random, &Shape { weights, ..LARGEST });
        assert_eq!(net.len(), 1_052_675);
        assert_eq!(check(&net), Answer::DONE);

        let inputs = bits(&mut random, MAX_INPUTS);
        for (values, outputs, expected) in [
            (wires, MAX_OUTPUTS, Answer::DONE),
            (wires + 1, MAX_OUTPUTS + 1, Answer::DONE),
            (wires - 1, MAX_OUTPUTS - 1, refusal(8, 3, wires - 1)),
            (wires, MAX_OUTPUTS - 1, refusal(8, 4, MAX_OUTPUTS - 1)),
        ] {
            let result = evaluate(
                &net,
                &inputs,
                &stale_bytes[..values],
                &stale_bytes[..outputs],
            );
            assert_eq!(result.answer, expected);
        }
        let mut inputs_off = inputs.clone();
        inputs_off[MAX_INPUTS - 1] = 2;
        let result = evaluate(&net, &inputs_off, &stale_bytes, &stale_bytes);
        assert_eq!(result.answer, refusal(4, 2, MAX_INPUTS - 1));
        let result = evaluate(&net, &inputs[1..], &stale_bytes, &stale_bytes);
        assert_eq!(result.answer, refusal(3, 2, MAX_INPUTS - 1));

        let needed = levels_needed(&net);
        for (depths, levels, expected) in [
            (wires, needed, Answer::DONE),
            (wires + 1, needed + 1, Answer::DONE),
            (wires - 1, needed, refusal(8, 2, wires - 1)),
            (wires, needed - 1, refusal(8, 3, needed - 1)),
        ] {
            let levels = fill(&mut random, levels);
            let result = meter(&net, &stale_words[..depths], &levels);
            assert_eq!(result.metering.answer, expected);
        }
    }
}

/// The deepest netlist there is.
#[test]
fn deepest_netlist() {
    let mut random = seeded(11);
    let net = cases::chain(1, MAX_GATES);
    let levels = MAX_GATES + 1;
    let stale: Vec<u32> = fill(&mut random, MAX_GATES + 2);
    let stale_levels: Vec<Level> = fill(&mut random, levels + 1);
    let result = meter(&net, &stale, &stale_levels);
    assert_eq!(
        result.metering,
        Metering {
            answer: Answer::DONE,
            depth: 262_144,
            multiplications: 262_144,
        }
    );
    assert_eq!(result.levels[..3], [level(0, 0), level(0, 1), level(1, 0)]);
    let result = meter(&net, &stale, &stale_levels[..levels - 1]);
    assert_eq!(result.metering.answer, refusal(8, 3, levels - 1));
    assert_eq!(result.depths[MAX_GATES], 262_144);
    for bit in [0, 1] {
        assert_eq!(run(&net, &[bit]), [bit]);
    }
}

/// Each kind of fault in the largest netlist, at its first and last places
/// and between.
#[test]
fn faults_in_the_largest_netlist() {
    let mut random = seeded(12);
    let net = cases::sound(&mut random, &LARGEST);
    for fault in FAULTS {
        for _ in 0..3 {
            let mut words = net.clone();
            let place = cases::inflict(&mut random, &mut words, fault);
            let place = place.expect("the largest netlist has words of every use");
            assert_eq!(check(&words), refusal(9, 1, place), "{fault:?}");
        }
    }
    let mut words = net.clone();
    let last_gate = gate_place(MAX_GATES - 1);
    for (place, word) in [
        (net.len() - 1, (MAX_INPUTS + MAX_GATES) as u32),
        (last_gate + GATE_WORDS, u32::MAX),
        (last_gate, 6),
        (gate_place(0), u32::MAX),
        (OUTPUTS_PLACE, MAX_OUTPUTS as u32 + 1),
        (GATES_PLACE, MAX_GATES as u32 + 1),
        (INPUTS_PLACE, MAX_INPUTS as u32 + 1),
    ] {
        // Each goes in before the ones already there.
        words[place] = word;
        assert_eq!(check(&words), refusal(9, 1, place));
        let result = evaluate(&words, &[], &[], &[]);
        assert_eq!(result.answer, refusal(9, 1, place));
        let result = meter(&words, &[], &[]);
        assert_eq!(result.metering.answer, refusal(9, 1, place));
        assert_eq!(glue(&words, &words, &[]).answer, refusal(9, 1, place));
        assert_eq!(glue(&net, &words, &[]).answer, refusal(9, 2, place));
    }
}

/// Gate numbers that add up to the limit, to one more, and to twice it.
#[test]
fn gluing_at_the_limit_of_gates() {
    let mut random = seeded(13);
    let mut tally = Tally::default();
    let most = words_for(2 * MAX_GATES, MAX_OUTPUTS);
    let stale: Vec<u32> = fill(&mut random, most + 1);
    let half = MAX_GATES / 2;
    for (first_gates, second_gates) in [
        (0, MAX_GATES),
        (MAX_GATES, 0),
        (1, MAX_GATES),
        (MAX_GATES, 1),
        (half, half),
        (half, half + 1),
        (half + 1, half),
        (half - 1, half),
        (MAX_GATES - 1, 1),
        (2, MAX_GATES - 1),
        (MAX_GATES, MAX_GATES),
    ] {
        for alike in [true, false] {
            let first = Shape {
                inputs: MAX_OUTPUTS,
                gates: first_gates,
                ..LARGEST
            };
            let second = Shape {
                inputs: MAX_OUTPUTS - usize::from(!alike),
                gates: second_gates,
                outputs: random.between(0, MAX_OUTPUTS),
                ..first
            };
            let first = cases::sound(&mut random, &first);
            let second = cases::sound(&mut random, &second);
            let needed = glued_length(&first, &second);
            for room in [needed - 1, needed, needed + 1] {
                let held = holding([
                    ((8, 3), room < needed),
                    ((10, 0), !alike),
                    ((11, 0), first_gates + second_gates > MAX_GATES),
                ]);
                let result = glue(&first, &second, &stale[..room]);
                tally.judge(&held, result.answer);
                if result.answer == Answer::DONE {
                    assert_eq!(probe::check(&result.out[..needed]), Answer::DONE);
                }
            }
        }
    }
    let order = [(8, 3), (10, 0), (11, 0)];
    tally.assert_each(order, 12);
    tally.assert_seen(0, 0, 10);
    tally.assert_order(&order, 6);
}

/// The library's calls at the limits, all buffers outside, on a small stack.
#[test]
fn small_stack() {
    const STACK: usize = 512 * 1024;
    let mut random = seeded(14);
    let wires = MAX_INPUTS + MAX_GATES;
    let net = cases::sound(&mut random, &LARGEST);
    let chain = cases::chain(MAX_INPUTS, MAX_GATES);
    let inputs = bits(&mut random, MAX_INPUTS);
    let first = cases::nots(MAX_INPUTS, MAX_GATES / 2);
    let second = cases::nots(1, MAX_GATES / 2);
    let mut values = vec![9; wires];
    let mut outputs = vec![9; MAX_OUTPUTS];
    let mut depths = vec![9; wires];
    let mut levels = vec![STALE; MAX_GATES + 1];
    let mut out = vec![9; glued_length(&first, &second)];
    on_stack(STACK, || {
        assert_eq!(probe::check(&net), Answer::DONE);
        assert_eq!(probe::check(&chain), Answer::DONE);
        let answer = probe::evaluate(&net, &inputs, &mut values, &mut outputs);
        assert_eq!(answer, Answer::DONE);
        let metering = probe::meter(&chain, &mut depths, &mut levels);
        assert_eq!(metering.answer, Answer::DONE);
        assert_eq!(metering.depth, 262_144);
        let answer = probe::glue(&first, &second, &mut out);
        assert_eq!(answer, Answer::DONE);
    });
    let mut rust_values = vec![9; wires];
    let mut rust_outputs = vec![9; MAX_OUTPUTS];
    netlist::evaluate(&net, &inputs, &mut rust_values, &mut rust_outputs);
    assert!(values == rust_values && outputs == rust_outputs);
    assert_eq!(depths[wires - 1], 262_144);
    // All NOT gates in a row, through both netlists.
    let whole = cases::nots(MAX_INPUTS, MAX_GATES);
    assert!(out == whole);
}
