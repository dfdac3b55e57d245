//! The four netlist calls.

use super::hand;
use crate::lent::{show, Lent};
use crate::netlist::{self, words_for, Answer, Counts, Level, Metering};
use crate::probe;

/// What an evaluation left behind; the other calls alike.
pub struct Evaluated {
    pub answer: Answer,
    pub values: Vec<u8>,
    pub outputs: Vec<u8>,
}

pub struct Metered {
    pub metering: Metering,
    pub depths: Vec<u32>,
    pub levels: Vec<Level>,
}

pub struct Glued {
    pub answer: Answer,
    pub out: Vec<u32>,
}

pub fn check(net: &[u32]) -> Answer {
    let case = || format!("check of {}", show(net));
    let mut net = Lent::new(net);
    let answer = hand(&case, [probe::check, netlist::check], |check, program| {
        check(net.of(program))
    });
    net.settle(0, "words", &case);
    answer
}

pub fn evaluate(net: &[u32], inputs: &[u8], values: &[u8], outputs: &[u8]) -> Evaluated {
    let case = || {
        format!(
            "evaluation of {} on {}, {} values, {} outputs",
            show(net),
            show(inputs),
            values.len(),
            outputs.len()
        )
    };
    let (mut words, mut bits) = (Lent::new(net), Lent::new(inputs));
    let (mut values, mut outputs) = (Lent::new(values), Lent::new(outputs));
    let calls = [probe::evaluate, netlist::evaluate];
    let answer = hand(&case, calls, |evaluate, program| {
        evaluate(
            words.of(program),
            bits.of(program),
            values.of(program),
            outputs.of(program),
        )
    });
    let (wires, outs) = match answer {
        Answer::DONE => (Counts::of(net).wires(), Counts::of(net).outputs),
        _ => (0, 0),
    };
    words.settle(0, "words", &case);
    bits.settle(0, "inputs", &case);
    Evaluated {
        answer,
        values: values.settle(wires, "values", &case),
        outputs: outputs.settle(outs, "outputs", &case),
    }
}

pub fn meter(net: &[u32], depths: &[u32], levels: &[Level]) -> Metered {
    let case = || {
        format!(
            "metering of {}, {} depths, {} levels",
            show(net),
            depths.len(),
            levels.len()
        )
    };
    let mut words = Lent::new(net);
    let (mut depths, mut levels) = (Lent::new(depths), Lent::new(levels));
    let metering = hand(&case, [probe::meter, netlist::meter], |meter, program| {
        meter(words.of(program), depths.of(program), levels.of(program))
    });
    let Answer { number, list, .. } = metering.answer;
    let done = metering.answer == Answer::DONE;
    if !done {
        let Metering {
            depth,
            multiplications,
            ..
        } = metering;
        assert_eq!((depth, multiplications), (0, 0), "{}", case());
    }
    // The one list that a refusal may fill.
    let wires = if done || (number, list) == (8, 3) {
        Counts::of(net).wires()
    } else {
        0
    };
    words.settle(0, "words", &case);
    let depths = depths.settle(wires, "depths", &case);
    let written = if done {
        let of_gates = &depths[Counts::of(net).inputs..wires];
        1 + of_gates.iter().max().unwrap_or(&0)
    } else {
        0
    };
    Metered {
        metering,
        depths,
        levels: levels.settle(written as usize, "levels", &case),
    }
}

pub fn glue(first: &[u32], second: &[u32], out: &[u32]) -> Glued {
    let case = || {
        format!(
            "gluing of {} and {}, {} words of room",
            show(first),
            show(second),
            out.len()
        )
    };
    let (mut one, mut other) = (Lent::new(first), Lent::new(second));
    let mut out = Lent::new(out);
    let answer = hand(&case, [probe::glue, netlist::glue], |glue, program| {
        glue(one.of(program), other.of(program), out.of(program))
    });
    one.settle(0, "first words", &case);
    other.settle(0, "second words", &case);
    let written = match answer {
        Answer::DONE => glued_length(first, second),
        _ => 0,
    };
    Glued {
        answer,
        out: out.settle(written, "result", &case),
    }
}

pub fn glued_length(first: &[u32], second: &[u32]) -> usize {
    let (first, second) = (Counts::of(first), Counts::of(second));
    words_for(first.gates + second.gates, second.outputs)
}

/// The glued netlist, where there is one.
pub fn glued(first: &[u32], second: &[u32]) -> Vec<u32> {
    let result = glue(first, second, &vec![7; glued_length(first, second)]);
    assert_eq!(result.answer, Answer::DONE);
    result.out
}

/// The outputs on those inputs.
pub fn run(net: &[u32], inputs: &[u8]) -> Vec<u8> {
    let counts = Counts::of(net);
    let (values, outputs) = (vec![9; counts.wires()], vec![9; counts.outputs]);
    let result = evaluate(net, inputs, &values, &outputs);
    assert_eq!(result.answer, Answer::DONE);
    result.outputs
}

/// Metering with room for whatever depth.
pub fn metered(net: &[u32]) -> Metering {
    let counts = Counts::of(net);
    let levels = vec![Level { ands: 3, muxes: 3 }; counts.gates + 1];
    let metering = meter(net, &vec![3; counts.wires()], &levels).metering;
    assert_eq!(metering.answer, Answer::DONE);
    metering
}
