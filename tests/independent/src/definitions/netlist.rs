//! The netlists of one-hot and threshold, gate by gate.

use crate::netlist::{Counts, Gate, AND, ARITY, MUX, NOT, ONE, XOR, ZERO};
use std::collections::HashMap;

/// A netlist as it comes to be.
pub(super) struct Draft {
    inputs: usize,
    gates: Vec<Gate>,
}

impl Draft {
    pub(super) fn new(inputs: usize) -> Self {
        Draft {
            inputs,
            gates: Vec::new(),
        }
    }

    /// One more gate; its wire.
    pub(super) fn gate(&mut self, kind: u32, operands: &[usize]) -> usize {
        assert_eq!(operands.len(), ARITY[kind as usize]);
        let wire = self.inputs + self.gates.len();
        let mut gate = [kind, 0, 0, 0];
        for (word, &operand) in gate[1..].iter_mut().zip(operands) {
            assert!(operand < wire);
            *word = operand as u32;
        }
        self.gates.push(gate);
        wire
    }

    /// The first wire, and after each other one the XOR of the sum so far and
    /// that wire; what `wire` gives may need gates of its own.
    pub(super) fn sum<T>(&mut self, terms: &[T], wire: impl Fn(&mut Self, &T) -> usize) -> usize {
        let mut sum = wire(self, &terms[0]);
        for term in &terms[1..] {
            let term = wire(self, term);
            sum = self.gate(XOR, &[sum, term]);
        }
        sum
    }

    pub(super) fn words(self, outputs: &[usize]) -> Vec<u32> {
        let counts = Counts {
            inputs: self.inputs,
            gates: self.gates.len(),
            outputs: outputs.len(),
        };
        let mut words = counts.header().to_vec();
        words.extend(self.gates.into_iter().flatten());
        words.extend(outputs.iter().map(|&wire| wire as u32));
        words
    }
}

/// The cells of a one-hot or a threshold netlist on the wires x(1), x(2), ..,
/// by level and place.
struct Cells<'a> {
    x: &'a [usize],
    wires: HashMap<(usize, usize), usize>,
}

impl<'a> Cells<'a> {
    fn on(x: &'a [usize]) -> Self {
        Cells {
            x,
            wires: HashMap::new(),
        }
    }

    fn x(&self, i: usize) -> usize {
        self.x[i - 1]
    }

    fn cell(&self, i: usize, j: usize) -> usize {
        self.wires[&(i, j)]
    }

    /// The cells of level i that are kept.
    fn level(&mut self, draft: &mut Draft, i: usize, kept: impl Fn(usize) -> bool) {
        for j in 0..=i {
            if !kept(j) {
                continue;
            }
            let wire = match (i, j) {
                (1, 0) => draft.gate(NOT, &[self.x(1)]),
                (1, _) => self.x(1),
                (_, 0) => {
                    let not = draft.gate(NOT, &[self.x(i)]);
                    draft.gate(AND, &[self.cell(i - 1, 0), not])
                }
                _ if j < i => draft.gate(
                    MUX,
                    &[self.x(i), self.cell(i - 1, j), self.cell(i - 1, j - 1)],
                ),
                _ => draft.gate(AND, &[self.cell(i - 1, i - 1), self.x(i)]),
            };
            self.wires.insert((i, j), wire);
        }
    }
}

// ---- one-hot and threshold ----

/// The words of the one-hot netlist of n inputs.
pub fn one_hot(n: usize) -> Vec<u32> {
    let mut draft = Draft::new(n);
    if n == 0 {
        let one = draft.gate(ONE, &[]);
        return draft.words(&[one]);
    }
    let x: Vec<usize> = (0..n).collect();
    let mut cells = Cells::on(&x);
    for i in 1..=n {
        cells.level(&mut draft, i, |_| true);
    }
    let outputs: Vec<usize> = (0..=n).map(|j| cells.cell(n, j)).collect();
    draft.words(&outputs)
}

/// The gates of threshold d of the wires x; its wire.
pub(super) fn draft_threshold(draft: &mut Draft, d: usize, x: &[usize]) -> usize {
    let n = x.len();
    if d == n + 1 {
        return draft.gate(ZERO, &[]);
    }
    let mut cells = Cells::on(x);
    let mut sums = Vec::new();
    for i in 1..=n {
        // d - n + i may be below 0.
        cells.level(draft, i, |j| d + i <= j + n && j <= i.min(d - 1));
        if i == d {
            sums.push(match d {
                1 => cells.x(1),
                _ => draft.gate(AND, &[cells.cell(d - 1, d - 1), cells.x(d)]),
            });
        }
        if i > d {
            let and = draft.gate(AND, &[cells.cell(i - 1, d - 1), cells.x(i)]);
            sums.push(draft.gate(XOR, &[and, sums[sums.len() - 1]]));
        }
    }
    sums[sums.len() - 1]
}

/// The words of the netlist of threshold d of n inputs.
pub fn threshold(d: usize, n: usize) -> Vec<u32> {
    let mut draft = Draft::new(n);
    let x: Vec<usize> = (0..n).collect();
    let output = draft_threshold(&mut draft, d, &x);
    draft.words(&[output])
}

/// Multiplications and depth of threshold d of n.
pub fn threshold_costs(d: usize, n: usize) -> (usize, usize) {
    if d == n + 1 {
        return (0, 0);
    }
    let fewer = usize::from(d < n);
    ((d + 1) * (n - d + 1) - 2 - fewer, n - 1)
}
