//! The netlist that deciphers: its gates, its costs, and the judging of an
//! emission.

use super::cipher::{self, sizes_of};
use super::filter::weight;
use super::netlist::{draft_threshold, Draft};
use super::Condition;
use crate::key::lent_key;
use crate::netlist::{words_for, AND, NOT, ONE, XOR, ZERO};
use std::collections::BTreeSet;
use std::ops::Range;

// ---- gates ----

/// The variables of each monomial of instances 1 to 4, from the formulas.
pub fn monomials(instance: u32) -> Vec<Range<usize>> {
    let flip = |n1: usize, n2: usize, k: usize| {
        let mut monomials: Vec<Range<usize>> = (0..n1).map(|i| i..i + 1).collect();
        monomials.extend((0..n2 / 2).map(|i| n1 + 2 * i..n1 + 2 * i + 2));
        for triangle in 0..8 {
            let begin = n1 + n2 + triangle * (k * (k + 1) / 2);
            monomials.extend((1..=k).map(|i| {
                let first = begin + i * (i - 1) / 2;
                first..first + i
            }));
        }
        monomials
    };
    let direct_sum = |vector: &[usize]| {
        let mut monomials = Vec::new();
        for i in 1..=vector.len() {
            let lower: usize = (1..i).map(|degree| degree * vector[degree - 1]).sum();
            monomials.extend((0..vector[i - 1]).map(|g| lower + g * i..lower + (g + 1) * i));
        }
        monomials
    };
    match instance {
        1 => flip(42, 128, 9),
        2 => flip(82, 224, 16),
        3 => direct_sum(&[128, 64, 0, 80, 0, 0, 0, 80]),
        4 => direct_sum(&[128, 64, 0, 0, 0, 0, 0, 0, 0, 0, 0, 0, 0, 0, 0, 64]),
        _ => panic!("instance {instance} is no sum of monomials"),
    }
}

/// The gates of a filter of instances 1 to 5 on the wires x; its wire.
fn draft_filter(draft: &mut Draft, instance: u32, x: &[usize]) -> usize {
    if instance == 5 {
        let chain = draft.sum(&x[..81], |_, &wire| wire);
        let threshold = draft_threshold(draft, 32, &x[81..]);
        return draft.gate(XOR, &[chain, threshold]);
    }
    draft.sum(&monomials(instance), |draft, monomial| {
        let wires = &x[monomial.clone()];
        let mut product = wires[0];
        for &wire in &wires[1..] {
            product = draft.gate(AND, &[product, wire]);
        }
        product
    })
}

/// The rounds of Kreyvium, every register as it stands in the rules; the
/// output wires.
fn draft_kreyvium(draft: &mut Draft, m: usize, iv: &[u8]) -> Vec<usize> {
    let zero = draft.gate(ZERO, &[]);
    let one = draft.gate(ONE, &[]);
    let mut key: Vec<usize> = (0..128).collect();
    let mut iv: Vec<usize> = iv
        .iter()
        .map(|&bit| if bit == 1 { one } else { zero })
        .collect();
    // s[0] is not used.
    let mut s = vec![0];
    s.extend(&key[..93]);
    s.extend(&iv);
    s.extend([one; 66]);
    s.push(zero);
    assert_eq!(s.len(), 289);
    key.reverse();
    iv.reverse();
    let mut outputs = Vec::new();
    for round in 1..=1_152 + m {
        let mut t1 = draft.gate(XOR, &[s[66], s[93]]);
        let mut t2 = draft.gate(XOR, &[s[162], s[177]]);
        let mut t3 = draft.gate(XOR, &[s[243], s[288]]);
        t3 = draft.gate(XOR, &[t3, key[0]]);
        if round >= 1_153 {
            let record = 128 + round - 1_153;
            let sum = draft.gate(XOR, &[t1, t2]);
            let sum = draft.gate(XOR, &[sum, t3]);
            outputs.push(draft.gate(XOR, &[sum, record]));
        }
        for (t, product, others) in [
            (&mut t1, [s[91], s[92]], &[s[171], iv[0]][..]),
            (&mut t2, [s[175], s[176]], &[s[264]]),
            (&mut t3, [s[286], s[287]], &[s[69]]),
        ] {
            let product = draft.gate(AND, &product);
            *t = draft.gate(XOR, &[*t, product]);
            for &other in others {
                *t = draft.gate(XOR, &[*t, other]);
            }
        }
        s.remove(288);
        s.insert(1, t3);
        s[94] = t1;
        s[178] = t2;
        key.rotate_left(1);
        iv.rotate_left(1);
    }
    outputs
}

/// The words of the netlist that deciphers m bits, of lists against which
/// nothing speaks.
pub fn netlist(instance: u32, m: usize, indices: &[u32], whitening: &[u8]) -> Vec<u32> {
    let (key_bits, row) = sizes_of(instance);
    let mut draft = Draft::new(key_bits + m);
    if instance == 6 {
        let outputs = draft_kreyvium(&mut draft, m, whitening);
        return draft.words(&outputs);
    }
    let mut outputs = Vec::new();
    for bit in 0..m {
        let mut x: Vec<usize> = (0..row).map(|j| indices[bit * row + j] as usize).collect();
        for (j, wire) in x.iter_mut().enumerate() {
            if whitening[bit * row + j] == 1 {
                *wire = draft.gate(NOT, &[*wire]);
            }
        }
        let filter = draft_filter(&mut draft, instance, &x);
        outputs.push(draft.gate(XOR, &[filter, key_bits + bit]));
    }
    draft.words(&outputs)
}

// ---- costs ----

/// Multiplications and depth of the deciphering of m bits. For Kreyvium the
/// depth is the bound for the last bit.
pub fn costs(instance: u32, m: usize) -> (usize, usize) {
    let (multiplications, depth) = match instance {
        1 => (352, 8),
        2 => (1_072, 15),
        3 => (864, 7),
        4 => (1_024, 15),
        5 => (1_053, 62),
        _ => return (3 * (1_152 + m), (1_087 + m - 1).div_ceil(82)),
    };
    (m * multiplications, depth)
}

/// The words of a deciphering netlist of m bits, of which that many are
/// whitened.
pub fn words(instance: u32, m: usize, whitened: usize) -> usize {
    let (multiplications, _) = costs(instance, m);
    let gates = match instance {
        1..=4 => multiplications + m * monomials(instance).len() + whitened,
        // The sum of 81, the threshold's 31 NOTs and 31 XORs, that of both, and
        // the record bit.
        5 => multiplications + m * (80 + 31 + 31 + 1 + 1) + whitened,
        _ => 2 + 14 * (1_152 + m) + 3 * m,
    };
    words_for(gates, m)
}

// ---- judging ----

/// All that holds against the emission of a deciphering netlist with that many
/// words of room. Where something else holds, room that is not enough for the
/// smallest such netlist is too little too.
pub fn conditions(
    instance: u32,
    m: u32,
    indices: &[u32],
    whitening: &[u8],
    room: usize,
) -> BTreeSet<Condition> {
    // As keystream is judged, with any key, and without the key's list.
    let key = lent_key(&vec![
        0;
        cipher::sizes(instance)
            .map_or(0, |(key_bits, _)| key_bits)
    ]);
    let held = cipher::conditions(instance, m, &key, None, indices, whitening, m as usize);
    let mut held: BTreeSet<Condition> = held
        .into_iter()
        .map(|(number, list, place)| (number, list.saturating_sub(1), place))
        .collect();
    if !held.contains(&(1, 0, 0)) && !held.contains(&(2, 0, 0)) {
        let whitened = match held.is_empty() {
            true => weight(whitening),
            false => 0,
        };
        if room < words(instance, m as usize, whitened) {
            held.insert((8, 3, room));
        }
    }
    held
}
