//! Emission of one-hot, threshold and deciphering netlists.
//!
//! The gates of a netlist are counted first; then it is written straight into
//! the lent list.

#![forbid(unsafe_code)]

use crate::cipher::{self, by_marks, Cipher, Instance, Lists, Search, MAX_BITS, MAX_ROW};
use crate::kreyvium::{self, SILENT};
use crate::netlist::{refusal, words_for, Answer, Counts, Gate, AND, MUX, NOT, ONE, XOR, ZERO};

/// The most inputs of a one-hot and of a threshold netlist.
pub const MAX_COUNTED: usize = 64;
/// The words of the largest threshold netlist.
pub const MAX_THRESHOLD: usize = words_for(largest_threshold(), 1);

impl Answer {
    /// There is no such one-hot or threshold netlist.
    pub const NO_NETLIST: Answer = refusal(13, 0, 0);
}

/// The gates of a netlist, as they are written one after another.
struct Gates<'a> {
    places: &'a mut [Gate],
    written: usize,
    inputs: usize,
}

impl Gates<'_> {
    #[inline]
    fn put(&mut self, gate: Gate) -> u32 {
        self.places[self.written] = gate;
        let wire = self.inputs + self.written;
        self.written += 1;
        wire as u32
    }

    #[inline]
    fn not(&mut self, a: u32) -> u32 {
        self.put([NOT, a, 0, 0])
    }

    /// A NOT if the bit is 1, and the wire itself if it is 0. Without a branch:
    /// the gate is written in any case, and another one over it if it does not
    /// count. So it must not be the last.
    #[inline]
    fn not_if(&mut self, bit: u8, a: u32) -> u32 {
        let not = self.not(a);
        self.written -= usize::from(1 - bit);
        [a, not][usize::from(bit)]
    }

    #[inline]
    fn xor(&mut self, a: u32, b: u32) -> u32 {
        self.put([XOR, a, b, 0])
    }

    #[inline]
    fn and(&mut self, a: u32, b: u32) -> u32 {
        self.put([AND, a, b, 0])
    }

    /// b if a is 0, c if a is 1.
    #[inline]
    fn mux(&mut self, a: u32, b: u32, c: u32) -> u32 {
        self.put([MUX, a, b, c])
    }

    /// The places of the next gates, all of which have to be filled in, and the
    /// wire of the first.
    #[inline]
    fn next<const COUNT: usize>(&mut self) -> (&mut [Gate; COUNT], u32) {
        let places = self.places[self.written..].first_chunk_mut();
        let wire = self.inputs + self.written;
        self.written += COUNT;
        (places.expect("the gates are counted"), wire as u32)
    }
}

/// Writes a netlist with these counts to the front of `result`, the list so
/// numbered: `write` writes the gates and the outputs.
fn emit(
    counts: &Counts,
    list: u32,
    result: &mut [u32],
    write: impl FnOnce(&mut Gates, &mut [u32]),
) -> Result<(), Answer> {
    let room = result.len();
    let result = result
        .get_mut(..counts.words())
        .ok_or(Answer::too_short(list, room))?;
    let (places, outputs) = counts.lay_out(result);
    let mut gates = Gates {
        places,
        written: 0,
        inputs: counts.inputs,
    };
    write(&mut gates, outputs);
    assert_eq!(gates.written, counts.gates, "the gates are counted");
    Ok(())
}

// ---- one-hot ----

/// Writes the one-hot netlist of `n` inputs to the front of `result` (list 1).
pub fn one_hot(n: u32, result: &mut [u32]) -> Answer {
    try_one_hot(n as usize, result).into()
}

fn try_one_hot(n: usize, result: &mut [u32]) -> Result<(), Answer> {
    if n > MAX_COUNTED {
        return Err(Answer::NO_NETLIST);
    }
    let counts = Counts {
        inputs: n,
        gates: match n {
            0 => 1,
            // i + 2 at each level i but the first.
            _ => n * (n + 1) / 2 + 2 * (n - 1),
        },
        outputs: n + 1,
    };
    emit(&counts, 1, result, put_one_hot)
}

/// The outputs are the cells, one more than there are inputs.
fn put_one_hot(gates: &mut Gates, cells: &mut [u32]) {
    if cells.len() == 1 {
        cells[0] = gates.put([ONE, 0, 0, 0]);
        return;
    }
    cells[0] = gates.not(0);
    cells[1] = 0;
    for i in 2..cells.len() {
        let x = i as u32 - 1;
        let not = gates.not(x);
        // The cell at j - 1 as it was.
        let mut last = cells[0];
        cells[0] = gates.and(last, not);
        for cell in &mut cells[1..i] {
            let next = gates.mux(x, *cell, last);
            last = *cell;
            *cell = next;
        }
        cells[i] = gates.and(last, x);
    }
}

// ---- threshold ----

/// Writes the netlist of threshold `d` of `n` inputs to the front of `result`
/// (list 1).
pub fn threshold(d: u32, n: u32, result: &mut [u32]) -> Answer {
    try_threshold(d as usize, n as usize, result).into()
}

fn try_threshold(d: usize, n: usize, result: &mut [u32]) -> Result<(), Answer> {
    if n > MAX_COUNTED || d == 0 || d > n + 1 {
        return Err(Answer::NO_NETLIST);
    }
    let counts = Counts {
        inputs: n,
        gates: threshold_gates(d, n),
        outputs: 1,
    };
    emit(&counts, 1, result, |gates, outputs| {
        outputs[0] = if d > n {
            gates.put([ZERO, 0, 0, 0])
        } else {
            let x: [u32; MAX_COUNTED] = std::array::from_fn(|i| i as u32);
            put_threshold(gates, d, &x[..n])
        };
    })
}

/// How many gates threshold `d` of `n` has.
const fn threshold_gates(d: usize, n: usize) -> usize {
    if d > n {
        return 1;
    }
    let multiplications = (d + 1) * (n - d + 1) - 2 - (d < n) as usize;
    // A NOT for each cell at 0, and an XOR for each sum but the first.
    multiplications + 2 * (n - d)
}

const fn largest_threshold() -> usize {
    let (mut most, mut d) = (1, 1);
    while d <= MAX_COUNTED {
        let gates = threshold_gates(d, MAX_COUNTED);
        if gates > most {
            most = gates;
        }
        d += 1;
    }
    most
}

/// Threshold `d` of the wires `x`, of which there are at least d; its wire.
fn put_threshold(gates: &mut Gates, d: usize, x: &[u32]) -> u32 {
    let n = x.len();
    let mut cells = [0; MAX_COUNTED];
    let mut sum = 0;
    for (i, &x) in (1..).zip(x) {
        let least = (d + i).saturating_sub(n);
        let most = i.min(d - 1);
        // The cells of the level before: the highest, and the one at j - 1.
        let highest = cells[d - 1];
        let mut last = cells[least.max(1) - 1];
        for (j, cell) in cells.iter_mut().enumerate().take(most + 1).skip(least) {
            let next = match j {
                0 => {
                    let not = gates.not(x);
                    if i == 1 {
                        not
                    } else {
                        gates.and(*cell, not)
                    }
                }
                1 if i == 1 => x,
                _ if j == i => gates.and(last, x),
                _ => gates.mux(x, *cell, last),
            };
            last = *cell;
            *cell = next;
        }
        if i == d {
            sum = if d == 1 { x } else { gates.and(highest, x) };
        } else if i > d {
            let reached = gates.and(highest, x);
            sum = gates.xor(reached, sum);
        }
    }
    sum
}

// ---- filters ----

/// A sum of monomials, which use up the wires of a row in order. The first has
/// degree 1, as in all filters here, and needs no gate.
struct Sum<'a> {
    wire: u32,
    rest: &'a [u32],
}

impl<'a> Sum<'a> {
    fn of(row: &'a [u32]) -> Self {
        let (&wire, rest) = row.split_first().expect("a filter has variables");
        Sum { wire, rest }
    }

    /// Adds the next monomial, of that degree: as many gates as variables.
    #[inline]
    fn add<const DEGREE: usize>(&mut self, gates: &mut Gates) {
        let (x, rest) = self
            .rest
            .split_first_chunk::<DEGREE>()
            .expect("variables enough");
        self.rest = rest;
        let (places, first) = gates.next::<DEGREE>();
        let mut product = x[0];
        for (i, &x) in x[1..].iter().enumerate() {
            places[i] = [AND, product, x, 0];
            product = first + i as u32;
        }
        places[DEGREE - 1] = [XOR, self.wire, product, 0];
        self.wire = first + DEGREE as u32 - 1;
    }

    /// Adds that many.
    #[inline]
    fn add_all<const DEGREE: usize>(&mut self, gates: &mut Gates, count: usize) {
        for _ in 0..count {
            self.add::<DEGREE>(gates);
        }
    }

    /// Adds a triangle of degree 9.
    #[inline]
    fn add_triangle_9(&mut self, gates: &mut Gates) {
        self.add::<1>(gates);
        self.add::<2>(gates);
        self.add::<3>(gates);
        self.add::<4>(gates);
        self.add::<5>(gates);
        self.add::<6>(gates);
        self.add::<7>(gates);
        self.add::<8>(gates);
        self.add::<9>(gates);
    }

    /// The same for degree 16.
    #[inline]
    fn add_triangle_16(&mut self, gates: &mut Gates) {
        self.add_triangle_9(gates);
        self.add::<10>(gates);
        self.add::<11>(gates);
        self.add::<12>(gates);
        self.add::<13>(gates);
        self.add::<14>(gates);
        self.add::<15>(gates);
        self.add::<16>(gates);
    }
}

/// Writes a filter's gates on the wires of a row; its wire.
type Filter = fn(&mut Gates, &[u32]) -> u32;

/// The filters of instances 1 to 5.
const FILTERS: [Filter; 5] = [flip_530, flip_1394, filip_1216, filip_1280, filip_144];

fn flip_530(gates: &mut Gates, x: &[u32]) -> u32 {
    let mut sum = Sum::of(x);
    sum.add_all::<1>(gates, 41);
    sum.add_all::<2>(gates, 64);
    for _ in 0..8 {
        sum.add_triangle_9(gates);
    }
    sum.wire
}

fn flip_1394(gates: &mut Gates, x: &[u32]) -> u32 {
    let mut sum = Sum::of(x);
    sum.add_all::<1>(gates, 81);
    sum.add_all::<2>(gates, 112);
    for _ in 0..8 {
        sum.add_triangle_16(gates);
    }
    sum.wire
}

fn filip_1216(gates: &mut Gates, x: &[u32]) -> u32 {
    let mut sum = Sum::of(x);
    sum.add_all::<1>(gates, 127);
    sum.add_all::<2>(gates, 64);
    sum.add_all::<4>(gates, 80);
    sum.add_all::<8>(gates, 80);
    sum.wire
}

fn filip_1280(gates: &mut Gates, x: &[u32]) -> u32 {
    let mut sum = Sum::of(x);
    sum.add_all::<1>(gates, 127);
    sum.add_all::<2>(gates, 64);
    sum.add_all::<16>(gates, 64);
    sum.wire
}

fn filip_144(gates: &mut Gates, x: &[u32]) -> u32 {
    let (summed, counted) = x.split_at(81);
    let mut sum = Sum::of(summed);
    sum.add_all::<1>(gates, 80);
    let reached = put_threshold(gates, 32, counted);
    gates.xor(sum.wire, reached)
}

/// The gates of the filter of that instance. A sum of monomials has one less
/// than variables: each gate makes one wire of two, and every variable is used
/// once.
fn filter_gates(instance: u32, row: usize) -> usize {
    match instance {
        5 => 80 + threshold_gates(32, 63) + 1,
        _ => row - 1,
    }
}

// ---- deciphering ----

/// Writes the netlist that deciphers `m` bits to the front of `result`. The
/// lists: indices 1, whitening or IV 2, result 3.
pub fn decipher(
    instance: u32,
    m: u32,
    indices: &[u32],
    whitening: &[u8],
    result: &mut [u32],
) -> Answer {
    decipher_with(instance, m, indices, whitening, result, by_marks)
}

/// The same, with the search for repeated indices to use.
pub fn decipher_with(
    instance: u32,
    m: u32,
    indices: &[u32],
    whitening: &[u8],
    result: &mut [u32],
    search: Search,
) -> Answer {
    try_decipher(instance, m, indices, whitening, result, search).into()
}

fn try_decipher(
    number: u32,
    m: u32,
    indices: &[u32],
    whitening: &[u8],
    result: &mut [u32],
    search: Search,
) -> Result<(), Answer> {
    let lists = Lists {
        key: None,
        record: None,
        indices,
        whitening,
    };
    let instance = cipher::judge(number, m, &lists, search)?;
    let m = m as usize;
    let counts = Counts {
        inputs: instance.key + m,
        gates: deciphering_gates(number, m, whitening),
        outputs: m,
    };
    emit(&counts, lists.result_list(), result, |gates, outputs| {
        if let Cipher::Kreyvium = instance.cipher {
            return put_kreyvium(gates, whitening, outputs);
        }
        let filter = FILTERS[number as usize - 1];
        let mut buffer = [0; MAX_ROW];
        let buffer = &mut buffer[..instance.row];
        let bits = outputs.iter_mut().zip(instance.key as u32..);
        let indices = indices.chunks_exact(instance.row);
        let whitening = whitening.chunks_exact(instance.row);
        for (((output, record), indices), whitening) in bits.zip(indices).zip(whitening) {
            let row = match instance.cipher {
                // Nothing is whitened.
                Cipher::Flip(_) => indices,
                _ => variables(gates, indices, whitening, buffer),
            };
            let filtered = filter(gates, row);
            *output = gates.xor(filtered, record);
        }
    })
}

/// How many gates the deciphering netlist has, where nothing speaks against the
/// call.
pub fn deciphering_gates(number: u32, m: usize, whitening: &[u8]) -> usize {
    match Instance::numbered(number).expect("an instance") {
        Instance {
            cipher: Cipher::Kreyvium,
            ..
        } => 2 + 14 * (SILENT + m) + 3 * m,
        instance => m * (filter_gates(number, instance.row) + 1) + ones(whitening),
    }
}

/// How large a deciphering netlist is: 0 gates and 0 words on a refusal.
#[repr(C)]
#[derive(Clone, Copy, Debug, PartialEq, Eq)]
pub struct Size {
    pub answer: Answer,
    pub gates: usize,
    pub words: usize,
}

impl Size {
    pub const fn refused(answer: Answer) -> Self {
        Size {
            answer,
            gates: 0,
            words: 0,
        }
    }
}

/// How large the netlist is that [`decipher`] writes, and how much room it needs
/// for it. The lists: indices 1, whitening or IV 2.
pub fn decipher_size(number: u32, m: u32, indices: &[u32], whitening: &[u8]) -> Size {
    let lists = Lists {
        key: None,
        record: None,
        indices,
        whitening,
    };
    match cipher::judge(number, m, &lists, by_marks) {
        Err(answer) => Size::refused(answer),
        Ok(_) => {
            let gates = deciphering_gates(number, m as usize, whitening);
            Size {
                answer: Answer::DONE,
                gates,
                words: words_for(gates, m as usize),
            }
        }
    }
}

/// How many of these bits are 1.
fn ones(bits: &[u8]) -> usize {
    bits.iter().map(|&bit| usize::from(bit)).sum()
}

/// The wires of a row's variables, in the buffer: those of the key, or of a NOT
/// where the whitening bit is 1.
fn variables<'a>(
    gates: &mut Gates,
    indices: &[u32],
    whitening: &[u8],
    buffer: &'a mut [u32],
) -> &'a [u32] {
    for ((x, &index), &white) in buffer.iter_mut().zip(indices).zip(whitening) {
        *x = gates.not_if(white, index);
    }
    buffer
}

/// All rounds of Kreyvium. The wires that enter at s1, s94 and s178 in a round
/// stand in `a`, `b` and `c`, one after another, behind those that the
/// registers held at first.
fn put_kreyvium(gates: &mut Gates, iv: &[u8], outputs: &mut [u32]) {
    /// The longest register.
    const BEFORE: usize = 111;
    let constants = [gates.put([ZERO, 0, 0, 0]), gates.put([ONE, 0, 0, 0])];
    let iv = |place: usize| constants[usize::from(iv[place])];
    let mut a = [0; BEFORE + SILENT + MAX_BITS];
    let mut b = a;
    let mut c = a;
    for j in 1..=93 {
        a[BEFORE - j] = j as u32 - 1;
    }
    for j in 1..=84 {
        b[BEFORE - j] = iv(j - 1);
    }
    for j in 1..=111 {
        c[BEFORE - j] = match j {
            1..=44 => iv(83 + j),
            45..=110 => constants[1],
            _ => constants[0],
        };
    }
    for round in 0..SILENT + outputs.len() {
        let t = BEFORE + round;
        let turned = kreyvium::BITS - 1 - round % kreyvium::BITS;
        let t1 = gates.xor(a[t - 66], a[t - 93]);
        let t2 = gates.xor(b[t - 69], b[t - 84]);
        let t3 = gates.xor(c[t - 66], c[t - 111]);
        let t3 = gates.xor(t3, turned as u32);
        if let Some(bit) = round.checked_sub(SILENT) {
            let stream = gates.xor(t1, t2);
            let stream = gates.xor(stream, t3);
            outputs[bit] = gates.xor(stream, (kreyvium::BITS + bit) as u32);
        }
        let product = gates.and(a[t - 91], a[t - 92]);
        let t1 = gates.xor(t1, product);
        let t1 = gates.xor(t1, b[t - 78]);
        b[t] = gates.xor(t1, iv(turned));
        let product = gates.and(b[t - 82], b[t - 83]);
        let t2 = gates.xor(t2, product);
        c[t] = gates.xor(t2, c[t - 87]);
        let product = gates.and(c[t - 109], c[t - 110]);
        let t3 = gates.xor(t3, product);
        a[t] = gates.xor(t3, a[t - 69]);
    }
}
