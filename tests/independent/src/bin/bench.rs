//! Times the library and the Rust program on the same lists and prints
//! nanoseconds and their ratio: for a gate of the netlist calls, for a cipher
//! call or a choice, for an emission or the whole path of a record to its
//! score, for the file calls, and for a frame of port records. It only reports:
//! the exit status is always 0.
//!
//! Names of parts (netlists, ciphers, emissions, files, frames) as arguments:
//! only these are timed.

use independent::cases::{self, Shape};
use independent::cipher::{self, Search, INSTANCES};
use independent::cipher_cases::{self, sized, Call};
use independent::emission;
use independent::emission_cases::{self, Emission};
use independent::file_cases;
use independent::frame_cases::{self, Appending};
use independent::frames::{self, FRAME, RECORD};
use independent::key::key_bits;
use independent::netlist::{self, words_for, Answer, Counts, Level, Metering, GATE_WORDS};
use independent::path::{self, Read, Rooms};
use independent::random::{bits, Random};
use independent::{choice, file, kreyvium, probe};
use std::hint::black_box;
use std::time::Instant;

// ---- netlists ----

/// Every sample runs over about this many gates, whatever the size of one
/// netlist. Small netlists are many different ones, so that neither the caches
/// nor the branch predictor can learn them, and sizes compare fairly.
const GATES_PER_SAMPLE: usize = 262_144;
const SIZES: [usize; 3] = [2_000, 32_768, 262_144];
const WARM_UP: usize = 3;
const SAMPLES: usize = 41;

const INPUTS: usize = 1_024;
const OUTPUTS: usize = 64;

type Check = fn(&[u32]) -> Answer;
type Evaluate = fn(&[u32], &[u8], &mut [u8], &mut [u8]) -> Answer;
type Meter = fn(&[u32], &mut [u32], &mut [Level]) -> Metering;
type Glue = fn(&[u32], &[u32], &mut [u32]) -> Answer;

/// The four calls of one program.
struct Program {
    check: Check,
    evaluate: Evaluate,
    meter: Meter,
    glue: Glue,
}

const LIBRARY: Program = Program {
    check: probe::check,
    evaluate: probe::evaluate,
    meter: probe::meter,
    glue: probe::glue,
};

const RUST: Program = Program {
    check: netlist::check,
    evaluate: netlist::evaluate,
    meter: netlist::meter,
    glue: netlist::glue,
};

/// What netlists are made of.
struct Mixture {
    name: &'static str,
    weights: [u32; 6],
    reach: usize,
}

impl Mixture {
    fn shape(&self, gates: usize) -> Shape {
        Shape {
            inputs: INPUTS,
            gates,
            outputs: OUTPUTS,
            weights: self.weights,
            reach: self.reach,
        }
    }
}

const MIXTURES: [Mixture; 2] = [
    Mixture {
        name: "mixed",
        weights: cases::MIXED,
        reach: cases::ANYWHERE,
    },
    Mixture {
        name: "near",
        weights: cases::ARITHMETIC,
        reach: 64,
    },
];

/// The netlists and lists of one size and mixture.
struct Load {
    nets: Vec<Vec<u32>>,
    pairs: Vec<(Vec<u32>, Vec<u32>)>,
    inputs: Vec<u8>,
    values: Vec<u8>,
    outputs: Vec<u8>,
    depths: Vec<u32>,
    levels: Vec<Level>,
    glued: Vec<u32>,
}

impl Load {
    fn new(random: &mut Random, mixture: &Mixture, gates: usize) -> Self {
        let count = GATES_PER_SAMPLE / gates;
        let shape = mixture.shape(gates);
        let first = Shape {
            gates: gates / 2,
            outputs: INPUTS,
            ..shape
        };
        let second = Shape {
            gates: gates - gates / 2,
            ..shape
        };
        Load {
            nets: (0..count).map(|_| cases::sound(random, &shape)).collect(),
            pairs: (0..count)
                .map(|_| (cases::sound(random, &first), cases::sound(random, &second)))
                .collect(),
            inputs: bits(random, INPUTS),
            values: vec![0; INPUTS + gates],
            outputs: vec![0; OUTPUTS],
            depths: vec![0; INPUTS + gates],
            levels: vec![Level::EMPTY; gates + 1],
            glued: vec![0; words_for(gates, OUTPUTS)],
        }
    }
}

/// A call over all the netlists of a load; gives how often it was refused.
type Run = fn(&Program, &mut Load) -> usize;

fn run_check(program: &Program, load: &mut Load) -> usize {
    let mut refused = 0;
    for net in &load.nets {
        let answer = (program.check)(black_box(net));
        refused += usize::from(black_box(answer) != Answer::DONE);
    }
    refused
}

fn run_evaluate(program: &Program, load: &mut Load) -> usize {
    let mut refused = 0;
    for net in &load.nets {
        let answer = (program.evaluate)(
            black_box(net),
            black_box(&load.inputs),
            black_box(&mut load.values),
            black_box(&mut load.outputs),
        );
        refused += usize::from(black_box(answer) != Answer::DONE);
    }
    refused
}

fn run_meter(program: &Program, load: &mut Load) -> usize {
    let mut refused = 0;
    for net in &load.nets {
        let metering = (program.meter)(
            black_box(net),
            black_box(&mut load.depths),
            black_box(&mut load.levels),
        );
        refused += usize::from(black_box(metering).answer != Answer::DONE);
    }
    refused
}

fn run_glue(program: &Program, load: &mut Load) -> usize {
    let mut refused = 0;
    for (first, second) in &load.pairs {
        let answer = (program.glue)(
            black_box(first),
            black_box(second),
            black_box(&mut load.glued),
        );
        refused += usize::from(black_box(answer) != Answer::DONE);
    }
    refused
}

const CALLS: [(&str, Run); 4] = [
    ("check", run_check),
    ("evaluate", run_evaluate),
    ("meter", run_meter),
    ("glue", run_glue),
];

fn time(run: Run, program: &Program, load: &mut Load) -> f64 {
    let start = Instant::now();
    black_box(run(program, load));
    start.elapsed().as_nanos() as f64
}

fn median(mut samples: Vec<f64>) -> f64 {
    samples.sort_by(f64::total_cmp);
    samples[samples.len() / 2]
}

/// Nanoseconds per gate of the library and of the Rust program. Their samples
/// alternate, and so does which of the two goes first. The warm-up adds what
/// it saw refused: all netlists here are sound, and all lists long enough.
fn compare(run: Run, load: &mut Load, gates: usize, refused: &mut usize) -> (f64, f64) {
    for _ in 0..WARM_UP {
        *refused += run(&LIBRARY, load) + run(&RUST, load);
    }
    let (mut library, mut rust) = (Vec::new(), Vec::new());
    for sample in 0..SAMPLES {
        if sample % 2 == 0 {
            library.push(time(run, &LIBRARY, load));
            rust.push(time(run, &RUST, load));
        } else {
            rust.push(time(run, &RUST, load));
            library.push(time(run, &LIBRARY, load));
        }
    }
    let gates = (load.nets.len() * gates) as f64;
    (median(library) / gates, median(rust) / gates)
}

fn netlists(random: &mut Random) {
    // For each mixture and call, the figures by size.
    let mut table = Vec::new();
    let mut refused = 0;
    for mixture in &MIXTURES {
        let mut figures = vec![Vec::new(); CALLS.len()];
        for gates in SIZES {
            let mut load = Load::new(random, mixture, gates);
            for (row, (_, run)) in figures.iter_mut().zip(CALLS) {
                row.push(compare(run, &mut load, gates, &mut refused));
            }
        }
        for ((call, _), row) in CALLS.into_iter().zip(figures) {
            table.push((mixture.name, call, row));
        }
    }

    println!("nanoseconds per gate, median of {SAMPLES} samples");
    println!();
    println!("netlist  call         gates   library      rust   ratio");
    for (mixture, call, row) in &table {
        for (gates, (library, rust)) in SIZES.iter().zip(row) {
            println!(
                "{mixture:<8} {call:<9} {gates:>8} {library:>9.2} {rust:>9.2} {:>7.2}",
                library / rust
            );
        }
    }
    println!();
    println!(
        "linearity: time per gate at {} gates over that at {}",
        SIZES[SIZES.len() - 1],
        SIZES[0]
    );
    println!();
    println!("netlist  call        library      rust");
    for (mixture, call, row) in &table {
        let (small, large) = (row[0], row[row.len() - 1]);
        println!(
            "{mixture:<8} {call:<9} {:>9.2} {:>9.2}",
            large.0 / small.0,
            large.1 / small.1
        );
    }
    if refused > 0 {
        println!();
        println!("{refused} calls were refused: the figures above mean nothing");
    }
}

// ---- ciphers and choice ----

/// All bits that a record can have.
const BITS: usize = 64;
const CALL_SAMPLES: usize = 21;
/// A sample repeats its call until it takes about this long.
const SAMPLE_NANOSECONDS: f64 = 300_000.0;

/// A call to time, with the answer it has to give.
struct Timed<'a> {
    call: &'a mut dyn FnMut() -> Answer,
    expected: Answer,
}

/// Nanoseconds of each call. Their samples take turns. Adds how many did not
/// answer as they have to.
fn time_calls(calls: &mut [Timed], failed: &mut usize) -> Vec<f64> {
    let mut repeats = Vec::new();
    for Timed { call, expected } in calls.iter_mut() {
        let start = Instant::now();
        for _ in 0..WARM_UP {
            *failed += usize::from(call() != *expected);
        }
        let each = start.elapsed().as_nanos() as f64 / WARM_UP as f64;
        repeats.push((SAMPLE_NANOSECONDS / each).max(1.0) as usize);
    }
    let mut samples = vec![Vec::new(); calls.len()];
    for _ in 0..CALL_SAMPLES {
        for ((Timed { call, .. }, samples), &repeats) in
            calls.iter_mut().zip(&mut samples).zip(&repeats)
        {
            let start = Instant::now();
            for _ in 0..repeats {
                black_box(call());
            }
            samples.push(start.elapsed().as_nanos() as f64 / repeats as f64);
        }
    }
    samples.into_iter().map(median).collect()
}

/// Both programs' nanoseconds for a call that has to be done.
fn time_both(programs: [&mut dyn FnMut() -> Answer; 2], failed: &mut usize) -> [f64; 2] {
    let mut calls = programs.map(|call| Timed {
        call,
        expected: Answer::DONE,
    });
    let times = time_calls(&mut calls, failed);
    [times[0], times[1]]
}

/// A line of the table: what is called, and how it is done in Rust.
struct Line {
    call: &'static str,
    instance: &'static str,
    way: &'static str,
    library: f64,
    rust: f64,
}

/// What is timed of an instance, and with it the failed calls.
#[derive(Default)]
struct Table {
    lines: Vec<Line>,
    failed: usize,
}

impl Table {
    /// Times the library and the ways of doing the same in Rust.
    fn compare(
        &mut self,
        call: &'static str,
        instance: u32,
        expected: Answer,
        library: &mut dyn FnMut() -> Answer,
        ways: &mut [(&'static str, &mut dyn FnMut() -> Answer)],
    ) {
        let mut calls = vec![Timed {
            call: library,
            expected,
        }];
        for (_, rust) in ways.iter_mut() {
            calls.push(Timed {
                call: *rust,
                expected,
            });
        }
        let times = time_calls(&mut calls, &mut self.failed);
        for (&mut (way, _), &rust) in ways.iter_mut().zip(&times[1..]) {
            self.lines.push(Line {
                call,
                instance: INSTANCES[instance as usize - 1].name,
                way,
                library: times[0],
                rust,
            });
        }
    }

    fn print(&self) {
        println!();
        println!(
            "call      instance    in Rust                       library         rust    ratio"
        );
        for line in &self.lines {
            println!(
                "{:<9} {:<11} {:<24} {:>12.0} {:>12.0} {:>8.2}",
                line.call,
                line.instance,
                line.way,
                line.library,
                line.rust,
                line.library / line.rust
            );
        }
        if self.failed > 0 {
            println!();
            println!(
                "{} calls answered otherwise: the figures above mean nothing",
                self.failed
            );
        }
    }
}

fn by_library(call: &Call, result: &mut [u8]) -> Answer {
    let call = black_box(call);
    let record = call.record.as_deref().unwrap_or(&[]);
    probe::encipher(
        call.instance,
        call.m,
        &call.key,
        record,
        &call.indices,
        &call.whitening,
        black_box(result),
    )
}

fn by_rust(call: &Call, result: &mut [u8], search: Search) -> Answer {
    let call = black_box(call);
    cipher::run(
        call.instance,
        call.m,
        &call.lists(),
        black_box(result),
        search,
    )
}

fn encipher(random: &mut Random, instance: u32, table: &mut Table) {
    let call = cipher_cases::sound(random, instance, BITS, true);
    let (mut library, mut rust) = ([0; BITS], [0; BITS]);
    table.compare(
        "encipher",
        instance,
        Answer::DONE,
        &mut || by_library(&call, &mut library),
        &mut [("repeats by marks", &mut || {
            by_rust(&call, &mut rust, cipher::by_marks)
        })],
    );
    table.failed += usize::from(library != rust);
}

fn encipher_kreyvium(random: &mut Random, table: &mut Table) {
    let call = cipher_cases::sound(random, 6, BITS, true);
    let key = key_bits(&call.key);
    let iv = call.whitening.as_slice().try_into().expect("128 IV bits");
    let (mut library, mut rust, mut stream) = ([0; BITS], [0; BITS], [0; BITS]);
    table.compare(
        "encipher",
        6,
        Answer::DONE,
        &mut || by_library(&call, &mut library),
        &mut [
            ("64 rounds at once", &mut || {
                by_rust(&call, &mut rust, cipher::by_marks)
            }),
            ("round by round, unjudged", &mut || {
                kreyvium::by_recurrences(black_box(&key), black_box(iv), black_box(&mut stream));
                Answer::DONE
            }),
        ],
    );
    table.failed += usize::from(library != rust);
}

/// With the result one place too short everything is judged, and nothing is
/// written.
fn judge(random: &mut Random, instance: u32, table: &mut Table) {
    let call = cipher_cases::sound(random, instance, BITS, true);
    let mut rooms = [[0; BITS - 1]; 3];
    let [library, rust, nested] = &mut rooms;
    table.compare(
        "judge",
        instance,
        Answer::too_short(5, BITS - 1),
        &mut || by_library(&call, library),
        &mut [
            ("repeats by marks", &mut || {
                by_rust(&call, rust, cipher::by_marks)
            }),
            ("repeats by nested loops", &mut || {
                by_rust(&call, nested, cipher::by_nested_loops)
            }),
        ],
    );
}

fn choose(random: &mut Random, instance: u32, table: &mut Table) {
    let case = cipher_cases::sound_choice(random, instance);
    let (mut library, mut rust) = (case.row.clone(), case.row.clone());
    table.compare(
        "choose",
        instance,
        Answer::DONE,
        &mut || probe::choose(instance, black_box(&case.draws), black_box(&mut library)),
        &mut [("one row", &mut || {
            choice::choose(instance, black_box(&case.draws), black_box(&mut rust))
        })],
    );
    table.failed += usize::from(library != rust);
}

fn ciphers(random: &mut Random) {
    let mut table = Table::default();
    for instance in 1..=5 {
        encipher(random, instance, &mut table);
    }
    encipher_kreyvium(random, &mut table);
    for instance in 1..=5 {
        judge(random, instance, &mut table);
    }
    for instance in [1, 3] {
        choose(random, instance, &mut table);
    }

    println!("nanoseconds for a call, records of {BITS} bits, median of {CALL_SAMPLES} samples");
    table.print();
}

// ---- emission and scores ----

/// The gates of a scoring netlist.
const SCORING_GATES: usize = 4_096;

fn emit_by_library(emission: &Emission, result: &mut [u32]) -> Answer {
    let call = &black_box(emission).call;
    probe::emit_decipher(
        call.instance,
        call.m,
        &call.indices,
        &call.whitening,
        black_box(result),
    )
}

fn emit_by_rust(emission: &Emission, result: &mut [u32], search: Search) -> Answer {
    let call = &black_box(emission).call;
    emission::decipher_with(
        call.instance,
        call.m,
        &call.indices,
        &call.whitening,
        black_box(result),
        search,
    )
}

/// An emission to time: half of FiLIP's whitening and of an IV is 1.
fn timed_emission(random: &mut Random, instance: u32) -> Emission {
    let mut emission = emission_cases::sound(random, instance, BITS);
    if instance > 2 {
        let length = emission.call.whitening.len();
        emission.call.whitening = bits(random, length);
    }
    emission.result = vec![0; emission.words()];
    emission
}

fn emit(random: &mut Random, instance: u32, table: &mut Table) {
    let emission = timed_emission(random, instance);
    let mut rooms = [(); 3].map(|()| emission.result.clone());
    let [library, rust, nested] = &mut rooms;
    let by_library = &mut || emit_by_library(&emission, library);
    let by_marks = &mut || emit_by_rust(&emission, rust, cipher::by_marks);
    let by_nested_loops = &mut || emit_by_rust(&emission, nested, cipher::by_nested_loops);
    let ways: &mut [(_, &mut dyn FnMut() -> Answer)] = match instance {
        6 => &mut [("no rows", by_marks)],
        _ => &mut [
            ("repeats by marks", by_marks),
            ("repeats by nested loops", by_nested_loops),
        ],
    };
    table.compare("emit", instance, Answer::DONE, by_library, ways);
    table.failed += usize::from(rooms[0] != rooms[1]);
}

/// The lists of one program on a record's path.
struct Path {
    enciphered: Vec<u8>,
    deciphering: Vec<u32>,
    glued: Vec<u32>,
    inputs: Vec<u8>,
    values: Vec<u8>,
    score: Vec<u8>,
}

impl Path {
    fn new(emission: &Emission, scoring: &[u32]) -> Self {
        let words = emission.words();
        let scoring = Counts::of(scoring);
        let gates = (words - words_for(0, BITS)) / GATE_WORDS + scoring.gates;
        let inputs = sized(emission.call.instance).key + BITS;
        Path {
            enciphered: vec![0; BITS],
            deciphering: vec![0; words],
            glued: vec![0; words_for(gates, scoring.outputs)],
            inputs: vec![0; inputs],
            values: vec![0; inputs + gates],
            score: vec![0; scoring.outputs],
        }
    }

    fn rooms(&mut self) -> Rooms<'_> {
        Rooms {
            enciphered: &mut self.enciphered,
            deciphering: &mut self.deciphering,
            glued: &mut self.glued,
            inputs: &mut self.inputs,
            wires: &mut self.values,
            scores: &mut self.score,
        }
    }
}

/// The whole path as one call.
fn score(random: &mut Random, instance: u32, table: &mut Table) {
    let emission = timed_emission(random, instance);
    let scoring = cases::sound(
        random,
        &Shape {
            inputs: BITS,
            gates: SCORING_GATES,
            outputs: 8,
            weights: cases::ARITHMETIC,
            reach: 64,
        },
    );
    let call = &emission.call;
    let read = Read {
        key: &call.key,
        record: call.record.as_deref().unwrap_or(&[]),
        indices: &call.indices,
        whitening: &call.whitening,
        scoring: &scoring,
    };
    let mut paths = [(); 2].map(|()| Path::new(&emission, &scoring));
    let [library, rust] = &mut paths;
    let by_library = &mut || {
        let rooms = library.rooms();
        probe::score(instance, call.m, black_box(&read), black_box(rooms))
    };
    let by_rust = &mut || {
        let rooms = rust.rooms();
        path::score(instance, call.m, black_box(&read), black_box(rooms))
    };
    let ways: &mut [(_, &mut dyn FnMut() -> Answer)] = &mut [("one call", by_rust)];
    table.compare("score", instance, Answer::DONE, by_library, ways);
    let [library, rust] = paths;
    table.failed += usize::from(library.score != rust.score);
}

fn emissions(random: &mut Random) {
    let mut table = Table::default();
    for instance in 1..=6 {
        emit(random, instance, &mut table);
    }
    for instance in 1..=6 {
        score(random, instance, &mut table);
    }

    println!(
        "nanoseconds to emit a deciphering netlist, and from a record to its score by the whole \
         path, with a scoring netlist of {SCORING_GATES} gates; records of {BITS} bits, median \
         of {CALL_SAMPLES} samples"
    );
    table.print();
}

// ---- files ----

/// The gates of a netlist whose file is timed.
const FILE_GATES: usize = 262_144;

/// Megabytes a second.
fn rate(bytes: usize, nanoseconds: f64) -> f64 {
    bytes as f64 * 1e3 / nanoseconds
}

fn files(random: &mut Random) {
    println!(
        "nanoseconds for a file call, files of {FILE_GATES} gates, median of {CALL_SAMPLES} \
         samples; megabytes of the file a second"
    );
    println!();
    println!("netlist  call           library         rust    ratio   library MB/s      rust MB/s");
    let mut failed = 0;
    for mixture in &MIXTURES {
        let shape = mixture.shape(FILE_GATES);
        let file_cases::Reading { words, source, .. } = file_cases::sound(random, &shape);
        let mut read = [(); 2].map(|()| vec![0; words.len()]);
        let mut written = [(); 2].map(|()| vec![0; source.len()]);
        let [read_library, read_rust] = &mut read;
        let [written_library, written_rust] = &mut written;
        let calls: [(_, [&mut dyn FnMut() -> Answer; 2]); 3] = [
            (
                "read",
                [
                    &mut || probe::read_file(black_box(&source), black_box(read_library)),
                    &mut || file::read_file(black_box(&source), black_box(read_rust)),
                ],
            ),
            (
                "write",
                [
                    &mut || probe::write_file(black_box(&words), black_box(written_library)),
                    &mut || file::write_file(black_box(&words), black_box(written_rust)),
                ],
            ),
            (
                "check",
                [&mut || probe::check_file(black_box(&source)), &mut || {
                    file::check_file(black_box(&source))
                }],
            ),
        ];
        for (name, programs) in calls {
            let [library, rust] = time_both(programs, &mut failed);
            println!(
                "{:<8} {name:<9} {:>12.0} {:>12.0} {:>8.2} {:>14.0} {:>14.0}",
                mixture.name,
                library,
                rust,
                library / rust,
                rate(source.len(), library),
                rate(source.len(), rust)
            );
        }
        failed += read.iter().filter(|&read| *read != words).count();
        failed += written.iter().filter(|&bytes| *bytes != source).count();
    }
    if failed > 0 {
        println!();
        println!("{failed} calls answered otherwise: the figures above mean nothing");
    }
}

// ---- frames ----

/// How many frames a file has that is timed.
const FRAMES: [usize; 4] = [100, 1_000, 10_000, 100_000];

type Append = fn(&[u8], &[u8], &[u8], &[u8], &mut [u8]) -> Answer;

fn append(program: Append, case: &Appending, frame: &mut [u8]) -> Answer {
    let case = black_box(case);
    program(
        &case.key,
        &case.record,
        &case.iv,
        &case.file,
        black_box(frame),
    )
}

fn port_records(random: &mut Random) {
    println!(
        "nanoseconds for a frame of a file of port records, median of {CALL_SAMPLES} samples; \
         gigabytes of the file a second"
    );
    println!();
    println!("call         frames   library      rust   ratio   library GB/s      rust GB/s");
    let mut failed = 0;
    for count in FRAMES {
        let case = frame_cases::sound_appending(random, count);
        let Appending { key, file, .. } = &case;
        let mut records = [(); 2].map(|()| vec![0; RECORD * count]);
        let mut written = [[0; FRAME]; 2];
        let [read_library, read_rust] = &mut records;
        let [written_library, written_rust] = &mut written;
        let calls: [(_, [&mut dyn FnMut() -> Answer; 2]); 3] = [
            (
                "check",
                [&mut || probe::check_frames(black_box(file)), &mut || {
                    frames::check(black_box(file))
                }],
            ),
            (
                "read",
                [
                    &mut || probe::read_frames(key, black_box(file), black_box(read_library)),
                    &mut || frames::read(key, black_box(file), black_box(read_rust)),
                ],
            ),
            (
                "append",
                [
                    &mut || append(probe::append, &case, written_library),
                    &mut || append(frames::append, &case, written_rust),
                ],
            ),
        ];
        for (name, programs) in calls {
            let [library, rust] = time_both(programs, &mut failed);
            let each = count as f64;
            print!(
                "{name:<9} {count:>9} {:>9.2} {:>9.2} {:>7.2}",
                library / each,
                rust / each,
                library / rust
            );
            if name == "check" {
                let [library, rust] = [library, rust].map(|time| file.len() as f64 / time);
                print!(" {library:>14.2} {rust:>14.2}");
            }
            println!();
        }
        failed += usize::from(records[0] != records[1]);
        failed += usize::from(written[0] != written[1]);
    }

    let case = frame_cases::sound_appending(random, 1);
    let mut written = [[0; FRAME]; 2];
    let [library, rust] = &mut written;
    let [library, rust] = time_both(
        [
            &mut || append(probe::append_after, &case, library),
            &mut || append(frames::append_after, &case, rust),
        ],
        &mut failed,
    );
    failed += usize::from(written[0] != written[1]);
    println!();
    println!("nanoseconds for an appending after the last frame");
    println!();
    println!("               library      rust   ratio");
    println!(
        "append after {library:>9.0} {rust:>9.0} {:>7.2}",
        library / rust
    );
    if failed > 0 {
        println!();
        println!("{failed} calls answered otherwise: the figures above mean nothing");
    }
}

type Part = fn(&mut Random);

const PARTS: [(&str, Part); 5] = [
    ("netlists", netlists),
    ("ciphers", ciphers),
    ("emissions", emissions),
    ("files", files),
    ("frames", port_records),
];

fn main() {
    let asked: Vec<String> = std::env::args().skip(1).collect();
    let mut random = Random::new(20_240_229);
    let mut timed = 0;
    for (name, part) in PARTS {
        if asked.is_empty() || asked.iter().any(|asked| asked == name) {
            if timed > 0 {
                println!();
            }
            part(&mut random);
            timed += 1;
        }
    }
}
