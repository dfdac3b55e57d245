//! Prints for a port record what `./demo` prints, from this program's own code:
//! the plain scores come from the fields' numbers, the enciphered ones from the
//! whole path.

#![forbid(unsafe_code)]

use independent::choice;
use independent::cipher::Instance;
use independent::frames::{self, FRAME, MARK};
use independent::key::lent_key;
use independent::netlist::{
    self, length, words_for, Answer, Counts, Gate, Metering, AND, MAX_GATES, NOT,
};
use independent::path::{self, Read, Rooms};
use independent::random::{bits, Random};

const BITS: usize = 64;
const KREYVIUM: u32 = 6;
const FILIP_144: u32 = 5;

/// Name, number of bits and value of each field of a record.
type Fields = [(&'static str, usize, u32); 5];

fn fields([port, admin, link, errors, load]: [u32; 5]) -> Fields {
    [
        ("port", 16, port),
        ("admin up", 1, admin),
        ("link up", 1, link),
        ("errors", 22, errors),
        ("load", 24, load),
    ]
}

/// The bits of a field, or of a whole record.
fn text(bits: &[u8]) -> String {
    bits.iter().map(u8::to_string).collect()
}

fn field_bits(width: usize, value: u32) -> impl Iterator<Item = u8> {
    (0..width).rev().map(move |bit| (value >> bit & 1) as u8)
}

fn print_record(fields: &Fields) -> Vec<u8> {
    println!("A port record of 64 bits");
    let mut record = vec![];
    for &(name, width, value) in fields {
        let start = record.len();
        record.extend(field_bits(width, value));
        println!("  {name:<12}{value:>9}   {}", text(&record[start..]));
    }
    record
}

/// Each score's name, and whether the fields' numbers give it.
fn scores(fields: &Fields) -> [(&'static str, bool); 4] {
    let [_, admin, link, errors, load] = fields.map(|(_, _, value)| value);
    [
        ("dead uplink: admin up, link down", admin == 1 && link == 0),
        ("parked: admin down", admin == 0),
        ("many errors: 4096 or more", errors >= 4_096),
        ("heavy load: 8388608 or more", load >= 8_388_608),
    ]
}

/// The netlist of these four scores.
fn scoring() -> Vec<u32> {
    let (admin, link, errors, load) = (16, 17, 18, 40);
    let mut gates: Vec<Gate> = vec![];
    let mut put = |gate| {
        gates.push(gate);
        (BITS + gates.len() - 1) as u32
    };
    let down = put([NOT, link, 0, 0]);
    let dead = put([AND, admin, down, 0]);
    let parked = put([NOT, admin, 0, 0]);
    let zeros: Vec<u32> = (errors..errors + 10)
        .map(|bit| put([NOT, bit, 0, 0]))
        .collect();
    let few = zeros[1..]
        .iter()
        .fold(zeros[0], |all, &zero| put([AND, all, zero, 0]));
    let many = put([NOT, few, 0, 0]);
    let counts = Counts {
        inputs: BITS,
        gates: gates.len(),
        outputs: 4,
    };
    [
        &counts.header()[..],
        gates.as_flattened(),
        &[dead, parked, many, load],
    ]
    .concat()
}

/// Name, gates, depth and multiplications of the netlist at the front of a list.
fn print_costs(name: &str, words: &[u32]) {
    let net = &words[..length(words)];
    let gates = Counts::of(net).gates;
    let (metering, _) = netlist::measure(net);
    let Metering {
        depth,
        multiplications,
        ..
    } = metering;
    println!("  {name:<32}{gates:>8}{depth:>8}{multiplications:>19}");
}

fn hexadecimal(bytes: &[u8]) -> String {
    bytes.iter().map(|byte| format!("{byte:02X}")).collect()
}

/// Mark, IV and enciphered record of the frame that begins a file.
fn print_frame(key: &[u8], record: &[u8], iv: &[u8]) {
    let mut frame = [0; FRAME];
    let answer = frames::append(key, record, iv, &[], &mut frame);
    assert_eq!(answer, Answer::DONE);
    let (mark, rest) = frame.split_at(MARK.len());
    let (iv, enciphered) = rest.split_at(iv.len() / 8);
    let [mark, iv, enciphered] = [mark, iv, enciphered].map(hexadecimal);
    println!("  frame        {mark} {iv} {enciphered}");
}

fn print_path(number: u32, fields: &Fields, record: &[u8]) {
    let instance = Instance::numbered(number).expect("an instance");
    let mut random = Random::new(u64::from(number));
    let key = lent_key(&bits(&mut random, instance.key));
    let mut indices = vec![0; instance.indices(BITS)];
    for row in indices.chunks_exact_mut(instance.row.max(1)) {
        let left = (0..instance.row).map(|i| (instance.key - i) as u64);
        let draws: Vec<u32> = left.map(|left| (random.draw() % left) as u32).collect();
        assert_eq!(choice::choose(number, &draws, row), Answer::DONE);
    }
    let whitening = bits(&mut random, instance.whitening(BITS));

    let scoring = scoring();
    let words = words_for(MAX_GATES, BITS);
    let mut enciphered = [0; BITS];
    let (mut deciphering, mut glued) = (vec![0; words], vec![0; words]);
    let mut inputs = vec![0; instance.key + BITS];
    let mut wires = vec![0; inputs.len() + MAX_GATES];
    let mut outputs = [0; 4];
    let read = Read {
        key: &key,
        record,
        indices: &indices,
        whitening: &whitening,
        scoring: &scoring,
    };
    let rooms = Rooms {
        enciphered: &mut enciphered,
        deciphering: &mut deciphering,
        glued: &mut glued,
        inputs: &mut inputs,
        wires: &mut wires,
        scores: &mut outputs,
    };
    let answer = path::score(number, BITS as u32, &read, rooms);
    assert_eq!(answer, Answer::DONE);

    println!("\n{}", instance.name);
    println!("  record       {}", text(record));
    println!("  enciphered   {}", text(&enciphered));
    if number == KREYVIUM {
        print_frame(&key, record, &whitening);
    }
    println!(
        "\n  {:<32}{:>8}{:>8}{:>19}",
        "netlist", "gates", "depth", "multiplications"
    );
    print_costs("deciphering", &deciphering);
    print_costs("deciphering, then scoring", &glued);
    println!(
        "\n  {:<32}{:>15}{:>20}",
        "score", "plain record", "enciphered record"
    );
    for ((name, plain), score) in scores(fields).into_iter().zip(outputs) {
        println!("  {name:<32}{:>15}{score:>20}", u8::from(plain));
    }
}

fn main() {
    let arguments: Vec<u32> = std::env::args()
        .skip(1)
        .map(|value| value.parse().expect("a number"))
        .collect();
    let values = match arguments[..] {
        [] => [4_711, 1, 0, 70_000, 0],
        _ => arguments.try_into().expect("five fields"),
    };
    let fields = fields(values);
    let record = print_record(&fields);
    print_path(KREYVIUM, &fields, &record);
    print_path(FILIP_144, &fields, &record);
    println!(
        "\nKeys, IV, draws and whitening are samples from a fixed generator, no random numbers."
    );
}
