//! A second, independent program for netlists and ciphers, and what tests and
//! times the library against it.
//!
//! [`netlist`] holds the four netlist calls (check, evaluate, meter, glue),
//! and how a netlist lies in its words, [`cipher`] the three cipher calls
//! (keystream, encipher, decipher) over [`filter`] and [`kreyvium`], [`key`] how
//! a key is lent, [`choice`] the choice of rows, [`emission`] the emission of
//! one-hot, threshold and deciphering netlists, [`file`] the netlist file,
//! [`path`] the whole path of a record, [`frames`] the file of port records,
//! [`daemon`] and [`collector`] the calls of the two C programs, and
//! [`printing`] the printing program. They are written from the rules alone and
//! share no line with the library under test. [`definitions`] holds the
//! ciphers, the choice, the emitted netlists, the file and the frames a second
//! time, plain and slow.
//!
//! [`probe`] reaches the library through its C interface, [`sallowknot`] that of
//! the daemon and the collector, and [`both`] hands a call to both programs, on
//! lists that [`lent`] compares. [`cases`], [`cipher_cases`],
//! [`emission_cases`], [`path_cases`], [`file_cases`] and [`frame_cases`] make
//! sound and damaged lists from the numbers of [`random`], [`faults`] puts
//! several faults into one, and [`worked`] has examples from outside. [`tally`]
//! counts what came up, and [`stack`] gives work a small stack.
//!
//! The tests hand both programs the same lists and compare the whole answer
//! and every lent list; the program `bench` times both on the same lists, and
//! the program `port` prints what the demonstration prints.

pub mod both;
pub mod cases;
pub mod choice;
pub mod cipher;
pub mod cipher_cases;
pub mod collector;
pub mod daemon;
pub mod definitions;
pub mod emission;
pub mod emission_cases;
pub mod faults;
pub mod file;
pub mod file_cases;
pub mod filter;
mod foreign;
pub mod frame_cases;
pub mod frames;
pub mod key;
pub mod kreyvium;
pub mod lent;
pub mod netlist;
pub mod path;
pub mod path_cases;
pub mod printing;
pub mod probe;
pub mod random;
pub mod sallowknot;
pub mod stack;
pub mod tally;
pub mod worked;
