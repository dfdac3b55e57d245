//! Calls handed to both programs: each has its own copy of the same lists, and
//! the whole answer and every lent list are compared.

pub mod cipher;
pub mod daemon;
pub mod emission;
pub mod file;
pub mod frames;
pub mod netlist;
pub mod path;
pub mod printing;

use crate::lent::Program;
use crate::netlist::Answer;
use std::fmt::Debug;

/// An answer, and what the lent bytes then hold.
pub struct Written<A = Answer> {
    pub answer: A,
    pub bytes: Vec<u8>,
}

/// Has both programs answer, the library by the first of two calls and the Rust
/// program by the second; the answer, which is the same. `call` makes a call on
/// the copies of that program.
fn hand<Call, A: Debug + PartialEq>(
    case: &dyn Fn() -> String,
    [library, rust]: [Call; 2],
    mut call: impl FnMut(Call, Program) -> A,
) -> A {
    let library = call(library, Program::Library);
    let rust = call(rust, Program::Rust);
    assert_eq!(library, rust, "library, rust; {}", case());
    rust
}
