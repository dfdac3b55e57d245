//! The filters, the judging, the choice, the emitted netlists, the netlist file
//! and the frames of port records once more, each as its definition puts it and
//! with no care for speed. They share no line with the program's own
//! [`cipher`](crate::cipher), [`filter`](crate::filter),
//! [`choice`](crate::choice), [`emission`](crate::emission),
//! [`file`](crate::file) and [`frames`](crate::frames), which have to agree with
//! them.

#![forbid(unsafe_code)]

pub mod choice;
pub mod cipher;
pub mod deciphering;
pub mod file;
pub mod filter;
pub mod frames;
pub mod netlist;

use crate::netlist::{refusal, Answer};

/// An answer's number, list and place. Of all that hold, the least is given.
pub type Condition = (u32, u32, usize);

impl From<Condition> for Answer {
    fn from((number, list, place): Condition) -> Self {
        refusal(number, list, place)
    }
}

/// A condition with the stage of judging to which it belongs.
impl<Stage> From<(Stage, Condition)> for Answer {
    fn from((_, held): (Stage, Condition)) -> Self {
        held.into()
    }
}

/// The answer to a call against which that holds, the least first.
pub fn least<'a, Held>(held: impl IntoIterator<Item = &'a Held>) -> Answer
where
    Held: Copy + Into<Answer> + 'a,
{
    held.into_iter()
        .next()
        .map_or(Answer::DONE, |&held| held.into())
}

/// What holds against a list of bits: every byte that is none.
fn not_bits(list: u32, bytes: &[u8]) -> impl Iterator<Item = Condition> + '_ {
    let above = |&(_, &byte): &(usize, &u8)| byte > 1;
    let places = bytes.iter().enumerate().filter(above);
    places.map(move |(place, _)| (4, list, place))
}
