//! Lists lent to both programs, and how they are compared afterwards.

use crate::random::{fill, Arbitrary, Random};
use std::fmt::Debug;
use std::hint::black_box;
use std::ops::Range;

/// The two programs that have to agree.
#[derive(Clone, Copy)]
pub enum Program {
    Library,
    Rust,
}

/// A list lent to both programs, each having its own copy between margins that
/// show a write outside it.
pub struct Lent<T> {
    before: Vec<T>,
    library: Vec<T>,
    rust: Vec<T>,
}

const MARGIN: usize = 8;

impl<T: Arbitrary + Debug + PartialEq> Lent<T> {
    pub fn new(content: &[T]) -> Self {
        let mut random = Random::new(content.len() as u64);
        let mut before = fill(&mut random, MARGIN);
        before.extend_from_slice(content);
        before.extend(fill::<T>(&mut random, MARGIN));
        Lent {
            library: before.clone(),
            rust: before.clone(),
            before,
        }
    }

    fn between(&self) -> Range<usize> {
        MARGIN..self.before.len() - MARGIN
    }

    /// The copy of that program.
    pub fn of(&mut self, program: Program) -> &mut [T] {
        let range = self.between();
        match program {
            Program::Library => &mut self.library[range],
            Program::Rust => &mut self.rust[range],
        }
    }

    /// Both copies are alike, and as before but for the first `written`.
    pub fn settle(self, written: usize, what: &str, case: &dyn Fn() -> String) -> Vec<T> {
        let library = black_box(&self.library);
        if *library != self.rust {
            let at = (0..library.len()).find(|&at| library[at] != self.rust[at]);
            let at = at.expect("they differ somewhere");
            panic!(
                "{what} differ at {}: library {:?}, rust {:?}; {}",
                at as isize - MARGIN as isize,
                library[at],
                self.rust[at],
                case()
            );
        }
        assert!(
            library[..MARGIN] == self.before[..MARGIN],
            "a write before the {what}; {}",
            case()
        );
        assert!(
            library[MARGIN + written..] == self.before[MARGIN + written..],
            "a write in the {what} beyond the first {written}; {}",
            case()
        );
        self.library[self.between()].to_vec()
    }
}

/// A list as it stands in a message.
pub fn show<T: Debug>(list: &[T]) -> String {
    if list.len() <= 120 {
        format!("{list:?}")
    } else {
        format!("({} long)", list.len())
    }
}
