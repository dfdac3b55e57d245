//! How often each answer came up, or each of anything else: a test that asks
//! for it cannot become empty without notice.

use crate::definitions;
use crate::netlist::Answer;
use std::collections::{BTreeMap, BTreeSet};
use std::fmt::Debug;

/// An answer's number and list.
pub type Condition = (u32, u32);

pub struct Tally<What = Condition> {
    seen: BTreeMap<What, usize>,
    /// What was given, with each later one that held too.
    preferred: BTreeMap<(What, What), usize>,
}

impl<What> Default for Tally<What> {
    fn default() -> Self {
        Tally {
            seen: BTreeMap::new(),
            preferred: BTreeMap::new(),
        }
    }
}

impl<What: Copy + Debug + Ord> Tally<What> {
    pub fn see(&mut self, what: What) {
        *self.seen.entry(what).or_default() += 1;
    }

    /// That was given, and each of these held too.
    pub fn prefer(&mut self, given: What, later: impl IntoIterator<Item = What>) {
        for later in later {
            *self.preferred.entry((given, later)).or_default() += 1;
        }
    }

    /// Each of them came up so often.
    pub fn assert_each(&self, all: impl IntoIterator<Item = What>, least: usize) {
        for what in all {
            let seen = self.seen.get(&what).copied().unwrap_or(0);
            assert!(seen >= least, "{what:?} came up {seen} times, not {least}");
        }
    }

    /// Each of them was given where each of the later ones held.
    pub fn assert_order(&self, order: &[What], least: usize) {
        for (at, earlier) in order.iter().enumerate() {
            for later in &order[at + 1..] {
                self.assert_preferred(*earlier, *later, least);
            }
        }
    }

    pub fn assert_preferred(&self, given: What, later: What, least: usize) {
        let pair = (given, later);
        let seen = self.preferred.get(&pair).copied().unwrap_or(0);
        assert!(
            seen >= least,
            "{pair:?} held together {seen} times, not {least}"
        );
    }
}

impl Tally {
    pub fn count(&mut self, answer: Answer) {
        self.see((answer.number, answer.list));
    }

    /// Counts the answer. Of the conditions that held, in the order in which
    /// they are judged, the first is the answer's.
    pub fn judge(&mut self, held: &[Condition], answer: Answer) {
        self.count(answer);
        let expected = held.first().copied().unwrap_or((0, 0));
        assert_eq!((answer.number, answer.list), expected);
        self.prefer(expected, held.iter().skip(1).copied());
    }

    pub fn assert_seen(&self, number: u32, list: u32, least: usize) {
        self.assert_each([(number, list)], least);
    }
}

/// Those conditions that hold.
pub fn holding<const COUNT: usize>(conditions: [(Condition, bool); COUNT]) -> Vec<Condition> {
    let held = conditions.into_iter().filter(|&(_, holds)| holds);
    held.map(|(condition, _)| condition).collect()
}

/// The conditions without their places, each once.
pub fn without_places(held: &BTreeSet<definitions::Condition>) -> Vec<Condition> {
    let mut conditions: Vec<_> = held.iter().map(|held| (held.0, held.1)).collect();
    conditions.dedup();
    conditions
}
