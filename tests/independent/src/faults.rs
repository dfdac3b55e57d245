//! How several faults go into one case.

use crate::definitions::Condition;
use std::collections::BTreeSet;

/// That many draws of a fault, each fault once, in the order in which they go
/// in: what is judged first goes in last, as the others need it sound.
pub fn several<Fault: Ord>(count: usize, mut draw: impl FnMut() -> Fault) -> Vec<Fault> {
    let mut faults: Vec<Fault> = (0..count).map(|_| draw()).collect();
    faults.sort();
    faults.dedup();
    faults.reverse();
    faults
}

/// Puts these faults into a sound case, in that order, and says all that then
/// holds. Where one hides the rest, which cannot be judged then, says also what
/// would hold without it.
pub fn inflict_each<Case, Fault: Copy>(
    case: &mut Case,
    faults: Vec<Fault>,
    hides: impl Fn(Fault) -> bool,
    conditions: impl Fn(&Case) -> BTreeSet<Condition>,
    mut inflict: impl FnMut(&mut Case, Fault) -> Condition,
) -> BTreeSet<Condition> {
    let mut held = None;
    for fault in faults {
        if hides(fault) {
            let so_far = held.get_or_insert_with(|| conditions(case));
            so_far.insert(inflict(case, fault));
        } else {
            inflict(case, fault);
        }
    }
    held.unwrap_or_else(|| conditions(case))
}
