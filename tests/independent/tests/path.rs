//! Hands the library and the Rust program the same whole paths of records, sound
//! and damaged, and compares the answer and every lent list. What the steps make
//! is held to their definitions, and the scores to those of the plain record.

use independent::both;
use independent::both::netlist::{evaluate, glued, run};
use independent::both::path::Scored;
use independent::cases;
use independent::cipher_cases;
use independent::definitions;
use independent::netlist::{length, Answer, Counts, MAX_GATES};
use independent::path::Rooms;
use independent::path_cases::{self, faults, Path, ROOMS};
use independent::probe;
use independent::random::{bits, seeded};
use independent::stack::on_stack;
use independent::tally::Tally;

/// Hands a path to both programs; where it is done, each room is as it has to
/// be.
fn score(path: &Path) -> Scored {
    let scored = both::path::score(path);
    if scored.answer == Answer::DONE {
        assert_made(path, &scored);
    }
    scored
}

/// Each room begins with what its step has to make.
fn assert_made(path: &Path, scored: &Scored) {
    let emission = &path.emission;
    assert!(scored.enciphered.starts_with(&emission.call.expected()));
    assert!(scored.deciphering.starts_with(&emission.expected()));
    let deciphering = &scored.deciphering[..path.need(7)];
    assert!(scored.glued.starts_with(&glued(deciphering, &path.scoring)));
    assert!(scored.inputs.starts_with(&emission.inputs()));
    let net = &scored.glued[..length(&scored.glued)];
    let outputs = vec![9; path.need(11)];
    let expected = evaluate(net, &emission.inputs(), &vec![9; path.need(10)], &outputs);
    assert!(scored.wires.starts_with(&expected.values));
    // The scores of the plain record.
    let expected = run(&path.scoring, emission.record());
    assert_eq!(scored.scores[..expected.len()], expected);
}

// ---- accepted ----

/// Every instance with every number of bits.
#[test]
fn every_size() {
    let mut random = seeded(501);
    for instance in cipher_cases::instances() {
        for m in 1..=64 {
            let path = path_cases::sound(&mut random, instance, m);
            assert_eq!(score(&path).answer, Answer::DONE);
        }
    }
}

/// The record itself comes out of a pass-through, and its weight is compared by
/// thresholds.
#[test]
fn emitted_netlists_score() {
    let mut random = seeded(502);
    for instance in cipher_cases::instances() {
        for m in [1, 2, 7, 20] {
            let pass = cases::pass_through(m);
            let mut path = path_cases::ending(&mut random, instance, m, pass);
            for _ in 0..3 {
                path.emission.call.record = Some(bits(&mut random, m));
                assert_eq!(score(&path).scores[..m], *path.emission.record());
            }
            let d = random.between(1, m);
            let threshold = definitions::netlist::threshold(d, m);
            let path = path_cases::ending(&mut random, instance, m, threshold);
            let reached = definitions::filter::threshold(path.emission.record(), d);
            assert_eq!(score(&path).scores[0], reached);
        }
    }
}

/// As many gates behind a deciphering netlist as there can be, and one more.
#[test]
fn largest_netlist() {
    let mut random = seeded(503);
    let mut path = path_cases::sound(&mut random, 5, 2);
    let left = MAX_GATES - path.deciphering_gates();
    path.lend(&mut random, cases::nots(2, left));
    let scored = score(&path);
    assert_eq!(scored.answer, Answer::DONE);
    assert_eq!(Counts::of(&scored.glued).gates, MAX_GATES);
    path.lend(&mut random, cases::nots(2, left + 1));
    assert_eq!(score(&path).answer, Answer::TOO_MANY_GATES);
}

// ---- refused ----

/// Each fault alone, in each instance that can have it.
#[test]
fn each_fault() {
    let mut random = seeded(504);
    for fault in faults() {
        let mut made = 0;
        for instance in cipher_cases::instances() {
            for _ in 0..5 {
                let m = random.between(1, 4);
                let mut path = path_cases::sound(&mut random, instance, m);
                if !fault.suits(&path) {
                    continue;
                }
                let held = path_cases::inflict(&mut random, &mut path, fault);
                assert_eq!(score(&path).answer, held.into(), "{fault:?}");
                made += 1;
            }
        }
        assert!(made >= 10, "{fault:?} was made only {made} times");
    }
}

/// Each way in which the scoring netlist can break its rules.
#[test]
fn each_fault_of_the_scoring_netlist() {
    let mut random = seeded(505);
    for fault in cases::FAULTS {
        let mut made = 0;
        while made < 10 {
            let (instance, m) = (random.pick(&[1, 5, 6]), random.between(1, 4));
            let mut path = path_cases::sound(&mut random, instance, m);
            if let Some(place) = cases::inflict(&mut random, &mut path.scoring, fault) {
                let expected = Answer::broken_netlist(5, place);
                assert_eq!(score(&path).answer, expected, "{fault:?}");
                made += 1;
            }
        }
    }
}

/// Two faults at once: the one that is judged first is the answer.
#[test]
fn each_pair_of_faults() {
    let mut random = seeded(506);
    let faults = faults();
    for (at, &first) in faults.iter().enumerate() {
        for &second in &faults[at + 1..] {
            let mut path = loop {
                let (instance, m) = (random.between(1, 6) as u32, random.between(1, 3));
                let path = path_cases::sound(&mut random, instance, m);
                if first.suits(&path) && second.suits(&path) {
                    break path;
                }
            };
            // What is judged first goes in last: the other needs it sound.
            path_cases::inflict(&mut random, &mut path, second);
            let held = path_cases::inflict(&mut random, &mut path, first);
            assert_eq!(score(&path).answer, held.into(), "{first:?}, {second:?}");
        }
    }
}

/// Several faults at once, up to all that suit.
#[test]
fn several_faults() {
    let mut random = seeded(510);
    for count in 0..300 {
        let (instance, m) = (random.between(1, 6) as u32, random.between(1, 3));
        let mut path = path_cases::sound(&mut random, instance, m);
        let mut faults = faults();
        faults.retain(|fault| fault.suits(&path));
        while count % 10 != 0 && faults.len() > 3 && random.below(6) != 0 {
            faults.remove(random.below(faults.len()));
        }
        // What is judged first goes in last, as above, and is the answer.
        let mut expected = Answer::DONE;
        for &fault in faults.iter().rev() {
            expected = path_cases::inflict(&mut random, &mut path, fault).into();
        }
        assert_eq!(score(&path).answer, expected, "{faults:?}");
    }
}

/// Every room exact, then each in turn empty and one place too short.
#[test]
fn every_room() {
    let mut random = seeded(507);
    for instance in cipher_cases::instances() {
        let m = random.between(1, 5);
        let threshold = definitions::netlist::threshold(1, m);
        let mut sound = path_cases::ending(&mut random, instance, m, threshold);
        for room in ROOMS {
            sound.shorten(room, sound.need(room));
        }
        assert_eq!(score(&sound).answer, Answer::DONE);
        for room in ROOMS {
            for places in [0, sound.need(room) - 1] {
                let mut path = sound.clone();
                path.shorten(room, places);
                assert_eq!(score(&path).answer, Answer::too_short(room, places));
            }
        }
    }
}

// ---- at random ----

/// Damage with no regard to what it does.
#[test]
fn random_damage() {
    const CASES: usize = 600;
    let mut random = seeded(508);
    let mut tally = Tally::default();
    for _ in 0..CASES {
        let (instance, m) = cipher_cases::size(&mut random);
        let mut path = path_cases::sound(&mut random, instance, m);
        for _ in 0..random.between(0, 2) {
            path_cases::wreck(&mut random, &mut path);
        }
        tally.count(score(&path).answer);
    }
    tally.assert_each(ROOMS.map(|room| (8, room)), CASES / 100);
    tally.assert_each([(0, 0), (9, 5)], CASES / 20);
}

// ---- at the limits ----

/// The library's call on the longest lists, all buffers outside, on a small
/// stack.
#[test]
fn small_stack() {
    const STACK: usize = 512 * 1024;
    let mut random = seeded(509);
    for instance in cipher_cases::instances() {
        let sound = path_cases::sound(&mut random, instance, 64);
        let mut path = sound.clone();
        on_stack(STACK, || {
            let rooms = Rooms {
                enciphered: &mut path.emission.call.result,
                deciphering: &mut path.emission.result,
                glued: &mut path.glued,
                inputs: &mut path.inputs,
                wires: &mut path.wires,
                scores: &mut path.scores,
            };
            let answer = probe::score(instance, 64, &sound.read(), rooms);
            assert_eq!(answer, Answer::DONE);
        });
        let expected = run(&sound.scoring, sound.emission.record());
        assert_eq!(path.scores[..expected.len()], expected);
    }
}
