//! What holds of every readable region, laid out or not: it is readable after any turn, any
//! beginning and any permit, these change no more than they should, and a run is its turns one by
//! one.

use std::collections::BTreeSet;

use checks::fields::place::{
    E1, E2, I1, I2, I3, I4, I5, I6, I7, I8, IDLE, M1, M2, M3, M4, M5, M6, P17, P18, P19,
};
use checks::fields::Words;
use checks::queue::Queue;
use checks::random::Random;
use mound::{Answer, Shape};

use crate::both;
use crate::runs::run_turns;

/// A readable region; half of its threads have copies that equal their nodes, so that updates
/// succeed.
pub fn any_region(random: &mut Random) -> Queue {
    let shape = Shape { threads: random.among(1..=4), ..random.shape(5) };
    let mut queue = Queue { bytes: Words::any_readable(random, shape).bytes() };
    for thread in 1..=shape.threads {
        if random.among(0..=1) == 0 {
            queue.match_copies(thread);
        }
    }
    queue
}

/// The region is readable, and its shape and the other threads' records are as they were; where
/// nothing was done, so is every byte.
fn look_at(thread: u32, nothing_done: bool, before: &Queue, after: &Queue) {
    assert_eq!(plain::check(&after.bytes), Ok(()));
    assert_eq!(after.shape(), before.shape());
    assert!(!nothing_done || before == after, "bytes changed by thread {thread}");
    for other in (1..=before.shape().threads).filter(|&other| other != thread) {
        assert!(before.record(other) == after.record(other), "{thread} changed {other}");
    }
}

/// What a turn can answer at each place: the codes 0 moved, 1 idle, 2 inserted, 3 took, 4 empty,
/// 6 withdrawn, and the refusals 7 and 11.
const ANSWERS: [(u32, &[u32]); 20] = [
    (IDLE, &[1]),
    (I1, &[0, 6, 7]),
    (I2, &[0, 6, 7]),
    (I3, &[0, 6, 7]),
    (I4, &[0, 6, 7]),
    (I5, &[0, 6, 7]),
    (I6, &[0, 2, 6, 7, 11]),
    (I7, &[0, 6, 7]),
    (I8, &[0, 2, 6, 7, 11]),
    (E1, &[0, 4, 6]),
    (E2, &[0, 6, 7, 11]),
    (M1, &[0, 7]),
    (M2, &[0, 3, 7]),
    (M3, &[0, 7]),
    (M4, &[0, 7]),
    (M5, &[0, 7, 11]),
    (M6, &[0, 3, 7, 11]),
    (P17, &[0, 4, 6]),
    (P18, &[0, 6, 7, 11]),
    (P19, &[3, 7]),
];

#[test]
fn is_readable_after_any_turn() {
    let random = &mut Random::new(50);
    let mut answered = BTreeSet::new();
    for _ in 0..60_000 {
        let mut queue = any_region(random);
        let threads = queue.shape().threads;
        let turns: Vec<(u32, u32)> = (0..6)
            .map(|_| (random.among(1..=threads), random.among_or_extreme(0..=u32::MAX)))
            .collect();

        let mut by_turns = queue.clone();
        let mut answers = vec![];
        for &(thread, choice) in &turns {
            let before = by_turns.clone();
            let answer = by_turns.turn(thread, choice);
            let nothing_done = matches!(answer, Answer::Idle | Answer::Refused(_));
            look_at(thread, nothing_done, &before, &by_turns);
            let number = match answer {
                Answer::Refused(refusal) => refusal.number(),
                _ => answer.words()[0],
            };
            answered.insert((before.place(thread), number));
            answers.push(answer);
        }
        let ran = run_turns(random, &mut queue, &turns, u32::MAX);
        assert_eq!(ran.answers, answers);
        assert!(queue == by_turns);
    }
    let row = |&(place, answers): &(u32, &'static [u32])| answers.iter().map(move |&a| (place, a));
    assert_eq!(answered, ANSWERS.iter().flat_map(row).collect());
}

#[test]
fn is_readable_after_any_beginning_or_permit() {
    let random = &mut Random::new(51);
    for _ in 0..60_000 {
        let mut queue = any_region(random);
        let thread = random.among_or_extreme(0..=queue.shape().threads + 1);
        let (key, tag) =
            (random.among_or_extreme(0..=u32::MAX), random.among_or_extreme(0..=65_536));
        let before = queue.clone();
        let number = match random.among(0..=3) {
            0 => both::put(random, &mut queue.bytes, thread, key, tag),
            1 => both::take(random, &mut queue.bytes, thread),
            2 => both::list(random, &mut queue.bytes, thread),
            _ => {
                let permission = random.among_or_extreme(0..=4);
                both::permit(random, &mut queue.bytes, thread, permission)
            }
        };
        look_at(thread, number != 0, &before, &queue);
    }
}
