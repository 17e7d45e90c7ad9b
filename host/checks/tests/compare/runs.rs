//! A run: its refusals in order, the limit, the counts and the answers' bytes.

use checks::fields::PLACE;
use checks::queue::{Queue, SMALL};
use checks::random::Random;
use mound::{Answer, Refusal, Served};

use crate::both::{self, Ran};

/// A schedule's bytes.
pub fn schedule(turns: &[(u32, u32)]) -> Vec<u8> {
    let words = turns.iter().flat_map(|&(thread, choice)| [thread, choice]);
    words.flat_map(u32::to_le_bytes).collect()
}

/// A run of these turns with just the room for their answers.
pub fn run_turns(random: &mut Random, queue: &mut Queue, turns: &[(u32, u32)], limit: u32) -> Ran {
    both::run(random, &mut queue.bytes, &schedule(turns), limit, 12 * turns.len())
}

/// A queue with an item, in which thread 1 has begun a take and thread 2 a put.
fn busy() -> Queue {
    let mut queue = Queue::open_to_all(SMALL).holding(&[(5, 6)]);
    assert_eq!([queue.take(1), queue.put(2, 3, 0)], [Ok(()); 2]);
    queue
}

fn run(queue: &mut Queue, turns: &[(u32, u32)], limit: u32) -> Ran {
    run_turns(&mut Random::new(110), queue, turns, limit)
}

/// The result of a run of a schedule of this length, with this room for answers.
fn run_of(queue: &Queue, length: usize, room: usize) -> Result<Served, Refusal> {
    let random = &mut Random::new(111);
    both::run(random, &mut queue.clone().bytes, &vec![1; length], u32::MAX, room).result
}

#[test]
fn turns_are_whole_and_at_most_4096() {
    let queue = busy();
    for length in [32_761, 32_767, 32_769, 32_775, 32_776, 32_784, 40_001, 65_536, 524_288] {
        assert_eq!(run_of(&queue, length, 2 * length), Err(Refusal::Schedule), "{length} bytes");
    }
    let most = Served { turns: 4096, accesses: 0 };
    assert_eq!(run_of(&queue, 32_768, 49_152), Ok(most));
    assert_eq!(run_of(&queue, 32_768, 49_151), Err(Refusal::AnswerLength));

    let idle = &mut Queue::open_to_all(SMALL);
    let ran = run(idle, &[(1, 0); 4096], 1);
    assert_eq!(ran, Ran { result: Ok(most), answers: vec![Answer::Idle; 4096] });
}

/// Every length of up to six turns with every room and with limits from 0 on.
#[test]
fn small_lengths_rooms_and_limits() {
    use Answer::{Inserted, Moved, Refused};
    let random = &mut Random::new(112);
    let turns = [(1, 0), (2, 0), (2, 0), (3, 0), (2, 0), (2, 0)];
    let answers = [Moved, Moved, Moved, Refused(Refusal::Thread), Moved, Inserted];
    let queue = busy();
    for length in 0..=48 {
        for room in 0..=75 {
            for limit in [0, 1, 2, 3, 4, 5, 6, u32::MAX] {
                let schedule = &schedule(&turns)[..length];
                let ran = both::run(random, &mut queue.clone().bytes, schedule, limit, room);
                let due = if length % 8 != 0 {
                    Err(Refusal::Schedule)
                } else if room < 12 * (length / 8) {
                    Err(Refusal::AnswerLength)
                } else {
                    Ok(served_by(&answers[..length / 8], limit))
                };
                assert_eq!(ran.result, due, "{length} bytes, room {room}, limit {limit}");
                let served = due.map_or(0, |served| served.turns as usize);
                assert_eq!(ran.answers, answers[..served]);
            }
        }
    }
}

/// What a run serves of turns that would be answered so.
fn served_by(answers: &[Answer], limit: u32) -> Served {
    let mut served = Served::default();
    for answer in answers {
        if served.accesses == limit {
            break;
        }
        served.turns += 1;
        served.accesses += u32::from(answer.is_access());
    }
    served
}

#[test]
fn the_region_comes_before_the_schedule_and_that_before_the_answers() {
    let mut unreadable = busy();
    unreadable.set_field(2, PLACE, 20);
    let cut_short = Queue { bytes: busy().bytes[..380].to_vec() };
    for queue in [unreadable, cut_short, Queue { bytes: vec![] }] {
        for (length, room) in [(0, 0), (8, 12), (8, 0), (7, 12), (7, 0), (32_776, 0)] {
            assert_eq!(run_of(&queue, length, room), Err(Refusal::Unreadable));
        }
    }
    for length in [7, 32_776] {
        assert_eq!(run_of(&busy(), length, 0), Err(Refusal::Schedule));
    }
    assert_eq!(run_of(&busy(), 8, 0), Err(Refusal::AnswerLength));
    assert_eq!(run_of(&busy(), 0, 0), Ok(Served::default()));
}

/// Idle and refused turns are answered and served, but are no accesses.
#[test]
fn each_kind_of_answer() {
    use Answer::{Empty, Idle, Inserted, Moved, Took};
    let mut queue = Queue::open_to_all(SMALL).holding(&[(5, 6)]);
    assert_eq!(queue.take(1), Ok(()));
    let turns = [(2, 0), (1, 0), (1, 0), (3, 0), (1, 0), (1, 0), (0, 7), (1, 0), (1, 0)];
    let no_thread = Answer::Refused(Refusal::Thread);
    let took = Took { key: 5, tag: 6 };
    let ran = run(&mut queue, &turns, u32::MAX);
    assert_eq!(ran.result, Ok(Served { turns: 9, accesses: 5 }));
    assert_eq!(ran.answers, [Idle, Moved, Moved, no_thread, Moved, Moved, no_thread, took, Idle]);

    assert_eq!([queue.take(2), queue.put(1, 7, 8)], [Ok(()); 2]);
    let ran = run(&mut queue, &[(2, 0), (1, 0), (1, 0), (1, 0), (1, 0)], 5);
    assert_eq!(ran.result, Ok(Served { turns: 5, accesses: 5 }));
    assert_eq!(ran.answers, [Empty, Moved, Moved, Moved, Inserted]);
}

/// The run ends as soon as the limit is reached, so that idle turns are not served after it.
#[test]
fn the_limit_counts_accesses() {
    let turns = [(1, 0), (3, 0), (1, 0), (2, 0), (3, 0)];
    for (limit, served) in [(0, 0), (1, 1), (2, 3), (3, 4), (4, 5), (5, 5), (u32::MAX, 5)] {
        let ran = run(&mut busy(), &turns, limit);
        assert_eq!(ran.result, Ok(Served { turns: served, accesses: limit.min(3) }));
    }
    for (limit, served) in [(0, 0), (1, 2)] {
        let ran = run(&mut Queue::open_to_all(SMALL), &[(1, 0), (2, 0)], limit);
        assert_eq!(ran.result, Ok(Served { turns: served, accesses: 0 }));
    }
}

/// So are a list's hand-outs: two behind five that moved.
#[test]
fn a_hand_out_is_an_access() {
    let mut queue = Queue::open_to_all(SMALL).holding(&[(5, 9), (5, 2)]);
    assert_eq!(queue.list(1), Ok(()));
    for limit in [0, 4, 5, 6, 7, 8] {
        let ran = run(&mut queue.clone(), &[(1, 0); 8], limit);
        let turns = if limit == 8 { 8 } else { limit };
        assert_eq!(ran.result, Ok(Served { turns, accesses: limit.min(7) }));
    }
    let tooks = [2, 9].map(|tag| Answer::Took { key: 5, tag });
    assert_eq!(run(&mut queue, &[(1, 0); 8], u32::MAX).answers[5..7], tooks);
}
